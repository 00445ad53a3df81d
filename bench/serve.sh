#!/usr/bin/env bash
# What many small jobs take, as a table: a number of jobs of examples/first.c over its four bytes, in one call of `serve`, and as a process
# each; the milliseconds in all and the microseconds a job, of the quickest of five runs, and the peak memory of the server in
# megabytes, for a thousand jobs and for ten times as many. The words name other numbers of jobs. Each answer is compared with what it
# should be. ./build has to have built the program.
set -eu
top=$(cd "$(dirname "${BASH_SOURCE[0]}")/.." && pwd)
osrun=$top/crates/osrun/out/osrun
[ -x "$osrun" ] || { echo "build the program first: ./build" >&2; exit 1; }
work=$(mktemp -d)
trap 'rm -rf "$work"' EXIT
cp "$top/examples/first.c" "$top/examples/in.bin" "$work"
cd "$work"

now() { date +%s%N; }

# quickest COMMAND..: the nanoseconds of the quickest of five runs.
quickest() {
    local best='' start end
    for _ in 1 2 3 4 5; do
        start=$(now)
        "$@"
        end=$(now)
        if [ -z "$best" ] || [ $((end - start)) -lt "$best" ]; then best=$((end - start)); fi
    done
    echo "$best"
}

# as_processes COUNT: a process for each job.
as_processes() {
    local job
    for ((job = 0; job < $1; job++)); do
        "$osrun" run first.c in.bin >>out 2>>report
    done
}

serve() { "$osrun" serve jobs >answers; }

# The peak of the server's memory, in megabytes.
peak() {
    local most=0 now process
    "$osrun" serve jobs >answers &
    process=$!
    while now=$(awk '/^VmHWM:/ { print $2 }' "/proc/$process/status" 2>/dev/null) && [ -n "$now" ]; do most=$now; done
    wait "$process"
    awk -v kilobytes="$most" 'BEGIN { printf "%.1f", kilobytes / 1024 }'
}

[ $# -gt 0 ] || set -- 1000 10000
printf '%8s %12s %12s %14s %14s %8s %12s\n' jobs 'served, ms' 'us a job' 'processes, ms' 'us a process' times 'peak, MB'
for count in "$@"; do
    for ((job = 0; job < count; job++)); do echo 'run first.c in.bin'; done >jobs
    for ((job = 0; job < count; job++)); do
        printf 'job %d status 0 out 4 report 27\n\004\003\002\001control done\noutput 4 of 4\n' "$job"
    done >wanted
    served=$(quickest serve)
    cmp answers wanted || exit 1
    apart=$(quickest as_processes "$count")
    awk -v count="$count" -v served="$served" -v apart="$apart" -v peak="$(peak)" 'BEGIN {
        printf "%8d %12.1f %12.1f %14.1f %14.1f %8.1f %12s\n", count, served / 1e6, served / 1e3 / count, apart / 1e6, apart / 1e3 / count,
            apart / served, peak }'
    rm -f out report
done
