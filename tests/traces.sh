#!/usr/bin/env bash
# Traces `examples/smooth.c` over 4,000 bytes many times, by several numbers of workers, and runs it by each trace. Each trace has to be
# whole, with the same bytes and the same report. The last line is `N passed, M failed`.
#
#     tests/traces.sh [RUNS]       1,000 runs, where no number is given
set -u
top=$(cd "$(dirname "${BASH_SOURCE[0]}")/.." && pwd)
. "$top/tests/programs.bash"
program=$osrun_program
runs=${1:-1000}
work=$(mktemp -d)
trap 'rm -rf "$work"' EXIT
cd "$work" || exit 2
cp "$top/examples/smooth.c" .
# The byte at place k is k mod 251.
awk 'BEGIN { for (k = 0; k < 4000; k++) printf "\\%03o\n", k % 251 }' | tr -d '\n' >codes
printf "$(cat codes)" >input
"$program" run smooth.c input --workers 1 >wanted 2>told || exit 2
passed=0
failed=0
for number in $(seq 1 "$runs"); do
    case $((number % 4)) in 0) workers=2 ;; 1) workers=7 ;; 2) workers=64 ;; 3) workers=1 ;; esac
    "$program" trace smooth.c input --workers "$workers" >trace 2>report
    traced=$?
    "$program" replay smooth.c input trace >out 2>replayed
    status=$?
    if [ "$traced" = 0 ] && [ "$status" = 0 ] && [ "$(wc -l <trace)" = "$workers" ] && cmp -s report told && cmp -s out wanted && cmp -s replayed told; then
        passed=$((passed + 1))
    else
        failed=$((failed + 1))
        echo "run $number by $workers workers: status $traced, replayed with status $status"
    fi
done
echo "$passed passed, $failed failed"
[ "$failed" = 0 ]
