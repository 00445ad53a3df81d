#!/usr/bin/env bash
# How long 10,000 small cases take by osvectors, beside the same runs by osrun serve: the median of five of each, in milliseconds.
#
#     bench/vectors.sh [COUNT]
set -eu
top=$(cd "$(dirname "${BASH_SOURCE[0]}")/.." && pwd)
. "$top/tests/programs.bash"
count=${1:-10000}
work=$(mktemp -d)
trap 'rm -rf "$work"' EXIT
cd "$work"
cp "$top/examples/first.c" "$top/examples/in.bin" .
"$osrun_program" run first.c in.bin >right 2>/dev/null
yes "first.c in.bin right" | head -n "$count" >cases
yes "run first.c in.bin" | head -n "$count" >jobs

median() {
    local from to
    for _ in 1 2 3 4 5; do
        from=$(date +%s%N)
        "$@" >/dev/null 2>&1
        to=$(date +%s%N)
        echo $(((to - from) / 1000000))
    done | sort -n | sed -n 3p
}

echo "$count jobs by osrun serve: $(median "$osrun_program" serve jobs) ms"
for jobs in 1 2 4; do
    echo "$count cases by osvectors --jobs $jobs: $(median "$osvectors_program" cases --jobs "$jobs") ms"
done
