#!/usr/bin/env bash
# How the time of reading tokens grows with the text, as a table: for each kind of text and each size the
# milliseconds of a run, and how many times those of half the size. Each text is refused behind its tokens.
set -eu
top=$(cd "$(dirname "${BASH_SOURCE[0]}")/.." && pwd)
work=$(mktemp -d)
trap 'rm -rf "$work"' EXIT
"$top/osrun" >/dev/null 2>&1 || true
osrun=$top/crates/osrun/out/osrun
runs=20

# text KIND BYTES: a text of about BYTES bytes.
text() {
    case $1 in
    letters) yes 'a' | tr '\n' ' ' | head -c "$2" ;;
    comment) printf '/*' && yes x | tr -d '\n' | head -c $(($2 - 4)) && printf '*/' ;;
    includes) yes '#include <stdio.h>' | head -c $(($2 / 19 * 19)) ;;
    names) seq 1000000 | sed 's/^/a_rather_long_name_/' | tr '\n' ' ' | head -c "$2" ;;
    marks) yes '<<=' | tr -d '\n' | head -c $(($2 / 3 * 3)) ;;
    esac
}

milliseconds() {
    local start end
    start=$(date +%s%N)
    for _ in $(seq "$runs"); do
        "$osrun" run "$1" /dev/null >/dev/null 2>&1 || true
    done
    end=$(date +%s%N)
    awk -v t=$((end - start)) -v n="$runs" 'BEGIN { printf "%.3f", t / n / 1000000 }'
}

printf '%-10s %8s %10s %6s\n' text bytes ms ratio
for kind in letters comment includes names marks; do
    before=
    for size in 16384 32768 65536 131072 262144; do
        text "$kind" "$size" >"$work/text.c" 2>/dev/null || true
        now=$(milliseconds "$work/text.c")
        ratio=$(awk -v a="${before:-0}" -v b="$now" 'BEGIN { if (a > 0) printf "%.2f", b / a; else printf "-" }')
        printf '%-10s %8s %10s %6s\n' "$kind" "$size" "$now" "$ratio"
        before=$now
    done
done
