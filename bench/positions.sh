#!/usr/bin/env bash
# How the time of laying out and planning activations grows with their number, as a table: for each kind and each
# number of activations the cells and pieces of the plan, the milliseconds of the quickest of five times, the test of
# the conditions included, and how many times those of half the number. The program for it is proved and built in a
# copy of the crates below.
set -eu
top=$(cd "$(dirname "${BASH_SOURCE[0]}")/.." && pwd)
work=$(mktemp -d)
trap 'rm -rf "$work"' EXIT
mkdir "$work/crates"
for crate in os_io flow_core_laws flow_core flow_core_epochs stream_match_layouts stream_match lawful_layouts; do cp -r "$top/crates/$crate" "$work/crates"; done
grep -E '^(os_io|flow_core_laws|flow_core|flow_core_epochs|stream_match_layouts|stream_match|lawful_layouts):' "$top/crates.txt" >"$work/crates.txt"
echo 'positions: lawful_layouts stream_match stream_match_layouts flow_core_laws os_io' >>"$work/crates.txt"

positions=$work/crates/positions
mkdir -p "$positions/src"
cp "$top/bench/positions.program" "$positions/src/main.rt"
(cd "$positions" && rt run -- ones 1) >"$work/log" 2>&1 || { cat "$work/log" >&2; exit 1; }

printf '%-10s %8s %8s %8s %10s %6s\n' kind number cells pieces ms ratio
for kind in ones outputs windows overlaps streams writers reader starved; do
    before=
    for number in 4096 8192 16384 32768 65536; do
        read -r cells pieces now < <("$positions/out/positions" "$kind" "$number" | sort -n -k3 | head -n 1)
        ratio=$(awk -v a="${before:-0}" -v b="$now" 'BEGIN { if (a > 0) printf "%.2f", b / a; else printf "-" }')
        printf '%-10s %8s %8s %8s %10s %6s\n' "$kind" "$number" "$cells" "$pieces" \
            "$(awk -v t="$now" 'BEGIN { printf "%.3f", t / 1000 }')" "$ratio"
        before=$now
    done
done
