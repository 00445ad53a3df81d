#!/usr/bin/env bash
# How the time of a walk grows with its members, and that of checking the chain that it is, as a table: for each number of activations, each
# of which waits for the next one, the members of the walk, whether they are told to be a chain, the milliseconds of the quickest of
# five walks and of the quickest of five checks, and how many times those of half the number. The program for it is proved and built
# in a copy of the crates below.
set -eu
top=$(cd "$(dirname "${BASH_SOURCE[0]}")/.." && pwd)
work=$(mktemp -d)
trap 'rm -rf "$work"' EXIT
mkdir "$work/crates"
below='os_io flow_core_laws flow_core stream_match_layouts lawful_layouts collector wait_certs_laws wait_certs'
for crate in $below; do
    cp -r "$top/crates/$crate" "$work/crates"
    grep -E "^$crate:" "$top/crates.txt" >>"$work/crates.txt"
done
echo 'chains: lawful_layouts wait_certs stream_match_layouts flow_core_laws os_io' >>"$work/crates.txt"

chains=$work/crates/chains
mkdir -p "$chains/src"
cp "$top/bench/chains.program" "$chains/src/main.rt"
(cd "$chains" && rt run -- 1) >"$work/log" 2>&1 || { cat "$work/log" >&2; exit 1; }

printf '%8s %8s %6s %10s %6s %10s %6s\n' number members chain walk ratio check ratio
walk_before=
check_before=
for number in 4096 8192 16384 32768 65536; do
    "$chains/out/chains" "$number" >"$work/told"
    read -r members chain _ <"$work/told"
    walk=$(sort -n -k3 "$work/told" | awk 'NR == 1 { print $3 }')
    check=$(sort -n -k4 "$work/told" | awk 'NR == 1 { print $4 }')
    awk -v number="$number" -v members="$members" -v chain="$chain" -v walk="$walk" -v check="$check" \
        -v walk_before="${walk_before:-0}" -v check_before="${check_before:-0}" '
        function times(a, b) { return a > 0 ? sprintf("%.2f", b / a) : "-" }
        BEGIN { printf "%8s %8s %6s %10.3f %6s %10.3f %6s\n", number, members, chain, walk / 1000, times(walk_before, walk), check / 1000, times(check_before, check) }'
    walk_before=$walk
    check_before=$check
done
