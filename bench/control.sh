#!/usr/bin/env bash
# What an activation costs where `main` creates it, as a table: for each number of activations the milliseconds of the
# quickest of nine times, and the microseconds of one. Each is made by a turn of a loop, some fifteen steps, and has a
# captured value and two claims. The program for it is proved and built in a copy of the crates below it.
set -eu
top=$(cd "$(dirname "${BASH_SOURCE[0]}")/.." && pwd)
work=$(mktemp -d)
trap 'rm -rf "$work"' EXIT
mkdir "$work/crates"
for crate in os_io flow_core_laws c_int os_lexer os_ast os_code task_vm stream_match_layouts control_run; do
    cp -r "$top/crates/$crate" "$work/crates"
    grep -E "^$crate:" "$top/crates.txt" >>"$work/crates.txt"
done
echo 'control: control_run task_vm os_code flow_core_laws c_int os_io' >>"$work/crates.txt"

control=$work/crates/control
tests=$top/crates/machine_tests
mkdir -p "$control/src" "$control/proofs"
cp "$top/bench/control.program" "$control/src/main.rt"
cp "$tests/src/written.rt" "$tests/src/main_runs.rt" "$control/src"
cp -r "$tests/specs" "$control"
cp -r "$tests/proofs/Lib.antt" "$tests/proofs/Fitting.antt" "$tests/proofs/written" "$control/proofs"
find "$control" \( -name '*.antt' -o -name '*.rt' \) \
    -exec sed -i 's/machine_tests\.specs/control.specs/g; s/machine_tests\.proofs/control.proofs/g' {} +
(cd "$control" && rt run -- 1) >"$work/log" 2>&1 || { cat "$work/log" >&2; exit 1; }

printf '%10s %10s %13s\n' number ms microseconds
for number in 4096 16384 65536; do
    "$control/out/control" "$number" | sort -n -k2 | head -n 1 |
        awk '{ printf "%10d %10.3f %13.3f\n", $1, $2 / 1000, $2 / $1 }'
done
