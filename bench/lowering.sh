#!/usr/bin/env bash
# What it costs to compile a text beside reading it, as a table: for each kind of text and each size its tokens and
# instructions, the milliseconds of the quickest of five times for reading (tokens, tree and checks) and for compiling, and
# how many times those of half the size the compiling took. With the word `kernels` it prints the code of the six kernels
# instead. The program for it is proved and built in a copy of the crates below it.
set -eu
top=$(cd "$(dirname "${BASH_SOURCE[0]}")/.." && pwd)
work=$(mktemp -d)
trap 'rm -rf "$work"' EXIT
mkdir "$work/crates"
for crate in os_io c_int flow_core_laws os_lexer os_ast os_parser_grammar os_parser_completions os_parser_places os_parser_expressions \
    os_parser_parts os_parser window_check_laws \
    window_check_names window_check front_end cddf_meaning os_code lowering_relation \
    lowering_draft lowering_expressions lowering kernels; do
    cp -r "$top/crates/$crate" "$work/crates"
    grep -E "^$crate:" "$top/crates.txt" >>"$work/crates.txt"
done
echo 'compiling: lowering kernels front_end os_code os_lexer os_io' >>"$work/crates.txt"

compiling=$work/crates/compiling
mkdir -p "$compiling/src"
cp "$top/bench/lowering.program" "$compiling/src/main.rt"
(cd "$compiling" && rt run -- kernels) >"$work/log" 2>&1 || { cat "$work/log" >&2; exit 1; }

if [ "${1:-}" = kernels ]; then
    "$compiling/out/compiling" kernels
    exit
fi

printf '%-10s %8s %8s %12s %10s %13s %6s\n' kind bytes tokens instructions 'reading ms' 'compiling ms' ratio
for kind in chain statements loops functions tasks; do
    before=
    for size in 32768 65536 131072 262144; do
        read -r bytes tokens instructions reading now < <("$compiling/out/compiling" "$kind" "$size" | sort -n -k5 | head -n 1)
        ratio=$(awk -v a="${before:-0}" -v b="$now" 'BEGIN { if (a > 0) printf "%.2f", b / a; else printf "-" }')
        printf '%-10s %8s %8s %12s %10s %13s %6s\n' "$kind" "$bytes" "$tokens" "$instructions" \
            "$(awk -v t="$reading" 'BEGIN { printf "%.3f", t / 1000 }')" \
            "$(awk -v t="$now" 'BEGIN { printf "%.3f", t / 1000 }')" "$ratio"
        before=$now
    done
done
