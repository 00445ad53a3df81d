#!/usr/bin/env bash
# What an activation of a run costs by the number of workers, as two tables. For each run the microseconds an activation, the
# least of TIMES runs, five where no number is given: on one thread by itself (`alone`), round by round (`r1`, `r2`, `r4`) and
# over one table (`t1`, `t2`, `t4`) by 1, 2 and 4 workers; and the machine instructions an activation over one table (`i1`, `i2`,
# `i4`), the difference of two runs and one, where valgrind is there. In the second table the numbers of workers are 1, 4 and 64.
#
# An activation reads as many elements as it writes. Its body copies one of them to all of its outputs, and makes a number of turns
# of a loop, some 2,000 to 4,000 of them a microsecond:
#   lift       65,536 that read 4 bytes of the input each
#   body-N     the same with one byte and N turns
#   chain      65,536, each reads what the one before wrote
#   two        two such chains side by side
#   fan        65,535 that read what the first one wrote, whose body alone is long: 1,000,000 turns. One worker opens them all, so
#              that what others run of them is stolen from it, or found by a look
#   tree       32,768 that read the input, and 32,767 that each read what two before wrote
#   pairs      300 blocks of 4,096 bytes: each second one reads what the one before wrote
#   blocks     300 blocks of 4,096 bytes: each reads what the one before wrote
#   long       300 rounds of 4 activations with 100,000 turns each
#   rounds     60 rounds of 500 activations
#
# With the word `small` there are 64 times fewer activations and turns, to try the script. The program is proved and built in a
# copy of the crates below it; its bodies are those of runtime_tests.
#
#     bench/rounds.sh [small] [TIMES]
set -eu
top=$(cd "$(dirname "${BASH_SOURCE[0]}")/.." && pwd)
fewer=1
if [ "${1:-}" = small ]; then
    fewer=64
    shift
fi
times=${1:-5}
work=$(mktemp -d)
trap 'rm -rf "$work"' EXIT
mkdir "$work/crates"
for crate in os_io flow_core_laws flow_core_concurrent flow_core flow_core_epochs stream_match_layouts stream_match frame_table \
    steal_pool lawful_layouts task_workers_round task_workers_worker task_workers_crew task_workers; do
    cp -r "$top/crates/$crate" "$work/crates"
    grep -E "^$crate:" "$top/crates.txt" >>"$work/crates.txt"
done
echo 'rounds: lawful_layouts task_workers stream_match stream_match_layouts flow_core flow_core_laws os_io' >>"$work/crates.txt"
cp "$top/HANDLES" "$work"

rounds=$work/crates/rounds
mkdir -p "$rounds/src"
cp "$top/bench/rounds.program" "$rounds/src/main.rt"
(cd "$rounds" && rt run -- lag 4 1 1 0 alone 1 1) >"$work/log" 2>&1 || { cat "$work/log" >&2; exit 1; }
program=$rounds/out/rounds
valgrind=$(command -v valgrind || true)
[ -n "$valgrind" ] || echo "valgrind isn't here: machine instructions aren't measured" >&2

# micros WORD..: the microseconds an activation of the quickest run, or a dash where there is none.
micros() {
    "$program" "$@" "$times" | awk '
        NR == 1 || $2 < least { least = $2; count = $1 }
        END { if (NR && count) printf " %8.3f", least / count / 1000; else printf " %8s", "-" }'
}

# collected WORD..: the machine instructions of the program.
collected() {
    valgrind --tool=callgrind --callgrind-out-file=/dev/null "$program" "$@" 2>&1 >/dev/null | awk '/Collected/ { print $NF }'
}

# instructions COUNT WORD..: the machine instructions an activation of one run.
instructions() {
    if [ -z "$valgrind" ]; then
        printf ' %8s' -
        return
    fi
    awk -v two="$(collected "${@:2}" 2)" -v one="$(collected "${@:2}" 1)" -v count="$1" 'BEGIN { printf " %8.0f", (two - one) / count }'
}

# row NAME WORKERS WORKERS WORKERS SHAPE COUNT SIZE LAG TURNS: a line of a table.
row() {
    local name=$1 numbers=("$2" "$3" "$4") what=("${@:5}") workers
    printf '%-12s' "$name"
    micros "${what[@]}" alone 1
    for workers in "${numbers[@]}"; do micros "${what[@]}" rounds "$workers"; done
    for workers in "${numbers[@]}"; do micros "${what[@]}" atonce "$workers"; done
    for workers in "${numbers[@]}"; do instructions "$6" "${what[@]}" atonce "$workers"; done
    printf '\n'
}

# few COUNT: COUNT, or fewer with the word `small`.
few() {
    echo $((($1 + fewer - 1) / fewer))
}

many=$(few 65536)
printf '%-12s %8s %8s %8s %8s %8s %8s %8s %8s %8s %8s\n' run alone r1 r2 r4 t1 t2 t4 i1 i2 i4
row lift 1 2 4 lag "$many" 4 "$many" 0
for turns in 100 1000; do row "body-$turns" 1 2 4 lag "$many" 1 "$many" "$turns"; done
for turns in 10000 100000; do row "body-$turns" 1 2 4 lag "$(few 4096)" 1 "$(few 4096)" "$turns"; done
row chain 1 2 4 lag "$many" 1 1 0
row two 1 2 4 lag "$many" 1 2 0
row fan 1 2 4 fan "$many" 1 0 "$(few 1000000)"
row tree 1 2 4 tree "$((many - 1))" 1 0 0
row pairs 1 2 4 pairs "$(few 300)" 4096 0 0
row blocks 1 2 4 lag "$(few 300)" 4096 1 0
row long 1 2 4 lag "$(few 1200)" 1 4 "$(few 100000)"
printf '\n%-12s %8s %8s %8s %8s %8s %8s %8s %8s %8s %8s\n' run alone r1 r4 r64 t1 t4 t64 i1 i4 i64
row rounds 1 4 64 lag "$(few 30000)" 1 500 0
