#!/usr/bin/env bash
# Draws graphs of four examples by Graphviz, one of them with a row for each worker of a trace: that it accepts the texts of osview graph
# is all that is compared. With a folder as its word it leaves the pictures there, as docs/pictures has them.
set -eu
top=$(cd "$(dirname "${BASH_SOURCE[0]}")/.." && pwd)
bin=${OSRUN_BIN:-$top}
folder=${1:-}
work=$(mktemp -d)
trap 'rm -rf "$work"' EXIT
head -c 20000 /dev/zero >"$work/zeros"
printf '\002\000\005' >"$work/divide"
printf 'osrun' >"$work/waiting"
printf 'twelve bytes' >"$work/run"
count=0

# picture NAME STATUS WORD..: draws what osview graph writes for these words, where it ends with the status.
picture() {
    local status=0
    "$bin/osview" graph "${@:3}" >"$work/$1.dot" || status=$?
    [ "$status" = "$2" ]
    dot -Tsvg "$work/$1.dot" >"$work/$1.svg"
    grep -q '</svg>' "$work/$1.svg"
    [ -z "$folder" ] || cp "$work/$1.svg" "$folder"
    count=$((count + 1))
}
picture adler 0 "$top/examples/adler.c" "$work/zeros"
picture divide 1 "$top/examples/divide.c" "$work/divide"
picture waiting 1 "$top/examples/waiting.c" "$work/waiting" --activations 0..5

# Who ran the activations of a run by three workers.
"$bin/osrun" trace "$top/examples/pipeline.c" "$work/run" --workers 3 >"$work/trace" 2>"$work/report"
"$bin/osview" graph "$top/examples/pipeline.c" "$work/run" --activations 0..12 >"$work/graph"
"$top/tests/trace_picture.py" "$work/trace" "$work/graph" >"$work/run.dot"
dot -Tsvg "$work/run.dot" >"$work/run.svg"
grep -q '>worker 2<' "$work/run.svg"
[ -z "$folder" ] || cp "$work/run.svg" "$folder"
count=$((count + 1))
echo "$count pictures"
