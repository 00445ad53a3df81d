#!/usr/bin/env bash
# Cuts a file into parts: cut.sh INPUT BLOCK OVERLAP FOLDER. Each part has BLOCK bytes, fewer only the last, and but for the first the
# OVERLAP bytes that stand before them. The parts are FOLDER/part.000000 and so on, in the order of the input.
# A run has at most 65,536 activations, and windows over at most 4,194,304 elements: a program that takes four bytes an activation, as lift.c,
# takes parts of at most 262,144 bytes, and one that takes a byte, as smooth.c, parts of at most 65,536.
set -eu
[ $# = 4 ] || { echo "cut.sh INPUT BLOCK OVERLAP FOLDER" >&2; exit 2; }
input=$1 block=$2 overlap=$3 folder=$4
[ "$block" -ge 1 ] && [ "$overlap" -ge 0 ] || { echo "cut.sh: a block has a byte at least" >&2; exit 2; }
if [ $((block + overlap)) -gt 4194304 ]; then
    echo "cut.sh: a part of $((block + overlap)) bytes is longer than an input may be, 4,194,304 bytes" >&2
    exit 2
fi
mkdir -p "$folder"
rm -f "$folder"/part.* "$folder"/jobs.* "$folder"/answers.*
size=$(wc -c <"$input")
part=0
begin=0
while [ "$begin" -lt "$size" ] || [ "$part" = 0 ]; do
    from=$((begin > overlap ? begin - overlap : 0))
    tail -c "+$((from + 1))" "$input" | head -c "$((begin + block - from))" >"$folder/part.$(printf '%06d' "$part")"
    begin=$((begin + block))
    part=$((part + 1))
done
echo "$part parts; a program that takes $(((block + 65535) / 65536)) bytes an activation or more can take them"
