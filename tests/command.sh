#!/usr/bin/env bash
# Runs the built programs over real files and streams: those of the folder that OSRUN_BIN names, as /usr/bin, or else those of this checkout,
# which ./build proves and builds first. The last line counts what passed and what failed.
set -u
top=$(cd "$(dirname "${BASH_SOURCE[0]}")/.." && pwd)
. "$top/tests/programs.bash"
work=$(mktemp -d)
trap 'rm -rf "$work"' EXIT
passed=0
failed=0

# told: the report of the last run, whose lines are parted by " / ".
told() {
    sed -e ':a' -e '$!{N;ba' -e '}' -e 's|\n| / |g' "$work/report"
}

# check NAME STATUS OUT REPORT: compares the last run with the status, the bytes of the output in hexadecimal,
# and the report.
check() {
    local out report
    out=$(od -An -tx1 -v "$work/out" | tr -d ' \n')
    report=$(told)
    if [ "$status" = "$2" ] && [ "$out" = "$3" ] && [ "$report" = "$4" ]; then
        passed=$((passed + 1))
    else
        failed=$((failed + 1))
        printf '%s: status %s, output %s, report %s\n' "$1" "$status" "$out" "$report"
        printf '%s: wanted %s, %s, %s\n' "$1" "$2" "$3" "$4"
    fi
}

# agree NAME STATUS FILE REPORT: compares the last run with the status, a file for its output, and the report.
agree() {
    if [ "$status" = "$2" ] && cmp -s "$work/out" "$3" && [ "$(told)" = "$4" ]; then
        passed=$((passed + 1))
    else
        failed=$((failed + 1))
        printf '%s: status %s, report %s; wanted %s, %s, and the output %s\n' "$1" "$status" "$(told)" "$2" "$4" "$3"
    fi
}

run() {
    "$osrun" "$@" >"$work/out" 2>"$work/report"
    status=$?
}

# bytes COUNT EXPRESSION: writes COUNT bytes, of which that at place k is an expression of awk. In it x runs through the
# numbers of a generator.
bytes() {
    printf "$(awk "BEGIN { x = 1; for (k = 0; k < $1; k++) { x = x * 16807 % 2147483647; printf \"\\\\%03o\", int($2) } }")"
}

# is_within FILE FILE MOST: whether two files are as long, and no bytes of them differ by more.
is_within() {
    [ "$(wc -c <"$1")" = "$(wc -c <"$2")" ] && cmp -l "$1" "$2" | awk -v most="$3" '
        function value(octal) { return int(octal / 100) * 64 + int(octal % 100 / 10) * 8 + octal % 10 }
        { by = value($2) - value($3); if (by > most || -by > most) apart = 1 }
        END { exit apart }'
}

# comes_back CODEC FILE MOST: codes a file and decodes it, by 1 and by 4 workers, and compares what comes back with it.
comes_back() {
    local workers
    for workers in 1 4; do
        run run "$top/examples/$1.c" "$2" --workers "$workers"
        mv "$work/out" "$work/coded.$workers"
        if [ "$status" = 0 ]; then
            run run "$top/examples/un$1.c" "$work/coded.$workers" --workers "$workers"
        fi
        if [ "$status" = 0 ] && is_within "$2" "$work/out" "$3" && cmp -s "$work/coded.$workers" "$work/coded.1"; then
            passed=$((passed + 1))
        else
            failed=$((failed + 1))
            printf '%s and its inverse over %s by %s workers: status %s, report %s\n' "$1" "$2" "$workers" "$status" "$(told)"
        fi
    done
}

cp "$top/examples/first.c" "$top/examples/in.bin" "$work"
mkdir "$work/folder"
head -c 262145 /dev/zero | tr '\0' ' ' >"$work/long.c"
head -c 4194305 /dev/zero >"$work/long.bin"
head -c 4194304 /dev/zero >"$work/full.bin"
printf '\001\002' >"$work/short.bin"
: >"$work/empty.c"
cd "$work" || exit 1

run run first.c in.bin
check "the first program" 0 04030201 "control done / output 4 of 4"
run run "$top/examples/overlap.c" in.bin
check "windows that overlap" 1 0304 "starved 2 stream 0 position 4 producer none / control done / output 2 of 3"
run run first.c short.bin
check "an input that is too short" 1 "" "starved 0 stream 0 position 2 producer none / control done / output 0 of 4"
run run first.c full.bin
check "the longest input" 0 00000000 "control done / output 4 of 4"
run run empty.c in.bin
check "an empty program" 3 "" "refused 23 line 1"
run run /dev/stdin in.bin <first.c
check "a program from standard input" 0 04030201 "control done / output 4 of 4"
run run first.c /dev/stdin <in.bin
check "an input from standard input" 0 04030201 "control done / output 4 of 4"
run run first.c /dev/stdin <&-
check "an input from a standard input that is closed" 1 "" "starved 0 stream 0 position 0 producer none / control done / output 0 of 4"
sh -c 'ulimit -n 4 && exec "$0" run first.c in.bin' "$osrun_program" >out 2>report
status=$?
check "one descriptor beside the standard streams" 0 04030201 "control done / output 4 of 4"
: >out
"$osrun_program" run first.c in.bin >&- 2>report <&-
status=$?
check "a standard output that is closed" 6 "" ""
"$osrun_program" run first.c in.bin >out 2>&-
status=$?
: >report
check "a standard error that is closed" 6 04030201 ""

# The least stack, and an output that may grow no further, where a script ignores the signal for it.
(ulimit -s 64 && exec "$osrun_program" run first.c in.bin) >out 2>report
status=$?
check "the least stack" 0 04030201 "control done / output 4 of 4"
(ulimit -f 1 && exec "$osrun" run "$top/examples/invert.c" "$top/README.md") >limited 2>report
status=$?
: >out
: >report
[ "$osrun" = "$osrun_program" ] || check "an output that may grow no further" 6 "" ""

# The examples over four bytes.
run run "$top/examples/invert.c" in.bin
check "blocks that are inverted" 0 fefdfcfb "control done / output 4 of 4"
run run "$top/examples/smooth.c" in.bin
check "means of three" 0 0203 "control done / output 2 of 2"
run run "$top/examples/lift.c" in.bin
check "a lifting step" 0 01010301 "control done / output 4 of 4"
run run "$top/examples/unlift.c" in.bin
check "a lifting step that is taken back" 0 00020105 "control done / output 4 of 4"
run run "$top/examples/pipeline.c" in.bin
check "two kinds of tasks with a stream between them" 0 01000300 "control done / output 4 of 4"
run run "$top/examples/broadcast.c" in.bin
check "an array of streams" 0 010000020100030100040201 "control done / output 12 of 12"

# Means of three by any number of workers: the middle byte, but where the bytes begin anew.
bytes 4000 "k % 251" >counting.bin
bytes 3998 "k % 251 == 249 ? 166 : k % 251 == 250 ? 83 : k % 251 + 1" >means.bin
for workers in 1 2 7 64; do
    run run "$top/examples/smooth.c" counting.bin --workers "$workers"
    agree "means by $workers workers" 0 means.bin "control done / output 3998 of 3998"
done

printf '\020\004\200\377' >loud.bin
run run "$top/examples/gain.c" loud.bin
check "a parameter in front of the input" 0 08ffff "control done / output 3 of 3"
printf '\020\200\377' >dark.bin
run run "$top/examples/curve.c" dark.bin
check "a table that all tasks read" 0 0140ff "control done / output 3 of 3"

printf '\002\000\005' >zero.bin
run run "$top/examples/divide.c" zero.bin
check "a byte that traps" 1 32 "trapped 1 code 2 line 8 / control done / output 1 of 3"

run run "$top/examples/invert.c" in.bin --budget 0
check "tasks without a budget" 1 "" "over-budget 0 / control done / output 0 of 4"
run run "$top/examples/invert.c" in.bin --control 0
check "a control program without a budget" 1 "" "control over-budget / output 0 of 0"
printf 'int main(void) {\n    x = 1;\n}\n' >unknown.c
run run unknown.c in.bin
check "a name that nobody declared" 3 "" "refused 10 line 2"

# What the documents show of programs stands in the examples, word for word.
awk '/^```c$/ { n++; on = 1; next } /^```$/ { on = 0 } on { print >("shown." n) }' "$top/README.md" "$top/docs/GUIDE.md"
for shown in shown.*; do
    found=0
    for example in "$top"/examples/*.c "$top"/examples/forms/*.c; do
        [[ $(cat "$example") == *"$(cat "$shown")"* ]] && found=1
    done
    if [ "$found" = 1 ]; then
        passed=$((passed + 1))
    else
        failed=$((failed + 1))
        printf 'a program of the documents stands in no example: %s\n' "$(cat "$shown")"
    fi
done

# The examples stand as texts in two crates, word for word, where the crates are here.
texts=$(cat "$top/crates/kernels/src/texts.rt" "$top/crates/example_texts/src/lib.rt" 2>/dev/null)
for example in "$top"/examples/*.c; do
    [ -d "$top/crates" ] || continue
    if [[ $texts == *'r"'"$(cat "$example")"$'\n";'* ]]; then
        passed=$((passed + 1))
    else
        failed=$((failed + 1))
        printf 'an example that no test has as it is: %s\n' "$example"
    fi
done

# The codecs over a sine, noise, an image, a text, and what is shorter than a block.
bytes 4096 "128 + 100 * sin(k * 6.283185307 / 64)" >sine.bin
bytes 4096 "x / 65536 % 256" >noise.bin
bytes 3072 "(k % 64 * 3 + k / 64 * 5) % 256" >image.bin
bytes 4099 "x / 65536 % 256" >odd.bin
printf '\310\003\377' >three.bin
: >nothing.bin
for codec in wavelet bank delta; do
    for file in sine.bin noise.bin image.bin odd.bin three.bin nothing.bin "$top/README.md"; do
        comes_back "$codec" "$file" 0
    done
done
for file in sine.bin noise.bin image.bin nothing.bin; do
    comes_back lift "$file" 0
done
for file in sine.bin noise.bin image.bin odd.bin three.bin nothing.bin "$top/README.md"; do
    comes_back dct "$file" 6
done
comes_back adpcm sine.bin 4

# Any number of workers gives the same bytes.
for codec in smooth bank wavelet adpcm; do
    run run "$top/examples/$codec.c" odd.bin --workers 1
    mv out alone.bin
    claimed=$(wc -c <alone.bin)
    for workers in 2 7 64; do
        run run "$top/examples/$codec.c" odd.bin --workers "$workers"
        agree "$codec by $workers workers" 0 alone.bin "control done / output $claimed of $claimed"
    done
done

# So does a run of 24,000 activations that workers portion out: three a turn of the loop, of which one reads what the one before it wrote, and one
# that traps and poisons two others.
cat >threes.c <<'END'
int main(void) {
    int s __attribute__((stream)), t __attribute__((stream));
    int i, x, y, z;
    for (i = 0; i < 8000; i++) {
        #pragma omp task input(osin >> z) output(s << x)
        {
            int k;
            x = z + 0 / (i - 6000);
            for (k = 0; k < 20; k++) x = (x * 5 + k) & 255;
        }
        #pragma omp task input(s >> x) output(t << y)
        {
            int k;
            y = x;
            for (k = 0; k < 20; k++) y = (y * 7 + k) & 255;
        }
        #pragma omp task input(t >> y) output(osout << z)
        {
            int k;
            z = y;
            for (k = 0; k < 20; k++) z = (z * 3 + k) & 255;
        }
    }
}
END
bytes 8000 'x / 65536 % 256' >threes.in
run run threes.c threes.in --workers 1
mv out alone.bin
for workers in 2 3 4 8 64; do
    run run threes.c threes.in --workers "$workers"
    agree "threes by $workers workers" 1 alone.bin \
        "trapped 18000 code 2 line 8 / poisoned 18001 by 18000 / poisoned 18002 by 18000 / control done / output 6000 of 8000"
done

# So does one of which an activation waits for what is written 300 activations behind it: those before it are portioned out, and the others run in epochs.
cat >waiting.c <<'END'
int main(void) {
    int s __attribute__((stream));
    int i, x, y, z;
    for (i = 0; i < 15000; i++) {
        if (i == 9000) {
            #pragma omp task input(s >> x) output(osout << z)
            z = x;
        }
        if (i == 9300) {
            #pragma omp task output(s << x)
            x = 77;
        }
        #pragma omp task input(osin >> y) output(osout << z)
        {
            int k;
            z = y;
            for (k = 0; k < 20; k++) z = (z * 3 + k) & 255;
        }
    }
}
END
bytes 15000 'x / 65536 % 256' >waiting.in
run run waiting.c waiting.in --workers 1
mv out alone.bin
for workers in 2 3 4 8 64; do
    run run waiting.c waiting.in --workers "$workers"
    agree "one that waits behind portions, by $workers workers" 0 alone.bin "control done / output 15001 of 15001"
done

# As many activations as a run may have, and a megabyte in blocks of 64.
head -c 65536 /dev/zero >zeros.bin
head -c 65538 /dev/zero >more.bin
run run "$top/examples/pipeline.c" zeros.bin
agree "65,536 activations" 0 zeros.bin "control done / output 65536 of 65536"
run run "$top/examples/pipeline.c" more.bin
agree "a pair too many" 1 zeros.bin "control limit 1 / output 65536 of 65536"
sed 's/B = 4/B = 64/' "$top/examples/invert.c" >invert.c
head -c 1048576 /dev/zero >million.bin
tr '\0' '\377' <million.bin >ones.bin
run run invert.c million.bin
agree "a megabyte in blocks of 64" 0 ones.bin "control done / output 1048576 of 1048576"

# Bytes that are made from a seed and run through a kernel. The lines were found by another program.
# lines NAME LINE..: compares the last run with the status 0, these lines as its output, and an empty report.
lines() {
    printf '%s\n' "${@:2}" >wanted
    agree "$1" 0 wanted ""
}
run gen 1 2
lines "eight bytes that are made" "seed 1 blocks 2" "input 8 sum 1363" "output 8 sum 1172" "status 0"
run gen 0 1
lines "four bytes that are made from 0" "seed 0 blocks 1" "input 4 sum 325" "output 4 sum 607" "status 0"
run gen --workers=64 +7 0001
lines "four bytes that are made from 7" "seed 7 blocks 1" "input 4 sum 448" "output 4 sum 480" "status 0"
run gen 4294967295 3 --workers 1
lines "twelve bytes that are made from the greatest seed" "seed 4294967295 blocks 3" "input 12 sum 1020" "output 12 sum 1183" "status 0"
run gen -- 1 2
lines "the end of the options before the seed" "seed 1 blocks 2" "input 8 sum 1363" "output 8 sum 1172" "status 0"
for workers in 1 2 7 64; do
    run gen 7 64 --workers "$workers"
    lines "64 blocks by $workers workers" "seed 7 blocks 64" "input 256 sum 32578" "output 256 sum 32682" "status 0"
done
printf '\306\176\201\153\113\373\342\373' >made.bin
run run "$top/examples/lift.c" made.bin
check "the bytes of a seed, lifted" 0 a2b876ea23b0ee19 "control done / output 8 of 8"
cp out lifted.bin
run run "$top/examples/unlift.c" lifted.bin
check "and taken back" 0 c67e816b4bfbe2fb "control done / output 8 of 8"
for workers in 1 64; do
    run gen 7 65536 --workers "$workers"
    lines "as many blocks as there may be, by $workers workers" "seed 7 blocks 65536" "input 262144 sum 33428608" \
        "output 262144 sum 33438952" "status 0"
done
run gen 4294967295 65536
lines "the greatest seed" "seed 4294967295 blocks 65536" "input 262144 sum 33388960" "output 262144 sum 33467832" "status 0"
for words in "" "1" "1 0" "1 65537" "4294967296 1" "-1 1" "1 2 3" "1 2 --budget 5" "1 2 --workers 65" "--help"; do
    # shellcheck disable=SC2086
    run gen $words
    check "bytes that can't be made: gen $words" 2 "" usage
done
"$osrun" gen 1 2 >/dev/full 2>report
status=$?
: >out
check "a full standard output for lines" 6 "" ""
"$osrun" gen 1 2 >out 2>/dev/full
status=$?
: >report
lines "a full standard error, of which nothing is asked" "seed 1 blocks 2" "input 8 sum 1363" "output 8 sum 1172" "status 0"

# Programs that are compiled, and their objects run: what comes of an object is what comes of its text.
# numbers NUMBER..: writes each as four bytes, the lowest first.
numbers() {
    local number
    for number in "$@"; do
        printf "$(printf '\\x%02x\\x%02x\\x%02x\\x%02x' $((number & 255)) $((number >> 8 & 255)) $((number >> 16 & 255)) $((number >> 24 & 255)))"
    done
}
: >nothing.bin
for last in 19 25 18; do
    { printf 'OSO1'; numbers 2 0 1 0 1 1 0 0 1 "$last"; } >"main.$last.o"
done
run exec main.19.o nothing.bin
check "an object whose main ends at once" 0 "" "control done / output 0 of 0"
run exec main.25.o nothing.bin
check "an object with an instruction that there isn't" 3 "" "refused 30"
run exec main.18.o nothing.bin
check "an object whose main returns" 3 "" "refused 31"
{ cat main.19.o; printf '\000'; } >longer.o
run exec longer.o nothing.bin
check "an object with a byte behind it" 3 "" "refused 30"
head -c 43 main.19.o >shorter.o
run exec shorter.o nothing.bin
check "an object without its last byte" 3 "" "refused 30"
run exec shorter.o none.bin
check "an object that is refused before its input is read" 3 "" "refused 30"
head -c 4 main.19.o >four.o
run exec four.o nothing.bin
check "the first four bytes of an object" 3 "" "refused 30"
run exec nothing.bin nothing.bin
check "an empty object" 3 "" "refused 30"
truncate -s 67108865 long.o
run exec long.o nothing.bin
check "an object that is too long" 4 "" "too long object"
truncate -s 67108864 zeros.o
run exec zeros.o nothing.bin
check "zeros, as many as an object may have" 3 "" "refused 30"
run exec none.o nothing.bin
check "an object that isn't there" 5 "" "read fault object"
run exec main.19.o none.bin
check "an object without its input" 5 "" "read fault input"
run compile empty.c
check "a text that isn't compiled" 3 "" "refused 23 line 1"
printf 'int' >front.c
run compile front.c
check "the front of a text, which isn't compiled" 3 "" "refused 4 line 1"
run compile none.c
check "a text that isn't there" 5 "" "read fault program"
for words in "" "first.c in.bin" "first.c --workers 4" "--help"; do
    # shellcheck disable=SC2086
    run compile $words
    check "what can't be compiled: compile $words" 2 "" usage
done
for words in "" "main.19.o" "main.19.o in.bin in.bin" "main.19.o in.bin --workers 65"; do
    # shellcheck disable=SC2086
    run exec $words
    check "what can't be run: exec $words" 2 "" usage
done
for text in "$top"/examples/*.c; do
    run run "$text" in.bin
    mv out wanted
    told_of_text=$(told)
    of_text=$status
    run compile "$text"
    mv out text.o
    : >out
    check "the object of $(basename "$text")" 0 "" ""
    for workers in 1 4; do
        run exec text.o in.bin --workers "$workers"
        agree "the object of $(basename "$text"), run by $workers workers" "$of_text" wanted "$told_of_text"
    done
done
run compile "$top/examples/divide.c"
mv out text.o
run exec text.o zero.bin
check "the object of a program of which a byte traps" 1 32 "trapped 1 code 2 line 8 / control done / output 1 of 3"
run compile /dev/stdin <"$top/examples/invert.c"
mv out text.o
run exec text.o in.bin --budget 0
check "tasks of an object without a budget" 1 "" "over-budget 0 / control done / output 0 of 4"
run exec text.o in.bin --control 0
check "the main of an object without a budget" 1 "" "control over-budget / output 0 of 0"
run exec /dev/stdin in.bin <text.o
check "an object from standard input" 0 fefdfcfb "control done / output 4 of 4"
"$osrun" compile first.c >/dev/full 2>report
status=$?
: >out
check "a full standard output for an object" 6 "" ""
run compile first.c
mv out wanted
"$osrun" compile first.c >out 2>/dev/full
status=$?
: >report
agree "a full standard error, of which an object asks nothing" 0 wanted ""

# Why an activation is starved. told_of NAME ACTIVATION STATUS LINE WORD..: compares the line that is told of an activation of
# cycles.c over nothing.bin, or with the words behind the line over what they name.
told_of() {
    local files=(cycles.c nothing.bin)
    [ $# -gt 4 ] && files=("${@:5}")
    run explain "${files[@]}" "$2"
    printf '%s\n' "$4" >wanted
    agree "$1" "$3" wanted ""
}
cat >cycles.c <<'END'
int main(void) {
    int s __attribute__((stream)), t __attribute__((stream));
    int x, y;
    #pragma omp task input(s >> x) output(t << y)
    y = x;
    #pragma omp task input(t >> x) output(s << y)
    y = x;
    #pragma omp task input(s >> x) output(s << y)
    y = x;
}
END
told_of "two that wait for one another" 0 0 "chain 0 1 back 0"
told_of "the other one of them" 1 0 "chain 1 0 back 1"
told_of "one that waits for itself" 2 0 "chain 2 back 2"
told_of "the number of an activation behind a plus" +0002 0 "chain 2 back 2"
told_of "an activation that isn't there" 3 1 "no activation 3"
told_of "the greatest number of an activation" 65535 1 "no activation 65535"
for workers in 1 64; do
    told_of "two that wait for one another, by $workers workers" 0 0 "chain 0 1 back 0" cycles.c nothing.bin --workers "$workers"
done
told_of "an activation that is done" 0 1 "not starved 0" first.c in.bin
told_of "a number past the activations" 5 1 "no activation 5" first.c in.bin
cat >short.c <<'END'
int main(void) {
    int s __attribute__((stream));
    int w[4], x, y;
    #pragma omp task input(osin >> w[4]) output(s << x)
    x = w[3];
    #pragma omp task input(s >> x) output(osout << y)
    y = x;
}
END
told_of "a walk that ends behind the input" 1 0 "chain 1 0 none stream 0 position 2" short.c short.bin
told_of "a chain of the one that reads past the input" 0 0 "chain 0 none stream 0 position 2" short.c short.bin
told_of "one that would be starved over a shorter input" 1 1 "not starved 1" short.c in.bin
cat >round.c <<'END'
int main(void) {
    int s __attribute__((stream)), t __attribute__((stream)), u __attribute__((stream));
    int x, y;
    #pragma omp task input(s >> x) output(t << y)
    y = x;
    #pragma omp task input(t >> x) output(u << y)
    y = x;
    #pragma omp task input(u >> x) output(s << y)
    y = x;
    #pragma omp task input(t >> x) output(osout << y)
    y = x;
}
END
told_of "a cycle through three streams" 0 0 "chain 0 2 1 back 0" round.c nothing.bin
told_of "the same from another place" 2 0 "chain 2 1 0 back 2" round.c nothing.bin
told_of "one that waits for nobody beside the cycle" 3 0 "chain 3 none stream 3 position 1" round.c nothing.bin
cat >lasso.c <<'END'
int main(void) {
    int s __attribute__((stream)), t __attribute__((stream));
    int x, y, w[1];
    #pragma omp task input(s >> w[0]) output(osout << y)
    y = w[0];
    #pragma omp task input(s >> x) output(t << y)
    y = x;
    #pragma omp task input(t >> x) output(s << y)
    y = x;
}
END
told_of "a walk into a cycle that it isn't of" 0 0 "chain 0 2 1 back 2" lasso.c nothing.bin
cat >failing.c <<'END'
int main(void) {
    int s __attribute__((stream));
    int x, y, w[2];
    #pragma omp task output(s << y)
    y = 1 / 0;
    #pragma omp task input(s >> x) output(s << y)
    y = x;
    #pragma omp task input(s >> w[3]) output(osout << y)
    y = w[0];
    #pragma omp task output(s << y)
    while (1) ;
}
END
told_of "an activation that trapped" 0 1 "not starved 0" failing.c nothing.bin
told_of "an activation that was poisoned" 1 1 "not starved 1" failing.c nothing.bin
told_of "one that reads poison, and on" 2 1 "not starved 2" failing.c nothing.bin
told_of "an activation that used up its turns" 3 1 "not starved 3" failing.c nothing.bin --budget 3
sed 's/w\[2\]/w[3]/' failing.c >behind.c
told_of "one that misses an element behind poison" 2 0 "chain 2 none stream 2 position 3" behind.c nothing.bin
{ head -n 9 failing.c; echo '}'; } >written.c
for activation in 0 1; do
    told_of "one that failed before an element that nobody writes" "$activation" 1 "not starved $activation" written.c nothing.bin
done
told_of "one that misses an element that nobody writes, behind poison" 2 0 "chain 2 none stream 2 position 2" written.c nothing.bin
# 65,536 activations, each of which waits for the next one, and the last one for nobody.
cat >column.c <<'END'
int main(void) {
    int s __attribute__((stream));
    int i, x, y;
    #pragma omp tick(s >> 1)
    for (i = 0; i < 65536; i++) {
        #pragma omp task input(s >> x) output(s << y)
        y = x;
    }
}
END
for workers in 1 4; do
    run explain column.c nothing.bin 0 --workers "$workers"
    echo "chain $(seq -s ' ' 0 65535) none stream 2 position 65536" >wanted
    agree "a chain of 65,536 activations by $workers workers" 0 wanted ""
done
told_of "without turns for the control program there is no activation" 0 1 "no activation 0" column.c nothing.bin --control 0
told_of "the end of that chain" 65535 0 "chain 65535 none stream 2 position 65536" column.c nothing.bin
told_of "the example of the guide" 4 0 "chain 4 5 back 4" "$top/examples/waiting.c" in.bin
run run "$top/examples/waiting.c" in.bin
check "what it reports" 1 "" "starved 0 stream 2 position 0 producer 1 starved / starved 1 stream 3 position 0 producer 0 starved / \
starved 2 stream 2 position 1 producer 3 starved / starved 3 stream 3 position 2 producer 2 starved / \
starved 4 stream 2 position 2 producer 5 starved / starved 5 stream 3 position 4 producer 4 starved / \
starved 6 stream 2 position 3 producer 7 starved / starved 7 stream 3 position 6 producer 6 starved / control done / output 0 of 4"
sed 's/^    for (i = 0/    #pragma omp task output(last << rebuilt)\n    rebuilt = 0;\n&/' "$top/examples/waiting.c" >started.c
told_of "the example with a first element" 4 1 "not starved 4" started.c in.bin
for words in "" "cycles.c" "cycles.c nothing.bin" "cycles.c nothing.bin 65536" "cycles.c nothing.bin -1" "cycles.c nothing.bin -0" \
    "cycles.c nothing.bin x" "cycles.c nothing.bin 0 1" "cycles.c nothing.bin 0 --workers 65" "cycles.c nothing.bin 0 --more 1" "--help"; do
    # shellcheck disable=SC2086
    run explain $words
    check "what can't be explained: explain $words" 2 "" usage
done
run explain empty.c in.bin 0
check "a text of which nothing is explained" 3 "" "refused 23 line 1"
run explain none.c in.bin 0
check "a text to explain that isn't there" 5 "" "read fault program"
run explain first.c none.bin 0
check "an input to explain that isn't there" 5 "" "read fault input"
run explain long.c in.bin 0
check "a text to explain that is too long" 4 "" "too long program"
run explain first.c long.bin 0
check "an input to explain that is too long" 4 "" "too long input"
"$osrun" explain cycles.c nothing.bin 0 >/dev/full 2>report
status=$?
: >out
check "a full standard output for a chain" 6 "" ""
"$osrun" explain cycles.c nothing.bin 0 >out 2>/dev/full
status=$?
: >report
printf 'chain 0 1 back 0\n' >wanted
agree "a full standard error, of which a chain asks nothing" 0 wanted ""

# Who ran what, and runs by what a trace says of it. by_trace NAME STATUS OUT REPORT LINE..: compares a replay of pair.c over
# nothing.bin by a trace of these lines. The consumer is created first: it is activation 0.
by_trace() {
    local name=$1 wanted=$2 out=$3 report=$4
    shift 4
    printf '%s\n' "$@" >by.trace
    run replay pair.c nothing.bin by.trace
    check "$name" "$wanted" "$out" "$report"
}
cat >pair.c <<'END'
int main(void) {
    int s __attribute__((stream));
    int x, y;
    #pragma omp task input(s >> x) output(osout << y)
    y = x + 1;
    #pragma omp task output(s << x)
    x = 41;
}
END
run trace pair.c nothing.bin --workers 1
echo "worker 0 1 0" >wanted
agree "the trace of one worker" 0 wanted "control done / output 1 of 1"
by_trace "the order of one worker" 0 2a "control done / output 1 of 1" "worker 0 1 0"
by_trace "the orders of two workers" 0 2a "control done / output 1 of 1" "worker 0 0" "worker 1 1"
by_trace "a worker that ran nothing" 0 2a "control done / output 1 of 1" "worker 0" "worker 1 1 0"
by_trace "a consumer before its producer" 8 "" "stuck 0 frame 0 stream 2 position 0" "worker 0 0 1"
by_trace "a consumer whose producer isn't told" 8 "" "stuck 1 frame 0 stream 2 position 0" "worker 0" "worker 1 0"
by_trace "a consumer that isn't told" 8 "" "short 0" "worker 0 1"
by_trace "a trace in which nobody ran anything" 8 "" "short 1" "worker 0"
by_trace "an activation that one worker ran twice" 8 "" "repeat 1" "worker 0 1 1"
by_trace "an activation that two workers ran" 8 "" "repeat 0" "worker 0 1 0" "worker 1 0"
by_trace "a number that no activation has" 8 "" "stranger 0 place 0" "worker 0 2"
by_trace "such a number of a later worker" 8 "" "stranger 1 place 1" "worker 0 1" "worker 1 0 4294967295"
by_trace "such a number behind one that stands twice" 8 "" "stranger 0 place 2" "worker 0 1 1 2"
by_trace "a line of no worker" 3 "" "refused 40 line 2" "worker 0 1 0" "work 1"
by_trace "a line that stands twice" 3 "" "refused 40 line 2" "worker 0 1 0" "worker 0 1 0"
by_trace "a line that is left out" 3 "" "refused 40 line 2" "worker 0 0" "worker 2 1"
by_trace "lines that are swapped" 3 "" "refused 40 line 1" "worker 1 1" "worker 0 0"
by_trace "a number with a zero before it" 3 "" "refused 40 line 1" "worker 0 01 0"
by_trace "a worker with a zero before it" 3 "" "refused 40 line 1" "worker 00 1 0"
by_trace "two blanks" 3 "" "refused 40 line 1" "worker 0  1 0"
by_trace "a blank at the end of a line" 3 "" "refused 40 line 1" "worker 0 1 0 "
by_trace "a number of 33 bits" 3 "" "refused 40 line 1" "worker 0 4294967296"
by_trace "an empty line at the end" 3 "" "refused 40 line 2" "worker 0 1 0" ""
printf 'worker 0 1 0' >by.trace
run replay pair.c nothing.bin by.trace
check "a trace without its line feed" 3 "" "refused 40 line 1"
run replay pair.c nothing.bin nothing.bin
check "an empty trace" 3 "" "refused 40 line 1"
{ echo "worker 0 1 0"; seq -f 'worker %g' 1 63; } >by.trace
run replay pair.c nothing.bin by.trace
check "a trace of 64 workers" 0 2a "control done / output 1 of 1"
echo "worker 64" >>by.trace
run replay pair.c nothing.bin by.trace
check "a trace of 65 workers" 3 "" "refused 40 line 65"
{ printf 'worker 0 10'; printf '%2097146s\n' "" | sed 's/ / 7/g'; } >by.trace
run replay pair.c nothing.bin by.trace
check "the longest trace" 8 "" "stranger 0 place 0"
{ printf 'worker 0'; printf '%2097148s\n' "" | sed 's/ / 7/g'; } >by.trace
run replay pair.c nothing.bin by.trace
check "a trace that is too long" 4 "" "too long trace"
run replay pair.c nothing.bin none.trace
check "a trace that isn't there" 5 "" "read fault trace"
run replay pair.c nothing.bin folder
check "a folder in the place of a trace" 5 "" "read fault trace"
run replay pair.c none.bin none.trace
check "an input that isn't there, nor its trace" 5 "" "read fault input"
run replay pair.c long.bin none.trace
check "an input that is too long, without its trace" 4 "" "too long input"
run replay empty.c none.bin none.trace
check "a text that isn't run by a trace" 3 "" "refused 23 line 1"
echo "worker 0 1 0" >by.trace
run replay pair.c nothing.bin /dev/stdin <by.trace
check "a trace from standard input" 0 2a "control done / output 1 of 1"
for words in "" "pair.c nothing.bin" "pair.c nothing.bin by.trace x" "pair.c nothing.bin by.trace --workers 1" "--help"; do
    # shellcheck disable=SC2086
    run replay $words
    check "what can't be replayed: replay $words" 2 "" usage
done
for words in "" "pair.c" "pair.c nothing.bin x" "pair.c nothing.bin --workers 0" "pair.c nothing.bin --workers 65" "--help"; do
    # shellcheck disable=SC2086
    run trace $words
    check "what can't be traced: trace $words" 2 "" usage
done
run trace empty.c in.bin
check "a text that isn't traced" 3 "" "refused 23 line 1"
run trace pair.c none.bin
check "an input to trace that isn't there" 5 "" "read fault input"
run trace pair.c long.bin
check "an input to trace that is too long" 4 "" "too long input"
for words in "trace pair.c nothing.bin" "replay pair.c nothing.bin by.trace"; do
    # shellcheck disable=SC2086
    "$osrun" $words >/dev/full 2>report
    status=$?
    : >out
    check "a full standard output: $words" 6 "" ""
done
"$osrun" replay pair.c nothing.bin nothing.bin >out 2>/dev/full
status=$?
: >report
check "a full standard error for a trace that is none" 3 "" ""
echo "worker 0 1" >by.trace
"$osrun" replay pair.c nothing.bin by.trace >out 2>/dev/full
status=$?
: >report
check "a full standard error for a trace that is short" 8 "" ""
# comes_back_by WORKERS PROGRAM INPUT: traces a run by WORKERS workers, which has to report and to end as the run does, and
# replays it, which has to write what the run writes besides.
comes_back_by() {
    run run "$2" "$3"
    mv out written
    local report status_of_run=$status
    report=$(told)
    run trace "$2" "$3" --workers "$1"
    mv out run.trace
    : >out
    check "$(basename "$2") traced by $1 workers" "$status_of_run" "" "$report"
    run replay "$2" "$3" run.trace
    agree "$(basename "$2") by the trace of $1 workers" "$status_of_run" written "$report"
}
awk 'BEGIN { for (k = 0; k < 4000; k++) printf "\\%03o\n", k % 251 }' | tr -d '\n' >codes
printf "$(cat codes)" >means.bin
comes_back_by 7 "$top/examples/smooth.c" means.bin
for text in first.c cycles.c failing.c behind.c lasso.c short.c; do
    for workers in 1 4; do
        comes_back_by "$workers" "$text" short.bin
    done
done
# 65,536 activations, each of which but the first waits for the one before.
cat >chain.c <<'END'
int main(void) {
    int s __attribute__((stream));
    int i, x, y;
    #pragma omp task output(s << x)
    x = 1;
    for (i = 1; i < 65536; i++) {
        #pragma omp task input(s >> x) output(s << y)
        y = x;
    }
}
END
awk 'BEGIN { for (w = 0; w < 64; w++) { printf "worker %d", w; for (f = w; f < 65536; f += 64) printf " %d", f; print "" } }' >chain.trace
run replay chain.c nothing.bin chain.trace
check "65,536 activations by 64 workers" 0 "" "control done / output 0 of 0"
{ printf 'worker 0'; seq -s ' ' 65535 -1 0 | sed 's/^/ /'; } >chain.trace
run replay chain.c nothing.bin chain.trace
check "65,536 activations from the last to the first" 8 "" "stuck 0 frame 65535 stream 2 position 65534"
echo "worker 0 0" >by.trace
run replay chain.c nothing.bin by.trace --control 0
check "a replay without turns for the control program" 1 "" "control over-budget / output 0 of 0"
run replay chain.c nothing.bin by.trace --control 1
check "a replay with one turn for the control program" 8 "" "short 1"

# A reader that leaves: it is gone before the output comes.
{ sleep 1; "$osrun" run invert.c million.bin 2>report; echo "$?" >left; } | :
status=$(cat left)
: >out
check "a closed standard output" 6 "" ""

# Programs that never end by themselves are stopped by their budgets, and those that take all that they may end.
echo 'int main(void) { while (1) ; }' >endless.c
cat >endless_tasks.c <<'END'
int main(void) {
    int i, y;
    for (i = 0; i < 65536; i++) {
        #pragma omp task output(osout << y)
        while (1) ;
    }
}
END
cat >windows.c <<'END'
int main(void) {
    int s __attribute__((stream));
    int i;
    for (i = 0; i < 65536; i++) {
        int w[64];
        #pragma omp task output(s << w[64])
        w[0] = i;
    }
}
END
: >nothing.bin
began=$SECONDS
run run endless.c in.bin --control 1000000000
agree "a control program that never ends" 1 nothing.bin "control over-budget / output 0 of 0"
echo "a control program that never ends was stopped after $((SECONDS - began)) seconds"
run run endless_tasks.c in.bin --budget 1000
: >out
seq 0 65535 | sed 's/^/over-budget /' >wanted
printf 'control done\noutput 0 of 65536\n' >>wanted
cmp -s report wanted && echo "as wanted" >report
agree "65,536 tasks that never end" 1 nothing.bin "as wanted"
run run windows.c in.bin
agree "65,536 windows of 64" 0 nothing.bin "control done / output 0 of 0"

# Chains of as many activations as there may be, in both directions, that are all poisoned by the one that traps.
cat >poisoned.c <<'END'
int main(void) {
    int s __attribute__((stream));
    int i, x, y;
    #pragma omp task output(s << y)
    y = 1 / 0;
    for (i = 1; i < 65536; i++) {
        #pragma omp task input(s >> x) output(s << y)
        y = x;
    }
}
END
cat >backwards.c <<'END'
int main(void) {
    int s[65536] __attribute__((stream));
    int i, x, y;
    for (i = 1; i < 65536; i++) {
        #pragma omp task input(s[i] >> x) output(s[i - 1] << y)
        y = x;
    }
    #pragma omp task output(s[65535] << y)
    y = 1 / 0;
}
END
{
    echo 'trapped 0 code 2 line 5'
    seq 65535 | sed 's/.*/poisoned & by 0/'
    printf 'control done\noutput 0 of 0\n'
} >poisoned.wanted
{
    seq 0 65534 | sed 's/.*/poisoned & by 65535/'
    printf 'trapped 65535 code 2 line 9\ncontrol done\noutput 0 of 0\n'
} >backwards.wanted
for chain in poisoned backwards; do
    for workers in 1 4; do
        run run "$chain.c" nothing.bin --workers "$workers"
        cmp -s report "$chain.wanted" && echo "as wanted" >report
        agree "65,536 activations of the chain $chain.c by $workers" 1 nothing.bin "as wanted"
    done
done

# The largest run: as many activations, cells and pieces as there may be, in less than 400 MB of address space.
cat >largest.c <<'END'
int main(void) {
    int s __attribute__((stream));
    int i, x, y;
    for (i = 0; i < 32768; i++) {
        #pragma omp task output(s << x)
        x = 1;
    }
    for (i = 0; i < 32768; i++) {
        int w[126];
        #pragma omp task input(s >> w[1]) output(osout << y)
        y = w[125];
    }
}
END
(ulimit -v 400000 && exec "$osrun" run largest.c nothing.bin --workers 1 >out 2>report)
status=$?
seq 65411 65535 | sed 's/.*/starved & stream 2 position 32768 producer none/' >wanted
printf 'control done\noutput 32643 of 32768\n' >>wanted
cmp -s report wanted && echo "as wanted" >report
head -c 32643 /dev/zero | tr '\0' '\1' >part.bin
agree "the largest run" 1 part.bin "as wanted"

run
check "no words" 2 "" usage
run run first.c
check "too few words" 2 "" usage
run run first.c in.bin more
check "too many words" 2 "" usage
run stop
check "another first word" 2 "" usage
run run first.c in.bin --workers 65
check "too many workers" 2 "" usage
run run first.c in.bin --budget x
check "a budget that is no number" 2 "" usage
run run --help
check "a request for help" 2 "" usage
run run first.c "$(printf 'in\377')"
check "a word that isn't text" 2 "" usage
run "$(printf 'run\377')" first.c in.bin
check "a first word that isn't text" 2 "" usage
run run first.c in.bin --workers "$(printf '4\377')"
check "a number that isn't text" 2 "" usage

cp first.c ./-first.c
run run --workers 64 first.c --budget=+0005 in.bin --control 0
check "options before, between and behind the names" 0 04030201 "control done / output 4 of 4"
run run --workers=1 -- -first.c in.bin
check "a name that begins with a dash" 0 04030201 "control done / output 4 of 4"
run run -first.c in.bin
check "a name that is read as an option" 2 "" usage

for options in "--workers 64" "--budget=+0005 --control 2" "--workers=1 --"; do
    # shellcheck disable=SC2086
    run run $options "$top/examples/invert.c" in.bin
    check "a block that is inverted, with $options" 0 fefdfcfb "control done / output 4 of 4"
done
{ cat first.c; head -c 262144 /dev/zero | tr '\0' ' '; } | head -c 262144 >longest.c
run run longest.c in.bin
check "the longest program" 0 04030201 "control done / output 4 of 4"
run run "" in.bin
check "a program without a name" 5 "" "read fault program"
run run long.c in.bin
check "a program that is too long" 4 "" "too long program"
run run first.c long.bin
check "an input that is too long" 4 "" "too long input"
run run none.c in.bin
check "no such program" 5 "" "read fault program"
run run first.c none.bin
check "no such input" 5 "" "read fault input"
run run folder in.bin
check "a folder in place of a program" 5 "" "read fault program"
run run first.c folder
check "a folder in place of an input" 5 "" "read fault input"

"$osrun" run first.c in.bin >/dev/full 2>"$work/report"
status=$?
: >"$work/out"
check "a full standard output" 6 "" ""
"$osrun" run first.c in.bin >"$work/out" 2>/dev/full
status=$?
: >"$work/report"
check "a full standard error" 6 04030201 ""
"$osrun" run empty.c in.bin >"$work/out" 2>/dev/full
status=$?
: >"$work/report"
check "a refusal and a full standard error" 3 "" ""

# Each limit, at it and one past it.
# repeat COUNT TEXT: the text COUNT times, with its number, from 0 on, in the place of each %.
repeat() {
    awk -v count="$1" -v text="$2" 'BEGIN { for (k = 0; k < count; k++) { line = text; gsub(/%/, k, line); printf "%s", line } }'
}
# judged NAME STATUS REPORT TEXT INPUT WORD..: runs a text over an input, and compares what it reports; it writes nothing.
judged() {
    printf '%b' "$4" >judged.c
    run run judged.c "$5" "${@:6}"
    check "$1" "$2" "" "$3"
}
head -c 65536 /dev/zero >window.bin
fine="control done / output 0 of 0"
head -c 262144 <(printf 'int main(void) { }'; head -c 262144 /dev/zero | tr '\0' ' ') >longest.c
run run longest.c short.bin
check "the longest program" 0 "" "$fine"
judged "a program without its end" 3 "refused 4 line 1" 'int main(void) {' short.bin
judged "a bracket too many" 3 "refused 4 line 2" 'int main(void) { }\n}' short.bin
judged "an else without its if" 3 "refused 4 line 2" 'int main(void) {\nelse ; }' short.bin
judged "a program of depth 200" 0 "$fine" "int main(void) { return\n$(repeat 197 '(\n')1$(repeat 197 ')'); }" short.bin
judged "a program of depth 201" 3 "refused 4 line 200" "int main(void) {\nreturn$(repeat 198 '\n(')" short.bin
windows="int main(void) {\nint w0[1], w1[1], w2[1], w3[1], w4[1], w5[1], w6[1], w7[1], w8[1];\n#pragma omp task"
judged "8 items of a task" 0 "$fine" "$windows $(repeat 8 'input(osin >> w%[0]) ')\n;\n}" short.bin
judged "9 items of a task" 3 "refused 22 line 3" "$windows $(repeat 9 'input(osin >> w%[0]) ')\n;\n}" short.bin
captures() {
    printf '%s' "int main(void) {\nint v$(repeat "$1" ', v%');\n#pragma omp task\n{ int x; $(repeat "$1" 'x = v%; ')}\n}"
}
judged "64 captured scalars" 0 "$fine" "$(captures 64)" short.bin
judged "65 captured scalars" 3 "refused 22 line 3" "$(captures 65)" short.bin
judged "65,536 array elements of a task" 0 "$fine" 'int main(void) {\n#pragma omp task\n{ int a[65535]; int b[1]; }\n}' short.bin
judged "65,537 array elements of a task" 3 "refused 15 line 3" 'int main(void) {\n#pragma omp task\n{ int a[65535]; int b[2]; }\n}' short.bin
judged "1,048,576 array elements of a program" 0 "$fine" "$(repeat 16 'int f%(void) { int a[65536]; }\n')int main(void) { }" short.bin
judged "more array elements of a program" 3 "refused 15 line 17" "$(repeat 16 'int f%(void) { int a[65536]; }\n')\nint g(void) { int a[1]; }\nint main(void) { }" short.bin
judged "65,536 streams" 0 "$fine" 'int main(void) { int s[65536] __attribute__((stream)); }' short.bin
judged "65,537 streams" 3 "refused 15 line 1" 'int main(void) { int s[65536] __attribute__((stream)), t __attribute__((stream)); }' short.bin
activations='int main(void) {\nint i;\nfor (i = 0; i < %s; i++) {\n#pragma omp task\n;\n}\n}'
judged "65,536 activations" 0 "$fine" "${activations/\%s/65536}" short.bin
judged "65,537 activations" 1 "control limit 1 / output 0 of 0" "${activations/\%s/65537}" short.bin
wide='int main(void) {\nint i, w[65536];\nfor (i = 0; i < %s; i++) {\n#pragma omp task input(osin >> w[0])\n;\n}\n}'
judged "windows over 4,194,304 elements" 0 "$fine" "${wide/\%s/64}" window.bin
judged "windows over more elements" 1 "control limit 2 / output 0 of 0" "${wide/\%s/65}" window.bin
judged "calls that double" 1 "over-budget 0 / control done / output 0 of 1" "int f0(void) { return 0; }
$(for k in $(seq 1 63); do printf 'int f%s(void) { return f%s() + f%s(); }\\n' "$k" $((k - 1)) $((k - 1)); done)
int main(void) { int y;\n#pragma omp task output(osout << y)\ny = f63();\n}" short.bin --budget 1
# What was created before a limit runs.
printf 'int main(void) {\nint i, y;\nfor (i = 0; i < 70000; i++) {\n#pragma omp task output(osout << y)\ny = i & 255;\n}\n}\n' >many.c
bytes 65536 "k % 256" >many.bin
run run many.c short.bin
agree "more activations than may be" 1 many.bin "control limit 1 / output 65536 of 65536"
printf 'int main(void) {\nint s __attribute__((stream));\nint i, y;\nfor (i = 0; i < 100; i++) {\nint w[65536];\n' >much.c
printf '#pragma omp task output(osout << y, s << w[65536])\ny = i;\n}\n}\n' >>much.c
head -c 63 many.bin >much.bin
run run much.c short.bin
agree "windows over more elements than may be" 1 much.bin "control limit 2 / output 63 of 63"

for workers in 0 65; do
    run run first.c in.bin --workers "$workers"
    check "$workers workers" 2 "" usage
done
for workers in 1 64; do
    run run first.c in.bin --workers "$workers"
    check "$workers workers" 0 04030201 "control done / output 4 of 4"
done
for option in --budget --control; do
    run run first.c in.bin "$option" 1000000000
    check "the largest $option" 0 04030201 "control done / output 4 of 4"
    run run first.c in.bin "$option" 1000000001
    check "a larger $option" 2 "" usage
done

# A chain of 65,536 activations, each of which waits for the one before it, or for the one behind it.
middle='for (i = 0; i < 65534; i++) {\n#pragma omp task input(s >> x) output(s << y)\ny = x + 1;\n}\n'
first='#pragma omp task output(s << x)\nx = 0;\n'
last='#pragma omp task input(s >> x) output(osout << y)\ny = x & 255;\n'
begin='int main(void) {\nint s __attribute__((stream));\nint i, x, y;\n'
printf '%b' "$begin$first$middle$last}\n" >forward.c
printf '%b' "$begin$last$middle$first}\n" >backward.c
for chain in forward backward; do
    for workers in 1 4; do
        run run "$chain.c" short.bin --workers "$workers"
        check "a $chain chain by $workers workers" 0 fe "control done / output 1 of 1"
    done
done

# Jobs by lines.
printf 'run first.c in.bin\nstop' >two.jobs
run serve two.jobs
{ printf 'job 0 status 0 out 4 report 27\n\004\003\002\001control done\noutput 4 of 4\n'; printf 'job 1 status 2 out 0 report 6\nusage\n'; } >wanted
agree "two jobs" 0 wanted ""
run serve /dev/stdin <two.jobs
agree "jobs from standard input" 0 wanted ""
run serve empty.c
check "no jobs" 0 "" ""
run serve none.jobs
check "a file of jobs that isn't there" 5 "" "read fault jobs"
run serve folder
check "a folder of jobs" 5 "" "read fault jobs"
run serve long.bin
check "a file of jobs that is too long" 4 "" "too long jobs"
# served NAME JOBS ANSWERS: compares what is answered to jobs, as printf writes them.
served() {
    printf '%b' "$2" >some.jobs
    printf '%b' "$3" >wanted
    run serve some.jobs
    agree "$1" 0 wanted ""
}
cat >parts.c <<'END'
int main(void) {
    int i;
    for (i = 0; i < osin_len; i++) {
        int x, y;
        #pragma omp task input(osin >> x) output(osout << y)
        y = 100 / x;
    }
}
END
echo 'int main(void) { y = ; }' >bad.c
done_in_four='status 0 out 4 report 27\n\004\003\002\001control done\noutput 4 of 4\n'
bad_words='status 2 out 0 report 6\nusage\n'
served "an empty line" '\n' "job 0 $bad_words"
served "two empty lines before another one" '\n\nstop\n' "job 0 ${bad_words}job 1 ${bad_words}job 2 $bad_words"
served "spaces and tabs round words" ' \trun  first.c\tin.bin \r\n' "job 0 $done_in_four"
served "a job by one worker" 'run first.c in.bin --workers 1' "job 0 $done_in_four"
served "a job of which a byte traps" 'run parts.c zero.bin\n' \
    'job 0 status 1 out 1 report 51\n\062trapped 1 code 2 line 6\ncontrol done\noutput 1 of 3\n'
served "a job behind one whose text is refused" 'run bad.c in.bin\nrun first.c in.bin\n' \
    "job 0 status 3 out 0 report 17\nrefused 4 line 1\njob 1 $done_in_four"
served "a job behind two whose files aren't there" 'run first.c none\nrun none in.bin\nrun first.c in.bin\n' \
    "job 0 status 5 out 0 report 17\nread fault input\njob 1 status 5 out 0 report 19\nread fault program\njob 2 $done_in_four"
served "a job behind one whose text is too long" 'run long.c in.bin\nrun first.c in.bin\n' \
    "job 0 status 4 out 0 report 17\ntoo long program\njob 1 $done_in_four"
served "a job of bytes that are made" 'gen 1 2\n' \
    'job 0 status 0 out 60 report 0\nseed 1 blocks 2\ninput 8 sum 1363\noutput 8 sum 1172\nstatus 0\n'
served "servers as jobs" 'serve jobs\nserve\nserve a b\n' "job 0 ${bad_words}job 1 ${bad_words}job 2 $bad_words"
served "a line that isn't text" 'run first.c \377\nrun first.c in.bin\n' "job 0 ${bad_words}job 1 $done_in_four"
served "a name with a byte 0" 'run first.c in.bin\000\n' 'job 0 status 5 out 0 report 17\nread fault input\n'
served "a letter that a line feed parts" '\303\n\251' "job 0 ${bad_words}job 1 $bad_words"
# filled NAME JOBS LAST LENGTH STATUS ANSWERS REPORT: compares what is answered to jobs with spaces behind them and a last byte, of LENGTH bytes
# in all.
filled() {
    { printf "%-$(($4 - 1))s" "$(printf '%b' "$2")"; printf '%b' "$3"; } >some.jobs
    printf '%b' "$6" >wanted
    run serve some.jobs
    agree "$1" "$5" wanted "$7"
}
filled "a job of as many bytes as may be" 'run first.c in.bin' ' ' 4194304 0 "job 0 $done_in_four" ""
filled "such a job with its line feed" 'run first.c in.bin' '\n' 4194304 0 "job 0 $done_in_four" ""
filled "a job of a byte more" 'run first.c in.bin' ' ' 4194305 4 "" "too long jobs"
filled "a job of a byte more, with its line feed" 'run first.c in.bin' '\n' 4194305 4 "" "too long jobs"
filled "a job before one that is too long" 'run first.c in.bin\nstop' '\n' 4194305 4 "job 0 $done_in_four" "too long jobs"
for words in "" "two.jobs more" "--help two.jobs" "two.jobs --workers 1"; do
    # shellcheck disable=SC2086
    run serve $words
    check "words that ask for no server: serve $words" 2 "" usage
done
"$osrun" serve two.jobs >/dev/full 2>report
status=$?
: >out
check "a full standard output for answers" 6 "" ""
for job in $(seq 0 999); do
    echo 'run first.c in.bin' >&3
    printf 'job %d status 0 out 4 report 27\n\004\003\002\001control done\noutput 4 of 4\n' "$job" >&4
done 3>thousand.jobs 4>wanted
run serve thousand.jobs
agree "a thousand jobs over the same file" 0 wanted ""
# A file of jobs as long as may be: 4,096 jobs of 1,024 bytes, of which the last one has no line feed. With a byte more it isn't answered.
yes "$(printf '%-1023s' stop)" | head -n 4095 >most.jobs
printf '%-1024s' 'run first.c in.bin' >>most.jobs
awk 'BEGIN { for (job = 0; job < 4095; job++) printf "job %d status 2 out 0 report 6\nusage\n", job }' >wanted
cp wanted ended
printf 'job 4095 status 0 out 4 report 27\n\004\003\002\001control done\noutput 4 of 4\n' >>wanted
run serve most.jobs
agree "a file of jobs of 4,194,304 bytes" 0 wanted ""
printf ' ' >>most.jobs
run serve most.jobs
agree "a file of jobs of 4,194,305 bytes" 4 ended "too long jobs"
# Jobs of each kind, one after the other, are answered as the command answers their words.
cat >kinds.jobs <<'END'
run first.c in.bin
run first.c short.bin
run first.c in.bin --workers 65
run empty.c in.bin
run long.c in.bin
run first.c long.bin
run none.c in.bin
run folder in.bin
gen 7 65536
run first.c in.bin --budget 0
compile first.c
compile empty.c
exec main.19.o in.bin
exec first.c in.bin
END
job=0
while read -r words; do
    # shellcheck disable=SC2086
    run $words
    printf 'job %d status %d out %d report %d\n' "$job" "$status" "$(wc -c <out)" "$(wc -c <report)"
    cat out report
    job=$((job + 1))
done <kinds.jobs >wanted
run serve kinds.jobs
agree "jobs of each kind" 0 wanted ""

# A larger input is cut into jobs, and what they write is joined again.
mkdir cut
bytes 4096 "int(x / 256) % 256" >cut.bin
for processes in 1 3; do
    "$top/examples/many/cut.sh" cut.bin 400 0 cut >/dev/null
    "$top/examples/many/jobs.sh" "$top/examples/lift.c" cut 3 --workers 2 >/dev/null
    OSRUN=$osrun "$top/examples/many/here.sh" cut "$processes"
    "$top/examples/many/join.py" cut >out 2>report
    status=$?
    cp out joined
    run run "$top/examples/lift.c" cut.bin
    mv out whole
    mv joined out
    : >report
    agree "parts that are coded by $processes processes, and joined" 0 whole ""
done
"$top/examples/many/cut.sh" cut.bin 1000 2 cut >/dev/null
"$top/examples/many/jobs.sh" "$top/examples/smooth.c" cut 2 >/dev/null
OSRUN=$osrun "$top/examples/many/here.sh" cut
"$top/examples/many/join.py" cut >joined 2>report
run run "$top/examples/smooth.c" cut.bin
mv out whole
mv joined out
: >report
agree "parts that overlap, joined" 0 whole ""
SLURM_ARRAY_TASK_ID=1 OSRUN=$osrun "$top/examples/many/slurm.sh" cut
cmp -s cut/answers.001 <("$osrun" serve cut/jobs.001)
status=$?
: >out
: >report
check "a task of an array" 0 "" ""

# Whichever allocation fails, the status is 7 and nothing is written, or the answer is that of ample memory. A run
# makes fewer than 400 of them, and so do bytes that are made, objects and bad words. They fail by a library, which a C compiler makes.
run compile first.c
mv out first.o
compiler=$(command -v cc || command -v clang || echo "$(dirname "$(readlink -f "$(command -v rt)")")/../toolchain/bin/clang")
most=399 most_served=449
if ! "$compiler" -shared -fPIC -nostdlib -O1 -o failing_allocation.so "$top/tests/failing_allocation.c" 2>/dev/null; then
    echo "no C compiler is here: no allocation fails"
    most=0 most_served=0
fi
# run_without NUMBER WORD..: runs the words, and lets the allocation of that number fail.
run_without() {
    if [ "$most" = 0 ]; then
        "$osrun_program" "${@:2}" >out 2>report
    else
        LD_PRELOAD=$work/failing_allocation.so FAILING_ALLOCATION=$1 "$osrun_program" "${@:2}" >out 2>report
    fi
    status=$?
}
for number in $(seq 1 "$most"); do
    run_without "$number" run first.c in.bin
    if [ "$status" = 7 ]; then
        check "allocation $number of a run fails" 7 "" ""
    else
        check "allocation $number of a run fails" 0 04030201 "control done / output 4 of 4"
    fi
    run_without "$number" gen 1 2
    if [ "$status" = 7 ]; then
        check "allocation $number of bytes that are made fails" 7 "" ""
    else
        lines "allocation $number of bytes that are made fails" "seed 1 blocks 2" "input 8 sum 1363" "output 8 sum 1172" "status 0"
    fi
    run_without "$number" compile first.c
    if [ "$status" = 7 ]; then
        check "allocation $number of an object that is written fails" 7 "" ""
    else
        agree "allocation $number of an object that is written fails" 0 first.o ""
    fi
    run_without "$number" exec first.o in.bin
    if [ "$status" = 7 ]; then
        check "allocation $number of an object that is run fails" 7 "" ""
    else
        check "allocation $number of an object that is run fails" 0 04030201 "control done / output 4 of 4"
    fi
    run_without "$number" run --help
    if [ "$status" = 7 ]; then
        check "allocation $number of bad words fails" 7 "" ""
    else
        check "allocation $number of bad words fails" 2 "" usage
    fi
done
[ "$most" = 0 ] || run_without 1 run first.c in.bin
[ "$most" = 0 ] || check "the first allocation fails" 7 "" ""
# Of a server the job for which memory is wanted is answered so, and no other; or the server itself ends, behind the answers before.
printf 'job 0 status 0 out 4 report 27\n\004\003\002\001control done\noutput 4 of 4\n' >first.7
printf 'job 1 status 2 out 0 report 6\nusage\n' | cat first.7 - >both.0
printf 'job 0 status 7 out 0 report 0\njob 1 status 2 out 0 report 6\nusage\n' >first_wants.0
printf 'job 1 status 7 out 0 report 0\n' | cat first.7 - >second_wants.0
: >none.7
for number in $(seq 1 "$most_served"); do
    run_without "$number" serve two.jobs
    wanted=both.0
    for front in *."$status"; do
        if cmp -s out "$front"; then wanted=$front; fi
    done
    agree "allocation $number of a server fails" "${wanted##*.}" "$wanted" ""
done
run_without 450 serve two.jobs
agree "a server of two jobs makes fewer allocations" 0 both.0 ""
run_without 400 run first.c in.bin
check "a run makes fewer allocations" 0 04030201 "control done / output 4 of 4"
run_without 400 gen 1 2
lines "bytes that are made make fewer allocations" "seed 1 blocks 2" "input 8 sum 1363" "output 8 sum 1172" "status 0"
run_without 400 compile first.c
agree "an object that is written makes fewer allocations" 0 first.o ""
run_without 400 exec first.o in.bin
check "an object that is run makes fewer allocations" 0 04030201 "control done / output 4 of 4"
run_without 400 run --help
check "bad words make fewer allocations" 2 "" usage

# The program that judges files.
: >"$work/out"
"$oscheck" first.c empty.c none.c >"$work/report" 2>&1
status=$?
check "files that are judged" 2 "" "first.c: accepted / empty.c:1: error 23: no function main of type int without parameters: write int main(void) / none.c: can't be read"
# judges NAME STATUS REPORT WORD..: judges files, and compares what is told of them, together with the output.
judges() {
    : >out
    "$oscheck" "${@:4}" >report 2>&1
    status=$?
    check "$1" "$2" "" "$3"
}
strange=$(printf 'in\377\t.c')
cp first.c "$strange"
judges "a name that isn't text" 2 "in\\xff\\t.c: its name isn't text" "$strange"
judges "a file whose name isn't text, between others" 2 "first.c: accepted / in\\xff\\t.c: its name isn't text / first.c: accepted" \
    first.c "$strange" first.c
rm "$strange"
printf 'int main(void) {\n    int spare;\n}\n' >spare.c
warned="spare.c:2:9: warning: nothing uses 'spare': take it out /     2 |     int spare; /       |         ^~~~~"
judges "a program with a warning" 0 "$warned / spare.c: accepted / first.c: accepted" spare.c first.c
judges "a program with a warning that is an error" 1 "$warned / spare.c: refused for its warnings / first.c: accepted" --werror spare.c first.c
judges "no warning that is an error" 0 "first.c: accepted" --werror first.c
{ printf 'int main(void) {\n'; for number in $(seq 22); do echo "int spare$number;"; done; echo '}'; } >spares.c
"$oscheck" spares.c >told 2>&1
status=$?
grep -c warning: told >report
tail -n 2 told >>report
: >out
check "more warnings than are told" 0 "" "20 / spares.c: 2 more warnings / spares.c: accepted"
judges "the first warning" 0 "spares.c:2:5: warning: nothing uses 'spare1': take it out /     2 | int spare1; /       |     ^~~~~~ / spares.c: accepted" --first spares.c
# tells NAME WANTED WORD..: compares how many errors are told of many.c, and the last line.
{ printf 'int main(void) {\n'; for number in $(seq 22); do echo "y = x;"; done; echo '}'; } >many.c
tells() {
    "$oscheck" "${@:3}" many.c >told 2>&1
    status=$?
    grep -c error told >report
    grep '^many.c' told | tail -n 1 | cut -c -60 >>report
    : >out
    check "$1" 1 "" "$2"
}
{
    printf 'int main(void) {\nint y'
    printf ', v%s' $(seq 65)
    printf ';\n#pragma omp task\n#pragma omp task\ny = 0'
    printf ' + v%s' $(seq 65)
    printf ';\n}\n'
} >deep.c
"$oscheck" deep.c >told 2>&1
status=$?
grep -o '^deep.c[:0-9]* error [0-9]*' told >report
: >out
check "tasks in tasks that capture too much" 1 "" "deep.c:3:1: error 22 / deep.c:4:1: error 17 / deep.c:4:1: error 22"
tells "twenty errors and how many more there are" "21 / many.c: 24 more errors"
tells "the first error" "1 / many.c:2:1: error 10: 'y' isn't declared here: declare it be" --first
tells "all errors" "44 / many.c:23:5: error 10: 'x' isn't declared here: declare it b" --all
judges "a word that is no option" 2 "--al: no option, and no file that can be read / first.c: accepted" --al first.c
judges "an option behind a file" 2 "first.c: accepted / --version: no option, and no file that can be read" first.c --version
# What editors read: the same errors and warnings as gcc writes them, and as SARIF.
spare="spare.c:2:9: warning: nothing uses 'spare': take it out [unused-name]"
no_main="no function main of type int without parameters: write int main(void) [error-23]"
judges "an error at no token as gcc writes it, behind an accepted file" 1 "empty.c:1:1: error: $no_main" --format=gcc first.c empty.c
judges "a warning as gcc writes it" 0 "$spare" --format=gcc spare.c first.c
judges "a warning that is an error, as gcc writes it" 1 "$spare / spare.c: refused for its warnings" --format=gcc --werror spare.c
judges "a file that can't be read, as gcc writes it" 2 "none.c: can't be read / $spare" --format=gcc none.c spare.c
judges "standard input as gcc writes it" 0 "${spare/spare.c//dev/stdin}" --format=gcc /dev/stdin <spare.c
judges "the format without the word, by its name" 0 "$warned / spare.c: accepted" --format=text spare.c
judges "the last of two formats" 0 "$spare" --format=sarif --format=gcc spare.c
formats="there are --format=text, --format=gcc and --format=sarif"
judges "a format that there isn't" 2 "--format=xml: $formats" --format=xml first.c
judges "a format without its name" 2 "--format: $formats" --format gcc first.c
judges "a format of programs that are written" 2 "--format is of no use with --complete, which writes programs" --format=gcc --complete first.c
judges "programs that are written, in a format" 2 "--format is of no use with --complete, which writes programs" --complete --format=sarif first.c
# sarif NAME STATUS WANTED WORD..: judges files, and compares what is read in the SARIF that is written, with each finding as gcc writes it.
sarif() {
    "$oscheck" --format=sarif "${@:4}" >told 2>report
    status=$?
    "$top/tests/sarif.py" "$(cat "$top/VERSION")" <told >>report 2>&1
    : >out
    check "$1" "$2" "" "$3"
}
sarif "accepted files as SARIF" 0 "" first.c first.c
sarif "an error at no token as SARIF" 1 "empty.c:1:1: error: $no_main" first.c empty.c
sarif "a warning that is an error, as SARIF" 1 "$spare / spare.c: refused for its warnings" --werror spare.c
sarif "files that can't be read, as SARIF" 2 "$spare / none.c: can't be read / --al: no option, and no file that can be read" spare.c none.c --al
sarif "standard input as SARIF" 0 "${spare/spare.c//dev/stdin}" /dev/stdin <spare.c
sarif "the first error as SARIF" 1 "many.c:2:1: error: 'y' isn't declared here: declare it before, in a scope that is still open [error-10]" --first many.c
odd="it's \"so\" <100%> \\ [ä]#?.c"
cp spare.c "$odd"
judges "a name with blanks and quotes as gcc writes it" 0 "${spare/spare.c/$odd}" --format=gcc "$odd"
sarif "a name with blanks and quotes as SARIF" 0 "${spare/spare.c/$odd}" "$odd"
sarif "a name from the root on as SARIF" 0 "${spare/spare.c/$PWD/$odd}" "$PWD/$odd"
cp spare.c "$strange"
sarif "a name that isn't text, as SARIF" 2 "in\\xff\\t.c: its name isn't text" "$strange"
rm "$odd" "$strange"
printf '/* \303\244 */ int main(void) { /* \377\001\342\202\254 */ x = 1; }\n' >bytes.c
undeclared="error: 'x' isn't declared here: declare it before, in a scope that is still open [error-10]"
judges "a column in bytes as gcc writes it" 1 "bytes.c:1:39: $undeclared" --format=gcc bytes.c
sarif "a column in characters as SARIF" 1 "bytes.c:1:36: $undeclared" bytes.c
printf 'int main(void) { \377 }\n' >bytes.c
sarif "a byte that is no character, as SARIF" 1 "bytes.c:1:18: error: a byte begins no token: take it out [error-1]" bytes.c
printf 'int main(void) { \001 }\n' >bytes.c
sarif "a control character as SARIF" 1 "bytes.c:1:18: error: '$(printf '\001')' begins no token: take it out [error-1]" bytes.c
head -c 262145 /dev/zero | tr '\0' ' ' >long.c
judges "a text that is too long, as gcc writes it" 1 "long.c:1:1: error: a text has at most 262144 bytes [too-long]" --format=gcc long.c
sarif "a text that is too long, as SARIF" 1 "long.c:1:1: error: a text has at most 262144 bytes [too-long]" long.c
# All three formats tell the same of many files: the text for people, put into the words of gcc but for the names of warnings.
# plain: the lines of findings in the text for people, as gcc writes them without the names of checks.
plain() {
    grep -E '^[^ ]*:[0-9:]+ (error [0-9]+|warning): |more (error|warning)' | sed -E 's/^([^:]*:[0-9]+): error/\1:1: error/; s/: error [0-9]+: /: error: /'
}
mapfile -t ascii < <(cd "$top" && LC_ALL=C grep -L '[^ -~[:space:]]' tests/told/*.c examples/*.c)
for words in "" --first --all; do
    judged=(${words:+"$words"} "${ascii[@]}" "$work/many.c" "$work/spares.c")
    (cd "$top" && "$oscheck" "${judged[@]}") 2>&1 | plain >plain.told
    (cd "$top" && "$oscheck" --format=gcc "${judged[@]}") >gcc.told 2>&1
    (cd "$top" && "$oscheck" --format=sarif "${judged[@]}") | "$top/tests/sarif.py" "$(cat "$top/VERSION")" >sarif.told 2>&1
    grep -v 'more [ew]' gcc.told >wanted
    grep 'more [ew]' gcc.told >>wanted
    diff wanted sarif.told >report
    sed -E 's/ \[[a-z]+(-[a-z0-9]+)*\]$//' gcc.told | diff plain.told - >>report
    [ "$(wc -l <plain.told)" -gt 100 ] || echo "fewer than there are" >>report
    : >out
    status=0
    check "three formats of the same errors and warnings, by ${words:-twenty}" 0 "" ""
done
# Each line of an error or a warning is one for VS Code's matcher of gcc, as the C/C++ extension has it.
grep -v 'more [ew]' gcc.told | python3 -c 'import re, sys
pattern = re.compile(r"^(.*?):(\d+):(\d*):?\s+(?:fatal\s+)?(warning|error):\s+(.*)$")
sys.stdout.writelines(line for line in sys.stdin if not pattern.match(line.rstrip("\n")))' >report
check "lines that editors match" 0 "" ""
# So they are for Vim, by the compiler gcc that comes with it, where it is here.
if vim --version 2>/dev/null | grep -q '+quickfix' && compgen -G '/usr/share/vim/vim*/compiler/gcc.vim' >/dev/null; then
    vim -u NONE -i NONE -N -es -c 'compiler gcc' -c 'cgetfile gcc.told' \
        -c 'let found = filter(getqflist(), {at, line -> line.valid})' \
        -c 'let g:words = {"e": "error", "w": "warning"}' \
        -c 'call writefile(map(found, {at, line -> line.lnum .. ":" .. line.col .. ": " .. g:words[line.type] .. ": " .. line.text}), "vim.told")' -c 'qa!'
    grep -v 'more [ew]' gcc.told | sed 's/^[^:]*://' | diff - vim.told >report 2>&1
    status=$?
    check "lines that Vim reads" 0 "" ""
fi
"$oscheck" --help >help 2>report
status=$?
: >out
check "help" 0 "" ""
judges "no words" 0 "$(sed -e ':a' -e '$!{N;ba' -e '}' -e 's|\n| / |g' help)"
head -n 1 help >report
check "the front of the help" 0 "" "oscheck judges OpenStream programs as a compiler does. Nothing is run."
# judge_without NUMBER WORD..: judges files, and lets the allocation of that number fail.
judge_without() {
    : >out
    LD_PRELOAD=$work/failing_allocation.so FAILING_ALLOCATION=$1 "$oscheck_program" "${@:2}" >report 2>&1
    status=$?
}
if [ "$most" != 0 ]; then
    judge_without 1 first.c
    check "no memory for the words of a judge" 2 "" "memory ran out"
    judge_without 20 first.c empty.c
    check "no memory for a file that is judged" 2 "" "first.c: memory ran out / empty.c:1: error 23: no function main of type int without parameters: write int main(void)"
    # SARIF is whole, or nothing of it is written.
    : >halves
    for number in $(seq 2 15 452); do
        LD_PRELOAD=$work/failing_allocation.so FAILING_ALLOCATION=$number "$oscheck_program" --format=sarif spare.c first.c >told 2>report
        status=$?
        echo "memory ran out" >wanted
        [ "$status" = 0 ] || [ -s told ] || cmp -s report wanted || echo "allocation $number: nothing told" >>halves
        [ ! -s told ] || "$top/tests/sarif.py" "$(cat "$top/VERSION")" <told >/dev/null 2>&1 || echo "allocation $number: no SARIF" >>halves
    done
    mv halves report
    status=0
    check "no memory for SARIF" 0 "" ""
fi
# stops NAME TEXT WANTED: compares the first line that is told of a text that is no program.
stops() {
    printf '%b' "$2" >stop.c
    : >out
    "$oscheck" stop.c >told 2>&1
    status=$?
    head -n 1 told >report
    check "$1" 1 "" "stop.c:$3"
}
stops "a text that ends early" 'int main(void) {\n' "1:17: error 4: expected a statement, '}', 'int' or 'unsigned', found the end of the text"
stops "a text with a bracket too many" 'int main(void) {\n}}' "2:2: error 4: expected 'int', 'unsigned', 'const' or the end of the text, found '}'"
stops "an expression without its end" 'int main(void) {\n    return 1\n}\n' "3:1: error 4: expected an operator, ';' or '?', found '}'"
stops "an operator without an operand" 'int main(void) {\n    return 1 +;\n}\n' "2:15: error 4: expected an expression, found ';'"
stops "two names side by side" 'int main(void) {\n\tif (a b) ;\n}\n' "2:8: error 4: expected an operator, ')', '(', '[' or '?', found 'b'"
stops "a pragma of no kind" 'int main(void) {\n#pragma omp tusk\n}\n' "2:13: error 4: found 'tusk': there are no pragmas but omp task, omp tick and omp taskwait"
stops "a pragma with more behind it" 'int main(void) {\n#pragma omp taskwait 1\n}\n' "2:22: error 4: expected the end of the line, found '1'"
stops "a pragma that ends early" 'int main(void) {\n#pragma omp tick(s >>\n1)\n}\n' "2:22: error 4: found the end of the line: a pragma ends with its line; put a backslash at the end of each line that goes on in the next one"
# Each text of tests/told with what is told of it: above all what C has and this language hasn't.
(cd "$top/tests/told" && "$oscheck" ./*.c) >told 2>&1
status=$?
cat "$top"/tests/told/*.told | sed 's|^\([a-z_]*\.c:\)|./\1|' >wanted
: >out
diff wanted told >report
check "texts in tests/told" 1 "" ""
# shows NAME TEXT WANTED: compares all that is told of a text, whose lines are parted by " / ".
shows() {
    printf '%b' "$2" >stop.c
    : >out
    "$oscheck" stop.c >report 2>&1
    status=$?
    check "$1" 1 "" "stop.c:$3"
}
shows "a mark behind the text" 'int main(void) {\n' "1:17: error 4: expected a statement, '}', 'int' or 'unsigned', found the end of the text /     1 | int main(void) { /       |                 ^"
shows "a line with bytes that are no text" 'int main(void) { /* \377\001 */ x = 1; }\n' \
    "1:27: error 10: 'x' isn't declared here: declare it before, in a scope that is still open /     1 | int main(void) { /* ?  */ x = 1; } /       |                           ^"
shows "a byte behind others that are harmless" "int main(void) { /* ' */ int x = 1; // '\n    x = 2 @ 3; }\n" \
    "2:11: error 1: '@' begins no token: take it out /     2 |     x = 2 @ 3; } /       |           ^"
shows "an open comment behind a closed one" 'int main(void) { /* a */ /* b\n' \
    "1:26: error 2: a comment that is never closed: end it by */ /     1 | int main(void) { /* a */ /* b /       |                          ^~"
shows "a large number behind another" 'int main(void) { int x = 1 + 99999999999; }\n' \
    "1:30: error 3: a number above 2147483647: use a smaller one, or write u behind it, up to 4294967295 /     1 | int main(void) { int x = 1 + 99999999999; } /       |                              ^~~~~~~~~~~"
shows "a large number of the type unsigned" 'int main(void) { unsigned x = 1u + 4294967296u; }\n' \
    "1:36: error 3: a number above 4294967295: use a smaller one /     1 | int main(void) { unsigned x = 1u + 4294967296u; } /       |                                    ^~~~~~~~~~~"
shows "a large hexadecimal number" 'int main(void) { int x = 0xffffffff0; }\n' \
    "1:26: error 3: a number above 4294967295: use a smaller one /     1 | int main(void) { int x = 0xffffffff0; } /       |                          ^~~~~~~~~~~"
blanks=$(printf '%200s' '')
shows "a long line" "int main(void) {$blanks x = 1;$blanks }\n" \
    "1:218: error 10: 'x' isn't declared here: declare it before, in a scope that is still open /     1 | ${blanks:0:119} x = 1;${blanks:0:34} /       | ${blanks:0:120}^"
# completes NAME STATUS TEXT OUT REPORT: asks for a program that begins as a text does; in OUT the lines are parted by " / ".
completes() {
    printf '%b' "$3" >stop.c
    "$oscheck" --complete stop.c >out 2>report
    status=$?
    sed -e ':a' -e '$!{N;ba' -e '}' -e 's|\n| / |g' out >whole
    printf '%s\n' "$4" >wanted
    cmp -s whole wanted && : >out
    check "$1" "$2" "" "$5"
}
completes "a text that ends early, completed" 0 'int main(void) {\n' "int main(void) { }" ""
completes "a pragma that is cut in a comment, completed" 0 'int main(void) {\n#pragma omp task input( // osin\n' \
    "int main(void) { / #pragma omp task input( osin ) /  ; }" ""
completes "a pragma without its line's end, completed" 0 'int main(void) {\n#pragma omp task' "int main(void) { / #pragma omp task /  ; }" ""
completes "a program, completed" 0 'int main(void) {\n x = 1; }\n' "int main(void) { /  x = 1; }" ""
completes "a text with a byte that begins no token, completed" 1 'int main(void) { $' "" "stop.c:1:18: error 1: '\$' begins no token: take it out /     1 | int main(void) { \$ /       |                  ^"
"$oscheck" --complete stop.c none.c >out 2>report
status=$?
check "files that can't be completed" 2 "" "stop.c:1:18: error 1: '\$' begins no token: take it out /     1 | int main(void) { \$ /       |                  ^ / none.c: can't be read"

# The program that packs slots.
# packs NAME STATUS INPUT OUT REPORT WORD..: runs it over an input; the output is compared in hexadecimal.
packs() {
    printf '%b' "$3" | "$ospack" "${@:6}" >out 2>report
    status=$?
    check "$1" "$2" "$4" "$5"
}
packs "slots" 0 '\003\000abcxyz\000\000defghi' 03006162630000 "" pack 8
packs "no slots" 0 '' "" "" pack 8
packs "a slot that is full" 0 '\001\000a\001\000b' 010061010062 "" pack 3
packs "pieces" 0 '\003\000abc\000\000' 03006162630000000000000000000000 "" unpack 8
packs "a slot whose length passes it" 3 '\003\000abcxyz\007\000defghi' 0300616263 "slot 1 length 7" pack 8
packs "a slot with a long length" 3 '\000\001abcxyz' "" "slot 0 length 256" pack 8
packs "a slot that ends early" 3 '\003\000abcxyz\000\000de' 0300616263 "slot 1 ends early" pack 8
packs "a piece that ends in its length" 3 '\003\000abc\001' 0300616263000000 "slot 1 ends early" unpack 8
packs "a piece that ends early" 3 '\003\000ab' "" "slot 0 ends early" unpack 8
packs "a piece whose length passes a slot" 3 '\007\000abcdefg' "" "slot 0 length 7" unpack 8
for words in "" pack "pack 1" "pack 65537" "pack x" "pack -8" "pack 8 8" "shrink 8" "PACK 8"; do
    # shellcheck disable=SC2086
    packs "words that ask for no packing: $words" 2 '' "" usage $words
done
packs "the largest slot" 0 '\000\000' "$(printf '00%.0s' $(seq 65536))" "" unpack 65536
printf '\001\000a' | "$ospack" pack 3 >/dev/full 2>report
status=$?
: >out
check "slots for a full disk" 6 "" "write fault"
"$ospack" pack 8 <folder >out 2>report
status=$?
check "a folder for slots" 5 "" "read fault"
if [ "$most" != 0 ]; then
    LD_PRELOAD=$work/failing_allocation.so FAILING_ALLOCATION=1 "$ospack_program" pack 8 </dev/null >out 2>report
    status=$?
    check "no memory for the words of a packer" 7 "" "out of memory"
fi

# The program that shows runs.
# shows NAME STATUS LINES WORD..: asks it for something, and compares what it tells.
shows() {
    : >out
    "$osview" "${@:4}" >report 2>&1
    status=$?
    check "$1" "$2" "" "$3"
}
shows "a run where all is done" 0 \
    "main ended after 1 activation / 1 of 1 activations are done / 4 of 4 bytes of the output are there" report first.c in.bin
shows "a byte that traps, in a sentence" 1 \
    "main ended after 3 activations / 2 of 3 activations are done / 1 of 3 bytes of the output are there / activation 1, of the task in line 7, trapped in line 8: division by zero" \
    report "$top/examples/divide.c" zero.bin
head -c 300 /dev/zero >zeros.bin
shows "many that trap, in one line" 1 \
    "main ended after 300 activations / 0 of 300 activations are done / 0 of 300 bytes of the output are there / activation 0, of the task in line 7, trapped in line 8: division by zero; likewise 299 more of this task" \
    report "$top/examples/divide.c" zeros.bin
shows "an input that ends before a window" 1 \
    "main ended after 1 activation / 0 of 1 activations are done / 0 of 4 bytes of the output are there / activation 0, of the task in line 3, waits for element 2 of stream osin, which stands past the end of the input; the stream has 2 of the 4 asked for" \
    report first.c short.bin
cat >waits.c <<'END'
int main(void) {
    int st __attribute__((stream)), s[2] __attribute__((stream));
    int k, j;
    for (k = 0; k < 3; k++) {
        int x, y;
        #pragma omp task input(st >> x) output(st << y)
        y = x + 1;
    }
    for (k = 0; k < 4; k++) {
        int x, y;
        #pragma omp task input(s[1] >> x) output(osout << y)
        y = x;
    }
    #pragma omp task input(s[1] >> k)
    {
        int z = k;
    }
    #pragma omp task output(s[1] << k)
    k = 300 / osin_len;
    #pragma omp task input(s[0] >> j) output(osout << k)
    k = j + 1;
    #pragma omp task output(s[0] << k)
    while (1) {
    }
    k = 1 / 0;
}
END
shows "tasks that wait" 1 "$(printf '%s / ' \
    "main trapped in line 25 after 11 activations: division by zero" "2 of 11 activations are done" "1 of 5 bytes of the output are there" \
    "activation 0, of the task in line 6, waits for itself: stream st has no first element; likewise 2 more of this task" \
    "activation 4, of the task in line 11, waits for element 1 of stream s[1], which no task writes; the stream has 1 of the 5 asked for; the task in line 14 reads this stream too; likewise 2 more of this task" \
    "activation 7, of the task in line 14, waits for element 4 of stream s[1], which no task writes; the stream has 1 of the 5 asked for; the task in line 11 reads this stream too" \
    "activation 9, of the task in line 20, never ran, since activation 10 failed" \
    "activation 10, of the task in line 22, used up its turns" | sed 's| / $||')" report waits.c in.bin
cat >passes.c <<'END'
int main(void) {
    int w[4], y, k, s __attribute__((stream));
    for (k = 0; k < osin_len / 4; k++) {
        #pragma omp task input(osin >> w[5]) output(osout << y)
        y = w[0];
    }
    #pragma omp task input(s >> w[0]) output(osout << y)
    y = w[1];
}
END
printf '\001\002\003\004\005\006\007\010' >eight.bin
shows "a burst that passes its window, and one of 0" 1 "$(printf '%s / ' \
    "main ended after 3 activations" "1 of 3 activations are done" "1 of 3 bytes of the output are there" \
    "activation 0, of the task in line 4, leaves elements of stream osin out: its window has size 4 and burst 5; likewise 1 more" \
    "activation 1, of the task in line 4, waits for element 8 of stream osin, which stands past the end of the input; the stream has 8 of the 9 asked for; its window has size 4 and burst 5" \
    "activation 2, of the task in line 7, waits for element 0 of stream s, which no task writes; the stream has 0 of the 4 asked for; its window has size 4 and burst 0, which looks without taking" | sed 's| / $||')" \
    report passes.c eight.bin
shows "a chain that ends at nobody, in sentences" 0 \
    "activation 4, of the task in line 11, waits for element 1 of stream s[1], which no task writes; the stream has 1 of the 5 asked for; the task in line 14 reads this stream too" \
    explain waits.c in.bin 4
shows "one that waits for itself, in a sentence" 0 \
    "activation 0, of the task in line 6, waits for itself: stream st has no first element" explain waits.c in.bin 0
shows "one that was poisoned, and the one that failed" 1 "$(printf '%s / ' \
    "activation 9, of the task in line 20, never ran, since activation 10 failed" \
    "activation 10, of the task in line 22, used up its turns" | sed 's| / $||')" explain waits.c in.bin 9
shows "one that is done, in a sentence" 1 "activation 3, of the task in line 11, is done" explain waits.c in.bin 3
shows "an activation that there isn't, in a sentence" 1 "no activation 11: main created 11 activations" explain waits.c in.bin 11
cat >links.c <<'END'
int main(void) {
    int s __attribute__((stream)), t __attribute__((stream)), u __attribute__((stream));
    int x, y;
    #pragma omp task input(t >> x) output(osout << y)
    y = x;
    #pragma omp task input(s >> x) output(t << y)
    y = x + 1;
    #pragma omp task input(u >> x) output(s << y)
    y = x;
}
END
shows "a chain of three, in sentences" 0 "$(printf '%s / ' \
    "activation 0, of the task in line 4, waits for element 0 of stream t from activation 1, which waits too" \
    "activation 1, of the task in line 6, waits for element 0 of stream s from activation 2, which waits too" \
    "activation 2, of the task in line 8, waits for element 0 of stream u, which no task writes; the stream has 0 of the 1 asked for" | sed 's| / $||')" \
    explain --workers 1 links.c in.bin 0
shows "a program that is refused, and not explained" 3 "refused 23 line 1" explain empty.c in.bin 0
shows "a value behind poison" 1 "0 50 activation 0 line 7 / 1 poison 1 activation 1 line 7 / 2 20 activation 2 line 7" \
    stream "$top/examples/divide.c" zero.bin osout
shows "elements of a stream that are values" 1 "0 75 activation 8 line 18" stream waits.c in.bin "s[1]"
shows "elements that wait" 1 "0 none activation 0 line 6 / 1 none activation 1 line 6 / 2 none activation 2 line 6" stream waits.c in.bin st
shows "elements that are poison" 1 "0 poison 10 activation 10 line 22" stream waits.c in.bin "s[0]"
shows "elements of the output, from a position on" 1 "3 none activation 6 line 11 / 4 poison 10 activation 9 line 20" stream waits.c in.bin osout 3
shows "elements of the input" 0 "1 2 input / 2 3 input" stream first.c in.bin osin 1 2
shows "elements behind the last one" 0 "" stream first.c in.bin osout 4
shows "no elements where at most 0 are asked for" 0 "" stream first.c in.bin osout 0 0
cat >negative.c <<'END'
int main(void) {
    int s __attribute__((stream));
    int w[2], v[2], x;
    #pragma omp task output(s << w[2])
    { w[0] = -2147483647 - 1; w[1] = 2147483647; }
    #pragma omp task input(s >> v[2]) output(osout << x)
    x = 1;
}
END
shows "elements that aren't bytes" 0 "0 -2147483648 activation 0 line 4 / 1 2147483647 activation 0 line 4" \
    stream negative.c in.bin s
shows "the input, which no item names" 0 "0 1 input / 1 2 input / 2 3 input / 3 4 input" stream negative.c in.bin osin
echo 'int main(void) { int osin; osin = 1; }' >hidden.c
shows "the input, whose name a variable hides" 0 "3 4 input" stream hidden.c in.bin osin 3
shows "the output, which no task writes" 0 "" stream hidden.c in.bin osout
cat >own.c <<'END'
int main(void) {
    int osin __attribute__((stream)), x, y;
    #pragma omp task output(osin << x)
    x = 7;
    #pragma omp task input(osin >> x) output(osout << y)
    y = x;
}
END
shows "a stream of a program's own that is called osin" 0 "0 7 activation 0 line 3" stream own.c in.bin osin
for name in s "s[2]" "s[01]" "s[+1]" "s[-1]" "s[1" "s[]" "s[1]x" "s [1]" "st[0]" k none "" osi "osin[0]" osout1; do
    shows "a name that is no stream's: $name" 2 "no stream $name" stream waits.c in.bin "$name"
done
graph_begins='digraph streams { /   node [fontname="sans-serif"];'
shows "a graph, with a task that traps" 1 "$graph_begins"' /   task0 [shape=box, label="task in line 7\n3 activations\n2 done, 1 trapped"]; /   stream0 [shape=ellipse, label="osin\n3 written, 3 read, 0 left"]; /   stream1 [shape=ellipse, label="osout\n2 written"]; /   stream0 -> task0 [label="1, burst 1"]; /   task0 -> stream1 [label="1"]; / }' \
    graph "$top/examples/divide.c" zero.bin
shows "a graph with tasks that wait, and streams by their names" 1 "$graph_begins"' /   task0 [shape=box, label="task in line 6\n3 activations\n0 done, 3 starved"]; /   task1 [shape=box, label="task in line 11\n4 activations\n1 done, 3 starved"]; /   task2 [shape=box, label="task in line 14\n1 activation\n0 done, 1 starved"]; /   task3 [shape=box, label="task in line 18\n1 activation\n1 done"]; /   task4 [shape=box, label="task in line 20\n1 activation\n0 done, 1 poisoned"]; /   task5 [shape=box, label="task in line 22\n1 activation\n0 done, 1 out of turns"]; /   stream1 [shape=ellipse, label="osout\n1 written"]; /   stream2 [shape=ellipse, label="st\n0 written, 0 read, 0 left"]; /   stream3 [shape=ellipse, label="s[0]\n0 written, 0 read, 0 left"]; /   stream4 [shape=ellipse, label="s[1]\n1 written, 1 read, 0 left"]; /   stream2 -> task0 [label="1, burst 1"]; /   task0 -> stream2 [label="1"]; /   stream4 -> task1 [label="1, burst 1"]; /   task1 -> stream1 [label="1"]; /   stream4 -> task2 [label="1, burst 1"]; /   task3 -> stream4 [label="1"]; /   stream3 -> task4 [label="1, burst 1"]; /   task4 -> stream1 [label="1"]; /   task5 -> stream3 [label="1"]; / }' \
    graph waits.c in.bin
cat >sizes.c <<'END'
int main(void) {
    int n;
    for (n = 2; n < 4; n++) {
        int w[n], v[n];
        #pragma omp task input(osin >> w[1]) output(osout << v[n])
        v[0] = w[0];
    }
}
END
shows "a graph with windows that overlap, and sizes that differ" 0 "$graph_begins"' /   task0 [shape=box, label="task in line 5\n2 activations\n2 done"]; /   stream0 [shape=ellipse, label="osin\n4 written, 4 read, 0 left"]; /   stream1 [shape=ellipse, label="osout\n5 written"]; /   stream0 -> task0 [label="2 to 3, burst 1"]; /   task0 -> stream1 [label="2 to 3"]; / }' \
    graph sizes.c in.bin
graph_begins='digraph activations { /   node [shape=box, fontname="sans-serif"]; /   input [shape=ellipse];'
shows "some activations, and the input" 1 "$graph_begins"' /   a1 [label="1: line 7\ntrapped"]; /   input -> a1 [label="osin[1..2]"]; /   a2 [label="2: line 7\ndone"]; /   input -> a2 [label="osin[2..3]"]; / }' \
    graph "$top/examples/divide.c" zero.bin --activations 1..9
shows "an activation, and a dashed one that writes what it reads" 1 "$graph_begins"' /   a9 [label="9: line 20\npoisoned"]; /   a10 [style=dashed, label="10: line 22\nout of turns"]; /   a10 -> a9 [label="s[0][0..1]"]; / }' \
    graph --activations=9..10 waits.c in.bin
shows "no activations" 0 "$graph_begins / }" graph first.c in.bin --activations 3..1
shows "a program that is refused, and not drawn" 3 "refused 23 line 1" graph empty.c in.bin
shows "a run with fewer turns for main" 1 \
    "main used up its turns after 2 activations / 1 of 2 activations are done / 1 of 2 bytes of the output are there / activation 1, of the task in line 7, trapped in line 8: division by zero" \
    report "$top/examples/divide.c" --control=2 zero.bin
shows "a stream of a run with fewer turns" 1 "0 50 activation 0 line 7" stream --workers 1 --control 1 "$top/examples/divide.c" zero.bin osout --budget 1
cat >chain.c <<'END'
int main(void) {
    int s __attribute__((stream)), t __attribute__((stream));
    int x, y;
    #pragma omp task input(t >> x) output(osout << y)
    y = x;
    #pragma omp task output(s << x)
    x = 5;
    #pragma omp task input(s >> x) output(t << y)
    y = x + 1;
    #pragma omp task input(osin >> x) output(osout << y)
    y = x;
    #pragma omp task input(s >> x)
    { int z = x; }
}
END
# A task takes a step for each instruction: reading or storing an element takes two, a number, an operation and the end one each.
# `main` takes two for a scalar that is declared, two for an item without a window, one for a task, and one at its end.
shows "steps of a chain of three whose last one is created first" 1 "$(printf '%s / ' \
    "main: 26 steps, 55.3 % of the steps of the run, 0 turns of its budget" \
    "line 4: 1 activation, 1 of them ran, 5 to 5 steps each, 5 on average, 5 in all, 10.6 % of the steps of the run, at most 0 turns of its budget" \
    "line 6: 1 activation, 1 of them ran, 4 to 4 steps each, 4 on average, 4 in all, 8.5 % of the steps of the run, at most 0 turns of its budget" \
    "line 8: 1 activation, 1 of them ran, 7 to 7 steps each, 7 on average, 7 in all, 14.8 % of the steps of the run, at most 0 turns of its budget" \
    "line 10: 1 activation, 1 of them ran, 5 to 5 steps each, 5 on average, 5 in all, 10.6 % of the steps of the run, at most 0 turns of its budget" \
    "line 12: 1 activation, 0 of them ran" "all tasks: 21 steps" \
    "the longest chain of activations that wait for one another: 16 steps" \
    "more workers can make the tasks 1.32 times as fast at most" | sed 's| / $||')" steps chain.c in.bin
# A round of its loop takes a turn, four steps for the test, four for two scalars, five for the task, and five to go on.
shows "steps of a task of which one activation trapped" 1 "$(printf '%s / ' \
    "main: 68 steps, 78.1 % of the steps of the run, 4 turns of its budget" \
    "line 7: 3 activations, 3 of them ran, 5 to 7 steps each, 6 on average, 19 in all, 21.8 % of the steps of the run, at most 0 turns of its budget" \
    "all tasks: 19 steps" "the longest chain of activations that wait for one another: 7 steps" \
    "more workers can make the tasks 2.72 times as fast at most" | sed 's| / $||')" steps "$top/examples/divide.c" zero.bin --workers 1
shows "steps of a run with fewer turns for main, the last step the one that needs a turn" 1 "$(printf '%s / ' \
    "main: 43 steps, 78.1 % of the steps of the run, 2 turns of its budget" \
    "line 7: 2 activations, 2 of them ran, 5 to 7 steps each, 6 on average, 12 in all, 21.8 % of the steps of the run, at most 0 turns of its budget" \
    "all tasks: 12 steps" "the longest chain of activations that wait for one another: 7 steps" \
    "more workers can make the tasks 1.72 times as fast at most" | sed 's| / $||')" steps "$top/examples/divide.c" zero.bin --control 2
cat >loop.c <<'END'
int main(void) {
    int y;
    #pragma omp task output(osout << y)
    { y = 3; while (y) y = y - 1; }
}
END
shows "steps of a loop, and a turn for each test of it" 0 "$(printf '%s / ' \
    "main: 6 steps, 12.7 % of the steps of the run, 0 turns of its budget" \
    "line 3: 1 activation, 1 of them ran, 41 to 41 steps each, 41 on average, 41 in all, 87.2 % of the steps of the run, at most 4 turns of its budget" \
    "all tasks: 41 steps" "the longest chain of activations that wait for one another: 41 steps" \
    "more workers can make the tasks 1.00 times as fast at most" | sed 's| / $||')" steps loop.c in.bin
shows "steps of a task that takes all turns of its budget" 1 "$(printf '%s / ' \
    "main: 6 steps, 13.9 % of the steps of the run, 0 turns of its budget" \
    "line 3: 1 activation, 1 of them ran, 37 to 37 steps each, 37 on average, 37 in all, 86.0 % of the steps of the run, at most 3 turns of its budget" \
    "all tasks: 37 steps" "the longest chain of activations that wait for one another: 37 steps" \
    "more workers can make the tasks 1.00 times as fast at most" | sed 's| / $||')" steps loop.c in.bin --budget 3
cat >calls.c <<'END'
int twice(int a) { return a + a; }
int main(void) {
    int n, y;
    n = twice(1);
    #pragma omp task output(osout << y)
    y = twice(n);
    #pragma omp task output(osout << y)
    { int k; for (k = 0; k < n; k++) y = twice(k); }
    #pragma omp task output(osout << y)
    y = n;
}
END
# A call takes a turn, and so does each test of a loop. The body of the call takes four steps, and the call two behind its arguments.
shows "turns of calls and of a loop, by task" 0 "$(printf '%s / ' \
    "main: 22 steps, 26.1 % of the steps of the run, 1 turn of its budget" \
    "line 5: 1 activation, 1 of them ran, 10 to 10 steps each, 10 on average, 10 in all, 11.9 % of the steps of the run, at most 1 turn of its budget" \
    "line 7: 1 activation, 1 of them ran, 48 to 48 steps each, 48 on average, 48 in all, 57.1 % of the steps of the run, at most 5 turns of its budget" \
    "line 9: 1 activation, 1 of them ran, 4 to 4 steps each, 4 on average, 4 in all, 4.7 % of the steps of the run, at most 0 turns of its budget" \
    "all tasks: 62 steps" "the longest chain of activations that wait for one another: 48 steps" \
    "more workers can make the tasks 1.30 times as fast at most" | sed 's| / $||')" steps calls.c in.bin
echo 'int main(void) { }' >idle.c
shows "steps where there is no task" 0 "$(printf '%s / ' \
    "main: 1 step, 100.0 % of the steps of the run, 0 turns of its budget" "all tasks: 0 steps" \
    "the longest chain of activations that wait for one another: 0 steps" \
    "more workers can make the tasks 1.00 times as fast at most" | sed 's| / $||')" steps idle.c in.bin
shows "a program that is refused, and none of whose steps are told" 3 "refused 23 line 1" steps empty.c in.bin
shows "a program that is refused, and not run" 3 "refused 23 line 1" report empty.c in.bin
shows "a program that is refused, and none of whose streams is shown" 3 "refused 23 line 1" stream empty.c in.bin none
shows "an input that is too long to be shown" 4 "too long input" report first.c long.bin
shows "a folder for a program that is shown" 5 "read fault program" report folder in.bin
"$osview" --help >help 2>report
status=$?
: >out
check "help of what shows" 0 "" ""
for words in "" report "report first.c" "report first.c in.bin in.bin" "stream first.c in.bin" "stream first.c in.bin osin x" \
    "stream first.c in.bin osin 1 -1" "stream first.c in.bin osin 1 2 3" "stream first.c in.bin osin 18446744073709551616" "show first.c in.bin" "steps first.c" "steps first.c in.bin 1" --versions \
    "report --budget first.c in.bin" "report --budget 1000000001 first.c in.bin" "report --workers 0 first.c in.bin" \
    "report --workers=65 first.c in.bin" "report --control 1 --control 1 first.c in.bin" "report first.c in.bin --budget" \
    "report --turns 1 first.c in.bin" "report --budget= first.c in.bin" "report -w first.c" "--help report" "graph first.c" \
    "explain first.c in.bin" "explain first.c in.bin x" "explain first.c in.bin 65536" "explain first.c in.bin 0 0" "explain first.c in.bin 0 --activations 1..2" \
    "graph first.c in.bin osin" "graph first.c in.bin --activations 1" "graph first.c in.bin --activations 1..x" \
    "report first.c in.bin --activations 1..2" "stream first.c in.bin osin --activations 1..2" "steps first.c in.bin --activations 1..2"; do
    # shellcheck disable=SC2086
    shows "words that ask for nothing to be shown: $words" 2 "$(sed -e ':a' -e '$!{N;ba' -e '}' -e 's|\n| / |g' help)" $words
done
"$osview" report first.c in.bin >/dev/full 2>report
status=$?
: >out
check "a report in sentences for a full disk" 6 "" ""
"$osview" stream first.c in.bin osout >/dev/full 2>report
status=$?
: >out
check "a stream for a full disk" 6 "" ""
if command -v dot >/dev/null; then
    if "$top/tests/pictures.sh" >report 2>&1; then status=0; else status=1; fi
    : >out
    check "graphs that Graphviz draws" 0 "" "4 pictures"
fi
if [ "$most" != 0 ]; then
    LD_PRELOAD=$work/failing_allocation.so FAILING_ALLOCATION=1 "$osview_program" report first.c in.bin >out 2>report
    status=$?
    check "no memory for the words of what shows" 7 "" ""
fi

# A coder of pictures that writes slots: what is packed is as long as the guide says, and gives back the picture. So does noise,
# which is packed as it is.
# squeezed NAME FILE LENGTH: codes a file, packs and unpacks what was written, and decodes it.
squeezed() {
    run run "$top/examples/squeeze.c" "$2"
    "$ospack" pack 4099 <out >packed
    "$ospack" unpack 4099 <packed >slots
    run run "$top/examples/unsqueeze.c" slots
    if [ "$status" = 0 ] && cmp -s "$2" out && [ "$(wc -c <packed)" = "$3" ]; then
        passed=$((passed + 1))
    else
        failed=$((failed + 1))
        printf '%s: status %s, report %s, %s bytes packed\n' "$1" "$status" "$(told)" "$(wc -c <packed)"
    fi
}
python3 "$top/examples/picture.py" >picture
squeezed "a picture, squeezed" picture 104207
bytes 65536 "x / 8388608" >noise.picture
squeezed "noise, squeezed" noise.picture 65584
head -c 65536 /dev/zero >black
squeezed "a black picture, squeezed" black 496

# Sums that zlib makes, too: of nothing, of less than a block, of several blocks and a rest.
for file in nothing.bin three.bin odd.bin sine.bin picture; do
    for sum in crc:crc32 adler:adler32; do
        python3 -c 'import sys, zlib
with open(sys.argv[2], "rb") as file:
    sys.stdout.buffer.write(getattr(zlib, sys.argv[1])(file.read()).to_bytes(4, "big"))' "${sum#*:}" "$file" >wanted
        for workers in 1 4; do
            run run "$top/examples/${sum%:*}.c" "$file" --workers "$workers"
            agree "${sum%:*} over $file by $workers workers" 0 wanted "control done / output 4 of 4"
        done
    done
done

# Noise as another program makes it, over a picture, and the picture without it.
printf '\377\002\003\200' >seed
cat seed picture >seeded
python3 -c 'import sys
def mixed(x):
    x = (x ^ x >> 16) * 0x85ebca6b & 0xffffffff
    x = (x ^ x >> 13) * 0xc2b2ae35 & 0xffffffff
    return x ^ x >> 16
data = sys.stdin.buffer.read()
seed, data = int.from_bytes(data[:4], "little"), data[4:]
made = bytearray()
for at, byte in enumerate(data):
    if at % 256 == 0:
        x = mixed(seed + mixed(at // 256 + 1) & 0xffffffff) | 1
    x ^= x << 13 & 0xffffffff
    x ^= x >> 17
    x ^= x << 5 & 0xffffffff
    made.append(byte + (x >> 24) & 255)
sys.stdout.buffer.write(made)' <seeded >noisy
for workers in 1 4; do
    run run "$top/examples/noise.c" seeded --workers "$workers"
    agree "noise over a picture by $workers workers" 0 noisy "control done / output 262144 of 262144"
done
cat seed noisy >seeded
run run "$top/examples/unnoise.c" seeded
agree "a picture without its noise" 0 picture "control done / output 262144 of 262144"

# The forms of the guide, over what is made of their inputs by another program.
# formed NAME PROGRAM FILE EXPRESSION: runs a program, by 1 and by 4 workers; the expression gives the bytes that are wanted of `data`.
formed() {
    local workers
    python3 -c 'import sys
from functools import reduce
with open(sys.argv[1], "rb") as file:
    data = file.read()
sys.stdout.buffer.write(bytes(eval(sys.argv[2])))' "$3" "$4" >wanted
    for workers in 1 4; do
        run run "$2" "$3" --workers "$workers"
        agree "$1 over $3 by $workers workers" 0 wanted "control done / output $(wc -c <wanted) of $(wc -c <wanted)"
    done
}
head -c 44 odd.bin >header.bin
printf '12345678' >eight.bin
sed 's/WIDTH/640/g' "$top/examples/forms/mirror.c" >mirror.c
for file in odd.bin three.bin header.bin eight.bin nothing.bin; do
    formed "bytes behind a header" "$top/examples/forms/header.c" "$file" '(255 - x for x in data[44:])'
    formed "blocks and a rest" "$top/examples/forms/rest.c" "$file" \
        '[x for at in range(0, len(data) - 7, 8) for x in data[at : at + 8][::-1]] + list(data[len(data) // 8 * 8 :])'
    formed "rows that are turned round" mirror.c "$file" '[x for at in range(0, len(data) - 639, 640) for x in data[at : at + 640][::-1]]'
    formed "blocks by their diagonals" "$top/examples/forms/zigzag.c" "$file" \
        '[data[at + k] for at in range(0, len(data) - 15, 16) for k in sorted(range(16), key=lambda k: (k // 4 + k % 4, k // 4 if (k // 4 + k % 4) % 2 else k % 4))]'
    formed "a hash of 64 bits" "$top/examples/forms/fnv.c" "$file" \
        'reduce(lambda hash, x: (hash ^ x) * 0x100000001b3 & 2**64 - 1, data, 0xcbf29ce484222325).to_bytes(8, "big")'
done

# The header for editors: each example passes a C compiler's look, where one is here.
if command -v gcc >/dev/null; then
    for example in "$top"/examples/*.c "$top"/examples/forms/*.c; do
        width=''
        [ "$(basename "$example")" != mirror.c ] || width=-DWIDTH=640
        gcc -fsyntax-only -Wall $width -include "$top/examples/osin.h" "$example" >report 2>&1
        status=$?
        : >out
        : >report
        check "gcc over $(basename "$example")" 0 "" ""
    done
fi

# Bits that are packed give back the bytes, of which those behind the last whole block are left out.
# packed_bits FILE LENGTH: codes a file, packs and unpacks what was written, and decodes it; how long that is, another program counted.
packed_bits() {
    head -c $(($(wc -c <"$1") / 256 * 256)) "$1" >wanted
    run run "$top/examples/rice.c" "$1"
    "$ospack" pack 259 <out >packed
    "$ospack" unpack 259 <packed >slots
    run run "$top/examples/unrice.c" slots
    if [ "$status" = 0 ] && cmp -s wanted out && [ "$(wc -c <packed)" = "$2" ]; then
        passed=$((passed + 1))
    else
        failed=$((failed + 1))
        printf 'bits of %s: status %s, report %s, %s bytes packed\n' "$1" "$status" "$(told)" "$(wc -c <packed)"
    fi
}
packed_bits sine.bin 2832
packed_bits odd.bin 4144
packed_bits picture 168520
packed_bits nothing.bin 0

# Where the program isn't built, or was built from another commit, the toolchain runs it, and the first line says so. That is of a checkout alone.
unbuilt() {
    local copy=$work/copy
    mkdir "$copy"
    (cd "$top" && tar --exclude=out --exclude=.git -cf - .) | tar -C "$copy" -xf -
    run_copy() {
        "$copy/osrun" "$@" >"$work/out" 2>"$work/said"
        status=$?
        head -n 1 "$work/said" | grep -q "hasn't proved" || status="$status, not told"
        tail -n +2 "$work/said" >"$work/report"
    }
    run_copy run first.c short.bin
    check "a program that isn't built" 1 "" "starved 0 stream 0 position 2 producer none / control done / output 0 of 4"
    mkdir -p "$copy/crates/osrun/out"
    printf '#!/bin/sh\necho old\n' >"$copy/crates/osrun/out/osrun"
    chmod +x "$copy/crates/osrun/out/osrun"
    echo "commit another" >"$copy/crates/osrun/out/osrun.built"
    run_copy run "$work/first.c" "$work/in.bin"
    check "a program of another commit" 0 04030201 "control done / output 4 of 4"
    (cd "$work/folder" && PATH=/usr/bin:/bin "$copy/osrun" run ../first.c ../in.bin >"$work/out" 2>"$work/report")
    status=$?
    check "no toolchain" 69 "" "osrun: the command rt of the Rattle kit isn't here; README.md, \"Two commands\", says what it is for"
}
[ -n "${OSRUN_BIN-}" ] || unbuilt

# Cases of a file: which lines are cases, which of them pass, and what is told and reported of the others.
vectors() {
    (cd cases && "$osvectors" "$@") >out 2>report
    status=$?
}
# tell NAME STATUS LINES REPORT: compares the last run with the status, the lines of the output, and the report.
tell() {
    printf '%s\n' "$3" >wanted
    [ -n "$3" ] || : >wanted
    agree "$1" "$2" wanted "$4"
}
mkdir cases
cp "$top/examples/first.c" "$top/examples/in.bin" "$top/examples/waiting.c" cases/
(cd cases && "$osrun" run first.c in.bin >right 2>/dev/null)
head -c 2 cases/right >cases/short
{ cat cases/right; printf x; } >cases/long
{ head -c 2 cases/right; printf '\377'; tail -c +4 cases/right; } >cases/other
sum=$(sha256sum <cases/right | cut -c -64)
zeros=$(printf '%064d' 0)
printf 'int x' >cases/bad.c
cat >cases/divide.c <<'END'
int main(void) {
    int x, y;
    #pragma omp task input(osin >> x) output(osout << y)
    y = 1 / (x - x);
}
END
cat >cases/turns.c <<'END'
int main(void) {
    int x, y;
    #pragma omp task input(osin >> x) output(osout << y)
    { y = 0; while (y < 9) y++; }
}
END
printf '# remark\n\nfirst.c in.bin right\n  first.c\tin.bin sha256:%s --workers 1\nfirst.c in.bin sha256:%s\n' "$sum" "${sum^^}" >cases/good
vectors good
tell "cases that pass" 0 "3 of 3 passed" ""
sed 's/$/\r/' cases/good >cases/carriage
vectors carriage --jobs 1
tell "cases in lines that end in CRLF" 0 "3 of 3 passed" ""
printf 'first.c in.bin right\nfirst.c in.bin sha256:%s' "$sum" >cases/unended
vectors unended
tell "a last line without a line feed" 0 "2 of 2 passed" ""
: >cases/empty
vectors empty
tell "no cases" 0 "0 of 0 passed" ""
printf 'first.c in.bin %s\n' other short long "sha256:$zeros" >cases/wrong
printf '%s\n' 'waiting.c in.bin right' 'divide.c in.bin right' 'turns.c in.bin right --budget 2' 'bad.c in.bin right' >>cases/wrong
byte() { od -An -tu1 -j "$1" -N 1 "cases/right" | tr -d ' '; }
vectors wrong --tap tap
cp out told_by_four
{
    sed -n 1p out | grep -q "^wrong:1: first.c in.bin: byte 2 is $(byte 2), wanted 255; osout 2 $(byte 2) activation [0-9]* line 3\$" || echo "a byte"
    sed -n 2p out | grep -q "^wrong:2: first.c in.bin: byte 2 is $(byte 2), wanted the end; osout 2 " || echo "a shorter one"
    sed -n 3p out | grep -q "^wrong:3: first.c in.bin: byte $(wc -c <cases/right) is the end, wanted 120\$" || echo "a longer one"
    sed -n 4p out | grep -q "^wrong:4: first.c in.bin: the output is sha256:$sum, bytes $(wc -c <cases/right)\$" || echo "a sum"
    sed -n 5p out | grep -q "^wrong:5: waiting.c in.bin: status 1: starved 0 " || echo "one that starves"
    sed -n 6p out | grep -q "^wrong:6: divide.c in.bin: status 1: trapped 0 code 2 line 4\$" || echo "one that traps"
    sed -n 7p out | grep -q "^wrong:7: turns.c in.bin: status 1: over-budget 0\$" || echo "one over its budget"
    sed -n 8p out | grep -q "^wrong:8: bad.c in.bin: status 3: refused " || echo "a program that is refused"
} >>tellings
tell_cases() {
    if [ ! -s tellings ]; then passed=$((passed + 1)); else failed=$((failed + 1)); sed 's/^/what is told of cases: /' tellings; fi
}
tell_cases
vectors wrong --jobs 1 --junit junit
cp told_by_four wanted
agree "the same of one job as of four" 1 wanted ""
python3 - <<'END' >tellings
import xml.etree.ElementTree as tree
lines = open("cases/tap").read().split("\n")
points = [line for line in lines if line.startswith(("ok ", "not ok "))]
if lines[:2] != ["TAP version 13", "1..8"] or [line.split(" - ")[0].split()[-1] for line in points] != [str(n) for n in range(1, 9)]: print("TAP")
root = tree.parse("cases/junit").getroot()
cases = list(root.iter("testcase"))
if (root.get("tests"), root.get("failures"), root.get("errors")) != ("8", "8", "0"): print("counts of JUnit")
if [case.get("name").split(":")[0] for case in cases] != [str(n) for n in range(1, 9)]: print("names of JUnit")
END
tell_cases
cp cases/first.c 'cases/a&<#>".c'
printf 'a&<#>".c in.bin short\nmissing.c in.bin right\n' >cases/escaped
vectors escaped --junit junit
python3 -c '
import xml.etree.ElementTree as tree
cases = list(tree.parse("cases/junit").getroot().iter("testcase"))
if cases[0].get("name") != "1: a&<#>\".c in.bin" or cases[1].find("error") is None: print("names in XML")' >tellings
tell_cases
vectors escaped --tap tap
grep -qF 'not ok 1 - 1: a&<\#>".c in.bin' cases/tap && : >tellings || echo "names in TAP" >tellings
tell_cases
printf 'missing.c in.bin right\nfirst.c in.bin right\n' >cases/missing
vectors missing
tell "a file of a case that is missing" 5 "missing:1: missing.c in.bin: missing.c can't be read
1 of 2 passed" ""
vectors none
tell "a missing file of cases" 5 "" "none: can't be read"
for line in 'first.c in.bin' 'first.c in.bin sha256:12' "first.c in.bin sha256:${zeros}0" "first.c in.bin sha256:x${zeros:1}" \
    'first.c in.bin right more' 'first.c in.bin right --workers 0' 'first.c in.bin right --budget' $'first.c in.bin \377'; do
    printf 'first.c in.bin right\n# remark\n%s\nfirst.c\n' "$line" >cases/lines
    vectors lines
    tell "a line that is no case: ${line@Q}" 2 "" "lines:3: no case"
done
vectors good --tap none/tap
tell "a report that can't be written" 6 "3 of 3 passed" "none/tap: can't be written"
for words in '' 'good more' 'good --jobs 0' 'good --jobs 65' 'good --jobs' 'good --tap a --junit b' '--none' 'good --none x'; do
    # shellcheck disable=SC2086
    vectors $words
    tell "words of osvectors: $words" 2 "" "usage: osvectors FILE [--jobs N] [--tap OUT | --junit OUT] | --help | --version"
done

# Each program that has --version tells that of the file VERSION, as the man pages and the changelog do; what people call tells commit and kit too, the same for all.
version=$(cat "$top/VERSION")
built='commit ([0-9a-f]{8}|none)( with changes)?, rattle-kit-[^ ]+ logic [0-9a-f]+'
for name in oscheck osview osvectors oscc ospack; do
    program=${name}_program
    "${!program}" --version >out 2>report
    status=$?
    echo "$name $version" >wanted
    agree "the version of the program $name" 0 wanted ""
    "${!name}" --version >out 2>report
    status=$?
    [ "${!name}" = "${!program}" ] || sed -E "s/^($name $version), $built\$/\1/" out >told
    [ "${!name}" = "${!program}" ] || { sed "s/^$name //" out >>versions; mv told out; }
    agree "the version of $name, with commit and kit" 0 wanted ""
    "${!name}" --version >/dev/full 2>report
    status=$?
    : >out
    [ "${!name}" = "${!program}" ] || check "the version of $name for a full disk" 6 "" ""
done
sort -u versions 2>/dev/null | tail -n +2 >report
: >out
status=0
check "the same version, commit and kit of all" 0 "" ""
"$oscheck" --version none.c >out 2>report
status=$?
sed -i -E "s/, $built\$//" out
echo "oscheck $version" >wanted
agree "the version before a file" 0 wanted ""
grep -L "^\.TH [A-Z]* 1 [0-9-]* \"osrun $version\" \"User commands\"\$" "$top"/docs/man/*.1 >report
grep -m 1 '^## ' "$top/CHANGELOG.md" | grep -v -x "## $version" >>report
status=0
: >out
check "man pages and a changelog of another version" 0 "" ""

# The man page has each status of the table in docs/COMMAND.md, with the words that stand there for it and what is told with it.
differs=$(python3 -c 'import re, shlex, sys
def section(name, first, last):
    return open(sys.argv[1] + "/docs/" + name).read().split(first)[1].split(last)[0]
def plain(line):
    """The words of a line of the page, as they are shown."""
    if not re.match(r"\.[BI]", line):
        return line
    macro, *words = shlex.split(line)
    return ("" if macro[2:] else " ").join(words)
page = {}
for entry in section("man/osrun.1", ".SH \"EXIT STATUS\"\n.TP\n", ".PP\n").split(".TP\n"):
    number, *lines = map(plain, entry.splitlines())
    page[number] = " ".join(lines).lower()
rows = re.findall(r"(?m)^\| (\d) \| (.*) \| (.*) \|$", re.sub(r" \(.*?\)", "", section("COMMAND.md", "## Statuses\n", "\n## ")))
for number, comes, told in rows:
    for words in [comes.replace("`", "")] + re.findall("`(.*?)`", told):
        if words.lower() not in page.get(number, ""):
            print(number, words, sep=": ", end="; ")
if set(page) != {number for number, _, _ in rows}:
    print("other numbers")' "$top" 2>&1)
if [ -z "$differs" ]; then
    passed=$((passed + 1))
else
    failed=$((failed + 1))
    echo "statuses of docs/COMMAND.md that docs/man/osrun.1 tells otherwise: $differs"
fi

# The rows of tests/rows, and the command lines of the documents.
for rows in rows lines; do
    counted=$("$top/tests/$rows.py")
    echo "$counted" | head -n -1
    read -r rows_passed _ rows_failed _ < <(echo "$counted" | tail -n 1)
    passed=$((passed + rows_passed))
    failed=$((failed + rows_failed))
done

echo "$passed passed, $failed failed"
[ "$failed" = 0 ]
