#!/usr/bin/env bash
# How the time and the memory of judging a text grow with it, from its bytes through tokens and trees to the checks, as two
# tables. The first has texts that are programs, the second texts that are refused as none, the last of them completed too: for
# each kind of text and each size the milliseconds of a run, how many times those of half the size, and its kilobytes at most.
#
#     bench/checks.sh [programs | refusals]       one of the tables, or both
set -eu
top=$(cd "$(dirname "${BASH_SOURCE[0]}")/.." && pwd)
work=$(mktemp -d)
trap 'rm -rf "$work"' EXIT
(cd "$top/crates/oscheck" && rt run </dev/null) >/dev/null 2>&1 || true
oscheck=$top/crates/oscheck/out/oscheck

# text KIND BYTES: a program of about BYTES bytes.
text() {
    awk -v kind="$1" -v bytes="$2" '
    function put(piece) { printf "%s", piece; written += length(piece) }
    # a short name for each number; none is a keyword
    function name(i,  rest) {
        if (i < 26) return substr(upper, i + 1, 1)
        rest = int(i / 26) - 1
        return substr(upper, i % 26 + 1, 1) tail(rest)
    }
    function tail(i) { return i < 62 ? substr(all, i + 1, 1) : substr(all, i % 62 + 1, 1) tail(int(i / 62) - 1) }
    BEGIN {
        upper = "ABCDEFGHIJKLMNOPQRSTUVWXYZ"
        all = upper "abcdefghijklmnopqrstuvwxyz0123456789"
        if (kind == "names") {
            # as many declared names as uses
            count = int(bytes / 8.2)
            put("int main(void) {\nint " name(0))
            for (i = 1; i < count; i++) put("," name(i))
            put(";\n")
            for (i = 0; i + 1 < count; i += 2) put(name(i) "=" name(i + 1) ";")
            put("}\n")
        } else if (kind == "shadows") {
            # nested scopes that all declare one name
            put("int main(void) {\nint x;\n")
            while (written < bytes - 4000) {
                for (i = 0; i < 190; i++) put("{int x=x;")
                for (i = 0; i < 190; i++) put("}")
                put("\n")
            }
            put("}\n")
        } else if (kind == "tasks") {
            # tasks that capture 64 scalars each
            put("int main(void) {\nint y")
            for (i = 0; i < 64; i++) put("," name(i))
            put(";\n")
            while (written < bytes - 400) {
                put("#pragma omp task output(osout << y)\ny=" name(0))
                for (i = 1; i < 64; i++) put("+" name(i))
                put(";\n")
            }
            put("}\n")
        } else if (kind == "captures") {
            # one task that names every scalar, which is refused
            count = int(bytes / 8.2)
            put("int main(void) {\nint y")
            for (i = 0; i < count; i++) put("," name(i))
            put(";\n#pragma omp task output(osout << y)\ny=" name(0))
            for (i = count - 1; i > 0; i--) put("+" name(i))
            put(";\n}\n")
        } else if (kind == "early") {
            # statements, and no end
            put("int main(void) {\nint x;\n")
            while (written < bytes - 100) put("x=x+1;\n")
        } else if (kind == "middle") {
            # statements, and one without its expression in the middle
            put("int main(void) {\nint x;\n")
            while (written < bytes / 2) put("x=x+1;\n")
            put("x=;\n")
            while (written < bytes - 100) put("x=x+1;\n")
            put("}\n")
        } else if (kind == "chain") {
            # one expression, and no operand at its end
            put("int main(void) {\nreturn 1")
            while (written < bytes - 100) put("+1")
            put("+;\n}\n")
        } else if (kind == "nests") {
            # parentheses as deep as may be, and one too many that opens
            put("int main(void) {\nint x;\n")
            while (written < bytes - 1000) {
                put("x=")
                for (i = 0; i < 196; i++) put("(")
                put("1")
                for (i = 0; i < 196; i++) put(")")
                put(";\n")
            }
            put("x=")
            for (i = 0; i < 200; i++) put("(")
            put("1;\n}\n")
        } else if (kind == "open") {
            # choices in parentheses, as deep as may be, that end with the text
            put("int main(void) {\nint x;\n")
            while (written < bytes - 1000) put("x=x+1;\n")
            put("x=")
            for (i = 0; i < 98; i++) put("(1?")
        }
    }'
}

# milliseconds RUNS WORD..: those of a run of oscheck with these words.
milliseconds() {
    local start end
    start=$(date +%s%N)
    for _ in $(seq "$1"); do
        "$oscheck" "${@:2}" >/dev/null || true
    done
    end=$(date +%s%N)
    awk -v t=$((end - start)) -v n="$1" 'BEGIN { printf "%.3f", t / n / 1000000 }'
}

# rows NAME KIND RUNS WORD..: the rows of a kind of text.
rows() {
    local before='' size now ratio
    for size in 16384 32768 65536 131072 262144; do
        text "$2" "$size" >"$work/text.c"
        now=$(milliseconds "$3" "${@:4}" "$work/text.c")
        ratio=$(awk -v a="${before:-0}" -v b="$now" 'BEGIN { if (a > 0) printf "%.2f", b / a; else printf "-" }')
        /usr/bin/time -q -f %M -o "$work/most" "$oscheck" "${@:4}" "$work/text.c" >/dev/null || true
        printf '%-10s %8s %10s %6s %8s\n' "$1" "$(stat -c %s "$work/text.c")" "$now" "$ratio" "$(cat "$work/most")"
        before=$now
    done
}

if [ "${1-programs}" = programs ]; then
    printf '%-10s %8s %10s %6s %8s\n' program bytes ms ratio KB
    for kind in names shadows tasks captures; do
        rows "$kind" "$kind" 20
    done
fi
if [ "${1-refusals}" = refusals ]; then
    printf '%-10s %8s %10s %6s %8s\n' refused bytes ms ratio KB
    for kind in early middle chain nests open; do
        rows "$kind" "$kind" 5
    done
    rows completed open 1 --complete
fi
