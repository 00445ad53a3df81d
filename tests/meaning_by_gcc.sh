#!/usr/bin/env bash
# Compiles each expression and body of the tables of values by gcc, and compares. Tests of meaning_tests hold the same
# tables against what the programs mean. The last line counts what passed and what failed.
set -u
top=$(cd "$(dirname "${BASH_SOURCE[0]}")/.." && pwd)
tables=("$top/crates/meaning_tests/src/values.rt" "$top/crates/meaning_tests/src/unsigned_values.rt")
if ! command -v gcc >/dev/null; then
    echo 'gcc is not on this machine: the tables of values are not compared'
    exit 0
fi
work=$(mktemp -d)
trap 'rm -rf "$work"' EXIT

functions() {
    sed -n '/FUNCTIONS: &str = "/,/^";$/p' "${tables[@]}" | sed -e 's/.*FUNCTIONS: &str = "//' -e '/^";$/d'
}

# Each row as a block of C: what is no body is made one.
rows() {
    awk '
    {
        # A text goes on behind a line break that is escaped, and the spaces before the next line are no part of it.
        line = $0
        if (goes_on) sub(/^ +/, "", line)
        goes_on = sub(/\\$/, "", line)
        row = row line
        if (goes_on) next
        sub(/^pub const [A-Z]+: &str = "/, "", row)
        sub(/";$/, "", row)
        if (match(row, / => -?[0-9]+$/)) {
            part = substr(row, 1, RSTART - 1)
            body = part ~ /;/ ? part : "y = " part ";"
            printf "{ int y = 0; { %s } compare(\"%s\", y, %sL); }\n", body, part, substr(row, RSTART + 4)
        }
        row = ""
    }' "${tables[@]}"
}

{
    echo '#include <stdio.h>'
    functions
    cat <<'C'
static int passed, failed;
static void compare(const char *row, long found, long value) {
    if (found == value) { passed++; return; }
    failed++;
    printf("%s: gcc gives %ld, the table has %ld\n", row, found, value);
}
int main(void) {
C
    rows
    cat <<'C'
printf("%d passed, %d failed\n", passed, failed);
return failed || passed < 780;
}
C
} >"$work/table.c"

# What C leaves undefined ends the program at once.
gcc -w -O0 -fsanitize=undefined -fsanitize-undefined-trap-on-error -o "$work/table" "$work/table.c" || exit 1
exec "$work/table"
