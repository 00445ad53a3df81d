# What ./build leaves beside a program, and ./install and ./release read: crates/NAME/out/NAME.built, with four lines: the commit, the kit, the sum
# of what the program is made of and that of the program. They are SHA-256 sums. It is read by these scripts, which set `top`, the top of the repository.
programs=(ospack oscc oscheck osrun osview osvectors)

# crates_of NAME: the crates that a crate is made of, lowest first, with the crate itself: their lines in crates.txt name them.
crates_of() {
    awk -v wanted="$1" '
        function visit(crate, words, count, at) {
            if (crate in seen || !(crate in below)) return
            seen[crate] = 1
            count = split(below[crate], words, " ")
            for (at = 1; at <= count; at++) visit(words[at])
            print crate
        }
        { sub(/#.*/, "") }
        /:/ { name = $1; sub(/:.*/, "", name); sub(/^[^:]*:/, ""); below[name] = $0 }
        END { visit(wanted) }' "$top/crates.txt"
}

# source_files NAME: the files that a check of the crate reads, of it and of the crates below it.
source_files() {
    local crate
    (
        cd "$top" || exit
        for crate in $(crates_of "$1"); do
            find "crates/$crate/src" "crates/$crate/specs" "crates/$crate/proofs" -type f 2>/dev/null
        done
        echo crates.txt
        echo HANDLES
    ) | LC_ALL=C sort
}

sum_of() {
    sha256sum <"$1" | cut -c -64
}

# sum_of_sources NAME: one sum over the names and the sums of these files.
sum_of_sources() {
    source_files "$1" | (cd "$top" && xargs -d '\n' sha256sum) | sha256sum | cut -c -64
}

# The kit that is here, if one is.
kit() {
    command -v rt >/dev/null && rt version 2>/dev/null | head -n 1
}

# record_of NAME WORD: what stands behind a word of a program's record.
record_of() {
    sed -n "s/^$2 //p" "$top/crates/$1/out/$1.built" 2>/dev/null
}

# is_built NAME [KIT]: whether the record is of the sources, the program and the kit that are here, by their sums.
is_built() {
    local program=$top/crates/$1/out/$1
    [ -x "$program" ] && [ -f "$program.built" ] || return
    [ -z "${2-}" ] || [ "$(record_of "$1" kit)" = "$2" ] || return
    [ "$(record_of "$1" program)" = "$(sum_of "$program")" ] && [ "$(record_of "$1" sources)" = "$(sum_of_sources "$1")" ]
}

# The commit that is checked out, and whether files were changed of which programs are made.
commit() {
    local head changed
    head=$(git -C "$top" rev-parse HEAD 2>/dev/null) || head=none
    changed=$(git -C "$top" status --porcelain -- crates crates.txt HANDLES 2>/dev/null)
    echo "$head${changed:+ with changes}"
}

# What `--version` tells behind a version: of a commit the first eight digits, and whether there were changes; and a kit.
origin() {
    local changes=${1#"${1%% *}"}
    echo "commit ${1:0:8}$changes, $2"
}

# put PREFIX ORIGIN: puts the programs, what starts them, their man pages, completions, the header for editors and the runtime of C under a prefix.
put() {
    local program
    for program in "${programs[@]}"; do
        install -D -m 755 "$top/crates/$program/out/$program" "$1/libexec/osrun/$program"
        install -D -m 755 "$top/launch.sh" "$1/bin/$program"
        install -D -m 644 "$top/docs/man/$program.1" "$1/share/man/man1/$program.1"
        install -D -m 644 "$top/docs/completions/$program" "$1/share/bash-completion/completions/$program"
    done
    install -D -m 644 "$top/examples/osin.h" "$1/share/osrun/osin.h"
    install -D -m 644 -t "$1/share/osrun" "$top/runtime/osrt.c" "$top/runtime/osrt.h"
    echo "$2" >"$1/libexec/osrun/built"
    synopsis >"$1/libexec/osrun/synopsis"
    chmod 644 "$1/libexec/osrun/built" "$1/libexec/osrun/synopsis"
}

# The words of osrun: the first block of its page.
synopsis() {
    sed -n '/^```text$/,/^```$/{/^```$/q;/^```text$/!p}' "$top/docs/COMMAND.md"
}
