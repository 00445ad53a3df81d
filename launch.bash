# Runs a program of the repository with the words given: the proved program, where ./build left it for the commit that is
# checked out. Elsewhere the same program runs by the toolchain with run-time checks, and a line on standard error says so.
# Statuses of its own: 69 where the toolchain is missing, 70 where it couldn't run the program.
# It is read by ./osrun, ./oscheck, ./osview, ./osvectors, ./oscc and ./ospack, which set `top`, the top of the repository, and `name`, the program.
program=$top/crates/$name/out/$name
# A file that may grow no further fails the write then, and doesn't end the program: it has no call that says so itself.
trap '' XFSZ

# The commit that is checked out: a build leaves it beside the program, in its record. Where it stands in no file of its own,
# git tells it.
head=''
commit=''
[ -f "$top/.git/HEAD" ] && read -r head <"$top/.git/HEAD"
case $head in
    'ref: '*) [ -f "$top/.git/${head#ref: }" ] && read -r commit <"$top/.git/${head#ref: }" ;;
    *) commit=$head ;;
esac
[ -n "$commit" ] || commit=$(git -C "$top" rev-parse HEAD 2>/dev/null)

# What is told of refused words on a terminal, after what the program told: the first block of the page of osrun's words.
synopsis() {
    [ "$name" = osrun ] && [ "$1" = 2 ] && [ -t 2 ] || return 0
    sed -n '/^```text$/,/^```$/{/^```$/q;/^```text$/!p}' "$top/docs/COMMAND.md" >&2
}

# version_of TOLD COMMIT KIT: the version that the program told, with commit and kit.
version_of() {
    printf '%s, commit %s, %s\n' "$1" "$2" "$3" 2>/dev/null || exit 6
}

if [ -f "$program.built" ] && read -r _ built changes <"$program.built" && [ "$built" = "${commit:-none}" ]; then
    if [ "${1-}" = --version ] && [ "$name" != osrun ]; then
        told=$("$program" "$@") || exit
        version_of "$told" "${built:0:8}${changes:+ $changes}" "$(sed -n 's/^kit //p' "$program.built")"
        exit 0
    fi
    [ -t 2 ] || exec "$program" "$@"
    "$program" "$@"
    status=$?
    synopsis "$status"
    exit "$status"
fi

if ! command -v rt >/dev/null; then
    echo "$name: the command rt of the Rattle kit isn't here; README.md, \"Two commands\", says what it is for" >&2
    exit 69
fi
# The files that jobs name are no words of the command, so the toolchain has no copies of them.
if [ "$name" = osrun ] && [ "${1-}" = serve ]; then
    echo "$name: jobs are served by the proved program alone; ./build proves and builds it" >&2
    exit 70
fi
echo "$name: this machine hasn't proved the program yet: the toolchain runs it with run-time checks, and takes two minutes or more to begin; ./build proves and builds it, and tells how long that takes" >&2

# The toolchain runs it in a folder of its own, with a copy of each file that a word names: under its own name where that
# stays below the folder, and else under another one. The value of an option names none. What a pipe has, as that of a
# process substitution, is read into a file first.
files=()
words=()
names=()
before=''
room=$(mktemp -d)
trap 'rm -rf "$room"' EXIT
said=$room/said
for word in "$@"; do
    copy=$word
    case $before in --*=* | --all | --complete | --first | --werror) before='' ;; esac
    if [ "${before#--}" = "$before" ] && [ -p "$word" ] && [ -r "$word" ]; then
        copy=file${#words[@]}
        names+=(-e "s|^$copy:|$word:|")
        cat "$word" >"$room/$copy"
        files+=(--data "$copy=$room/$copy")
    elif [ "${before#--}" = "$before" ] && [ -f "$word" ] && [ -r "$word" ]; then
        case $word in
            /* | ../* | */../* | program* | stdin* | stdout* | stderr*)
                copy=file${#words[@]}
                names+=(-e "s|^$copy:|$word:|")
                ;;
        esac
        files+=(--data "$copy=$(readlink -f "$word")")
    fi
    words+=("$copy")
    before=$word
done
try() {
    (cd "$top/crates/$name" && rt try "${files[@]}" -- "${words[@]}") 2>"$said"
}
if [ "${1-}" = --version ] && [ "$name" != osrun ]; then
    told=$(try)
    status=$?
    [ "$status" != 0 ] || version_of "$told" "${commit:0:8}" "$(rt version | head -n 1), not proved here"
# oscheck tells names, osrun bytes and osview lines alone. What oscheck writes for the word --complete is no telling, but what it tells then is.
elif [ "$name" = oscheck ] && [ "${#names[@]}" != 0 ] && [ "${1-}" != --complete ]; then
    try | sed "${names[@]}"
    status=${PIPESTATUS[0]}
else
    try
    status=$?
fi
[ "$name" = oscheck ] && [ "${#names[@]}" != 0 ] && sed -i "${names[@]}" "$said"
# Its last lines are the toolchain's: the program's report stands before them.
if ! tail -n 1 "$said" | grep -q '^run=ended '; then
    cat "$said" >&2
    exit 70
fi
grep -v -e '^checked: ' -e '^races: ' -e '^run=ended ' "$said" >&2
synopsis "$status"
exit "$status"
