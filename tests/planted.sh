#!/usr/bin/env bash
# Tries planted bugs: for each crate that is named (all of them, where none is), the edits in tests/planted/CRATE, on a copy of this checkout.
# Each turns a body into a wrong one, and the prover has to refuse it. The edits that `rt ci` tries, in crates/CRATE/must-fail, are tried with them.
# It begins with what checks in this checkout or another one on the machine kept; a crate that no check has proved yet is proved first.
# The last line is `N passed, M failed`; before it stands each edit that got through or couldn't be tried. Status 1 where one did.
#
#     tests/planted.sh                 every crate: hours on a new machine
#     tests/planted.sh kernels c_int   these two
set -eu
cd "$(dirname "${BASH_SOURCE[0]}")/.."
[ $# -gt 0 ] || set -- $(ls tests/planted)
copy=$(mktemp -d)
trap 'rm -rf "$copy"' EXIT
cp -r crates crates.txt HANDLES "$copy"
for crate; do
    if [ ! -d "crates/$crate/src" ]; then
        echo "tests/planted.sh: there is no crate $crate" >&2
        exit 2
    fi
    mkdir -p "$copy/crates/$crate/must-fail"
    [ ! -d "tests/planted/$crate" ] || cp "tests/planted/$crate"/*.edit "$copy/crates/$crate/must-fail"
done
cd "$copy"
git init -q
status=0
rt must-fail "$@" >"$copy/told" 2>&1 || status=$?
grep -E '^(rt: )?must-fail ' "$copy/told" | grep -v ': refused, as it must be' || true
refused=$(grep -cE ': refused, as it must be' "$copy/told" || true)
others=$(grep -cE '^(rt: )?must-fail .*: (NOT REFUSED|BAD EDIT|NOT TRIED)' "$copy/told" || true)
if [ "$status" != 0 ] && [ "$others" = 0 ]; then
    tail -n 20 "$copy/told" >&2
    others=1
fi
echo "$refused passed, $others failed"
[ "$others" = 0 ]
