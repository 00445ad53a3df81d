#!/usr/bin/env bash
# Serves all files of jobs of a folder on this machine: here.sh FOLDER [PROCESSES]. So many processes run at once, as many as there are
# processors without a number, by GNU parallel; where that isn't there, one after the other. OSRUN names the program, without it
# the one of this checkout, or that which is installed. Where a job wasn't done, it tells the first one with its report, and the status is 1.
set -eu
[ $# -ge 1 ] || { echo "here.sh FOLDER [PROCESSES]" >&2; exit 2; }
here=$(cd "$(dirname "${BASH_SOURCE[0]}")" && pwd)
folder=$1 processes=${2:-$(nproc)}
[ -n "${OSRUN-}" ] || OSRUN=$here/../../osrun
[ -x "$OSRUN" ] || OSRUN=$(command -v "$OSRUN" || command -v osrun) || { echo "here.sh: there is no osrun" >&2; exit 2; }
export OSRUN
# It is GNU parallel that takes these words: the program of that name in moreutils takes others.
if parallel --version 2>/dev/null | grep -q '^GNU parallel'; then
    serve_file() { "$OSRUN" serve "$1" >"${1%/*}/answers.${1##*.}"; }
    export -f serve_file
    parallel --will-cite --jobs "$processes" --halt soon,fail=1 serve_file ::: "$folder"/jobs.*
else
    for jobs in "$folder"/jobs.*; do
        "$OSRUN" serve "$jobs" >"$folder/answers.${jobs##*.}"
    done
fi
"$here/join.py" "$folder" >/dev/null
