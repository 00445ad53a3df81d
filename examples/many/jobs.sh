#!/usr/bin/env bash
# Writes a job for each part: jobs.sh PROGRAM FOLDER FILES [OPTION ..]. The parts of FOLDER are dealt in order into just that many files of
# jobs, FOLDER/jobs.000 and so on, each of neighbouring parts; where there are fewer parts than files, some have no jobs. The options are those
# of `osrun run`.
set -eu
[ $# -ge 3 ] || { echo "jobs.sh PROGRAM FOLDER FILES [OPTION ..]" >&2; exit 2; }
program=$(readlink -f "$1") folder=$(readlink -f "$2") files=$3
shift 3
case "$program$folder" in
    *[[:space:]]*) echo "jobs.sh: a name with a blank is two words of a job" >&2; exit 2 ;;
esac
parts=("$folder"/part.*)
[ "$files" -ge 1 ] || { echo "jobs.sh: there is one file of jobs at least" >&2; exit 2; }
rm -f "$folder"/jobs.* "$folder"/answers.*
for ((number = 0; number < files; number++)); do
    : >"$folder/jobs.$(printf '%03d' "$number")"
done
for ((number = 0; number < ${#parts[@]}; number++)); do
    echo "run $program ${parts[number]}${*:+ $*}" >>"$folder/jobs.$(printf '%03d' $((number * files / ${#parts[@]})))"
done
echo "${#parts[@]} jobs in $(ls "$folder"/jobs.* | wc -l) files"
