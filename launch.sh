#!/bin/sh
# Runs the proved program that has this file's name, out of libexec/osrun beside bin: ./install and ./release put this file there as
# bin/osrun, bin/oscheck, bin/osview, bin/osvectors, bin/oscc and bin/ospack. A file that may grow no further fails the write then, and doesn't end the program,
# which has no call that says so itself.
trap '' XFSZ
here=$0
[ -L "$here" ] && here=$(readlink -f "$here")
case $here in */*) ;; *) here=./$here ;; esac
name=${here##*/}
programs=${here%/*}/../libexec/osrun
if [ "${1-}" = --version ] && [ "$name" != osrun ]; then
    # The program tells its version, and the file beside it of which commit it is and with which kit it was proved.
    told=$("$programs/$name" "$@") || exit
    read -r built <"$programs/built"
    printf '%s, %s\n' "$told" "$built" 2>/dev/null || exit 6
    exit 0
fi
if [ "$name" = oscc ] && [ "$*" = --runtime ]; then
    # The program can't know where it lies.
    share=$(cd "${here%/*}/../share/osrun" && pwd) || exit
    printf -- '-I%s %s/osrt.c\n' "$share" "$share" 2>/dev/null || exit 6
    exit 0
fi
# osrun tells nothing but `usage` of refused words: on a terminal the synopsis follows.
[ "$name" = osrun ] && [ -t 2 ] || exec "$programs/$name" "$@"
"$programs/$name" "$@"
status=$?
[ "$status" = 2 ] && cat "$programs/synopsis" >&2
exit "$status"
