# The programs that tests run. It is read by scripts, which set `top`, the top of the repository or of the documents of a package. Where OSRUN_BIN
# names a folder, as /usr/bin, they are those in it; else ./build proves and builds those of this checkout first.
# `osrun`, `oscheck`, `osview`, `osvectors`, `oscc` and `ospack` are what people call; `osrun_program` and the others are the programs themselves, without a script before them.
export PYTHONDONTWRITEBYTECODE=1
if [ -n "${OSRUN_BIN-}" ]; then
    OSRUN_BIN=$(cd "$OSRUN_BIN" && pwd) || exit 1
    export OSRUN_BIN
    for name in osrun oscheck osview osvectors oscc ospack; do
        [ -x "$OSRUN_BIN/$name" ] || { echo "OSRUN_BIN has no program $name" >&2; exit 1; }
        declare "$name=$OSRUN_BIN/$name" "${name}_program=$OSRUN_BIN/$name"
        [ ! -x "$OSRUN_BIN/../libexec/osrun/$name" ] || declare "${name}_program=$OSRUN_BIN/../libexec/osrun/$name"
    done
else
    "$top/build" || exit 1
    for name in osrun oscheck osview osvectors oscc ospack; do
        declare "$name=$top/$name" "${name}_program=$top/crates/$name/out/$name"
    done
fi
