#!/usr/bin/env bash
# Compares what gcc makes of the C of programs with `osrun run`, where gcc is on this machine: tests/c.py says how. The last line is
# `N passed, M failed`.
if ! command -v gcc >/dev/null; then
    echo 'gcc is not on this machine: programs written as C are not compared'
    exit 0
fi
top=$(cd "$(dirname "${BASH_SOURCE[0]}")/.." && pwd)
. "$top/tests/programs.bash"
exec "$top/tests/c.py" "$@"
