#!/usr/bin/env python3
"""tests/memory_faults.py: that want of memory comes to status 7, writes nothing, and leaks nothing.

Each request for memory of whole runs of the built program is refused in turn, by tests/failing_allocation.c, until a run is whole.
The runs are by 1, 2 and 7 workers, over blocks that are inverted, windows that overlap, a chain that waits for its last activation
and the first program of the README. Each is asked to come to status 7 with nothing written, or to what it comes to with ample
memory: where a thread can't be had, the run goes on without it.

With --leaks, runs in which a request is refused are made under valgrind, and no block may be lost where the process ends. Only
every K-th of them is, where `--leaks K` is given, since each takes seconds.

It isn't called by .ci/run: ./build has to have built the program. The last line is `N passed, M failed`."""
import os
import shutil
import subprocess
import sys
import tempfile

from programs import TOP, program

OSRUN = program("osrun")
WORKERS = ["1", "2", "7"]
# More requests than any of the runs makes.
MOST = 20000
WAITING = """int main(void) {
    int s __attribute__((stream));
    int i, x, y;
    #pragma omp tick(s >> 4998)
    #pragma omp task input(s >> x) output(osout << y)
    y = x & 255;
    for (i = 0; i < 4999; i++) {
        #pragma omp task output(s << x)
        x = i;
    }
}
"""
# Programs, by a file of examples/ or as a text, with their inputs.
RUNS = {
    "blocks": ("invert.c", bytes([0, 1, 2, 3, 252, 253, 254, 255])),
    "windows": ("smooth.c", bytes(k % 251 for k in range(4000))),
    "a chain": (WAITING, b""),
    "the first program": ("first.c", bytes([1, 2, 3, 4])),
}
LOST = 99
VALGRIND = [
    "valgrind", "--quiet", "--leak-check=full", "--show-leak-kinds=definite,indirect,possible", f"--error-exitcode={LOST}",
    "--errors-for-leak-kinds=definite,indirect,possible", "--soname-synonyms=somalloc=nouserintercepts", "--trace-children=no",
]


def outcome(words, shim=None, number=0, under=()):
    """The status, the output and the report of a call, of which the request for memory with this number is refused."""
    variables = dict(os.environ)
    if shim:
        variables |= {"LD_PRELOAD": shim, "FAILING_ALLOCATION": str(number), "FAILING_PROGRAM": os.path.basename(OSRUN)}
    made = subprocess.run([*under, OSRUN, *words], capture_output=True, stdin=subprocess.DEVNULL, timeout=300, env=variables, check=False)
    return made.returncode, made.stdout, made.stderr


def requests(words, shim):
    """Refuses the requests one after the other, until none is left: each number with what it came to."""
    whole = outcome(words)
    untouched = 0
    for number in range(1, MOST):
        found = outcome(words, shim, number)
        yield number, whole, found
        # (the last ones of a run are of threads, and change nothing: none is left behind 40 of these)
        untouched = untouched + 1 if found == whole else 0
        if untouched == 40:
            return


def main():
    if not os.access(OSRUN, os.X_OK):
        sys.exit(f"tests/memory_faults.py: {OSRUN} isn't there: call ./build")
    stride = 0
    if sys.argv[1:2] == ["--leaks"]:
        stride = int(sys.argv[2]) if len(sys.argv) > 2 else 1
    passed, failed = 0, 0
    with tempfile.TemporaryDirectory() as room:
        os.chdir(room)
        kit = os.path.realpath(shutil.which("rt") or "rt")
        compiler = shutil.which("cc") or shutil.which("clang") or os.path.join(os.path.dirname(kit), "..", "toolchain", "bin", "clang")
        shim = f"{room}/failing_allocation.so"
        subprocess.run([compiler, "-shared", "-fPIC", "-nostdlib", "-O1", "-o", shim, f"{TOP}/tests/failing_allocation.c"], check=True)
        for name, (program, given) in RUNS.items():
            if program.endswith(".c"):
                shutil.copy(f"{TOP}/examples/{program}", "program.c")
            else:
                with open("program.c", "w", encoding="utf-8") as file:
                    file.write(program)
            with open("input", "wb") as file:
                file.write(given)
            for workers in WORKERS:
                words = ["run", "program.c", "input", "--workers", workers]
                refused = 0
                for number, whole, found in requests(words, shim):
                    holds = found in (whole, (7, b"", b""))
                    refused += found[0] == 7
                    if holds and stride and number % stride == 0:
                        status, out, told = outcome(words, shim, number, VALGRIND)
                        holds = (status, out) == found[:2] and (status != 7 or told == b"")
                        found = (status, out, told)
                    passed, failed = passed + holds, failed + (not holds)
                    if not holds:
                        print(f"{name} by {workers}, request {number} is refused: {found}")
                print(f"{name} by {workers}: {refused} requests came to status 7")
                failed += refused == 0
    print(f"{passed} passed, {failed} failed")
    sys.exit(failed != 0)


main()
