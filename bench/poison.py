#!/usr/bin/env python3
"""What runs take whose activations are poisoned, as a table: of 1,024 to 65,536 activations, by 1 and 4 workers, the milliseconds of the
quickest of five runs and, by 1 worker, the machine instructions an activation of the whole program, where valgrind is there. One
activation fails and all others are poisoned by it; beside that the same where it doesn't fail and all are done. In a chain each reads
what the one created before it wrote, in a chain backwards what the one created behind it wrote, on one stream or (`streams`) each on a
stream of its own, and in a fan all read the same element. A chain is `held` where the one created first waits for its last element: then it
goes through epochs, as the chain backwards does, and nothing of it is given up before its end.
Each report is compared with the one written here. ./build has to have built the program."""
import os
import re
import shutil
import subprocess
import sys
import tempfile
import time

TOP = os.path.dirname(os.path.dirname(os.path.abspath(__file__)))
OSRUN = f"{TOP}/crates/osrun/out/osrun"

CHAIN = """int main(void) {
    int s __attribute__((stream));
    int i, x, y;
    #pragma omp task output(s << y)
    y = 1 / DIVISOR;
    for (i = 1; i < COUNT; i++) {
        #pragma omp task input(s >> x) output(s << y)
        y = x;
    }
}
"""

HELD = """int main(void) {
    int s __attribute__((stream)), t __attribute__((stream));
    int i, x, y;
    #pragma omp task input(t >> x)
    y = x;
    #pragma omp task output(s << y)
    y = 1 / DIVISOR;
    for (i = 2; i + 1 < COUNT; i++) {
        #pragma omp task input(s >> x) output(s << y)
        y = x;
    }
    #pragma omp task input(s >> x) output(t << y)
    y = x;
}
"""

BACKWARDS = """int main(void) {
    int s __attribute__((stream));
    int i, x, y;
    #pragma omp tick(s >> 1)
    for (i = 1; i < COUNT; i++) {
        #pragma omp task input(s >> x) output(s << y)
        y = x;
    }
    #pragma omp task output(s << y)
    y = 1 / DIVISOR;
}
"""

STREAMS = """int main(void) {
    int s[COUNT] __attribute__((stream));
    int i, x, y;
    for (i = 1; i < COUNT; i++) {
        #pragma omp task input(s[i] >> x) output(s[i - 1] << y)
        y = x;
    }
    #pragma omp task output(s[COUNT - 1] << y)
    y = 1 / DIVISOR;
}
"""

FAN = """int main(void) {
    int s __attribute__((stream));
    int i, w[1], y;
    #pragma omp task output(s << y)
    y = 1 / DIVISOR;
    for (i = 1; i < COUNT; i++) {
        #pragma omp task input(s >> w[0])
        y = w[0];
    }
}
"""


def report(text, count, fails):
    """The report of a run of one of the programs, by hand: the activation that fails is the last one of the chains backwards, the second
    one of the chain that is held, and the first one of the others."""
    if not fails:
        return "control done\noutput 0 of 0\n"
    root = count - 1 if text in (BACKWARDS, STREAMS) else 1 if text == HELD else 0
    line = next(number for number, line in enumerate(text.split("\n"), 1) if "DIVISOR" in line)
    lines = [f"poisoned {number} by {root}" for number in range(count)]
    lines[root] = f"trapped {root} code 2 line {line}"
    return "\n".join([*lines, "control done", "output 0 of 0", ""])


def quickest(words, wanted):
    """The milliseconds of the quickest of five runs, each with the report that is wanted."""
    best = None
    for _ in range(5):
        began = time.perf_counter()
        ran = subprocess.run(words, capture_output=True, text=True)
        took = (time.perf_counter() - began) * 1000
        if ran.stderr != wanted or ran.stdout:
            sys.exit(f"{' '.join(words)}: another output or report")
        best = took if best is None else min(best, took)
    return best


def instructions(words, count):
    """The machine instructions of a run for each of `count` activations, or `-`."""
    if not shutil.which("valgrind"):
        return "-"
    ran = subprocess.run(["valgrind", "--tool=callgrind", "--callgrind-out-file=/dev/null", *words], capture_output=True, text=True)
    collected = re.search(r"Collected : (\d+)", ran.stderr)
    return f"{int(collected[1]) / count:.0f}"


def main():
    if not os.access(OSRUN, os.X_OK):
        sys.exit("build the program first: ./build")
    print(f"{'run':<10} {'activations':>11} {'workers':>7} {'poisoned ms':>11} {'instrs/activ':>12} {'done ms':>9} {'instrs/activ':>12}")
    with tempfile.TemporaryDirectory() as folder:
        program, nothing = f"{folder}/program.c", f"{folder}/nothing"
        open(nothing, "w", encoding="utf-8").close()
        for name, text in ("chain", CHAIN), ("held", HELD), ("backwards", BACKWARDS), ("streams", STREAMS), ("fan", FAN):
            for count in 1024, 4096, 16384, 65536:
                for workers in 1, 4:
                    row = f"{name:<10} {count:>11} {workers:>7}"
                    for fails, width in (True, 11), (False, 9):
                        with open(program, "w", encoding="utf-8") as file:
                            file.write(text.replace("COUNT", str(count)).replace("DIVISOR", "0" if fails else "1"))
                        words = [OSRUN, "run", program, nothing, "--workers", str(workers)]
                        took = quickest(words, report(text, count, fails))
                        row += f" {took:>{width}.1f} {instructions(words, count) if workers == 1 else '-':>12}"
                    print(row, flush=True)


main()
