#!/usr/bin/env python3
"""How the time of `osview report` grows with the number of sentences, as a table: for each number of activations that all wait, the
milliseconds of the quickest of three reports, and how many times those of half the number. In the shape `starved` each waits for a
member of its own of an array of streams, which no task writes, in `waiting` for one that another activation should write, so that
no two sentences are alike, and in `alike` all wait for the same stream, so that one line tells them all. Each report is compared with
the one written here. ./build has to have built the program, or a path of it is given."""
import os
import subprocess
import sys
import tempfile
import time

TOP = os.path.dirname(os.path.dirname(os.path.abspath(__file__)))
OSVIEW = sys.argv[1] if len(sys.argv) > 1 else f"{TOP}/crates/osview/out/osview"

SHAPES = {
    "starved": ("s[i] >> x", "activation {i}, of the task in line 5, waits for element 0 of stream s[{i}], which no task writes; the stream has 0 of the 1 asked for"),
    "waiting": (
        "s[i + 1] >> x) output(s[i] << y",
        "activation {i}, of the task in line 5, waits for element 0 of stream s[{next}] from activation {next}, which waits too",
    ),
    "alike": ("s[0] >> x", "activation 0, of the task in line 5, waits for element 0 of stream s[0], which no task writes; the stream has 0 of the 1 asked for"),
}

PROGRAM = """int main(void) {
    int s[SIZE] __attribute__((stream));
    int i, x, y;
    for (i = 0; i < COUNT; i++) {
        #pragma omp task input(ITEMS)
        y = x;
    }
}
"""


def report(shape, count):
    """The report of a run, by hand: the last one that waits for another waits for a stream that no task writes."""
    starved, told = SHAPES["starved"][1], SHAPES[shape][1]
    if shape == "alike":
        lines = [f"{told}; likewise {count - 1} more of this task"]
    else:
        lines = [told.format(i=number, next=number + 1) for number in range(count)]
    if shape == "waiting":
        lines[-1] = starved.format(i=count - 1).replace(f"s[{count - 1}]", f"s[{count}]")
    heading = [f"main ended after {count} activations", f"0 of {count} activations are done", "0 of 0 bytes of the output are there"]
    return "\n".join([*heading, *lines, ""])


def quickest(words, wanted):
    """The milliseconds of the quickest of three runs, each with the report that is wanted."""
    best = None
    for _ in range(3):
        began = time.perf_counter()
        ran = subprocess.run(words, capture_output=True, text=True)
        took = (time.perf_counter() - began) * 1000
        if ran.stdout + ran.stderr != wanted:
            sys.exit(f"{' '.join(words)}: another report")
        best = took if best is None else min(best, took)
    return best


def main():
    if not os.access(OSVIEW, os.X_OK):
        sys.exit("build the program first: ./build")
    print(f"{'shape':<8} {'sentences':>9} {'ms':>9} {'ratio':>6}")
    with tempfile.TemporaryDirectory() as folder:
        program, nothing = f"{folder}/program.c", f"{folder}/nothing"
        open(nothing, "w", encoding="utf-8").close()
        for shape, (items, _) in SHAPES.items():
            before = None
            for count in 5000, 10000, 20000, 40000:
                with open(program, "w", encoding="utf-8") as file:
                    file.write(PROGRAM.replace("SIZE", str(count + 1)).replace("COUNT", str(count)).replace("ITEMS", items))
                took = quickest([OSVIEW, "report", program, nothing], report(shape, count))
                ratio = f"{took / before:.2f}" if before else "-"
                print(f"{shape:<8} {count:>9} {took:>9.1f} {ratio:>6}", flush=True)
                before = took


main()
