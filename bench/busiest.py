#!/usr/bin/env python3
"""bench/busiest.py [RUN ..]: how the work of short activations is spread over threads, as a table. Of runs of bench/stops.py, with 65,536
activations, it tells the millions of machine instructions (valgrind's callgrind) that one worker takes, those that four workers take together,
and those of the one of their threads that runs most; and how many times those of one worker are those of that thread. So many times as fast four
workers may be where each has a processor to itself, and begins at once; the system's work and the waiting of threads aren't counted.
Milliseconds are told by bench/programs.sh.

./build has to have built the program."""
import glob
import os
import re
import shutil
import subprocess
import sys
import tempfile

from stops import COUNT, OSRUN, RUNS, TOP


def by_thread(program, data, workers, work):
    """Machine instructions of each thread of a run."""
    out = f"{work}/callgrind"
    words = [OSRUN, "run", program, data, "--workers", str(workers)]
    subprocess.run(["valgrind", "--tool=callgrind", "--separate-threads=yes", f"--callgrind-out-file={out}", *words],
                   stdout=subprocess.DEVNULL, stderr=subprocess.DEVNULL, check=True)
    counts = []
    for path in glob.glob(f"{out}*"):
        with open(path, errors="replace") as file:
            counts += [int(it) for it in re.findall(r"^(?:totals|summary): (\d+)", file.read(), re.M)[:1]]
        os.remove(path)
    return counts


def main(names):
    if not os.access(OSRUN, os.X_OK):
        sys.exit("build the program first: ./build")
    print("| run | one worker | four, all | four, the busiest | times |")
    print("|---|---|---|---|---|")
    with tempfile.TemporaryDirectory() as work:
        for name in names or ["lift", "pipeline", "overlap", "chain"]:
            text, length = RUNS[name]
            program, data = f"{work}/{name}.c", f"{work}/{name}.in"
            if text is None:
                shutil.copy(f"{TOP}/examples/{name}.c", program)
            else:
                with open(program, "w") as file:
                    file.write(text)
            with open(data, "wb") as file:
                file.write(bytes(at * 7 % 251 for at in range(length(COUNT))))
            alone = sum(by_thread(program, data, 1, work))
            four = by_thread(program, data, 4, work)
            row = [alone, sum(four), max(four)]
            print(f"| {name} | " + " | ".join(f"{it / 1e6:.1f}" for it in row) + f" | {alone / max(four):.2f} |", flush=True)
    return 0


if __name__ == "__main__":
    sys.exit(main(sys.argv[1:]))
