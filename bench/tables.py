#!/usr/bin/env python3
"""bench/tables.py [RUN ..]: what an activation takes by one worker over one table and in epochs, as a table. Of runs of bench/stops.py, with
65,536 activations, it tells the milliseconds of whole runs of the command by one worker: of `osrun trace`, which runs all activations over one
table and writes which of them the worker ran, and of `osrun run`, which goes through epochs with `swapped` and in control order with the
others. Nine runs of each are made in turn. Their median and their least are told, and how many times as long the table takes, by the medians
and by the least.

./build has to have built the program."""
import os
import shutil
import statistics
import sys
import tempfile
import time

from stops import COUNT, OSRUN, RUNS, TOP, finish

TIMES = 9


def files(name, work):
    """The program and the input of a run."""
    text, length = RUNS[name]
    program, data = f"{work}/{name}.c", f"{work}/{name}.in"
    if text is None:
        shutil.copy(f"{TOP}/examples/{name}.c", program)
    else:
        with open(program, "w", encoding="utf-8") as file:
            file.write(text)
    with open(data, "wb") as file:
        file.write(bytes(at * 7 % 251 for at in range(length(COUNT))))
    return program, data


def milliseconds(way, program, data):
    """What one run of the command takes."""
    words = [OSRUN, way, program, data, "--workers", "1"]
    begun = time.perf_counter()
    finish(words)
    return (time.perf_counter() - begun) * 1000


def in_turn(program, data):
    """The milliseconds of runs over one table and of the others, made in turn."""
    tables, runs = [], []
    for _ in range(TIMES):
        tables.append(milliseconds("trace", program, data))
        runs.append(milliseconds("run", program, data))
    return tables, runs


def main(names):
    if not os.access(OSRUN, os.X_OK):
        sys.exit("build the program first: ./build")
    print("| run | one table: median, least | `osrun run`: median, least | times: by the medians, by the least |")
    print("|---|---|---|---|")
    with tempfile.TemporaryDirectory() as work:
        for name in names or ["swapped", "overlap", "chain", "lift", "pipeline"]:
            tables, runs = in_turn(*files(name, work))
            told = [statistics.median(tables), min(tables), statistics.median(runs), min(runs)]
            print(f"| {name} | {told[0]:.1f}, {told[1]:.1f} | {told[2]:.1f}, {told[3]:.1f} | {told[0] / told[2]:.2f}, {told[1] / told[3]:.2f} |", flush=True)
    return 0


if __name__ == "__main__":
    sys.exit(main(sys.argv[1:]))
