#!/usr/bin/env python3
"""bench/stops.py [each] [RUN ..]: what an activation takes, by stop, as a table: machine instructions and microseconds, of whole runs of
the command by one worker. Runs of 65,536 activations and of half as many are made, and the difference is told for each activation, so that
what a process takes once is left out. Instructions are those that valgrind's callgrind counts, by the crate of the function that they
stand in: what the compiler put into a function of another crate counts there. Copies and fills of memory stand by themselves: of a long one
each byte counts as an instruction. Microseconds are of the quickest of 15 runs. With the word `each` the functions are told that take
most, and nothing else.

    overlap     each reads three elements of the input, of which the next one reads two, and writes one
    pipeline    pairs of activations: one reads two elements of the input and writes two, the other reads these and writes two
    chain       each reads one element that the one before it wrote
    lift        each reads four elements of the input and writes four: examples/lift.c
    swapped     pairs of activations: one reads two elements that the one behind it writes, so it waits
    waiting     pairs of activations that wait for one another, so that none ever runs: examples/waiting.c

All but the last two are run in control order, with no plan, delivery or carrying; these go through epochs.

./build has to have built the program."""
import os
import re
import shutil
import subprocess
import sys
import tempfile
import time

TOP = os.path.dirname(os.path.dirname(os.path.abspath(__file__)))
OSRUN = f"{TOP}/crates/osrun/out/osrun"
COUNT = 65_536

OVERLAP = """int main(void) {
    int i;
    for (i = 0; i + 2 < osin_len; i++) {
        int w[3], y;
        #pragma omp task input(osin >> w[1]) output(osout << y)
        y = (w[0] + w[1] + w[2]) / 3;
    }
}
"""

PIPELINE = """int wrap(int d) {
    return ((d + 128) & 255) - 128;
}
int main(void) {
    int mid __attribute__((stream));
    int i;
    for (i = 0; i + 1 < osin_len; i += 2) {
        int a[2], m[2], q[2], o[2];
        #pragma omp task input(osin >> a[2]) output(mid << m[2])
        {
            int d = wrap(a[1] - a[0]);
            m[0] = (a[0] + (d >> 1)) & 255;
            m[1] = d;
        }
        #pragma omp task input(mid >> q[2]) output(osout << o[2])
        {
            o[0] = q[0];
            o[1] = (q[1] / 4) & 255;
        }
    }
}
"""

SWAPPED = """int main(void) {
    int mid __attribute__((stream));
    int i;
    for (i = 0; i + 1 < osin_len; i += 2) {
        int a[2], m[2], q[2], o[2];
        #pragma omp task input(mid >> q[2]) output(osout << o[2])
        {
            o[0] = q[0];
            o[1] = q[1];
        }
        #pragma omp task input(osin >> a[2]) output(mid << m[2])
        {
            m[0] = a[1];
            m[1] = a[0];
        }
    }
}
"""

CHAIN = """int main(void) {
    int s __attribute__((stream));
    int i, x, y;
    #pragma omp task output(s << y)
    y = 1;
    for (i = 1; i < osin_len; i++) {
        #pragma omp task input(s >> x) output(s << y)
        y = x + 1;
    }
}
"""

# The text, and how many bytes of input a number of activations reads.
RUNS = {
    "overlap": (OVERLAP, lambda count: count + 2),
    "pipeline": (PIPELINE, lambda count: count),
    "chain": (CHAIN, lambda count: count),
    "lift": (None, lambda count: 4 * count),
    "swapped": (SWAPPED, lambda count: count),
    "waiting": (None, lambda count: count // 2),
}

# What counts for which stop: the beginnings of the names of functions.
STOPS = {
    "main": ["control_run::"],
    "memory": ["malloc", "free", "_int_", "realloc", "calloc", "unlink_chunk", "sysmalloc", "systrim", "tcache", "alloc_perturb", "memalign", "arena_", "cfree"],
    "positions": ["stream_match_layouts::"],
    "plan": ["stream_match::", "epoch_run_ready::", "flow_core_epochs::"],
    "delivery": ["flow_core::", "task_workers::", "task_workers_round::", "flow_core_laws::"],
    "in order, carrying": ["epoch_run::", "epoch_run_carrying::", "epoch_run_in_order::"],
    "bodies": ["task_vm::", "epoch_run_bodies::"],
    "copies": ["__mem"],
}


def words(program, data):
    return [OSRUN, "run", program, data, "--workers", "1"]


def costs(path):
    """Machine instructions by name of function, of a file that callgrind wrote."""
    names, found, current, is_call = {}, {}, None, False
    with open(path, errors="replace") as lines:
        for line in lines:
            name = re.match(r"fn=\((\d+)\)(?: (.*))?$", line)
            if name:
                if name[2]:
                    names[name[1]] = name[2].strip()
                current = names[name[1]]
            elif called := re.match(r"cfn=\((\d+)\)(?: (.*))?$", line):
                if called[2]:
                    names[called[1]] = called[2].strip()
            elif line.startswith("calls="):
                is_call = True
            elif re.match(r"[+\-*\d]", line):
                if not is_call and current is not None:
                    found[current] = found.get(current, 0) + int(line.split()[-1])
                is_call = False
    return found


def stop_of(function):
    for stop, beginnings in STOPS.items():
        if function.startswith(tuple(beginnings)):
            return stop
    return "rest"


def finish(words):
    """Runs a command whose run may have activations that never ran: its status is 0 or 1."""
    status = subprocess.run(words, stdout=subprocess.DEVNULL, stderr=subprocess.DEVNULL).returncode
    if status not in (0, 1):
        raise RuntimeError(f"status {status}: {' '.join(words)}")


def instructions(program, data, work):
    """Machine instructions by function."""
    out = f"{work}/callgrind"
    finish(["valgrind", "--tool=callgrind", f"--callgrind-out-file={out}", *words(program, data)])
    return costs(out)


def quickest(program, data):
    """Microseconds of the quickest of 15 runs."""
    best = None
    for _ in range(15):
        begun = time.perf_counter()
        finish(words(program, data))
        took = (time.perf_counter() - begun) * 1e6
        best = took if best is None else min(best, took)
    return best


def measure(name, work):
    """Of a run: machine instructions an activation by function, and microseconds an activation."""
    text, length = RUNS[name]
    program = f"{work}/{name}.c"
    if text is None:
        shutil.copy(f"{TOP}/examples/{name}.c", program)
    else:
        with open(program, "w") as file:
            file.write(text)
    told = []
    for count in (COUNT // 2, COUNT):
        data = f"{work}/{name}.{count}"
        with open(data, "wb") as file:
            file.write(bytes(at * 7 % 251 for at in range(length(count))))
        told.append((instructions(program, data, work), quickest(program, data)))
    (few, soon), (many, late) = told
    return {function: (many[function] - few.get(function, 0)) / (COUNT // 2) for function in many}, (late - soon) / (COUNT // 2)


def row_of(by_function):
    """Machine instructions by stop, in their order."""
    found = dict.fromkeys([*STOPS, "rest"], 0)
    for function, cost in by_function.items():
        found[stop_of(function)] += cost
    return list(found.values())


def main(words):
    if not os.access(OSRUN, os.X_OK):
        sys.exit("build the program first: ./build")
    each, names = "each" in words, [it for it in words if it != "each"] or list(RUNS)
    if not each:
        print(f"| run | {' | '.join([*STOPS, 'rest'])} | all | all but bodies | us |")
        print("|---" * (len(STOPS) + 5) + "|")
    with tempfile.TemporaryDirectory() as work:
        for name in names:
            by_function, took = measure(name, work)
            if each:
                print(name)
                for function, cost in sorted(by_function.items(), key=lambda it: -it[1])[:60]:
                    print(f"{cost:9.1f} {function}")
                continue
            row = row_of(by_function)
            others = sum(row) - row[list(STOPS).index("bodies")]
            print(f"| {name} | " + " | ".join(f"{it:,.0f}" for it in row) + f" | {sum(row):,.0f} | {others:,.0f} | {took:.2f} |", flush=True)
    return 0


if __name__ == "__main__":
    sys.exit(main(sys.argv[1:]))
