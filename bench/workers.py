#!/usr/bin/env python3
"""bench/workers.py [RUN ..]: what several workers gain, as a table. Of runs of bench/stops.py, with 65,536 activations, and of
those below it tells the milliseconds of the whole process, from its start to its end, by 1, 2 and 4 workers: the median of 25 runs made in
turn and the least of them, and how many times as fast as one worker 2 and 4 are, by the medians and by the least. The output of all is compared byte by byte.

    mixing      a pipeline whose bodies have sixteen turns of a loop
    stages      three stages over 16,000 bytes, each of which carries a state from activation to activation
    blocks64    examples/invert.c in blocks of 64 over a megabyte, and blocks4096 in blocks of 4,096
    wavelet     examples/wavelet.c over a megabyte, whose blocks have 4,096 bytes
    bodies      256 bodies that read nothing, with 20,000 turns of a loop each

Nothing else may run beside it. Where the processors are those of a shared host, others there make it slower for minutes, and some runs
of several workers more than those of one: it tells how many runs by 4 workers were slower than the median of those by one.

./build has to have built the program."""
import os
import shutil
import statistics
import sys
import tempfile
import time

from stops import COUNT, OSRUN, RUNS, TOP

TIMES = 25
WORKERS = [1, 2, 4]

MIXING = """int main(void) {
    int mid __attribute__((stream));
    int i;
    for (i = 0; i + 1 < osin_len; i += 2) {
        int a[2], m[2], q[2], o[2];
        #pragma omp task input(osin >> a[2]) output(mid << m[2])
        {
            int k, x = a[0], y = a[1];
            for (k = 0; k < 16; k++) {
                x = (x * 5 + y) & 255;
                y = (y + (x >> 3)) & 255;
            }
            m[0] = x;
            m[1] = y;
        }
        #pragma omp task input(mid >> q[2]) output(osout << o[2])
        {
            int k, x = q[0], y = q[1];
            for (k = 0; k < 16; k++) {
                x = (x * 3 + y) & 255;
                y = (y + (x >> 2)) & 255;
            }
            o[0] = x;
            o[1] = y;
        }
    }
}
"""

STAGE = """#pragma omp task input({read} >> x, s{name} >> u) output({write} << y, s{name} << v)
        {{
            int k;
            v = u;
            for (k = 0; k < 20; k++) v = (v * {by} + x) & 255;
            y = v;
        }}
        """

STAGES = """int main(void) {
    int a __attribute__((stream)), b __attribute__((stream));
    int sa __attribute__((stream)), sb __attribute__((stream)), sc __attribute__((stream));
    int i, x, y, u, v;
    #pragma omp task output(sa << u)
    u = 1;
    #pragma omp task output(sb << u)
    u = 2;
    #pragma omp task output(sc << u)
    u = 3;
    for (i = 0; i < osin_len; i++) {
        """ + "".join(
    STAGE.format(read=read, name=name, write=write, by=by)
    for read, name, write, by in [("osin", "a", "a", 5), ("a", "b", "b", 7), ("b", "c", "osout", 3)]
) + """}
}
"""

BODIES = """int main(void) {
    int i, z;
    for (i = 0; i < 256; i++) {
        #pragma omp task output(osout << z)
        {
            int k;
            z = i & 255;
            for (k = 0; k < 20000; k++) z = (z * 3 + k) & 255;
        }
    }
}
"""


def in_blocks(size):
    """The text of examples/invert.c in blocks of this size."""
    with open(f"{TOP}/examples/invert.c", encoding="utf-8") as file:
        return file.read().replace("B = 4", f"B = {size}")


MORE_RUNS = {
    **RUNS,
    "mixing": (MIXING, lambda count: count),
    "stages": (STAGES, lambda count: 16_000),
    "blocks64": (in_blocks(64), lambda count: 1 << 20),
    "blocks4096": (in_blocks(4096), lambda count: 1 << 20),
    "wavelet": (None, lambda count: 1 << 20),
    "bodies": (BODIES, lambda count: 0),
}


def files(name, work):
    """The program and the input of a run."""
    text, length = MORE_RUNS[name]
    program, data = f"{work}/{name}.c", f"{work}/{name}.in"
    if text is None:
        shutil.copy(f"{TOP}/examples/{name}.c", program)
    else:
        with open(program, "w", encoding="utf-8") as file:
            file.write(text)
    with open(data, "wb") as file:
        file.write(bytes(at * 7 % 251 for at in range(length(COUNT))))
    return program, data


def milliseconds(program, data, workers, out):
    """What a process takes, whose output goes to a file."""
    words = [OSRUN, "run", program, data, "--workers", str(workers)]
    sinks = [(os.POSIX_SPAWN_OPEN, 1, out, os.O_WRONLY | os.O_CREAT | os.O_TRUNC, 0o600),
             (os.POSIX_SPAWN_OPEN, 2, os.devnull, os.O_WRONLY, 0)]
    begun = time.perf_counter()
    process = os.posix_spawn(OSRUN, words, os.environ, file_actions=sinks)
    status = os.waitpid(process, 0)[1]
    took = (time.perf_counter() - begun) * 1000
    if os.waitstatus_to_exitcode(status) not in (0, 1):
        raise RuntimeError(f"status {status}: {' '.join(words)}")
    return took


def compare(name, program, data, work):
    """Whether all numbers of workers write the same."""
    told = set()
    for workers in WORKERS:
        milliseconds(program, data, workers, f"{work}/out")
        with open(f"{work}/out", "rb") as file:
            told.add(file.read())
    if len(told) != 1:
        raise RuntimeError(f"{name}: the output isn't the same by all workers")


def main(names):
    if not os.access(OSRUN, os.X_OK):
        sys.exit("build the program first: ./build")
    print("| run | 1 | 2 | 4 | times: 2 | 4 | slower |")
    print("|---|---|---|---|---|---|---|")
    with tempfile.TemporaryDirectory() as work:
        for name in names or ["lift", "mixing", "pipeline", "overlap", "chain", "swapped", "stages", "blocks64", "blocks4096", "wavelet", "bodies"]:
            program, data = files(name, work)
            compare(name, program, data, work)
            took = {workers: [] for workers in WORKERS}
            for _ in range(TIMES):
                for workers in WORKERS:
                    took[workers].append(milliseconds(program, data, workers, os.devnull))
            told = {workers: (statistics.median(took[workers]), min(took[workers])) for workers in WORKERS}
            one = told[1]
            row = [", ".join(f"{it:.1f}" for it in told[workers]) for workers in WORKERS]
            row += [", ".join(f"{mine / its:.2f}" for mine, its in zip(one, told[workers])) for workers in WORKERS[1:]]
            slower = sum(it > one[0] for it in took[4])
            print(f"| {name} | " + " | ".join(row) + f" | {slower} |", flush=True)
    return 0


if __name__ == "__main__":
    sys.exit(main(sys.argv[1:]))
