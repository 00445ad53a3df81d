#!/usr/bin/env python3
"""What a start of an installed program takes: the milliseconds of `osrun gen 1 2` and of `ospack pack 8` over nothing, by the program alone,
libexec/osrun/osrun, and by the script that starts it, bin/osrun. The two run in turn, 400 times each; the least and the median are told.
./build has to have built the programs."""
import os
import statistics
import subprocess
import sys
import tempfile
import time

TOP = os.path.dirname(os.path.dirname(os.path.abspath(__file__)))
RUNS = 400
WORDS = {"osrun": ["gen", "1", "2"], "ospack": ["pack", "8"]}
NOTHING = [(os.POSIX_SPAWN_OPEN, 0, os.devnull, os.O_RDONLY, 0), (os.POSIX_SPAWN_OPEN, 1, os.devnull, os.O_WRONLY, 0),
           (os.POSIX_SPAWN_OPEN, 2, os.devnull, os.O_WRONLY, 0)]


def milliseconds(words):
    began = time.perf_counter()
    _, status = os.waitpid(os.posix_spawn(words[0], words, os.environ, file_actions=NOTHING), 0)
    if status:
        sys.exit(f"{words[0]}: status {status}")
    return 1000 * (time.perf_counter() - began)


def main():
    with tempfile.TemporaryDirectory() as prefix:
        subprocess.run([f"{TOP}/install", prefix], stdout=subprocess.DEVNULL, check=True)
        print(f"{'program':8} {'alone: least':>13} {'median':>7} {'by the script: least':>21} {'median':>7}")
        for name in sys.argv[1:] or WORDS:
            ways = [f"{prefix}/libexec/osrun/{name}", f"{prefix}/bin/{name}"]
            taken = [[], []]
            for _ in range(RUNS):
                for way, times in zip(ways, taken):
                    times.append(milliseconds([way, *WORDS[name]]))
            alone, script = taken
            print(f"{name:8} {min(alone):13.2f} {statistics.median(alone):7.2f} {min(script):21.2f} {statistics.median(script):7.2f}")


main()
