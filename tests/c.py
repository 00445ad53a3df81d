#!/usr/bin/env python3
"""tests/c.py [quick | whole | drawn COUNT [SEED] | bodies COUNT [SEED]]: programs that oscc writes as C, beside `osrun run`.

Each is compiled and run, and its output, report and status are compared with those of `osrun run` over the same input, with the same
options; those of tests/rows/runs.rows with what stands there.

- quick, where no word is given: tests/rows/runs.rows, and all of examples/ over several inputs, by gcc -O2; then words, files that can't
  be read and sinks that break.
- whole: the same by gcc -O0, -O2, -O3 -march=native and with its sanitizers, and by clang where it is there.
- drawn: COUNT programs that are drawn from SEED, or from a seed that is told, each over two inputs and with three budgets, by gcc -O1.
- bodies: COUNT bodies that tests/machine_codes.py draws from SEED, each in an object that `oscc --object` writes as C, by gcc -O2; how each
  ends and what it writes is compared with what the interpreter there says.

./build has to have built the programs. tests/c.sh calls it where gcc is there. The last line is `N passed, M failed`."""
import concurrent.futures
import glob
import itertools
import math
import os
import random
import shutil
import subprocess
import sys
import tempfile

sys.dont_write_bytecode = True
sys.path.insert(0, os.path.dirname(os.path.abspath(__file__)))
from c_programs import drawn_program  # noqa: E402
from machine_codes import drawn  # noqa: E402
from machine_runs import PROGRAM, wanted, with_body  # noqa: E402
from object import read  # noqa: E402
from objects import object_of  # noqa: E402
from programs import BIN, program  # noqa: E402
from rows import TOP, Counts, run_rows  # noqa: E402

OSRUN = program("osrun")
OSCC = program("oscc")
RUNTIME = f"{BIN}/../share/osrun" if BIN else f"{TOP}/runtime"
SANITIZERS = ["gcc", "-O1", "-g", "-fsanitize=address,undefined", "-fno-sanitize-recover=all"]
COMPILERS = [["gcc", "-O0"], ["gcc", "-O2"], ["gcc", "-O3", "-march=native"], SANITIZERS, ["clang", "-O2"]]


def call(words, **more):
    """The status, the output and what was told."""
    ended = subprocess.run(words, stdin=subprocess.DEVNULL, capture_output=True, timeout=300, check=False, **more)
    return ended.returncode, ended.stdout, ended.stderr


def write(name, content):
    with open(name, "wb") as file:
        file.write(content)


def compiled(job):
    """Writes a program, or the code of an object, as C and compiles it. The answer is what went wrong, or None."""
    name, compiler = job
    status, text, told = call([OSCC, *(["--object", f"{name}.o"] if os.path.exists(f"{name}.o") else [f"{name}.c"])])
    if status != 0:
        return told
    write(f"{name}.made.c", text)
    words = [*compiler, "-std=c11", "-Wall", "-Wextra", "-Werror", f"-I{RUNTIME}", f"{name}.made.c", f"{RUNTIME}/osrt.c", "-o", f"{name}.made"]
    status, _, told = call(words)
    return told if status != 0 else None


def compile_all(counts, names, compiler):
    with concurrent.futures.ThreadPoolExecutor(os.cpu_count()) as pool:
        for name, wrong in zip(names, pool.map(compiled, [(name, compiler) for name in names])):
            counts.add(f"{name} by {' '.join(compiler)}", wrong, None)


def inputs():
    """Bytes of several kinds, by their names."""
    noise = random.Random(1)
    write("empty", b"")
    write("one", b"\x7f")
    write("sine", bytes(int(128 + 100 * math.sin(2 * math.pi * at / 64)) for at in range(10007)))
    write("noise", bytes(noise.randrange(256) for _ in range(4099)))
    write("zeros", bytes(2048))
    shutil.copy(f"{TOP}/README.md", "text")
    return ["empty", "one", "sine", "noise", "zeros", "text"]


def compare_rows(counts, compiler):
    rows = list(run_rows())
    for number, row in enumerate(rows):
        write(f"row{number}.c", row["program"].encode())
    compile_all(counts, [f"row{number}" for number in range(len(rows))], compiler)
    for number, row in enumerate(rows):
        write("input", bytes.fromhex(row["input"]))
        words = row.get("options", "").split()
        options = [word for before, word in zip(["", *words], words) if "--workers" not in (before, word)]
        wanted = int(row["status"]), bytes.fromhex(row["out"]), (row["report"].replace(" / ", "\n") + "\n").encode()
        counts.add(row["name"], call([f"./row{number}.made", "input", *options]), wanted)


def compare_examples(counts, compiler):
    names = [os.path.basename(name)[:-2] for name in sorted(glob.glob(f"{TOP}/examples/*.c"))]
    for name in names:
        shutil.copy(f"{TOP}/examples/{name}.c", f"{name}.c")
    compile_all(counts, names, compiler)
    for name, data in itertools.product(names, inputs()):
        for options in [], ["--budget", "100"], ["--control=50"]:
            wanted = call([OSRUN, "run", f"{name}.c", data, *options])
            counts.add(f"{name} over {data} {' '.join(options)}", call([f"./{name}.made", data, *options]), wanted)


def compare_edges(counts):
    """Words, files and sinks: first.c is compiled."""
    write("long", bytes(4194305))
    write("whole", bytes(4194304))
    for words in [
        [], [""], ["none"], ["."], ["long"], ["whole"], ["one", "two"], ["--budget", "1"], ["one", "--budget"], ["one", "--budget", "x"],
        ["one", "--budget="], ["one", "--budget", "+4"], ["one", "--budget=0004"], ["one", "--budget", "-0"], ["one", "--budget", "1000000001"],
        ["one", "--budget", "1000000000"], ["one", "--budget", "1", "--budget", "1"], ["--budget", "3", "one"], ["--", "one"], ["--", "--budget"],
        ["one", "--help"], ["-h"], ["-"], ["one", "--control", "0"], ["--control", "--", "one"], ["one", "--"], ["--bud", "1", "one"], ["-x", "one"],
        ["one", "--budget", ""], ["one", "--budget", "+"], ["one", "--budget", "++4"], ["one", "--budget", "99999999999999999999"],
    ]:
        wanted = call([OSRUN, "run", "first.c", *words])
        counts.add(f"words {words}", call(["./first.made", *words]), wanted)
    for sinks in "1>/dev/full", "2>/dev/full", "1>&-", "2>&-":
        wanted = call(["bash", "-c", f"{OSRUN} run first.c sine {sinks}"])
        counts.add(sinks, call(["bash", "-c", f"./first.made sine {sinks}"]), wanted)


def compare_drawn(counts, count, seed):
    print(f"seed {seed}")
    source = random.Random(seed)
    names = [f"drawn{number}" for number in range(count)]
    for name in names:
        write(f"{name}.c", drawn_program(source).encode())
    compile_all(counts, names, ["gcc", "-O1"])
    for name in names:
        for length in source.randrange(3), source.randrange(3, 40):
            write("input", bytes(source.choice((0, 1, 2, 3, 7, 255, source.randrange(256))) for _ in range(length)))
            for options in [], ["--budget", str(source.randrange(60))], ["--control", str(source.randrange(40))]:
                wanted = call([OSRUN, "run", f"{name}.c", "input", *options])
                counts.add(f"{name} over {length} {' '.join(options)}", call([f"./{name}.made", "input", *options]), wanted)
        if counts.failed > 20:
            break


def compare_bodies(counts, count, seed):
    print(f"seed {seed}")
    write("program.c", PROGRAM.encode())
    write("input", bytes([10, 20, 30]))
    parts = read(call([OSRUN, "compile", "program.c"])[1])
    runs = [(body, values, budget) for body, many in drawn(count, seed) for values, budget in many]
    names = [f"body{number}" for number in range(len(runs))]
    for name, (body, values, _) in zip(names, runs):
        write(f"{name}.o", object_of(with_body(parts, body, values)))
    compile_all(counts, names, ["gcc", "-O2"])
    for name, (body, values, budget) in zip(names, runs):
        status, out, report = wanted(body, values, budget)
        counts.add(f"{name} {values} {budget} {body}", call([f"./{name}.made", "input", "--budget", str(budget)]), (status, out, report.encode()))


def main(words):
    counts = Counts()
    mode = words[0] if words else "quick"
    with tempfile.TemporaryDirectory() as work:
        os.chdir(work)
        if mode in ("drawn", "bodies"):
            compare_many = compare_drawn if mode == "drawn" else compare_bodies
            compare_many(counts, int(words[1]), int(words[2]) if len(words) > 2 else random.randrange(10**6))
        else:
            for compiler in [["gcc", "-O2"]] if mode == "quick" else [it for it in COMPILERS if shutil.which(it[0])]:
                compare_rows(counts, compiler)
                compare_examples(counts, compiler)
                compare_edges(counts)
        os.chdir(TOP)
    print(f"{counts.passed} passed, {counts.failed} failed")
    return int(counts.failed != 0)


if __name__ == "__main__":
    sys.exit(main(sys.argv[1:]))
