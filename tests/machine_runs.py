#!/usr/bin/env python3
"""tests/machine_runs.py [COUNT [SEED]]: what the built program makes of bodies that a generator draws.

COUNT bodies, 1000 where no number is given, are drawn by tests/machine_codes.py from SEED, or from a seed that the script tells, each with
up to three pairs of values and a budget. Each is put into an object in place of a task that a compiler wrote, and `osrun exec` runs it; how
it ends, with the line of a trap, and what it writes are compared with what the interpreter of tests/machine_codes.py says, which goes step by
step and knows no forms of several instructions.
It isn't called by .ci/run: ./build has to have built the program. The last line is `N passed, M failed`."""
import os
import random
import re
import subprocess
import sys
import tempfile

sys.dont_write_bytecode = True
sys.path.insert(0, os.path.dirname(os.path.abspath(__file__)))
from machine_codes import BEHIND, OPERATORS, drawn, run  # noqa: E402
from object import BINARY, UNARY, read  # noqa: E402
from objects import OSRUN, object_of  # noqa: E402

# The first task is drawn; the second one writes what the first one wrote to the stream between them, byte by byte.
PROGRAM = """int f(int x) { int y; y = x; return y; }
int main(void) {
    int s __attribute__((stream));
    int w[3], a[2], b, q[2], o[8], first = 1111, second = 2222;
    #pragma omp task firstprivate(first, second) input(osin >> w[3]) output(s << a[2], osout << b)
    { b = first + f(second); a[0] = w[0]; a[1] = 0; }
    #pragma omp task input(s >> q[2]) output(osout << o[8])
    {
        o[0] = q[0] & 255; o[1] = (q[0] >> 8) & 255; o[2] = (q[0] >> 16) & 255; o[3] = (q[0] >> 24) & 255;
        o[4] = q[1] & 255; o[5] = (q[1] >> 8) & 255; o[6] = (q[1] >> 16) & 255; o[7] = (q[1] >> 24) & 255;
    }
}
"""
SYMBOLS = dict(zip(OPERATORS, ["|", "^", "&", "==", "!=", "<", "<=", ">", ">=", "<<", ">>", "+", "-", "*", "/", "%"]))
SIGNS = {"Minus": "-", "Plus": "+", "Not": "!", "Invert": "~"}


def spelled(instruction):
    """An instruction of a body as objects have it."""
    name, *fields = instruction
    if name == "Binary":
        return [name, BINARY.index(SYMBOLS[fields[0]]), fields[1]]
    if name == "Unary":
        return [name, UNARY.index(SIGNS[fields[0]]), fields[1]]
    return [name, *fields]


def moved(instruction, by):
    name, *fields = instruction
    return [name, fields[0] + by] if name in ("Jump", "JumpZero") else [name, *fields]


def with_body(parts, body, values):
    """The parts with the function and the first task in place of those that were compiled, and with these values captured."""
    ends = [unit.start for unit in parts.units[1:]] + [len(parts.instructions)]
    regions = [[moved(it, -unit.start) for it in parts.instructions[unit.start:end]] for unit, end in zip(parts.units, ends)]
    task = parts.sites[0].unit
    regions[0], regions[task] = [spelled(it) for it in BEHIND[:-1]], [spelled(it) for it in body]
    regions[parts.main] = [["Push", dict(zip((1111, 2222), values)).get(fields[0], fields[0])] if name == "Push" else [name, *fields]
                           for name, *fields in regions[parts.main]]
    slots, units, code = {0: 2, task: 6}, [], []
    for number, (unit, region) in enumerate(zip(parts.units, regions)):
        stack = len(region) if number in slots else unit.stack
        units.append(unit._replace(start=len(code), slots=slots.get(number, unit.slots), stack=stack))
        start = len(code)
        code += [moved(it, start) for it in region]
    return parts._replace(units=units, sites=[parts.sites[0]._replace(line=90), *parts.sites[1:]], instructions=code)


def wanted(body, values, budget):
    """The status, the output and the report, by the interpreter."""
    end, _, (one, two, last) = run(body, values, budget)
    if end == "Done":
        return 0, bytes([last]) + b"".join((it % 2**32).to_bytes(4, "little") for it in (one, two)), "control done\noutput 9 of 9\n"
    if end == "OverBudget":
        first = "over-budget 0"
    else:
        first = "trapped 0 code %s line %s" % re.fullmatch(r"Trapped { code: (\d+), line: (\d+) }", end).groups()
    return 1, b"", f"{first}\npoisoned 1 by 0\ncontrol done\noutput 0 of 9\n"


def main(words):
    if not os.access(OSRUN, os.X_OK):
        sys.exit(f"tests/machine_runs.py: {OSRUN} isn't there: call ./build")
    count, seed = int(words[0]) if words else 1000, int(words[1]) if words[1:] else random.randrange(10**6)
    print(f"seed {seed}", file=sys.stderr)
    passed = failed = 0
    with tempfile.TemporaryDirectory() as room:
        os.chdir(room)
        for name, data in ("program.c", PROGRAM.encode()), ("input", bytes([10, 20, 30])):
            with open(name, "wb") as file:
                file.write(data)
        parts = read(subprocess.run([OSRUN, "compile", "program.c"], stdout=subprocess.PIPE, check=True).stdout)
        for number, (body, runs) in enumerate(drawn(count, seed)):
            for values, budget in runs:
                with open("body.o", "wb") as file:
                    file.write(object_of(with_body(parts, body, values)))
                ran = subprocess.run([OSRUN, "exec", "body.o", "input", "--workers", "1", "--budget", str(budget)], capture_output=True, check=False)
                found, should = (ran.returncode, ran.stdout, ran.stderr.decode()), wanted(body, values, budget)
                passed += found == should
                failed += found != should
                if found != should:
                    print(f"body {number} over {values} with {budget}: {found}; wanted {should}: {body}")
    print(f"{passed} passed, {failed} failed")
    return int(failed != 0)


if __name__ == "__main__":
    sys.exit(main(sys.argv[1:]))
