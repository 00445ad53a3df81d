#!/usr/bin/env python3
"""bench/objects.py [drawn COUNT | runs]: what reading and writing objects takes, and running them.

Without words: objects of 64 MiB, as long as one may be but for four bytes, of several kinds: their instructions, the milliseconds of `decode` and of
`encode`, the quickest of five times, and the most memory of the program, which holds the file and what is written besides. The program
for it is proved and built in a copy of the crates below it.

drawn COUNT: as many objects of valid codes, drawn by tests/objects.py, are read and written again; it tells how many there were, of
how many the same bytes were written, and how many were refused.

runs: `osrun exec` over objects of 64 MiB, by 1, 4 and 64 workers: seconds, and the most memory. ./build has to have built the program."""
import array
import os
import shutil
import subprocess
import sys
import tempfile
import time

TOP = os.path.dirname(os.path.dirname(os.path.abspath(__file__)))
OSRUN = os.environ.get("OSRUN", f"{TOP}/crates/osrun/out/osrun")
BELOW = ["os_io", "c_int", "flow_core_laws", "os_lexer", "os_ast", "os_code", "os_object_validity", "os_object"]
NUMBERS = 67108864 // 4 - 2
PUSH, DROP, JUMP, JUMP_ZERO, TURN, END, SPAWN = 0, 1, 14, 15, 16, 19, 23


def repeated(numbers, count):
    """Numbers, written again and again until there are `count` of them."""
    return (array.array("I", numbers) * (count // len(numbers) + 1))[:count]


def behind(head, instructions, last, count):
    """`main` alone, with as many instructions as there is room for, and its last one behind them."""
    room = NUMBERS - len(head) - len(last) - 1
    room -= room % len(instructions)
    number = room // len(instructions) * count + 1
    return array.array("I", head + [number]) + repeated(instructions, room) + array.array("I", last), number


def turns():
    return behind([2, 0, 1, 0, 1, 1, 0, 0], [TURN], [END], 1)


def operands():
    """An operand that is pushed and dropped again."""
    return behind([2, 0, 1, 0, 1, 1, 1, 0], [PUSH, 7, DROP], [END], 2)


def jumps():
    """Each jump leaves an `End` behind it that waits while the jump is followed."""
    count = (NUMBERS - 10) // 5
    code = repeated([PUSH, 1, JUMP_ZERO, 0, END], 5 * count)
    for number in range(count):
        code[5 * number + 3] = 3 * (number + 1)
    return array.array("I", [2, 0, 1, 0, 1, 1, 1, 0, 3 * count + 1]) + code + array.array("I", [END]), 3 * count + 1


def functions():
    """As many functions, each with a turn to which it jumps back."""
    count = (NUMBERS - 20) // 7
    units, code = array.array("I", [2, count, count + 1]), array.array("I", [0, 2 * count + 1])
    for number in range(count):
        units.extend((2 * number, 0, 0, 0))
        code.extend((TURN, JUMP, 2 * number))
    units.extend((2 * count, 1, 1, 0))
    code.append(END)
    return units + code, 2 * count + 1


def tasks():
    """As many tasks, each with a site of eight items."""
    count = (NUMBERS - 20) // 33
    units, sites, code = array.array("I", [2, count, count + 1]), array.array("I", [count]), array.array("I", [count + 1])
    for number in range(count):
        units.extend((number, 0, 0, 0))
        sites.extend((number, 7, 0, 8) + (0, 0, 0) * 8)
    units.extend((count, 1, 1, 0))
    return units + sites + code + repeated([END], count + 1), count + 1


def past_its_end():
    """No code is valid whose last instruction goes on."""
    return behind([2, 0, 1, 0, 1, 1, 0, 0], [TURN], [TURN], 1)


def an_instruction_25():
    return behind([2, 0, 1, 0, 1, 1, 0, 0], [TURN], [25], 1)


VALID = {"turns": turns, "operands": operands, "jumps": jumps, "functions": functions, "tasks": tasks}
KINDS = VALID | {"turns, the last one without an end": past_its_end, "turns, and a number that no instruction has": an_instruction_25}


def scratch():
    """A task whose operand stack is as long as its region, which `main` creates 256 times; the task goes through its turns."""
    main = [SPAWN, 0] * 256 + [END]
    head = [2, 1, 2, 257, 0, 0, 0, 0, 1, 1, 0, 1, 0, 1, 0, 0]
    length = NUMBERS - len(head) - 1 - len(main)
    head[6] = length
    return array.array("I", head + [257 + length] + main) + repeated([TURN], length - 1) + array.array("I", [END]), 257 + length


def callers():
    """As many functions, beside a task that `main` creates 256 times: a worker has room for a call of each of them."""
    main = [SPAWN, 0] * 256 + [END]
    count = (NUMBERS - len(main) - 20) // 7
    units, code = array.array("I", [2, count, count + 2]), array.array("I", [2 * count + 258])
    for number in range(count):
        units.extend((2 * number, 0, 0, 0))
        code.extend((TURN, JUMP, 2 * number))
    units.extend((2 * count, 1, 1, 0, 2 * count + 257, 0, 0, 0, 1, count + 1, 1, 0, 0))
    return units + code + array.array("I", main + [END]), 2 * count + 258


def object_of(numbers):
    return b"OSO1" + numbers.tobytes()


def watched(words):
    """What a process writes, its seconds, and its most memory in MB."""
    began = time.monotonic()
    process = subprocess.Popen(words, stdout=subprocess.PIPE, stderr=subprocess.DEVNULL)
    told = process.stdout.read().decode(errors="replace")
    _, status, usage = os.wait4(process.pid, 0)
    process.returncode = os.waitstatus_to_exitcode(status)
    return told, time.monotonic() - began, usage.ru_maxrss // 1024, process.returncode


def built(room):
    """The program that reads and writes objects."""
    for name in BELOW:
        shutil.copytree(f"{TOP}/crates/{name}", f"{room}/crates/{name}", ignore=shutil.ignore_patterns("out"))
    with open(f"{TOP}/crates.txt", encoding="utf-8") as lines:
        kept = [line for line in lines if line.partition(":")[0] in BELOW]
    with open(f"{room}/crates.txt", "w", encoding="utf-8") as lines:
        lines.writelines([*kept, "objects: os_object os_io\n"])
    crate = f"{room}/crates/objects"
    os.makedirs(f"{crate}/src")
    shutil.copy(f"{TOP}/bench/objects.program", f"{crate}/src/main.rt")
    shutil.copy(f"{TOP}/HANDLES", room)
    made = subprocess.run(["rt", "run"], cwd=crate, stdout=subprocess.PIPE, stderr=subprocess.STDOUT, text=True, check=False)
    program = f"{crate}/out/objects"
    if not os.access(program, os.X_OK):
        sys.exit(made.stdout)
    return program


def read_and_written(program):
    print("| objects of 64 MiB | instructions | `decode`, ms | `encode`, ms | MB |\n|---|---|---|---|---|")
    for kind, make in KINDS.items():
        numbers, count = make()
        data = object_of(numbers)
        with open("objects", "wb") as file:
            file.write(len(data).to_bytes(4, "little") + data)
        told = [watched([program, "objects"]) for _ in range(5)]
        rows = [list(map(int, row[0].split())) for row in told]
        ms = [min(row[at] for row in rows) / 1000 for at in (3, 4)]
        refused = " refused" if rows[0][2] else ""
        print(f"| {kind} | {count:,} | {ms[0]:.0f}{refused} | {'-' if refused else f'{ms[1]:.0f}'} | {max(row[2] for row in told)} |")


def drawn(program, count):
    sums, at = [0, 0, 0], 0
    while at < count:
        some = min(20000, count - at)
        subprocess.run([f"{TOP}/tests/objects.py", "--write", str(some), "objects", str(at)], check=True)
        told = list(map(int, watched([program, "objects"])[0].split()))
        sums, at = [one + other for one, other in zip(sums, told)], at + some
    print(f"{sums[0]} objects, {sums[1]} written with the same bytes, {sums[2]} refused")


def runs():
    print("| `exec` of | workers | s | MB | status |\n|---|---|---|---|---|")
    for kind, make in (VALID | {"a task with a long stack": scratch, "a task beside functions": callers}).items():
        with open("it.o", "wb") as file:
            file.write(object_of(make()[0]))
        for workers in ("1", "4", "64"):
            _, seconds, memory, status = watched([OSRUN, "exec", "it.o", os.devnull, "--workers", workers])
            print(f"| {kind} | {workers} | {seconds:.2f} | {memory} | {status} |")


def main(words):
    with tempfile.TemporaryDirectory() as room:
        os.chdir(room)
        if words[:1] == ["runs"]:
            runs()
        elif words[:1] == ["drawn"]:
            drawn(built(room), int(words[1]))
        else:
            read_and_written(built(room))


main(sys.argv[1:])
