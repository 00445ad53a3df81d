#!/usr/bin/env python3
"""tests/objects.py [DRAWN]: what the built program makes of objects that no compiler wrote.

- Three objects, that of docs/OBJECTS.md and those of two examples: each of their bytes is changed to each of eight values, and each is
  cut at each length. Whether the bytes spell parts is told by tests/object.py, and whether these are valid by this script, from the
  sentences of docs/OBJECTS.md: so each is refused as what it is, or runs to its end, the same by one worker and by four.
- DRAWN valid codes, 1000 where no number is given, that are drawn from what no compiler writes: units in any order, code that nothing
  reaches, calls that open a unit, jumps to and fro. Each runs to its end, the same by one worker and by four.

With the words --write DRAWN FILE SEED it runs nothing, and writes as many drawn objects into the file, each behind its length as four
bytes, the lowest first.
It isn't called by .ci/run: ./build has to have built the program. The last line is `N passed, M failed`."""
import itertools
import os
import random
import re
import struct
import subprocess
import sys
import tempfile

sys.dont_write_bytecode = True
sys.path.insert(0, os.path.dirname(os.path.abspath(__file__)))
from object import BINARY, INSTRUCTIONS, MARK, SHOWN, UNARY, Item, NoParts, Parts, Site, Unit, read  # noqa: E402
from programs import TOP, program  # noqa: E402

OSRUN = os.environ.get("OSRUN", program("osrun"))
EXAMPLES = ["first", "lift"]
VALUES = (0, 1, 2, 18, 25, 127, 128, 255)
BUDGETS = "--budget 2000 --control 2000"

# What an instruction takes from the operand stack, or only looks at, and how many operands stand there in their place.
OPERANDS = {name: 1 for name in ("Drop", "Copy", "Store", "CheckAt", "LoadAt", "ItemCheck", "ItemLoad", "Unary", "JumpZero", "Return", "Window",
                                 "BurstIn", "BurstOut")}
OPERANDS |= {name: 2 for name in ("StoreAt", "ItemStore", "Binary", "Tick")}
PUSHES = {name: 1 for name in ("Push", "Load", "CheckAt", "LoadAt", "ItemCheck", "ItemLoad", "Unary", "Binary", "Call", "BurstIn", "BurstOut")}
PUSHES |= {"Copy": 2}
JUMPS = ("Jump", "JumpZero")
BEHIND_A_TURN = ("Call", "Tick")
STOPS = ("Jump", "Return", "End")
OF_MAIN = ("Window", "BurstIn", "BurstOut", "Spawn", "Tick")
OF_TASKS = ("ItemCheck", "ItemLoad", "ItemStore")
NOT_IN = {"main": OF_TASKS + ("Return",), "task": OF_MAIN + ("Return",), "function": OF_MAIN + OF_TASKS + ("End",)}


class Code:
    """The parts of a code, and whether they are valid: each sentence of docs/OBJECTS.md as a method."""

    def __init__(self, parts):
        self.parts = parts
        self.starts = sorted({unit.start for unit in parts.units})
        self.tasks = {site.unit: site for site in parts.sites}

    def end_of(self, unit):
        above = [start for start in self.starts if start > unit.start]
        return min(above, default=len(self.parts.instructions))

    def kind_of(self, number):
        return "main" if number == self.parts.main else "task" if number in self.tasks else "function"

    def operands(self, instruction):
        name, *fields = instruction
        if name == "Call":
            return self.parts.units[fields[0]].args
        return 2 * len(self.parts.sites[fields[0]].items) if name == "Spawn" else OPERANDS.get(name, 0)

    def regions_are_lawful(self):
        length = len(self.parts.instructions)
        apart = len(self.starts) == len(self.parts.units) and all(start < length for start in self.starts)
        return apart and (length == 0 or self.starts[:1] == [0])

    def sites_are_lawful(self):
        units, sites, streams = self.parts.units, self.parts.sites, self.parts.streams
        if not (2 <= streams <= 65538 and self.parts.main < len(units) and units[self.parts.main].args == 1 and len(self.tasks) == len(sites)):
            return False
        slots = units[self.parts.main].slots
        for site in sites:
            if site.unit == self.parts.main or site.unit >= len(units) or units[site.unit].args != len(site.captured):
                return False
            if len(site.items) > 8 or len(site.captured) > 64 or any(slot >= slots for slot in site.captured):
                return False
            if any(item.stream >= streams or (item.window is not None and item.window >= slots) for item in site.items):
                return False
        return True

    def frames_are_lawful(self):
        units = self.parts.units
        small = all(unit.start + unit.stack <= self.end_of(unit) and unit.args <= unit.slots for unit in units)
        return small and sum(unit.slots for unit in units) <= 2097152

    def stands(self, number, unit, place):
        """Whether the instruction may stand at this place of this unit, but for heights."""
        parts, (name, *fields) = self.parts, self.parts.instructions[place]
        kind, name_at = self.kind_of(number), lambda at: parts.instructions[at][0]
        if name in NOT_IN[kind] or (name in BEHIND_A_TURN and (place == 0 or name_at(place - 1) != "Turn")):
            return False
        if name in JUMPS:
            to = fields[0]
            if not unit.start <= to < self.end_of(unit) or (to <= place and name_at(to) != "Turn") or name_at(to) in BEHIND_A_TURN:
                return False
        if name == "Call" and not (fields[0] < number and self.kind_of(fields[0]) == "function"):
            return False
        if name in OF_TASKS:
            items = self.tasks[number].items
            if fields[0] >= len(items) or (name == "ItemStore" and not items[fields[0]].write):
                return False
        named = 0
        if name in ("Load", "Store", "Window", "BurstOut"):
            named = fields[0] + 1
        elif name in ("Zero", "LoadAt", "StoreAt"):
            named = fields[0] + fields[1]
        there = {"Spawn": len(parts.sites), "Tick": parts.streams}
        return named <= unit.slots and (name not in there or fields[0] < there[name])

    def heights_are_lawful(self, unit):
        """Whether each instruction that is reached from the unit's start is reached with one height, which fits."""
        heights, waiting, end = {unit.start: 0}, [unit.start], self.end_of(unit)
        while waiting:
            place = waiting.pop()
            height, (name, *fields) = heights[place], self.parts.instructions[place]
            operands = self.operands(self.parts.instructions[place])
            after = height - operands + PUSHES.get(name, 0)
            if operands > height or height > unit.stack or after > unit.stack:
                return False
            for to in ([] if name in STOPS else [place + 1]) + (fields if name in JUMPS else []):
                if to >= end or heights.get(to, after) != after:
                    return False
                if to not in heights:
                    heights[to] = after
                    waiting.append(to)
        return True

    def is_valid(self):
        if not (self.regions_are_lawful() and self.sites_are_lawful() and self.frames_are_lawful()):
            return False
        for number, unit in enumerate(self.parts.units):
            if not all(self.stands(number, unit, place) for place in range(unit.start, self.end_of(unit))):
                return False
        return all(self.heights_are_lawful(unit) for unit in self.parts.units)


def object_of(parts):
    """The bytes that spell the parts."""
    names = [name for name, _ in INSTRUCTIONS]
    numbers = [parts.streams, parts.main, len(parts.units)] + [number for unit in parts.units for number in unit]
    numbers.append(len(parts.sites))
    for site in parts.sites:
        numbers += [site.unit, site.line, len(site.captured), *site.captured, len(site.items)]
        for item in site.items:
            numbers += [item.write, item.stream, 0 if item.window is None else item.window + 1]
    numbers.append(len(parts.instructions))
    for name, *fields in parts.instructions:
        numbers += [names.index(name), *(field % (1 << 32) for field in fields)]
    return MARK + struct.pack(f"<{len(numbers)}I", *numbers)


class Body:
    """The code of a unit as it is drawn: jumps stand in places counted from the unit's start."""

    def __init__(self, rng, draw, number):
        self.rng, self.draw, self.number = rng, draw, number
        self.kind, self.unit = draw.kinds[number], draw.units[number]
        self.code, self.most = [], 0
        self.height = 0  # at the next place, or None where nothing goes on to it
        self.turns, self.forth = {}, []  # the places of turns with their heights; the jumps to later places with theirs

    def add(self, name, *fields, operands=None):
        self.code.append([name, *fields])
        if self.height is not None:
            taken = OPERANDS.get(name, 0) if operands is None else operands
            self.most = max(self.most, self.height, self.height - taken + PUSHES.get(name, 0))
            self.height += PUSHES.get(name, 0) - taken
            if name in STOPS:
                self.height = None

    def land(self):
        """Lets some of the jumps to later places with this height go here."""
        here = [jump for jump in self.forth if jump[1] == self.height]
        for jump in here if self.rng.random() < 0.7 else []:
            self.code[jump[0]][1] = len(self.code)
            self.forth.remove(jump)

    def step(self, alive=True):
        """Adds an instruction that may stand here, whatever the height where nothing reaches it."""
        rng, unit, line = self.rng, self.unit, self.rng.randrange(1 << 32)
        height = self.height if alive else 9
        slots, ways = unit.slots, [self.push]
        if slots:
            ways += [lambda: self.add("Load", rng.randrange(slots)), self.zero]
        if height >= 1:
            ways += [lambda: self.add("Drop"), lambda: self.add("Copy"), lambda: self.add("CheckAt", rng.randrange(1 << 32), line)]
            ways += [lambda: self.add("Unary", rng.randrange(len(UNARY)), line), self.jump_forth]
            if slots:
                ways += [lambda: self.add("Store", rng.randrange(slots)), lambda: self.add("LoadAt", *self.span(), line)]
        if height >= 2:
            ways += [lambda: self.add("Binary", rng.randrange(len(BINARY)), line)] * 3
            if slots:
                ways.append(lambda: self.add("StoreAt", *self.span(), line))
        ways += [self.turn, self.jump_back]
        ways += {"main": self.ways_of_main, "task": self.ways_of_task, "function": lambda *_: []}[self.kind](height, line)
        callees = [other for other in range(self.number) if self.draw.kinds[other] == "function" and self.draw.units[other].args <= height]
        if callees:
            ways += [lambda: self.call(rng.choice(callees))] * 2
        rng.choice(ways)()

    def push(self):
        self.add("Push", self.rng.choice([0, 1, 2, 3, 255, -1, -(1 << 31), (1 << 31) - 1, self.rng.randrange(-(1 << 31), 1 << 31)]))

    def span(self):
        first = self.rng.randrange(self.unit.slots + 1)
        return first, self.rng.randrange(self.unit.slots + 1 - first)

    def zero(self):
        self.add("Zero", *self.span())

    def turn(self):
        self.turns[len(self.code)] = self.height
        self.add("Turn")

    def call(self, callee):
        self.turn()
        self.add("Call", callee, operands=self.draw.units[callee].args)

    def jump_forth(self):
        if self.height is None:
            self.push()
            return
        name = self.rng.choice(JUMPS)
        place, height = len(self.code), self.height - (name == "JumpZero")
        self.add(name, 0)
        self.forth.append((place, height))

    def jump_back(self):
        """Back to a turn; where nothing reaches this, the heights need not be the same."""
        turns = [place for place, height in self.turns.items() if height == self.height or self.height is None]
        if turns:
            self.add("Jump", self.rng.choice(turns))

    def ways_of_task(self, height, line):
        items = self.draw.sites[self.number].items
        ways, outputs = [], [item for item, named in enumerate(items) if named.write]
        if items and height >= 1:
            ways += [lambda name=name: self.add(name, self.rng.randrange(len(items)), line) for name in ("ItemCheck", "ItemLoad")]
        if outputs and height >= 2:
            ways += [lambda: self.add("ItemStore", self.rng.choice(outputs), line)] * 2
        return ways

    def ways_of_main(self, height, line):
        rng, slots, ways = self.rng, self.unit.slots, []
        if height >= 1:
            ways += [lambda name=name: self.add(name, rng.randrange(slots), line) for name in ("Window", "BurstOut")]
            ways.append(lambda: self.add("BurstIn", line))
        if height >= 2:
            ways.append(self.tick)
        return ways + [self.spawn] * 4 if self.draw.sites else ways

    def tick(self):
        self.turn()
        self.add("Tick", self.rng.randrange(self.draw.streams))

    def spawn(self):
        """A site, most times behind windows and streams that it takes."""
        task = self.rng.choice(list(self.draw.sites))
        items = self.draw.sites[task].items
        for item in items:
            if item.window is not None and self.rng.random() < 0.8:
                self.add("Push", self.rng.randrange(1, 4))
                self.add("Window", item.window, 9)
        for item in items:
            self.add("Push", self.rng.choice([0, 0, 0, 0, 0, 1, 2]))
            if item.write and item.window is not None and self.rng.random() < 0.9:
                self.add("Load", item.window)
            else:
                self.add("Push", 1)
        self.add("Spawn", list(self.draw.sites).index(task), operands=2 * len(items))

    def junk(self):
        """What nothing reaches."""
        assert self.height is None
        for _ in range(self.rng.randrange(4)):
            self.step(alive=False)

    def stop(self):
        if self.kind == "function":
            if self.height == 0:
                self.push()
            self.add("Return")
        else:
            self.add("End")

    def drawn(self, opens):
        """The body. It may open with a call, where a turn stands before it."""
        callees = [other for other in range(self.number) if self.draw.kinds[other] == "function" and self.draw.units[other].args == 0]
        if opens and callees:
            self.add("Call", self.rng.choice(callees), operands=0)
        for _ in range(self.rng.randrange(1, 30)):
            if self.height is None:
                self.junk()
                if not self.forth:
                    break
                self.height = self.rng.choice(self.forth)[1]
            self.land()
            self.step()
        return self.closed()

    def closed(self):
        """The body with an end behind it, and one for each height with which a jump still wants a place."""
        if self.height is not None:
            self.stop()
        self.junk()
        while self.forth:
            self.height = self.forth[0][1]
            for jump in [jump for jump in self.forth if jump[1] == self.height]:
                self.code[jump[0]][1] = len(self.code)
                self.forth.remove(jump)
            self.most = max(self.most, self.height)
            self.stop()
            self.junk()
        return self.code


class Draw:
    """A valid code, drawn."""

    def __init__(self, rng):
        self.rng, self.streams = rng, rng.choice([2, 3, 4, 9, 65538])
        self.kinds = ["function"] * rng.randrange(4) + ["task"] * rng.randrange(4) + ["main"]
        rng.shuffle(self.kinds)
        main_slots = rng.randrange(1, 9)
        self.sites, self.units = {}, []
        for number, kind in enumerate(self.kinds):
            args = 1 if kind == "main" else rng.choice([0, 0, 1, 2, 3])
            self.units.append(Unit(0, args, main_slots if kind == "main" else args + rng.randrange(5), 0))
            if kind == "task":
                items = [self.item(main_slots) for _ in range(rng.choice([0, 1, 1, 2, 2, 3, 8]))]
                self.sites[number] = Site(number, rng.randrange(1 << 32), [rng.randrange(main_slots) for _ in range(args)], items)
        if rng.random() < 0.5:
            self.sites = dict(sorted(self.sites.items(), reverse=True))

    def item(self, slots):
        write, stream = self.rng.randrange(2), self.rng.randrange(self.streams)
        if self.rng.random() < 0.7:
            stream = self.rng.choice([write, min(2, self.streams - 1)])
        return Item(write, stream, self.rng.choice([None, self.rng.randrange(slots)]))

    def parts(self):
        order = list(range(len(self.units)))
        self.rng.shuffle(order)
        code, opens = [], False
        for number in order:
            body = Body(self.rng, self, number)
            start = len(code)
            for name, *fields in body.drawn(opens):
                code.append((name, start + fields[0]) if name in JUMPS else (name, *fields))
            opens = self.rng.random() < 0.5
            if opens:
                code.append(("Turn",))
            length = len(code) - start
            self.units[number] = self.units[number]._replace(start=start, stack=self.rng.choice([body.most, length]))
        return Parts(self.streams, self.kinds.index("main"), self.units, list(self.sites.values()), code)


def drawn_objects(count, seed=0):
    rng = random.Random(seed)
    for _ in range(count):
        parts = Draw(rng).parts()
        assert Code(parts).is_valid()
        yield object_of(parts)


def outcomes(batch, workers):
    """What runs of the objects come to, as jobs of one server: status, output and report of each. None where it ends early."""
    with open("jobs", "w", encoding="ascii") as jobs:
        for number, data in enumerate(batch):
            with open(f"{number}.o", "wb") as file:
                file.write(data)
            jobs.write(f"exec {number}.o input --workers {workers} {BUDGETS}\n")
    told = subprocess.run([OSRUN, "serve", "jobs"], stdout=subprocess.PIPE, timeout=1000, check=False).stdout
    for number in range(len(batch)):
        head, _, told = told.partition(b"\n")
        found = re.fullmatch(rb"job (\d+) status (\d+) out (\d+) report (\d+)", head)
        if not found or int(found[1]) != number:
            yield None
            return
        status, out, report = map(int, found.groups()[1:])
        yield status, told[:out], told[out:out + report]
        told = told[out + report:]


def wanted_refusal(data):
    """What the object is refused as; None where it is one of a valid code."""
    try:
        parts = read(data)
    except NoParts:
        return 3, b"", b"refused 30\n"
    return None if Code(parts).is_valid() else (3, b"", b"refused 31\n")


class Counts:
    def __init__(self):
        self.passed, self.failed, self.runs = 0, 0, 0

    def add(self, told, wanted, found, again):
        is_right = found == again and (found == wanted if wanted else found is not None and found[0] in (0, 1))
        self.passed += is_right
        self.failed += not is_right
        self.runs += is_right and not wanted
        if not is_right:
            print(f"{told}: by 1 worker {found}, by 4 {again}; wanted {wanted or 'a run'}")

    def take(self, cases):
        """Takes objects, each with what is told of it, some at a time."""
        while batch := list(itertools.islice(cases, 500)):
            objects = [data for _, data in batch]
            for (told, data), found, again in itertools.zip_longest(batch, outcomes(objects, 1), outcomes(objects, 4)):
                self.add(told, wanted_refusal(data), found, again)


def changes(name, data):
    for place, byte in enumerate(data):
        for value in VALUES:
            if value != byte:
                yield f"{name}, byte {place} as {value}", data[:place] + bytes([value]) + data[place + 1:]
    for length in range(len(data)):
        yield f"{name}, cut at {length}", data[:length]


def objects():
    yield "the object that is shown", SHOWN
    for name in EXAMPLES:
        words = [OSRUN, "compile", f"{TOP}/examples/{name}.c"]
        yield f"the object of {name}.c", subprocess.run(words, stdout=subprocess.PIPE, check=True).stdout


def main(words):
    if words[:1] == ["--write"]:
        with open(words[2], "wb") as file:
            for data in drawn_objects(int(words[1]), int(words[3])):
                file.write(struct.pack("<I", len(data)) + data)
        return 0
    if not os.access(OSRUN, os.X_OK):
        sys.exit(f"tests/objects.py: {OSRUN} isn't there: call ./build")
    counts = Counts()
    with tempfile.TemporaryDirectory() as room:
        os.chdir(room)
        with open("input", "wb") as file:
            file.write(bytes(range(1, 17)))
        for name, data in objects():
            counts.take(changes(name, data))
        counts.take((f"drawn object {number}", data) for number, data in enumerate(drawn_objects(int(words[0]) if words else 1000)))
    print(f"{counts.runs} of them ran to an end", file=sys.stderr)
    print(f"{counts.passed} passed, {counts.failed} failed")
    return int(counts.failed != 0)


if __name__ == "__main__":
    sys.exit(main(sys.argv[1:]))
