#!/usr/bin/env python3
"""Prints an object, the file of a code, as text: object.py FILE. It ends with status 1 where the bytes spell no parts of a code.

It reads the format by docs/OBJECTS.md alone and shares nothing with the program. It doesn't judge whether the parts are valid.
object.py --check compares it with the object that is shown there, with cuts of it and with changes of one number.
"""
import struct
import sys
from collections import namedtuple

MARK = b"OSO1"
# The instructions by their numbers, each with its fields.
INSTRUCTIONS = [
    ("Push", ["number"]), ("Drop", []), ("Copy", []), ("Load", ["slot"]), ("Store", ["slot"]), ("Zero", ["first", "count"]),
    ("CheckAt", ["size", "line"]), ("LoadAt", ["first", "size", "line"]), ("StoreAt", ["first", "size", "line"]),
    ("ItemCheck", ["item", "line"]), ("ItemLoad", ["item", "line"]), ("ItemStore", ["item", "line"]), ("Unary", ["operator", "line"]),
    ("Binary", ["operator", "line"]), ("Jump", ["place"]), ("JumpZero", ["place"]), ("Turn", []), ("Call", ["unit"]), ("Return", []),
    ("End", []), ("Window", ["slot", "line"]), ("BurstIn", ["line"]), ("BurstOut", ["slot", "line"]), ("Spawn", ["site"]),
    ("Tick", ["stream"]),
]
UNARY = ["-", "+", "!", "~", "unsigned -"]
BINARY = ["*", "/", "%", "+", "-", "<<", ">>", "<", "<=", ">", ">=", "==", "!=", "&", "^", "|"]
BINARY += ["unsigned " + operator for operator in BINARY[:11]]
SHOWN = bytes.fromhex("4f534f31 02000000 00000000 01000000 00000000 01000000 01000000 00000000 00000000 01000000 13000000")

# The parts of a code. An instruction is its name and its fields in order, as numbers; a window is its slot, or None.
Parts = namedtuple("Parts", "streams main units sites instructions")
Unit = namedtuple("Unit", "start args slots stack")
Site = namedtuple("Site", "unit line captured items")
Item = namedtuple("Item", "write stream window")


class NoParts(Exception):
    pass


class Reader:
    def __init__(self, data):
        if data[:4] != MARK:
            raise NoParts("the mark is missing")
        if len(data) % 4:
            raise NoParts("the last number is cut off")
        self.numbers = iter(struct.unpack(f"<{len(data) // 4 - 1}I", data[4:]))

    def number(self, below=1 << 32):
        number = next(self.numbers, None)
        if number is None:
            raise NoParts("the numbers end early")
        if number >= below:
            raise NoParts(f"{number} stands where only numbers below {below} may")
        return number

    def members(self, member):
        return [member() for _ in range(self.number())]

    def unit(self):
        return Unit(*(self.number() for _ in range(4)))

    def item(self):
        write, stream, window = self.number(2), self.number(), self.number()
        return Item(write, stream, window - 1 if window else None)

    def site(self):
        return Site(self.number(), self.number(), self.members(self.number), self.members(self.item))

    def field(self, field, name):
        if field == "operator":
            return self.number(len(UNARY if name == "Unary" else BINARY))
        number = self.number()
        return number - (1 << 32) if field == "number" and number >= 1 << 31 else number

    def instruction(self):
        name, fields = INSTRUCTIONS[self.number(len(INSTRUCTIONS))]
        return (name, *(self.field(field, name) for field in fields))

    def parts(self):
        streams, main = self.number(), self.number()
        parts = Parts(streams, main, self.members(self.unit), self.members(self.site), self.members(self.instruction))
        if next(self.numbers, None) is not None:
            raise NoParts("numbers stand behind the instructions")
        return parts


def read(data):
    """The parts of a code that the bytes spell."""
    return Reader(data).parts()


def item_text(item):
    return f"{'writes' if item.write else 'reads'} stream {item.stream}" + ("" if item.window is None else f" horizon in slot {item.window}")


def site_text(site):
    captured, items = ", ".join(map(str, site.captured)), ", ".join(map(item_text, site.items))
    return f"unit {site.unit} line {site.line} captured [{captured}] items [{items}]"


def instruction_text(instruction):
    name, *numbers = instruction
    operators = UNARY if name == "Unary" else BINARY
    fields = dict(INSTRUCTIONS)[name]
    return " ".join([name] + [f"{field} {operators[number] if field == 'operator' else number}" for field, number in zip(fields, numbers)])


def lines(parts):
    """The parts as lines of text."""
    shown = [f"streams {parts.streams}", f"main {parts.main}"]
    for index, unit in enumerate(parts.units):
        shown.append(f"unit {index}: start {unit.start} args {unit.args} slots {unit.slots} stack {unit.stack}")
    shown += [f"site {index}: {site_text(site)}" for index, site in enumerate(parts.sites)]
    return shown + [f"place {index}: {instruction_text(instruction)}" for index, instruction in enumerate(parts.instructions)]


def spells(data):
    try:
        read(data)
    except NoParts:
        return False
    return True


def check():
    assert lines(read(SHOWN)) == ["streams 2", "main 0", "unit 0: start 0 args 1 slots 1 stack 0", "place 0: End"]
    assert not any(spells(SHOWN[:length]) for length in range(len(SHOWN)))
    assert not spells(SHOWN + b"\0") and not spells(SHOWN + bytes(4))
    for place in range(len(SHOWN)):
        for value in (0, 1, 2, 18, 24, 25, 127, 255):
            spells(SHOWN[:place] + bytes([value]) + SHOWN[place + 1:])
    assert spells(SHOWN[:-4] + struct.pack("<I", 18)) and not spells(SHOWN[:-4] + struct.pack("<I", 25))


def main():
    if sys.argv[1:] == ["--check"]:
        check()
        return 0
    if len(sys.argv) != 2:
        print(__doc__, file=sys.stderr)
        return 2
    with open(sys.argv[1], "rb") as file:
        data = file.read()
    try:
        print("\n".join(lines(read(data))))
    except NoParts as why:
        print(f"{sys.argv[1]}: no object: {why}", file=sys.stderr)
        return 1
    return 0


if __name__ == "__main__":
    sys.exit(main())
