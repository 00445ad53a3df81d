"""Programs of the language that are drawn, for tests/c.py: lawful texts that loop, trap, starve and run over their budgets now and then."""

OPERATORS = ["+", "-", "*", "/", "%", "<<", ">>", "<", "<=", ">", ">=", "==", "!=", "&", "^", "|", "&&", "||"]
TYPES = ["int", "int", "int", "unsigned"]
NUMBERS = ["0", "1", "2", "3", "7", "31", "32", "255", "256", "65536", "2147483647", "0x80000000", "4294967295u", "5u"]


class Drawing:
    """What a place of a program may name: scalars and elements to read or to change, and what has an index, with its size."""

    def __init__(self, source, functions):
        self.source, self.functions = source, functions
        self.reads, self.changes, self.indexed, self.stores = [], [], [], []
        self.count = 0

    def name(self, kind):
        self.count += 1
        return f"{kind}{self.count}"

    def pick(self, items):
        return items[self.source.randrange(len(items))]

    def often(self, many=2):
        return self.source.randrange(many) != 0

    def index(self, size, depth):
        """An index, which mostly fits."""
        if self.often(6):
            return f"({self.expression(depth - 1)} & {size - 1})" if size & (size - 1) == 0 else str(self.source.randrange(size))
        return self.pick([str(size), "-1", self.expression(depth - 1)])

    def expression(self, depth):
        kind = self.source.randrange(12) if depth > 0 else self.source.randrange(3)
        if kind == 0 or (kind < 3 and not self.reads):
            return self.pick(NUMBERS[:8] if self.often(4) else NUMBERS)
        if kind < 3:
            return self.pick(self.reads)
        if kind < 5 and self.indexed:
            name, size = self.pick(self.indexed)
            return f"{name}[{self.index(size, depth)}]"
        if kind == 5:
            return f"{self.pick(['-', '+', '!', '~'])}({self.expression(depth - 1)})"
        if kind == 6:
            return f"({self.expression(depth - 1)} ? {self.expression(depth - 1)} : {self.expression(depth - 1)})"
        if kind == 7 and self.functions:
            name, args = self.pick(self.functions)
            return f"{name}({', '.join(self.expression(depth - 1) for _ in range(args))})"
        operator = self.pick(OPERATORS)
        right = self.expression(depth - 1)
        if operator in ("<<", ">>", "/", "%") and self.often(6):
            right = str(self.source.randrange(1, 8))
        if operator == "*" and self.often(4):
            right = str(self.source.randrange(4))
        return f"({self.expression(depth - 1)} {operator} {right})"

    def target(self, depth):
        if self.stores and self.often():
            name, size = self.pick(self.stores)
            return f"{name}[{self.index(size, depth)}]"
        return self.pick(self.changes) if self.changes else None

    def change(self, depth):
        target = self.target(depth)
        if target is None:
            return ";"
        if self.often(4):
            return f"{target} {self.pick(['=', '=', '=', '+=', '-=', '*=', '/=', '%=', '<<=', '>>=', '&=', '^=', '|='])} {self.expression(depth)};"
        return self.pick([f"{target}++;", f"--{target};", f"++{target};"])

    def loop(self, depth, ends):
        counter = self.name("k")
        self.reads.append(counter)
        body = self.statements(depth - 1, [*ends, "break;", "continue;"])
        self.reads.remove(counter)
        if self.often():
            return f"for (int {counter} = 0; {counter} < {self.pick([*'12345', self.expression(1)])}; {counter}++) {{ {body} }}"
        return f"{{ int {counter} = {self.source.randrange(5)}; while ({counter}-1 >= 0) {{ {counter}--; {body} }} }}"

    def statement(self, depth, ends):
        kind = self.source.randrange(10)
        if depth <= 0 or kind < 5:
            return self.change(2)
        if kind == 5 and ends and self.often():
            return f"if ({self.expression(1)}) {self.pick(ends)}"
        if kind < 8:
            other = f" else {{ {self.statements(depth - 1, ends)} }}" if self.often() else ""
            return f"if ({self.expression(2)}) {{ {self.statements(depth - 1, ends)} }}{other}"
        return self.loop(depth, ends)

    def statements(self, depth, ends):
        """Statements of a block, with declarations in front, which are gone behind it."""
        kept = [list(names) for names in (self.reads, self.changes, self.indexed, self.stores)]
        parts = []
        for _ in range(self.source.randrange(3)):
            name = self.name("x")
            value = f" = {self.expression(2)}" if self.often() else ""
            parts.append(f"{self.pick(TYPES)} {name}{value};")
            self.reads.append(name)
            self.changes.append(name)
        if not self.often(4):
            name, size = self.name("a"), self.pick([1, 2, 3, 4, 8, 70])
            parts.append(f"{self.pick(TYPES)} {name}[{size}];")
            self.indexed.append((name, size))
            self.stores.append((name, size))
        parts += [self.statement(depth, ends) for _ in range(self.source.randrange(1, 4))]
        self.reads, self.changes, self.indexed, self.stores = kept
        return "\n".join(parts)


def drawn_function(source, number, functions):
    drawing = Drawing(source, functions)
    count = source.randrange(4)
    names = [f"p{at}" for at in range(count)]
    drawing.reads, drawing.changes = list(names), list(names)
    params = ", ".join(f"{drawing.pick(TYPES)} {name}" for name in names) or "void"
    body = drawing.statements(2, [f"return {drawing.expression(2)};"])
    return f"{drawing.pick(TYPES)} f{number}({params}) {{\n{body}\nreturn {drawing.expression(2)};\n}}\n", (f"f{number}", count)


def drawn_item(outer, task, write, windows):
    """An item of a task, and what its body may do with it."""
    source = outer.source
    streams = ["osout", "s", "t[0]", "t[1]", "r"] if write else ["osin", "osin", "s", "t[0]", "t[1]", "r"]
    stream = outer.pick(streams) if source.randrange(25) else f"t[{outer.expression(1)}]"
    mark = "<<" if write else ">>"
    if source.randrange(3) == 0:
        name = outer.name("e")
        windows.append(f"{outer.pick(TYPES)} {name};")
        task.reads.append(name)
        if write:
            task.changes.append(name)
        return f"{stream} {mark} {name}"
    name, size = outer.name("w"), outer.pick([1, 2, 2, 3, 4])
    shown = str(size) if source.randrange(30) else outer.expression(1)
    windows.append(f"{outer.pick(TYPES)} {name}[{shown}];")
    burst = shown if write or source.randrange(3) else str(source.randrange(4))
    if source.randrange(40) == 0:
        burst = outer.expression(1)
    task.indexed.append((name, size))
    if write:
        task.stores.append((name, size))
    return f"{stream} {mark} {name}[{burst}]"


def drawn_task(outer):
    source = outer.source
    task = Drawing(source, outer.functions)
    task.count = outer.count + 1000
    task.reads, task.changes = list(outer.reads), [name for name in outer.changes if name.startswith("x")]
    windows, clauses = [], []
    inputs = [drawn_item(outer, task, False, windows) for _ in range(source.randrange(3))]
    outputs = [drawn_item(outer, task, True, windows) for _ in range(source.randrange(1, 3))]
    if inputs:
        clauses.append(f"input({', '.join(inputs)})")
    clauses.append(f"output({', '.join(outputs)})")
    bytes_of = [f"{name}[0] &= 255;" for name, _ in task.stores] + [f"{name} &= 255;" for name in task.changes if name.startswith("e")]
    body = task.statements(2, [])
    outer.count = task.count
    kept = "\n".join(bytes_of) if source.randrange(5) else ""
    return "{ " + "\n".join(windows) + f"\n#pragma omp task {' '.join(clauses)}\n{{\n{body}\n{kept}\n}} }}"


def drawn_part(outer, depth):
    """A statement of main."""
    source = outer.source
    kind = source.randrange(10)
    if kind < 5 or depth == 0:
        return drawn_task(outer)
    if kind == 5:
        stream = outer.pick(["osin", "s", "t[1]"] * 5 + [f"t[{outer.expression(1)}]"])
        return f"\n#pragma omp tick({stream} >> {outer.pick([*'011201120112', outer.expression(1)])})\n"
    if kind == 6:
        return outer.change(2)
    if kind == 7:
        return f"if ({outer.expression(2)}) {{ {drawn_parts(outer, depth - 1)} }}"
    counter = outer.name("i")
    outer.reads.append(counter)
    body = drawn_parts(outer, depth - 1)
    outer.reads.remove(counter)
    return f"for (int {counter} = 0; {counter} < {outer.pick(['2', '3', 'osin_len', 'osin_len / 2'])}; {counter}++) {{ {body} }}"


def drawn_parts(outer, depth):
    return "\n".join(drawn_part(outer, depth) for _ in range(outer.source.randrange(1, 4)))


def drawn_program(source):
    """The text of a program."""
    functions, texts = [], []
    for number in range(source.randrange(4)):
        text, function = drawn_function(source, number, functions)
        texts.append(text)
        functions.append(function)
    outer = Drawing(source, functions)
    outer.reads, outer.changes = ["osin_len", "x", "y"], ["x", "y"]
    parts = drawn_parts(outer, 2)
    head = "int s __attribute__((stream)), r __attribute__((stream)), t[2] __attribute__((stream));\nint x = 3; unsigned y = 5;\n"
    return "".join(texts) + f"int main(void) {{\n{head}{parts}\n}}\n"
