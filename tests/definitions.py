#!/usr/bin/env python3
"""tests/definitions.py [--write | --why NAME]: the definitions that a reader of the promise of the top call believes.

It reads the contract of the call that `main` makes, CONTRACT in CALL, follows each name that it cites through the imports of the
files in crates/*/specs, and compares what it comes to, with the lines on which it stands, with the list in docs/PROMISES.md: the
definitions; the types of the code and the constants that they name, by their declarations in crates/*/src; the definitions and types of
clap below those that are cited; and by name alone the words of std, which are not followed further. Of a trait the ghost members count
alone. The last line is `N passed, M failed`. With --write it puts the
list and its numbers there: how many of each in how many lines, and how many stand below ALONE, what a run alone is meant to give. With
--why NAME it prints one way from the contract to a definition of that name. It asks for the kit that `rt` is of, since clap stands there."""
import os
import re
import shutil
import sys

TOP = os.path.dirname(os.path.dirname(os.path.abspath(__file__)))
CALL = "crates/os_serve/src/words.rt"
CONTRACT = "pub fn serve_words"
ALONE = "IsOutcomeOfRun"
LIST = "docs/PROMISES.md"
KIT = os.path.dirname(os.path.dirname(os.path.realpath(shutil.which("rt") or "/no/kit/rt")))
CRATE_OF_KIT = "clap"
STD = "std"
NAME = r"[^\s(){}.;,:=λ→∷×\"]+"
KEYWORDS = {"abbrev", "pub", "unfoldable", "mutual", "record", "data", "module", "where", "use", "mod", "let", "in", "elim", "as"}


def bare(line):
    """A line without its comment, and without what its texts say."""
    return re.sub(r"(^|\s)--( .*)?$", "", re.sub(r'"[^"]*"', '""', line))


class Module:
    """What one file of specs/ defines and imports."""

    def __init__(self, name, path, lines):
        self.name, self.path = name, path
        self.definitions = {}  # by name: its line, and its text
        self.constructors = {}  # by name: the definition of its type
        self.imports = {}  # by name: the module and the name there
        self.aliases = {}  # by name: the module
        self.handed_on = set()  # the imported names that it gives out
        self.read(lines)

    def take_import(self, text):
        found = re.match(r"\s*(?:pub )?use (Rattle\.[^\s{]+?)(?:\.\{(.*)\})?(?:\s+as\s+(\S+))?\s*$", text)
        if not found:
            return
        path, names, alias = found.groups()
        if names is None:
            self.aliases[alias or path.split(".")[-1]] = path
            return
        for words in filter(None, (part.split() for part in names.split(","))):
            self.imports[words[-1]] = (path, words[0])
            if text.lstrip().startswith("pub use"):
                self.handed_on.add(words[-1])

    def read(self, lines):
        columns = [0]  # those at which definitions may begin
        name, kind, start, text, pending = None, None, 0, [], None

        def close():
            if name is not None:
                self.definitions.setdefault(name, (start, "\n".join(text)))

        for number, line in enumerate(map(bare, lines), 1):
            if not line.strip():
                continue
            if pending is not None or re.match(r"\s*(pub )?use ", line):
                pending = line if pending is None else f"{pending} {line.strip()}"
                if "{" not in pending or "}" in pending:
                    self.take_import(pending)
                    pending = None
                continue
            if re.match(r"\s*(pub )?mod ", line):
                continue
            column, body = len(line) - len(line.lstrip()), line.strip()
            while len(columns) > 1 and column < columns[-1]:
                columns.pop()
            words = body.split()
            if body in ("mutual", "abbrev mutual", "unfoldable mutual") or (words[0] == "module" and words[-1] == "where"):
                close()
                name, kind = None, None
                columns.append(column + 2)
                continue
            begun = self.beginning(body) if column == columns[-1] else None
            if begun:
                close()
                (name, kind), start, text = begun, number, []
            if name is None:
                continue
            text.append(body)
            if kind == "data" and not begun:
                found = re.match(rf"(?:pub )?({NAME}) :", body)
                if found:
                    self.constructors[found[1]] = name
        close()

    @staticmethod
    def beginning(body):
        """The name and the kind of the definition that begins on the line, if one does."""
        found = re.match(rf"((?:(?:abbrev|unfoldable|pub|record|data)\s+)*)({NAME})", body)
        if not found or found[2] in KEYWORDS:
            return None
        heads, rest = found[1].split(), body[found.end() :].lstrip()
        kind = next((it for it in ("data", "record") if it in heads), None)
        if kind or rest.startswith(":") or (heads and not rest.startswith("=")):
            return found[2], kind
        return None


class Declared(Module):
    """A type, a trait or the constants of one file of src/, as specs/ cite them."""

    def __init__(self, name, path, types, uses):
        super().__init__(name, path, [])
        self.types = types  # of all crates: by the crate and the name, and by the file and the name, the module
        self.uses = uses  # by name: the crate from which the file has it

    def cited(self):
        """The types that the declaration names, its own and the names of its variants left out."""
        for _, text in self.definitions.values():
            for word in re.findall(r"\b[A-Z]\w*", re.sub(r"^[A-Z]\w*", "", text, flags=re.M)):
                found = self.types.get((self.uses.get(word, self.path), word))
                if found and word not in self.definitions:
                    yield found, word

    def said(self):
        """What its ghost members and fields say."""
        return "\n".join(re.findall(r"^(?:pub )?ghost \w+: \{(.*?)\}[,;]$", "\n".join(text for _, text in self.definitions.values()), re.M | re.S))


def items_of(lines):
    """The types, traits and constants that a file declares: keyword, name, line, and its lines without comments, attributes and, of a
    trait, all but the ghost members."""
    at = 0
    while at < len(lines):
        found = re.match(r"(?:pub(?:\([a-z]+\))? )?(struct|enum|trait|const|static) (\w+)", lines[at])
        if not found:
            at += 1
            continue
        first, text, depth = at, [], 0
        while True:
            line = re.sub(r"\s*//.*$", "", lines[at]).strip() if found[1] not in ("const", "static") else lines[at].strip()
            depth += sum(map(line.count, "{([")) - sum(map(line.count, "})]"))
            text += [line] if line and not line.startswith("#[") else []
            at += 1
            ended = line.endswith((";", "}")) if found[1] not in ("const", "static") else line.endswith(";")
            if at == len(lines) or (depth <= 0 and ended):
                break
        if found[1] == "trait":
            text = [line for line in text if line.startswith("ghost ") and not line.startswith("ghost use")]
        yield found[1], found[2], first + 1, text


def read_types(crate, top, shown, modules, types):
    """Puts the types, traits and constants of a crate's src/ among the modules."""
    for folder, _, files in sorted(os.walk(f"{top}/src")):
        for file in sorted(files):
            if not file.endswith(".rt"):
                continue
            path = os.path.join(folder, file)
            with open(path, encoding="utf-8") as opened:
                lines = opened.read().split("\n")
            place = [part for part in os.path.relpath(path, f"{top}/src")[:-3].split("/") if part not in ("lib", "mod")]
            uses = {}
            for head, names in re.findall(r"^\s*(?:pub )?use (\w+)::(?:\w+::)*([^;]*);", "\n".join(lines), re.M):
                for word in re.findall(r"\b[A-Z]\w*", names):
                    uses[word] = crate if head in ("crate", "super", "self") else head
            for kind, item, start, text in items_of(lines):
                owner = "TheConstants" if kind in ("const", "static") else item
                name = ".".join([f"Rattle.{crate}.specs.declared", *place, owner])
                module = modules.setdefault(name, Declared(name, os.path.join(shown, os.path.relpath(path, top)), types, uses))
                for ghost in re.findall(r"^ghost (use [^;]*);$", "\n".join(lines), re.M):
                    module.take_import(" ".join(ghost.split()))
                module.definitions[item] = (start, "\n".join(text))
                if owner != item:
                    continue
                types.setdefault((crate, item), name)
                types[module.path, item] = name
                module.constructors["Ghosts"] = item
                variants = modules.setdefault(f"{name}.TheVariants", Module(f"{name}.TheVariants", module.path, []))
                for line in text[1:] if kind == "enum" else []:
                    for word in re.findall(r"\b([A-Z]\w*)\b", re.sub(r"\([^)]*\)|\{[^}]*\}", "", line)):
                        variants.imports[word] = (name, item)
                        variants.handed_on.add(word)


def read_modules():
    """The modules of all files of specs/, by name, with what the files of src/ declare."""
    modules, types = {}, {}
    crates = [(crate, f"{TOP}/crates/{crate}", f"crates/{crate}") for crate in sorted(os.listdir(f"{TOP}/crates"))]
    for crate, top, shown in [*crates, (CRATE_OF_KIT, f"{KIT}/rattle/{CRATE_OF_KIT}", CRATE_OF_KIT)]:
        for folder, _, files in os.walk(f"{top}/specs"):
            for file in files:
                if file.endswith(".antt") and file != "Lib.antt":
                    path = os.path.join(folder, file)
                    name = f"Rattle.{crate}.specs." + os.path.relpath(path, f"{top}/specs")[:-5].replace("/", ".")
                    with open(path, encoding="utf-8") as lines:
                        modules[name] = Module(name, os.path.join(shown, os.path.relpath(path, top)), lines.read().split("\n"))
        read_types(crate, top, shown, modules, types)
    return modules


class Citations:
    """Which definitions a text cites."""

    def __init__(self, modules):
        self.modules = modules

    def within(self, module, name):
        """The definition that a name of a module belongs to; a word of std stands for itself."""
        if module.startswith("Rattle.std."):
            return STD, name
        there = self.modules.get(module)
        if there is None:
            return None
        if name in there.definitions:
            return module, name
        if name in there.constructors:
            return module, there.constructors[name]
        return self.within(*there.imports[name]) if name in there.handed_on else None

    def resolve(self, module, word):
        head, _, rest = word.partition(".")
        if head in module.aliases and rest:
            target = module.aliases[head]
            owner, _, last = target.rpartition(".")
            # an alias of a module, or of a type whose constructors follow
            return self.within(target, rest.split(".")[0]) or self.within(owner, last)
        if head in module.imports:
            return self.within(*module.imports[head])
        return self.within(module.name, head)

    def of(self, module, text):
        signs = {word: name for name in [*module.imports, *module.definitions] if "◌" in name for word in name.split("◌") if word}
        bound = {it for group in re.findall(rf"[({{]\s*((?:{NAME}\s+)+):", text) for it in group.split()}
        bound |= {it for group in re.findall(rf"λ\s*((?:{NAME}\s*)+)\.", text) for it in group.split()}
        bound |= set(re.findall(rf"\blet\s+({NAME})\s*[:=]", text))
        # names of fields are no citations
        text = re.sub(rf"([{{;]\s*|record\s+{NAME}\s*\{{\s*)({NAME})\s*=(?!=)", r"\1 ", text)
        for word in [*re.findall(r"[^\s(){};,:=λ→×\"]+", text), *re.findall(r"(?<= )==(?= )", text)]:
            word = word.rstrip(".")
            if word and not word.startswith(".") and word.split(".")[0] not in bound:
                found = self.resolve(module, signs.get(word, word))
                if found:
                    yield found


def contract_of_call():
    """The conditions and clauses of the call, as a module with the imports of its file, and their text."""
    with open(f"{TOP}/{CALL}", encoding="utf-8") as file:
        text = file.read()
    module = Module("call", CALL, [])
    for found in re.finditer(r"^ghost (use [^;]*);$", text, re.M):
        module.take_import(" ".join(found[1].split()))
    begin = text.index(") -> ", text.index(CONTRACT))
    contract = text[begin : text.index("\n{\n", begin)]
    return module, "\n".join(re.findall(r"^    (?:requires|ensures)[^{]*\{(.*?)\}$", contract, re.M | re.S))


def follow(modules, begun=None):
    """Each definition below the contract, or below those that are given, with the one from which it was come to first."""
    citations = Citations(modules)
    come_from = {}
    for found in begun or citations.of(*contract_of_call()):
        come_from.setdefault(found, None)
    todo = list(come_from)
    for at in todo:
        module = modules.get(at[0])
        if module is None:
            continue
        declared = isinstance(module, Declared)
        below = citations.of(module, module.said() if declared else module.definitions[at[1]][1])
        for found in [*below, *(module.cited() if declared else [])]:
            if found not in come_from:
                come_from[found] = at
                todo.append(found)
    return come_from


class Count:
    """What was found, by its kind."""

    def __init__(self, modules, found):
        self.modules = modules
        self.words = sorted({name for module, name in found if module == STD})
        rest = sorted(at for at in found if at[0] != STD)
        self.of_kit = [at for at in rest if modules[at[0]].path.startswith(CRATE_OF_KIT)]
        own = [at for at in rest if at not in set(self.of_kit)]
        self.types = [at for at in own if isinstance(modules[at[0]], Declared)]
        self.definitions = [at for at in own if at not in set(self.types)]

    def size(self, found):
        """How many these are, and how many lines they have, without comments and imports."""
        return f"{len(found)} in {sum(len(self.modules[at].definitions[name][1].splitlines()) for at, name in found)} lines"

    def files(self, found):
        return len({self.modules[module].path for module, _ in found})

    def rows(self):
        """The rows of the list, by files, and the words of std."""
        rows = []
        for found in ([*self.definitions, *self.types], self.of_kit):
            files = {}
            for module, name in found:
                files.setdefault(self.modules[module].path, []).append((self.modules[module].definitions[name][0], name))
            rows += [f"- `{path}`: " + ", ".join(f"`{name}` {line}" for line, name in sorted(files[path])) for path in sorted(files)]
        return [*rows, f"- {STD}: " + ", ".join(f"`{word}`" for word in self.words)]

    def cells(self):
        """The numbers of each kind, by what the table calls it."""
        return {
            "definitions of this repository": f"{self.size(self.definitions)} of {self.files(self.definitions)} files",
            "types and constants of its code": self.size(self.types),
            f"definitions and types of `{CRATE_OF_KIT}`": self.size(self.of_kit) if self.of_kit else "none",
            f"words of {STD}": str(len(self.words)),
        }


def page_with(page, count, alone):
    """The page with the rows of the count as its list, and with the numbers of both."""
    numbers = {f"| {kind} |": f"| {kind} | {cell} | {alone.cells()[kind]} |" for kind, cell in count.cells().items()}
    lines = page.split("\n")
    is_row = re.compile(rf"- (`(crates|{CRATE_OF_KIT})/|{STD}: )").match
    first = next(at for at, line in enumerate(lines) if is_row(line))
    behind = next(at for at in range(first, len(lines)) if not is_row(lines[at]))
    head = [next((row for begin, row in numbers.items() if line.startswith(begin)), line) for line in lines[:first]]
    return "\n".join(head + count.rows() + lines[behind:])


def main(words):
    modules = read_modules()
    found = follow(modules)
    if words[:1] == ["--why"]:
        for at in (it for it in found if it[1] == words[1]):
            way = []
            while at is not None:
                way.append(f"{at[0]}.{at[1]}")
                at = found[at]
            print(" < ".join(way))
        return 0
    with open(f"{TOP}/{LIST}", encoding="utf-8") as file:
        page = file.read()
    alone = Count(modules, follow(modules, [at for at in found if at[1] == ALONE]))
    wanted = page_with(page, Count(modules, found), alone)
    if words[:1] == ["--write"]:
        with open(f"{TOP}/{LIST}", "w", encoding="utf-8") as file:
            file.write(wanted)
        return 0
    same = page == wanted
    if not same:
        print(f"the list of definitions in {LIST} isn't that of the specs: tests/definitions.py --write puts it there", file=sys.stderr)
    print(f"{int(same)} passed, {int(not same)} failed")
    return int(not same)


if __name__ == "__main__":
    sys.exit(main(sys.argv[1:]))
