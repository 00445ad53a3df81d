#!/usr/bin/env python3
"""tests/completions.py [COUNT [SEED]]: that texts which are no programs are refused at the exact place, by ./oscheck.

Each program of the examples, the kernels and the lawful rows is changed COUNT times (4 where no number is given): it is cut
behind a token, or a token is dropped, doubled, swapped with the next one or put in the place of another. SEED begins the
numbers by which that is done. Of each text that is refused by error 4 it asks

- that the tokens before the place are the front of a program: `oscheck --complete` writes one that begins with them, and that
  `oscheck` doesn't refuse by error 4;
- that with the token at the place they are that of none: whatever of a hundred lists of tokens follows it, the text is refused
  by error 4 at the same line and column.

The last line is `N passed, M failed`."""
import glob
import os
import random
import re
import subprocess
import sys
import tempfile

from programs import TOP, called
from rows import lines, unfolded

OSCHECK = called("oscheck")
# As many files are judged by one call: where the toolchain runs the program, a call has two minutes.
CALL = 50

# What is told to stand at the place of a refusal.
FOUND = r"found ('[^']*'|the end of the \w+)"
TOKEN = re.compile(
    r"(?P<none>\s+|//[^\n]*|/\*.*?\*/|#[ \t]*include[^\n]*)|#[ \t]*pragma|\w+|<<=|>>=|[-+*/%&^|=!<>]=|\+\+|--|<<|>>|&&|\|\||.", re.S
)
# Tokens that stand in programs, each behind a space. A pragma stands in a line of its own.
WORDS = (
    "; { } ( ) [ ] , = += <<= ++ -- 0 7 x y main s osin osout omp task tick taskwait input output firstprivate stream if else "
    "while for break continue return int unsigned const void __attribute__ 1u + - * / % << >> < <= == && || & ^ | ! ~ ? :"
).split() + ["\n#pragma omp taskwait\n", "\n#pragma omp task input(osin >> x)\n", "\n#pragma omp tick(s >> 1)\n", "\n"]
ENDS = ["", "}", "; }", "0 ; }", ") ; }", "0 ) ; }", "x ) { } }", "\n ; }", ": 0 ; }", "] = 0 ; }", "( ) { }", "int main(void) { }"]


def programs():
    """The texts of programs, each once."""
    found = []
    for name in sorted(glob.glob(f"{TOP}/examples/*.c")):
        with open(name, encoding="utf-8") as file:
            found.append(file.read())
    with open(f"{TOP}/crates/kernels/src/texts.rt", encoding="utf-8") as file:
        found += re.findall(r'= r"(.*?)";', file.read(), re.S)
    found += [unfolded(line) for line in lines("lawful.rows")]
    return [text for text in dict.fromkeys(found) if len(text) < 20_000]


def pieces(text):
    """A text cut into its tokens and what stands between them, each with its offset, and whether it is a token."""
    return [(found.start(), found[0], found["none"] is None) for found in TOKEN.finditer(text)]


def changed(text, numbers):
    """A text with one change."""
    cut = pieces(text)
    at = numbers.choice([number for number, (_, _, is_token) in enumerate(cut) if is_token])
    spelled = [piece for _, piece, _ in cut]
    way = numbers.randrange(5)
    if way == 0:
        return "".join(spelled[: at + 1])
    if way == 1:
        spelled[at] = " "
    elif way == 2:
        spelled[at] += " " + spelled[at]
    elif way == 3:
        spelled[at] = numbers.choice(WORDS)
    else:
        spelled[at : at + 3] = spelled[at : at + 3][::-1]
    return " ".join(["".join(spelled[:at]), *spelled[at : at + 1], "".join(spelled[at + 1 :])])


def continuations(numbers):
    """A hundred lists of tokens, as texts."""
    lists = [" ".join(numbers.choice(WORDS) for _ in range(numbers.randint(1, 12))) for _ in range(100 - len(ENDS))]
    return ENDS + lists


def call(*words):
    ended = subprocess.run([OSCHECK, *words], stdin=subprocess.DEVNULL, capture_output=True, check=False)
    if ended.returncode > 1:
        sys.exit(f"oscheck ended with {ended.returncode}: {ended.stderr.decode()[:1000]}")
    return ended.stdout.decode()


def judged(texts):
    """What is told of each text: the code, the line, the column and what was found there, or None where it is accepted."""
    told = []
    for begin in range(0, len(texts), CALL):
        names = [f"t{number}.c" for number in range(len(texts[begin : begin + CALL]))]
        for name, text in zip(names, texts[begin : begin + CALL]):
            with open(name, "w", encoding="utf-8") as file:
                file.write(text)
        by_name = {}
        for line in call("--first", *names).split("\n"):
            found = re.match(rf"(t\d+\.c):(?:(\d+)(?::(\d+))?: error (\d+): (?:(?:.*, )?{FOUND})?| accepted$)", line)
            if found:
                by_name[found[1]] = found[4] and (int(found[4]), int(found[2]), int(found[3] or 0), found[5])
        told += [by_name[name] for name in names]
    return told


def offset_of(text, line, column):
    return sum(len(before) + 1 for before in text.split("\n")[: line - 1]) + column - 1


def completed(texts):
    """What is written of each text: a line in front of it marks it."""
    marked = [f"const int mark{number} = 0;\n{text}" for number, text in enumerate(texts)]
    written = {}
    for begin in range(0, len(marked), CALL):
        names = [f"t{number}.c" for number in range(len(marked[begin : begin + CALL]))]
        for name, text in zip(names, marked[begin : begin + CALL]):
            with open(name, "w", encoding="utf-8") as file:
                file.write(text)
        parts = re.split(r"^const int mark(\d+) = 0;", call("--complete", *names), flags=re.M)
        written.update(zip(map(int, parts[1::2]), parts[2::2]))
    return [written.get(number, "") for number in range(len(texts))]


def front_of(text, offset):
    """The text before an offset, up to the end of its last token."""
    return text[: max((at + len(piece) for at, piece, is_token in pieces(text[:offset]) if is_token), default=0)]


class Counts:
    def __init__(self):
        self.passed, self.failed = 0, 0

    def add(self, holds, what, text):
        self.passed, self.failed = self.passed + int(holds), self.failed + int(not holds)
        if not holds:
            print(f"{what}:\n{text}\n")


def check_fronts(counts, refused):
    """The tokens before each place are the front of a program."""
    whole = completed([text for text, _ in refused])
    for (text, (_, line, column, _)), program, told in zip(refused, whole, judged(whole)):
        front = front_of(text, offset_of(text, line, column))
        counts.add(program.lstrip("\n").startswith(front.lstrip("\n")) and (told is None or told[0] > 4), f"completed to {program!r}, {told}", text)


def check_places(counts, refused, lists):
    """With the token at its place each of the texts is the front of no program."""
    texts = []
    for text, place in refused:
        _, line, column, found = place
        if found != "the end of the text":
            begin = offset_of(text, line, column)
            end = begin + len("\n" if found == "the end of the line" else found[1:-1])
            texts += [(f"{text[:begin]}{text[begin:end] or chr(10)} {more}\n", place) for more in lists]
    for (text, place), told in zip(texts, judged([text for text, _ in texts])):
        counts.add(told is not None and told[:3] == place[:3], f"{told}, where {place} was refused", text)


def main(words):
    count, seed = int(words[0]) if words else 4, int(words[1]) if len(words) > 1 else 1
    numbers, counts = random.Random(seed), Counts()
    texts = list(dict.fromkeys(changed(text, numbers) for text in programs() for _ in range(count)))
    with tempfile.TemporaryDirectory() as work:
        os.chdir(work)
        refused = [(text, told) for text, told in zip(texts, judged(texts)) if told and told[0] == 4]
        check_fronts(counts, refused)
        check_places(counts, refused, continuations(numbers))
        os.chdir(TOP)
    print(f"{len(texts)} texts, of which {len(refused)} are refused by error 4")
    print(f"{counts.passed} passed, {counts.failed} failed")
    return int(counts.failed != 0)


if __name__ == "__main__":
    sys.exit(main(sys.argv[1:]))
