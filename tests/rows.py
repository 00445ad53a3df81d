#!/usr/bin/env python3
"""tests/rows.py: what the built programs write of the rows in tests/rows. The last line is `N passed, M failed`.

- refused.rows: each text is refused by `oscheck` and by `osrun run`, with its code in its line, and nothing is written.
- lawful.rows: each text is accepted by `oscheck`.
- runs.rows: each run comes to its output, report and status, with the number of workers that its options name, or else
  with 1, 4 and 7.
- usage.rows: words that name no job, and no word, are answered with `usage`; no file that they name is there."""
import os
import re
import subprocess
import sys
import tempfile

from programs import TOP, program

OSRUN = program("osrun")
OSCHECK = program("oscheck")


def unfolded(text):
    """A text as it is written in a row, with repetitions and escapes done."""
    times = lambda found: "".join(found[2].replace("%", str(number)) for number in range(int(found[1])))
    text = re.sub(r"@(\d+)\((.*?)\)@", times, text)
    return re.sub(r"\\(.)", lambda found: {"n": "\n", "t": "\t", "r": "\r"}.get(found[1], found[1]), text)


def lines(name):
    """The lines of a file of rows that aren't empty and no comment."""
    with open(f"{TOP}/tests/rows/{name}", encoding="utf-8") as rows:
        return [line for line in rows.read().split("\n") if line and not line.startswith("#")]


def refused_rows():
    for line in lines("refused.rows"):
        code, at, text = line.split(" ", 2)
        yield int(code), int(at), unfolded(text)


def run_rows():
    """The rows of runs: what their lines say, by name, with the text of the program."""
    with open(f"{TOP}/tests/rows/runs.rows", encoding="utf-8") as rows:
        blocks = rows.read().split("\n\n")[1:]
    for block in blocks:
        head, _, program = block.partition("\nprogram:\n")
        row = dict(line.split(":", 1) for line in head.strip("\n").split("\n"))
        row = {key: value.strip() for key, value in row.items()}
        row["program"] = "".join(f"{line[4:]}\n" for line in program.rstrip("\n").split("\n"))
        yield row


class Counts:
    def __init__(self):
        self.passed, self.failed = 0, 0

    def add(self, name, found, wanted):
        if found == wanted:
            self.passed += 1
        else:
            self.failed += 1
            print(f"{name}: {found}; wanted {wanted}")


def run(*words):
    """What a run of the command came to: its status, output and report."""
    ended = subprocess.run([OSRUN, *words], stdin=subprocess.DEVNULL, capture_output=True, timeout=120, check=False)
    return ended.returncode, ended.stdout, ended.stderr.decode()


def write(name, text):
    with open(name, "w", encoding="utf-8") as file:
        file.write(text)


def judge(counts):
    """Has all texts judged by one call, and each refused one run."""
    refused, lawful = list(refused_rows()), [unfolded(line) for line in lines("lawful.rows")]
    names = [f"text{number}.c" for number in range(len(refused) + len(lawful))]
    for name, text in zip(names, [text for _, _, text in refused] + lawful):
        write(name, text)
    ended = subprocess.run([OSCHECK, "--first", *names], capture_output=True, timeout=120, check=False)
    told = [line for line in ended.stdout.decode().split("\n") if re.match(r"text\d+\.c:", line) and ": warning: " not in line]
    for name, line, (code, at, text) in zip(names, told, refused):
        found = re.match(rf"{name}:(\d+)(?::\d+)?: error (\d+): ", line)
        counts.add(text, found and (int(found[2]), int(found[1])), (code, at))
        counts.add(text, run("run", name, "none"), (3, b"", f"refused {code} line {at}\n"))
    for name, line, text in zip(names[len(refused) :], told[len(refused) :], lawful):
        counts.add(text, line, f"{name}: accepted")
    counts.add("texts that are judged", len(told), len(names))
    counts.add("the status of texts that are judged", ended.returncode, 1)


def run_all(counts):
    for row in run_rows():
        write("program.c", row["program"])
        with open("input", "wb") as file:
            file.write(bytes.fromhex(row["input"]))
        options = row.get("options", "").split()
        wanted = int(row["status"]), bytes.fromhex(row["out"]), row["report"].replace(" / ", "\n") + "\n"
        for workers in [[]] if "--workers" in options else [["--workers", number] for number in ("1", "4", "7")]:
            counts.add(" ".join([row["name"], *workers]), run("run", "program.c", "input", *options, *workers), wanted)


def refuse_words(counts):
    """Has each row of words answered where no file is there, so that none can have been read before the words were."""
    for words in [[], [""], *[unfolded(line).split("|") for line in lines("usage.rows")]]:
        counts.add("|".join(words), run(*words), (2, b"", "usage\n"))


def main():
    counts = Counts()
    with tempfile.TemporaryDirectory() as work:
        os.chdir(work)
        refuse_words(counts)
        judge(counts)
        run_all(counts)
        os.chdir(TOP)
    print(f"{counts.passed} passed, {counts.failed} failed")
    return int(counts.failed != 0)


if __name__ == "__main__":
    sys.exit(main())
