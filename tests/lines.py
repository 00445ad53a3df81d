#!/usr/bin/env python3
"""tests/lines.py: runs each command line of README.md, docs/GUIDE.md, docs/EDITOR.md, examples/README.md and examples/many/README.md as it stands there.

A command line is a line of a block marked `sh`, or what stands in a line of text between backquotes and begins with the name of a program. Each
block runs in a folder with the examples, the tests and the programs, and with files of the names that the lines use: INPUT, PROGRAM and so on,
as large as the text says. Each has to end with status 0, or with the status that OTHERS names for it. Lines that need the kit, another machine or Graphviz
are told apart in LEFT_OUT and by what is there. The last line is `N passed, M failed`."""
import os
import re
import shutil
import subprocess
import sys
import tempfile

from programs import TOP, called

PAGES = ["README.md", "docs/GUIDE.md", "docs/EDITOR.md", "examples/README.md", "examples/many/README.md"]
PROGRAMS = ("osrun", "oscheck", "osview", "ospack")

# Lines that aren't run: what they do is told beside them, and begins with these words.
LEFT_OUT = ("rt ci", "./build", "./install", "./release", "git ", "tar ", "sudo ", "mkdir ", "cp ", "sha256sum ", "osrun-1.0.0", "OSRUN_BIN=", "sbatch --array=0-7")
# Where a line speaks of an input of its own: its bytes.
DIVIDED = bytes([2, 0, 5])
PLAIN = bytes(number * 7 % 256 for number in range(100000))
# More than four megabytes, with a last part that isn't full.
LARGE = bytes(number * 7 % 256 for number in range(251)) * 20000
INPUTS = {"examples/divide.c": DIVIDED, "cut.sh": LARGE, " work": LARGE, "adler.c": bytes(20000), "pipeline.c": b"twelve bytes", "mirror640.c": PLAIN[:64000]}
# Statuses other than 0.
OTHERS = {"./osview report examples/divide.c INPUT": 1, "./osview stream examples/divide.c INPUT osout": 1, "./osrun explain PROGRAM INPUT A": 1,
          "./osrun explain PROGRAM INPUT ACTIVATION": 1, "./osview explain PROGRAM INPUT ACTIVATION": 1}
# What stands for words that a reader puts in.
WORDS = {r"\bACTIVATION\b": "0", r"\bSLOT\b": "8", r"\bNAME\b": "osout", r" \[.*\]": "", r"\bA\.\.B\b": "0..2", r"\bFILE\.\.": "FILE", r"\bPART\b": "INPUT", r"\bA$": "0"}


def lines_of(page):
    """The blocks of lines that a page has: those of its sh blocks, and each line between backquotes alone."""
    with open(f"{TOP}/{page}", encoding="utf-8") as file:
        text = file.read()
    for block in re.findall(r"(?ms)^```(\w*)\n(.*?)^```$", text):
        if block[0] == "sh":
            yield block[1].splitlines()
    prose = re.sub(r"(?ms)^```.*?^```$", "", text)
    for line in re.findall(r"`([^`\n]*(?:\n[^`\n]*)?)`", prose):
        line = " ".join(line.split())
        words = line.split()
        if re.match(rf"(\./)?({'|'.join(PROGRAMS)}|cut\.sh|join\.py)$", words[0] if words else "") and not set(words) & {"BLOCK", "FOLDER", "FOLDER]"}:
            # a program that is named with what it does alone is no line
            if len(words) > (1 if words[0].endswith("oscheck") else 2):
                yield [line]


def make_room(room):
    """A folder as a checkout is, but with programs that are built elsewhere."""
    for folder in ("examples", "tests", "docs"):
        shutil.copytree(f"{TOP}/{folder}", f"{room}/{folder}")
    shutil.copy(f"{TOP}/README.md", room)
    os.mkdir(f"{room}/bin")
    for name in PROGRAMS:
        for at in (f"{room}/{name}", f"{room}/bin/{name}"):
            with open(at, "w", encoding="utf-8") as script:
                script.write(f'#!/bin/sh\nexec "{called(name)}" "$@"\n')
            os.chmod(at, 0o755)
    # An array of Slurm's, one task after the other.
    with open(f"{room}/bin/sbatch", "w", encoding="utf-8") as script:
        script.write("#!/bin/bash\nset -e\nshift\nlast=${1##*-}\nfor ((SLURM_ARRAY_TASK_ID = 0; SLURM_ARRAY_TASK_ID <= last; SLURM_ARRAY_TASK_ID++)); do\n")
        script.write('    export SLURM_ARRAY_TASK_ID\n    bash "$2" "$3"\ndone\n')
    os.chmod(f"{room}/bin/sbatch", 0o755)


def prepare(room, lines):
    """Runs what the text has before the lines."""
    subprocess.run(["bash", "-c", lines], cwd=f"{room}/examples/many", stdout=subprocess.DEVNULL, check=True)


def give_files(room, lines):
    """The files that the lines name, with the bytes that the text speaks of."""
    text = "\n".join(lines)
    given = next((INPUTS[name] for name in INPUTS if name in text), PLAIN)
    for folder in (room, f"{room}/examples/many"):
        for name in ("INPUT", "CODED"):
            with open(f"{folder}/{name}", "wb") as file:
                file.write(given)
        for name in ("PROGRAM", "FILE"):
            shutil.copy(f"{room}/examples/lift.c", f"{folder}/{name}")
    with open(f"{room}/JOBS", "w", encoding="utf-8") as jobs:
        jobs.write("run examples/lift.c INPUT\n" * 3)
    first = ["./osrun", "compile", "PROGRAM"], "OBJECT"
    traced = ["./osrun", "trace", "examples/pipeline.c" if "pipeline.c" in text else "PROGRAM", "INPUT"], "TRACE"
    for words, name in (it for it in (first, traced) if it[1] in text):
        with open(f"{room}/{name}", "wb") as file:
            subprocess.run(words, cwd=room, stdout=file, stderr=subprocess.DEVNULL, check=False)
    if "lift.c work 8" in text:
        prepare(room, "./cut.sh INPUT 262144 0 work")
    if "--skip" in text:
        prepare(room, "./cut.sh INPUT 65536 2 work && ./jobs.sh ../smooth.c work 4 && ./here.sh work")


def wanted_tools(line):
    """What the line needs that isn't here."""
    return [tool for tool in ("dot", "gcc") if re.search(rf"(^|\| ?){tool} ", line) and not shutil.which(tool)]


def run_lines(room, page, lines):
    """Runs lines one after the other in one folder; yields those that went wrong, and counts the others."""
    env = os.environ | {"PATH": f"{room}/bin:{os.environ['PATH']}"}
    folder = f"{room}/examples/many" if page.startswith("examples/many") else room
    # The files that lines would have made which weren't run.
    missing = set()
    for line in lines:
        bare = re.sub(r"\s+#.*$", "", line)
        if not bare.strip() or bare.startswith("#"):
            continue
        if bare.startswith("cd "):
            folder = os.path.normpath(f"{folder}/{bare[3:]}")
            continue
        if bare.startswith(LEFT_OUT):
            continue
        tools = wanted_tools(bare)
        if tools:
            print(f"{page}: {bare}: {tools[0]} isn't here")
            missing |= set(re.findall(r">(\S+)", bare))
            continue
        if missing & set(bare.split()):
            print(f"{page}: {bare}: a line that wasn't run makes what it reads")
            continue
        words = bare
        for form, word in WORDS.items():
            words = re.sub(form, word, words)
        if re.match(r"(\./)?(cut|jobs|here|join)\.", words) and folder == room:
            folder = f"{room}/examples/many"
        words = re.sub(r"^(cut|jobs|here|join)\.", r"./\1.", words)
        ended = subprocess.run(["bash", "-c", f"set -o pipefail\n{words}"], cwd=folder, env=env, stdin=subprocess.DEVNULL, capture_output=True, timeout=300, check=False)
        wanted = OTHERS.get(bare, 0)
        yield bare, ended.returncode, wanted, ended.stderr.decode(errors="replace").splitlines()[-1:]


def main():
    passed = failed = 0
    seen = set()
    for page in PAGES:
        for lines in lines_of(page):
            if tuple(lines) in seen:
                continue
            seen.add(tuple(lines))
            with tempfile.TemporaryDirectory() as room:
                make_room(room)
                give_files(room, lines)
                for line, status, wanted, said in run_lines(room, page, lines):
                    if status == wanted:
                        passed += 1
                    else:
                        failed += 1
                        print(f"{page}: {line}: status {status}, wanted {wanted}: {' '.join(said)}")
    print(f"{passed} passed, {failed} failed")
    return int(failed != 0)


if __name__ == "__main__":
    sys.exit(main())
