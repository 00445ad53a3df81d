#!/usr/bin/env python3
"""Joins the outputs of jobs in the order of their parts: join.py FOLDER [--skip BYTES].

The answers of FOLDER/answers.000 and so on are read one after the other, and the output of each job goes to standard output, but for
its first BYTES in every job but the very first. Of the first job that isn't done, status and report are told, and the status is 1.
"""
import glob
import re
import sys

HEADING = re.compile(rb"job (\d+) status (\d+) out (\d+) report (\d+)\n")


def answers(name):
    """The number, the status, the output and the report of each answer in a file."""
    with open(name, "rb") as file:
        while line := file.readline():
            heading = HEADING.fullmatch(line)
            if not heading:
                sys.exit(f"{name}: no answer begins so: {line[:40]!r}")
            number, status, out, report = map(int, heading.groups())
            output, told = file.read(out), file.read(report)
            if len(output) + len(told) < out + report:
                sys.exit(f"{name}: the answer to job {number} is cut short")
            yield number, status, output, told


def main(words):
    skip = 0
    if len(words) == 3 and words[1] == "--skip" and words[2].isdigit():
        skip = int(words[2])
    elif len(words) != 1:
        sys.exit("join.py FOLDER [--skip BYTES]")
    folder = words[0]
    files = sorted(glob.glob(glob.escape(folder) + "/jobs.*"))
    first = True
    for jobs in files:
        with open(jobs, "rb") as file:
            wanted = sum(1 for _ in file)
        name = f"{folder}/answers.{jobs.rpartition('.')[2]}"
        found = 0
        for number, status, output, told in answers(name):
            if status != 0:
                sys.stderr.buffer.write(b"%s: job %d has the status %d\n%s" % (name.encode(), number, status, told))
                return 1
            sys.stdout.buffer.write(output if first else output[skip:])
            first = False
            found += 1
        if found != wanted:
            sys.exit(f"{name}: {found} of {wanted} jobs are answered")
    return 0


if __name__ == "__main__":
    sys.exit(main(sys.argv[1:]))
