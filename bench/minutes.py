#!/usr/bin/env python3
"""bench/minutes.py [--write]: runs `rt ci` in this checkout, and tells the processor minutes of each crate.

Call it in a fresh clone on a machine that has kept nothing, where the time from nothing is wanted: what an earlier run
passed is not proved again. It prints a table of the minutes that proofs, tests and must-fail edits took, by crate in the
order of crates.txt, and their sum beside that of the whole run (which builds and runs programs too). By these minutes it
works out how long a run takes on two processors and on four, where each does one check after another, and of those that
can be begun the one with the longest chain behind it. With --write it puts the table into docs/WORKING.md with the paragraph
over it; a crate that was kept, and so took no time, has the minutes that stood there, and is named. It looks at the processes once a second, so up to a second of each
is missed. Its status is that of `rt ci`."""
import heapq
import os
import resource
import subprocess
import sys
import textwrap
import time

TOP = os.path.dirname(os.path.dirname(os.path.abspath(__file__)))
TICKS = os.sysconf("SC_CLK_TCK")
KINDS = ["proof", "tests", "edits"]
PAGE = f"{TOP}/docs/WORKING.md"
HEAD = "| crate | proof | tests | edits |"
BEGINNING = "Processor minutes of `rt ci` from nothing, measured on"


def uses():
    """The crates that crates.txt lists, in its order, each with those that it names."""
    with open(f"{TOP}/crates.txt") as lines:
        rows = [line.split(":") for line in lines if ":" in line and not line.startswith("#")]
    names = {name.split()[0] for name, _ in rows}
    return {name.split()[0]: [it for it in used.split() if it in names] for name, used in rows}


def processes():
    """The processes there are: number, parent, words, folder, seconds of processor so far, moment of its start."""
    for number in filter(str.isdigit, os.listdir("/proc")):
        try:
            with open(f"/proc/{number}/cmdline") as words, open(f"/proc/{number}/stat") as stat:
                fields = stat.read().rpartition(") ")[2].split()
                seconds = (int(fields[11]) + int(fields[12])) / TICKS
                yield int(number), int(fields[1]), words.read().split("\0"), os.readlink(f"/proc/{number}/cwd"), seconds, fields[19]
        except (OSError, IndexError):
            # it ended meanwhile
            continue


def checks_below(root):
    """The checks among the processes below that number: crate, kind, seconds so far, by what tells one process from another."""
    there = {number: (parent, *rest) for number, parent, *rest in processes()}

    def is_below(number):
        while number in there and number != root:
            number = there[number][0]
        return number == root

    for number, (_, words, folder, seconds, start) in there.items():
        if words[0].endswith("rattle") and "--crate-name" in words and is_below(number):
            crate = words[words.index("--crate-name") + 1]
            own = folder == f"{TOP}/crates/{crate}"
            yield (number, start), crate, ("tests" if "--test" in words else "proof") if own else "edits", seconds


def table(minutes):
    """The rows of the table, and the sums of its columns."""
    rows, sums = [HEAD, "|---|---|---|---|"], [0.0, 0.0, 0.0]
    for crate in uses():
        row = [minutes.get((crate, kind), 0) for kind in KINDS]
        sums = [one + other for one, other in zip(sums, row)]
        rows.append(f"| `{crate}` | " + " | ".join(f"{it:.1f}" if it >= 0.05 else "-" for it in row) + " |")
    return rows, sums


def spread(minutes, processors):
    """The minutes of a run on `processors` processors: tests begin with their crate's proof, and edits end with it behind them."""
    below = uses()
    needs = {(crate, kind): [(it, "proof") for it in below[crate]] for crate in below for kind in KINDS}
    for crate in below:
        needs[crate, "edits"] = [(crate, "proof"), (crate, "tests")]
    behind = {}

    def chain(work):
        if work not in behind:
            behind[work] = minutes.get(work, 0) + max((chain(it) for it in needs if work in needs[it]), default=0)
        return behind[work]

    left, done, running, now = sorted(needs, key=chain, reverse=True), set(), [], 0.0
    while left or running:
        ready = next((it for it in left if done.issuperset(needs[it])), None)
        if ready and len(running) < processors:
            left.remove(ready)
            heapq.heappush(running, (now + minutes.get(ready, 0), ready))
        else:
            now, ended = heapq.heappop(running)
            done.add(ended)
    return now


def page_lines():
    """The lines of the page that has the table, where the table begins in it, and where it ends."""
    with open(PAGE) as page:
        lines = page.read().split("\n")
    first = lines.index(HEAD)
    return lines, first, next(at for at in range(first, len(lines)) if not lines[at].startswith("|"))


def with_kept(minutes):
    """The minutes with those that stand in the page for the crates that took none, and the names of these crates."""
    lines, first, behind = page_lines()
    stood = {}
    for line in lines[first + 2 : behind]:
        name, *figures = [it.strip(" `") for it in line.strip("|").split("|")]
        stood[name] = {(name, kind): float(it) for kind, it in zip(KINDS, figures) if it != "-"}
    kept = [name for name in uses() if name in stood and not any(minutes.get((name, kind)) for kind in KINDS)]
    return {**minutes, **{key: it for name in kept for key, it in stood[name].items()}}, kept


def write(minutes, others):
    """Puts the table and the paragraph over it into the page; `others` are the processor minutes of all else that the run did."""
    minutes, kept = with_kept(minutes)
    rows, sums = table(minutes)
    kit = subprocess.run(["rt", "version"], stdout=subprocess.PIPE, text=True).stdout.split()[0]
    paragraph = (
        f"{BEGINNING} {time.strftime('%Y-%m-%d')} by `bench/minutes.py --write`, with {kit} on {os.cpu_count()} processors: "
        f"proofs {sums[0]:.0f}, tests {sums[1]:.0f}, edits {sums[2]:.0f}, {sum(sums):.0f} in all, and {others:.0f} more for all else that a run does. "
        f"By these minutes a run from nothing takes {spread(minutes, 2):.0f} minutes on two processors and {spread(minutes, 4):.0f} on four, where each does "
        "one check after another; the programs and the tests that run them take some minutes more. `-` stands where there is nothing to run."
    )
    if kept:
        paragraph += f" Kept from an earlier run, and so measured earlier: {', '.join(f'`{it}`' for it in kept)}."
    lines, first, behind = page_lines()
    lines[first:behind] = rows
    begin = next(at for at, line in enumerate(lines) if line.startswith(BEGINNING))
    lines[begin : lines.index("", begin)] = textwrap.wrap(paragraph, 160, break_on_hyphens=False)
    with open(PAGE, "w") as page:
        page.write("\n".join(lines))


def main():
    begun = time.time()
    run = subprocess.Popen(["rt", "ci"], cwd=TOP)
    seen = {}
    while run.poll() is None:
        for key, crate, kind, seconds in checks_below(run.pid):
            seen[key] = crate, kind, seconds
        time.sleep(1)
    minutes = {}
    for crate, kind, seconds in seen.values():
        minutes[crate, kind] = minutes.get((crate, kind), 0) + seconds / 60
    rows, sums = table(minutes)
    used = resource.getrusage(resource.RUSAGE_CHILDREN)
    print("\n".join(rows))
    print(f"proofs {sums[0]:.0f}, tests {sums[1]:.0f}, edits {sums[2]:.0f}: {sum(sums):.0f} of {(used.ru_utime + used.ru_stime) / 60:.0f} processor minutes")
    print(f"{(time.time() - begun) / 60:.0f} minutes, status {run.returncode}")
    print(f"by these minutes {spread(minutes, 2):.0f} on two processors, {spread(minutes, 4):.0f} on four")
    if "--write" in sys.argv[1:]:
        write(minutes, (used.ru_utime + used.ru_stime) / 60 - sum(sums))
    return run.returncode


if __name__ == "__main__":
    sys.exit(main())
