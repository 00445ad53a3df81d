#!/usr/bin/env python3
"""tests/host_faults.py: that faults of the host come to the statuses that they have, and change no byte that is written.

Each call of whole runs of the built program is failed in turn, by tests/failing_call.c: the openings, reads, writes, maps of memory
and threads that the program asks for, with several errors, and reads and writes that move a byte alone. Each run is by 1, 2 and 7
workers, over a run, a text that is refused and bytes that are made. Of each it asks that the status is that of the whole run, or 5
where a file failed, 6 where a sink did, 7 where memory was wanting; that what was written is all, a front or nothing, as that status
has it; that a thread which can't be made changes nothing; and that threads are asked for just where several workers run. Besides,
outputs that are closed, full or limited in length.

It isn't called by .ci/run: ./build has to have built the program. The last line is `N passed, M failed`."""
import errno
import os
import resource
import shutil
import subprocess
import sys
import tempfile

from programs import TOP, called, program

OSRUN = program("osrun")
RUN = ["run", "program.c", "input"]
JOBS = {"a run": RUN, "a text that is refused": ["run", "refused.c", "input"], "bytes that are made": ["gen", "1", "2"]}
WORKERS = ["1", "2", "7"]
# How many calls of a kind are failed, more than a run makes, and by which errors; 0 moves a byte alone.
CALLS = {
    "open": (8, [errno.EIO, errno.EACCES, errno.EMFILE, errno.EINTR]),
    "read": (8, [errno.EIO, errno.EAGAIN, errno.EINTR, 0]),
    "write": (8, [errno.EIO, errno.ENOSPC, errno.EPIPE, errno.EAGAIN, errno.EINTR, 0]),
    "map": (40, [errno.ENOMEM, errno.EAGAIN]),
    "thread": (8, [errno.EAGAIN]),
}
# The status that a fault of such a call has, where it is no whole run.
STATUS = {"open": 5, "read": 5, "write": 6, "map": 7, "thread": None}
PROGRAM = """int main(void) {
    int s[20] __attribute__((stream));
    int i, x, y;
    for (i = 0; i < 20; i++) {
        #pragma omp task input(osin >> x) output(s[i] << y)
        { int k; y = x; for (k = 0; k < 200; k++) y = (y * 5 + k) & 255; }
    }
    for (i = 0; i < 20; i++) {
        #pragma omp task input(s[19 - i] >> x) output(osout << y)
        y = x;
    }
}
"""


def outcome(words, shim=None, fault=(), **how):
    """The status, the output and the report of a call, of which this kind of call with this number fails by this error."""
    variables = dict(os.environ)
    if shim:
        variables |= {"LD_PRELOAD": shim} | dict(zip(("FAILING_KIND", "FAILING_NUMBER", "FAILING_ERROR"), map(str, fault)))
    made = subprocess.run([OSRUN, *words], capture_output=True, stdin=subprocess.DEVNULL, timeout=60, env=variables, **how)
    return made.returncode, made.stdout, made.stderr


def is_lawful(kind, whole, found):
    """Whether a call with a fault of this kind came to something that the command promises, where without it it is whole."""
    status, out, report = found
    if found == whole:
        return True
    if kind == "write" and whole[0] == 3:
        return status == 3 and out == b"" and whole[2].startswith(report)
    if status != STATUS[kind]:
        return False
    if status == 5:
        return out == b"" and report in (b"read fault program\n", b"read fault input\n")
    if status == 6:
        if len(out) < len(whole[1]):
            return whole[1].startswith(out) and report == b""
        return out == whole[1] and len(report) < len(whole[2]) and whole[2].startswith(report)
    return out == b"" and report == b""


def limited():
    """Lets no file become longer than 7 bytes."""
    resource.setrlimit(resource.RLIMIT_FSIZE, (7, 7))


def main():
    if not os.access(OSRUN, os.X_OK):
        sys.exit(f"tests/host_faults.py: {OSRUN} isn't there: call ./build")
    passed, failed = 0, 0

    def ask(name, holds, found):
        nonlocal passed, failed
        passed, failed = passed + bool(holds), failed + (not holds)
        if not holds:
            print(f"{name}: {found}")

    with tempfile.TemporaryDirectory() as room:
        os.chdir(room)
        for name, text in (("program.c", PROGRAM), ("refused.c", "int main(void) {\n"), ("input", "twenty bytes of input")):
            with open(name, "w", encoding="utf-8") as file:
                file.write(text)
        kit = os.path.realpath(shutil.which("rt") or "rt")
        compiler = shutil.which("cc") or shutil.which("clang") or os.path.join(os.path.dirname(kit), "..", "toolchain", "bin", "clang")
        shim = f"{room}/failing_call.so"
        subprocess.run([compiler, "-shared", "-fPIC", "-nostdlib", "-O1", "-o", shim, f"{TOP}/tests/failing_call.c"], check=True)
        for job, words in JOBS.items():
            for workers in WORKERS:
                call = [*words, "--workers", workers]
                whole = outcome(call)
                # (such a call ends the program with status 99)
                threads = outcome(call, shim, ("thread", 1, 0))[0] == 99
                ask(f"{job} by {workers} starts threads", threads == (workers != "1" and whole[0] != 3), threads)
                for kind, (most, errors) in CALLS.items():
                    reached = set()
                    for number in range(1, most + 1):
                        for error in errors:
                            found = outcome(call, shim, (kind, number, error))
                            reached.add(found[0])
                            ask(f"{job} by {workers}, {kind} {number} fails by {error}", is_lawful(kind, whole, found), found)
                    # (bytes that are made need no file)
                    if STATUS[kind] in (5, 6) and not (kind in ("open", "read") and words[0] == "gen") and not (kind == "write" and whole[0] == 3):
                        ask(f"{job} by {workers}, some {kind} counts", STATUS[kind] in reached, reached)
        whole = outcome(RUN)
        reader, writer = os.pipe()
        os.close(reader)
        made = subprocess.run([OSRUN, *RUN], stdout=writer, stderr=subprocess.PIPE, timeout=60, check=False)
        ask("an output that nobody reads", (made.returncode, made.stderr) == (6, b""), made)
        with open("/dev/full", "wb") as full:
            made = subprocess.run([OSRUN, *RUN], stdout=full, stderr=subprocess.PIPE, timeout=60, check=False)
        ask("an output that is full", (made.returncode, made.stderr) == (6, b""), made)
        with open("limited", "wb") as file:
            made = subprocess.run([called("osrun"), *RUN], stdout=file, stderr=subprocess.PIPE, timeout=60, check=False, preexec_fn=limited)
        with open("limited", "rb") as file:
            out = file.read()
        ask("an output that is limited in length", (made.returncode, made.stderr, out) == (6, b"", whole[1][:7]), (made, out))
    print(f"{passed} passed, {failed} failed")
    sys.exit(failed != 0)


main()
