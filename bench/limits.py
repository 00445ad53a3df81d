#!/usr/bin/env python3
"""bench/limits.py: what a run takes at most. ./build has to have built the program.

Stack: for each way in which a program can nest to the depth of 200 that is the limit, the least limit on the stack of the process, in
kilobytes, with which the program is still read, compiled and run. Room: the most memory of a run whose tasks call 16 functions
with 65,536 elements of local arrays each, as many as a program may have, by 1, 4 and 64 workers, and of one whose tasks could call
them and don't. Turns: the seconds of a million turns
of a loop, each of which sets a local array to zeros, by the number of its elements."""
import os
import resource
import subprocess
import sys
import tempfile

TOP = os.path.dirname(os.path.dirname(os.path.abspath(__file__)))
OSRUN = f"{TOP}/crates/osrun/out/osrun"
TASK = "int main(void) {\nint y;\n#pragma omp task output(osout << y)\n%s\n}\n"
# Texts with what is nested: it begins at @ and ends at $.
NESTED = {
    "parentheses": (TASK % "y = @1$;", "(", ")"),
    "unary operators": (TASK % "y = @1$;", "!", ""),
    "choices": (TASK % "y = @1$;", "1 ? ", " : 0"),
    "blocks": (TASK % "{ @ y = 1; $ }", "{", "}"),
    "`if`": (TASK % "{ @ y = 1; $ }", "if (1) ", ""),
    "`for`": (TASK % "{ @ y = 1; $ }", "for (;0;) ", ""),
    "indices": (TASK % "{ int a[2]; y = @0$; }", "a[", "]"),
    "calls": ("int f(int x) { return x; }\n" + TASK % "y = @0$;", "f(", ")"),
}
ELEMENTS = 65536


def run(workers="1", stack=None):
    def limit():
        if stack:
            resource.setrlimit(resource.RLIMIT_STACK, (stack * 1024, stack * 1024))

    words = [OSRUN, "run", "program.c", os.devnull, "--workers", workers]
    return subprocess.run(words, capture_output=True, check=False, preexec_fn=limit).returncode


def write(text):
    with open("program.c", "w", encoding="utf-8") as file:
        file.write(text)


def most(accepts, below):
    """The greatest number below this one that is accepted, where all up to it are."""
    low, high = 0, below
    while low + 1 < high:
        middle = (low + high) // 2
        low, high = (middle, high) if accepts(middle) else (low, middle)
    return low


def stacks():
    print("| nested | how deep | KB of stack |\n|---|---|---|")
    for name, (text, begin, end) in NESTED.items():
        def lawful(count):
            write(text.replace("@", begin * count).replace("$", end * count))
            return run() == 0

        count = most(lawful, 256)
        lawful(count)
        print(f"| {name} | {count} | {most(lambda stack: run(stack=stack or 1) != 0, 8192) + 1} |")


def rooms():
    functions = "".join(
        f"int f{k}(int x) {{ int a[{ELEMENTS}]; int k; for (k = 0; k < {ELEMENTS}; k += 256) a[k] = 1; "
        f"return a[x]{f' + f{k - 1}(x)' if k else ''}; }}\n"
        for k in range(16)
    )
    print("| the tasks | workers | KB at most |\n|---|---|---|")
    for what, condition in (("call them", "i < 512"), ("don't call them", "i == 512")):
        call = f"if ({condition}) y = f15(i) & 255; else y = i & 255;"
        write(functions + f"int main(void) {{\nint i, y;\nfor (i = 0; i < 512; i++) {{\n#pragma omp task output(osout << y)\n{call}\n}}\n}}\n")
        for workers in ("1", "4", "64"):
            words = ["/usr/bin/time", "-f", "%M", OSRUN, "run", "program.c", os.devnull, "--workers", workers]
            made = subprocess.run(words, stdout=subprocess.DEVNULL, stderr=subprocess.PIPE, text=True, check=False)
            print(f"| {what} | {workers} | {made.stderr.splitlines()[-1]} |{'' if made.returncode == 0 else f' status {made.returncode}'}")


def turns():
    print("| elements set to zeros in each turn | s for a million turns |\n|---|---|")
    for elements in (1, 1024, ELEMENTS):
        write(TASK % f"{{ int i; for (i = 0; i < 1000000; i++) {{ int a[{elements}]; y = a[0] + 1; }} }}")
        before = resource.getrusage(resource.RUSAGE_CHILDREN).ru_utime
        status = run()
        print(f"| {elements:,} | {resource.getrusage(resource.RUSAGE_CHILDREN).ru_utime - before:.2f} |{'' if status in (0, 1) else f' status {status}'}")


def main():
    if not os.access(OSRUN, os.X_OK):
        sys.exit(f"bench/limits.py: {OSRUN} isn't there: call ./build")
    with tempfile.TemporaryDirectory() as room:
        os.chdir(room)
        rooms()
        stacks()
        turns()


main()
