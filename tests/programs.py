"""The programs that tests run: those in the folder that OSRUN_BIN names, as /usr/bin, or else those of this checkout, which ./build has to have built."""
import os

TOP = os.path.dirname(os.path.dirname(os.path.abspath(__file__)))
BIN = os.environ.get("OSRUN_BIN")


def called(name):
    """What people call."""
    return f"{BIN}/{name}" if BIN else f"{TOP}/{name}"


def program(name):
    """The program itself, without a script before it."""
    if not BIN:
        return f"{TOP}/crates/{name}/out/{name}"
    alone = f"{BIN}/../libexec/osrun/{name}"
    return alone if os.path.exists(alone) else f"{BIN}/{name}"
