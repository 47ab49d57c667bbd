"""One call that goes wrong: each command with each of its allocations and threads refused in turn, each read and write
failing, and each read and write moving one byte.

It answers as it does when nothing goes wrong, or with the status and text of what was refused. `refuse.c`, which stands
between the program and the C library, makes that happen; where no C compiler is there, none of this is tried, and that is
said.
"""

import atexit
import os
import pathlib
import shutil
import subprocess
import sys
import tempfile

from runs import Wrong

SOURCE = pathlib.Path(__file__).resolve().parent / "refuse.c"
# The kind of call, what goes wrong, and the answer that it may have: None is that of an untroubled run alone.
KINDS = (
    ("m", "allocation refused", (6, b"no memory\n")),
    ("t", "thread refused", None),
    ("r", "read failing", (4, b"read fault\n")),
    ("w", "write failing", (5, b"")),
    ("R", "read of one byte", None),
    ("W", "write of one byte", None),
)


def library():
    """The library that makes calls go wrong, or None."""
    compiler = shutil.which("cc") or shutil.which("gcc") or shutil.which("clang")
    if not compiler:
        print("no C compiler, so no single call is refused", file=sys.stderr)
        return None
    folder = tempfile.mkdtemp(prefix="refuse-")
    atexit.register(shutil.rmtree, folder)
    built = f"{folder}/refuse.so"
    subprocess.run([compiler, "-shared", "-fPIC", "-O1", "-o", built, str(SOURCE)], check=True)
    return built


def refusing(built, kind, number, **more):
    return {**os.environ, "LD_PRELOAD": built, "REFUSE": f"{kind}{number}", **more}


def calls_of(runner, command, kind, built):
    """How many calls of a kind the command makes."""
    ends = os.pipe()
    with open(ends[0]) as told:
        runner.run(command.words, command.data, env=refusing(built, kind, 0, REFUSE_TO=str(ends[1])), pass_fds=ends[1:])
        os.close(ends[1])
        return int(told.read().split("\n")[0] or 0)


def case(runner, command, built, kind, number, what, allowed):
    def tried():
        answer = runner.run(command.words, command.data, env=refusing(built, kind, number))
        if answer and (command.is_right(answer) or (answer.status, answer.text) == allowed):
            return None
        return Wrong(f"{what}: number {number}", command.words, command.data, answer)
    return tried


def cases(runner, runs, number, built=[]):
    """All of them in each round, since several workers make their calls in another order each time."""
    if not built:
        built.append(library())
    for command in runs if built[0] else ():
        for kind, what, allowed in KINDS:
            for call in range(1, calls_of(runner, command, kind, built[0]) + 1):
                yield case(runner, command, built[0], kind, call, what, allowed)
