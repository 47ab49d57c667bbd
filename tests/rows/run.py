#!/usr/bin/env python3
"""run.py PROGRAM [FILE ..]: runs the worked rows of whole runs, those of all `.rows` files beside it unless some are given.
It prints each difference and at the end `N passed, M failed`, which counts runs; its status is 0 where none failed.
read_rows.py says what a file of rows is.
"""

import concurrent.futures
import json
import os
import pathlib
import re
import subprocess
import sys
import tempfile

sys.dont_write_bytecode = True
from read_rows import rows_of

SECONDS, AT_ONCE = 60, 4


class Ran:
    def __init__(self, words, data):
        self.words, self.data = words, data
        with tempfile.TemporaryFile() as source:
            source.write(data)
            source.seek(0)
            pipes = {"stdin": source, "stdout": subprocess.PIPE, "stderr": subprocess.STDOUT}
            done = subprocess.run([PROGRAM, *words], timeout=SECONDS, **pipes)
            self.has_read = os.lseek(source.fileno(), 0, os.SEEK_CUR)
        self.status, self.text = done.returncode, done.stdout.decode("latin-1")
        self.first = self.text.split("\n")[0]

    def is_accepted(self, cost):
        checked = Ran([b"check"], self.text.encode("latin-1"))
        return (checked.status, checked.text) == (0, f"accepted cost {cost}\n")

    def is_trial(self):
        begins = {0: "optimal cost ", 1: "open "}.get(self.status, "no such status")
        return self.text == self.first + "\n" == Ran(self.words, self.data).text and self.first.startswith(begins)

    def has_same_plan(self):
        report = re.sub(r"^  \|.*\n| (end|flow) \d+$|^end\n", "", self.text, flags=re.M)
        dossier = Ran([*self.words, b"--dossier"], self.data)
        lockages = re.split(r"^lockage \d+ ", report, flags=re.M)[1:]
        is_same = sorted(map(by_letter, lockages)) == sorted(lockages_of(dossier.text))
        return is_same and dossier.is_accepted(self.first.removeprefix("optimal cost "))


def by_letter(lockage):
    """A lockage of a report with its ships by their letters, which go by number."""
    first, *ships = lockage.splitlines(keepends=True)
    return "".join([first, *sorted(ships)])


def lockages_of(dossier):
    """The lockages of a dossier's plan, as a report has them, but for their numbers, ends, flows and drawings."""
    chambers, ships = (re.findall(rf"^{kind} (\S+)", dossier, re.M) for kind in ("chamber", "ship"))
    for lockage in json.loads(dossier.split("\n")[-2])["plan"]:
        text = f"chamber {chambers[lockage['chamber']]} {['up', 'down'][lockage['way']]} start {lockage['start']}\n"
        for letter, ship, (x, y, side, host) in zip("ABCDEFGH", lockage["ships"], lockage["spots"]):
            mooring = f"at {'ABCDEFGH'[host - 1]}" if host else "quay"
            text += f"  {letter} {ships[ship]} x {x} y {y} {['left', 'right'][side]} {mooring}\n"
        yield text


CHECKS = {
    "status": lambda ran, status: ran.status == int(status),
    "whole": lambda ran, text: ran.text == text,
    "line": lambda ran, line: ran.text == line + "\n",
    "first": lambda ran, line: ran.first == line,
    "holds": lambda ran, line: line in ran.text.split("\n"),
    "part": lambda ran, text: text in ran.text,
    "accepted": lambda ran, cost: ran.is_accepted(cost),
    "same": lambda ran, _: ran.has_same_plan(),
    "trial": lambda ran, _: ran.is_trial(),
    "unread": lambda ran, _: ran.has_read == 0,
}


def difference(row):
    place, words, data, asked = row
    try:
        ran = Ran(words, data)
        missed = [kind for kind in asked if not any(CHECKS[kind](ran, value) for value in asked[kind])]
    except (subprocess.TimeoutExpired, ValueError, LookupError) as error:
        return f"{place}\n{error!r}\n"
    wanted = "".join(f"not as asked: {kind} {' or '.join(asked[kind])}\n" for kind in missed)
    return f"{place}\n{wanted}status {ran.status}, output:\n{ran.text}\n" if missed else ""


if len(sys.argv) < 2:
    sys.exit("usage: run.py PROGRAM [FILE ..]")
PROGRAM = os.path.abspath(sys.argv[1])
files = [pathlib.Path(file) for file in sys.argv[2:]] or sorted(pathlib.Path(__file__).parent.glob("*.rows"))
rows = [row for file in files for row in rows_of(file, CHECKS)]
assert rows and all(asked for _, _, _, asked in rows), "a run of which nothing is asked"
with concurrent.futures.ThreadPoolExecutor(AT_ONCE) as pool:
    differences = list(filter(None, pool.map(difference, rows)))
print("".join(differences) + f"{len(rows) - len(differences)} passed, {len(differences)} failed")
sys.exit(1 if differences else 0)
