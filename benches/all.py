#!/usr/bin/env python3
"""all.py PROGRAM [OTHER] [--only WORD ..]: prints the tables of README.md, or those whose titles have one of these words.

PROGRAM is glock's, OTHER one with the same command line to be timed beside it. Each instance is solved by one worker with the
program's own budget, of more than 24 ships with the script's, and times are those of the processor, where a table doesn't say
otherwise. The machine's speed changes within minutes, so what is to be compared is run by turns."""

import argparse
import os
import pathlib
import statistics
import subprocess
import sys
import tempfile
import time
from dataclasses import dataclass

from day import day

HERE = pathlib.Path(__file__).resolve().parent
TOP = HERE.parent
CROWD_SIZES = (12, 14, 16, 20, 24)
DAYS = ["lot,48,2 3", "lot,96,1 2", "lot,96,2 3", "crowd,32,1 2", "crowd,32,2 2", "day,48,2 3",
        "day,48,3 3", "day,72,1 2", "day,72,2 2", "day,72,3 2", "day,72,4 2", "steady,48,2,70 2", "steady,48,3,70 2", "steady,64,2,70 2",
        "steady,96,2,70 1"]
SHARED = [("crowd", 1, 24, 2), ("steady", 1, 64, 2, 70), ("steady", 1, 48, 3, 70)]
DOSSIERS = [(1, 24, 2), (1, 24, 3), (1, 24, 1), (3, 24, 1), (1, 20, 3), (3, 24, 2)]


@dataclass
class Run:
    """What a run printed, how it ended, and its seconds of the processor and by the clock."""
    text: bytes
    status: int
    used: float
    clock: float

    def first(self):
        return self.text.split(b"\n", 1)[0].decode()


def run(words, data):
    with tempfile.TemporaryFile() as given, tempfile.TemporaryFile() as out:
        given.write(data)
        given.seek(0)
        begun = time.monotonic()
        child = subprocess.Popen(words, stdin=given, stdout=out)
        _, status, used = os.wait4(child.pid, 0)
        clock = time.monotonic() - begun
        out.seek(0)
        return Run(out.read(), os.waitstatus_to_exitcode(status), used.ru_utime + used.ru_stime, clock)


def solve(program, instance, *more):
    return run([program, "solve", "--workers", "1", *more], instance)


def budget_of(ships):
    """The script's budget for a day, where it isn't the program's own."""
    return ["--turns", "200000", "--nodes", "4000" if ships <= 48 else "1500"] if ships > 24 else []


def instance_of(kind, number, *sizes):
    return day(kind, number, *sizes).encode()


def compared(instance, given):
    """The runs of both programs on an instance; of the first alone where no other is given."""
    runs = [solve(program, instance) for program in given.programs]
    assert len({each.first() for each in runs}) == 1, [each.first() for each in runs]
    return runs


def summed(rows, given):
    """What a table's instances took together."""
    for place, name in enumerate(["glock", "the other program"][: len(given.programs)]):
        used = [runs[place].used for runs in rows]
        optimal = sum(runs[place].first().startswith("optimal") for runs in rows)
        print(f"{name}: {optimal} of {len(rows)} optimal, {sum(used):.2f} s together, {statistics.median(used):.3f} s in the median, {max(used):.2f} s at most")


def lots(given):
    """Lots 1 to 20 of 24 ships on 1, 2, 3 and 4 chambers"""
    summed([compared(instance_of("lot", number, 24, chambers), given) for number in range(1, 21) for chambers in (1, 2, 3, 4)], given)


def crowds(given):
    """Crowds 1 to 3 of 12 to 24 ships, in brackets the other program"""
    found = {(number, ships, chambers): compared(instance_of("crowd", number, ships, chambers), given)
             for number in (1, 2, 3) for ships in CROWD_SIZES for chambers in (1, 2, 3)}
    summed([*found.values()], given)
    print("| crowd | ships | 1 chamber | 2 chambers | 3 chambers |\n|---|---|---|---|---|")
    for number, ships in ((1, 16), (1, 20), (1, 24), (2, 24), (3, 24)):
        cells = []
        for chambers in (1, 2, 3):
            own, *other = found[number, ships, chambers]
            cells.append(f"{own.used:.2f} s" + "".join(f" ({each.used:.2f})" for each in other))
        print(f"| {number} | {ships} | {' | '.join(cells)} |")


def rushes(given):
    """Rushes"""
    print("| ships | instances | optimal | longest |\n|---|---|---|---|")
    by_size = {}
    for file in sorted((HERE / "rushes").glob("*.lock")):
        by_size.setdefault(int(file.name.split("-")[0]), []).append(file.read_bytes())
    for ships, instances in sorted(by_size.items()):
        runs = [solve(given.programs[0], each, "--dossier") for each in instances]
        assert all(run([given.programs[0], "check"], each.text).status == 0 for each in runs)
        print(f"| {ships} | {len(runs)} | {sum(each.status == 0 for each in runs)} | {max(each.used for each in runs):.2f} s |")


def days(given):
    """Days"""
    print("| kind, ships, chambers | number | verdict | time | dossier | `check` or `lower` |\n|---|---|---|---|---|---|")
    for row in DAYS:
        kind, count = row.split(" ")
        name, *sizes = kind.split(",")
        for number in range(1, int(count) + 1):
            instance = instance_of(name, number, *map(int, sizes))
            found = solve(given.programs[0], instance, "--dossier", "--keep", *budget_of(int(sizes[0])))
            checked = run([given.programs[0], "lower" if found.status else "check"], found.text)
            print(f"| {kind} | {number} | {checked.first()} | {found.used:.2f} s | {len(found.text):,} | {checked.used:.2f} s |", flush=True)


def workers(given):
    """Several workers, by the clock, medians of three"""
    print("| instance | one worker | two | four |\n|---|---|---|---|")
    for kind, number, ships, chambers, *p in SHARED:
        instance, seconds = instance_of(kind, number, ships, chambers, *p), {1: [], 2: [], 4: []}
        for _ in range(3):
            for count, found in seconds.items():
                found.append(run([given.programs[0], "solve", "--workers", str(count), *budget_of(ships)], instance).clock)
        cells = [f"{statistics.median(found):.2f} s" for found in seconds.values()]
        print(f"| {kind} {number} of {ships} on {chambers} | {' | '.join(cells)} |", flush=True)


def dossiers(given):
    """Dossiers"""
    print("| crowd | ships | chambers | dossier | solving with `--dossier` | checking |\n|---|---|---|---|---|---|")
    for number, ships, chambers in DOSSIERS:
        found = solve(given.programs[0], instance_of("crowd", number, ships, chambers), "--dossier")
        checked = run([given.programs[0], "check"], found.text)
        assert checked.first().startswith("accepted cost "), checked
        print(f"| {number} | {ships} | {chambers} | {len(found.text):,} | {found.used:.2f} s | {checked.used:.2f} s |")
    sys.stdout.flush()
    subprocess.run([sys.executable, TOP / "tests/hostile/hard_prices.py", given.programs[0]], check=True)


def second_checker(given):
    """Examples, and the second checker"""
    program, checker = given.programs[0], [sys.executable, str(TOP / "checker/check_dossier.py")]
    rows = [(name, solve(program, (TOP / f"examples/{name}.lock").read_bytes(), "--dossier")) for name in ("evening", "queue-24")]
    rows = [(name, found.text, f"{found.used:.2f} s") for name, found in rows]
    rows.append(("far_apart", (TOP / "tests/checker/far_apart.dossier").read_bytes(), ""))
    print("| dossier | bytes | solving | `check` | second checker |\n|---|---|---|---|---|")
    for name, dossier, solving in rows:
        with tempfile.NamedTemporaryFile() as file:
            file.write(dossier)
            file.flush()
            own, second = run([program, "check"], dossier), run([*checker, file.name], b"")
        assert own.text == second.text, (own, second)
        print(f"| {name} | {len(dossier):,} | {solving} | {own.used:.2f} s | {second.used:.1f} s |")


def main():
    words = argparse.ArgumentParser(description=__doc__.split(": ", 1)[1].split("\n")[0])
    words.add_argument("programs", nargs="+", metavar="PROGRAM")
    words.add_argument("--only", nargs="*", default=[""], metavar="WORD")
    given = words.parse_intermixed_args()
    given.programs = [str(pathlib.Path(each).resolve()) for each in given.programs[:2]]
    for table in (lots, crowds, rushes, days, workers, dossiers, second_checker):
        if any(word.lower() in table.__doc__.lower() for word in given.only):
            print(f"\n## {table.__doc__}\n", flush=True)
            table(given)


if __name__ == "__main__":
    main()
