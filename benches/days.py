#!/usr/bin/env python3
"""days.py PROGRAM [--numbers N] [--nodes N] [--seconds S] [KIND,SHIPS,CHAMBERS[,P] ..]: solves days and prints a table.

Of each kind and size (day.py says what they are) it solves the instances of numbers 1 to N by one worker, and prints how many
were solved, the greatest gap in hundredths of the cost, the longest time of solving, the largest dossier, and the longest time
of checking: by `check`, or where the search ended open by `lower`. What doesn't end in time is counted apart. Times are those
of the processor. Each single instance is told on standard error."""

import argparse
import os
import pathlib
import resource
import subprocess
import sys

from day import day, is_day

KINDS = """lot,32,1 lot,48,2 lot,64,3 lot,96,2 lot,96,4 crowd,32,1 crowd,32,2 crowd,40,3 day,48,2 day,48,3 day,72,3 day,72,4
steady,48,2,70 steady,48,3,70 steady,64,4,70 steady,48,3,90 steady,48,4,90 steady,48,3,100""".split()
TITLES = "kind|ships|chambers|hundredths|solved|gap|longest|without an end|largest dossier|checking".split("|")


def run(words, data, seconds):
    """The text, the status and the seconds of a run; None where it takes longer."""
    before = resource.getrusage(resource.RUSAGE_CHILDREN).ru_utime
    limit = lambda: resource.setrlimit(resource.RLIMIT_CPU, (seconds, seconds))
    done = subprocess.run(words, input=data, stdout=subprocess.PIPE, preexec_fn=limit)
    spent = resource.getrusage(resource.RUSAGE_CHILDREN).ru_utime - before
    return (done.stdout, done.returncode, spent) if done.returncode >= 0 else None


def solved(program, instance, nodes, seconds):
    """The gap in hundredths, the seconds of solving, the bytes of the dossier, and the seconds of checking it."""
    found = run([program, "solve", "--workers", "1", "--dossier", "--keep", "--nodes", str(nodes)], instance, seconds)
    if found is None:
        return None
    dossier, status, solving = found
    if status not in (0, 1):
        sys.exit(f"days.py: {program} ended with status {status}")
    answer, ended, checking = run([program, "lower" if status else "check"], dossier, 3600)
    words = answer.split()
    low, cost = (int(words[1]), int(words[3])) if status else (int(words[2]),) * 2
    assert ended == status or low == cost, answer
    return 100 * (cost - low) / cost, solving, len(dossier), checking


def row(program, kind, given):
    name, ships, chambers, *p = kind.split(",")
    found = []
    for number in range(1, given.numbers + 1):
        instance = day(name, number, *map(int, (ships, chambers, *p))).encode()
        found.append(solved(program, instance, given.nodes, given.seconds))
        told = "no end" if found[-1] is None else "gap {:.1f}, {:.2f} s, {} bytes, checked in {:.2f} s".format(*found[-1])
        print(f"{kind}, number {number}: {told}", file=sys.stderr, flush=True)
    ended = [each for each in found if each]
    cells = [name, ships, chambers, *(p or [""]), f"{sum(each[0] == 0 for each in ended)} of {given.numbers}"]
    if not ended:
        return [*cells, "", "", str(given.numbers), "", ""]
    gap, solving, size, checking = map(max, zip(*ended))
    return [*cells, f"{gap:.1f}", f"{solving:.1f} s", str(given.numbers - len(ended)), f"{size:,}", f"{checking:.2f} s"]


def main():
    words = argparse.ArgumentParser(description=__doc__.split(": ", 1)[1].split("\n")[0])
    words.add_argument("program", type=pathlib.Path)
    words.add_argument("--numbers", type=int, default=3, help="instances of each kind and size (3)")
    words.add_argument("--nodes", type=int, default=100_000, help="nodes of a search (100,000)")
    words.add_argument("--seconds", type=int, default=600, help="seconds of the processor that solving may take (600)")
    words.add_argument("kinds", nargs="*", metavar="KIND,SHIPS,CHAMBERS[,P]", default=KINDS)
    given = words.parse_intermixed_args()
    if not os.access(given.program, os.X_OK) or given.program.is_dir():
        words.error(f"there is no program {given.program}")
    for kind in given.kinds:
        name, *numbers = kind.split(",")
        if not is_day(name, "1", *numbers):
            words.error(f"{kind} is no KIND,SHIPS,CHAMBERS[,P]; day.py says what they are")
    print(f"| {' | '.join(TITLES)} |\n|{'---|' * len(TITLES)}", flush=True)
    for kind in given.kinds:
        print(f"| {' | '.join(row(str(given.program.resolve()), kind, given))} |", flush=True)


if __name__ == "__main__":
    main()
