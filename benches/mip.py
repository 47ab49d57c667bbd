#!/usr/bin/env python3
"""mip.py PROGRAM [--solve cbc|glpsol] [--seconds N] < INSTANCE: the day of an instance without closures as a mixed-integer program.

It prints the program in the LP format that stock solvers read. Which ships fit a chamber together is given to the model, not found by it:
PROGRAM is asked of each set of ships of one way (its passage made so long that a second lockage never pays). Each chamber is a path through a
network of minutes and sides, by waiting, by empty turns and by lockages; each ship is in one lockage of all paths, and the flow times are
added. Without the demand that lockages are whole its bound is about that of prices at the root. With --solve it prints the solver's status,
cost and seconds instead."""

import argparse
import collections
import itertools
import os
import re
import subprocess
import sys
import tempfile
import time

LONG = 100_000  # minutes: a passage that no plan makes twice where once is enough


def read(text):
    """The chambers and the ships, each as the words of its line."""
    lines = [line.split("#")[0].split() for line in text.splitlines()]
    if any(words[:1] == ["close"] for words in lines):
        sys.exit("mip.py: the model has no closures")
    return [words for words in lines if words[:1] == ["chamber"]], [words for words in lines if words[:1] == ["ship"]]


def fits(program, chamber, ships):
    """Whether the ships fit the chamber together, as the program says."""
    alone = chamber[:8] + [str(LONG), "0", chamber[10], "0"]
    text = [["glock", "2"], alone, *([*ship[:5], "0", *ship[6:]] for ship in ships), ["end"]]
    said = subprocess.run([program, "solve"], input="\n".join(map(" ".join, text)) + "\n", capture_output=True, text=True)
    cost = re.search(r"cost (\d+)", said.stdout)
    return bool(cost) and int(cost[1]) == len(ships) * (LONG + sum(int(ship[6]) for ship in ships))


def groups_of(program, chamber, ships):
    """The sets of ships of one way that fit the chamber: each of its parts fits too."""
    found, level = [], [(s,) for s in range(len(ships))]
    while level and len(level[0]) <= int(chamber[7]):
        level = [group for group in level if fits(program, chamber, [ships[s] for s in group])]
        found += level
        known = set(level)
        level = [group + (s,) for group in level for s in range(group[-1] + 1, len(ships)) if ships[s][2] == ships[group[0]][2]
                 and all(part in known for part in itertools.combinations(group + (s,), len(group)))]
    return found


def model(program, chambers, ships):
    """The lines of the mixed-integer program."""
    arrival, handling = [int(ship[5]) for ship in ships], [int(ship[6]) for ship in ships]
    longest = max(int(chamber[8]) + int(chamber[9]) for chamber in chambers)
    late = max(arrival + [int(chamber[11]) for chamber in chambers]) + longest + sum(longest + minutes for minutes in handling)
    cost, binaries = [], []
    nodes = collections.defaultdict(list)
    served = collections.defaultdict(list)

    def arc(name, chamber, begin, end):
        """An arc of a chamber's network from one minute and side to another."""
        nodes[(chamber, *begin)].append(f"- {name}")
        if end[0] <= late:
            nodes[(chamber, *end)].append(f"+ {name}")

    for c, chamber in enumerate(chambers):
        passage, turn, opens = int(chamber[8]), int(chamber[9]), int(chamber[11])
        for t in range(opens, late):
            for side, other in (("low", "high"), ("high", "low")):
                arc(f"wait_{c}_{t}_{side}", c, (t, side), (t + 1, side))
                arc(f"turn_{c}_{t}_{side}", c, (t, side), (t + turn, other))
        for g, group in enumerate(groups_of(program, chamber, ships)):
            begins, ends = ("low", "high") if ships[group[0]][2] == "up" else ("high", "low")
            minutes = passage + sum(handling[s] for s in group)
            for t in range(max([opens, *(arrival[s] for s in group)]), late - minutes + 1):
                name = f"go_{c}_{g}_{t}"
                arc(name, c, (t, begins), (t + minutes, ends))
                cost.append(f"{sum(t + minutes - arrival[s] for s in group)} {name}")
                binaries.append(name)
                for s in group:
                    served[s].append(name)
    yield from ["Minimize", " cost: " + "\n + ".join(cost), "Subject To"]
    for (c, t, side), arcs in nodes.items():
        first = (t, side) == (int(chambers[c][11]), chambers[c][10])
        if t < late:
            yield f" at_{c}_{t}_{side}: " + "\n ".join(arcs) + f" = {-1 if first else 0}"
    for s, names in served.items():
        yield f" ship_{s}: " + "\n + ".join(names) + " = 1"
    yield from ["Binaries", *(" " + name for name in binaries), "End"]


def solve(solver, text, seconds):
    """The status, cost and seconds of a stock solver."""
    with tempfile.TemporaryDirectory() as folder:
        file, out = os.path.join(folder, "day.lp"), os.path.join(folder, "day.sol")
        with open(file, "w") as it:
            it.write(text)
        words = {"cbc": ["cbc", file, "sec", str(seconds), "solve", "solution", out, "quit"],
                 "glpsol": ["glpsol", "--lp", file, "--tmlim", str(seconds), "--output", out]}[solver]
        began = time.time()
        try:
            subprocess.run(words, capture_output=True, text=True)
        except FileNotFoundError:
            sys.exit(f"mip.py: {solver} isn't on this machine")
        took, said = time.time() - began, open(out).read() if os.path.exists(out) else "no solution"
    cost = re.search(r"objective value\s+([\d.]+)|Objective:\s+\S+ = ([\d.]+)", said)
    if cost and re.search(r"^Optimal|INTEGER OPTIMAL", said, re.M):
        return f"optimal cost {float(cost[1] or cost[2]):.0f}, {took:.1f} s"
    return f"not solved, {took:.1f} s"


def main():
    asked = argparse.ArgumentParser(description=__doc__.split(":")[0])
    asked.add_argument("program")
    asked.add_argument("--solve", choices=["cbc", "glpsol"])
    asked.add_argument("--seconds", type=int, default=600)
    words = asked.parse_args()
    if not os.access(words.program, os.X_OK):
        asked.error(f"there is no program {words.program}")
    chambers, ships = read(sys.stdin.read())
    if not (chambers and ships):
        asked.error("standard input has no instance")
    text = "\n".join(model(words.program, chambers, ships)) + "\n"
    print(solve(words.solve, text, words.seconds) if words.solve else text, end="\n" if words.solve else "")


main()
