#!/usr/bin/env python3
"""brute.py PROGRAM [--count N] [--seed S]: random days of 1 to 5 ships and 1 or 2 chambers, as they are lived.

A plan of `solve` is carried out up to a random minute, as `play` tells it. Then something changes: a ship is late or
withdrawn, a new one reports, or a chamber is closed from now on. What `replan --now` answers is held against every way to
go on: its cost is the least, the rest that its dossier tells has the chambers as they stand, and its plan can be carried
out from there. The same days at each run with one seed. It ends with `N passed, M failed`; the status is 0 where none failed.
"""

import random as randoms
import subprocess
import sys

sys.dont_write_bytecode = True
from days import Lockage, State, carry_out, change, least_cost, plan_text, random_lock, read_report, try_all



def run(program, words, text):
    done = subprocess.run([program] + words, input=text.encode(), capture_output=True)
    return done.returncode, done.stdout.decode()


def beats_of_day(text, minute):
    """The turns and goings before a minute of a day that `play` printed."""
    beats = []
    for line in text.splitlines()[:-1]:
        words = line.split()
        if int(words[0]) < minute and words[2] in ("turn", "go"):
            beats.append((int(words[0]), words[1], " ".join(words[2:])))
    return sorted(beats)


def moorings_of_day(text):
    """The ships of each chamber as they moor on a day that `play` printed."""
    moored = {}
    for line in text.splitlines()[:-1]:
        words = line.split()
        if words[2] == "moor":
            moored.setdefault(words[1], []).append(words[3])
    return moored


def moorings_of_report(lockages):
    moored = {}
    for lockage in sorted(lockages, key=lambda lockage: lockage.start):
        moored.setdefault(lockage.chamber, []).extend(lockage.names())
    return moored


def one_day(program, seed):
    """What is wrong with this day, or nothing."""
    random = randoms.Random(seed)
    lock = random_lock(random)
    _, report = run(program, ["solve", "--workers", "1"], lock.text())
    first, lockages = read_report(report)
    if not first.startswith("optimal"):
        return f"solve says {first}"
    plan = plan_text(lockages)
    last = max(lockage.start for lockage in lockages)
    minute = random.choice([random.randint(0, last + 40), random.choice(lockages).start + random.randint(-8, 8)])
    minute = max(0, minute)

    state = State(lock)
    carry_out(state, lock, lockages, 0, minute)
    _, day = run(program, ["play"], lock.text() + plan)
    if sorted(state.beats) != beats_of_day(day, minute):
        return f"by {minute} has begun {sorted(state.beats)}, and play tells {beats_of_day(day, minute)}"
    if moorings_of_day(day) != moorings_of_report(lockages):
        return f"the ships moor as {moorings_of_day(day)}, and are reported as {moorings_of_report(lockages)}"

    withdrawn = change(random, lock, state, minute)
    # Who is withdrawn leaves his lockage, which may have turned its chamber.
    given = [Lockage(l.chamber, l.way, l.start, [b for b in l.berths if b.split()[1] != withdrawn]) for l in lockages]
    for lockage in given:
        lockage.berths = [" ".join(b.split()[:5] + ["*"]) if b.split()[5] == withdrawn else b for b in lockage.berths]
    text = lock.text() + plan_text(given)
    status, report = run(program, ["replan", "--now", str(minute), "--workers", "1"], text)
    told = f"--now {minute}\n{text}"
    cost = least_cost(lock, state, minute)
    if status != 0 or report.splitlines()[0] != f"optimal cost {cost}":
        return f"{report.splitlines()[:1]} and the least cost is {cost}: {told}"

    # the new plan is legal, keeps what has begun, and can be carried out from what is so
    _, new = read_report(report)
    if run(program, ["judge"], lock.text() + plan_text(new))[1].splitlines()[0] != f"legal cost {cost}":
        return f"the new plan isn't legal: {told}"
    begun = sorted(lockage.text() for lockage in lockages if lockage.start < minute)
    if begun != sorted(lockage.text() for lockage in new if lockage.start < minute):
        return f"the new plan changes what has begun: {told}"
    try:
        carry_out(state_of(state), lock, new, minute, 10**9)
    except AssertionError as why:
        return f"the new plan can't be carried out, {why}: {told}"
    return wrong_rest(program, lock, state, minute, text)


def state_of(state):
    copy = object.__new__(State)
    copy.side, copy.free, copy.ends, copy.beats = dict(state.side), dict(state.free), dict(state.ends), list(state.beats)
    return copy


def wrong_rest(program, lock, state, minute, text):
    """What is wrong with the rest that the dossier tells."""
    _, dossier = run(program, ["replan", "--now", str(minute), "--workers", "1", "--dossier"], text)
    left = [ship for ship in lock.ships if ship.name not in state.ends]
    if not left:
        return None
    wanted = [chamber.line(state.side[chamber.name], max(state.free[chamber.name], minute)) for chamber in lock.chambers]
    wanted += sorted(f"ship {s.name} {s.way} 400 50 {max(s.arrival, minute)} {s.handling}" + (f" {s.cargo}" if s.cargo else "") for s in left)
    lines = dossier.splitlines()
    found = [line for line in lines if line.startswith("chamber ")] + sorted(line for line in lines if line.startswith("ship "))
    return None if found == wanted else f"the rest is {found} and should be {wanted}: --now {minute}\n{text}"


if __name__ == "__main__":
    sys.exit(try_all(300, one_day))
