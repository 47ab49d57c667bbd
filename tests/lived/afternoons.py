#!/usr/bin/env python3
"""afternoons.py PROGRAM [--count N] [--seed S]: random afternoons with three replans in a row, each by ./glock replan --now
of the plan text that the one before wrote, with --drop for a ship that is withdrawn.

What has truly been done is kept beside: the plan that holds is carried out up to the next minute, each empty turn as soon
as it may from the minute at which it was planned. Each answer must cost the least that can be had from there, and tell the
empty turns that are to be made. It ends with `N passed, M failed`; the status is 0 where none failed.
"""

import os
import pathlib
import random as randoms
import subprocess
import sys
import tempfile

sys.dont_write_bytecode = True
from brute import state_of
from days import State, carry_out, change, least_cost, plan_text, random_lock, read_plan, read_report, try_all

GLOCK = pathlib.Path(__file__).resolve().parents[2] / "glock"
REPLANS = 3


def one_afternoon(program, seed):
    """What is wrong with this afternoon, or nothing."""
    random = randoms.Random(seed)
    lock = random_lock(random)
    done = subprocess.run([program, "solve", "--workers", "1"], input=lock.text().encode(), capture_output=True)
    _, lockages = read_report(done.stdout.decode())
    state, minute, told = State(lock), random.choice(lockages).start, ""
    carry_out(state, lock, lockages, 0, minute)
    with tempfile.TemporaryDirectory() as folder:
        room = pathlib.Path(folder)
        (room / "0.plan").write_text(plan_text(lockages))
        for number in range(1, REPLANS + 1):
            # mostly a few minutes later, while what was planned anew is under way
            before, minute = minute, minute + random.choice([0, random.randint(1, 15), random.randint(1, 15), random.randint(1, 60)])
            carry_out(state, lock, lockages, before, minute)
            withdrawn = change(random, lock, state, minute)
            (room / "now.lock").write_text(lock.text())
            words = [str(GLOCK), "replan", "now.lock", f"{number - 1}.plan", "--now", str(minute), "--workers", "1"]
            words += ["--plan-text", "-o", f"{number}.plan"] + (["--drop", withdrawn] if withdrawn else [])
            done = subprocess.run(words, cwd=room, capture_output=True, env={**os.environ, "GLOCK_PROGRAM": program})
            cost = least_cost(lock, state, minute)
            told += f"{' '.join(words[1:])}\n{lock.text()}{(room / f'{number - 1}.plan').read_text()}"
            wanted = f"# optimal cost {cost}, replanned at minute {minute}"
            if done.returncode != 0 or (room / f"{number}.plan").read_text().splitlines()[0] != wanted:
                made = (room / f"{number}.plan").read_text() if done.returncode == 0 else done.stdout.decode()
                return f"replan {number} should say {wanted}, state {state.side} {state.free}:\n{told}{made}{done.stderr.decode()}"
            lockages = read_plan((room / f"{number}.plan").read_text())
            try:
                turns = carry_out(state_of(state), lock, lockages, minute, 10**9)
            except AssertionError as why:
                return f"plan {number} can't be carried out, {why}:\n{told}"
            said = [line.split(",")[0].split(": empty turn at ") for line in done.stderr.decode().splitlines() if ": empty turn at " in line]
            # When a turn of no minutes is made makes no difference.
            takes_time = {chamber.name for chamber in lock.chambers if chamber.turn}
            if sorted((n, int(turn)) for n, turn in said if n in takes_time) != sorted(turn for turn in turns if turn[0] in takes_time):
                return f"the turns are {turns}, and told are {said}:\n{told}{done.stderr.decode()}"
    return None


if __name__ == "__main__":
    sys.exit(try_all(40, one_afternoon))
