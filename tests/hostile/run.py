#!/usr/bin/env python3
"""run.py PROGRAM [MINUTES]: uses a glock program as badly as it can be used, the same way at each run.

Every command is run with little memory, with reads and writes that fail or come short, with words of every kind, and
over damaged texts. A run is right where it ends in time, with an answer of the table of texts by status that the
trouble allows: the answer of an untroubled run, or the named refusal. Without MINUTES it tries a few cases of each
kind, in about a minute; with them it goes on with new ones for so long. What differs is printed, and its input is
kept in a folder. It ends with `N passed, M failed`; the status is 0 where none failed.
"""

import concurrent.futures
import itertools
import pathlib
import sys
import tempfile
import time

sys.dont_write_bytecode = True
import damaged_texts
import hard_prices
import little_memory
import odd_streams
import odd_words
import refused_calls
from runs import NO_STACK, Runner, commands

SHOWN, AT_ONCE = 10, 4


def cases_of(runner, runs, number):
    """The cases of a round, each a function that answers what is wrong, or nothing."""
    for kind in (little_memory, odd_streams, odd_words, damaged_texts, refused_calls, hard_prices):
        yield from kind.cases(runner, runs, number)


def main(program, minutes=0):
    runner = Runner(str(pathlib.Path(program).resolve()))
    runs = commands(runner)
    end = time.monotonic() + 60 * minutes
    rounds = itertools.takewhile(lambda number: number == 0 or time.monotonic() < end, itertools.count())
    passed, stackless, wrong = 0, 0, []
    with concurrent.futures.ThreadPoolExecutor(AT_ONCE) as pool:
        for number in rounds:
            for case in pool.map(lambda case: case(), cases_of(runner, runs, number)):
                if case is NO_STACK:
                    stackless += 1
                elif case:
                    wrong.append(case)
                    if len(wrong) <= SHOWN:
                        print(keep(case), flush=True)
                else:
                    passed += 1
    if stackless:
        print(f"{stackless} ended by a signal, since the stack had no room to grow")
    print(f"{passed} passed, {len(wrong)} failed")
    return 1 if wrong or not passed else 0


def keep(wrong):
    """What to print of a wrong run, whose input is kept."""
    folder = pathlib.Path(tempfile.mkdtemp(prefix="hostile-"))
    (folder / "input").write_bytes(wrong.data)
    return f"{wrong.what}\n  words  {wrong.words}\n  input  {folder}/input\n  answer {wrong.answer}"


if __name__ == "__main__":
    if not 2 <= len(sys.argv) <= 3:
        sys.exit(__doc__.split(":")[0].replace("run.py", "usage: run.py", 1))
    sys.exit(main(sys.argv[1], *map(float, sys.argv[2:])))
