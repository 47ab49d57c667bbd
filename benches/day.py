#!/usr/bin/env python3
"""day.py KIND NUMBER SHIPS CHAMBERS [P]: prints the instance of a kind that a number makes.

lot      as `glock lot` prints it
crowd    the same ships, all of them within P minutes (20)
day      three crowds, each within P minutes (40), and between them lulls in which the chambers serve the crowd
steady   ships that come evenly, at P hundredths (70) of what so many chambers serve of a long queue

More than 24 ships are printed in format 3."""

import sys

CHAMBERS = ["chamber c1 2000 240 10 20 5 6 30 15 low 0", "chamber c2 1360 160 10 20 5 4 20 10 high 0",
            "chamber c3 1900 180 10 20 5 4 25 12 low 0", "chamber c4 1200 125 10 20 5 2 20 10 high 0"]
# by the number of chambers: ships a minute that they serve of a crowd of forty, and minutes from crowd to crowd of a day
SERVED = {1: 0.080, 2: 0.145, 3: 0.208, 4: 0.248}
APART = {1: 480, 2: 300, 3: 240, 4: 240}
WITHIN = {"crowd": 20, "day": 40, "steady": 70}


class Draws:
    """The draws of glock's generator (formats.md, Generator)."""

    def __init__(self, number):
        self.state = number

    def below(self, n):
        self.state = (self.state * 1103515245 + 12345) % 2**31
        return self.state // 65536 % n


def day(kind, number, ships, chambers, p=None):
    """The text of an instance."""
    p = p or WITHIN.get(kind)
    draws, minute, tenths = Draws(number), 0, 0
    lines = ["glock 3" if ships > 24 else "glock 1", *CHAMBERS[:chambers]]
    for s in range(ships):
        way = ("up", "down")[draws.below(2)]
        size = f"{380 + 10 * draws.below(73)} {50 + draws.below(65)}"
        if kind == "steady":
            tenths += draws.below(int(2 * (10 / (p / 100 * SERVED[chambers]))) + 1)
            arrival = tenths // 10
        else:
            minute += draws.below(40)
            arrival = minute if kind == "lot" else minute % (p + 1)
        if kind == "day":
            arrival += s // (ships // 3) * APART[chambers]
        lines.append(f"ship s{s + 1} {way} {size} {arrival} {3 + draws.below(6)}")
    return "\n".join([*lines, "end", ""])


def is_day(kind, *numbers):
    """Whether these words name a day that can be made."""
    if kind not in ("lot", *WITHIN) or len(numbers) not in (3, 4) or not all(word.isdecimal() for word in numbers):
        return False
    _, ships, chambers, *p = map(int, numbers)
    return (3 if kind == "day" else 1) <= ships <= 96 and 1 <= chambers <= 4 and p != [0]


if __name__ == "__main__":
    if len(sys.argv) < 2 or not is_day(*sys.argv[1:]):
        sys.exit(__doc__.replace("day.py", "usage: day.py", 1) + "\nSHIPS are 1 to 96 (of a day from 3 on), CHAMBERS 1 to 4.")
    try:
        sys.stdout.write(day(sys.argv[1], *map(int, sys.argv[2:])))
    except BrokenPipeError:
        sys.stdout = None
