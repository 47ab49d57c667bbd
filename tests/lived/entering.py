#!/usr/bin/env python3
"""entering.py PROGRAM [--count N] [--seed S]: random lockages of 2 to 7 ships, and the order in which `play` has them come in.

Ships lie anywhere where they may, at quays and at hosts. The order that `play` prints is held against every order: each
host comes before its guests; and where some order has each ship come in past those before it, that of `play` does. It is
the one that docs/rules.md tells, too. It ends with `N passed, M failed`; the status is 0 where none failed.
"""

import itertools
import random as randoms
import sys

sys.dont_write_bytecode = True
from brute import run
from days import try_all

SIZES = [(380, 50), (240, 48), (670, 82), (400, 40), (1000, 95), (850, 82), (300, 30), (500, 60)]


class Berth:
    def __init__(self, name, length, width, x, y, rank, host):
        self.name, self.length, self.width, self.x, self.y, self.rank, self.host = name, length, width, x, y, rank, host

    def text(self):
        return f"berth {self.name} {self.x} {self.y} {self.rank} {self.host.name if self.host else '*'}\n"


class Deck:
    def __init__(self, random):
        self.length, self.width = random.choice([(1200, 120), (2000, 240), (1400, 160), (1000, 240)])
        self.end, self.gap, self.side = random.choice([(10, 20, 5), (0, 0, 0), (5, 10, 2), (0, 0, 30)])
        self.berths = []

    def apart(self, a, b):
        along = a.x + a.length + self.gap <= b.x or b.x + b.length + self.gap <= a.x
        return along or a.y + a.width + self.side <= b.y or b.y + b.width + self.side <= a.y

    def add(self, random, name):
        """Puts a ship where it may lie, if this try finds a place."""
        length, width = random.choice(SIZES)
        rank = random.choice(["left", "right"])
        host = random.choice([None] + [b for b in self.berths if b.rank == rank and b.length >= length])
        low, high = (host.x, host.x + host.length) if host else (self.end, self.length - self.end)
        edge = 0 if rank == "left" else self.width
        if host:
            edge = host.y + host.width + self.side if rank == "left" else host.y - self.side
        y = edge if rank == "left" else edge - width
        if y < 0 or y + width > self.width or low + length > high:
            return
        x = random.choice([low, high - length, random.randint(low, high - length)])
        berth = Berth(name, length, width, x, y, rank, host)
        if all(self.apart(berth, other) for other in self.berths):
            self.berths.append(berth)


def blocks(way, a, b):
    """Whether b can't pass a, once that is moored: going up from x = 0, going down from the other end."""
    lies_before = a.x + a.length <= b.x if way == "up" else b.x + b.length <= a.x
    return lies_before and a.y < b.y + b.width and b.y < a.y + a.width


def hosts_first(order):
    return all(b.host is None or b.host in order[:i] for i, b in enumerate(order))


def has_room(way, order):
    return not any(blocks(way, a, b) for a, b in itertools.combinations(order, 2))


def told_order(way, berths):
    """The order of docs/rules.md: of those left, the deepest that is hosted and blocks none of them, else that is hosted."""
    left, order = sorted(berths, key=lambda b: -b.x if way == "up" else b.x), []
    while left:
        hosted = [b for b in left if b.host not in left]
        order.append(next((b for b in hosted if not any(blocks(way, b, other) for other in left)), hosted[0]))
        left.remove(order[-1])
    return order


def one_lockage(program, seed):
    """What is wrong with the order of this lockage, or nothing."""
    random = randoms.Random(seed)
    deck, way = Deck(random), random.choice(["up", "down"])
    while len(deck.berths) < 2:
        deck = Deck(random)
        for _ in range(random.randint(2, 60)):
            if len(deck.berths) < 7:
                deck.add(random, f"s{len(deck.berths)}")
    # hosts stand anywhere among their guests by number
    random.shuffle(deck.berths)
    side = "low" if way == "up" else "high"
    text = f"glock 2\nchamber c {deck.length} {deck.width} {deck.end} {deck.gap} {deck.side} 8 20 10 {side} 0\n"
    text += "".join(f"ship {b.name} {way} {b.length} {b.width} 0 5\n" for b in deck.berths)
    text += f"end\nplan\nlockage c {way} 0\n{''.join(b.text() for b in deck.berths)}end\n"

    status, day = run(program, ["play"], text)
    named = {b.name: b for b in deck.berths}
    order = [named[line.split()[3]] for line in day.splitlines() if " moor " in line]
    told = f"{' '.join(b.name for b in order)}:\n{text}"
    if status != 0 or sorted(b.name for b in order) != sorted(named):
        return f"play answers {day}: {told}"
    if not hosts_first(order):
        return f"a guest comes before its host: {told}"
    if not has_room(way, order):
        possible = next((o for o in itertools.permutations(deck.berths) if hosts_first(o) and has_room(way, o)), None)
        if possible:
            return f"{' '.join(b.name for b in possible)} has room, and not {told}"
    if order != told_order(way, deck.berths):
        return f"the rules tell {' '.join(b.name for b in told_order(way, deck.berths))}, and not {told}"
    return None


if __name__ == "__main__":
    sys.exit(try_all(1000, one_lockage))
