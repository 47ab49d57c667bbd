"""Small random locks and days, written after the definitions of docs/rules.md alone: what is carried out of a plan by a minute, and
the least cost of all that can be done from there."""

import argparse
import concurrent.futures
import functools
import itertools
import pathlib

# How many faults are shown, and how many cases are tried at once.
SHOWN, AT_ONCE = 5, 2

SIDE_AFTER = {"up": "high", "down": "low"}
SIDE_BEFORE = {"up": "low", "down": "high"}


class Chamber:
    def __init__(self, name, most, pass_, turn, side, opens):
        self.name, self.most, self.pass_, self.turn, self.side, self.opens = name, most, pass_, turn, side, opens
        self.closures = []

    def line(self, side, opens):
        # long enough for `most` ships one behind the other, so every group of so many ships fits
        length = 20 + 400 * self.most + 10 * (self.most - 1)
        return f"chamber {self.name} {length} 100 10 10 5 {self.most} {self.pass_} {self.turn} {side} {opens}"

    def is_free(self, begin, end):
        return begin >= end or all(end <= low or high <= begin for low, high in self.closures)

    def free_from(self, minute, much):
        """The least minute from this one on at which so many minutes meet no closure."""
        while not self.is_free(minute, minute + much):
            minute = min(high for low, high in self.closures if minute < high and low < minute + much)
        return minute


class Ship:
    def __init__(self, name, way, arrival, handling, cargo):
        self.name, self.way, self.arrival, self.handling, self.cargo = name, way, arrival, handling, cargo


def clash(ships):
    return len({ship.cargo for ship in ships if ship.cargo}) > 1


class Lock:
    def __init__(self, chambers, ships):
        self.chambers, self.ships = chambers, ships

    def text(self):
        lines = ["glock 2"]
        lines += [chamber.line(chamber.side, chamber.opens) for chamber in self.chambers]
        lines += [f"close {chamber.name} {low} {high}" for chamber in self.chambers for low, high in chamber.closures]
        for ship in self.ships:
            lines.append(f"ship {ship.name} {ship.way} 400 50 {ship.arrival} {ship.handling} {ship.cargo}")
        return "\n".join(lines) + "\nend\n"

    def ship(self, name):
        return next(ship for ship in self.ships if ship.name == name)


class Lockage:
    def __init__(self, chamber, way, start, berths):
        self.chamber, self.way, self.start, self.berths = chamber, way, start, berths

    def names(self):
        return [berth.split()[1] for berth in self.berths]

    def text(self):
        return "\n".join([f"lockage {self.chamber} {self.way} {self.start}"] + self.berths) + "\n"


def plan_text(lockages):
    return "plan\n" + "".join(lockage.text() for lockage in lockages) + "end\n"


def read_report(text):
    """The first line and the lockages of a report, in which hosts stand before their guests."""
    lines, lockages, letters = text.splitlines(), [], {}
    for line in lines:
        words = line.split()
        if words[:1] == ["lockage"]:
            lockages.append(Lockage(words[3], words[4], int(words[6]), []))
            letters = {}
        elif lockages and len(words) > 6 and words[2] == "x":
            letters[words[0]] = words[1]
            host = letters[words[8]] if words[7] == "at" else "*"
            lockages[-1].berths.append(f"berth {words[1]} {words[3]} {words[5]} {words[6]} {host}")
    return lines[0], lockages


def read_plan(text):
    lockages = []
    for line in text.splitlines():
        words = line.split("#")[0].split()
        if words[:1] == ["lockage"]:
            lockages.append(Lockage(words[1], words[2], int(words[3]), []))
        elif words[:1] == ["berth"]:
            lockages[-1].berths.append(" ".join(words))
    return lockages


class State:
    """What is so at a minute: each chamber's side and the minute from which it is free, and the ends of the ships served."""

    def __init__(self, lock):
        self.side = {chamber.name: chamber.side for chamber in lock.chambers}
        self.free = {chamber.name: chamber.opens for chamber in lock.chambers}
        self.ends, self.beats = {}, []


def carry_out(state, lock, lockages, since, until):
    """Goes on from a state: of each chamber's lockages from `since` on what begins before `until`, each empty turn as soon
    as it may. Answers the turns that are made or are to be made, and changes the state; fails where a lockage can't go."""
    turns = []
    for chamber in lock.chambers:
        name, side, free = chamber.name, state.side[chamber.name], max(state.free[chamber.name], since)
        # where something is begun, all that follows begins later
        is_over = False
        for lockage in sorted((l for l in lockages if l.chamber == name and l.start >= since), key=lambda l: l.start):
            if side != SIDE_BEFORE[lockage.way]:
                turn = chamber.free_from(free, chamber.turn)
                turns.append((name, turn))
                side, free = SIDE_BEFORE[lockage.way], turn + chamber.turn
                is_over = is_over or turn >= until
                if not is_over:
                    state.side[name], state.free[name] = side, free
                    state.beats.append((turn, name, "turn"))
            ships = [lock.ship(ship) for ship in lockage.names()]
            end = lockage.start + chamber.pass_ + sum(ship.handling for ship in ships)
            assert lockage.start >= free, f"{name} isn't ready at {lockage.start} but at {free}"
            assert chamber.is_free(lockage.start, end), f"{name} is closed at {lockage.start}"
            assert all(ship.arrival <= lockage.start and ship.way == lockage.way for ship in ships)
            assert 0 < len(ships) <= chamber.most and not clash(ships)
            side, free = SIDE_AFTER[lockage.way], end
            is_over = is_over or lockage.start >= until
            if not is_over:
                state.side[name], state.free[name] = side, free
                state.beats.append((lockage.start, name, f"go {lockage.way}"))
                state.ends.update((ship.name, end) for ship in ships)
    return turns


def least_cost(lock, state, minute):
    """The least cost of all that can be done from this state on at this minute: every line of groups of each chamber."""
    left = frozenset(ship.name for ship in lock.ships if ship.name not in state.ends)
    done = sum(state.ends[ship.name] - ship.arrival for ship in lock.ships if ship.name in state.ends)
    ship_of = {ship.name: ship for ship in lock.ships}

    @functools.lru_cache(None)
    def best(number, side, free, left):
        if not left:
            return 0
        if number == len(lock.chambers):
            return None
        chamber, found = lock.chambers[number], []
        if number + 1 < len(lock.chambers):
            other = lock.chambers[number + 1]
            found.append(best(number + 1, state.side[other.name], max(state.free[other.name], minute), left))
        for much in range(1, min(chamber.most, len(left)) + 1):
            for group in itertools.combinations(sorted(left), much):
                ships = [ship_of[name] for name in group]
                if len({ship.way for ship in ships}) > 1 or clash(ships):
                    continue
                ready = free
                if side != SIDE_BEFORE[ships[0].way]:
                    ready = chamber.free_from(ready, chamber.turn) + chamber.turn
                lasts = chamber.pass_ + sum(ship.handling for ship in ships)
                end = chamber.free_from(max([ready] + [ship.arrival for ship in ships]), lasts) + lasts
                rest = best(number, SIDE_AFTER[ships[0].way], end, left - set(group))
                if rest is not None:
                    found.append(rest + sum(end - ship.arrival for ship in ships))
        return min((cost for cost in found if cost is not None), default=None)

    first = lock.chambers[0]
    return done + best(0, state.side[first.name], max(state.free[first.name], minute), left)


def random_lock(random):
    chambers = []
    for name in ["main", "side"][: random.choice([1, 1, 2])]:
        turn = random.choice([0, 5, 10, 15, 20])
        pass_ = turn + random.choice([0, 5, 10, 15]) or 10
        chamber = Chamber(name, random.randint(1, 3), pass_, turn, random.choice(["low", "high"]), random.choice([0, 0, 0, 5, 30]))
        minute = 0
        for _ in range(random.choice([0, 0, 1, 2])):
            low = minute + random.randint(1, 60)
            minute = low + random.randint(1, 40)
            chamber.closures.append((low, minute))
        chambers.append(chamber)
    count = random.randint(1, 5)
    names = ["alva", "brio", "cora", "dina", "eddy"][:count]
    span = random.choice([30, 100, 200])
    ships = [random_ship(random, name, 0, span) for name in names]
    return Lock(chambers, ships)


def random_ship(random, name, low, high):
    return Ship(name, random.choice(["up", "down"]), random.randint(low, high), random.choice([0, 2, 5]), random.choice([0, 0, 0, 0, 1, 2]))


def change(random, lock, state, minute):
    """One thing that nobody knew before this minute: a late ship, a withdrawn one, a new one, or a closure from now on. The
    name of a ship that is withdrawn is answered."""
    waiting = [ship for ship in lock.ships if ship.name not in state.ends]
    kind = random.choice(["late", "late", "withdrawn", "new", "closed", "nothing"])
    if kind == "late" and waiting:
        ship = random.choice(waiting)
        ship.arrival = max(ship.arrival, minute) + random.randint(0, 60)
    elif kind == "withdrawn" and waiting and len(lock.ships) > 1:
        ship = random.choice(waiting)
        lock.ships.remove(ship)
        return ship.name
    elif kind == "new" and len(lock.ships) < 5:
        name = random.choice([name for name in ("fram", "gull", "hero", "iris", "juno") if name not in [ship.name for ship in lock.ships]])
        lock.ships.append(random_ship(random, name, minute, minute + 40))
    elif kind == "closed":
        chamber = random.choice(lock.chambers)
        # what is under way in the chamber comes to its end
        low = max(minute, state.free[chamber.name]) + random.choice([0, 0, 10])
        high = low + random.randint(1, 60)
        if chamber.is_free(low, high):
            chamber.closures.append((low, high))
    return None


def try_all(count, one):
    """Reads a program, a count and a seed from the words, and tries so many random cases, several at once; the status."""
    words = argparse.ArgumentParser()
    words.add_argument("program")
    words.add_argument("--count", type=int, default=count)
    words.add_argument("--seed", type=int, default=1)
    given = words.parse_args()
    program, passed, wrong = str(pathlib.Path(given.program).resolve()), 0, 0
    with concurrent.futures.ThreadPoolExecutor(AT_ONCE) as pool:
        for fault in pool.map(lambda number: one(program, f"{given.seed} {number}"), range(given.count)):
            if fault is None:
                passed += 1
            else:
                wrong += 1
                if wrong <= SHOWN:
                    print(fault, flush=True)
    print(f"{passed} passed, {wrong} failed")
    return 1 if wrong or not passed else 0
