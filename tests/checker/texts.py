"""Reads whole instance texts, plan texts and reports, and judges plans: a second reading of docs/formats.md.

It shares no code with glock, and nothing of it is needed to judge dossiers. `solved` and `judged` say what `glock solve`
and `glock judge` answer, as far as that follows from the text alone. Comments name headings of the pages in docs/."""

import re
from collections import namedtuple

from check_dossier import end_of, plan_cost
from dossier_text import FEW_SHIPS, KINDS, Lockage, Refused, Spot, choice_of, first_line, limits, read_instance, require, words_of
from refutations import apart, berthed, clash, deck_of, fits_alone, inside_across, inside_along
from times import first_free, ready

PLAN_KINDS = "NotUtf8 NoMark Word Count Number Range Unknown Twice Loose Host NoEnd".split()
SOLVE_BYTES, JUDGE_BYTES = 65_536, 131_072
PLACE, START = limits(0, 100_000), limits(0, 1_000_000_000)
WAYS, SIDES, RANKS = (b"up", b"down"), (b"low", b"high"), (b"left", b"right")


# Instance texts (formats.md, Instance text) --------------------------------------------------------------------------


def read_whole_instance(text):
    """The instance that the whole text means: behind its line `end` there are no words."""
    instance = read_instance(text)
    _, at = first_line(text, 0, lambda words: words[:1] == [b"end"])
    for number, line in enumerate(text[at:].split(b"\n"), text.count(b"\n", 0, at) + 1):
        if words_of(line):
            raise Refused("Word", number)
    return instance


def canonical(instance):
    """The canonical text of an instance."""
    is_second = any(chamber.closures for chamber in instance.chambers) or any(ship.cargo for ship in instance.ships)
    lines = [f"glock {3 if len(instance.ships) > FEW_SHIPS else 2 if is_second else 1}"]
    for c in instance.chambers:
        numbers = f"{c.length} {c.width} {c.end} {c.gap} {c.side} {c.most} {c.passage} {c.turn}"
        lines.append(f"chamber {c.name.decode()} {numbers} {SIDES[c.stands].decode()} {c.opens}")
    lines += [f"close {c.name.decode()} {start} {stop}" for c in instance.chambers for start, stop in c.closures]
    lines += [f"ship {s.name.decode()} {WAYS[s.way].decode()} {s.length} {s.width} {s.arrival} {s.handling}"
              + (f" {s.cargo}" if s.cargo else "") for s in instance.ships]
    return "\n".join([*lines, "end", ""]).encode()


# Plan texts (formats.md, Plan text) ----------------------------------------------------------------------------------


def named(word, things):
    require(word in [thing.name for thing in things], "Unknown")
    return [thing.name for thing in things].index(word)


class PlanText:
    """Takes a plan text line by line. A lockage that is under way has its berths: number of the line, spot and host by ship."""

    def __init__(self, instance):
        self.instance, self.begun, self.ended, self.lockages, self.berths = instance, False, False, [], None

    def close_lockage(self):
        """Judges the hosts of the lockage under way, and makes it."""
        if self.berths is None:
            return
        ships, spots = sorted(self.berths), []
        for line, _, host in sorted(self.berths.values()):
            if host is not None and host not in self.berths:
                raise Refused("Host", line)
        for ship in ships:
            _, (x, y, rank), host = self.berths[ship]
            spots.append(Spot(x, y, rank, 0 if host is None else 1 + ships.index(host)))
        chamber, way, start = self.head
        self.lockages.append(Lockage(chamber, tuple(ships), spots, start, way))
        self.berths = None

    def take(self, number, words):
        if self.begun and not self.ended and words[0] == b"berth":
            require(self.berths is not None, "Loose")
            require(len(words) == 6, "Count")
            require(len(self.berths) < 8, "Range")
            ship = named(words[1], self.instance.ships)
            require(ship not in self.berths, "Twice")
            spot = PLACE(words[2]), PLACE(words[3]), choice_of(RANKS, words[4])
            self.berths[ship] = number, spot, None if words[5] == b"*" else named(words[5], self.instance.ships)
            return
        self.close_lockage()
        if not self.begun:
            require(words == [b"plan"], "NoMark")
            self.begun = True
        elif self.ended or words[0] not in (b"lockage", b"end"):
            raise Refused("Word")
        elif words[0] == b"lockage":
            require(len(words) == 4, "Count")
            require(len(self.lockages) < max(FEW_SHIPS, len(self.instance.ships)), "Range")
            self.head = named(words[1], self.instance.chambers), choice_of(WAYS, words[2]), START(words[3])
            self.berths = {}
        else:
            require(len(words) == 1, "Count")
            self.ended = True


def read_plan(text, instance):
    """The plan that a text means, or its first fault with its line."""
    plan, number = PlanText(instance), 1
    try:
        text.decode("utf-8")
        for number, line in enumerate(text.split(b"\n"), 1):
            if words_of(line):
                plan.take(number, words_of(line))
        plan.close_lockage()
        if not plan.ended:
            raise Refused("NoEnd" if plan.begun else "NoMark")
        return plan.lockages
    except UnicodeDecodeError as bad:
        raise Refused("NotUtf8", text.count(b"\n", 0, bad.start) + 1)
    except Refused as fault:
        raise Refused(*fault.args, number) if len(fault.args) == 1 else fault


# Breaks (formats.md, Breaks of placements, lines and plans; Texts of judge and replan) -------------------------------


def broken_placement(deck, spots):
    """The first break of a placement, and its places in the deck."""
    ships = range(len(spots))
    for i in ships:
        if not (inside_along(deck, spots[i].x, deck.sizes[i]) and inside_across(deck, spots[i].y, deck.sizes[i])):
            return "Outside", i
    for i in ships:
        for j in ships[i + 1:]:
            if not apart(deck, spots[i], deck.sizes[i], spots[j], deck.sizes[j]):
                return "Touching", i, j
    for i in ships:
        if not berthed(deck, spots, i):
            return ("BadHost", i, spots[i].moor - 1) if spots[i].moor else ("Adrift", i)
    return None


def broken_line(instance, c, plan):
    """The first break of a chamber's line: its lockage and its kind."""
    chamber = instance.chambers[c]
    minute, side = chamber.opens, chamber.stands
    for p in sorted((p for p, lockage in enumerate(plan) if lockage.chamber == c), key=lambda p: plan[p].start):
        start, end = plan[p].start, end_of(instance, plan[p])
        if any(instance.ships[s].arrival > start for s in plan[p].ships):
            return p, "Early"
        if start < ready(chamber, side, plan[p].way, minute):
            return p, "Soon"
        if first_free(chamber, start, end - start) != start:
            return p, "Shut"
        minute, side = end, 1 - plan[p].way
    return None


def illegal(instance, p, lockage, kind, *places):
    return " ".join([f"illegal lockage {p + 1} {kind}", *(instance.ships[lockage.ships[i]].name.decode() for i in places)])


def first_break(instance, plan):
    """The text of the first break of a plan, or None where it is legal."""
    for p, lockage in enumerate(plan):
        ways = {instance.ships[s].way for s in lockage.ships}
        if ways != {lockage.way} or len(lockage.ships) > instance.chambers[lockage.chamber].most:
            return f"illegal lockage {p + 1} Shape"
    for kind, is_wrong in (("Double", lambda count: count > 1), ("Missing", lambda count: count == 0)):
        for s, ship in enumerate(instance.ships):
            if is_wrong(sum(s in lockage.ships for lockage in plan)):
                return f"illegal ship {ship.name.decode()} {kind}"
    decks = [deck_of(instance, lockage.chamber, lockage.ships) for lockage in plan]
    for p, lockage in enumerate(plan):
        broken = broken_placement(decks[p], lockage.spots)
        if broken:
            return illegal(instance, p, lockage, *broken)
    for p, lockage in enumerate(plan):
        for i, a in enumerate(decks[p].sizes):
            for j, b in enumerate(decks[p].sizes[i + 1:], i + 1):
                if clash(a, b):
                    return illegal(instance, p, lockage, "Clash", i, j)
    for c in range(len(instance.chambers)):
        broken = broken_line(instance, c, plan)
        if broken:
            return illegal(instance, broken[0], None, broken[1])
    return None


# What is answered (formats.md, Texts by status) ----------------------------------------------------------------------

Told = namedtuple("Told", "line status instance plan", defaults=(None, None))


def defect(kind, line):
    return f"line {line} fault {KINDS.index(kind) + 1} {kind}"


def solved(text):
    """What `solve` answers: the refusal with its status, or the instance."""
    if len(text) > SOLVE_BYTES:
        return Told(f"too long {SOLVE_BYTES}", 3)
    try:
        instance = read_whole_instance(text)
    except Refused as refused:
        return Told(defect(*refused.args), 3)
    for ship in instance.ships:
        if not any(fits_alone(chamber, ship) for chamber in instance.chambers):
            return Told(f"ship {ship.name.decode()} fits no chamber", 8)
    return Told(None, 0, instance)


def judged(text):
    """What `judge` answers in its first line, with the status, and the instance and the plan where it is legal."""
    if len(text) > JUDGE_BYTES:
        return Told(f"too long {JUDGE_BYTES}", 3)
    _, at = first_line(text, 0, lambda words: words == [b"end"])
    try:
        instance = read_instance(text[:at])
    except Refused as refused:
        return Told(defect(*refused.args), 3)
    try:
        plan = read_plan(text[at:], instance)
    except Refused as refused:
        kind, line = refused.args
        return Told(f"plan line {line} fault {PLAN_KINDS.index(kind) + 1} {kind}", 10)
    broken = first_break(instance, plan)
    return Told(broken, 10) if broken else Told(f"legal cost {plan_cost(instance, plan)}", 0, instance, plan)


# Reports (formats.md, Report) ----------------------------------------------------------------------------------------

LOCKAGE_LINE = re.compile(rb"lockage \d+ chamber (\S+) (up|down) start (\d+) end \d+$")
SHIP_LINE = re.compile(rb"  ([A-H]) (\S+) x (\d+) y (\d+) (left|right) (?:quay|at ([A-H])) flow \d+$")


def plan_of_report(lines, instance):
    """The plan of a report of this instance, in which lines go by the order of mooring and letters by the ships' numbers."""
    plan, lettered = [], []
    for line in lines:
        head, ship = LOCKAGE_LINE.match(line), SHIP_LINE.match(line)
        if head:
            plan.append(Lockage(named(head[1], instance.chambers), [], [], int(head[3]), WAYS.index(head[2])))
            lettered.append({})
        elif ship:
            spot = Spot(int(ship[3]), int(ship[4]), RANKS.index(ship[5]), ord(ship[6]) - 64 if ship[6] else 0)
            lettered[-1][ship[1]] = named(ship[2], instance.ships), spot
    for lockage, ships in zip(plan, lettered):
        for _, (number, spot) in sorted(ships.items()):
            lockage.ships.append(number)
            lockage.spots.append(spot)
    return plan


def is_neat(plan, neat, instance):
    """Whether the second plan is legal, differs from the first in x alone and in the order of its lockages, and has no
    greater x."""
    first, second = (sorted(each, key=lambda lockage: (lockage.start, lockage.chamber)) for each in (plan, neat))
    return (len(first) == len(second) and first_break(instance, neat) is None and all(
        (a.chamber, a.way, a.start, list(a.ships)) == (b.chamber, b.way, b.start, b.ships)
        and all(u.x >= v.x and u[1:] == v[1:] for u, v in zip(a.spots, b.spots, strict=True)) for a, b in zip(first, second)))


def text_of(plan, instance):
    """The plan text of a plan."""
    lines = ["plan"]
    for lockage in plan:
        chamber, ships = instance.chambers[lockage.chamber].name, [instance.ships[s].name.decode() for s in lockage.ships]
        lines.append(f"lockage {chamber.decode()} {WAYS[lockage.way].decode()} {lockage.start}")
        lines += [f"berth {name} {spot.x} {spot.y} {RANKS[spot.rank].decode()} {ships[spot.moor - 1] if spot.moor else '*'}"
                  for name, spot in zip(ships, lockage.spots)]
    return "\n".join([*lines, "end", ""]).encode()
