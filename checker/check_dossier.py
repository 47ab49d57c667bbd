#!/usr/bin/env python3
"""Checks a dossier of a ship lock, trusting nothing of the program that wrote it.

A dossier holds an instance, a plan and a certificate that no plan costs less. This checker follows
the pages in docs/ (rules.md, formats.md, dossier.md), whose headings its comments name, and shares no code with glock.
It prints one line, the one that `glock check` prints, and ends with the same status; while it is at work it tells on a
terminal, on standard error, how far it is:

    accepted cost N                      0   the plan is legal, costs N, and no legal plan costs less
    rejected PLACE reason NUMBER NAME    7   the first thing in the certificate that doesn't hold
    dossier fault NUMBER NAME ..         7   the first thing in the text that hasn't the form of a dossier
    ship NAME fits no chamber            8   the instance can't be served at all

With `--open` it reads open dossiers, whose trees may have open leaves, and prints instead of `accepted`:

    lower LOW cost N                0 or 1   the plan is legal, costs N, and no legal plan costs less than LOW;
                                             the status is 0 where both numbers are equal

command_line.py reads the words and the file, dossier_text.py the text; refutations.py says of decks which placements are legal
and why ships share no lockage, times.py when a chamber is ready, price_bound.py what a node reaches by prices, and sweeps.py
whether a cost is swept. Here stand, in order: the plan, nodes and bounds, and last the check itself, which is short.
"""

import functools
import sys
import time
from collections import namedtuple

from command_line import run
from dossier_text import (BOUND, CLOSED_FORMS, FEW_SHIPS, FIRST_CUT, FIRST_PROBE, OPEN_FORMS, OPEN_LEAF, OPEN_PRICE, PRICE,
                          SPLIT, SWEEP, THROUGHPUT, Answer, read_dossier)
from price_bound import PriceBound, hits_in
from refutations import clash, deck_of, fits_alone, legal_placement, refutation_holds
from sweeps import Sweep
from times import first_free, ready


# The plan (rules.md, Time, plans and cost) ----------------------------------------------------------------------------


def end_of(instance, lockage):
    return lockage.start + instance.chambers[lockage.chamber].passage + sum(instance.ships[s].handling for s in lockage.ships)


def lawful_starts(instance, chamber, lockages):
    """Whether the lockages of one chamber, which stand by start, have lawful starts."""
    minute, side = chamber.opens, chamber.stands
    for lockage in lockages:
        earliest = max(ready(chamber, side, lockage.way, minute), *(instance.ships[s].arrival for s in lockage.ships))
        minute, side = end_of(instance, lockage), 1 - lockage.way
        if lockage.start < earliest or first_free(chamber, lockage.start, minute - lockage.start) != lockage.start:
            return False
    return True


def legal_lockage(instance, lockage):
    if lockage.chamber >= len(instance.chambers) or any(s >= len(instance.ships) for s in lockage.ships):
        return False
    deck = deck_of(instance, lockage.chamber, lockage.ships)
    return (len(lockage.ships) <= instance.chambers[lockage.chamber].most
            and all(instance.ships[s].way == lockage.way for s in lockage.ships)
            and not any(clash(a, b) for a in deck.sizes for b in deck.sizes) and legal_placement(deck, lockage.spots))


def legal_plan(instance, plan):
    served = sorted(s for lockage in plan for s in lockage.ships)
    by_start = sorted(plan, key=lambda lockage: lockage.start)
    return (all(legal_lockage(instance, lockage) for lockage in plan) and served == list(range(len(instance.ships)))
            and all(lawful_starts(instance, chamber, [lockage for lockage in by_start if lockage.chamber == c])
                    for c, chamber in enumerate(instance.chambers)))


def plan_cost(instance, plan):
    return sum(end_of(instance, lockage) - instance.ships[s].arrival for lockage in plan for s in lockage.ships)


# Nodes and bounds (formats.md, Nodes and children; Bounds) -----------------------------------------------------------

# The first `depth` ships in arrival order stand in groups: each chamber has a line of groups, pairs of way and ships.
Node = namedtuple("Node", "depth lines")


class Bounds:
    def __init__(self, instance):
        self.chambers, self.ships = instance.chambers, instance.ships
        self.order = sorted(range(len(self.ships)), key=lambda s: self.ships[s].arrival)
        self.flow = functools.lru_cache(maxsize=1 << 18)(self.flow)
        self.group = functools.lru_cache(maxsize=1 << 18)(self.group)
        self.least_passage = [min(self.flow(c, ((ship.way, (s,)),)) for c, chamber in enumerate(self.chambers)
                                  if fits_alone(chamber, ship)) for s, ship in enumerate(self.ships)]

    def joined(self, c, line, ship):
        """The lines of chamber c with one ship more: in each group that takes it, then as a group of its own."""
        way = self.ships[ship].way
        for place, (group_way, ships) in enumerate(line):
            if group_way == way and len(ships) < self.chambers[c].most:
                yield line[:place] + ((way, tuple(sorted(ships + (ship,)))),) + line[place + 1:]
        for place in range(len(line) + 1):
            yield line[:place] + ((way, (ship,)),) + line[place:]

    def children(self, node):
        return [Node(node.depth + 1, node.lines[:c] + (longer,) + node.lines[c + 1:])
                for c, line in enumerate(node.lines) for longer in self.joined(c, line, self.order[node.depth])]

    def group(self, ships):
        """What the times of a group depend on: its latest arrival, all handling, all arrivals, its ships' number."""
        arrivals = [self.ships[s].arrival for s in ships]
        return max(arrivals), sum(self.ships[s].handling for s in ships), sum(arrivals), len(ships)

    def flow(self, c, line):
        """The flow time of a line's ships in its earliest timetable: each group starts as soon as it lawfully may."""
        chamber, flow = self.chambers[c], 0
        minute, side = chamber.opens, chamber.stands
        for way, ships in line:
            latest, handling, arrivals, count = self.group(ships)
            length = chamber.passage + handling
            minute, side = first_free(chamber, max(latest, ready(chamber, side, way, minute)), length) + length, 1 - way
            flow += count * minute - arrivals
        return flow

    def bound(self, node):
        return (sum(self.flow(c, line) for c, line in enumerate(node.lines))
                + sum(self.least_passage[s] for s in self.order[node.depth:]))

    def probe(self, node, ship):
        more = min(self.flow(c, longer) - self.flow(c, line)
                   for c, line in enumerate(node.lines) for longer in self.joined(c, line, ship))
        return self.bound(node) - self.least_passage[ship] + more

    def throughput(self):
        first, count = min(ship.arrival for ship in self.ships), len(self.ships)
        ends = [max(chamber.opens, first) + j * chamber.passage
                for chamber in self.chambers for j in range(1, count + 1) for _ in range(chamber.most)]
        return max(0, sum(sorted(ends)[:count]) + sum(ship.handling - ship.arrival for ship in self.ships))


# The check (formats.md, Checking order) ------------------------------------------------------------------------------

REASONS = ("PlanIllegal CostWrong CutShape CutUnproved TreeShort TreeLong SplitFull BoundLow CutMisses ThroughputLow "
           "ProbeWrong PricesShape PriceLow SweptWrong".split())


def demand(holds, place, reason):
    if not holds:
        raise Answer(f"rejected {place} reason {REASONS.index(reason) + 1} {reason}", 7)


def told(things, what):
    """The things one by one; on a terminal it is told, each second, how far that is."""
    last = time.monotonic()
    for number, thing in enumerate(things):
        if sys.stderr.isatty() and time.monotonic() - last >= 1:
            last = time.monotonic()
            print(f"\r\033[K{what} {number} of {len(things)}", end="", file=sys.stderr, flush=True)
        yield thing


def check_cuts(instance, cuts):
    for number, (chamber, ships, why) in enumerate(told(cuts, "cut")):
        demand(chamber < len(instance.chambers) and max(ships) < len(instance.ships), f"cut {number}", "CutShape")
        demand(refutation_holds(deck_of(instance, chamber, ships), *why), f"cut {number}", "CutUnproved")


def cut_hits(instance, cut, node):
    """Whether the cut's ships are together in a group of a chamber that is no roomier than the cut's own."""
    return any(hits_in(instance, cut, c) and any(set(cut.ships) <= set(ships) for _, ships in line)
               for c, line in enumerate(node.lines))


def check_tree(instance, cost, cuts, prices, marks):
    """Walks the marks in preorder. It gives the least of the cost and the lows of the open leaves."""
    bounds, low, priced = Bounds(instance), cost, PriceBound(instance, cuts, prices)
    throughput, first_cut = bounds.throughput(), FIRST_CUT[len(instance.ships) > FEW_SHIPS]
    due = [Node(0, ((),) * len(instance.chambers))]  # the nodes whose trees are still to come, the next one last
    for p, (mark, number) in enumerate(told(marks, "mark")):
        place = f"tree {p}"
        demand(due, place, "TreeLong")
        node = due.pop()
        if mark == SPLIT:
            demand(node.depth < len(instance.ships), place, "SplitFull")
            due += reversed(bounds.children(node))
        elif mark == OPEN_LEAF:
            low = min(low, bounds.bound(node))
        elif mark == OPEN_PRICE:
            demand(number < len(prices), place, "SweptWrong")
            low = min(low, max(bounds.bound(node), priced.greatest(node, number, cost)))
        elif mark == BOUND:
            demand(bounds.bound(node) >= cost, place, "BoundLow")
        elif mark == PRICE:
            demand(number < len(prices) and priced.reaches(node, number, cost), place, "PriceLow")
        elif mark == SWEEP:
            demand(node.depth == 0 and number < len(prices)
                   and Sweep(instance, cuts, prices[number], cost).is_swept(told), place, "SweptWrong")
        elif mark == THROUGHPUT:
            demand(throughput >= cost, place, "ThroughputLow")
        elif mark < first_cut:
            ship = mark - FIRST_PROBE
            demand(ship in bounds.order[node.depth:] and bounds.probe(node, ship) >= cost, place, "ProbeWrong")
        else:
            demand(mark - first_cut < len(cuts) and cut_hits(instance, cuts[mark - first_cut], node), place, "CutMisses")
    demand(not due, f"tree {len(marks)}", "TreeShort")
    return low


def check(instance, certificate):
    """The cost that no legal plan is below, where the certificate holds."""
    for ship in instance.ships:
        if not any(fits_alone(chamber, ship) for chamber in instance.chambers):
            raise Answer(f"ship {ship.name.decode()} fits no chamber", 8)
    demand(legal_plan(instance, certificate.plan), "plan", "PlanIllegal")
    demand(plan_cost(instance, certificate.plan) == certificate.cost, "cost", "CostWrong")
    check_cuts(instance, certificate.cuts)
    for number, (ships, triples) in enumerate(certificate.prices):
        demand(max((it[2] for it in triples), default=0) < len(ships) == len(instance.ships), f"prices {number}", "PricesShape")
    return check_tree(instance, certificate.cost, certificate.cuts, certificate.prices, certificate.tree)


def answer(data, is_open=False):
    """The line to be printed for the bytes of a dossier, and the status."""
    try:
        instance, certificate = read_dossier(data, OPEN_FORMS if is_open else CLOSED_FORMS)
        low, cost = check(instance, certificate), certificate.cost
    except Answer as early:
        return early.args
    return (f"lower {low} cost {cost}", 0 if low == cost else 1) if is_open else (f"accepted cost {cost}", 0)


if __name__ == "__main__":
    sys.exit(run(answer))
