"""What a node reaches by prices (rules.md, Lower bounds by prices; dossier.md, What a node reaches, worked out).

A loose line of a chamber is a list of groups that no cut hits, whose groups are those of the node's line joined by missing
ships, and groups of missing ships alone between them; a missing ship may stand in several groups, or in none. A group is
charged the price of each triple of which it has at least two ships. The node reaches a cost where, for each choice of a loose
line for each chamber, 100 times the flow time less what the missing ships pay, what the groups are charged, and the price of
each missing ship once, less that of each triple once, come to more than 100 times the cost, less 100.

What gains nothing is left out. Without a missing ship, or without a lockage of missing ships alone, no other lockage ends
later: its own is shorter and waits for fewer, and an empty turn in the place of a whole lockage lasts no longer than that.
So a ship gains nothing in a lockage where 100 times its flow time is at least its price, and a lockage of missing ships
alone where it adds 0 or more: fewer ships are charged no more. And of two lines that have come as far, one that is free later
and worth no less gains nothing. So only minutes are looked at from which a line goes on that does gain."""

import functools
import heapq
from collections import namedtuple
from math import inf

from times import first_free, ready


def hits_in(instance, cut, c):
    """Whether what the cut says of its own chamber holds in chamber c, which must be no roomier."""
    room, chamber = instance.chambers[cut.chamber], instance.chambers[c]
    return ((chamber.end, chamber.gap, chamber.side) == (room.end, room.gap, room.side)
            and chamber.length <= room.length and chamber.width <= room.width)


# What counts of a group: its latest arrival, its handling, its ships' number, and what is paid with 100 times its arrivals,
# less what it is charged.
Choice = namedtuple("Choice", "latest handling count paid")


def charged(prices, ships):
    """The prices of the triples of which at least two ships are among these."""
    return sum(price for *three, price in prices.triples if len(ships.intersection(three)) > 1)


class Table:
    """The least of 100 * flow + charged - paid over the loose lines of one chamber, or None where it has none. `cuts` are of
    each ship the sets of ships that it is in and that share no lockage of the chamber."""

    def __init__(self, instance, c, cuts, line, missing, prices):
        self.ships, self.chamber, self.cuts, self.line = instance.ships, instance.chambers[c], cuts, line
        self.missing, self.prices = missing, prices
        self.alone = [self.kept(way, ()) for way in (0, 1)]
        self.joined = [self.kept(way, own) for way, own in line]
        self.lockages = functools.lru_cache(maxsize=None)(self.lockages)

    def is_cut(self, ships, last):
        return any(cut <= ships for cut in self.cuts[last])

    def grown(self, way, own, missing, minute, slack=0):
        """The own ships, and each uncut group of them and missing ones of the way, grown ship by ship, and what counts of it.
        Where a missing ship gains nothing even in the earliest lockage, it gains nothing in a larger group either."""
        ships = [self.ships[s] for s in own]
        due = [(frozenset(own), 0, inf, Choice(max([ship.arrival for ship in ships], default=0),
                sum(ship.handling for ship in ships), len(own), 100 * sum(ship.arrival for ship in ships)))]
        missing = [s for s in missing if self.ships[s].way == way]
        while due:
            group, at, gains_before, choice = due.pop()
            if choice.count > 0:
                yield group, choice._replace(paid=choice.paid - charged(self.prices, group))
            for place in range(at, len(missing) if choice.count < self.chamber.most else 0):
                s = missing[place]
                pays, more = 100 * self.ships[s].arrival + self.prices.ships[s], group | {s}
                longer = Choice(max(choice.latest, self.ships[s].arrival), choice.handling + self.ships[s].handling,
                                choice.count + 1, choice.paid + pays)
                before, end = min(gains_before, pays), max(longer.latest, minute) + self.chamber.passage + longer.handling
                if (choice.count == 0 or 100 * end < before + slack) and not self.is_cut(more, s):
                    due.append((more, place + 1, before, longer))

    def kept(self, way, own):
        """The grown groups, but each that has no fewer ships, no less handling, no earlier arrival and no more pay than
        another."""
        kept = []
        for _, choice in sorted(self.grown(way, own, self.missing, self.chamber.opens), key=lambda it: (-it[1].paid, *it[1][:3])):
            if not any(a <= choice.latest and h <= choice.handling and c <= choice.count for a, h, c, _ in kept):
                kept.append(choice)
        return kept

    def lockages(self, place, way, minute):
        """Of the lockages of missing ships alone, or of the group at a place of the line, that gain from a minute on at which
        the chamber is ready: the ends, and what they are worth. The later one ends, the less it is worth."""
        ends, gaining, least = [], [], 0 if place is None else inf
        for latest, handling, count, paid in self.alone[way] if place is None else self.joined[place]:
            length = self.chamber.passage + handling
            end = first_free(self.chamber, max(latest, minute), length) + length
            ends.append((end, 100 * count * end - paid))
        for end, worth in sorted(ends):
            if worth < least:
                gaining.append((end, worth))
                least = worth
        return gaining

    def least(self):
        """Lines are made lockage by lockage: by rising minute, from which the chamber is free, and then by worth. Each stands at
        a place of the node's line, with the chamber at a side, where it serves or turns."""
        if any(self.is_cut(frozenset(own), s) for _, own in self.line for s in own):
            return None
        best, due = {}, [(self.chamber.opens, 0, 0, self.chamber.stands)]
        while due:
            minute, worth, place, side = heapq.heappop(due)
            if worth >= best.get((place, side), inf):
                continue
            best[place, side] = worth
            steps = [(ready(self.chamber, side, 1 - side, minute), worth, place, 1 - side)]
            steps += [(end, worth + more, place, 1 - side) for end, more in self.lockages(None, side, minute)]
            if place < len(self.line) and self.line[place][0] == side:
                steps += [(end, worth + more, place + 1, 1 - side) for end, more in self.lockages(place, side, minute)]
            for step in steps:
                if step[1] < best.get(step[2:], inf):
                    heapq.heappush(due, step)
        return min(worth for (place, _), worth in best.items() if place == len(self.line))


class PriceBound:
    """What nodes reach by the prices and the cuts of a certificate; what a line is worth is remembered."""

    def __init__(self, instance, cuts, prices):
        self.instance, self.prices, ships = instance, prices, range(len(instance.ships))
        self.order = sorted(ships, key=lambda s: instance.ships[s].arrival)
        sets = [{frozenset(cut.ships) for cut in cuts if hits_in(instance, cut, c)} for c in range(len(instance.chambers))]
        self.cuts = [[[cut for cut in each if s in cut] for s in ships] for each in sets]
        self.least = functools.lru_cache(maxsize=1 << 16)(self.least)

    def least(self, c, line, depth, number):
        return Table(self.instance, c, self.cuts[c], line, self.order[depth:], self.prices[number]).least()

    def greatest(self, node, number, most):
        """The greatest cost up to `most` that the node reaches, which is below 0 where it reaches none."""
        least = [self.least(c, line, node.depth, number) for c, line in enumerate(node.lines)]
        ships, triples = self.prices[number]
        missing = sum(ships[s] for s in self.order[node.depth:]) - sum(price for *_, price in triples)
        return most if None in least else min(most, (sum(least) + missing + 99) // 100)

    def reaches(self, node, number, cost):
        return self.greatest(node, number, cost) == cost
