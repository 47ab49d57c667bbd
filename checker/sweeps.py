"""Sweeps: whether no uncut plan costs less (rules.md, Sweeps; dossier.md, Whether a cost is swept, worked out).

Beginnings of uncut plans are made lockage by lockage, in the order of start and chamber. Of a beginning its label keeps the
flow time, and then by chamber and way the least start of a next lockage. Of two labels of the same ships one that is nowhere
greater does for both. And a label is dropped where no plan below the cost begins so, since 100 times its flow time, what the
chambers' ways to go on are worth at least, and the prices of the missing ships, less those of the triples of which at least
two ships are missing, come to too much; a ship that has waited for longer than its price counts with that. How much they may
come to more, its room, is greatest of the first label. Sets of ships are numbers whose bits are the ships."""

from functools import lru_cache
from itertools import takewhile
from math import inf

from price_bound import PriceBound, Table, charged
from times import first_free, ready


class Sweep:
    def __init__(self, instance, cuts, prices, cost):
        self.chambers, self.ships, self.prices, self.most, self.known = *instance, prices, 100 * cost - 100, {}
        self.tables = [Table(instance, c, own, (), range(len(self.ships)), prices)
                       for c, own in enumerate(PriceBound(instance, cuts, [prices]).cuts)]
        self.left, self.arcs = lru_cache(maxsize=None)(self.left), lru_cache(maxsize=None)(self.arcs)
        self.first = sum((self.starts(c, own.stands, own.opens) for c, own in enumerate(self.chambers)), ())
        self.greatest = self.room(0, 0, self.first)[0]

    def starts(self, c, side, minute):
        return tuple(ready(self.chambers[c], side, way, minute) for way in (0, 1))

    def least(self, c, starts):
        """What a chamber's ways to go on are worth at least, by the first starts up and down. Ships may be served again. What
        is asked is left until the worth of the starts behind each next lockage is known, so nothing recurses."""
        due = [starts]
        while (c, starts) not in self.known:
            steps = [(worth, (c, self.starts(c, 1 - way, end))) for way, minute in enumerate(due[-1])
                     for end, worth in self.tables[c].lockages(None, way, minute)]
            more = [behind for _, (_, behind) in steps if (c, behind) not in self.known]
            if not more:
                self.known[c, due.pop()] = min([0] + [worth + self.known[behind] for worth, behind in steps])
            due += more
        return self.known[c, starts]

    def left(self, served):
        """The prices of the missing ships, less those of their triples, and their first arrivals up and down."""
        ships = frozenset(s for s in range(len(self.ships)) if not served >> s & 1)
        return sum(self.prices.ships[s] for s in ships) - charged(self.prices, ships), [
            min((self.ships[s].arrival for s in ships if self.ships[s].way == way), default=inf) for way in (0, 1)]

    def overdue(self, served, starts):
        """What missing ships cost at least beyond their prices, since they are served no sooner than a chamber is ready. Only
        where each is ready for a way no later than by a lockage of the other or an arrival: then none of its ways to go on
        begins later without some ships."""
        first, chambers = self.left(served)[1], list(enumerate(self.chambers))
        if any(starts[2 * c + way] > max(starts[2 * c + 1 - way] + own.passage, first[way]) for c, own in chambers for way in (0, 1)):
            return 0
        return sum(max(0, 100 * min((max(starts[2 * c + ship.way] - ship.arrival, 0) + own.passage + ship.handling
                                     for c, own in chambers if not self.tables[c].is_cut({s}, s)), default=inf) - self.prices.ships[s])
                   for s, ship in enumerate(self.ships) if not served >> s & 1)

    def room(self, served, flow, starts):
        """The room of a label, and what each chamber's ways to go on are worth at least."""
        least = [self.least(c, starts[2 * c:2 * c + 2]) for c in range(len(self.chambers))]
        return self.most - 100 * flow - sum(least) - self.left(served)[0], least

    def arcs(self, c, way, minute):
        """The groups that may come next in a chamber, by rising worth with what comes behind, up to the greatest room: also
        their ships, flow time and start, and the starts behind. A ship that alone makes more of it is in no group."""
        found, chamber = [], self.chambers[c]
        for group, choice in self.tables[c].grown(way, (), range(len(self.ships)), minute, self.greatest + 1):
            length = chamber.passage + choice.handling
            start = first_free(chamber, max(choice.latest, minute), length)
            flow, behind = sum(start + length - self.ships[s].arrival for s in group), self.starts(c, 1 - way, start + length)
            worth = 100 * choice.count * (start + length) - choice.paid + self.least(c, behind)
            found += [(worth, sum(1 << s for s in group), flow, start, behind)] * (worth <= self.greatest)
        return sorted(found)

    def gone_on(self, served, flow, *starts):
        """The labels that one lockage more makes of a label, each with the ships that it serves."""
        room, least = self.room(served, flow, starts)
        if self.overdue(served, starts) > room:
            return
        for place, minute in enumerate(starts):
            c = place // 2
            arcs = takewhile(lambda arc: arc[0] <= room + least[c], self.arcs(c, place % 2, minute))
            for _, group, more, start, behind in arcs:
                if not group & served:
                    later = [max(at, start + (k < 2 * c)) for k, at in enumerate(starts)]
                    later[2 * c:2 * c + 2] = behind
                    yield served | group, (flow + more, *map(max, later, self.left(served | group)[1] * len(self.chambers)))

    def is_swept(self, told):
        """Whether no label comes to serve all ships at less than the cost."""
        count, due = len(self.ships), {0: {0: {(0, *self.first)}}}
        for many in range(count):
            for served, labels in told(list(due.pop(many, {}).items()), f"ships served: {many} of {count}, set"):
                kept = []
                for label in sorted(labels):
                    if not any(all(a <= b for a, b in zip(other, label)) for other in kept):
                        kept.append(label)
                        for more, longer in self.gone_on(served, *label):
                            due.setdefault(bin(more).count("1"), {}).setdefault(more, set()).add(longer)
        return all(100 * flow > self.most for labels in due.get(count, {}).values() for flow, *_ in labels)
