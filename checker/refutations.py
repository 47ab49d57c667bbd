"""Decks, placements, and refutations: why the ships of a deck share no lockage.

Comments name headings of the pages in docs/."""

from collections import namedtuple

from dossier_text import AREA, BERTH_TREE, CASE_TREE, COLUMN, ROW, SPOT_TREE


# Decks and placements (rules.md, Instances and decks) ----------------------------------------------------------------

Deck = namedtuple("Deck", "length width end gap side sizes")
Size = namedtuple("Size", "length width cargo")


def deck_of(instance, chamber, ships):
    sizes = [Size(ship.length, ship.width, ship.cargo) for ship in (instance.ships[s] for s in ships)]
    return Deck(*instance.chambers[chamber][1:6], sizes)  # length, width, end, gap and side


def fits_alone(chamber, ship):
    return ship.length + 2 * chamber.end <= chamber.length and ship.width <= chamber.width


def clash(a, b):
    return a.cargo != b.cargo and a.cargo != 0 and b.cargo != 0


def inside_along(deck, x, size):
    return deck.end <= x and x + size.length + deck.end <= deck.length


def inside_across(deck, y, size):
    return 0 <= y and y + size.width <= deck.width


def apart(deck, a, a_size, b, b_size):
    """Whether ships with their corners at a and b, each x and then y, are apart."""
    return (a[0] + a_size.length + deck.gap <= b[0] or b[0] + b_size.length + deck.gap <= a[0]
            or a[1] + a_size.width + deck.side <= b[1] or b[1] + b_size.width + deck.side <= a[1])


def along_host(x, size, host_x, host_size):
    return host_x <= x and x + size.length <= host_x + host_size.length


def berth_y(deck, size, rank, host_y=None, host_size=None):
    """The y that a berth asks: at the quay where no host is named, else beside the host."""
    if host_y is None:
        return 0 if rank == 0 else deck.width - size.width
    return host_y + host_size.width + deck.side if rank == 0 else host_y - (size.width + deck.side)


def berthed(deck, spots, i):
    spot, size, host = spots[i], deck.sizes[i], spots[i].moor - 1
    if host < 0:
        return spot.y == berth_y(deck, size, spot.rank)
    return (host != i and host < len(spots) and spots[host].rank == spot.rank
            and spot.y == berth_y(deck, size, spot.rank, spots[host].y, deck.sizes[host])
            and along_host(spot.x, size, spots[host].x, deck.sizes[host]))


def legal_placement(deck, spots):
    laid, ships = list(zip(spots, deck.sizes)), range(len(spots))
    return (all(inside_along(deck, spot.x, size) and inside_across(deck, spot.y, size) for spot, size in laid)
            and all(apart(deck, *laid[i], *laid[j]) for j in ships for i in range(j))
            and all(berthed(deck, spots, i) for i in ships))


# Refutations (formats.md, Quick reasons to Spot values and spot trees; rules.md, berth case and berth tree) -----------


def too_much(sizes, room, gap, across_room, across_gap):
    """Row; with the two directions changed, Column. No two ships lie side by side, and in one row they are too long.

    The sizes are pairs: along, across."""
    pairs = [(a, b) for j, b in enumerate(sizes) for a in sizes[:j]]
    return (len(sizes) > 0 and all(a[1] + across_gap + b[1] > across_room for a, b in pairs)
            and sum(along + gap for along, _ in sizes) > room + gap)


class Berths:
    """What the cases of a deck share. A case or a spot case is `taken`: the options of the first decisions, in order.

    A berth is a rank, 0 for left and 1 for right, and a host, None for the quay."""

    empty = ()

    def __init__(self, deck):
        self.deck, self.ships = deck, range(len(deck.sizes))
        self.berths = [[(rank, host) for host in [None] + [k for k in self.ships if k != i] for rank in (0, 1)]
                       for i in self.ships]

    def berth(self, taken, i):
        """The rank and the host of ship i, or None where they aren't decided."""
        return self.berths[i][taken[self.places[i]]] if self.places[i] < len(taken) else None

    def host(self, taken, i):
        return (self.berth(taken, i) or (None, None))[1]

    def other_rank(self, taken, i):
        host = self.host(taken, i)
        host_berth = None if host is None else self.berth(taken, host)
        return host_berth is not None and host_berth[0] != self.berth(taken, i)[0]

    def y(self, taken, i, guests=()):
        """The y of ship i where its hosts are decided down to a quay, else None."""
        if self.berth(taken, i) is None or i in guests:
            return None
        rank, host = self.berth(taken, i)
        if host is None:
            return berth_y(self.deck, self.deck.sizes[i], rank)
        host_y = self.y(taken, host, guests + (i,))
        return None if host_y is None else berth_y(self.deck, self.deck.sizes[i], rank, host_y, self.deck.sizes[host])

    def leads_back(self, taken, i):
        host = self.host(taken, i)
        for _ in self.ships:
            host = host if host in (None, i) else self.host(taken, host)
        return host == i

    def step(self, taken, kind, *named):
        """The cases that follow: each option behind a split, and none behind a leaf whose fault stands. Else None."""
        if kind == 0 and len(taken) < len(self.decisions):
            return [(*taken, option) for option in range(len(self.decisions[len(taken)]))]
        return [] if kind > 0 and self.leaf_holds(taken, kind, *named) else None


class Case(Berths):
    """Cases and case trees: a decision is the list of its options, and an option is the list of its edges."""

    size = staticmethod(lambda kind: 2 if kind == 1 else 1 + kind)

    def __init__(self, deck):
        super().__init__(deck)
        self.room_edges, self.decisions, self.places = [], [], [i * (i + 1) // 2 for i in self.ships]
        for i, size in enumerate(deck.sizes):
            x, y = 1 + 2 * i, 2 + 2 * i
            self.room_edges += [(0, x, deck.end), (x, 0, -(deck.length - deck.end - size.length)),
                                (0, y, 0), (y, 0, -(deck.width - size.width))]
            self.decisions.append([self.berth_edges(i, *berth) for berth in self.berths[i]])
            self.decisions += [[[edge] for edge in self.order_edges(j, i)] for j in range(i)]

    def berth_edges(self, i, rank, k):
        deck, size, x, y = self.deck, self.deck.sizes[i], 1 + 2 * i, 2 + 2 * i
        if k is None:
            return [(y, 0, 0)] if rank == 0 else [(0, y, deck.width - size.width)]
        host, host_x, host_y = deck.sizes[k], 1 + 2 * k, 2 + 2 * k
        low, high, step = (host_y, y, host.width + deck.side) if rank == 0 else (y, host_y, size.width + deck.side)
        return [(low, high, step), (high, low, -step), (host_x, x, 0), (x, host_x, size.length - host.length)]

    def order_edges(self, i, j):
        (a, b), gap, side = (self.deck.sizes[i], self.deck.sizes[j]), self.deck.gap, self.deck.side
        x, y, other_x, other_y = 1 + 2 * i, 2 + 2 * i, 1 + 2 * j, 2 + 2 * j
        return [(x, other_x, a.length + gap), (other_x, x, b.length + gap),
                (y, other_y, a.width + side), (other_y, y, b.width + side)]

    def leaf_holds(self, taken, kind, *named):
        """Whether the fault stands: a host of the other rank, or a closed walk of positive sum."""
        if kind == 1:
            return named[0] in self.ships and self.other_rank(taken, named[0])
        edges = sum((options[option] for options, option in zip(self.decisions, taken)), self.room_edges)
        walk = [edges[number] for number in named if number < len(edges)]
        return (len(walk) == len(named) and all(a[1] == b[0] for a, b in zip(walk, walk[1:] + walk[:1]))
                and sum(edge[2] for edge in walk) > 0)


def spot_values(deck):
    """The rising list of the x that ships have in left-shifted placements."""
    lengths = [size.length for size in deck.sizes]
    pairs = [(a, b) for i, a in enumerate(lengths) for j, b in enumerate(lengths) if i != j]
    steps = {b + deck.gap for _, b in pairs} | {b - a for a, b in pairs}
    last = deck.length - deck.end - min(lengths)
    values = fresh = {deck.end} if deck.end <= last else set()
    for _ in lengths[1:]:
        fresh = {v + step for v in fresh for step in steps if deck.end <= v + step <= last} - values
        values = values | fresh
    return sorted(values)


class SpotCase(Berths):
    """Spot values and spot trees: for each ship its berth is decided and then its x, one of the spot values."""

    size = {0: 1, 1: 2, 2: 2, 3: 2, 4: 2, 5: 3}.get

    def __init__(self, deck):
        super().__init__(deck)
        self.values, self.places = spot_values(deck), [2 * i for i in self.ships]
        self.decisions = [options for i in self.ships for options in (self.berths[i], self.values)]

    def x(self, taken, i):
        return self.values[taken[2 * i + 1]] if 2 * i + 1 < len(taken) else None

    def leaf_holds(self, taken, kind, i, *named):
        """Whether the fault stands: a host of the other rank, a ring of hosts, outside, off its host, not apart."""
        if not all(ship in self.ships for ship in (i, *named)):
            return False
        if kind <= 2:
            return self.other_rank(taken, i) if kind == 1 else self.leads_back(taken, i)
        deck, sizes, x, y = self.deck, self.deck.sizes, self.x(taken, i), self.y(taken, i)
        if kind == 3:
            return (x is not None and not inside_along(deck, x, sizes[i])
                    or y is not None and not inside_across(deck, y, sizes[i]))
        other = self.host(taken, i) if kind == 4 else named[0]
        if x is None or other in (None, i) or self.x(taken, other) is None:
            return False
        if kind == 4:
            return not along_host(x, sizes[i], self.x(taken, other), sizes[other])
        corner, other_corner = (x, y), (self.x(taken, other), self.y(taken, other))
        return None not in corner + other_corner and not apart(deck, corner, sizes[i], other_corner, sizes[other])


class BerthCase(Berths):
    """Berth cases: `taken` is the berths of the ships that have one, by ship, and the pairs of which the first lies before."""

    empty, size = ({}, frozenset()), {0: 2, 1: 2, 2: 2, 3: 2, 4: 2, 5: 2, 6: 2, 7: 3, 8: 1}.get

    def berth(self, taken, i):
        return taken[0].get(i)

    def overlap(self, taken, i, j):
        a, b, sizes, side = self.y(taken, i), self.y(taken, j), self.deck.sizes, self.deck.side
        return None not in (a, b) and a + sizes[i].width + side > b and b + sizes[j].width + side > a

    def row_length(self, ships):
        return sum(self.deck.sizes[i].length + self.deck.gap for i in ships)

    def is_crowd(self, taken, ships):
        """Whether each two overlap or have one host, and one behind the other they are too long."""
        hosts, deck = {i: self.host(taken, i) for i in ships}, self.deck
        return (all(self.overlap(taken, i, j) or hosts[i] == hosts[j] is not None for j in ships for i in ships if i < j)
                and self.row_length(ships) + 2 * deck.end > deck.length + deck.gap)

    def no_places(self, taken):
        """Whether no x obey: the least ones, raised round by round, rise for ever or leave the chamber."""
        deck, x = self.deck, [self.deck.end for _ in self.ships]
        lengths = [size.length for size in deck.sizes]
        steps = [(i, j, lengths[i] + deck.gap) for i, j in taken[1]]
        for i, host in ((i, self.host(taken, i)) for i in self.ships if self.host(taken, i) is not None):
            steps += [(host, i, 0), (i, host, lengths[i] - lengths[host])]
        for _ in range(len(x) + 1):
            before = list(x)
            for low, high, step in steps:
                x[high] = max(x[high], x[low] + step)
            if x == before:
                return not all(inside_along(deck, at, size) for at, size in zip(x, deck.sizes))
        return True

    def leaf_holds(self, taken, kind, i=None):
        """Whether the fault stands: a host of the other rank, a ring of hosts, a host that is shorter, outside across,
        guests that are too many, a crowd, no places."""
        if kind == 8:
            return self.no_places(taken)
        if kind == 6:
            return 0 < i < 2**len(self.ships) and self.is_crowd(taken, [s for s in self.ships if i >> s & 1])
        if i not in self.ships:
            return False
        if kind <= 2:
            return self.other_rank(taken, i) if kind == 1 else self.leads_back(taken, i)
        sizes, host, y = self.deck.sizes, self.host(taken, i), self.y(taken, i)
        if kind == 3:
            return host is not None and sizes[i].length > sizes[host].length
        if kind == 4:
            return y is not None and not inside_across(self.deck, y, sizes[i])
        return self.row_length(s for s in self.ships if self.host(taken, s) == i) > sizes[i].length + self.deck.gap

    def step(self, taken, kind, *named):
        """The cases that follow: behind a split each berth of a ship, or both orders of two that overlap."""
        berths, orders = taken
        if kind == 0 and named[0] in self.ships and named[0] not in berths:
            return [({**berths, named[0]: berth}, orders) for berth in self.berths[named[0]]]
        if kind == 7 and named[0] != named[1] and self.overlap(taken, *named) and not orders & {named, named[::-1]}:
            return [(berths, orders | {named}), (berths, orders | {named[::-1]})]
        return [] if kind not in (0, 7) and self.leaf_holds(taken, kind, *named) else None


TREES = {CASE_TREE: Case, SPOT_TREE: SpotCase, BERTH_TREE: BerthCase}


def is_tree(case, numbers):
    """Whether the numbers are exactly one tree of the case that decides nothing; the cases to come are a stack."""
    due, at = [case.empty], 0
    while due and at < len(numbers):
        size = case.size(numbers[at])
        more = None if size is None or at + size > len(numbers) else case.step(due.pop(), *numbers[at:at + size])
        if more is None:
            return False
        due += reversed(more)
        at += size
    return not due and at == len(numbers)


def refutation_holds(deck, kind, rest):
    room = deck.length - 2 * deck.end
    if kind == AREA:
        covered = sum((size.length + deck.gap) * (size.width + deck.side) for size in deck.sizes)
        return covered > (room + deck.gap) * (deck.width + deck.side)
    if kind in TREES:
        return is_tree(TREES[kind](deck), rest)
    if any(i >= len(deck.sizes) for i in rest):
        return False
    sizes = [deck.sizes[i] for i in rest]
    if kind == ROW:
        return too_much([(size.length, size.width) for size in sizes], room, deck.gap, deck.width, deck.side)
    if kind == COLUMN:
        return too_much([(size.width, size.length) for size in sizes], deck.width, deck.side, room, deck.gap)
    return clash(*sizes)
