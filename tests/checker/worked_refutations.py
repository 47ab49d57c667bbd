"""Worked refutations: decks, the numbers of a refutation, and whether it holds; and a dossier that asks for each."""

# a deck by length, width, clearance at the ends and gaps along and across, and its ships by length, width and class
TOO_WIDE, TOO_LONG = ((100, 50, 10, 5, 5), [(70, 60, 0)]), ((100, 50, 10, 5, 5), [(90, 40, 0)])
TWO_SMALL = (80, 40, 10, 10, 5), [(30, 50, 0), (20, 30, 0)]
TWO_LONG, WIDER = (((2000, width, 10, 20, 5), [(1100, 114, 0)] * 2) for width in (232, 233))
ONE_HOST = (140, 40, 10, 5, 5), [(90, 50, 0), (90, 50, 0), (90, 30, 0)]
SHORT_LONG, SHORT_WIDE, SHORT_FLUSH = (((100, 50, 10, 20, 5), [(*size, 0)]) for size in ((90, 50), (80, 60), (80, 50)))
NARROW_CARGO = (2000, 232, 10, 20, 5), [(500, 60, 1), (500, 60, 2), (500, 60, 0)]

# a deck, the numbers of a refutation, and whether it holds
REFUTED = [
    # a ship that is too wide, at the left quay and at the right quay
    (TOO_WIDE, [6, 0, 0, 4, 0, 4, 0], True),
    # the tree of the right quay is missing
    (TOO_WIDE, [6, 0, 0, 4, 0], False),
    # a number is left over
    (TOO_WIDE, [6, 0, 0, 4, 0, 4, 0, 8], False),
    # no y is known before a berth is decided
    (TOO_WIDE, [6, 4, 0], False),
    # x = 10 obeys all
    (TOO_WIDE, [6, 8], False),
    # 1 is no ship of the deck
    (TOO_WIDE, [6, 0, 0, 4, 0, 4, 1], False),
    # the berth of ship 0 is decided already
    (TOO_WIDE, [6, 0, 0, 0, 0, 4, 0, 4, 0, 4, 0], False),
    # a berth, and an order, of a ship that isn't in the deck
    (TOO_WIDE, [6, 0, 1, 4, 0, 4, 0], False),
    (TOO_WIDE, [6, 7, 0, 1, 8, 8], False),
    # no tree
    (TOO_WIDE, [6], False),
    # a ship that is too long: no x obeys
    (TOO_LONG, [6, 8], True),
    # the sum 95 is above U + g = 85
    (TOO_LONG, [6, 6, 1], True),
    # a split where none is needed
    (TOO_LONG, [6, 0, 0, 8, 6, 1], True),
    # ship 1 isn't in the deck
    (TOO_LONG, [6, 6, 2], False),
    # S is below 1
    (TOO_LONG, [6, 6, 0], False),
    # S is above 255
    (TOO_LONG, [6, 6, 257], False),
    # ship 0 has no decided host
    (TOO_LONG, [6, 3, 0], False),
    # no guests: 0 isn't above 95
    (TOO_LONG, [6, 5, 0], False),
    # no such leaf
    (TOO_LONG, [6, 9, 0], False),
    # ship 0 is too wide at a quay, and longer than its only host
    (TWO_SMALL, [6, 0, 0, 4, 0, 4, 0, 3, 0, 3, 0], True),
    # ship 1 has no decided host
    (TWO_SMALL, [6, 0, 0, 4, 0, 4, 0, 3, 0, 3, 1], False),
    # y of ship 0 isn't known: its host has no berth
    (TWO_SMALL, [6, 0, 0, 4, 0, 4, 0, 4, 0, 3, 0], False),
    # four options, three trees
    (TWO_SMALL, [6, 0, 0, 4, 0, 4, 0, 3, 0], False),
    # ship 1 is the one that was decided
    (TWO_SMALL, [6, 0, 1, 4, 0, 4, 0, 3, 0, 3, 0], False),
    # 6, 3: the two overlap and 2240 is above U + g = 2000; also where one lies left and one right: 0 + 114 + 5 is above 118
    (TWO_LONG, [6, 0, 0, 0, 1, 6, 3, 6, 3, 4, 1, 1, 1, 0, 1, 6, 3, 6, 3, 1, 1, 4, 1, 0, 1, 4, 0, 1, 0, 2, 0, 1, 0,
     0, 1, 1, 0, 4, 0, 1, 0, 2, 0], True),
    # both left: 7, 0, 1 with an 8 for each order in the place of 6, 3
    (TWO_LONG, [6, 0, 0, 0, 1, 7, 0, 1, 8, 8, 6, 3, 4, 1, 1, 1, 0, 1, 6, 3, 6, 3, 1, 1, 4, 1, 0, 1, 4, 0, 1, 0, 2,
     0, 1, 0, 0, 1, 1, 0, 4, 0, 1, 0, 2, 0], True),
    # 7, 1, 0: first 1 before 0, then 0 before 1
    (TWO_LONG, [6, 0, 0, 0, 1, 7, 1, 0, 8, 8, 6, 3, 4, 1, 1, 1, 0, 1, 6, 3, 6, 3, 1, 1, 4, 1, 0, 1, 4, 0, 1, 0, 2,
     0, 1, 0, 0, 1, 1, 0, 4, 0, 1, 0, 2, 0], True),
    # one ship twice
    (TWO_LONG, [6, 0, 0, 0, 1, 7, 0, 0, 8, 8, 6, 3, 4, 1, 1, 1, 0, 1, 6, 3, 6, 3, 1, 1, 4, 1, 0, 1, 4, 0, 1, 0, 2,
     0, 1, 0, 0, 1, 1, 0, 4, 0, 1, 0, 2, 0], False),
    # only one of the two orders; the numbers behind it are read as the other
    (TWO_LONG, [6, 0, 0, 0, 1, 7, 0, 1, 8, 6, 3, 4, 1, 1, 1, 0, 1, 6, 3, 6, 3, 1, 1, 4, 1, 0, 1, 4, 0, 1, 0, 2, 0,
     1, 0, 0, 1, 1, 0, 4, 0, 1, 0, 2, 0], False),
    # no order yet: x = 10 for both obeys
    (TWO_LONG, [6, 0, 0, 0, 1, 8, 6, 3, 4, 1, 1, 1, 0, 1, 6, 3, 6, 3, 1, 1, 4, 1, 0, 1, 4, 0, 1, 0, 2, 0, 1, 0, 0,
     1, 1, 0, 4, 0, 1, 0, 2, 0], False),
    # ship 0 alone has 1120, not above 2000
    (TWO_LONG, [6, 0, 0, 0, 1, 6, 1, 6, 3, 4, 1, 1, 1, 0, 1, 6, 3, 6, 3, 1, 1, 4, 1, 0, 1, 4, 0, 1, 0, 2, 0, 1, 0,
     0, 1, 1, 0, 4, 0, 1, 0, 2, 0], False),
    # mark 8 is 3, 1: ship 1 is as long as its host, not longer
    (TWO_LONG, [6, 0, 0, 0, 1, 6, 3, 6, 3, 3, 1, 1, 1, 0, 1, 6, 3, 6, 3, 1, 1, 4, 1, 0, 1, 4, 0, 1, 0, 2, 0, 1, 0,
     0, 1, 1, 0, 4, 0, 1, 0, 2, 0], False),
    # the last option has no tree
    (TWO_LONG, [6, 0, 0, 0, 1, 6, 3, 6, 3, 4, 1, 1, 1, 0, 1, 6, 3, 6, 3, 1, 1, 4, 1, 0, 1, 4, 0, 1, 0, 2, 0, 1, 0,
     0, 1, 1, 0, 4, 0, 1, 0], False),
    # one decimetre wider: left and right don't overlap, 0 + 114 + 5 is at most 119, so the second 6, 3 is no leaf; and the deck fits
    (WIDER, [6, 0, 0, 0, 1, 6, 3, 6, 3, 4, 1, 1, 1, 0, 1, 6, 3, 6, 3, 1, 1, 4, 1, 0, 1, 4, 0, 1, 0, 2, 0, 1, 0, 0,
     1, 1, 0, 4, 0, 1, 0, 2, 0], False),
    # 5, 2: two guests of ship 2 have 190, above 95
    (ONE_HOST, [6, 0, 0, 4, 0, 4, 0, 0, 1, 4, 0, 1, 0, 2, 0, 1, 0, 0, 2, 4, 0, 1, 1, 2, 0, 2, 0, 2, 1, 1, 1, 1, 0,
     0, 1, 1, 0, 4, 0, 1, 0, 2, 0, 1, 0, 0, 2, 1, 1, 4, 0, 2, 0, 2, 0, 1, 1, 2, 1, 0, 1, 4, 1, 4, 1, 0, 2, 4, 0, 1,
     0, 2, 0, 1, 0, 2, 0, 1, 0, 1, 1, 5, 2, 5, 2, 0, 1, 4, 1, 4, 1, 1, 1, 0, 2, 1, 0, 4, 0, 1, 0, 2, 0, 1, 0, 2, 0,
     5, 2, 5, 2], True),
    # ship 1 has no guest there
    (ONE_HOST, [6, 0, 0, 4, 0, 4, 0, 0, 1, 4, 0, 1, 0, 2, 0, 1, 0, 0, 2, 4, 0, 1, 1, 2, 0, 2, 0, 2, 1, 1, 1, 1, 0,
     0, 1, 1, 0, 4, 0, 1, 0, 2, 0, 1, 0, 0, 2, 1, 1, 4, 0, 2, 0, 2, 0, 1, 1, 2, 1, 0, 1, 4, 1, 4, 1, 0, 2, 4, 0, 1,
     0, 2, 0, 1, 0, 2, 0, 1, 0, 1, 1, 5, 1, 5, 2, 0, 1, 4, 1, 4, 1, 1, 1, 0, 2, 1, 0, 4, 0, 1, 0, 2, 0, 1, 0, 2, 0,
     5, 2, 5, 2], False),
    # where 1, 1 stood: the host of ship 0 has the same rank
    (ONE_HOST, [6, 0, 0, 4, 0, 4, 0, 0, 1, 4, 0, 1, 0, 2, 0, 1, 0, 0, 2, 4, 0, 1, 1, 2, 0, 2, 0, 2, 1, 1, 1, 1, 0,
     0, 1, 1, 0, 4, 0, 1, 0, 2, 0, 1, 0, 0, 2, 1, 1, 4, 0, 2, 0, 2, 0, 1, 1, 2, 1, 0, 1, 4, 1, 4, 1, 0, 2, 4, 0, 1,
     0, 2, 0, 1, 0, 2, 0, 1, 0, 1, 0, 5, 2, 5, 2, 0, 1, 4, 1, 4, 1, 1, 1, 0, 2, 1, 0, 4, 0, 1, 0, 2, 0, 1, 0, 2, 0,
     5, 2, 5, 2], False),
    # edge 0 leads from the origin to x, and edge 1 back
    (SHORT_LONG, [3, 2, 0, 1], True),
    (SHORT_LONG, [3, 2, 1, 0], True),
    (SHORT_LONG, [3, 4, 0, 1, 0, 1], True),
    # not closed, of total 0, unknown, too long, too short, none at all
    (SHORT_LONG, [3, 2, 0, 0], False),
    (SHORT_LONG, [3, 2, 2, 3], False),
    (SHORT_LONG, [3, 2, 0, 4], False),
    (SHORT_LONG, [3, 2, 0, 4294967295], False),
    (SHORT_LONG, [3, 2, 0, 1, 0], False),
    (SHORT_LONG, [3, 2, 0], False),
    (SHORT_LONG, [3, 4294967295, 0], False),
    (SHORT_LONG, [3, 1, 0], False),
    (SHORT_LONG, [3], False),
    # a split wants all options, and a decision that is left
    (SHORT_LONG, [3, 0, 2, 0, 1, 2, 0, 1], True),
    (SHORT_LONG, [3, 0, 2, 0, 1], False),
    (SHORT_LONG, [3, 0, 0, 2, 0, 1], False),
    # the edges of a berth come behind those of the deck
    (SHORT_WIDE, [3, 0, 2, 2, 3, 2, 2, 3], True),
    (SHORT_FLUSH, [3, 0, 2, 2, 4, 2, 4, 3], False),
    # no spot values: a split at x has no options
    (SHORT_LONG, [4, 0, 0, 0], True),
    (SHORT_WIDE, [4, 0, 3, 0, 3, 0], True),
    (SHORT_WIDE, [4, 0, 3, 0], False),
    (SHORT_FLUSH, [4, 0, 3, 0, 3, 0], False),
    (SHORT_FLUSH, [4, 0, 0, 0, 0, 0], False),
    (SHORT_WIDE, [4, 0, 3, 1, 3, 1], False),
    (SHORT_WIDE, [4, 0, 5, 0, 0, 5, 0, 0], False),
    (SHORT_WIDE, [4, 0, 6, 0, 6, 0], False),
    # one tree of each berth, or a leaf at once
    (SHORT_WIDE, [6, 0, 0, 4, 0, 4, 0], True),
    (SHORT_WIDE, [6, 0, 0, 4, 0], False),
    (SHORT_LONG, [6, 8], True),
    (SHORT_FLUSH, [6, 8], False),
    (TWO_LONG, [1, 0], False),
    (TWO_LONG, [1, 0, 1], True),
    (TWO_LONG, [1, 0, 2], False),
    (NARROW_CARGO, [5, 0, 1], True),
    (NARROW_CARGO, [5, 0, 2], False),
    (NARROW_CARGO, [5, 0, 3], False),
    (TWO_LONG, [5, 0, 1], False),
]


def asking(deck, why):
    """A dossier whose only cut is all ships of the deck, in a second chamber, so refuted; in a first chamber each ship is
    served alone. No mark follows, so after a refutation that holds the tree is short."""
    measures, ships = deck
    length, width = (2 + max(size[side] for size in ships) for side in (0, 1))
    most = len(ships)
    lines = ["glock 2", f"chamber a {length} {width} 1 0 0 1 30 0 low 0",
             f"chamber b {' '.join(map(str, measures))} {most} 30 0 low 0"]
    lines += [f"ship s{number} up {size[0]} {size[1]} 0 0 {size[2]}" for number, size in enumerate(ships)]
    plan = [f'{{"chamber":0,"ships":[{number}],"spots":[[1,0,0,0]],"start":{30 * number},"way":0}}' for number in range(most)]
    cut = f'{{"chamber":1,"ships":{list(range(most))},"why":{why}}}'
    cost = sum(30 * number for number in range(1, most + 1))
    lines += ["end", "certificate 3", f'{{"cost":{cost},"cuts":[{cut}],"plan":[{",".join(plan)}],"prices":[],"tree":[]}}', ""]
    return "\n".join(lines)
