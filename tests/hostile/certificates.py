"""Dossiers made of ones that a program wrote: with price marks, with a swept root, with leaves that prices leave open, and with
another tree somewhere in their tree."""

import json

import texts
from check_dossier import Bounds, Node, end_of
from dossier_text import (BOUND, FEW_SHIPS, FIRST_CUT, FIRST_PROBE, OPEN_LEAF, OPEN_PRICE, PRICE, SPLIT, SWEEP, THROUGHPUT, Mark,
                          Prices)
from price_bound import PriceBound


def written(instance, certificate, is_open, line):
    """The dossier of this certificate, under this line."""
    plan = [{"chamber": each.chamber, "ships": list(each.ships), "spots": [list(spot) for spot in each.spots],
             "start": each.start, "way": each.way} for each in certificate.plan]
    cuts = [{"chamber": cut.chamber, "ships": list(cut.ships), "why": [cut.why[0], *cut.why[1]]} for cut in certificate.cuts]
    tree = [number for mark in certificate.tree for number in mark if number is not None]
    value = {"cost": certificate.cost, "cuts": cuts, "plan": plan, "tree": tree}
    if line.endswith((b" 3", b" 4")):
        value["prices"] = [prices._asdict() if prices.triples else prices.ships for prices in certificate.prices]
    return texts.canonical(instance) + line + b"\n" + json.dumps(value, separators=(",", ":"), sort_keys=True).encode() + b"\n"


def walked(instance, marks):
    """The nodes of a whole tree in the order of its marks, each with its mark and with the place of the first mark behind
    its own tree."""
    bounds, nodes, due = Bounds(instance), [], [(Node(0, ((),) * len(instance.chambers)), ())]
    for place, mark in enumerate(marks):
        node, above = due.pop()
        nodes.append([node, mark, place + 1])
        if mark.kind == SPLIT:
            due += [(child, above + (place,)) for child in reversed(bounds.children(node))]
        for p in above:
            nodes[p][2] = place + 1
    return nodes


def prices_of(instance, plan):
    """What each ship takes in the plan, in hundredths, and the same raised by half a turn of the first chamber; no triples."""
    flow = [0] * len(instance.ships)
    for lockage in plan:
        for s in lockage.ships:
            flow[s] = 100 * (end_of(instance, lockage) - instance.ships[s].arrival)
    more = 50 * instance.chambers[0].turn
    return [Prices([min(price + raised, 1_000_000) for price in flow], []) for raised in (0, more)]


def with_triples(instance, certificate):
    """The prices of the certificate, or else of its plan, with a price for each three ships that follow each other."""
    triples = [(s, s + 1, s + 2, 500) for s in range(len(instance.ships) - 2)]
    return [prices._replace(triples=prices.triples or triples) for prices in certificate.prices or prices_of(instance, certificate.plan)]


def priced(instance, certificate, is_open):
    """The dossier in which a price mark ends each node that reaches the cost by some prices."""
    prices = list(certificate.prices) or prices_of(instance, certificate.plan)
    bound, nodes, tree, place = PriceBound(instance, certificate.cuts, prices), walked(instance, certificate.tree), [], 0
    while place < len(nodes):
        node, mark, behind = nodes[place]
        reached = [v for v in range(len(prices)) if bound.reaches(node, v, certificate.cost)]
        tree.append(Mark(PRICE, reached[0]) if reached else mark)
        place = behind if reached else place + 1
    line = (b"certificate open %d" if is_open else b"certificate %d") % (4 if any(own.triples for own in prices) else 3)
    return written(instance, certificate._replace(prices=prices, tree=tree), is_open, line)


def swept(instance, certificate, is_open):
    """The dossier of the fourth version whose root is closed by a sweep, which holds where the certificate has the cuts for it."""
    line = b"certificate open 4" if is_open else b"certificate 4"
    return written(instance, certificate._replace(prices=with_triples(instance, certificate), tree=[Mark(SWEEP, 0)]), is_open, line)


def left_open(instance, certificate):
    """The open dossier of the fourth version in which each leaf of the tree is open by some prices."""
    prices = with_triples(instance, certificate)
    tree = [mark if mark.kind == SPLIT else Mark(OPEN_PRICE, place % len(prices)) for place, mark in enumerate(certificate.tree)]
    return written(instance, certificate._replace(prices=prices, tree=tree), True, b"certificate open 4")


def grafted(instance, certificate, is_open, line, dice):
    """The dossier with a leaf, or a split and its leaves, in the place of the tree of some node."""
    nodes, bounds = walked(instance, certificate.tree), Bounds(instance)
    first_cut = FIRST_CUT[len(instance.ships) > FEW_SHIPS]
    place = dice.below(len(nodes))
    node, _, behind = nodes[place]

    def leaf(node):
        missing, kinds = bounds.order[node.depth:], [BOUND, BOUND, THROUGHPUT] + [OPEN_LEAF] * is_open
        kinds += [FIRST_PROBE + s for s in missing[:1]] + [first_cut + dice.below(len(certificate.cuts) + 1)]
        pairs = [PRICE] * 2 if line.endswith((b" 3", b" 4")) else []
        pairs += [SWEEP] * 2 if line.endswith(b" 4") else []
        pairs += [OPEN_PRICE] * 2 if line == b"certificate open 4" else []
        kind = dice.pick(kinds + pairs)
        return Mark(kind, dice.below(len(certificate.prices) + 1) if kind in pairs else None)

    is_split = node.depth < len(instance.ships) and dice.below(3) > 0
    tree = [Mark(SPLIT, None)] + [leaf(child) for child in bounds.children(node)] if is_split else [leaf(node)]
    marks = certificate.tree[:place] + tree + certificate.tree[behind:]
    return written(instance, certificate._replace(tree=marks), is_open, line)
