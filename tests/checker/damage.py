"""Damages dossiers, the same way at each run: what a checker must refuse, and now and then what it must still accept."""

import json
import re

NUMBERS = [str(n) for n in (0, 1, 2, 3, 4, 5, 6, 7, 8, 9, 10, 11, 12, 23, 24, 25, 33, 34, 95, 96, 97, 99, 100, 101, 105, 106, 110, 255, 256, 257,
                            999, 1000, 1001, 100_000, 100_001, 1_000_000, 1_000_001, 2**32 - 1, 2**32, 2**63 + 99, 2**63 + 100,
                            2**64 - 1, 2**64, 10**30, -1)]
NUMBERS += ["-0", "1.0", "1e2", "1E+2", "0e9", "1e400", "-1e400", "1e-400", "00", "01", "007", "+1", "1.", ".5", "1e", "NaN"]
BYTES = [bytes([b]) for b in b"\0\t\n\r #\"\\/{}[],:-+.eEu0123456789adglnps\x7f\x80\xc3\xa9\xed\xff"]
VALUES = [0, 1, 2, 7, 10, 11, 100, 255, 256, 257, 2**32, -1, 1.5, True, None, "", "0", [], {}, [0], [1, 0], [0, 1],
          [3, 0], [5, 0, 1], [5, 1, 0], [0, 0], [3], [4], [1], [[]], {"chamber": 0}]
STRINGS = [r'"cost"', r'"\u0063ost"', r'"\ud800"', r'"\udc00"', r'"\ud83d\ude00"', r'"\ud83d\u0041"', r'"\x"', r'"\u12g4"',
           '"a\tb"', '"é"', '"', "true", "null", "Infinity", "{}", "[", "]", "[]", ",", ":", " ", "\n", "[" * 127 + "]" * 127]
LINES = [b"certificate", b"certificate 2", b"certificate open", b"certificate 3", b"certificate open 3", b"certificate 4",
         b"certificate open 4", b"certificate 5",
         b"certificate open 2", b"certificate 02", b"Certificate",
         b" \tcertificate\t2 # words", b"# only a comment", b"", b"\r", b"certificate 2 3", b"\xff", b"# \xff", b"end",
         b"end # here", b"end end", b"glock 1", b"glock 2", b"glock 3", b"glock 4", b"close c1 0 20", b"close c1 10 30", b"close c9 0 1",
         b"close c1 5 5", b"close c1 900000 1000000", b"ship s99 up 100 20 0 5", b"ship s98 down 100 20 0 5 3", b"chamber c1",
         b"chamber z 2000 240 10 20 5 4 30 15 high 7", b"chamber z 2000 240 10 20 5 4 14 15 low 0"]


class Dice:
    """Numbers that look random and are the same at each run, in every version of Python."""

    def __init__(self, seed):
        self.state = seed

    def below(self, n):
        self.state = (self.state * 6364136223846793005 + 1442695040888963407) % 2**64
        return (self.state >> 33) % n

    def pick(self, things):
        return things[self.below(len(things))]


def parts(data):
    """The bytes up to the line that begins the second part, that line included, and the JSON value after it."""
    found = re.search(rb"\ncertificate[^\n]*\n", data)
    return data[:found.end()], json.loads(data[found.end():])


def joined(head, value):
    return head + json.dumps(value, separators=(",", ":")).encode() + b"\n"


def a_byte(data, dice):
    at = dice.below(len(data))
    return data[:at] + dice.pick(BYTES + [b""]) + data[at + dice.below(2):]


def cut_short(data, dice):
    return data[:dice.below(len(data))] if dice.below(2) else data[:len(data) - 1 - dice.below(6)]


def lines(data, dice):
    rows = data.split(b"\n")
    i, j = dice.below(len(rows)), dice.below(len(rows))
    kind = dice.below(5)
    if kind == 0:
        rows[i], rows[j] = rows[j], rows[i]
    elif kind == 1:
        del rows[i]
    elif kind == 2:
        rows.insert(j, rows[i])
    elif kind == 3:
        rows.insert(i, dice.pick(LINES))
    else:
        rows[i] = dice.pick(LINES)
    return b"\n".join(rows)


def token(data, dice, pattern, others):
    found = dice.pick(list(re.finditer(pattern, data)))
    return data[:found.start()] + dice.pick(others).encode() + data[found.end():]


def a_number(data, dice):
    head = data.index(b"certificate")
    if dice.below(3):
        return data[:head] + token(data[head:], dice, rb"(?<=[:\[,])[0-9]+", NUMBERS)
    return token(data[:head], dice, rb"[0-9]+", NUMBERS) + data[head:]


def a_string(data, dice):
    head = data.index(b"{")
    return data[:head] + token(data[head:], dice, rb'"[a-z]+"|[0-9]+|[\[\]{},:]', STRINGS)


def a_key_twice(data, dice):
    head = data.index(b"{")
    key = dice.pick(["cost", "cuts", "plan", "tree", "chamber", "ships", "spots", "start", "way", "why", "more"])
    return data[:head] + token(data[head:], dice, rb"\{", ["{" + f'"{key}":{dice.pick(NUMBERS[:12])},'])


def a_word(data, dice):
    head = data.index(b"certificate")
    words = ["up", "down", "low", "high", "s1", "c1", "ship", "chamber", "end", "close", "s.1", "abcdefghijklm", "\r", "é"]
    return token(data[:head], dice, rb"[a-z0-9]+", words + NUMBERS[:4]) + data[head:]


def change(value, dice):
    """One change somewhere in a JSON value."""
    if isinstance(value, dict) and value:
        key = dice.pick(sorted(value))
        kind = dice.below(12)
        if kind == 0:
            del value[key]
        elif kind == 1:
            value[dice.pick(["more", "cost", "why", "tree"])] = dice.pick(VALUES)
        else:
            value[key] = change(value[key], dice)
        return value
    if isinstance(value, list) and value:
        i, j = dice.below(len(value)), dice.below(len(value))
        kind = dice.below(10)
        if kind == 0:
            del value[i]
        elif kind == 1:
            value.insert(j, value[i])
        elif kind == 2:
            value[i], value[j] = value[j], value[i]
        elif kind == 3:
            value.insert(i, dice.pick(VALUES))
        else:
            value[i] = change(value[i], dice)
        return value
    if type(value) is int and dice.below(4):
        return max(0, value + dice.pick([-15, -5, -2, -1, 1, 2, 5, 30]))
    return dice.pick(VALUES)


def a_value(data, dice):
    head, value = parts(data)
    return joined(head, change(value, dice))


def a_mark(data, dice):
    head, value = parts(data)
    tree = value["tree"]
    first_cut = 1000 if head.count(b"\nship ") > 24 else 100
    marks = [*range(7), *range(10, 14), *range(first_cut, first_cut + len(value["cuts"]) + 1)]
    if not tree:
        return a_value(data, dice)
    at, kind = dice.below(len(tree)), dice.below(7)
    if kind == 0:
        del tree[at]
    elif kind == 1:
        tree.insert(at, dice.pick(marks))
    else:
        tree[at] = dice.pick(marks)
    return joined(head, value)


def a_price(data, dice):
    head, value = parts(data)
    if not value.get("prices"):
        return a_value(data, dice)
    own, kind = dice.pick(value["prices"]), dice.below(7)
    prices = own["ships"] if isinstance(own, dict) else own
    at = dice.below(len(prices))
    if kind == 0:
        del prices[at]
    elif kind == 1:
        prices.insert(at, dice.below(9000))
    elif kind == 2:
        value["prices"].insert(0, list(prices) if dice.below(2) else own)
    elif kind == 3:
        value["prices"].pop()
    else:
        prices[at] = max(0, prices[at] + dice.pick([-1000, -100, -1, 1, 100, 2000, 1_000_000]))
    return joined(head, value)


def a_triple(data, dice):
    """Prices get a triple, lose one, or one of its numbers is another."""
    head, value = parts(data)
    if not value.get("prices"):
        return a_value(data, dice)
    at = dice.below(len(value["prices"]))
    if isinstance(value["prices"][at], list):
        value["prices"][at] = {"ships": value["prices"][at], "triples": []}
    triples, kind = value["prices"][at]["triples"], dice.below(6)
    if kind < 3 or not triples:
        first = dice.below(5)
        triples.append([first, first + 1 + dice.below(2), first + 3 + dice.below(2), dice.pick([1, 100, 1000, 10_000, 1_000_000])])
    elif kind == 3:
        del triples[dice.below(len(triples))]
    else:
        triple = dice.pick(triples)
        triple[dice.below(len(triple))] = dice.pick([0, 1, 2, 3, 5, 23, 95, 255, 256, 400, 1_000_001])
    if dice.below(4):
        triples.sort()
        head = re.sub(rb"(certificate(?: open)?) 3\n$", rb"\1 4\n", head)
    return joined(head, value)


def a_cost(data, dice):
    """The plan stays what it is and the cost is another, or a lockage moves and the cost follows: marks fall short."""
    head, value = parts(data)
    lockage = dice.pick(value["plan"]) if value["plan"] else {"start": 0, "ships": []}
    late = 1 + dice.below(40)
    lockage["start"] += late
    if dice.below(4):
        value["cost"] += late * len(lockage["ships"])
    return joined(head, value)


def a_refutation(data, dice):
    head, value = parts(data)
    if not value["cuts"]:
        return a_value(data, dice)
    cut = dice.pick(value["cuts"])
    kind, why = dice.below(6), cut["why"]
    at = dice.below(len(why))
    if kind == 0:
        cut["chamber"] = dice.below(4)
    elif kind == 1:
        cut["ships"] = sorted(set(cut["ships"]) ^ {dice.below(12)})
    elif kind == 2:
        cut["why"] = dice.pick([[0], [1, 0], [1, 0, 1], [2, 0, 1], [1, 1, 2], [5, 0, 1], [4, 0], [3, 1, 0], [1, 7], [2, 250],
                                 [6, 8], [6, 0, 0, 8, 8]])
    elif kind == 3 and len(why) > 1:
        del why[at]
    elif kind == 4:
        why.insert(at, dice.below(9))
    else:
        why[at] = max(0, why[at] + dice.pick([-2, -1, 1, 2, 4]))
    return joined(head, value)


def a_lockage(data, dice):
    head, value = parts(data)
    if not value["plan"]:
        return a_value(data, dice)
    lockage = dice.pick(value["plan"])
    spot = dice.pick(lockage["spots"])
    kind = dice.below(6)
    if kind == 0:
        lockage["start"] = max(0, lockage["start"] + dice.pick([-15, -1, 1, 15]))
    elif kind == 1:
        lockage["chamber"] = dice.below(4)
    elif kind == 2:
        lockage["ships"][-1] = dice.below(dice.pick([25, 97]))
    elif kind == 3:
        spot[0] = max(0, spot[0] + dice.pick([-1, 1, 5, 50]))
    else:
        at = dice.below(4)
        spot[at] = max(0, spot[at] + dice.pick([-1, 1, 2]))
    return joined(head, value)


DAMAGES = [a_byte, cut_short, lines, a_number, a_string, a_key_twice, a_word, a_value, a_value, a_mark, a_mark, a_price,
           a_price, a_triple, a_cost, a_refutation, a_refutation, a_lockage, a_lockage]


def damaged(data, dice):
    """The name of a damage and the damaged dossier; `data` is one that a program wrote."""
    damage = dice.pick(DAMAGES)
    return damage.__name__, damage(data, dice)
