"""Reads a dossier: its instance text, its JSON text, and the form of what stands there.

`read_dossier` gives the instance and the certificate, or raises the answer with the first fault. What the numbers
mean is checked elsewhere (check_dossier.py). Comments name headings of the pages in docs/.
"""

import functools
import itertools
import json
import math
import re
import sys
from collections import namedtuple


class Answer(Exception):
    """A line to be printed and its status, where the check ends early."""


class Refused(Exception):
    """What is asked doesn't hold: carries the kind of a defect where one is named, and then its line."""


def require(holds, *kind, value=None):
    """The value, where what is asked of it holds."""
    if not holds:
        raise Refused(*kind)
    return value


# The instance text (formats.md, Instance text) -----------------------------------------------------------------------

FEW_SHIPS, SHIPS = 24, 96  # formats 1 and 2 have the few; an instance with more of them is a large one
Chamber = namedtuple("Chamber", "name length width end gap side most passage turn stands opens closures")
Ship = namedtuple("Ship", "name way length width arrival handling cargo")
Instance = namedtuple("Instance", "chambers ships")

KINDS = ("NotUtf8 NoHeader Word Count Number Range Name Twice TurnOverPass NoChamber NoShip NoEnd Unknown Overlap"
         .split())


def words_of(line):
    """The words of a line, which stands here without its line feed."""
    text = line.removesuffix(b"\r").split(b"#", 1)[0]
    return [word for word in text.replace(b"\t", b" ").split(b" ") if word]


def number_in(least, greatest, word):
    require(re.fullmatch(rb"[0-9]+", word), "Number")
    digits = word.lstrip(b"0") or b"0"
    require(len(digits) <= 10 and least <= int(digits) <= greatest, "Range")
    return int(digits)


def choice_of(choices, word):
    return choices.index(require(word in choices, "Word", value=word))


def name_of(word, others=()):
    require(re.fullmatch(rb"[A-Za-z0-9_-]{1,12}", word), "Name")
    return require(all(word != other.name for other in others), "Twice", value=word)


def limits(least, greatest):
    return functools.partial(number_in, least, greatest)


LENGTH, GAP, MINUTE = limits(1, 100_000), limits(0, 10_000), limits(0, 1_000_000)
# A way and the side that it needs have the same number, 0 or 1; the way leaves the chamber at the other side.
WAY, SIDE = functools.partial(choice_of, (b"up", b"down")), functools.partial(choice_of, (b"low", b"high"))
CHAMBER_WORDS = (LENGTH, LENGTH, GAP, GAP, GAP, limits(1, 8), limits(1, 1_000_000), MINUTE, SIDE, MINUTE)
SHIP_WORDS = (WAY, LENGTH, LENGTH, MINUTE, MINUTE, limits(0, 9))


def read_chamber(words, chambers):
    require(len(words) == 12, "Count")
    require(len(chambers) < 4, "Range")
    chamber = Chamber(name_of(words[1], chambers), *(read(word) for read, word in zip(CHAMBER_WORDS, words[2:])), [])
    chambers.append(require(chamber.turn <= chamber.passage, "TurnOverPass", value=chamber))


def read_ship(words, ships, version):
    require(len(words) == 7 or len(words) == 8 and version > 1, "Count")
    require(len(ships) < (SHIPS if version == 3 else FEW_SHIPS), "Range")
    ships.append(Ship(name_of(words[1], ships), *(read(word) for read, word in zip(SHIP_WORDS, (words + [b"0"])[2:8]))))


def read_closure(words, chambers):
    require(len(words) == 4, "Count")
    called = name_of(words[1])
    named = [chamber.closures for chamber in chambers if chamber.name == called]
    closures, = require(named, "Unknown", value=named)
    require(len(closures) < 8, "Range")
    start, stop = (MINUTE(word) for word in words[2:])
    require(start < stop and all(stop <= a or b <= start for a, b in closures), "Overlap")
    closures.append((start, stop))
    closures.sort()


def read_instance(text):
    """The instance of the lines up to `end`, or the first defect with its line."""
    version, chambers, ships, at = None, [], [], 1
    try:
        text.decode("utf-8")
        for at, words in enumerate(map(words_of, text.split(b"\n")), 1):
            if not words:
                continue
            if version is None:
                require(words in ([b"glock", b"1"], [b"glock", b"2"], [b"glock", b"3"]), "NoHeader")
                version = int(words[1])
            elif words[0] == b"chamber":
                read_chamber(words, chambers)
            elif words[0] == b"ship":
                read_ship(words, ships, version)
            elif words[0] == b"close" and version > 1:
                read_closure(words, chambers)
            else:
                require(words[0] == b"end", "Word")
                require(len(words) == 1, "Count")
                require(chambers, "NoChamber")
                require(ships, "NoShip")
                return Instance(chambers, ships)
        raise Refused("NoHeader" if version is None else "NoEnd")
    except UnicodeDecodeError as bad:
        raise Refused("NotUtf8", text.count(b"\n", 0, bad.start) + 1)
    except Refused as defect:
        raise Refused(*defect.args, at)


# The JSON text (dossier.md, What is JSON) ----------------------------------------------------------------------------

STRING = re.compile(r'"(?:[^"\\]|\\.)*"', re.DOTALL)


def json_number(text):
    """The number where it is written in digits alone and below 2^64; None stands for every other number."""
    if not math.isfinite(float(text)):
        raise ValueError("too large, or no number")
    return int(text) if text.isdigit() and len(text) <= 20 and int(text) < 2**64 else None


def read_json(data):
    """The value of a JSON text, read strictly: a ValueError for all that is none."""
    text = data.decode("utf-8")
    steps = (1 if sign in "[{" else -1 for sign in re.findall(r"[][{}]", STRING.sub("", text)))
    if max(itertools.accumulate(steps), default=0) > 127:
        raise ValueError("nested too deep")
    value = json.loads(text, parse_int=json_number, parse_float=json_number, parse_constant=json_number)
    for string in STRING.findall(text):
        json.loads(string).encode("utf-8")  # half a surrogate pair has no UTF-8
    return value


# The form of a dossier (dossier.md, The object; What has the form) ---------------------------------------------------

SPLIT, BOUND, THROUGHPUT, OPEN_LEAF, PRICE, SWEEP, OPEN_PRICE, FIRST_PROBE = 0, 1, 2, 3, 4, 5, 6, 10
CLOSED, OPEN = (SPLIT, BOUND, THROUGHPUT), (SPLIT, BOUND, THROUGHPUT, OPEN_LEAF)
# The line that begins a dossier's second part says what the object may hold: kinds of reasons, marks of one number, and of
# two, of which the second says which prices, and prices of triples. Its plan has at most so many lockages, and a list of
# prices so many numbers, as the greater of the few ships and those of the instance.
Form = namedtuple("Form", "reasons marks pairs triples ships", defaults=[CLOSED, (), False, FEW_SHIPS])
CLOSED_FORMS = {(b"certificate",): Form(5), (b"certificate", b"2"): Form(6), (b"certificate", b"3"): Form(7, CLOSED, (PRICE,)),
                (b"certificate", b"4"): Form(7, CLOSED, (PRICE, SWEEP), True)}
OPEN_FORMS = {(b"certificate", b"open"): Form(6, OPEN), (b"certificate", b"open", b"3"): Form(7, OPEN, (PRICE,)),
              (b"certificate", b"open", b"4"): Form(7, OPEN, (PRICE, SWEEP, OPEN_PRICE), True)}

Certificate = namedtuple("Certificate", "cost cuts plan tree prices", defaults=[()])
Mark = namedtuple("Mark", "kind prices")  # prices: their number, of a mark of two numbers
Prices = namedtuple("Prices", "ships triples")  # a triple: its three ships and its price
Cut = namedtuple("Cut", "chamber ships why")  # why: the number of its kind, and the rest
Lockage = namedtuple("Lockage", "chamber ships spots start way")
Spot = namedtuple("Spot", "x y rank moor")

BYTE, WORD, LONG, PRICES = 2**8, 2**32, 2**64, 1_000_001
AREA, ROW, COLUMN, CASE_TREE, SPOT_TREE, CLASH, BERTH_TREE = range(7)
NAMED_SHIPS = {AREA: (0, 0), ROW: (1, 8), COLUMN: (1, 8), CLASH: (2, 2)}
LAST_PROBE, FIRST_CUT = (33, 105), (100, 1_000)  # of other instances, and of large ones


def whole(value, limit):
    """The value, where it is a whole number below the limit."""
    return require(type(value) is int and value < limit, value=value)


def items(value, least=0, most=sys.maxsize):
    return require(type(value) is list and least <= len(value) <= most, value=value)


def fields(value, names):
    """The values of an object that has exactly these keys."""
    require(type(value) is dict and set(value) == set(names))
    return [value[name] for name in names]


def rising(value, least=1, most=8):
    numbers = tuple(whole(number, BYTE) for number in items(value, least, most))
    return require(all(a < b for a, b in zip(numbers, numbers[1:])), value=numbers)


def read_why(value, form):
    kind, rest = items(value, 1)[0], value[1:]
    require(type(kind) is int and kind < form.reasons)
    if kind in (CASE_TREE, SPOT_TREE, BERTH_TREE):
        return kind, [whole(number, WORD) for number in rest]
    return kind, rising(rest, *NAMED_SHIPS[kind])


def read_cuts(value, form):
    cuts = (fields(cut, Cut._fields) for cut in items(value))
    return [Cut(whole(chamber, BYTE), rising(ships), read_why(why, form)) for chamber, ships, why in cuts]


def read_spot(value):
    x, y, rank, moor = items(value, 4, 4)
    return Spot(whole(x, WORD), whole(y, WORD), whole(rank, 2), whole(moor, BYTE + 1))


def read_plan(value, form):
    plan = []
    for lockage in items(value, 0, form.ships):
        chamber, ships, spots, start, way = fields(lockage, Lockage._fields)
        ships = rising(ships)
        spots = [read_spot(spot) for spot in items(spots, len(ships), len(ships))]
        plan.append(Lockage(whole(chamber, BYTE), ships, spots, whole(start, WORD), whole(way, 2)))
    return plan


def read_tree(value, form):
    marks, numbers, is_large = [], iter(items(value)), form.ships > FEW_SHIPS
    for kind in numbers:
        whole(kind, FIRST_CUT[is_large] + 2**63)
        require(kind in form.marks + form.pairs or FIRST_PROBE <= kind <= LAST_PROBE[is_large] or kind >= FIRST_CUT[is_large])
        marks.append(Mark(kind, whole(next(numbers, None), 2**63) if kind in form.pairs else None))
    return marks


def read_prices(value, form):
    """Prices are a list where no triple has one, and else an object, where the form has triples."""
    has_triples = form.triples and type(value) is dict
    ships, triples = fields(value, Prices._fields) if has_triples else (value, [])
    triples = [(*rising(items(it, 4, 4)[:3]), whole(it[3], PRICES)) for it in items(triples, has_triples, 255)]
    require(all(price > 0 for *_, price in triples) and all(a[:3] < b[:3] for a, b in zip(triples, triples[1:])))
    return Prices([whole(price, PRICES) for price in items(ships, 1, form.ships)], triples)


READERS = {"cost": lambda value, form: whole(value, LONG), "cuts": read_cuts, "plan": read_plan, "tree": read_tree,
           "prices": lambda value, form: [read_prices(prices, form) for prices in items(value)]}


def read_object(value, form):
    part, keys = 1, Certificate._fields[:5 if form.pairs else 4]
    try:
        contents, read = fields(value, keys), {}
        for part, (key, content) in enumerate(zip(keys, contents), 2):
            read[key] = READERS[key](content, form)
        return Certificate(**read)
    except Refused:
        raise Answer(f"dossier fault 4 Shape part {part}", 7)


def first_line(data, at, is_wanted):
    """The words of the first line from a place on whose words are wanted, and the place after that line."""
    for line in data[at:].split(b"\n"):
        at, words = at + len(line) + 1, words_of(line)
        if is_wanted(words):
            break
    return tuple(words), at


def read_dossier(data, forms):
    """The instance and the certificate of a dossier, or its first fault."""
    _, at = first_line(data, 0, lambda words: words == [b"end"])
    try:
        instance = read_instance(data[:at])
    except Refused as defect:
        kind, line = defect.args
        raise Answer(f"dossier fault 1 Instance line {line} fault {KINDS.index(kind) + 1} {kind}", 7)
    words, at = first_line(data, at, lambda words: words)
    if words not in forms:
        raise Answer("dossier fault 2 NoMark", 7)
    try:
        value = read_json(data[at:])
    except ValueError:
        raise Answer("dossier fault 3 Json", 7)
    return instance, read_object(value, forms[words]._replace(ships=max(FEW_SHIPS, len(instance.ships))))
