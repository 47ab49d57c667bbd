"""Mutations of instance texts, plan texts and dossiers: numbers a little changed, words, lines and bytes changed, trees cut
and grown. Many leave a text that glock takes."""

import re

from certificates import grafted
from damage import damaged
from dossier_text import CLOSED_FORMS, OPEN_FORMS, Answer, first_line, read_dossier

NUMBERS = [b"0", b"1", b"2", b"7", b"8", b"9", b"10", b"24", b"25", b"96", b"97", b"255", b"256", b"9999", b"10000", b"10001", b"99999",
           b"100000", b"100001", b"999999", b"1000000", b"1000001", b"1000000000", b"1000000001", b"4294967296",
           b"18446744073709551616", b"-1", b"+1", b"01", b"007", b"00000000000000000001", b"1.5", b"1e3", b"", b"0x1"]
WORDS = [b"up", b"down", b"low", b"high", b"left", b"right", b"*", b"end", b"plan", b"lockage", b"berth", b"ship", b"chamber",
         b"close", b"glock", b"Up", b"abcdefghijkl", b"abcdefghijklm", b"a.b", b"s1", b"s2", b"c1", b"c2", b"_-", b"\xc3\xa9"]
PIECES = [b"#", b" # x", b"\r", b"\r\r", b"\t", b" ", b"\n", b"\0", b"\xff", b"\xc3", b"\xc3\xa9", b"\xef\xbb\xbf", b"\x0b",
          b"\xc2\xa0", b"\xed\xa0\x80"]
LINES = [b"glock 1", b"glock 2", b"glock 3", b"glock 4", b"glock 01", b"end", b"end # x", b"end end", b"", b"# x", b"\xff", b"plan", b"plan x",
         b"berth s1 0 0 left *", b"lockage c1 up 0", b"lockage c1 down 1000000000", b"close c1 0 5", b"close c1 5 5",
         b"close c1 999999 1000000", b"ship s1 up 100 20 0 5", b"ship z up 100 20 0 5 9", b"ship y down 100000 1 1000000 0",
         b"chamber c1 2000 240 10 20 5 4 30 15 low 0", b"chamber z 2000 240 0 0 0 8 1000000 1000000 high 1000000"]
STEPS = [-15, -5, -2, -1, -1, 1, 1, 2, 5, 15, 30, 100]


def another_number(text, dice):
    """A number is a little greater or less, or one at a limit."""
    numbers = list(re.finditer(rb"(?<![^\s])[0-9]+(?![^\s])", text))
    if not numbers:
        return text
    found = dice.pick(numbers)
    number = b"%d" % max(0, int(found[0]) + dice.pick(STEPS)) if dice.below(4) else dice.pick(NUMBERS)
    return text[:found.start()] + number + text[found.end():]


def another_word(text, dice):
    """A word is another one, one of another line, gone or there twice."""
    lines = text.split(b"\n")
    at = dice.below(len(lines))
    words, other = lines[at].split(b" "), lines[dice.below(len(lines))].split(b" ")
    place = dice.below(len(words))
    words[place:place + 1] = dice.pick([[dice.pick(other)], [dice.pick(WORDS)], [], [words[place]] * 2])
    lines[at] = b" ".join(words)
    return b"\n".join(lines)


def another_line(text, dice):
    """A line is another one, in the place of another, gone, or there more than once."""
    lines = text.split(b"\n")
    at, other = dice.below(len(lines)), dice.below(len(lines))
    if dice.below(3) == 0:
        lines[at], lines[other] = lines[other], lines[at]
    else:
        lines[at:at + 1] = dice.pick([[], [lines[at]] * 2, [dice.pick(LINES)], [lines[at], dice.pick(LINES)], [lines[at]] * 9])
    return b"\n".join(lines)


def another_byte(text, dice):
    at = dice.below(len(text) + 1)
    return text[:at] + dice.pick(PIECES) + text[at + dice.below(2):]


MUTATIONS = [another_number] * 6 + [another_word] * 3 + [another_line] * 2 + [another_byte]


def mutated_text(text, dice):
    for _ in range(dice.pick([1, 1, 1, 2, 2, 3, 5])):
        text = dice.pick(MUTATIONS)(text, dice)
    return text


def mutated_plan(text, dice):
    """Mostly the plan text alone is mutated, which follows the instance."""
    at = first_line(text, 0, lambda words: words == [b"end"])[1] if dice.below(5) else 0
    return text[:at] + mutated_text(text[at:], dice)


def another_tree(data, dice):
    """The dossier with another tree somewhere in its tree."""
    line = re.search(rb"(?:^|\n)(certificate[a-z0-9 ]*)\n", data)[1]
    is_open = line.startswith(b"certificate open")
    return grafted(*read_dossier(data, OPEN_FORMS if is_open else CLOSED_FORMS), is_open, line, dice)


def mutated_dossier(data, dice):
    for _ in range(dice.pick([1, 1, 1, 2, 3])):
        try:
            data = damaged(data, dice)[1] if dice.below(4) else another_tree(data, dice)
        except (Answer, ArithmeticError, AttributeError, LookupError, TypeError, ValueError):
            break  # an earlier damage left nothing that this one damages
    return data
