"""Damaged texts: instances, plans and dossiers with bytes, words and lines changed. Each is answered or refused by name."""

import pathlib
import sys

from runs import listed

sys.path.append(str(pathlib.Path(__file__).resolve().parents[1] / "checker"))
from damage import Dice, damaged

NUMBERS = [b"0", b"1", b"9", b"24", b"25", b"96", b"97", b"255", b"256", b"99999", b"100000", b"100001", b"1000000", b"1000001",
           b"4294967296", b"18446744073709551616", b"-1", b"+1", b"01", b"1.5", b""]
PIECES = [b"ship", b"chamber", b"close", b"glock 2", b"glock 3", b"end", b"plan", b"#", b"\r", b"\t", b"\0", b"\xff", b" ", b"up", b"down"]
COPIES = 6
SMALL = ["--nodes", "3000"]


def one_change(data, dice):
    """The text with a byte, a word or a line changed, doubled or gone."""
    kind = dice.below(4)
    if kind == 0:
        at = dice.below(len(data) + 1)
        return data[:at] + dice.pick(PIECES) + data[at + dice.below(2):]
    lines = data.split(b"\n")
    at = dice.below(len(lines))
    if kind == 1:
        words = lines[at].split(b" ")
        words[dice.below(len(words))] = dice.pick(NUMBERS)
        lines[at] = b" ".join(words)
    elif kind == 2:
        lines.insert(dice.below(len(lines)), lines[at])
    else:
        del lines[at]
    return b"\n".join(lines)


def changed(command, dice):
    if command.words[0] in ("check", "lower", "resume"):
        return damaged(command.data, dice)[1]
    data = command.data
    for _ in range(1 + dice.below(2)):
        data = one_change(data, dice)
    return data


def cases(runner, runs, number):
    dice = Dice(1_000_033 * number + 29)
    for command in runs:
        if not command.reads():
            continue
        words = command.words
        if words[0] in ("solve", "replan", "resume") and "--nodes" not in words:
            words = words + SMALL
        for _ in range(COPIES):
            yield listed(runner, "a damaged text", words, changed(command, dice))
