"""Odd words: words of every kind, most of them bad. Bad words are refused before anything is read."""

import pathlib
import sys

from runs import listed

sys.path.append(str(pathlib.Path(__file__).resolve().parents[1] / "checker"))
from damage import Dice

COMMANDS = ["solve", "trial", "lot", "check", "judge", "play", "replan", "lower", "resume", "Solve", "help", "", "-", "--"]
OPTIONS = ["--nodes", "--turns", "--workers", "--dossier", "--keep", "--from", "--now", "--number", "--ships", "--chambers",
           "--node", "-n", "--nodes=7", "--help", "--version", "--workers=2", "é", "\\xff", "--dossier=1", "@file", "*"]
NUMBERS = ["0", "1", "2", "8", "9", "24", "25", "96", "97", "255", "256", "00", "+1", "-1", "1.0", "1e3", "0x10", " 1", "1 ", "",
           "1000000", "1000001", "4294967295", "4294967296", "18446744073709551615", "18446744073709551616", "9" * 400]
COUNT = 60


def words_of(dice):
    words = [dice.pick(COMMANDS)] if dice.below(20) else []
    for _ in range(dice.below(5)):
        words.append(dice.pick(OPTIONS if dice.below(3) else COMMANDS))
        if dice.below(3):
            words.append(dice.pick(NUMBERS))
    return [word.replace("\\xff", "\udcff") for word in words]


def cases(runner, runs, number):
    dice = Dice(1_000_003 * number + 17)
    small = [command.data for command in runs if len(command.data) < 2000]
    for _ in range(COUNT):
        yield listed(runner, "odd words", words_of(dice), dice.pick(small))
