#!/usr/bin/env python3
"""mutants.py PROGRAM [--count N] [--minutes M] [--seed S]: mutates texts, and compares a glock program with other readers.

Instance texts go to `solve --dossier --keep` with few nodes: its refusal must be that of tests/checker/texts.py, and the
dossier that it writes instead must begin with the canonical text and be taken by the second checker. Instances with plan
texts go to `judge`: its first line must be that of texts.py, and its report that of a neat plan. Dossiers of all versions
go to `check` or `lower`, which must answer as the second checker does. What isn't refused is mutated further.

It goes on for so many mutants, or for so many minutes; the same seed makes the same mutants. Where answers differ both are
printed, and the input is kept in a folder. It ends with `N mutants, M different`; the status is 0 where none differs.
"""

import argparse
import dataclasses
import os
import pathlib
import re
import signal
import sys
import tempfile
import time

sys.dont_write_bytecode = True
HERE = pathlib.Path(__file__).resolve().parent
sys.path += [str(HERE.parents[1] / "checker"), str(HERE.parent / "checker"), str(HERE.parent / "rows")]
import texts
from certificates import left_open, priced, swept
from check_dossier import answer
from damage import Dice
from dossier_text import CLOSED_FORMS, OPEN_FORMS, read_dossier
from mutations import mutated_dossier, mutated_plan, mutated_text
from read_rows import ASKED, rows_of
from runs import EXAMPLES, crowd

SECONDS, SHOWN, TOLD = 60, 10, 100_000
LARGEST, MOST_FURTHER, SWEPT = 3000, 300, 6
SEARCH = "solve --workers 1 --dossier --keep --nodes".split()


class Program:
    """Runs of a program, whose input and answer are files without a name: some tenths of a millisecond a run."""

    def __init__(self, path):
        self.path, self.given, self.taken = path, os.memfd_create("given"), os.memfd_create("taken")
        self.files = [(os.POSIX_SPAWN_DUP2, self.given, 0), (os.POSIX_SPAWN_DUP2, self.taken, 1)]

    def run(self, words, data=b""):
        """The answer and the status, which is that of a signal where it doesn't end in time."""
        for file, content in ((self.given, data), (self.taken, b"")):
            os.ftruncate(file, 0)
            os.pwrite(file, content, 0)
            os.lseek(file, 0, os.SEEK_SET)
        process = os.posix_spawn(self.path, [self.path, *words], os.environ, file_actions=self.files)
        signal.signal(signal.SIGALRM, lambda *_: os.kill(process, signal.SIGKILL))
        signal.alarm(SECONDS)
        _, status = os.waitpid(process, 0)
        signal.alarm(0)
        return os.pread(self.taken, os.fstat(self.taken).st_size, 0), os.waitstatus_to_exitcode(status)


# Comparisons: what the program answers, and what others do -----------------------------------------------------------


def compare_instance(program, text, dice):
    found, told = program.run([*SEARCH, dice.pick(["1", "3", "40"])], text), texts.solved(text)
    if told.instance is None:
        return found, (told.line.encode() + b"\n", told.status)
    canonical = texts.canonical(told.instance)
    line, status = answer(found[0], found[1] == 1)
    if found[0].startswith(canonical + b"certificate") and status == found[1] and line.startswith(("accepted", "lower")[status]):
        return found, found
    return found, (canonical + b"certificate ..", f"{line}, status {status}")


def compare_plan(program, text, dice):
    found, told = program.run(["judge"], text), texts.judged(text)
    first = told.line.encode() + b"\n"
    if told.plan is None:
        return found, (first, told.status)
    neat = found[1] == 0 and texts.plan_of_report(found[0].split(b"\n"), told.instance)
    if neat and found[0].startswith(first) and texts.is_neat(told.plan, neat, told.instance):
        return found, found
    return found, (first + b"and a neat report", 0)


def compare_dossier(program, data, dice):
    is_open = (b"\ncertificate open" in data) != (dice.below(20) == 0)
    found, (line, status) = program.run(["lower" if is_open else "check"], data), answer(data, is_open)
    return found, (line.encode() + b"\n", status)


# What is mutated -----------------------------------------------------------------------------------------------------


def with_classes(lot):
    """The lot in format 2, with cargo classes 0 to 2 and closures."""
    lines = lot.replace(b"glock 1", b"glock 2").split(b"\n")
    lines = [line + b" %d" % (number % 3) if line.startswith(b"ship") else line for number, line in enumerate(lines)]
    return b"\n".join(lines).replace(b"\nship", b"\nclose c1 40 90\nclose c1 100 130\nship", 1)


def small_instances(program):
    """Texts of instances of few ships: lots, as they are, in a crowd, and with classes and closures."""
    yield from (path.read_bytes() for path in sorted(EXAMPLES.glob("*.lock")) if path.stat().st_size < 600)
    for ships in (1, 2, 3, 4, 5, 6):
        for chambers in (1, 2, 4):
            lot, _ = program.run(f"lot --number {ships + 10 * chambers} --ships {ships} --chambers {chambers}".split())
            yield from (lot, crowd(lot, 20), with_classes(lot))


def full_instances(program):
    """Texts of instances with as many ships, chambers, closures, lockages, and ships of a lockage, as there may be."""
    lot, _ = program.run("lot --number 1 --ships 24 --chambers 4".split())
    closures = b"".join(b"close c2 %d %d\n" % (start, start + 9) for start in range(1000, 1080, 10))
    lot = lot.replace(b"glock 1", b"glock 2").replace(b"ship", closures + b"ship", 1)
    yield from (lot, lot.replace(b"glock 2", b"glock 3"))
    yield re.sub(rb"(?m)^(chamber(?: \S+){6}) \d", rb"\1 1", lot)
    yield from (program.run(f"lot --number 1 --ships {ships} --chambers {chambers}".split())[0] for ships, chambers in ((25, 1), (96, 4)))
    ships = b"".join(b"ship s%d up 100 20 0 1\n" % number for number in range(9))
    yield b"glock 1\nchamber c1 4000 400 10 20 5 8 30 15 low 0\n" + ships + b"end\n"


def crowds(program):
    """Dossiers of crowds whose searches go on by prices."""
    for ships, chambers in ((8, 1), (10, 1), (10, 2), (12, 1)):
        lot, _ = program.run(f"lot --number {ships} --ships {ships} --chambers {chambers}".split())
        yield program.run(["solve", "--workers", "1", "--dossier"], crowd(lot, 20))[0]


def seeds(program):
    """Instance texts, instances with plan texts, and dossiers, each a text that glock takes."""
    instances, plans = [*full_instances(program), *small_instances(program)], []
    dossiers = [dossier for dossier in crowds(program) if len(dossier) <= LARGEST]
    for text in instances:
        for nodes in ("1", "3", "3000")[:1 if text.count(b"ship ") > 8 else 3]:
            dossier, status = program.run([*SEARCH, nodes], text)
            if status > 1:
                continue
            instance, certificate = read_dossier(dossier, OPEN_FORMS if status else CLOSED_FORMS)
            plans.append(texts.canonical(instance) + texts.text_of(certificate.plan, instance))
            if len(dossier) <= LARGEST:
                dossiers += [dossier, priced(instance, certificate, status == 1)]
            if len(instance.ships) <= SWEPT:
                dossiers += [swept(instance, certificate, status == 1), left_open(instance, certificate)]
    plans.append(b"".join((EXAMPLES / f"evening{end}").read_bytes() for end in (".lock", ".plan")))
    kinds = {b"solve": instances, b"judge": plans, b"play": plans, b"check": dossiers, b"lower": dossiers}
    for path in sorted((HERE.parent / "rows").glob("*.rows")):
        for _, words, data, asked in rows_of(path, ASKED):
            kept = kinds.get(words[0]) if words else None
            if kept is not None and len(data) < LARGEST and (kept is not dossiers or asked.get("status") in (["0"], ["1"])):
                kept.append(data)
    return [sorted(set(each)) for each in (instances, plans, dossiers)]


@dataclasses.dataclass
class Kind:
    """A kind of texts: those that glock takes, some mutants that it takes too, and what was tried."""

    name: str
    mutated: object
    compare: object
    seeds: list
    further: list = dataclasses.field(default_factory=list)
    tried: int = 0
    taken: int = 0

    def next(self, dice):
        return self.mutated(dice.pick(self.further if self.further and dice.below(2) else self.seeds), dice)

    def count(self, data, is_taken, dice):
        self.tried, self.taken = self.tried + 1, self.taken + is_taken
        if is_taken and len(data) < LARGEST:
            self.further.append(data)
            if len(self.further) > MOST_FURTHER:
                del self.further[dice.below(MOST_FURTHER)]


def kinds_of(program):
    instances, plans, dossiers = seeds(program)
    return [Kind("instance texts", mutated_text, compare_instance, instances),
            Kind("plan texts", mutated_plan, compare_plan, plans), Kind("dossiers", mutated_dossier, compare_dossier, dossiers)]


def try_one(program, kind, dice):
    """Whether a mutant of the kind is answered alike, or what to print of it."""
    data = kind.next(dice)
    try:
        found, told = kind.compare(program, data, dice)
    except Exception as error:  # that another reader gives no answer is a difference too
        found, told = (b"?", None), (repr(error), None)
    kind.count(data, found[1] in (0, 1), dice)
    return True if found == told else keep(kind.name, data, found, told)


def keep(what, data, found, told):
    """What to print of a mutant, which is kept."""
    folder = pathlib.Path(tempfile.mkdtemp(prefix="mutant-"))
    (folder / "input").write_bytes(data)
    return f"{what}: {folder}/input\n  glock {found[0][:300]}, {found[1]}\n  other {told[0][:300]}, {told[1]}"


def try_many(program, kinds, dice, is_over):
    """How many mutants were tried and how many are answered differently; an interrupt ends it too."""
    tried = different = 0
    try:
        while not is_over(tried):
            answered = try_one(program, kinds[dice.pick([0, 1, 1, 2, 2])], dice)
            tried, different = tried + 1, different + (answered is not True)
            if answered is not True and different <= SHOWN:
                print(answered, flush=True)
            if tried % TOLD == 0:
                print(f"{tried} mutants, {different} different", flush=True)
    except KeyboardInterrupt:
        pass
    return tried, different


def main():
    words = argparse.ArgumentParser(description=__doc__.split(": ", 1)[1].split("\n")[0])
    words.add_argument("program")
    words.add_argument("--count", type=int, default=20_000, help="so many mutants, where no minutes are given (20,000)")
    words.add_argument("--minutes", type=float, help="go on for so long")
    words.add_argument("--seed", type=int, default=1)
    given = words.parse_args()
    program = Program(str(pathlib.Path(given.program).resolve()))
    kinds, end = kinds_of(program), time.monotonic() + 60 * (given.minutes or 0)
    tried, different = try_many(program, kinds, Dice(given.seed * 1_000_003),
                                lambda tried: time.monotonic() >= end if given.minutes else tried >= given.count)
    for kind in kinds:
        print(f"{kind.name}: {len(kind.seeds)} seeds, {kind.tried} mutants, {kind.taken} of them not refused")
    print(f"{tried} mutants, {different} different, seed {given.seed}")
    return 0 if tried and not different else 1


if __name__ == "__main__":
    sys.exit(main())
