"""Compares `check` of a glock program with the second checker: compare.py GLOCK [DOSSIER ..]

Without dossiers the program writes some: of lots of several sizes, as they are, with all ships in a queue, and with
cargo classes and closures, and of lots of more than 24 ships; open ones too where it knows `solve --keep`, which are compared with its `lower`. To them
come trees.dossier, whose cuts have a case tree and a spot tree, prices.dossier, whose cut has a berth tree and whose
root is closed by prices, triples.dossier, where it takes the price of a triple, and open_by_prices.dossier, which has an
open leaf by prices. Each is compared as it is and in damaged copies.
Prints the first differences and `N equal, M different`; the status is 0 where something was compared and nothing
differs."""

import pathlib
import subprocess
import sys

sys.dont_write_bytecode = True
sys.path.append(str(pathlib.Path(__file__).resolve().parents[2] / "checker"))
from check_dossier import answer
from damage import Dice, damaged

COPIES, NODES, SHOWN = 14, 2000, 5


def run(glock, words, data=b""):
    done = subprocess.run([glock, *map(str, words)], input=data, capture_output=True)
    return done.stdout.decode("utf-8", "replace"), done.returncode


def edited(text, edit):
    """An instance text with each line's list of words edited."""
    return "".join(" ".join(edit(line.split(), number)) + "\n" for number, line in enumerate(text.splitlines()))


def in_a_queue(words, number):
    return words[:5] + [str(int(words[5]) % 21)] + words[6:] if words[0] == "ship" else words


def with_classes(words, number):
    """Format 2: cargo classes 0 to 2, and a closure behind each chamber."""
    more = {"glock": ["2"], "ship": words[1:] + [str(number % 3)],
            "chamber": words[1:] + ["\nclose", *words[1:2], str(40 + number), "90"]}
    return words[:1] + more.get(words[0], [])


def written(glock):
    """The dossiers that stand here and those that the program writes, each with its name."""
    for name in ("trees.dossier", "prices.dossier", "triples.dossier", "open_by_prices.dossier"):
        yield name, pathlib.Path(__file__).with_name(name).read_bytes()
    count = 0
    for ships in (2, 4, 6, 8, 10, 12, 26, 32):
        lot, _ = run(glock, ["lot", "--number", ships, "--ships", ships, "--chambers", 1 + ships // 2 % 3])
        kinds = (("lot", lot), ("classes", edited(lot, with_classes)), ("queue", edited(lot, in_a_queue)))
        for name, text in kinds[:1] if ships > 24 else kinds:
            by_prices = ships > 24 or name == "queue" and ships > 8  # these take a search by prices
            nodes = [] if by_prices else ["--nodes", NODES]
            for words, status in ((["--dossier", *nodes], 0), (["--keep", "--nodes", 4], 1)):
                dossier, ended = run(glock, ["solve", "--workers", 1, *words], text.encode())
                if ended == status and "\ncertificate" in dossier:
                    count += 1
                    yield f"{name} of {ships} ships, {words[0]}", dossier.encode()
    if count == 0:
        sys.exit("the program wrote no dossier")


def second_answer(data, is_open):
    try:
        return answer(data, is_open)
    except Exception as error:  # no answer at all is a difference too, whatever the reason
        return repr(error), None


def main():
    glock = str(pathlib.Path(sys.argv[1]).resolve())
    given = [(name, pathlib.Path(name).read_bytes()) for name in sys.argv[2:]]
    equal = different = 0
    for name, dossier in given or written(glock):
        is_open, dice = b"\ncertificate open" in dossier, Dice(len(dossier))
        for damage, data in [("as written", dossier)] + [damaged(dossier, dice) for _ in range(COPIES)]:
            text, status = run(glock, ["lower" if is_open else "check"], data)
            first, second = (text.removesuffix("\n"), status), second_answer(data, is_open)
            equal, different = equal + (first == second), different + (first != second)
            if first != second and different <= SHOWN:
                print(f"{name}, {damage}: glock {first}, second checker {second}, over {data[:700]!r}")
    print(f"{equal} equal, {different} different")
    return 0 if equal and not different else 1


if __name__ == "__main__":
    sys.exit(main())
