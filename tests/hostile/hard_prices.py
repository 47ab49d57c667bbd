#!/usr/bin/env python3
"""hard_prices.py PROGRAM: dossiers whose prices are hard to check, and what checking each of them takes.

Prices at their limit on lots, over closures, and where ships arrive 40,000 minutes apart; and price marks that all hold,
35,280 of them. In the campaign (run.py) each is answered as expected, within a limit of memory. Run by itself it prints
seconds and memory of each, and has ten times as many marks.
"""

import json
import pathlib
import resource
import subprocess
import sys
import time

sys.path.append(str(pathlib.Path(__file__).resolve().parents[2] / "checker"))
from check_dossier import Bounds, Node
from dossier_text import CLOSED_FORMS, read_dossier
from runs import Wrong, crowd

MOST, LIMIT = 1_000_000, 400 * 1024
ROOT_FAILS = (7, b"rejected tree 0 reason 13 PriceLow\n")


def far_apart(ships):
    """One chamber, and ships of both ways that arrive up to the last minute of all, as far apart as can be."""
    lines = ["glock 3", "chamber c1 2000 240 10 20 5 4 30 15 low 0"]
    lines += [f"ship s{s} {'up' if s % 2 else 'down'} 1100 114 {s * MOST // ships} 5" for s in range(ships)]
    return ("\n".join([*lines, "end"]) + "\n").encode()


def narrow(ships):
    """One chamber that takes two ships at a time, and ships that come within some minutes."""
    lines = ["glock 1", "chamber c1 2300 120 0 0 0 2 30 15 low 0"]
    lines += [f"ship s{s} up 1100 114 {s} 5" for s in range(ships)]
    return ("\n".join([*lines, "end"]) + "\n").encode()


def parts(dossier):
    """The instance text, and the object."""
    text, rest = dossier.split(b"certificate", 1)
    return text, json.loads(rest.split(b"\n", 1)[1])


def priced(dossier, prices, tree):
    """The dossier with these prices and this tree."""
    text, value = parts(dossier)
    value["prices"], value["tree"] = prices, tree
    return text + b"certificate 3\n" + json.dumps(value, sort_keys=True, separators=(",", ":")).encode() + b"\n"


def at_limit(dossier):
    """The dossier with prices at their limit, which are to close its root."""
    ships = sum(line.startswith(b"ship ") for line in dossier.split(b"\n"))
    return priced(dossier, [[MOST] * ships], [4, 0])


def all_leaves(dossier):
    """The dossier with the whole tree of its instance: each node with all ships is closed by prices of nothing."""
    instance, _ = read_dossier(dossier, CLOSED_FORMS)
    bounds, tree = Bounds(instance), []
    due = [Node(0, ((),) * len(instance.chambers))]
    while due:
        node = due.pop()
        if bounds.order[node.depth:]:
            tree.append(0)
            due += reversed(bounds.children(node))
        else:
            tree += [4, 0]
    return priced(dossier, [[0] * len(instance.ships)], tree)


def dossiers(runner, ships=7):
    """What each is, its bytes, and its answer; `ships` are those whose whole tree is marked."""
    solved = lambda text: runner.run(["solve", "--dossier", "--workers", "1"], text).text
    lot = lambda ships, chambers: runner.run(f"lot --number 3 --ships {ships} --chambers {chambers}".split()).text
    lots = [lot(24, 1), lot(24, 4)]
    closed = lots[0].replace(b"glock 1", b"glock 2", 1).replace(b"\nship", b"\nclose c1 100 400\nclose c1 2000 90000\nclose c1 100000 900000\nship", 1)
    for what, text in (("lot of 24 ships on 1 chamber", lots[0]), ("lot of 24 ships on 4 chambers", lots[1]),
                       ("lot of 24 ships with closures", closed), ("24 ships far apart", far_apart(24)),
                       ("lot of 32 ships on 1 chamber", lot(32, 1)), ("96 ships far apart", far_apart(96))):
        yield f"prices at their limit, {what}", at_limit(solved(text)), ROOT_FAILS
    leaves = solved(narrow(ships))
    cost = parts(leaves)[1]["cost"]
    yield "each leaf a price mark", all_leaves(leaves), (0, f"accepted cost {cost}\n".encode())


def cases(runner, runs, number):
    """In the first round alone, since nothing of it is by chance."""
    for what, data, wanted in dossiers(runner) if number == 0 else ():
        def tried(what=what, data=data, wanted=wanted):
            answer = runner.run(["check"], data, before=f"ulimit -v {LIMIT}")
            return None if answer and (answer.status, answer.text) == wanted else Wrong(what, ["check"], data, answer)
        yield tried


def main(program):
    from runs import Runner
    print(f"{'what':50} {'bytes':>9} {'marks':>8} {'seconds':>8} {'MB':>5}  answer")
    for what, data, wanted in dossiers(Runner(str(pathlib.Path(program).resolve())), 8):
        tree = parts(data)[1]["tree"]
        before = resource.getrusage(resource.RUSAGE_CHILDREN).ru_utime
        done = subprocess.Popen([program, "check"], stdin=subprocess.PIPE, stdout=subprocess.PIPE)
        answer = done.communicate(data)[0]
        seconds = resource.getrusage(resource.RUSAGE_CHILDREN).ru_utime - before
        print(f"{what:50} {len(data):9} {tree.count(4):8} {seconds:8.2f} {resource.getrusage(resource.RUSAGE_CHILDREN).ru_maxrss // 1024:5}  {answer.decode().strip()}"
              + ("" if (done.returncode, answer) == wanted else f"  but not as expected: {wanted}"), flush=True)


if __name__ == "__main__":
    main(sys.argv[1])
