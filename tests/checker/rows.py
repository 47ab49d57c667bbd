#!/usr/bin/env python3
"""Worked rows for the second checker: a dossier, one edit, and the line that must be printed. rows.py [GLOCK]

The rows of whole runs (tests/rows/) that follow from an instance text or a plan text alone are held against texts.py. Given a
glock program, the rows of dossiers are held against its `check` and `lower` too. It prints each row that differs and
`N rows, M different`, and its status is 0 where none differs."""

import ast
import pathlib
import resource
import subprocess
import sys

sys.dont_write_bytecode = True
sys.path.append(str(pathlib.Path(__file__).resolve().parents[2] / "checker"))
from check_dossier import answer
from texts import judged, solved
from worked_refutations import REFUTED, asking

CHECKER, MOST_LINES = pathlib.Path(__file__).resolve().parents[2] / "checker", 720
JUDGING = "check_dossier dossier_text price_bound refutations sweeps times".split()
ROWS = pathlib.Path(__file__).resolve().parents[1] / "rows"
sys.path.append(str(ROWS))
from read_rows import ASKED, rows_of

NARROW = """glock 1
chamber c1 2000 232 10 20 5 4 30 15 low 0
ship s1 up 1100 114 0 5
ship s2 up 1100 114 0 5
end
"""
ONE_BY_ONE = ('"plan":[{"chamber":0,"ships":[0],"spots":[[10,0,0,0]],"start":0,"way":0},'
              '{"chamber":0,"ships":[1],"spots":[[10,0,0,0]],"start":50,"way":0}]')

# two ships side by side
FIRST = NARROW.replace("232", "240") + """certificate
{"cost":80,"cuts":[],"plan":[{"chamber":0,"ships":[0,1],"spots":[[10,0,0,0],[10,126,1,0]],"start":0,"way":0}],\
"tree":[0,0,1,1,1]}
"""
# one after the other, since a row shows that both don't fit together
SECOND = NARROW + ('certificate\n{"cost":120,"cuts":[{"chamber":0,"ships":[0,1],"why":[1,0,1]}],' + ONE_BY_ONE
                   + ',"tree":[0,0,100,1,1]}\n')
# the same, since their cargoes clash
CLASH = (SECOND.replace("glock 1", "glock 2").replace("232", "240").replace("certificate", "certificate 2")
         .replace("s1 up 1100 114 0 5", "s1 up 1100 114 0 5 1").replace("s2 up 1100 114 0 5", "s2 up 1100 114 0 5 2")
         .replace("[1,0,1]", "[5,0,1]"))
# both together is left open: its bound is 80
OPEN = NARROW + 'certificate open\n{"cost":120,"cuts":[],' + ONE_BY_ONE + ',"tree":[0,0,3,1,1]}\n'
THROUGHPUT = """glock 1
chamber c1 2000 240 10 20 5 1 30 0 low 0
ship s1 up 1100 114 0 0
ship s2 down 1100 114 0 0
end
certificate
{"cost":90,"cuts":[],"plan":[{"chamber":0,"ships":[0],"spots":[[10,0,0,0]],"start":0,"way":0},\
{"chamber":0,"ships":[1],"spots":[[10,0,0,0]],"start":30,"way":1}],"tree":[2]}
"""
# one ship too wide by one, which a walk of two edges shows, and a spot tree too
CASES = """glock 1
chamber c1 120 51 10 0 0 1 30 15 low 0
chamber c2 120 50 10 0 0 1 30 15 low 0
ship s1 up 100 51 0 5
end
certificate
{"cost":35,"cuts":[{"chamber":1,"ships":[0],"why":[3,2,3,2]}],"plan":[{"chamber":0,"ships":[0],\
"spots":[[10,0,0,0]],"start":0,"way":0}],"tree":[0,1,100]}
"""

# the same as SECOND, by a sweep of the root
SWEPT = SECOND.replace("certificate", "certificate 4").replace('"tree":[0,0,100,1,1]', '"prices":[[8500,8500]],"tree":[5,0]')

# the same instance, its root left open by two lists of prices: by the first it reaches 119, and by the second 71
SHOWN = SWEPT.replace("certificate 4", "certificate open 4").replace("[[8500,8500]]", "[[8400,8400],[3600,3600]]").replace("[5,0]", "[6,0]")

# three ships of which two at most share a lockage: by these prices the root reaches 165, and with the triple 170
TRIPLE = pathlib.Path(__file__).with_name("triples.dossier").read_text()
OPEN_TRIPLE = TRIPLE.replace("certificate 4", "certificate open 4").replace("[4,0]", "[6,0]")

# one up and one down, which never share a lockage
BOTH_WAYS = SECOND.replace("s2 up", "s2 down").replace('50,"way":0', '35,"way":1').replace("120", "105").replace(
    "[0,0,100,1,1]", "[0,0,1,1]")
# three abreast, the third moored at the first; the plan is legal, and the mark fails
GUEST = """glock 2
chamber c1 1140 240 10 20 5 3 30 15 low 0
ship s1 up 1100 114 0 5
ship s2 up 1100 60 0 5
ship s3 up 1100 50 0 5
end
certificate
{"cost":135,"cuts":[],"plan":[{"chamber":0,"ships":[0,1,2],"spots":[[10,0,0,0],[10,180,1,0],[10,119,0,1]],\
"start":0,"way":0}],"tree":[1]}
"""
# one ship; the chamber turns from 20 to 35, behind a closure
CLOSED = """glock 2
chamber c1 2000 240 10 20 5 4 30 15 high 0
close c1 10 20
close c1 70 80
ship s1 up 1100 114 0 5
end
certificate
{"cost":70,"cuts":[],"plan":[{"chamber":0,"ships":[0],"spots":[[10,0,0,0]],"start":35,"way":0}],"tree":[1]}
"""
# the cut of the second dossier stands for a chamber c2, and the marks end behind a hit in c1
OTHER = (SECOND.replace("\nship s1", "\nchamber c2 2000 232 10 20 5 4 30 15 low 0\nship s1")
         .replace('"cuts":[{"chamber":0', '"cuts":[{"chamber":1').replace("[0,0,100,1,1]", "[0,0,100]"))

# three ships whose cut 0 is a case tree and cut 1 a spot tree of all kinds of leaves
TREES = pathlib.Path(__file__).with_name("trees.dossier").read_text()
# arrivals that are a million minutes apart, and a price mark at the root
FAR_APART = pathlib.Path(__file__).with_name("far_apart.dossier").read_text()



def one_by_one(ships):
    """The dossier of a day on which a ship goes up each hour, in a lockage of its own: its root's bound is its cost. No two
    of the ships fit together."""
    lines = ["glock 3", "chamber c1 2000 232 10 20 5 4 30 15 low 0", *(f"ship s{s} up 1100 114 {60 * s} 5" for s in range(ships))]
    plan = [f'{{"chamber":0,"ships":[{s}],"spots":[[10,0,0,0]],"start":{60 * s},"way":0}}' for s in range(ships)]
    cuts = '[{"chamber":0,"ships":[0,1],"why":[1,0,1]}]'
    object = f'{{"cost":{35 * ships},"cuts":{cuts},"plan":[{",".join(plan)}],"prices":[],"tree":[1]}}'
    return "\n".join([*lines, "end", "certificate 3", object, ""])


FEW, LARGE, LARGEST, ROOT = one_by_one(24), one_by_one(25), one_by_one(96), '"tree":[1]'

WIDE = "s1 up 1100 114", "s1 up 1100 241"
PART = "dossier fault 4 Shape part {}".format
FIRST_TREE, SECOND_TREE = "[0,0,1,1,1]", "[0,0,100,1,1]"
WHY, SPOTS = '"why":[1,0,1]', '"ships":[0],"spots":[[10,0,0,0]]'
ACCEPTED, JSON, NO_MARK = "accepted cost 120", "dossier fault 3 Json", "dossier fault 2 NoMark"
PRICE_LOW, SWEPT_WRONG = "rejected tree 0 reason 13 PriceLow", "rejected tree 0 reason 14 SweptWrong"
UNPROVED, ILLEGAL = "rejected cut 0 reason 4 CutUnproved", "rejected plan reason 1 PlanIllegal"
LAST_LINE, AFTER_END = SECOND.splitlines()[-1], SECOND[SECOND.index("certificate"):]

# dossier, what is replaced (once), by what, the line
CHECKED = [
    # accepted, and cut short
    (FIRST, "", "", "accepted cost 80"), (FIRST, "]}\n", "]}", "accepted cost 80"), (FIRST, "]}\n", "]", JSON),
    (FIRST, "1]}\n", "1", JSON), (FIRST, ",1]}\n", ",", JSON), (FIRST, ",1]}\n", "", JSON),
    # edits of the second dossier
    (SECOND, "", "", ACCEPTED), (SECOND, WHY, '"why":[1,0]', UNPROVED),
    (SECOND, SECOND_TREE, "[0,0,100,1]", "rejected tree 4 reason 5 TreeShort"),
    (SECOND, SECOND_TREE, "[0,0,1,1,1]", "rejected tree 2 reason 8 BoundLow"),
    (SECOND, '"cost":120', '"cost":119', "rejected cost reason 2 CostWrong"),
    (SECOND, '{"chamber":0,"ships":[0,1]', '{"chamber":7,"ships":[0,1]', "rejected cut 0 reason 3 CutShape"),
    (SECOND, '"start":50', '"start":49', ILLEGAL),
    (SECOND, ',{"chamber":0,"ships":[1],"spots":[[10,0,0,0]],"start":50,"way":0}', "", ILLEGAL),
    (SECOND, SPOTS, '"ships":[0],"spots":[[11,0,0,0]]', ACCEPTED),
    (SECOND, '"cost":120', '"cost":-1', PART(2)), (SECOND, '"ships":[0,1]', '"ships":[1,0]', PART(3)),
    (SECOND, ',"tree":' + SECOND_TREE, "", PART(1)), (SECOND, '"cost":120', '"cost":120,"more":1', PART(1)),
    (SECOND, SECOND_TREE, "[]", "rejected tree 0 reason 5 TreeShort"),
    (SECOND, SECOND_TREE, "[0,0,100,1,1,1]", "rejected tree 5 reason 6 TreeLong"),
    (SECOND, SECOND_TREE, "[0,0,0,1,1]", "rejected tree 2 reason 7 SplitFull"),
    (SECOND, SECOND_TREE, "[0,0,101,1,1]", "rejected tree 2 reason 9 CutMisses"),
    (SECOND, SECOND_TREE, "[0,0,50,1,1]", PART(5)), (SECOND, "certificate\n", "certificates\n", NO_MARK),
    (SECOND, "end\n", "", "dossier fault 1 Instance line 5 fault 3 Word"),
    (SECOND, LAST_LINE, LAST_LINE + "\n" + LAST_LINE, JSON), (SECOND, LAST_LINE, "[" * 200, JSON),
    # throughput and probe
    (FIRST, FIRST_TREE, "[0,11]", "accepted cost 80"), (FIRST, FIRST_TREE, "[5]", PART(5)),
    (FIRST, FIRST_TREE, "[11]", "rejected tree 0 reason 11 ProbeWrong"),
    (FIRST, FIRST_TREE, "[0,10]", "rejected tree 1 reason 11 ProbeWrong"), (THROUGHPUT, "", "", "accepted cost 90"),
    (THROUGHPUT, '"tree":[2]', '"tree":[1]', "rejected tree 0 reason 8 BoundLow"),
    (THROUGHPUT, "20 5 1 30", "20 5 2 30", "rejected tree 0 reason 10 ThroughputLow"),
    # the line `certificate 2`
    (CLASH, "", "", ACCEPTED), (CLASH, "certificate 2\n", "certificate\n", PART(3)), (CLASH, "0 5 2\n", "0 5 1\n", UNPROVED),
    (OPEN, "", "", NO_MARK),
    # marks outside the grammar
    *((FIRST, FIRST_TREE, f"[{mark}]", PART(5)) for mark in (3, 4, 6, 9, 34, 50, 99, 2**63 + 100)),
    (FIRST, FIRST_TREE, "[33]", "rejected tree 0 reason 11 ProbeWrong"),
    (FIRST, FIRST_TREE, "[0,100]", "rejected tree 1 reason 9 CutMisses"),
    # lenient reading
    (SECOND, "certificate\n", "\n # x\n\t certificate # y\r\n", ACCEPTED),
    (SECOND, "certificate\n", "\r\ncertificate\n", ACCEPTED), (SECOND, "certificate\n", "certificate open\n", NO_MARK),
    (SECOND, AFTER_END, "", NO_MARK), (SECOND, LAST_LINE + "\n", "", JSON), (SECOND, AFTER_END, "certificate\r", JSON),
    (SECOND, '{"cost"', ' \n { "cost"', ACCEPTED), (SECOND, '"cost":120', '"cost":1,"cost":120', ACCEPTED),
    (SECOND, '"cost"', r'"\u0063ost"', ACCEPTED), (SECOND, '"cost":120', '"cost":1e400', JSON),
    (SECOND, '"cost":120', '"cost":120.0', PART(2)), (SECOND, '"cost"', r'"\ud800"', JSON),
    (SECOND, WHY, '"why":[0,1]', PART(3)), (SECOND, WHY, '"why":[6]', PART(3)),
    (SECOND, SPOTS, '"ships":[0],"spots":[]', PART(4)), (SECOND, SPOTS, '"ships":[0],"spots":[[10,0,0,256]]', ILLEGAL),
    (SECOND, SPOTS, '"ships":[0],"spots":[[10,0,0,257]]', PART(4)),
    (SECOND, LAST_LINE, "[" * 127 + "]" * 127, PART(1)), (SECOND, LAST_LINE, "[" * 128 + "]" * 128, JSON),
    (SECOND, "certificate\n", "# \udcff\ncertificate\n", ACCEPTED),
    # forms of a reason
    *((SECOND, WHY, f'"why":{why}', PART(3)) for why in ("[]", "[0,0]", "[1]", "[2]", "[1,1,1]", "[1,256]", "[3,4294967296]")),
    *((SECOND, WHY, f'"why":{why}', UNPROVED) for why in ("[0]", "[1,255]", "[3]", "[4]", "[3,4294967295]", "[4,6]")),
    *((CLASH, "[5,0,1]", why, PART(3)) for why in ("[5]", "[5,0]", "[5,1,0]", "[5,1,1]", "[5,0,1,2]", "[5,0,256]")),
    (CLASH, "[5,0,1]", "[5,0,255]", UNPROVED),
    # numbers and their fields
    *((SECOND, '"start":50', f'"start":{start}', PART(4)) for start in ("4294967296", "-0", "50.0", "5e1", '"50"', "true")),
    *((SECOND, '"start":50', f'"start":{start}', JSON) for start in ("050", "+50", "50.", "NaN", "Infinity", "-1e400")),
    (SECOND, '"start":50', '"start":4294967295', "rejected cost reason 2 CostWrong"),
    (SECOND, '"cost":120', '"cost":18446744073709551615', "rejected cost reason 2 CostWrong"),
    (SECOND, '"cost":120', '"cost":18446744073709551616', PART(2)),
    (SECOND, '{"chamber":0,"ships":[0,1]', '{"chamber":256,"ships":[0,1]', PART(3)),
    (SECOND, '"ships":[0,1]', '"ships":[0,255]', "rejected cut 0 reason 3 CutShape"),
    (SECOND, '"ships":[0,1]', '"ships":[0,256]', PART(3)), (SECOND, '"ships":[0,1]', '"ships":[]', PART(3)),
    (SECOND, SPOTS, '"ships":[0],"spots":[[10,0,2,0]]', PART(4)), (SECOND, SPOTS, '"ships":[9],"spots":[[10,0,0,0]]', ILLEGAL),
    # a ship that fits no chamber comes after every fault and before the check
    (FIRST, *WIDE, "ship s1 fits no chamber"), (FIRST.replace(*WIDE), '"cost":80', '"cost":-1', PART(2)),
    (FIRST.replace(*WIDE), '"cost":80', '"cost":79', "ship s1 fits no chamber"),
    # placements: inside, apart, at the quay, beside the host and along it, within `most`, without a clash
    (GUEST, "", "", "rejected tree 0 reason 8 BoundLow"), (GUEST, "5 3 30", "5 2 30", ILLEGAL),
    *((GUEST, old, new, ILLEGAL) for old, new in (
        ("[[10,0,", "[[9,0,"), ("[10,180", "[9,180"), ("[10,119", "[9,119"), ("[[10,0,", "[[31,0,"), ("[[10,0,", "[[10,1,"), ("[[10,0,0,0]", "[[10,0,1,0]"),
        ("180,1,0", "179,1,0"), ("119,0,1", "118,0,1"), ("119,0,1", "120,0,1"), ("119,0,1", "119,1,1"), ("119,0,1", "119,0,0"),
        ("119,0,1", "119,0,2"), ("119,0,1", "119,0,3"), ("119,0,1", "119,0,4"), ("s1 up 1100", "s1 up 1090"),
        ("1140 240 10 20 5", "1140 240 10 20 6"), ("[0,1,2]", "[0,1,3]"), ('"way":0', '"way":1'), ("s2 up", "s2 down"))),
    (GUEST, "119,0,1", "125,1,2", "rejected tree 0 reason 8 BoundLow"), (GUEST, "119,0,1", "126,1,2", ILLEGAL),
    (FIRST.replace("glock 1", "glock 2").replace("0 5\nend", "0 5 9\nend"), "0 5\n", "0 5 1\n", ILLEGAL),
    (FIRST.replace("glock 1", "glock 2").replace("0 5\nend", "0 5 9\nend"), "0 5\n", "0 5 9\n", "accepted cost 80"),
    # formats 1 and 2, and counts of lines
    (CLASH, "glock 2", "glock 1", "dossier fault 1 Instance line 3 fault 4 Count"),
    (CLOSED, "glock 2", "glock 1", "dossier fault 1 Instance line 3 fault 3 Word"),
    (CLOSED, "ship s1", "".join(f"close c1 {k} {k + 1}\n" for k in range(100, 106)) + "ship s1", "accepted cost 70"),
    (CLOSED, "ship s1", "".join(f"close c1 {k} {k + 1}\n" for k in range(100, 107)) + "ship s1",
     "dossier fault 1 Instance line 11 fault 6 Range"), (CLOSED, "70 80", "19 30", "dossier fault 1 Instance line 4 fault 14 Overlap"),
    (SECOND, "end\n", "end\r\r\n", "dossier fault 1 Instance line 5 fault 3 Word"),
    # only a group of its way takes a ship, and only below `most`
    (BOTH_WAYS, "", "", "accepted cost 105"), (BOTH_WAYS, "[0,0,1,1]", "[0,0,1,1,1]", "rejected tree 4 reason 6 TreeLong"),
    (SECOND, "20 5 4 30", "20 5 1 30", "rejected tree 2 reason 9 CutMisses"),
    # times: the empty turn and the lockage keep clear of closures; a closure ends before its last minute
    (CLOSED, "", "", "accepted cost 70"), (CLOSED, '"start":35', '"start":34', ILLEGAL),
    (CLOSED, '"start":35', '"start":36', ILLEGAL), (CLOSED, "70 80", "71 80", "accepted cost 70"),
    (CLOSED, "close c1 70 80", "close c1 69 80", ILLEGAL), (CLOSED, "10 20\n", "15 20\n", "rejected tree 0 reason 8 BoundLow"),
    (CLOSED, " high 0", " high 1", "accepted cost 70"), (CLOSED, " high 0", " high 21", ILLEGAL),
    (CLOSED, "114 0 5", "114 36 5", ILLEGAL), (CLOSED, "30 15 high", "30 0 high", "rejected tree 0 reason 8 BoundLow"),
    # a cut hits in a chamber that is no roomier than its own
    (OTHER, "", "", "rejected tree 3 reason 5 TreeShort"),
    (OTHER, "c1 2000 232", "c1 1999 231", "rejected tree 3 reason 5 TreeShort"),
    *((OTHER, "c2 2000 232 10 20 5", "c2 " + measures, "rejected tree 2 reason 9 CutMisses") for measures in (
        "1999 232 10 20 5", "2000 231 10 20 5", "2000 232 11 20 5", "2000 232 10 21 5", "2000 232 10 20 6")),
    (OTHER, "c2 2000 232", "c2 2000 233", UNPROVED), (OTHER, "c2 2000 232 10 20", "c2 2241 232 10 21", UNPROVED),
    (OTHER, "c2 2000 232 10 20", "c2 2240 232 10 20", UNPROVED),
    (OTHER, "c2 2000 232 10 20", "c2 2239 232 10 20", "rejected tree 3 reason 5 TreeShort"),
    # a column of two, and an area
    (OTHER.replace("[1,0,1]", "[0]"), "c2 2000 232 10 20 5", "c2 1100 228 0 0 0", UNPROVED),
    (OTHER.replace("[1,0,1]", "[0]"), "c2 2000 232 10 20 5", "c2 1100 227 0 0 0", "rejected tree 2 reason 9 CutMisses"),
    (SECOND, WHY, '"why":[2,0,1]', ACCEPTED),
    *((SECOND.replace("c1 2000 232", f"c1 {room}"), WHY, why, line) for room, why, line in (
        ("2239 232", '"why":[2,0,1]', ACCEPTED), ("2240 232", '"why":[2,0,1]', UNPROVED), ("2000 233", '"why":[2,0,1]', UNPROVED),
        ("1124 232", '"why":[0]', ACCEPTED), ("1125 232", '"why":[0]', UNPROVED))),
    # case trees and spot trees
    (TREES, "", "", "accepted cost 170"), (TREES, ",100,1,1,", ",101,1,1,", "accepted cost 170"),
    (TREES, ",100,1,1,", ",102,1,1,", "rejected tree 3 reason 9 CutMisses"),
    (TREES, "c1 400 80 0 0 5 3", "c1 399 80 0 0 5 3", "rejected plan reason 1 PlanIllegal"),
    (TREES, "]}],\"plan\"", ",0]}],\"plan\"", "rejected cut 1 reason 4 CutUnproved"),
    (CASES, "", "", "accepted cost 35"), (CASES, "[3,2,3,2]", "[3,2,2,3]", "accepted cost 35"),
    (CASES, "[3,2,3,2]", "[3,0,2,3,2,2,3,2]", "accepted cost 35"), (CASES, "[3,2,3,2]", "[4,0,3,0,3,0]", "accepted cost 35"),
    (CASES, "[3,2,3,2]", "[4,0,0,3,0,3,0]", "accepted cost 35"),
    *((CASES, "[3,2,3,2]", why, UNPROVED) for why in (
        "[3,2,0,1]", "[3,2,2,2]", "[3,2,3]", "[3,2,3,2,0]", "[3,2,4,3]", "[3,0,2,3,2]", "[3,0,0,2,3,2,2,3,2]", "[3,1,0]",
        "[3,1,1]", "[4,3,0]", "[4,0,3,0]", "[4,0,3,1,3,0]", "[4,0,2,0,3,0]", "[4,0,4,0,3,0]", "[4,0,5,0,0,3,0]",
        "[4,1,0]", "[4,2,0]", "[4,0,0,5,0,0,0,5,0,0]")),
    # more forms of costs, ships, reasons, spots and headings
    *((SECOND, '"cost":120', f'"cost":{cost}', PART(2)) for cost in ("-0", "12e1")),
    (SECOND, '"cost":120', '"cost":121', "rejected cost reason 2 CostWrong"),
    (SECOND, '"ships":[0,1]', '"ships":[0,1,2,3,4,5,6,7,8]', PART(3)),
    (SECOND, '"ships":[0,1]', '"ships":[2]', "rejected cut 0 reason 3 CutShape"),
    *((SECOND, WHY, f'"why":{why}', PART(3)) for why in ("[1,1,0]", "[5,0,1]")),
    (SECOND, WHY, '"why":[3,0,4294967295]', UNPROVED),
    (FIRST, "[[10,0,0,0],[10,126,1,0]]", "[[10,0,0,0]]", PART(4)), (FIRST, '"way":0', '"way":0,"more":0', PART(4)),
    *((FIRST, "[10,126,1,0]", spot, PART(4)) for spot in ("[10,126,2,0]", "[10,126,1,257]", "[10,126,1]")),
    (FIRST, '"way":0', '"way":2', PART(4)),
    *((FIRST, "certificate\n", heading, NO_MARK) for heading in (
        "", "certificates\n", "certificate open\n", "certificate 2 2\n", "certificate 5\n", "certificate 03\n",
        "certificate open 3\n")),
    *((FIRST, "certificate\n", f"certificate {version}\n", PART(1)) for version in (3, 4)),
    # more marks that don't hold where they stand
    (SECOND, SECOND_TREE, "[0,1]", "rejected tree 1 reason 8 BoundLow"),
    (SECOND, SECOND_TREE, "[0,0,100,100,1]", "rejected tree 3 reason 9 CutMisses"),
    (SECOND, SECOND_TREE, "[0,0,2,1,1]", "rejected tree 2 reason 10 ThroughputLow"),
    (SECOND, SECOND_TREE, "[0,0,11,1,1]", "rejected tree 2 reason 11 ProbeWrong"),
    (SECOND, SECOND_TREE, "[33,9223372036854775907]", "rejected tree 0 reason 11 ProbeWrong"),
    (FIRST, FIRST_TREE, "[0,12]", "rejected tree 1 reason 11 ProbeWrong"),
    # format 3: ships, lockages, prices, and marks of larger instances
    (FEW, "", "", "accepted cost 840"), (LARGE, "", "", "accepted cost 875"), (LARGEST, "", "", "accepted cost 3360"),
    *((LARGE, "glock 3", f"glock {version}", "dossier fault 1 Instance line 27 fault 6 Range") for version in (1, 2)),
    *((FEW, "glock 3", f"glock {version}", "accepted cost 840") for version in (1, 2)),
    *((LARGE, "glock 3", first, "dossier fault 1 Instance line 1 fault 2 NoHeader") for first in ("glock 4", "glock 03", "glock 3 3")),
    (LARGEST, "end\n", "ship more up 1100 114 0 5\nend\n", "dossier fault 1 Instance line 99 fault 6 Range"),
    (LARGEST, "end\n", "close c1 9000 9001\nend\n", "accepted cost 3360"), (LARGE, "60 5\n", "60 5 1\n", "accepted cost 875"),
    *((FEW, ROOT, f'"tree":[{mark}]', line) for mark, line in (
        (33, "accepted cost 840"), (34, PART(5)), (99, PART(5)), (100, "rejected tree 0 reason 9 CutMisses"),
        (1000, "rejected tree 0 reason 9 CutMisses"), (2**63 + 100, PART(5)))),
    *((LARGE, ROOT, f'"tree":[{mark}]', line) for mark, line in (
        (34, "accepted cost 875"), (35, "rejected tree 0 reason 11 ProbeWrong"), (100, "rejected tree 0 reason 11 ProbeWrong"),
        (105, "rejected tree 0 reason 11 ProbeWrong"), (106, PART(5)), (999, PART(5)),
        (1000, "rejected tree 0 reason 9 CutMisses"), (2**63 + 999, "rejected tree 0 reason 9 CutMisses"), (2**63 + 1000, PART(5)))),
    (LARGEST, ROOT, '"tree":[105]', "accepted cost 3360"),
    (FEW, ROOT, '"tree":[0,0,100,1,1]', "accepted cost 840"), (LARGE, ROOT, '"tree":[0,0,1000,1,1]', "accepted cost 875"),
    (LARGE, ROOT, '"tree":[0,0,100,1,1]', "rejected tree 2 reason 11 ProbeWrong"),
    (LARGE, ROOT, '"tree":[0,0,1001,1,1]', "rejected tree 2 reason 9 CutMisses"),
    (LARGE, ROOT, '"tree":[0,0,1000,1,1,1]', "rejected tree 5 reason 6 TreeLong"),
    *((day, '"plan":[', '"plan":[{"chamber":0,"ships":[0],"spots":[[10,0,0,0]],"start":0,"way":0},', PART(4))
      for day in (FEW, LARGE, LARGEST)),
    (LARGEST, ',"start":5700,"way":0}', ',"start":5699,"way":0}', ILLEGAL),
    *((day, '"prices":[]', f'"prices":[{[3500] * many}]', line) for day, many, line in (
        (FEW, 24, "accepted cost 840"), (FEW, 25, PART(6)), (LARGE, 25, "accepted cost 875"), (LARGE, 26, PART(6)),
        (LARGE, 24, "rejected prices 0 reason 12 PricesShape"), (LARGEST, 96, "accepted cost 3360"), (LARGEST, 97, PART(6)))),
    (LARGE.replace('"prices":[]', f'"prices":[{[3500] * 25}]'), ROOT, '"tree":[4,0]', "accepted cost 875"),
    (LARGE.replace('"prices":[]', f'"prices":[{[3499] * 25}]'), ROOT, '"tree":[4,0]', "accepted cost 875"),
    (LARGE.replace('"prices":[]', f'"prices":[{[3495] * 25}]'), ROOT, '"tree":[4,0]', "rejected tree 0 reason 13 PriceLow"),
    # roots that are closed by a sweep, by prices that come near to the cost and by ones that don't, with and without the cut
    *((SWEPT, '"tree":[5,0]', f'"tree":{tree}', line) for tree, line in (
        ("[5,0]", ACCEPTED), ("[5,1]", SWEPT_WRONG), ("[5,9223372036854775807]", SWEPT_WRONG), ("[5,9223372036854775808]", PART(5)),
        ("[5]", PART(5)), ("[5,-1]", PART(5)), ("[6,0]", PART(5)), ("[5,0,5]", PART(5)), ("[5,0,1]", "rejected tree 1 reason 6 TreeLong"),
        ("[0,5,0]", "rejected tree 1 reason 14 SweptWrong"), ("[0,0,100,5,0,1]", "rejected tree 3 reason 14 SweptWrong"), ("[4,0]", ACCEPTED),
        ("[3]", PART(5)))),
    *((SWEPT, "[[8500,8500]]", prices, line) for prices, line in (
        ("[[0,0]]", ACCEPTED), ("[[1000000,1000000]]", ACCEPTED), ("[]", SWEPT_WRONG), ("[[0]]", "rejected prices 0 reason 12 PricesShape"))),
    (SWEPT, '[{"chamber":0,"ships":[0,1],"why":[1,0,1]}]', "[]", SWEPT_WRONG), (SWEPT, "20 5 4 30", "20 5 1 30", ACCEPTED),
    (SWEPT, "certificate 4", "certificate 3", PART(5)), (SWEPT, "certificate 4", "certificate 2", PART(1)),
    (SWEPT.replace('"start":50', '"start":51'), '"cost":120', '"cost":121', SWEPT_WRONG),
    # prices of triples: what a root reaches by them, their form, and their ships
    (TRIPLE, "", "", "accepted cost 170"),
    *((TRIPLE, '[[0,1,2,500]]', triples, line) for triples, line in (
        ("[[0,1,2,401]]", "accepted cost 170"), ("[[0,1,2,400]]", PRICE_LOW), ("[[0,1,2,1000000]]", PRICE_LOW),
        ("[[0,1,3,500]]", "rejected prices 0 reason 12 PricesShape"), ("[[0,1,255,500]]", "rejected prices 0 reason 12 PricesShape"),
        ("[[0,1,2,1],[0,1,95,1]]", "rejected prices 0 reason 12 PricesShape"),
        *((triples, PART(6)) for triples in (
            "[]", "[[]]", "[0,1,2,500]", "[[0,1,2]]", "[[0,1,2,500,1]]", "[[0,1,2,0]]", "[[0,1,2,1000001]]", "[[0,1,2,-1]]", "[[0,1,2,1.0]]",
            "[[0,1,1,500]]", "[[0,0,2,500]]", "[[1,0,2,500]]", "[[0,2,1,500]]", "[[0,1,256,500]]", "[[0,1,2,250],[0,1,2,250]]",
            "[[0,1,95,1],[0,1,2,1]]", "[[0,1,2,1],0]", "{}", "500", "null")))),
    *((TRIPLE, "[[0,1,2,500]]", str([[0, 1, third, 1] for third in range(2, many + 2)]), line) for many, line in (
        (254, "rejected prices 0 reason 12 PricesShape"), (255, PART(6)))),
    *((TRIPLE, '"triples":[[0,1,2,500]]', triples, line) for triples, line in (
        ('"triples":[[0,1,2,500]],"more":[]', PART(6)), ('"triple":[[0,1,2,500]]', PART(6)), ('"triples":[],"triples":[[0,1,2,500]]', "accepted cost 170"))),
    *((TRIPLE, "[10500,10500,10500]", ships, line) for ships, line in (
        ("[10500,10500]", "rejected prices 0 reason 12 PricesShape"), ("[]", PART(6)), ("{}", PART(6)), ("[9500,9500,9500]", "accepted cost 170"))),
    *((TRIPLE, '{"ships":[10500,10500,10500],"triples":[[0,1,2,500]]}', prices, line) for prices, line in (
        ("[10500,10500,10500]", PRICE_LOW), ("[9500,9500,9500]", "accepted cost 170"), ('{"ships":[9500,9500,9500]}', PART(6)),
        ('{"triples":[[0,1,2,500]]}', PART(6)), ("{}", PART(6)))),
    *((TRIPLE, old, new, line) for old, new, line in (
        ('"prices":[', '"prices":[[0,0,0],', PRICE_LOW), ('"tree":[4,0]', '"tree":[5,0]', "accepted cost 170"),
        ('"tree":[4,0]', '"tree":[0,0,1,4,0,4,0,1,4,0]', "rejected tree 2 reason 8 BoundLow"),
        ("certificate 4", "certificate 3", PART(6)), ("certificate 4", "certificate 2", PART(1)), ("certificate 4", "certificate open 4", NO_MARK))),
    (TRIPLE.replace('"prices":[', '"prices":[[0,0,0],'), "[4,0]", "[4,1]", "accepted cost 170"),
    # worked refutations
    *((asking(deck, why), "", "", "rejected tree 0 reason 5 TreeShort" if holds else UNPROVED) for deck, why, holds in REFUTED),
    # an instance text of any length; a word after the line's words; a line of words that aren't UTF-8
    (SECOND, "end\n", "#" * 70_000 + "\nend\n", ACCEPTED), (SECOND, "certificate\n", "certificate 2 x\n", NO_MARK),
    (SECOND, "certificate\n", "\udcff\ncertificate\n", NO_MARK), (SECOND, "end\n", "end \r# x\n", "dossier fault 1 "
                                                                 "Instance line 5 fault 4 Count"),
]
OPENED = [
    (OPEN, "", "", "lower 80 cost 120"), (OPEN, "[0,0,3,1,1]", "[3]", "lower 70 cost 120"),
    (OPEN, "[0,0,3,1,1]", "[0,0,3,3,3]", "lower 80 cost 120"),
    (OPEN, "[0,0,3,1,1]", "[0,0,1,1,1]", "rejected tree 2 reason 8 BoundLow"),
    (OPEN, "[0,0,3,1,1]", "[0,0,3,1,1,3]", "rejected tree 5 reason 6 TreeLong"),
    (OPEN, "[0,0,3,1,1]", "[0,4,3]", PART(5)), (OPEN, '"cuts":[]', '"cuts":[{"chamber":0,"ships":[0,1],"why":[5,1,0]}]', PART(3)),
    (SECOND, "certificate\n", "certificate open\n", "lower 120 cost 120"), (SECOND, "", "", NO_MARK), (CLASH, "", "", NO_MARK),
    (CLASH, "certificate 2", "certificate open", "lower 120 cost 120"),
    # places where it fails first
    (OPEN, '"start":50', '"start":49', ILLEGAL), (OPEN, '"cost":120', '"cost":121', "rejected cost reason 2 CostWrong"),
    *((OPEN, '"cuts":[]', f'"cuts":[{{"chamber":{chamber},"ships":[0,1],"why":{why}}}]', line) for chamber, why, line in (
        (0, "[1,0,1]", "lower 80 cost 120"), (7, "[1,0,1]", "rejected cut 0 reason 3 CutShape"), (0, "[0]", UNPROVED))),
    *((OPEN, "[0,0,3,1,1]", tree, line) for tree, line in (
        ("[0,3]", "lower 70 cost 120"), ("[]", "rejected tree 0 reason 5 TreeShort"),
        ("[0,0,3,1]", "rejected tree 4 reason 5 TreeShort"), ("[3,3]", "rejected tree 1 reason 6 TreeLong"),
        ("[0,0,0,1,1]", "rejected tree 2 reason 7 SplitFull"), ("[0,0,100,3,3]", "rejected tree 2 reason 9 CutMisses"),
        ("[4]", PART(5)), ("[34]", PART(5)), ("[4,0]", PART(5)))),
    *((SWEPT.replace("certificate 4", "certificate open 4"), "[5,0]", tree, line) for tree, line in (
        ("[5,0]", "lower 120 cost 120"), ("[3]", "lower 70 cost 120"), ("[5,1]", SWEPT_WRONG), ("[0,3,5]", PART(5)),
        ("[0,5,0]", "rejected tree 1 reason 14 SweptWrong"))),
    (SWEPT, "certificate 4", "certificate open 3", PART(5)), (SWEPT, "", "", NO_MARK),
    # leaves that are open by prices: what these show, but no more than the cost, and no less than the bound
    *((SHOWN, '"tree":[6,0]', f'"tree":{tree}', line) for tree, line in (
        ("[6,0]", "lower 119 cost 120"), ("[6,1]", "lower 71 cost 120"), ("[0,6,0]", "lower 119 cost 120"), ("[0,6,1]", "lower 71 cost 120"),
        ("[0,0,6,0,1,1]", "lower 120 cost 120"), ("[0,0,6,1,6,0,6,1]", "lower 120 cost 120"), ("[0,0,6,0,3,1]", "lower 120 cost 120"),
        ("[0,0,3,6,0,1]", "lower 80 cost 120"), ("[6,2]", SWEPT_WRONG), ("[6,6]", SWEPT_WRONG), ("[6,9223372036854775807]", SWEPT_WRONG),
        ("[0,0,6,0,6,2]", "rejected tree 3 reason 14 SweptWrong"), ("[0,0,6,2,6,3,1]", "rejected tree 2 reason 14 SweptWrong"),
        ("[6,0,6,2]", "rejected tree 1 reason 6 TreeLong"), ("[0,6,0,1]", "rejected tree 2 reason 6 TreeLong"),
        ("[0,0,6,0]", "rejected tree 3 reason 5 TreeShort"), ("[0,0,0,6,0]", "rejected tree 2 reason 7 SplitFull"),
        ("[6,9223372036854775808]", PART(5)), ("[6]", PART(5)), ("[6,-1]", PART(5)), ("[6,0,6]", PART(5)), ("[0,0,6]", PART(5)),
        ("[7,0]", PART(5)), ("[4,6]", PRICE_LOW), ("[5,6]", SWEPT_WRONG))),
    *((SHOWN, "[[8400,8400],[3600,3600]]", prices, line) for prices, line in (
        ("[[8500,8500]]", "lower 120 cost 120"), ("[[10000,10000]]", "lower 120 cost 120"), ("[[0,0]]", "lower 70 cost 120"),
        ("[[3501,3500]]", "lower 70 cost 120"), ("[[3501,3501]]", "lower 71 cost 120"), ("[[3599,3600]]", "lower 71 cost 120"),
        ("[]", SWEPT_WRONG), ("[[8400]]", "rejected prices 0 reason 12 PricesShape"))),
    (SHOWN, '[{"chamber":0,"ships":[0,1],"why":[1,0,1]}]', "[]", "lower 80 cost 120"),
    (SHOWN.replace('"start":50', '"start":51').replace("8400", "8500"), '"cost":120', '"cost":121', "lower 120 cost 121"),
    (SHOWN.replace('"start":50', '"start":51').replace("[6,0]", "[0,0,6,0,1,1]"), '"cost":120', '"cost":121', "rejected tree 3 reason 8 BoundLow"),
    *((SHOWN, "certificate open 4", heading, line) for heading, line in (
        ("certificate open 3", PART(5)), ("certificate open", PART(1)), ("certificate 4", NO_MARK), ("certificate 3", NO_MARK))),
    (OPEN, "[0,0,3,1,1]", "[6,0]", PART(5)),
    *((OPEN_TRIPLE, old, new, line) for old, new, line in (
        ("", "", "lower 170 cost 170"), ("500]]", "400]]", "lower 169 cost 170"), ("500]]", "1]]", "lower 166 cost 170"),
        ('{"ships":[10500,10500,10500],"triples":[[0,1,2,500]]}', "[10500,10500,10500]", "lower 165 cost 170"),
        ("certificate open 4", "certificate open 3", PART(5)), ("[6,0]", "[4,0]", "lower 170 cost 170"))),
    # the triple is charged where both others stand in the node
    *((OPEN_TRIPLE.replace("[10500,10500,10500]", "[0,0,9000]"), "[6,0]", tree, line) for tree, line in (
        ("[0,0,4,0,3,3]", "lower 155 cost 170"), ("[0,0,6,0,3,3]", "lower 155 cost 170"), ("[0,4,0]", "rejected tree 1 reason 13 PriceLow"))),
    *((LARGE.replace("certificate 3", "certificate open 4").replace('"prices":[]', f'"prices":[{[price] * 25}]'), ROOT, f'"tree":{tree}', line)
      for price, tree, line in ((3500, "[6,0]", "lower 875 cost 875"), (0, "[6,0]", "lower 875 cost 875"), (3500, "[6,1]", SWEPT_WRONG))),
    # faults, and lenient reading
    *((OPEN, "certificate open", heading, line) for heading, line in (
        ("certificate", NO_MARK), ("certificate 2", NO_MARK), ("certificate 3", NO_MARK), ("certificate 4", NO_MARK),
        ("certificate open 2", NO_MARK), ("certificate open 5", NO_MARK), ("certificate open 3", PART(1)),
        ("certificate open 4", PART(1)))),
    (OPEN, '{"cost"', '"cost"', JSON), (OPEN, '"cost":120', '"price":120', PART(1)), (OPEN, '"cost":120', '"cost":120.0', PART(2)),
    (OPEN, '"cuts":[]', '"cuts":3', PART(3)), (OPEN, "[[10,0,0,0]]", "[]", PART(4)),
    *((OPEN, old, new, "lower 80 cost 120") for old, new in (
        ("certificate open\n", "\n # x\n\t certificate  open # y\r\n"), ("certificate open\n", "\r\ncertificate open\n"),
        ('{"cost"', ' \n { "cost"'), ('"cost":120', '"cost":1,"cost":120'), ("[0,0,3,1,1]}\n", "[0,0,3,1,1]}"))),
]

PRICES = "[[37,1466,980,193,426]]"
# what must be told within a limit of time and memory
LIMITED = [(FAR_APART, "", "", PRICE_LOW), (FAR_APART, PRICES, str([[1_000_000] * 5]), PRICE_LOW),
           (FAR_APART, PRICES, "[[657,1477,1032,252,1151]]", "accepted cost 29")]


def priced_rows():
    """The rows of dossiers with prices that both checkers are held against: data, line, status, and whether it is open."""
    for name in ("priced_dossiers.rows", "swept_dossiers.rows", "open_by_prices.rows", "triple_dossiers.rows"):
        for _, words, data, asked in rows_of(ROWS / name, ("status", "line", "first")):
            if words[0] in (b"check", b"lower"):
                yield data, (asked["line"][0], int(asked["status"][0])), words[0] == b"lower"


def text_rows():
    """The rows of whole runs that follow from a text alone: where each stands, what must be told, and what texts.py says."""
    for path in sorted(ROWS.glob("*.rows")):
        for place, words, data, asked in rows_of(path, ASKED):
            status = int(asked["status"][0]) if "status" in asked else None
            if words in ([b"judge"], [b"play"]) and status in (0, 3, 10):
                said = judged(data)
            elif words[:1] == [b"solve"] and status in (3, 8):
                said = solved(data)
            else:
                continue
            lines = [*asked.get("line", []), *asked.get("first", [])] if words != [b"play"] or status else []
            yield place, (lines[:1], status), ([said.line][:len(lines)], said.status)


def status_of(line):
    words = line.split()
    if words[0] == "lower":
        return 0 if words[1] == words[3] else 1
    return {"accepted": 0, "ship": 8}.get(words[0], 7)


def as_process(data, *words):
    program = CHECKER / "check_dossier.py"
    done = subprocess.run([sys.executable, program, *words], input=data, capture_output=True)
    return done.stdout.decode(), done.returncode


def in_time(data, seconds=20, megabytes=500):
    """The line and the status of the second checker's process, which may use no more of a processor and of memory."""
    def limit():
        resource.setrlimit(resource.RLIMIT_CPU, (seconds, seconds))
        resource.setrlimit(resource.RLIMIT_AS, (megabytes * 2**20, megabytes * 2**20))
    program = CHECKER / "check_dossier.py"
    done = subprocess.run([sys.executable, program], input=data, stdout=subprocess.PIPE, preexec_fn=limit)
    return done.stdout.decode().removesuffix("\n"), done.returncode


def by_program(data, is_open):
    """The line and the status of the given program; None where none is given."""
    if len(sys.argv) < 2:
        return None
    done = subprocess.run([sys.argv[1], "lower" if is_open else "check"], input=data, capture_output=True)
    return done.stdout.decode().removesuffix("\n"), done.returncode


def lines_of_code(path):
    """How many lines are no comment, no text that stands alone, and not empty."""
    source = path.read_text()
    texts = {line for node in ast.walk(ast.parse(source)) if isinstance(node, ast.Expr) and isinstance(node.value, ast.Constant)
             for line in range(node.lineno, node.end_lineno + 1)}
    return sum(number not in texts and line.strip()[:1] not in ("", "#") for number, line in enumerate(source.split("\n"), 1))


def main():
    assert sum(lines_of_code(CHECKER / f"{name}.py") for name in JUDGING) < MOST_LINES
    rows = [(*row, False) for row in CHECKED] + [(*row, True) for row in OPENED]
    different = 0
    for number, (dossier, old, new, line, is_open) in enumerate(rows):
        assert old == "" or dossier.count(old) >= 1, (number, old)
        data, told = dossier.replace(old, new, 1).encode("utf-8", "surrogateescape"), (line, status_of(line))
        said = answer(data, is_open)
        if number % 40 == 0:
            assert as_process(data, *["--open"][:is_open]) == (said[0] + "\n", said[1]), number
        for found in (said, by_program(data, is_open) or told):
            if found != told:
                different += 1
                print(f"row {number}: {old!r} by {new[:60]!r}: {found}, not {told}")
    assert as_process(OPEN.encode(), "--open") == as_process(OPEN.encode(), "-", "--open") == ("lower 80 cost 120\n", 1)
    assert as_process(b"", str(CHECKER / "nofile")) == as_process(b"", str(CHECKER)) == ("", 4)
    for dossier, old, new, line in LIMITED:
        data, told = dossier.replace(old, new, 1).encode(), (line, status_of(line))
        for found in (in_time(data), by_program(data, False) or told):
            if found != told:
                different += 1
                print(f"far apart: {old!r} by {new!r}: {found}, not {told}")
    told_texts = list(text_rows())
    for place, told, said in told_texts:
        if said != told:
            different += 1
            print(f"{place}: {said}, not {told}")
    priced = list(priced_rows())
    for data, told, is_open in priced:
        said = answer(data, is_open)
        if said != told:
            different += 1
            print(f"{data.decode()}{said}, not {told}")
    print(f"{len(rows) + len(LIMITED) + len(told_texts) + len(priced)} rows, {different} different")
    return 1 if different else 0


if __name__ == "__main__":
    sys.exit(main())
