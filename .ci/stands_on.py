#!/usr/bin/env python3
"""Tells where a crate that checks dossiers stands on a part of the search or on a placer, by crates.txt."""
import sys

CHECKERS = ["checked_dossiers", "dossier_commands", "lock_picture"]
SEARCH = [
    "chamber_place", "berth_place", "spot_place", "case_search",
    "first_plan", "book_core", "price_search", "search_worker",
]


def crates():
    """What each crate names in crates.txt."""
    found = {}
    with open("crates.txt", encoding="utf-8") as lines:
        for line in lines:
            head, colon, words = line.split("#")[0].partition(":")
            if colon:
                found[head.split()[0]] = words.split()
    return found


def way(named, crate, wanted):
    """The crates from one to another that it stands on, each naming the next. None where it doesn't."""
    ways = [[crate]]
    seen = {crate}
    for path in ways:
        if path[-1] == wanted:
            return path
        for name in named.get(path[-1], []):
            if name not in seen:
                seen.add(name)
                ways.append([*path, name])
    return None


named = crates()
missing = [it for it in [*CHECKERS, *SEARCH] if it not in named]
found = [path for checker in CHECKERS for part in SEARCH if (path := way(named, checker, part))]
for name in missing:
    print(f"crates.txt lacks {name}")
for path in found:
    print(" stands on ".join(path))
sys.exit(bool(missing or found))
