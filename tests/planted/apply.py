#!/usr/bin/env python3
"""Tells of each planted bug, in crates/*/must-fail and in tests/planted/, whether its old texts stand once in their files."""
import sys

sys.dont_write_bytecode = True
from bugs import all_bugs


def complaints(bug):
    source = bug.source()
    for old, _ in bug.changes:
        count = source.count(old)
        if count != 1:
            yield f"{bug.path}: stands {count} times in {bug.file}: {old}"


bugs = all_bugs()
bad = [it for bug in bugs for it in complaints(bug)]
print("\n".join([*bad, f"{len(bugs)} planted bugs, {len(bad)} that can't be applied"]))
sys.exit(bool(bad))
