#!/usr/bin/env python3
"""heads.py: each crate's root file names, in its head, all files of definitions that another crate uses. Prints what is left out."""
import os
import re
import sys

ROOT = os.path.dirname(os.path.dirname(os.path.abspath(__file__)))
CRATES = os.path.join(ROOT, "crates")
USE = re.compile(r"Rattle\.(\w+)\.specs\.(\w+)")


def files_in(folder, endings):
    for place, _, names in os.walk(folder):
        if os.sep + "out" not in place:
            yield from (os.path.join(place, name) for name in names if name.endswith(endings))


def text_of(path):
    with open(path, encoding="utf-8") as file:
        return file.read()


def used_elsewhere():
    """The files of definitions of each crate that other crates use."""
    used = {}
    for user in os.listdir(CRATES):
        for path in files_in(os.path.join(CRATES, user), (".rt", ".antt")):
            for crate, name in USE.findall(text_of(path)):
                if crate != user and os.path.exists(os.path.join(CRATES, crate, "specs", name + ".antt")):
                    used.setdefault(crate, set()).add(name)
    return used


def head_of(crate):
    """The words of the comment that a crate's root file opens with."""
    source = os.path.join(CRATES, crate, "src")
    root = next(path for name in ("lib.rt", "main.rt") if os.path.exists(path := os.path.join(source, name)))
    return set(re.findall(r"\w+", "".join(line for line in open(root, encoding="utf-8") if line.startswith("//!"))))


def main():
    left_out = [f"{crate}'s head leaves out specs/{name}" for crate, names in sorted(used_elsewhere().items()) for name in sorted(names - head_of(crate))]
    print("\n".join(left_out), end="\n" if left_out else "")
    return 1 if left_out else 0


sys.exit(main())
