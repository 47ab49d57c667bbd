#!/usr/bin/env python3
"""bodies.py FOLDER: tells of each wrong body in a folder whether it can be applied to the sources as they stand.

A wrong body is an edit like a planted bug, in a file CRATE__WHAT_GOES_WRONG.edit. One that can't be applied is told with
the places in all crates where its old text stands now, so that it can be moved along with the code. It proves nothing. The
status is 0 where all can be applied.
"""
import glob
import os
import sys

sys.dont_write_bytecode = True
from bugs import TOP, Bug


def places_of(old):
    """The files of the sources in which the text stands, and how often."""
    for path in sorted(glob.glob("crates/*/src/**/*.rt", root_dir=TOP, recursive=True)):
        with open(os.path.join(TOP, path), encoding="utf-8") as source:
            count = source.read().count(old.strip())
        if count:
            yield f"{path} ({count})" if count > 1 else path


def complaint(body):
    """Why the body can't be applied, or nothing."""
    try:
        source = body.source()
    except FileNotFoundError:
        source = ""
    for old, new in body.changes:
        if source.count(old) != 1:
            return f"stands {source.count(old)} times in {body.crate}/{body.file}: {old.strip()}\n    stands in: {', '.join(places_of(old)) or 'no file'}"
        source = source.replace(old, new)
    return None if body.changes else "changes nothing"


def main(folder):
    bodies = [Bug(os.path.abspath(path), os.path.basename(path).partition("__")[0]) for path in sorted(glob.glob(f"{folder}/*.edit"))]
    wrong = [(body, complaint(body)) for body in bodies]
    for body, why in wrong:
        print(f"{os.path.basename(body.path)}: {why or 'can be applied'}")
    missing = sum(why is not None for _, why in wrong)
    print(f"{len(bodies)} wrong bodies, {missing} that can't be applied")
    return 1 if missing or not bodies else 0


if __name__ == "__main__":
    if len(sys.argv) != 2:
        sys.exit("usage: bodies.py FOLDER")
    sys.exit(main(sys.argv[1]))
