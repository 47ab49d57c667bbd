"""Planted bugs: where they lie, and what each changes."""
import glob
import os

TOP = os.path.realpath(os.path.join(os.path.dirname(__file__), "..", ".."))


class Bug:
    """A bug of one file of a crate: the texts that it replaces, each of which stands there once."""

    def __init__(self, path, crate=None):
        self.path = path
        self.crate = crate or path.removeprefix("tests/").split("/")[1]
        self.file = None
        self.changes = []
        old = None
        with open(os.path.join(TOP, path), encoding="utf-8") as lines:
            for line in lines:
                word, _, text = line.rstrip("\n").partition(": ")
                if word == "file":
                    self.file = text
                elif word == "old":
                    old = text
                elif word == "new":
                    self.changes.append((old, text))

    def source(self):
        """The file as it stands, without the bug."""
        with open(os.path.join(TOP, "crates", self.crate, self.file), encoding="utf-8") as source:
            return source.read()


def all_bugs():
    """The bugs that the gate tries, and those that lie here."""
    found = [*glob.glob("crates/*/must-fail/*.edit", root_dir=TOP), *glob.glob("tests/planted/*/*.edit", root_dir=TOP)]
    return [Bug(path) for path in sorted(found)]
