#!/usr/bin/env python3
"""Looks up in the sources what the documents name as proved: clauses.py

In the table of docs/promises.md, the functions and methods that carry a promise, written `CRATE::NAME`, `CRATE`: or
`TYPE::METHOD`, a name alone being of the crate and the type before it; and "field" or "fields" of a run's record. In
README.md and docs/, the clauses of a run, written (clause `NAME`) or (clauses `NAME`, `NAME`). It prints what isn't there and `N names, M missing`; the status is 0 where
none is missing.
"""

import pathlib
import re
import sys

TOP = pathlib.Path(__file__).resolve().parent.parent
FUNCTION = r"\bfn\s+{}\b"
TYPE = r"\b(?:struct|enum|trait|type|record|data)\s+{}\b"
VARIANT = r"^\s+{}\s*(?:[,({{]|$)"


def text_of(crate, known={}):
    if crate not in known:
        files = [path for end in ("rt", "antt") for part in ("src", "specs") for path in (TOP / "crates" / crate / part).rglob(f"*.{end}")]
        known[crate] = "\n".join(path.read_text() for path in files)
    return known[crate]


def crates():
    """Each crate, and the crates that it stands on."""
    lines = [re.findall(r"\w+", line.split("#")[0]) for line in (TOP / "crates.txt").read_text().split("\n")]
    return {words[0]: words[1:] for words in lines if words}


def is_there(crate, name):
    """Whether the crate defines the function, the type, or the method of a type."""
    owner, _, last = name.rpartition("::")
    if owner and not re.search(TYPE.format(re.escape(owner)), text_of(crate)):
        return False
    patterns = [FUNCTION] if owner else [FUNCTION, TYPE, VARIANT]
    return any(re.search(pattern.format(re.escape(last)), text_of(crate), re.MULTILINE) for pattern in patterns)


def fields():
    """The names of the clauses of a run."""
    record = text_of("lock_top").split("record KeepsItsWord", 1)[1].split("\n\n", 1)[0]
    return set(re.findall(r"^  pub (\w+) :", record, re.MULTILINE))


def carried(cell, all_crates):
    """The crate and the name of each function that a cell of the table names; of a field of a run the crate is None."""
    crate, owner = None, ""
    for part in re.split(r"(\bfields?\b)|;", cell):
        if part is None or part in ("field", "fields"):
            continue
        is_field = re.search(r"\bfields?\s*$", cell[:cell.index(part)]) is not None
        for word in re.findall("`([^`]+)`", part):
            first, _, rest = word.partition("::")
            if word in all_crates:
                crate, owner = word, ""
            elif is_field:
                yield None, word
            elif first in all_crates:
                crate, owner = first, rest.rpartition("::")[0]
                yield crate, rest
            elif rest:
                owner = first
                yield crate, word
            elif owner and is_there(crate, f"{owner}::{word}"):
                yield crate, f"{owner}::{word}"
            else:
                yield crate, word


def rows(table):
    return [[cell.strip() for cell in line.strip("|\n").split("|")] for line in table.split("\n") if re.match(r"\| (?!---)", line)][1:]


def named():
    """Where a name stands in the documents, the crates that may have it (none for a clause of a run), and the name."""
    promises, all_crates = (TOP / "docs/promises.md").read_text(), crates()
    for what, _, cell in rows(promises):
        for crate, name in carried(cell, all_crates):
            yield f"promises.md, {what}", [crate] if crate else [], name
    for path in [TOP / "README.md", *(TOP / "docs").glob("*.md")]:
        for words in re.findall(r"\(clauses? ((?:`\w+`(?:, | and )?)+)", path.read_text()):
            for name in re.findall("`([^`]+)`", words):
                yield path.name, [], name


def main():
    clauses, count, missing = fields(), 0, 0
    for where, owners, name in named():
        count += 1
        if not (any(is_there(crate, name) for crate in owners) if owners else name in clauses):
            missing += 1
            print(f"{where}: not there: {owners[0] if owners else 'clause of a run'} {name}")
    print(f"{count} names, {missing} missing")
    return 1 if missing or not count else 0


if __name__ == "__main__":
    sys.exit(main())
