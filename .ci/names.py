#!/usr/bin/env python3
"""Looks up what the documents name: names.py

Of each word in back-ticks in README.md, docs/ and benches/README.md that is a path, a path of Rust's (`CRATE::NAME`) or a
name (`snake_case`, `CamelCase`), whether it is in the tree; of each word `--option`, whether the script or the program
has it; of each figure of README.md with a unit or decimals, whether a figure of benches/README.md with that unit is the
same: equal, or README's is that one rounded, to two digits or more. It prints what isn't there and `N names, M missing`;
the status is 0 where none is missing.
"""

import decimal
import pathlib
import re
import subprocess
import sys

TOP = pathlib.Path(__file__).resolve().parent.parent
DOCUMENTS = [TOP / "README.md", *sorted((TOP / "docs").glob("*.md")), TOP / "benches/README.md"]
NAME = r"[a-z][a-z0-9]+(?:_[a-z0-9]{2,})+|[A-Z][a-z0-9]+(?:[A-Z][a-z0-9]*)+"
UNITS = {"second": "s", "seconds": "s", "minute": "minutes", "hundredth": "hundredths"}
FIGURE = re.compile(r"(?<![\w.,-])(?P<number>\d[\d,]*(?:\.\d+)?)(?![\w-]|\.\d)(?: (?:processor )?(?P<unit>s|seconds?|minutes?|KB|MB|GB|hundredths?)\b)?")
# words of the kit, of other programs, and of examples that a document makes up
FOREIGN = set("""may_wait must_fail must-fail assert_eq assert_bytes fail_alloc memcpy memmove memset html5lib array_vec_len
slice_index_or sum_by count_by zero_or_more same_Some from_slice to_vec""".split())


def words_of_tree():
    """Every word of a file that isn't a document, and every file's path."""
    files = subprocess.run(["git", "ls-files"], cwd=TOP, capture_output=True, text=True, check=True).stdout.split("\n")
    words, paths = set(), set(filter(None, files))
    for name in paths:
        if not name.endswith((".png", ".md")):
            words.update(re.findall(r"[A-Za-z_][A-Za-z0-9_]*", (TOP / name).read_text(encoding="utf-8", errors="replace")))
    folders = {str(parent) for name in paths for parent in pathlib.PurePosixPath(name).parents}
    return words, paths | folders


def is_path_there(word, paths):
    plain = word.rstrip("/").removeprefix("./").removeprefix("../")
    tries = [plain, f"{plain}.antt", f"{plain}.rt", f"docs/{plain}"]
    return any(it in paths for it in tries) or any(path.endswith(f"/{it}") for it in tries for path in paths)


def named(text):
    for word in re.findall(r"`([^`\n]+)`", text):
        if re.fullmatch(r"[\w./-]+/[\w./-]*", word) and not re.match(r"/|~|\.\.?/?$|out/|days/", word):
            yield "path", word
        elif re.fullmatch(r"[\w]+(?:::[\w]+)+", word) or re.fullmatch(NAME, word):
            yield "name", word
        elif re.match(r"--[a-z][a-z-]+$", word):
            yield "option", word


def figures_of(text):
    """The figures of a text with a unit, or with decimals and none: as it is written, its number and its unit."""
    plain = re.sub(r"```.*?```|`[^`\n]*`|\]\([^)\n]*\)", " ", text, flags=re.DOTALL)
    for found in FIGURE.finditer(plain):
        number, unit = found["number"], found["unit"]
        if unit or "." in number:
            yield found[0], decimal.Decimal(number.replace(",", "")), UNITS.get(unit, unit)


def is_same(figure, measured):
    """Whether a figure is the measured one, or that one rounded to as many decimals as the figure has, with two digits or more."""
    exponent = figure.as_tuple().exponent
    if measured.as_tuple().exponent > exponent:
        return False
    is_rounded = measured.quantize(figure, decimal.ROUND_HALF_UP) == figure and figure.adjusted() - exponent >= 1
    return figure == measured or is_rounded


def figures():
    measured = [(number, unit) for _, number, unit in figures_of((TOP / "benches/README.md").read_text())]
    for written, number, unit in figures_of((TOP / "README.md").read_text()):
        yield written, any(unit in (None, of) and is_same(number, it) for it, of in measured)


def main():
    words, paths = words_of_tree()
    count, missing = 0, []
    for document in DOCUMENTS:
        for kind, word in sorted(set(named(document.read_text()))):
            count += 1
            if kind == "path":
                there = is_path_there(word, paths) or "*" in word
            elif kind == "option":
                there = word[2:].replace("-", "_") in words or word[2:] in words or all(it in words for it in word[2:].split("-"))
            else:
                there = all(it in words or it in FOREIGN for it in word.split("::"))
            if not there:
                missing.append(f"{document.relative_to(TOP)}: not there: {kind} {word}")
    for figure, there in figures():
        count += 1
        if not there:
            missing.append(f"README.md: no such figure in benches/README.md: {figure}")
    print("\n".join([*missing, f"{count} names, {len(missing)} missing"]))
    return 1 if missing or not count else 0


if __name__ == "__main__":
    sys.exit(main())
