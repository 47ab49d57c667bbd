#!/usr/bin/env python3
"""Has the prover refuse planted bugs, each by the function that it changes alone.

tests/planted/try.py            the bugs that tests/planted/each_run names
tests/planted/try.py CRATE ..   all bugs of these crates, those in must-fail/ among them

`rt ci` checks a whole crate for a bug, which costs as much as proving it; one function takes some seconds.
It runs in a checkout where `rt ci` has passed: over the libraries that were built there, and of functions that
were proved there, so that one that isn't proved with the bug in it isn't for the bug.
"""
import concurrent.futures
import os
import re
import shutil
import subprocess
import sys
import tempfile

sys.dont_write_bytecode = True
from bugs import TOP, all_bugs

KIT = os.path.dirname(os.path.dirname(os.path.realpath(shutil.which("rt") or "rt")))


def uses():
    """The crates that each crate names in crates.txt."""
    found = {}
    with open(f"{TOP}/crates.txt", encoding="utf-8") as lines:
        for line in lines:
            head, colon, words = line.split("#")[0].partition(":")
            if colon:
                found[head.split()[0]] = words.split()
    return found


def below(crate, used):
    """The repository's crates that a crate stands on."""
    found = []
    for name in used[crate]:
        if name in used and name not in found:
            found += [it for it in [*below(name, used), name] if it not in found]
    return found


def library(crate):
    return f"{TOP}/crates/{crate}/out/rlib/{crate}.rlib"


def check_words(crate, used, function):
    """The command that proves one function of a crate over the built libraries."""
    words = [f"{KIT}/bin/rattle", "check", "--crate-name", crate, "src/lib.rt", "-L", f"dependency={KIT}/rlibs"]
    for name in ["std", *used[crate]]:
        words += ["--extern", f"{name}={library(name) if name in used else f'{KIT}/rlibs/{name}.rlib'}"]
    for name in below(crate, used):
        words += ["-L", f"dependency={os.path.dirname(library(name))}"]
    words += ["--antt-project", f"{KIT}/rattle/logic/antt-project.json", "--logic-built", f"{KIT}/logic_built"]
    return [*words, "--links", f"{crate}=", "--jobs", "1", "--only", function]


def changed_function(bug):
    """What to ask the prover for: the function in which the bug's last change lies, which is the last that begins
    before it, or its whole module where the crate has another function or a module of that name."""
    source = bug.source()
    old = bug.changes[-1][0]
    name = re.findall(r"\bfn (\w+)", source[: source.index(old) + len(old)])[-1]
    count = 0
    for folder, _, files in os.walk(f"{TOP}/crates/{bug.crate}/src"):
        for file in files:
            count += file == f"{name}.rt"
            with open(f"{folder}/{file}", encoding="utf-8") as text:
                count += len(re.findall(rf"\bfn {name}\b", text.read()))
    return name if count == 1 else bug.file.removeprefix("src/").removesuffix(".rt").replace("/", "::")


def is_refused(bug, used):
    """Whether the prover refuses the bug, and the line that says so or what it said in its place."""
    with tempfile.TemporaryDirectory() as room:
        for part in ("src", "specs", "proofs"):
            if os.path.isdir(f"{TOP}/crates/{bug.crate}/{part}"):
                shutil.copytree(f"{TOP}/crates/{bug.crate}/{part}", f"{room}/{part}")
        text = bug.source()
        for old, new in bug.changes:
            text = text.replace(old, new)
        with open(f"{room}/{bug.file}", "w", encoding="utf-8") as source:
            source.write(text)
        words = check_words(bug.crate, used, changed_function(bug))
        ran = subprocess.run(words, cwd=room, stdout=subprocess.PIPE, stderr=subprocess.STDOUT, text=True, errors="replace")
    lines = ran.stdout.splitlines()
    missing = [it for it in lines if re.match(r"note: src/.* is not proved|fn \S+: (not proved|no proof)", it)]
    is_judged = ran.returncode == 1 and re.match(r"only=\d+ proved=\d+$", lines[-1])
    return (True, missing[0]) if is_judged and missing else (False, "\n".join(lines[:3]))


def chosen(names):
    """The bugs of the named crates, or without a name those of each run."""
    if names:
        return [it for it in all_bugs() if it.crate in names]
    with open(f"{TOP}/tests/planted/each_run", encoding="utf-8") as lines:
        named = {f"tests/planted/{line.strip()}.edit" for line in lines}
    return [it for it in all_bugs() if it.path in named]


def main():
    used, bugs = uses(), chosen(sys.argv[1:])
    lacking = sorted({name for bug in bugs for name in below(bug.crate, used) if not os.path.isdir(library(name))})
    if lacking or not bugs:
        print(f"not built: {' '.join(lacking)}; run `rt ci` first" if lacking else "no such bugs")
        return 2
    failed = 0
    with concurrent.futures.ThreadPoolExecutor(len(os.sched_getaffinity(0))) as pool:
        for bug, (refused, said) in zip(bugs, pool.map(lambda it: is_refused(it, used), bugs)):
            print(f"{bug.path}: {'refused' if refused else 'NOT REFUSED'}: {said}", flush=True)
            failed += not refused
    print(f"{len(bugs)} planted bugs, {failed} not refused")
    return 1 if failed else 0


sys.exit(main())
