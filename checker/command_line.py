"""The words, the file and the answer of check_dossier.py, and on standard error what an answer means. Nothing here judges."""

import argparse
import sys

STATUSES = """The status is 0 where it is accepted, 1 for a bound below the cost (--open), 2 for wrong words, 4 where the dossier
can't be read, 5 where the answer can't be written, 7 where it isn't accepted, and 8 where a ship fits no chamber."""


def hint(text, data, is_open):
    """What a fault that is easily made means, or nothing."""
    if text == "dossier fault 3 Json":
        return "what follows the line of the certificate is damaged or cut off"
    if text != "dossier fault 2 NoMark":
        return ""
    if b"\ncertificate" not in data:
        return "no certificate follows the line end, so this is no dossier; ./glock solve --dossier makes one"
    if is_open != (b"\ncertificate open" in data):
        return "this dossier is whole, and read without --open" if is_open else "this dossier is open; --open reads it"
    return "the line of the certificate names no version that is known"


def clear():
    if sys.stderr.isatty():
        print("\r\033[K", end="", file=sys.stderr, flush=True)


def answered(answer):
    """The status, after the words, the dossier and the answer."""
    words = argparse.ArgumentParser(description="Checks a dossier of a ship lock and prints what `glock check` prints.", epilog=STATUSES)
    words.add_argument("--open", action="store_true", help="read an open dossier and print `lower LOW cost N`")
    words.add_argument("file", nargs="?", default="-", help="the dossier; standard input where it isn't given, or is -")
    given = words.parse_args()
    name = "standard input" if given.file == "-" else given.file
    try:
        data = (sys.stdin.buffer if given.file == "-" else open(given.file, "rb")).read()
    except OSError as error:
        print(f"{name}: can't be read: {error.strerror}", file=sys.stderr)
        return 4
    text, status = answer(data, given.open)
    clear()
    told = hint(text, data, given.open)
    if told:
        print(f"{name}: {told}", file=sys.stderr)
    try:
        print(text, flush=True)
    except OSError as error:
        sys.stdout = None  # what is left in it can't be written at the end either
        print(f"the answer can't be written: {error.strerror}", file=sys.stderr)
        return 5
    return status


def run(answer):
    try:
        return answered(answer)
    except KeyboardInterrupt:
        clear()
        return 130
