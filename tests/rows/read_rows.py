"""Reads files of worked rows.

A file of rows has one entry a line. Some entries have a block: the lines that follow and begin with two spaces, which
don't count. A line of a block that begins with {12} stands for 12 copies of its rest. Where escapes hold, \\n, \\r, \\t and
\\xff stand for a line feed, a carriage return, a tab and a byte, and every other backslash for itself. `#` is a comment.

  text NAME               begins a text that the cases below it may use
  case TITLE              begins a case, whose input is empty at first
  use NAME                adds the text of that name to this text or input
  lines                   adds the block, each line with a line feed
  bytes                   adds the block without line feeds; escapes hold
  replace `OLD` by `NEW`  replaces what stands there once and no more; escapes hold
  run WORDS               runs the program over the input, with words that are parted by one space; escapes hold

and for the runs right above, where one of the entries of a kind must hold:

  status N                they end with this status
  whole                   the output is the block, each line with a line feed
  line TEXT               the output is this one line
  first TEXT              the first line of the output is this
  holds TEXT              one line of the output is this
  part TEXT               the output has this text in a line
  accepted N              over the output, `check` answers `accepted cost N`
  same plan               with `--dossier` an accepted dossier comes, of the cost and the plan of the report
  trial                   the output is one line, the same at a second run, and begins as its status of 0 or 1 asks
  unread                  nothing of the input was read
"""

import re

ASKED = ("status", "whole", "line", "first", "holds", "part", "accepted", "same", "trial", "unread")


def unescaped(text):
    parts = re.split(r"\\(n|r|t|x[0-9a-f]{2})", text)
    parts[1::2] = [{"n": "\n", "r": "\r", "t": "\t"}.get(part) or chr(int(part[1:], 16)) for part in parts[1::2]]
    return "".join(parts).encode("latin-1")


def entries(path):
    """Each entry of a file: its kind, the rest of its line, and the lines of its block."""
    lines = [line for line in path.read_text("ascii").split("\n") if not re.match("#|$", line)]
    for entry in "\n".join(lines).replace("\n  ", "\0").split("\n"):
        head, *block = entry.split("\0")
        copies = [re.fullmatch(r"(?:\{(\d+)\})?(.*)", line).groups() for line in block]
        yield *head.partition(" ")[::2], [line for count, line in copies for _ in range(int(count or 1))]


def rows_of(path, kinds):
    """The runs of a file: where it stands, the words, the input, and what is asked of the outcome."""
    rows, asked, texts, title, is_text, data, last = [], {}, {}, "", False, b"", ""
    for kind, rest, block in entries(path):
        if kind in ("text", "case"):
            title, is_text, data = rest, kind == "text", b""
        elif kind == "use":
            data += texts[rest]
        elif kind in ("lines", "bytes"):
            data += b"".join(unescaped(line) if kind == "bytes" else line.encode() + b"\n" for line in block)
        elif kind == "replace":
            old, new = map(unescaped, re.fullmatch("`(.+)` by `(.*)`", rest).groups())
            assert data.count(old) == 1, f"{path.name}: {title}: not there once: {old}"
            data = data.replace(old, new)
        elif kind == "run":
            asked = asked if last == "run" else {}
            rows.append((f"{path.name}: {title}: run {rest}", [unescaped(word) for word in rest.split()], data, asked))
        else:
            assert kind in kinds, f"{path.name}: no entry begins with {kind}"
            asked.setdefault(kind, []).append("".join(line + "\n" for line in block) or rest)
        if is_text:
            texts[title] = data
        last = kind
    return rows
