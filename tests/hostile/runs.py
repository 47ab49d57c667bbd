"""Runs of a program, and the commands that are tried."""

import dataclasses
import pathlib
import re
import subprocess

SECONDS = 60
NO_STACK = "no stack"
EXAMPLES = pathlib.Path(__file__).resolve().parents[2] / "examples"
# How the text of each status begins.
BEGINS = {
    0: rb"(optimal cost|accepted cost|legal cost|lower|glock|\d+) |end\n",
    1: rb"(open|lower|glock) ",
    2: rb"bad words\n",
    3: rb"line \d+ fault |too long ",
    4: rb"read fault\n",
    6: rb"no memory\n",
    7: rb"dossier fault |rejected |line \d+ fault ",
    8: rb"ship \S+ fits no chamber\n",
    10: rb"plan line \d+ fault |illegal ",
}


@dataclasses.dataclass
class Answer:
    status: int
    text: bytes

    def __str__(self):
        return f"status {self.status}, {self.text[:100]!r}"

    def first(self):
        return self.text.split(b"\n")[0]


@dataclasses.dataclass
class Command:
    """A command with its words and input, its answer where nothing goes wrong, and whether its text is one for all
    numbers of workers, or its first line alone."""

    words: list
    data: bytes
    answer: Answer
    is_whole: bool

    def reads(self):
        return self.words[0] not in ("lot", "trial")

    def is_right(self, answer):
        if answer.status != self.answer.status:
            return False
        return answer.text == self.answer.text if self.is_whole else answer.first() == self.answer.first()


@dataclasses.dataclass
class Wrong:
    what: str
    words: list
    data: bytes
    answer: object


class Runner:
    def __init__(self, program):
        self.program = program

    def run(self, words, data=b"", before=None, **how):
        """The answer of a run, or None where it didn't end; `before` is what the shell does before it becomes the program."""
        how = {"stdout": subprocess.PIPE, "stderr": subprocess.DEVNULL, **how}
        if "stdin" not in how:
            how["input"] = data
        first = ["sh", "-c", f'{before}; exec "$0" "$@"'] if before else []
        try:
            done = subprocess.run([*first, self.program, *words], timeout=SECONDS, **how)
        except subprocess.TimeoutExpired:
            return None
        return Answer(done.returncode, done.stdout or b"")


def is_listed(answer):
    """Whether the answer stands in the table of texts by status."""
    if answer is None:
        return False
    begin = BEGINS.get(answer.status)
    return begin is not None and re.match(begin, answer.text) is not None and answer.text.endswith(b"\n")


def listed(runner, what, words, data):
    """A case whose answer is to stand in the table of texts by status."""
    def tried():
        answer = runner.run(words, data)
        return None if is_listed(answer) else Wrong(what, words, data, answer)
    return tried


def crowd(text, minutes):
    """The instance with all ships arriving within so many minutes."""
    lines = []
    for line in text.decode().splitlines():
        words = line.split()
        if words[:1] == ["ship"]:
            words[5] = str(int(words[5]) % (minutes + 1))
        lines.append(" ".join(words))
    return ("\n".join(lines) + "\n").encode()


def two_ships(width):
    """Two equal ships, and a chamber of this width."""
    ships = "".join(f"ship {name} up 1100 114 0 5\n" for name in ("s1", "s2"))
    return f"glock 1\nchamber c1 2000 {width} 10 20 5 4 30 15 low 0\n{ships}end\n".encode()


def commands(runner):
    """Each command over the examples, a small crowd, and two ships that fit side by side or don't."""
    evening, closures = ((EXAMPLES / name).read_bytes() for name in ("evening.lock", "closures-and-cargo.lock"))
    plan = (EXAMPLES / "evening.plan").read_bytes()
    queue = crowd(runner.run("lot --number 3 --ships 8 --chambers 2".split()).text, 20)
    dossier = runner.run(["solve", "--dossier"], evening).text
    kept = runner.run("solve --keep --nodes 3 --workers 1".split(), queue).text
    plans = evening + plan
    wanted = [
        ("solve --workers 1", evening), ("solve --workers 2", evening), ("solve --workers 4", queue),
        ("solve --workers 1 --dossier", queue), ("solve --workers 1 --dossier", two_ships(232)),
        ("solve --workers 2 --turns 128", two_ships(240)), ("solve --workers 1 --keep --nodes 3", queue), ("solve", closures),
        ("trial", b""), ("lot --number 1 --ships 96 --chambers 4", b""), ("judge", plans), ("play", plans),
        ("replan --from 60", plans), ("replan --now 60", plans), ("check", dossier), ("lower", kept), ("resume", kept),
    ]
    found = []
    for words, data in wanted:
        words = words.split()
        found.append(Command(words, data, runner.run(words, data), words[0] in ("judge", "play", "check", "lower", "lot", "trial")
                             or words[1:3] == ["--workers", "1"]))
    return found
