#!/usr/bin/env python3
"""gate_cost.py [FILE]: runs the whole gate from nothing at the top of the repository, samples which crate takes
which processor seconds, and prints a table by crate, the sums by kind, and the longest chain of crates by crates.txt. The gate's own
lines go to FILE (else out/gate_cost.log). The sum is the kernel's for all processes of the run; the table is sampled twice a second, so
that a process's last half second is missed."""
import os
import resource
import subprocess
import sys
import time

ROOT = os.path.dirname(os.path.dirname(os.path.abspath(__file__)))
TICKS = os.sysconf("SC_CLK_TCK")
KINDS = ["proof", "tests", "edits", "programs"]


def crates():
    """Each crate of crates.txt with the crates of the repository that it uses."""
    uses = {}
    for line in open(os.path.join(ROOT, "crates.txt")):
        head, colon, rest = line.split("#")[0].partition(":")
        if colon:
            uses[head.split()[0]] = rest.split()
    return {name: [use for use in rest if use in uses] for name, rest in uses.items()}


def is_program(crate):
    return os.path.exists(os.path.join(ROOT, "crates", crate, "src", "main.rt"))


def kind_of(words, folder):
    """What a process of the gate works on: a proof, tests, a planted bug, or a program that is compiled."""
    if "rt-edit" in folder:
        return "edits"
    if "--test" in words or "test" in words[1:2]:
        return "tests"
    if words[0].endswith("/rattle") and words[1] in ("build", "check"):
        return "proof"
    return "programs"


def sample(session, seen):
    """Notes the processor seconds so far of each process of the session that works on a crate."""
    for number in filter(str.isdigit, os.listdir("/proc")):
        try:
            words = open(f"/proc/{number}/cmdline").read().split("\0")
            fields = open(f"/proc/{number}/stat").read().rsplit(")", 1)[1].split()
            folder = os.readlink(f"/proc/{number}/cwd")
        except OSError:
            continue
        if int(fields[3]) != session or "--crate-name" not in words:
            continue
        crate = words[words.index("--crate-name") + 1]
        seconds = (int(fields[11]) + int(fields[12])) / TICKS
        seen[number, fields[19]] = (crate, kind_of(words, folder), seconds)


def by_crate(seen):
    table = {}
    for crate, kind, seconds in seen.values():
        row = table.setdefault(crate, dict.fromkeys(KINDS, 0.0))
        row[kind] += seconds
    return table


def longest_chain(uses, table):
    """The chain of crates, each using the next, whose proofs take the most seconds."""
    best = {}

    def chain(crate):
        if crate not in best:
            below = max((chain(use) for use in uses[crate]), default=(0.0, []))
            best[crate] = (below[0] + table.get(crate, {}).get("proof", 0.0), below[1] + [crate])
        return best[crate]

    return max(map(chain, uses))


def report(seen, total, clock):
    uses, table = crates(), by_crate(seen)
    print("| crate | " + " | ".join(f"{kind} s" for kind in KINDS) + " |")
    print("|---" * (len(KINDS) + 1) + "|")
    for crate, row in sorted(table.items(), key=lambda item: -sum(item[1].values())):
        print(f"| `{crate}` | " + " | ".join(f"{row[kind]:.0f}" if row[kind] else "" for kind in KINDS) + " |")
    for kind in KINDS:
        print(f"{kind}: {sum(row[kind] for row in table.values()) / 60:.1f} processor minutes")
    seconds, chain = longest_chain(uses, table)
    print(f"longest chain: {seconds / 60:.1f} minutes, {len(chain)} crates: {', '.join(chain)}")
    print(f"all processes: {total / 60:.1f} processor minutes in {clock / 60:.1f} minutes of clock on {os.cpu_count()} processors")


def gate_words():
    """The command of a whole gate: a kit that keeps what it has proved is asked to begin anew."""
    said = subprocess.run(["rt", "help"], stdout=subprocess.PIPE, stderr=subprocess.STDOUT, text=True)
    return ["rt", "ci", *["--anew"] * ("--anew" in said.stdout)]


def main():
    log = sys.argv[1] if len(sys.argv) > 1 else os.path.join(ROOT, "out", "gate_cost.log")
    os.makedirs(os.path.dirname(os.path.abspath(log)), exist_ok=True)
    begun, seen = time.time(), {}
    with open(log, "w") as out:
        gate = subprocess.Popen(gate_words(), cwd=ROOT, stdout=out, stderr=out, start_new_session=True)
        while gate.poll() is None:
            sample(gate.pid, seen)
            time.sleep(0.5)
    used = resource.getrusage(resource.RUSAGE_CHILDREN)
    report(seen, used.ru_utime + used.ru_stime, time.time() - begun)
    print(open(log).read().rstrip("\n").rsplit("\n", 1)[-1])
    return gate.returncode


if __name__ == "__main__":
    sys.exit(main())
