#!/usr/bin/env python3
"""tables.py PROGRAM LOT CROWD: how long the tables of the bound by prices take while PROGRAM solves lots and crowds of 24 ships.

LOT and CROWD are commands that print an instance: `LOT NUMBER SHIPS CHAMBERS` and `CROWD NUMBER SHIPS CHAMBERS`. It asks the kernel for the
times at which the program enters and leaves the call for one chamber's line (uprobes, so it needs root and a program with its symbols), and
counts the calls that worked a table out. Each instance is solved five times, which works out the same tables in the same order, and of each
table the least time counts, since whatever else is at work only makes it longer. It prints the number of tables, and their median, 99th
percentile and greatest time in milliseconds: at the root, at nodes of 12 ships, and of all together."""
import re, statistics, subprocess, sys

TRACING = "/sys/kernel/tracing"
CALL, TABLE = "price_bound::reaching::chamber_least", "price_bound::kept_groups::KeptGroups::least_by"
RUNS = 5


def write(file, text, how=">"):
    subprocess.run(["bash", "-c", f'printf "%s\\n" "$0" {how} {TRACING}/{file}', text], check=True)


def offsets(program):
    """Where the two functions begin in the program's file."""
    names = subprocess.run(["nm", program], capture_output=True, text=True, check=True).stdout
    places = {name: int(place, 16) for place, name in re.findall(r"^([0-9a-f]+) t (\S+)$", names, re.M)}
    parts = subprocess.run(["readelf", "-lW", program], capture_output=True, text=True, check=True).stdout
    code = next(line.split() for line in parts.splitlines() if "LOAD" in line and " E " in line)
    return [places[name] - int(code[2], 16) + int(code[1], 16) for name in (CALL, TABLE)]


def tables(program, instance):
    """The depth of the node and the least milliseconds of each table."""
    runs = [one_run(program, instance) for _ in range(RUNS)]
    assert all([depth for depth, _ in run] == [depth for depth, _ in runs[0]] for run in runs), "runs differ in their tables"
    return [(same[0][0], min(time for _, time in same)) for same in zip(*runs)]


def one_run(program, instance):
    """The depth of the node and the milliseconds of each table of one run."""
    write("trace", "")
    subprocess.run([program, "solve", "--workers", "1"], input=instance, stdout=subprocess.DEVNULL, check=True)
    found, asked = [], None
    for line in open(f"{TRACING}/trace"):
        event = re.search(r"\s(\d+\.\d+): (\w+): .*?(?:depth=0x([0-9a-f]+))?$", line)
        if not event:
            continue
        if event[2] == "ask":
            asked = [float(event[1]), int(event[3], 16), False]
        elif event[2] == "made" and asked:
            asked[2] = True
        elif event[2] == "got" and asked:
            if asked[2]:
                found.append((asked[1], 1000 * (float(event[1]) - asked[0])))
            asked = None
    return found


def told(times):
    if not times:
        return "none"
    times.sort()
    return f"{len(times)} {statistics.median(times):.2f} {times[len(times) * 99 // 100]:.1f} {times[-1]:.1f}"


def main(program, lot, crowd):
    call, table = offsets(program)
    write("events/enable", "0")
    write("uprobe_events", "")
    for probe in (f"p:glock/ask {program}:0x{call:x} depth=%r8:x64", f"r:glock/got {program}:0x{call:x}", f"p:glock/made {program}:0x{table:x}"):
        write("uprobe_events", probe, ">>")
    write("buffer_size_kb", "60000")
    write("events/glock/enable", "1")
    everything = []
    for kind, prints in (("lot", lot), ("crowd", crowd)):
        for number in (1, 2, 3):
            for chambers in (1, 2, 4):
                instance = subprocess.run([*prints.split(), str(number), "24", str(chambers)], capture_output=True, check=True).stdout
                found = tables(program, instance)
                everything += [time for _, time in found]
                some = [told([time for depth, time in found if depth in wanted]) for wanted in ([0], [12], range(25))]
                print(f"{kind} {number} on {chambers}: root {some[0]}; 12 ships {some[1]}; all {some[2]}", flush=True)
    quick = sum(time <= 2 for time in everything)
    print(f"all: {told(everything)}; {quick} of {len(everything)} within 2 ms")
    write("events/glock/enable", "0")
    write("uprobe_events", "")


if __name__ == "__main__":
    if len(sys.argv) != 4:
        sys.exit("usage: tables.py PROGRAM LOT CROWD")
    main(*sys.argv[1:])
