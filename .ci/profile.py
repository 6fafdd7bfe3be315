#!/usr/bin/env python3
"""Runs a command, the gate for one, and tells where its minutes go.

usage: profile.py COMMAND ..     at the top of the repository

It looks once a second at the processes that the command has started. When the command ends it prints on standard error:
for each crate the processor seconds of its proof, of its tests and of its wrong bodies, with the seconds from the start
at which each of these began and ended, most first; then the sums, and how many processors were busy on average. What
the command prints goes where it would go without this. A process that lives for less than a second may be missed. The
exit status is the command's.
"""
import collections
import os
import re
import subprocess
import sys
import time

TICKS = os.sysconf("SC_CLK_TCK")


def processes():
    """All processes: pid -> (parent, start, processor seconds, command, folder)."""
    found = {}
    for pid in filter(str.isdigit, os.listdir("/proc")):
        try:
            with open(f"/proc/{pid}/stat", encoding="utf-8", errors="replace") as file:
                text = file.read()
            fields = text[text.rindex(")") + 2 :].split()
            with open(f"/proc/{pid}/cmdline", encoding="utf-8", errors="replace") as file:
                command = file.read().replace("\0", " ")
            folder = os.readlink(f"/proc/{pid}/cwd")
        except (OSError, ValueError):
            continue
        found[pid] = (fields[1], fields[19], (int(fields[11]) + int(fields[12])) / TICKS, command, folder)
    return found


def below(root, found):
    """The processes that descend from root, itself among them."""
    inside = {root}
    grown = True
    while grown:
        grown = False
        for pid, (parent, *_rest) in found.items():
            if parent in inside and pid not in inside:
                inside.add(pid)
                grown = True
    return inside


def kind_of(command, folder):
    """The crate that a process works on, and at what: its proof, its tests, its wrong bodies, or the rest."""
    named = re.search(r"--crate-name (\S+)", command)
    placed = re.search(r"crates/([a-z0-9_]+)", folder)
    crate = named.group(1) if named else placed.group(1) if placed else "(rt itself)"
    if "rt-edit-" in folder:
        return crate, "edits"
    if re.search(r"--test\b", command):
        return crate, "tests"
    return crate, "proof" if named else "rest"


def watched(child, begin):
    """What each process that the command starts is for, its seconds, and when it was seen first and last."""
    used = {}
    while child.poll() is None:
        now = time.time() - begin
        found = processes()
        for pid in below(str(child.pid), found):
            if pid in found:
                _parent, start, seconds, line, folder = found[pid]
                first = used[pid, start][2] if (pid, start) in used else now
                used[pid, start] = (kind_of(line, folder), seconds, first, now)
        time.sleep(1)
    return used


def report(used, total):
    """Prints the table and the sums."""
    rows = collections.defaultdict(lambda: [0.0, total, 0.0])
    for kind, seconds, first, last in used.values():
        row = rows[kind]
        rows[kind] = [row[0] + seconds, min(row[1], first), max(row[2], last)]
    print(f"{'crate':28} {'what':6} {'cpu s':>7} {'from s':>7} {'to s':>7}", file=sys.stderr)
    sums = collections.Counter()
    for (crate, what), (seconds, first, last) in sorted(rows.items(), key=lambda item: -item[1][0]):
        sums[what] += seconds
        if seconds >= 1:
            print(f"{crate:28} {what:6} {seconds:7.0f} {first:7.0f} {last:7.0f}", file=sys.stderr)
    minutes = ", ".join(f"{what} {seconds / 60:.1f}" for what, seconds in sums.most_common())
    whole = sum(sums.values())
    print(f"processor minutes: {whole / 60:.1f}: {minutes}", file=sys.stderr)
    print(f"{total / 60:.1f} minutes in all, {whole / total:.1f} processors busy", file=sys.stderr)


def main(words):
    if not words:
        sys.exit(__doc__)
    begin = time.time()
    child = subprocess.Popen(words)
    used = watched(child, begin)
    report(used, max(time.time() - begin, 1))
    return child.returncode


if __name__ == "__main__":
    sys.exit(main(sys.argv[1:]))
