#!/usr/bin/env python3
"""Measures the throughput of streams over the loss of their links in a simulation, and draws it by throughput.py.

usage: loss.py                 runs the repository's `simulate`, as `rt run` builds it, and writes throughput_by_loss.svg into the
                               folder in which it lies, and the numbers to standard output
       loss.py --script        prints the script of the simulation
       loss.py TABLES          takes what `simulate tables` printed of that script from a file
"""
import pathlib
import re
import subprocess
import sys

import throughput

HERE = pathlib.Path(__file__).resolve().parent
PROGRAM = HERE.parent / "crates/simulate/out/simulate"

MSS, DELAY = 1460, 25_000

# Losses per mille of the copies that go to the receiver, each with how many streams there are, and how many octets each sends.
STREAMS = {0: (1, 10_000_000), 1: (4, 10_000_000), 2: (4, 10_000_000), 5: (4, 5_000_000), 10: (4, 5_000_000), 20: (4, 2_000_000),
           50: (4, 1_000_000), 100: (4, 200_000)}

# Each stream has two hosts of its own, and the link has no rate, so none hinders another.
PAIR = """host a{i} 02:00:00:00:01:{i:02x}
addr a{i} 10.0.1.{i}/16
host b{i} 02:00:00:00:02:{i:02x}
addr b{i} 10.0.2.{i}/16
loss {loss} b{i}
listen b{i} 80
stream a{i} 10.0.2.{i} 80 {octets} 0
"""


def streams():
    """The loss and the octets of each stream, in the order of the script."""
    return [(loss, octets) for loss, (count, octets) in STREAMS.items() for _ in range(count)]


def script():
    pairs = (PAIR.format(i=i, loss=loss, octets=octets) for i, (loss, octets) in enumerate(streams(), 1))
    return f"seed 1\nuntil 86400000000\ndelay {DELAY} {DELAY}\n" + "".join(pairs)


def measured(tables):
    """Of each stream its loss in percent, its octets, how many a second they were, and how many segments were sent again."""
    for i, (loss, octets) in enumerate(streams()):
        head = re.escape(f"port 80: {octets} octets sent, {octets} received, none wrong, ")
        found = re.search(rf"^  {i}: .* {head}(\d+) segments sent again\n.* (\d+) octets a second$", tables, re.MULTILINE)
        if not found:
            sys.exit(f"loss.py: stream {i} didn't come through:\n{tables}")
        yield loss / 10, octets, int(found[2]), int(found[1])


def main():
    if sys.argv[1:] == ["--script"]:
        sys.stdout.write(script())
        return
    if len(sys.argv) == 2:
        tables = pathlib.Path(sys.argv[1]).read_text(encoding="utf-8")
    else:
        tables = subprocess.run([PROGRAM, "tables"], input=script(), text=True, capture_output=True, check=True).stdout
    lines = [f"mss {MSS}", f"rtt {2 * DELAY}", "each 2"]
    lines += [f"{loss:g} {rate}   # {octets} octets, {again} segments sent again" for loss, octets, rate, again in measured(tables)]
    print("\n".join(lines))
    (HERE / "throughput_by_loss.svg").write_text(throughput.draw(*throughput.read(lines)), encoding="utf-8")


if __name__ == "__main__":
    main()
