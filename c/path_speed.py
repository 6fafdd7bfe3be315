#!/usr/bin/env python3
"""Measures what connections carry, for path_speed.sh, which says with which words, and prepares the devices. It is the other end, at
tap0, which is Linux's; the end that is measured is at 192.168.69.7 behind relay.c, with the services of RFC 863 and RFC 864.

  path_speed.py serve CONGESTION_CONTROL ROOM      these services, by Linux's TCP
"""
import argparse
import collections
import os
import signal
import socket
import statistics
import struct
import subprocess
import sys
import tempfile
import threading
import time

HERE = os.path.dirname(os.path.realpath(__file__))
ADDRESS, DISCARD, GENERATOR = "192.168.69.7", 9, 19
# Of struct tcp_info of linux/tcp.h: the octets that were acknowledged.
ACKNOWLEDGED_AT = 120
# linux/tcp.h: the most that the socket tells as its window.
WINDOW_CLAMP = 10
LONGEST = 3600  # seconds that an end waits

# Who is at tap1, and what goes where: from there, to there, or both. The far end sends by CUBIC, as Linux usually does.
Row = collections.namedtuple("Row", "name who way told")
ROWS = [
    Row("from-here", "here", "from", "from here"),
    Row("from-reno", "reno", "from", "from Linux with Reno"),
    Row("from-cubic", "cubic", "from", "from Linux with CUBIC"),
    Row("from-lwip", "lwip", "from", "from lwIP"),
    Row("to-here", "here", "to", "to here"),
    Row("to-linux", "cubic", "to", "to Linux"),
    Row("to-lwip", "lwip", "to", "to lwIP"),
    Row("both-here", "here", "both", "from and to here at once, the slower way"),
    Row("both-reno", "reno", "both", "the same of Linux with Reno"),
    Row("both-lwip", "lwip", "both", "the same of lwIP"),
]


# One end of a connection, by Linux's TCP.

def throw_away(s, end):
    """Reads until an instant, or the peer's end or reset. How many octets came."""
    room, count = memoryview(bytearray(1 << 18)), 0
    while (rest := end - time.monotonic()) > 0:
        s.settimeout(min(rest, LONGEST))
        try:
            n = s.recv_into(room)
        except OSError:
            break
        if n == 0:
            break
        count += n
    return count


def generate(s, end):
    """Writes until an instant, or the peer's reset. How many octets were acknowledged."""
    octets = bytes(1 << 18)
    while (rest := end - time.monotonic()) > 0:
        s.settimeout(min(rest, LONGEST))
        try:
            s.send(octets)
        except OSError:
            break
    told = s.getsockopt(socket.IPPROTO_TCP, socket.TCP_INFO, ACKNOWLEDGED_AT + 8)
    return struct.unpack_from("=Q", told, ACKNOWLEDGED_AT)[0]


def narrow(s, congestion_control, room):
    s.setsockopt(socket.IPPROTO_TCP, socket.TCP_CONGESTION, congestion_control.encode())
    s.setsockopt(socket.IPPROTO_TCP, WINDOW_CLAMP, room)


def serve(congestion_control, room):
    def listen(port, works):
        listener = socket.create_server((ADDRESS, port))
        narrow(listener, congestion_control, room)
        while True:
            s = listener.accept()[0]
            for work in works:
                threading.Thread(target=work, args=(s.dup(), float("inf")), daemon=True).start()
            s.close()

    signal.signal(signal.SIGTERM, lambda *_: sys.exit(0))
    threading.Thread(target=listen, args=(DISCARD, [throw_away]), daemon=True).start()
    threading.Thread(target=listen, args=(GENERATOR, [throw_away, generate]), daemon=True).start()
    signal.pause()


# The path.

class Path:
    """A relay with a stack at its far end, which answers pings once it is there."""

    def __init__(self, plan, who, delay, loss, seed):
        words = [os.path.join(HERE, "build/relay"), "-r", str(seed), "-b", f"loss={loss},delay={delay / 2}"]
        self.server = None
        if who == "here":
            words += ["-s", "tap0", os.path.join(plan.folder, "path_host"), "@3", str(plan.room)]
        elif who == "lwip":
            words += ["-s", "tap0", os.path.join(plan.lwip, "path_lwip")]
        else:
            words += ["-n", os.environ["OTHER"], "-d", "tap1", "tap0"]
            self.server = ["nsenter", f"--net={os.environ['OTHER']}", sys.executable, __file__, "serve", who, str(plan.room)]
        self.words = words

    def __enter__(self):
        # What is said in the end, as that nobody takes frames any more, isn't of interest.
        self.said = tempfile.TemporaryFile(mode="w+")
        self.relay = subprocess.Popen(self.words, stdout=subprocess.DEVNULL, stderr=self.said)
        self.server = self.server and subprocess.Popen(self.server)
        end = time.monotonic() + 20
        time.sleep(0.2)  # until the devices are up: what is asked before that is asked again after a second
        while subprocess.run(["ping", "-c", "1", "-W", "0.5", ADDRESS], capture_output=True, check=False).returncode:
            if time.monotonic() > end or self.relay.poll() is not None:
                self.said.seek(0)
                print(self.said.read(), end="", file=sys.stderr)
                self.__exit__()
                raise SystemExit(f"path_speed.py: {ADDRESS} doesn't answer a ping")
        return self

    def __exit__(self, *_):
        for process in (self.server, self.relay):
            if process:
                process.terminate()
                process.wait()
        self.said.close()


def connected(port, room):
    """A connection, which is asked for until there is one, a minute at most."""
    end = time.monotonic() + 60
    while True:
        s = socket.socket()
        narrow(s, "cubic", room)
        # what isn't sent yet goes with the connection
        s.setsockopt(socket.SOL_SOCKET, socket.SO_LINGER, struct.pack("ii", 1, 0))
        s.settimeout(30)
        try:
            s.connect((ADDRESS, port))
            return s
        except OSError:
            s.close()
            if time.monotonic() > end:
                raise
            time.sleep(0.1)


WORKS = {"from": [throw_away], "to": [generate], "both": [throw_away, generate]}


def carried(s, works, end):
    """How many octets each way a connection carries until an instant. Each work has a descriptor, and so a time-out, of its own."""
    counts = [0 for _ in works]

    def note(i, work, copy):
        with copy:
            counts[i] = work(copy, end)

    threads = [threading.Thread(target=note, args=(i, work, s.dup())) for i, work in enumerate(works)]
    for thread in threads:
        thread.start()
    for thread in threads:
        thread.join()
    return counts


def measure(plan, row, delay, loss, seed):
    """Octets a second of one run, the slower way of two; none where there is no connection, or it is reset."""
    with Path(plan, row.who, delay, loss, seed):
        try:
            with connected(DISCARD if row.way == "to" else GENERATOR, plan.room) as s:
                return min(carried(s, WORKS[row.way], time.monotonic() + plan.seconds)) / plan.seconds
        except OSError as error:
            print(f"path_speed.py: {row.name}: {error}", file=sys.stderr)
            return 0.0


# The table.

def shown(rate):
    """Millions of octets a second by two digits, or three from ten on."""
    rate /= 1e6
    return f"{rate:.0f}" if rate >= 100 else f"{rate:.1f}" if rate >= 10 else f"{rate:.2f}" if rate >= 0.1 else f"{rate:.3f}"


def table(rates):
    """Lines of a table of medians, as docs/PERFORMANCE.md has it: a row of ROWS each, and a column for each path."""
    paths = sorted({(delay, loss) for _, delay, loss in rates})
    heads, before = [], None
    for delay, loss in paths:
        heads.append((f"{delay:g} ms: " if delay != before else "") + (f"{loss:g} %" if loss else "0"))
        before = delay
    yield "| Millions of octets a second | " + " | ".join(heads) + " |"
    yield "|---" * (len(heads) + 1) + "|"
    for row in ROWS:
        found = [rates.get((row.name, *path), []) for path in paths]
        if any(found):
            yield f"| {row.told} | " + " | ".join(shown(statistics.median(runs)) if runs else "" for runs in found) + " |"


def read_runs(files):
    rates = collections.defaultdict(list)
    for name in files:
        with open(name, encoding="utf-8") as lines:
            for line in lines:
                row, delay, loss, _, rate = line.split()
                rates[row, float(delay), float(loss)].append(float(rate))
    return rates


# The list.

def read_plan():
    def numbers(text):
        return [float(word) for word in text.split(",")]

    words = argparse.ArgumentParser(add_help=False)
    words.add_argument("-l", dest="lwip")
    words.add_argument("-n", dest="runs", type=int, default=9)
    words.add_argument("-t", dest="seconds", type=float, default=10)
    words.add_argument("-m", dest="room", type=int, default=1_000_000)
    words.add_argument("-d", dest="delays", type=numbers, default=[20, 100])
    words.add_argument("-p", dest="losses", type=numbers, default=[0, 0.1, 1, 5])
    words.add_argument("-w", dest="rows", default="")
    words.add_argument("-o", dest="told", default=os.devnull)
    words.add_argument("-i", dest="files", nargs="+")
    words.add_argument("folder", nargs="?")
    plan = words.parse_args()
    if plan.files:
        print(*table(read_runs(plan.files)), sep="\n")
        sys.exit()
    if plan.rows == "list":
        print(*(row.name for row in ROWS), sep="\n")
        sys.exit()
    plan.rows = [row for row in ROWS if not plan.rows or row.name in plan.rows.split(",")]
    if not plan.folder or not plan.rows:
        sys.exit("usage: path_speed.sh [OPTION..] FOLDER; its head has the options, and '-w list' prints the rows")
    plan.rows = [row for row in plan.rows if plan.lwip or row.who != "lwip"]
    return plan


def build_lwip(plan, folder):
    if plan.lwip:
        builder = os.path.join(HERE, "beside_lwip/tcp.sh")
        subprocess.run(["sh", builder, plan.lwip, "build", folder], env={**os.environ, "ROOM": str(plan.room)}, check=True)
        plan.lwip = folder


def main():
    if sys.argv[1:2] == ["serve"]:
        serve(sys.argv[2], int(sys.argv[3]))
    plan, rates = read_plan(), collections.defaultdict(list)
    signal.signal(signal.SIGTERM, lambda *_: sys.exit(2))
    with tempfile.TemporaryDirectory() as folder, open(plan.told, "a", encoding="utf-8") as told:
        build_lwip(plan, folder)
        # Row by row within a run, so that whatever else the machine does meets all rows alike.
        for seed in range(1, plan.runs + 1):
            for delay in plan.delays:
                for loss in plan.losses:
                    for row in plan.rows:
                        rate = measure(plan, row, delay, loss, seed)
                        rates[row.name, delay, loss].append(rate)
                        told.write(f"{row.name} {delay:g} {loss:g} {seed} {rate:.0f}\n")
                        told.flush()
                        print(f"run {seed}, {delay:g} ms, {loss:g} %: {row.name} {shown(rate)} MB/s", file=sys.stderr, flush=True)
    print(*table(rates), sep="\n")
    # where nothing came through, something is wrong
    sys.exit(not all(statistics.median(runs) for runs in rates.values()))


if __name__ == "__main__":
    main()
