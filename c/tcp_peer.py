#!/usr/bin/env python3
"""Tries the cases of tcp_cases.py by Linux's own TCP, which is at 192.168.69.100 and fd69::100 on tap0.

  tcp_peer.py serve                  the services of a stand-in: port 7 sends back, port 80 has a page, iperf3 if it is there
  tcp_peer.py [OPTION..] KIND ..     tries the cases; tcp.sh says with which words, and what it needs

A case prints a line with what it measured, or fails where something else happens than RFC 9293 says.
"""
import argparse
import collections
import os
import shutil
import signal
import socket
import subprocess
import sys
import threading
import time

import tcp_cases as cases
from tcp_cases import HTTP, Host, Wrong, wanted
from tcp_frames import ECHO

HERE = os.path.dirname(os.path.realpath(__file__))


# The services of a stand-in.

def echo_service(s):
    while data := s.recv(65536):
        s.sendall(data)


def page_service(s):
    asked = b""
    while b"\r\n\r\n" not in asked and (data := s.recv(4096)):
        asked += data
    body = b"<p>A page of the stand-in.</p>\n" * 300
    s.sendall(b"HTTP/1.1 200 OK\r\nConnection: close\r\nContent-Length: %d\r\n\r\n" % len(body) + body)
    s.shutdown(socket.SHUT_WR)
    while s.recv(4096):
        pass


def serve():
    def each(service, s):
        try:
            service(s)
        except OSError:
            pass  # the peer has left
        s.close()

    def listen(port, service):
        with socket.create_server(("::", port), family=socket.AF_INET6, dualstack_ipv6=True, backlog=512) as listener:
            while True:
                threading.Thread(target=each, args=(service, listener.accept()[0]), daemon=True).start()

    for port, service in [(ECHO, echo_service), (HTTP, page_service)]:
        threading.Thread(target=listen, args=(port, service), daemon=True).start()
    iperf3 = subprocess.Popen(["iperf3", "-s"], stdout=subprocess.DEVNULL) if shutil.which("iperf3") else None
    signal.signal(signal.SIGTERM, lambda *_: sys.exit(0))
    try:
        signal.pause()
    finally:
        if iperf3:
            iperf3.kill()


# The program behind its relay.

class Relay:
    """The program behind a relay that does this to frames. It answers pings once it is there."""

    def __init__(self, plan, does, wrong=None):
        words = [os.path.join(HERE, "build/relay"), "-r", str(plan.seed)]
        words += ["-b", does] if does else []
        words += ["-w", wrong] if wrong else []
        if plan.kind == "lines":
            words += ["tap0", *plan.program]
        elif plan.kind == "frames":
            words += ["-s", "tap0", *plan.program]
        else:
            words += ["-n", os.environ["OTHER"], "-d", "tap1", "tap0"]
        self.words, self.addresses = words, plan.addresses

    def __enter__(self):
        self.process = subprocess.Popen(self.words, stdout=subprocess.PIPE, text=True)
        for address in self.addresses.values():
            end = time.time() + 10
            while subprocess.run(["ping", "-c", "1", "-W", "1", address], capture_output=True, check=False).returncode:
                if time.time() > end or self.process.poll() is not None:
                    self.process.terminate()
                    raise SystemExit(f"tcp_peer.py: {address} doesn't answer a ping")
        return self

    def program(self):
        """Its process, if it has one."""
        with open(f"/proc/{self.process.pid}/task/{self.process.pid}/children", encoding="ascii") as text:
            return next(iter(text.read().split()), None)

    def __exit__(self, kind, *_):
        has_ended = self.process.poll() is not None
        self.process.terminate()
        self.process.communicate()
        wanted(kind or not has_ended, "the program ended by itself")


# The list.

Case = collections.namedtuple("Case", "name does run service tool", defaults=("", ""))
CASES = [
    Case("one-octet", "", cases.one_octet),
    Case("transfer", "", cases.transfer),
    Case("loss-1", "loss=1", cases.transfer),
    Case("loss-5", "loss=5", cases.transfer),
    Case("reorder-10", "reorder=10", cases.transfer),
    Case("loss-1-reorder-10", "loss=1,reorder=10", cases.transfer),
    Case("repeat-5", "repeat=5", cases.transfer),
    Case("delay-50", "delay=25", cases.transfer),
    Case("page", "", cases.page, "http", "curl"),
    Case("iperf3", "", cases.iperf3, "iperf3", "iperf3"),
    Case("half-close", "", cases.half_close, "", "nc"),
    Case("simultaneous-close", "delay=100", cases.simultaneous_close, "http"),
    Case("refused", "", cases.refused),
    Case("killed", "", cases.killed),
    Case("absent", "delay=50", cases.absent),
    Case("zero-window", "", cases.zero_window),
    Case("restraint", "", cases.restraint),
    Case("restraint-loss-1", "loss=1", cases.restraint_of_lossy),
    Case("in-a-row", "", cases.in_a_row),
    Case("at-once", "", cases.at_once),
    # Before the flood: after that Linux's SYN cookies bring a connection back that was reset and has echoed all that came.
    Case("fuzz", "", cases.fuzz),
    Case("flood", "", cases.flood),
]

# What a relay does wrong on purpose, and the case that has to see it.
WRONGS = [
    ("refuses", "one-octet"), ("only-ipv4", "one-octet"), ("end-missing", "one-octet"),
    ("one-octet", "transfer"), ("octets-twice", "transfer"), ("checksum", "transfer"), ("end-too-early", "transfer"),
    ("window-stays-closed", "transfer"), ("acknowledged-unread", "transfer"), ("other-octets-again", "loss-5"),
    ("half-close-resets", "half-close"), ("end-not-acknowledged", "simultaneous-close"),
    ("reset-missing", "refused"), ("reset-acknowledges-more", "refused"), ("reset-with-a-number", "refused"),
    ("deaf-to-resets", "killed"), ("impatient", "absent"), ("no-probe", "zero-window"), ("window-ignored", "zero-window"),
    ("edge-goes-back", "restraint"), ("acknowledges-too-much", "restraint"), ("changes-its-mind", "restraint"),
    ("few-in-all", "in-a-row"), ("few-at-once", "at-once"), ("crossed", "at-once"),
    ("believes-resets", "fuzz"), ("drowned", "flood"),
]


def missing(case, plan):
    """Why a case can't be run, in a sentence."""
    if case.tool and not shutil.which(case.tool):
        return f"{case.tool} isn't installed"
    if case.service and case.service not in plan.services:
        return f"the program has no {case.service}"
    return None


LONGEST = 1800  # seconds that a case has


def on_alarm(*_):
    raise Wrong(f"it wasn't over after {LONGEST} s")


def try_case(case, plan, wrong=None):
    """Runs a case over each family. Whether all went well."""
    is_well = True
    if reason := missing(case, plan):
        print(f"not run  {case.name}: {reason}", flush=True)
        return True
    with Relay(plan, case.does, wrong) as relay:
        plan.pid = relay.program()
        for family in plan.addresses:
            signal.alarm(LONGEST)
            try:
                told, word = case.run(Host(plan, family)), "ok"
            except (FileNotFoundError, PermissionError):
                raise  # that isn't the program's doing
            except (Wrong, OSError, subprocess.TimeoutExpired) as error:
                told, word, is_well = str(error), "FAILED", False
            signal.alarm(0)
            if wrong and word == "FAILED":
                print(f"seen     {wrong}, by {case.name} over IPv{family}: {told}", flush=True)
                return False
            if not wrong:
                print(f"{word:<8} {case.name}, IPv{family}: {told}", flush=True)
    if wrong:
        print(f"NOT SEEN {wrong}, by {case.name}", flush=True)
    return is_well


def read_plan():
    words = argparse.ArgumentParser(add_help=False)
    words.add_argument("-a", default="192.168.69.7,fd69::7")
    words.add_argument("-h", default="")
    words.add_argument("-c", default="")
    words.add_argument("-m", dest="megabytes", type=int, default=100)
    words.add_argument("-z", dest="zero", type=int, default=60)
    words.add_argument("-r", dest="seed", type=int, default=1)
    words.add_argument("kind", choices=["lines", "frames", "linux", "wrong"])
    words.add_argument("program", nargs=argparse.REMAINDER)
    plan = words.parse_args()
    plan.addresses = {6 if ":" in a else 4: a for a in plan.a.split(",")}
    is_linux = plan.kind in ("linux", "wrong")
    plan.services = ["http", "iperf3"] if is_linux else plan.h.split(",")
    plan.patience = 30  # seconds
    plan.cases = [case for case in CASES if not plan.c or case.name in plan.c.split(",")]
    if plan.c == "list" or not plan.cases:
        print(*(case.name for case in CASES), sep="\n")
        sys.exit(0 if plan.c == "list" else 2)
    return plan


def main():
    if sys.argv[1:] == ["serve"]:
        serve()
    plan = read_plan()
    signal.signal(signal.SIGTERM, lambda *_: sys.exit(2))
    signal.signal(signal.SIGALRM, on_alarm)
    begin = time.time()
    if plan.kind == "wrong":
        plan.megabytes, plan.zero, plan.patience = 2, 8, 4
        cases = {case.name: case for case in plan.cases}
        results = [not try_case(cases[name], plan, wrong) for wrong, name in WRONGS if name in cases]
    else:
        results = [try_case(case, plan) for case in plan.cases]
    print(f"{len(results)} tried, {results.count(False)} failed, in {time.time() - begin:.0f} s", flush=True)
    sys.exit(False in results)


if __name__ == "__main__":
    main()
