#!/usr/bin/env python3
"""A small server of names for lookup.sh, over UDP, by RFC 1035 alone.

  name_server.py ADDRESS      of its own, at whose port 53 it answers until it is ended

It knows the names below. Each question is printed, with the port that it came from. Where a name has `after`, the first so many
questions for it stay without an answer."""
import ipaddress
import socket
import struct
import sys

A, CNAME, TXT, AAAA = 1, 5, 16, 28
# What stands for a name: its records in order, the response code, and whether the answer is cut short.
NAMES = {
    "www.example.com": {"records": [(A, "192.0.2.1"), (A, "192.0.2.2"), (AAAA, "2001:db8::1")]},
    "alias.example.com": {"records": [(CNAME, "web.example.com")]},
    "web.example.com": {"records": [(CNAME, "www.example.com")]},
    "slow.example.com": {"records": [(A, "192.0.2.3")], "after": 2},
    "forged.example.com": {"records": [(A, "192.0.2.4")], "forged": True},
    "long.example.com": {"records": [], "truncated": True},
    "broken.example.com": {"records": [], "code": 2},
    "text.example.com": {"records": [(TXT, "an apple")]},
    "silent.example.com": {"records": [], "after": 1 << 30},
}
asked = {}


def read_name(message, at):
    """Returns the labels at an offset of a question, which has no pointers, and where they end."""
    labels = []
    while message[at]:
        labels.append(message[at + 1 : at + 1 + message[at]].decode("ascii"))
        at += 1 + message[at]
    return labels, at + 1


class Answer:
    """A message that grows: names are written once, and then by pointers (RFC 1035, 4.1.4)."""

    def __init__(self, octets):
        self.octets, self.places = octets, {}

    def name(self, text):
        labels = text.split(".")
        for i in range(len(labels)):
            rest = ".".join(labels[i:])
            if rest in self.places:
                self.octets += struct.pack("!H", 0xC000 | self.places[rest])
                return
            self.places[rest] = len(self.octets)
            self.octets += bytes([len(labels[i])]) + labels[i].encode()
        self.octets += b"\0"

    def record(self, name, kind, value):
        self.name(name)
        self.octets += struct.pack("!HHIH", kind, 1, 300, 0)
        start = len(self.octets)
        if kind == CNAME:
            self.name(value)
        elif kind == TXT:
            self.octets += bytes([len(value)]) + value.encode()
        else:
            self.octets += ipaddress.ip_address(value).packed
        self.octets[start - 2 : start] = struct.pack("!H", len(self.octets) - start)


def answer_to(question):
    """Returns the answers to a message, in order; none to one that is no question."""
    number, flags, count = struct.unpack("!HHH", question[:6])
    if flags & 0x8000 or count != 1:
        return []
    labels, end = read_name(question, 12)
    name, (kind, _) = ".".join(labels), struct.unpack("!HH", question[end : end + 4])
    asked[name] = asked.get(name, 0) + 1
    known = NAMES.get(name.lower(), {"records": [], "code": 3})
    if asked[name] <= known.get("after", 0):
        return []
    answer = Answer(bytearray(12))
    answer.name(name)
    answer.octets += struct.pack("!HH", kind, 1)
    records, at = 0, name.lower()
    while at:
        here, at = NAMES.get(at, {"records": []})["records"], None
        for type_of_it, value in here:
            if type_of_it in (kind, CNAME, TXT):
                answer.record(name, type_of_it, value)
                records += 1
            if type_of_it == CNAME:
                name = at = value
    flags = 0x8180 | (0x200 if known.get("truncated") else 0) | known.get("code", 0)
    answer.octets[:12] = struct.pack("!HHHHHH", number, flags, 1, records, 0, 0)
    if not known.get("forged"):
        return [answer.octets]
    # Another number first, with another address: whoever takes it takes what was forged.
    wrong = bytearray(answer.octets)
    wrong[0] ^= 0xFF
    wrong[-1] = 66
    return [wrong, answer.octets]


def main():
    server = socket.socket(socket.AF_INET6 if ":" in sys.argv[1] else socket.AF_INET, socket.SOCK_DGRAM)
    server.bind((sys.argv[1], 53))
    while True:
        question, peer = server.recvfrom(2048)
        print(f"from port {peer[1]}: {'.'.join(read_name(question, 12)[0])}", flush=True)
        for answer in answer_to(question):
            server.sendto(answer, peer)


main()
