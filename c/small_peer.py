#!/usr/bin/env python3
"""A server of DHCP (RFC 2131), of names (RFC 1035) and of pages, for the tests on a TAP device, where nobody else is one.

  small_peer.py DEVICE ADDRESS [--dhcp FIRST LAST] [--leases FILE] [--t1 SECONDS] [--t2 SECONDS] [--seconds SECONDS]
                [--names [ADDRESS_OF_IPV6]] [--router PREFIX] [--pages PORT FOLDER]

ADDRESS is the device's, of IPv4. It leases the addresses from FIRST to LAST of 192.168.69.0/24, with itself as router and server of names,
and remembers in FILE who had which. It refuses who asks for another one. With --names it answers at port 53: www.small.example is an alias
of page.small.example, which is one of host.small.example, whose addresses are those of the device. Of all other names it says that there are none. The
first question gets no answer, as if it had been lost. With --router it tells a prefix of 64 bits to who solicits (RFC 4861).
"""
import argparse
import functools
import http.server
import ipaddress
import json
import os
import signal
import socket
import struct
import sys
import threading

DISCOVER, OFFER, REQUEST, ACK, NAK = 1, 2, 3, 5, 6
MASK, ROUTER, NAMES, WANTED, SECONDS, TYPE, SERVER, T1, T2, END = 1, 3, 6, 50, 51, 53, 54, 58, 59, 255
COOKIE = b"\x63\x82\x53\x63"
A, CNAME, AAAA, IN = 1, 5, 28, 1


def say(*words):
    print(*words, flush=True)


# DHCP.

def options_of(message):
    """The options of a message by their numbers."""
    options, at = {}, 240
    while at + 1 < len(message) and message[at] != END:
        if message[at] == 0:
            at += 1
            continue
        options[message[at]] = message[at + 2:at + 2 + message[at + 1]]
        at += 2 + message[at + 1]
    return options


class Dhcp:
    """Leases addresses on a device."""

    def __init__(self, plan):
        self.plan = plan
        self.own = ipaddress.IPv4Address(plan.address).packed
        first, last = map(ipaddress.IPv4Address, plan.dhcp)
        self.range = [ipaddress.IPv4Address(it).packed for it in range(int(first), int(last) + 1)]
        self.leases = {}
        if plan.leases and os.path.exists(plan.leases):
            with open(plan.leases, encoding="ascii") as text:
                self.leases = {bytes.fromhex(k): bytes.fromhex(v) for k, v in json.load(text).items()}

    def free_for(self, client):
        """The address that a client had, or the first that nobody has."""
        if self.leases.get(client) in self.range:
            return self.leases[client]
        return next((it for it in self.range if it not in self.leases.values()), None)

    def keep(self, client, address):
        self.leases[client] = address
        if self.plan.leases:
            with open(self.plan.leases, "w", encoding="ascii") as text:
                json.dump({k.hex(): v.hex() for k, v in self.leases.items()}, text)

    def answer(self, message):
        """The type and the address of an answer; none for what is no question to this server."""
        options, client = options_of(message), message[28:34]
        kind = options.get(TYPE, b"\0")[0]
        if kind == DISCOVER:
            address = self.free_for(client)
            return (OFFER, address) if address else None
        if kind != REQUEST or options.get(SERVER, self.own) != self.own:
            return None
        address = options.get(WANTED) or message[12:16]
        if address not in self.range or self.leases.get(client, address) != address or address != self.free_for(client):
            return NAK, bytes(4)
        self.keep(client, address)
        return ACK, address

    def reply(self, asked, kind, address):
        """The octets of an answer (RFC 2131 2)."""
        options = [(TYPE, bytes([kind])), (SERVER, self.own)]
        if kind != NAK:
            options += [(SECONDS, struct.pack("!I", self.plan.seconds)), (MASK, b"\xff\xff\xff\0"), (ROUTER, self.own),
                        (NAMES, self.own + ipaddress.IPv4Address(int.from_bytes(self.own, "big") + 1).packed)]
            options += [(T1, struct.pack("!I", self.plan.t1)), (T2, struct.pack("!I", self.plan.t2))]
        held = asked[12:16] if kind == ACK else bytes(4)
        fields = b"\x02\x01\x06\0" + asked[4:8] + bytes(2) + asked[10:12] + held + address + self.own + bytes(4) + asked[28:44] + bytes(192)
        return fields + COOKIE + b"".join(bytes([n, len(it)]) + it for n, it in options) + bytes([END])

    def serve(self):
        with socket.socket(socket.AF_INET, socket.SOCK_DGRAM) as s:
            s.setsockopt(socket.SOL_SOCKET, socket.SO_BROADCAST, 1)
            s.setsockopt(socket.SOL_SOCKET, socket.SO_BINDTODEVICE, self.plan.device.encode())
            s.bind(("", 67))
            say("dhcp: there")
            while True:
                asked, _ = s.recvfrom(2000)
                if len(asked) < 240 or asked[0] != 1 or asked[236:240] != COOKIE:
                    continue
                if answer := self.answer(asked):
                    kind, address = answer
                    held = asked[12:16] if kind == ACK and asked[12:16] != bytes(4) else b"\xff\xff\xff\xff"
                    say("dhcp:", {OFFER: "offers", ACK: "leases", NAK: "refuses"}[kind], socket.inet_ntoa(address))
                    s.sendto(self.reply(asked, kind, address), (socket.inet_ntoa(held), 68))


# Names.

def labels(name):
    return b"".join(bytes([len(it)]) + it.encode() for it in name.split(".")) + b"\0"


def question_of(message):
    """The name that is asked for, in small letters, what is asked of it, and where the question ends."""
    at, words = 12, []
    while message[at]:
        words.append(message[at + 1:at + 1 + message[at]].decode("latin-1").lower())
        at += 1 + message[at]
    return ".".join(words), struct.unpack("!HH", message[at + 1:at + 5]), at + 5


def record(name, kind, data):
    return name + struct.pack("!HHIH", kind, IN, 60, len(data)) + data


def chain(end, kind, addresses):
    """Aliases from www.small.example, which stands at octet 12, to a name with these addresses, all by pointers (RFC 1035 4.1.4)."""
    suffix = struct.pack("!H", 0xc000 | 12 + 4)  # small.example, behind www
    first = record(b"\xc0\x0c", CNAME, b"\x04page" + suffix)
    page = struct.pack("!H", 0xc000 | end + 12)
    second = record(page, CNAME, b"\x04host" + suffix)
    host = struct.pack("!H", 0xc000 | end + len(first) + 12)
    return [first, second] + [record(host, kind, it) for it in addresses]


def answer_name(message, addresses):
    """The answer to a question, with its own letters."""
    name, (kind, _), end = question_of(message)
    code, records = 0, []
    if name != "www.small.example":
        code = 3
    else:
        records = chain(end, kind, addresses.get(kind, []))
    head = message[:2] + struct.pack("!HHHHH", 0x8180 | code, 1, len(records), 0, 0)
    return head + message[12:end] + b"".join(records)


def serve_names(plan, family, own):
    addresses = {A: [ipaddress.IPv4Address(plan.address).packed]}
    if plan.names != "none":
        addresses[AAAA] = [ipaddress.IPv6Address(plan.names).packed]
    asked = 0
    with socket.socket(family, socket.SOCK_DGRAM) as s:
        s.bind((own, 53))
        say("names: there, at", own)
        while True:
            message, peer = s.recvfrom(2000)
            if len(message) < 17:
                continue
            name, (kind, _), _ = question_of(message)
            asked += 1
            say("names:", name, {A: "A", AAAA: "AAAA"}.get(kind, kind), "is lost" if asked == 1 else "is answered")
            if asked > 1:  # the first is lost on the way: it comes again a second later
                s.sendto(answer_name(message, addresses), peer)


# Routers.

def serve_prefix(plan):
    prefix = ipaddress.IPv6Address(plan.router).packed
    index = socket.if_nametoindex(plan.device)
    option = struct.pack("!BBBBIII", 3, 4, 64, 0xc0, 86400, 86400, 0) + prefix
    with socket.socket(socket.AF_INET6, socket.SOCK_RAW, socket.IPPROTO_ICMPV6) as s:
        s.setsockopt(socket.IPPROTO_IPV6, socket.IPV6_MULTICAST_HOPS, 255)
        s.setsockopt(socket.IPPROTO_IPV6, socket.IPV6_MULTICAST_IF, index)
        s.setsockopt(socket.IPPROTO_IPV6, socket.IPV6_JOIN_GROUP, socket.inet_pton(socket.AF_INET6, "ff02::2") + struct.pack("@I", index))
        say("router: there")
        while True:
            message, _ = s.recvfrom(2000)
            if message[:1] == b"\x85":
                say("router: tells", plan.router)
                s.sendto(struct.pack("!BBHBBHII", 134, 0, 0, 64, 0, 1800, 0, 0) + option, ("ff02::1", 0, 0, index))


# Pages.

def serve_pages(port, folder):
    class Server(http.server.ThreadingHTTPServer):
        address_family = socket.AF_INET6
        request_queue_size = 64

    handler = functools.partial(http.server.SimpleHTTPRequestHandler, directory=folder)
    with Server(("::", port), handler) as server:
        say("pages: there")
        server.serve_forever()


def main():
    parser = argparse.ArgumentParser(description=__doc__, formatter_class=argparse.RawDescriptionHelpFormatter)
    parser.add_argument("device")
    parser.add_argument("address")
    parser.add_argument("--dhcp", nargs=2)
    parser.add_argument("--leases")
    parser.add_argument("--seconds", type=int, default=120)
    parser.add_argument("--t1", type=int, default=4)
    parser.add_argument("--t2", type=int, default=9)
    parser.add_argument("--names", nargs="?", const="none")
    parser.add_argument("--router")
    parser.add_argument("--pages", nargs=2)
    plan = parser.parse_args()
    services = []
    if plan.dhcp:
        services.append(Dhcp(plan).serve)
    if plan.names:
        services.append(functools.partial(serve_names, plan, socket.AF_INET, plan.address))
    if plan.names and plan.names != "none":
        services.append(functools.partial(serve_names, plan, socket.AF_INET6, plan.names))
    if plan.router:
        services.append(functools.partial(serve_prefix, plan))
    if plan.pages:
        services.append(functools.partial(serve_pages, int(plan.pages[0]), plan.pages[1]))
    signal.signal(signal.SIGTERM, lambda *_: sys.exit(0))
    for service in services:
        threading.Thread(target=service, daemon=True).start()
    signal.pause()


main()
