#!/usr/bin/env python3
"""The hosts beside the gateway, for gateway.sh.

  gateway_peer.py serve     sends back datagrams and segments at port 7, of both families
  gateway_peer.py talk      sends some of either to 10.2.0.2 and fd02::2, and wants them back
  gateway_peer.py watch     wants each packet of FORWARDED to come on tap1 as it has to be, and none of KEPT
  gateway_peer.py forge     sends all of these on tap0, and wants errors about those of TOLD, and about no other
"""
import errno
import os
import socket
import struct
import sys
import threading
import time

A, B, GATEWAY = "10.1.0.2", "10.2.0.2", bytes([2, 0, 0, 0, 0, 1])
A6, B6 = "fd01::2", "fd02::2"


def wanted(is_so, what):
    if not is_so:
        raise SystemExit(f"gateway_peer.py: {what}")


def checksum(octets):
    octets += bytes(len(octets) % 2)
    total = sum(struct.unpack(f"!{len(octets) // 2}H", octets))
    while total >> 16:
        total = (total & 0xffff) + (total >> 16)
    return ~total & 0xffff


def address(text):
    return socket.inet_pton(socket.AF_INET6 if ":" in text else socket.AF_INET, text)


def datagram(tag):
    """A datagram to port 9999, without a checksum, which no gateway looks at."""
    return struct.pack("!HHHH", 9998, 9999, 8 + len(tag), 0) + tag.encode()


def ipv4(payload, source=A, to=B, ttl=9, protocol=17, tos=0xb8, ident=0x1234, fragment=0, options=b"", wrong=0):
    header = struct.pack("!BBHHHBBH", 0x45 + len(options) // 4, tos, 20 + len(options) + len(payload), ident, fragment,
                         ttl, protocol, 0) + address(source) + address(to) + options
    return header[:10] + struct.pack("!H", checksum(header) ^ wrong) + header[12:] + payload


def ipv6(payload, source=A6, to=B6, hops=9, protocol=17):
    return struct.pack("!IHBB", 0x6b812345, len(payload), protocol, hops) + address(source) + address(to) + payload


def lowered(packet):
    """A packet after one hop: the limit is one less, and over IPv4 the checksum fits."""
    if packet[0] >> 4 == 6:
        return packet[:7] + bytes([packet[7] - 1]) + packet[8:]
    header = packet[:(packet[0] & 15) * 4]
    header = header[:8] + bytes([header[8] - 1, header[9], 0, 0]) + header[12:]
    return header[:10] + struct.pack("!H", checksum(header)) + header[12:] + packet[len(header):]


def unreachable(version):
    """An error about a datagram, of either ICMP (RFC 792, RFC 4443 3.1)."""
    inner = ipv4(datagram("inner")) if version == 4 else ipv6(datagram("inner"))
    message = bytes([3 if version == 4 else 1, 1, 0, 0]) + bytes(4) + inner
    return message[:2] + struct.pack("!H", checksum(message)) + message[4:]


PADDED = bytes([17, 0, 1, 4, 0, 0, 0, 0])  # hop-by-hop options: PadN (RFC 8200, 4.2)
SECOND_PART = bytes([17, 0]) + struct.pack("!HI", 8 << 3, 7)  # a fragment, not the first one (RFC 8200, 4.5)
FORWARDED = {
    "plain": ipv4(datagram("plain")),
    "uncut": ipv4(datagram("uncut"), fragment=0x4000),
    "last hop": ipv4(datagram("last hop"), ttl=2),
    "options": ipv4(datagram("options"), options=bytes([1, 7, 7, 4, 0, 0, 0, 0])),
    "part": ipv4(datagram("part"), fragment=0x2001),
    "flow": ipv6(datagram("flow")),
    "padded": ipv6(PADDED + datagram("padded"), protocol=0),
    "part of six": ipv6(SECOND_PART + datagram("part of six"), protocol=44),
}
KEPT = {
    "source route": ipv4(datagram("source route"), options=bytes([1, 131, 7, 4, 10, 2, 0, 9])),
    "checksum": ipv4(datagram("checksum"), wrong=1),
    "strict": ipv4(datagram("strict"), options=bytes([1, 137, 7, 4, 10, 2, 0, 9])),
    **{f"from {a}": ipv4(datagram(f"from {a}"), source=a) for a in
       ["0.0.0.0", "127.0.0.1", "169.254.1.1", "224.0.0.5", "240.0.0.1", "255.255.255.255", "10.1.0.255", "10.1.0.0",
        "10.1.0.1", "10.2.0.1", "10.2.0.9", "10.9.0.1"]},
    **{f"to {a}": ipv4(datagram(f"to {a}"), to=a) for a in
       ["10.2.0.255", "10.2.0.0", "255.255.255.255", "239.1.1.1", "169.254.1.1", "127.0.0.1", "0.0.0.0", "250.0.0.1"]},
    **{f"from {a}": ipv6(datagram(f"from {a}"), source=a) for a in
       ["::", "::1", "ff02::1", "ff0e::1", "fd02::9", "fd02::1", "fd01::1", "fd09::1"]},
    **{f"to {a}": ipv6(datagram(f"to {a}"), to=a) for a in ["ff0e::1", "fe80::2", "::1", "::"]},
    "part, 1": ipv4(datagram("part, 1"), fragment=0x2001, ttl=1),
    "error, 1": ipv4(unreachable(4), ttl=1, protocol=1),
    "part of six, 1": ipv6(SECOND_PART + datagram("part of six, 1"), protocol=44, hops=1),
    "error of six, 1": ipv6(unreachable(6), protocol=58, hops=1),
    "error behind options": ipv6(PADDED.replace(b"\x11", b"\x3a", 1) + unreachable(6), protocol=0, hops=1),
}
TOLD = {
    "limit": ipv4(datagram("limit"), ttl=1),
    "zero": ipv4(datagram("zero"), ttl=0),
    "nowhere": ipv4(datagram("nowhere"), to="10.9.0.1"),
    "long": ipv4(datagram("long") + bytes(1300), fragment=0x4000),
    "limit of six": ipv6(datagram("limit of six"), hops=1),
    "padded limit": ipv6(PADDED + datagram("padded limit"), protocol=0, hops=1),
    "nowhere in six": ipv6(datagram("nowhere in six"), to="fd09::1"),
    "long in six": ipv6(datagram("long in six") + bytes(1300)),
    "beyond": ipv6(datagram("beyond"), source="fe80::2"),
}


def frames_of(name, seconds):
    """The packets that come on a device."""
    end = time.time() + seconds
    with socket.socket(socket.AF_PACKET, socket.SOCK_RAW, socket.htons(3)) as device:
        device.bind((name, 0))
        device.setsockopt(263, 23, 1)  # SOL_PACKET, PACKET_IGNORE_OUTGOING: what is sent takes no room
        device.settimeout(0.1)
        while time.time() < end:
            try:
                yield device.recv(65536)[14:]
            except TimeoutError:
                continue


def watch():
    due = {tag: lowered(packet) for tag, packet in FORWARDED.items()}
    for packet in frames_of("tap1", 5):
        for tag in [tag for tag in due if packet == due[tag]]:
            del due[tag]
        for tag in [*KEPT, *TOLD]:
            wanted(datagram(tag)[8:] not in packet[20:] or packet[9] == 1, f"'{tag}' was forwarded")
        is_asked = packet[:2] == b"\0\1" and packet[24:28] in (address("10.2.0.0"), address("10.2.0.255"))
        wanted(not is_asked and packet[16:20] != address("10.2.0.255"), "an end of the network was asked for, or sent to")
        wanted(unreachable(4) not in packet and unreachable(6) not in packet, "an error with hop limit 1 was forwarded")
    wanted(not due, f"not forwarded as they have to be: {', '.join(due)}")
    print(f"forwarded as they have to be: {len(FORWARDED)}; kept: {len(KEPT)}")


def is_error_about(packet, about):
    """Whether a packet is a right error, of which kind, and quotes another packet."""
    header = 20 if packet[0] >> 4 == 4 else 40
    message = packet[header:]
    if packet[9 if header == 20 else 6] != (1 if header == 20 else 58) or message[0] not in (1, 2, 3, 11):
        return False
    pseudo = b"" if header == 20 else packet[8:40] + struct.pack("!II", len(message), 58)
    wanted(checksum(pseudo + message) == 0, "an error with a wrong checksum")
    wanted(len(packet) <= (576 if header == 20 else 1280), "an error that is too long")
    return len(message) > 8 + header and about.startswith(message[8:])


def forge():
    errors = []
    listener = threading.Thread(target=lambda: errors.extend(frames_of("tap0", 3.5)))
    listener.start()
    time.sleep(0.5)
    with socket.socket(socket.AF_PACKET, socket.SOCK_RAW) as device:
        device.bind(("tap0", 0))
        for packet in [*FORWARDED.values(), *KEPT.values(), *TOLD.values()]:
            device.send(GATEWAY + device.getsockname()[4] + struct.pack("!H", 0x0800 if packet[0] >> 4 == 4 else 0x86dd) + packet)
            time.sleep(0.02)
        for to in [bytes([255] * 6), bytes([1, 0, 0x5e, 1, 1, 1]), bytes([2, 0, 0, 0, 0, 9])]:
            device.send(to + device.getsockname()[4] + b"\x08\x00" + ipv4(datagram("from 0.0.0.0")))
        time.sleep(0.5)
        begin = time.time()
        for _ in range(1000):
            device.send(GATEWAY + device.getsockname()[4] + b"\x08\x00" + ipv4(datagram("many"), ttl=1))
    listener.join()
    seconds = time.time() - begin
    for tag, packet in {**FORWARDED, **KEPT, **TOLD}.items():
        count = sum(is_error_about(error, packet) for error in errors)
        wanted(count == (tag in TOLD), f"{count} errors about '{tag}'")
    burst = sum(is_error_about(error, ipv4(datagram("many"), ttl=1)) for error in errors)
    wanted(5 <= burst <= 12 + 100 * seconds, f"{burst} errors about 1000 packets within {seconds:.2f} s")
    print(f"errors about {len(TOLD)} packets, none about {len(FORWARDED) + len(KEPT)}; {burst} about 1000 within {seconds:.1f} s")


def serve():
    def each(connection):
        while data := connection.recv(65536):
            connection.sendall(data)
        connection.close()

    def datagrams():
        with socket.socket(socket.AF_INET6, socket.SOCK_DGRAM) as s:
            s.bind(("::", 7))
            while True:
                s.sendto(*s.recvfrom(65536))

    threading.Thread(target=datagrams, daemon=True).start()
    with socket.create_server(("::", 7), family=socket.AF_INET6, dualstack_ipv6=True) as listener:
        while True:
            threading.Thread(target=each, args=(listener.accept()[0],), daemon=True).start()


def talk():
    for to, longest in [(B, 1472), (B6, 1232)]:
        family = socket.AF_INET6 if ":" in to else socket.AF_INET
        with socket.socket(family, socket.SOCK_DGRAM) as s:
            s.settimeout(3)
            s.connect((to, 7))
            lengths = [*range(0, longest, 7), longest]
            for length in lengths:
                payload = os.urandom(length)
                s.send(payload)
                try:
                    back = s.recv(65536)
                except OSError as error:
                    wanted(error.errno == errno.EMSGSIZE, f"a datagram of {length} octets to {to}: {error}")
                    s.send(payload)  # now the kernel knows what the second link takes, and cuts
                    back = s.recv(65536)
                wanted(back == payload, f"a datagram of {length} octets to {to}")
        with socket.create_connection((to, 7), timeout=10) as s:
            payload, got, begin = os.urandom(4 << 20), b"", time.time()
            threading.Thread(target=s.sendall, args=(payload,), daemon=True).start()
            while len(got) < len(payload) and (data := s.recv(1 << 20)):
                got += data
            wanted(got == payload, f"{len(payload)} octets by TCP to {to}")
        print(f"{to}: {len(lengths)} datagrams, and {len(got)} octets by TCP in {time.time() - begin:.2f} s, came back")
        with socket.socket(family, socket.SOCK_DGRAM) as s:
            s.settimeout(3)
            s.connect((to, 9))
            s.send(b"")
            try:
                wanted(s.recv(1) is None, f"{to} has nobody at port 9")
            except ConnectionRefusedError:
                print(f"{to}, port 9: refused by ICMP")


{"serve": serve, "talk": talk, "watch": watch, "forge": forge}[sys.argv[1]]()
