#!/usr/bin/env python3
"""Linux's side of tap.sh.

  tap_peer.py reversed     sends datagrams to `server`, and wants each back reversed
  tap_peer.py streams      connects to `server`: its four ports, the half-close, a busy port and one where nobody listens
  tap_peer.py lines        listens at port 7000 for `client`, which answers each line by the line reversed
  tap_peer.py page         listens at port 8080 for `httpclient`, and sends it a page
  tap_peer.py groups       sends to the groups of `multicast` and to another one, and a query of IGMP; wants a report
  tap_peer.py router       answers a solicitation of `slaac` by an advertisement (RFC 4861, 4.2)"""
import socket
import struct
import sys
import time

HOST = ("192.168.69.1", "fdaa::1")


def wanted(is_so, what):
    if not is_so:
        raise SystemExit(f"tap_peer.py: {what}")


def reversed_():
    for to, lengths in zip(HOST, [(0, 1, 1000, 1472, 4000), (0, 1, 1000, 1452)]):
        with socket.socket(socket.AF_INET6 if ":" in to else socket.AF_INET, socket.SOCK_DGRAM) as s:
            s.settimeout(3)
            for length in lengths:
                payload = bytes(place % 251 for place in range(length))
                s.sendto(payload, (to, 6969))
                back, origin = s.recvfrom(65536)
                wanted(back == payload[::-1] and origin[:2] == (to, 6969), f"{length} octets to {to}")
        print(f"{to}: {len(lengths)} datagrams came back reversed")


def stream(to, port):
    return socket.create_connection((to, port), timeout=5)


def all_of(s):
    """What comes until the peer closes."""
    octets = bytearray()
    while piece := s.recv(65536):
        octets += piece
    return bytes(octets)


def in_time(call, what):
    begun = time.time()
    call()
    print(f"{what}: {time.time() - begun:.3f} s")


def sink(to):
    with stream(to, 6971) as s:
        s.sendall(bytes(8_000_000))
        s.shutdown(socket.SHUT_WR)
        wanted(all_of(s) == b"", f"{to}: the sink sends nothing, and closes")


def fountain(to):
    with stream(to, 6972) as s:
        count = 0
        while count < 8_000_000:
            piece = s.recv(65536)
            wanted(piece, f"{to}: the fountain doesn't close")
            count += len(piece)


def busy(to):
    """A second peer is reset while the only socket of a port has a connection (RFC 9293, 3.10.7.1)."""
    with stream(to, 6970) as first:
        first.sendall(b"first\n")
        wanted(first.recv(100) == b"tsrif\n", f"{to}: the first peer is served")
        try:
            with stream(to, 6970) as second:
                second.sendall(b"second\n")
                wanted(second.recv(100) == b"", f"{to}: the second peer is served")
        except ConnectionError:
            pass
        first.sendall(b"again\n")
        wanted(first.recv(100) == b"niaga\n", f"{to}: the first peer is served on")


def streams():
    for to in HOST:
        for _ in range(3):
            with stream(to, 6969) as s:
                wanted(all_of(s) == b"hello\n", f"{to}: the greeting")
        with stream(to, 6970) as s:
            for line in [b"abcdef\n", b"a" * 500 + b"b\n"]:
                s.sendall(line)
                back = bytearray()
                while not back.endswith(b"\n"):
                    back += s.recv(1000)
                wanted(back == line[-2::-1] + b"\n", f"{to}: a line reversed")
            s.shutdown(socket.SHUT_WR)
            wanted(all_of(s) == b"", f"{to}: the end is answered by the end")
        time.sleep(0.3)
        busy(to)
        in_time(lambda: sink(to), f"{to}: 8,000,000 octets to the sink")
        in_time(lambda: fountain(to), f"{to}: 8,000,000 octets from the fountain")
        try:
            stream(to, 6973).close()
            wanted(False, f"{to}: nobody listens there")
        except ConnectionRefusedError:
            print(f"{to}: streams are served")


def lines():
    with socket.create_server(("192.168.69.100", 7000)) as server:
        server.settimeout(10)
        s, peer = server.accept()
        with s:
            s.settimeout(5)
            for line in [b"one\n", b"two\n", b"three\n"]:
                s.sendall(line)
                wanted(s.recv(100) == line[-2::-1] + b"\n", "a line reversed")
            s.shutdown(socket.SHUT_WR)
            wanted(all_of(s) == b"", "the end is answered by the end")
        print(f"{peer[0]}: lines came back reversed")


def page():
    with socket.create_server(("192.168.69.100", 8080)) as server:
        server.settimeout(10)
        s, peer = server.accept()
        with s:
            s.settimeout(5)
            request = bytearray()
            while not request.endswith(b"\r\n\r\n"):
                request += s.recv(1000)
            wanted(request.startswith(b"GET /page HTTP/1.1\r\nHost: 192.168.69.100\r\n"), f"a request: {request}")
            text = "".join(f"line {number}\n" for number in range(5000))
            s.sendall(f"HTTP/1.1 200 OK\r\nContent-Length: {len(text)}\r\nConnection: close\r\n\r\n{text}".encode())
        print(f"{peer[0]}: asked for the page")


def groups():
    with socket.socket(socket.AF_INET, socket.SOCK_DGRAM) as s:
        s.setsockopt(socket.IPPROTO_IP, socket.IP_MULTICAST_IF, socket.inet_aton("192.168.69.100"))
        for group in ["224.0.0.37", "224.0.0.38"]:
            s.sendto(b"to " + group.encode(), (group, 8123))
    with socket.socket(socket.AF_INET6, socket.SOCK_DGRAM) as s:
        s.setsockopt(socket.IPPROTO_IPV6, socket.IPV6_MULTICAST_IF, socket.if_nametoindex("tap0"))
        s.sendto(b"to ff15::25", ("ff15::25", 8123))
    # A general query of IGMP version 2 (RFC 2236), which asks for reports within a second.
    query = bytes([0x11, 10, 0xee, 0xf5, 0, 0, 0, 0])
    with socket.socket(socket.AF_PACKET, socket.SOCK_RAW, socket.htons(3)) as tap:
        tap.bind(("tap0", 0))
        tap.settimeout(3)
        with socket.socket(socket.AF_INET, socket.SOCK_RAW, socket.IPPROTO_IGMP) as raw:
            raw.setsockopt(socket.IPPROTO_IP, socket.IP_MULTICAST_IF, socket.inet_aton("192.168.69.100"))
            raw.setsockopt(socket.IPPROTO_IP, socket.IP_MULTICAST_TTL, 1)
            raw.sendto(query, ("224.0.0.1", 0))
        end = time.time() + 3
        while time.time() < end:
            frame = tap.recv(2000)
            if frame[6:12] == bytes([2, 0, 0, 0, 0, 1]) and frame[12:14] == b"\x08\x00" and frame[23] == 2:
                at = 14 + (frame[14] & 15) * 4
                print(f"a report of type {frame[at]:#04x} for {socket.inet_ntoa(frame[at + 4:at + 8])}")
                return
    wanted(False, "no report of a group")


def router():
    with socket.socket(socket.AF_INET6, socket.SOCK_RAW, socket.IPPROTO_ICMPV6) as s:
        index = socket.if_nametoindex("tap0")
        s.setsockopt(socket.IPPROTO_IPV6, socket.IPV6_MULTICAST_IF, index)
        s.setsockopt(socket.IPPROTO_IPV6, socket.IPV6_MULTICAST_HOPS, 255)
        routers = socket.inet_pton(socket.AF_INET6, "ff02::2")
        s.setsockopt(socket.IPPROTO_IPV6, socket.IPV6_JOIN_GROUP, routers + struct.pack("i", index))
        s.settimeout(6)
        while True:
            message, origin = s.recvfrom(2000)
            if message[0] == 133:
                break
        print(f"a solicitation from {origin[0]}")
        prefix = socket.inet_pton(socket.AF_INET6, "2001:db8:77::")
        option = struct.pack("!BBBBIII", 3, 4, 64, 0x40, 3600, 1800, 0) + prefix
        s.bind(("fe80::100", 0, 0, index))
        s.sendto(struct.pack("!BBHBBHII", 134, 0, 0, 64, 0, 600, 0, 0) + option, ("ff02::1", 0, 0, index))
    time.sleep(1)


{"reversed": reversed_, "streams": streams, "lines": lines, "page": page, "groups": groups, "router": router}[sys.argv[1]]()
