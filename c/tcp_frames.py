"""Frames at Linux's side of tcp.sh: the segments that pass on tap0, and a flood of SYNs."""
import array
import collections
import selectors
import socket
import struct
import subprocess
import threading
import time

ECHO = 7
OWN = {4: "192.168.69.100", 6: "fd69::100"}
FIN, SYN, RST, ACK = 1, 2, 4, 16


# The wire at tap0.

Segment = collections.namedtuple("Segment", "at is_ours ours own seq ack control window length scale octets")


def read_scale(options):
    """The shift of a window's option, or None if it isn't there (RFC 7323 2.2)."""
    while options and options[0] != 0:
        length = 1 if options[0] == 1 else options[1]
        if options[0] == 3:
            return options[2]
        options = options[length:]
    return None


def read_segment(at, is_ours, frame):
    """The segment in a frame, or None. `ours` is Linux's port, `own` the program's."""
    kind = frame[12:14]
    if kind == b"\x08\x00" and len(frame) >= 54 and frame[23] == 6:
        header, whole = (frame[14] & 15) * 4, int.from_bytes(frame[16:18], "big")
    elif kind == b"\x86\xdd" and len(frame) >= 74 and frame[20] == 6:
        header, whole = 40, 40 + int.from_bytes(frame[18:20], "big")
    else:
        return None
    source, to, seq, ack, offset, control, window = struct.unpack_from("!HHIIBBH", frame, 14 + header)
    ports = (source, to) if is_ours else (to, source)
    begin = 14 + header + (offset >> 4) * 4
    octets = frame[begin:14 + whole]
    scale = read_scale(frame[34 + header:begin]) if control & SYN else None
    return Segment(at, is_ours, *ports, seq, ack, control, window, len(octets), scale, octets)


class Wire:
    """The segments that pass on tap0 meanwhile."""

    def __enter__(self):
        self.segments, self.is_over = [], False
        self.device = socket.socket(socket.AF_PACKET, socket.SOCK_RAW, socket.htons(3))
        self.device.setsockopt(socket.SOL_SOCKET, 33, 1 << 25)  # SO_RCVBUFFORCE
        self.device.bind(("tap0", 0))
        self.device.settimeout(0.1)
        self.thread = threading.Thread(target=self.watch)
        self.thread.start()
        return self

    def watch(self):
        while not self.is_over:
            try:
                frame, (_, _, kind, _, _) = self.device.recvfrom(65536)
            except TimeoutError:
                continue
            if segment := read_segment(time.time(), kind == 4, frame):  # 4: PACKET_OUTGOING
                self.segments.append(segment)

    def __exit__(self, *_):
        self.is_over = True
        self.thread.join()
        self.device.close()

    def of(self, port, is_ours):
        """The segments of one way of the connection that has this port of Linux."""
        return [s for s in self.segments if s.ours == port and s.is_ours == is_ours]


def distance(a, b):
    """From one number to another, either way."""
    return (a - b + 2**31) % 2**32 - 2**31


def closed_windows(segments, begin):
    """How many octets came beyond Linux's closed window, and the probes of either side: with octets, or of numbers that the
    other side has."""
    edges, beyond, probes = {True: None, False: None}, 0, {True: [], False: []}
    for t in segments:
        edge = edges[not t.is_ours]
        if t.at > begin and edge is not None:
            if t.length or distance(t.seq, edge) < 0:
                probes[t.is_ours].append(t)
            if not t.is_ours:
                beyond = max(beyond, distance(t.seq + t.length, edge))
        if t.control & ACK:
            edges[t.is_ours] = t.ack if t.window == 0 else None
    return beyond, probes[False], probes[True]


def broken_promises(segments, octets, is_lossy):
    """What the program may not do, in a connection in which it sends these octets: in words, each that it did.

    A window is told from what is acknowledged. Where Linux sends something again, it acknowledges more under a lesser number,
    which by RFC 9293 3.10.7.4 moves SND.UNA and not SND.WND. So on a lossy link the edge is the widest window after that."""
    syns = {t.is_ours: t for t in segments if t.control & SYN}
    scaled = all(t.scale is not None for t in syns.values())
    shift = {is_ours: syn.scale if scaled else 0 for is_ours, syn in syns.items()}
    begin, top = syns[False].seq + 1, syns[True].seq + 1
    edges = {True: None, False: None}  # the highest ones that were promised
    widest = 0
    for t in segments:
        if t.control & SYN:
            continue
        if t.is_ours:
            widest = max(widest, t.window << shift[True])
        edge = t.ack + (widest if t.is_ours and is_lossy else t.window << shift[t.is_ours])
        known = edges[t.is_ours]
        if t.is_ours:
            top = max((top, t.seq + t.length + (t.control & FIN)), key=lambda n: distance(n, syns[True].seq))
        else:
            at = distance(t.seq, begin)
            if distance(t.ack, top) > 0:
                yield f"it acknowledges {distance(t.ack, top)} octets that weren't sent"
            if known is not None and distance(edge, known) <= -(1 << shift[False]):
                yield f"the edge of its window goes back by {distance(known, edge)}"
            if edges[True] is not None and distance(t.seq + t.length, edges[True]) > 1:
                yield f"it sends {distance(t.seq + t.length, edges[True])} octets beyond the window"
            if t.octets != octets[at:at + t.length] and t.length:
                yield f"it sends other octets from number {at}"
            if t.control & RST:
                yield "it resets"
        if known is None or distance(edge, known) > 0:
            edges[t.is_ours] = edge


# The flood, and segments of any values.

def checksum(octets):
    total = sum(struct.unpack(f"!{len(octets) // 2}H", octets))
    while total >> 16:
        total = (total & 0xffff) + (total >> 16)
    return ~total & 0xffff


def flood_address(family, i):
    return socket.inet_pton(socket.AF_INET, f"192.168.69.{128 + i % 100}") if family == 4 \
        else socket.inet_pton(socket.AF_INET6, f"fd69::f:{i % 100:x}")


SHAM = bytes([2, 0, 0, 0, 15, 15])


def address_of(text):
    return socket.inet_pton(socket.AF_INET6 if ":" in text else socket.AF_INET, text)


def hardware_of(address):
    """The Ethernet address of a neighbour."""
    told = subprocess.run(["ip", "neigh", "show", address, "dev", "tap0"], capture_output=True, text=True, check=True).stdout
    return bytes.fromhex(told.split("lladdr ")[1].split()[0].replace(":", ""))


def own_hardware():
    told = subprocess.run(["ip", "-o", "link", "show", "tap0"], capture_output=True, text=True, check=True).stdout
    return bytes.fromhex(told.split("link/ether ")[1].split()[0].replace(":", ""))


def with_checksum(source, to, segment):
    """A segment with its checksum, which stands in octets 16 and 17."""
    segment = segment[:16] + b"\0\0" + segment[18:]
    padded = segment + bytes(len(segment) % 2)
    total = checksum(source + to + struct.pack("!II", len(segment), 6) + padded)
    return segment[:16] + struct.pack("!H", total) + segment[18:]


def frame_of(hardware, own, source, to, segment):
    """A frame with a packet of protocol 6."""
    if len(source) == 16:
        return hardware + own + b"\x86\xdd" + struct.pack("!IHBB", 6 << 28, len(segment), 6, 64) + source + to + segment
    header = struct.pack("!BBHHHBBH", 0x45, 0, 20 + len(segment), 0, 0x4000, 64, 6, 0) + source + to
    return hardware + own + b"\x08\x00" + header[:10] + struct.pack("!H", checksum(header)) + header[12:] + segment


def flood_frame(host, hardware, i):
    """A SYN to the service from an address of nobody's."""
    source, to = flood_address(host.family, i), address_of(host.address)
    port, number = 1024 + i // 100 % 60000, i * 2654435761 % 2**32
    syn = struct.pack("!HHIIBBHHHBBH", port, ECHO, number, 0, 0x60, SYN, 65535, 0, 0, 2, 4, 1460)
    return frame_of(hardware, SHAM, source, to, with_checksum(source, to, syn))


def any_segment(drawn, source, to, kept):
    """A segment of any values: to any port, or in the connection of the port `kept`, whose peer's next number is `number`, and
    far beyond its windows."""
    port, number = kept
    is_kept = drawn.random() < 0.3
    ports = (port, ECHO) if is_kept else (drawn.choice([n for n in (1, 80, 9999, drawn.randrange(65536)) if n != port]),
                                          drawn.choice([ECHO, 80, drawn.randrange(65536)]))
    seq = (number + drawn.randrange(2**30, 3 * 2**30)) % 2**32 if is_kept else drawn.getrandbits(32)
    options = drawn.randbytes(4 * drawn.randrange(11))
    offset = 5 + len(options) // 4 if drawn.random() < 0.8 else drawn.randrange(16)
    control = drawn.choice([SYN, RST, FIN | ACK, ACK, SYN | ACK, RST | ACK, drawn.randrange(256)])
    header = struct.pack("!HHIIBBHHH", *ports, seq, drawn.getrandbits(32), offset << 4, control, drawn.getrandbits(16),
                         drawn.getrandbits(16), drawn.getrandbits(16))
    segment = header + options + drawn.randbytes(drawn.choice([0, 0, 1, 7, 536, 1400]))
    if drawn.random() < 0.05 and not is_kept:
        return segment[:drawn.randrange(1, 20)]
    return with_checksum(source, to, segment) if drawn.random() < 0.9 else segment


def answer_for_nobody(is_over):
    """Answers who asks for the hardware addresses of a flood's sources, so that what is sent to them has a way."""
    arp = socket.socket(socket.AF_PACKET, socket.SOCK_RAW, socket.htons(0x0806))
    ndisc = socket.socket(socket.AF_PACKET, socket.SOCK_RAW, socket.htons(0x86dd))
    # Only ICMPv6: the octet 20 of a frame is 58 (classic BPF, SO_ATTACH_FILTER).
    code = array.array("B", struct.pack("HBBIHBBIHBBIHBBI", 0x30, 0, 0, 20, 0x15, 0, 1, 58, 6, 0, 0, 65536, 6, 0, 0, 0))
    ndisc.setsockopt(socket.SOL_SOCKET, 26, struct.pack("HL", 4, code.buffer_info()[0]))
    chosen = selectors.DefaultSelector()
    for s in (arp, ndisc):
        s.bind(("tap0", 0))
        chosen.register(s, selectors.EVENT_READ)
    of_flood = {flood_address(family, i) for family in (4, 6) for i in range(100)}
    while not is_over.is_set():
        for key, _ in chosen.select(0.1):
            frame = key.fileobj.recv(2048)
            if key.fileobj is arp and frame[20:22] == b"\0\1" and frame[38:42] in of_flood:
                arp.send(frame[6:12] + SHAM + frame[12:20] + b"\0\2" + SHAM + frame[38:42] + frame[22:32])
            elif key.fileobj is ndisc and len(frame) >= 78 and frame[54] == 135 and frame[62:78] in of_flood:
                message = struct.pack("!BBHI", 136, 0, 0, 0x60000000) + frame[62:78] + b"\2\1" + SHAM
                addresses = frame[62:78] + frame[22:38]
                total = checksum(addresses + struct.pack("!II", len(message), 58) + message)
                ndisc.send(frame[6:12] + SHAM + b"\x86\xdd" + struct.pack("!IHBB", 6 << 28, len(message), 58, 255) + addresses
                           + message[:2] + struct.pack("!H", total) + message[4:])


class Flood(threading.Thread):
    """Sends so many SYNs to the service, at so many a second."""

    def __init__(self, host, count, rate):
        super().__init__(daemon=True)
        self.host, self.count, self.rate, self.sent, self.is_over = host, count, rate, 0, threading.Event()
        self.is_stopped = False

    def stop(self):
        self.is_stopped = True
        self.join()

    def run(self):
        try:
            self.send()
        finally:
            self.is_over.set()

    def send(self):
        hardware = hardware_of(self.host.address)
        frames = [flood_frame(self.host, hardware, i) for i in range(self.count)]
        with socket.socket(socket.AF_PACKET, socket.SOCK_RAW) as device:
            device.bind(("tap0", 0))
            begin = time.time()
            for i, frame in enumerate(frames):
                if self.is_stopped:
                    return
                while i % 100 == 0 and time.time() < begin + i / self.rate:
                    time.sleep(0.001)
                try:
                    device.send(frame)
                    self.sent += 1
                except OSError:
                    time.sleep(0.001)  # the device is full: as good as lost
