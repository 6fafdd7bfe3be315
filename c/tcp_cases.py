"""The cases of tcp.sh, by the sockets of Linux: each returns what it measured, or raises what went wrong."""
import hashlib
import json
import os
import random
import selectors
import signal
import socket
import struct
import subprocess
import threading
import time

from tcp_frames import (ACK, ECHO, FIN, OWN, RST, Flood, Wire, address_of, answer_for_nobody, any_segment, broken_promises,
                        closed_windows, frame_of, hardware_of, own_hardware)

HTTP, NOBODY = 80, 4444


class Wrong(Exception):
    """Something else happened than has to."""


def wanted(is_so, what):
    if not is_so:
        raise Wrong(what)


# What cases are made of.

class Host:
    """The program at one of its addresses, and how long nothing may come where something has to."""

    def __init__(self, plan, family):
        self.family, self.address, self.plan = family, plan.addresses[family], plan
        self.patience = plan.patience

    def socket(self, port=0, room=None, own=None):
        s = socket.socket(socket.AF_INET6 if self.family == 6 else socket.AF_INET, socket.SOCK_STREAM)
        if room:
            s.setsockopt(socket.SOL_SOCKET, socket.SO_RCVBUF, room)
        s.setsockopt(socket.SOL_SOCKET, socket.SO_REUSEADDR, 1)
        if port or own:
            s.bind((own or "", port))
        s.settimeout(self.patience)
        return s

    def connect(self, service=ECHO, **options):
        s = self.socket(**options)
        try:
            s.connect((self.address, service))
        except OSError as error:
            raise Wrong(f"no connection to port {service}: {error}") from error
        return s


def receive(s, count):
    """So many octets, or fewer if the end comes before."""
    got = bytearray()
    while len(got) < count and (data := read_some(s, count - len(got))):
        got += data
    return bytes(got)


def read_some(s, most=1 << 16):
    try:
        return s.recv(most)
    except TimeoutError:
        raise Wrong(f"nothing came for {s.gettimeout():.0f} s") from None
    except OSError as error:
        raise Wrong(f"while reading: {error}") from error


def send_in_pieces(s, octets):
    """Sends octets, each piece within the patience."""
    for at in range(0, len(octets), 10_000):
        s.sendall(octets[at:at + 10_000])


def wants_end(s):
    wanted(read_some(s, 1) == b"", "octets came after the last one")


def exchange(s, octets):
    """Sends octets, and wants them back."""
    s.sendall(octets)
    wanted(receive(s, len(octets)) == octets, "other octets came back")


def finish(s):
    """Ends a connection, and wants its end."""
    s.shutdown(socket.SHUT_WR)
    wants_end(s)
    s.close()


def sent_again(s):
    """How many segments Linux has sent again in a connection (tcpi_total_retrans)."""
    return struct.unpack_from("I", s.getsockopt(socket.IPPROTO_TCP, socket.TCP_INFO, 104), 100)[0]


def state_of(port):
    """The state of Linux's end of a connection: the least of those that its port has, as /proc/net/tcp has them."""
    states = []
    for name in ("/proc/net/tcp", "/proc/net/tcp6"):
        with open(name, encoding="ascii") as lines:
            states += [int(w[3], 16) for w in map(str.split, list(lines)[1:]) if int(w[1].split(":")[1], 16) == port]
    return min(states, default=None)


# The cases: each returns what it measured.

def one_octet(host):
    begin = time.time()
    s = host.connect()
    exchange(s, b"x")
    finish(s)
    return f"connected, an octet each way, both ends within {(time.time() - begin) * 1000:.1f} ms"


def transfer(host):
    """Octets that no two megabytes have alike go to the program and come back."""
    count = host.plan.megabytes
    sent, got, length = hashlib.sha256(), hashlib.sha256(), 0
    s, begin = host.connect(), time.time()

    def send():
        source = random.Random(host.plan.seed)
        try:
            for _ in range(count):
                block = source.randbytes(1_000_000)
                sent.update(block)
                send_in_pieces(s, block)
            s.shutdown(socket.SHUT_WR)
        except OSError:
            pass  # the reader tells why

    sender = threading.Thread(target=send, daemon=True)
    sender.start()
    while data := read_some(s, 1 << 18):
        got.update(data)
        length += len(data)
    seconds = time.time() - begin
    sender.join(host.patience)
    again = sent_again(s)
    s.close()
    wanted(length == count * 1_000_000, f"{length} octets came back")
    wanted(sent.digest() == got.digest(), "other octets came back: their sha256 differs")
    speed = f"{count} MB each way in {seconds:.2f} s, {8 * count / seconds:.1f} Mbit/s each way"
    return f"{speed}, sha256 equal; Linux sent {again} segments again"


PAGES = {}


def page(host):
    """curl gets one page, twice, and the same over either family."""
    at = f"[{host.address}]" if host.family == 6 else host.address
    for _ in range(2):
        asked = subprocess.run(["curl", "-sS", "-m", str(host.patience), "-w", "\\n%{http_code} %{time_total}", f"http://{at}/"],
                               capture_output=True, check=False)
        wanted(asked.returncode == 0, f"curl: {asked.stderr.decode().strip()}")
        body, _, told = asked.stdout.rpartition(b"\n")
        code, seconds = told.decode().split()
        wanted(code == "200" and body, f"curl got {len(body)} octets with code {code}")
        wanted(PAGES.setdefault("body", body) == body, "two pages differ")
    return f"curl got {len(body)} octets in {float(seconds) * 1000:.1f} ms, twice the same"


def iperf3_figure(host, words):
    """Mbit/s of five seconds. The server may still be busy with the test before, so it is asked three times."""
    for _ in range(3):
        asked = subprocess.run(["iperf3", "-c", host.address, "-t", "5", "-J", *words], capture_output=True, check=False, timeout=60)
        told = json.loads(asked.stdout or b"{}")
        if asked.returncode == 0 and "sum_received" in told.get("end", {}):
            return told["end"]["sum_received"]["bits_per_second"] / 1e6
        time.sleep(1)
    raise Wrong(f"iperf3: {told.get('error', asked.stderr.decode())}")


def iperf3(host):
    return f"iperf3: {iperf3_figure(host, []):.0f} Mbit/s to the program, {iperf3_figure(host, ['-R']):.0f} from it"


def half_close(host):
    """nc -N ends its direction after the last octet, and then waits for all of the other one."""
    octets = random.Random(7).randbytes(1_000_000)
    begin = time.time()
    asked = subprocess.run(["nc", "-N", "-w", str(int(host.patience)), host.address, str(ECHO)], input=octets, capture_output=True,
                           check=False, timeout=20 * host.patience)
    wanted(asked.stdout == octets, f"{len(asked.stdout)} of {len(octets)} octets came back to nc -N, or others")
    wanted(asked.returncode == 0, f"nc -N ended with {asked.returncode}: {asked.stderr.decode().strip()}")
    return f"nc -N: {len(octets)} octets came back after Linux's end, in {time.time() - begin:.2f} s"


def simultaneous_close(host):
    """The program ends after its page; Linux ends while that end is on the way. Figure 13 of RFC 9293."""
    with Wire() as wire:
        s = host.connect(HTTP)
        port = s.getsockname()[1]
        s.sendall(b"GET / HTTP/1.1\r\nHost: host\r\nConnection: close\r\n\r\n")
        time.sleep(0.15)  # 100 ms each way: the program has ended, and its end hasn't come
        s.shutdown(socket.SHUT_WR)
        got = receive(s, 1 << 20)
        time.sleep(1)
        state = state_of(port)
        s.close()
    wanted(got.startswith(b"HTTP/1.1 200"), f"no page came: {got[:40]}")
    ends = [[t for t in wire.of(port, is_ours) if t.control & FIN] for is_ours in (True, False)]
    wanted(ends[0] and ends[1], "an end is missing")
    ours, theirs = (e[0] for e in ends)
    over = (ours.seq + ours.length + 1) % 2**32
    wanted(theirs.ack != over and ours.at < theirs.at, "the ends didn't cross")
    wanted(any(t.ack == over for t in wire.of(port, False)), "Linux's end wasn't acknowledged")
    wanted(state == 6, f"Linux is in state {state}, and not in TIME-WAIT (6)")
    wanted(not any(t.control & RST for t in wire.segments if t.ours == port), "there was a reset")
    return f"the ends crossed, and both were acknowledged; {len(got)} octets came before"


def refused(host):
    """RFC 9293 3.10.7.1: the reset has number 0, and acknowledges the SYN alone."""
    with Wire() as wire:
        s, begin = host.socket(), time.time()
        try:
            s.connect((host.address, NOBODY))
            raise Wrong("there was a connection to a port that nobody listens to")
        except ConnectionRefusedError:
            seconds = time.time() - begin
        except OSError as error:
            raise Wrong(f"no refusal: {error}") from error
        time.sleep(0.3)
    asked, told = ([t for t in wire.segments if t.own == NOBODY and t.is_ours == is_ours] for is_ours in (True, False))
    wanted(len(asked) == 1 and len(told) == 1, f"{len(told)} segments answered {len(asked)}")
    wanted(told[0].control == RST | ACK, f"the answer has control bits {told[0].control}")
    wanted(told[0].seq == 0 and told[0].ack == (asked[0].seq + 1) % 2**32, "the reset has other numbers")
    return f"refused by one reset after {seconds * 1000:.1f} ms, with number 0 and the SYN acknowledged"


def killed(host):
    """The process of the peer is killed with octets unread, so Linux resets; nothing may come after that."""
    with Wire() as wire:
        s = host.connect(room=4096)
        port = s.getsockname()[1]
        child = os.fork()
        if child == 0:
            try:
                s.settimeout(1)
                s.sendall(bytes(200_000))
            except OSError:
                pass
            time.sleep(60)
            os._exit(0)
        s.close()
        time.sleep(1.5)
        os.kill(child, signal.SIGKILL)
        os.waitpid(child, 0)
        time.sleep(4)
        segments = list(wire.segments)
    reset = [t.at for t in segments if t.ours == port and t.is_ours and t.control & RST]
    wanted(reset, "Linux sent no reset, so the case says nothing")
    late = [t for t in segments if t.ours == port and not t.is_ours and t.at > reset[0] + 0.5]
    wanted(not late, f"{len(late)} segments came more than half a second after the reset")
    s = host.connect(port=port)
    exchange(s, b"again")
    finish(s)
    return "nothing came after the reset, and the same port connected again"


def change_address(host, verb, address):
    length, nodad = ("/64", ["nodad"]) if host.family == 6 else ("/24", [])
    subprocess.run(["ip", "addr", verb, address + length, "dev", "tap0", *(nodad if verb == "add" else [])], check=True)


def absent(host):
    """The peer's address is gone for nine seconds while an answer is on the way to it: it is sent again by the timer, each
    time after twice as long (RFC 6298 5.5), until the peer is back."""
    own = "192.168.69.150" if host.family == 4 else "fd69::150"
    change_address(host, "add", own)
    try:
        with Wire() as wire:
            s = host.connect(own=own)
            port = s.getsockname()[1]
            exchange(s, b"before")
            time.sleep(0.3)
            begin = time.time()
            s.sendall(b"meanwhile")
            change_address(host, "del", own)
            time.sleep(9)
            change_address(host, "add", own)
            back = time.time()
            wanted(receive(s, 9) == b"meanwhile", "other octets came back")
            seconds = time.time() - back
            finish(s)
    finally:
        subprocess.run(["ip", "addr", "del", own + ("/64" if host.family == 6 else "/24"), "dev", "tap0"], capture_output=True, check=False)
    times = [t.at for t in wire.of(port, False) if t.length and begin < t.at < back]
    gaps = [after - before for before, after in zip(times, times[1:])]
    shown = ", ".join(f"{gap:.2f}" for gap in gaps)
    wanted(len(gaps) >= 2, f"the answer was sent {len(times)} times in nine seconds")
    wanted(min(gaps) >= 0.15, f"it was sent again too soon: after {shown} s")
    # The first one may be a probe of what was lost last, before the timer (RFC 8985 7).
    wanted(all(after > 1.4 * before for before, after in zip(gaps[1:], gaps[2:])), f"the time wasn't doubled: {shown} s")
    wanted(gaps[-1] > 1.4 * gaps[0], f"the time didn't grow: {shown} s")
    return f"sent again after {shown} s; it came {seconds:.2f} s after the peer was back"


def zero_window(host):
    """Linux doesn't read, so both windows close. What comes meanwhile is at most an octet beyond the edge (3.8.6.1)."""
    source, sent, seconds = random.Random(3), bytearray(), host.plan.zero
    with Wire() as wire:
        s = host.connect(room=4096)
        port = s.getsockname()[1]
        s.settimeout(2)
        try:
            while True:
                block = source.randbytes(1000)
                sent += block[:s.send(block)]
        except TimeoutError:
            pass
        begin = time.time()
        time.sleep(seconds)
        segments = [t for t in wire.segments if t.ours == port]
        s.settimeout(host.patience)
        got = receive(s, len(sent))
        finish(s)
    wanted(got == sent, f"{len(got)} of {len(sent)} octets came back, or others")
    beyond, probes, kernels = closed_windows(segments, begin + 1)
    wanted(beyond <= 1, f"{beyond} octets came beyond a closed window")
    wanted(0 < len(probes) <= seconds, f"{len(probes)} probes came in {seconds} s of a closed window")
    unanswered = [t for t in kernels if not any(not a.is_ours and t.at <= a.at < t.at + 1 for a in segments)]
    wanted(not unanswered, f"{len(unanswered)} of Linux's {len(kernels)} probes weren't answered within a second")
    return (f"closed for {seconds} s: {len(probes)} probes came, none with more than an octet; {len(kernels)} of Linux's were answered; "
            f"then all {len(sent)} octets")


def restraint_of_lossy(host):
    """The same where frames are lost."""
    return restraint(host, is_lossy=True)


def restraint(host, is_lossy=False):
    """The reader is slow, so that its window closes at times. On the wire the program never sends other octets under a number,
    beyond the window, acknowledges what wasn't sent, or takes back the edge of its own window."""
    octets = random.Random(11).randbytes(2_000_000)
    with Wire() as wire:
        s = host.connect(room=20_000)
        port = s.getsockname()[1]
        sender = threading.Thread(target=lambda: (send_in_pieces(s, octets), s.shutdown(socket.SHUT_WR)), daemon=True)
        sender.start()
        got = bytearray()
        while data := read_some(s, 50_000):
            got += data
            if len(got) // 100_000 != (len(got) - len(data)) // 100_000:
                time.sleep(0.05)
        s.close()
        time.sleep(0.3)
        segments = [t for t in wire.segments if t.ours == port]
    wanted(got == octets, f"{len(got)} of {len(octets)} octets came back, or others")
    broken = list(broken_promises(segments, octets, is_lossy))
    wanted(not broken, f"{len(broken)} times, first {broken[:1]}")
    closed = sum(t.is_ours and t.window == 0 for t in segments)
    theirs = sum(not t.is_ours for t in segments)
    return f"{theirs} segments of the program's keep what was promised; Linux's window was closed {closed} times"


def in_a_row(host):
    count, begin, slowest = 1000, time.time(), 0.0
    for i in range(count):
        since = time.time()
        s = host.connect()
        exchange(s, i.to_bytes(4, "big") * 16)
        finish(s)
        slowest = max(slowest, time.time() - since)
    seconds = time.time() - begin
    speed = f"{count / seconds:.0f} a second, the slowest {slowest * 1000:.0f} ms"
    return f"{count} connections, 64 octets each way, in {seconds:.2f} s: {speed}"


def at_once(host):
    """All are connected before the first octet is sent; each has octets of its own."""
    count, length, begin = 200, 20_000, time.time()
    held = [host.connect() for _ in range(count)]
    connected = time.time() - begin
    octets = [random.Random(i).randbytes(length) for i in range(count)]
    left, got = list(map(memoryview, octets)), [bytearray() for _ in range(count)]
    chosen = selectors.DefaultSelector()
    for i, s in enumerate(held):
        s.setblocking(False)
        chosen.register(s, selectors.EVENT_READ | selectors.EVENT_WRITE, i)
    while chosen.get_map():
        ready = chosen.select(host.patience)
        wanted(ready, f"nothing came for {host.patience} s, and {len(chosen.get_map())} connections aren't over")
        for key, events in ready:
            s, i = key.fileobj, key.data
            if events & selectors.EVENT_WRITE:
                left[i] = left[i][s.send(left[i]):]
                if not left[i]:
                    s.shutdown(socket.SHUT_WR)
                    chosen.modify(s, selectors.EVENT_READ, i)
            if events & selectors.EVENT_READ:
                data = read_some(s)
                got[i] += data
                if not data:
                    chosen.unregister(s)
                    s.close()
    wrong = sum(a != b for a, b in zip(octets, got))
    wanted(wrong == 0, f"other octets came back in {wrong} of {count} connections")
    told = f"{count} at once, connected in {connected:.2f} s"
    return f"{told}; {length} octets each way in each, all over after {time.time() - begin:.2f} s"


def flood(host):
    """So many SYNs, 20,000 a second, from addresses that don't go on. Beside them a connection goes on, and others are made."""
    flooder = Flood(host, 100_000, 20_000)
    kept = host.connect()
    exchange(kept, b"before")
    threading.Thread(target=answer_for_nobody, args=(flooder.is_over,), daemon=True).start()
    flooder.start()
    made, slowest, begin = 0, 0.0, time.time()
    try:
        while not flooder.is_over.is_set() or made == 0:
            since = time.time()
            s = host.connect()
            exchange(s, made.to_bytes(4, "big"))
            finish(s)
            made, slowest = made + 1, max(slowest, time.time() - since)
            exchange(kept, random.Random(made).randbytes(10_000))
            time.sleep(0.01)
    finally:
        flooder.stop()
    seconds = time.time() - begin
    exchange(kept, b"after")
    finish(kept)
    one_octet(host)
    wanted(slowest < 8, f"{made} connections beside the flood, but one took {slowest:.1f} s: more than its SYN sent three times")
    wanted(flooder.sent > 0.9 * flooder.count, f"only {flooder.sent} SYNs were sent, so the case says nothing")
    return (f"{flooder.sent} SYNs in {seconds:.1f} s: {made} connections beside them, the slowest {slowest * 1000:.0f} ms; "
            f"one went on, {made * 10_000} octets")


def memory_of(pid):
    """What a process may write to by itself, in kB; None without a process."""
    if pid is None:
        return None
    with open(f"/proc/{pid}/status", encoding="ascii") as lines:
        return next(int(line.split()[1]) for line in lines if line.startswith("VmData"))


def fuzz(host):
    """Segments of any values, and the connection beside them goes on: those in it are far beyond its windows."""
    drawn, count = random.Random(host.plan.seed), 20_000
    source, to, hardware, own = address_of(OWN[host.family]), address_of(host.address), hardware_of(host.address), own_hardware()
    with Wire() as wire:
        s = host.connect()
        exchange(s, b"before")
        port = s.getsockname()[1]
        time.sleep(0.2)
        number = wire.of(port, True)[-1].seq
    before = memory_of(host.plan.pid)
    with socket.socket(socket.AF_PACKET, socket.SOCK_RAW) as device:
        device.bind(("tap0", 0))
        for i in range(count):
            try:
                device.send(frame_of(hardware, own, source, to, any_segment(drawn, source, to, (port, number))))
            except OSError:
                time.sleep(0.001)
            if i % 1000 == 0:
                exchange(s, drawn.randbytes(100))
    exchange(s, b"after")
    finish(s)
    one_octet(host)
    after = memory_of(host.plan.pid)
    more = 0 if before is None else after - before
    wanted(more <= 1000, f"the program took {more} kB more")
    memory = "" if before is None else f"; the program took {more} kB more"
    return f"{count} segments of any values, and a connection went on beside them{memory}"
