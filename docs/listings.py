#!/usr/bin/env python3
"""Compiles and runs the listings of CLIENT.md, and the client of TCP.md, as who copies this repository's crates has them. Those of
C.md stand in examples, which `make -C c` compiles; and those of rust/README.md are compiled by `cargo test --doc`.

usage: listings.py           makes an empty folder with the crates and the lines of crates.txt that CLIENT.md says, and the program
                             docs/listings, in which each listing stands; runs it by `rt try`, which proves nothing; and is its
                             peer: what it sends has to be what crates/udp_echo sends. It takes a minute of a processor
       listings.py --check   names each listing that stands neither in that program nor in a crate, and each of C.md that stands in no
                             example; pages.py does it, too
"""
import functools
import pathlib
import re
import shutil
import socket
import subprocess
import sys
import tempfile
import time

TOP = pathlib.Path(__file__).resolve().parent.parent
PROGRAM = TOP / "docs" / "listings"
PAGES = ("CLIENT.md", "TCP.md")
# Rows of CLIENT.md's table of what to copy as well, by their first words.
ROWS = ("lists of calls", "[a guard]", "connections of [TCP]")
# What the program's own line names beside what the page has.
MORE = "control_wire guard host tcp_machine tcp_host tcp_sockets"


# ---- the listings ----

def listings(text):
    """Each listing of a page that is code of Rattle, with its first line's number."""
    lines, block = text.split("\n"), []
    for number, line in enumerate(lines + ["end"], 1):
        if line.startswith("    ") or (block and not line.strip() and number < len(lines)):
            block.append((number, line[4:]))
            continue
        words = "\n".join(part for _, part in block).rstrip()
        if re.search(r"[;{]$|^ *\)\?;", re.sub(r" *//.*", "", words), re.M) and not re.search(r"^\(cd |^ *(?:record|let start :)|≡|→", words, re.M):
            yield block[0][0], words
        block = []


def packed(code):
    """Code without blanks and comments, and without the commas before an end."""
    code = re.sub(r"\s*//.*", "", code)
    return re.sub(r",(?=[)\]}])", "", re.sub(r"\s+", "", code))


def pieces(words):
    """The parts of a listing between which a program may have more: a line of points, an empty one, a comment, the imports."""
    words = re.sub(r"^ *(?:\.\.|//.*|)$", "\0", words, flags=re.M)
    words = re.sub(r"^(use [^;]*;)$", "\0\\1\0", words, flags=re.M)
    return [packed(piece) for piece in words.split("\0") if packed(piece)]


@functools.lru_cache
def sources():
    """The code in which a listing may stand, by its file."""
    files = [*PROGRAM.glob("*.rt.txt"), *TOP.glob("crates/*/src/**/*.rt")]
    return {file: packed(file.read_text(encoding="utf-8")) for file in files}


def unknown(text):
    """Names each listing of a page that stands nowhere."""
    for number, words in listings(text):
        parts = pieces(words)
        if not any(all(part in code for part in parts) for code in sources().values()):
            best = max(sources().values(), key=lambda code: sum(part in code for part in parts))
            first = next(part for part in parts if part not in best)
            yield f"the listing at line {number} stands in no program: {first[:60]}"


def unknown_in_c(text):
    """Names each listing of a page that is code of C and stands neither in an example nor in the header."""
    files = [*TOP.glob("c/examples/*.[ch]"), TOP / "c" / "iface.h"]
    code = [packed_c(file.read_text(encoding="utf-8")) for file in files]
    for block in re.findall(r"(?:^    .*\n|^\n)+", text, re.M):
        words = re.sub(r"^    ", "", block, flags=re.M).strip("\n")
        # Of declarations each may stand there as the head of its function.
        parts = [packed_c(words)] if "\n}" in f"\n{words}" else [packed_c(line).removesuffix(";") for line in words.splitlines()]
        if re.search(r"[;{}]\s*(/\*.*)?$", words) and not any(all(part in one for part in parts) for one in code):
            yield f"a listing of C stands in no example: {words.splitlines()[0][:60]}"


def packed_c(code):
    """Code of C without blanks and comments."""
    return re.sub(r"\s+", "", re.sub(r"/\*.*?\*/", "", code, flags=re.S))


# ---- the program ----

def make(folder):
    """Makes the repository that CLIENT.md tells of, with the program."""
    page = (TOP / "docs" / "CLIENT.md").read_text(encoding="utf-8")
    names = re.search(r"as files, into `crates/`:\n\n((?:    .*\n)+)", page).group(1).split()
    for row in re.findall(r"^\| (.*) \| (.*) \|$", page, re.M):
        if row[0].startswith(ROWS):
            names += re.findall(r"`(\w+)`", row[1])
    lines = {line.split(":")[0]: line for line in (TOP / "crates.txt").read_text(encoding="utf-8").splitlines()}
    for name in names:
        shutil.copytree(TOP / "crates" / name, folder / "crates" / name, ignore=shutil.ignore_patterns("must-fail", "out"))
    source = folder / "crates" / "my_host" / "src"
    source.mkdir(parents=True)
    for file in PROGRAM.glob("*.rt.txt"):  # `rt ci` refuses a .rt file outside a crate of the list
        shutil.copyfile(file, source / file.name.removesuffix(".txt"))
    own = re.search(r"`(my_host: [^`]*)`", page).group(1)
    (folder / "crates.txt").write_text("\n".join([*(lines[name] for name in names), f"{own} {MORE}"]) + "\n", encoding="utf-8")
    (folder / "HANDLES").write_text(re.search(r"`(Handles allowed: [^`]*)`", page).group(1) + "\n", encoding="utf-8")


def over():
    """A datagram from 192.168.69.100 to port 7 of 192.168.69.1 that says `over`, without a checksum (RFC 768)."""
    header = bytearray.fromhex("450000200000400040110000c0a84564c0a84501")
    total = sum(header[i] << 8 | header[i + 1] for i in range(0, 20, 2))
    header[10:12] = (0xffff - (total % 0xffff)).to_bytes(2, "big")
    return bytes.fromhex("0200000000010200000000020800") + header + bytes.fromhex("13880007000c0000") + b"over"


def converse(peer, program, asked):
    """Sends the frames until each was answered, while the program is made and runs, and then that it is over. What was answered,
    without repetitions, and without what goes to groups."""
    answers = []
    while program.poll() is None:
        try:
            peer.send(asked[len(answers)] if len(answers) < len(asked) else over())
            answer = peer.recv(2000)
        except (TimeoutError, ConnectionRefusedError):
            time.sleep(0.2)
            continue
        if answer[0] & 1 == 0 and answer.hex() not in answers:
            answers.append(answer.hex())
    return answers


def run():
    """Makes and runs the program. Whether it does what it has to."""
    echo = TOP / "crates" / "udp_echo"
    asked = [bytes.fromhex(line) for line in (echo / "stdin").read_text(encoding="ascii").split()]
    due = (echo / "stdout").read_text(encoding="ascii").splitlines()[:len(asked)]
    with tempfile.TemporaryDirectory() as name, socket.socket(socket.AF_INET, socket.SOCK_DGRAM) as peer:
        folder = pathlib.Path(name)
        make(folder)
        peer.bind(("127.0.0.1", 0))
        with socket.socket(socket.AF_INET, socket.SOCK_DGRAM) as free:
            free.bind(("127.0.0.1", 0))
            own = free.getsockname()
        peer.connect(own)
        peer.settimeout(0.5)
        ends = [f"127.0.0.1:{port}" for port in (own[1], peer.getsockname()[1])]
        with open(folder / "said", "w", encoding="utf-8") as said, subprocess.Popen(
                ["rt", "try", "--", *ends], cwd=folder / "crates" / "my_host", stdin=subprocess.DEVNULL, stdout=said, stderr=said) as program:
            answers = converse(peer, program, asked)
        words = (folder / "said").read_text(encoding="utf-8")
    if answers != due or not re.search(r"\bover\b", words):
        print(f"{words}listings: it sent {answers}, and not {due}")
        return False
    print(f"listings: a program of them sends back what comes, as CLIENT.md says: {len(answers)} frames")
    return True


def main(arguments):
    """Checks where the listings stand, or runs them."""
    if arguments not in ([], ["--check"]):
        sys.exit(__doc__)
    count = 0
    problems = []
    for page in PAGES:
        text = (TOP / "docs" / page).read_text(encoding="utf-8")
        count += len(list(listings(text)))
        problems += [f"docs/{page}: {problem}" for problem in unknown(text)]
    problems += [f"docs/C.md: {problem}" for problem in unknown_in_c((TOP / "docs" / "C.md").read_text(encoding="utf-8"))]
    print("\n".join([*problems, f"{count} listings, {len(problems)} problems"]))
    return bool(problems) or (not arguments and not run())


if __name__ == "__main__":
    sys.exit(main(sys.argv[1:]))
