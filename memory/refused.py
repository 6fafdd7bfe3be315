#!/usr/bin/env python3
"""Runs tests and programs with requests for memory refused, one in each run.

usage: refused.py [--all] [--over-gate] [--jobs N] [CRATE..]     of these crates, or of all that it knows

Each test is run by itself, once for each request that is tried, and that one request is refused. It has to hold as it
does otherwise: what was refused has been told as an error, nothing has changed, and the next call gets it. The programs
`hostrun`, `scenes` and `simulate` run scripts so. They have to end as they do otherwise, or with their words for it on standard
error and their status, when they have printed a beginning of what they print otherwise.

A test may make tens of thousands of requests in loops, so not all are tried. Of those that are made from one place, the
same calls one inside the other, the first is, the second, the fourth, the eighth and so on. So each place from which
memory is taken is refused at least once in each test. What goes wrong only at the third request of a place isn't found.
With `--all` each request is tried. How places are told apart is said in `refuse.c`.

It builds the tests and the program by `rt test` and `rt run`, which prove them first. With `--over-gate` it builds
them over the libraries that `rt ci` has just proved in this clone. It needs a C compiler (CC, or cc) and `rt` (RT).
"""
import collections
import concurrent.futures
import os
import pathlib
import re
import subprocess
import sys
import tempfile
import time
import typing

HERE = pathlib.Path(__file__).resolve().parent
CRATES = HERE.parent / "crates"
TESTS = ("wire_tests", "sockets_tests", "interface_tests", "script_tests")


class Program(typing.NamedTuple):
    """What a program is given, and how it ends where memory was refused."""

    scripts: list
    words: list
    status: int
    told: bytes


PROGRAMS = {
    "scenes": Program(["scenes/data/*.txt"], [], 1, rb"Error: ([Oo]ut of memory|memory allocation failed)\n"),
    "hostrun": Program(["hostrun/stdin", "hostrun/data/*.txt"], [], 3, rb"out of memory\n"),
    # Each error that may be there for want of memory has words of its own.
    "simulate": Program(
        ["simulate/data/reassembly_under_reordering.txt", "simulate/data/router_goes.txt"],
        ["chart"],
        1,
        rb"Error: (line \d+\n\nCaused by:\n( +0: [^\n]+\n)? +(1: )?)?([Oo]ut of memory|NoMemory|memory allocation failed)\n",
    ),
}
RT = os.environ.get("RT", "rt")
FLAGS = ["-O2", "-fno-omit-frame-pointer", "-shared", "-fPIC"]
# How long one run may take, in seconds.
LIMIT = 120


def below(crate, lines):
    """The crates of this repository that a crate stands on, and the kit's crates that it names."""
    own, seen = [], [crate]
    for name in seen:
        for other in lines[name]:
            if other in lines and other not in seen:
                seen.append(other)
                own.append(other)
    return own, [name for name in lines[crate] if name not in lines]


def crates_and_uses():
    """What each crate names, by `crates.txt`."""
    lines = {}
    for line in (HERE.parent / "crates.txt").read_text(encoding="utf-8").split("\n"):
        head, _, uses = line.partition("#")[0].partition(":")
        if head.strip():
            lines[head.split()[0]] = uses.split()
    return lines


def build_over_gate(crate, is_program):
    """Builds a crate's program or tests over the libraries that the gate has left, and proves no other crate."""
    doc = subprocess.run([RT, "doc"], check=True, capture_output=True, text=True).stdout.strip()
    kit = pathlib.Path(doc).parent
    own, of_kit = below(crate, crates_and_uses())
    words = ["--crate-name", crate, "src/main.rt" if is_program else "src/lib.rt"]
    for name in ["std", *of_kit]:
        words += ["--extern", f"{name}={kit}/rlibs/{name}.rlib"]
    words += ["-L", f"dependency={kit}/rlibs"]
    for name in own:
        library = CRATES / name / "out/rlib"
        words += ["--extern", f"{name}={library}/{name}.rlib", "-L", f"dependency={library}"]
    words += ["--antt-project", f"{kit}/rattle/logic/antt-project.json", "--logic-built", f"{kit}/logic_built"]
    words += ["--toolchain", f"{kit}/toolchain", "--backend", "llvm"]
    words += ["--jobs", str(os.cpu_count() or 1), *["--test"] * (not is_program)]
    program = f"out/{crate}" if is_program else f"out/{crate}_tests"
    folder = CRATES / crate
    (folder / "out").mkdir(exist_ok=True)
    subprocess.run([f"{kit}/bin/rattle", "build", *words, "-o", f"{program}.o"], cwd=folder, check=True, stdout=2)
    words = ["--target", "x86_64-unknown-linux-gnu", "--toolchain", f"{kit}/toolchain", "-o", program, f"{program}.o"]
    words += [f"{kit}/c/libos_c.a", f"{kit}/c/liblibc_c.a"]
    subprocess.run([f"{kit}/bin/rattle-link", *words], cwd=folder, check=True, stdout=2)


def built(crate, over_gate):
    """The path of a crate's program or tests, which are built first."""
    is_program = crate in PROGRAMS
    path = CRATES / crate / "out" / (crate if is_program else f"{crate}_tests")
    if over_gate:
        build_over_gate(crate, is_program)
    else:
        words = [RT, "run" if is_program else "test"]
        subprocess.run(words, cwd=CRATES / crate, check=True, input=b"", stdout=2)
    return path


class Run:
    """What a program did: its status and what it printed."""

    def __init__(self, work, at, shim, calls=None):
        _, words, given = work
        more = {"LD_PRELOAD": str(shim), "REFUSE_AT": str(at), **({"REFUSE_CALLS": calls} if calls else {})}
        try:
            ran = subprocess.run(words, input=given, capture_output=True, timeout=LIMIT, env={**os.environ, **more})
            self.status, self.out, self.errors = ran.returncode, ran.stdout, ran.stderr
        except subprocess.TimeoutExpired:
            self.status, self.out, self.errors = None, b"", b""

    def ending(self):
        if self.status is None:
            return f"had not ended after {LIMIT} seconds"
        how = f"signal {-self.status}" if self.status < 0 else f"status {self.status}"
        return f"{how}: {self.errors.decode(errors='replace').strip()[-300:]}"


class Whole(Run):
    """A run in which nothing was refused, and from where it asked for memory."""

    def __init__(self, work, shim):
        with tempfile.NamedTemporaryFile() as calls:
            super().__init__(work, 0, shim, calls.name)
            told = calls.read()
        self.places = [told[at : at + 8] for at in range(0, len(told), 8)]

    def tried(self, is_all):
        """The numbers of the requests that are tried: of each place the first, the second, the fourth and so on."""
        seen = collections.Counter()
        for number, place in enumerate(self.places, 1):
            seen[place] += 1
            if is_all or seen[place].bit_count() == 1:
                yield number


def is_right(run, whole, program):
    """Whether a run in which a request was refused came to what it may, given the run in which none was."""
    if (run.status, run.out, run.errors) == (whole.status, whole.out, whole.errors):
        return True
    if program is None or run.status != program.status:
        return False
    return re.fullmatch(program.told, run.errors) is not None and whole.out.startswith(run.out)


def parts(crate, path):
    """The tests of a crate, or the scripts of a program: a name, the words of its command and its input."""
    if crate in PROGRAMS:
        scripts = [it for form in PROGRAMS[crate].scripts for it in sorted(CRATES.glob(form))]
        words = [str(path), *PROGRAMS[crate].words]
        return [(f"{crate} < {it.relative_to(CRATES)}", words, it.read_bytes()) for it in scripts]
    listed = subprocess.run([path, "--list"], check=True, capture_output=True, text=True).stdout
    names = re.findall(r"^(\S+): test$", listed, re.M)
    return [(f"{crate} {name}", [str(path), name], b"") for name in names]


def tried(crate, path, shim, jobs, is_all):
    """Tries a crate's tests or a program's scripts. Prints what came of them; returns how much went wrong."""
    start = time.monotonic()
    program = PROGRAMS.get(crate)
    works = parts(crate, path)
    wrong, requests, refused, places = [], 0, 0, set()
    with concurrent.futures.ThreadPoolExecutor(jobs) as pool:
        for work, whole in zip(works, list(pool.map(lambda it: Whole(it, shim), works))):
            if program is None and whole.status != 0:
                wrong.append(f"{work[0]}: fails where nothing is refused: {whole.ending()}")
                continue
            numbers = list(whole.tried(is_all))
            requests += len(whole.places)
            refused += len(numbers)
            places.update(whole.places)
            for number, run in zip(numbers, pool.map(lambda at: Run(work, at, shim), numbers)):
                if not is_right(run, whole, program):
                    wrong.append(f"{work[0]}: request {number} refused: {run.ending()}")
    for line in wrong:
        print(line)
    what = "scripts" if program else "tests"
    spent = time.monotonic() - start
    made = f"{requests} requests from {len(places)} places, {refused} of them refused"
    print(f"{crate}: {len(works)} {what}, {made}, {len(wrong)} wrong, {spent:.0f} s", flush=True)
    return len(wrong) + (requests == 0)


def main(words):
    over_gate, is_all = "--over-gate" in words, "--all" in words
    words = [it for it in words if it not in ("--over-gate", "--all")]
    jobs = os.cpu_count() or 1
    if "--jobs" in words:
        place = words.index("--jobs")
        jobs = int(words[place + 1])
        del words[place : place + 2]
    crates = words or [*TESTS, *PROGRAMS]
    known = [*TESTS, *PROGRAMS]
    unknown = [it for it in crates if it not in known]
    if unknown:
        print(f"refused.py knows {', '.join(known)}, and not {', '.join(unknown)}", file=sys.stderr)
        return 2
    with tempfile.TemporaryDirectory() as folder:
        shim = pathlib.Path(folder) / "refuse.so"
        compiler = os.environ.get("CC", "cc")
        subprocess.run([compiler, *FLAGS, "-o", shim, HERE / "refuse.c", "-ldl"], check=True)
        wrong = sum(tried(crate, built(crate, over_gate), shim, jobs, is_all) for crate in crates)
    return 1 if wrong else 0


if __name__ == "__main__":
    sys.exit(main(sys.argv[1:]))
