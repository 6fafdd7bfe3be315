#!/usr/bin/env python3
"""Prints the crates that a change touches, lowest first, for `rt ci`.

usage: changed.py [--above] [BASE]

A crate is touched if a file of its folder differs from that of the commit BASE (HEAD, if none is given), or isn't tracked
yet. With --above the crates that stand on these are printed as well. The order is that of `crates.txt`.
"""
import pathlib
import subprocess
import sys

TOP = pathlib.Path(__file__).resolve().parent.parent


def git(*words):
    """The lines that a command of git prints."""
    return subprocess.run(["git", *words], cwd=TOP, check=True, capture_output=True, text=True).stdout.splitlines()


def uses():
    """What each crate names, by `crates.txt`, in its order."""
    lines = {}
    for line in (TOP / "crates.txt").read_text(encoding="utf-8").splitlines():
        head, _, names = line.partition("#")[0].partition(":")
        if head.strip():
            lines[head.split()[0]] = names.split()
    return lines


def with_those_above(touched, lines):
    """These crates, and all that stand on one of them."""
    above = set(touched)
    grown = True
    while grown:
        more = {name for name, names in lines.items() if name not in above and above.intersection(names)}
        above |= more
        grown = bool(more)
    return above


def main(words):
    is_above = "--above" in words
    words = [it for it in words if it != "--above"]
    if len(words) > 1 or (words and words[0].startswith("-")):
        sys.exit(__doc__)
    paths = git("diff", "--no-renames", "--name-only", words[0] if words else "HEAD") + git("ls-files", "--others", "--exclude-standard")
    lines = uses()
    touched = {path.split("/")[1] for path in paths if path.startswith("crates/")}.intersection(lines)
    chosen = with_those_above(touched, lines) if is_above else touched
    print(" ".join(name for name in lines if name in chosen))


if __name__ == "__main__":
    main(sys.argv[1:])
