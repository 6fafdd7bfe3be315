#!/usr/bin/env python3
"""The wrong bodies that are tried before a release, and not by each run of the gate.

usage: wrong_bodies.py check         each can still be applied: its old texts stand once in their files. Takes a second; .ci/run does it
       wrong_bodies.py try [CRATE..]  the prover has to refuse each, of these crates or of all. It works on a copy of the repository,
                                     over what `rt check` kept in it, and proves first what it lacks. A wrong rule of a machine or of
                                     the guard that its own crate lets through is tried over the crate of its laws
"""
import pathlib
import re
import shutil
import subprocess
import sys
import tempfile

HERE = pathlib.Path(__file__).resolve().parent
TOP = HERE.parent

# The crate of the laws of a crate of rules.
LAWS = {"guard": "guard_laws", "host_machine": "host_laws", "tcp_machine": "tcp_laws"}


def why_not(edit, crate):
    """Why an edit can't be applied to its crate, or None."""
    texts, path, old, pairs = {}, None, None, 0
    for line in edit.read_text(encoding="utf-8").split("\n"):
        if line.startswith("file: "):
            path = crate / line[6:].strip()
        elif line.startswith("old: "):
            old = line[5:]
        elif line.startswith("new:"):
            if path is None or old is None:
                return "a new: without file: and old:"
            if path not in texts:
                if not path.is_file():
                    return f"there is no {path.name}"
                texts[path] = path.read_text(encoding="utf-8")
            if texts[path].count(old) != 1:
                return f"its old text stands {texts[path].count(old)} times in {path.name}"
            texts[path] = texts[path].replace(old, line[4:].removeprefix(" "))
            old, pairs = None, pairs + 1
    return None if pairs else "it changes nothing"


def check():
    """Prints each edit that can't be applied; 1 if there is one."""
    bad, count = 0, 0
    for edit in sorted(HERE.glob("*/*.edit")):
        count += 1
        crate = TOP / "crates" / edit.parent.name
        why = why_not(edit, crate)
        if not why and (crate / "must-fail" / edit.name).exists():
            why = "must-fail has one of that name"
        if why:
            bad += 1
            print(f"{edit.relative_to(TOP)}: {why}")
    print(f"{count} wrong bodies for a release, {bad} that can't be applied")
    return 1 if bad else 0


def left_out(folder, names):
    """What isn't copied: the history, and what was built in `c`."""
    return {".git"} if pathlib.Path(folder) == TOP else {"build"} if pathlib.Path(folder) == TOP / "c" else set()


def applied(edit, crate):
    """Writes an edit into a copy of its crate, and returns the texts that it replaced, by file."""
    before, path, old = {}, None, None
    for line in edit.read_text(encoding="utf-8").split("\n"):
        if line.startswith("file: "):
            path = crate / line[6:].strip()
        elif line.startswith("old: "):
            old = line[5:]
        elif line.startswith("new:"):
            text = path.read_text(encoding="utf-8")
            before.setdefault(path, text)
            path.write_text(text.replace(old, line[4:].removeprefix(" ")), encoding="utf-8")
    return before


def try_over_laws(copy, name, edits):
    """Tries wrong rules by the laws above them, and returns those that all laws let through."""
    kept = []
    for edit in edits:
        before = applied(edit, copy / "crates" / name)
        refused = subprocess.run(["rt", "check"], cwd=copy / "crates" / LAWS[name], capture_output=True).returncode != 0
        for path, text in before.items():
            path.write_text(text, encoding="utf-8")
        print(f"{name}/{edit.name}: {'refused' if refused else 'NOT REFUSED'} by {LAWS[name]}", flush=True)
        kept += [] if refused else [edit]
    return kept


def try_in(copy, name):
    """Tries the edits of one crate in a copy; 1 if one isn't refused."""
    to = copy / "crates" / name / "must-fail"
    shutil.rmtree(to, ignore_errors=True)
    shutil.copytree(copy / "wrong_bodies" / name, to)
    if name not in LAWS:
        return subprocess.run(["rt", "must-fail", name], cwd=copy).returncode
    tried = subprocess.run(["rt", "must-fail", name], cwd=copy, stdout=subprocess.PIPE, stderr=subprocess.STDOUT, text=True)
    print(tried.stdout, end="", flush=True)
    kept = sorted(set(re.findall(r"([\w.-]+\.edit): NOT REFUSED", tried.stdout)))
    shutil.rmtree(to)
    if tried.returncode and (not kept or re.search("BAD EDIT|NOT TRIED", tried.stdout)):
        return 1
    return 1 if try_over_laws(copy, name, [copy / "wrong_bodies" / name / it for it in kept]) else 0


def try_them(names):
    """Tries the edits of some crates, or of all, in place of those of the gate; 1 if one isn't refused."""
    names = names or sorted(folder.name for folder in HERE.iterdir() if folder.is_dir())
    with tempfile.TemporaryDirectory() as room:
        copy = pathlib.Path(room) / "copy"
        shutil.copytree(TOP, copy, symlinks=True, ignore=left_out)
        return max(try_in(copy, name) for name in names)


if __name__ == "__main__":
    if sys.argv[1:] == ["check"]:
        sys.exit(check())
    if sys.argv[1:2] == ["try"]:
        sys.exit(try_them(sys.argv[2:]))
    sys.exit(__doc__)
