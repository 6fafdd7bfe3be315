#!/usr/bin/env python3
"""Which definitions the promises stand on: those of the pages, which are the contracts of `drive`, `link`, `network` and of laws.

usage: promises.py           prints, for each crate, how many files of definitions promises stand on, and how many lines these have
       promises.py --check   names each file that stands in the wrong folder: where a crate has both kinds, definitions that no
                             promise stands on are in specs/Details, and worked examples in specs/Examples
"""
import collections
import pathlib
import re
import sys

TOP = pathlib.Path(__file__).resolve().parent.parent
CRATES = TOP / "crates"
# Each function of these crates is a promise, or part of one.
OF_PROMISES = ("host", "network", "host_laws", "guard_laws", "tcp_laws", "tcp_host_laws")
APART = ("Details", "Examples")


def file_of(crate, name):
    """The file of definitions that a name of an import leads to, or None."""
    parts = name.strip(".").split(".")
    for count in range(len(parts), 0, -1):
        path = CRATES / crate / "specs" / ("/".join(parts[:count]) + ".antt")
        if path.is_file():
            return path
    return None


def named_in(path):
    """The files of definitions that a source, or a file of definitions, imports."""
    text = path.read_text(encoding="utf-8")
    found = re.findall(r"^\s*(?:ghost )?(?:pub )?use Rattle\.(\w+)\.specs\.([\w.]+)", text, re.M)
    return {file for file in (file_of(crate, name) for crate, name in found) if file}


def promised():
    """The files of definitions that promises stand on, with all that these import."""
    sources = [file for crate in OF_PROMISES for file in (CRATES / crate / "src").rglob("*.rt")]
    sources += [file for file in CRATES.glob("*/src/**/laws.rt")]
    todo = [file for source in sources for file in named_in(source) if "Examples" not in file.parts]
    seen = set()
    while todo:
        file = todo.pop()
        if file not in seen:
            seen.add(file)
            todo += named_in(file)
    return seen


def definitions():
    """All files of definitions, by their crates; lists of modules are left out."""
    found = collections.defaultdict(list)
    for file in sorted(CRATES.glob("*/specs/**/*.antt")):
        if re.search(r"^(?!pub mod |mod |--|\s*$)", file.read_text(encoding="utf-8"), re.M):
            found[file.relative_to(CRATES).parts[0]].append(file)
    return found


def misplaced(seen):
    """The files that stand in the wrong folder, each with why."""
    for files in definitions().values():
        inside = [file for file in files if file in seen]
        if not inside:
            continue
        for file in files:
            is_apart = any(folder in file.parts for folder in APART)
            if "Details" in file.parts and file in seen:
                yield f"{file.relative_to(TOP)}: a promise stands on it, so it isn't a detail"
            elif not is_apart and file not in seen:
                yield f"{file.relative_to(TOP)}: no promise stands on it, so it belongs in specs/Details"


def main(arguments):
    """Prints the counts, or what is misplaced."""
    seen = promised()
    if arguments == ["--check"]:
        problems = list(misplaced(seen))
        print("\n".join([*problems, f"{len(seen)} files of definitions that promises stand on, {len(problems)} misplaced"]))
        return bool(problems)
    if arguments:
        sys.exit(__doc__)
    for crate, files in definitions().items():
        inside = [file for file in files if file in seen]
        if inside:
            print(f"{crate}: {len(inside)} of {len(files)} files, {sum(file.read_text(encoding='utf-8').count(chr(10)) for file in inside)} lines")
    return 0


if __name__ == "__main__":
    sys.exit(main(sys.argv[1:]))
