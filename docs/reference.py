#!/usr/bin/env python3
"""The reference of all public items, as pages of HTML made from the sources: what each is, its
contract, and the definitions of which contracts speak. Crates of tests are left out.

usage: reference.py [FOLDER]           writes the pages into a folder, out/reference if none is named
       reference.py --check            writes nothing; names each public item without docs, each
                                       file of definitions that doesn't say what it has, each link
                                       that leads nowhere, and each construct of a source that
                                       wasn't understood
       reference.py --files [WORDS]    prints each file of definitions in which these words stand,
                                       as 'RFC 4861', with what it has
       reference.py --behind NAME ..   prints on how many files and lines of definitions the contract of
                                       a function stands, with all that they import; or a file of them
"""
import html
import json
import pathlib
import re
import shutil
import sys
import urllib.parse

from reference_definitions import read_specs
from reference_names import Crate
from reference_pages import Writer
from reference_sources import read_sources

HERE = pathlib.Path(__file__).resolve().parent
TOP = HERE.parent
SHEETS = ("reference.css", "reference.js")


def read_crates(problems):
    """The crates that crates.txt lists, without those of tests, each with its layer."""
    lines = (TOP / "crates.txt").read_text(encoding="utf-8").split("\n")
    named = {}
    for line in lines:
        head, _, below = line.partition("#")[0].partition(":")
        if head.strip():
            named[head.split()[0]] = below.split()
    problems += [f"crates/{folder.name}: not in crates.txt"
                 for folder in sorted((TOP / "crates").iterdir()) if folder.name not in named]
    crates = {}
    for name, below in named.items():
        if name.endswith("_tests"):
            continue
        folder = TOP / "crates" / name
        below = [other for other in below if other in crates]
        layer = 1 + max((crates[other].layer for other in below), default=0)
        crates[name] = Crate(name, read_sources(folder, problems), read_specs(folder, problems),
                             below, layer)
    return list(crates.values())


def test_links(pages, problems):
    """Tests that each link leads to a page and a place on it, and no two places have one name."""
    places = {}
    for name, text in pages.items():
        places[name] = set()
        for found in re.findall(r' id="([^"]+)"', text):
            if found in places[name]:
                problems.append(f"{name}: a place twice: {found}")
            places[name].add(found)
    for name, text in pages.items():
        for link in sorted(set(re.findall(r'<a[^>]* href="([^"]+)"', text))):
            file, _, found = link.partition("#")
            found = html.escape(urllib.parse.unquote(found))
            if re.match(r"https?:", link):
                continue
            if (file or name) not in pages or found and found not in places[file or name]:
                problems.append(f"{name}: a link leads nowhere: {link}")


def make(problems):
    """All pages with the list of names for the search, and what was counted."""
    crates = read_crates(problems)
    writer = Writer(crates, problems)
    pages = {f"{crate.name}.html": writer.crate(crate) for crate in crates}
    pages["files.html"] = writer.files(crates)
    pages["index.html"] = writer.first_page(crates)
    test_links(pages, problems)
    entries = ",\n".join(json.dumps(entry, ensure_ascii=False)
                         for entry in sorted(set(writer.index)))
    pages["names.js"] = f"const names = [\n{entries}\n];\n"
    return pages, f"{len(crates)} crates, {writer.items} public items, {writer.definitions} " \
        f"definitions; {writer.bare} fields and variants have no docs of their own"


def print_files(words):
    """Prints the files of definitions in which these words stand, with what each has."""
    problems = []
    for crate in read_crates(problems):
        for spec in crate.specs:
            if words in (TOP / spec.path).read_text(encoding="utf-8"):
                print(f"{spec.path}: {' '.join(spec.comment)}")
    return bool(problems)


def cited(name):
    """The files of definitions that the contracts of the public functions of a name cite."""
    for path in sorted(TOP.glob("crates/*/src/**/*.rt")):
        text = path.read_text(encoding="utf-8")
        for contract in re.findall(rf"^ *pub fn {name}\b(.*?)\n *\{{", text, re.M | re.S):
            words = set(re.findall(r"\w+", contract))
            for file, names in re.findall(r"ghost use (Rattle\.\w+\.specs\.[\w.]+)([^;]*);", text):
                if words & set(re.findall(r"\w+", names) or [file.split(".")[-1]]):
                    yield imported(file)


def imported(words):
    """The file of definitions that an import names."""
    _, crate, _, *names = words.strip(".").split(".")
    return f"crates/{crate}/specs/{'/'.join(names)}.antt"


def behind(name):
    """How many files of definitions the contract of a function, or a file, stands on; and how many lines these have, in
    all and without imports, comments and blank lines."""
    todo, seen = [name] if name.endswith(".antt") else list(cited(name)), {}
    while todo:
        path = todo.pop()
        if path not in seen and (TOP / path).exists():
            text = seen[path] = (TOP / path).read_text(encoding="utf-8")
            todo += map(imported, re.findall(r"^(?:pub )?use (Rattle\.\w+\.specs\.[\w.]+)", text, re.M))
    lines = "".join(seen.values()).split("\n")[:-1]
    return len(seen), len(lines), sum(not re.match(r"\s*(--|(pub )?use |$)", line) for line in lines)


def print_behind(names):
    """Prints how much the contracts of some functions, or some files of definitions, stand on."""
    counts = {name: behind(name) for name in names}
    for name, (files, lines, bare) in counts.items():
        print(f"{name}: {files} files, {lines:,} lines, {bare:,} without imports, comments and blank lines")
    return not all(files for files, _, _ in counts.values())


def main(arguments):
    """Writes the pages, or checks the sources, or prints what is asked of the definitions."""
    check = arguments == ["--check"]
    if arguments[:1] == ["--files"] and len(arguments) < 3:
        return print_files("".join(arguments[1:]))
    if arguments[:1] == ["--behind"]:
        return print_behind(arguments[1:])
    if len(arguments) > 1 or not check and arguments and arguments[0].startswith("-"):
        sys.exit(__doc__)
    problems = []
    pages, count = make(problems)
    for problem in problems:
        print(problem, file=sys.stderr)
    if check:
        print(f"{count}; {len(problems) or 'no'} problems")
        return bool(problems)
    folder = pathlib.Path(arguments[0]) if arguments else TOP / "out" / "reference"
    folder.mkdir(parents=True, exist_ok=True)
    for name, text in pages.items():
        (folder / name).write_text(text, encoding="utf-8")
    for name in SHEETS:
        shutil.copyfile(HERE / name, folder / name)
    print(f"{count}; {len(pages) + len(SHEETS)} files in {folder}")
    return False


if __name__ == "__main__":
    sys.exit(main(sys.argv[1:]))
