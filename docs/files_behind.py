#!/usr/bin/env python3
"""Prints the files that a change touches: those in which an example of such a change stands, the lowest crate first, and
behind each file the items of it that name the example.

usage: files_behind.py message | call | refusal | part | socket     the examples of CONTRIBUTING.md
       files_behind.py WORDS                                        any regular expression
"""
import pathlib
import re
import sys

TOP = pathlib.Path(__file__).resolve().parent.parent
# The words of each example: a file is touched where one of them stands.
EXAMPLES = {
    "message": ["PktTooBig"],
    "call": ["SetAnyIp", "TookAnyIp", "any_ip"],
    "refusal": ["TookHardwareAddr", "SetsHardwareAddr"],
    "part": ["OfMldReport", "MldEgress", "mld_egress"],
    "socket": ["SocketOf::Icmp", r"\(Icmp s\)", "IcmpOffer", "icmp::Socket", "IcmpSocket", "icmp_open", "down_icmp"],
}
# The first line of an item, by the kind of file: a definition at the margin, or a lemma of a module there; what a line of code declares.
ITEMS = {
    ".antt": re.compile(r"^(?!(?:pub )?use |module |--)(?:(?:pub|abbrev|data|record) |(?: {2}| {4})(?=[a-z]\S* :))*([^\s:({]+)", re.M),
    ".rt": re.compile(r"^ *(?:pub(?:\(\w+\))? )?(?:const |unsafe |extern \"C\" )*(?:fn|enum|struct|trait|type|mod|const) (\w+)", re.M),
}
ITEMS[".rs"] = ITEMS[".rt"]


def files():
    """The files of code, definitions, proofs and cargo's tests, each with its folder: a crate, the lowest first, or one at
    the top."""
    crates = re.findall(r"^(\w+)", (TOP / "crates.txt").read_text(encoding="utf-8"), re.M)
    for crate in crates:
        for folder in ("specs", "src", "proofs"):
            found = sorted((TOP / "crates" / crate / folder).rglob("*"))
            yield from ((crate, path) for path in found if path.suffix in (".antt", ".rt"))
    yield from (("c", path) for path in sorted((TOP / "c").glob("*.[ch]")))
    for folder in ("src", "tests"):
        yield from (("rust", path) for path in sorted((TOP / "rust" / folder).rglob("*.rs")))


def items_with(words, path, text):
    """The names of the items of a file in which the words stand, in order; none where they stand in imports alone."""
    found = {}
    starts = [(match.start(), match.group(1)) for match in ITEMS[path.suffix].finditer(text)] if path.suffix in ITEMS else []
    for match in re.finditer(words, text):
        line = text[text.rfind("\n", 0, match.start()) + 1:match.start()]
        above = [name for start, name in starts if start <= match.start()]
        if above and not re.match(r" *(pub |ghost )*use ", line):
            found[above[-1]] = None
    return list(found)


def touched(words):
    """The files in which the words stand, each as its folder, its path below that, and the items that name them."""
    for folder, path in files():
        text = path.read_text(encoding="utf-8")
        if re.search(words, text):
            top = TOP / ("" if folder in ("c", "rust") else "crates") / folder
            yield folder, str(path.relative_to(top)), items_with(words, path, text)


def main(arguments):
    """Prints the files in which an example stands."""
    if len(arguments) != 1:
        sys.exit(__doc__)
    words = "|".join(EXAMPLES.get(arguments[0], arguments))
    last, count = None, 0
    for folder, path, items in touched(words):
        if folder != last:
            print(folder)
        print(f"    {path}{': ' if items else ''}{', '.join(items)}")
        last, count = folder, count + 1
    print(f"{count} files")
    return not count


if __name__ == "__main__":
    sys.exit(main(sys.argv[1:]))
