#!/usr/bin/env python3
"""Makes the table of smoltcp's public names in API.md, and tests/names.rs, which names each that is said to be here, of
smoltcp_names.txt.

usage: names.py            writes both anew
       names.py --check    its status is 1 if one isn't as it would be written, a name is listed twice, or one that is said
                           not to be here stands in the sources
"""
import os
import re
import sys

os.chdir(os.path.dirname(os.path.abspath(__file__)))
TABLE = re.compile(r"(?<=<!-- made by names.py -->\n).*?(?=<!-- to here -->)", re.S)
HEAD = """\
//! Each of smoltcp's public names that are here, made by names.py: it is built, and nothing of it runs.
#![cfg(all(target_os = "linux", feature = "default"))]
#![allow(unused_imports)]

"""


def read():
    """Each path, with the reason why it isn't here, or none."""
    names = {}
    with open("smoltcp_names.txt") as file:
        for line in file.read().splitlines():
            if line and not line.startswith("#"):
                path, _, why = line.partition(": ")
                if path in names:
                    sys.exit(f"names.py: {path} is listed twice")
                names[path] = why
    return names


def test_of(names):
    """A program that names each that is here, under a name of its own."""
    here = [path for path, why in names.items() if not why]
    lines = [f"use fumitorygate::{path} as {re.sub('::', '_', path)};" for path in here]
    return HEAD + "#[rustfmt::skip]\n#[allow(non_camel_case_types, non_upper_case_globals)]\nmod names {\n" + "".join(
        f"    {line}\n" for line in lines) + "}\n"


def table_of(names):
    """The names of each module, first those that are here, and then those that aren't, by their reasons."""
    rows = ["| Module | Names | Here |", "|---|---|---|"]
    modules = list(dict.fromkeys(path.rpartition("::")[0] for path in names))
    for module in modules:
        own = {path: why for path, why in names.items() if path.rpartition("::")[0] == module}
        for why in sorted(set(own.values())):
            listed = ", ".join(f"`{path.rpartition('::')[2]}`" for path, reason in own.items() if reason == why)
            rows.append(f"| {f'`{module}`' if module else 'the crate'} | {listed} | {f'no: {why}' if why else 'yes'} |")
    count = sum(not why for why in names.values())
    return f"{count} of {len(names)} names are here.\n\n" + "\n".join(rows) + "\n"


def sources():
    for folder, _, files in os.walk("src"):
        for name in files:
            with open(os.path.join(folder, name)) as file:
                yield re.sub(r"//.*", "", file.read())


def main():
    names = read()
    with open("API.md") as file:
        page = file.read()
    if not TABLE.search(page):
        sys.exit("names.py: API.md has no place for the table")
    made = {"API.md": TABLE.sub(lambda _: table_of(names), page), "tests/names.rs": test_of(names)}
    if "--check" not in sys.argv:
        for name, text in made.items():
            with open(name, "w") as file:
                file.write(text)
        return
    wrong = []
    for name, text in made.items():
        if not os.path.exists(name) or open(name).read() != text:
            wrong.append(f"{name} isn't what smoltcp_names.txt says: run names.py")
    code = "\n".join(sources())
    for path, why in names.items():
        own = path.rpartition("::")[2]
        if why and re.search(rf"\bpub (?:struct|enum|trait|type|const|fn|mod|use)\b[^;{{(]*\b{own}\b", code):
            wrong.append(f"{path} is said not to be here, and is")
    sys.exit("\n".join(wrong) or 0)


main()
