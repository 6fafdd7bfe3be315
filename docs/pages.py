#!/usr/bin/env python3
"""Tests the pages: that each link leads to a file and to a heading there, that each file that a page names is there,
that tables and lines aren't too long, that the examples of CONTRIBUTING.md stand somewhere, that MAP.md has each crate once,
that calls of C that they name are in iface.h or arena.h, that numbers of crates are those of crates.txt, that who copies crates by
CLIENT.md has all that their lines name, that THEOREM.md has each law, and no other, and tells how many there are, that what
promises stand on is counted right, that numbers are those of what they count (figures.py), that no page has more long
sentences than it had (sentences.py), that each listing of CLIENT.md, TCP.md and C.md stands in a program (listings.py), that
pictures are as they are drawn (plots.py), and that all pages together have at most MOST_WORDS. Of
crates.txt it tests that each crate names those that its line has, and that there aren't too many paths down; and of
definitions, that those on which no promise stands are in a folder of their own (promises.py).

usage: pages.py            names what is wrong; its status is 1 if something is
       pages.py --words    prints how many words each page has
"""
import os
import pathlib
import re
import sys

import figures
import files_behind
import listings
import plots
import promises
import reference
import sentences

TOP = pathlib.Path(__file__).resolve().parent.parent
PAGES = [TOP / "README.md", *sorted((TOP / "docs").glob("*.md")), TOP / "rust" / "README.md", TOP / "rust" / "API.md",
         TOP / "c" / "targets" / "README.md", TOP / "c" / "RELEASE.md"]
# pages whose lines are as long as their authors like
OF_ANY_LENGTH = {"API.md"}

# how many paths down the crates of crates.txt may have: the toolchain goes along each of them before its first proof
MOST_PATHS = 500_000
# how many words all pages may have together, without the bars of tables, and without the table of names that API.md has made
MOST_WORDS = 60_000
MADE = re.compile(r"<!-- made by names.py -->.*?<!-- to here -->", re.S)
# sections of which each name has to stand somewhere in the code, but for those that stand for any
PLACEHOLDERS = {"WORDS", "IsX", "x_in"}
ADDING = re.compile(r"^## (Adding .*?)\n(.*?)(?=^## )", re.M | re.S)
NAME = re.compile(r"`([A-Za-z_]\w*)`")
# what stands between blanks, but no line between cells of a table
WORD = re.compile(r"(?<!\S)(?=\S*\w)\S+")
# a file at any place of the tree, by the end of its path, but none with a letter in place of a name, as `specs/X.antt`
ANY_FILE = re.compile(r"`(?:\.{1,2}/)*([\w/-]+\.(?:rt|antt|c|h|rs|md|py|sh|txt|edit))`")
LETTER = re.compile(r"(^|/)[XCxmf][/.]")
# what only an installed library or an archive has
ELSEWHERE = {"include/iface.h", "boards/alone.c"}


def headings(text):
    """The names of the headings of a page, as links have them."""
    found = re.findall(r"^#+ (.*)$", re.sub(r"^```.*?^```", "", text, flags=re.M | re.S), re.M)
    return {re.sub(r"[^\w\- ]", "", heading.lower()).replace(" ", "-") for heading in found}


def test_links(page, text, texts):
    """Names each link that leads nowhere."""
    for link in re.findall(r"\]\(([^)\s]+)\)", text):
        path, _, heading = link.partition("#")
        if re.match(r"https?:", link):
            continue
        to = (page.parent / path).resolve() if path else page
        if not to.exists():
            yield f"{link} leads nowhere"
        elif heading and to in texts and heading not in headings(texts[to]):
            yield f"{link}: no such heading"
    for name in re.findall(r"`([A-Z]+\.md)`", text):
        if name not in {other.name for other in texts}:
            yield f"there is no page {name}"


def ends_of_paths():
    """The path of each file of the repository, and each end of it."""
    ends = set()
    for folder, folders, files in os.walk(TOP):
        folders[:] = [name for name in folders if name not in {".git", "out", "target"}]
        parts = pathlib.Path(folder).relative_to(TOP).parts
        ends.update("/".join((*parts[i:], file)) for file in files for i in range(len(parts) + 1))
    return ends


def test_files(text, ends):
    """Names each file that a page names and that isn't there."""
    for name in ANY_FILE.findall(text):
        if name not in ends | ELSEWHERE and not LETTER.search(name):
            yield f"there is no file {name}"


def test_lines(text):
    """Names each cell of a table with more than 260 characters, without its links, and each line with more than 160."""
    for number, line in enumerate(text.split("\n"), 1):
        if not line.startswith("|"):
            if len(line) > 160:
                yield f"line {number} has {len(line)} characters"
            continue
        for cell in re.split(r"(?<!\\)\|", line.strip("| ")):
            cell = re.sub(r"\]\([^)]*\)", "]", cell.strip())
            if len(cell) > 260:
                yield f"line {number}: a cell of {len(cell)} characters"


def read_crates():
    """The crates of crates.txt, lowest first, each with the names that its line has."""
    lines = (TOP / "crates.txt").read_text(encoding="utf-8").splitlines()
    heads = [line.partition("#")[0].partition(":") for line in lines]
    return {head.split()[0]: names.split() for head, _, names in heads if head.strip()}


def test_examples(text):
    """Names each example that stands nowhere or that the page doesn't tell of, and each name that stands nowhere."""
    told = set(re.findall(r"^\| `(\w+)` \|", text, re.M)) | set(re.findall(r"files_behind\.py (\w+)`", text))
    for name, words in files_behind.EXAMPLES.items():
        yield from (f"example {name}: {word} stands nowhere" for word in words if not any(files_behind.touched(word)))
        if name not in told:
            yield f"there is no word of the example {name}"
    code = "\n".join([path.read_text(encoding="utf-8") for _, path in files_behind.files()] + list(ends_of_paths()))
    there = set(re.findall(r"\w+", code)) | set(files_behind.EXAMPLES) | PLACEHOLDERS
    for heading, section in ADDING.findall(text):
        yield from (f"'{heading}': {name} stands nowhere" for name in NAME.findall(section) if name not in there)


def test_map(text):
    """Names each crate that MAP.md has not once in the first cells of its tables, each that stands above one on which it
    builds, and each that isn't there."""
    rows = re.search(r"^## The layers\n(.*?)^## ", text, re.M | re.S).group(1)
    named = [name for cell in re.findall(r"^\|([^|]*)\|", rows, re.M) for name in NAME.findall(cell)]
    crates = read_crates()
    yield from (f"there is no crate {name}" for name in named if name not in crates)
    yield from (f"{name} stands there {named.count(name)} times" for name in crates if named.count(name) != 1)
    for place, crate in enumerate(named):
        yield from (f"{crate} builds on {name}, which stands below it" for name in crates.get(crate, []) if name in named[place:])


def test_uses(crates):
    """Names each crate that a line of crates.txt has and that no file of its crate names."""
    for crate, names in crates.items():
        code, all_text = "", ""
        for path in (TOP / "crates" / crate).rglob("*"):
            if path.suffix in (".rt", ".antt"):
                text = path.read_text(encoding="utf-8")
                code += re.sub(r"//.*", "", text) if path.suffix == ".rt" else ""
                all_text += text
        for name in set(names) & set(crates):
            if not re.search(rf"\b{name}::|\buse {name}\b", code) and not re.search(rf"\bRattle\.{name}\b", all_text):
                yield f"no file of {crate} names {name}"


def test_paths(crates):
    """Says so where there are too many paths down."""
    paths = {}
    for crate, names in crates.items():
        paths[crate] = 1 + sum(paths[name] for name in names if name in paths)
    if sum(paths.values()) > MOST_PATHS:
        yield f"{sum(paths.values()):,} paths down, of at most {MOST_PATHS:,}"


def test_behind(text):
    """Names each row of what a promise stands on whose numbers aren't those that are counted."""
    for table in re.findall(r"^\|[^\n]*--behind.*\n\|[-|]*\n((?:\|.*\n)*)", text, re.M):
        for row in table.splitlines():
            name, told = row.split("`")[1], re.findall(r" ([\d,]+) \|", row)
            counted = [f"{count:,}" for count in reference.behind(name)]
            if told != counted:
                yield f"behind {name}: {', '.join(told)}, and not {', '.join(counted)}"


def test_calls(text, declared):
    """Names each call of C that a page names and that iface.h doesn't declare."""
    for name in sorted(set(re.findall(r"`(iface_[a-z0-9_]*[a-z0-9])`", text)) - declared):
        yield f"neither iface.h nor arena.h has {name}"


def test_counts(text, lines):
    """Names each number of crates that isn't that of crates.txt, or of what a client copies."""
    client = (TOP / "docs" / "CLIENT.md").read_text(encoding="utf-8")
    copied = re.search(r"as files, into `crates/`:\n\n((?:    .*\n)+)", client).group(1)
    due = (str(len(copied.split())), str(lines))
    for found in re.findall(r"(\d+) of the (\d+) crates", text):
        if found != due:
            yield f"{' of '.join(found)} crates, and not {' of '.join(due)}"


def test_copies(text):
    """Names each crate that a row of CLIENT.md's table of what to copy lacks: one that a line of crates.txt names."""
    uses = read_crates()
    first = set(re.search(r"as files, into `crates/`:\n\n((?:    .*\n)+)", text).group(1).split())
    copied = first
    yield from (f"to copy: there is no crate {name}" for name in sorted(first - set(uses)))
    for row in re.search(r"^\| You want .*\n.*\n((?:\|.*\n)+)", text, re.M).group(1).splitlines():
        cell = row.strip("| ").split("|")[1]
        copied = (copied if "these" in cell else first) | set(re.findall(r"`(\w+)`", cell))
        yield from (f"to copy: there is no crate {name}" for name in set(re.findall(r"`(\w+)`", cell)) - set(uses))
        lacks = {name for crate in copied for name in uses.get(crate, []) if name in uses} - copied
        yield from (f"to copy lacks {name}: {row.split('|')[1].strip()}" for name in sorted(lacks))


def as_number(words):
    """The number below a hundred that is written as words, as `twenty-nine`."""
    small = ("zero one two three four five six seven eight nine ten eleven twelve thirteen fourteen fifteen sixteen seventeen "
             "eighteen nineteen").split()
    tens = "twenty thirty forty fifty sixty seventy eighty ninety".split()
    first, _, rest = words.lower().partition("-")
    return small.index(first) if first in small else 20 + 10 * tens.index(first) + (small.index(rest) if rest else 0)


def test_law_counts(text):
    """Names each number of laws in THEOREM.md that isn't that of the rows, or of the fields, below it."""
    ran = (TOP / "crates" / "host_laws" / "specs" / "Laws" / "Ran.antt").read_text(encoding="utf-8")
    fields = re.findall(r"^  pub (\w+) :", re.search(r"^pub record Laws (.*?)^$", ran, re.M | re.S).group(1), re.M)
    counts = [(r"the (\w+) laws of runs", len(fields)), (r"keeps the (\w+) laws", len(fields))]
    for words, heading in ((r"^([\w-]+) laws of what a host must do,", "### Laws of service"),
                           (r"^([\w-]+) laws of what a host must not do,", "### Laws of restraint")):
        section = text.split(heading + "\n")[1].split("\n### ")[0]
        cells = re.findall(r"^\|([^|]*)\|", section, re.M)
        counts.append((words, len(re.findall(r"\[`[a-z]\w*`\]", " ".join(cells)))))
    for words, count in counts:
        found = re.search(words, text, re.M)
        if not found or as_number(found.group(1)) != count:
            yield f"{found.group(0) if found else words}: there are {count}"


def words_of(text):
    """How many words a page has."""
    return len(re.findall(WORD, MADE.sub("", text)))


def test_words(texts):
    """Says so where all pages together have too many words."""
    words = sum(map(words_of, texts.values()))
    if words > MOST_WORDS:
        yield f"{words:,} words in all pages, of at most {MOST_WORDS:,}"


def test_laws(text):
    """Names each law that THEOREM.md lacks, and each that it has and that stands nowhere."""
    code = {path: path.read_text(encoding="utf-8") for path in TOP.glob("crates/*/src/**/*.rt")}
    specs = {path: path.read_text(encoding="utf-8") for path in TOP.glob("crates/*/specs/**/*.antt")}
    of_laws = "\n".join(found for path, found in specs.items()
                        if "Laws" in path.parts or path.parts[-3] == "host_laws" and path.name != "TwoPolls.antt")
    for crate in ("host_machine", "host_laws"):
        for path, source in sorted(code.items()):
            if path.parts[-3] == crate:
                for name, law in re.findall(r"^pub fn (\w+)\(\)\n    ensures { (\w+) }", source, re.M):
                    if f"abbrev pub {law} :" in of_laws and f"`{name}`" not in text:
                        yield f"there is no law {name}"
    words = set(re.findall(r"\w+", "\n".join([*code.values(), *specs.values()])))
    tables = re.search(r"^## The laws$(.*?)^## ", text, re.M | re.S).group(1)
    for cell in re.findall(r"^\|(.*?)\|", tables, re.M):
        yield from (f"{name} is no law" for name in re.findall(r"`(\w+)`", cell) if name not in words)


def main(arguments):
    """Tests the pages, or counts their words."""
    texts = {page: page.read_text(encoding="utf-8") for page in PAGES}
    if arguments == ["--words"]:
        for page, text in texts.items():
            print(f"{words_of(text):6} {page.relative_to(TOP)}")
        print(f"{sum(map(words_of, texts.values())):6} in all, of at most {MOST_WORDS}")
        return False
    problems, ends, crates = [], ends_of_paths(), read_crates()
    headers = [(TOP / "c" / name).read_text(encoding="utf-8") for name in ("iface.h", "arena.h", "arena.c", "targets/header.sh")]
    declared = set(re.findall(r"\biface_\w+", "\n".join(headers))) | set(crates)
    for page, text in texts.items():
        found = [*test_links(page, text, texts), *test_files(text, ends), *test_counts(text, len(crates)), *test_behind(text),
                 *test_calls(text, declared)]
        found += [] if page.name in OF_ANY_LENGTH else test_lines(text)
        problems += [f"{page.relative_to(TOP)}: {problem}" for problem in found]
    for name, test in (("CONTRIBUTING.md", test_examples), ("THEOREM.md", test_laws), ("THEOREM.md", test_law_counts),
                       ("CLIENT.md", test_copies), ("MAP.md", test_map)):
        problems += [f"docs/{name}: {problem}" for problem in test(texts[TOP / "docs" / name])]
    problems += [f"crates.txt: {problem}" for problem in (*test_uses(crates), *test_paths(crates))]
    problems += test_words(texts)
    problems += [*promises.misplaced(promises.promised()), *figures.problems(), *sentences.problems(), *plots.problems()]
    for name in listings.PAGES:
        problems += [f"docs/{name}: {problem}" for problem in listings.unknown(texts[TOP / "docs" / name])]
    problems += [f"docs/C.md: {problem}" for problem in listings.unknown_in_c(texts[TOP / "docs" / "C.md"])]
    print("\n".join(problems + [f"{len(texts)} pages, {len(problems) or 'no'} problems"]))
    return bool(problems)


if __name__ == "__main__":
    sys.exit(main(sys.argv[1:]))
