#!/usr/bin/env python3
"""Copies the pages, and what they show, to a folder that has nothing else of the repository: with each other's links, and
without those to sources, of which the words stay.

usage: carry.py archive FOLDER      as an archive of the C library has them: README.md, and the others in share/doc/iface
       carry.py installed FOLDER    those in share/doc/iface alone
       carry.py firmware FOLDER     as the archive for firmware has them: FIRMWARE.md is its README.md
       carry.py crate FOLDER        as the crate has them: its own README.md and API.md, and the others in docs
       carry.py --check FOLDER      names each link of a page there that leads nowhere; its status is 1 if there is one
"""
import os
import pathlib
import re
import sys

import pages

TOP = pathlib.Path(__file__).resolve().parent.parent
LINK = re.compile(r"\[((?:[^\[\]]|\[[^\]]*\])*)\]\(([^)\s]+)\)")
# where each page stands that isn't with the others
OWN_PLACES = {
    "archive": {"c/RELEASE.md": "README.md"},
    "installed": {"c/RELEASE.md": None},
    "firmware": {"docs/FIRMWARE.md": "README.md", "c/RELEASE.md": None},
    "crate": {"rust/README.md": "README.md", "rust/API.md": "API.md", "c/RELEASE.md": None},
}
# in the folder of the others
NAMES = {"rust/README.md": "rust/README.md", "rust/API.md": "rust/API.md", "c/targets/README.md": "targets.md"}


def places(layout):
    """Each page and picture of the repository, with its place in the folder."""
    others = pathlib.PurePath("docs" if layout == "crate" else "share/doc/iface")
    found = {}
    for path in [*pages.PAGES, *sorted((TOP / "docs").glob("*.svg")), TOP / "docs" / "floods.txt"]:
        name = path.relative_to(TOP).as_posix()
        own = OWN_PLACES[layout].get(name, str(others / NAMES.get(name, path.name)))
        if own is not None:
            found[name] = own
    return found


def relinked(text, page, placed):
    """The text of a page, whose links lead from its place to those of the others."""

    def link(found):
        words, to = found.groups()
        path, hash_, heading = to.partition("#")
        if re.match(r"https?:", to) or not path:
            return found[0]
        name = os.path.normpath(os.path.join(os.path.dirname(page), path))
        if name not in placed:
            return words
        return f"[{words}]({os.path.relpath(placed[name], os.path.dirname(placed[page]))}{hash_}{heading})"

    return LINK.sub(link, text)


def carry(layout, folder):
    placed = places(layout)
    for name, place in placed.items():
        to = folder / place
        to.parent.mkdir(parents=True, exist_ok=True)
        text = (TOP / name).read_text(encoding="utf-8")
        to.write_text(relinked(text, name, placed) if name.endswith(".md") else text, encoding="utf-8")


def check(folder):
    """Names each link that leads nowhere, and says how many there are."""
    texts = {path.resolve(): path.read_text(encoding="utf-8") for path in sorted(folder.rglob("*.md"))}
    wrong = [f"{page}: {why}" for page, text in texts.items() for why in pages.test_links(page, text, texts)]
    if not texts:
        wrong.append(f"there are no pages in {folder}")
    links = sum(len(LINK.findall(text)) for text in texts.values())
    print("\n".join(wrong) or f"{links} links of {len(texts)} pages lead somewhere")
    return bool(wrong)


def main():
    what, folder = sys.argv[1:]
    if what == "--check":
        sys.exit(check(pathlib.Path(folder)))
    carry(what, pathlib.Path(folder))


main()
