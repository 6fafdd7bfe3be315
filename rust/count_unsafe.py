#!/usr/bin/env python3
"""Tells whether README.md says of each file how many lines have `unsafe`, and whether each has its reason."""
import glob
import os
import re
import sys

os.chdir(os.path.dirname(os.path.abspath(__file__)))
with open("README.md") as file:
    told = {name: int(count) for name, count in re.findall(r"^\| `(src/\S+)` \| (\d+) \|", file.read(), flags=re.M)}
found, wrong = {}, []
for name in glob.glob("src/**/*.rs", recursive=True):
    with open(name) as file:
        lines = file.read().split("\n")
    for number, line in enumerate(lines):
        if line.strip().startswith("//") or not re.search(r"\bunsafe\b", line) or "unsafe_" in line:
            continue
        found[name] = found.get(name, 0) + 1
        # The reason stands right above, with attributes between; the declarations have the header's.
        above = number - 1
        while above >= 0 and not lines[above].strip().startswith("//"):
            above -= 1
        reason = above
        while reason >= 0 and lines[reason].strip().startswith("//"):
            reason -= 1
        text = "\n".join(lines[reason + 1:above + 1])
        if name != "src/sys.rs" and "SAFETY:" not in text and "# Safety" not in text:
            wrong.append(f"{name}:{number + 1}: no reason for `unsafe`")
if told != found:
    wrong.append(f"README.md: lines with `unsafe` are {found}")
sys.exit("\n".join(wrong) or 0)
