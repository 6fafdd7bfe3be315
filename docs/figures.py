#!/usr/bin/env python3
"""Compares numbers of the pages with what they count: constants of the code, laws, examples and files, limits of stack and code, what
other pages measured, and the kit's line. pages.py does it.

usage: figures.py      names each number that is wrong; its status is 1 if there is one
"""
import pathlib
import re
import shutil
import subprocess
import sys

TOP = pathlib.Path(__file__).resolve().parent.parent


def read(path):
    return (TOP / path).read_text(encoding="utf-8")


def number(words):
    return int(words.replace(",", ""))


def rows(text, heading):
    """The rows of the tables of a section, each as its cells, without those of heads."""
    section = re.search(rf"^#+ {re.escape(heading)}\n(.*?)(?=^#+ |\Z)", text, re.M | re.S).group(1)
    cells = [re.split(r" *(?<!\\)\| *", line.strip("| ")) for line in section.splitlines() if line.startswith("|")]
    return [row for row in cells if not re.fullmatch(r"[-| ]*", "".join(row))]


def told(page, pattern, due):
    """Says so where the numbers that a page has at a pattern's groups aren't these."""
    found = re.search(pattern, re.sub(r"\s+(\* )?\s*", " ", read(page)))
    if not found:
        yield f"{page}: there is no '{pattern}'"
    elif [number(group) for group in found.groups()] != [int(one) for one in due]:
        yield f"{page}: '{found.group(0)}' has to have {', '.join(f'{int(one):,}' for one in due)}"


def constant(path, name):
    return int(re.search(rf"pub const {name}: \w+ = ([\d_]+);", read(path)).group(1))


def of_constants():
    """For how much there is room: by constants of the code."""
    tables = "crates/iface_tables/src/"
    addresses, groups = constant(tables + "sync.rt", "MAX_ADDR_COUNT"), constant(tables + "groups.rt", "MAX_GROUP_COUNT")
    least, routes = constant("crates/iface_context/src/context.rt", "IFACE_MAX_ADDR_COUNT"), constant(tables + "route.rt", "IFACE_ROUTE_COUNT_LIMIT")
    prefixes, routers = constant(tables + "slaac.rt", "MAX_PREFIX_COUNT"), constant(tables + "slaac.rt", "MAX_ROUTER_COUNT")
    frame, rebuilt = constant("crates/net_base/src/phy.rt", "FRAME_BUFFER_SIZE"), constant("crates/fragmentation/src/reassembly.rt", "REASSEMBLY_BUFFER_SIZE")
    yield from told("docs/MACHINE.md", r"(\d+) to (\d+) addresses, up to (\d+) routes, (\d+) groups, and of SLAAC (\d+) prefixes and (\d+) routers",
                    (least, addresses, routes, groups, prefixes, routers))
    yield from told("docs/MACHINE.md", r"Frames have at most ([\d,]+) octets, and rebuilt payloads ([\d,]+)\.", (frame, rebuilt))
    yield from told("docs/MACHINE.md", r"of IPv4, up to ([\d,]+) octets: rebuilds", (rebuilt,))
    host = "crates/iface_host/src/host.rt"
    usual = {name.lower(): constant(host, name) for name in ("NEIGHBORS", "ROUTES", "FRAGMENTED")}
    usual.update({name: int(count) for name, count in re.findall(r"^    (addresses|groups): (\d+),", read(host), re.M)})
    configured = {row[0].strip("`"): row[1] for row in rows(read("docs/C.md"), "The configuration")}
    yield from (f"docs/C.md: `{name}` is {configured[name]}, and not {count}" for name, count in usual.items() if configured[name] != str(count))
    yield from told("rust/API.md", r"`Config::neighbors`, by default (\d+); `addresses`, (\d+), of \d+ to \d+; `routes`, (\d+)",
                    (usual["neighbors"], usual["addresses"], usual["routes"]))
    yield from told("rust/src/config.rs", r"IFACE_NEIGHBOR_CACHE_COUNT: usize = (\d+);", (usual["neighbors"],))
    yield from told("rust/src/config.rs", r"REASSEMBLY_BUFFER_COUNT: usize = (\d+);", (usual["fragmented"],))


def of_memory():
    """What an interface takes: what c/memory.c prints, of which docs/C.md has the table."""
    due = number(next(row[1] for row in rows(read("docs/C.md"), "Memory") if row[0] == "of these the block of its interface"))
    yield from told("README.md", r"An interface takes ([\d,]+) octets", (due,))
    host = next(row for row in rows(read("docs/C.md"), "Memory") if row[0] == "a host, by `iface_new`")
    yield from told("README.md", r"a host takes \[([\d,]+) by default, ([\d,]+) at the least\]", (number(host[1]), number(host[2])))
    yield from told("docs/PERFORMANCE.md", r"An `Interface` takes ([\d,]+) octets", (due,))
    parts = [number(re.search(r"[\d,]+", row[1]).group(0)) for row in rows(read("docs/PERFORMANCE.md"), "Memory")[1:]]
    if sum(parts) != due:
        yield f"docs/PERFORMANCE.md: the parts of an `Interface` are {sum(parts):,}, and not {due:,}"


def of_measurements():
    """What a ping takes: what PERFORMANCE.md measured."""
    ping = next(row for row in rows(read("docs/PERFORMANCE.md"), "IPv4") if row[0] == "an echo request with 56 octets of data answered")
    yield from told("README.md", r"([\d,]+) instructions to answer a ping of 56 octets \(\[lwIP 2\.1\.3: ([\d,]+)\]", (number(ping[1]), number(ping[3])))


def of_limits():
    """Octets of stack and of code, none of which may be above its limit in c/limits.txt."""
    limits = {name: int(most) for name, most in re.findall(r"^([\w:-]+) (\d+)$", read("c/limits.txt"), re.M)}
    page = read("docs/PERFORMANCE.md")
    for row in rows(page, "Stack")[1:]:
        calls = [name.replace("iface_new", "iface_new_for") for name in re.findall(r"`(iface_\w+)`", row[0])] or ["call"]
        for cell, usual in ((row[1], ("", "call")), (row[2], ("bound:", "bound"))):
            most = max(limits.get(usual[0] + call, limits[usual[1]]) for call in calls)
            yield from (f"docs/PERFORMANCE.md, the stack of {row[0]}: {found} is above {most:,}"
                        for found in re.findall(r"[\d,]*\d", cell) if number(found) > most)
    names = {"the smallest one, x86-64, -O3 as the kit compiles": ("minimal-code", "minimal-constants"), "the whole library, x86-64":
             ("library-code", "library-constants"), "what services add to a program with all other calls, x86-64: connections of TCP":
             ("streams-code",), "queries of DNS": ("dns-code",), "a client of DHCP": ("dhcp-code",)}
    code = {row[0]: row[1:] for row in rows(page, "Code")}
    for name, counted in names.items():
        if name not in code:
            yield f"docs/PERFORMANCE.md: there is no code of '{name}'"
            continue
        yield from (f"docs/PERFORMANCE.md, the code of {name}: {cell} is above {limits[limit]:,}"
                    for limit, cell in zip(counted, code[name]) if number(cell) > limits[limit])
    bound = re.search(r"a call takes at most ([\d,]+)\.", page)
    if not bound or number(bound.group(1)) > limits["stack-bytes"]:
        yield f"docs/PERFORMANCE.md: the other compiler's bound is above {limits['stack-bytes']:,}, or isn't there"
    most = [limits[name] for name in ("bound:iface_streams_new", "bound:iface_new_for", "bound:iface_next", "bound")]
    yield from told("c/iface.h", r"iface_streams_new takes at most ([\d,]+) octets of it, iface_new ([\d,]+), iface_next ([\d,]+) and any other "
                    r"call ([\d,]+)", most)


def of_laws():
    """How many examples, laws and wrong relays there are, and how many lines the shape of the rules has."""
    examples = re.findall(r"^    ensures \w+ {", read("crates/tcp_machine/src/examples.rt"), re.M)
    yield from told("docs/TCP.md", r"(\d+) records of worked examples", (len(examples),))
    edits = list(TOP.glob("crates/*/must-fail/*.edit"))
    yield from told("docs/CONTRIBUTING.md", r"TCP's, and of the laws of both: (\d+)\.", (len(edits),))
    relays = re.findall(r"^    {", read("c/relay_wrong.h"), re.M)
    yield from told("docs/TCP.md", r"the same behind (\d+) relays that are wrong", (len(relays),))
    tcp = read("docs/TCP.md")
    words = re.search(r"is said by (\w+) more laws of `tcp_laws`[^|]*\n\n((?:\|.*\n)+)", tcp)
    count = len(words.group(2).splitlines()) - 2
    if words.group(1) not in ("twelve", "thirteen", "fourteen", "fifteen", "sixteen", "seventeen") or count != 12 + (
            "twelve", "thirteen", "fourteen", "fifteen", "sixteen", "seventeen").index(words.group(1)):
        yield f"docs/TCP.md: there are {count} laws, and not {words.group(1)}"
    section = read("docs/THEOREM.md").split("## What to read, in which order\n")[1]
    files = re.findall(r"^\| \[[\w.]+\]\(\.\./([\w./]+)\)", section.split("**Then, by law**")[0], re.M)
    lines = sum(read(file).count("\n") for file in files)
    yield from told("docs/THEOREM.md", r"First the shape, some (\d+) lines with their imports", (round(lines, -2),))


def of_the_kit():
    """The kit's line, where the kit is."""
    if not shutil.which("rt"):
        return
    line = subprocess.run(["rt", "version"], capture_output=True, text=True, check=False).stdout.strip()
    if f"`{line}`" not in read("docs/CONTRIBUTING.md"):
        yield f"docs/CONTRIBUTING.md: the line of the kit is `{line}`"


def problems():
    """Names each number that is wrong."""
    for test in (of_constants, of_memory, of_measurements, of_limits, of_laws, of_the_kit):
        yield from test()


def main():
    found = list(problems())
    print("\n".join(found + [f"figures: {len(found) or 'no'} problems"]))
    return bool(found)


if __name__ == "__main__":
    sys.exit(main())
