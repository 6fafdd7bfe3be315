#!/usr/bin/env python3
"""Draws pictures of the pages: those of PERFORMANCE.md from its tables, and the chart of SECURITY.md from floods.txt, so that a picture
says what its table says; where frames go, and the loop of a program with connections of TCP; and the chart of a simulation.

usage: plots.py             writes the pictures into the folder in which it lies
       plots.py --check     names each that isn't as it would be drawn; pages.py does it, too
"""
import math
import pathlib
import re
import sys
import textwrap
from xml.sax.saxutils import escape

HERE = pathlib.Path(__file__).resolve().parent

# A picture brings its own ground, so that it is legible on whatever page; it is dark where the reader asks for that.
STYLE = """
  .ground { fill: #ffffff; stroke: #d0d7de; }
  text { font: 13px system-ui, -apple-system, 'Segoe UI', 'DejaVu Sans', sans-serif; fill: #1f2328; }
  .title { font-size: 16px; font-weight: 600; }
  .note, .axis, .value { fill: #59636e; font-size: 12px; }
  .value { stroke: #ffffff; stroke-width: 4px; paint-order: stroke; }
  .group { font-weight: 600; }
  .grid { stroke: #d8dee4; stroke-width: 1; }
  .now { fill: #0969da; }
  .lwip { fill: #afb8c1; }
  .line { fill: none; stroke-width: 2.5; }
  .c0 { stroke: #0969da; } .p0 { fill: #0969da; }
  .c1 { stroke: #bc4c00; } .p1 { fill: #bc4c00; }
  .c2 { stroke: #1a7f37; } .p2 { fill: #1a7f37; }
  .c3 { stroke: #8250df; } .p3 { fill: #8250df; }
  .c4 { stroke: #bf3989; } .p4 { fill: #bf3989; }
  @media (prefers-color-scheme: dark) {
    .ground { fill: #0d1117; stroke: #3d444d; }
    text { fill: #e6edf3; }
    .note, .axis, .value { fill: #9198a1; }
    .value { stroke: #0d1117; }
    .grid { stroke: #2a313c; }
    .now { fill: #4493f8; }
    .lwip { fill: #656c76; }
    .c0 { stroke: #4493f8; } .p0 { fill: #4493f8; }
    .c1 { stroke: #f0883e; } .p1 { fill: #f0883e; }
    .c2 { stroke: #3fb950; } .p2 { fill: #3fb950; }
    .c3 { stroke: #ab7df8; } .p3 { fill: #ab7df8; }
    .c4 { stroke: #f778ba; } .p4 { fill: #f778ba; }
  }
"""

# What pictures of boxes have besides.
BOXES = """
  .box { fill: #f6f8fa; stroke: #59636e; }
  .own { fill: #ddf4ff; stroke: #0969da; }
  .way { fill: none; stroke: #59636e; stroke-width: 1.5; }
  .tip { fill: #59636e; }
  @media (prefers-color-scheme: dark) {
    .box { fill: #151b23; stroke: #9198a1; }
    .own { fill: #10243e; stroke: #4493f8; }
    .way { stroke: #9198a1; }
    .tip { fill: #9198a1; }
  }
"""


def table_under(page, heading):
    """The first table behind a heading: the names of its columns, and its rows as lists of cells."""
    lines = page[page.index(f"\n{heading}\n"):].split("\n")
    start = next(i for i, line in enumerate(lines) if line.startswith("|"))
    rows = []
    for line in lines[start:]:
        if not line.startswith("|"):
            break
        rows.append([cell.strip() for cell in line.strip()[1:-1].split("|")])
    return rows[0], rows[2:]


def number(cell):
    """The number that a cell is, or None."""
    digits = cell.replace(",", "")
    return int(digits) if digits.isdigit() else None


def shown(value):
    return f"{value:,}"


def plain(cell):
    """A cell without the marks of code and what stands in brackets."""
    return re.sub(r" \(.*?\)", "", cell.replace("`", ""))


def text(x, y, what, kind="", anchor="start"):
    return f'<text x="{x:.1f}" y="{y:.1f}" class="{kind}" text-anchor="{anchor}">{escape(what)}</text>'


def picture(width, height, title, parts, style=STYLE):
    head = (
        f'<svg xmlns="http://www.w3.org/2000/svg" width="{width}" height="{height}" viewBox="0 0 {width} {height}" role="img">'
        f"\n<title>{escape(title)}</title>\n<style>{style}</style>\n"
        f'<rect class="ground" x="0.5" y="0.5" width="{width - 1}" height="{height - 1}" rx="6"/>\n'
    )
    return head + "\n".join(parts) + "\n</svg>\n"


def ticks(most):
    """Round numbers from 0 to the most, seven or fewer."""
    power = 10 ** math.floor(math.log10(most))
    step = next(s for s in (power // 5, power // 2, power, power * 2) if most / s < 7)
    return list(range(0, most + 1, step))


def beside_lwip(page):
    """A bar of what a frame costs now beside one of what it costs in lwIP, for each frame that has both."""
    groups = []
    for name in ("IPv4", "IPv6", "Fragments"):
        columns, rows = table_under(page, f"### {name}")
        now, lwip = columns.index("Now"), columns.index("lwIP")
        bars = [(plain(row[0]), number(row[now]), number(row[lwip])) for row in rows]
        groups.append((name, [bar for bar in bars if None not in bar[1:]]))
    most = max(max(bar[1:]) for _, bars in groups for bar in bars)
    marks = ticks(most)
    width, left, right, row, bar = 900, 350, 76, 46, 14
    scale = (width - left - right) / most
    top, body, y = 92, [], 92.0
    for name, bars in groups:
        body.append(text(20, y + 14, name, "group"))
        y += 26
        for label, now, lwip in bars:
            lines = textwrap.wrap(label, 46)
            for i, line in enumerate(lines):
                body.append(text(left - 12, y + bar + 4 + 16 * (i - (len(lines) - 1) / 2), line, "", "end"))
            for i, (value, kind) in enumerate(((now, "now"), (lwip, "lwip"))):
                at = y + i * (bar + 1)
                body.append(f'<rect class="{kind}" x="{left}" y="{at:.1f}" width="{value * scale:.1f}" height="{bar}" rx="2"/>')
                body.append(text(left + value * scale + 6, at + 11.5, shown(value), "value"))
            y += row
    grid = []
    for mark in marks:
        x = left + mark * scale
        grid.append(f'<line class="grid" x1="{x:.1f}" y1="{top - 8}" x2="{x:.1f}" y2="{y:.1f}"/>')
        grid.append(text(x, y + 18, shown(mark), "axis", "middle"))
    title = "Instructions a frame: here, and in lwIP 2.1.3"
    head = [
        text(20, 32, title, "title"),
        '<rect class="now" x="20" y="46" width="14" height="14" rx="2"/>',
        text(40, 58, "now, proved"),
        '<rect class="lwip" x="140" y="46" width="14" height="14" rx="2"/>',
        text(160, 58, "lwIP, -O3"),
        text(width - 20, 58, "fewer is better", "note", "end"),
    ]
    return picture(width, int(y + 34), title, head + grid + body)


def spread(wanted, gap):
    """Heights near the wanted ones, in their order and at least a gap apart."""
    order = sorted(range(len(wanted)), key=lambda i: wanted[i])
    placed = list(wanted)
    for before, after in zip(order, order[1:]):
        placed[after] = max(placed[after], placed[before] + gap)
    low = [i for i in order]
    for after, before in zip(reversed(low), list(reversed(low))[1:]):
        excess = placed[before] + gap - placed[after]
        if excess > 0:
            placed[before] -= excess
    return placed


def by_sockets(page):
    """A line over the number of sockets for each thing that was counted with several numbers."""
    columns, rows = table_under(page, "## How it grows")
    counts = [i for i, name in enumerate(columns) if number(name.split(" ")[0] or "-") is not None]
    sockets = [number(columns[i].split(" ")[0]) for i in counts]
    lines = []
    for cells in rows:
        points = [(s, number(cells[i])) for s, i in zip(sockets, counts) if number(cells[i]) is not None]
        if len(points) > 1:
            lines.append((plain(cells[0]), points))
    most = max(value for _, points in lines for _, value in points)
    marks = ticks(most)
    width, height, left, right, top, bottom = 900, 500, 70, 270, 80, 76
    last = math.log2(sockets[-1])
    across = lambda s: left + 30 + (width - left - 30 - right) * math.log2(s) / last
    down = lambda v: height - bottom - (height - top - bottom) * v / most
    title = "Instructions over the number of sockets"
    parts = [text(20, 32, title, "title"), text(20, 54, "fewer is better; the number of sockets by its logarithm", "note")]
    for mark in marks:
        parts.append(f'<line class="grid" x1="{left}" y1="{down(mark):.1f}" x2="{width - right}" y2="{down(mark):.1f}"/>')
        parts.append(text(left - 10, down(mark) + 4, shown(mark), "axis", "end"))
    for s in sockets:
        parts.append(text(across(s), height - bottom + 34, shown(s), "axis", "middle"))
    parts.append(text((left + width - right) / 2, height - 18, "sockets", "axis", "middle"))
    for i, (_, points) in enumerate(lines):
        path = " ".join(f"{across(s):.1f},{down(v):.1f}" for s, v in points)
        parts.append(f'<polyline class="line c{i % 5}" points="{path}"/>')
        parts += [f'<circle class="p{i % 5}" cx="{across(s):.1f}" cy="{down(v):.1f}" r="4"/>' for s, v in points]
    # The numbers at the points, but for the last: above, or below where another line is close above; and aside of a line that rises.
    for s, after in zip(sockets, sockets[1:]):
        here = [(v, dict(points).get(after, v)) for _, points in lines for t, v in points if t == s]
        for v, then in here:
            below = any(0 < down(v) - down(other) < 22 for other, _ in here)
            rises = down(v) - down(then) > 60
            parts.append(text(across(s) - 6 * rises, down(v) + (18 if below else -9), shown(v), "value", "end" if rises else "middle"))
    # The last numbers, with what the line is.
    labels = [textwrap.wrap(f"{shown(points[-1][1])} {name}", 34) for name, points in lines]
    wanted = [down(points[-1][1]) + 4 for _, points in lines]
    for i, (label, y) in enumerate(zip(labels, spread(wanted, 34))):
        for k, line in enumerate(label):
            parts.append(text(width - right + 14, y + 15 * k - 7 * (len(label) - 1), line, f"p{i % 5}"))
    return picture(width, height, title, parts)


# ---- what peers get beside a flood ----

def shares(cell):
    """The shares without a guard, at the room that it has with one, and with it."""
    return [int(part) for part in re.findall(r"\d+", cell)][1:]


def floods(page):
    """For each peer and flood a pair of cells at each rate: without a guard, and with it."""
    rows = [line.strip("| ").split(" | ") for line in page.split("Where nobody floods")[0].splitlines() if line.startswith("| ")]
    head, rows = rows[0], rows[1:]
    left, cell, row, top, width = 440, 46, 21, 96, 900
    title = "Shares of what peers ask or send that arrive beside a flood, in a hundred"
    parts = [text(20, 32, title, "title"),
             text(20, 54, "left of a pair: without a guard; right: with it. There is room for 128 neighbours in both. More is better", "note")]
    for i, rate in enumerate(head[3:]):
        parts.append(text(left + (2 * i + 1) * (cell + 3) + 8 * i, top - 12, f"{rate.removesuffix(' a second')} a second", "axis", "middle"))
    y, before = float(top), None
    for who, beside, family, *cells in rows:
        if who != before:
            y += 8 if before else 0
            parts.append(text(20, y + 15, who, "group"))
            y, before = y + row, who
        note = "" if family == "both" else f", {family}"
        parts.append(text(34, y + 15, beside + note))
        for i, cell_text in enumerate(cells):
            for k, share in enumerate(shares(cell_text)):
                x = left + (2 * i + k) * (cell + 3) + 8 * i
                opacity = f"{0.06 + 0.5 * share / 100:.2f}"
                parts.append(f'<rect class="now" x="{x}" y="{y:.1f}" width="{cell}" height="{row - 3}" rx="2" fill-opacity="{opacity}"/>')
                parts.append(text(x + cell / 2, y + 13.5, str(share), "", "middle"))
        y += row
    return picture(width, int(y + 20), title, parts)


# ---- boxes and the ways between them ----

def box(x, y, width, lines, kind="box"):
    """A box with lines of text in it, and its height."""
    height = 18 * len(lines) + 16
    parts = [f'<rect class="{kind}" x="{x}" y="{y}" width="{width}" height="{height}" rx="6"/>']
    parts += [text(x + 12, y + 22 + 18 * i, line, "group" if i == 0 else "note") for i, line in enumerate(lines)]
    return parts, height


def way(points, what="", at=None):
    """A line through points, with a tip at its end, and what goes there."""
    (x1, y1), (x2, y2) = points[-2:]
    length = math.hypot(x2 - x1, y2 - y1)
    dx, dy = (x2 - x1) / length, (y2 - y1) / length
    tip = [(x2, y2), (x2 - 9 * dx - 4 * dy, y2 - 9 * dy + 4 * dx), (x2 - 9 * dx + 4 * dy, y2 - 9 * dy - 4 * dx)]
    parts = [f'<polyline class="way" points="{" ".join(f"{x:.1f},{y:.1f}" for x, y in points)}"/>',
             f'<polygon class="tip" points="{" ".join(f"{x:.1f},{y:.1f}" for x, y in tip)}"/>']
    return parts + ([text(*at, what, "note")] if what else [])


def stacked(title, note, boxes, width, gap):
    """Boxes one below the other with ways between them: the parts, the tops of the boxes, and their heights."""
    parts, y, tops = [text(20, 32, title, "title"), text(20, 54, note, "note")], 78, []
    for kind, lines in boxes:
        drawn, height = box(60, y, width, lines, kind)
        parts += drawn
        tops.append((y, height))
        y += height + gap
    for (y1, height), (y2, _) in zip(tops, tops[1:]):
        parts += way([(60 + width / 2, y1 + height), (60 + width / 2, y2)])
    return parts, tops


def loop():
    """What a program of C with connections of TCP repeats."""
    boxes = [("box", ["sleep", "until a frame comes, or the earlier instant of iface_poll_at and iface_streams_poll_at"]),
             ("own", ["iface_receive", "takes the frame, and writes the one that answers it: send that"]),
             ("own", ["iface_streams_poll", "takes the segments that came, and queues those that are due"]),
             ("box", ["the program's own work",
                      "iface_stream_accept, iface_stream_receive, iface_stream_send, iface_udp_receive, iface_udp_send"]),
             ("own", ["iface_streams_poll", "queues what the program wrote"]),
             ("own", ["iface_next", "writes a frame: send it, and call again until there is none"])]
    title = "The loop of a program with TCP"
    parts, tops = stacked(title, "blue: calls of the library", boxes, 660, 26)
    right, (last, height), (first, _) = 60 + 660, tops[-1], tops[0]
    poll = tops[-2][0]
    again = [(right, last + 18), (right + 40, last + 18), (right + 40, poll + 26), (right, poll + 26)]
    parts += way(again, "frames went", (right + 48, poll + 44))
    parts += way([(60, last + 26), (30, last + 26), (30, first + 26), (60, first + 26)])
    return picture(900, last + height + 24, title, parts, STYLE + BOXES)


def frames():
    """Where a frame goes that comes from the link, and where one comes from that is sent."""
    boxes = [("box", ["the link", "your driver hands over each frame: iface_receive, receive_frame"]),
             ("own", ["guard", "drops claims of own addresses, loops, and what is beyond its rates; all else passes"]),
             ("own", ["interface", "answers ARP, neighbour solicitations and pings; rebuilds fragments; sends errors and resets"]),
             ("own", ["sockets", "UDP by port, ICMP by identifier, raw by protocol, segments by ends: each with two queues"]),
             ("own", ["connections of TCP",
                      "over raw sockets: what arrived in order is read, what is written is sent again until it is acknowledged"]),
             ("box", ["your program", "reads and writes datagrams and octets"])]
    title = "Which frame goes where"
    parts, tops = stacked(title, "down: a frame that comes; right: a frame that is sent", boxes, 660, 26)
    right = 60 + 660
    (link, _), (guard, _), (inside, _), (sockets, _) = tops[:4]
    for start, end, out, what in ((inside + 26, guard + 34, 26, "its answer"), (guard + 18, link + 34, 26, "if a rate allows"),
                                  (sockets + 26, link + 18, 150, "queued packets")):
        parts += way([(right, start), (right + out, start), (right + out, end), (right, end)], what, (right + 34, start - 16))
    y, height = tops[-1]
    return picture(900, y + height + 24, title, parts, STYLE + BOXES)


# ---- a simulation ----

def ladder(printed):
    """The chart of two hosts that a simulation prints, as lines between them: an arrow that arrives, or one that is lost."""
    left, right, top, step = 330, 690, 116, 30
    rows = [re.match(r" *([\d.]+) {5}([*|<])([x<]?)(-+)([>x]?)([*|]) +(.*)$", line) for line in printed.splitlines()]
    rows = [row.groups() for row in rows if row]
    title = "What simulate draws of the script discovery_under_loss"
    bottom = top + step * len(rows)
    parts = [text(20, 32, title, "title"), text(20, 54, "two of five copies are lost: the host asks once a second, until an answer comes", "note"),
             text(left, 84, "host a", "group", "middle"), text(right, 84, "host b", "group", "middle"), text(200, 84, "seconds", "note", "end")]
    parts += [f'<line class="way" x1="{x}" y1="{top - 18}" x2="{x}" y2="{bottom - 6}"/>' for x in (left, right)]
    for i, (at, first, lost_left, _, lost_right, _, what) in enumerate(rows):
        y, (start, end) = top + step * i, (left, right) if first == "*" else (right, left)
        is_lost = "x" in (lost_left, lost_right)
        stop = end + (40 if end < start else -40) if is_lost else end
        parts.append(text(200, y + 4, f"{float(at):.6f}", "axis", "end"))
        parts += way([(start, y), (stop, y)])
        if is_lost:
            parts.append(text(stop + (14 if stop > start else -14), y + 5, "lost", "note", "start" if stop > start else "end"))
        parts.append(text((left + right) / 2, y - 6, what, "value", "middle"))
    return picture(900, bottom + 14, title, parts, STYLE + BOXES)


def pictures():
    """Each picture's name, and what it is."""
    printed = (HERE.parent / "crates" / "simulate" / "data" / "discovery_under_loss.out").read_text(encoding="utf-8")
    page = (HERE / "PERFORMANCE.md").read_text(encoding="utf-8")
    return {"beside_lwip.svg": beside_lwip(page), "by_sockets.svg": by_sockets(page),
            "floods.svg": floods((HERE / "floods.txt").read_text(encoding="utf-8")), "loop.svg": loop(), "frames.svg": frames(),
            "simulation.svg": ladder(printed)}


def problems():
    """Names each picture that isn't as it is drawn."""
    for name, drawn in pictures().items():
        path = HERE / name
        if not path.exists() or path.read_text(encoding="utf-8") != drawn:
            yield f"docs/{name}: it isn't as plots.py draws it"


def main(arguments):
    """Draws the pictures, or compares them."""
    if arguments == ["--check"]:
        found = list(problems())
        print("\n".join(found + [f"pictures: {len(found) or 'no'} problems"]))
        return bool(found)
    for name, drawn in pictures().items():
        (HERE / name).write_text(drawn, encoding="utf-8")
    return False


if __name__ == "__main__":
    sys.exit(main(sys.argv[1:]))
