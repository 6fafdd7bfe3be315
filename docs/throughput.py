#!/usr/bin/env python3
"""Draws the throughput of a connection over the loss of its link, beside the formula of Mathis, Semke, Mahdavi and Ott ("The
macroscopic behavior of the TCP congestion avoidance algorithm", 1997): MSS / RTT * C / sqrt(loss), where C is sqrt(3/2) if each
segment is acknowledged, and sqrt(3/4) if each second one is.

usage: throughput.py NUMBERS > PICTURE.svg
       throughput.py --test                     tests itself, over made numbers

NUMBERS has words in lines; what follows '#' is left out:

    mss 1460           octets of a full segment
    rtt 50000          the time there and back, in microseconds
    each 2             a segment of so many is acknowledged: 1 or 2; 2 if it isn't told
    0.5 1250000        of a loss of 0.5 %, a measured throughput in octets a second; any number of lines, in any order
"""
import math
import pathlib
import sys

from plots import picture, text

WIDTH, HEIGHT, LEFT, APART, RIGHT, TOP, BOTTOM = 900, 500, 80, 220, 60, 96, 70


class Bad(Exception):
    """The numbers can't be read."""


def read(lines):
    """The settings of a file of numbers, and for each loss in percent its throughputs, by the loss."""
    settings, measured = {"each": 2.0}, {}
    for place, line in enumerate(lines, 1):
        words = line.split("#")[0].split()
        if not words:
            continue
        try:
            name, value = words
            if name in ("mss", "rtt", "each"):
                settings[name] = float(value)
            else:
                measured.setdefault(float(name), []).append(float(value))
        except ValueError:
            raise Bad(f"line {place}: {line.strip()}") from None
    if not {"mss", "rtt"} <= settings.keys() or settings["each"] not in (1, 2):
        raise Bad("mss and rtt have to be told, and 'each' is 1 or 2")
    if min(settings.values()) <= 0 or not all(0 <= loss < 100 and min(found) > 0 for loss, found in measured.items()):
        raise Bad("a loss is from 0 to 100, and everything else above 0")
    if sum(loss > 0 for loss in measured) < 2:
        raise Bad("there are fewer than two losses above 0")
    return settings, dict(sorted(measured.items()))


def formula(settings, loss):
    """The throughput of a loss in percent, in octets a second; none without loss."""
    if loss == 0:
        return None
    return settings["mss"] / (settings["rtt"] * 1e-6) * math.sqrt(3 / (2 * settings["each"])) / math.sqrt(loss / 100)


def means(measured):
    return {loss: sum(found) / len(found) for loss, found in measured.items()}


class Scale:
    """Places in the picture: losses across and bits a second up, both by their logarithm; no loss stands apart at the left."""

    def __init__(self, settings, measured):
        self.losses = [loss for loss in measured if loss > 0]
        values = [value for found in measured.values() for value in found]
        values += [formula(settings, loss) for loss in self.losses]
        self.low, self.high = math.floor(math.log10(8 * min(values))), math.ceil(math.log10(8 * max(values)))
        self.high += self.high == self.low

    def across(self, loss):
        if loss == 0:
            return LEFT + 40
        least, most = math.log(self.losses[0]), math.log(self.losses[-1])
        return APART + (WIDTH - RIGHT - APART) * (math.log(loss) - least) / (most - least)

    def down(self, value):
        return HEIGHT - BOTTOM - (HEIGHT - TOP - BOTTOM) * (math.log10(8 * value) - self.low) / (self.high - self.low)


def shown(value):
    """Octets a second as bits a second."""
    for unit, name in ((1e9, "Gbit/s"), (1e6, "Mbit/s"), (1e3, "kbit/s")):
        if 8 * value >= unit:
            return f"{8 * value / unit:.3g} {name}"
    return f"{8 * value:.3g} bit/s"


def line(scale, points, kind, dashes=""):
    path = " ".join(f"{scale.across(loss):.1f},{scale.down(value):.1f}" for loss, value in points)
    return f'<polyline class="line {kind}"{dashes} points="{path}"/>'


def draw(settings, measured):
    scale, title = Scale(settings, measured), "Throughput over loss"
    each, factor = ("each segment", "√(3/2)") if settings["each"] == 1 else ("each second segment", "√(3/4)")
    parts = [
        text(20, 32, title, "title"),
        text(20, 54, f"MSS {settings['mss']:g} octets, round trip {settings['rtt'] / 1000:g} ms, {each} acknowledged", "note"),
        '<rect class="p0" x="20" y="66" width="14" height="4"/>', text(40, 73, "measured"),
        '<rect class="p1" x="140" y="66" width="14" height="4"/>', text(160, 73, f"Mathis et al., 1997, by C = {factor}"),
    ]
    for power in range(scale.low, scale.high + 1):
        y = scale.down(10.0**power / 8)
        parts.append(f'<line class="grid" x1="{LEFT}" y1="{y:.1f}" x2="{WIDTH - RIGHT}" y2="{y:.1f}"/>')
        parts.append(text(LEFT - 8, y + 4, shown(10.0**power / 8), "axis", "end"))
    for loss in measured:
        parts.append(text(scale.across(loss), HEIGHT - BOTTOM + 22, f"{loss:g}", "axis", "middle"))
    parts.append(text((LEFT + WIDTH - RIGHT) / 2, HEIGHT - 16, "loss in percent, by its logarithm; no loss stands apart", "axis", "middle"))
    # By logarithms the formula is a straight line.
    parts.append(line(scale, [(loss, formula(settings, loss)) for loss in (scale.losses[0], scale.losses[-1])], "c1",
                      ' stroke-dasharray="6 4"'))
    parts.append(line(scale, [(loss, means(measured)[loss]) for loss in scale.losses], "c0"))
    for loss, found in measured.items():
        parts += [f'<circle class="p0" cx="{scale.across(loss):.1f}" cy="{scale.down(value):.1f}" r="4"/>' for value in found]
        parts.append(text(scale.across(loss), scale.down(max(found)) - 10, shown(means(measured)[loss]), "value", "middle"))
    return picture(WIDTH, HEIGHT, title, parts)


def test():
    """Over numbers that are made by the formula, so that each point has to stand on its curve."""
    made = {"mss": 1460.0, "rtt": 100_000.0, "each": 1.0}
    # 1460 / 0.1 s * 1.224745 / 0.1 = 178,813 octets a second at 1 %; half of that at 4 %
    assert round(formula(made, 1)) == 178_813 and round(2 * formula(made, 4)) == 178_813
    assert formula(made, 0) is None
    assert math.isclose(formula({**made, "each": 2.0}, 1) * math.sqrt(2), formula(made, 1))
    lines = ["# made", "mss 1460", "rtt 100000 # 100 ms", "each 1", "", "4 89406", "0 1000000", "1 170000", "1 187626", "2 126440"]
    settings, measured = read(lines)
    assert settings == made and list(measured) == [0, 1, 2, 4] and measured[1] == [170_000, 187_626]
    assert means(measured) == {0: 1_000_000, 1: 178_813, 2: 126_440, 4: 89_406}
    scale = Scale(settings, measured)
    assert (scale.low, scale.high) == (5, 7)
    assert scale.down(1.25e6) == TOP and scale.down(1.25e4) == HEIGHT - BOTTOM and scale.down(1.25e5) == (TOP + HEIGHT - BOTTOM) / 2
    assert scale.across(1) == APART and scale.across(4) == WIDTH - RIGHT and scale.across(2) == (APART + WIDTH - RIGHT) / 2
    drawn = draw(settings, measured)
    line_of, points = (drawn.split(f'class="line {kind}"')[1].split('points="')[1].split('"')[0].split() for kind in ("c1", "c0"))
    assert len(line_of) == 2 and len(points) == 3 and drawn.count("<circle") == 5
    assert line_of == [points[0], points[2]], "a point by the formula isn't on its line"
    (_, begin), (_, middle), (_, end) = (map(float, point.split(",")) for point in points)
    assert abs(begin + end - 2 * middle) < 0.2, "points by the formula aren't on one line"
    for bad in (["mss 1460"], lines[:4] + ["0 5", "1 5"], lines + ["5"], lines + ["x 1"], lines + ["100 1"], lines + ["1 0"],
                ["mss 0"] + lines[2:], lines + ["each 3"]):
        try:
            read(bad)
        except Bad:
            continue
        raise AssertionError(f"read without a complaint: {bad}")
    print("throughput.py: the formula, the scale, the points and eight refusals are as they have to be")


def main():
    if sys.argv[1:] == ["--test"]:
        test()
    elif len(sys.argv) == 2:
        try:
            sys.stdout.write(draw(*read(pathlib.Path(sys.argv[1]).read_text(encoding="utf-8").splitlines())))
        except Bad as error:
            sys.exit(f"throughput.py: {error}")
    else:
        sys.exit(__doc__)


if __name__ == "__main__":
    main()
