#!/usr/bin/env python3
"""Draws the lines of a soak (test_soak.py) as a picture.

    python3 tests/soak/picture.py < LINES > PICTURE.svg

A panel each for entries a second, resident memory, open files, processor time and what is not acknowledged, over the
minutes. Lines that are no minute's are passed over. It ends with 1 where there is none.
"""

import html
import math
import sys

WIDTH, LEFT, RIGHT = 760, 90, 20
PANEL, GAP, TOP, BOTTOM = 110, 46, 30, 40
BLUE, ORANGE = "#1f5fa8", "#c8641e"

# Title, unit, and the names of the lines with their colours.
PANELS = [
    ("accepted (blue) and settled (orange)", "entries/s", [("accepted/s", BLUE), ("settled/s", ORANGE)]),
    ("greatest resident memory of the minute", "MB", [("MB", BLUE)]),
    ("most open files of the minute", "count", [("files", BLUE)]),
    ("processor time", "s per million entries", [("cpu_s/M", BLUE)]),
    ("not acknowledged at the end of the minute", "entries", [("unacknowledged", BLUE)]),
]


def read(lines):
    """The minutes, each as names with values."""
    rows = []
    for line in lines:
        words = line.split()
        if len(words) > 2 and words[0] == "minute" and len(words) % 2 == 0:
            rows.append({name: float(value) for name, value in zip(words[::2], words[1::2])})
    return rows


def step_of(most):
    """A round step of which at most five reach a value."""
    power = 10 ** math.floor(math.log10(most / 5))
    return next(step * power for step in (1, 2, 5, 10) if step * power * 5 >= most)


def number(value):
    return f"{value:,.0f}" if value >= 10 or value == int(value) else f"{value:g}"


def text(x, y, words, anchor="start", size=11):
    return f'<text x="{x:.1f}" y="{y:.1f}" text-anchor="{anchor}" font-size="{size}">{html.escape(words)}</text>'


def line(x1, y1, x2, y2, colour):
    return f'<line x1="{x1:.1f}" y1="{y1:.1f}" x2="{x2:.1f}" y2="{y2:.1f}" stroke="{colour}"/>'


class Panel:
    """A panel's place, and where its values lie in it."""

    def __init__(self, rows, top, names):
        self.rows, self.bottom, self.top = rows, top + PANEL, top
        most = max(max(row[name] for row in rows) for name, _ in names) or 1
        self.step = step_of(most)
        self.most = self.step * math.ceil(most / self.step)
        self.last = max(row["minute"] for row in rows)

    def x(self, minute):
        return LEFT + (WIDTH - LEFT - RIGHT) * minute / self.last

    def y(self, value):
        return self.bottom - PANEL * value / self.most

    def axes(self):
        for place in range(round(self.most / self.step) + 1):
            y = self.y(place * self.step)
            yield line(LEFT, y, WIDTH - RIGHT, y, "#ddd" if place else "#444")
            yield text(LEFT - 6, y + 4, number(place * self.step), "end")
        yield line(LEFT, self.top, LEFT, self.bottom, "#444")
        step = max(1, step_of(self.last / 2))
        for place in range(int(self.last / step) + 1):
            x = self.x(place * step)
            yield line(x, self.bottom, x, self.bottom + 4, "#444")
            yield text(x, self.bottom + 16, number(place * step), "middle")

    def curve(self, name, colour):
        points = [(self.x(row["minute"]), self.y(row[name])) for row in self.rows]
        path = " ".join(f"{x:.1f},{y:.1f}" for x, y in points)
        yield f'<polyline points="{path}" fill="none" stroke="{colour}" stroke-width="1.5"/>'
        for x, y in points:
            yield f'<circle cx="{x:.1f}" cy="{y:.1f}" r="1.8" fill="{colour}"/>'


def picture(rows):
    height = TOP + len(PANELS) * (PANEL + GAP) + BOTTOM - GAP
    yield f'<svg xmlns="http://www.w3.org/2000/svg" width="{WIDTH}" height="{height}" font-family="sans-serif">'
    yield f'<rect width="{WIDTH}" height="{height}" fill="white"/>'
    for place, (title, unit, names) in enumerate(PANELS):
        panel = Panel(rows, TOP + place * (PANEL + GAP), names)
        yield text(LEFT, panel.top - 8, f"{title}, {unit}", size=12)
        yield from panel.axes()
        for name, colour in names:
            yield from panel.curve(name, colour)
    yield text((LEFT + WIDTH - RIGHT) / 2, height - 6, "minutes", "middle")
    yield "</svg>"


def main():
    if len(sys.argv) != 1:
        sys.exit(__doc__)
    rows = read(sys.stdin)
    if not rows:
        sys.exit("no line of a minute")
    print("\n".join(picture(rows)))


main()
