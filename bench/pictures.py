#!/usr/bin/env python3
"""Draws docs/hits.svg, docs/requests.svg, docs/growth.svg and docs/far.svg from the data in bench/results. It measures nothing.

    python3 bench/pictures.py [OUT]      OUT is another folder than docs/

Each picture says at its foot which machine and commit its figures are of; `bench/README.md` says how they were measured.
"""
import csv
import math
import os
import sys
import textwrap

TOP = os.path.dirname(os.path.dirname(os.path.abspath(__file__)))
COLOURS = ["#0b6e4f", "#c1666b", "#4062bb", "#8d6a9f"]
WIDE, HIGH, EDGE = 350, 260, 60
TRACES = {
    "zipf": "Zipf, exponent 0.9",
    "scan_zipf": "Zipf, with a scan of all blocks now and then",
    "loop": "a loop over 384 blocks",
    "shift": "Zipf, whose busy blocks move",
}


def data(name):
    """The rows of a data file, and its notes."""
    with open(f"{TOP}/bench/results/{name}.csv", encoding="utf-8", newline="") as file:
        lines = file.readlines()
    notes = [line[1:].strip() for line in lines if line.startswith("#")]
    return list(csv.DictReader(line for line in lines if not line.startswith("#"))), notes


def number(text):
    return float(text.replace(",", ""))


def shown(value):
    return f"{value:,.0f}" if value >= 100 else f"{value:.3g}"


class Panel:
    """A diagram over named places, whose values go from 0, or on a logarithmic scale from a power of ten, up to the most."""

    def __init__(self, place, title, names, most, across, up, least=0.0, cells=False):
        self.left, self.top = place % 2 * WIDE, place // 2 * (HIGH + 14)
        self.names, self.most, self.least, self.cells = names, most, least, cells
        self.parts = [f'<text x="{self.left + EDGE}" y="{self.top + 20}" font-weight="bold">{title}</text>']
        for value in self.ticks():
            y = self.y(value)
            self.parts.append(f'<line x1="{self.left + EDGE}" y1="{y:.1f}" x2="{self.left + WIDE - 10}" y2="{y:.1f}" stroke="#ddd"/>')
            self.parts.append(f'<text x="{self.left + EDGE - 5}" y="{y + 4:.1f}" text-anchor="end">{shown(value)}</text>')
        for i, name in enumerate(names):
            self.parts.append(f'<text x="{self.x(i):.1f}" y="{self.top + HIGH - 14}" text-anchor="middle">{name}</text>')
        middle = self.top + HIGH / 2
        self.parts.append(f'<text x="{self.left + WIDE / 2 + 24}" y="{self.top + HIGH}" text-anchor="middle">{across}</text>')
        self.parts.append(f'<text x="{self.left + 14}" y="{middle}" text-anchor="middle" transform="rotate(-90 {self.left + 14} {middle})">{up}</text>')

    def ticks(self):
        if self.least:
            return [10.0**power for power in range(round(math.log10(self.least)), round(math.log10(self.most)) + 1)]
        return [share * self.most for share in (0, 0.25, 0.5, 0.75, 1)]

    def x(self, place):
        if self.cells:
            return self.left + EDGE + (place + 0.5) * (WIDE - EDGE - 10) / len(self.names)
        return self.left + EDGE + 16 + place * (WIDE - EDGE - 50) / max(1, len(self.names) - 1)

    def y(self, value):
        share = math.log(value / self.least) / math.log(self.most / self.least) if self.least else value / self.most
        return self.top + HIGH - 34 - share * (HIGH - 70)

    def line(self, values, colour):
        points = " ".join(f"{self.x(i):.1f},{self.y(value):.1f}" for i, value in enumerate(values))
        self.parts.append(f'<polyline points="{points}" fill="none" stroke="{colour}" stroke-width="2"/>')
        for point in points.split():
            x, y = point.split(",")
            self.parts.append(f'<circle cx="{x}" cy="{y}" r="2.5" fill="{colour}"/>')

    def bars(self, groups, colours):
        """Bars side by side at each place, one of each group, with their values above them."""
        wide = 0.7 * (WIDE - EDGE - 10) / len(self.names) / len(groups)
        foot = self.y(self.least)
        for i, (values, colour) in enumerate(zip(groups, colours)):
            for place, value in enumerate(values):
                x, y = self.x(place) + (i - len(groups) / 2) * wide, self.y(value)
                self.parts.append(f'<rect x="{x:.1f}" y="{y:.1f}" width="{wide - 2:.1f}" height="{foot - y:.1f}" fill="{colour}"/>')
                self.parts.append(f'<text x="{x + wide / 2 - 1:.1f}" y="{y - 3:.1f}" text-anchor="middle" font-size="9">{shown(value)}</text>')


def drawn(path, panels, legend, notes):
    """Two panels a row, below them what each colour is, and what the figures are of."""
    rows = (len(panels) + 1) // 2
    wide = 2 * WIDE if len(panels) > 1 else WIDE + 60
    foot = rows * (HIGH + 14) + 20
    parts = [part for panel in panels for part in panel.parts]
    x = EDGE
    for name, colour in zip(legend, COLOURS):
        parts.append(f'<rect x="{x}" y="{foot - 9}" width="14" height="10" fill="{colour}"/><text x="{x + 19}" y="{foot}">{name}</text>')
        x += 40 + 6.2 * len(name)
    notes = [line for note in notes for line in textwrap.wrap(note, int(wide / 6.8))]
    for i, note in enumerate(notes):
        parts.append(f'<text x="{EDGE}" y="{foot + 22 + 14 * i}" fill="#555" font-size="10">{note}</text>')
    high = foot + 22 + 14 * len(notes)
    head = f'<svg xmlns="http://www.w3.org/2000/svg" width="{wide}" height="{high}" font-family="sans-serif" font-size="11">'
    with open(path, "w", encoding="utf-8") as file:
        file.write("\n".join([head, f'<rect width="{wide}" height="{high}" fill="white"/>'] + parts + ["</svg>"]) + "\n")


def hits(out):
    """Hit ratios by the size of the cache."""
    rows, notes = data("hits")
    panels = []
    for i, (name, title) in enumerate(TRACES.items()):
        mine = [row for row in rows if row["trace"] == name]
        panel = Panel(i, title, [row["cached"] for row in mine], 1, "blocks cached, of 2,048", "share of reads that hit")
        for kind, colour in zip(("policy", "served", "lru"), COLOURS):
            panel.line([number(row[kind]) for row in mine], colour)
        panels.append(panel)
    drawn(f"{out}/hits.svg", panels, ["TinyLFU, each order at once", "served by wbnbd, one read at a time", "LRU"], notes)


def requests(out):
    """What a request takes beside a plain call, by its size: rows of the table."""
    rows, notes = data("table")
    sizes = ["4 KiB", "32 KiB", "1 MiB"]
    ratio = {row["what"].split(" of ")[0].removesuffix(", us"): number(row["ratio"]) for row in rows if row["row"] == "requests"}
    panels = []
    for i, way in enumerate(("read", "write")):
        panel = Panel(i, f"cached {way}s", sizes, 2, "bytes of a request", f"time, p{way} = 1", cells=True)
        tries = [ratio.get(f"try_{way}, {size}", 0) for size in sizes[:2]]
        panel.bars([[ratio[f"{way}, {size}"] for size in sizes], tries], COLOURS)
        panels.append(panel)
    drawn(f"{out}/requests.svg", panels, ["the call that may wait", "the try that does not wait"], notes[:1])


def growth(out):
    """What openings, ticks and settling take by the size of the cache."""
    rows, notes = data("growth")
    titles = {"settling": ("settling an access", "ns", 200), "opening": ("an opening", "s", 0.6), "tick": ("a tick", "ms", 28)}
    panels = []
    for i, (what, (title, unit, most)) in enumerate(titles.items()):
        mine = [row for row in rows if row["what"] == what]
        panel = Panel(i, title, [row["blocks"] for row in mine], most, "cache blocks, all mapped", unit)
        panel.line([number(row["ours"]) for row in mine], COLOURS[0])
        if all(row["peer"] for row in mine):
            panel.line([number(row["peer"]) for row in mine], COLOURS[1])
        panels.append(panel)
    drawn(f"{out}/growth.svg", panels, ["Raistobe", "the same rules in C"], notes)


def far(out):
    """Requests a second of a far origin, alone and cached."""
    rows, notes = data("far")
    values = [number(row["reads_per_second"]) for row in rows]
    most = 10.0 ** math.ceil(math.log10(max(values) * 1.3))
    panel = Panel(0, "an origin that takes 5 ms a call", [row["how"] for row in rows], most, "reads of 4 KiB, one at a time", "reads a second", 10.0, cells=True)
    panel.bars([values], COLOURS)
    drawn(f"{out}/far.svg", [panel], [], notes)


if __name__ == "__main__":
    folder = sys.argv[1] if len(sys.argv) > 1 else f"{TOP}/docs"
    for picture in (hits, requests, growth, far):
        picture(folder)
