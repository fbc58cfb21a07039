#!/usr/bin/env python3
"""Draws the diagrams of docs/ as SVG, in light and dark.

    diagrams.py [FOLDER]

It writes each diagram to FOLDER, which is docs/ where none is given, and prints its name. The colours follow the reader's colour scheme. It
needs Python alone; the same script always writes the same bytes.
"""
import os
import sys
from html import escape

WIDTH = 700
LIGHT = {
    "page": "#ffffff", "text": "#1f2328", "dim": "#57606a", "line": "#57606a",
    "plain": "#f3f5f8", "fast": "#d9f0df", "slow": "#dde6f5", "meta": "#fdeecb", "bad": "#f9dcdc", "new": "#d9f0df", "old": "#e3e6ea",
}
DARK = {
    "page": "#0d1117", "text": "#e6edf3", "dim": "#a9b4c0", "line": "#8b98a5",
    "plain": "#1b222c", "fast": "#12402a", "slow": "#1b3358", "meta": "#4a3a10", "bad": "#5a2226", "new": "#12402a", "old": "#30363d",
}


def style(colours):
    """The rules of one colour scheme."""
    fills = "".join(f".{name}{{fill:{colour}}}" for name, colour in colours.items() if name not in ("text", "dim", "line"))
    return (fills + f".text{{fill:{colours['text']}}}.dim{{fill:{colours['dim']}}}.edge{{stroke:{colours['line']}}}.head{{fill:{colours['line']}}}")


class Picture:
    """A drawing of the page's width, from top to bottom."""

    def __init__(self, height, title):
        self.height, self.title, self.parts = height, title, []

    def text(self, x, y, words, kind="text", size=14, anchor="middle", weight="normal"):
        """One line of text, whose baseline is at y."""
        self.parts.append(f'<text class="{kind}" x="{x}" y="{y}" font-size="{size}" text-anchor="{anchor}" font-weight="{weight}">{escape(words)}</text>')

    def box(self, x, y, width, height, kind, lines, size=14, dashed=False):
        """A box with lines of text in its middle; the first is bold."""
        dash = ' stroke-dasharray="6 4"' if dashed else ""
        self.parts.append(f'<rect class="{kind} edge" x="{x}" y="{y}" width="{width}" height="{height}" rx="6" stroke-width="1.3"{dash}/>')
        step = size + 4
        top = y + height / 2 - (len(lines) - 1) * step / 2 + size * 0.36
        for number, line in enumerate(lines):
            self.text(x + width / 2, top + number * step, line, size=size if number == 0 else size - 1, weight="bold" if number == 0 and len(lines) > 1 else "normal")

    def arrow(self, points, dashed=False, both=False):
        """A line through points, with a head at its end."""
        dash = ' stroke-dasharray="6 4"' if dashed else ""
        start = ' marker-start="url(#back)"' if both else ""
        path = " ".join(f"{x},{y}" for x, y in points)
        self.parts.append(f'<polyline class="edge" points="{path}" fill="none" stroke-width="1.6"{dash} marker-end="url(#head)"{start}/>')

    def line(self, x1, y1, x2, y2, dashed=False):
        """A line without a head."""
        dash = ' stroke-dasharray="3 4"' if dashed else ""
        self.parts.append(f'<line class="edge" x1="{x1}" y1="{y1}" x2="{x2}" y2="{y2}" stroke-width="1.2"{dash}/>')

    def svg(self):
        """The file's text."""
        return "\n".join([
            f'<svg xmlns="http://www.w3.org/2000/svg" viewBox="0 0 {WIDTH} {self.height}" width="{WIDTH}" height="{self.height}" role="img" aria-label="{escape(self.title)}">',
            f"<title>{escape(self.title)}</title>",
            f"<style>text{{font-family:Helvetica,Arial,'DejaVu Sans',sans-serif}}{style(LIGHT)}@media (prefers-color-scheme:dark){{{style(DARK)}}}</style>",
            '<defs><marker id="head" markerWidth="9" markerHeight="9" refX="7" refY="4" orient="auto"><path class="head" d="M0,0 L8,4 L0,8 z"/></marker>'
            '<marker id="back" markerWidth="9" markerHeight="9" refX="1" refY="4" orient="auto"><path class="head" d="M8,0 L0,4 L8,8 z"/></marker></defs>',
            f'<rect class="page" x="0" y="0" width="{WIDTH}" height="{self.height}"/>',
            *self.parts,
            "</svg>",
            "",
        ])


def devices():
    """Clients, the program, and the three devices."""
    p = Picture(470, "Clients, one program, and the three devices")
    p.box(170, 14, 360, 44, "plain", ["a file system, a virtual machine, a script"])
    p.arrow([(350, 58), (350, 92)], both=True)
    p.text(362, 80, "reads, writes, flushes", "dim", 13, "start")
    p.box(20, 94, 660, 196, "page", [""])
    p.text(34, 114, "wbnbd, or wbcache run", "text", 14, "start", "bold")
    p.box(40, 126, 190, 66, "plain", ["client threads", "up to 64; sectors move", "without a mutex"])
    p.box(255, 126, 190, 66, "plain", ["block words, in memory", "3 for each block:", "lock, seal, number"])
    p.box(470, 126, 190, 66, "plain", ["worker", "carries out orders,", "ticks"])
    p.box(255, 218, 190, 58, "plain", ["desk, under one lock", "mapping, orders, policy"])
    p.arrow([(230, 159), (253, 159)], both=True)
    p.arrow([(470, 159), (447, 159)], both=True)
    p.arrow([(135, 192), (135, 247), (253, 247)])
    p.text(144, 240, "accesses,", "dim", 13, "start")
    p.text(144, 262, "flushes", "dim", 13, "start")
    p.arrow([(445, 247), (565, 247), (565, 194)])
    p.text(455, 240, "orders", "dim", 13, "start")
    p.box(40, 374, 180, 80, "meta", ["metadata device", "which block is where;", "two roots, a tree"])
    p.box(255, 374, 160, 80, "fast", ["cache device", "small and fast;", "copies of busy blocks"])
    p.box(450, 374, 210, 80, "slow", ["origin device", "big and slow;", "the disk that clients see"])
    p.arrow([(110, 290), (110, 372)])
    p.text(120, 336, "commits", "dim", 13, "start")
    p.arrow([(310, 290), (310, 372)], both=True)
    p.text(320, 336, "cached blocks", "dim", 13, "start")
    p.arrow([(590, 290), (590, 372)], both=True)
    p.text(580, 336, "all other blocks", "dim", 13, "end")
    return p


def cache_block():
    """The states of a cache block."""
    p = Picture(330, "The states of a cache block")
    p.box(30, 60, 130, 56, "plain", ["free"], 15)
    p.box(285, 60, 130, 56, "meta", ["reserved", "by a live order"], 15)
    p.box(540, 60, 130, 56, "fast", ["mapped", "has an entry"], 15)
    p.box(285, 230, 130, 64, "bad", ["quarantined", "a crash may", "need it"], 15)
    p.arrow([(160, 76), (283, 76)])
    p.text(222, 68, "an order is given", "dim", 13)
    p.arrow([(285, 102), (162, 102)])
    p.text(222, 120, "it is given up", "dim", 13)
    p.arrow([(415, 88), (538, 88)])
    p.text(477, 62, "block copied,", "dim", 13)
    p.text(477, 79, "then mapped", "dim", 13)
    p.arrow([(605, 116), (605, 262), (417, 262)])
    p.text(598, 200, "the block is removed", "dim", 13, "end")
    p.arrow([(285, 262), (95, 262), (95, 118)])
    p.text(104, 200, "a commit that began", "dim", 13, "start")
    p.text(104, 217, "after the removal ends", "dim", 13, "start")
    p.arrow([(350, 230), (350, 118)], dashed=True)
    p.text(358, 158, "the same, where a", "dim", 13, "start")
    p.text(358, 175, "replacement waits", "dim", 13, "start")
    p.text(350, 28, "One cache block, from free to mapped and back", "text", 15, weight="bold")
    return p


def request():
    """The steps of a write."""
    p = Picture(312, "The steps of a write to a cached block, in write-back")
    p.text(350, 26, "The steps of a write to a cached block, in write-back", "text", 15, weight="bold")
    rows = [
        [("look", ["fail word:", "is it 0?"], "plain"), ("look", ["lock word:", "is it free?"], "plain"), ("exchange", ["lock word:", "own the block"], "meta"), ("look", ["seal: where,", "is it dirty?"], "plain"), ("look", ["number of", "writes"], "plain")],
        [("store", ["seal: dirty,", "if it was clean"], "meta"), ("write", ["the sectors", "in the cache"], "fast"), ("add", ["number: one", "write more"], "meta"), ("add", ["statistics:", "a write hit"], "meta"), ("release", ["lock word;", "answer"], "meta")],
    ]
    for row, steps in enumerate(rows):
        y = 46 + row * 108
        for number, (name, lines, kind) in enumerate(steps):
            x = 18 + number * 136
            p.box(x, y, 118, 76, kind, [name, *lines])
            if number < 4:
                p.arrow([(x + 118, y + 38), (x + 135, y + 38)])
    p.arrow([(621, 122), (621, 138), (77, 138), (77, 152)])
    for x, kind, words in ((40, "plain", "a look at a word"), (250, "meta", "a change of a word"), (470, "fast", "a step on a device")):
        p.box(x, 270, 18, 18, kind, [""])
        p.text(x + 26, 284, words, "text", 13, "start")
    return p


def layout():
    """The metadata device between two commits."""
    p = Picture(440, "The metadata device while commit 8 is written")
    p.text(350, 26, "The metadata device, one box a sector; commit 8 changes the leaf B", "text", 15, weight="bold")
    cells = [("slot 0", "root 8", "new"), ("slot 1", "root 7", "old"), ("2", "top T", "old"), ("3", "leaf A", "slow"), ("4", "leaf B", "old"), ("5", "leaf B'", "new"), ("6", "top T'", "new"), ("7", "free", "page")]
    for number, (place, what, kind) in enumerate(cells):
        x = 22 + number * 82
        p.text(x + 41, 56, place, "dim", 13)
        p.box(x, 64, 82, 44, kind, [what])
    p.box(110, 150, 150, 50, "old", ["root 7, slot 1", "generation 7"])
    p.box(440, 150, 150, 50, "new", ["root 8, slot 0", "generation 8"])
    p.box(110, 240, 150, 44, "old", ["top T, place 2"])
    p.box(440, 240, 150, 44, "new", ["top T', place 6"])
    p.box(30, 330, 150, 44, "old", ["leaf B, place 4"])
    p.box(275, 330, 150, 44, "slow", ["leaf A, place 3"])
    p.box(520, 330, 150, 44, "new", ["leaf B', place 5"])
    p.arrow([(185, 200), (185, 238)])
    p.arrow([(515, 200), (515, 238)])
    p.arrow([(160, 284), (115, 328)])
    p.arrow([(215, 284), (325, 328)])
    p.arrow([(485, 284), (375, 328)])
    p.arrow([(540, 284), (585, 328)])
    p.box(60, 398, 18, 18, "old", [""])
    p.text(86, 412, "old tree alone", "text", 13, "start")
    p.box(260, 398, 18, 18, "slow", [""])
    p.text(286, 412, "in both trees", "text", 13, "start")
    p.box(450, 398, 18, 18, "new", [""])
    p.text(476, 412, "written by commit 8", "text", 13, "start")
    return p


def commit():
    """The steps of a commit, and what a crash leaves at each."""
    rows = [
        ("1", "sync the cache", "fast", "old"),
        ("2", "sync the origin", "slow", "old"),
        ("3", "write each changed node to a free place", "meta", "old"),
        ("4", "sync the metadata", "meta", "old"),
        ("5", "write the root into the other slot", "meta", "both"),
        ("6", "sync the metadata", "meta", "new"),
        ("7", "end the commit at the desk; answer the flush", "plain", "new"),
    ]
    says = {"old": "the old mapping", "both": "the old mapping or the new", "new": "the new mapping"}
    height = 78 + len(rows) * 50
    p = Picture(height + 16, "The steps of a commit, and what a crash leaves")
    p.text(28, 30, "Step", "text", 15, "start", "bold")
    p.text(456, 30, "A crash after it leaves", "text", 15, "start", "bold")
    for number, (step, what, kind, left) in enumerate(rows):
        y = 46 + number * 50
        p.box(24, y, 390, 38, kind, [f"{step}. {what}"])
        p.box(452, y, 226, 38, {"old": "old", "both": "bad", "new": "new"}[left], [says[left]])
        if number + 1 < len(rows):
            p.arrow([(219, y + 38), (219, y + 49)])
    p.text(350, height - 4, "Before step 5 no sector changes that the old root reaches.", "dim", 14)
    return p


def flushes():
    """Three flushes that are served by two commits."""
    p = Picture(330, "Three flushes, two commits")
    p.text(350, 26, "Three flushes, two commits", "text", 15, weight="bold")
    for number, name in enumerate(("flush A", "flush B", "flush C")):
        y = 62 + number * 76
        p.text(20, y + 27, name, "text", 14, "start", "bold")
        p.line(84, y + 22, 676, y + 22, dashed=True)
    p.line(328, 44, 328, 276, dashed=True)
    p.line(558, 44, 558, 276, dashed=True)
    p.box(100, 64, 226, 42, "fast", ["A leads commit 1"])
    p.text(338, 80, "A is answered", "dim", 13, "start")
    p.box(180, 140, 146, 42, "page", ["ticket 2, waits"], dashed=True)
    p.box(330, 140, 226, 42, "fast", ["B leads commit 2"])
    p.text(566, 156, "B is answered", "dim", 13, "start")
    p.box(250, 216, 306, 42, "page", ["ticket 2, waits for commit 2"], dashed=True)
    p.text(566, 232, "C is served", "dim", 13, "start")
    p.arrow([(84, 290), (676, 290)])
    p.text(676, 282, "time", "dim", 13, "end")
    p.text(328, 312, "commit 1 ends", "dim", 13)
    p.text(558, 312, "commit 2 ends", "dim", 13)
    return p


def opening():
    """The steps of an opening."""
    p = Picture(300, "The steps of an opening")
    steps = [("1. sync", ["metadata, cache,", "origin"], "plain"), ("2. read", ["both slots,", "the newest tree"], "meta"), ("3. build", ["mapping, seals,", "policy"], "plain"), ("4. write", ["root: next number,", "not clean; sync"], "meta")]
    for number, (name, lines, kind) in enumerate(steps):
        x = 18 + number * 172
        p.box(x, 40, 148, 76, kind, [name, *lines])
        if number < 3:
            p.arrow([(x + 148, 78), (x + 171, 78)])
    p.text(350, 24, "An opening", "text", 15, weight="bold")
    p.arrow([(240, 116), (190, 176)])
    p.text(202, 146, "clean flag set", "dim", 13, "end")
    p.arrow([(290, 116), (440, 176)])
    p.text(384, 146, "clean flag not set", "dim", 13, "start")
    p.box(18, 178, 316, 92, "fast", ["the cache was suspended", "dirty: the blocks with a dirty bit", "hints: as stored"])
    p.box(366, 178, 316, 92, "bad", ["after a crash", "dirty: each mapped block", "hints: none; passthrough is refused"])
    return p


def proof():
    """What the promises rest on."""
    p = Picture(452, "What the promises rest on")
    p.text(180, 26, "The model", "text", 15, weight="bold")
    p.text(520, 26, "The code", "text", 15, weight="bold")
    p.box(30, 40, 300, 52, "meta", ["promises 1, 2: every run", "wb_promise, wb_headline, wb_examples"])
    p.box(30, 120, 300, 52, "plain", ["each step, followed", "wb_simulation, wb_refines, wb_runs"])
    p.box(30, 200, 300, 52, "plain", ["an abstract world; contents", "wb_link, wb_contents"])
    p.box(370, 40, 300, 52, "meta", ["promises 10, 12: programs", "wbnbd, wbmeta, wb_nbd, wb_opened"])
    p.box(370, 120, 300, 52, "meta", ["promises 4, 5, 7, 8: the target", "wb_target, wb_port, wb_stage, wb_devices"])
    p.box(370, 200, 300, 52, "meta", ["6, 9, 11: words, desk, policy", "wb_cells, wb_desk, wb_policy"])
    p.box(30, 298, 640, 52, "new", ["both: step tables, meaning of the block words, promise 3 (metadata), disk rules", "wb_tasks, wb_words, wb_meta, wb_tree, wb_disk: trait Disk"])
    p.box(30, 378, 640, 52, "bad", ["assumed, not proved", "files keep the disk rules; atomic_table, compiler, library"])
    for x in (180, 520):
        p.arrow([(x, 92), (x, 118)])
        p.arrow([(x, 172), (x, 198)])
        p.arrow([(x, 252), (x, 296)])
    p.arrow([(350, 350), (350, 376)])
    p.line(350, 36, 350, 250, dashed=True)
    p.text(350, 266, "not proved, but tested: that the threads", "dim", 13)
    p.text(350, 283, "of a program are a run of the model", "dim", 13)
    return p


PICTURES = {"devices": devices, "request": request, "cache-block": cache_block, "layout": layout, "commit": commit, "flushes": flushes, "opening": opening, "proof": proof}


def main():
    folder = sys.argv[1] if len(sys.argv) > 1 else os.path.join(os.path.dirname(os.path.dirname(os.path.abspath(__file__))), "docs")
    for name, draw in PICTURES.items():
        with open(os.path.join(folder, f"{name}.svg"), "w", encoding="utf-8") as file:
            file.write(draw().svg())
        print(f"{name}.svg")


if __name__ == "__main__":
    main()
