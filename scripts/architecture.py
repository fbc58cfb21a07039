#!/usr/bin/env python3
"""Draws docs/architecture.svg: the floors of crates, and the way of a request and of an order through them.

    python3 scripts/architecture.py [FILE]
"""
import sys

WIDE, HIGH = 700, 552
BOX = 24
STYLE = """
.page { fill: #ffffff; } .floor { fill: #f1f4f8; stroke: #c3ccd8; } .box { fill: #ffffff; stroke: #5b6b80; }
.lock { fill: #fdf3dc; stroke: #b07d10; } .name { fill: #14202e; } .note { fill: #4a5868; } .label { fill: #14202e; font-weight: bold; }
.request { stroke: #1463b8; } .order { stroke: #b3471d; } .requesttext { fill: #1463b8; } .ordertext { fill: #b3471d; }
@media (prefers-color-scheme: dark) {
.page { fill: #10161d; } .floor { fill: #1b242f; stroke: #3d4b5c; } .box { fill: #25313e; stroke: #8fa3ba; }
.lock { fill: #3d3317; stroke: #d9a83a; } .name { fill: #eef3f8; } .note { fill: #b4c0cd; } .label { fill: #eef3f8; }
.request { stroke: #6db3f8; } .order { stroke: #f2966b; } .requesttext { fill: #6db3f8; } .ordertext { fill: #f2966b; }
}
"""

# What a floor is called, where it begins and ends, and its rows: how far down, and the crates with their places and widths.
FLOORS = [
    ("programs", 10, 48, [(22, [("wbcache", 120, 110), ("wbnbd", 250, 110), ("wbmeta", 380, 110)])]),
    ("texts, NBD", 66, 80, [
        (78, [("wb_script", 120, 110), ("wb_play", 250, 110), ("wb_dialogue", 380, 110)]),
        (108, [("wb_nbd", 120, 110), ("wb_services", 250, 110), ("wb_lanes", 380, 110)]),
    ]),
    ("opening", 154, 48, [(166, [("wb_opened", 120, 84), ("wb_checks", 216, 84), ("wb_files", 312, 84), ("wb_table", 408, 82)])]),
    ("target", 210, 48, [(222, [("wb_target", 120, 370)])]),
    ("steps", 284, 48, [(296, [("wb_port", 120, 84), ("wb_stage", 216, 84), ("wb_devices", 312, 84), ("wb_tasks", 404, 52), ("wb_flow", 460, 44)])]),
    ("state", 358, 108, [
        (370, [("wb_cells", 120, 84), ("wb_desk", 216, 84), ("wb_disk", 312, 84), ("wb_meta", 408, 82)]),
        (400, [("wb_words", 120, 84), ("wb_policy", 216, 84), ("wb_format", 312, 84), ("wb_tree", 408, 82)]),
        (430, [("wb_sketch", 120, 84), ("wb_orders", 216, 84), ("wb_space", 312, 84), ("wb_dirty", 408, 82)]),
    ]),
    ("numbers", 474, 48, [(486, [("wb_types", 120, 84), ("wb_bits", 216, 84)])]),
]

# Beside the floors: what states and proves the promise, and what runs it one step at a time.
PROOFS = [
    ("run one step at a time", ["wb_replay", "wb_lines", "wb_world", "wb_machine"]),
    ("prove the promise", ["wb_headline", "wb_simulation", "wb_refines", "wb_link", "wb_contents", "wb_runs", "wb_examples"]),
    ("state the promise", ["wb_promise"]),
]

# A way: its class, its points, and what is written at its end.
WAYS = [
    ("request", [(104, 58), (104, 234), (118, 234)]),
    ("request", [(150, 246), (150, 294)]),
    ("request", [(150, 320), (150, 368)]),
    ("request", [(182, 320), (182, 342), (336, 342), (336, 368)]),
    ("order", [(499, 58), (499, 234), (492, 234)]),
    ("order", [(258, 246), (258, 294)]),
    ("order", [(258, 320), (258, 368)]),
    ("order", [(354, 246), (354, 294)]),
    ("order", [(372, 320), (372, 368)]),
]


def text(x, y, kind, what, size=12, anchor="start"):
    return f'<text x="{x}" y="{y}" class="{kind}" font-size="{size}" text-anchor="{anchor}">{what}</text>'


def box(name, x, y, wide, kind="box"):
    return [
        f'<rect x="{x}" y="{y}" width="{wide}" height="{BOX}" rx="4" class="{kind}"/>',
        text(x + wide / 2, y + 16, "name", name, 12 if wide > 70 else 10.5, "middle"),
    ]


def drawn():
    out = [
        f'<svg xmlns="http://www.w3.org/2000/svg" viewBox="0 0 {WIDE} {HIGH}" width="{WIDE}" height="{HIGH}" font-family="sans-serif">',
        f"<title>The crates of Raistobe, floor by floor</title><style>{STYLE}</style>",
        '<defs><marker id="q" viewBox="0 0 8 8" refX="7" refY="4" markerWidth="7" markerHeight="7" orient="auto"><path d="M0 0L8 4L0 8z" class="requesttext"/></marker>',
        '<marker id="o" viewBox="0 0 8 8" refX="7" refY="4" markerWidth="7" markerHeight="7" orient="auto"><path d="M0 0L8 4L0 8z" class="ordertext"/></marker></defs>',
        f'<rect width="{WIDE}" height="{HIGH}" class="page"/>',
    ]
    for name, top, high, rows in FLOORS:
        out.append(f'<rect x="8" y="{top}" width="500" height="{high}" rx="6" class="floor"/>')
        out.append(text(16, top + 18, "label", name))
        for y, boxes in rows:
            for crate, x, wide in boxes:
                out += box(crate, x, y, wide, "lock" if crate == "wb_desk" else "box")
    out.append(text(16, 400, "note", "yellow: under", 11))
    out.append(text(16, 414, "note", "the target's lock", 11))
    y = 10
    out.append(f'<rect x="520" y="10" width="172" height="512" rx="6" class="floor"/>')
    for name, crates in PROOFS:
        out.append(text(530, y + 20, "label", name))
        y += 30
        for crate in crates:
            out += box(crate, 540, y, 132)
            y += 30
        y += 16
    for kind, points in WAYS:
        mark = "q" if kind == "request" else "o"
        way = " ".join(f"{x},{y}" for x, y in points)
        out.append(f'<polyline points="{way}" fill="none" stroke-width="2" class="{kind}" marker-end="url(#{mark})"/>')
    out.append(text(16, 541, "requesttext", "blue: a read or a write"))
    out.append(text(230, 541, "ordertext", "orange: a promotion or a flush (desk under the lock)"))
    return "\n".join(out + ["</svg>"]) + "\n"


if __name__ == "__main__":
    with open(sys.argv[1] if len(sys.argv) > 1 else "docs/architecture.svg", "w") as file:
        file.write(drawn())
