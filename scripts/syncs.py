#!/usr/bin/env python3
"""Which files a line of a script writes and syncs, as the library of the weather notes it: a sync that has nothing to make durable is left out.

    syncs.py WBCACHE

A row is a mode, the lines before, the line that is looked at (the opening, where there is none), and what it does to the files: `w` or `s` and the
first letter of a file's name, in order; writes of one file in a row count as one. Where there is no mode, it is formatting that is looked at. It prints what failed, and at the end 'N passed, N failed'.
"""
import os
import sys
import tempfile

import weather_base as base
from weather_base import PROGRAMS, Wrong, need

# Blocks 0, 1 and 2 are cached, and the cache is clean; sectors 192 and 256 lie in blocks that are not. The opening syncs all files, of which nothing is known.
ROOT = "wm sm"
ROWS = [
    ("nothing is known of the files at first", "writeback", [], None, f"sm sc so {ROOT}"),
    ("nothing was written since", "writeback", [], "flush", ROOT),
    ("nor before the second", "writeback", ["flush"], "flush", ROOT),
    ("a cached block was written", "writeback", ["w 0 1 22"], "flush", f"sc {ROOT}"),
    ("two were", "writeback", ["w 0 1 22", "w 64 1 33"], "flush", f"sc {ROOT}"),
    ("and flushed before", "writeback", ["w 0 1 22", "flush"], "flush", ROOT),
    ("what was read does not count", "writeback", ["r 0 1", "r 192 1"], "flush", ROOT),
    ("a write past the cache", "writeback", ["w 192 1 22"], "flush", f"so {ROOT}"),
    ("one past it and one into it", "writeback", ["w 192 1 22", "w 0 1 33"], "flush", f"sc so {ROOT}"),
    ("a block was promoted", "writeback", ["r 192 1", "r 192 1", "work"], "flush", f"sc wm sm {ROOT}"),
    ("a durable write of a cached block", "writeback", [], "wf 0 1 22", f"wc sc {ROOT}"),
    ("and one more", "writeback", ["wf 0 1 22"], "wf 0 1 33", f"wc sc {ROOT}"),
    ("a durable write past the cache", "writeback", [], "wf 192 1 22", f"wo so {ROOT}"),
    ("another client wrote", "writeback", ["@1 w 0 1 22", "join"], "flush", f"sc {ROOT}"),
    ("and flushed", "writeback", ["@1 w 0 1 22", "@1 flush", "join"], "flush", ROOT),
    ("a write in write-through", "writethrough", ["w 0 1 22"], "flush", f"sc so {ROOT}"),
    ("and none since", "writethrough", ["w 0 1 22", "flush"], "flush", ROOT),
    ("a write in passthrough", "passthrough", ["w 192 1 22"], "flush", f"so {ROOT}"),
    ("one by which a block leaves the cache", "passthrough", ["w 0 1 22"], "flush", f"so wm sm {ROOT}"),
    ("formatting: no old root is left before the new one is written", None, [], None, f"wm sm {ROOT}"),
]


def noted(mode, lines):
    """The writes and syncs of a run of these lines, in order."""
    base.restore()
    return steps_of(["run", base.table(mode)], "".join(f"{line}\n" for line in lines))


def steps_of(words, script=""):
    """The writes and syncs of a call, in order."""
    if os.path.exists("journal"):
        os.remove("journal")
    status, told, said, _ = base.run(PROGRAMS.cache, words, script, {"WEATHER_JOURNAL": os.path.abspath("journal")})
    need(status == 0, f"status {status}: {told} {said}")
    steps, at = [], 0
    with open("journal", "rb") as file:
        text = file.read()
    while at < len(text):
        kind, device = text[at : at + 2].decode()
        at += 18 + int.from_bytes(text[at + 10 : at + 18], "little")
        # Where a sync begins, and what was answered, is noted too, and not looked at here.
        if kind in "ws":
            steps.append(kind + device)
    return steps


def check(name, mode, before, line, wanted):
    if mode is None:
        start, whole = [], steps_of(["format", base.table("writeback")])
    else:
        start, whole = ([], noted(mode, [])) if line is None else (noted(mode, before), noted(mode, before + [line]))
    need(whole[: len(start)] == start, f"{name}: it begins otherwise")
    steps = whole[len(start) :]
    seen = " ".join(step for i, step in enumerate(steps) if step[0] == "s" or i == 0 or steps[i - 1] != step)
    need(seen == wanted, f"{name}: {line!r} behind {before} does {seen!r}, where {wanted!r} was expected")


def main():
    PROGRAMS.cache = os.path.abspath(sys.argv[1])
    failed = 0
    with tempfile.TemporaryDirectory() as folder:
        os.chdir(folder)
        PROGRAMS.weather = base.build(folder)
        if PROGRAMS.weather is None:
            print("not tried: there is no C compiler, by which the calls are noted")
            print("0 passed, 0 failed")
            return
        base.prepare()
        for row in ROWS:
            try:
                check(*row)
            except Wrong as wrong:
                print(f"failed: {wrong}")
                failed += 1
        os.chdir("/")
    print(f"{len(ROWS) - failed} passed, {failed} failed")
    sys.exit(failed > 0)


main()
