#!/usr/bin/env python3
"""Measures what the looks at a clean cache cost: bench/results/looks.csv.

    python3 bench/looks.py WBCACHE WBMETA WB_BENCH

An opening of 1,048,575 mapped blocks with the sample of blocks that is compared first, and without (`--no-verify`); and `wbmeta verify` of 1 GiB that is all
cached, beside `cmp` of the same bytes. Files are in memory (/dev/shm); the two of a row alternate; medians of TURNS (7) turns.
"""
import os
import shutil
import sys
import tempfile

from rows import BLOCK, alternated, fill, machine, make_full, printed, seconds_of, table_of

LARGE, COMPARED = (1 << 20) - 1, 32768


def opening(cache, bench, work):
    """An opening with the sample, and one without."""
    make_full(bench, work, LARGE)
    shutil.copy(f"{work}/m.img", f"{work}/kept")

    def opened(*words):
        shutil.copy(f"{work}/kept", f"{work}/m.img")
        return seconds_of(cache, "run", *words, table_of(work))

    return alternated(ours=opened, peer=lambda: opened("--no-verify"))


def comparison(meta, bench, work):
    """A comparison of all blocks, and one by cmp."""
    make_full(bench, work, COMPARED)
    fill(f"{work}/c.img")
    shutil.copy(f"{work}/c.img", f"{work}/o.img")
    os.truncate(f"{work}/o.img", BLOCK << 20)
    size = COMPARED * BLOCK
    printed(meta, "verify", table_of(work))
    return alternated(ours=lambda: seconds_of(meta, "verify", table_of(work)), peer=lambda: seconds_of("cmp", "-n", size, f"{work}/c.img", f"{work}/o.img"))


def main():
    cache, meta, bench = (os.path.abspath(word) for word in sys.argv[1:4])
    print(f"# {machine()}\nwhat,ours,peer,ratio,aim")
    rows = (("an opening of 1048575 blocks in s; without the sample", lambda work: opening(cache, bench, work), "at most 1.05"),
            ("wbmeta verify of 1 GiB in s; cmp", lambda work: comparison(meta, bench, work), "at most 1.25"))
    for what, measure, aim in rows:
        with tempfile.TemporaryDirectory(dir="/dev/shm") as work:
            took = measure(work)
        print(f"{what},{took['ours']:.4f},{took['peer']:.4f},{took['ours'] / took['peer']:.3f},{aim}", flush=True)
    print(f"# load at the end: {' '.join(f'{it:.1f}' for it in os.getloadavg())}")


if __name__ == "__main__":
    main()
