#!/usr/bin/env python3
"""Times two builds of wb_bench in turn, so that one can be said to be no slower than the other.

    python3 bench/builds.py BEFORE AFTER WBCACHE [TURNS]      21 turns by default

BEFORE and AFTER are two executables of wb_bench that were compiled the same way. Over the same files (in WORK, /dev/shm by default), in
write-back, on cached blocks, each makes the requests of a row TURNS times, the one that goes first changing from turn to turn, after WBCACHE
formatted the files anew. It prints the medians, microseconds a request of the programs' own clocks, and their ratio, with the least of each beside.
"""
import os
import statistics
import subprocess
import sys
import tempfile

ROWS = [(call, sectors) for sectors in (8, 64) for call in ("try_read", "try_write", "read", "write")]


def asked(bench, table, call, sectors, requests):
    """What the program told: it takes a table, or, before it had modes, the three files of one."""
    rest = [call, str(sectors), str(requests), "1"]
    ran = subprocess.run([bench, table, *rest], capture_output=True, text=True)
    if ran.returncode != 0:
        ran = subprocess.run([bench, *table.split()[1:4], *rest], capture_output=True, text=True, check=True)
    return ran.stdout


def took(bench, table, call, sectors, requests):
    told = asked(bench, table, call, sectors, requests)
    for line in told.splitlines():
        words = line.split()
        if words[0] == "requests":
            return int(words[2]) / 1000 / requests
    sys.exit(f"builds.py: {bench} told {told!r}")


def main():
    if len(sys.argv) < 4:
        sys.exit(__doc__)
    builds = [os.path.abspath(it) for it in sys.argv[1:3]]
    cache = os.path.abspath(sys.argv[3])
    turns = int(sys.argv[4]) if len(sys.argv) > 4 else 21
    with tempfile.TemporaryDirectory(dir=os.environ.get("WORK", "/dev/shm")) as work:
        for name, size in (("m", 1 << 20), ("c", 512 << 15), ("o", 1024 << 15)):
            with open(f"{work}/{name}.img", "wb") as file:
                file.truncate(size)
        with open(f"{work}/c.img", "r+b") as file:
            file.write(os.urandom(512 << 15))
        table = f"cache {work}/m.img {work}/c.img {work}/o.img 64 0 tinylfu 0"
        print(f"{'us a request':<20}{'before':>9}{'after':>9}{'ratio':>9}{'least':>9}{'least':>9}{'ratio':>9}")
        for call, sectors in ROWS:
            requests = 200000 if sectors == 8 else 50000
            times = [[], []]
            for turn in range(turns):
                for which in (0, 1) if turn % 2 == 0 else (1, 0):
                    subprocess.run([cache, "format", table], stdout=subprocess.DEVNULL, check=True)
                    times[which].append(took(builds[which], table, call, sectors, requests))
            a, b = (statistics.median(it) for it in times)
            c, d = (min(it) for it in times)
            print(f"{f'{call} {sectors // 2} KiB':<20}{a:>9.3f}{b:>9.3f}{b / a:>9.3f}{c:>9.3f}{d:>9.3f}{d / c:>9.3f}", flush=True)


main()
