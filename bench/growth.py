#!/usr/bin/env python3
"""Measures what grows with the cache, for bench/results/growth.csv: see growth.sh, which calls it with the programs.

    growth.py WBCACHE WB_BENCH CLIENTS POLICY

Over caches of 2^10, 2^15 and 2^20 - 1 blocks of 32 KiB, all mapped and left clean, over an origin of 2^20 blocks: what a request of 4 KiB takes, an access that
is settled, an opening and a tick. Requests go over 1,024 places, which lie all over the cache, and were written once before; else the files have no pages of their own.
All sizes and programs alternate in one run.
"""
import os
import shutil
import sys
import tempfile

from rows import BENCH, alternated, machine, make_files, make_full, many, printed, seconds_of, served, table_of

SIZES = {"2^10": 1 << 10, "2^15": 1 << 15, "2^20": (1 << 20) - 1}
SHM = os.environ.get("WORK", "/dev/shm")


class Caches:
    """A folder for each size, with metadata as they were left, and one for plain calls."""

    def __init__(self, cache, bench, work):
        self.cache, self.bench, self.work = cache, bench, work
        for name, blocks in SIZES.items():
            os.mkdir(f"{work}/{name}")
            make_full(bench, f"{work}/{name}", blocks)
            shutil.copy(f"{work}/{name}/m.img", f"{work}/{name}/kept")
            self.asked(name, "write", 8, 1024)
        os.mkdir(f"{work}/empty")
        make_files(f"{work}/empty", 1024, 1 << 20)
        printed(cache, "format", table_of(f"{work}/empty"))

    def restored(self, name):
        folder = f"{self.work}/{name}"
        shutil.copy(f"{folder}/kept", f"{folder}/m.img")
        return table_of(folder)

    def asked(self, name, call, sectors, count):
        return served(self.bench, self.restored(name), call, sectors, count, 1) / count

    def opened(self, name):
        table = table_of(f"{self.work}/{name}") if name == "empty" else self.restored(name)
        return float(printed(sys.executable, f"{BENCH}/opened.py", self.cache, table).split()[0])


def told(what, ours, peer=()):
    """Prints a row of the data for each size of the cache."""
    for i, (name, value) in enumerate(zip(SIZES, ours)):
        beside = f"{peer[i]:.4g}" if peer else ""
        print(f"{what},{name},{value:.4g},{beside}", flush=True)


def requests(caches, clients):
    count = many(200000)
    for way in ("read", "write"):
        measures = {"plain": lambda way=way: int(printed(clients, f"{caches.work}/plain.img", way, 8, count, 1)) / count}
        for name in SIZES:
            for call in (f"try_{way}", way):
                measures[f"{name} {call}"] = lambda name=name, call=call: caches.asked(name, call, 8, count)
        took = alternated(**measures)
        of = lambda call: [took[f"{name} {call}"] / 1000 for name in SIZES]
        for call in (f"try_{way}", way):
            told(f"{call} of 4 KiB in us", of(call), [took["plain"] / 1000] * len(SIZES))


def settling(caches, policy):
    accesses = many(3000000)

    def each(program, *words):
        return (seconds_of(program, *words, accesses) - seconds_of(program, *words, 0)) / accesses * 1e9

    measures = {f"ours {name}": lambda blocks=blocks: each(caches.bench, "settles", blocks) for name, blocks in SIZES.items()}
    measures |= {f"plain {name}": lambda blocks=blocks: each(policy, blocks) for name, blocks in SIZES.items()}
    took = alternated(**measures)
    told("settling", [took[f"ours {name}"] for name in SIZES], [took[f"plain {name}"] for name in SIZES])


def openings(caches):
    took = alternated(**{name: lambda name=name: caches.opened(name) for name in [*SIZES, "empty"]})
    told("opening", [took[name] for name in SIZES])


def ticks(caches):
    count = many(200)
    took = alternated(**{name: lambda name=name: caches.asked(name, "tick", 1, count) for name in SIZES})
    told("tick", [took[name] / 1_000_000 for name in SIZES])


def main():
    cache, bench, clients, policy = sys.argv[1:5]
    print(f"# {machine()}\n# settling in ns an access, an opening in s, a tick in ms\nwhat,blocks,ours,peer")
    with tempfile.TemporaryDirectory(dir=SHM) as work:
        caches = Caches(cache, bench, work)
        with open(f"{work}/plain.img", "wb") as file:
            file.write(bytes(1024 << 15))
        requests(caches, clients)
        settling(caches, policy)
        openings(caches)
        ticks(caches)
    print(f"# load at the end: {' '.join(f'{it:.1f}' for it in os.getloadavg())}")


main()
