"""What the scripts of the table and of the growth stand on: programs that alternate, files of a cache, and servers. Imported by table.py and
growth.py; it does nothing by itself.
"""
import os
import shutil
import statistics
import struct
import subprocess
import sys
import time

BENCH = os.path.dirname(os.path.abspath(__file__))
BLOCK = 32768
# How often the programs of a row alternate, and by what all counts are multiplied (a trial of the script itself: PART=0.01).
TURNS = int(os.environ.get("TURNS", "7"))
PART = float(os.environ.get("PART", "1"))


def many(count):
    return max(16, int(count * PART))


def printed(*words, **how):
    """What a program prints; a program that fails ends the script."""
    ran = subprocess.run([str(word) for word in words], capture_output=True, text=True, **how)
    if ran.returncode != 0:
        sys.exit(f"{words[0]}: status {ran.returncode}, {ran.stderr[-500:]}")
    return ran.stdout


def alternated(**measures):
    """Each of the measures once a turn, in an order that changes from turn to turn: the median of each."""
    names = list(measures)
    found = {name: [] for name in names}
    for turn in range(TURNS):
        for name in names[turn % len(names):] + names[: turn % len(names)]:
            found[name].append(measures[name]())
    return {name: statistics.median(values) for name, values in found.items()}


def seconds_of(*words):
    """How long a program takes."""
    began = time.monotonic()
    printed(*words)
    return time.monotonic() - began


def table_of(work, mode="writeback"):
    return f"cache {work}/m.img {work}/c.img {work}/o.img 64 1 {mode} tinylfu 0"


def make_files(work, cache_blocks, origin_blocks, sectors=None):
    """Three files of zeros, without pages of their own, for blocks of 32 KiB."""
    for name, size in (("m", 512 * (sectors or 2048 + cache_blocks // 8)), ("c", cache_blocks * BLOCK), ("o", origin_blocks * BLOCK)):
        with open(f"{work}/{name}.img", "wb") as file:
            file.truncate(size)


def fill(path):
    """Bytes at random in the whole file, so that each page is there."""
    with open(path, "r+b") as file:
        for _ in range(0, os.path.getsize(path), 1 << 20):
            file.write(os.urandom(1 << 20))


def make_full(bench, work, cache_blocks, far=False):
    """Metadata of a cache that was left clean, in which each block is mapped: to the origin block of its number, or to one far from its neighbour's."""
    make_files(work, cache_blocks, 1 << 20, 80000)
    if far:
        printed(sys.executable, f"{BENCH}/scatter.py", f"{work}/m.img", cache_blocks, 1 << 20, 80000)
    else:
        printed(bench, f"{work}/m.img", "mapping", cache_blocks)
    with open(f"{work}/m.img", "r+b") as file:
        file.seek(512 + 20)
        file.write(struct.pack("<I", 1))


def told(output, word):
    """The numbers of the line that begins with this word."""
    for line in output.splitlines():
        if line.split()[0] == word:
            return [int(number) for number in line.split()[1:]]
    sys.exit(f"no line {word!r} in {output!r}")


def served(bench, table, call, sectors, requests, clients):
    """Nanoseconds of all requests of wb_bench's clients."""
    return told(printed(bench, table, call, sectors, requests, clients), "requests")[1]


def machine():
    """The machine and its load, in a line."""
    names = [line.split(":")[1].strip() for line in open("/proc/cpuinfo", encoding="utf-8") if line.startswith("model name")]
    load = " ".join(f"{it:.1f}" for it in os.getloadavg())
    commit = printed("git", "-C", BENCH, "describe", "--always", "--dirty") if shutil.which("git") else "unknown"
    return f"{time.strftime('%Y-%m-%d %H:%M')}, commit {commit.strip()}, {len(names)} x {names[0] if names else 'unknown'}, Linux {os.uname().release}, load {load}, medians of {TURNS}"
