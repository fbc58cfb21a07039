"""Suspends and openings of a full cache of 1,048,575 blocks, one in a hundred of them dirty, over metadata of either version.

    versions.py WBCACHE [ROUNDS]

Metadata that map each cache block to the origin block of its number, clean, are made by hand, once for each version; the cache and the origin are
files of zeros that take no room. Each round runs, in turn for each version: an opening with `status` alone; the same with a write to each hundredth
block and a `suspend`; and the opening behind that. It prints the medians in seconds, how many metadata sectors the suspend wrote, and how many it
needs: in version 1 the leaves with a dirty block and all above them, in version 2 the leaves of dirty bits and all above them.
"""
import os
import statistics
import struct
import subprocess
import sys
import tempfile
import time

BLOCK, BLOCKS, EACH = 64, 1_048_575, 100
FANOUT = 32


def levels(blocks):
    """How many nodes each level has, leaves first."""
    counts = []
    while not counts or counts[-1] > 1:
        blocks = -(-blocks // FANOUT)
        counts.append(blocks)
    return counts


NODES = levels(BLOCKS)
BITS = levels(-(-BLOCKS // 64))
SECTORS = {1: 2 + 2 * sum(NODES), 2: 2 + 2 * sum(NODES) + sum(BITS)}


def node(level, index, words):
    return struct.pack("<8sQII8x32Q224x", b"WBCNODE1", 0, level, index, *words)


def image(version):
    """The sectors of metadata in which each block is mapped and clean."""
    first, places, sectors = 2, [], []
    for count in NODES:
        places.append(first)
        first += count
    for level, count in enumerate(NODES, 1):
        below = BLOCKS if level == 1 else NODES[level - 2]
        for index in range(count):
            names = range(FANOUT * index, FANOUT * index + FANOUT)
            if level == 1:
                words = [1 | name << 16 if name < below else 0 for name in names]
            else:
                words = [places[level - 2] + name if name < below else 0 for name in names]
            sectors.append(node(level, index, words))
    root = struct.pack("<8sQ8I464x", b"WBCROOT1", 0, version, 1, BLOCK, BLOCKS, BLOCKS + 1, SECTORS[version], first - 1, 0)
    written = root + bytes(512) + b"".join(sectors)
    return written + bytes(512 * SECTORS[version] - len(written))


def needed(counts, leaves):
    """The nodes at and above so many leaves, given by their indexes."""
    total = 0
    for _ in counts:
        total += len(leaves)
        leaves = {leaf // FANOUT for leaf in leaves}
    return total


def run(program, folder, version, script):
    """A run of a script, and how long it took."""
    table = f"cache m{version} c o {BLOCK} {'1 metadata2' if version == 2 else '0'} cleaner 0"
    begun = time.perf_counter()
    done = subprocess.run([program, "run", table], input=script, capture_output=True, text=True, cwd=folder)
    seconds = time.perf_counter() - begun
    if done.returncode:
        sys.exit(f"'{table}' ended with {done.returncode}: {done.stdout[:300]} {done.stderr[:300]}")
    return seconds


def main():
    program, rounds = os.path.abspath(sys.argv[1]), int(sys.argv[2]) if len(sys.argv) > 2 else 5
    dirty = range(0, BLOCKS, EACH)
    writes = "".join(f"w {BLOCK * block} 1 11\n" for block in dirty)
    kinds = ("clean opening", "writes alone", "writes and suspend", "opening with dirty blocks")
    seconds = {(version, kind): [] for version in (1, 2) for kind in kinds}
    written = {}
    with tempfile.TemporaryDirectory(dir=os.environ.get("TMPDIR")) as folder:
        for name, blocks in ("c", BLOCKS), ("o", BLOCKS + 1):
            with open(os.path.join(folder, name), "wb") as device:
                device.truncate(512 * BLOCK * blocks)
        images = {version: image(version) for version in (1, 2)}
        for _ in range(rounds):
            for version in 1, 2:
                path = os.path.join(folder, f"m{version}")
                for kind, script in ("clean opening", "status\n"), ("writes alone", writes), ("writes and suspend", writes + "suspend\n"):
                    with open(path, "wb") as device:
                        device.write(images[version])
                    seconds[version, kind].append(run(program, folder, version, script))
                with open(path, "rb") as device:
                    after = device.read()
                written[version] = sum(images[version][at : at + 512] != after[at : at + 512] for at in range(1024, len(after), 512))
                seconds[version, kinds[3]].append(run(program, folder, version, "status\n"))
    for (version, kind), took in seconds.items():
        print(f"version {version}, {kind}: {statistics.median(took):.3f} s")
    print(f"sectors that the suspend wrote: {written[1]} in version 1, {written[2]} in version 2")
    print(f"nodes that are needed: {needed(NODES, {it // FANOUT for it in dirty})} and {needed(BITS, {it // 2048 for it in dirty})}")


if __name__ == "__main__":
    main()
