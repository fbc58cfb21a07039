#!/usr/bin/env python3
"""Writes metadata in which every cache block is mapped, to an origin block far from its neighbour's.

    python3 bench/scatter.py FILE CACHE_BLOCKS ORIGIN_BLOCKS SECTORS

Cache block c holds origin block `c * 2654435761` modulo ORIGIN_BLOCKS, a power of two, so no two hold the same. Blocks have 64 sectors; the
root is of generation 1, clean flag not set; nodes stand one behind the other as a commit writes them, each behind its children.
"""
import struct
import sys

FAR = 2654435761


def sector(text):
    return text.ljust(512, b"\0")


def root(generation, cache_blocks, origin_blocks, sectors, top):
    return sector(b"WBCROOT1" + struct.pack("<QIIIIIII", generation, 1, 0, 64, cache_blocks, origin_blocks, sectors, top))


def main():
    name, cache_blocks, origin_blocks, sectors = sys.argv[1], *map(int, sys.argv[2:])
    nodes = []

    def word(level, below):
        if below * 32 ** (level - 1) >= cache_blocks:
            return 0
        return 1 | below * FAR % origin_blocks << 16 if level == 1 else node(level - 1, below)

    def node(level, index):
        words = [word(level, 32 * index + j) for j in range(32)]
        nodes.append(sector(b"WBCNODE1" + struct.pack("<QII8x32Q", 1, level, index, *words)))
        return 1 + len(nodes)

    depth = next(d for d in range(1, 5) if 32 ** d >= cache_blocks)
    top = node(depth, 0)
    with open(name, "wb") as file:
        file.write(root(0, cache_blocks, origin_blocks, sectors, 0) + root(1, cache_blocks, origin_blocks, sectors, top))
        file.write(b"".join(nodes))
        file.truncate(512 * sectors)


main()
