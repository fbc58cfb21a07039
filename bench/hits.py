#!/usr/bin/env python3
"""Measures hit ratios by the size of the cache, on four traces: bench/results/hits.csv, which bench/pictures.py draws.

    python3 bench/hits.py WBCACHE WBNBD TRACES [READS]      40,000 reads by default; prints the data file

TRACES is a program that prints a trace: `TRACES zipf|scan_zipf|loop|shift BLOCKS READS SEED`, a block number a line. Each trace is read over 2,048 blocks of
32 KiB in three ways: by a script of wbcache that carries out each order at once, which is the policy's own ratio; from wbnbd, one read at a
time as fast as this script asks, while its worker carries out orders; and by plain LRU, counted here.
"""
import collections
import os
import socket
import struct
import subprocess
import sys
import tempfile

BLOCKS, BLOCK, SEED = 2048, 64, 1
SIZES = [32, 64, 128, 256, 512, 1024]
TRACES = ("zipf", "scan_zipf", "loop", "shift")


def lru(trace, size):
    """How many accesses hit where the least recent block leaves."""
    cached, hits = collections.OrderedDict(), 0
    for block in trace:
        hits += block in cached
        cached[block] = None
        cached.move_to_end(block)
        if len(cached) > size:
            cached.popitem(last=False)
    return hits


def formatted(program, folder, cached):
    """The table of a new cache."""
    for name, sectors in (("m", 4096), ("c", cached * BLOCK), ("o", BLOCKS * BLOCK)):
        with open(f"{folder}/{name}.img", "wb") as file:
            file.truncate(sectors * 512)
    table = f"cache {folder}/m.img {folder}/c.img {folder}/o.img {BLOCK} 0 tinylfu 0"
    subprocess.run([program, "format", table], check=True, capture_output=True)
    return table


def read_hits(status):
    """The reads that hit, by a status line: its fifth figure."""
    return int(status.split()[4])


def by_script(program, table, trace):
    lines = "".join(f"r {block * BLOCK} 1\nwork\n" for block in trace) + "status\n"
    done = subprocess.run([program, "run", table], input=lines, capture_output=True, text=True, check=True)
    return read_hits(done.stdout.splitlines()[-1])


def taken(stream, count):
    data = b""
    while len(data) < count:
        data += stream.recv(count - len(data)) or sys.exit("the server ended")
    return data


def by_server(program, table, trace):
    ours, theirs = socket.socketpair()
    server = subprocess.Popen([program, table], stdin=theirs, stdout=theirs, stderr=subprocess.PIPE, text=True)
    theirs.close()
    taken(ours, 18)
    ours.sendall(struct.pack(">I", 3) + b"IHAVEOPT" + struct.pack(">II", 1, 0))
    taken(ours, 10)
    for cookie, block in enumerate(trace):
        ours.sendall(struct.pack(">IHHQQI", 0x25609513, 0, 0, cookie, block * BLOCK * 512, 512))
        taken(ours, 16 + 512)
    ours.sendall(struct.pack(">IHHQQI", 0x25609513, 0, 2, 0, 0, 0))
    said = server.communicate()[1]
    return read_hits(said.splitlines()[-1].removeprefix("wbnbd: "))


def main():
    cache, server, traces = sys.argv[1:4]
    reads = int(sys.argv[4]) if len(sys.argv) > 4 else 40_000
    print("trace,cached,policy,served,lru")
    for name in TRACES:
        words = [sys.executable, traces, name, str(BLOCKS), str(reads), str(SEED)]
        trace = [int(line) for line in subprocess.run(words, check=True, capture_output=True, text=True).stdout.split()]
        for size in SIZES:
            with tempfile.TemporaryDirectory(dir="/dev/shm" if os.path.isdir("/dev/shm") else None) as folder:
                policy = by_script(cache, formatted(cache, folder, size), trace)
                served = by_server(server, formatted(cache, folder, size), trace)
            print(",".join([name, str(size), *(f"{hits / len(trace):.3f}" for hits in (policy, served, lru(trace, size)))]), flush=True)


if __name__ == "__main__":
    main()
