#!/usr/bin/env python3
"""Measures reads of a far origin, alone and cached: bench/results/far.csv, which bench/pictures.py draws.

    python3 bench/far.py WBCACHE WBNBD TRACES [READS]      4,000 reads a pass by default; prints the data file

As root, with /dev/fuse, nbdkit and nbdfuse. The origin is a file of nbdkit's file plugin behind its delay filter, 5 ms a call, shown as a file by
nbdfuse. Reads of 4 KiB, one at a time, go over 512 blocks of 32 KiB by Zipf's law: to that server alone, and then twice by the same trace to
wbnbd, whose cache has room for all of them.
"""
import os
import socket
import struct
import subprocess
import sys
import tempfile
import time

from hits import taken

BLOCKS, BLOCK, SEED = 512, 64, 1


def connected(stream):
    """A client behind the handshake, over which reads can be asked for."""
    taken(stream, 18)
    stream.sendall(struct.pack(">I", 3) + b"IHAVEOPT" + struct.pack(">II", 1, 0))
    taken(stream, 10)
    return stream


def pace(stream, trace):
    """Reads a second over a trace."""
    begun = time.monotonic()
    for cookie, block in enumerate(trace):
        stream.sendall(struct.pack(">IHHQQI", 0x25609513, 0, 0, cookie, block * BLOCK * 512, 4096))
        taken(stream, 16 + 4096)
    return len(trace) / (time.monotonic() - begun)


def until(holds):
    for _ in range(200):
        if holds():
            return
        time.sleep(0.05)
    sys.exit("a server does not come")


def main():
    cache, server, traces = (os.path.abspath(word) for word in sys.argv[1:4])
    reads = int(sys.argv[4]) if len(sys.argv) > 4 else 4000
    words = [sys.executable, traces, "zipf", str(BLOCKS), str(reads), str(SEED)]
    trace = [int(line) for line in subprocess.run(words, check=True, capture_output=True, text=True).stdout.split()]
    with tempfile.TemporaryDirectory() as folder:
        for name, size in (("m.img", 4096 * 512), ("c.img", BLOCKS * BLOCK * 512), ("far.img", BLOCKS * BLOCK * 512)):
            with open(f"{folder}/{name}", "wb") as file:
                file.truncate(size)
        os.mkdir(f"{folder}/far")
        delays = ["delay-read=5ms", "delay-write=5ms"]
        started = [subprocess.Popen(["nbdkit", "-f", "-U", f"{folder}/far.sock", "--filter=delay", "file", f"{folder}/far.img", *delays])]
        try:
            until(lambda: os.path.exists(f"{folder}/far.sock"))
            with socket.socket(socket.AF_UNIX) as stream:
                stream.connect(f"{folder}/far.sock")
                print("how,reads_per_second")
                print(f"alone,{pace(connected(stream), trace[: reads // 4]):.0f}", flush=True)
            started.append(subprocess.Popen(["nbdfuse", f"{folder}/far/o.img", "--unix", f"{folder}/far.sock"]))
            until(lambda: os.path.exists(f"{folder}/far/o.img"))
            table = f"cache {folder}/m.img {folder}/c.img {folder}/far/o.img {BLOCK} 0 tinylfu 0"
            subprocess.run([cache, "format", table], check=True, capture_output=True)
            ours, theirs = socket.socketpair()
            program = subprocess.Popen([server, table], stdin=theirs, stdout=theirs, stderr=subprocess.DEVNULL)
            theirs.close()
            connected(ours)
            print(f"first pass,{pace(ours, trace):.0f}", flush=True)
            print(f"second pass,{pace(ours, trace):.0f}", flush=True)
            ours.sendall(struct.pack(">IHHQQI", 0x25609513, 0, 2, 0, 0, 0))
            program.wait()
        finally:
            subprocess.run(["fusermount3", "-u", f"{folder}/far"], check=False, capture_output=True)
            for one in reversed(started):
                one.terminate()
                one.wait()


if __name__ == "__main__":
    main()
