#!/usr/bin/env python3
"""Lives of a large cache: 131,072 blocks, all mapped. A body that gives up above some size meets every contract, and no other test is as large.

    large.py WBCACHE WBMETA WB_BENCH

In each mode the cache is opened, read, written, flushed, ticked, suspended, converted to metadata of the second version, opened again, looked at and
written back: nothing is refused, and all blocks stay mapped but the one that a write in passthrough takes out. The files are sparse, in memory where that can be had. It
prints what failed, and at the end 'N passed, N failed'.
"""
import os
import shutil
import struct
import subprocess
import sys
import tempfile

CACHED, BLOCKS, BLOCK, METADATA = 131_072, 1 << 20, 64, 80_000
LINES = "status|r 0 1|r 8388544 1|w 64 1 22|r 64 1|flush|tick|work|tr 0 1|tw 128 1 33|settle|flush|message migration_threshold 4096|status|suspend|status"


class Wrong(Exception):
    pass


def need(holds, what):
    if not holds:
        raise Wrong(what)


def called(*words, script=""):
    done = subprocess.run(words, input=script, capture_output=True, text=True, timeout=100)
    return done.returncode, done.stdout, done.stderr


def make_files(bench):
    """Metadata that map each cache block to the origin block of its number, left clean."""
    for name, sectors in (("m.img", METADATA), ("c.img", CACHED * BLOCK), ("o.img", BLOCKS * BLOCK)):
        with open(name, "wb") as file:
            file.truncate(sectors * 512)
    need(called(bench, "m.img", "mapping", str(CACHED))[0] == 0, "the metadata cannot be made")
    with open("m.img", "r+b") as file:
        file.seek(512 + 20)
        file.write(struct.pack("<I", 1))
    shutil.copy("m.img", "kept.img")


def life(cache, table, mapped, what):
    """A run in which all lines are answered, with so many blocks mapped at its end. In passthrough a try does not take a block out."""
    lines = LINES.replace("tw ", "w ") if "passthrough" in what else LINES
    status, told, said = called(cache, "run", table, script=lines.replace("|", "\n") + "\n")
    need(status == 0 and "refused" not in told, f"{what}: status {status}, {told} {said}")
    last = [line for line in told.splitlines() if line.startswith("1 ")][-1]
    need(last.split()[3] == f"{mapped}/{CACHED}", f"{what}: {last}")


def lives(cache, meta, mode):
    shutil.copy("kept.img", "m.img")
    mapped = CACHED
    for features in (f"1 {mode}", f"2 {mode} metadata2", f"1 {mode}"):
        table = f"cache m.img c.img o.img {BLOCK} {features} tinylfu 0"
        if mode == "passthrough":
            # Blocks 1 and 2 leave the cache with the first life's writes.
            mapped = CACHED - 2
        life(cache, table, mapped, features)
        status, told, _ = called(meta, "check", table)
        need(status == 0 and told.split()[2:4] == ["clean", str(mapped)], f"{features}: check: {told}")
    table = f"cache m.img c.img o.img {BLOCK} 0 tinylfu 0"
    status, told, said = called(meta, "writeback", table)
    need(status == 0 and told.startswith("ok "), f"{mode}: writeback: {told} {said}")
    status, told, said = called(meta, "check", table)
    need(told.split()[2:] == ["clean", str(mapped), "0"], f"{mode}: behind it: {told}")


def main():
    cache, meta, bench = (os.path.abspath(word) for word in sys.argv[1:4])
    passed = failed = 0
    with tempfile.TemporaryDirectory(dir="/dev/shm" if os.path.isdir("/dev/shm") else None) as folder:
        os.chdir(folder)
        make_files(bench)
        for mode in ("writeback", "writethrough", "passthrough"):
            try:
                lives(cache, meta, mode)
                passed += 1
            except (Wrong, subprocess.TimeoutExpired) as wrong:
                failed += 1
                print(f"failed: {mode}: {wrong}")
        os.chdir("/")
    print(f"{passed} passed, {failed} failed")
    return failed > 0


if __name__ == "__main__":
    sys.exit(main())
