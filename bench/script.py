#!/usr/bin/env python3
"""Times scripts beside the same requests by plain system calls.

    python3 bench/script.py WBCACHE [LINES [TURNS]]      bin/wbcache is a WBCACHE; 20,000 lines and 9 turns by default

A script has a line a request, `r S N` or `w S N hh`, or both in turn, of random blocks out of 256 that are cached; it is read from a file, and answered to
/dev/null and to a file. bench/script.c has the list of the sectors, and makes one pread or pwrite for each. The two alternate, and of both
the medians are printed: microseconds a request, and their ratio. Of a script it is the time from the program's start to its end, less that
of an empty script (the opening), which is measured in turn with it. Files are made in WORK (/dev/shm).
"""
import os
import random
import statistics
import subprocess
import sys
import tempfile
import time

CACHED = 256
HERE = os.path.dirname(os.path.abspath(__file__))


def made(work):
    """The table of a cache of 512 blocks whose first 256 are mapped, by promotions."""
    for name, size in (("m", 1 << 20), ("c", 512 << 15), ("o", 1024 << 15)):
        with open(f"{work}/{name}.img", "wb") as file:
            file.truncate(size)
    return f"cache {work}/m.img {work}/c.img {work}/o.img 64 0 tinylfu 0"


def seconds(program, table, lines, out):
    with open(lines, "rb") as given, open(out, "wb") as answers:
        began = time.monotonic()
        subprocess.run([program, "run", table], stdin=given, stdout=answers, check=True)
        return time.monotonic() - began


def main():
    if len(sys.argv) < 2:
        sys.exit(__doc__)
    program = os.path.abspath(sys.argv[1])
    lines = int(sys.argv[2]) if len(sys.argv) > 2 else 20000
    turns = int(sys.argv[3]) if len(sys.argv) > 3 else 9
    with tempfile.TemporaryDirectory(dir=os.environ.get("WORK", "/dev/shm")) as work:
        plain = f"{work}/script"
        subprocess.run(["cc", "-O2", "-o", plain, f"{HERE}/script.c"], check=True)
        table = made(work)
        subprocess.run([program, "format", table], stdout=subprocess.DEVNULL, check=True)
        with open(f"{work}/warm", "w") as warm:
            for block in range(CACHED):
                warm.write(f"w {block * 64} 64 5a\nr {block * 64} 1\nr {block * 64} 1\nwork\n")
            warm.write("suspend\n")
        seconds(program, table, f"{work}/warm", "/dev/null")
        drawn = random.Random(1)
        blocks = [drawn.randrange(CACHED) for _ in range(lines)]
        with open(f"{work}/list", "w") as given:
            given.writelines(f"{block * 64}\n" for block in blocks)
        open(f"{work}/empty", "w").close()
        print(f"{'us a request':<24}{'plain':>9}{'script':>9}{'ratio':>9}")
        for way, sectors in (("both", 8), ("both", 64), ("read", 8), ("read", 64), ("write", 8), ("write", 64)):
            with open(f"{work}/lines", "w") as given:
                for number, block in enumerate(blocks):
                    reads = way == "read" or (way == "both" and number % 2 == 0)
                    fill = "" if reads else f" {drawn.randrange(256):02x}"
                    given.write(f"{'r' if reads else 'w'} {block * 64} {sectors}{fill}\n")
            for out in ("/dev/null", f"{work}/answers"):
                of_plain, of_script, of_empty = [], [], []
                for _ in range(turns):
                    told = subprocess.run([plain, f"{work}/c.img", way, str(sectors), f"{work}/list"], capture_output=True, check=True)
                    of_plain.append(int(told.stdout) / 1000 / lines)
                    of_empty.append(seconds(program, table, f"{work}/empty", out))
                    of_script.append(seconds(program, table, f"{work}/lines", out))
                a = statistics.median(of_plain)
                b = (statistics.median(of_script) - statistics.median(of_empty)) * 1e6 / lines
                name = f"{way} {sectors // 2} KiB, {'no file' if out == '/dev/null' else 'a file'}"
                print(f"{name:<24}{a:>9.2f}{b:>9.2f}{b / a:>9.2f}")


main()
