#!/usr/bin/env python3
"""Times an opening, as a user of the program meets it.

    python3 bench/opened.py PROGRAM TABLE [LINE]      bin/wbcache is a PROGRAM

It starts `PROGRAM run TABLE`, asks by this line of a script ('tr 0 1', a read of the first sector, where none is named) and waits for the
first line of its answer: the seconds from the start to that, the seconds that the program took in all (its end lets go of what the target
holds), and its peak in KiB, as the kernel counts it. 'status' takes longer: it looks at each block, whether it is dirty.
"""
import os
import subprocess
import sys
import time


def main():
    program, table = sys.argv[1:3]
    asked = sys.argv[3] if len(sys.argv) > 3 else "tr 0 1"
    began = time.monotonic()
    child = subprocess.Popen([program, "run", table], stdin=subprocess.PIPE, stdout=subprocess.PIPE)
    child.stdin.write(asked.encode() + b"\n")
    child.stdin.flush()
    line = child.stdout.readline()
    opened = time.monotonic() - began
    child.stdin.close()
    _, status, used = os.wait4(child.pid, 0)
    whole = time.monotonic() - began
    if status != 0 or not line:
        sys.exit(f"opened.py: it answered {line!r}, with status {status}")
    print(f"{opened:.3f} {whole:.3f} {used.ru_maxrss}")


main()
