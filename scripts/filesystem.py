#!/usr/bin/env python3
"""An ext4 file system over wbnbd: made, filled, its server killed while files are written and synced, opened again, checked, and drained. As root, on
Linux with /dev/fuse and loop devices, mkfs.ext4 and e2fsck (e2fsprogs); not a part of the gate.

    python3 scripts/filesystem.py WBCACHE WBNBD WBMETA [KILLS [SEED]]      20 kills by default

A file that was synced before the server was killed has to be there after the journal was replayed, with its content; e2fsck has to find nothing else
to mend. At the end wbmeta writes all dirty blocks home, and the origin alone has to be a whole file system with the same files.
It prints what it did, and 'N passed, M failed'.
"""
import os
import random
import signal
import subprocess
import sys
import tempfile
import time

HERE = os.path.dirname(os.path.abspath(__file__))
ORIGIN, CACHE, META = 64 << 20, 16 << 20, 64 << 10
passed = failed = 0


def check(what, holds):
    global passed, failed
    if holds:
        passed += 1
    else:
        failed += 1
        print(f"failed: {what}")


def called(*words, wanted=(0,)):
    ran = subprocess.run(words, capture_output=True, text=True)
    check(f"{' '.join(words)}: status {ran.returncode}, {ran.stdout}{ran.stderr}", ran.returncode in wanted)
    return ran.stdout


class Life:
    """From the start of a server to its end: the origin as a file."""

    def __init__(self, server, table):
        self.process = subprocess.Popen([sys.executable, f"{HERE}/fuse_nbd.py", "disk", server, table], stdout=subprocess.PIPE, stderr=subprocess.DEVNULL, text=True)
        self.server = int(self.process.stdout.readline())

    def end(self):
        called("umount", "disk")
        self.process.wait()


def fill(number, dice, names):
    """Writes a file and syncs it: its name and content; a name that stands already gets a new content."""
    name = dice.choice(names) if names and dice.random() < 0.3 else f"file{number}"
    content = dice.randbytes(dice.choice((100, 5000, 70000, 300000)))
    with open(f"mnt/{name}", "wb") as file:
        file.write(content)
        file.flush()
        os.fsync(file.fileno())
    return name, content


def killed(server, table, dice, files):
    """A life in which files are written until the server is killed, at a moment that the dice choose."""
    life = Life(server, table)
    called("mount", "-o", "loop", "disk/nbd", "mnt")
    moment = time.monotonic() + dice.uniform(0.05, 0.6)
    number = 0
    try:
        while time.monotonic() < moment or number == 0:
            number += 1
            name, content = fill(f"{dice.getrandbits(24)}", dice, sorted(files))
            files[name] = content
            if len(files) > 60:
                gone = dice.choice(sorted(files))
                os.remove(f"mnt/{gone}")
                del files[gone]
                os.sync()
    finally:
        os.kill(life.server, signal.SIGKILL)
    called("umount", "mnt", wanted=(0, 1, 32))
    subprocess.run(["umount", "-l", "disk"], capture_output=True)
    life.process.wait()


def main():
    cache, server, meta = (os.path.abspath(word) for word in sys.argv[1:4])
    kills = int(sys.argv[4]) if len(sys.argv) > 4 else 20
    seed = int(sys.argv[5]) if len(sys.argv) > 5 else 1
    dice = random.Random(seed)
    files = {}
    with tempfile.TemporaryDirectory() as work:
        os.chdir(work)
        for name, size in (("m.img", META), ("c.img", CACHE), ("o.img", ORIGIN)):
            with open(name, "wb") as file:
                file.truncate(size)
        table = "cache m.img c.img o.img 64 0 tinylfu 0"
        os.mkdir("disk")
        os.mkdir("mnt")
        print(called(cache, "format", table).strip())
        life = Life(server, table)
        called("mkfs.ext4", "-q", "disk/nbd")
        life.end()
        for _ in range(kills):
            killed(server, table, dice, files)
            life = Life(server, table)
            called("e2fsck", "-p", "disk/nbd", wanted=(0, 1))
            check("e2fsck finds nothing to mend", subprocess.run(["e2fsck", "-f", "-n", "disk/nbd"], capture_output=True).returncode == 0)
            called("mount", "-o", "loop,ro", "disk/nbd", "mnt")
            for name, content in files.items():
                there = os.path.exists(f"mnt/{name}") and open(f"mnt/{name}", "rb").read()
                check(f"{name} is there as it was synced", there == content)
            called("umount", "mnt")
            life.end()
        print(f"{kills} kills; {called(meta, 'check', table).strip()}")
        print(f"written back: {called(meta, 'writeback', table).strip()}; {called(meta, 'check', table).strip()}")
        check("the origin alone is whole", subprocess.run(["e2fsck", "-f", "-n", "o.img"], capture_output=True).returncode == 0)
        called("mount", "-o", "loop,ro", "o.img", "mnt")
        for name, content in files.items():
            check(f"{name} is on the origin", open(f"mnt/{name}", "rb").read() == content)
        called("umount", "mnt")
        os.chdir("/")
    print(f"{passed} passed, {failed} failed")
    return 1 if failed else 0


sys.exit(main())
