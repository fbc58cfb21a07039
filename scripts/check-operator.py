#!/usr/bin/env python3
"""What an operator does by mistake: each is refused or said before anything is lost.

    check-operator.py WBCACHE WBNBD WBMETA [WORDS ..]

It prints what failed, what was not tried for want of root or a device, and at the end 'N passed, N failed'. With WORDS only the checks in whose name one of
them stands are made. scripts/weather.c has steps on devices fail; it wants the kit, or clang, gcc or cc.
"""
import fcntl
import os
import random
import resource
import shutil
import signal
import socket
import struct
import subprocess
import sys
import tempfile
import threading
import time

import weather_base as base
from weather_base import PROGRAMS, Wrong, need

BLOCK = 64 * 512
TABLE = "cache m.img c.img o.img 64 0 tinylfu 0"
NAMES = ("m.img", "c.img", "o.img")
MARK = "m.img.failed"


def call(program, *words, script="", env=None, timeout=60, **how):
    """A call: its status, what it prints, and what it says on standard error."""
    environment = {**os.environ, **{name: str(value) for name, value in (env or {}).items()}}
    done = subprocess.run([program, *words], input=script, capture_output=True, text=True, errors="replace", timeout=timeout, env=environment, **how)
    return done.returncode, done.stdout, done.stderr


def same(what, found, wanted):
    need(found == wanted, f"{what}: {found!r}, where {wanted!r} is wanted")


def has(what, text, part):
    need(part in text, f"{what}: {text!r}, where {part!r} is wanted")


def lacks(what, text, part):
    need(part not in text, f"{what}: {text!r}, where {part!r} is not wanted")


def files(cache_blocks=4, origin_blocks=10, sectors=4):
    """Files of zeros, of which each byte is allocated."""
    for name, size in (("m.img", sectors * 512), ("c.img", cache_blocks * BLOCK), ("o.img", origin_blocks * BLOCK)):
        with open(name, "wb") as file:
            file.write(bytes(size))
    if os.path.exists(MARK):
        os.remove(MARK)


def formatted(**sizes):
    files(**sizes)
    same("formatting", call(PROGRAMS.cache, "format", TABLE)[0], 0)


def cached(script="", last="suspend\n", **sizes):
    """A cache with three blocks in it, left clean."""
    formatted(**sizes)
    lines = "".join(f"w {s} 1 {fill}\nr {s} 1\nwork\n" for s, fill in ((0, 11), (64, 12), (128, 13)))
    status, told, said = call(PROGRAMS.cache, "run", TABLE, script=lines + script + last)
    same("a first life", (status, told.count("promoted")), (0, 3))
    same("all is home", call(PROGRAMS.meta, "writeback", TABLE)[0], 0)


def content():
    return {name: open(name, "rb").read() for name in NAMES}


def change(name, at, data):
    with open(name, "r+b") as file:
        file.seek(at)
        file.write(data)


# --- A client of the server, by the fixed newstyle handshake and simple replies of the NBD protocol.
class Client:
    def __init__(self, *words, env=None, stderr=subprocess.PIPE):
        environment = {**os.environ, **{name: str(value) for name, value in (env or {}).items()}}
        self.ours, theirs = socket.socketpair()
        self.process = subprocess.Popen([PROGRAMS.server, *words], stdin=theirs, stdout=theirs, stderr=stderr, env=environment)
        theirs.close()
        self.number = 0

    def take(self, count):
        data = b""
        while len(data) < count:
            more = self.ours.recv(count - len(data))
            if not more:
                raise Wrong(f"the server ended, behind {data!r}: {self.ended()}")
            data += more
        return data

    def handshake(self):
        self.take(18)
        self.ours.sendall(struct.pack(">I", 3) + b"IHAVEOPT" + struct.pack(">II", 1, 0))
        self.take(10)
        return self

    def send(self, kind, at=0, count=0, data=b"", flags=0):
        self.number += 1
        self.ours.sendall(struct.pack(">IHHQQI", 0x25609513, flags, kind, self.number, at, count) + data)

    def reply(self, count=0):
        _, error, _ = struct.unpack(">IIQ", self.take(16))
        return error, self.take(count) if not error else b""

    def ask(self, kind, at=0, count=0, data=b"", flags=0):
        self.send(kind, at, count, data, flags)
        return self.reply(count if kind == 0 else 0)

    def ended(self):
        self.ours.close()
        said = self.process.communicate(timeout=60)[1]
        return self.process.returncode, (said or b"").decode(errors="replace")

    def end(self):
        self.send(2)
        return self.ended()


def opens(*words):
    """Whether the server opens, what it says, and its status."""
    client = Client(*words, TABLE)
    try:
        client.handshake()
        return True, *client.end()[::-1]
    except Wrong:
        status, said = client.ended()
        return False, said, status


# --- The origin or the cache was written by somebody else.
def the_origin_was_written_alone():
    """A drained cache whose origin was changed alone is not served; detached it is, and shows the change."""
    cached()
    change("o.img", 64 * 512, b"\x77" * 512)
    before = content()
    is_open, said, status = opens()
    same("served", (is_open, status), (False, 1))
    for part in ("cache block 1", "origin block 1", "differ", "wbmeta verify"):
        has("why", said, part)
    same("the files", content() == before, True)
    status, told, said = call(PROGRAMS.meta, "writeback", TABLE)
    same("written back", (status, told), (1, "refused 12 Mismatch\n"))
    has("why", said, "cache block 1")
    same("the files", content() == before, True)
    same("verified", call(PROGRAMS.meta, "verify", TABLE)[:2], (1, "1 1 differs\n"))
    status, told, said = call(PROGRAMS.cache, "run", TABLE, script="r 64 1\nsuspend\n")
    same("a script goes on", (status, told), (0, "64 12\nok\n"))
    has("and says it", said, "wbcache: cache block 1")
    same("served all the same", opens("--no-verify")[0], True)


def a_detached_cache_takes_what_the_origin_has():
    cached()
    status, told, _ = call(PROGRAMS.meta, "detach", TABLE)
    same("detached", (status, told), (0, "ok 0\n"))
    change("o.img", 64 * 512, b"\x77" * 512)
    same("a run then", call(PROGRAMS.cache, "run", TABLE, script="r 64 1\n")[:2], (0, "64 77\n"))
    same("served", opens()[0], True)


def a_blank_cache_file():
    cached()
    change("c.img", 0, bytes(4 * BLOCK))
    is_open, said, status = opens()
    same("served", (is_open, status), (False, 1))
    has("why", said, "differ")


def the_sample_finds_as_often_as_its_draws_must():
    """Of a clean cache of 128 blocks one was changed: 64 are compared, so about each second opening refuses."""
    blocks = 128
    formatted(cache_blocks=blocks, origin_blocks=blocks, sectors=64)
    lines = "".join(f"r {64 * b} 1\nr {64 * b} 1\nwork\n" for b in range(blocks))
    same("filled", call(PROGRAMS.cache, "run", TABLE, script=lines + "suspend\n")[0], 0)
    same("all is home", call(PROGRAMS.meta, "writeback", TABLE)[0], 0)
    kept, dice, found = content(), random.Random(5), 0
    for _ in range(60):
        for name, data in kept.items():
            change(name, 0, data)
        change("o.img", dice.randrange(blocks) * BLOCK + dice.randrange(BLOCK), b"\x77")
        found += call(PROGRAMS.meta, "writeback", TABLE)[0] == 1
    need(15 <= found <= 45, f"the sample found {found} of 60 changes, where about 30 are wanted")


def a_root_that_is_lost():
    """One bit of the newest root: check says it, the server refuses, and opens where it is told to."""
    cached()
    roots = [open("m.img", "rb").read()[at:at + 512] for at in (0, 512)]
    newest = max((0, 1), key=lambda slot: int.from_bytes(roots[slot][8:16], "little"))
    change("m.img", newest * 512 + 100, bytes([roots[newest][100] ^ 1]))
    status, told, said = call(PROGRAMS.meta, "check", TABLE)
    has("check", said, f"slot {newest} holds no valid root")
    before = content()
    is_open, said, status = opens("--no-verify")
    same("served", (is_open, status), (False, 1))
    has("why", said, f"slot {newest} holds no valid root")
    has("what to do", said, "--accept-older")
    for word in ("writeback", "detach"):
        status, told, said = call(PROGRAMS.meta, word, TABLE)
        same(word, (status, told), (1, f"refused 11 Damaged {newest}\n"))
        has("what to do", said, "--accept-older")
    same("the files", content() == before, True)
    same("drained", call(PROGRAMS.meta, "writeback", "--no-verify", "--accept-older", TABLE)[0], 0)
    for name, data in before.items():
        change(name, 0, data)
    has("a script says it", call(PROGRAMS.cache, "run", TABLE)[2], "holds no valid root")
    for name, data in before.items():
        change(name, 0, data)
    same("accepted", opens("--no-verify", "--accept-older")[0], True)
    lacks("whole again", call(PROGRAMS.meta, "check", TABLE)[2], "no valid root")


def roots_that_are_as_they_should():
    """No opening of a cache that nobody touched says anything of its roots."""
    formatted()
    for lines in ("", "flush\n", "w 0 1 11\nflush\n", "suspend\n", "flush\nflush\nsuspend\n"):
        lacks("a run", call(PROGRAMS.cache, "run", TABLE, script=lines)[2], "root")
        lacks("a check", call(PROGRAMS.meta, "check", TABLE)[2], "root")


def no_root_at_all():
    cached()
    change("m.img", 0, b"\x55" * 1024)
    said = call(PROGRAMS.cache, "run", TABLE)[2]
    for part in ("10 NotFormatted", "wbmeta check", "loses blocks that are not on the origin"):
        has("the hint", said, part)


# --- Files that are none of the cache's.
def metadata_that_are_something_else():
    """Not formatted without --force: a file system, noise, and a file that cannot be read."""
    for at, data in ((0, b"\x55" * 512), (1080, b"\x53\xef"), (510, b"\x55\xaa")):
        files(sectors=16)
        change("m.img", at, data)
        before = content()
        status, told, said = call(PROGRAMS.cache, "format", TABLE)
        same("formatted", (status, told), (1, ""))
        has("why", said, "--force")
        same("the files", content() == before, True)
        same("with --force", call(PROGRAMS.cache, "format", "--force", TABLE)[:2], (0, "formatted 4 10\n"))
    files(sectors=16)
    change("m.img", 0, b"\x11" * 512)
    status, told, said = call(PROGRAMS.cache, "format", TABLE, env={"LD_PRELOAD": PROGRAMS.weather, "WEATHER_FILE": "m.img", "WEATHER_CALL": 1, "WEATHER_ON": 1})
    need(status != 0 and "formatted" not in told, f"a formatting over what cannot be read: {status} {told}")


def a_cache_with_dirty_blocks():
    """Formatted as ever off a terminal, with a word; not with --careful."""
    cached("w 0 1 21\n")
    call(PROGRAMS.cache, "run", TABLE, script="w 0 1 22\nflush\n")
    before = content()
    status, told, said = call(PROGRAMS.cache, "format", "--careful", TABLE)
    same("with --careful", (status, told), (1, ""))
    has("why", said, "dirty")
    same("the files", content() == before, True)
    status, told, said = call(PROGRAMS.cache, "format", TABLE)
    same("without", (status, told), (0, "formatted 4 10\n"))
    has("and it is said", said, "gives up a cache: 3 of 4 cache blocks mapped")


def sparse_files():
    files()
    with open("c.img", "wb") as file:
        file.truncate(4 * BLOCK)
    has("format", call(PROGRAMS.cache, "format", TABLE)[2], "c.img is sparse")
    files()
    lacks("format of whole files", call(PROGRAMS.cache, "format", TABLE)[2], "sparse")


def an_origin_with_a_tail():
    cached()
    with open("o.img", "ab") as file:
        file.write(b"tail")
    has("a run", call(PROGRAMS.cache, "run", TABLE)[2], "its last 4 bytes are no whole sector")


def thresholds():
    """Each program says that nothing will be cached."""
    files(cache_blocks=64, origin_blocks=128, sectors=16)
    large = "cache m.img c.img o.img 4096 0 tinylfu 0"
    for what, said in (("format", call(PROGRAMS.cache, "format", large)[2]), ("run", call(PROGRAMS.cache, "run", large)[2]), ("check", call(PROGRAMS.meta, "check", large)[2])):
        has(what, said, "migration_threshold")
    enough = "cache m.img c.img o.img 4096 0 tinylfu 2 migration_threshold 8192"
    lacks("enough", call(PROGRAMS.cache, "run", enough)[2], "migration_threshold")


def devices_in_use():
    """A mounted loop device, a second node of it, the file below it, and a device named twice."""
    if os.geteuid() != 0 or not os.path.exists("/dev/loop-control") or not shutil.which("losetup"):
        print("not tried: devices in use want root and loop devices")
        return
    formatted(origin_blocks=256, sectors=64)
    with open("disk", "wb") as file:
        file.truncate(8 << 20)
    loop = subprocess.run(["losetup", "--find", "--show", "disk"], capture_output=True, text=True).stdout.strip()
    if not loop:
        print("not tried: devices in use: no loop device can be had")
        return
    try:
        subprocess.run(["mkfs.ext4", "-q", loop], check=True)
        os.mkdir("mnt")
        number = os.stat(loop).st_rdev
        os.mknod("node", 0o600 | 0o060000, number)
        table = "cache m.img c.img {} 64 0 tinylfu 0"
        for first, second in ((loop, "node"), (loop, "disk")):
            status, told, said = call(PROGRAMS.cache, "format", f"cache m.img {first} {second} 64 0 tinylfu 0")
            same(f"{first} and {second}", (status, told), (3, "refused 5 Io origin\n"))
        if subprocess.run(["mount", loop, "mnt"]).returncode != 0:
            print("not tried: a mounted device: mount fails")
            return
        try:
            for name in (loop, "node", "disk"):
                for words in (("format",), ("run",)):
                    status, told, said = call(PROGRAMS.cache, *words, table.format(name))
                    same(f"{words} over {name}", (status, told), (3, "refused 5 Io origin\n"))
                    has("why", said, "is mounted on")
        finally:
            subprocess.run(["umount", "mnt"], check=True)
    finally:
        subprocess.run(["losetup", "-d", loop])


def a_file_that_is_replaced():
    """A script's later clients go on with the file that is locked."""
    cached()
    process = subprocess.Popen([PROGRAMS.cache, "run", TABLE], stdin=subprocess.PIPE, stdout=subprocess.PIPE, stderr=subprocess.DEVNULL, text=True)
    process.stdin.write("w 256 1 31\n")
    process.stdin.flush()
    process.stdout.readline()
    shutil.copy("o.img", "other.img")
    os.rename("other.img", "o.img")
    out, _ = process.communicate("@1 w 256 1 32\n@1 flush\njoin\nr 256 1\n", timeout=60)
    same("what is read", out, "@1 ok\n@1 ok\n256 32\n")


# --- Devices that fail.
def failing(name, number, on=0):
    return {"LD_PRELOAD": PROGRAMS.weather, "WEATHER_FILE": name, "WEATHER_CALL": number, "WEATHER_ON": on}


def a_mark_of_a_failure():
    """A write that failed leaves a mark: the server and the drain refuse until it is taken away, and a script says it."""
    cached()
    status, told, said = call(PROGRAMS.cache, "run", TABLE, script="w 256 1 31\n" * 8 + "flush\n", env=failing("o.img", 12, 1))
    need(status == 3 and "refused" in told, f"a device that fails: {status} {told}")
    with open(MARK) as file:
        text = file.read()
    has("the mark", text, open("/proc/sys/kernel/random/boot_id").read().strip())
    need(text.startswith("origin "), f"the mark: {text}")
    is_open, said, status = opens()
    same("served", (is_open, status), (False, 3))
    for part in (MARK, "wbmeta cleared"):
        has("why", said, part)
    for word in ("writeback", "detach"):
        status, told, said = call(PROGRAMS.meta, word, TABLE)
        same(word, (status, told), (3, "refused 5 Io origin\n"))
        has("why", said, "wbmeta cleared")
    status, _, said = call(PROGRAMS.cache, "run", TABLE, script="r 0 1\n")
    same("a script goes on", status, 0)
    has("and says it", said, "wbmeta cleared")
    same("cleared", call(PROGRAMS.meta, "cleared", TABLE)[:2], (0, "ok\n"))
    same("the mark is gone", os.path.exists(MARK), False)
    same("served", opens()[0], True)
    with open(MARK, "w") as file:
        file.write("origin 00000000-0000-0000-0000-000000000000 a sync failed: long ago\n")
    same("a mark of an earlier boot", opens()[0], True)


def a_read_leaves_no_mark():
    """Each step of the origin fails in turn: a mark is there where a write or a sync failed, and nowhere else."""
    tried = 0
    for number in range(1, 14):
        cached()
        _, _, said = call(PROGRAMS.cache, "run", TABLE, script="r 256 1\nw 320 1 31\nflush\n", env=failing("o.img", number))
        is_read = "a read failed" in said
        tried += is_read
        same(f"a mark behind step {number}: {said}", os.path.exists(MARK), " failed" in said and not is_read)
    need(tried > 0, "no read failed")


def a_lost_flush():
    """The client goes inside a message, and the flush at the end fails: status 3, as where it ends the connection."""
    for kind in ("inside a message", "in order"):
        tried = 0
        for number in range(1, 60):
            cached()
            client = Client(TABLE, env=failing("o.img", number, 1))
            try:
                client.handshake()
                error, _ = client.ask(1, 300 * 512, 512, b"\x31" * 512)
                if kind == "in order":
                    client.send(2)
                else:
                    client.ours.sendall(b"\x25\x60\x95")
            except (Wrong, OSError):
                continue
            status, said = client.ended()
            if error:
                same(f"{kind}, call {number}: a write that failed", status, 3)
                continue
            with open("o.img", "rb") as file:
                file.seek(300 * 512)
                is_written = file.read(512) == b"\x31" * 512
            if "failed" in said:
                tried += 1
                same(f"{kind}, call {number}: {said}", status, 3)
            else:
                same(f"{kind}, call {number}: written", (status, is_written), (4 if kind == "inside a message" else 0, True))
                break
        need(tried > 0, f"no flush failed {kind}")


def a_block_that_cannot_be_read():
    """A dirty block that is next to be replaced cannot be read: its order is refused, it is named, and others are replaced."""
    formatted()
    lines = "".join(f"w {block * 64} 1 1{block}\nr {block * 64} 1\nwork\nw {block * 64} 1 2{block}\n" for block in range(4))
    status, told, _ = call(PROGRAMS.cache, "run", TABLE, script=lines + "flush\n")
    same("a first life", (status, told.count("promoted")), (0, 4))
    hot = "".join(f"r {block * 64} 1\n" * 5 + "work\n" for block in (4, 5, 6, 4, 5, 6))
    env = {"LD_PRELOAD": PROGRAMS.stops, "STOPS_BAD": "c.img", "STOPS_FROM": 0, "STOPS_TO": 512}
    status, told, said = call(PROGRAMS.cache, "run", TABLE, script=hot, env=env)
    orders = [line for line in told.splitlines() if line.split()[0] in ("replaced", "refused", "idle")]
    same("one order is refused", orders.count("refused 5 Io cache"), 1)
    need(sum(line.startswith("replaced ") for line in orders) >= 3, f"others are replaced: {orders}")
    has("it is named", said, "cache file: a read failed at sector 0: ")
    same("the script's status", status, 3)


def a_long_read():
    """Lines come as sectors are read, and memory is held for some of them alone; a refusal stands behind the lines before it."""
    files(sectors=400)
    os.truncate("o.img", 20_000 * BLOCK)
    same("formatting", call(PROGRAMS.cache, "format", TABLE)[0], 0)
    with open("said", "w") as said:
        process = subprocess.Popen([PROGRAMS.cache, "run", TABLE], stdin=subprocess.PIPE, stdout=subprocess.PIPE, stderr=said, text=True)
    process.stdin.write("r 0 1280000\n")
    process.stdin.close()
    lines = sum(line == f"{sector} 00\n" for sector, line in enumerate(process.stdout))
    _, status, used = os.wait4(process.pid, 0)
    process.returncode = os.waitstatus_to_exitcode(status)
    same("the lines of a long read", (lines, process.returncode), (1_280_000, 0))
    need(used.ru_maxrss < 60_000, f"a long read holds {used.ru_maxrss} kB")
    status, told, _ = call(PROGRAMS.cache, "run", TABLE, script="r 0 1280000\n", env=failing("o.img", 1000))
    lines = told.splitlines()
    same("a refusal in a long read", (status, lines[-1]), (3, "refused 5 Io origin"))
    need(0 < len(lines) - 1 < 64_000, f"lines before it: {len(lines) - 1}")
    same("which are its first", lines[:-1], [f"{sector} 00" for sector in range(len(lines) - 1)])


def few_descriptors():
    """Three files, one description each."""
    cached()
    limit = {"preexec_fn": lambda: resource.setrlimit(resource.RLIMIT_NOFILE, (7, 7))}
    ours, theirs = socket.socketpair()
    process = subprocess.Popen([PROGRAMS.server, TABLE], stdin=theirs, stdout=theirs, stderr=subprocess.PIPE, **limit)
    theirs.close()
    client = Client.__new__(Client)
    client.ours, client.process, client.number = ours, process, 0
    client.handshake()
    opened = [os.path.realpath(f"/proc/{process.pid}/fd/{fd}") for fd in os.listdir(f"/proc/{process.pid}/fd")]
    same("how often each is open", [sum(it.endswith(f"/{name}") for it in opened) for name in NAMES], [1, 1, 1])
    same("its end", client.end()[0], 0)


# --- Words.
def reasons_off_a_terminal():
    """Each refusal has a line on standard error that names the word."""
    formatted()
    rows = [
        (("run", "cache m.img c.img o.img 65 0 tinylfu 0"), 1, "'65'"),
        (("run", "cache m.img c.img o.img 64 0 tinylfu 2 promote_min 18"), 1, "14 BadMessage"),
        (("run", "cache m.img nothing o.img 64 0 tinylfu 0"), 3, "cache file nothing"),
        (("run", "cache", "m.img", "c.img", "o.img", "64", "0", "tinylfu", "0"), 2, "quotes"),
        (("run", "--wrong", TABLE), 2, "--wrong"),
        (("play", TABLE), 2, "play"),
    ]
    for words, code, part in rows:
        status, _, said = call(PROGRAMS.cache, *words)
        same(f"{words}", status, code)
        has(f"{words}", said, part)


def a_version_claims_no_proof():
    for program in (PROGRAMS.cache, PROGRAMS.server, PROGRAMS.meta):
        same(program, call(program, "--version")[1], f"{os.path.basename(program)} 0.1.0\n")


def control_bytes_of_a_path():
    formatted()
    _, _, said = call(PROGRAMS.cache, "run", "cache m.img c\x1b[2J o.img 64 0 tinylfu 0")
    has("a path", said, "c\\x1b[2J")
    lacks("a path", said, "\x1b")


def a_lock_that_is_held_for_a_moment():
    """A lock that another program has for a moment is waited for, and one that it keeps is refused."""
    cached()
    for program, words in ((PROGRAMS.cache, ("run",)), (PROGRAMS.cache, ("format", "--yes")), (PROGRAMS.meta, ("writeback",))):
        cached()
        with open("o.img", "rb") as held:
            fcntl.flock(held, fcntl.LOCK_SH)
            timer = threading.Timer(0.3, lambda: fcntl.flock(held, fcntl.LOCK_UN))
            timer.start()
            same(f"{words}", call(program, *words, "--wait", "5", TABLE)[0], 0)
            timer.join()
        with open("o.img", "rb") as held:
            fcntl.flock(held, fcntl.LOCK_SH)
            same(f"{words}, held", call(program, *words, "--wait", "0", TABLE)[:2], (3, "refused 5 Io origin\n"))


def files_that_cannot_be_locked():
    """A system without locks: nothing is served, since nobody could be kept out."""
    cached()
    env = {"LD_PRELOAD": PROGRAMS.stops, "STOPS_LOCKS": 1}
    before = content()
    for program, *words in ((PROGRAMS.cache, "run"), (PROGRAMS.cache, "format", "--force"), (PROGRAMS.meta, "writeback"), (PROGRAMS.meta, "detach")):
        status, told, said = call(program, *words, TABLE, env=env)
        same(f"{words[0]} without a lock", (status, told), (3, "refused 5 Io metadata\n"))
        has("why", said, "m.img")
    status, _, said = call(PROGRAMS.server, TABLE, env=env)
    same(f"served without a lock: {said}", status, 3)
    same("the files", content() == before, True)


def a_busy_server_writes_back():
    """Ticks come under load too: blocks that are dirty get clean while requests come all the time."""
    cached("w 0 1 21\nw 64 1 22\nw 128 1 23\n", last="flush\n")
    status, _, _ = call(PROGRAMS.cache, "run", TABLE, script="w 0 1 31\nw 64 1 32\nw 128 1 33\nflush\n")
    same("dirty blocks", (status, call(PROGRAMS.meta, "check", TABLE)[1].split()[3:]), (0, ["3", "3"]))
    client = Client(TABLE)
    client.handshake()
    for _ in range(5 * 4096):
        same("a read", client.ask(0, 64 * 512, 512)[0], 0)
    client.ours.shutdown(socket.SHUT_WR)
    status, said = client.ended()
    dirty = int(said.splitlines()[-1].split()[11])
    need(dirty < 3, f"after 20,480 reads {dirty} of 3 blocks are dirty: {said}")


def standard_error_that_nobody_reads():
    """A full pipe behind standard error delays neither replies nor the end."""
    cached()
    reader, writer = os.pipe()
    fcntl.fcntl(writer, 1031, 4096)
    os.set_blocking(writer, False)
    try:
        while True:
            os.write(writer, b"x" * 4096)
    except BlockingIOError:
        pass
    os.set_blocking(writer, True)
    client = Client(TABLE, stderr=writer).handshake()
    client.ours.settimeout(20)
    same("a write", client.ask(1, 0, 512, b"\x31" * 512)[0], 0)
    same("a flush", client.ask(3)[0], 0)
    client.send(2)
    client.ours.close()
    same("its end", client.process.wait(timeout=20), 0)
    os.close(reader)
    os.close(writer)


def no_null_device():
    """A closed descriptor needs no null device."""
    cached()
    done = subprocess.run(["sh", "-c", f'exec "$0" run "{TABLE}" <&-', PROGRAMS.cache], capture_output=True, text=True, timeout=60)
    same("without standard input", done.returncode, 4)
    done = subprocess.run(["sh", "-c", f'exec "$0" run "{TABLE}" 2>&-', PROGRAMS.cache], input="r 0 1\n", capture_output=True, text=True, timeout=60)
    same("without standard error", (done.returncode, done.stdout), (0, "0 11\n"))


CHECKS = [value for name, value in list(globals().items()) if callable(value) and getattr(value, "__module__", "") == "__main__"
          and name not in {"call", "same", "has", "lacks", "files", "formatted", "cached", "content", "change", "Client", "opens", "failing", "main"}]


def main():
    PROGRAMS.cache, PROGRAMS.server, PROGRAMS.meta = (os.path.abspath(it) for it in sys.argv[1:4])
    words, passed, failed = sys.argv[4:], 0, 0
    with tempfile.TemporaryDirectory() as folder:
        PROGRAMS.weather, PROGRAMS.stops = base.build(folder), base.build(folder, "stops")
        for one in CHECKS:
            if words and not any(word in one.__name__ for word in words):
                continue
            place = os.path.join(folder, one.__name__)
            os.mkdir(place)
            os.chdir(place)
            try:
                one()
                passed += 1
            except (Wrong, subprocess.TimeoutExpired, OSError) as wrong:
                failed += 1
                print(f"failed: {one.__name__}: {wrong}", flush=True)
            os.chdir(folder)
    print(f"{passed} passed, {failed} failed")
    return failed > 0


if __name__ == "__main__":
    sys.exit(main())
