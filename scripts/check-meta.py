#!/usr/bin/env python3
"""What wbmeta tells, compares, writes home and takes out of a cache, over files: with devices that fail, and kills at each step.

    check-meta.py WBMETA WBCACHE [WORDS ..]

scripts/weather.c has steps on devices fail, and scripts/stops.c sectors that cannot be read, and kills; they want the kit, or clang, gcc or cc. What a call
leaves is held against what `wbcache run` read before, and against the origin alone. It prints what failed, what was tried, and at the end 'N passed, N
failed'; with WORDS only the themes in whose name one of them stands.
"""
import concurrent.futures
import fcntl
import multiprocessing
import os
import random
import resource
import shutil
import signal
import subprocess
import sys
import tempfile
import time

import images
import weather_base as base
from weather_base import PREPARED, PROGRAMS, TOP, WATCHED, Wrong, need

BLOCK = 64 * 512
TABLE = "cache m.img c.img o.img 64 0 tinylfu 0"
SECOND = "cache m.img c.img o.img 64 1 metadata2 tinylfu 0"
KEPT = "wbmeta: the mapping is kept: before the origin is used alone, detach the cache: wbmeta detach TABLE\n"
HELD = "wbmeta: a server holds the cache: this is the state last committed\n"
# How many changes of a block are tried: fewer with a slow program.
CHANGES = int(os.environ.get("CHANGES", 1000))
# Three blocks in the cache: the last write of each is there alone.
DIRTY = "".join(f"r {s} 1\nr {s} 1\nwork\nw {s} 1 {fill}\n" for s, fill in ((0, 21), (64, 22), (128, 23)))
SHOWN = PREPARED | {0: "21", 64: "22", 128: "23"}


def meta(*words, env=None, **how):
    """A call of wbmeta: its status, what it prints, and what it says on standard error."""
    base.forget_failure()
    environment = {**os.environ, **{name: str(value) for name, value in (env or {}).items()}}
    done = subprocess.run([PROGRAMS.meta, *words], capture_output=True, text=True, env=environment, **{"timeout": 60, **how})
    return done.returncode, done.stdout, done.stderr


def cache(lines, table=TABLE):
    status, told, said, _ = base.run(PROGRAMS.cache, ["run", table], lines)
    need(status == 0, f"wbcache run: {status} {told} {said}")
    return told


def make(table=TABLE, cache_blocks=4, origin_blocks=10, sectors=16):
    """Files of an empty cache."""
    for name, size in (("m.img", sectors * 512), ("c.img", cache_blocks * BLOCK), ("o.img", origin_blocks * BLOCK)):
        if os.path.exists(name):
            os.remove(name)
        with open(name, "wb") as file:
            file.truncate(size)
    status, told, said, _ = base.run(PROGRAMS.cache, ["format", table])
    need(status == 0, f"formatting: {told} {said}")


def dirty(table=TABLE, is_clean=False):
    """Files of a cache with three dirty blocks, left clean or not."""
    make(table)
    cache("w 0 1 11\nw 64 1 12\nw 128 1 13\n" + DIRTY + ("suspend\n" if is_clean else "flush\n"), table)


def counts(table=TABLE):
    status, told, said = meta("check", table)
    need(status == 0 and told.startswith("ok "), f"check: {status} {told} {said}")
    return told.split()[2:]


def shows(wanted, table=TABLE):
    """What a run shows of the sectors that are watched."""
    told = cache("".join(f"r {sector} 1\n" for sector in wanted), table)
    found = dict(line.split() for line in told.splitlines())
    need(found == {str(sector): fill for sector, fill in wanted.items()}, f"it shows {found}, where {wanted} was written")


def origin_has(wanted):
    with open("o.img", "rb") as file:
        data = file.read()
    for sector, fill in wanted.items():
        need(data[sector * 512:sector * 512 + 512] == bytes.fromhex(fill) * 512, f"sector {sector} of the origin is not {fill}")


def files():
    return {name: open(name, "rb").read() for name in base.DEVICES}


def put(kept):
    for name, data in kept.items():
        with open(name, "wb") as file:
            file.write(data)


def same(name, found, wanted):
    need(found == wanted, f"{name}: {found}, where {wanted} is wanted")


# --- Looking.
def looks_are_reads():
    """Files that may only be read, by another user where that can be tried; they stay as they were."""
    dirty(is_clean=True)
    before = files()
    for name in base.DEVICES:
        os.chmod(name, 0o444)
    os.chmod(".", 0o755)
    who = {"user": 65534} if os.getuid() == 0 else {}
    try:
        status, told, said = meta("check", TABLE, **who)
        same("check", (status, told.split()[2:], said), (0, ["clean", "3", "3"], ""))
        same("dump", meta("dump", TABLE, **who)[0], 0)
        same("verify", meta("verify", TABLE, **who)[:2], (0, "ok 0\n"))
        status, told, _ = meta("writeback", TABLE, **who)
        same("writeback of what may only be read", (status, told), (3, "refused 5 Io metadata\n"))
    finally:
        for name in base.DEVICES:
            os.chmod(name, 0o644)
    same("the files", files() == before, True)


def beside_a_holder():
    """A lock of another program: what is there is told."""
    dirty()
    before = files()
    with open("m.img", "r+b") as held:
        fcntl.flock(held, fcntl.LOCK_EX | fcntl.LOCK_NB)
        status, told, said = meta("check", TABLE)
        same("check", (status, told.split()[2:], said), (0, ["unclean", "3", "3"], HELD))
        status, told, said = meta("dump", TABLE)
        same("dump", (status, told, said), (0, "0 0 dirty 0\n1 1 dirty 0\n2 2 dirty 0\n", HELD))
        status, told, said = meta("verify", TABLE)
        same("verify", (status, told, said.startswith(HELD + "wbmeta: nothing was compared")), (0, "ok 0\n", True))
        for word in ("writeback", "detach"):
            same(word, meta(word, TABLE)[:2], (3, "refused 5 Io metadata\n"))
    same("the files", files() == before, True)
    with open("m.img", "rb") as held:
        fcntl.flock(held, fcntl.LOCK_SH | fcntl.LOCK_NB)
        same("check beside a reader", meta("check", TABLE)[::2], (0, ""))


def beside_a_server():
    """Looks while a program commits: each is answered."""
    make()
    # A commit each millisecond or so: where they come as fast as the files take them, each look may be torn.
    lines = "".join(f"w {64 * (n % 10)} 1 {n % 256:02x}\nr {64 * (n % 10)} 1\nwork\n" + ("flush\n" if n % 200 == 0 else "") for n in range(60_000))
    with subprocess.Popen([PROGRAMS.cache, "run", TABLE], stdin=subprocess.PIPE, stdout=subprocess.DEVNULL, stderr=subprocess.DEVNULL, text=True) as runs:
        writer = concurrent.futures.ThreadPoolExecutor(1)
        sent = writer.submit(lambda: (runs.stdin.write(lines), runs.stdin.close()))
        looked = 0
        time.sleep(0.05)
        while runs.poll() is None and looked < 60:
            status, told, said = meta("check", TABLE)
            need(status == 0 and told.startswith("ok "), f"a look: {status} {told} {said}")
            looked += 1
        sent.result()
    need(looked > 0, "no look was in time")


def words_of_tables():
    """Tables that are none, keys out of their range, and a file that is named twice."""
    make()
    for word in ("check", "dump", "verify", "writeback", "detach"):
        status, told, said = meta(word, "cache m.img c.img o.img 64 0 tinylfu 2 promote_min x")
        same(word, (status, told, "'x'" in said or " x" in said), (1, "refused 16 BadTable\n", True))
        status, told, _ = meta(word, "cache m.img c.img c.img 64 0 tinylfu 0")
        same(f"{word} of a file named twice", (status, told), (3, "refused 5 Io origin\n"))
    for keys, status in (("migration_threshold 4294967295", 0), ("migration_threshold 4294967296", 1), ("promote_min 17", 0), ("promote_min 0", 1), ("promote_min 18", 1)):
        table = f"cache m.img c.img o.img 64 0 tinylfu 2 {keys}"
        for word in ("check", "verify"):
            found, told, _ = meta(word, table)
            same(f"{word} with {keys}", (found, told == "refused 14 BadMessage\n"), (status, status == 1))
    dirty()
    same("passthrough comes first", meta("check", "cache m.img c.img o.img 64 1 passthrough tinylfu 2 promote_min 0")[:2], (1, "refused 13 NotClean\n"))


# --- Comparing.
def nothing_to_compare():
    dirty()
    status, told, said = meta("verify", TABLE)
    same("what was not left clean", (status, told, "3 mapped blocks" in said), (0, "ok 0\n", True))


def changes_are_found():
    """Changes of one bit of a block, in the cache or on the origin: each is found, and no other block."""
    make(cache_blocks=40, origin_blocks=60, sectors=40)
    dice = random.Random(7)
    mapped = dice.sample(range(60), 40)
    cache("".join(f"w {64 * b} 64 {b + 1:02x}\nr {64 * b} 1\nr {64 * b} 1\nwork\n" for b in mapped) + "suspend\n")
    meta("writeback", TABLE)
    listed = [line.split() for line in meta("dump", TABLE)[1].splitlines()]
    need(len(listed) == 40 and all(line[2] == "clean" for line in listed), f"listed: {listed}")
    same("all are the same", meta("verify", TABLE), (0, "ok 40\n", ""))

    def try_change(number):
        dice = random.Random(number)
        at, home = map(int, dice.choice(listed)[:2])
        name, first = dice.choice((("c.img", at), ("o.img", home)))
        offset = first * BLOCK + dice.choice((0, BLOCK - 1, dice.randrange(BLOCK)))
        return at, home, name, offset, 1 << dice.randrange(8)

    def run_of(numbers, folder):
        os.mkdir(folder)
        for device in base.DEVICES:
            shutil.copy(device, folder)
        table = "cache " + " ".join(f"{folder}/{device}" for device in base.DEVICES) + " 64 0 tinylfu 0"
        for number in numbers:
            at, home, name, offset, bit = try_change(number)
            for turn in range(2):
                with open(f"{folder}/{name}", "r+b") as file:
                    file.seek(offset)
                    byte = file.read(1)[0]
                    file.seek(offset)
                    file.write(bytes([byte ^ bit]))
                if turn == 0:
                    same(f"a change of {name} at {offset}", meta("verify", table)[:2], (1, f"{at} {home} differs\n"))

    with concurrent.futures.ThreadPoolExecutor(4) as pool:
        for done in [pool.submit(run_of, range(n, CHANGES, 4), f"changes{n}") for n in range(4)]:
            done.result()


def comparing_fails():
    """A device that fails meanwhile: which block it was."""
    dirty(is_clean=True)
    meta("writeback", TABLE)
    for name, device in (("c.img", "cache"), ("o.img", "origin")):
        env = {"LD_PRELOAD": PROGRAMS.stops, "STOPS_BAD": name, "STOPS_FROM": BLOCK, "STOPS_TO": BLOCK + 512}
        status, told, said = meta("verify", TABLE, env=env)
        same(f"verify where {name} fails", (status, told, "cache block 1 and origin block 1" in said), (3, f"refused 5 Io {device}\n", True))


# --- Writing home.
def written_home():
    """What is said, and what is left: of either version, left clean or not."""
    for table in (TABLE, SECOND):
        for is_clean in (False, True):
            dirty(table, is_clean)
            same("written back", meta("writeback", table), (0, "ok 3\n", KEPT))
            same("and left", counts(table), ["clean", "3", "0"])
            origin_has(SHOWN)
            same("compared", meta("verify", table)[:2], (0, "ok 3\n"))
            same("and again", meta("writeback", table), (0, "ok 0\n", KEPT))
            shows(SHOWN, table)
            dirty(table, is_clean)
            same("detached", meta("detach", table), (0, "ok 3\n", ""))
            same("and empty", counts(table), ["clean", "0", "0"])
            origin_has(SHOWN)
            shows(SHOWN, table)
            cache("suspend\n", table)
            same("detached again", meta("detach", table), (0, "ok 0\n", ""))
    dirty(is_clean=True)
    same("a version that is asked for", meta("writeback", SECOND)[:2], (0, "ok 3\n"))
    same("is made", " metadata2 " in cache("status\n"), True)
    dirty(is_clean=True)
    same("but not by a detach", meta("detach", SECOND)[:2], (0, "ok 3\n"))
    same("which leaves it", " metadata2 " in cache("status\n"), False)


def bad_sectors():
    """A sector of the cache that cannot be read: the others come home, that block stays dirty and is named, and nothing is taken out."""
    for table in (TABLE, SECOND):
        for is_clean in (False, True):
            for word in ("writeback", "detach"):
                dirty(table, is_clean)
                env = {"LD_PRELOAD": PROGRAMS.stops, "STOPS_BAD": "c.img", "STOPS_FROM": 512, "STOPS_TO": 1024}
                status, told, said = meta(word, table, env=env)
                same(f"{word} past a bad sector", (status, told), (3, "refused 5 Io cache\n"))
                same("it is named", said.count("cache block 0, of origin block 0, was not written home"), 1)
                same("and stays", counts(table), ["clean", "3", "1"])
                origin_has({64: "22", 128: "23"})
                shows(SHOWN, table)


def failing_devices(word, on):
    """Each step of a device fails, that one alone or all from there on: what is answered well is done, and else it is said what failed."""
    tried = 0
    for name, device in base.DEVICES.items():
        for step in range(1, 200):
            dirty(is_clean=step % 2 == 0)
            weather = {"WEATHER_FILE": name, "WEATHER_CALL": step, "WEATHER_ON": on}
            status, told, said, came = base.run(PROGRAMS.meta, [word, TABLE], weather=weather)
            if not came:
                same("without weather", (status, told), (0, "ok 3\n"))
                break
            tried += 1
            judge(f"{word}, step {step} of {name} (and on: {on})", word, device, status, told, said)
    print(f"tried: {tried} steps of {word} that fail")


def judge(where, word, device, status, told, said):
    """A call in bad weather is answered well where all is done, and else with 3; nothing is lost."""
    if status == 0:
        need(told.startswith("ok "), f"{where}: {told}")
        same(where, counts(), ["clean", "3" if word == "writeback" else "0", "0"])
        origin_has(SHOWN)
    else:
        same(where, (status, told), (3, f"refused 5 Io {device}\n"))
        need("failed" in said or "not written home" in said, f"{where}: it says {said!r}")
    if said.count("not written home") > 0:
        need(status == 3 and counts()[2] != "0", f"{where}: {status} {told}, and it says {said!r}")
    shows(SHOWN)
    same(f"{where}, in good weather then", meta("writeback", TABLE)[0], 0)
    origin_has(SHOWN)


def limits():
    """No file may grow or be written past a size: the writes fail."""
    dirty()
    how = {"preexec_fn": lambda: resource.setrlimit(resource.RLIMIT_FSIZE, (512, 512)), "restore_signals": False}
    status, told, said = meta("writeback", TABLE, **how)
    need(status == 3 and told.startswith("refused 5 Io"), f"with a limit of the size: {status} {told} {said}")
    shows(SHOWN)
    how = {"preexec_fn": lambda: resource.setrlimit(resource.RLIMIT_NOFILE, (7, 7))}
    status, told, said = meta("writeback", TABLE, **how)
    same("with seven descriptors", (status, told), (0, "ok 3\n"))


def kills(word, table, is_clean):
    """A kill at each step of a call: the same is shown, and a later call ends it."""
    dirty(table, is_clean)
    kept = files()
    for step in range(1, 1000):
        put(kept)
        status, told, _ = meta(word, table, env={"LD_PRELOAD": PROGRAMS.stops, "STOPS_AT": step})
        if status != -signal.SIGKILL:
            same("a call that no kill met", (status, told), (0, "ok 3\n"))
            return print(f"tried: {step - 1} kills of {word}")
        left = counts(table)
        if is_clean:
            need(left[0] == "clean" and left[1:] in (["3", "3"], ["3", "0"], ["0", "0"]) or table == SECOND, f"a kill at step {step}: {left}")
        shows(SHOWN, table)
        status, told, _ = meta("detach", table)
        need(status == 0, f"behind a kill at step {step}: {status} {told}")
        same(f"behind a kill at step {step}", counts(table), ["clean", "0", "0"])
        origin_has(SHOWN)
    raise Wrong("there is no end of steps")


def write_mapping(blocks):
    """Has the metadata say, without the clean flag, that each cache block holds the origin block of its number; these hold sectors that the origin lacks."""
    with open("m.img", "r+b") as file:
        data = file.read()
        sectors = [data[at:at + 512] for at in range(0, len(data), 512)]
        row = {c: 1 | c << 16 for c in range(blocks)}
        top = images.plant(random.Random(1), sectors, images.MAPPING, 1, blocks, row, list(range(2, len(sectors))))
        sectors[1] = images.root_sector(1, 1, 0, 64, blocks, blocks, len(sectors), top, 0)
        file.seek(0)
        file.write(b"".join(sectors))
    with open("c.img", "r+b") as file:
        for b in range(blocks):
            file.seek(b * BLOCK)
            file.write(bytes([b % 255 + 1]) * 512)


def rounds_last():
    """A drain of more blocks than a round has, which is killed again and again, ends."""
    blocks = 10000
    make(cache_blocks=blocks, origin_blocks=blocks, sectors=1400)
    write_mapping(blocks)
    same("what is dirty", counts(), ["unclean", str(blocks), str(blocks)])
    left, calls = blocks, 0
    for calls in range(1, 8):
        status, told, said = meta("writeback", TABLE, env={"LD_PRELOAD": PROGRAMS.stops, "STOPS_AT": 9500}, timeout=300)
        if status != -signal.SIGKILL:
            break
        state, mapped, now = counts()
        need((state, mapped) == ("clean", str(blocks)) and int(now) <= left - 4096, f"of {left} dirty blocks {now} are dirty: {state}")
        left = int(now)
    need(status == 0 and told == f"ok {left}\n", f"call {calls}: {status} {told} {said}")
    origin_has({64 * b: f"{b % 255 + 1:02x}" for b in range(blocks)})
    same("all of it", counts(), ["clean", str(blocks), "0"])
    print(f"tried: {blocks} blocks in {calls} calls")


WRITES = ("writeback", "detach")
THEMES = [(rounds_last,), (changes_are_found,), *((kills, word, table, is_clean) for word in WRITES for table in (TABLE, SECOND) for is_clean in (False, True)),
          *((failing_devices, word, on) for word in WRITES for on in (0, 1)), (written_home,), (bad_sectors,), (looks_are_reads,), (beside_a_holder,), (beside_a_server,),
          (words_of_tables,), (nothing_to_compare,), (comparing_fails,), (limits,)]


def try_theme(number):
    """Tries a theme in a folder of its own: whether it passed."""
    (theme, *words), begun = THEMES[number], time.monotonic()
    place = f"theme{number}"
    os.mkdir(place)
    os.chdir(place)
    try:
        theme(*words)
        return True
    except (Wrong, subprocess.TimeoutExpired) as wrong:
        print(f"failed: {theme.__name__}: {wrong}", flush=True)
        return False
    finally:
        os.chdir("..")
        shutil.rmtree(place)
        if os.environ.get("CHECK_TIMES"):
            print(f"{theme.__name__} {words}: {time.monotonic() - begun:.1f} s", file=sys.stderr, flush=True)


def main():
    PROGRAMS.meta, PROGRAMS.cache = (os.path.abspath(word) for word in sys.argv[1:3])
    folder = tempfile.mkdtemp(dir="/dev/shm" if os.path.isdir("/dev/shm") else None)
    try:
        os.chmod(folder, 0o755)
        os.chdir(folder)
        PROGRAMS.weather = base.build(folder)
        if PROGRAMS.weather is None:
            print("not tried: there is no C compiler, by which devices fail")
            print("0 passed, 0 failed")
            return
        PROGRAMS.stops = base.build(folder, "stops")
        wanted = [n for n, theme in enumerate(THEMES) if not sys.argv[3:] or any(word in theme[0].__name__ for word in sys.argv[3:])]
        with multiprocessing.Pool(min(4, os.cpu_count() or 1)) as pool:
            results = pool.map(try_theme, wanted, chunksize=1)
    finally:
        os.chdir("/")
        shutil.rmtree(folder, ignore_errors=True)
    print(f"{sum(results)} passed, {results.count(False)} failed")
    sys.exit(not all(results))


main()
