#!/usr/bin/env python3
"""An origin on another machine, played: the origin file is an NBD export of another server, which is killed and started again under the cache.

    far_origin.py WBCACHE [KILLS [SEED]]      20 kills by default

As root, with /dev/fuse, nbdkit (its file and nbd plugins, cache and retry filters) and nbdfuse (libnbd-bin, fuse3); by hand, not a part of the gate.
The far server keeps what it is given in memory of its own until it is told to flush (nbdkit's cache filter), so that a kill of it loses what was not
flushed, as a power cut at the far end does. nbdfuse shows its export as a file, and that is the origin of `wbcache run`, in write-back or
write-through.

First a flush is passed on and done: each time the far server is killed at a random moment under writes, orders and flushes. From then on what is
refused is `5 Io origin` and then `6 Failed`, while a flush with nothing to make durable there succeeds; and once the far server stands again and the
cache is opened anew, each sector shows what the last answered flush covered, or a later write. Then two layers that break a sync's promise are shown to lose what was flushed: a far server that answers flushes and
does not do them (cache=unsafe), and a layer between that connects anew without a word once the far server is back (the retry filter), so that the
next flush is answered well though the far server lost the writes before it. Last, a far server that does not answer is waited for.
It prints what it saw, and 'N passed, N failed'.
"""
import collections
import os
import random
import select
import shutil
import signal
import subprocess
import sys
import tempfile
import threading
import time

import power
import weather_base as weather
from power import PLACE, Book, Ended, Program, Script, found
from weather_base import PROGRAMS, Wrong, need

BLOCKS, CACHED = 10, 4
TABLE = "cache m.img c.img far/disk 64 1 {} tinylfu 0"
REFUSALS = ("refused 5 Io origin", "refused 6 Failed")


def until(holds, what):
    for _ in range(100):
        if holds():
            return
        time.sleep(0.1)
    raise Wrong(f"{what} does not come")


class Far:
    """The far server, what may stand between, and the file that shows its export."""

    def __init__(self, cache="writeback", is_retried=False):
        self.cache, self.is_retried, self.between = cache, is_retried, None
        self.serve()
        socket = "far.sock"
        if is_retried:
            words = ["--filter=retry", "nbd", "uri=nbd+unix:///?socket=far.sock", "retries=100", "retry-delay=1", "retry-exponential=no"]
            self.between, socket = self.nbdkit("between.sock", words), "between.sock"
        os.makedirs("far", exist_ok=True)
        self.fuse = subprocess.Popen(["nbdfuse", "far/disk", f"nbd+unix:///?socket={os.path.abspath(socket)}"], stderr=subprocess.DEVNULL)
        until(lambda: os.path.exists("far/disk"), "the file of nbdfuse")

    def nbdkit(self, socket, words):
        if os.path.exists(socket):
            os.remove(socket)
        process = subprocess.Popen(["nbdkit", "-f", "--unix", os.path.abspath(socket), *words], stderr=subprocess.DEVNULL)
        until(lambda: os.path.exists(socket), f"the server at {socket}")
        return process

    def serve(self):
        self.server = self.nbdkit("far.sock", ["--filter=cache", "file", "far.img", f"cache={self.cache}"])

    def kill(self):
        self.server.kill()
        self.server.wait()

    def close(self):
        subprocess.run(["fusermount3", "-u", "-z", "far"], stderr=subprocess.DEVNULL)
        for process in (self.fuse, self.between, self.server):
            if process:
                process.terminate()
                try:
                    process.wait(10)
                except subprocess.TimeoutExpired:
                    process.kill()
                    process.wait()


def fresh():
    """Files of an empty cache over a far origin of zeros."""
    for name, size in (("m.img", 2048), ("c.img", 32768 * CACHED), ("far.img", 32768 * BLOCKS)):
        with open(name, "wb") as file:
            file.write(bytes(size))
    far = Far()
    try:
        said = weather.run(PROGRAMS.cache, ["format", TABLE.format("writeback")])[:2]
        need(said == (0, f"formatted {CACHED} {BLOCKS}\n"), f"formatting: {said}")
    finally:
        far.close()


def life(dice, shown, counts):
    """A life whose far server is killed: what may be shown behind it."""
    far, book, mode = Far(), Book(shown), dice.choice(("writeback", "writeback", "writethrough"))
    program = Program([PROGRAMS.cache, "run", TABLE.format(mode)], None)
    killer = threading.Timer(dice.random() * 0.5, far.kill)
    told = collections.Counter()
    try:
        its = found(program)
        need(its == shown, f"an opening shows {its}")
        killer.start()
        script = Script(dice, book, mode)
        last = time.monotonic() + 5
        while told["refused Failed"] < 20 and time.monotonic() < last:
            lines, answers = script.part()
            program.send(("\n".join(lines) + "\n").encode())
            for its in answers:
                script.hear(program, *its, told, True)
            need(not told["refused Failed"] or told["refused Io"], "Failed comes, and no step has failed")
        need(set(it for it in told if it.startswith("refused")) <= {"refused Io", "refused Failed"}, f"refused otherwise: {told}")
        need(told["refused Failed"] or not killer.is_alive(), "the far server was not killed")
    except Ended:
        raise Wrong("it is gone") from None
    finally:
        killer.join()
        status = program.close()
        far.close()
    need(status == 3, f"status {status}")
    counts.update(told)
    counts["life in " + mode] += 1
    return book.allowed(program.end)


def opened(allowed):
    """What a new life shows over a far server that stands again."""
    far = Far()
    try:
        program = Program([PROGRAMS.cache, "run", TABLE.format("writeback")], None)
        shown = found(program)
        need(program.close() == 0 and not isinstance(shown, str), f"opened again: {shown}")
    finally:
        far.close()
    for sector, fill in shown.items():
        need(fill in allowed[sector], f"sector {sector} shows {fill}, and may show {allowed[sector]}")
    return shown


def loses(cache, is_retried):
    """What is shown of a write that was flushed, where the far server is killed: the answers, and the sector behind it."""
    fresh()
    far = Far(cache, is_retried)
    program = Program([PROGRAMS.cache, "run", TABLE.format("writeback")], None)
    try:
        program.send(b"w 0 1 11\n")
        told = [program.line()]
        if is_retried:
            far.kill()
            far.serve()
        program.send(b"flush\n")
        told.append(program.line())
        far.kill()
    finally:
        program.close()
        far.close()
    far = Far()
    try:
        return told, weather.run(PROGRAMS.cache, ["run", TABLE.format("writeback")], "r 0 1\n")[1].strip()
    finally:
        far.close()


def answers():
    """What each line is answered once the far server is gone, beginning with what stands in the cache; and the next run."""
    fresh()
    far = Far()
    program = Program([PROGRAMS.cache, "run", TABLE.format("writeback")], None)
    try:
        told = []
        for line in ("w 0 1 11", "r 0 1", "work", "flush", "", "r 0 1", "w 0 1 22", "r 576 1", "r 0 1", "flush", "r 0 1", "w 0 1 33"):
            if not line:
                far.kill()
                told.append("the far server is killed")
                continue
            program.send(f"{line}\n".encode())
            told.append(f"'{line}' {program.line()}")
    finally:
        told.append(f"status {program.close()}")
        far.close()
    far = Far()
    try:
        again = weather.run(PROGRAMS.cache, ["run", TABLE.format("writeback")], "r 0 1\n")[1].strip()
        return told + [f"and the next run 'r 0 1' {again}"]
    finally:
        far.close()


GONE = ["'w 0 1 11' ok", "'r 0 1' 0 11", "'work' promoted 0 to 0", "'flush' ok", "the far server is killed", "'r 0 1' 0 11", "'w 0 1 22' ok",
        "'r 576 1' refused 5 Io origin", "'r 0 1' 0 22", "'flush' ok", "'r 0 1' 0 22", "'w 0 1 33' ok", "status 3", "and the next run 'r 0 1' 0 33"]


def waits():
    """A far server that does not answer for a second is waited for."""
    fresh()
    far = Far()
    program = Program([PROGRAMS.cache, "run", TABLE.format("writeback")], None)
    try:
        need(found(program) is not None, "an opening")
        far.server.send_signal(signal.SIGSTOP)
        program.send(b"w 0 1 11\nflush\n")
        is_answered = bool(select.select([program.process.stdout], [], [], 1)[0])
        far.server.send_signal(signal.SIGCONT)
        return is_answered, [program.line(), program.line()]
    finally:
        program.close()
        far.close()


def breaking():
    """Layers that keep the promise of a sync, and such as break it."""
    rows = (("a far server that does its flushes", ("writeback", False)), ("one that does not", ("unsafe", False)),
            ("a layer between that connects anew without a word", ("writeback", True)))
    for what, words in rows:
        told, sector = loses(*words)
        print(f"{what}: 'w 0 1 11' {told[0]}, 'flush' {told[1]}; the far server is killed, and then 'r 0 1' prints '{sector}'")
        need(told == ["ok", "ok"] and (sector == "0 00") == (words != ("writeback", False)), "this was not to be seen")
    return len(rows)


def told_line_by_line():
    told = answers()
    print("what is answered: " + ", ".join(told))
    need(told == GONE, "this was not to be seen")
    return 1


def told_late():
    is_answered, told = waits()
    print(f"a far server that stops for a second: nothing is answered meanwhile, and then {', '.join(told)}")
    need(not is_answered and told == ["ok", "ok"], "this was not to be seen")
    return 1


def main():
    PROGRAMS.cache = os.path.abspath(sys.argv[1])
    kills, seed = (int(word) for word in (sys.argv[2:] + [20, 1][len(sys.argv) - 2:])[:2])
    missing = [name for name in ("nbdkit", "nbdfuse", "fusermount3") if not shutil.which(name)]
    if missing or not os.access("/dev/fuse", os.W_OK):
        sys.exit(f"not tried: there is no {', '.join(missing) or 'right to /dev/fuse'}")
    passed, counts, dice = 0, collections.Counter(), random.Random(seed)
    PLACE.sectors = [64 * block + at for block in range(BLOCKS) for at in (0, 1, 2, 63)]
    with tempfile.TemporaryDirectory(dir=power.FOLDER) as folder:
        os.chdir(folder)
        failed = 0
        try:
            fresh()
            shown = dict.fromkeys(PLACE.sectors, "00")
            for number in range(kills):
                allowed, floors = life(dice, shown, counts)
                shown = opened(allowed)
                counts["sector that was flushed, and stood"] += floors
                passed += 1
            print(f"{kills} kills of the far server: " + ", ".join(f"{many} {what}" for what, many in sorted(counts.items())))
            for look in (breaking, told_line_by_line, told_late):
                passed += look()
        except (Wrong, subprocess.TimeoutExpired) as wrong:
            failed += 1
            print(f"failed: behind {passed}: {wrong}")
        os.chdir("/")
    print(f"{passed} passed, {failed} failed")
    return failed


if __name__ == "__main__":
    sys.exit(main())
