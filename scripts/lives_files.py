"""Lives of programs over real files, each ended by a kill at a random moment, one after the other over the same files.

    lives_files.py WBCACHE WBNBD [KILLS [SEED [PROCESSES]]]

So many lives of `wbcache run` (with clients beside the first, writes, durable writes, flushes, ticks and orders) and as many of `wbnbd` (with up to
twelve requests in flight) are ended by a kill, in sequences of 25 over files of their own, in any mode; some lives between them end well, by a
suspend or as a client leaves. Each life begins with a read of every sector that is used. What a flush covered that was answered has to be there, or
a write to the same sector that was sent later. A killed process loses nothing that the system's cache of files has: so where the mapping did not
change since the last flush, each write that was answered has to be there, flushed or not. (Where a block came into the cache or left it since, the
next opening goes by the mapping before, and finds what stood there.) Reads show the last write, and no sector is torn. A suspend leaves the cache
clean for passthrough, which is refused else. With - in place of WBNBD the first half alone is tried. It prints what failed, what was tried, and at
the end 'N passed, N failed': a check for each sequence.
"""
import collections
import multiprocessing
import os
import random
import select
import struct
import subprocess
import sys
import tempfile
import time

import weather_base as weather
from weather_base import MODES, PROGRAMS, Wrong, need
from weather_server import END, FLUSH, HELLO, READ, WRITE, request

KILLS, BATCH = 50, 25
SECTORS = [64 * block + at for block in range(10) for at in (0, 1, 2, 63)]


class Gone(Exception):
    """The program is gone."""


class Book:
    """Of each sector what the opening showed and what was sent since; up to where that was answered, and the floor: what a flush covered that was
    answered. While the mapping is as it was committed last, a kill takes back nothing that was answered."""

    def __init__(self, counts):
        self.counts = counts
        self.writes = {sector: ["00"] for sector in SECTORS}
        self.answered, self.floor = dict.fromkeys(SECTORS, 0), dict.fromkeys(SECTORS, 0)
        # How often the mapping may have changed, and how many of these changes an answered flush covered.
        self.changes = self.committed = 0

    def send(self, run):
        """A write is sent: what it fills these sectors with, and where that stands."""
        taken = {fill for sector in run for fill in self.writes[sector][self.floor[sector]:][-200:]}
        fill = next(fill for at in range(256) if (fill := f"{(len(self.writes[run[0]]) + at) % 255 + 1:02x}") not in taken or at == 255)
        for sector in run:
            self.writes[sector].append(fill)
        return fill, {sector: len(self.writes[sector]) - 1 for sector in run}

    def answer(self, places):
        for sector, at in places.items():
            self.answered[sector] = max(at, self.answered[sector])

    def cover(self, places, changes):
        """A flush is answered that covers this."""
        for sector, at in places.items():
            self.floor[sector] = max(at, self.floor[sector])
        self.committed = max(changes, self.committed)

    def last(self, sector):
        return self.writes[sector][-1]

    def opened(self):
        """All sectors were found, and the mapping is as it was committed."""
        self.changes = self.committed = 0

    def finds(self, sector, fill):
        """What an opening shows of a sector: from now on that alone."""
        least = self.floor if self.changes > self.committed else self.answered
        allowed = self.writes[sector][least[sector]:]
        where = f"{self.changes - self.committed} changes of the mapping may not be flushed"
        need(fill in allowed, f"sector {sector} shows {fill}, and may show {allowed}, where {where}")
        if self.answered[sector] > self.floor[sector]:
            self.counts["sector unflushed and there" if least is self.answered else "sector unflushed and maybe there"] += 1
        self.writes[sector], self.answered[sector], self.floor[sector] = [fill], 0, 0


class Program:
    """A program that is killed at a moment, if it is still there: after some time, or soon after some answers."""

    def __init__(self, words, dice=None):
        self.process = subprocess.Popen(words, stdin=subprocess.PIPE, stdout=subprocess.PIPE, stderr=subprocess.DEVNULL, bufsize=0)
        seconds, self.answers, self.soon = 30, -1, 0
        if dice and dice.randrange(3) == 0:
            seconds = dice.choice((30, 200, 600)) * dice.random() / 1000
        elif dice:
            self.answers, self.soon = dice.randrange(1, 600), dice.choice((0, 0.001, 0.01)) * dice.random()
        self.ends_at, self.was_killed, self.data = time.monotonic() + seconds, False, b""

    def send(self, data):
        try:
            while data and not self.was_killed:
                data = data[os.write(self.process.stdin.fileno(), data):]
        except OSError:
            self.was_killed = self.was_killed or self.process.wait() == -9

    def more(self):
        """Takes in what it says, and kills it when its moment comes; what it said before is still taken in."""
        left = self.ends_at - time.monotonic()
        if left <= 0 and not self.was_killed:
            self.process.kill()
            self.was_killed = True
        if select.select([self.process.stdout], [], [], 20 if self.was_killed else max(left, 0))[0]:
            data = os.read(self.process.stdout.fileno(), 65536)
            if not data:
                raise Gone
            self.data += data
        else:
            need(not self.was_killed, "a killed program is not gone")

    def count(self):
        """One answer more is taken in."""
        self.answers -= 1
        if self.answers == 0:
            self.ends_at = time.monotonic() + self.soon

    def take(self, count):
        self.count()
        while len(self.data) < count:
            self.more()
        taken, self.data = self.data[:count], self.data[count:]
        return taken

    def line(self):
        self.count()
        while b"\n" not in self.data:
            self.more()
        line, self.data = self.data.split(b"\n", 1)
        return line.decode()

    def end(self):
        """Its exit status, once it is gone."""
        self.process.stdin.close()
        try:
            while True:
                self.more()
        except Gone:
            pass
        self.process.stdout.close()
        return self.process.wait()


def run_of(dice, first, allowed):
    """One to three sectors one behind the other, from this on, all of them allowed."""
    run = [first]
    while len(run) < dice.choice((1, 1, 2, 3)) and run[-1] + 1 in allowed:
        run.append(run[-1] + 1)
    return run


# --- wbcache run.
class Script:
    """Lines for a life of `wbcache run`, and what they have to print."""

    def __init__(self, dice, book, mode, counts):
        self.dice, self.book, self.mode, self.counts = dice, book, mode, counts
        # In some lives no order is carried out, in some nothing is flushed.
        self.works, self.flushes = dice.getrandbits(1), dice.getrandbits(2) > 0

    def part(self):
        """Lines up to a join: of each who prints what, in that order. A sector is one client's until then."""
        lanes = self.dice.choice((0, 0, 1, 2, 4))
        self.owned, self.done = [[] for _ in range(lanes + 1)], [{} for _ in range(lanes + 1)]
        for sector in SECTORS:
            self.dice.choice(self.owned).append(sector)
        self.before = dict(self.book.answered)
        lines, told = [], [[] for _ in self.owned]
        for _ in range(self.dice.choice((1, 3, 10, 40))):
            lane = self.dice.randrange(lanes + 1)
            line, prints = self.line(lane)
            lines.append(f"@{lane} {line}" if lane else line)
            told[lane].append(prints)
        if lanes:
            lines.append("join")
        return lines, [(lane, *prints) for lane, its in enumerate(told) for prints in its]

    def line(self, lane):
        """A line for a client, with what it prints: its word, its sectors and what they are filled with or where, and what it covers."""
        kind, owned = self.dice.randrange(20), self.owned[lane]
        if kind > 13 or not owned:
            return self.other_line(lane)
        run = run_of(self.dice, self.dice.choice(owned), owned)
        if kind < 6:
            return f"r {run[0]} {len(run)}", ("r", run, [self.book.last(sector) for sector in run], None)
        word, (fill, places) = "wf" if kind == 6 and self.flushes else "w", self.book.send(run)
        self.done[lane].update(places)
        self.book.changes += self.mode == "passthrough"
        return f"{word} {run[0]} {len(run)} {fill}", (word, run, places, self.covered(lane) if word == "wf" else None)

    def other_line(self, lane):
        words = ["settle"] + ["flush"] * 2 * self.flushes
        if not lane:
            words += ["work"] * 4 * self.works + ["tick"] * self.flushes + ["message migration_threshold 4096"]
            words += ["message invalidate_cblocks 0-2"] * (self.mode == "passthrough")
        word = self.dice.choice(words)
        self.book.changes += word == "work" or "invalidate" in word
        return word, (word, [], {}, self.covered(lane) if word in ("flush", "tick") else None)

    def covered(self, lane):
        """What a flush of this client finds finished: all before the last join, what it did before, and what the first client did, who reads the
        lines. In passthrough another client's write may change the mapping later."""
        changes = 0 if self.mode == "passthrough" and len(self.done) > 1 else self.book.changes
        return {**self.before, **self.done[0], **self.done[lane]}, changes

    def hear(self, program, lane, word, run, places, covered):
        """Takes in what a line printed."""
        lead = f"@{lane} " if lane else ""
        if word == "r":
            for sector, wanted in zip(run, places):
                line = program.line()
                need(line == f"{lead}{sector} {wanted}", f"it prints '{line}', and '{lead}{sector} {wanted}' was written")
            self.counts["sector read"] += len(run)
            return
        line = program.line()
        if word == "work":
            need(line.split()[0] in ("promoted", "replaced", "demoted", "cleaned", "idle"), f"'work' prints '{line}'")
            self.counts["order"] += line != "idle"
        else:
            need(line == f"{lead}ok", f"'{word}' prints '{line}'")
        self.book.answer(places)
        self.counts["write answered"] += bool(run)
        if covered:
            self.counts["flush answered"] += 1
            self.book.cover(*covered)


def find(program, book):
    """Each sector as it is after the opening; or the opening is refused, which is told."""
    program.send("".join(f"r {sector} 1\n" for sector in SECTORS).encode())
    for sector in SECTORS:
        line = program.line()
        if line.startswith("refused "):
            return line
        need(line.split()[0] == str(sector), f"a read of {sector} prints '{line}'")
        book.finds(sector, line.split()[1])
    book.opened()
    return None


def life_of_run(dice, book, counts):
    """A life of `wbcache run`, killed at some moment if it is still there; some end with a suspend."""
    kind, mode = dice.randrange(10), dice.choice(("writeback", *MODES))
    policy = "cleaner" if kind == 0 else "tinylfu"
    mode = "writeback" if kind == 0 else mode
    program = Program([PROGRAMS.cache, "run", f"cache m.img c.img o.img 64 1 {mode} {policy} 0"], dice)
    try:
        refusal = find(program, book)
        if refusal:
            need(refusal == "refused 13 NotClean" and mode == "passthrough", f"an opening in {mode}: {refusal}")
            counts["opening refused in passthrough"] += 1
            return
        counts[f"life in {mode}"] += 1
        script = Script(dice, book, mode, counts)
        parts = dice.randrange(4) if kind < 3 else 100000
        for _ in range(parts):
            lines, told = script.part()
            program.send(("\n".join(lines) + "\n").encode())
            for prints in told:
                script.hear(program, *prints)
        if kind == 0:
            lines = ["tick"] + ["work"] * 5
            book.changes += 5
            program.send(("\n".join(lines) + "\n").encode())
            for word in lines:
                script.hear(program, 0, word, [], {}, None)
        program.send(b"suspend\n")
        script.hear(program, 0, "suspend", [], {}, (dict(book.answered), book.changes))
        counts["suspend"] += 1
    except Gone:
        need(program.was_killed, "it is gone, and nobody killed it")
    finally:
        status = program.end()
    need(program.was_killed or status == 0, f"status {status}")
    counts["kill"] += program.was_killed


# --- wbnbd.
class Client:
    """A client of a server, with some requests in flight: no sector is in two of them, where one writes."""

    def __init__(self, dice, book, program, counts):
        self.dice, self.book, self.program, self.counts = dice, book, program, counts
        self.flying, self.cookie, self.flushes = {}, 0, dice.getrandbits(2) > 0

    def greet(self):
        self.program.send(HELLO)
        self.program.take(18)
        while True:
            _, _, kind, size = struct.unpack(">QIII", self.program.take(20))
            self.program.take(size)
            if kind != 3:
                return kind

    def ask(self, command, run, flags=0):
        """Sends a request."""
        self.cookie += 1
        places, content = {}, b""
        if command == WRITE:
            fill, places = self.book.send(run)
            content = bytes.fromhex(fill) * 512 * len(run)
        # What is finished as it is sent, for a flush or a durable write.
        covered = ({**self.book.answered, **places}, 0) if command == FLUSH or flags else None
        self.flying[self.cookie] = command, run, places, covered
        self.program.send(request(command, self.cookie, run[0] * 512 if run else 0, len(run) * 512, flags) + content)

    def hear(self, is_first=False):
        """Takes in a reply."""
        magic, error, cookie = struct.unpack(">IIQ", self.program.take(16))
        need(magic == 0x67446698 and error == 0 and cookie in self.flying, f"a reply with error {error} to {self.flying.get(cookie)}")
        command, run, places, covered = self.flying.pop(cookie)
        self.book.answer(places)
        self.counts["write answered"] += command == WRITE
        if covered:
            self.counts["flush answered"] += 1
            self.book.cover(*covered)
        if command != READ:
            return
        data = self.program.take(512 * len(run))
        for at, sector in enumerate(run):
            here = data[512 * at:512 * at + 512]
            need(here == here[:1] * 512, f"sector {sector} is torn")
            if is_first:
                self.book.finds(sector, here[:1].hex())
            else:
                last = self.book.last(sector)
                need(here[:1].hex() == last, f"sector {sector} reads {here[:1].hex()}, and {last} was written")
        self.counts["sector read"] += len(run)

    def one_more(self):
        """Another request, of sectors that may be asked for now."""
        kind = self.dice.randrange(12)
        written = {sector for command, run, *_ in self.flying.values() if command == WRITE for sector in run}
        read = {sector for command, run, *_ in self.flying.values() if command == READ for sector in run}
        if kind == 0 and self.flushes:
            self.ask(FLUSH, [])
            return
        taken = written if kind < 4 else written | read
        free = [sector for sector in SECTORS if sector not in taken]
        run = run_of(self.dice, self.dice.choice(free), free)
        if kind < 4:
            self.ask(READ, run)
        else:
            self.ask(WRITE, run, 1 if kind == 4 and self.flushes else 0)


def life_of_server(dice, book, counts):
    """A life of `wbnbd`, killed at some moment; some clients leave before."""
    mode = dice.choice(("writeback", "writeback", "writethrough"))
    # In some lives nothing is promoted: no estimate is 17.
    keys = dice.choice(("0", "2 promote_min 17"))
    program = Program([PROGRAMS.server, "-q", "--wait", "10", f"cache m.img c.img o.img 64 1 {mode} tinylfu {keys}"], dice)
    client, depth, status = Client(dice, book, program, counts), dice.choice((1, 4, 12)), None
    requests = dice.randrange(200) if dice.randrange(10) == 0 else 100000
    try:
        need(client.greet() == 1, "a server greets otherwise")
        for sector in SECTORS:
            client.ask(READ, [sector])
        while client.flying:
            client.hear(True)
        book.opened()
        book.changes += keys == "0"
        counts[f"life in {mode}"] += 1
        while requests and not program.was_killed or client.flying:
            while requests and len(client.flying) < depth:
                client.one_more()
                requests -= 1
            client.hear()
        program.send(request(END, 0, 0, 0))
    except Gone:
        need(program.was_killed, "it is gone, and nobody killed it")
    finally:
        status = program.end()
    need(program.was_killed or status == 0, f"status {status}")
    counts["kill"] += program.was_killed


def sequence(work):
    """Lives one after the other over the same files: what they met, and what went wrong."""
    (cache, server), kind, number, kills = work
    PROGRAMS.cache, PROGRAMS.server = cache, server
    dice, counts = random.Random(f"{kind} {number}"), collections.Counter()
    book, life = Book(counts), 0
    with tempfile.TemporaryDirectory() as folder:
        os.chdir(folder)
        try:
            for name, size in (("m.img", 2048), ("c.img", 131072), ("o.img", 327680)):
                with open(name, "wb") as file:
                    file.truncate(size)
            need(weather.run(cache, ["format", weather.table("writeback")])[:2] == (0, "formatted 4 10\n"), "formatting")
            while counts["kill"] < kills:
                life += 1
                (life_of_run if kind == "wbcache run" else life_of_server)(dice, book, counts)
            program = Program([cache, "run", weather.table("writeback")])
            need(find(program, book) is None and program.end() == 0, "the last run")
            counts["program"] += life
            return kind, counts, None
        except (Wrong, Gone) as wrong:
            return kind, counts, f"{kind}, sequence {number}, life {life}: {wrong}"
        finally:
            os.chdir("/")


def main():
    programs = tuple(map(os.path.abspath, sys.argv[1:3]))
    kills, seed, processes = (int(word) for word in (sys.argv[3:] + [KILLS, 1, 0][len(sys.argv) - 3:])[:3])
    kinds = ("wbcache run", "wbnbd")[:1 if sys.argv[2] == "-" else 2]
    works = [(programs, kind, number, min(BATCH, kills - at)) for kind in kinds
             for number, at in enumerate(range(0, kills, BATCH), seed)]
    counts, failed = {kind: collections.Counter() for kind in kinds}, 0
    with multiprocessing.get_context("fork").Pool(processes or None) as pool:
        for kind, more, wrong in pool.imap_unordered(sequence, works, 1):
            counts[kind] += more
            if wrong:
                failed += 1
                again = f"python3 scripts/lives_files.py {sys.argv[1]} {sys.argv[2]} {BATCH} {wrong.split(',')[1].split()[1]}"
                print(f"failed: {wrong}\n  again (a kill may come at another moment): {again}", flush=True)
    for kind, its in counts.items():
        print(f"lives of {kind}, seed {seed}: " + ", ".join(f"{number} {what}" for what, number in sorted(its.items())))
    print(f"{len(works) - failed} passed, {failed} failed")
    sys.exit(bool(failed))


if __name__ == "__main__":
    main()
