"""Power cuts of programs over files, played from a log of what they wrote, synced and answered.

    power.py WBCACHE WBNBD WBMETA [LIVES [SEED [PROCESSES [DEAF]]]]

So many lives of `wbcache run` (with clients beside the first) and as many of `wbnbd` (with up to twelve requests in flight), by default 16, run in
sequences of four over files of their own, with scripts/weather.c loaded: it notes each write, the begin and the end of each sync, and each answer. In
some lives a read, a write or a sync fails, which lands or not. Then the log is cut at random, and at each cut files are made whose sectors each
have what they held as the last sync began that had ended by then, or one of the contents written since, in several mixes, each device by itself. A
program opens them, and what it shows is held against the writes that were sent: of each sector a content at or behind the floor, which is what
every write left that had been answered when the last flush began that was answered before the cut. Some of these openings are logged and cut
themselves, some of them fail at a step, and the openings behind these are cut once more; where one was answered, the next shows the same.
Of some cuts `wbmeta writeback` brings all home, and the origin alone has to hold what was shown; some of these calls are cut. The last cut of a life is where the next one begins.
Every second sequence has a cache of 40 blocks, with a mapping of several nodes, else it has 4. DEAF names files (m, c, o) whose syncs make nothing
durable, as a disk that answers flushes and does not do them: then there has to be much that fails.

It prints what failed (and keeps the files and the reason in a folder that it names), what was tried, and 'N passed, N failed': a check for
each sequence.
"""
import collections
import multiprocessing
import os
import random
import select
import struct
import subprocess
import sys
import tempfile
import time
import types

import weather_base as weather
from lives_files import run_of
from weather_base import DEVICES, MODES, PROGRAMS, Wrong, need
from weather_server import END, FLUSH, HELLO, READ, WRITE, ZEROES, request

LIVES, BATCH = 16, 4
# Files in memory, where that is there: a sync of a disk takes long.
FOLDER = "/dev/shm" if os.path.isdir("/dev/shm") else None
# Metadata sectors, cache blocks and origin blocks.
SMALL, LARGE = (4, 4, 10), (16, 40, 60)
# Of the sequence that is played: the sectors that are used, and whose syncs make nothing durable.
PLACE = types.SimpleNamespace(sectors=[], deaf="")


# --- What was written, synced and answered.
class Log:
    """The steps of a life, in the order in which they came, over files as they stood before it."""

    def __init__(self, files):
        self.files, self.steps, data, at = files, [], read("journal"), 0
        while at < len(data):
            kind, device, (offset, size) = data[at:at + 1], chr(data[at + 1]), struct.unpack_from("<QQ", data, at + 2)
            self.steps.append((kind, device, offset, data[at + 18:at + 18 + size]))
            at += 18 + size

    def states(self):
        """At each place between two steps: what each sector durably holds, what was written to it since, and how much was answered."""
        durable = {device: bytearray(data) for device, data in self.files.items()}
        since, begun, answered = {}, {}, 0
        yield durable, since, answered
        for number, (kind, device, offset, data) in enumerate(self.steps):
            if kind == b"w":
                need(offset % 512 == 0 and len(data) % 512 == 0, f"a write of {len(data)} at {offset} of {device}")
                for at in range(0, len(data), 512):
                    since.setdefault((device, (offset + at) // 512), []).append((number, data[at:at + 512]))
            elif kind == b"b":
                begun[device, offset] = number
            elif kind == b"s" and device not in PLACE.deaf:
                made_durable(durable, since, device, begun.pop((device, offset)))
            elif kind == b"a":
                answered += offset
            yield durable, since, answered


def made_durable(durable, since, device, begun):
    """A sync ended: what was written before it began is durable; what was written since may be."""
    for its, sector in [it for it in since if it[0] == device]:
        before = [data for number, data in since[its, sector] if number < begun]
        if before:
            durable[device][sector * 512:sector * 512 + 512] = before[-1]
            del since[its, sector][:len(before)]
            if not since[its, sector]:
                del since[its, sector]


def mixed(dice, durable, since):
    """Files that the cut may leave: each sector has what is durable, or any of what was written since."""
    files, chosen = {device: bytearray(data) for device, data in durable.items()}, 0
    for device in files:
        sectors = sorted(sector for its, sector in since if its == device)
        how, few = dice.choice(("old", "new", "any", "any", "few", "most")), set(dice.sample(sectors, min(len(sectors), 2)))
        for sector in sectors:
            contents = [data for _, data in since[device, sector]]
            if how == "any" or how in ("few", "most") and sector in few:
                at = dice.randrange(-1, len(contents))
            else:
                at = len(contents) - 1 if how in ("new", "most") else -1
            if at >= 0:
                files[device][sector * 512:sector * 512 + 512] = contents[at]
                chosen += 1
    return files, chosen


def look():
    """A script that reads each sector that is used."""
    return "".join(f"r {sector} 1\n" for sector in PLACE.sectors)


def read(name):
    with open(name, "rb") as file:
        return file.read()


def put(files):
    for name in DEVICES:
        with open(name, "wb") as file:
            file.write(files[name[0]])


def stands():
    return {name[0]: read(name) for name in DEVICES}


def logged(more=None):
    """The environment of a program whose steps are noted, and may fail."""
    if os.path.exists("journal"):
        os.remove("journal")
    return weather.environment_of({"WEATHER_JOURNAL": "journal", **(more or {})})


def failing(dice):
    """What has a call of a device fail, one time in four; its last calls are seldom reached. Some syncs take long."""
    slow = {"WEATHER_SLOW": dice.choice((0, 0, 300, 2000))}
    if dice.randrange(4):
        return slow
    return {**slow, "WEATHER_FILE": dice.choice(list(DEVICES)), "WEATHER_CALL": dice.choice((1, 2, 3, 5, 8, 13, 21, 34, 55)) + dice.randrange(5),
            "WEATHER_ON": dice.getrandbits(1), "WEATHER_LANDS": dice.getrandbits(1)}


# --- What may be shown.
class Book:
    """Of each sector what the opening showed and what was sent since; and what each answer says of them, by where in the answers it ends."""

    def __init__(self, shown):
        self.writes = {sector: [fill] for sector, fill in shown.items()}
        # What was answered, and what an answered flush covers, each with where in the answers that stands.
        self.answered, self.covered = {}, []

    def send(self, run, fill=None):
        """A write is sent: what it fills these sectors with, and where that stands."""
        taken = {its for sector in run for its in self.writes[sector]}
        free = [its for at in range(1, 256) if (its := f"{at:02x}") not in taken]
        fill = fill or (free[len(self.writes[run[0]]) % len(free)] if free else "ff")
        for sector in run:
            self.writes[sector].append(fill)
        return fill, {sector: len(self.writes[sector]) - 1 for sector in run}

    def answer(self, places, end):
        self.answered.update((place, end) for place in places.items())

    def cover(self, places, end):
        """A flush is answered, which covers what was answered of this."""
        self.covered.append((end, {sector: at for sector, at in places.items() if (sector, at) in self.answered or at == 0}))

    def last(self):
        """What each answered write left last, and where that stands."""
        places = {}
        for sector, at in self.answered:
            places[sector] = max(at, places.get(sector, 0))
        return places

    def allowed(self, answered):
        """What each sector may show where so much had been answered."""
        floor = dict.fromkeys(self.writes, 0)
        for end, places in self.covered:
            if end <= answered:
                for sector, at in places.items():
                    floor[sector] = max(at, floor[sector])
        return {sector: fills[floor[sector]:] for sector, fills in self.writes.items()}, sum(at > 0 for at in floor.values())


class Ended(Exception):
    """The program has ended."""


class Program:
    """A program whose steps are noted: what it says, and where in its answers that ends."""

    def __init__(self, words, environment):
        streams = {"stdin": subprocess.PIPE, "stdout": subprocess.PIPE, "stderr": subprocess.DEVNULL}
        weather.forget_failure()
        self.process, self.data, self.end = subprocess.Popen(words, bufsize=0, env=environment, **streams), b"", 0

    def send(self, data):
        try:
            while data:
                data = data[os.write(self.process.stdin.fileno(), data):]
        except OSError:
            # What it said before it ended is still to be read.
            return

    def more(self):
        need(select.select([self.process.stdout], [], [], 60)[0], "it hangs")
        data = os.read(self.process.stdout.fileno(), 65536)
        if not data:
            raise Ended
        self.data += data

    def take(self, count):
        while len(self.data) < count:
            self.more()
        taken, self.data = self.data[:count], self.data[count:]
        self.end += count
        return taken

    def line(self):
        while b"\n" not in self.data:
            self.more()
        return self.take(self.data.index(b"\n") + 1)[:-1].decode()

    def close(self):
        self.process.stdin.close()
        try:
            while True:
                self.more()
        except Ended:
            pass
        self.process.stdout.close()
        return self.process.wait()


def found(program):
    """What a script finds in each sector; or the refusal of the opening."""
    shown = {}
    program.send(look().encode())
    for sector in PLACE.sectors:
        line = program.line()
        if line.startswith("refused "):
            return line
        need(line.split()[0] == str(sector), f"a read of {sector} prints '{line}'")
        shown[sector] = line.split()[1]
    return shown


# --- Lives.
class Script:
    """Lines for a life of `wbcache run`, each with whose it is, what it writes and what it covers."""

    def __init__(self, dice, book, mode):
        self.dice, self.book = dice, book
        self.words = ["settle"] + ["flush"] * 3 * (dice.getrandbits(2) > 0) + ["wf"] * dice.getrandbits(1)
        self.first_alone = ["work"] * 6 * dice.getrandbits(2) + ["tick"] * dice.getrandbits(1) + ["message invalidate_cblocks 0-2"] * (mode == "passthrough")

    def part(self):
        """Lines up to a join, by who prints what. A sector is one client's until then."""
        lanes = self.dice.choice((0, 0, 0, 1, 2, 4))
        owned, done, before = [[] for _ in range(lanes + 1)], [{} for _ in range(lanes + 1)], self.book.last()
        for sector in PLACE.sectors:
            self.dice.choice(owned).append(sector)
        lines, told = [], [[] for _ in owned]
        for _ in range(self.dice.choice((1, 1, 3, 10, 40))):
            lane = self.dice.randrange(lanes + 1)
            line, places, is_flush = self.line(lane, owned[lane])
            done[lane].update(places)
            lines.append(f"@{lane} {line}" if lane else line)
            told[lane].append((line, places, {**before, **done[0], **done[lane]} if is_flush else None))
        return lines + ["join"] * (lanes > 0), [(lane, *it) for lane, its in enumerate(told) for it in its]

    def line(self, lane, owned):
        word = self.dice.choice(("r", "w", "w", "other"))
        if word == "other" or not owned:
            word = self.dice.choice(self.words + (self.first_alone if lane == 0 else []))
        if word not in ("r", "w", "wf") or not owned:
            word = "flush" if word == "wf" else word
            return word, {}, word in ("flush", "tick")
        run = run_of(self.dice, self.dice.choice(owned), owned)
        if word == "r":
            return f"r {run[0]} {len(run)}", {}, False
        fill, places = self.book.send(run)
        return f"{word} {run[0]} {len(run)} {fill}", places, word == "wf"

    def hear(self, program, lane, line, places, covered, counts, may_fail):
        """Takes in what a line printed; where no step fails, nothing is refused."""
        lead, word = f"@{lane} " if lane else "", line.split()[0]
        told = program.line()
        need(told.startswith(lead), f"'{lead}{line}' prints '{told}'")
        if told.removeprefix(lead).startswith("refused "):
            need(may_fail, f"'{lead}{line}' prints '{told}', and no step failed")
            counts[" ".join(told.removeprefix(lead).split()[::2])] += 1
            return
        for _ in range(int(line.split()[2]) - 1 if word == "r" else 0):
            program.line()
        need(word in ("r", "work") or told == f"{lead}ok", f"'{lead}{line}' prints '{told}'")
        counts["order"] += word == "work" and told != "idle"
        self.book.answer(places, program.end)
        if covered is not None:
            counts["flush answered"] += 1
            self.book.cover(covered, program.end)


def life_of_run(dice, book, counts, weather_now):
    """A life of `wbcache run`; some end with a suspend. Whether it was opened, and how."""
    mode = dice.choice(("writeback", "writeback", *MODES))
    policy = "cleaner" if mode == "writeback" and dice.randrange(5) == 0 else "tinylfu"
    program = Program([PROGRAMS.cache, "run", f"cache m.img c.img o.img 64 1 {mode} {policy} 0"], logged(weather_now))
    script, may_fail = Script(dice, book, mode), "WEATHER_FILE" in weather_now
    try:
        if isinstance(refusal := found(program), str):
            need(refusal == "refused 13 NotClean" and mode == "passthrough" or may_fail and " Io " in refusal, f"an opening in {mode}: {refusal}")
            return f"opening refused in {mode}"
        need(all(fill == book.writes[sector][0] for sector, fill in refusal.items()), "another opening shows something else")
        for _ in range(dice.choice((3, 10, 30))):
            lines, told = script.part()
            program.send(("\n".join(lines) + "\n").encode())
            for its in told:
                script.hear(program, *its, counts, may_fail)
        if dice.randrange(3) == 0:
            program.send(b"suspend\n")
            script.hear(program, 0, "suspend", {}, book.last(), counts, may_fail)
        return f"life in {mode}"
    finally:
        need(program.close() in (0, 1, 3), "a status")


class Client:
    """A client of a server, with some requests in flight: no sector is in two of them, where one writes."""

    def __init__(self, dice, book, program, counts):
        self.dice, self.book, self.program, self.counts = dice, book, program, counts
        self.flying, self.cookie, self.flushes = {}, 0, dice.getrandbits(2) > 0

    def greet(self):
        self.program.send(HELLO)
        self.program.take(18)
        while True:
            _, _, kind, size = struct.unpack(">QIII", self.program.take(20))
            self.program.take(size)
            if kind != 3:
                return kind

    def ask(self, command, run, flags=0):
        self.cookie += 1
        places, content = {}, b""
        if command in (WRITE, ZEROES):
            fill, places = self.book.send(run, "00" if command == ZEROES else None)
            content = bytes.fromhex(fill) * 512 * len(run) if command == WRITE else b""
        covered = {**self.book.last(), **places} if command == FLUSH or flags else None
        self.flying[self.cookie] = command, run, places, covered
        self.program.send(request(command, self.cookie, run[0] * 512 if run else 0, len(run) * 512, flags) + content)

    def hear(self, may_fail):
        magic, error, cookie = struct.unpack(">IIQ", self.program.take(16))
        need(magic == 0x67446698 and cookie in self.flying and (error == 0 or may_fail), f"a reply with error {error} to {self.flying.get(cookie)}")
        command, run, places, covered = self.flying.pop(cookie)
        if error:
            self.counts[f"error {error}"] += 1
            return
        data = self.program.take(512 * len(run)) if command == READ else b""
        need(all(data[at:at + 512] == data[at:at + 1] * 512 for at in range(0, len(data), 512)), "a sector is torn")
        self.book.answer(places, self.program.end)
        if covered is not None:
            self.counts["flush answered"] += 1
            self.book.cover(covered, self.program.end)

    def one_more(self):
        kind = self.dice.randrange(12)
        if kind == 0 and self.flushes:
            return self.ask(FLUSH, [])
        written = {sector for command, run, *_ in self.flying.values() if command != READ for sector in run}
        read_now = {sector for command, run, *_ in self.flying.values() if command == READ for sector in run}
        free = [sector for sector in PLACE.sectors if sector not in (written if kind < 5 else written | read_now)]
        run = run_of(self.dice, self.dice.choice(free), free)
        if kind < 5:
            return self.ask(READ, run)
        return self.ask(ZEROES if kind == 5 else WRITE, run, 1 if kind == 6 and self.flushes else 0)


def life_of_server(dice, book, counts, weather_now):
    mode = dice.choice(("writeback", "writeback", "writethrough"))
    words = [PROGRAMS.server, "-q", "--wait", "10", f"cache m.img c.img o.img 64 1 {mode} tinylfu {dice.choice(('0', '2 promote_min 1'))}"]
    program = Program(words, logged(weather_now))
    client, depth = Client(dice, book, program, counts), dice.choice((1, 4, 12))
    try:
        if client.greet() != 1:
            need("WEATHER_FILE" in weather_now, "a server greets otherwise")
            return f"opening refused in {mode}"
        left = dice.choice((20, 100, 300))
        while left or client.flying:
            while left and len(client.flying) < depth:
                client.one_more()
                left -= 1
            client.hear("WEATHER_FILE" in weather_now)
        program.send(request(END, 0, 0, 0))
    except Ended:
        need("WEATHER_FILE" in weather_now, "a server is gone")
        return f"opening refused in {mode}"
    finally:
        program.close()
    return f"life in {mode}"


# --- Cuts.
class Cutter:
    """Cuts logs, and looks at what is opened then."""

    def __init__(self, dice, counts, cuts):
        self.dice, self.counts, self.cuts, self.why, self.left = dice, counts, cuts, None, None

    def look(self, allowed):
        """Opens the files that stand: what is shown, each as it may be."""
        mode = self.dice.choice(("writeback", "writeback", "writethrough"))
        status, told, _, _ = weather.run(PROGRAMS.cache, ["run", weather.table(mode)], look())
        lines = told.splitlines()
        need(status == 0 and len(lines) == len(PLACE.sectors), f"an opening in {mode} behind a cut: status {status}, {lines[:1]}")
        self.counts["opening behind a cut"] += 1
        return self.judge([line.split()[1] for line in lines], allowed)

    def judge(self, fills, allowed):
        for sector, fill in zip(PLACE.sectors, fills):
            need(fill in allowed[sector], f"sector {sector} shows {fill}, and may show {allowed[sector]}")
        return dict(zip(PLACE.sectors, fills))

    def cut(self, log, cuts, allowed_at, deep):
        """Cuts a log at so many places, or at each: what was shown behind the last one."""
        places = range(len(log.steps) + 1)
        wanted = {*self.dice.sample(places, min(cuts, len(places))), len(places) - 1 if self.dice.getrandbits(1) else 0}
        shown = None
        for number, (durable, since, answered) in enumerate(log.states()):
            if number in wanted:
                allowed, floors = allowed_at(answered)
                for _ in range(2):
                    files, chosen = mixed(self.dice, durable, since)
                    shown = self.one(files, allowed, f"cut {number} of {len(log.steps)}", deep)
                    self.counts["sector unsynced and kept"] += chosen
                self.counts["cut"] += 1
                self.counts["sector with a floor"] += floors
        self.why = None
        return shown

    def one(self, files, allowed, where, deep):
        """Opens files that a cut left."""
        put(files)
        self.why = files, allowed, where
        if deep and self.dice.randrange(8) == 0:
            self.cut_opening(files, allowed, deep)
            put(files)
            self.why = files, allowed, where
        shown = self.look(allowed)
        if self.dice.randrange(4) == 0:
            self.home(shown, deep)
        if deep > 1:
            self.left = files
        return shown

    def home(self, shown, deep):
        """Brings all home: then the origin alone has what was shown. That is cut, too: whatever of it is left, the same is shown."""
        files = stands()
        words = [PROGRAMS.meta, "writeback", weather.table("writeback")]
        weather.forget_failure()
        done = subprocess.run(words, capture_output=True, text=True, timeout=60, env=logged())
        need(done.returncode == 0 and done.stdout.startswith("ok "), f"wbmeta writeback: {done.stdout}{done.stderr}")
        origin = read("o.img")
        for sector, fill in shown.items():
            need(origin[sector * 512:sector * 512 + 512] == bytes.fromhex(fill) * 512, f"sector {sector} of the origin is not {fill}, which was shown")
        self.counts["origin alone"] += 1
        if deep > 1 and self.dice.randrange(2) == 0:
            self.counts["writing back cut"] += 1
            self.cut(Log(files), 3, lambda _: ({sector: [fill] for sector, fill in shown.items()}, 0), 0)

    def cut_opening(self, files, allowed, deep):
        """Logs an opening, which may fail, and cuts it."""
        weather_now = failing(self.dice)
        program, shown = Program([PROGRAMS.cache, "run", weather.table("writeback")], logged(weather_now)), {}
        try:
            shown = found(program)
            if isinstance(shown, str):
                need("WEATHER_FILE" in weather_now and " Io " in shown, f"an opening behind a cut: {shown}")
                self.counts["opening that fails, cut"] += 1
        finally:
            program.close()
        log, opened = Log(files), program.end
        if not isinstance(shown, str):
            self.judge(shown.values(), allowed)
        self.counts["opening cut"] += 1

        def allowed_at(answered):
            # The answers come at once, since all lines are at hand: where one is out, the opening is over.
            is_answered = not isinstance(shown, str) and answered == opened
            return {sector: [fill] for sector, fill in shown.items()} if is_answered else allowed, 0
        self.cut(log, min(self.cuts, 12) if deep > 1 else 4, allowed_at, deep - 1)


def sequence(work):
    """Lives one after the other, each cut: what they met, and what went wrong."""
    (PROGRAMS.cache, PROGRAMS.server, PROGRAMS.meta, PROGRAMS.weather), PLACE.deaf, kind, number, lives, cuts = work
    sectors, cached, blocks = LARGE if number % 2 == 0 else SMALL
    PLACE.sectors = [64 * block + at for block in range(blocks) for at in (0, 1, 2, 63)]
    dice, counts, life = random.Random(f"{kind} {number}"), collections.Counter(), 0
    with tempfile.TemporaryDirectory(dir=FOLDER) as folder:
        os.chdir(folder)
        cutter = Cutter(dice, counts, cuts)
        try:
            put({"m": bytes(512 * sectors), "c": bytes(32768 * cached), "o": bytes(32768 * blocks)})
            said = weather.run(PROGRAMS.cache, ["format", weather.table("writeback")])[:2]
            need(said == (0, f"formatted {cached} {blocks}\n"), f"formatting: {said}")
            shown = dict.fromkeys(PLACE.sectors, "00")
            for life in range(lives):
                files, book, weather_now = stands(), Book(shown), failing(dice)
                counts[(life_of_run if kind == "wbcache run" else life_of_server)(dice, book, counts, weather_now)] += 1
                log, left = Log(files), stands()
                counts["step noted"] += len(log.steps)
                *_, (durable, since, _) = log.states()
                newest = {device: bytearray(data) for device, data in durable.items()}
                for (device, sector), contents in since.items():
                    newest[device][sector * 512:sector * 512 + 512] = contents[-1][1]
                need(newest == left, "the log is not what was written")
                shown = cutter.cut(log, cuts, book.allowed, 2)
                # The next life is the first that opens what the last cut left, or another one.
                if dice.getrandbits(1):
                    put(cutter.left)
            return kind, counts, None
        except (Wrong, Ended, KeyError, subprocess.TimeoutExpired) as wrong:
            return kind, counts, f"{kind}, sequence {number}, life {life}: {wrong!r}{kept(cutter.why, wrong)}"
        finally:
            os.chdir("/")


def kept(why, wrong):
    """Keeps the files of a cut whose opening is wrong."""
    if why is None:
        return ""
    files, allowed, where = why
    folder = tempfile.mkdtemp(prefix="power-cut-", dir=os.environ.get("KEEP", "/tmp"))
    for name in DEVICES:
        with open(f"{folder}/{name}", "wb") as file:
            file.write(files[name[0]])
    with open(f"{folder}/why", "w", encoding="utf-8") as file:
        file.write(f"{where}: {wrong}\n" + "".join(f"{sector} {' '.join(fills)}\n" for sector, fills in allowed.items()))
    return f"\n  {where}; the files as they stood are in {folder}: there `wbcache run '{weather.table('writeback')}'` reads them"


def main():
    lives, seed, processes = (int(word) for word in (sys.argv[4:] + [LIVES, 1, 0][len(sys.argv) - 4:])[:3])
    counts, failed = {kind: collections.Counter() for kind in ("wbcache run", "wbnbd")}, 0
    with tempfile.TemporaryDirectory() as folder, multiprocessing.get_context("fork").Pool(processes or None) as pool:
        library = weather.build(folder)
        if library is None:
            print("not tried: there is no C compiler, by which a log is made\n0 passed, 0 failed")
            return
        programs = (*map(os.path.abspath, sys.argv[1:4]), library)
        works = [(programs, sys.argv[7] if len(sys.argv) > 7 else "", kind, number, min(BATCH, lives - at), 5 if lives <= LIVES else 30) for kind in counts
                 for number, at in enumerate(range(0, lives, BATCH), seed)]
        begun = time.time()
        for kind, more, wrong in pool.imap_unordered(sequence, works, 1):
            counts[kind] += more
            if wrong:
                failed += 1
                print(f"failed: {wrong}", flush=True)
    for kind, its in counts.items():
        print(f"power cuts of {kind}, seed {seed}: " + ", ".join(f"{number} {what}" for what, number in sorted(its.items())))
    print(f"power cuts: {time.time() - begun:.0f} s")
    print(f"{len(works) - failed} passed, {failed} failed")
    sys.exit(bool(failed))


if __name__ == "__main__":
    main()
