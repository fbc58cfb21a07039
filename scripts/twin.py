"""The target over files and the machine in memory: what the one does with a script, the other does with the same tasks.

    twin.py WBCACHE [SCRIPTS]

In each mode, behind a first life that ends clean, 200 scripts of 40 lines by a fixed generator are run by `wbcache run` and as the same tasks by
`wbcache replay`: each block of a request, each flush (a tick's and a durable write's too), each order that a `work` answered, each mapped block that a message
invalidates, and in every second script a suspend at the end. A replay has no line for an invalidation, and stands in for it by a write of what a sector of
the block holds: in passthrough that takes the block out of the cache, and shows nothing else. All answers are compared; and opened again in write-back over the files as they were synced last, as they were
written last, with one of the contents since the last sync for each sector, and with the next content of each list in turn up to the end of the longest,
behind `stop old`, `stop new` and stops with these positions: the generation, how many blocks are mapped and dirty, and each sector of the origin. So each
content of each list is compared that an opening shows (those of a block that is mapped lie in the cache, the others on the origin); of the lists that
none shows, the number of contents, as of all: a stop that names the position behind the last is skipped, for each sector of all three devices. It prints
what differs, what was tried, and at the end 'N passed, N failed': a check for each mode, with a suspend and without.
"""
import collections
import multiprocessing
import os
import random
import shutil
import struct
import subprocess
import sys
import tempfile

import weather_base as weather

BLOCK, SECTORS, CALLS = 64, 640, 40
MODES = ("writeback", "writethrough", "passthrough")
FILES = ("m.img", "c.img", "o.img")
FIRST_LIFE = ["w 0 2 a1", "w 64 1 a2", "w 128 1 a3", "r 0 1", "work", "r 64 1", "work", "r 128 1", "work", "w 1 1 a4", "suspend"]


NAMED = ("0", "1", "2", "3", "0-2", "1-4", "0-4", "2 0")
# The sector of a block by which its invalidation is stood in for.
STANDS_IN = 40


def table(mode):
    return f"cache m.img c.img o.img {BLOCK} 1 {mode} tinylfu 0"


def script_of(mode, number):
    """Lines for a target; what they write is told apart by the byte."""
    dice, lines = random.Random(f"{mode} {number}"), []
    blocks = dice.sample(range(10), 6)
    for call in range(CALLS):
        kind = dice.randrange(20)
        at = BLOCK * dice.choice(blocks) + dice.choice((0, 0, 1, 62, 63))
        many = min(dice.choice((1, 1, 2, 3, 130)), SECTORS - at)
        if kind < 6:
            lines.append(f"w {at} {many} {call + 1:02x}")
        elif kind < 11:
            lines.append(f"r {at} {many}")
        elif kind < 12:
            lines.append(f"wf {at} {many} {call + 1:02x}")
        elif kind < 16:
            lines.append("work")
        elif mode == "passthrough" and kind == 19:
            lines.append(f"message invalidate_cblocks {dice.choice(NAMED)}")
        else:
            lines.append(dice.choice(("flush", "tick", "settle", "message promote_min 1", "message migration_threshold 4294967295")))
    return lines + ["suspend"] * (number % 2)


def parts(at, many):
    """The blocks of a request, each with its first sector and how many."""
    while many:
        here = min(many, BLOCK - at % BLOCK)
        yield at, here
        at, many = at + here, many - here


class Shown:
    """What sectors hold, which origin block each cache block has, and the sectors that stand in for a block."""

    def __init__(self):
        self.contents, self.cached, self.standing = collections.defaultdict(lambda: "00"), {}, set()

    def note(self, mode, line, answer):
        word, *rest = line.split()
        if word in ("w", "wf"):
            at, many = int(rest[0]), int(rest[1])
            self.contents.update((sector, rest[2]) for sector in range(at, at + many))
            if mode == "passthrough":
                written = {sector // BLOCK for sector in range(at, at + many)}
                self.cached = {place: block for place, block in self.cached.items() if block not in written}
        elif answer.startswith("promoted"):
            self.cached[int(answer.split()[3])] = int(answer.split()[1])

    def invalidate(self, ranges):
        """The writes that stand in for the blocks which leave the cache."""
        for one in ranges:
            begin, _, end = one.partition("-")
            for place in range(int(begin), int(end or int(begin) + 1)):
                if place in self.cached:
                    sector = BLOCK * self.cached.pop(place) + STANDS_IN
                    self.standing.add(("o", sector))
                    yield f"w {sector} 1 {self.contents[sector]}"


def tasks_of(line, answer, shown):
    """The tasks that a line stands for, by its answer where it is an order."""
    word, *rest = line.split()
    if rest[:1] == ["invalidate_cblocks"]:
        return list(shown.invalidate(rest[1:]))
    if word in ("r", "w", "wf"):
        fill = f" {rest[2]}" if word != "r" else ""
        tasks = [f"{word[0]} {at} {many}{fill}" for at, many in parts(int(rest[0]), int(rest[1]))]
        return tasks + ["flush"] * (word == "wf")
    if word in ("flush", "tick"):
        return ["flush"]
    if word == "suspend":
        return ["suspend"]
    if word != "work" or answer == "idle":
        return []
    order, block, *others = answer.replace(" by ", " ").replace(" at ", " ").replace(" to ", " ").split()
    if order == "promoted":
        return [f"promote {block} {others[0]}"]
    if order == "replaced":
        return [f"replace {block} {others[0]}", "flush", f"promote {others[0]} {others[1]}"]
    return [f"{order[:-2] if order == 'cleaned' else order[:-1]} {block}"]


def answers_of(lines, told):
    """The answers of a run by line: a read's are as many as its sectors."""
    answers, at = [], 0
    for line in lines:
        word, *rest = line.split()
        count = int(rest[1]) if word == "r" else 1
        answers.append(told[at:at + count])
        at += count
    weather.need(at == len(told), f"{len(told)} lines of answers, and not {at}")
    return answers


def run(program, mode, lines, environment=None):
    done = subprocess.run([program, "run", table(mode)], input="\n".join(lines) + "\n", capture_output=True, text=True, timeout=60, env=environment)
    return done.returncode, done.stdout.splitlines()


def read(name):
    with open(name, "rb") as file:
        return file.read()


def write(name, data):
    with open(name, "wb") as file:
        file.write(data)


def generation():
    """The newest generation in the metadata file, both of whose slots have a root."""
    with open("m.img", "rb") as file:
        data = file.read(1024)
    return max(struct.unpack_from("<Q", data, at + 8)[0] for at in (0, 512) if data[at:at + 8] == b"WBCROOT1")


def found_again(program):
    """What an opening in write-back tells of the files: as a replay does, and then each sector."""
    newest = generation()
    status, told = run(program, "writeback", ["status", f"r 0 {SECTORS}"])
    weather.need(status == 0, f"opened again: {status} {told[:1]}")
    words = told[0].split()
    return [f"open {newest + 1} {words[3].split('/')[0]} {words[10]}"] + told[1:]


def replayed(program, lines):
    done = subprocess.run([program, "replay"], input="\n".join(lines) + "\n", capture_output=True, text=True, timeout=60)
    weather.need(done.returncode == 0, f"a replay with status {done.returncode}: {done.stdout[-200:]}")
    return done.stdout.splitlines()


def since_sync(initial):
    """By the journal of a run: the files as they were synced last, and of each sector that was written since what was written."""
    files, pending, at = {name[0]: bytearray(data) for name, data in initial.items()}, {}, 0
    data = read("journal")
    while at < len(data):
        kind, device, (offset, size) = data[at:at + 1], chr(data[at + 1]), struct.unpack_from("<QQ", data, at + 2)
        at += 18 + size
        if kind == b"w":
            for i in range(0, size, 512):
                pending.setdefault((device, (offset + i) // 512), []).append(data[at - size + i:at - size + i + 512])
        if kind != b"s":
            continue
        for device, sector in [it for it in pending if it[0] == device]:
            files[device][sector * 512:sector * 512 + 512] = pending.pop((device, sector))[-1]
    return files, pending


def put_contents(synced, pending, position):
    """Writes files in which each sector of cache and origin has the content of its list that is chosen by the number of the last: their names for a stop."""
    files, names = {device: bytearray(data) for device, data in synced.items()}, []
    for (device, sector), contents in sorted(pending.items()):
        chosen = position(len(contents))
        if chosen > 0:
            names.append(f"{device}:{sector}:{chosen}")
            files[device][sector * 512:sector * 512 + 512] = contents[chosen - 1]
    for name in FILES:
        write(name, files[name[0]])
    return names


def past_the_last(pending, standing):
    """A stop for each sector, by the first content that it has not got. Those that stand in for a block have more in the machine."""
    sectors = [(device, sector) for device, count in (("m", 4), ("c", 256), ("o", SECTORS)) for sector in range(count)]
    return [f"stop old {it[0]}:{it[1]}:{len(pending.get(it, ())) + 1}" for it in sectors if it not in standing]


def is_shown(files, device, sector):
    """Whether an opening shows what this sector holds, by the newest root of these metadata and its only node."""
    metadata = files["m"]
    root = max((metadata[at:at + 512] for at in (0, 512)), key=lambda slot: struct.unpack_from("<Q", slot, 8)[0])
    top = struct.unpack_from("<I", root, 40)[0]
    words = struct.unpack_from("<4Q", metadata, 512 * top + 32) if top else ()
    cached = {place: word >> 16 for place, word in enumerate(words) if word & 1}
    return sector // BLOCK in cached if device == "c" else sector // BLOCK not in cached.values()


def compare(program, library, mode, number):
    """Plays a script twice."""
    for name, size in zip(FILES, (2048, 131072, 327680)):
        write(name, bytes(size))
    subprocess.run([program, "format", table(mode)], check=True, capture_output=True)
    lives = [("writethrough", FIRST_LIFE), (mode, script_of(mode, number))]
    events, wanted, shown, invalidated = ["setup writethrough 64 4 10 4"], [], Shown(), 0
    for life, (its_mode, lines) in enumerate(lives):
        initial = {name: read(name) for name in FILES}
        if os.path.exists("journal"):
            os.remove("journal")
        environment = {**os.environ, "LD_PRELOAD": library, "WEATHER_DURABLE": "1", "WEATHER_JOURNAL": "journal"}
        status, told = run(program, its_mode, lines, environment)
        weather.need(status == 0, f"life {life}: status {status}, {told}")
        if life == 1:
            events.append(f"open {its_mode}")
            wanted.append(None)
        for line, answer in zip(lines, answers_of(lines, told)):
            tasks = tasks_of(line, answer[0], shown)
            invalidated += len(tasks) * line.startswith("message")
            shown.note(its_mode, line, answer[0])
            for task in tasks:
                events += [f"start 0 {task}", "end 0"]
                if task.startswith("r "):
                    here, answer = answer[:int(task.split()[2])], answer[int(task.split()[2]):]
                    wanted += [f"0 {it}" for it in here]
                wanted.append("0 done")
    return compare_lists(program, events, wanted, initial, shown.standing, number, invalidated)


def compare_lists(program, events, wanted, initial, standing, number, invalidated):
    """Opens what both have left, behind each way in which power may be lost: how much was compared."""
    synced, pending = since_sync(initial)
    pending = {it: contents for it, contents in pending.items() if it not in standing}
    deepest, dice, counts = max(map(len, pending.values()), default=0), random.Random(number), collections.Counter()
    newest, past = {name: read(name) for name in FILES}, past_the_last(pending, standing)
    for base in "old", "new", "any", *range(1, deepest + 1):
        refused, names = [], None
        if base == "old":
            for name in FILES:
                shutil.copy(name + ".durable", name)
        elif base == "new":
            for name in FILES:
                write(name, newest[name])
        else:
            names = put_contents(synced, pending, lambda last: dice.randrange(last + 1) if base == "any" else min(base, last))
            refused = past if base == "any" else []
        told = replayed(program, events + refused + [f"stop {base}" if names is None else " ".join(["stop old", *names]), "open writeback", f"view 0 {SECTORS}"])
        weather.need(len(told) == len(wanted) + len(refused) + 1 + SECTORS, f"behind {base}: {len(told)} lines of a replay: {told[:len(wanted) + 1]}")
        for one, other in zip(told, wanted):
            weather.need(other is None and one.startswith("open ") or one == other, f"the machine answers '{one}', and the target '{other}'")
        for event, one in zip(refused, told[len(wanted):]):
            weather.need(one == "skipped", f"the machine has a content '{event}'")
        for one, other in zip(told[len(wanted) + len(refused):], found_again(program)):
            weather.need(one == other, f"behind {base} of {deepest} the machine has '{one}', and the files '{other}'")
    for it, contents in pending.items():
        where = "shown" if it[0] != "m" and is_shown(synced, *it) else "hidden"
        counts.update({f"{where} list": 1, f"content of {where} lists": len(contents) + 1})
    counts.update({"list's length": len(past), "invalidated block": invalidated})
    return counts + collections.Counter(line.split()[0] for line in events[1:] if not line.startswith("end") for line in [line.removeprefix("start 0 ")])


def one(work):
    program, library, mode, number = work
    with tempfile.TemporaryDirectory() as folder:
        os.chdir(folder)
        try:
            return mode, number, compare(program, library, mode, number), None
        except weather.Wrong as wrong:
            return mode, number, collections.Counter(), f"{mode}, script {number}: {wrong}"
        finally:
            os.chdir("/")


def main():
    program = os.path.abspath(sys.argv[1])
    scripts = int(sys.argv[2]) if len(sys.argv) > 2 else 200
    counts, wrong = collections.Counter(), set()
    with tempfile.TemporaryDirectory() as folder, multiprocessing.Pool() as pool:
        library = weather.build(folder)
        if library is None:
            print("not tried: there is no C compiler, by which synced files are kept")
            print("0 passed, 0 failed")
            return
        work = ((program, library, mode, number) for mode in MODES for number in range(scripts))
        for mode, number, tasks, fault in pool.imap_unordered(one, work, 4):
            counts += tasks
            if fault and (mode, number % 2) not in wrong:
                wrong.add((mode, number % 2))
                print(f"failed: {fault}")
    print(f"twin: {scripts} scripts in each mode, " + ", ".join(f"{number} {task}" for task, number in counts.most_common()))
    print(f"{2 * len(MODES) - len(wrong)} passed, {len(wrong)} failed")
    sys.exit(bool(wrong))


if __name__ == "__main__":
    main()
