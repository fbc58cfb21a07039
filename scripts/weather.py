"""Programs in bad weather: devices that fail, transfers in parts, want of memory, clients and messages that are not as they should be, kills.

    weather.py WBCACHE WBNBD [long] [WORDS ..]

What a program answered is held against a model of what it may answer: a read shows the last write that was answered, or one that was not
answered well; and a run in good weather afterwards shows of each sector what the last answered flush covered, or a later write.
scripts/weather.c makes the weather; it wants the kit, or clang, gcc or cc. It prints what failed, what was tried, and at the end
'N passed, N failed': a check for each kind of weather, program and mode. With `long` there are 100,000 malformed messages, more kills
and transfers in parts, and losses of power in each mode; with WORDS only the kinds in whose name one of them stands.
"""
import collections
import multiprocessing
import os
import random
import shutil
import subprocess
import sys
import tempfile
import threading
import time

from weather_base import DEVICES, MODES, PREPARED, PROGRAMS, WATCHED, Book, Wrong, build, look_again, need, prepare, restore, run, table
import weather_server as server

LINES = """w 0 1 21|r 0 1|flush|w 64 1 22|r 64 1|wf 70 1 23|r 192 1|r 192 1|work|w 192 1 24|status|tick|work|flush|w 256 1 25|r 256 1|
r 256 1|work|r 256 1|work|w 0 1 26|r 0 1|flush|message promote_min 3|w 320 1 27|settle|r 320 1|wf 639 1 28|tick|work|w 128 1 29|r 128 1|
message migration_threshold 4096|r 64 1|suspend|suspend|status""".replace("\n", "").split("|")
IN_PASSTHROUGH = [line if line != "settle" else "message invalidate_cblocks 0-2" for line in LINES]


def lines_of(mode):
    return IN_PASSTHROUGH if mode == "passthrough" else LINES


def run_lines(mode, lines, weather=None):
    return run(PROGRAMS.cache, ["-v", "run", table(mode)], "\n".join(lines) + "\n", weather)


def judge(lines, told, book, refusals):
    """Holds answers against the lines: how many were refused, by number. A refusal of another kind than these is wrong."""
    refused = collections.Counter()
    need(len(told) == len(lines), f"{len(told)} answers to {len(lines)} lines: {told}")
    has_failed = suspended = False
    for line, answer in zip(lines, told):
        word, *numbers = line.split()
        is_refused = answer.startswith("refused ")
        if suspended and word != "status":
            need(answer in ("refused 6 Failed", "refused 7 Memory"), f"'{line}' behind a suspend: {answer}")
            refused[int(answer.split()[1])] += 1
            continue
        if is_refused:
            number = int(answer.split()[1])
            refused[number] += 1
            need(number in refusals, f"'{line}': {answer}")
            need(not (has_failed and number != 6), f"'{line}' once the target had failed: {answer}")
            has_failed |= number == 6 or number == 5 and word in ("w", "wf", "flush", "tick", "suspend")
        else:
            need(not has_failed or word in ("status", "settle"), f"'{line}' once the target had failed: {answer}")
        if word in ("w", "wf"):
            if not is_refused or number in (5, 7):
                book.write(int(numbers[0]), numbers[2], not is_refused)
        elif word == "r" and not is_refused:
            sector, content = answer.split()
            need(int(sector) == int(numbers[0]), f"'{line}': {answer}")
            book.reads(int(sector), content)
        elif word in ("flush", "tick", "settle", "message", "suspend"):
            need(is_refused or answer == "ok", f"'{line}': {answer}")
        elif word == "work":
            need(is_refused or answer.split()[0] in ("promoted", "replaced", "demoted", "cleaned", "idle"), f"'{line}': {answer}")
        elif word == "status":
            need(is_refused or answer == "Fail" or answer.startswith("1 "), f"'{line}': {answer}")
        if word in ("wf", "flush", "tick", "suspend") and not is_refused:
            book.flush()
        suspended |= word == "suspend" and not is_refused
    return refused


def status_of(refused):
    """The exit status that is documented."""
    return 3 if refused[5] or refused[6] else 1 if refused else 0


def sees(lines, found, refusals):
    """Judges a run, the next one, and the exit status: how many refusals there were, and the book of what was written."""
    status, told, _, _ = found
    told, book = told.splitlines(), Book(PREPARED)
    if len(told) == 1 and told[0].startswith("refused "):
        need(int(told[0].split()[1]) in refusals, f"an opening: {told[0]}")
        refused = collections.Counter([int(told[0].split()[1])])
    else:
        refused = judge(lines, told, book, refusals)
    need(status == status_of(refused), f"status {status} where {dict(refused)} were refused")
    look_again(book)
    return refused, book


# --- Kinds of weather. Each gives how much was tried.
def each_call_fails(mode):
    """Each read, write and sync of each device fails in a run of its own."""
    tried = 0
    for name, device in DEVICES.items():
        for call in range(1, 1000):
            restore()
            found = run_lines(mode, lines_of(mode), {"WEATHER_FILE": name, "WEATHER_CALL": call})
            if not found[3]:
                break
            tried += 1
            try:
                refused, _ = sees(lines_of(mode), found, {5, 6})
                # A read that fails as the cache is looked at before its opening is said, and refuses nothing.
                need(refused[5] == 1 or refused[5] == 0 and "a read failed" in found[2], f"{refused[5]} lines were refused with 5")
                need(f"wbcache: {device} file" in found[2] and "Input/output error" in found[2], f"it does not tell the reason: {found[2]}")
            except Wrong as wrong:
                raise Wrong(f"call {call} of {name}: {wrong}") from None
    return tried


# Four blocks are promoted and one replaced, with a flush behind each order.
CLEAN_ROW = [line for s in (0, 64, 128, 192) for line in (f"r {s} 1", f"r {s} 1", "work", "flush")]
CLEAN_ROW += ["r 256 1", "r 256 1", "work", "flush", "r 256 1", "work", "flush", "status", "w 256 1 44", "flush"]
# Four blocks are promoted; the first two are written there, one behind the last flush, and replaced by others: each is written home first.
DIRTY_ROW = ["r 0 1", "r 0 1", "work", "flush", "w 0 1 41", "flush", "r 64 1", "r 64 1", "work", "flush", "w 64 1 42"]
DIRTY_ROW += [line for s in (128, 192) for line in (f"r {s} 1", f"r {s} 1", "work")]
DIRTY_ROW += [line for s in (256, 320) for line in (*(f"r {s} 1",) * 4, "work", "r 128 1", "r 192 1")]
DIRTY_ROW += ["flush", "status", "w 256 1 44", "flush"]
# Each with how many blocks are replaced in good weather, outside passthrough.
ROWS = (CLEAN_ROW, 1), (DIRTY_ROW, 2)
ORIGIN = {sector: f"{0x80 + i:02x}" for i, sector in enumerate(WATCHED)}


def prepare_for_crashes():
    """Files of an empty cache, over an origin that has something in each sector that is looked at: as they are, and as what is durable."""
    restore()
    need(run(PROGRAMS.cache, ["format", table("writeback")])[0] == 0, "formatting")
    with open("o.img", "r+b") as file:
        file.write(bytes(327680))
        for sector, content in ORIGIN.items():
            file.seek(sector * 512)
            file.write(bytes.fromhex(content) * 512)
    for name in DEVICES:
        shutil.copy(name, name + ".durable")


def each_crash(mode, on):
    """Each call of each device fails in a run of its own, and with `on` all behind it; then power is lost: each file is as it was
    synced last, or as it was written last."""
    return sum(each_crash_of(row, replaces, mode, on) for row, replaces in ROWS)


def each_crash_of(row, replaces, mode, on):
    tried = 0
    for name in DEVICES:
        for call in range(1, 1000):
            prepare_for_crashes()
            weather = {"WEATHER_FILE": name, "WEATHER_CALL": call, "WEATHER_ON": on, "WEATHER_DURABLE": 1}
            status, told, said, came = run_lines(mode, row, weather)
            if not came:
                replaced = sum(line.startswith("replaced ") for line in told.splitlines())
                need(replaced == (0 if mode == "passthrough" else replaces), f"in good weather {replaced} blocks are replaced: {told}")
                break
            tried += 1
            told, book = told.splitlines(), Book(ORIGIN)
            try:
                if told[0] not in {f"refused 5 Io {device}" for device in DEVICES.values()} or len(told) > 1:
                    refused = judge(row, told, book, {5, 6})
                    is_look = not on and status == 0 and refused[5] == 0 and "a read failed" in said
                    need(is_look or (refused[5] > 0 if on else refused[5] == 1) and status == 3, f"status {status}, refused {dict(refused)}")
                for file in DEVICES:
                    shutil.copy(file, file + ".newest")
                for base in "durable", "newest":
                    for file in DEVICES:
                        shutil.copy(f"{file}.{base}", file)
                    look_again(book)
            except Wrong as wrong:
                raise Wrong(f"call {call} of {name}: {wrong}") from None
    return tried


# A life that caches four blocks, one of which is dirty at its end, and what each of them shows then.
LIFE = [line for s in (0, 64, 128, 192) for line in (f"w {s} 1 10", f"r {s} 1", "work")] + ["w 0 1 22", "suspend"]
LEFT = "0 22\n64 10\n128 10\n192 10\n"
# The calls that a conversion of one node makes: a sync, and three that read; the node, a sync, the root and its sync.
CALLS = 8


def each_conversion_fails():
    """Each call of the metadata fails in an opening of its own that writes them anew in version 2; then power is lost. All that was cached is there,
    whichever version is asked for then."""
    for name, sectors in ("m.img", 5), ("c.img", 256), ("o.img", 640):
        with open(name, "wb") as file:
            file.truncate(512 * sectors)
    first, second = table("writeback"), "cache m.img c.img o.img 64 1 metadata2 tinylfu 0"
    need(run(PROGRAMS.cache, ["format", first])[0] == 0, "formatting")
    need(run(PROGRAMS.cache, ["run", first], "\n".join(LIFE) + "\n")[0] == 0, "a first life")
    for name in DEVICES:
        shutil.copy(name, name + ".kept")
    looks = 0
    for call in range(1, 100):
        restore()
        for name in DEVICES:
            shutil.copy(name, name + ".durable")
        status, told, said, came = run(PROGRAMS.cache, ["run", second], "status\n", {"WEATHER_FILE": "m.img", "WEATHER_CALL": call, "WEATHER_DURABLE": 1})
        if not came:
            need(call - 1 - looks == CALLS and status == 0, f"{call - 1} calls, {looks} of them looks, and then {status} {told}")
            return call - 1
        if status == 0 and "a read failed" in said:
            # A look at the roots before the opening: it refuses nothing.
            looks += 1
            continue
        need((status, told) == (3, "refused 5 Io metadata\n"), f"call {call}: {status} {told}")
        for name in DEVICES:
            shutil.copy(name, name + ".newest")
        for base in "durable", "newest":
            for asked in first, second:
                for name in DEVICES:
                    shutil.copy(f"{name}.{base}", name)
                found = run(PROGRAMS.cache, ["run", asked], "r 0 1\nr 64 1\nr 128 1\nr 192 1\nstatus\n")
                need(found[0] == 0 and found[1].startswith(LEFT) and " 4/4 " in found[1], f"call {call}, {base}, then '{asked}': {found[:2]}")
    raise Wrong("it makes no end of calls")


def each_format_fails():
    tried = 0
    for call in range(1, 100):
        restore()
        status, told, _, came = run(PROGRAMS.cache, ["format", table("writeback")], "", {"WEATHER_FILE": "m.img", "WEATHER_CALL": call})
        if not came:
            return tried
        tried += 1
        # Where the first sectors cannot be read nothing is written.
        need((status, told) in ((1, ""), (3, "refused 5 Io metadata\n"), (0, "formatted 4 10\n")), f"call {call}: {status} {told}")
        need(run(PROGRAMS.cache, ["format", table("writeback")])[:2] == (0, "formatted 4 10\n"), "formatting again")
    raise Wrong("it makes no end of calls")


def each_request_refused_to_a_formatting():
    tried = 0
    for number in range(1, 1000):
        restore()
        status, told, _, came = run(PROGRAMS.cache, ["format", table("writeback")], "", {"WEATHER_ALLOC": number})
        if not came:
            return tried
        tried += 1
        need((status, told) in ((1, "refused 7 Memory\n"), (0, "formatted 4 10\n")), f"request {number}: {status} {told}")
        need(run(PROGRAMS.cache, ["format", table("writeback")])[:2] == (0, "formatted 4 10\n"), "formatting again")
    raise Wrong("it makes no end of requests")


def in_parts(mode, seeds):
    """Each transfer takes a part, or is interrupted: all answers and files are as without that."""
    restore()
    plain = run_lines(mode, lines_of(mode))
    files = [open(name, "rb").read() for name in DEVICES]
    for seed in range(1, seeds + 1):
        restore()
        found = run_lines(mode, lines_of(mode), {"WEATHER_SHORT": seed, "WEATHER_SIGNALS": 1})
        need(found[:2] == plain[:2], f"seed {seed}: {found[:3]}, and else {plain[:3]}")
        need([open(name, "rb").read() for name in DEVICES] == files, f"seed {seed}: other files")
    return seeds


LANES = ["@1 w 0 1 31", "@2 w 64 1 32", "@1 r 0 1", "@2 flush", "join", "@1 r 64 1", "@2 tr 0 1", "w 128 1 33", "r 0 1", "suspend", "suspend"]
LANES_TOLD = ["@1 ok", "@1 0 31", "@2 ok", "@2 ok", "ok", "0 31", "@1 64 32", "@2 0 31", "ok", "refused 6 Failed"]


def each_request_refused(mode):
    """Each request for memory is refused in a run of its own: one line at the most, with 7. What a flush covered is there behind a
    loss of power, too."""
    tried = met = 0
    for request in range(1, 5000):
        restore()
        for name in DEVICES:
            shutil.copy(name, name + ".durable")
        found = run_lines(mode, lines_of(mode), {"WEATHER_ALLOC": request, "WEATHER_DURABLE": 1})
        if not found[3]:
            need(met > 20, f"{met} of {tried} requests were missed")
            return tried
        tried += 1
        try:
            refused, book = sees(lines_of(mode), found, {6, 7})
            need(refused[7] <= 1, f"{refused[7]} lines")
            met += refused[7]
            for name in DEVICES:
                shutil.copy(name + ".durable", name)
            look_again(book)
        except Wrong as wrong:
            raise Wrong(f"request {request}: {wrong}\n{found[1]}") from None
    raise Wrong("it makes no end of requests")


def each_request_refused_to_lanes():
    """The same of a script with clients beside the first: what is refused to one is refused up to the next join."""
    tried = 0
    for request in range(1, 5000):
        restore()
        found = run_lines("writeback", LANES, {"WEATHER_ALLOC": request})
        if not found[3]:
            return tried
        tried += 1
        told = found[1].splitlines()
        if told == ["refused 7 Memory"]:
            continue
        others = [line for line in told if line not in LANES_TOLD]
        try:
            need(len(told) == len(LANES_TOLD), f"{len(told)} answers")
            # A client without its write shows what stood there before.
            refusals = {f"{who}refused 7 Memory" for who in ("", "@1 ", "@2 ")}
            need(set(others) <= refusals | {"@1 64 12", "@2 0 11", "0 11", "@1 0 11"}, f"{others}")
            need("refused 7 Memory" in " ".join(others) or not others, f"{others}")
            need(found[0] in (1, 3), f"status {found[0]}")
            if told[0] == "@1 ok" and "ok" in told[-2:]:
                need(run(PROGRAMS.cache, ["run", table("writeback")], "r 0 1\n")[1] == "0 31\n", "what was suspended is not there")
        except Wrong as wrong:
            raise Wrong(f"request {request}: {wrong}\n{found[1]}") from None
    raise Wrong("it makes no end of requests")


def each_request_refused_to_an_order():
    """An order that is refused for want of memory is not lost: it waits on, or the next accesses bring it again."""
    tried = met = 0
    for request in range(1, 5000):
        restore()
        status, told, _, came = run(PROGRAMS.cache, ["run", table("writeback")], "r 192 1\nr 192 1\nwork\n" * 2, {"WEATHER_ALLOC": request})
        if not came:
            need(met > 0, f"no order was refused by {tried} requests")
            return tried
        tried += 1
        told = told.splitlines()
        if len(told) == 6 and told[2] == "refused 7 Memory":
            met += 1
            need(told[5].startswith("promoted 3 to "), f"request {request}: {told}")
    raise Wrong("it makes no end of requests")


TASKS = ("w 0 1 11", "promote 0 0", "flush", "w 0 2 22", "suspend")
REPLAY = ["setup writeback 64 4 10 4", *(f"start 0 {task}\nend 0" for task in TASKS), "stop old", "open writeback", "view 0 2"]


def each_request_refused_to_a_replay():
    """A replay ends with 7, or a task is refused 7, or a device fails by want of memory; nothing that was flushed is lost."""
    tried, script = 0, "\n".join(REPLAY) + "\n"
    wanted = run(PROGRAMS.cache, ["replay"], script)[1]
    for request in range(1, 5000):
        status, told, _, came = run(PROGRAMS.cache, ["replay"], script, {"WEATHER_ALLOC": request})
        if not came:
            return tried
        tried += 1
        if told == wanted:
            continue
        need("refused 7 Memory" in told or "refused 5 Io" in told, f"request {request}: {told}")
        ended = ("\n" + told).endswith("\nrefused 7 Memory\n")
        need(status == int(ended), f"request {request}: status {status}, {told}")
    raise Wrong("it makes no end of requests")


def kills(count):
    """Runs that are killed: what a flush covered is there."""
    for seed in range(count):
        restore()
        dice, book, number = random.Random(seed), Book(PREPARED), 0
        words = [PROGRAMS.cache, "run", table(dice.choice(MODES[:2]))]
        process = subprocess.Popen(words, stdin=subprocess.PIPE, stdout=subprocess.PIPE, text=True, bufsize=1)
        killer = threading.Timer(dice.randrange(5, 150) / 1000, process.kill)
        killer.start()
        try:
            while True:
                line = dice.choice(("w", "w", "r", "r", "work", "flush", "wf", "tick"))
                sector = dice.choice(WATCHED)
                number = number % 255 + 1
                if line in ("w", "wf"):
                    # It may land without an answer.
                    book.entries[sector].append(f"{number:02x}")
                    process.stdin.write(f"{line} {sector} 1 {number:02x}\n")
                else:
                    process.stdin.write(f"r {sector} 1\n" if line == "r" else f"{line}\n")
                process.stdin.flush()
                answer = process.stdout.readline()
                if not answer.endswith("\n"):
                    break
                need("refused" not in answer, f"seed {seed}: {answer}")
                if line in ("w", "wf"):
                    book.answered[sector] = len(book.entries[sector]) - 1
                elif line == "r":
                    book.reads(sector, answer.split()[1])
                if line in ("wf", "flush", "tick"):
                    book.flush()
        except OSError:
            pass
        killer.join()
        process.wait()
        process.stdout.close()
        try:
            process.stdin.close()
        except OSError:
            pass
        look_again(book)
    return count


def many_at_once(count):
    """Programs over the same files at once: each is served alone, or refused as locked."""
    restore()
    script = "".join(f"w {sector} 1 41\n" for sector in WATCHED) + "flush\n"
    words = [PROGRAMS.cache, "run", table("writeback")]
    programs = [subprocess.Popen(words, stdin=subprocess.PIPE, stdout=subprocess.PIPE, text=True) for _ in range(count)]
    answers = [(program.communicate(script)[0], program.returncode) for program in programs]
    need(all(it in (("ok\n" * (len(WATCHED) + 1), 0), ("refused 5 Io metadata\n", 3)) for it in answers), f"{answers}")
    need(any(status == 0 for _, status in answers), "all were refused")
    look_again(Book(dict.fromkeys(WATCHED, "41")))
    return count


def kinds(is_long):
    for mode in MODES:
        yield f"each call of a device fails, {mode}", lambda mode=mode: each_call_fails(mode)
        yield f"transfers in parts, {mode}", lambda mode=mode: in_parts(mode, 50 if is_long else 3)
        yield f"each request for memory refused, {mode}", lambda mode=mode: each_request_refused(mode)
        yield f"each call of a server's device fails, {mode}", lambda mode=mode: server.each_call_fails_server(mode)
        for on, what in enumerate(("call", "call from one on") if is_long or mode == "writeback" else ()):
            yield f"each {what} of a device fails and power is lost, {mode}", lambda mode=mode, on=on: each_crash(mode, on)
    yield "each call fails while metadata are converted and power is lost", each_conversion_fails
    yield "each call fails while it is formatted", each_format_fails
    yield "each request for memory refused to a formatting", each_request_refused_to_a_formatting
    yield "each request for memory refused to clients", each_request_refused_to_lanes
    yield "each request for memory refused to an order", each_request_refused_to_an_order
    yield "each request for memory refused to a replay", each_request_refused_to_a_replay
    yield "each request for memory refused to a server", server.each_request_refused_server
    yield "a server's transfers in parts", lambda: server.in_parts_server(50 if is_long else 3)
    yield "a server's transfers interrupted", lambda: server.interrupted_server(5 if is_long else 1)
    yield "malformed messages", lambda: server.messages_refused(100 if is_long else 5)
    yield "bytes of no client", lambda: server.connections_broken(2000 if is_long else 60)
    yield "clients that hang", server.a_client_hangs
    yield "kills", lambda: kills(300 if is_long else 15)
    yield "kills of servers", lambda: server.kills_of_servers(100 if is_long else 8)
    yield "programs at once", lambda: many_at_once(8)


def tried(work):
    """One kind of weather, in a folder of its own: what is told of it, and whether all was right."""
    number, is_long = work
    name, tries = list(kinds(is_long))[number]
    begun = time.time()
    with tempfile.TemporaryDirectory() as folder:
        os.chdir(folder)
        try:
            prepare()
            return f"weather: {name}: {tries()} tried, {time.time() - begun:.1f} s", True
        except Wrong as wrong:
            return f"failed: {name}: {wrong}", False
        finally:
            os.chdir("/")


def main():
    PROGRAMS.cache, PROGRAMS.server = map(os.path.abspath, sys.argv[1:3])
    is_long, chosen = "long" in sys.argv[3:], [it for it in sys.argv[3:] if it != "long"]
    wanted = [(number, is_long) for number, (name, _) in enumerate(kinds(is_long)) if not chosen or any(word in name for word in chosen)]
    outcomes = []
    with tempfile.TemporaryDirectory() as folder:
        PROGRAMS.weather = build(folder)
        if PROGRAMS.weather is None:
            print("not tried: there is no C compiler, by which bad weather is made")
            wanted = []
        with multiprocessing.get_context("fork").Pool() as pool:
            for said, is_right in pool.imap_unordered(tried, wanted, 1):
                print(said, flush=True)
                outcomes.append(is_right)
    print(f"{sum(outcomes)} passed, {len(outcomes) - sum(outcomes)} failed")
    sys.exit(not all(outcomes))


if __name__ == "__main__":
    main()
