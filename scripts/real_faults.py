#!/usr/bin/env python3
"""The cache over ext4 on a device whose writes fail for a moment, as the kernel behaves then: it marks the pages clean, keeps them, and tells once.

    python3 scripts/real_faults.py WBCACHE WBNBD WBMETA [ROUNDS [SEED]]      200 rounds by default; the gate plays 10

As root, on Linux with /dev/fuse and loop devices, nbdkit with its filter 'error', nbdfuse (libnbd-bin), mkfs.ext4 (e2fsprogs) and dd. Where one of
them is missing it says what is not tried. nbdkit serves the image of the disk 'bad', nbdfuse makes a file of it, and a loop device over that file carries ext4.
Its writes fail while the file 'fail' is there. The disk 'good' has none of these between. Each of the three files of the cache lies on one of them.

Where a gap is known, what it loses is printed and not counted.

The power is lost when nbdkit is killed: what the image holds then is mounted as a copy, its journal replayed, and a fresh opening over the copies shows
each sector as of the last flush that was answered 'ok', or as a later write left it. After the checks come rounds of writes, failures and lives that the
dice choose. It prints what failed with the steps that lead there, the seed, and 'N passed, N failed'.
"""
import os
import random
import shutil
import signal
import subprocess
import sys
import tempfile

from real_disks import DEVICES, TOOLS, WATCHED, World, image_of
from weather_base import PROGRAMS, Wrong, need


# --- What is tried in order.
BEGIN = ("w 0 1 11", "r 0 1", "work", "w 64 1 12", "flush")
AGAIN = ("w 0 1 21", "w 64 1 22", "w 128 1 23")


def begun(world):
    """A run with a block in the cache, a flush that was answered, and writes behind it to the cache and to the origin."""
    run = world.run()
    need([world.asked(run, line) for line in BEGIN] == ["ok", "0 11", "promoted 0 to 0", "ok", "ok"], "a first life")
    for line in AGAIN:
        need(world.asked(run, line) == "ok", line)
    return run


def a_refused_flush(world):
    """The flush is refused, the run ends with 3, a mark is obeyed, and behind 'cleared' the cache shows what the disk has."""
    run = begun(world)
    world.fails(True)
    told = world.asked(run, "flush")
    need(told.startswith("refused 5 Io ") and told.split()[3] in [DEVICES[it] for it in world.on_bad], f"a flush over a disk that fails: {told}")
    need(world.asked(run, "flush") == "refused 6 Failed", "a flush behind it")
    status, said = run.ended()
    need(status == 3 and "failed: Input/output error" in said, f"the end: {status}, {said}")
    world.fails(False)
    need(world.differ(), "the system keeps nothing that the disk does not have: the pages are not what is tried")
    world.bad.mend()
    world.is_kept_off()
    world.is_cleared()
    need(not world.differ(), "the pages are not dropped")
    is_open, status, said = world.opens()
    need(is_open and status in (0, 4), f"served then: {is_open}, {status}, {said}")
    run = world.run()
    world.is_read(run)
    need([world.asked(run, line) for line in ("w 1 1 31", "w 192 1 32", "flush")] == ["ok"] * 3, "a life behind it")
    world.power_is_lost()


def writes_home(world):
    """A drain behind 'cleared': then the origin alone has all."""
    run = begun(world)
    world.fails(True)
    world.asked(run, "flush")
    run.ended()
    world.bad.mend()
    world.is_cleared()
    status, told, said = world.meta("writeback")
    need(status == 0 and told.startswith("ok "), f"writing home: {status}, {told}, {said}")
    with open(world.files["o.img"], "rb") as file:
        origin = file.read()
    for sector in WATCHED:
        world.book.opened(sector, f"{origin[sector * 512]:02x}")
        world.book.flush({sector: world.book.answered[sector]})
    world.power_is_lost()


def true_or_refused(world):
    """What was answered 'ok' is there without the power, and something was refused: the failure came."""
    need(any("refused" in it for it in world.steps), f"nothing was refused: {world.steps}")
    world.power_is_lost()


def another_syncs(world, whole=False):
    """Another program syncs and is told of the failure: the flush of ours is refused all the same."""
    run = begun(world)
    world.fails(True)
    world.written_out()
    need(world.synced_by_another(whole), "another program is told of nothing")
    world.fails(False)
    world.asked(run, "flush")
    true_or_refused(world)


def another_syncs_all(world):
    another_syncs(world, whole=True)


def a_younger_client(world, first=(), lines=("@2 w 256 1 31", "@2 flush")):
    """A younger client's flush takes the failure: the older client's flush is not answered 'ok' for a write that was dropped."""
    run = begun(world)
    world.joined(run, ["@1 w 320 1 24", "@1 w 1 1 25"])
    world.fails(True)
    world.written_out()
    if "another" in first:
        need(world.synced_by_another(), "another program is told of nothing")
    world.fails(False)
    world.joined(run, lines)
    world.joined(run, ["@1 flush"])
    true_or_refused(world)


def a_younger_durable_write(world):
    a_younger_client(world, lines=("@2 wf 256 1 31",))


def a_younger_client_and_another(world):
    a_younger_client(world, ("another",))


def the_next_life_is_told(world):
    """What fails behind the end of a run, and nobody was told of: the next opening is refused, and leaves the mark."""
    begun(world).ended()
    world.fails(True)
    world.written_out()
    world.fails(False)
    run = world.run()
    status, said = run.ended()
    need(status == 3 and "a sync failed" in said and os.path.exists(world.mark), f"the next life: {status}, {said}")
    world.is_kept_off()
    world.is_cleared()
    world.is_read(world.run())
    world.power_is_lost()


def shows_the_disk(world, is_dropped):
    """The next life; its flush is answered 'ok' for what it read."""
    if os.path.exists(world.mark):
        world.is_kept_off()
        world.is_cleared()
    elif is_dropped:
        world.dropped()
    run = world.run()
    world.is_read(run)
    world.steps.append("all is read")
    world.asked(run, "flush")
    world.power_is_lost()


def only_another_is_told(world, is_dropped=True):
    """What fails behind the end of a run, and only another program is told of: once the pages are dropped, the next life shows what the disk has."""
    begun(world).ended()
    world.fails(True)
    world.written_out()
    need(world.synced_by_another(), "another program is told of nothing")
    world.fails(False)
    world.steps.append("the end; it fails; another is told; it is well")
    shows_the_disk(world, is_dropped)


def killed_while_it_hangs(world, is_dropped=True):
    """A run that is killed in a flush that fails then: the same."""
    world.hangs(begun(world))
    shows_the_disk(world, is_dropped)


def gap_only_another_is_told(world):
    only_another_is_told(world, is_dropped=False)


def gap_killed_while_it_hangs(world):
    killed_while_it_hangs(world, is_dropped=False)


CHECKS = [(a_refused_flush, it) for it in ("o", "c", "m", "mco")] + [
    (one, "o") for one in (another_syncs_all, a_younger_durable_write, a_younger_client_and_another, the_next_life_is_told, only_another_is_told,
                           writes_home)] + [
    (one, it) for one in (another_syncs, a_younger_client, killed_while_it_hangs) for it in ("o", "c")]
# Where no mark is left and nobody drops the pages, a life reads what the disk does not have, and its flush is answered 'ok'.
KNOWN = [(one, "o") for one in (gap_only_another_is_told, gap_killed_while_it_hangs)]


# --- Rounds.
WORDS = ("w " * 6 + "r " * 4 + "work " * 2 + "flush " * 4 + "wf wf tick tick clients clients " + "kernel " * 3 + "another " * 3 + "drop drop all").split()


def played(world, dice, tally):
    """Lives by the dice, each with a moment in which the bad disk fails; then the power is lost."""
    left, world.number = dice.randint(1, 3), 0
    while left:
        begins, lasts = dice.randrange(-4, 30), dice.randrange(1, 8)
        world.fails(begins < 0)
        run = world.run()
        is_open = run.is_open()
        if is_open:
            world.steps.append("a run over a disk that fails" if begins < 0 else "a run")
            left -= 1
            was_told = lived(world, run, dice, tally, begins, begins + lasts)
            if not left:
                break
            kind = dice.random()
            if kind < 0.2:
                run.killed()
                world.steps.append("killed")
            elif kind < 0.4 and run.process.poll() is None:
                world.hangs(run)
                was_told = True
            else:
                if dice.random() < 0.3:
                    world.asked(run, "suspend")
        else:
            was_told = False
            world.steps.append("an opening is refused")
            tally["openings refused"] += 1
        status, said = run.ended()
        has_failed = "a write failed" in said or "a sync failed" in said
        need(not has_failed or status in (3, -signal.SIGKILL) and world.is_marked(said), f"status {status}, and no mark: {said}")
        need(has_failed or is_open, f"an opening is refused: {said}")
        if dice.random() < 0.5:
            world.written_out()
            world.steps.append("kernel")
        if dice.random() < 0.3:
            was_told |= world.synced_by_another()
            world.steps.append("another")
        is_marked = os.path.exists(world.mark)
        tally["marks"] += is_marked
        if world.bad.mend():
            # The file system was mounted anew, which drops its pages, and a mark that lay on it may be lost.
            tally["mounted anew"] += 1
            was_told = False
        elif is_marked and dice.random() < 0.5:
            world.is_kept_off()
            world.steps.append("kept off")
        if os.path.exists(world.mark):
            world.is_cleared()
            world.steps.append("cleared")
        elif was_told:
            # No program is told of this any more: see KNOWN.
            tally["dropped unmarked"] += 1
            world.dropped()
            world.steps.append("dropped")
    world.power_is_lost()


def lived(world, run, dice, tally, begins, ends):
    """A life: whether another program was told of a failure."""
    def fill():
        world.number = world.number % 250 + 1
        return f"{world.number:02x}"

    was_told, world.is_sure = False, True
    if len(world.runs) > 1:
        world.is_read(run)
    for step in range(dice.randrange(5, 35)):
        if step in (begins, ends):
            world.fails(step == begins)
            world.steps.append("it fails" if step == begins else "it is well")
        word = dice.choice(WORDS)
        if word == "clients":
            lines = []
            for client in (1, 2, 3):
                for _ in range(dice.randrange(3)):
                    at = dice.choice(WATCHED[client::3])
                    lines.append(f"@{client} " + dice.choice((f"w {at} 1 {fill()}", f"wf {at} 1 {fill()}", "flush", f"r {at} 1")))
            if lines:
                world.joined(run, lines)
        elif word in ("kernel", "drop"):
            world.steps.append(word)
            world.written_out()
            if word == "drop":
                world.dropped()
                world.is_sure = False
        elif word in ("another", "all"):
            is_told = world.synced_by_another(word == "all")
            world.steps.append(f"{word} -> {'told' if is_told else 'well'}")
            was_told |= is_told
            tally["another told"] += is_told
        else:
            at = dice.choice(WATCHED)
            line = {"w": f"w {at} 1 {fill()}", "wf": f"wf {at} 1 {fill()}", "r": f"r {at} 1"}.get(word, word)
            told = world.asked(run, line)
            if word in ("flush", "wf", "tick"):
                tally["acknowledged" if told == "ok" else "refused"] += 1
            if told.startswith("refused 6") and dice.random() < 0.5:
                break
    return was_told


def main():
    PROGRAMS.cache, PROGRAMS.server, PROGRAMS.meta = (os.path.abspath(it) for it in sys.argv[1:4])
    rounds = int(sys.argv[4]) if len(sys.argv) > 4 else 200
    seed = int(sys.argv[5]) if len(sys.argv) > 5 else 1
    missing = [it for it in TOOLS if not shutil.which(it)] + [it for it in ("/dev/fuse", "/dev/loop-control") if not os.path.exists(it)]
    missing += ["root"] * (os.geteuid() != 0)
    if missing:
        print(f"not tried: ext4 over a device that fails for a moment wants {', '.join(missing)}")
        print("0 passed, 0 failed")
        return 0
    for number in (signal.SIGTERM, signal.SIGHUP):
        signal.signal(number, lambda *_: sys.exit(1))
    tally = dict.fromkeys(("acknowledged", "refused", "another told", "openings refused", "marks", "mounted anew", "dropped unmarked"), 0)
    passed = failed = 0
    folder = tempfile.mkdtemp(dir="/dev/shm" if os.access("/dev/shm", os.W_OK) else None)

    def tried(name, on_bad, play, image, is_known=False):
        nonlocal passed, failed
        place = os.path.join(folder, "place")
        os.mkdir(place)
        os.chdir(place)
        steps = []
        try:
            with World(image, on_bad) as world:
                steps = world.steps
                play(world)
            passed += 1
        except (Wrong, subprocess.TimeoutExpired, OSError) as wrong:
            failed += not is_known
            print(f"{'known, and not counted' if is_known else 'failed'}: {name}, {on_bad} on the bad disk: {wrong}\n  behind: {' | '.join(steps)}", flush=True)
        finally:
            os.chdir(folder)
            shutil.rmtree(place)

    try:
        try:
            images = [image_of(folder, block) for block in (1024, 4096)]
            os.mkdir(os.path.join(folder, "first"))
            os.chdir(os.path.join(folder, "first"))
            with World(images[0], "o"):
                pass
        except Wrong as wrong:
            print(f"not tried: ext4 over a device that fails for a moment: {wrong}")
            print("0 passed, 0 failed")
            return 0
        for one, on_bad in CHECKS:
            tried(one.__name__, on_bad, one, images[1])
        for one, on_bad in KNOWN:
            tried(one.__name__, on_bad, one, images[1], is_known=True)
        for number in range(rounds):
            dice = random.Random(f"{seed} {number}")
            on_bad, image = dice.choice(("o", "c", "m", "oc", "mc", "mco")), dice.choice(images)
            tried(f"round {number} of seed {seed}", on_bad, lambda world: played(world, dice, tally), image)
        print(f"seed {seed}: {rounds} rounds, {', '.join(f'{count} {name}' for name, count in tally.items())}")
    finally:
        os.chdir("/")
        shutil.rmtree(folder, ignore_errors=True)
    print(f"{passed} passed, {failed} failed")
    return failed > 0


if __name__ == "__main__":
    sys.exit(main())
