"""Lives at random: replays of up to six lives, each in some mode, with faults and stops anywhere, held against histories kept by hand.

    lives.py WBCACHE [COUNT [SEED [PROCESSES]]]

Each replay has a number, from SEED on, and goes by it alone: an odd one is over metadata of version 2, and of the even ones each second one has room for
them, which openings ask for now and then, so that metadata of version 1 are converted in some life. Several actors read, write, flush, promote, demote, clean, replace and suspend, whole
or a few steps at a time; devices fail; power is lost anywhere, within openings and suspends too; and openings follow, after a stop or of a failed
or suspended target as it is. `wbcache replay` is asked one line at a time, so what comes next may hang on what it answered.

The model (lives_model.py) knows of no cache: of each sector it has what was written since the opening, in the order in which it was, and a floor,
which an answered flush or suspend raises to what was finished before it began. A read has to give the last write before it; what an opening shows
has to stand at the floor or behind it; and then the history begins anew with what is shown. It prints what failed and how to play it again, the
seeds, what was tried, and at the end 'N passed, N failed': a check for each hundred replays.
"""
import collections
import multiprocessing
import os
import random
import sys

from lives_model import LOOK, Machine, Model, Wrong

BATCH = 100
MODES = ("writeback", "writethrough", "passthrough")
# Of cache, origin and metadata: the numbers of blocks and of sectors, and the cache blocks that promotions name.
GEOMETRIES = [((4, 10, 4), (0, 1, 2, 3)), ((2, 5, 5), (0, 1)), ((4, 10, 7), (0, 1, 2, 3)), ((40, 45, 8), (0, 1, 33, 39))]
EXTENTS = [(0, 1), (0, 1), (0, 2), (0, 3), (1, 1), (1, 2), (2, 1), (63, 1)]


class Replay:
    """One replay: what is asked of the machine, by the dice."""

    def __init__(self, program, number):
        self.dice, self.counts = random.Random(number), collections.Counter()
        sizes, self.places = self.dice.choice(GEOMETRIES)
        mode = self.dice.choice(MODES)
        self.is_whole = self.dice.randrange(6) == 0
        self.blocks = self.dice.sample(range(sizes[1]), self.dice.choice((2, 3, 5)))
        # Version 2 has a node for the dirty bits besides, which here are those of one leaf.
        self.has_room = number % 4 != 2
        self.metadata, version = sizes[2] + self.has_room, " metadata2" if number % 2 else ""
        self.machine = Machine(program, f"setup {mode} 64 {sizes[0]} {sizes[1]} {self.metadata}{version}")
        self.model = Model(self.machine, self.counts, mode, sizes[1] * 64)
        self.actors = self.dice.sample(range(1, 64), 5)
        self.fill = 0
        # Where blocks seem to be, as far as answers told: which orders are worth a try.
        self.mapped = {}

    def play(self):
        lives = self.dice.randrange(1, 7)
        for life in range(lives):
            for _ in range(self.dice.choice((2, 6, 12, 25))):
                if not self.model.stands or self.model.has_failed and self.dice.randrange(4) == 0:
                    break
                self.act()
            self.end_life()
            self.open_again()
        self.model.settle(self.dice)
        self.counts["replay"] += 1

    # --- Tasks.
    def idle(self):
        return [actor for actor in self.actors if actor not in self.model.tasks]

    def extent(self):
        at, many = (0, 64) if self.is_whole and self.dice.randrange(4) == 0 else self.dice.choice(EXTENTS)
        return 64 * self.dice.choice(self.blocks) + at, many

    def a_task(self):
        """A task for an actor, as a line has it."""
        kind = self.dice.randrange(20)
        at, many = self.extent()
        block = self.dice.choice(self.blocks)
        if kind < 4:
            return f"r {at} {many}"
        if kind < 10:
            self.fill = self.fill % 255 + 1
            return f"w {at} {many} {self.fill:02x}"
        if kind < 13:
            return "flush"
        if kind < 16 or not self.mapped:
            return f"promote {block} {self.dice.choice(self.places)}"
        block = self.dice.choice(list(self.mapped))
        return f"{self.dice.choice(('demote', 'demote', 'clean', 'clean', 'replace'))} {block}"

    def start(self, actor, task):
        """Starts a task, and learns from an order that may not be given."""
        word, *numbers = task.split()
        if word == "replace":
            task += f" {self.dice.choice(self.blocks)}"
        if self.model.start(actor, task):
            return True
        if word == "promote":
            self.mapped.setdefault(int(numbers[0]), int(numbers[1]))
        elif word in ("demote", "clean", "replace"):
            self.mapped.pop(int(numbers[0]), None)
        return False

    def learn(self, task, answer):
        """What an answer tells of where blocks are."""
        if answer != "done":
            return
        word, *numbers = task.split()
        if word == "promote":
            self.mapped[int(numbers[0])] = int(numbers[1])
        elif word in ("demote", "replace"):
            self.mapped.pop(int(numbers[0]), None)
        elif word == "w" and self.model.mode == "passthrough":
            self.mapped.pop(int(numbers[0]) // 64, None)

    def step(self, actor, many=None):
        task = self.model.tasks[actor].text
        answer = self.model.step(actor, many)
        self.learn(task, answer)
        return answer

    def whole(self, actor, task):
        """A task from its start to its answer, or to where it has to wait."""
        if not self.start(actor, task):
            return
        place = self.mapped.get(int(task.split()[1])) if task.startswith("replace") else None
        answer = self.step(actor)
        if task.startswith("replace") and answer == "done" and self.dice.randrange(5):
            follower = self.model.followers.get(actor)
            if self.start(actor, "flush") and self.step(actor) == "done" and place is not None:
                self.whole(actor, f"promote {follower} {place}")

    def act(self):
        """Something that a target with its actors may meet."""
        running, idle, kind = list(self.model.tasks), self.idle(), self.dice.randrange(20)
        if kind < 8 and idle:
            self.whole(self.dice.choice(idle), self.a_task())
        elif kind < 13 and idle:
            self.start(self.dice.choice(idle), self.a_task())
        elif kind == 13:
            self.flush_together()
        elif kind == 14 and running and self.dice.randrange(3) == 0:
            actor = self.dice.choice(running)
            if self.dice.getrandbits(1) and self.step(actor, self.dice.randrange(1, 9)) is not None:
                return
            if actor in self.model.tasks:
                self.model.fault(actor, self.dice.choice(("old", "new")))
        elif kind == 15 and self.dice.randrange(4) == 0:
            self.model.refused_opening(self.dice.choice(self.actors + [0]), self.dice.choice(MODES))
        elif running:
            self.step(self.dice.choice(running), None if kind > 17 else self.dice.choice((1, 1, 2, 3, 5, 8, 70)))

    def flush_together(self):
        """Several flush, a few steps at a time, and write in between."""
        for _ in range(self.dice.randrange(4, 16)):
            idle = self.idle()
            flushing = [actor for actor, task in self.model.tasks.items() if task.text == "flush"]
            kind = self.dice.randrange(8)
            if idle and kind < 2:
                self.start(self.dice.choice(idle), "flush")
            elif idle and kind == 2:
                at, many = self.extent()
                self.fill = self.fill % 255 + 1
                self.whole(self.dice.choice(idle), f"w {at} {many} {self.fill:02x}")
            elif flushing:
                self.step(self.dice.choice(flushing), self.dice.choice((1, 1, 2, 3, None)))

    # --- Ends and openings.
    def stop(self):
        """A stop: all old, all new, or with single sectors otherwise."""
        base, named = self.dice.choice(("old", "new")), {}
        if self.dice.randrange(3):
            for _ in range(self.dice.randrange(1, 5)):
                named[self.a_sector()] = 0 if base == "new" else self.dice.choice((1, 1, 1, 2, 3))
        if base == "old" and not self.model.stands:
            named = {}
        self.model.stop(base, named)

    def a_sector(self):
        """A sector of some device, as a stop names it."""
        device, at = self.dice.choice("mcoo"), self.dice.choice(EXTENTS)[0]
        if device == "m":
            return f"m:{self.dice.randrange(self.metadata)}"
        return f"{device}:{64 * self.dice.choice(self.places if device == 'c' else self.blocks) + at}"

    def end_life(self):
        if not self.model.stands:
            return
        if self.dice.randrange(10) < 4 and not self.model.may_have_failed:
            self.suspend()
        if not self.model.stands:
            return
        if (self.model.has_failed or self.model.is_suspended) and self.dice.randrange(3):
            # It is opened as it is, perhaps after some that are refused.
            for _ in range(self.dice.choice((0, 0, 0, 2))):
                if self.idle():
                    self.whole(self.dice.choice(self.idle()), self.a_task())
            return
        self.stop()

    def suspend(self):
        if self.dice.randrange(4):
            self.model.settle(self.dice)
        actor = self.dice.choice(self.idle() or self.actors)
        if actor in self.model.tasks or not self.start(actor, "suspend"):
            return
        kind = self.dice.randrange(8)
        if kind < 3 and self.step(actor, self.dice.randrange(1, 14)) is None:
            if kind == 0 and self.model.fault(actor, self.dice.choice(("old", "new"))):
                self.step(actor)
            else:
                self.stop()
        elif actor in self.model.tasks:
            self.step(actor)

    def open_again(self):
        """Openings until one is answered done."""
        attempts, opener = 0, None
        while not self.model.stands or attempts == 0:
            attempts += 1
            mode = self.dice.choice(("writeback", "writeback", *MODES)) if attempts < 6 else "writeback"
            if self.has_room and self.dice.randrange(3) == 0:
                mode += " metadata2"
                self.counts["opening that asks for version 2"] += 1
            kind = self.dice.randrange(10) if attempts < 6 else 0
            # An actor that has a task or an opening under way starts none; 'open' is by actor 0, which has no other task.
            free = [it for it in self.idle() if it != opener]
            if kind < 5 or not free:
                self.model.open(mode)
                continue
            actor = opener = self.dice.choice(free)
            self.model.start_opening(actor, mode)
            if self.model.step_opening(actor, self.dice.randrange(12)):
                continue
            if kind == 5:
                self.model.finish_opening(actor)
            elif kind == 6:
                self.model.fault_opening(actor, self.dice.choice(("old", "new")))
            elif kind > 7:
                self.stop()
            # Else it is left where it is, and another opening ends it.


def batch(work):
    """A hundred replays: what they met, and the first that went wrong."""
    program, first, count = work
    counts, wrong = collections.Counter(), None
    for number in range(first, first + count):
        replay = Replay(program, number)
        try:
            replay.play()
        except (Wrong, ValueError, OSError) as why:
            wrong = wrong or f"replay {number}: {why}\n  {' / '.join(it for it in replay.machine.lines if it != LOOK)}"
        finally:
            replay.machine.end()
        counts += replay.counts
    return counts, wrong


def main():
    program = os.path.abspath(sys.argv[1])
    count = int(sys.argv[2]) if len(sys.argv) > 2 else 1500
    first = int(sys.argv[3]) if len(sys.argv) > 3 else 1
    processes = int(sys.argv[4]) if len(sys.argv) > 4 else None
    counts, failed = collections.Counter(), 0
    works = [(program, at, min(BATCH, first + count - at)) for at in range(first, first + count, BATCH)]
    with multiprocessing.Pool(processes) as pool:
        for more, wrong in pool.imap_unordered(batch, works):
            counts += more
            if wrong:
                failed += 1
                number = wrong.split(":")[0].split()[1]
                print(f"failed: {wrong}\n  again: python3 scripts/lives.py {sys.argv[1]} 1 {number}", flush=True)
    print(f"lives: replays {first} to {first + count - 1}: " + ", ".join(f"{number} {kind}" for kind, number in sorted(counts.items())))
    print(f"{len(works) - failed} passed, {failed} failed")
    sys.exit(bool(failed))


if __name__ == "__main__":
    main()
