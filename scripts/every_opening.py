"""A stop of the machine and a failing device at each step on a device of a suspend and of the opening behind it, by `wbcache replay`.

    every_opening.py WBCACHE

Behind the mixed run of every_step.py, whole, without its last two tasks and with one more write, so that a dirty block is there, comes a suspend,
and then an opening in each mode that is not refused. Before and after each of their steps on a device there is a stop that leaves each sector its
oldest content, one that leaves each its newest, and one for each other content of each single sector; and each step fails, lost or landed, behind
which the devices are opened as they are, or there is a stop. Then an opening in write-back has to be answered, each sector has to show what the
model allows, which is that of every_step.py, and the same once all blocks have left the cache. All of it is done over metadata of either version: in the
second a suspend writes the dirty bits, where there are any, behind the node of the mapping, and an opening reads them. Openings that ask for the second
version are tried over both: those of the first are converted, the node of the mapping being written anew before the root; and the opening behind a stop or
a fault asks for the second version in its turn, or does not. It prints what failed, how many replays there were, and at the end 'N passed, N failed': a check for each way
to stop or fail of each task.
"""
import collections
import copy
import itertools
import multiprocessing
import os
import re
import subprocess
import sys

from every_step import BLOCK, DEVICES, RUN, SETUP, WATCHED, Model, Step, whole

RUNS = {"whole run": RUN, "run with a new dirty block": RUN[:-2], "run with a block that is dirty again": RUN + ["w 320 1 55"]}
MODES = ("writeback", "writethrough", "passthrough")
# What a line asks of an opening for the second version.
SECOND = " metadata2"
# Of each setup, whether the openings that are stopped or fail ask for the second version; in the last they convert.
SETUPS = {"": (SETUP, ""), " in version 2": ("setup writeback 64 4 10 5 metadata2", ""),
          " in version 2, which is asked for": ("setup writeback 64 4 10 5 metadata2", SECOND),
          " in version 1, where version 2 is asked for": ("setup writeback 64 4 10 5", SECOND)}
PLACES = (2, 3, 4)


class LaterModel(Model):
    """The model with a suspend and an opening behind it."""

    def __init__(self, has_bits):
        super().__init__()
        # Where the node of the committed image is, if it has one, and that of its dirty bits, which version 2 alone has.
        self.node, self.bits, self.has_bits = None, None, has_bits

    def steps(self, task):
        word = task.split()[0]
        if word == "suspend":
            yield from self.suspending()
        elif word == "open":
            yield from self.opening(SECOND in task and not self.has_bits)
        else:
            yield from super().steps(task)

    def suspending(self):
        yield Step("sync", "c")
        yield Step("sync", "o")
        free = [place for place in PLACES if place != self.node]
        # The stored entries say that nothing is dirty.
        if self.changed and self.mapped or self.dirty and not self.has_bits:
            self.coming = free.pop(0)
            yield Step("write", "m", self.coming, f"node {self.generation + 1}")
        else:
            self.coming = self.node if self.mapped else None
        if self.dirty and self.has_bits:
            self.bits = free.pop(0)
            yield Step("write", "m", self.bits, f"bits {self.generation + 1}")
        yield Step("sync", "m")
        yield from self.rooting()

    def opening(self, converts):
        for device in "mco":
            yield Step("sync", device)
        yield Step("read", "m", 0)
        yield Step("read", "m", 1)
        for place in self.node, self.bits:
            if place is not None:
                yield Step("read", "m", place)
        self.coming = self.node
        if converts:
            if self.node is not None:
                self.coming = next(place for place in PLACES if place != self.node)
                yield Step("write", "m", self.coming, f"node {self.generation + 1}")
            yield Step("sync", "m")
        yield from self.rooting()

    def rooting(self):
        yield Step("write", "m", (self.generation + 1) % 2, f"root {self.generation + 1}")
        yield Step("sync", "m")

    def leading(self, task):
        word = task.split()[0]
        return 2 + len(self.mapped) if word == "suspend" else 0 if word == "open" else super().leading(task)

    def may_start(self, task):
        return task.split()[0] in ("suspend", "open") or super().may_start(task)

    def enter(self, task, step):
        if task.split()[0] == "w":
            super().enter(task, step)

    def end(self, task):
        if task == "suspend":
            self.node = self.coming
            super().end("flush")
        elif task.startswith("open "):
            self.generation += 1
            self.node, self.bits, self.has_bits = self.coming, None, self.has_bits or SECOND in task
        else:
            if task == "flush" and self.changed:
                self.node = 2 if self.mapped else None
            super().end(task)

    def told(self, task):
        """What is printed of a task that ends well."""
        return f"open {self.generation} {len(self.mapped)} {len(self.dirty)}" if task.startswith("open ") else "0 done"


def at_this_point(model, name, lines, printed):
    """Each stop at a point of the run."""
    shown = model.allowed()
    for kind in "old", "new":
        yield f"{name}: stop {kind}", lines + [f"stop {kind}"], printed, WATCHED, shown
    for (device, sector), contents in model.open.items():
        for position in range(1, len(contents)):
            looks = WATCHED if device == "m" else [(sector % BLOCK, 1), (5 * BLOCK + sector % BLOCK, 1)]
            yield f"{name}: stop with one sector otherwise", lines + [f"stop old {device}:{sector}:{position}"], printed, looks, shown


def stopped(model, name, before, printed, task):
    """Each stop and each fault of a task, which is then played; what comes before the next one."""
    model.begin(task)
    leading, steps, count = model.leading(task), model.steps(task), 0
    while True:
        lines = before + [f"start 0 {task}", f"step 0 {leading + count}"]
        yield from at_this_point(model, name, lines, printed)
        step = next(steps, None)
        if step is None:
            break
        for kind in "old", "new":
            failed = copy.deepcopy(model)
            failed.fail(task, step, kind == "new")
            told = printed + [f"0 refused 5 Io {DEVICES[step.device]}"]
            for then in [], ["stop old"], ["stop new"]:
                where = f"{name}: fault {kind}, {''.join(then) or 'opened as it is'}"
                yield where, lines + [f"fault 0 {kind}", "end 0"] + then, told, WATCHED, failed.allowed()
        model.take(task, step)
        count += 1
    model.end(task)
    # Answered, and then stopped or opened as it is.
    lines = before + whole(task)
    for then in [["stop old"], ["stop new"]] + [[]] * (task == "suspend"):
        yield f"{name}: answered", lines + then, printed + [model.told(task)], WATCHED, model.allowed()


def replays():
    """Each replay: the check that it belongs to, its lines, what is printed before the last opening, which sectors are looked at, what they may
    show, and what that opening asks for."""
    for (version, (setup, asks)), (which, run) in itertools.product(SETUPS.items(), RUNS.items()):
        which += version
        model, before, printed = LaterModel(SECOND in setup), [setup], []
        for task in run:
            printed += model.play(task)
            before += whole(task)
        suspends = stopped(model, f"suspend behind a {which}", before, printed, "suspend")
        # Suspends are the same, whatever openings ask for.
        yield from ((*it, "") for it in suspends if not asks)
        before, printed = before + whole("suspend"), printed + ["0 done"]
        for mode, then in itertools.product(MODES, sorted({"", asks})):
            name = f"opening in {mode} behind a {which}"
            if mode == "passthrough" and model.dirty:
                yield f"{name}: refused", before + [f"open {mode}{asks}"], printed + ["0 refused 13 NotClean"], WATCHED, model.allowed(), then
            else:
                yield from ((*it, then) for it in stopped(copy.deepcopy(model), name, before, printed, f"open {mode}{asks}"))


def fault_of(work):
    """What is wrong with a replay: nothing, mostly. What is shown stays where the blocks leave the cache."""
    program, name, lines, printed, looks, shown, asks = work
    views = [f"view {first} {many}" for first, many in looks]
    lines = lines + [f"open writeback{asks}"] + views + whole("demote 0") + whole("demote 5") + views
    done = subprocess.run([program, "replay"], input="\n".join(lines) + "\n", capture_output=True, text=True, timeout=60)
    told, count = done.stdout.splitlines(), len(printed)
    wanted = [sector for first, many in looks for sector in range(first, first + many)]
    views = [line.split() for line in told[count + 1:] if re.fullmatch("[0-9]+ ([0-9a-f]{2}|mixed)", line)]
    if done.returncode != 0 or told[:count] != printed or [int(sector) for sector, _ in views] != 2 * wanted or not told[count].startswith("open "):
        return name, f"status {done.returncode}, it printed {told[:count + 3]}, and was to print {printed} and then an opening\n  {' / '.join(lines)}"
    for sector, content in views:
        if content not in shown.get(int(sector), {"00"}):
            return name, f"sector {sector} shows {content}, and may have {sorted(shown.get(int(sector), {'00'}))}\n  {' / '.join(lines)}"
    if views[:len(wanted)] != views[len(wanted):]:
        return name, f"it shows another content once the blocks have left the cache\n  {' / '.join(lines)}"
    return name, None


def main():
    program = os.path.abspath(sys.argv[1])
    counts, wrong = collections.Counter(), {}
    with multiprocessing.Pool() as pool:
        for name, fault in pool.imap_unordered(fault_of, ((program, *it) for it in replays()), 16):
            counts[name] += 1
            if fault and name not in wrong:
                wrong[name] = fault
    for name, fault in wrong.items():
        print(f"failed: {name}: {fault}")
    faults = sum(count for name, count in counts.items() if "fault " in name)
    print(f"every opening: {sum(counts.values()) - faults} stops and {faults} faults within suspends, openings and conversions, and behind them")
    print(f"{len(counts) - len(wrong)} passed, {len(wrong)} failed")
    sys.exit(bool(wrong))


if __name__ == "__main__":
    main()
