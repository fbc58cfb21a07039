"""A stop of the machine and a failing device at each step on a device of a mixed run, by `wbcache replay`.

    every_step.py WBCACHE [SHARE]

A model of the disk rules and of the tasks, written apart from the product, keeps of each device which contents a crash may leave, and of each
sector of the origin what has been written to it since the last flush that was answered. Before and after each step on a device there is a stop that
leaves each sector its oldest content, one that leaves each its newest, and one for each other content of each single sector; and each step
fails, once without landing and once landed, after which the rest of the run is played and there is a stop. Then an opening has to be
answered, and each sector of the origin has to show what the model allows. With SHARE, of the stops that single out a sector each
SHARE-th is tried. It prints what failed and how many replays there were, and at the end 'N passed, N failed': a check for
each task and each way to stop or fail.
"""
import collections
import copy
import multiprocessing
import os
import subprocess
import sys

BLOCK = 64
SETUP = "setup writeback 64 4 10 4"
RUN = ["w 0 2 11", "promote 0 0", "flush", "w 0 1 22", "flush", "w 0 1 33", "demote 0", "flush", "promote 5 0", "w 320 1 44", "clean 5", "flush"]
SHARES = [2, 128, 6, 1, 5, 1, 128, 5, 128, 1, 128, 6]
# What is looked at: the blocks that the run touches, and a sector beside each. Where one sector alone has another content than at a stop that was
# looked at so, its like in both blocks.
WATCHED = [(0, 65), (319, 66)]
DEVICES = {"m": "metadata", "c": "cache", "o": "origin"}
Step = collections.namedtuple("Step", "kind device sector content", defaults=(None, None))


class Model:
    """What a target of one actor, and the devices below it, may hold."""

    def __init__(self):
        # Of each device, the contents that a crash may leave a sector, oldest first, where there are two or more; and the newest of all others.
        self.open, self.newest = {}, {}
        self.mapped, self.dirty, self.quarantined, self.changed = {}, set(), set(), False
        self.orders, self.generation, self.failed = [], 1, False
        # Of each sector, what was written to it from the last flush on, and how many of these were finished.
        self.book = collections.defaultdict(lambda: ["00"])
        self.finished = collections.defaultdict(lambda: 0)

    def home(self, sector):
        block = sector // BLOCK
        if block in self.mapped:
            return "c", self.mapped[block] * BLOCK + sector % BLOCK
        return "o", sector

    def latest(self, device, sector):
        return self.newest.get((device, sector), "00")

    def write(self, device, sector, content):
        at = device, sector
        self.open.setdefault(at, [self.latest(*at)]).append(content)
        self.newest[at] = content

    def sync(self, device):
        for at in [at for at in self.open if at[0] == device]:
            del self.open[at]

    def copies(self, block, source, target):
        """The steps that copy a block, each read as its write comes."""
        for i in range(BLOCK):
            yield Step("read", source, self.place(block, source) + i)
            yield Step("write", target, self.place(block, target) + i, self.latest(source, self.place(block, source) + i))

    def place(self, block, device):
        return block * BLOCK if device == "o" else self.cache_of[block] * BLOCK

    def steps(self, task):
        """The steps on devices of a task, one at a time: each is taken before the next is asked for."""
        word, *numbers = task.split()
        if word == "w":
            first, many = int(numbers[0]), int(numbers[1])
            for sector in range(first, first + many):
                yield Step("write", *self.home(sector), numbers[2])
        elif word == "flush":
            yield Step("sync", "c")
            yield Step("sync", "o")
            if self.changed and self.mapped:
                yield Step("write", "m", 2, f"node {self.generation + 1}")
            yield Step("sync", "m")
            yield Step("write", "m", (self.generation + 1) % 2, f"root {self.generation + 1}")
            yield Step("sync", "m")
        else:
            block = int(numbers[0])
            self.cache_of = {block: int(numbers[1]) if word == "promote" else self.mapped[block]}
            if word == "promote":
                yield from self.copies(block, "o", "c")
            elif block in self.dirty:
                yield from self.copies(block, "c", "o")

    def leading(self, task):
        """How many steps, none on a device, come before a task's first on one."""
        word, *numbers = task.split()
        if word == "flush":
            return 2
        block = int(numbers[0]) // BLOCK
        return 6 if word == "w" and block in self.mapped and block not in self.dirty else 5

    def may_start(self, task):
        """Whether the order of a migration may be given, and it is then: it may, too, where the actor has kept this very order."""
        word, *numbers = task.split()
        if word in ("w", "flush") or task in self.orders:
            return True
        numbers = [int(it) for it in numbers]
        kept = [it.split() for it in self.orders]
        if any(int(it[1]) == numbers[0] for it in kept):
            return False
        if word == "promote":
            taken = {*self.mapped.values(), *self.quarantined, *(int(it[2]) for it in kept if it[0] == "promote")}
            may = numbers[0] not in self.mapped and numbers[1] not in taken
        else:
            may = numbers[0] in self.mapped
        if may:
            self.orders.append(task)
        return may

    def begin(self, task):
        """A task starts: a flush will cover what is finished now."""
        self.covered = dict(self.finished)
        self.freed = set(self.quarantined)

    def enter(self, task, step):
        """A write is entered at its step, whether that fails or not."""
        word, *numbers = task.split()
        if word == "w":
            block = int(numbers[0]) // BLOCK
            sector = step.sector if step.device == "o" else block * BLOCK + step.sector % BLOCK
            self.book[sector].append(numbers[2])

    def take(self, task, step):
        self.enter(task, step)
        if step.kind == "write":
            self.write(step.device, step.sector, step.content)
        elif step.kind == "sync":
            self.sync(step.device)

    def fail(self, task, step, lands):
        self.enter(task, step)
        if step.kind == "read":
            if task in self.orders:
                self.orders.remove(task)
            return
        self.failed = True
        if lands:
            if step.kind == "write":
                self.write(step.device, step.sector, step.content)
            else:
                self.sync(step.device)

    def end(self, task):
        """A task is answered."""
        word, *numbers = task.split()
        numbers = [int(it) for it in numbers[:2]]
        if word == "w":
            for sector in range(numbers[0], numbers[0] + numbers[1]):
                self.finished[sector] = len(self.book[sector]) - 1
            block = numbers[0] // BLOCK
            if block in self.mapped:
                self.dirty.add(block)
        elif word == "flush":
            self.generation += 1
            self.changed = False
            self.quarantined -= self.freed
            for sector, count in self.covered.items():
                del self.book[sector][:count]
                self.finished[sector] -= count
        elif word == "promote":
            self.mapped[numbers[0]] = numbers[1]
            self.changed = True
        elif word == "demote":
            self.quarantined.add(self.mapped.pop(numbers[0]))
            self.dirty.discard(numbers[0])
            self.changed = True
        else:
            self.dirty.discard(numbers[0])
        if task in self.orders:
            self.orders.remove(task)

    def play(self, task):
        """A whole task, and what is printed of it."""
        if not self.may_start(task):
            return ["0 refused 3 Busy", "skipped"]
        if self.failed:
            return ["0 refused 6 Failed"]
        self.begin(task)
        for step in self.steps(task):
            self.take(task, step)
        self.end(task)
        return ["0 done"]

    def allowed(self):
        """What each sector may show after a stop and an opening."""
        return {sector: frozenset(book) for sector, book in self.book.items()}


def whole(task):
    return [f"start 0 {task}", "end 0"]


def replays(share):
    """Each replay: the check that it belongs to, its lines, what is printed before the opening, which sectors are looked at, and what
    they may show."""
    model, before, printed, singled = Model(), [SETUP], [], 0
    for number, task in enumerate(RUN):
        name = f"{number + 1}, {task}"
        assert model.may_start(task)
        model.begin(task)
        leading, count = model.leading(task), 0
        steps = model.steps(task)
        while True:
            # A stop before the next step, or after the last.
            lines = before + [f"start 0 {task}", f"step 0 {leading + count}"]
            shown = model.allowed()
            for kind in "old", "new":
                yield f"{name}: stop {kind}", lines + [f"stop {kind}"], printed, WATCHED, shown
            for (device, sector), contents in model.open.items():
                for position in range(1, len(contents)):
                    singled += 1
                    if singled % share == 0:
                        looks = WATCHED if device == "m" else [(sector % BLOCK, 1), (320 + sector % BLOCK, 1)]
                        yield f"{name}: stop with one sector otherwise", lines + [f"stop old {device}:{sector}:{position}"], printed, looks, shown
            step = next(steps, None)
            if step is None:
                break
            for kind in "old", "new":
                failed = copy.deepcopy(model)
                failed.fail(task, step, kind == "new")
                told = printed + [f"0 refused 5 Io {DEVICES[step.device]}"]
                rest = []
                for later in RUN[number + 1:]:
                    rest += whole(later)
                    told = told + failed.play(later)
                shown = failed.allowed()
                for base in "old", "new":
                    yield f"{name}: fault {kind}", lines + [f"fault 0 {kind}", "end 0"] + rest + [f"stop {base}"], told, WATCHED, shown
            model.take(task, step)
            count += 1
        assert count == SHARES[number], f"{task} has {count} steps on devices"
        model.end(task)
        before += whole(task)
        printed = printed + ["0 done"]


def fault_of(work):
    """What is wrong with a replay: nothing, mostly."""
    program, name, lines, printed, looks, shown = work
    lines = lines + ["open writeback"] + [f"view {first} {many}" for first, many in looks]
    done = subprocess.run([program, "replay"], input="\n".join(lines) + "\n", capture_output=True, text=True, timeout=60)
    told, count = done.stdout.splitlines(), len(printed)
    wanted = [sector for first, many in looks for sector in range(first, first + many)]
    if done.returncode != 0 or told[:count] != printed or len(told) != count + 1 + len(wanted) or not told[count].startswith("open "):
        return name, f"status {done.returncode}, it printed {told[:count + 3]}, and was to print {printed} and then an opening\n  {' / '.join(lines)}"
    for sector, line in zip(wanted, told[count + 1:]):
        at, content = line.split(" ")
        if int(at) != sector or content not in shown.get(sector, {"00"}):
            return name, f"it shows '{line}', and sector {sector} may have {sorted(shown.get(sector, {'00'}))}\n  {' / '.join(lines)}"
    return name, None


def main():
    program = os.path.abspath(sys.argv[1])
    share = int(sys.argv[2]) if len(sys.argv) > 2 else 1
    counts, wrong = collections.Counter(), {}
    with multiprocessing.Pool() as pool:
        for name, fault in pool.imap_unordered(fault_of, ((program, *it) for it in replays(share)), 16):
            counts[name] += 1
            if fault and name not in wrong:
                wrong[name] = fault
    for name, fault in wrong.items():
        print(f"failed: {name}: {fault}")
    stops = sum(count for name, count in counts.items() if "stop " in name)
    print(f"every step: {stops} stops and {sum(counts.values()) - stops} faults at {sum(SHARES)} steps on devices")
    print(f"{len(counts) - len(wrong)} passed, {len(wrong)} failed")
    sys.exit(bool(wrong))


if __name__ == "__main__":
    main()
