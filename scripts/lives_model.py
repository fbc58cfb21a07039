"""A plain model of many lives: histories and floors by hand. Imported by lives.py; it does nothing by itself, and knows of no cache.

A task that reads or writes takes its block at its third step, has it from then on where it goes on, and touches no device before its sixth; of its
sectors it writes one a step at most, rising. Two writers never have a block at once, so the order in which they touch it is that of the writes.
"""
import os
import re
import subprocess

# Looked at behind each line, so that it is known where what the line printed ends: '0 hh' where a target stands, else 'skipped'.
LOOK = "view 0 1"
IS_LOOK = re.compile(r"0 ([0-9a-f]{2}|mixed)$").match
TAKES, FIRST_ON_A_DEVICE, AROUND = 3, 6, 8


class Wrong(Exception):
    """What is not as it has to be."""


def need(holds, why):
    if not holds:
        raise Wrong(why)


class Machine:
    """A replay that is under way."""

    def __init__(self, program, setup):
        self.process = subprocess.Popen([program, "replay"], stdin=subprocess.PIPE, stdout=subprocess.PIPE, bufsize=0)
        self.lines, self.left, self.told = [], b"", []
        self.send([setup])

    def send(self, lines):
        self.lines += lines
        os.write(self.process.stdin.fileno(), ("\n".join(lines) + "\n").encode())

    def line(self):
        """The next line that it prints."""
        while not self.told:
            more = os.read(self.process.stdout.fileno(), 65536)
            need(more, "it ended")
            *told, self.left = (self.left + more).split(b"\n")
            self.told = [it.decode() for it in reversed(told)]
        return self.told.pop()

    def ask(self, line):
        """What a line prints that leaves a target where it was: the answer, without the look."""
        self.send([line, LOOK])
        told = []
        while not IS_LOOK(it := self.line()):
            need(len(told) < 70, f"'{line}' prints {told}")
            told.append(it)
        return told

    def ask_down(self, line):
        """What a line prints where no target stands before it, that is never 'skipped'; and whether one stands then."""
        self.send([line, LOOK])
        told = []
        while it := self.line():
            if it == "skipped" or IS_LOOK(it):
                return told, it != "skipped"
            told.append(it)
        raise Wrong(f"'{line}' prints an empty line")

    def ask_whether(self, line):
        """Whether a line takes away the target that stands: else it is skipped."""
        self.send([line, LOOK, LOOK])
        told = [self.line(), self.line()]
        need(told[0] == "skipped", f"'{line}' prints '{told[0]}'")
        if told[1] == "skipped":
            return True
        self.line()
        return False

    def view(self, sector, many):
        self.send([f"view {sector} {many}"])
        return [self.line() for _ in range(many)]

    def end(self):
        self.process.stdin.close()
        self.process.stdout.close()
        self.process.kill()
        self.process.wait()


class Task:
    """A task of an actor, from its start on."""

    def __init__(self, text, covered):
        self.text, self.word = text, text.split()[0]
        self.steps, self.is_faulty, self.met_another, self.late = 0, False, False, False
        # What was finished when it started, of each sector; what a read has to give; how many of its sectors a write has touched.
        self.covered, self.wanted, self.touched = covered, None, 0
        numbers = text.split()[1:]
        self.sectors, self.fill = range(0), None
        if self.word in ("r", "w"):
            self.sectors = range(int(numbers[0]), int(numbers[0]) + int(numbers[1]))
            self.block = self.sectors[0] // 64
            self.fill = numbers[2] if self.word == "w" else None
        else:
            self.block = int(numbers[0]) if numbers else None

    def may_be_over(self):
        """Whether a write may have given its block back."""
        return self.steps >= AROUND + len(self.sectors)


class History:
    """Of each sector, what was written to it since the opening, up to where that was finished, and the floor."""

    def __init__(self, shown):
        self.shown, self.writes, self.finished, self.floor = shown, {}, {}, {}

    def of(self, sector):
        """The writes to a sector: what each left, and its task; the first is what the opening showed."""
        if sector not in self.writes:
            self.writes[sector] = [(self.shown.get(sector, "00"), None)]
        return self.writes[sector]

    def touch(self, task, many):
        """A write has touched so many of its sectors."""
        while task.touched < many:
            self.of(task.sectors[task.touched]).append((task.fill, task))
            task.touched += 1

    def finish(self, task):
        """A write is answered done."""
        self.touch(task, len(task.sectors))
        for sector in task.sectors:
            writes = self.of(sector)
            at = max(at for at, (_, its) in enumerate(writes) if its is task)
            self.finished[sector] = max(at, self.finished.get(sector, 0))
            writes[at] = (task.fill, None)

    def last(self, sector):
        """What the last write left that is finished, or has given its block back."""
        return next(fill for fill, task in reversed(self.of(sector)) if task is None or task.may_be_over())

    def raise_floors(self, covered):
        for sector, at in covered.items():
            self.floor[sector] = max(at, self.floor.get(sector, 0))

    def allowed(self, sector):
        return [fill for fill, _ in self.of(sector)[self.floor.get(sector, 0):]]


class Model:
    """What a target and its actors may answer, and what its openings may show."""

    def __init__(self, machine, counts, mode, sectors):
        self.machine, self.counts, self.mode, self.sectors = machine, counts, mode, sectors
        self.history, self.tasks, self.followers, self.generation = History({}), {}, {}, 1
        self.stands, self.may_have_failed, self.has_failed, self.is_suspended, self.was_left_clean = True, False, False, False, False
        self.counts[f"life in {mode}"] += 1

    # --- Tasks.
    def start(self, actor, text):
        """Whether a task starts for an actor that has none."""
        told = self.machine.ask(f"start {actor} {text}")
        task = Task(text, dict(self.history.finished))
        task.late = self.has_failed or self.is_suspended
        if told:
            need(told == [f"{actor} refused 3 Busy"], f"'start {actor} {text}' prints {told}")
            is_order = task.word not in ("r", "w", "flush", "suspend")
            need(is_order or task.word == "suspend" and self.tasks, f"'start {actor} {text}' is busy, and nobody has a task")
            return False
        need(not (task.word == "suspend" and self.tasks), "a suspend starts beside another task")
        for other in self.tasks.values():
            if other.block is not None and other.block == task.block:
                other.met_another = task.met_another = True
        if task.word == "replace":
            self.followers[actor] = int(text.split()[2])
        self.tasks[actor] = task
        return True

    def step(self, actor, many):
        """Steps of an actor, or all up to its answer: the answer, if there is one."""
        task = self.tasks[actor]
        told = self.machine.ask(f"end {actor}" if many is None else f"step {actor} {many}")
        before = task.steps
        if told in ([], ["skipped"]):
            need(task.word == "flush" or not told and many is not None, f"actor {actor}, '{task.text}': {told}")
            self.counts["flush that waits"] += bool(told)
            task.steps += many or 0
            self.pass_on(task, before, task.steps)
            return None
        del self.tasks[actor]
        if task.word == "r":
            self.pass_on(task, before, TAKES)
        answer = told[-1].removeprefix(f"{actor} ")
        need(told[-1].startswith(f"{actor} ") and (len(told) == 1 or task.word == "r"), f"actor {actor}, '{task.text}': {told}")
        self.judge(actor, task, answer, told[:-1])
        return answer

    def pass_on(self, task, before, steps):
        """A task has taken steps: a read has to give what was last where it took its block; a write may have touched sectors."""
        if task.word == "r" and before < TAKES <= steps:
            task.wanted = [self.history.last(sector) for sector in task.sectors]
        elif task.word == "w":
            self.history.touch(task, min(len(task.sectors), steps - FIRST_ON_A_DEVICE + 1))

    def judge(self, actor, task, answer, given):
        """Holds an answer against what it may be."""
        where = f"actor {actor}, '{task.text}': '{answer}'"
        self.counts[f"{task.word} {answer.split()[0]}"] += 1
        if answer == "done":
            need(not task.is_faulty, f"{where}, though a step of it failed")
            need(not task.late, f"{where}, though the target had failed or was suspended when it started")
            self.end_well(actor, task, given, where)
            return
        need(not given, f"{where}, with {given}")
        if answer.startswith("refused 5 Io "):
            need(task.is_faulty, f"{where}, though no step of it failed")
            device = answer.split()[3]
            read = task.word == "r" or device == ("origin" if task.word == "promote" else "cache") and task.word not in ("w", "flush", "suspend")
            self.has_failed |= not read
        elif answer == "refused 6 Failed":
            need(self.may_have_failed or self.is_suspended, f"{where}, though nothing failed")
        else:
            need(answer == "refused 3 Busy" and not task.is_faulty and not task.late, where)
            need(task.word not in ("flush", "suspend"), where)
            need(task.met_another or self.may_have_failed, f"{where}, and nobody else has its block")
        need(task.touched == 0 or task.is_faulty, f"{where}, at step {task.steps}")

    def end_well(self, actor, task, given, where):
        if task.word == "w":
            self.history.finish(task)
        elif task.word == "r":
            wanted = [f"{actor} {sector} {fill}" for sector, fill in zip(task.sectors, task.wanted)]
            need(given == wanted, f"{where} gives {given}, and has to give {wanted}")
            self.counts["sector read"] += len(wanted)
        elif task.word in ("flush", "suspend"):
            self.history.raise_floors(task.covered)
            if task.word == "suspend":
                self.is_suspended, self.was_left_clean = True, self.mode == "passthrough"

    def fault(self, actor, kind):
        """Whether the next step of an actor fails: it does where that is on a device."""
        task = self.tasks[actor]
        told = self.machine.ask(f"fault {actor} {kind}")
        need(told in ([], ["skipped"]), f"a fault of '{task.text}' prints {told}")
        if told:
            return False
        task.is_faulty, self.may_have_failed = True, True
        task.steps += 1
        if task.word == "w":
            self.history.touch(task, min(len(task.sectors), task.steps - FIRST_ON_A_DEVICE + 1))
        self.counts["fault"] += 1
        return True

    def settle(self, dice):
        """All tasks go on to their ends, and then what is shown is what was written last."""
        for _ in range(len(self.tasks) + 2):
            running = list(self.tasks)
            dice.shuffle(running)
            for actor in running:
                self.step(actor, None)
        need(not self.tasks, f"nobody goes on: {[task.text for task in self.tasks.values()]}")
        if not self.may_have_failed:
            for sector, fill in self.look().items():
                need(fill == self.history.last(sector), f"sector {sector} shows {fill}, and {self.history.last(sector)} was written")

    # --- Stops and openings.
    def fall(self):
        self.stands, self.tasks, self.followers = False, {}, {}
        self.may_have_failed = self.has_failed = self.is_suspended = False

    def stop(self, base, named):
        """Power is lost: a sector that is named may have no such content, and then nothing happens."""
        line = " ".join([f"stop {base}", *(f"{sector}:{position}" for sector, position in named.items())])
        self.counts["stop"] += 1
        if not self.stands:
            told, stands = self.machine.ask_down(line)
            need(not told and not stands, f"'{line}' prints {told}")
        elif not self.machine.ask_whether(line):
            need(base == "old" and named, f"'{line}' is skipped")
            need(self.machine.ask_whether(f"stop {base}"), "a stop is skipped")
        else:
            self.counts["stop with sectors apart"] += bool(named)
        self.fall()

    def refused_opening(self, actor, mode):
        """An opening does not start where a target stands that has not failed."""
        if not self.may_have_failed and not self.is_suspended:
            told = self.machine.ask(f"start {actor} open {mode}")
            need(told == ["skipped"], f"an opening over a target prints {told}")

    def begin(self, mode):
        """An opening begins: only the first behind a suspend surely finds what that left."""
        self.opening, self.finds_clean, self.was_left_clean = mode.split()[0], self.was_left_clean, False

    def open(self, mode):
        if self.stands:
            need(self.has_failed or self.is_suspended, "the script opens a target that stands")
            self.counts["opening as it is"] += 1
            self.fall()
        self.begin(mode)
        self.machine.send([f"open {mode}", LOOK])
        self.answered(self.machine.line(), self.machine.line(), False)

    def start_opening(self, actor, mode):
        if self.stands:
            need(self.machine.ask_whether(f"start {actor} open {mode}"), "a target that has failed or is suspended is not opened")
            self.counts["opening as it is"] += 1
            self.fall()
        else:
            told, stands = self.machine.ask_down(f"start {actor} open {mode}")
            need(not told and not stands, f"an opening's start prints {told}")
        self.begin(mode)

    def step_opening(self, actor, many):
        """Whether an opening is answered within so many steps."""
        told, stands = self.machine.ask_down(f"step {actor} {many}")
        if told:
            self.answered(told[0], "0 00" if stands else "skipped", False)
        elif stands:
            raise Wrong("a target stands before its opening is answered")
        else:
            self.counts["opening that is left"] += 1
        return bool(told)

    def finish_opening(self, actor):
        self.machine.send([f"end {actor}", LOOK])
        self.answered(self.machine.line(), self.machine.line(), False)

    def fault_opening(self, actor, kind):
        """The next step of an opening fails, where it is one on a device."""
        self.machine.send([f"fault {actor} {kind}", f"end {actor}", LOOK])
        told = self.machine.line()
        is_faulty = told != "skipped"
        self.counts["fault"] += is_faulty
        self.answered(told if is_faulty else self.machine.line(), self.machine.line(), is_faulty)

    def answered(self, answer, look, is_faulty):
        """An opening is answered: it is done but for a fault, or in passthrough."""
        if answer.startswith("open "):
            need(IS_LOOK(look) and not is_faulty, f"an opening: '{answer}', and then '{look}'")
            self.opened(self.opening, *map(int, answer.split()[1:]))
            return
        need(look == "skipped", f"an opening that is refused leaves a target: '{answer}', '{look}'")
        if is_faulty:
            need(" refused 5 Io " in answer, f"an opening whose step failed: '{answer}'")
        else:
            is_right = self.opening == "passthrough" and not self.finds_clean
            need(is_right and answer.endswith(" refused 13 NotClean"), f"an opening in {self.opening}: '{answer}'")
        self.counts[f"opening refused {answer.split()[2]}"] += 1

    def opened(self, mode, generation, mapped, dirty):
        """What is shown is allowed by the history before; then that begins anew."""
        need(generation > self.generation, f"generation {generation} follows {self.generation}")
        need(dirty <= mapped and not (mode == "passthrough" and dirty), f"{dirty} of {mapped} are dirty in {mode}")
        self.stands, self.mode, self.generation = True, mode, generation
        self.counts["opening done"] += 1
        self.counts[f"life in {mode}"] += 1
        shown = self.look()
        for sector, fill in shown.items():
            allowed = self.history.allowed(sector)
            need(fill in allowed, f"sector {sector} shows {fill}, and may show {allowed}")
        self.counts["sector shown"] += len(shown)
        self.history = History({sector: fill for sector, fill in shown.items() if fill != "00"})

    def look(self):
        """What the target holds at each sector that was ever written, and at its neighbours; now and then at all."""
        sectors = {*self.history.writes, *self.history.shown}
        if self.generation % 8 == 0:
            spans = [(0, self.sectors)]
        else:
            spans = [(block * 64 + at, many) for block in sorted({it // 64 for it in sectors}) for at, many in ((0, 4), (62, 2))]
            if any(3 < it % 64 < 62 for it in sectors):
                spans = [(block * 64, 64) for block in sorted({it // 64 for it in sectors})]
        shown = {}
        for first, many in spans:
            for line in self.machine.view(first, many):
                need(" " in line, f"a view of {first} {many} prints '{line}'")
                sector, fill = line.split(" ")
                shown[int(sector)] = fill
        return shown
