#!/usr/bin/env python3
"""Kills a program that plays a script, at random moments, and looks at what the next run shows.

    python3 bench/kill.py PROGRAM [ROUNDS [SEED]]      200 rounds by default, run by hand: bin/wbcache is a PROGRAM

Each round plays random lines (writes, reads, work, settle, tick, flush) over the files of the round before, each once the one before is
answered, and kills the program with SIGKILL within 30 milliseconds. The next run must show of each sector the last write that was answered before the last answered
flush or tick was sent, or a later one; the line that was running at the kill may have written. It prints how often it was killed where
and 'N passed, N failed', and ends with 1 where a sector showed anything else.
"""
import os
import random
import subprocess
import sys
import tempfile
import threading

BLOCK, CACHE, ORIGIN = 64, 4, 10
SECTORS = BLOCK * ORIGIN
TABLE = f"cache m.img c.img o.img {BLOCK} 0 tinylfu 0"
LINES = 400


def lines(chance):
    """Random lines of a script, each with the sectors that it writes and the byte."""
    for _ in range(LINES):
        kind = chance.random()
        block = chance.choice([0, 0, 1, 1, 2, 3, 4, 5, 6, 9])
        first = block * BLOCK + chance.randrange(BLOCK)
        count = min(chance.randrange(1, 80), SECTORS - first)
        if kind < 0.45:
            byte = chance.randrange(256)
            yield f"w {first} {count} {byte:02x}", range(first, first + count), byte
        elif kind < 0.60:
            yield f"r {first} 1", None, None
        elif kind < 0.80:
            yield "work", None, None
        elif kind < 0.85:
            yield "settle", None, None
        elif kind < 0.90:
            yield "tick", None, None
        else:
            yield "flush", None, None


class Histories:
    """What each sector may show: its writes since it was last seen, from the last one that was flushed."""

    def __init__(self):
        self.may_show = [[0] for _ in range(SECTORS)]

    def write(self, sectors, byte):
        for sector in sectors:
            self.may_show[sector].append(byte)

    def flush(self):
        self.may_show = [entries[-1:] for entries in self.may_show]

    def wrong(self, shown):
        return [sector for sector, byte in enumerate(shown) if byte not in self.may_show[sector]]

    def seen(self, shown):
        self.may_show = [[byte] for byte in shown]


def shown(program):
    """What a run shows of each sector."""
    answer = subprocess.run([program, "run", TABLE], input=f"r 0 {SECTORS}\n", capture_output=True, text=True)
    if answer.returncode != 0:
        raise SystemExit(f"the run after a kill ended with {answer.returncode}: {answer.stdout[:80]}")
    return [int(line.split()[1], 16) for line in answer.stdout.splitlines()]


def play(program, chance, histories):
    """One round: how many lines were answered."""
    script = list(lines(chance))
    running = subprocess.Popen([program, "run", TABLE], stdin=subprocess.PIPE, stdout=subprocess.PIPE, text=True)
    killer = threading.Timer(chance.random() * 0.03, running.kill)
    killer.start()
    answers = []
    try:
        # A line at a time, once the one before is answered: answers are held while whole lines are at hand.
        for line, _, _ in script:
            running.stdin.write(line + "\n")
            running.stdin.flush()
            answer = running.stdout.readline()
            if not answer.endswith("\n"):
                break
            answers.append(answer)
    except BrokenPipeError:
        pass
    killer.join()
    running.wait()
    for at, (line, sectors, byte) in enumerate(script):
        answered = at < len(answers)
        if sectors is not None and (not answered or answers[at] == "ok\n"):
            histories.write(sectors, byte)
        if not answered:
            return at
        if line in ("flush", "tick") and answers[at] == "ok\n":
            histories.flush()
    return len(script)


def main():
    program = os.path.abspath(sys.argv[1])
    rounds = int(sys.argv[2]) if len(sys.argv) > 2 else 200
    chance = random.Random(int(sys.argv[3]) if len(sys.argv) > 3 else 1)
    failed = 0
    answered = []
    with tempfile.TemporaryDirectory() as folder:
        os.chdir(folder)
        for name, sectors in (("m.img", 4), ("c.img", BLOCK * CACHE), ("o.img", SECTORS)):
            with open(name, "wb") as file:
                file.truncate(512 * sectors)
        subprocess.run([program, "format", TABLE], check=True, stdout=subprocess.DEVNULL)
        histories = Histories()
        for number in range(rounds):
            answered.append(play(program, chance, histories))
            now = shown(program)
            wrong = histories.wrong(now)
            if wrong:
                failed += 1
                print(f"round {number}: sectors {wrong[:8]} show {[now[s] for s in wrong[:8]]}, may show {histories.may_show[wrong[0]]}")
            histories.seen(now)
    print(f"lines answered before the kill: {min(answered)} to {max(answered)}, {sum(0 < it < LINES for it in answered)} rounds in the midst of a script")
    print(f"{rounds - failed} passed, {failed} failed")
    return 1 if failed else 0


if __name__ == "__main__":
    sys.exit(main())
