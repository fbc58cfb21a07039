#!/usr/bin/env python3
"""Tells what each crate takes of the gate: its proof, the proof of its tests, the check before its must-fail edits, and each edit.

    python3 scripts/gate-cost.py [--read FILE] [COMMAND..]      `bash .ci/run` by default

Runs the command at the top of a clean clone and looks at the prover's processes every second: the processor seconds of each, by what it was
started for, so rather too low, by a second at most for each. It prints a row a crate as docs/GATE.md has them (proof, tests, number of edits,
check before them, those), then the edits that take longest, and last what the whole command took, as the kernel counts it. With --read it
prints the same of what an earlier run left in FILE; a run leaves its looks in .work/gate-cost.tsv. The status is the command's.
"""
import glob
import os
import re
import resource
import subprocess
import sys
import time

TOP = os.path.dirname(os.path.dirname(os.path.abspath(__file__)))
TICK = os.sysconf("SC_CLK_TCK")


def edits():
    """Of each crate its edits: name, file, the lines that it puts in."""
    found = {}
    for path in sorted(glob.glob(f"{TOP}/crates/*/must-fail/*.edit")):
        crate = path.split("/")[-3]
        lines = open(path).read().splitlines()
        file = next(line[6:].strip() for line in lines if line.startswith("file: "))
        new = [line[4:].strip() for line in lines if line.startswith("new:")]
        found.setdefault(crate, []).append((os.path.basename(path)[:-5], file, new))
    return found


def edit_in(folder, known):
    """Which of these edits stands in a copy of its crate; none in the check that comes before them."""
    for name, file, new in known[1]:
        try:
            text = open(f"{folder}/{file}").read()
            right = open(f"{TOP}/crates/{known[0]}/{file}").read()
        except OSError:
            continue
        if text != right and all(line in text for line in new):
            return name
    return ""


def started(pid, known):
    """What a prover's process was started for: crate, kind, edit."""
    words = open(f"/proc/{pid}/cmdline").read().split("\0")
    if "--crate-name" not in words:
        return None
    crate = words[words.index("--crate-name") + 1]
    folder = os.readlink(f"/proc/{pid}/cwd")
    if re.search("/rt-edit-", folder):
        name = edit_in(folder, (crate, known.get(crate, [])))
        return crate, "edit" if name else "before", name
    return crate, "tests" if "--test" in words else "proof", ""


def fields(pid):
    return open(f"/proc/{pid}/stat").read().rsplit(")", 1)[1].split()


def is_below(pid, top):
    while pid not in (top, "0"):
        pid = fields(pid)[1]
    return pid == top


def look(seen, known, top):
    for pid in filter(str.isdigit, os.listdir("/proc")):
        try:
            if open(f"/proc/{pid}/comm").read().strip() != "rattle" or not is_below(pid, top):
                continue
            now = fields(pid)
            since, seconds = now[19], sum(int(number) for number in now[11:15]) / TICK
            key = pid, since
            if key not in seen:
                seen[key] = [started(pid, known), 0]
            seen[key][1] = seconds
        except OSError:
            continue


def run(command):
    known, seen = edits(), {}
    child = subprocess.Popen(command, cwd=TOP)
    while child.poll() is None:
        look(seen, known, str(child.pid))
        time.sleep(1)
    os.makedirs(f"{TOP}/.work", exist_ok=True)
    with open(f"{TOP}/.work/gate-cost.tsv", "w") as file:
        for what, seconds in seen.values():
            if what:
                file.write("\t".join((*what, f"{seconds:.1f}")) + "\n")
    return child.returncode


def tell(rows):
    by_crate, each = {}, []
    for crate, kind, name, seconds in rows:
        of = by_crate.setdefault(crate, {"proof": 0, "tests": 0, "before": 0, "edit": 0, "edits": 0})
        of[kind] += seconds
        if kind == "edit":
            of["edits"] += 1
            each.append((seconds, crate, name))
    print("| Crate | Proof | Tests | Edits | Check before them | Those |")
    print("|---|---|---|---|---|---|")
    kinds = ("proof", "tests", "edits", "before", "edit")
    for crate in sorted(by_crate):
        print(f"| {crate} | " + " | ".join(f"{by_crate[crate][kind]:.0f}" if by_crate[crate][kind] else "" for kind in kinds) + " |")
    print("| all | " + " | ".join(f"{sum(of[kind] for of in by_crate.values()):,.0f}" for kind in kinds) + " |")
    for seconds, crate, name in sorted(each, reverse=True)[:20]:
        print(f"{seconds:.0f} s: {crate}/{name}")


def main():
    words = sys.argv[1:]
    if words[:1] in (["-h"], ["--help"]):
        sys.exit(__doc__)
    status = 0
    path = f"{TOP}/.work/gate-cost.tsv"
    if words[:1] == ["--read"]:
        path = words[1]
    else:
        status = run(words or ["bash", ".ci/run"])
    with open(path) as file:
        tell([(crate, kind, name, float(seconds)) for crate, kind, name, seconds in (line.rstrip("\n").split("\t") for line in file)])
    whole = resource.getrusage(resource.RUSAGE_CHILDREN)
    if whole.ru_utime:
        print(f"{(whole.ru_utime + whole.ru_stime) / 60:.0f} processor minutes in all")
    sys.exit(status)


main()
