#!/usr/bin/env python3
"""Want of memory is answered only where an allocation failed: `Memory` and `AllocError` are spelled just where scripts/cases/memory.txt lists it.

    python3 scripts/memory.py

Everywhere else of the crates below it comes from an allocation by `?`. Each contract allows the answer, so that no proof refuses a body that always
gives it. It prints what is spelled and not listed, or listed and not spelled, and at the end 'N passed, M failed'.
"""
import collections
import glob
import os
import re
import sys

TOP = os.path.dirname(os.path.dirname(os.path.abspath(__file__)))
CRATES = "words cells tasks flow devices stage port target desk space orders policy sketch meta tree dirty format bits".split()
SPELLED = re.compile(r"\bRefusal::Memory\b|\bErr\(AllocError\)|\bAllocError\.into\(\)|=> AllocError\b")
# Where the word is matched or stands in a contract, nothing is answered by it.
ASKED = re.compile(r"^\s*(?:///?|ensures|requires|ghost )|Refusal::Memory\)? => (?:true|Err\(refusal\))|@ \(Refusal")


def spelled():
    """How often each function spells it: by crate, file and function."""
    found = collections.Counter()
    for crate in CRATES:
        for path in sorted(glob.glob(f"{TOP}/crates/wb_{crate}/src/**/*.rt", recursive=True)):
            function = "-"
            with open(path, encoding="utf-8") as file:
                for line in file:
                    head = re.match(r"\s*(?:pub(?:\([a-z]+\))? )?(?:const |unsafe )*fn (\w+)", line)
                    function = head[1] if head else function
                    if SPELLED.search(line) and not ASKED.search(line):
                        found[f"{os.path.relpath(path, f'{TOP}/crates')} {function}"] += len(SPELLED.findall(line))
    return found


def listed():
    """The places that may spell it: `crate/src/file.rt function times: what was asked for`."""
    found = {}
    with open(f"{TOP}/scripts/cases/memory.txt", encoding="utf-8") as file:
        for line in file:
            if line.strip() and not line.startswith("#"):
                path, function, times = line.split(":")[0].split()
                found[f"{path} {function}"] = int(times)
    return found


def main():
    there, known, failed = spelled(), listed(), 0
    for place in sorted({*there, *known}):
        if there.get(place, 0) != known.get(place, 0):
            failed += 1
            print(f"failed: {place}: spelled {there.get(place, 0)} times, listed {known.get(place, 0)}")
    print(f"{len({*there, *known}) - failed} passed, {failed} failed")
    return failed > 0


if __name__ == "__main__":
    sys.exit(main())
