#!/usr/bin/env python3
"""Where the time of a crate's last check went, module by module: a check writes what it has proved of each into out/incremental, so the time between
one file and the one before it is what that module took, with what was read for it.

    python3 scripts/slowest_modules.py CRATE [HOW_MANY]      20 of them where no number is given
    python3 scripts/slowest_modules.py CRATE kinds           by the last part of their names: what each kind took, and its share

Run it behind `rt check --jobs 1` of a crate without out/ (with more jobs several modules are checked at once, and a check over kept work writes only what
it proved anew). The seconds before the first file are not seen: reading the libraries. It prints a line for each module: its seconds, when it ended, its name. Of a function `Lts` are the steps of its compiled code, `Proof` is that of its contract, and
`Tie` joins both."""
import collections
import os
import sys

TOP = os.path.dirname(os.path.dirname(os.path.abspath(__file__)))


def written(folder):
    """The files below a folder with the times at which they were written, the earliest first."""
    found = []
    for at, _, names in os.walk(folder):
        for name in names:
            found.append((os.stat(os.path.join(at, name)).st_mtime, name))
    return sorted(found)


def main():
    if len(sys.argv) not in (2, 3):
        sys.exit(__doc__)
    files = written(f"{TOP}/crates/{sys.argv[1]}/out/incremental")
    if not files:
        sys.exit("slowest_modules.py: there is no check of that crate in its out/")
    begun, last, taken = files[0][0], files[0][0], []
    for time, name in files:
        taken.append((time - last, time - begun, name.removesuffix(".oantt").removesuffix(".decls")))
        last = time
    if sys.argv[2:] == ["kinds"]:
        seconds = collections.Counter()
        for took, _, name in taken:
            seconds[name.rsplit(".", 1)[-1]] += took
        for kind, took in seconds.most_common(20):
            print(f"{took:6.1f} {took / (last - begun):7.1%} {kind}")
        return
    for seconds, end, name in sorted(taken, reverse=True)[: int(sys.argv[2]) if len(sys.argv) == 3 else 20]:
        print(f"{seconds:6.1f} {end:7.1f} {name}")


if __name__ == "__main__":
    main()
