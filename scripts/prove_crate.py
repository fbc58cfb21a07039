#!/usr/bin/env python3
"""Proves the crate in the current folder over those below it, which are proved, and reads the sources of each of these once.

    python3 prove_crate.py library --jobs N              leaves at out/rlib what other crates can cite of it, as rt ci does
    python3 prove_crate.py program --jobs N -- WORDS     builds out/NAME, and runs it with these words, as rt run does

What stands on a library loads less so than over what `rt lib` leaves, which has its proofs, too, and which has no flag for this. And kit 13b's
rt makes the sum of a crate's sources anew along each way that leads down to it, tens of thousands of times for a program that stands on forty
crates, which takes minutes. So this calls the prover by rt's own module, which the kit has beside it: the crate is read and its library
named and stamped as rt does it, by sums that are made once. Whether the sources changed meanwhile its caller sees. The status is the prover's.
"""
import functools
import importlib.machinery
import importlib.util
import os
import shutil
import sys

sys.dont_write_bytecode = True


def kit():
    """The kit's rt as a module, with rtlib as its own."""
    path = os.path.realpath(shutil.which("rt") or "rt")
    spec = importlib.util.spec_from_loader("rt", importlib.machinery.SourceFileLoader("rt", path))
    rt = importlib.util.module_from_spec(spec)
    spec.loader.exec_module(rt)
    rt.rtlib.Crate.stamp = functools.cache(rt.rtlib.Crate.stamp)
    return rt


def library(rt, flags):
    """Proves a library, and stamps it as rt does."""
    here = os.getcwd()
    # before any thread of rt's runs
    rt.rtlib.guarded()
    crate = rt.rtlib.Crate(here, rt.rtlib.root_above(here), {})
    crate.held = rt.rtlib.lock([*crate.below(), crate])
    folder = os.path.dirname(crate.rlib)
    shutil.rmtree(folder, ignore_errors=True)
    os.makedirs(folder)
    status = crate.call(rt.rtlib.RATTLE, "build", *crate.words(flags), "--statements", "-o", crate.rlib)
    if status == 0:
        with open(f"{folder}/stamp", "w", encoding="utf-8") as it:
            it.write(crate.stamp())
    return status


def main(kind, *flags):
    rt = kit()
    return library(rt, list(flags)) if kind == "library" else rt.main(["run", *flags])


if __name__ == "__main__":
    sys.exit(main(*sys.argv[1:]))
