"""Tries wrong bodies of a crate many at once. Called by scripts/bugs.sh, at the top of its copy of the repository.

    python3 bugs_at_once.py CRATE

A function is proved by its own body and by the contracts of those that it calls. So wrong bodies of different functions can be put in place
together, and one is refused where the prover says of its own function that something is not proved. Of each such edit a line is
printed as `rt must-fail` would, and it leaves crates/CRATE/must-fail of the copy. The others stay there, for `rt must-fail` to try one by one: those that
change more than one function's body, and those of whose function nothing was said.
"""
import os
import re
import shutil
import subprocess
import sys
import tempfile

MOST_AT_ONCE = 12
# A check takes all processors that are free unless it is told; each of its jobs reads the libraries once more, and other crates are tried beside it.
CHECK = ["rt", "check", "--jobs", os.environ.get("RT_JOBS", "1")]
HEAD = re.compile(r"( *)(?:pub(?:\([a-z]+\))? )?(?:const |unsafe )*fn (\w+)")
SAID = re.compile(r"(?:note: )?(?:\./)?(\S+?):(\d+):\d+: (?:error|it is not proved)")


def pair_of(edit):
    """The file, the old and the new text of an edit with one pair; else None."""
    found = {"file": [], "old": [], "new": []}
    with open(edit, encoding="utf-8") as it:
        for line in it.read().split("\n"):
            word, colon, text = line.partition(":")
            if colon and word in found:
                found[word].append(text.removeprefix(" "))
    if any(len(texts) != 1 for texts in found.values()):
        return None
    return found["file"][0], found["old"][0], found["new"][0]


def function_at(lines, at):
    """The name of the function in whose body a line stands, with its first and its last line; else None."""
    for first in range(at - 1, -1, -1):
        head = HEAD.match(lines[first])
        if not head:
            continue
        indent = head[1]
        opens = next((number for number in range(first, len(lines)) if lines[number] == indent + "{" or lines[number].endswith(" {")), at)
        ends = next((number for number in range(first, len(lines)) if lines[number] == indent + "}"), at)
        return (head[2], first, ends) if opens < at < ends else None
    return None


def edits_of(crate):
    """The edits of one function's body each: name, file, old and new text, and function."""
    folder, edits = f"crates/{crate}/must-fail", []
    for name in sorted(os.listdir(folder)):
        pair = pair_of(f"{folder}/{name}")
        if not pair or not pair[0].endswith(".rt"):
            continue
        with open(f"crates/{crate}/{pair[0]}", encoding="utf-8") as it:
            text = it.read()
        if text.count(pair[1]) == 1:
            function = function_at(text.split("\n"), text[: text.index(pair[1])].count("\n"))
            if function:
                edits.append((name, *pair, function))
    return edits


def batches_of(edits):
    """Lists of edits of functions that have different names."""
    batches = []
    for edit in edits:
        fits = (batch for batch in batches if len(batch) < MOST_AT_ONCE and all(other[4][0] != edit[4][0] for other in batch))
        batch = next(fits, None)
        if batch is None:
            batches.append(batch := [])
        batch.append(edit)
    return batches


def copy_of(seed, room):
    """A copy of a folder, by links of what a check replaces and does not change."""

    def copy(one, other):
        return os.link(one, other) if one.endswith((".oantt", ".rlib")) else shutil.copy2(one, other)

    shutil.copytree(seed, room, symlinks=True, copy_function=copy)


def is_of(edit, said):
    """Whether what was said is of the edit's function: at a line of it, or in a proof of it that does not lack another's."""
    _, file, _, _, (name, first, last) = edit
    if said[1] == file:
        return first < int(said[2]) <= last + 1
    module = file.removeprefix("src/").removesuffix(".rt")
    home = "proofs/" if module in ("lib", "main") else f"proofs/{module}/"
    return said[1].startswith(home) and f"/{name}/" in said[1] and "was not admitted" not in said.string


def try_together(crate, batch, seed, room):
    """Puts these edits in place together, and tells and takes away those that are refused. Where some text cannot be read nobody is asked for a proof: then each half is tried."""
    copy_of(seed, room)
    for _, file, old, new, _ in batch:
        with open(f"{room}/crates/{crate}/{file}", "r+", encoding="utf-8") as it:
            text = it.read().replace(old, new)
            it.seek(0)
            it.truncate()
            it.write(text)
    checked = subprocess.run(CHECK, cwd=f"{room}/crates/{crate}", stdout=subprocess.PIPE, stderr=subprocess.STDOUT, text=True, errors="replace", check=False)
    shutil.rmtree(room)
    if "\nlogic=not-proved" not in checked.stdout:
        for half in (batch[: len(batch) // 2], batch[len(batch) // 2 :]) if len(batch) > 1 else ():
            try_together(crate, half, seed, room)
        return
    said = [found for line in checked.stdout.split("\n") for found in [SAID.match(line)] if found]
    for edit in batch:
        own = next((it for it in said if is_of(edit, it)), None)
        if own:
            print(f"rt: must-fail {crate}/{edit[0]}: refused, as it must be (among {len(batch)}): {own.string[:160]}", flush=True)
            os.remove(f"crates/{crate}/must-fail/{edit[0]}")


def main():
    crate = sys.argv[1]
    edits = edits_of(crate)
    if len(edits) < 2:
        return
    with tempfile.TemporaryDirectory(prefix="bugs-at-once-", dir="..") as rooms:
        seed = f"{rooms}/seed"
        copy_of(".", seed)
        if subprocess.run(CHECK, cwd=f"{seed}/crates/{crate}", stdout=subprocess.DEVNULL, stderr=subprocess.STDOUT, check=False).returncode:
            return
        for batch in batches_of(edits):
            try_together(crate, batch, seed, f"{rooms}/room")
        # rt must-fail begins with it
        kept = f"crates/{crate}/out/incremental"
        if not os.path.exists(kept):
            shutil.move(f"{seed}/{kept}", kept)


if __name__ == "__main__":
    main()
