"""Wrong bodies that no contract refuses for certain, and the tests that catch them.

    caught.py [WORD ..]

Each line of scripts/cases/caught.txt is an edit, a crate of tests, and one of its tests; or an edit, `wbcache`, and a script, a bar and what the right
program prints for it, over files as scripts.txt has them, and where a second bar stands, what stands behind the block's size in its table; or an edit, `wbnbd`, a bar
and how the right one leaves these files where its client says nothing: `clean`. The edit is made in a copy of the sources, which is compiled
without a proof by `rt try`; that test has to fail there, or the program not to print that. With words, the lines that have one of them are tried. It prints for each which tests failed, or
what was said where the copy was not compiled, and at the end 'N passed, N failed'. Each takes a minute and a half of processor time, so the gate does not call it.
"""
import os
import struct
import subprocess
import sys
import tempfile

from always_refused import TOP, copy_of, failing
from bugs_at_once import pair_of
from images import root_sector

ROWS = f"{TOP}/scripts/cases/caught.txt"


def rows(words):
    """The edit, the crate of tests and the test of each line that has one of these words, or of all."""
    with open(ROWS, encoding="utf-8") as lines:
        for line in lines:
            if line.strip() and not line.startswith("#") and (not words or any(word in line for word in words)):
                yield line.rstrip("\n").split(" ", 2)


def put(folder, edit):
    """Makes an edit in the copy: it is one of the crate whose folder it stands in."""
    file, old, new = pair_of(f"{TOP}/{edit}")
    crate = os.path.basename(os.path.dirname(edit.replace("/bugs/", "/")))
    name = f"{folder}/crates/{crate}/{file}"
    with open(name, encoding="utf-8") as source:
        text = source.read()
    if text.count(old) != 1:
        sys.exit(f"caught.py: {edit}: its old text stands {text.count(old)} times in {file}")
    with open(name, "w", encoding="utf-8") as source:
        source.write(text.replace(old, new))


def newest_is_clean(metadata):
    """Whether the newest of two roots has the clean flag."""
    first, second = (struct.unpack_from("<QII", metadata, 512 * slot + 8) for slot in (0, 1))
    return max(first, second)[2] == 1


def printed(folder, program, script, behind_size="0 tinylfu 0"):
    """What a program of the copy prints for a script, over four cache blocks and ten origin blocks of zeros, and how it leaves them; None where it did not run."""
    files = {"metadata": root_sector(0, 1, 1, 64, 4, 10, 4, 0, 0).ljust(4 * 512, b"\0"), "cache": bytes(256 * 512), "origin": bytes(640 * 512)}
    for name, content in files.items():
        with open(f"{folder}/{name}", "wb") as file:
            file.write(content)
    words = ["run"] if program == "wbcache" else []
    table = f"cache {folder}/metadata {folder}/cache {folder}/origin 64 {behind_size}"
    with open(f"{folder}/script", "w+", encoding="utf-8") as lines:
        lines.write(script)
        lines.seek(0)
        done = subprocess.run(["rt", "try", "--", *words, table], cwd=f"{folder}/crates/{program}", stdin=lines, stdout=subprocess.PIPE, stderr=subprocess.STDOUT, text=True)
    if "run=ended" not in done.stdout:
        return None, done.stdout[-600:]
    with open(f"{folder}/metadata", "rb") as metadata:
        left = "clean\n" if newest_is_clean(metadata.read()) else "as it was in use\n"
    return done.stdout + left, done.stdout[-600:]


def is_caught_by(folder, crate, test):
    """Whether a test fails in the copy, or a program does not print what it should, and what there is to tell."""
    if crate.startswith("wb_tests_"):
        tests, said = failing(folder, crate)
        return test in tests, f"{len(tests)} of {crate}: {' '.join(tests)}" if tests else said
    script, wanted, *behind_size = (text.replace("\\n", "\n") for text in test.split("|"))
    told, said = printed(folder, crate, script, *behind_size)
    return told is not None and wanted not in told, f"{crate} {test}" if told is not None else said


def main():
    passed = failed = 0
    for edit, crate, test in rows(sys.argv[1:]):
        with tempfile.TemporaryDirectory() as folder:
            copy_of(folder)
            put(folder, edit)
            is_caught, told = is_caught_by(folder, crate, test)
        passed, failed = passed + is_caught, failed + (not is_caught)
        print(f"{'ok' if is_caught else 'failed'}: {os.path.basename(edit).removesuffix('.edit')}: {told}", flush=True)
    print(f"{passed} passed, {failed} failed")
    sys.exit(failed > 0)


if __name__ == "__main__":
    main()
