#!/usr/bin/env python3
"""Each command that README.md and the helps (and so the manual pages) show: that it does what is said there.

    python3 scripts/commands.py WBCACHE WBNBD WBMETA

The commands are read from the README, its indented blocks and the commands in its text, and from the examples of each --help. Each has to stand in the
list below, run here or with the script that tries it. The file system and the clients want root, /dev/fuse, nbdfuse, nbdcopy and
systemd-socket-activate, and are told as not tried where these are not there. It prints what failed, and at the end 'N passed, M failed'.
"""
import os
import re
import shutil
import signal
import subprocess
import sys
import tempfile
import time

TOP = os.path.dirname(os.path.dirname(os.path.abspath(__file__)))
TABLE = "cache m c o 64 0 tinylfu 0"
# What the README shows that is tried by another script.
ELSEWHERE = {
    "sh scripts/first-script.sh": "scripts/check-build.sh",
    "sh scripts/build.sh": "scripts/check-build.sh",
    "sh scripts/build.sh wbnbd": "scripts/check-build.sh",
    "sh scripts/build.sh wbmeta": "scripts/check-build.sh",
    "sh scripts/package.sh": "scripts/check-program.sh",
    "bash .ci/run": "it calls this script",
}
IN_TEXT = re.compile(r"`((?:sh|bash|rt|bin/\w+|umount) [^`]*)`")
passed = failed = 0


def check(what, found, wanted):
    global passed, failed
    if found == wanted:
        passed += 1
    else:
        failed += 1
        print(f"failed: {what}: {found!r}, wanted {wanted!r}")


def shell(script, folder, seconds=60):
    """What a shell prints, and its status."""
    path = f"{folder}/bin:{os.environ['PATH']}:/usr/sbin:/sbin"
    environment = {**os.environ, "PATH": path}
    streams = {"stdin": subprocess.DEVNULL, "stdout": subprocess.PIPE, "stderr": subprocess.DEVNULL}
    process = subprocess.Popen(["sh", "-c", script], cwd=f"{folder}/images", env=environment, text=True, start_new_session=True, **streams)
    try:
        return process.communicate(timeout=seconds)[0], process.returncode
    except subprocess.TimeoutExpired:
        os.killpg(process.pid, signal.SIGKILL)
        return f"it hangs, behind {process.communicate()[0]!r}", None


def missing(*tools):
    """The tools that are not there."""
    lacks = [tool for tool in tools if not shutil.which(tool, path=f"{os.environ['PATH']}:/usr/sbin:/sbin")]
    for device, tool in (("/dev/fuse", "nbdfuse"), ("/dev/loop-control", "mount")):
        lacks += [device] * (tool in tools and not os.access(device, os.W_OK))
    return lacks + ["root"] * (os.geteuid() != 0)


def on_terminal(folder, program, call):
    """What a command prints on a terminal, the words behind each return to the begin of a line on lines of their own, without what is said of the mapping,
    which may come between."""
    words = ["python3", "-c", "import os, pty, sys; sys.exit(os.waitstatus_to_exitcode(pty.spawn(sys.argv[1:])))"]
    done = subprocess.run([*words, f"{folder}/bin/{program}", call, "--wait", "20", TABLE], cwd=f"{folder}/images", stdin=subprocess.DEVNULL, capture_output=True, text=True, timeout=60)
    text = re.sub(r"wbmeta: the mapping is kept: .* TABLE\r?\n", "", done.stdout)
    return [line for line in text.replace("\r", "\n").split("\n") if line]


def blocks(text):
    """The indented blocks."""
    return ["\n".join(line[4:] for line in block.split("\n")) for block in re.findall(r"(?:^    .*\n?)+", text, re.M)]


def examples(program):
    """The lines of the examples in a program's help."""
    text = subprocess.run([program, "--help"], capture_output=True, text=True, timeout=60).stdout
    behind = re.split(r"^Example:\n|Examples,\nwith .*:\n|^Example, with .*:\n|^Examples, with .*:\n", text, flags=re.M)
    return [line[2:].split("    #")[0] for line in "".join(behind[1:]).split("\n") if line.startswith("  ")]


def fresh(folder, names=("m.img", "c.img", "o.img")):
    """Three files, formatted, as the first script leaves them."""
    for name, size in zip(names, (2048, 131072, 327680)):
        with open(f"{folder}/images/{name}", "wb") as file:
            file.truncate(size)
    table = f"cache {' '.join(names)} 64 0 tinylfu 0"
    return shell(f"wbcache format '{table}' && printf 'w 0 1 11\\nr 0 1\\n' | wbcache run '{table}'", folder)[0]


def readme(folder):
    """The README's commands, in their order."""
    with open(f"{TOP}/README.md", encoding="utf-8") as file:
        text = file.read()
    first, answers, build, dialogue, status, mounting, taking_off = (block.strip("\n") for block in blocks(text))
    check("the README's first commands", (first in ELSEWHERE, build in ELSEWHERE), (True, True))
    check("what the first script prints", fresh(folder).strip("\n"), answers)
    told = re.search(r"prints ((?:`[^`]*`(?:, | and ))+)a status", text).group(1)
    wanted = "".join(f"{line}\n" for line in re.findall("`([^`]*)`", told) + [status])
    check("what its lines print", shell(dialogue.split("\n", 1)[1], folder), (wanted, 0))
    check("the cache is taken off", shell(taking_off, folder), ("ok 1\n", 0))
    for command in IN_TEXT.findall(text):
        if command in ELSEWHERE or command in ("rt version", "umount mnt; fusermount3 -u disk"):
            continue
        check(f"'{command}' of the README is listed", command.endswith(" --help") and shell(command.replace("bin/", ""), folder)[1], 0)
    ending = "umount mnt; fusermount3 -u disk"
    check("how it is ended", ending in text, True)
    lacks = missing("nbdfuse", "fusermount3", "mkfs.ext4", "mount")
    if lacks:
        print(f"not tried: a file system on it: there is no {', '.join(lacks)}")
        return
    fresh(folder)
    said, code = shell(f"set -e\n{mounting}\necho it is there >mnt/file; sync mnt/file; cat mnt/file\n{ending}; wait", folder)
    check("a file system on it", (said.split("\n")[-2:], code), (["it is there", ""], 0))
    check("and again", shell(f"set -e\nrm pid; rmdir disk mnt\n{mounting.replace('mkfs.ext4 disk/nbd', ':')}\ncat mnt/file\n{ending}; wait", folder), ("it is there\n", 0))
    shell("umount mnt; fusermount3 -u -z disk", folder)


def helps(folder, cache, server, meta):
    """The examples of the helps."""
    lines = examples(cache)
    check("the examples of wbcache", shell("\n".join(lines), folder), ("formatted 4 10\nok\n", 0))
    check("wbmeta's listing", shell(f"wbmeta check '{TABLE}' && wbmeta dump '{TABLE}' && wbmeta writeback '{TABLE}'", folder), ("ok 1 unclean 0 0\nok 0\n", 0))
    check("wbmeta has no examples", examples(meta), [])
    shell(f"printf 'r 64 1\\nr 64 1\\nwork\\nw 64 1 11\\nflush\\n' | wbcache run '{TABLE}'", folder)
    check("a listing", shell(f"wbmeta dump '{TABLE}'", folder), ("0 1 dirty 0\n", 0))
    check("a listing on a terminal", on_terminal(folder, "wbmeta", "dump"), ["0 1 dirty 0", "hint 0 1", "ok 5 unclean 1 1"])
    said = on_terminal(folder, "wbmeta", "writeback")
    # The bar goes to standard error, and its end may come behind the answer.
    lacks = [part for part in ("[" + 40 * "#" + "] 1 of 1 blocks", "ok 1") if part not in "".join(said)]
    check("writing back on a terminal", lacks and said, [])
    fuse, activate, copy = examples(server)
    lacks = missing("nbdfuse", "fusermount3", "nbdcopy", "systemd-socket-activate")
    if lacks:
        print(f"not tried: the examples of wbnbd: there is no {', '.join(lacks)}")
        return
    begun = f"mkdir dir; head -c 327680 /dev/urandom >image\n{fuse} & until test -e dir/disk; do sleep 0.1; done"
    check("nbdfuse", shell(f"{begun}; cat image >dir/disk; cmp image dir/disk && echo the same; fusermount3 -u dir; wait", folder), ("the same\n", 0))
    activate = activate.replace("/run/wbnbd.sock", f"{folder}/socket").replace(" TABLE", f" --wait 10 '{TABLE}'")
    copy = copy.replace("/run/wbnbd.sock", f"{folder}/socket")
    begun = f"{activate} 2>told & until test -S {folder}/socket; do sleep 0.1; done"
    there = copy.replace("nbdcopy image ", "nbdcopy ") + " copy"
    check("systemd-socket-activate and nbdcopy", shell(f"{begun}; {copy}; {there}; kill $!; wait; cmp image copy && echo the same", folder), ("the same\n", 0))


def main():
    cache, server, meta = (os.path.abspath(word) for word in sys.argv[1:4])
    with tempfile.TemporaryDirectory() as folder:
        os.makedirs(f"{folder}/bin")
        os.makedirs(f"{folder}/images")
        for program in (cache, server, meta):
            os.symlink(program, f"{folder}/bin/{os.path.basename(program)}")
        readme(folder)
        helps(folder, cache, server, meta)
        time.sleep(0.2)
    print(f"{passed} passed, {failed} failed")
    return 1 if failed else 0


sys.exit(main())
