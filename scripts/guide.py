#!/usr/bin/env python3
"""The commands of docs/GUIDE.md, played in their order in a fresh folder: whether they print what the guide says.

    python3 scripts/guide.py WBCACHE WBNBD WBMETA [GUIDE]

Each line behind '$ ' in a block ```console is a command, with the lines behind '> ' as its further lines, and what follows is what it prints, on both
streams together: their lines may come in another order. '...' in a line stands for anything. One shell has all commands. The words behind console say what a
block wants: a program, or 'root', which is root with nbdfuse, /dev/fuse and loop devices. A block that wants what is not there is not tried, and told.
It prints each difference, and at the end 'N passed, N failed'; its status is 0 where nothing failed."""
import os
import re
import shutil
import signal
import subprocess
import sys
import tempfile

TOP = os.path.dirname(os.path.dirname(os.path.abspath(__file__)))
SECONDS = 300
# What a block that wants root wants, too.
DEVICES = ("/dev/fuse", "/dev/loop-control")
BLOCK = re.compile(r"^```console *(.*?)\n(.*?)^```$", re.M | re.S)


def blocks(document):
    """Each block: its line, the words behind console, and its commands, each with the lines that it prints."""
    for match in BLOCK.finditer(document):
        commands = []
        for line in match.group(2).splitlines():
            if line.startswith("$ "):
                commands.append((line[2:], []))
            elif line.startswith("> ") and not commands[-1][1]:
                commands[-1] = (commands[-1][0] + "\n" + line[2:], [])
            else:
                commands[-1][1].append(line)
        yield document.count("\n", 0, match.start()) + 1, match.group(1).split(), commands


def lacking(wants, path):
    """Which of these a machine has not."""
    if "root" in wants:
        lacks = ["root"] * (os.geteuid() != 0) + [device for device in DEVICES if not os.access(device, os.W_OK)]
        wants = [tool for tool in wants if tool != "root"] + ["nbdfuse", "fusermount3", "mkfs.ext4"]
    else:
        lacks = []
    return lacks + [tool for tool in wants if not shutil.which(tool, path=path)]


def is_printed(wanted, found):
    """Whether these lines are printed, in whatever order."""
    left = list(found)
    for line in wanted:
        pattern = ".+".join(re.escape(part) for part in line.split("..."))
        match = next((it for it in left if re.fullmatch(pattern, it)), None)
        if match is None:
            return False
        left.remove(match)
    return not left


def play(commands, folder, path):
    """What each command prints, by one shell; fewer where that hangs or ends."""
    script = ""
    for number, (command, _) in enumerate(commands):
        script += f"echo '=== {number}'; echo '=== {number}' >&2\n{{\n{command}\n}} </dev/null\n"
    # A file for each stream: in one a line of one stream could stand within a line of the other.
    streams = [open(os.path.join(folder, name), "w+", encoding="utf-8") for name in ("said", "told")]
    with streams[0] as said, streams[1] as told:
        where = {"cwd": os.path.join(folder, "play"), "env": {**os.environ, "PATH": path, "LC_ALL": "C"}}
        shell = subprocess.Popen(["sh", "-c", script], stdin=subprocess.DEVNULL, stdout=said, stderr=told, start_new_session=True, **where)
        try:
            shell.wait(SECONDS)
        except subprocess.TimeoutExpired:
            print(f"failed: the commands take longer than {SECONDS} seconds: no output is known behind the next line that failed")
        try:
            os.killpg(shell.pid, signal.SIGKILL)
        except ProcessLookupError:
            pass
        for place in ("mnt", "disk"):
            subprocess.run(["umount", "-l", place], cwd=where["cwd"], env=where["env"], capture_output=True)
        parts = []
        for stream in (said, told):
            stream.seek(0)
            parts.append([part.splitlines() for part in re.split(r"^=== \d+\n", stream.read(), flags=re.M)[1:]])
        return [first + second for first, second in zip(*parts)]


def main():
    guide = sys.argv[4] if len(sys.argv) > 4 else os.path.join(TOP, "docs/GUIDE.md")
    commands = []
    with tempfile.TemporaryDirectory() as folder:
        path = f"{folder}/bin:{os.environ['PATH']}:/usr/sbin:/sbin"
        for name in ("bin", "play"):
            os.mkdir(os.path.join(folder, name))
        for name, program in zip(("wbcache", "wbnbd", "wbmeta"), sys.argv[1:4]):
            os.symlink(os.path.abspath(program), os.path.join(folder, "bin", name))
        for line, wants, ones in blocks(open(guide, encoding="utf-8").read()):
            lacks = lacking(wants, path)
            if lacks:
                print(f"not tried: the block of {os.path.basename(guide)}, line {line}: there is no {', '.join(lacks)}")
            else:
                commands += ones
        found = play(commands, folder, path)
    failed = 0
    for number, (command, wanted) in enumerate(commands):
        if number >= len(found):
            failed += 1
            continue
        said = found[number]
        if not is_printed(wanted, said):
            failed += 1
            print("\n".join([f"failed: {command}", *(f"  wanted: {line}" for line in wanted), *(f"  found:  {line}" for line in said)]))
    print(f"{len(commands) - failed} passed, {failed} failed")
    return 1 if failed else 0


sys.exit(main())
