#!/usr/bin/env python3
"""What real_faults.py stands on: disks whose writes fail for a moment, runs of the programs over them, and what a sector may show. Imported by it; it does
nothing by itself.
"""
import ctypes
import mmap
import os
import select
import shutil
import signal
import socket
import subprocess
import tempfile
import time

from weather_base import PROGRAMS, Wrong, need

BLOCK, DISK = 64 * 512, 16 << 20
NAMES = ("m.img", "c.img", "o.img")
DEVICES = {"m": "metadata", "c": "cache", "o": "origin"}
WATCHED = (0, 1, 64, 70, 128, 192, 200, 256, 320, 385, 448, 512, 639)
LIBC = ctypes.CDLL(None, use_errno=True)
TOOLS = ("nbdkit", "nbdfuse", "losetup", "mount", "umount", "mkfs.ext4", "dd")


def quiet(*words):
    return subprocess.run(words, stdin=subprocess.DEVNULL, capture_output=True, text=True, timeout=60)


def done(*words):
    ran = quiet(*words)
    need(ran.returncode == 0, f"{' '.join(words)}: status {ran.returncode}: {ran.stderr.strip()}")
    return ran.stdout.strip()


def begin(*words):
    return subprocess.Popen(words, stdin=subprocess.DEVNULL, stdout=subprocess.DEVNULL, stderr=subprocess.DEVNULL)


def until(holds, what):
    end = time.monotonic() + 10
    while not holds():
        need(time.monotonic() < end, what)
        time.sleep(0.005)


class Disk:
    """A disk in a folder of that name: its image, loop device and mount, and between these, where some of its writes are to fail, nbdkit and nbdfuse."""

    def __init__(self, name, image, is_served=False):
        self.name, self.kit, self.fuse, self.loop = name, None, None, None
        self.image, self.trigger, self.mounted = f"{name}/image", f"{name}/fail", f"{name}/mnt"
        os.mkdir(name)
        os.mkdir(self.mounted)
        done("cp", "--sparse=always", image, self.image)
        try:
            if is_served:
                self.served()
            self.loop = done("losetup", "--find", "--show", f"{name}/disk" if is_served else self.image)
            self.mount()
        except BaseException:
            self.end()
            raise

    def served(self):
        """Each write fails, or none: where one of ten does, Linux 6.18 answers fdatasync well over this at times, also without a cache, for what is lost."""
        open(f"{self.name}/disk", "w").close()
        errors = [f"error-{call}-{word}" for call in ("pwrite", "zero", "trim") for word in ("rate=100%", f"file={os.path.abspath(self.trigger)}")]
        self.kit = begin("nbdkit", "--exit-with-parent", "-f", "-U", f"{self.name}/socket", "--filter=error", "file", self.image, "error=EIO", *errors)
        until(lambda: os.path.exists(f"{self.name}/socket"), "nbdkit serves nothing")
        self.fuse = begin("nbdfuse", f"{self.name}/disk", "--unix", f"{self.name}/socket")
        until(lambda: os.path.getsize(f"{self.name}/disk") == DISK, "nbdfuse shows no disk")

    def mount(self):
        done("mount", "-t", "ext4", self.loop, self.mounted)

    def fails(self, is_failing):
        if is_failing:
            open(self.trigger, "w").close()
        elif os.path.exists(self.trigger):
            os.remove(self.trigger)

    def is_sound(self):
        """Whether the file system can still be written: where its journal met a failure, it cannot."""
        try:
            with open(f"{self.mounted}/probe", "w") as file:
                file.write("x")
                file.flush()
                os.fsync(file.fileno())
            return True
        except OSError:
            return False

    def mend(self):
        """The disk is well again: whether the file system had to be mounted anew."""
        self.fails(False)
        if self.is_sound():
            return False
        done("umount", self.mounted)
        self.mount()
        return True

    def power(self):
        """The power is lost: nothing more comes to the image of a disk that is served; the other is idle, as the runs are."""
        if self.kit:
            self.kit.kill()
            self.kit.wait()

    def end(self):
        self.fails(False)
        if os.path.ismount(self.mounted) and quiet("umount", self.mounted).returncode:
            quiet("umount", "-l", self.mounted)
        if self.loop:
            quiet("losetup", "-d", self.loop)
        if self.fuse:
            # The loop device lets go of the file in its own time.
            end = time.monotonic() + 5
            while quiet("umount", f"{self.name}/disk").returncode and self.fuse.poll() is None and time.monotonic() < end:
                time.sleep(0.01)
            quiet("umount", "-l", f"{self.name}/disk")
            try:
                self.fuse.wait(timeout=5)
            except subprocess.TimeoutExpired:
                self.fuse.kill()
                self.fuse.wait()
        if self.kit:
            self.kit.kill()
            self.kit.wait()


class Book:
    """What each sector may show: its writes from the last answered flush on, by their numbers."""

    def __init__(self):
        self.writes = {sector: ["00"] for sector in WATCHED}
        self.flushed = dict.fromkeys(WATCHED, 0)
        self.answered = dict.fromkeys(WATCHED, 0)

    def write(self, sector, content, is_answered):
        self.writes[sector].append(content)
        if is_answered:
            self.answered[sector] = len(self.writes[sector]) - 1

    def flush(self, answered):
        for sector, number in answered.items():
            self.flushed[sector] = max(self.flushed[sector], number)

    def reads(self, sector, content):
        may = self.writes[sector][self.answered[sector]:]
        need(content in may, f"sector {sector} reads {content}, where {may} was written")

    def survives(self, sector, content):
        may = self.writes[sector][self.flushed[sector]:]
        need(content in may, f"sector {sector} shows {content} afterwards, where {may[0]} was flushed and {may[1:]} written since")

    def opened(self, sector, content):
        """A later life reads this: from here on that is what the sector holds."""
        self.survives(sector, content)
        if content != self.writes[sector][-1]:
            self.writes[sector].append(content)
        self.answered[sector] = len(self.writes[sector]) - 1


class Run:
    """A script to which lines are given one at a time."""

    def __init__(self, table):
        self.said, self.told, self.read = tempfile.TemporaryFile(), [], b""
        self.process = subprocess.Popen([PROGRAMS.cache, "run", table], stdin=subprocess.PIPE, stdout=subprocess.PIPE, stderr=self.said)

    def hear(self):
        while b"\n" not in self.read:
            need(select.select([self.process.stdout], [], [], 20)[0], "no answer in 20 seconds")
            more = os.read(self.process.stdout.fileno(), 65536)
            if not more:
                raise Wrong(f"the run ended: {self.ended()}")
            self.read += more
        line, _, self.read = self.read.partition(b"\n")
        return line.decode()

    def ask(self, *lines, answers=None):
        """Gives lines, and reads an answer for each, or as many as are wanted."""
        try:
            self.process.stdin.write("".join(f"{line}\n" for line in lines).encode())
            self.process.stdin.flush()
        except OSError:
            raise Wrong(f"the run ended: {self.ended()}") from None
        told = [self.hear() for _ in range(len(lines) if answers is None else answers)]
        return told[0] if len(told) == 1 else told

    def is_open(self):
        """Whether the opening went well, waited for."""
        try:
            return not self.ask("status").startswith("refused")
        except Wrong:
            return False

    def close(self):
        try:
            self.process.stdin.close()
        except OSError:
            pass

    def ended(self):
        """The end of the script: its status, and what standard error says."""
        self.close()
        self.process.wait(timeout=60)
        return self.gone()

    def killed(self):
        self.process.kill()
        self.process.wait()
        return self.gone()

    def gone(self):
        if not self.said.closed:
            self.said.seek(0)
            self.text = self.said.read().decode(errors="replace")
            self.said.close()
            self.process.stdout.close()
            self.close()
        return self.process.returncode, self.text


class World:
    """Two disks and the cache over them: the devices that lie on the bad disk are named by their letters."""

    def __init__(self, image, on_bad):
        self.files = {name: f"{'bad' if name[0] in on_bad else 'good'}/mnt/{name}" for name in NAMES}
        self.table = "cache " + " ".join(self.files[name] for name in NAMES) + " 64 0 tinylfu 0"
        self.mark = self.files["m.img"] + ".failed"
        self.book, self.disks, self.runs, self.steps = Book(), [], [], []
        self.on_bad, self.is_sure = on_bad, True
        try:
            self.bad = Disk("bad", image, is_served=True)
            self.disks += [self.bad]
            self.disks += [Disk("good", image)]
        except BaseException:
            self.end()
            raise

    def run(self):
        run = Run(self.table)
        self.runs.append(run)
        return run

    def fails(self, is_failing):
        self.bad.fails(is_failing)

    def hangs(self, run):
        """The bad disk hangs in a flush, the run is killed, and then the disk fails: who was told of it can leave no mark any more."""
        self.steps.append("it hangs; flush; killed; it fails; it is well")
        self.bad.kit.send_signal(signal.SIGSTOP)
        try:
            run.process.stdin.write(b"flush\n")
            run.process.stdin.flush()
            time.sleep(0.1)
            run.process.kill()
            self.fails(True)
        finally:
            self.bad.kit.send_signal(signal.SIGCONT)
        run.killed()
        self.fails(False)

    def written_out(self):
        """The kernel writes back what is dirty, as it does by itself after a while: nobody is told yet what failed."""
        for name in NAMES:
            if name[0] in self.on_bad:
                with open(self.files[name], "rb") as file:
                    LIBC.sync_file_range(file.fileno(), ctypes.c_longlong(0), ctypes.c_longlong(0), 2)
        time.sleep(0.03)

    def synced_by_another(self, whole=False):
        """Another program syncs the files of the bad disk, or all of it: whether it was told of a failure."""
        told = False
        for name in NAMES:
            if name[0] in self.on_bad:
                with open(self.files[name], "rb") as file:
                    try:
                        if whole:
                            told |= LIBC.syncfs(file.fileno()) != 0
                        else:
                            os.fdatasync(file.fileno())
                    except OSError:
                        told = True
        return told

    def dropped(self):
        """What is to be done once the disk is well again: the pages of each file are dropped."""
        for name in NAMES:
            done("dd", f"if={self.files[name]}", "iflag=nocache", "count=0", "status=none")

    def differ(self):
        """The files of the bad disk of which the system keeps other bytes than the disk has: read past the pages, and from them."""
        names = []
        for name in NAMES:
            if name[0] in self.on_bad:
                size = -(-os.path.getsize(self.files[name]) // 4096) * 4096
                with mmap.mmap(-1, size) as disk:
                    file = os.open(self.files[name], os.O_RDONLY | os.O_DIRECT)
                    try:
                        count = os.preadv(file, [disk], 0)
                    finally:
                        os.close(file)
                    with open(self.files[name], "rb") as kept:
                        names += [name] * (kept.read() != disk[:count])
        return names

    def meta(self, word):
        ran = quiet(PROGRAMS.meta, word, self.table)
        return ran.returncode, ran.stdout, ran.stderr

    def opens(self):
        """Whether the server opens, its status, and what it says."""
        ours, theirs = socket.socketpair()
        process = subprocess.Popen([PROGRAMS.server, self.table], stdin=theirs, stdout=theirs, stderr=subprocess.PIPE, text=True)
        theirs.close()
        ours.settimeout(20)
        is_open = ours.recv(8) == b"NBDMAGIC"
        ours.close()
        said = process.communicate(timeout=60)[1]
        return is_open, process.returncode, said

    def is_marked(self, said):
        """A mark is left, or it is said that none can be: the file system can no longer be written, and drops its pages as it is mounted anew."""
        return os.path.exists(self.mark) or "no mark can be left: Read-only file system" in said and not self.bad.is_sound()

    def is_kept_off(self):
        """A mark is left: what it says, and that it is obeyed, though the disk is well again."""
        with open(self.mark) as file:
            text = file.read()
        with open("/proc/sys/kernel/random/boot_id") as file:
            need(file.read().strip() in text, f"the mark: {text}")
        need(text.split()[0] in [DEVICES[it] for it in self.on_bad], f"the mark: {text}")
        is_open, status, said = self.opens()
        need(not is_open and status == 3 and "wbmeta cleared" in said, f"served over a mark: {is_open}, {status}, {said}")
        status, told, said = self.meta("writeback")
        need(status == 3 and told.startswith("refused 5 Io") and "wbmeta cleared" in said, f"written back over a mark: {status}, {told}, {said}")
        run = self.run()
        status, said = run.ended()
        need("wbmeta cleared" in said, f"a script over a mark says nothing of it: {status}, {said}")

    def is_cleared(self):
        self.dropped()
        status, told, said = self.meta("cleared")
        need((status, told) == (0, "ok\n") and not os.path.exists(self.mark), f"clearing: {status}, {told}, {said}")

    def is_read(self, run):
        """All sectors, in a life behind another one."""
        for sector, told in zip(WATCHED, run.ask(*(f"r {sector} 1" for sector in WATCHED))):
            need(told.split()[0] == str(sector), f"r {sector} 1: {told}")
            self.book.opened(sector, told.split()[1])

    def power_is_lost(self):
        """What a fresh opening over the copies of both disks shows."""
        for disk in self.disks:
            disk.power()
        for run in self.runs:
            run.killed()
        os.mkdir("lost")
        os.mkdir("lost/mnt")
        for disk in self.disks:
            done("cp", "--sparse=always", disk.image, f"lost/{disk.name}")
            done("mount", "-t", "ext4", "-o", "loop", f"lost/{disk.name}", "lost/mnt")
            try:
                for name, path in self.files.items():
                    if path.startswith(disk.name):
                        shutil.copy(f"lost/mnt/{name}", f"lost/{name}")
            finally:
                done("umount", "lost/mnt")
        ran = subprocess.run([PROGRAMS.cache, "run", "cache lost/m.img lost/c.img lost/o.img 64 0 tinylfu 0"], capture_output=True, text=True, timeout=60,
                             input="".join(f"r {sector} 1\n" for sector in WATCHED))
        need(ran.returncode == 0, f"the opening after the power: {ran.returncode}, {ran.stdout}, {ran.stderr}")
        shown = dict(line.split() for line in ran.stdout.splitlines())
        for sector in WATCHED:
            self.book.survives(sector, shown[str(sector)])
        return shown

    def end(self):
        for run in self.runs:
            run.killed()
        for disk in self.disks:
            disk.end()

    def __enter__(self):
        return self

    def __exit__(self, *_):
        self.end()

    # --- A life that the book follows.
    def asked(self, run, line):
        """One line of the first client, by the book: its answer."""
        self.steps.append(line)
        told = run.ask(line)
        self.steps[-1] += f" -> {told}"
        self.noted(line, told, dict(self.book.answered))
        return told

    def noted(self, line, told, before):
        word, *rest = line.split()
        is_ok = told == "ok"
        if word in ("w", "wf"):
            self.book.write(int(rest[0]), rest[2], is_ok)
            before[int(rest[0])] = self.book.answered[int(rest[0])]
        if word == "r" and not told.startswith("refused") and self.is_sure:
            self.book.reads(int(rest[0]), told.split()[1])
        if word in ("wf", "flush", "tick", "suspend") and is_ok:
            self.book.flush(before)

    def joined(self, run, lines):
        """Lines of several clients beside one another, each client over sectors of its own."""
        self.steps.append("; ".join(lines))
        told = run.ask(*lines, "join", answers=len(lines))
        told = [told] if len(lines) == 1 else told
        self.steps[-1] += f"; join -> {'; '.join(told)}"
        answers = {}
        for answer in told:
            client, _, rest = answer.partition(" ")
            answers.setdefault(client, []).append(rest)
        before = dict(self.book.answered)
        befores = {client: dict(before) for client in answers}
        for line in lines:
            client, _, rest = line.partition(" ")
            self.noted(rest, answers[client].pop(0), befores[client])



def image_of(folder, block):
    """The image of a disk with the files of an empty cache, each byte of them written."""
    image, mounted = os.path.join(folder, f"image{block}"), os.path.join(folder, f"made{block}")
    with open(image, "wb") as file:
        file.truncate(DISK)
    done("mkfs.ext4", "-q", "-F", "-b", str(block), "-J", "size=4", "-E", "lazy_itable_init=0,lazy_journal_init=0,nodiscard", image)
    os.mkdir(mounted)
    done("mount", "-t", "ext4", "-o", "loop", image, mounted)
    try:
        for name, size in (("m.img", 4 * 512), ("c.img", 4 * BLOCK), ("o.img", 10 * BLOCK)):
            with open(f"{mounted}/{name}", "wb") as file:
                file.write(bytes(size))
        done(PROGRAMS.cache, "format", f"cache {mounted}/m.img {mounted}/c.img {mounted}/o.img 64 0 tinylfu 0")
    finally:
        done("umount", mounted)
    return image
