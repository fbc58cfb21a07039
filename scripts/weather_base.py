"""What the scripts of bad weather stand on: what may be shown of a sector, programs in some weather, and the files that they run over.

Imported by weather.py, weather_server.py and twin.py; it does nothing by itself.
"""
import os
import shutil
import subprocess
import types

TOP = os.path.dirname(os.path.abspath(__file__))
DEVICES = {"m.img": "metadata", "c.img": "cache", "o.img": "origin"}
MODES = ("writeback", "writethrough", "passthrough")
# The programs, and the library that makes the weather.
PROGRAMS = types.SimpleNamespace(cache=None, server=None, weather=None, stops=None)


class Wrong(Exception):
    """What is not as it has to be."""


def need(holds, why):
    if not holds:
        raise Wrong(why)


class Book:
    """What each sector may show: its writes from the last answered flush on, and how many of these were answered."""

    def __init__(self, contents):
        self.entries = {sector: [content] for sector, content in contents.items()}
        self.answered = dict.fromkeys(contents, 0)

    def write(self, sector, content, is_answered):
        self.entries[sector].append(content)
        if is_answered:
            self.answered[sector] = len(self.entries[sector]) - 1

    def flush(self):
        for sector, count in self.answered.items():
            del self.entries[sector][:count]
            self.answered[sector] = 0

    def reads(self, sector, content):
        """The last write that was answered, or a later one that was not."""
        entries = self.entries[sector][self.answered[sector]:]
        need(content in entries, f"sector {sector} reads {content}, where {entries} was written")

    def survives(self, sector, content):
        entries = self.entries[sector]
        need(content in entries, f"sector {sector} shows {content} afterwards, where {entries} was flushed and written")


def table(mode):
    return f"cache m.img c.img o.img 64 1 {mode} tinylfu 0"


def forget_failure():
    """Takes the mark of a failed device away, as whoever has dropped the pages does: here no page is lost."""
    if os.path.exists("m.img.failed"):
        os.remove("m.img.failed")


def environment_of(weather):
    """The environment of a program in some weather: none of it is told yet that it came, and no mark is left of another."""
    forget_failure()
    if not weather:
        return None
    if os.path.exists("note"):
        os.remove("note")
    asked = {name: str(value) for name, value in weather.items()}
    return {**os.environ, "LD_PRELOAD": PROGRAMS.weather, "WEATHER_NOTE": "note", **asked}


def run(program, words, script="", weather=None, timeout=60, binary=False):
    """Runs a program in some weather: its status, its answers, what it says on standard error, and whether the weather came."""
    environment = environment_of(weather)
    try:
        done = subprocess.run([program, *words], input=script, capture_output=True, text=not binary, timeout=timeout, env=environment)
    except subprocess.TimeoutExpired:
        raise Wrong(f"it hangs, in {weather}") from None
    return done.returncode, done.stdout, done.stderr, os.path.exists("note")


WATCHED = [0, 1, 64, 70, 128, 192, 256, 320, 639]
PREPARED = {sector: "00" for sector in WATCHED} | {0: "11", 64: "12", 128: "13"}
PREPARE = "w 0 1 11\nw 64 1 12\nw 128 1 13\nr 0 1\nwork\nr 64 1\nwork\nr 128 1\nwork\nsuspend\n"


def prepare():
    """Files of a cache that was left clean, with three blocks in it."""
    for name, size in (("m.img", 2048), ("c.img", 131072), ("o.img", 327680)):
        if os.path.exists(name):
            os.remove(name)
        with open(name, "wb") as file:
            file.truncate(size)
    need(run(PROGRAMS.cache, ["format", table("writeback")])[:2] == (0, "formatted 4 10\n"), "formatting")
    status, told, _, _ = run(PROGRAMS.cache, ["run", table("writethrough")], PREPARE)
    need(status == 0 and told.count("promoted") == 3, f"a first life: {status} {told}")
    for name in DEVICES:
        shutil.copy(name, name + ".kept")


def restore():
    for name in DEVICES:
        shutil.copy(name + ".kept", name)


def look_again(book):
    """A run in good weather over what is left."""
    status, told, _, _ = run(PROGRAMS.cache, ["run", table("writeback")], "".join(f"r {sector} 1\n" for sector in WATCHED))
    need(status == 0, f"the next run: {status} {told}")
    for sector, line in zip(WATCHED, told.splitlines()):
        need(line.split()[0] == str(sector), f"the next run: {line}")
        book.survives(sector, line.split()[1])


def build(folder, name="weather"):
    """Builds weather.c or stops.c for programs to load, by the kit's clang or else a compiler of the system: None where there is none."""
    made, source = os.path.join(folder, f"{name}.so"), os.path.join(TOP, f"{name}.c")
    words = ["-O2", "-nostdinc", "-shared", "-fPIC", "-o", made, source]
    kit = os.path.join(os.path.dirname(os.path.dirname(os.path.realpath(shutil.which("rt") or "rt"))), "toolchain")
    if os.path.exists(f"{kit}/bin/clang"):
        subprocess.run([f"{kit}/bin/clang", "-nostdlib", f"--ld-path={kit}/bin/ld.lld", *words, f"{kit}/lib/libc.so.6"], check=True)
        return made
    for compiler in ("clang", "gcc", "cc"):
        if shutil.which(compiler):
            subprocess.run([compiler, *words], check=True)
            return made
    return None
