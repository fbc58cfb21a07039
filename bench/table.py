#!/usr/bin/env python3
"""The rows of the table of docs/PERFORMANCE.md: see table.sh, which calls it with the programs.

    table.py WBCACHE WBNBD WB_BENCH BUILT [ROW..]

BUILT is a folder with the plain programs (clients, policy, ticks). With no ROW all of them; else those named: requests, four, hot, moves, opening,
settle, tick, nbd, mounted, durable, memory. Each line is a row: what ours takes and what the other takes, their ratio, and what is aimed at. All alternate in one run.
"""
import os
import shutil
import signal
import subprocess
import sys
import tempfile
import time

from rows import BENCH, alternated, fill, machine, make_files, make_full, many, printed, seconds_of, served, table_of, told

SHM = os.environ.get("WORK", "/dev/shm")
DISK = os.environ.get("DISK", "/var/tmp")


class Programs:
    def __init__(self, cache, server, bench, built):
        self.cache, self.server, self.bench = map(os.path.abspath, (cache, server, bench))
        self.clients, self.policy, self.ticks = (os.path.join(os.path.abspath(built), name) for name in ("clients", "policy", "ticks"))


def row(name, ours, other, unit, ratio=None, aim="", beside=""):
    ratio = ours / other if ratio is None else ratio
    print(f"| {name} | {ours:.4g} | {other:.4g} | {unit} | {ratio:.2f} | {aim} | {beside} |", flush=True)


# --- Requests of a target's clients.
def cached(programs, work):
    """Files of a cache of 512 blocks over 1,024, all of whose pages are there: the table, and a call that formats it."""
    make_files(work, 512, 1024)
    for name in ("c", "o"):
        fill(f"{work}/{name}.img")
    table = table_of(work)
    return table, lambda: printed(programs.cache, "format", table)


def requests(programs):
    rows = [
        ("try_read", 8, 200000, "1.15"), ("try_write", 8, 200000, "1.15"), ("read", 8, 200000, "1.25"), ("write", 8, 200000, "1.25"),
        ("try_read", 64, 50000, "1.05"), ("try_write", 64, 50000, "1.05"), ("read", 64, 50000, "1.05"), ("write", 64, 50000, "1.05"),
        ("read", 2048, 2000, "1.05"), ("write", 2048, 2000, "1.05"),
    ]
    with tempfile.TemporaryDirectory(dir=SHM) as work:
        table, format_it = cached(programs, work)
        for call, sectors, count, aim in rows:
            count = many(count)

            def ours():
                format_it()
                return served(programs.bench, table, call, sectors, count, 1)

            def plain():
                return int(printed(programs.clients, f"{work}/c.img", call.removeprefix("try_"), sectors, count, 1))

            took = alternated(plain=plain, ours=ours)
            size = f"{sectors // 2} KiB" if sectors < 2048 else "1 MiB"
            row(f"`{call}` {size}, one client", took["ours"] / count / 1000, took["plain"] / count / 1000, "us a request", aim=f"at most {aim}" if aim else "")


def four(programs):
    """Four clients on threads of their own beside one, and the same of plain calls."""
    with tempfile.TemporaryDirectory(dir=SHM) as work:
        table, format_it = cached(programs, work)
        for call in ("try_read", "try_write"):
            count = many(200000)

            def ours(clients):
                format_it()
                return clients * count / served(programs.bench, table, call, 8, count, clients) * 1e9

            def plain(threads):
                return threads * count / int(printed(programs.clients, f"{work}/c.img", call.removeprefix("try_"), 8, count, threads)) * 1e9

            rate = alternated(one=lambda: ours(1), four=lambda: ours(4), plain_one=lambda: plain(1), plain_four=lambda: plain(4))
            beside = f"plain: {rate['plain_four'] / rate['plain_one']:.2f}"
            row(f"`{call}` 4 KiB, four clients, beside one", rate["four"], rate["one"], "requests a second", aim="at least 3.6" if call == "try_read" else "", beside=beside)


def hot(programs):
    """Sixteen clients ask for the same sixteen blocks; one of them writes. How many requests the slowest reader has, of what would be its share."""
    with tempfile.TemporaryDirectory(dir=SHM) as work:
        table, format_it = cached(programs, work)
        milliseconds = many(1000)

        def ours():
            format_it()
            total, least = told(printed(programs.bench, table, "hot", 8, milliseconds, 16), "others")
            return 15 * least / max(1, total)

        def plain():
            total, least = map(int, printed(programs.clients, "hot", f"{work}/c.img", 8, milliseconds, 16).split())
            return 15 * least / max(1, total)

        share = alternated(ours=ours, plain=plain)
        row("the slowest reader of fifteen beside a writer, hot blocks", share["ours"], share["plain"], "of its share", ratio=share["ours"], aim="at least 0.5")


def moves(programs):
    """A block that goes into the cache, and one that is carried home: beside one read and one write of it between two rounds of a lock."""
    with tempfile.TemporaryDirectory(dir=SHM) as work:
        table, format_it = cached(programs, work)

        def promotion():
            format_it()
            count, took = told(printed(programs.bench, table, "try_read", 8, 1, 1), "promotions")
            return took / count

        def home():
            format_it()
            count, took = told(printed(programs.bench, table, "home", 1, 512, 1), "requests")
            return took / count

        def copied(source, target):
            return int(printed(programs.clients, "copy", f"{work}/{source}.img", f"{work}/{target}.img")) / 512

        took = alternated(promotion=promotion, into=lambda: copied("o", "c"), home=home, back=lambda: copied("c", "o"))
        row("promotion of 32 KiB", took["promotion"] / 1000, took["into"] / 1000, "us", aim="at most 1.08")
        row("demotion: what carries 32 KiB home", took["home"] / 1000, took["back"] / 1000, "us", aim="at most 1.08")


# --- What is done once, or over all blocks.
def opened(programs, table):
    seconds, _, peak = printed(sys.executable, f"{BENCH}/opened.py", programs.cache, table).split()
    return float(seconds), int(peak)


def opening(programs):
    for name, far in (("neighbors", False), ("far apart", True)):
        with tempfile.TemporaryDirectory(dir=SHM) as work:
            table = table_of(work)
            make_full(programs.bench, work, 1048575, far)
            shutil.copy(f"{work}/m.img", f"{work}/kept")

            def ours():
                shutil.copy(f"{work}/kept", f"{work}/m.img")
                return opened(programs, table)[0]

            took = alternated(ours=ours)
            row(f"opening with 1,048,575 mapped blocks, {name}", took["ours"], 1, "s", aim="at most 0.5")


def settle(programs):
    accesses = many(3000000)

    def each(program, *words):
        return (seconds_of(program, *words, accesses) - seconds_of(program, *words, 0)) / accesses * 1e9

    took = alternated(ours=lambda: each(programs.bench, "settles", 262144), plain=lambda: each(programs.policy, 262144))
    row("settle, 262,144 cache blocks", took["ours"], took["plain"], "ns an access", aim="at most 1.3")


def tick(programs):
    """A tick and its flush, of a target whose 262,144 blocks are all mapped, one of them dirty; beside a scan of so many words in C."""
    with tempfile.TemporaryDirectory(dir=SHM) as work:
        table = table_of(work)
        count = many(200)

        def ours():
            make_full(programs.bench, work, 262144)
            return served(programs.bench, table, "tick", 1, count, 1) / count

        took = alternated(ours=ours, plain=lambda: int(printed(programs.ticks, 262144, count)) / count)
        row("a tick over 262,144 blocks, one dirty", took["ours"] / 1000, took["plain"] / 1000, "us", aim="constant")


def memory(programs):
    peaks = {}
    for name, blocks, origin in (("least", 1024, 1024), ("origin", 1024, 1 << 20), ("cached", 1048575, 1 << 20)):
        with tempfile.TemporaryDirectory(dir=SHM) as work:
            table = table_of(work)
            if origin == 1024:
                make_files(work, blocks, origin)
                printed(programs.cache, "format", table)
            else:
                make_full(programs.bench, work, blocks)
            peaks[name] = alternated(ours=lambda: opened(programs, table)[1])["ours"] * 1024
    of_origin = (peaks["origin"] - peaks["least"]) / ((1 << 20) - 1024)
    row("memory of an origin block", of_origin, 1, "bytes, at the peak", aim="at most 24")
    row("memory of a cached block", (peaks["cached"] - peaks["origin"]) / (1048575 - 1024), 1, "bytes, at the peak of an opening", aim="at most 90")


# --- Servers.
class Servers:
    """Servers on sockets in a folder, by their names; all end with it."""

    def __init__(self, work):
        self.work, self.running = work, []

    def __enter__(self):
        return self

    def __exit__(self, *_):
        for running in self.running:
            running.send_signal(signal.SIGTERM)
        for running in self.running:
            running.wait()

    def start(self, name, *words):
        path = f"{self.work}/{name}.sock"
        words = [word.replace("SOCKET", path) for word in words]
        self.running.append(subprocess.Popen(words, env={**os.environ, "TMPDIR": self.work}, stderr=open(f"{self.work}/{name}.told", "wb")))
        for _ in range(100):
            if os.path.exists(path):
                return path
            time.sleep(0.1)
        sys.exit(f"{name} does not begin to serve")


def cache_of_64_mib(programs, work):
    make_files(work, 1024, 2048)
    fill(f"{work}/c.img")
    fill(f"{work}/o.img")
    with open(f"{work}/plain.img", "wb") as file:
        file.truncate(64 << 20)
    fill(f"{work}/plain.img")
    printed(programs.cache, "format", table_of(work))


def start_ours(programs, servers, work):
    return servers.start("wbnbd", sys.executable, f"{BENCH}/inetd.py", "SOCKET", programs.server, table_of(work))


def fio(target, way, size, depth):
    """Requests a second of fio."""
    engine = ["--ioengine=nbd", f"--uri=nbd+unix:///?socket={target}"] if target.endswith(".sock") else ["--ioengine=psync", f"--filename={target}", "--fallocate=none", "--allow_file_create=0"]
    words = ["fio", "--name=load", *engine, "--size=12M", f"--rw={way}", f"--bs={size}", f"--iodepth={depth}", f"--runtime={max(0.3, many(1000) / 1000)}", "--time_based", "--output-format=terse", "--terse-version=3"]
    for line in printed(*words, cwd=SHM).splitlines():
        fields = line.split(";")
        if len(fields) > 100:
            return int(fields[7]) + int(fields[48])
    sys.exit("fio tells nothing")


def nbd(programs):
    with tempfile.TemporaryDirectory(dir=SHM) as work, Servers(work) as servers:
        cache_of_64_mib(programs, work)
        sockets = {"ours": start_ours(programs, servers, work), "file": servers.start("file", "nbdkit", "-f", "--unix", "SOCKET", "file", f"{work}/plain.img")}
        if shutil.which("qemu-nbd"):
            sockets["qemu"] = servers.start("qemu", "qemu-nbd", "-k", "SOCKET", "-f", "raw", "-e", "8", "-t", f"{work}/plain.img")
        for path in sockets.values():
            printed(sys.executable, f"{BENCH}/flushes.py", path, "warm")
        for size in ("4k", "64k"):
            for depth in (1, 16):
                for way in ("randread", "randwrite"):
                    rate = alternated(**{name: lambda path=path: fio(path, way, size, depth) for name, path in sockets.items()})
                    beside = f"qemu-nbd: {rate['qemu']:.4g}" if "qemu" in rate else ""
                    row(f"`wbnbd` beside nbdkit's file plugin, {way} {size}, depth {depth}", rate["ours"], rate["file"], "requests a second", aim="at least 1", beside=beside)


def mounted(programs):
    """Both servers as files, by nbdfuse, where the system has it."""
    if not shutil.which("nbdfuse") or not os.access("/dev/fuse", os.R_OK | os.W_OK):
        print("| (mounted by nbdfuse: not here, there is no nbdfuse or no /dev/fuse) | | | | | | |")
        return
    with tempfile.TemporaryDirectory(dir=SHM) as work, Servers(work) as servers:
        cache_of_64_mib(programs, work)
        sockets = {"ours": start_ours(programs, servers, work), "file": servers.start("file", "nbdkit", "-f", "--unix", "SOCKET", "file", f"{work}/plain.img")}
        files = {}
        for name, path in sockets.items():
            printed(sys.executable, f"{BENCH}/flushes.py", path, "warm")
        for name, path in sockets.items():
            files[name] = f"{work}/{name}.mounted"
            open(files[name], "wb").close()
            servers.running.append(subprocess.Popen(["nbdfuse", files[name], "--unix", path]))
            for _ in range(100):
                if os.path.getsize(files[name]) > 0:
                    break
                time.sleep(0.1)
        try:
            for way in ("randread", "randwrite"):
                rate = alternated(**{name: lambda path=path: fio(path, way, "4k", 1) for name, path in files.items()})
                row(f"mounted by nbdfuse, {way} 4k", rate["ours"], rate["file"], "requests a second", aim="at least 1")
        finally:
            for path in files.values():
                subprocess.run(["fusermount3" if shutil.which("fusermount3") else "fusermount", "-u", path], check=False)


def durable(programs):
    """Writes that are durable by themselves, on a disk: on one connection, one and sixteen in flight."""
    with tempfile.TemporaryDirectory(dir=DISK) as work, Servers(work) as servers:
        cache_of_64_mib(programs, work)
        sockets = {
            "ours": start_ours(programs, servers, work),
            "file": servers.start("file", "nbdkit", "-f", "--unix", "SOCKET", "file", f"{work}/plain.img"),
            "filter": servers.start("filter", "nbdkit", "-f", "--unix", "SOCKET", "--filter=cache", "file", f"{work}/plain.img", "cache=writeback"),
        }
        for path in sockets.values():
            printed(sys.executable, f"{BENCH}/flushes.py", path, "warm")
        for depth in (1, 16):
            seconds = max(0.3, many(2000) / 1000)
            rate = alternated(**{name: lambda path=path: float(printed(sys.executable, f"{BENCH}/flushes.py", path, depth, seconds, "durable")) for name, path in sockets.items()})
            row(f"`wbnbd`, durable writes (FUA) of 4 KiB, depth {depth}, beside the file plugin", rate["ours"], rate["file"], "a second", aim="at least 0.5" if depth == 1 else "above the cache filter", beside=f"cache filter: {rate['filter']:.4g}")


ROWS = {it.__name__: it for it in (requests, four, hot, moves, opening, settle, tick, nbd, mounted, durable, memory)}


def main():
    programs, chosen = Programs(*sys.argv[1:5]), sys.argv[5:]
    unknown = [name for name in chosen if name not in ROWS]
    if unknown:
        sys.exit(f"no row is named {unknown[0]}: {', '.join(ROWS)}")
    print(machine())
    print("\n| What | ours | the other | unit | ours / the other | aimed at | beside |\n|---|---|---|---|---|---|---|")
    for name, measure in ROWS.items():
        if not chosen or name in chosen:
            measure(programs)
    print(f"\nload at the end: {' '.join(f'{it:.1f}' for it in os.getloadavg())}")


main()
