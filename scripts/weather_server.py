"""A client of wbnbd in bad weather: what it asks, and what becomes of it. Imported by weather.py."""
import collections
import os
import random
import signal
import struct
import subprocess
import tempfile
import threading
import time

from weather_base import DEVICES, PREPARED, PROGRAMS, WATCHED, Book, Wrong, environment_of, look_again, need, restore, run, table

READ, WRITE, END, FLUSH, ZEROES = 0, 1, 2, 3, 6
HELLO = b"\0\0\0\3IHAVEOPT" + struct.pack(">II", 7, 6) + bytes(6)


class Gone(Exception):
    """The server is gone."""


def request(command, cookie, at, count, flags=0, magic=0x25609513):
    return struct.pack(">IHHQQI", magic, flags, command, cookie, at, count)


class Server:
    def __init__(self, weather=None, mode="writeback"):
        self.errors = tempfile.TemporaryFile()
        words = [PROGRAMS.server, "--wait", "10", table(mode)]
        streams = {"stdin": subprocess.PIPE, "stdout": subprocess.PIPE, "stderr": self.errors}
        self.process = subprocess.Popen(words, bufsize=0, env=environment_of(weather), **streams)
        self.timer = threading.Timer(60, self.process.kill)
        self.timer.start()
        self.heard = b""

    def greet(self):
        self.send(HELLO)
        self.take(18)
        while True:
            _, _, kind, size = struct.unpack(">QIII", self.take(20))
            self.take(size)
            if kind != 3:
                return kind

    def send(self, data):
        try:
            while data:
                data = data[self.process.stdin.write(data):]
        except OSError:
            raise Gone from None

    def take(self, count):
        data = b""
        while len(data) < count:
            more = self.process.stdout.read(count - len(data))
            if not more:
                raise Gone
            data += more
        self.heard += data
        return data

    def reply(self):
        magic, error, cookie = struct.unpack(">IIQ", self.take(16))
        need(magic == 0x67446698, "no reply")
        return error, cookie

    def ask(self, command, sector=0, content=b"", count=0, flags=0):
        """One request, and its reply: the error, and what was read."""
        self.send(request(command, 7, sector * 512, len(content) or count * 512, flags) + content)
        error, cookie = self.reply()
        need(cookie == 7, "another cookie")
        return error, self.take(count * 512) if command == READ and error == 0 else b""

    def end(self):
        """Closes the connection: the exit status, and what was said on standard error."""
        try:
            self.process.stdin.close()
        except OSError:
            pass
        if not self.process.stdout.closed:
            self.process.stdout.read()
            self.process.stdout.close()
        status = self.process.wait()
        is_hanging = not self.timer.is_alive() and status == -signal.SIGKILL
        self.timer.cancel()
        self.errors.seek(0)
        need(not is_hanging, "it hangs")
        return status, self.errors.read().decode()


# Writes, durable ones, reads and flushes.
ASKED = """w 0 21|r 0|f|w 64 22|r 64|d 70 23|r 192|r 192|w 192 24|f|w 256 25|r 256|r 256|w 0 26|r 0|f|w 320 27|d 639 28|r 639|w 128 29|
r 128|f""".replace("\n", "").split("|")


def converse(server, book):
    """Asks one thing after the other: the errors that came."""
    errors = collections.Counter()
    for asked in ASKED:
        word, *numbers = asked.split()
        sector = int(numbers[0]) if numbers else 0
        if word in "wd":
            error, _ = server.ask(WRITE, sector, bytes.fromhex(numbers[1]) * 512, flags=1 if word == "d" else 0)
            # A durable write whose flush was refused may stand.
            if error in (0, 5, 12) or error == 108 and word == "d":
                book.write(sector, numbers[1], error == 0)
        elif word == "r":
            error, data = server.ask(READ, sector, count=1)
            if error == 0:
                need(data == data[:1] * 512, "a torn sector")
                book.reads(sector, data[:1].hex())
        else:
            error, _ = server.ask(FLUSH)
        if word in "fd" and error == 0:
            book.flush()
        if error:
            errors[error] += 1
    return errors


def served(weather, mode, heard=None):
    """A conversation in some weather, and what is there afterwards: the errors, the exit status, what was said, and whether the weather came.
    What was heard is added to a list."""
    restore()
    server, book, errors = Server(weather, mode), Book(PREPARED), collections.Counter()
    try:
        if server.greet() == 1:
            errors = converse(server, book)
    except Gone:
        errors["gone"] += 1
    finally:
        status, said = server.end()
    if heard is not None:
        heard.append(server.heard)
    look_again(book)
    return errors, status, said, os.path.exists("note")


def each_call_fails_server(mode):
    tried = 0
    for name, device in DEVICES.items():
        for call in range(1, 1000):
            errors, status, said, came = served({"WEATHER_FILE": name, "WEATHER_CALL": call}, mode)
            if not came:
                break
            tried += 1
            need(set(errors) <= {5, 108, "gone"}, f"call {call} of {name}: errors {dict(errors)}")
            # A read that failed is told and the server goes on; what else failed ends in 3.
            need(status == 3 or status == 0 and f"{device} file: a read failed" in said, f"call {call} of {name}: status {status}, {said}")
            need(f"{device} file" in said and "Input/output error" in said, f"call {call} of {name} is not told: {said}")
    return tried


def each_request_refused_server():
    tried = 0
    for number in range(1, 5000):
        errors, status, said, came = served({"WEATHER_ALLOC": number}, "writeback")
        if not came:
            return tried
        tried += 1
        need(set(errors) <= {12, "gone"} and errors[12] <= 1, f"request {number}: errors {dict(errors)}, {said}")
        # The flush at the end may be what is refused.
        is_lost = status == 3 and "the last flush was refused" in said
        need((status in (0, 1, 4) or is_lost) and not (status == 0 and errors["gone"]), f"request {number}: status {status}, {said}")
    raise Wrong("it makes no end of requests")


def in_parts_server(seeds):
    for seed in range(1, seeds + 1):
        errors, status, said, _ = served({"WEATHER_SHORT": seed}, "writeback")
        need(not errors and status == 0, f"seed {seed}: errors {dict(errors)}, status {status}, {said}")
    return seeds


def found():
    """What the next run shows of all sectors."""
    return run(PROGRAMS.cache, ["run", table("writeback")], "r 0 640\n")[:2]


def interrupted_server(seeds):
    """Each read and write of a server's streams is interrupted in a run of its own, where each takes all that was asked and where it takes a part, in
    the midst of a message, too; and one of four in some runs: each reply, and each sector afterwards, is as without that."""
    heard, tried = [], 0
    served(None, "writeback", heard)
    wanted = heard.pop(), found()

    def is_interrupted(seed, signals):
        weather = {"WEATHER_SHORT": seed, "WEATHER_SIGNALS": signals}
        errors, status, said, came = served(weather, "writeback", heard)
        need(not errors and status == 0 and (heard.pop(), found()) == wanted, f"{weather}: errors {dict(errors)}, status {status}, {said}")
        return came

    for seed in range(seeds + 1):
        need(is_interrupted(seed, 1), f"nothing was interrupted with seed {seed}")
        number = 1
        while is_interrupted(seed, -number):
            number += 1
        tried += number
    return tried


def malformed(dice, cookie):
    """A request that is malformed, or at least odd, and the error that its reply has to have."""
    kind = dice.randrange(7)
    if kind == 0:
        return request(dice.choice((4, 5, 7, 255, 65535)), cookie, dice.getrandbits(64), dice.getrandbits(32)), 22
    if kind == 1:
        return request(dice.choice((READ, FLUSH)), cookie, 0, 0, dice.choice((2, 4, 8, 0x8000, 0xFFFF))), 22
    if kind == 2:
        return request(READ, cookie, dice.choice((1, 511, 327680, 2**63, 2**64 - 1, 2**64 - 512)), dice.choice((512, 1024))), 22
    if kind == 3:
        return request(READ, cookie, dice.randrange(640) * 512, dice.choice((0, 1, 511, 513, 327681, 2**32 - 1, 2**32 - 512))), 22
    if kind == 4:
        return request(FLUSH, cookie, dice.choice((1, 512, 2**64 - 1)), dice.choice((0, 512))), 22
    if kind == 5:
        at, count = dice.choice((1, 327680 - 100, 327680, 2**63, 2**64 - 1)), dice.choice((1, 511, 512, 2**32 - 1))
        return request(ZEROES, cookie, at, count, dice.randrange(4)), 28 if at + count > 327680 else 22
    count = dice.choice((1, 511, 512, 700, 4096))
    at = dice.choice((327680 - 100, 327680, 2**63, 2**64 - 1, 3))
    error = 28 if at + count > 327680 else 22
    return request(WRITE, cookie, at, count if at != 3 else 512) + bytes(count if at != 3 else 512), error


def messages_refused(connections):
    """Each thousand malformed requests of a connection has its error, and then a good one is served."""
    for seed in range(connections):
        restore()
        dice, server = random.Random(seed), Server()
        try:
            server.greet()
            wanted, sent = {}, b""
            for cookie in range(1000, 2000):
                data, wanted[cookie] = malformed(dice, cookie)
                sent += data
            writer = threading.Thread(target=server.send, args=(sent,))
            writer.start()
            for _ in range(1000):
                error, cookie = server.reply()
                need(wanted.pop(cookie, None) == error, f"connection {seed}, cookie {cookie}: error {error}")
            writer.join()
            need(server.ask(WRITE, 5, b"\x55" * 512)[0] == 0, f"connection {seed}: a good write")
            need(server.ask(READ, 5, count=1) == (0, b"\x55" * 512), f"connection {seed}: a good read")
        except Gone:
            raise Wrong(f"connection {seed}: it is gone, {server.end()}") from None
        finally:
            status, said = server.end()
        need(status == 0, f"connection {seed}: status {status}, {said}")
    return connections * 1000


def connections_broken(count):
    """Bytes of no client: the server ends by itself, as is documented, and the next one serves."""
    restore()
    good = HELLO + request(WRITE, 1, 512, 512) + b"\x66" * 512 + request(FLUSH, 2, 0, 0)
    for seed in range(count):
        dice = random.Random(seed)
        sent, kind = bytearray(good), dice.randrange(5)
        if kind == 0:
            sent = sent[:dice.randrange(len(sent))]
        elif kind == 1:
            for _ in range(dice.randrange(1, 6)):
                sent[dice.randrange(len(sent))] = dice.getrandbits(8)
        elif kind == 2:
            sent = dice.randbytes(dice.randrange(2000))
        elif kind == 3:
            sent = HELLO[:4]
            for size in [dice.randrange(5000) for _ in range(9)]:
                sent += b"IHAVEOPT" + struct.pack(">II", dice.getrandbits(32), size) + bytes(size)
        else:
            sent += request(dice.choice((READ, WRITE)), 3, 0, 512, 0, dice.getrandbits(32)) + dice.randbytes(dice.randrange(600))
        status, _, said, _ = run(PROGRAMS.server, ["--wait", "10", table("writeback")], bytes(sent), binary=True)
        need(status in (0, 4), f"connection {seed}: status {status}, {said}")
    status, told, _, _ = run(PROGRAMS.cache, ["run", table("writeback")], "r 0 1\n")
    need(status == 0, f"the next run: {status} {told}")
    return count


def clock_of(process):
    """The processor time that a process has used, in hundredths of a second."""
    with open(f"/proc/{process.pid}/stat", encoding="ascii") as file:
        return sum(map(int, file.read().split()[13:15]))


def hang(server, how):
    """A client that has flushed a write hangs: in its handshake, in the middle of a write, or without a look at its replies."""
    if how == "handshake":
        server.send(HELLO[:20])
        return
    server.greet()
    need(server.ask(WRITE, 1, b"\x77" * 512)[0] == 0 and server.ask(FLUSH)[0] == 0, "a write and a flush")
    if how == "write":
        server.send(request(WRITE, 9, 0, 4096) + bytes(1000))
    else:
        server.send(b"".join(request(READ, cookie, 0, 65536) for cookie in range(200)))


def a_client_hangs():
    """What was flushed stands while a client hangs, nobody else comes in, the server waits, and it ends once the client goes: by the
    signal of a pipe where there are replies for nobody."""
    for how in ("handshake", "write", "replies"):
        restore()
        server = Server()
        try:
            hang(server, how)
            time.sleep(0.7)
            need(server.process.poll() is None, f"{how}: it is gone")
            before = clock_of(server.process)
            time.sleep(1)
            used = clock_of(server.process) - before
            need(used < 20, f"{how}: it uses {used} hundredths of a second while it waits")
            found = run(PROGRAMS.cache, ["run", table("writeback")], "r 0 1\n")
            need(found[:2] == (3, "refused 5 Io metadata\n"), f"{how}: another program comes in: {found}")
        finally:
            if how == "replies":
                server.process.stdout.close()
            status, said = server.end()
        need(status == 4 or how == "replies" and status == -signal.SIGPIPE, f"{how}: status {status}, {said}")
        if how != "handshake":
            found = run(PROGRAMS.cache, ["run", table("writeback")], "r 1 1\nr 0 1\n")
            need(found[1] == "1 77\n0 11\n", f"{how}: what was flushed is not there: {found}")
    return 3


def kills_of_servers(count):
    """Servers that are killed while they are asked for one thing after the other."""
    for seed in range(count):
        restore()
        dice, book, server = random.Random(seed), Book(PREPARED), Server()
        killer = threading.Timer(dice.randrange(20, 400) / 1000, server.process.kill)
        killer.start()
        try:
            server.greet()
            for number in range(1, 1000000):
                sector, content = dice.choice(WATCHED), bytes([number % 256])
                what = dice.randrange(8)
                if what < 4:
                    book.entries[sector].append(content.hex())
                    need(server.ask(WRITE, sector, content * 512, flags=what // 3)[0] == 0, "a write")
                    book.answered[sector] = len(book.entries[sector]) - 1
                elif what < 7:
                    error, data = server.ask(READ, sector, count=1)
                    need(error == 0, "a read")
                    book.reads(sector, data[:1].hex())
                else:
                    need(server.ask(FLUSH)[0] == 0, "a flush")
                if what in (3, 7):
                    book.flush()
        except Gone:
            pass
        killer.join()
        server.end()
        look_again(book)
    return count
