"""Kills wbnbd at random moments of a load with flushes, and sees that nothing that a flush covered is missing.

    nbd_kill.py WBNBD TABLE KILLS

Each write fills a sector with the number of the write. After a kill a new server has to show of each sector the number of its last
write that was answered before the last flush that was answered was sent, or of a later write to it.
"""
import random
import struct
import subprocess
import sys
import threading
import time

READ, WRITE, END, FLUSH = 0, 1, 2, 3
SECTORS = 4096
DEPTH = 16


def request(command, cookie, sector, count):
    return struct.pack(">IHHQQI", 0x25609513, 0, command, cookie, sector * 512, count * 512)


class Gone(Exception):
    """The server is gone."""


class Server:
    def __init__(self, program, table):
        self.process = subprocess.Popen([program, table], stdin=subprocess.PIPE, stdout=subprocess.PIPE, bufsize=0)
        self.send(b"\0\0\0\3" + b"IHAVEOPT" + struct.pack(">II", 7, 6) + bytes(6))
        greeting = self.take(18)
        assert greeting == b"NBDMAGICIHAVEOPT\0\3", greeting
        while True:
            magic, option, kind, size = struct.unpack(">QIII", self.take(20))
            self.take(size)
            if kind == 1:
                break

    def send(self, data):
        try:
            while data:
                data = data[self.process.stdin.write(data):]
        except (BrokenPipeError, OSError) as error:
            raise Gone from error

    def take(self, count):
        data = b""
        while len(data) < count:
            more = self.process.stdout.read(count - len(data))
            if not more:
                raise Gone
            data += more
        return data

    def answered(self):
        """Takes a reply without data in, and gives its cookie."""
        magic, error, cookie = struct.unpack(">IIQ", self.take(16))
        assert magic == 0x67446698, "no reply"
        assert error == 0, f"error {error}"
        return cookie

    def ask(self, command, sector=0, count=0, payload=b""):
        self.send(request(command, 1, sector, count) + payload)
        assert self.answered() == 1, "no reply to the request"
        return self.take(count * 512) if command == READ else b""

    def end(self):
        self.send(request(END, 0, 0, 0))
        self.process.stdin.close()
        assert self.process.wait() == 0, f"status {self.process.returncode}"


def content(number):
    return struct.pack(">Q", number) * 64


def load(server, written, durable, number):
    """Writes and flushes, up to DEPTH requests at once, until the server is gone; gives the number of the last write.

    No two writes to one sector are under way at once, so which of them is later is known."""
    under_way, cookie = {}, 0
    try:
        while True:
            while len(under_way) < DEPTH:
                cookie += 1
                if random.random() < 0.02:
                    under_way[cookie] = (FLUSH, dict(written))
                    server.send(request(FLUSH, cookie, 0, 0))
                    continue
                # Half of them to few sectors, so that their blocks come into the cache.
                sector = random.randrange(256 if random.random() < 0.5 else SECTORS)
                if any(what == (WRITE, sector) for what, _ in under_way.values()):
                    continue
                number += 1
                # It may land without an answer, so it counts as a later write from now on.
                under_way[cookie] = ((WRITE, sector), number)
                server.send(request(WRITE, cookie, sector, 1) + content(number))
            what, value = under_way.pop(server.answered())
            if what == FLUSH:
                durable.update(value)
            else:
                written[what[1]] = value
    except Gone:
        return number


def main():
    program, table, kills = sys.argv[1], sys.argv[2], int(sys.argv[3])
    seed = random.randrange(1 << 32)
    random.seed(seed)
    print(f"nbd_kill: seed {seed}", flush=True)
    first = Server(program, table)
    for sector in range(0, SECTORS, 64):
        first.ask(WRITE, sector, 64, bytes(64 * 512))
    first.end()
    durable, number = {}, 0
    for _ in range(kills):
        server = Server(program, table)
        killer = threading.Timer(random.randrange(10, 1000) / 1000, server.process.kill)
        killer.start()
        last = load(server, dict(durable), durable, number)
        killer.join()
        server.process.wait()
        again = Server(program, table)
        for sector in range(0, SECTORS, 64):
            data = again.ask(READ, sector, 64)
            for i in range(64):
                found, *others = struct.unpack(">64Q", data[512 * i:512 * i + 512])
                assert all(other == found for other in others), f"sector {sector + i} is torn"
                least = durable.get(sector + i, 0)
                assert least <= found <= last, f"sector {sector + i} shows {found}, and {least} was flushed"
                durable[sector + i] = found
        again.end()
        number = last
    print(f"nbd_kill: {kills} kills, {number} writes; nothing that was flushed is missing")


if __name__ == "__main__":
    main()
