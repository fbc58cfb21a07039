"""Clients of a network block device, on one connection, each of which writes 4 KiB and then flushes, in turns: how many flushes were answered a second.
With `durable` each write is to be durable by itself (FUA), and nobody flushes.

    flushes.py SOCKET CLIENTS SECONDS [durable]
    flushes.py SOCKET warm

A client sends its next request once its last one was answered, so that as many are in flight as there are clients. Each writes in a
stretch of its own of the first 12 MiB, which `warm` writes whole and reads six times.
"""
import random
import socket
import struct
import sys
import time

STRETCH = 12 << 20
PAGE = 4096
BLOCK = 32768
READ, WRITE, HANG_UP, FLUSH = range(4)
GO = 7
DURABLE = 1


def read_exactly(connection, count):
    parts = bytearray()
    while len(parts) < count:
        part = connection.recv(count - len(parts))
        if not part:
            raise SystemExit("flushes.py: the server hung up")
        parts += part
    return bytes(parts)


def connect(path):
    connection = socket.socket(socket.AF_UNIX)
    connection.connect(path)
    assert read_exactly(connection, 18)[:16] == b"NBDMAGICIHAVEOPT"
    connection.sendall(struct.pack(">I", 3))
    connection.sendall(b"IHAVEOPT" + struct.pack(">IIIH", GO, 6, 0, 0))
    while True:
        _, _, kind, length = struct.unpack(">QIII", read_exactly(connection, 20))
        read_exactly(connection, length)
        if kind == 1:
            return connection
        if kind & 1 << 31:
            raise SystemExit("flushes.py: the server refused the export")


def send(connection, what, handle, at=0, count=0, data=b"", flags=0):
    connection.sendall(struct.pack(">IHHQQI", 0x25609513, flags, what, handle, at, count) + data)


def answered(connection):
    magic, error, handle = struct.unpack(">IIQ", read_exactly(connection, 16))
    if magic != 0x67446698 or error:
        raise SystemExit(f"flushes.py: a request failed ({magic:x}, {error})")
    return handle


def warm(connection):
    data = random.randbytes(BLOCK)
    for at in range(0, STRETCH, BLOCK):
        send(connection, WRITE, 0, at, BLOCK, data)
        answered(connection)
    for _ in range(6):
        for at in range(0, STRETCH, BLOCK):
            send(connection, READ, 0, at, BLOCK)
            answered(connection)
            read_exactly(connection, BLOCK)
        time.sleep(0.2)
    send(connection, FLUSH, 0)
    answered(connection)


def flush_in_turns(connection, clients, seconds):
    pages = STRETCH // PAGE // clients
    data = random.randbytes(PAGE)
    writes = [True] * clients
    flushes = 0

    def write(client):
        at = (client * pages + random.randrange(pages)) * PAGE
        send(connection, WRITE, client, at, PAGE, data)

    start = time.monotonic()
    for client in range(clients):
        write(client)
    waiting = clients
    while waiting:
        client = answered(connection)
        if writes[client]:
            writes[client] = False
            send(connection, FLUSH, client)
            continue
        flushes += 1
        writes[client] = True
        if time.monotonic() - start < seconds:
            write(client)
        else:
            waiting -= 1
    return flushes / (time.monotonic() - start)


def write_durably(connection, clients, seconds):
    pages = STRETCH // PAGE // clients
    data = random.randbytes(PAGE)
    writes = 0

    def write(client):
        at = (client * pages + random.randrange(pages)) * PAGE
        send(connection, WRITE, client, at, PAGE, data, DURABLE)

    start = time.monotonic()
    for client in range(clients):
        write(client)
    waiting = clients
    while waiting:
        client = answered(connection)
        writes += 1
        if time.monotonic() - start < seconds:
            write(client)
        else:
            waiting -= 1
    return writes / (time.monotonic() - start)


connection = connect(sys.argv[1])
if sys.argv[2] == "warm":
    warm(connection)
elif sys.argv[4:] == ["durable"]:
    print(f"{write_durably(connection, int(sys.argv[2]), float(sys.argv[3])):.1f}")
else:
    print(f"{flush_in_turns(connection, int(sys.argv[2]), float(sys.argv[3])):.1f}")
send(connection, HANG_UP, 0)
connection.close()
