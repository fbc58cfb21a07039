"""Shows what wbnbd serves as a file, as nbdfuse does, for machines that lack it: by the kernel's own protocol of /dev/fuse, as root.

    fuse_nbd.py DIR WBNBD TABLE

starts the server, and while that lives DIR/nbd is the origin. It ends once DIR is unmounted, or the server is gone; reads, writes and syncs of the
file are requests to the server, one after the other.
"""
import ctypes
import errno
import os
import stat
import struct
import sys

from nbd_kill import FLUSH, READ, WRITE, Gone, Server

LOOKUP, FORGET, GETATTR, SETATTR, OPEN, DO_READ, DO_WRITE, STATFS, RELEASE, FSYNC = 1, 2, 3, 4, 14, 15, 16, 17, 18, 20
DO_FLUSH, INIT, OPENDIR, READDIR, RELEASEDIR, ACCESS, INTERRUPT, DESTROY, BATCH_FORGET = 25, 26, 27, 28, 29, 34, 36, 38, 42
ROOT, FILE = 1, 2
MOST = 131072
NAME = b"nbd"


def attributes(node, size):
    """A folder's, or those of the file."""
    mode, links, many = (stat.S_IFDIR | 0o755, 2, 0) if node == ROOT else (stat.S_IFREG | 0o600, 1, size)
    return struct.pack("<6Q10I", node, many, many // 512, 0, 0, 0, 0, 0, 0, mode, links, 0, 0, 0, 4096, 0)


def entry(offset, node, kind, name):
    """A name in a folder, filled up to eight bytes."""
    head = struct.pack("<QQII", node, offset, len(name), kind) + name
    return head + bytes(-len(head) % 8)


class Disk:
    """The origin, by the bytes of it."""

    def __init__(self, server, size):
        self.server, self.size = server, size

    def read(self, offset, count):
        count = max(0, min(count, self.size - offset))
        first, end = offset // 512, (offset + count + 511) // 512
        if count == 0:
            return b""
        data = self.server.ask(READ, first, end - first)
        return data[offset - first * 512 :][:count]

    def write(self, offset, data):
        first, end = offset // 512, (offset + len(data) + 511) // 512
        if offset % 512 or len(data) % 512:
            whole = bytearray(self.server.ask(READ, first, end - first))
            begin = offset - first * 512
            whole = bytes(whole[:begin]) + data + bytes(whole[begin + len(data) :])
        else:
            whole = data
        self.server.ask(WRITE, first, end - first, whole)


def answered(disk, opcode, node, body):
    """What a request of the kernel is answered; none where it wants no answer."""
    if opcode == INIT:
        return struct.pack("<4I2H2I2HI7I", 7, 31, MOST, 1 << 5, 12, 9, MOST, 1, 32, 0, 0, *[0] * 7)
    if opcode == LOOKUP:
        if node != ROOT or body.rstrip(b"\0") != NAME:
            raise OSError(errno.ENOENT, "no such name")
        return struct.pack("<4Q2I", FILE, 0, 3600, 3600, 0, 0) + attributes(FILE, disk.size)
    if opcode in (GETATTR, SETATTR):
        return struct.pack("<Q2I", 3600, 0, 0) + attributes(node, disk.size)
    if opcode in (OPEN, OPENDIR):
        return struct.pack("<Q2I", 0, 0, 0)
    if opcode == READDIR:
        offset = struct.unpack_from("<QQ", body)[1]
        names = [entry(1, ROOT, 4, b"."), entry(2, ROOT, 4, b".."), entry(3, FILE, 8, NAME)]
        return b"".join(names[offset:])
    if opcode == DO_READ:
        _, offset, count = struct.unpack_from("<QQI", body)
        return disk.read(offset, count)
    if opcode == DO_WRITE:
        _, offset, count = struct.unpack_from("<QQI", body)
        disk.write(offset, body[40 : 40 + count])
        return struct.pack("<2I", count, 0)
    if opcode == FSYNC:
        disk.server.ask(FLUSH)
        return b""
    if opcode == STATFS:
        return struct.pack("<5Q10I", disk.size // 512, 0, 0, 1, 0, 512, 255, 512, 0, *[0] * 6)
    if opcode in (RELEASE, RELEASEDIR, DO_FLUSH, ACCESS, DESTROY):
        return b""
    if opcode in (FORGET, BATCH_FORGET, INTERRUPT):
        return None
    raise OSError(errno.ENOSYS, "not served")


def serve(channel, disk):
    """Answers the kernel until the folder is unmounted or the server is gone."""
    while True:
        try:
            message = os.read(channel, MOST + 4096)
        except OSError as error:
            if error.errno in (errno.EINTR, errno.ENOENT, errno.EAGAIN):
                continue
            return
        _, opcode, unique, node = struct.unpack_from("<IIQQ", message)
        failed, data = 0, b""
        try:
            data = answered(disk, opcode, node, message[40:])
        except OSError as error:
            failed = -error.errno
        except (Gone, AssertionError):
            failed = -errno.EIO
        if data is None:
            continue
        try:
            os.write(channel, struct.pack("<IiQ", 16 + len(data), failed, unique) + data)
        except OSError as error:
            if error.errno != errno.ENOENT:
                return


def main():
    folder, program, table = sys.argv[1:4]
    server = Server(program, table)
    disk = Disk(server, os.stat(table.split()[3]).st_size)
    channel = os.open("/dev/fuse", os.O_RDWR)
    libc = ctypes.CDLL(None, use_errno=True)
    options = f"fd={channel},rootmode=40000,user_id=0,group_id=0".encode()
    if libc.mount(b"wbnbd", os.fsencode(folder), b"fuse", 6, options) != 0:
        sys.exit(f"fuse_nbd.py: {folder}: {os.strerror(ctypes.get_errno())}")
    print(server.process.pid, flush=True)
    serve(channel, disk)
    try:
        server.end()
    except (Gone, AssertionError, OSError):
        server.process.kill()


if __name__ == "__main__":
    main()
