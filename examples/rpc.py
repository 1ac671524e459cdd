#!/usr/bin/env python3
"""Speaks NFS over RPC to a door: makes a directory twice, looks for it, and lists the root.

    python3 examples/rpc.py PROGRAM WORD..

runs a door, as by `harp door play 0 0`, and is its client. Each call is a record (RFC 1057, section 10) whose answer is awaited before the next one is sent.
"""

import struct
import subprocess
import sys

NFS, VERSION = 100003, 2
LOOKUP, MKDIR, READDIR = 4, 14, 16
LEFT, LAST_FRAGMENT = 0xFFFFFFFF, 1 << 31
ROOT = struct.pack(">I28x", 1)


def counted(data):
    """Bytes behind their length, filled up to a multiple of 4."""
    return struct.pack(">I", len(data)) + data + bytes(-len(data) % 4)


class Door:
    """A connection to a door."""

    def __init__(self, words):
        self.program = subprocess.Popen(words, stdin=subprocess.PIPE, stdout=subprocess.PIPE)
        self.xid = 0

    def call(self, procedure, arguments):
        """The status of a call, and what follows it."""
        self.xid += 1
        no_auth = bytes(8)
        record = struct.pack(">6I", self.xid, 0, 2, NFS, VERSION, procedure)
        record += no_auth + no_auth + arguments
        self.program.stdin.write(struct.pack(">I", LAST_FRAGMENT + len(record)) + record)
        self.program.stdin.flush()
        (mark,) = struct.unpack(">I", self.program.stdout.read(4))
        answer = self.program.stdout.read(mark - LAST_FRAGMENT)
        xid, *header, status = struct.unpack(">7I", answer[:28])
        assert (xid, header) == (self.xid, [1, 0, 0, 0, 0])
        return status, answer[28:]

    def close(self):
        self.program.stdin.close()
        return self.program.wait()


def names(page):
    """The names of a page of READDIR."""
    while struct.unpack(">I", page[:4])[0]:
        _, _, length = struct.unpack(">3I", page[:12])
        yield page[12 : 12 + length].decode()
        page = page[12 + length + -length % 4 + 4 :]


def main():
    if len(sys.argv) < 3:
        print(__doc__)
        return 1
    door = Door(sys.argv[1:])
    settings = struct.pack(">8I", 0o755, *[LEFT] * 7)
    for name in (b"home", b"home"):
        status, _ = door.call(MKDIR, ROOT + counted(name) + settings)
        print(f"mkdir {name.decode()}: status {status}")
    status, result = door.call(LOOKUP, ROOT + counted(b"home"))
    print(f"lookup home: status {status}, object {struct.unpack('>I', result[:4])[0]}")
    _, page = door.call(READDIR, ROOT + struct.pack(">II", 0, 8192))
    print("readdir:", *names(page))
    return door.close()


if __name__ == "__main__":
    sys.exit(main())
