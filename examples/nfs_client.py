#!/usr/bin/env python3
"""A client of NFS version 2 over TCP that looks at each answer.

    python3 examples/nfs_client.py PORT [NAME]

mounts `/` at the door of this port (`harpd serve`), makes a directory NAME, and in it a file, which
it writes, reads back, lists, renames, and removes again with the directory. The file's mode is 444,
as in many archives: its owner writes it all the same. A line tells how it went; the exit status is
0 where each answer was right, else 1.

It needs nothing but Python. A connection that breaks is made anew, and the record that had no
answer is sent again as it is: the door knows it, so it is done once. Records, calls and answers
are spelled as in docs/FORMATS.md, "The door".
"""

import os
import socket
import struct
import sys
import time

NFS, MOUNT, UNIX, LAST_FRAGMENT = (100003, 2), (100005, 1), 1, 1 << 31
GETATTR, SETATTR, LOOKUP, READLINK, READ, WRITE, CREATE = 1, 2, 4, 5, 6, 8, 9
REMOVE, RENAME, LINK, SYMLINK, MKDIR, RMDIR, READDIR, STATFS = 10, 11, 12, 13, 14, 15, 16, 17
LEFT, FILE, DIRECTORY = 0xFFFFFFFF, 1, 2
# In seconds: how long an answer is waited for in all, and how long before dialing again.
PATIENCE, PAUSE = 60.0, 0.05


class Wrong(Exception):
    """What isn't as it must be."""


def words(*numbers):
    return struct.pack(f">{len(numbers)}I", *numbers)


def counted(data):
    """Bytes behind their length, filled up to a multiple of 4."""
    return words(len(data)) + data + bytes(-len(data) % 4)


def settings(mode=LEFT, size=LEFT):
    return words(mode, LEFT, LEFT, size, LEFT, LEFT, LEFT, LEFT)


class Door:
    """A connection to a door, over which calls are made as a user, a group and other groups."""

    def __init__(self, port, user=0, group=0, others=()):
        self.port, self.socket = port, None
        self.xid = struct.unpack(">I", os.urandom(4))[0]
        body = words(os.getpid()) + counted(b"nfs_client")
        body += words(user, group, len(others), *others)
        self.auth = words(UNIX) + counted(body) + bytes(8)

    def record(self, program, procedure, arguments):
        """A call as a record of one fragment. Each has a number of its own."""
        self.xid = (self.xid + 1) % (1 << 32)
        body = words(self.xid, 0, 2, *program, procedure) + self.auth + arguments
        return words(LAST_FRAGMENT + len(body)) + body

    def answer(self, record):
        """The answer to a record, for which it dials again until its patience is over."""
        end = time.monotonic() + PATIENCE
        while True:
            try:
                self.send(record)
                return self.receive()
            except OSError as fault:
                self.close()
                if time.monotonic() > end:
                    raise Wrong(f"no answer for {PATIENCE:.0f} seconds: {fault}") from None
                time.sleep(PAUSE)

    def send(self, record):
        if self.socket is None:
            self.socket = socket.create_connection(("127.0.0.1", self.port), PATIENCE)
            self.socket.setsockopt(socket.IPPROTO_TCP, socket.TCP_NODELAY, 1)
        self.socket.sendall(record)

    def receive(self):
        (mark,) = struct.unpack(">I", self.exactly(4))
        return self.exactly(mark - LAST_FRAGMENT)

    def exactly(self, count):
        data = b""
        while len(data) < count:
            more = self.socket.recv(count - len(data))
            if not more:
                raise ConnectionResetError("the door ended the connection")
            data += more
        return data

    def close(self):
        if self.socket is not None:
            self.socket.close()
        self.socket = None

    def call(self, program, procedure, arguments=b""):
        """What is answered behind the header, which must say that the call was made."""
        answer = self.answer(self.record(program, procedure, arguments))
        if answer[:24] != words(self.xid, 1, 0, 0, 0, 0):
            raise Wrong(f"the answer {answer.hex()} to call {self.xid}")
        return answer[24:]

    def nfs(self, procedure, arguments=b""):
        """The status of a call, and what follows it."""
        answer = self.call(NFS, procedure, arguments)
        return struct.unpack(">I", answer[:4])[0], answer[4:]

    def mount(self, path=b"/"):
        """The handle of a directory."""
        answer = self.call(MOUNT, 1, counted(path))
        return look(answer[:4] == words(0), answer, f"mounting {path!r}") and answer[4:36]

    def listed(self, directory):
        """The number of each entry, by its name."""
        found, cookie, is_last = {}, 0, False
        while not is_last:
            status, page = self.nfs(READDIR, directory + words(cookie, 8192))
            look(status == 0, status, "READDIR")
            while page[:4] == words(1):
                number, length = struct.unpack(">II", page[4:12])
                name, page = page[12 : 12 + length], page[12 + length + -length % 4 :]
                found[name], cookie = number, struct.unpack(">I", page[:4])[0]
                page = page[4:]
            is_last = page[4:] == words(1)
        return {name: number for name, number in found.items() if name not in (b".", b"..")}


def look(is_right, answer, what):
    if not is_right:
        raise Wrong(f"{what}: {answer!r}")
    return True


def attributes(result):
    """Kind, mode, links, user, group, size and number of an object."""
    kind, mode, links, user, group, size = struct.unpack(">6I", result[:24])
    return kind, mode & 0o7777, links, user, group, size, struct.unpack(">I", result[40:44])[0]


def visit(door, root, name):
    """Makes a directory and a file in it, writes, reads back, lists, renames and removes them."""
    data = b"written over NFS, read back " * 300
    first, second = data[:8192], data[8192:]

    def ask(procedure, arguments, behind=lambda rest: True):
        status, rest = door.nfs(procedure, arguments)
        look(status == 0 and behind(rest), (status, rest), f"procedure {procedure}")
        return rest

    at = ask(MKDIR, root + counted(name) + settings(0o755))[:32]
    file = ask(CREATE, at + counted(b"notes") + settings(0o444))[:32]
    ask(WRITE, file + words(0, 0, 0) + counted(first))
    is_whole = lambda rest: attributes(rest)[5] == len(data)
    ask(WRITE, file + words(0, len(first), 0) + counted(second), is_whole)
    for offset, part in ((0, first), (len(first), second)):
        ask(READ, file + words(offset, 8192, 0), lambda rest, part=part: rest[68:] == counted(part))
    look(door.listed(at) == {b"notes": struct.unpack(">I", file[:4])[0]}, at, "READDIR")
    ask(RENAME, at + counted(b"notes") + at + counted(b"kept"))
    ask(LOOKUP, at + counted(b"kept"), lambda rest: rest[:32] == file)
    ask(REMOVE, at + counted(b"kept"))
    ask(RMDIR, root + counted(name))
    look(door.nfs(LOOKUP, root + counted(name))[0] == 2, name, "LOOKUP of what was removed")
    return len(data)


def main():
    if len(sys.argv) not in (2, 3) or not sys.argv[1].isdecimal():
        print(__doc__)
        return 1
    name = sys.argv[2].encode() if len(sys.argv) == 3 else b"visit-%d" % os.getpid()
    try:
        door = Door(int(sys.argv[1]))
        count = visit(door, door.mount(), name)
    except Wrong as fault:
        print(f"nfs_client: failed: {fault}")
        return 1
    print(f"nfs_client: {count} bytes written, read back and removed")
    return 0


if __name__ == "__main__":
    sys.exit(main())
