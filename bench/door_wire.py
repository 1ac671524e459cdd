"""Connections to a door, and clients that ask the servers themselves, for bench/door.py."""

import os
import random
import select
import socket
import struct
import sys
import time

sys.dont_write_bytecode = True
sys.path.insert(0, os.path.join(os.path.dirname(os.path.abspath(__file__)), "..", "examples"))
import nfs_client as nfs  # noqa: E402
from load import BLOCK, LOG_FULL, create, getattr_of, mkdir_in, nodes, write  # noqa: E402
from nfs_client import counted, settings, words  # noqa: E402

READ, LOOKUP = 6, 4


def linger(sock):
    """Its end is told as a break, and not as the end of what is sent."""
    sock.setsockopt(socket.SOL_SOCKET, socket.SO_LINGER, struct.pack("ii", 1, 0))


def handle(number):
    return words(number) + bytes(28)


# ---- a connection that is cut


class Cutting(nfs.Door):
    """A connection that is cut at a share of its calls once the record was sent, which is then sent
    over a new one. Where doors are killed, too, what is done already may be so by this call."""

    def __init__(self, port, user, share, is_lenient):
        super().__init__(port, user, user)
        self.share, self.is_lenient, self.is_broken = share, is_lenient, False
        self.calls, self.cuts = 0, 0

    def answer(self, record):
        self.calls, self.is_broken = self.calls + 1, False
        if random.random() < self.share:
            self.cut(record)
        return super().answer(record)

    def cut(self, record):
        self.cuts += 1
        try:
            self.send(record)
            time.sleep(random.choice([0, 0, 0.0005, 0.002]))
            if random.random() < 0.5:
                linger(self.socket)
        except OSError:
            pass
        self.close()

    def close(self):
        super().close()
        self.is_broken = True


# ---- damaged streams


class Damage:
    """Streams of records that were damaged, as a user that may change little."""

    USER = 4242

    def __init__(self, port, at, drawn):
        self.port, self.at, self.drawn = port, at, drawn
        self.door = nfs.Door(port, self.USER, self.USER)

    def record(self):
        name = counted(b"%d" % self.drawn.randrange(20))
        calls = [
            (nfs.MOUNT, 1, counted(b"/damage")),
            (nfs.NFS, 0, b""),
            (nfs.NFS, nfs.GETATTR, self.at),
            (nfs.NFS, nfs.LOOKUP, self.at + name),
            (nfs.NFS, nfs.MKDIR, self.at + name + settings(0o755)),
            (nfs.NFS, nfs.RMDIR, self.at + name),
            (nfs.NFS, nfs.RENAME, self.at + name + self.at + counted(b"0")),
            # It is no file, so that no damage makes it a large one.
            (nfs.NFS, nfs.WRITE, self.at + words(0, 0, 0) + counted(BLOCK[:64])),
            (nfs.NFS, nfs.READDIR, self.at + words(0, 4096)),
        ]
        return self.door.record(*self.drawn.choice(calls))

    def stream(self):
        """Some records, and what becomes of them."""
        whole = b"".join(self.record() for _ in range(self.drawn.randrange(1, 5)))
        how, place = self.drawn.randrange(7), self.drawn.randrange(len(whole))
        if how == 0:
            return whole[:place]
        if how == 1:
            return whole[:place] + self.drawn.randbytes(self.drawn.randrange(1, 40)) + whole[place:]
        if how == 2:
            return self.drawn.randbytes(self.drawn.randrange(1, 3000))
        if how == 3:
            return words(self.drawn.choice([0, 1 << 31, 0x7FFFFFFF, 20_001, 0xFFFFFFFF])) + whole
        if how == 4:
            return words(0) * self.drawn.choice([10, 999, 1001, 3000]) + whole
        if how == 5:
            return whole[: place // 2] + whole[place:]
        damaged = bytearray(whole)
        for _ in range(self.drawn.randrange(1, 4)):
            damaged[self.drawn.randrange(len(damaged))] = self.drawn.randrange(256)
        return bytes(damaged)

    def one(self, limit):
        """Sends a stream and takes what comes. Says whether the door ended the connection, never
        did, or gave what are no records."""
        with socket.create_connection(("127.0.0.1", self.port)) as sock:
            sock.settimeout(limit)
            answers = b""
            try:
                sock.sendall(self.stream())
                if self.drawn.random() < 0.2:
                    linger(sock)
                    return "ended"
                sock.shutdown(socket.SHUT_WR)
                while True:
                    more = sock.recv(65_536)
                    if not more:
                        return "ended" if are_records(answers) else "bad"
                    answers += more
            except socket.timeout:
                return "hung"
            except OSError:
                return "ended"


def are_records(answers):
    while answers:
        size = int.from_bytes(answers[:4], "big") - nfs.LAST_FRAGMENT
        if not 24 <= size <= len(answers) - 4 and not 0 < size < 24:
            return False
        answers = answers[4 + size :]
    return True


# ---- the same calls by a door and without it


class ByDoor:
    """Calls over a connection to a door."""

    def __init__(self, port, number):
        self.door, self.name = nfs.Door(port), b"door-%d" % number

    def node(self, procedure, arguments):
        status, rest = self.door.nfs(procedure, arguments)
        nfs.look(status == 0, status, f"procedure {procedure}")
        return int.from_bytes(rest[:4], "big")

    def mkdir(self, parent, name):
        return self.node(nfs.MKDIR, handle(parent) + counted(name) + settings(0o755))

    def create(self, parent, name):
        return self.node(nfs.CREATE, handle(parent) + counted(name) + settings(0o644))

    def lookup(self, parent, name):
        self.node(nfs.LOOKUP, handle(parent) + counted(name))

    def getattr(self, number):
        self.node(nfs.GETATTR, handle(number))

    def read(self, number, offset):
        self.node(nfs.READ, handle(number) + words(offset, len(BLOCK), 0))

    def write(self, number, offset, data):
        self.node(nfs.WRITE, handle(number) + words(0, offset, 0) + counted(data))


class Straight:
    """Calls as a client of the servers, which asks the one that leads."""

    def __init__(self, port, number):
        self.socket = socket.socket(socket.AF_INET, socket.SOCK_DGRAM)
        self.port, self.client, self.name = port, number, b"straight-%d" % number
        self.number, self.leader = time.time_ns() // 1000, 0

    def ask(self, call):
        """The reply to a call."""
        self.number += 1
        datagram, end = nodes.ask(self.client, self.number, call), time.monotonic() + nodes.CALL
        while time.monotonic() < end:
            self.socket.sendto(datagram, ("127.0.0.1", self.port + self.leader))
            reply = self.reply()
            if reply is not None:
                return reply
        raise nodes.Wrong("a call had no answer")

    def reply(self):
        """What is answered to the call; None where it is to be asked again."""
        while select.select([self.socket], [], [], 0.5)[0]:
            datagram = self.socket.recv(65_535)
            if struct.unpack_from(">IQ", datagram, 1) != (self.client, self.number):
                continue
            if datagram[0] == nodes.ANSWER:
                return datagram[21:]
            if datagram[13] != nodes.NOT_LEADER:
                time.sleep(nodes.PAUSE if datagram[13] != LOG_FULL else 0.005)
            elif datagram[14] in (self.leader, nodes.NO_HINT):
                self.next_server()
            else:
                self.leader = datagram[14]
            return None
        self.next_server()
        return None

    def next_server(self):
        self.leader = (self.leader + 1) % nodes.SERVERS
        time.sleep(nodes.PAUSE)

    def mkdir(self, parent, name):
        return nodes.node_in(self.ask(mkdir_in(parent, name)))

    def create(self, parent, name):
        # It is spelled as a directory in the root is, but for the procedure and the parent.
        call = create(name)
        return nodes.node_in(self.ask(call[:1] + words(parent) + call[5:]))

    def lookup(self, parent, name):
        self.ask(struct.pack(">BIH", LOOKUP, parent, len(name)) + name)

    def getattr(self, number):
        self.ask(getattr_of(number))

    def read(self, number, offset):
        self.ask(struct.pack(">BIII", READ, number, offset, len(BLOCK)))

    def write(self, number, offset, data):
        self.ask(write(number, offset, data))


# ---- calls of a kind: the first `next` makes what they need


def getattrs(asker):
    yield
    while True:
        asker.getattr(nodes.ROOT)
        yield


def lookups(asker):
    top = asker.mkdir(nodes.ROOT, b"lookups-" + asker.name)
    asker.create(top, b"file")
    yield
    while True:
        asker.lookup(top, b"file")
        yield


def written(asker, kind, blocks):
    """A file of a kind of calls, with so many blocks of 8 kB."""
    file = asker.create(nodes.ROOT, kind + asker.name)
    for block in range(blocks):
        asker.write(file, block * len(BLOCK), BLOCK)
    return file


def reads(asker):
    file, at = written(asker, b"reads-", 32), 0
    yield
    while True:
        asker.read(file, at * len(BLOCK))
        yield
        at = (at + 1) % 32


def writes(asker, data=BLOCK):
    file, at = written(asker, b"writes-%d-" % len(data), 1), 0
    yield
    while True:
        asker.write(file, at * len(data), data)
        yield
        at = (at + 1) % 256


def small_writes(asker):
    return writes(asker, BLOCK[:64])


def creates(asker):
    """Files, 64 in each directory."""
    top = asker.mkdir(nodes.ROOT, b"creates-" + asker.name)
    yield
    count = 0
    while True:
        if count % 64 == 0:
            at = asker.mkdir(top, b"%d" % count)
        asker.create(at, b"%d" % count)
        yield
        count += 1


KINDS = {
    "getattr": getattrs,
    "lookup": lookups,
    "read 8 kB": reads,
    "write 8 kB": writes,
    "write 64 bytes": small_writes,
    "create": creates,
}
