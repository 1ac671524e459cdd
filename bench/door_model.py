"""Calls of NFS that are drawn, and what a tree answers to each, for bench/door.py.

A `Tree` is what one client made below a directory of its own, so that no other one changes it. It
draws a call, and looks whether an answer is that of its model: the status, what is told of an
object, bytes, texts and names. Times, and how large a directory is, aren't compared.
"""

import os
import sys

sys.dont_write_bytecode = True
sys.path.insert(0, os.path.join(os.path.dirname(os.path.abspath(__file__)), "..", "examples"))
import nfs_client as nfs  # noqa: E402
from nfs_client import attributes, counted, look, settings, words  # noqa: E402

DIRECTORY, FILE, LINK = 2, 1, 5
NO_ENTRY, EXISTS, NOT_DIRECTORY, IS_DIRECTORY = 2, 17, 20, 21
NAMES = [b"%c" % letter for letter in range(ord("a"), ord("n"))]
LARGEST, LONGEST = 24_000, 8192


class Thing:
    """A file, a directory or a link."""

    def __init__(self, kind, handle, mode, data=b""):
        self.kind, self.handle, self.mode, self.data = kind, handle, mode, data
        self.links, self.entries = 1, {}


class Tree:
    """A directory, one in it, and what is in both."""

    def __init__(self, door, top, user, random):
        self.door, self.user, self.random = door, user, random
        self.top = Thing(DIRECTORY, top, 0o700)
        self.sub = Thing(DIRECTORY, None, 0o755)
        self.make(nfs.MKDIR, self.top, b"sub", self.sub, 0o755)

    # ---- calls and their answers

    def ask(self, status, procedure, arguments):
        """What follows a status, which must be this one."""
        given, rest = self.door.nfs(procedure, arguments)
        if given != status and self.may_be_done(given, procedure):
            # What a directory is made with stands behind its name.
            at = arguments[:-32]
            return self.ask(0, nfs.LOOKUP, at) if procedure == nfs.MKDIR else rest
        look(given == status, (given, rest), f"status {status} of procedure {procedure}")
        return rest

    def may_be_done(self, given, procedure):
        """Whether a status may say that a call was done already, by a door that was killed."""
        if not (getattr(self.door, "is_lenient", False) and self.door.is_broken):
            return False
        made = given == EXISTS and procedure in (nfs.MKDIR, nfs.SYMLINK, nfs.LINK)
        gone = given == NO_ENTRY and procedure in (nfs.REMOVE, nfs.RMDIR, nfs.RENAME)
        return made or gone

    def is_told(self, thing, told):
        """Attributes must be those of a thing."""
        kind, mode, links, user, group, size, number = attributes(told)
        wanted = [thing.kind, self.user, self.user, int.from_bytes(thing.handle[:4], "big")]
        look([kind, user, group, number] == wanted, told, f"attributes {wanted}")
        if kind != LINK:
            look(mode == thing.mode, mode, f"mode {thing.mode}")
        if kind != DIRECTORY:
            look((links, size) == (thing.links, len(thing.data)), (links, size), "links and size")

    def make(self, procedure, parent, name, thing, mode):
        """Makes a thing, or is refused."""
        arguments = parent.handle + counted(name) + settings(mode)
        old = parent.entries.get(name)
        if old and not (procedure == nfs.CREATE and old.kind == FILE):
            self.ask(EXISTS, procedure, arguments)
            return
        rest = self.ask(0, procedure, arguments)
        if old:
            old.mode, thing = mode, old
        thing.handle = thing.handle or rest[:32]
        look(rest[:32] == thing.handle, rest[:32], "handle")
        parent.entries[name] = thing
        self.is_told(thing, rest[32:])

    # ---- what is drawn

    def drawn(self):
        """Asks a call that is drawn."""
        self.random.choice(self.CALLS)(self)

    def place(self):
        return self.random.choice([self.top, self.sub]), self.random.choice(NAMES)

    def file(self):
        """A file that is there, if there is one."""
        files = [it for at in (self.top, self.sub) for it in at.entries.values() if it.kind == FILE]
        return self.random.choice(files) if files else None

    def create(self):
        self.make(nfs.CREATE, *self.place(), Thing(FILE, None, 0o644), 0o644)

    def mkdir(self):
        self.make(nfs.MKDIR, *self.place(), Thing(DIRECTORY, None, 0o755), 0o755)

    def symlink(self):
        (parent, name), text = self.place(), b"to/%d" % self.random.randrange(10**6)
        arguments = parent.handle + counted(name) + counted(text) + settings(0o777)
        old = parent.entries.get(name)
        self.ask(EXISTS if old else 0, nfs.SYMLINK, arguments)
        if not old:
            rest = self.ask(0, nfs.LOOKUP, parent.handle + counted(name))
            parent.entries[name] = Thing(LINK, rest[:32], None, text)

    def lookup(self):
        parent, name = self.place()
        thing = parent.entries.get(name)
        rest = self.ask(0 if thing else NO_ENTRY, nfs.LOOKUP, parent.handle + counted(name))
        if thing:
            look(rest[:32] == thing.handle, rest[:32], "handle")
            self.is_told(thing, rest[32:])
        if thing and thing.kind == LINK:
            look(self.ask(0, nfs.READLINK, thing.handle) == counted(thing.data), name, "READLINK")

    def getattr(self):
        thing = self.file() or self.top
        self.is_told(thing, self.ask(0, nfs.GETATTR, thing.handle))

    def write(self):
        file = self.file()
        if not file:
            return
        offset = self.random.randrange(min(len(file.data) + 500, LARGEST - LONGEST))
        data = self.random.randbytes(self.random.choice([1, 64, 1000, LONGEST]))
        before = file.data.ljust(offset, b"\0")
        file.data = before[:offset] + data + before[offset + len(data) :]
        rest = self.ask(0, nfs.WRITE, file.handle + words(0, offset, 0) + counted(data))
        self.is_told(file, rest)

    def read(self):
        file = self.file()
        if not file:
            return
        offset, count = self.random.randrange(LARGEST), self.random.choice([1, 100, LONGEST])
        rest = self.ask(0, nfs.READ, file.handle + words(offset, count, 0))
        self.is_told(file, rest)
        look(rest[68:] == counted(file.data[offset : offset + count]), rest, "bytes that are read")

    def setattr(self):
        file = self.file()
        if not file:
            return
        file.mode, size = self.random.choice([0o600, 0o640, 0o755]), self.random.randrange(9000)
        file.data = file.data[:size].ljust(size, b"\0")
        self.is_told(file, self.ask(0, nfs.SETATTR, file.handle + settings(file.mode, size)))

    def remove(self):
        parent, name = self.place()
        old = parent.entries.get(name)
        wanted = NO_ENTRY if not old else IS_DIRECTORY if old.kind == DIRECTORY else 0
        self.ask(wanted, nfs.REMOVE, parent.handle + counted(name))
        if wanted == 0:
            parent.entries.pop(name).links -= 1

    def rmdir(self):
        parent, name = self.place()
        old = parent.entries.get(name)
        wanted = NO_ENTRY if not old else NOT_DIRECTORY if old.kind != DIRECTORY else 0
        self.ask(wanted, nfs.RMDIR, parent.handle + counted(name))
        if wanted == 0:
            parent.entries.pop(name)

    def rename(self):
        (parent, name), (to, new) = self.place(), self.place()
        thing, old = parent.entries.get(name), to.entries.get(new)
        if old and (thing is old or DIRECTORY in (old.kind, thing and thing.kind)):
            return
        arguments = parent.handle + counted(name) + to.handle + counted(new)
        self.ask(0 if thing else NO_ENTRY, nfs.RENAME, arguments)
        if thing and (parent, name) != (to, new):
            if old:
                old.links -= 1
            to.entries[new] = parent.entries.pop(name)

    def link(self):
        file, (parent, name) = self.file(), self.place()
        if not file:
            return
        old = parent.entries.get(name)
        self.ask(EXISTS if old else 0, nfs.LINK, file.handle + parent.handle + counted(name))
        if not old:
            file.links += 1
            parent.entries[name] = file

    def listing(self):
        parent = self.random.choice([self.top, self.sub])
        numbers = {n: int.from_bytes(it.handle[:4], "big") for n, it in parent.entries.items()}
        look(self.door.listed(parent.handle) == numbers, parent.entries.keys(), "READDIR")

    CALLS = [create, create, write, write, write, read, read, getattr, lookup, lookup, setattr]
    CALLS += [remove, remove, mkdir, rmdir, rename, rename, link, symlink, listing]

    # ---- the whole tree

    def compare(self, door):
        """Each object and each byte must be there, as another connection sees it."""
        self.door = door
        for parent in (self.top, self.sub):
            numbers = {n: int.from_bytes(it.handle[:4], "big") for n, it in parent.entries.items()}
            look(door.listed(parent.handle) == numbers, parent.entries.keys(), "READDIR")
            for name, thing in parent.entries.items():
                rest = self.ask(0, nfs.LOOKUP, parent.handle + counted(name))
                self.is_told(thing, rest[32:])
                if thing.kind == FILE:
                    look(self.content(thing) == thing.data, name, "bytes of a file")
                if thing.kind == LINK:
                    text = self.ask(0, nfs.READLINK, thing.handle)
                    look(text == counted(thing.data), name, "READLINK")

    def content(self, file):
        data = b""
        while len(data) < len(file.data):
            rest = self.ask(0, nfs.READ, file.handle + words(len(data), LONGEST, 0))
            length = int.from_bytes(rest[68:72], "big")
            if length == 0:
                break
            data += rest[72 : 72 + length]
        return data
