#!/usr/bin/env python3
"""A door to three running servers, whose clients see a pause where the leader is killed.

    python3 .ci/serve.py PROGRAM [WORD..]

starts three servers as examples/nodes.py does, and a door to them by `PROGRAM WORD.. serve PORT
DOOR 100`. Three clients of examples/nfs_client.py visit it, one time after the other, each over a
connection of its own, and keep a file of each visit. Meanwhile server 0, which leads, is killed,
and started again a second later. In the end each file that was acknowledged must be there with its
bytes, and nothing else. A record whose connection ends before its answer must be done once. What a
mode lets others do with a file, and members of its group, they may, and no more. Then all are told
to stop. A line tells how it went; the exit status is 0 where all is well, else 1.
"""

import os
import signal
import socket
import subprocess
import sys
import threading
import time

sys.dont_write_bytecode = True
sys.path.insert(0, os.path.join(os.path.dirname(os.path.abspath(__file__)), "..", "examples"))
import nfs_client as nfs  # noqa: E402
import nodes  # noqa: E402
from nfs_client import counted, look, settings, words  # noqa: E402

VISITORS, CLIENT, ROOT = 3, 100, words(1) + bytes(28)
# In seconds: before the leader is killed, how long it is down, behind its repair, between visits,
# and how long a call may take.
BEFORE, DOWN, BEHIND, BETWEEN, LONGEST = 2.0, 1.0, 2.0, 0.02, 15.0


class Visitor(threading.Thread):
    """A client that visits until it is told to end, and keeps a file of each visit."""

    def __init__(self, port, number, is_over):
        super().__init__(daemon=True)
        self.door, self.number, self.is_over = nfs.Door(port, number, number), number, is_over
        self.kept, self.longest, self.fault = {}, 0.0, None
        given = words(0o755, number, number, *[nfs.LEFT] * 5)
        status, rest = nfs.Door(port).nfs(nfs.MKDIR, ROOT + counted(b"of-%d" % number) + given)
        look(status == 0, status, "MKDIR")
        self.at = rest[:32]

    def run(self):
        try:
            while not self.is_over.is_set():
                self.visit(b"%d" % len(self.kept))
                time.sleep(BETWEEN)
        except (nfs.Wrong, OSError) as fault:
            self.fault = f"visitor {self.number}: {fault}"

    def visit(self, name):
        begun, data = time.monotonic(), b"kept by %d, " % self.number * len(self.kept)
        nfs.visit(self.door, self.door.mount(b"/of-%d" % self.number), b"visit")
        status, rest = self.door.nfs(nfs.CREATE, self.at + counted(name) + settings(0o600))
        look(status == 0, status, "CREATE")
        status, _ = self.door.nfs(nfs.WRITE, rest[:32] + words(0, 0, 0) + counted(data[:8192]))
        look(status == 0, status, "WRITE")
        self.kept[name] = data[:8192]
        self.longest = max(self.longest, time.monotonic() - begun)

    def compare(self, port):
        """Looks for each file and its bytes, over a new connection."""
        door = nfs.Door(port, self.number, self.number)
        names = door.listed(self.at).keys()
        look(names == self.kept.keys(), names ^ self.kept.keys(), "lost or more than was made")
        for name, data in self.kept.items():
            status, rest = door.nfs(nfs.LOOKUP, self.at + counted(name))
            look(status == 0, status, "LOOKUP")
            status, rest = door.nfs(nfs.READ, rest[:32] + words(0, 8192, 0))
            look(status == 0 and rest[68:] == counted(data), name, "the bytes of a file")


def done_once(port):
    """A REMOVE whose answer nobody waited for is answered as it was, and done once."""
    door = nfs.Door(port)
    for name in (b"once", b"twice"):
        look(door.nfs(nfs.MKDIR, ROOT + counted(name) + settings(0o755))[0] == 0, name, "MKDIR")
    record = door.record(nfs.NFS, nfs.RMDIR, ROOT + counted(b"once"))
    for _ in range(3):
        door.send(record)
        door.close()
    answer = door.answer(record)
    look(answer[24:] == words(0), answer, "RMDIR, sent four times")
    status, _ = door.nfs(nfs.RMDIR, ROOT + counted(b"once"))
    look(status == 2, status, "RMDIR, asked again")


def allowed(port, at):
    """Who may what with a file: its owner, another user, and who is in its group beside his own."""
    doors = nfs.Door(port, 1, 1), nfs.Door(port, 8, 8), nfs.Door(port, 9, 9, [7, 1])
    status, rest = doors[0].nfs(nfs.CREATE, at + counted(b"allowed") + settings(0o600))
    look(status == 0, status, "CREATE")
    file, now = rest[:32], words(*[nfs.LEFT] * 4, *[1, 1_000_000] * 2)
    calls = (nfs.READ, words(0, 8, 0)), (nfs.WRITE, words(0, 0, 0) + counted(b"text"))
    for mode, *expected in (
        (0o400, (0, 13, 13), (0, 13, 13), (0, 1, 1)),
        (0o711, (0, 0, 0), (0, 13, 13), (0, 1, 1)),
        (0o640, (0, 13, 0), (0, 13, 13), (0, 1, 1)),
        (0o664, (0, 0, 0), (0, 13, 0), (0, 1, 0)),
    ):
        look(doors[0].nfs(nfs.SETATTR, file + settings(mode))[0] == 0, mode, "SETATTR")
        for (call, arguments), right in zip((*calls, (nfs.SETATTR, now)), expected):
            found = tuple(door.nfs(call, file + arguments)[0] for door in doors)
            look(found == right, found, f"procedure {call} on a file of mode {mode:o}")
    look(doors[0].nfs(nfs.REMOVE, at + counted(b"allowed"))[0] == 0, at, "REMOVE")


def run(program):
    """Gives what was done, in words."""
    servers, door, is_over = nodes.Stayers(program), None, threading.Event()
    with socket.socket() as it:
        it.bind(("127.0.0.1", 0))
        port = it.getsockname()[1]
    try:
        servers.start_all()
        door = subprocess.Popen([*program, "serve", str(servers.port), str(port), str(CLIENT)])
        visitors = [Visitor(port, number, is_over) for number in range(1, VISITORS + 1)]
        for it in visitors:
            it.start()
        kill_leader(servers, door, visitors)
        is_over.set()
        for it in visitors:
            it.join(LONGEST)
        look_at(servers, door, visitors)
        for it in visitors:
            it.compare(port)
        done_once(port)
        allowed(port, visitors[0].at)
        servers.stop_all()
        count, longest = sum(len(it.kept) for it in visitors), max(it.longest for it in visitors)
        return f"{count} files kept and found, the leader killed, longest visit {longest:.1f} s"
    finally:
        if door:
            door.kill()
            door.wait()
        servers.clear()


def kill_leader(servers, door, visitors):
    go_on(servers, door, visitors, BEFORE)
    servers.kill(0)
    go_on(servers, door, visitors, DOWN)
    servers.start(0)
    go_on(servers, door, visitors, nodes.REPAIR + BEHIND)


def go_on(servers, door, visitors, seconds):
    end = time.monotonic() + seconds
    while time.monotonic() < end:
        look_at(servers, door, visitors)
        time.sleep(0.05)


def look_at(servers, door, visitors):
    servers.watch()
    look(door.poll() is None, door.returncode, "the door ended")
    for it in visitors:
        look(it.fault is None, it.fault, "a visit")
        look(it.longest < LONGEST, it.longest, "a visit took long")


def main():
    if len(sys.argv) < 2:
        print(__doc__)
        return 1
    began = time.monotonic()
    signal.signal(signal.SIGTERM, lambda *_: sys.exit(1))
    try:
        done = run(sys.argv[1:])
    except (nfs.Wrong, nodes.Wrong, OSError, subprocess.SubprocessError) as fault:
        print(f"serve: failed: {fault}")
        return 1
    print(f"serve: {done}, {time.monotonic() - began:.0f} s")
    return 0


if __name__ == "__main__":
    sys.exit(main())
