#!/usr/bin/env python3
"""What a door to three running servers gives, in numbers, and what it bears.

    python3 bench/door.py PROGRAM [WORD..] [-- JOB[=N] ..]

starts three servers for each of the jobs, or for all of them, as bench/servers.py does, and a door
to them by `PROGRAM WORD.. serve PORT DOOR 100`. N takes the place of the number in the job's row:

    rates      calls a second by 1 and by 8 connections for 4 s each, and by as many clients that
               ask the servers themselves, and the longest wait of one by the door
    listing    READDIR of a directory of 4,000 names
    kills      20,000 calls by 8 connections, while each server in turn is killed, and started again
               5 s later
    cuts       the same, and one call in 20 is cut: its connection ends before the answer, and the
               same record is sent over a new one
    restarts   the same as `kills`, and the door is killed and started again too, 3 times
    damaged    10,000 damaged streams, each over a connection of its own, while 4 others are served
    halves     8 connections that sent half a record for 5 s, while 4 others are served
    crowd      1,000 more connections at once for 5 s, while 4 others are served
    silent     16 silent connections for at most 60 s, until a 17th one is answered
    idle       how much of a processor a door takes that nobody asks, for 5 s

In `kills`, `cuts`, `restarts`, `damaged`, `halves` and `crowd` each connection draws its calls, and
each answer must be that of a model tree (bench/door_model.py); in the end all that is there is
compared, and again after all servers were stopped and started again. No call may fail.

It needs nothing but Python.
"""

import multiprocessing
import os
import random
import signal
import socket
import subprocess
import sys
import time

from door_model import Tree, nfs
from door_wire import KINDS, ByDoor, Cutting, Damage, Straight
from load import Group, jobs_of, lasts, nodes, until

CLIENT, USER = 100, 1000
# How long a killed server is down, a job may take, and a damaged stream, in seconds.
DOWN, LONGEST, STREAM = 5.0, 600.0, 10.0


def free_port():
    """A port that nobody has."""
    with socket.socket() as it:
        it.bind(("127.0.0.1", 0))
        return it.getsockname()[1]


class Served(Group):
    """Three servers and a door to them."""

    def __init__(self, program):
        super().__init__("server", program, 1)
        self.program, self.door, self.port = program, None, free_port()

    def __enter__(self):
        super().__enter__()
        try:
            self.open()
            nfs.Door(self.port).mount()
        except BaseException:
            self.__exit__()
            raise
        return self

    def open(self):
        words = ["serve", self.servers.port, self.port, CLIENT]
        self.door = subprocess.Popen([*self.program, *map(str, words)])

    def shut(self):
        if self.door:
            self.door.kill()
            self.door.wait()
        self.door = None

    def __exit__(self, *_):
        self.shut()
        super().__exit__()

    def directory(self, name, user=USER):
        """The handle of a new directory of a user."""
        settings = nfs.words(0o700, user, user, *[nfs.LEFT] * 5)
        root = nfs.Door(self.port)
        status, rest = root.nfs(nfs.MKDIR, nfs.words(1) + bytes(28) + nfs.counted(name) + settings)
        nfs.look(status == 0, status, "MKDIR of a first directory")
        return rest[:32]


# ---- connections that draw calls


class Drawing:
    """Processes, each with a connection that draws calls until they are told to end, and compares
    each answer."""

    def __init__(self, served, count, share=0.0, is_lenient=False):
        self.is_over = multiprocessing.Event()
        self.counts = multiprocessing.Array("Q", count)
        self.waits = multiprocessing.Array("d", count)
        self.said, self.served = multiprocessing.Queue(), served
        tops = [served.directory(b"draws-%d" % n, USER + n) for n in range(count)]
        self.all = [
            multiprocessing.Process(target=self.draw, args=(n, top, share, is_lenient), daemon=True)
            for n, top in enumerate(tops)
        ]
        for it in self.all:
            it.start()

    def draw(self, number, top, share, is_lenient):
        user = USER + number
        door = Cutting(self.served.port, user, share, is_lenient)
        try:
            tree = Tree(door, top, user, random.Random(number))
            while not self.is_over.is_set():
                begun = time.monotonic()
                tree.drawn()
                took = time.monotonic() - begun
                self.counts[number] = door.calls
                self.waits[number] = max(self.waits[number], took)
            tree.door = None
            self.said.put((None, door.cuts, tree))
        except (nfs.Wrong, OSError) as fault:
            self.said.put((f"connection {number}, call {door.calls}: {fault}", door.cuts, None))

    def look(self):
        if not all(it.is_alive() for it in self.all):
            raise nodes.Wrong(str(self.said.get(timeout=5)[0]))

    def forget(self):
        """The longest wait is looked for anew."""
        self.waits[:] = [0.0] * len(self.waits)

    def ended(self):
        """Has them end, and compares their trees. Gives how many calls were made, in words."""
        self.is_over.set()
        said = [self.said.get(timeout=120) for _ in self.all]
        for it in self.all:
            it.join()
        wrong = [fault for fault, _, _ in said if fault]
        if wrong:
            raise nodes.Wrong("; ".join(wrong))
        trees, cuts = [tree for _, _, tree in said], sum(cuts for _, cuts, _ in said)
        self.compare(trees)
        self.served.servers.stop_all()
        self.served.servers.start_all()
        self.compare(trees)
        told = f"{sum(self.counts)} calls, each answer right, all found, also after a stop of all"
        return f"{told}; {cuts} cut; longest wait {max(self.waits):.2f} s"

    def compare(self, trees):
        for tree in trees:
            tree.compare(nfs.Door(self.served.port, tree.user, tree.user))


def follow(drawing, script):
    """Goes on with a script while connections draw."""
    begun = time.monotonic()
    for _ in script:
        drawing.look()
        if time.monotonic() > begun + LONGEST:
            raise nodes.Wrong(f"it took {LONGEST:.0f} s")
        time.sleep(0.02)
    return time.monotonic() - begun


def killed_in_turn(served, drawing, count, between=lambda turn: None):
    """A script: each server fails and comes back, and so many calls are made."""
    yield from lasts(1)
    for turn in range(nodes.SERVERS):
        before = served.fail(turn)
        yield from lasts(DOWN)
        served.servers.start(turn)
        between(turn)
        yield from lasts(1)
        yield from served.mends(before)
        yield from lasts(1)
    yield from until(lambda: sum(drawing.counts) >= count, LONGEST)


def kills(program, count, share=0.0):
    with Served(program) as served:
        drawing = Drawing(served, 8, share)
        seconds = follow(drawing, killed_in_turn(served, drawing, count))
        return f"{seconds:.0f} s, {drawing.ended()}"


def cuts(program, count):
    return kills(program, count, 0.05)


def restarts(program, count):
    with Served(program) as served:
        drawing = Drawing(served, 8, is_lenient=True)

        def between(_):
            served.shut()
            time.sleep(0.3)
            served.open()

        seconds = follow(drawing, killed_in_turn(served, drawing, count, between))
        return f"{seconds:.0f} s, {drawing.ended()}"


# ---- what takes nothing from others


def beside(program, script, count=4):
    """So many connections draw for 3 s, and then while a script goes on that gives words."""
    with Served(program) as served:
        drawing, told = Drawing(served, count), []
        follow(drawing, lasts(3))
        before, alone = sum(drawing.counts), max(drawing.waits)
        drawing.forget()
        seconds = follow(drawing, script(served, told))
        rate = (sum(drawing.counts) - before) / max(seconds, 0.001)
        alone = f"alone {before / 3:.0f} calls a second, longest wait {alone:.2f} s"
        both = f"meanwhile {rate:.0f}, longest wait {max(drawing.waits):.2f} s"
        return f"{'; '.join(told)}; {alone}; {both}; {drawing.ended()}"


def damaged(program, count):
    """A script of 4 processes, each of which sends damaged streams one after the other."""

    def script(served, told):
        handle = served.directory(b"damage", Damage.USER)
        ended, hung, bad = (multiprocessing.Value("Q", 0) for _ in range(3))

        def send(number):
            damage = Damage(served.port, handle, random.Random(number))
            for _ in range(count // 4):
                how = damage.one(STREAM)
                for counter, word in ((ended, "ended"), (hung, "hung"), (bad, "bad")):
                    counter.value += how == word
            os._exit(0)

        begun = time.monotonic()
        senders = [multiprocessing.Process(target=send, args=(n,)) for n in range(4)]
        for it in senders:
            it.start()
        while any(it.is_alive() for it in senders):
            yield
        seconds = time.monotonic() - begun
        told.append(f"{count} damaged streams in {seconds:.0f} s, {hung.value} never ended")
        if hung.value or bad.value or served.door.poll() is not None:
            raise nodes.Wrong(f"{told[-1]}, {bad.value} answers are no records")

    return beside(program, script)


def halves(program, seconds):
    def script(served, told):
        doors = [nfs.Door(served.port) for _ in range(8)]
        records = [it.record(nfs.NFS, nfs.GETATTR, nfs.words(1) + bytes(28)) for it in doors]
        for door, record in zip(doors, records):
            door.send(record[: len(record) // 2])
        yield from lasts(seconds)
        for door, record in zip(doors, records):
            door.send(record[len(record) // 2 :])
            nfs.look(door.receive()[24:28] == nfs.words(0), door.port, "GETATTR in two halves")
            door.close()
        told.append(f"8 halves held for {seconds} s, and answered once whole")

    return beside(program, script)


def crowd(program, count):
    def script(served, told):
        sockets = [socket.socket() for _ in range(count)]
        for it in sockets:
            it.setblocking(False)
            it.connect_ex(("127.0.0.1", served.port))
        yield from lasts(5)
        for it in sockets:
            it.close()
        begun = time.monotonic()
        nfs.Door(served.port).mount()
        took = time.monotonic() - begun
        told.append(f"{count} connections for 5 s, a new one answered {took:.2f} s later")

    return beside(program, script)


def silent(program, seconds):
    with Served(program) as served:
        time.sleep(0.2)
        sockets = [socket.create_connection(("127.0.0.1", served.port)) for _ in range(16)]
        time.sleep(0.5)
        begun, door = time.monotonic(), nfs.Door(served.port)
        record = door.record(nfs.NFS, nfs.GETATTR, nfs.words(1) + bytes(28))
        door.send(record)
        door.socket.settimeout(seconds)
        try:
            door.receive()
        except socket.timeout:
            return f"a 17th connection had no answer for {seconds} s beside 16 silent ones"
        took, left = time.monotonic() - begun, 0
        for it in sockets:
            it.setblocking(False)
            try:
                left += it.recv(1) == b"?"
            except BlockingIOError:
                left += 1
        return f"a 17th connection was answered after {took:.2f} s; {left} silent ones are left"


def idle(program, seconds):
    with Served(program) as served:
        time.sleep(1)
        told = []
        for what in ("no connection", "1 silent connection", "16 silent connections"):
            count = int(what.split()[0]) if what[0].isdigit() else 0
            sockets = [socket.create_connection(("127.0.0.1", served.port)) for _ in range(count)]
            time.sleep(1)
            before = used(served.door.pid)
            time.sleep(seconds)
            told.append(f"{what}: {(used(served.door.pid) - before) / seconds:.1%}")
            for it in sockets:
                it.close()
        return ", ".join(told)


def used(process):
    """The seconds of processors that a process took."""
    with open(f"/proc/{process}/stat", encoding="ascii", errors="replace") as file:
        fields = file.read().rpartition(")")[2].split()
    return (int(fields[11]) + int(fields[12])) / os.sysconf("SC_CLK_TCK")


# ---- rates


def asked(make, kind, seconds, begins, said):
    """Asks calls of a kind for some seconds, and says how many were answered, and the longest
    wait."""
    calls, longest, count = KINDS[kind](make()), 0.0, 0
    next(calls)
    begins.wait()
    last, end = time.monotonic(), time.monotonic() + seconds
    while last < end:
        next(calls)
        now = time.monotonic()
        longest, last, count = max(longest, now - last), now, count + 1
    said.put((count, longest))


def rate(form, port, kind, count, seconds):
    """Calls a second by so many processes, and the longest wait."""
    said, begins = multiprocessing.Queue(), multiprocessing.Barrier(count)
    askers = [
        multiprocessing.Process(
            target=asked, args=(lambda n=n: form(port, n), kind, seconds, begins, said), daemon=True
        )
        for n in range(count)
    ]
    for it in askers:
        it.start()
    counts = [said.get(timeout=seconds + 60) for _ in askers]
    for it in askers:
        it.join()
    return sum(n for n, _ in counts) / seconds, max(longest for _, longest in counts)


def rates(program, seconds):
    told = ["calls a second by 1 and by 8 connections; in brackets by clients of the servers"]
    for kind in KINDS:
        words = []
        for count in (1, 8):
            with Served(program) as served:
                by_door, longest = rate(ByDoor, served.port, kind, count, seconds)
                straight, _ = rate(Straight, served.servers.port, kind, count, seconds)
            words.append(f"{by_door:.0f} ({straight:.0f}), longest wait {longest * 1000:.0f} ms")
        told.append(f"{kind}: {'; '.join(words)}")
    return "\n    ".join(told)


def listing(program, count):
    with Served(program) as served:
        root = nfs.Door(served.port)
        top = served.directory(b"large", 0)
        begun = time.monotonic()
        for n in range(count):
            name = nfs.counted(b"name-%d" % n)
            status, _ = root.nfs(nfs.CREATE, top + name + nfs.settings(0o644))
            nfs.look(status == 0, status, "CREATE")
        made, begun = time.monotonic() - begun, time.monotonic()
        nfs.look(len(root.listed(top)) == count, top, "READDIR")
        took = time.monotonic() - begun
        return f"{count} names made in {made:.1f} s, and listed in {took:.2f} s"


JOBS = {
    rates: 4,
    listing: 4000,
    kills: 20_000,
    cuts: 20_000,
    restarts: 20_000,
    damaged: 10_000,
    halves: 5,
    crowd: 1000,
    silent: 60,
    idle: 5,
}


def main():
    words = sys.argv[1:]
    behind = words.index("--") if "--" in words else len(words)
    jobs = jobs_of(JOBS, words[behind + 1 :])
    if behind < 1 or jobs is None:
        print(__doc__)
        return 2
    signal.signal(signal.SIGTERM, lambda *_: sys.exit(1))
    status = 0
    for job, number in jobs:
        try:
            told = job(words[:behind], number)
        except (nodes.Wrong, nfs.Wrong, OSError, subprocess.SubprocessError) as fault:
            told, status = f"failed: {fault}", 1
        print(f"{job.__name__}: {told}", flush=True)
    return status


if __name__ == "__main__":
    sys.exit(main())
