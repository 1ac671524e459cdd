#!/usr/bin/env python3
"""What three running servers give under load and faults, in numbers.

    python3 bench/servers.py server|node PROGRAM [WORD..] [-- JOB[=N] ..]

starts three servers for each of the jobs, or for all of them, over fresh folders below the one that
TMPDIR names, each by `PROGRAM WORD.. server S PORT DIR` over what `PROGRAM WORD.. init DIR` made,
or by `PROGRAM WORD.. node S PORT DIR TURNS`. N takes the place of the number in the job's row:

    client     no server: how many calls this client asks in 5 seconds of one that only answers
    mkdirs     one client makes directories for 60 s, 64 in each directory
    makes      32 clients do so for 30 s; a tree is full of some 840,000
    crowd      one client makes directories for 30 s, all in the root
    updates    32 clients write 64 bytes at a time for 120 s
    writes     8 clients write blocks of 8 kB for 60 s
    reads      32 clients ask for attributes for 10 s
    starts     50 starts over fresh folders: until the first answer
    kills      each server in turn is killed, 30 times in all, and started again 2 s later
    halts      the leader is halted for 0.5 to 10 s, 12 times (SIGSTOP), and goes on
    stops      all three are told to stop and started again, 20 times (`server` alone); before each
               stop a server is killed at a random moment and started again
    syncs      a data server is killed amid a sync, 200 times, and started again at once

A line tells of each how many calls were answered and how many a second, how many were refused for
want of room, the longest time between two answers, and the longest time of one call; how many more
views were tried; and what else the job is for. In `stops` and `syncs` each directory that was
acknowledged must be there, with its number, and no other one. Elsewhere no answer is compared.

It needs nothing but Python, which bounds what it can ask for: `client` tells by how much.
"""

import os
import random
import select
import signal
import socket
import sys
import time

from load import (
    BLOCK,
    LINE,
    Group,
    Load,
    create,
    getattr_of,
    jobs_of,
    lasts,
    mkdir_in,
    nodes,
    write,
)

CLIENTS = 32
# How long a killed server is down, and a whole group is left alone, in seconds.
DOWN, REST = 2.0, 1.0
# In `syncs` directories are compared after so many kills.
KILLS_TO_COMPARE = 20


def numbered(prefix=b""):
    """Names of which each is new."""
    number = 0
    while True:
        number += 1
        yield prefix + b"%d" % number


def views_told(group, before):
    return f"{group.views() - before} more views were tried"


def loaded(group, seconds, next_call, take=lambda client, reply: None):
    before = group.views()
    group.load.ask_for(seconds, next_call, take)
    return f"{group.load.told(seconds)}; {views_told(group, before)}"


# ---- loads


def crowd(form, program, seconds):
    with Group(form, program, 1) as group:
        names = numbered()
        return loaded(group, seconds, lambda _: nodes.mkdir(next(names)))


class Spread:
    """Directories that clients make: each client 64 in one, the last of which has the next ones."""

    def __init__(self):
        self.parents, self.made = {}, {}

    def next_call(self, client):
        count = self.made[client.name] = self.made.get(client.name, -1) + 1
        parent = self.parents.get(client.name, nodes.ROOT)
        return mkdir_in(parent, b"%d-%d" % (client.name, count))

    def take(self, client, reply):
        if self.made[client.name] % 64 == 0:
            self.parents[client.name] = nodes.node_in(reply)


def spread_over(form, program, seconds, count):
    spread = Spread()
    with Group(form, program, count) as group:
        return loaded(group, seconds, spread.next_call, spread.take)


def mkdirs(form, program, seconds):
    return spread_over(form, program, seconds, 1)


def makes(form, program, seconds):
    return spread_over(form, program, seconds, CLIENTS)


def written(form, program, seconds, count, data):
    """So many clients write data behind data, each in 2 MB of a file of its own."""
    with Group(form, program, count) as group:
        files = [nodes.node_in(group.load.call(create(b"%d" % n))) for n in range(count)]
        group.load.forget()
        counts, places = [0] * count, (1 << 21) // len(data)

        def next_call(client):
            counts[client.name] += 1
            offset = len(data) * (counts[client.name] % places)
            return write(files[client.name], offset, data)

        return loaded(group, seconds, next_call)


def updates(form, program, seconds):
    return written(form, program, seconds, CLIENTS, LINE)


def writes(form, program, seconds):
    return written(form, program, seconds, 8, BLOCK)


def reads(form, program, seconds):
    with Group(form, program, CLIENTS) as group:
        return loaded(group, seconds, lambda _: getattr_of(nodes.ROOT))


def answer_all(sock):
    """Answers each call with an object, without end."""
    attributes = bytes(80)
    while True:
        if select.select([sock], [], [], 1.0)[0]:
            ask, peer = sock.recvfrom(65_535)
            sock.sendto(bytes([nodes.ANSWER]) + ask[1:13] + bytes(8) + attributes, peer)


def client(form, program, seconds):
    with socket.socket(socket.AF_INET, socket.SOCK_DGRAM) as sock:
        sock.bind(("127.0.0.1", 0))
        child = os.fork()
        if child == 0:
            answer_all(sock)
        try:
            load, names = Load(sock.getsockname()[1], CLIENTS), numbered()
            load.ask_for(seconds, lambda _: nodes.mkdir(next(names)))
            return load.told(seconds)
        finally:
            os.kill(child, signal.SIGKILL)
            os.waitpid(child, 0)


# ---- starts and faults


def starts(form, program, count):
    waits, tried = [], []
    for _ in range(count):
        with Group(form, program, 1) as group:
            waits.append(group.first)
            time.sleep(REST)
            tried.append(group.views())
    first = f"first answer after {min(waits):.2f} to {max(waits):.2f} s"
    ones = sum(views == 1 for views in tried)
    return f"{first}; {ones} of {count} in one view, {max(tried)} at most"


def with_faults(form, program, script):
    """Eight clients make directories, each at most 50 a second, while a script goes on that tells
    how long calls had no answer behind each of its faults."""
    with Group(form, program, 8) as group:
        spread, aways, before = Spread(), [], group.views()
        begun = time.monotonic()
        group.load.drive(script(group, aways), spread.next_call, spread.take, is_spaced=True)
        seconds = time.monotonic() - begun
        shown = " ".join(f"{away:.1f}" for away in aways)
        told = f"{group.load.told(seconds)}; {views_told(group, before)}"
        return f"{told}; away {max(aways):.2f} s at most: {shown}"


def kills(form, program, count):
    def script(group, aways):
        yield from lasts(2 * REST)
        for turn in range(count):
            moment = time.monotonic()
            before = group.fail(turn % nodes.SERVERS)
            yield from lasts(DOWN)
            group.servers.start(turn % nodes.SERVERS)
            yield from lasts(REST)
            yield from group.mends(before)
            yield from lasts(2 * REST)
            aways.append(group.load.away_behind(moment, time.monotonic()))

    return with_faults(form, program, script)


def halts(form, program, count):
    def script(group, aways):
        yield from lasts(2 * REST)
        for turn in range(count):
            place = group.load.clients[0].leader
            group.halt(place)
            yield from lasts(0.5 + 9.5 * turn / max(1, count - 1))
            group.go_on(place)
            moment = time.monotonic()
            yield from lasts(2 * REST)
            yield from group.mends()
            yield from lasts(2 * REST)
            aways.append(group.load.away_behind(moment, time.monotonic()))

    return with_faults(form, program, script)


# ---- what was acknowledged is there


class Book:
    """The directories that were acknowledged, each with its number."""

    def __init__(self):
        self.names, self.asked, self.made = numbered(), {}, {}

    def next_call(self, client):
        self.asked[client.name] = next(self.names)
        return nodes.mkdir(self.asked[client.name])

    def take(self, client, reply):
        self.made[self.asked[client.name]] = nodes.node_in(reply)

    def drive(self, group, script):
        """Makes directories while a script goes on, and compares them all."""
        group.load.drive(script, self.next_call, self.take, is_spaced=True)
        nodes.compare(self.made, group.load.listed(), "listing")
        group.load.forget()


def stops(form, program, count):
    if form != "server":
        return "a server of this form isn't told to stop"
    longest, waits = [], []

    def script(group, is_mended):
        yield from lasts(random.uniform(0.5, 2))
        place = random.randrange(nodes.SERVERS)
        before = group.fail(place)
        yield from lasts(random.uniform(0, 2))
        group.servers.start(place)
        if is_mended:
            yield from lasts(REST)
            yield from group.mends(before)
        yield from lasts(random.uniform(0, 2))
        longest.append(group.servers.stop_all())
        group.servers.start_all()
        begun = time.monotonic()
        while group.load.last < begun:
            yield
        waits.append(time.monotonic() - begun)
        yield from group.mends()
        yield from lasts(REST)

    with Group(form, program, 2) as group:
        book = Book()
        for turn in range(count):
            book.drive(group, script(group, turn % 2 == 0))
        told = f"{len(book.made)} directories made and found, {count} times stopped"
        told += f"; a stop took {max(longest):.2f} s at most"
        return f"{told}, and the first answer behind it {max(waits):.2f} s"


def length_of(folder, name):
    """The length of a file, 0 where there is none."""
    try:
        return os.stat(os.path.join(folder, name)).st_size
    except OSError:
        return 0


def is_amid_file(folder):
    """Whether a file is there that is about to take the place of another one."""
    return any(length_of(folder, name) > 0 for name in ("new", "next"))


def is_amid_sync(folder, length):
    return is_amid_file(folder) or length_of(folder, "journal") != length


def kill_amid_sync(folder, server):
    """Kills a server once a sync begins in its folder, or 3 seconds are over."""
    length, end = length_of(folder, "journal"), time.monotonic() + 3
    while time.monotonic() < end and not is_amid_sync(folder, length):
        time.sleep(0.0002)
    time.sleep(random.uniform(0, 0.03))
    os.kill(server, signal.SIGKILL)


def killer(folder, server):
    """A process of its own that does so. It is there until it is waited for."""
    child = os.fork()
    if child == 0:
        kill_amid_sync(folder, server)
        os._exit(0)
    return child


def syncs(form, program, count):
    amid = []

    def script(group, first, behind):
        for turn in range(first, behind):
            yield from lasts(random.uniform(0, 0.5))
            place = turn % nodes.WITNESS
            folder = group.servers.place(place)
            child = killer(folder, group.servers.running[place].pid)
            while os.waitpid(child, os.WNOHANG) == (0, 0):
                yield
            before = group.fail(place)
            amid.append(is_amid_file(folder))
            group.servers.start(place)
            yield from group.mends(before)
            yield from lasts(0.2 * REST)

    with Group(form, program, 2) as group:
        book, before = Book(), group.views()
        for first in range(0, count, KILLS_TO_COMPARE):
            behind = min(count, first + KILLS_TO_COMPARE)
            book.drive(group, script(group, first, behind))
        told = f"{len(book.made)} directories made and found, {count} kills"
        return f"{told}, {sum(amid)} of them amid a file; {views_told(group, before)}"


JOBS = {
    client: 5,
    mkdirs: 60,
    makes: 30,
    crowd: 30,
    updates: 120,
    writes: 60,
    reads: 10,
    starts: 50,
    kills: 30,
    halts: 12,
    stops: 20,
    syncs: 200,
}


def main():
    words = sys.argv[1:]
    behind = words.index("--") if "--" in words else len(words)
    jobs = jobs_of(JOBS, words[behind + 1 :])
    if behind < 2 or words[0] not in nodes.FORMS or jobs is None:
        print(__doc__)
        return 2
    signal.signal(signal.SIGTERM, lambda *_: sys.exit(1))
    for job, number in jobs:
        try:
            told = job(words[0], words[1:behind], number)
        except (nodes.Wrong, OSError) as fault:
            told = f"failed: {fault}"
        print(f"{job.__name__}: {told}", flush=True)
    return 0


if __name__ == "__main__":
    sys.exit(main())
