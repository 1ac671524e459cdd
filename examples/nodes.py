#!/usr/bin/env python3
"""Three servers that are killed in turn and stopped, and clients that lose nothing.

    python3 examples/nodes.py node PROGRAM [WORD..]
    python3 examples/nodes.py server PROGRAM [WORD..]

starts three servers on free ports of this machine and over fresh folders, each by `PROGRAM WORD..
node S PORT DIR TURNS`, or by `PROGRAM WORD.. server S PORT DIR` over what `PROGRAM WORD.. init DIR`
made. Eight clients make 2,000 directories through whichever server leads. Meanwhile each server is
killed in turn (SIGKILL), and started again a second later. In the end each directory that was
acknowledged must be there, with the number that it was acknowledged with, and no other one.

Servers of `server` then go on: all three are told to stop by a file `stop` in each folder, and each
must end with status 0, say what it did, and take the file away. They are started again, one is
killed while more directories are made, and all three are stopped and started once more. Each time
each directory must be there. A line tells how it went; the exit status is 0 where all is well, else
1.

It needs nothing but Python. How messages are spelled: docs/FORMATS.md.
"""

import os
import random
import re
import select
import shutil
import signal
import socket
import struct
import subprocess
import sys
import tempfile
import time

SERVERS = 3
WITNESS = 2
CLIENTS = 8
TURNS = 10**9

# How many directories are made at first, and how many more once all servers were stopped.
DIRECTORIES, MORE = 2000, 600

# In seconds: when a call is asked again after a refusal, and after silence, which doubles each time
# up to a bound; how long a killed server is down, and how long it then has to be taken in again;
# how long a stop may take, a call in all, and the whole run.
PAUSE, SILENCE, LONG_SILENCE = 0.02, 0.25, 2.0
DOWN, REPAIR = 1.0, 6.0
STOP, CALL, RUN = 10.0, 40.0, 105.0

# The status of a server whose folder is refused.
FOLDER_REFUSED = 7

# ---- messages

ASK, ANSWER, CANNOT_SERVE = 27, 12, 13
NOT_LEADER, NO_HINT = 1, 3
LOOKUP, MKDIR, READDIR = 4, 14, 16
NODE, PAGE = 3, 6
ROOT, LEFT = 1, 0xFFFFFFFF


class Wrong(Exception):
    """What isn't as it must be."""


def mkdir(name):
    return named(MKDIR, name) + struct.pack(">8I", 0o755, *[LEFT] * 7)


def lookup(name):
    return named(LOOKUP, name)


def named(procedure, name):
    return struct.pack(">BIH", procedure, ROOT, len(name)) + name


def readdir(cookie):
    return struct.pack(">BIII", READDIR, ROOT, cookie, 8192)


def ask(client, number, call):
    """A call as a datagram. The superuser asks it."""
    return struct.pack(">BIQII", ASK, client, number, 0, 0) + call


def node_in(reply):
    """The number of the object that a reply tells."""
    if reply[0] != NODE:
        raise Wrong(f"the reply {reply.hex()} tells no object")
    return struct.unpack_from(">I", reply, 1)[0]


def page_in(reply):
    """The entries of a page, each a number, a name and a cookie; and whether no more follow."""
    if reply[0] != PAGE:
        raise Wrong(f"the reply {reply.hex()} is no page")
    at, entries = 3, []
    for _ in range(struct.unpack_from(">H", reply, 1)[0]):
        number, length = struct.unpack_from(">IH", reply, at)
        name_end = at + 6 + length
        cookie = struct.unpack_from(">I", reply, name_end)[0]
        entries.append((number, reply[at + 6 : name_end], cookie))
        at = name_end + 4
    return entries, reply[at] == 1


# ---- servers


def free_port():
    """The first of three ports in a row that nobody has."""
    while True:
        port = random.randrange(20_000, 60_000)
        sockets = []
        try:
            for place in range(SERVERS):
                sockets.append(socket.socket(socket.AF_INET, socket.SOCK_DGRAM))
                sockets[place].bind(("127.0.0.1", port + place))
            return port
        except OSError:
            pass
        finally:
            for it in sockets:
                it.close()


class Servers:
    """Three processes of `node`, each over its own folder."""

    def __init__(self, program):
        self.program = program
        self.end = time.monotonic() + RUN
        self.port = free_port()
        self.folder = tempfile.mkdtemp(prefix="harp-nodes-")
        self.running = {}

    def place(self, place):
        return os.path.join(self.folder, str(place))

    def said(self, place):
        """The file of what a server says on its standard output, of its last life."""
        return os.path.join(self.folder, f"said-{place}")

    def words(self, place):
        return ["node", str(place), str(self.port), self.place(place), str(TURNS)]

    def start(self, place):
        with open(self.said(place), "wb") as said:
            words = [*self.program, *self.words(place)]
            self.running[place] = subprocess.Popen(words, stdout=said)

    def start_all(self):
        for place in range(SERVERS):
            self.start(place)

    def kill(self, place):
        server = self.running.pop(place)
        server.kill()
        server.wait()

    def watch(self):
        """None of them may end by itself, and the run may not take too long."""
        if time.monotonic() > self.end:
            raise Wrong(f"it took {RUN:.0f} seconds")
        for place, server in self.running.items():
            if server.poll() is not None:
                raise Wrong(f"server {place} ended with status {server.returncode}")

    def clear(self):
        for place in list(self.running):
            self.kill(place)
        shutil.rmtree(self.folder, ignore_errors=True)


class Stayers(Servers):
    """Three processes of `server`, which stay up until they are told to stop."""

    def __init__(self, program):
        super().__init__(program)
        for place in range(SERVERS):
            subprocess.run([*program, "init", self.place(place)], check=True)

    def words(self, place):
        return ["server", str(place), str(self.port), self.place(place)]

    def stop_all(self):
        """Tells all of them to stop, and looks how they end. Gives how long it took."""
        began = time.monotonic()
        for place in range(SERVERS):
            with open(os.path.join(self.place(place), "stop"), "wb"):
                pass
        for place in range(SERVERS):
            self.ended(place, self.running.pop(place))
        return time.monotonic() - began

    def ended(self, place, server):
        try:
            status = server.wait(timeout=STOP)
        except subprocess.TimeoutExpired:
            server.kill()
            server.wait()
            raise Wrong(f"server {place} didn't stop within {STOP:.0f} seconds") from None
        if status != 0:
            raise Wrong(f"server {place}, told to stop, ended with {status}")
        self.look_at_said(place)
        if os.path.exists(os.path.join(self.place(place), "stop")):
            raise Wrong(f"server {place} left its file `stop`")

    def look_at_said(self, place):
        """Its last line says what it did, and those before how its state changed."""
        with open(self.said(place), "rb") as said:
            *states, last = said.read().splitlines() or [b""]
        if not last.startswith(b"stopped turns "):
            raise Wrong(f"server {place} said {last!r} when it was told to stop")
        if not states:
            raise Wrong(f"server {place} said nothing of its state")
        for line in states:
            if not re.match(rb"\d+ state %d [a-z]+ " % place, line):
                raise Wrong(f"server {place} said {line!r} of its state")

    def refuse(self):
        """A server over a folder that was never made, or whose mark is lost, is refused, and so is
        making a used one."""
        lost = os.path.join(self.folder, "lost")
        os.mkdir(lost)
        for name in ("new", "meta"):
            with open(os.path.join(lost, name), "wb"):
                pass
        if self.status("server", "0", str(self.port), lost) != FOLDER_REFUSED:
            raise Wrong("a server runs over a folder whose mark is lost")
        nowhere = os.path.join(self.folder, "nowhere")
        if self.status("server", "0", str(self.port), nowhere) != FOLDER_REFUSED:
            raise Wrong("a server runs over a folder that was never made")
        if self.status("init", self.place(0)) != FOLDER_REFUSED:
            raise Wrong("a folder in which a server ran is made for one")

    def status(self, *words):
        ended = subprocess.run([*self.program, *words], stderr=subprocess.DEVNULL, check=False)
        return ended.returncode


class Failure:
    """A server that is killed once so many calls were answered, and then started again."""

    def __init__(self, servers, place, after):
        self.servers, self.place, self.after = servers, place, after
        self.killed = self.started = None

    def go_on(self, answered):
        self.servers.watch()
        now = time.monotonic()
        if self.killed is None and answered >= self.after:
            self.servers.kill(self.place)
            self.killed = now
        if self.killed and not self.started and now >= self.killed + DOWN:
            self.servers.start(self.place)
            self.started = now

    def wait(self):
        """Until the server had the time to be taken in again, which the witness doesn't need."""
        repair = 0.0 if self.place == WITNESS else REPAIR
        while not self.started or time.monotonic() < self.started + repair:
            self.go_on(self.after)
            time.sleep(0.05)


# ---- clients


class Client:
    """A client that has one call under way, or none. Its numbers rise over all its lives."""

    def __init__(self, name, port, out):
        self.name, self.port, self.out = name, port, out
        self.number, self.leader = time.time_ns() // 1000, 0
        self.call = None

    def begin(self, call):
        self.number += 1
        self.call, self.silence = call, SILENCE
        self.begun = time.monotonic()
        self.send()

    def send(self):
        self.again, self.is_silent = time.monotonic() + self.silence, True
        datagram = ask(self.name, self.number, self.call)
        self.out.sendto(datagram, ("127.0.0.1", self.port + self.leader))

    def go_on(self):
        """Asks again, where it is time: the next server, where this one was silent."""
        now = time.monotonic()
        if self.call is None or now < self.again:
            return
        if now > self.begun + CALL:
            raise Wrong(f"a call had no answer for {CALL:.0f} seconds")
        if self.is_silent:
            self.leader = (self.leader + 1) % SERVERS
            self.silence = min(2 * self.silence, LONG_SILENCE)
        self.send()

    def refused(self, place, cause, hint):
        """A server that rests may name itself, which is no help."""
        self.again, self.is_silent = time.monotonic() + PAUSE, False
        if cause == NOT_LEADER:
            self.leader = (place + 1) % SERVERS if hint in (place, NO_HINT) else hint


class Clients:
    """Clients with one socket, of the group whose server 0 has this port."""

    def __init__(self, port, count=CLIENTS):
        self.port = port
        self.socket = socket.socket(socket.AF_INET, socket.SOCK_DGRAM)
        self.socket.bind(("127.0.0.1", 0))
        self.clients = [Client(name, port, self.socket) for name in range(count)]

    def replies(self, calls, go_on=lambda answered: None):
        """The reply to each call. `go_on` is told, time and again, how many were answered."""
        replies, left, asked = {}, list(enumerate(calls)), {}
        while len(replies) < len(calls):
            for client in self.clients:
                if client.call is None and left:
                    asked[client.name], call = left.pop(0)
                    client.begin(call)
                client.go_on()
            go_on(len(replies))
            while select.select([self.socket], [], [], 0.005)[0]:
                client, reply = self.receive()
                if reply is not None:
                    replies[asked[client.name]] = reply
                    break
        return [replies[n] for n in range(len(calls))]

    def receive(self):
        """Who is answered by the next datagram, and the reply. None where it answers no call."""
        datagram, (_, port) = self.socket.recvfrom(65_535)
        name, number = struct.unpack_from(">IQ", datagram, 1)
        client = self.clients[name]
        if client.call is None or client.number != number:
            return client, None
        if datagram[0] == CANNOT_SERVE:
            client.refused(port - self.port, datagram[13], datagram[14])
            return client, None
        client.call, client.leader = None, port - self.port
        return client, datagram[21:]


# ---- the run


def make(servers, clients, names, fails):
    """Makes directories, while a server fails, if any. Gives each one's number by name."""
    failure = None if fails is None else Failure(servers, fails, len(names) // 2)
    go_on = failure.go_on if failure else lambda answered: servers.watch()
    replies = clients.replies([mkdir(name) for name in names], go_on)
    if failure:
        failure.wait()
    return dict(zip(names, map(node_in, replies)))


def listed(clients):
    """The number of each entry of the root, by name."""
    found, cookie, is_last = {}, 0, False
    while not is_last:
        entries, is_last = page_in(clients.replies([readdir(cookie)])[0])
        found.update((name, number) for number, name, _ in entries)
        cookie = entries[-1][2] if entries else cookie
    return {name: number for name, number in found.items() if name not in (b".", b"..")}


def compare(made, found, how):
    """What was found must be just what was made."""
    if found != made:
        wrong = sum(found.get(name) != number for name, number in made.items())
        more = len(found.keys() - made.keys())
        raise Wrong(f"{how}: {wrong} directories are lost or others, {more} were never made")


def look(servers, clients, made):
    """Looks for each directory by its name, and lists them all."""
    replies = clients.replies(list(map(lookup, made)), lambda answered: servers.watch())
    compare(made, dict(zip(made, map(node_in, replies))), "lookups")
    compare(made, listed(clients), "listing")


def kill_in_turn(servers, clients):
    """Makes directories while each server fails in turn, and then some more."""
    part, made = DIRECTORIES // (SERVERS + 1), {}
    for turn, fails in enumerate([*range(SERVERS), None]):
        names = [b"%d" % n for n in range(turn * part, (turn + 1) * part)]
        made.update(make(servers, clients, names, fails))
    return made


def stop_and_start(servers, clients, made):
    """Stops all of them and starts them again, twice. Gives how long a stop took at most."""
    longest = servers.stop_all()
    servers.refuse()
    servers.start_all()
    compare(made, listed(clients), "listing after the first stop")
    made.update(make(servers, clients, [b"more%d" % n for n in range(MORE)], 0))
    longest = max(longest, servers.stop_all())
    servers.start_all()
    look(servers, clients, made)
    return max(longest, servers.stop_all())


def run(form, program):
    """Gives what was done, in words."""
    servers = FORMS[form](program)
    try:
        servers.start_all()
        clients = Clients(servers.port)
        made = kill_in_turn(servers, clients)
        look(servers, clients, made)
        stops = ""
        if form == "server":
            longest = stop_and_start(servers, clients, made)
            stops = f", three times all stopped, in {longest:.1f} s at most"
        return f"{len(made)} directories made and found, {SERVERS} servers killed{stops}"
    finally:
        servers.clear()


FORMS = {"node": Servers, "server": Stayers}


def main():
    if len(sys.argv) < 3 or sys.argv[1] not in FORMS:
        print("usage: nodes.py node|server PROGRAM [WORD..]")
        return 1
    form, began = sys.argv[1], time.monotonic()
    # Whoever ends this ends the servers too.
    signal.signal(signal.SIGTERM, lambda *_: sys.exit(1))
    try:
        done = run(form, sys.argv[2:])
    except (Wrong, OSError, subprocess.CalledProcessError) as fault:
        print(f"nodes: {form}: failed: {fault}")
        return 1
    print(f"nodes: {form}: {done}, {time.monotonic() - began:.0f} s")
    return 0


if __name__ == "__main__":
    sys.exit(main())
