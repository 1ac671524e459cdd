"""Clients that ask running servers for calls as fast as they are answered, and what they saw.

It is what bench/servers.py measures with. Clients and servers of one group are those of
examples/nodes.py; a client here asks the next server sooner, where one is silent.
"""

import os
import select
import signal
import socket
import struct
import sys
import time

sys.dont_write_bytecode = True
sys.path.insert(0, os.path.join(os.path.dirname(os.path.abspath(__file__)), "..", "examples"))
import nodes  # noqa: E402

nodes.LONG_SILENCE = 0.5

LOG_FULL = 4
GETATTR, WRITE, CREATE = 1, 8, 9
LEFT = nodes.LEFT
BLOCK = bytes(range(256)) * 32
LINE = BLOCK[:64]

# A pause between two answers is kept where it is longer, in seconds.
PAUSE_KEPT = 0.1
# Silent servers are looked for this often, and so many datagrams are taken at once.
LOOK, AT_ONCE = 0.02, 64

# ---- calls


def settings(mode):
    return struct.pack(">8I", mode, *[LEFT] * 7)


def mkdir_in(parent, name):
    return struct.pack(">BIH", nodes.MKDIR, parent, len(name)) + name + settings(0o755)


def create(name):
    return struct.pack(">BIH", CREATE, nodes.ROOT, len(name)) + name + settings(0o644)


def write(file, offset, data):
    return struct.pack(">BIIH", WRITE, file, offset, len(data)) + data


def getattr_of(file):
    return struct.pack(">BI", GETATTR, file)


# ---- jobs


def jobs_of(numbers, words):
    """Each job that words name, as `JOB` or `JOB=N`, with its number; all where there is no word.
    None where a word is no job. `numbers` has each job with the number that it has by itself.
    """
    named = {job.__name__: job for job in numbers}
    jobs = []
    for word in words or named:
        name, _, number = word.partition("=")
        if name not in named or not number.isdecimal() and number != "":
            return None
        jobs.append((named[name], int(number or numbers[named[name]])))
    return jobs


# ---- clients


def lasts(seconds):
    """A script that goes on for some time and does nothing."""
    end = time.monotonic() + seconds
    while time.monotonic() < end:
        yield


def until(holds, limit):
    """A script that goes on until something holds."""
    end = time.monotonic() + limit
    while not holds():
        if time.monotonic() > end:
            raise nodes.Wrong(f"the group isn't whole again after {limit:.0f} s")
        yield


class Load:
    """Clients with one socket, each of which asks its next call once one is answered."""

    def __init__(self, port, count):
        self.socket = socket.socket(socket.AF_INET, socket.SOCK_DGRAM)
        self.socket.setsockopt(socket.SOL_SOCKET, socket.SO_RCVBUF, 1 << 22)
        self.socket.bind(("127.0.0.1", 0))
        self.socket.setblocking(False)
        self.port = port
        self.clients = [nodes.Client(name, port, self.socket) for name in range(count)]
        self.forget()

    def forget(self):
        """What was seen so far counts no more."""
        self.answered, self.full, self.longest_wait = 0, 0, 0.0
        self.pauses, self.last = [], time.monotonic()

    def drive(self, script, next_call, take=lambda client, reply: None, is_spaced=False):
        """Asks what `next_call` gives for a client as long as a script goes on, and then waits for
        what is under way; `take` is given each reply. A client asks its next call once one is
        answered, or, where calls are spaced, no sooner than 20 milliseconds later."""
        self.last, looked, is_over = time.monotonic(), 0.0, False
        at_once = (lambda client: None) if is_spaced else next_call
        while not is_over or any(client.call for client in self.clients):
            now = time.monotonic()
            if now - looked > LOOK:
                looked = now
                if not is_over and next(script, "over") == "over":
                    is_over, at_once = True, lambda client: None
                for client in self.clients:
                    if client.call is None and not is_over:
                        client.begin(next_call(client))
                    client.go_on()
            if select.select([self.socket], [], [], 0.005)[0]:
                self.receive(at_once, take)
        self.note_pause(time.monotonic())

    def ask_for(self, seconds, next_call, take=lambda client, reply: None):
        self.drive(lasts(seconds), next_call, take)

    def receive(self, next_call, take):
        """Takes what has come."""
        for _ in range(AT_ONCE):
            try:
                datagram, (_, port) = self.socket.recvfrom(65_535)
            except BlockingIOError:
                return
            self.heed(datagram, port - self.port, next_call, take)

    def heed(self, datagram, place, next_call, take):
        name, number = struct.unpack_from(">IQ", datagram, 1)
        client = self.clients[name]
        if client.call is None or client.number != number:
            return
        if datagram[0] == nodes.CANNOT_SERVE:
            self.full += datagram[13] == LOG_FULL
            client.refused(place, datagram[13], datagram[14])
            return
        now = time.monotonic()
        self.note_pause(now)
        self.longest_wait = max(self.longest_wait, now - client.begun)
        self.answered, client.leader = self.answered + 1, place
        client.call = None
        take(client, datagram[21:])
        call = next_call(client)
        if call is not None:
            client.begin(call)

    def note_pause(self, now):
        if now - self.last > PAUSE_KEPT:
            self.pauses.append((self.last, now))
        self.last = now

    def call(self, call):
        """The reply to one call of the first client, which waits for it."""
        replies, client = [], self.clients[0]
        client.begin(call)
        limit = time.monotonic() + nodes.CALL
        while not replies:
            if time.monotonic() > limit:
                raise nodes.Wrong("a call had no answer")
            client.go_on()
            if select.select([self.socket], [], [], 0.002)[0]:
                self.receive(lambda _: None, lambda _, reply: replies.append(reply))
        return replies[0]

    def listed(self):
        """The number of each entry of the root, by name."""
        found, cookie, is_last = {}, 0, False
        while not is_last:
            entries, is_last = nodes.page_in(self.call(nodes.readdir(cookie)))
            found.update((name, number) for number, name, _ in entries)
            cookie = entries[-1][2] if entries else cookie
        return {name: number for name, number in found.items() if name not in (b".", b"..")}

    def longest_pause(self):
        return max((end - start for start, end in self.pauses), default=0.0)

    def away_behind(self, moment, until):
        """The longest time without an answer behind a moment, up to another one."""
        spans = [min(end, until) - max(start, moment) for start, end in self.pauses]
        return max([0.0, *spans])

    def told(self, seconds):
        pause = self.longest_pause()
        return (
            f"{self.answered} answers, {self.answered / seconds:.0f} a second, {self.full} times"
            f" no room, longest pause {pause:.2f} s, longest wait {self.longest_wait:.2f} s"
        )


# ---- groups


class Group:
    """Three servers of a form that answer, and a load for them. It ends with all of them."""

    def __init__(self, form, program, clients):
        self.servers = nodes.FORMS[form](program)
        self.servers.end = time.monotonic() + 7200
        self.clients = clients

    def __enter__(self):
        try:
            self.servers.start_all()
            self.load = Load(self.servers.port, self.clients)
            self.first = self.answers()
        except BaseException:
            self.servers.clear()
            raise
        return self

    def __exit__(self, *_):
        self.servers.clear()

    def answers(self):
        """How long it takes until a call is answered, from now on."""
        begun = time.monotonic()
        self.load.call(getattr_of(nodes.ROOT))
        self.load.forget()
        return time.monotonic() - begun

    def mark(self, place):
        """The promised and the accepted view of a server's disk, and its role."""
        try:
            with open(os.path.join(self.servers.place(place), "mark"), "rb") as file:
                count, by, accepted, accepted_by, role = struct.unpack_from(">QBQBB", file.read())
        except (OSError, struct.error):
            return (0, 0), (0, 0), 0
        return (count, by), (accepted, accepted_by), role

    def views(self):
        """The count of the highest view that a server promised: so many were tried."""
        return max(self.mark(place)[0][0] for place in range(nodes.SERVERS))

    def is_whole(self):
        """Whether both data servers have one view, with a part in it, and promised no other one."""
        marks = [self.mark(place) for place in range(nodes.WITNESS)]
        (promised, accepted, _), roles = marks[0], [role for _, _, role in marks]
        return marks[1][:2] == (promised, accepted) and promised == accepted and all(roles)

    def fail(self, place):
        """Kills a server. Gives how many views were tried before the group may be whole again: one
        more where a data server lost its log."""
        before = self.views() if place < nodes.WITNESS else 0
        self.servers.kill(place)
        return before

    def mends(self, before=0):
        """A script that goes on until the group is whole, once more views were tried than so
        many."""
        yield from until(lambda: self.views() > before and self.is_whole(), 40.0)

    def signal(self, place, number):
        self.servers.running[place].send_signal(number)

    def halt(self, place):
        self.signal(place, signal.SIGSTOP)

    def go_on(self, place):
        self.signal(place, signal.SIGCONT)
