#!/usr/bin/env python3
"""Gives words to the program that was built, and compares its output and its exit status.

    python3 .ci/words.py PROGRAM [WORD..]

runs `PROGRAM WORD.. ..`, in a fresh folder, with each of

- the words of `.ci/cases/refused`, a line each, which are refused with the text of `usage`;
- the words of `.ci/cases/reasons`, of which standard error says what is wrong;
- the words of `.ci/cases/*.words` behind their status, which write what stands in `*.stdout`;
- schedules that are too large for a file, whose traces are made here by the rules;
- a schedule whose next line is written once the lines of the last one came;
- running servers: at free ports, at one that is taken, over folders, and under datagrams from a
  port that none can be sent to.

It prints what goes wrong, and how many were tried. The exit status is 0 where all is well, else 1.
"""

import contextlib
import glob
import os
import re
import shlex
import socket
import struct
import subprocess
import sys
import tempfile
import threading
import time

sys.dont_write_bytecode = True
TOP = os.path.dirname(os.path.dirname(os.path.abspath(__file__)))
CASES = os.path.join(TOP, ".ci", "cases")
sys.path.insert(0, os.path.join(TOP, "examples"))
from nodes import ask, free_port, lookup

DONE, REFUSED_WORDS, REFUSED_LINE, DISK_FAILED, LINK_FAILED = 0, 2, 5, 7, 8
ATTEMPTS = 20

LINES, RECORDS = 50_000, 32_768
OPENING = b"suspect 0\npump\nadvance 2050\ntick 0\npump\n"


def case(name):
    with open(os.path.join(CASES, name), "rb") as file:
        return file.read()


class Tries:
    """The program, and how many runs of it were tried, and went wrong."""

    def __init__(self, program):
        self.program = program
        self.tried = self.failed = 0
        self.reason = ""

    def run(self, words, text=b""):
        """The exit status and the output. Why it ended stands on standard error, in one line
        where what was wanted wasn't done, and else nothing does."""
        ended = subprocess.run(
            [*self.program, *words], input=text, capture_output=True, timeout=110, check=False
        )
        told = re.fullmatch(rb"harp: [^\n]+\n", ended.stderr) is not None
        if (ended.stderr == b"") == (ended.returncode > 1) or (ended.stderr != b"") != told:
            self.failed += 1
            print(f"words: {words}: standard error: {shown(ended.stderr)}")
        self.reason = ended.stderr.decode()
        return ended.returncode, ended.stdout

    def expect(self, name, wanted, got):
        self.tried += 1
        if got != wanted:
            self.failed += 1
            print(f"words: {name}: wanted {shown(wanted)}, got {shown(got)}")

    def expect_run(self, name, words, status, output, text=b""):
        self.expect(name, (status, output), self.run(words, text))


def shown(value):
    text = repr(value)
    return text if len(text) < 400 else f"{text[:200]} .. {text[-200:]}"


# ---- words that are refused, and words with one output


def refused_words(tries):
    """They write the usage text, and read nothing."""
    usage = case("usage")
    for line in case("refused").decode().splitlines():
        words = shlex.split(line)
        tries.expect_run(f"refused: {line}", words, REFUSED_WORDS, usage, b"end 0\n")
    no_text = ["node", "0", "4000", b"\xff", "5"]
    tries.expect_run("refused: a word that is no text", no_text, REFUSED_WORDS, usage)


def reasons(tries):
    """Standard error says which word is wrong, and what stands there."""
    for line in case("reasons").decode().splitlines():
        words, reason = line.split("\t")
        tries.run(shlex.split(words))
        tries.expect(f"reason: {words}", f"harp: {reason}\n", tries.reason)
    tries.run([])
    tries.expect("reason: no words", "harp: no word names a form\n", tries.reason)


def files(tries):
    for path in sorted(glob.glob(os.path.join(CASES, "*.words"))):
        name = os.path.basename(path).removesuffix(".words")
        status, *words = shlex.split(case(f"{name}.words").decode())
        tries.expect_run(name, words, int(status), case(f"{name}.stdout"))


def same_sweep_again(tries):
    words = ["sweep", "1", "20", "2000"]
    status, first = tries.run(words)
    lines = first.splitlines(keepends=True)
    tries.expect("first runs", (DONE, 21, case("first_runs")), (status, len(lines), b"".join(lines[:3])))
    tries.expect_run("the same sweep again", words, DONE, first)


# ---- schedules that are too large for a file


def one_line_too_many(tries):
    """Line 50,001 is refused, and all lines before it are played."""
    trace = b"> clock 0 0\n" * LINES + b"bad 50001 too-many\n"
    schedule = b"clock 0 0\n" * (LINES + 1)
    tries.expect_run("a line too many", ["play"], REFUSED_LINE, trace, schedule)


def refused_places(tries):
    """Standard error says where a line is no step any more, if it is out of the grammar."""
    told = "harp: a line is refused, which the last line of the output names"
    comment = b"# " + b"x" * 9_000 + b"\n"
    for name, word, text, place in (
        ("no server", "play", b"tick 0\ntick 9\n", 6),
        ("no form", "play", b"ticket\n", 5),
        ("cut off", "play", b"tick", 5),
        ("behind much", "play", comment * 30 + b"tick 9\n" + comment, 6),
        ("observed", "observe", b"look 0\n", 2),
        ("no packet", "play", b"deliver 7\ntick 9\n", None),
    ):
        end = "" if place is None else f"; it is no step from byte {place} on"
        tries.run([word], text)
        tries.expect(f"the place, {name}", f"{told}{end}\n", tries.reason)


def full_log(tries):
    """Updates that no partner acknowledges fill the log, and one more is refused."""
    with open(os.path.join(TOP, "examples", "one_update.stdout"), "rb") as file:
        opened = file.read().partition(b"> ask ")[0]
    asks = [b"ask 0 7 %d setattr 1 755\n" % n for n in range(1, RECORDS + 2)]
    sent = [
        b"send %d 0 1 event 1.0 %d 0 0 7 %d\nstate 0 open 1.0 1.0 leads 1 held 0 0 0 0 %d\n"
        % (n + 8, n, n, n)
        for n in range(1, RECORDS + 1)
    ]
    refused = b"refused 0 7 %d log-full\n" % (RECORDS + 1)
    steps = b"".join(b"> " + ask + out for ask, out in zip(asks, [*sent, refused]))
    trace = opened + steps + b"end 0\n"
    tries.expect_run("a full log", ["play"], DONE, trace, OPENING + b"".join(asks))


# ---- who waits for an answer


def line_by_line(tries, word):
    """What a line leads to is handed on before the next line is waited for."""
    answers = []
    words = [*tries.program, word]
    with subprocess.Popen(words, stdin=subprocess.PIPE, stdout=subprocess.PIPE) as play:
        late = threading.Timer(60, play.kill)
        late.start()
        for _ in range(3):
            play.stdin.write(b"clock 0 0\n")
            play.stdin.flush()
            answers.append(play.stdout.readline())
        play.stdin.close()
        answers.append(play.stdout.read())
        ended = play.wait()
        late.cancel()
    wanted = [b"> clock 0 0\n"] * 3 + [b"end 0\n"]
    tries.expect(f"{word} line by line", (DONE, wanted), (ended, answers))


def played_line_by_line(tries):
    for word in ("play", "observe"):
        line_by_line(tries, word)


# ---- running servers


def run_at_free_ports(tries, words_at):
    """How words end that are made of a port, where that port and the next two stay free."""
    for _ in range(ATTEMPTS):
        ended = tries.run(words_at(str(free_port())))
        if ended[0] != LINK_FAILED:
            break
    return ended


def has_files(names):
    return all(os.path.isfile(name) for name in names)


def a_group(tries):
    """Each server has its own folder in the group's."""
    status, output = run_at_free_ports(tries, lambda port: ["group", port, "group/d", "40"])
    tries.expect("a group", (DONE, b"turns 40 taken "), (status, output[:15]))
    marks = [f"group/d/{place}/mark" for place in range(3)]
    tries.expect("the folders of a group", True, has_files(marks))


def a_node(tries):
    """A server has the folder that is told, whatever its name."""
    quiet = (DONE, b"turns 5 taken 0 sent 0\n")
    for name, more in (("node/d", []), (" ", ["500"]), ("500", ["100000"])):
        words_at = lambda port: ["node", "0", port, name, "5", *more]
        tries.expect(f"a node over {name!r}", quiet, run_at_free_ports(tries, words_at))
        tries.expect(f"its folder {name!r}", True, has_files([f"{name}/mark"]))


def a_taken_port(tries):
    """Server s has the port that is told plus s: where the next one is taken, 1 fails, 0 doesn't."""
    for _ in range(ATTEMPTS):
        port = free_port()
        with contextlib.closing(socket.socket(socket.AF_INET, socket.SOCK_DGRAM)) as taken:
            taken.bind(("127.0.0.1", port + 1))
            ends = [tries.run(["node", s, str(port), "beside", "5"])[0] for s in ("1", "0")]
        if ends[1] != LINK_FAILED:
            break
    tries.expect("a taken port", [LINK_FAILED, DONE], ends)


def from_port_0(tries):
    """An answer to port 0 can't be sent, and is lost; the server goes on."""
    port = free_port()
    words = [*tries.program, "node", "0", str(port), "asked", "2000"]
    with subprocess.Popen(words, stdout=subprocess.PIPE) as node:
        late = threading.Timer(60, node.kill)
        late.start()
        with contextlib.suppress(PermissionError):
            ask_from_port_0(port, node)
        output = node.stdout.read()
        ended = node.wait()
        late.cancel()
    tries.expect("asks from port 0", (DONE, b"turns 2000 taken "), (ended, output[:17]))


def ask_from_port_0(port, node):
    """Asks a server by datagrams of UDP that say they come from port 0."""
    asked = ask(1, 1, lookup(b"a"))
    datagram = struct.pack(">HHHH", 0, port, 8 + len(asked), 0) + asked
    with socket.socket(socket.AF_INET, socket.SOCK_RAW, socket.IPPROTO_UDP) as raw:
        for _ in range(20):
            raw.sendto(datagram, ("127.0.0.1", 0))
            time.sleep(0.05)
            if node.poll() is not None:
                break


def no_folder(tries):
    """No folder can be made where a file stands."""
    with open("file", "wb"):
        pass
    tries.expect_run("a file for a folder", ["node", "0", "4000", "file", "5"], DISK_FAILED, b"")


def main():
    if len(sys.argv) < 2:
        print(__doc__)
        return 1
    tries = Tries([os.path.abspath(sys.argv[1]), *sys.argv[2:]])
    with tempfile.TemporaryDirectory(prefix="harp-words-") as folder:
        os.chdir(folder)
        for part in (
            refused_words,
            reasons,
            files,
            same_sweep_again,
            one_line_too_many,
            refused_places,
            full_log,
            played_line_by_line,
            a_group,
            a_node,
            a_taken_port,
            from_port_0,
            no_folder,
        ):
            part(tries)
        os.chdir(TOP)
    print(f"words: {tries.tried} tried, {tries.failed} failed")
    return 0 if tries.failed == 0 else 1


if __name__ == "__main__":
    sys.exit(main())
