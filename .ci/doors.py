#!/usr/bin/env python3
"""Gives the streams of clients to the program that was built, as to a door of a group.

    python3 .ci/doors.py PROGRAM [WORD..]

runs `PROGRAM WORD.. ..` with the words of each `.ci/cases/doors/*.words` behind their status, gives
it the bytes of `*.stdin`, and compares what it writes with `*.stdout`; a file whose name ends with
`.gz` is packed. Of words of running servers, `PORT` stands for a free port, in a new folder. It waits
for the answer to each of a few calls before it sends the next one. And some of the streams of a
played group are sent to running servers too, which give the same answers but for the times.

It prints what goes wrong, and how many were tried. The exit status is 0 where all is well, else 1.
"""

import glob
import gzip
import os
import subprocess
import sys
import tempfile
import threading
from concurrent.futures import ThreadPoolExecutor

sys.dont_write_bytecode = True
TOP = os.path.dirname(os.path.dirname(os.path.abspath(__file__)))
CASES = os.path.join(TOP, ".ci", "cases", "doors")
SECONDS = 110

sys.path.insert(0, os.path.join(TOP, "examples"))
from nodes import free_port

ATTEMPTS, LINK_FAILED = 20, 8

# Streams of a played group that running servers answer too, with times of their own.
RUN_TOO = ["calls_65", "create", "ends_in_record", "fragments", "getattr_of_each_kind", "link"]
RUN_TOO += ["readdir_pages", "readlink", "record_20001", "rename", "setattr", "write"]
PLAYED_TIME = (2).to_bytes(4, "big") + (50_000).to_bytes(4, "big")


def content(path):
    if os.path.exists(f"{path}.gz"):
        with gzip.open(f"{path}.gz", "rb") as file:
            return file.read()
    with open(path, "rb") as file:
        return file.read()


def cases(folder):
    """The name, the status, the words, the bytes that are read and those that are written."""
    for path in sorted(glob.glob(os.path.join(folder, "*.words"))):
        path = path.removesuffix(".words")
        status, *words = content(f"{path}.words").decode().split()
        streams = content(f"{path}.stdin"), content(f"{path}.stdout")
        yield os.path.basename(path), int(status), words, *streams


def records(stream):
    """The records of a stream, with their marks; each is one fragment."""
    while stream:
        length = 4 + int.from_bytes(stream[:4], "big") % 2**31
        yield stream[:length]
        stream = stream[length:]


def run(program, words, stream):
    """The status and the answers, at a free port in a new folder where the words have `PORT`."""
    for _ in range(ATTEMPTS):
        at_port = [str(free_port()) if word == "PORT" else word for word in words]
        with tempfile.TemporaryDirectory() as folder:
            ended = subprocess.run(
                [*program, *at_port],
                input=stream,
                capture_output=True,
                timeout=SECONDS,
                check=False,
                cwd=folder,
            )
        if "PORT" not in words or ended.returncode != LINK_FAILED:
            break
    return ended.returncode, ended.stdout


def as_wanted(program, status, words, stream, answers):
    return run(program, words, stream) == (status, answers)


def but_for_times(played, answers):
    """The answers, with the times of a played group where that gave them."""
    parts = played.split(PLAYED_TIME)
    at = len(parts[0])
    for part in parts[1:]:
        answers = answers[:at] + PLAYED_TIME + answers[at + len(PLAYED_TIME) :]
        at += len(PLAYED_TIME) + len(part)
    return answers


def as_played(program, status, words, stream, played):
    """Running servers answer as a played group does."""
    _, _, uid, gid = words
    ended, answers = run(program, ["door", uid, gid, "7", "PORT", "d", "100000"], stream)
    return (ended, but_for_times(played, answers)) == (status, played)


def one_by_one(program, status, words, stream, answers):
    """Each call is answered before the next one is sent."""
    with subprocess.Popen(
        [*program, *words], stdin=subprocess.PIPE, stdout=subprocess.PIPE
    ) as door:
        late = threading.Timer(SECONDS, door.kill)
        late.start()
        same = True
        for call, answer in zip(records(stream), records(answers), strict=True):
            door.stdin.write(call)
            door.stdin.flush()
            same = same and door.stdout.read(len(answer)) == answer
        door.stdin.close()
        ended = door.wait()
        late.cancel()
    return same and ended == status


def try_all(title, program, tries):
    """Tries each case by its test, prints what goes wrong, and gives the exit status."""
    failed = 0
    with ThreadPoolExecutor(os.cpu_count()) as pool:
        ends = [(test, case[0], pool.submit(test, program, *case[1:])) for test, case in tries]
        for test, name, end in ends:
            if not end.result():
                failed += 1
                print(f"{title}: {name}: not {test.__name__}")
    print(f"{title}: {len(tries)} tried, {failed} failed")
    return 0 if failed == 0 and len(tries) > 1 else 1


def main():
    if len(sys.argv) < 2:
        print(__doc__)
        return 1
    program = [os.path.abspath(sys.argv[1]), *sys.argv[2:]]
    found = list(cases(CASES))
    tries = [(as_wanted, case) for case in found]
    tries += [(one_by_one, case) for case in found if case[0] == "create"]
    tries += [(as_played, case) for case in found if case[0] in RUN_TOO]
    return try_all("doors", program, tries)


if __name__ == "__main__":
    sys.exit(main())
