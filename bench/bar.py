#!/usr/bin/env python3
"""The work of the program, job by job, beside the one that was kept.

    python3 bench/bar.py PROGRAM             compares with bench/bar.tsv
    python3 bench/bar.py PROGRAM --write     writes bench/bar.tsv anew

Counts the instructions of each job by valgrind's callgrind, and the calls for memory. They are the
same on each run of one program, whatever else the machine does, so a job that takes a fiftieth more
than it took is told, with exit status 1. A job whose output isn't as long as it was is told too.
The last column is calls for memory for each of the job's updates, or calls where it has any.
"""

import os
import re
import struct
import subprocess
import sys
import tempfile

TABLE = os.path.join(os.path.dirname(os.path.abspath(__file__)), "bar.tsv")
HEAD = "job\tinstructions\tcalls for memory\tbytes written\tfor each update"
MARGIN = 1.02

OPENS = ["suspect 0", "pump", "advance 2050", "tick 0", "pump"]
ROOT = struct.pack(">I28x", 1)
LEFT = 0xFFFFFFFF
WRITE, CREATE, GETATTR, LOOKUP, MKDIR = 8, 9, 1, 4, 14


def text(lines):
    return ("\n".join(lines) + "\n").encode()


def made(count):
    """A schedule of so many directories, each brought to the partner and answered."""
    lines = list(OPENS)
    for n in range(1, count + 1):
        name = (b"d%d" % n).hex()
        lines += [f"ask 0 7 {n} mkdir 1 {name} 755", "pump"]
    return text(lines)


def written(count):
    """A schedule of one file, and so many writes of 8 kB."""
    data = bytes(range(256)) * 32
    lines = [*OPENS, "ask 0 7 1 create 1 66 644", "pump"]
    for n in range(count):
        lines += [f"ask 0 7 {n + 2} write 2 {8192 * (n % 64)} {data.hex()}", "pump"]
    return text(lines)


def counted(data):
    return struct.pack(">I", len(data)) + data + bytes(-len(data) % 4)


def record(xid, procedure, arguments):
    call = struct.pack(">6I16x", xid, 0, 2, 100003, 2, procedure) + arguments
    return struct.pack(">I", (1 << 31) + len(call)) + call


def calls(count):
    """Calls of NFS over RPC, one in eight a write of 8 kB."""
    settings = struct.pack(">8I", 0o755, *[LEFT] * 7)
    handle = struct.pack(">I28x", 2)
    some = [
        (LOOKUP, ROOT + counted(b"f")),
        (GETATTR, handle),
        None,
        (GETATTR, ROOT),
        (LOOKUP, ROOT + counted(b"none")),
        (GETATTR, handle),
        (LOOKUP, ROOT + counted(b"f")),
    ]
    stream = [record(0, CREATE, ROOT + counted(b"f") + settings)]
    for n in range(1, count):
        if n % 8 == 0:
            at = struct.pack(">3I", 0, 8192 * (n // 8 % 64), 8192)
            stream.append(record(n, WRITE, handle + at + counted(bytes([n % 256]) * 8192)))
            continue
        call = some[n % 8 - 1] or (MKDIR, ROOT + counted(b"d%d" % n) + settings)
        stream.append(record(n, *call))
    return b"".join(stream)


def jobs(program):
    """Each job: its name, its words, what it reads, and its updates or calls."""
    drawn = run([program, "gen", "7000", "4000"], b"")
    directories, blocks = made(2000), written(250)
    yield "gen", ["gen", "7000", "4000"], b"", 0
    yield "play drawn steps", ["play"], drawn, 0
    yield "play 2,000 mkdirs", ["play"], directories, 2000
    yield "play 250 writes of 8 kB", ["play"], blocks, 250
    yield "check drawn steps", ["check"], run([program, "play"], drawn), 0
    yield "check 2,000 mkdirs", ["check"], run([program, "play"], directories), 2000
    yield "check 250 writes of 8 kB", ["check"], run([program, "play"], blocks), 250
    yield "sweep", ["sweep", "7000", "20", "400"], b"", 0
    yield "door play, 2,000 calls", ["door", "play", "0", "0"], calls(2000), 2000


def run(words, given):
    done = subprocess.run(words, input=given, stdout=subprocess.PIPE, check=False)
    if done.returncode not in (0, 1):
        sys.exit(f"bar: {' '.join(words[1:])} ended with status {done.returncode}")
    return done.stdout


def counts(words, given):
    """Instructions, calls for memory, and bytes written of a program's run."""
    with tempfile.TemporaryDirectory(prefix="harp-bar-") as folder:
        told = os.path.join(folder, "told")
        valgrind = ["valgrind", "--tool=callgrind", f"--callgrind-out-file={told}", "-q"]
        output = run([*valgrind, *words], given)
        with open(told, encoding="utf-8", errors="replace") as opened:
            return (*callgrind(opened.read()), len(output))


def callgrind(told):
    """The instructions in all, and how often the program's own functions for memory were called."""
    instructions = int(re.search(r"^summary: (\d+)", told, re.M)[1])
    numbers = set(re.findall(r"fn=\((\d+)\) rattle_(?:re)?alloc$", told, re.M))
    asked, callee = 0, None
    for line in told.splitlines():
        if line.startswith("cfn="):
            callee = re.match(r"cfn=\((\d+)\)", line)[1]
        elif line.startswith("calls=") and callee in numbers:
            asked += int(re.match(r"calls=(\d+)", line)[1])
    return instructions, asked


def measured(program):
    for name, words, given, number in jobs(program):
        instructions, asked, length = counts([program, *words], given)
        each = f"{asked / number:.1f}" if number else "-"
        yield name, [instructions, asked, length], each


def kept():
    with open(TABLE, encoding="utf-8") as opened:
        rows = [line.split("\t") for line in opened.read().splitlines()[1:]]
    return {row[0]: [int(number) for number in row[1:4]] for row in rows}


def faults(name, now, before):
    """What a job takes more of than it took, and whether it wrote something else."""
    if before is None:
        return [f"{name}: the table has no such job"]
    told = []
    for what, new, old in zip(("instructions", "calls for memory"), now, before):
        if new > MARGIN * old:
            told.append(f"{name}: {new:,} {what}, and it was {old:,}")
    if now[2] != before[2]:
        told.append(f"{name}: {now[2]:,} bytes are written, and it was {before[2]:,}")
    return told


def main():
    if len(sys.argv) not in (2, 3) or sys.argv[2:] not in ([], ["--write"]):
        print(__doc__)
        return 2
    before = {} if sys.argv[2:] else kept()
    rows, told = [HEAD], []
    for name, now, each in measured(sys.argv[1]):
        rows.append("\t".join([name, *map(str, now), each]))
        print(rows[-1], flush=True)
        told += [] if sys.argv[2:] else faults(name, now, before.get(name))
    if sys.argv[2:]:
        with open(TABLE, "w", encoding="utf-8") as opened:
            opened.write("\n".join(rows) + "\n")
    print(*told, sep="\n", end="\n" if told else "")
    return 1 if told else 0


if __name__ == "__main__":
    sys.exit(main())
