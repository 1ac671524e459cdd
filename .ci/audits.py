#!/usr/bin/env python3
"""Gives folders to the program that was built, and compares its verdicts and exit statuses.

    python3 .ci/audits.py PROGRAM [WORD..]

makes the folders of `.ci/cases/audits`, each in turn, and runs `PROGRAM WORD.. audit FOLDER` on it.
There a folder is

    == NAME STATUS [OTHER]      its name, the status, and the folder before it to which it is like
    FILE BYTES                  a file that it has, or has otherwise than OTHER
    FILE                        one that OTHER has, and it hasn't
    > LINE                      a line that is written; `> =` stands for all those of OTHER

where bytes are in hexadecimal, in pieces that `+` joins; a piece BYTE*N is a byte N times, and `-`
is no bytes. The bytes at the end of a line `block`, `slot` or `text` are written so too.

It prints what goes wrong, and how many were tried. The exit status is 0 where all is well, else 1.
"""

import os
import subprocess
import sys
import tempfile

TOP = os.path.dirname(os.path.dirname(os.path.abspath(__file__)))
CASES = os.path.join(TOP, ".ci", "cases", "audits")


def spelled(pieces):
    """Bytes in hexadecimal, of their pieces."""
    parts = [piece.partition("*") for piece in pieces.split("+")]
    return "".join(part * int(times or 1) for part, _, times in parts)


def line_of(text):
    words = text.split(" ")
    if words[0] in ("block", "slot", "text"):
        words[-1] = spelled(words[-1])
    return " ".join(words) + "\n"


class Folder:
    """What a folder has, and what an audit says of it."""

    def __init__(self, name, status, other):
        self.name, self.status = name, int(status)
        self.files = dict(other.files) if other else {}
        self.lines, self.others = [], other.lines if other else []

    def read(self, line):
        name, _, rest = line.partition(" ")
        if line == "> =":
            self.lines = self.others
        elif name == ">":
            self.lines.append(line_of(rest))
        elif rest:
            self.files[name] = b"" if rest == "-" else bytes.fromhex(spelled(rest))
        else:
            del self.files[name]

    def made(self, path):
        os.mkdir(path)
        for name, content in self.files.items():
            with open(os.path.join(path, name), "wb") as file:
                file.write(content)


def folders():
    found = {}
    with open(CASES, encoding="utf-8") as opened:
        for line in opened.read().splitlines():
            if line.startswith("== "):
                name, status, *other = line.split()[1:]
                found[name] = last = Folder(name, status, *[found[it] for it in other] or [None])
            else:
                last.read(line)
    return list(found.values())


def main():
    if len(sys.argv) < 2:
        print(__doc__)
        return 1
    program = [os.path.abspath(sys.argv[1]), *sys.argv[2:]]
    tried = failed = 0
    with tempfile.TemporaryDirectory(prefix="harp-audits-") as place:
        for folder in folders():
            path = os.path.join(place, folder.name)
            folder.made(path)
            ended = subprocess.run(
                [*program, "audit", path], capture_output=True, timeout=110, check=False
            )
            tried += 1
            if (ended.returncode, ended.stdout) != (folder.status, "".join(folder.lines).encode()):
                failed += 1
                print(f"audits: {folder.name}: ended with {ended.returncode} for {folder.status}, "
                      f"or wrote otherwise: {ended.stdout[:200]}")
    print(f"audits: {tried} tried, {failed} failed")
    return 0 if failed == 0 and tried > 0 else 1


if __name__ == "__main__":
    sys.exit(main())
