#!/usr/bin/env python3
"""Gives observed schedules to the program that was built, and compares what it writes.

    python3 .ci/observed.py PROGRAM [WORD..]

runs `PROGRAM WORD.. ..` with the words of each `.ci/cases/observed/*.words` behind their status,
gives it the bytes of `*.stdin`, and compares what it writes with `*.stdout`; a file whose name ends
with `.gz` is packed. The words are `observe`; a few are `play` and `check`, which know none of the
lines of an observer.

It prints what goes wrong, and how many were tried. The exit status is 0 where all is well, else 1.
"""

import os
import sys

sys.dont_write_bytecode = True
sys.path.insert(0, os.path.dirname(os.path.abspath(__file__)))
from doors import TOP, as_wanted, cases, try_all

CASES = os.path.join(TOP, ".ci", "cases", "observed")


def main():
    if len(sys.argv) < 2:
        print(__doc__)
        return 1
    program = [os.path.abspath(sys.argv[1]), *sys.argv[2:]]
    return try_all("observed", program, [(as_wanted, case) for case in cases(CASES)])


if __name__ == "__main__":
    sys.exit(main())
