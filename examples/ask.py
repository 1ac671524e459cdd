#!/usr/bin/env python3
"""Asks a group on this machine one call, and prints which server answered, and what.

    python3 examples/ask.py PORT mkdir NAME     makes a directory in the root
    python3 examples/ask.py PORT lookup NAME    looks for a name in the root
    python3 examples/ask.py PORT list           lists the root

PORT is the port of server 0. It goes from server to server until one answers.
"""

import sys

sys.dont_write_bytecode = True
from nodes import NODE, Clients, Wrong, listed, lookup, mkdir, node_in

REFUSED = 0


def told(reply):
    """A reply in words."""
    if reply[0] == REFUSED:
        return f"no {reply[1]}"
    return f"object {node_in(reply)}" if reply[0] == NODE else reply.hex()


def main():
    words = sys.argv[2:]
    try:
        clients = Clients(int(sys.argv[1]), 1)
        if words == ["list"]:
            lines = [f"{number} {name.decode()}" for name, number in listed(clients).items()]
            answer = "\n".join([f"{len(lines)} entries", *lines])
        else:
            procedure = {"mkdir": mkdir, "lookup": lookup}[words[0]]
            answer = told(clients.replies([procedure(words[1].encode())])[0])
    except (IndexError, KeyError, ValueError):
        print(__doc__)
        return 1
    except Wrong as fault:
        print(fault)
        return 1
    print(f"server {clients.clients[0].leader}: {answer}")
    return 0


if __name__ == "__main__":
    sys.exit(main())
