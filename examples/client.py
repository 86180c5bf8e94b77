#!/usr/bin/env python3
"""A client of a running server: opens the document, adds a row, prints what it is given.

    python3 examples/client.py PORT TOKEN [TABLE]

PORT is one of those on which `grist_main serve` listens on this machine, TOKEN that of a user line. The client
asks for one thing after the other and reads until the reply, which is a line with the key `ok` or `error`; each
other line is a change of the document, numbered by `seq`. Its status is 1 where a reply is an error.
"""
import json
import socket
import sys
import time

SECONDS = 30


def joined(port, patience):
    """A connection to the port, once the server listens there."""
    until = time.monotonic() + patience
    while True:
        try:
            return socket.create_connection(("127.0.0.1", port), timeout=patience)
        except ConnectionRefusedError:
            if time.monotonic() > until:
                raise
            time.sleep(0.05)


class Connection:
    """One connection, which is one session of the server."""

    def __init__(self, port, patience=SECONDS):
        self.socket = joined(port, patience)
        self.lines = self.socket.makefile("rb")

    def ask(self, request):
        """Sends a request; answers the changes that came before its reply, and the reply."""
        self.socket.sendall(json.dumps(request, separators=(",", ":")).encode() + b"\n")
        changes = []
        while True:
            line = self.lines.readline()
            if not line.endswith(b"\n"):
                raise EOFError("the server closed the connection before it replied")
            told = json.loads(line)
            if "seq" not in told:
                return changes, told
            changes.append(told)

    def close(self):
        self.lines.close()
        self.socket.close()


def main(port, token, table="Table1"):
    connection = Connection(int(port))
    asked = [
        {"method": "openDoc", "token": token},
        {"actions": [["AddRecord", table, None, {}]], "method": "applyUserActions"},
        {"method": "sync"},
        {"method": "closeDoc"},
    ]
    good = True
    for request in asked:
        changes, reply = connection.ask(request)
        for line in changes + [reply]:
            print(json.dumps(line))
        good = good and "ok" in reply
    connection.close()
    return 0 if good else 1


if __name__ == "__main__":
    if len(sys.argv) not in (3, 4):
        sys.exit(__doc__)
    sys.exit(main(*sys.argv[1:]))
