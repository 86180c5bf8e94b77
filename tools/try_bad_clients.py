#!/usr/bin/env python3
"""Plays clients that do what none should against a built server, beside one that does its work.

    tools/try_bad_clients.py PROGRAM

Starts `PROGRAM serve` on ports of 127.0.0.1 that nobody uses. One client says nothing and goes; others send half a
line, three megabytes without a newline, and bytes that are no text; one resets its connection in the middle of the
replies, and one goes away without reading any; two open the document with one token. Each is answered as
docs/PROTOCOL.md says, and a client that adds rows all the while is told its own and all others' changes without a
gap. Then one of the ports is in use by another program: the other lane serves, and the status is 10. Its status is 1
where anything differs.
"""
import json
import pathlib
import socket
import struct
import subprocess
import sys
import tempfile
import threading

from loopback import free_ports, joined
from scripts import USER

PATIENCE = 60
OPEN = b'{"method":"openDoc","token":"ta"}\n'
ADD = b'{"actions":[["AddRecord","Table1",null,{"A":1}]],"method":"applyUserActions"}\n'
BAD_LINE = {"error": {"code": 1, "name": "BadLine"}}
TOO_LONG = {"error": {"code": 2, "name": "LineTooLong"}}


def told(link):
    """The lines that the server writes until it closes the connection."""
    with link.makefile("rb") as lines:
        return [json.loads(line) for line in lines]


def says(port, sent):
    """Sends bytes, and what is answered until the end."""
    link = joined(port)
    link.sendall(sent)
    link.shutdown(socket.SHUT_WR)
    return told(link)


def resets(port):
    """Asks for much, reads a little, and resets the connection."""
    link = joined(port)
    link.sendall(OPEN + ADD * 200)
    link.recv(512)
    link.setsockopt(socket.SOL_SOCKET, socket.SO_LINGER, struct.pack("ii", 1, 0))
    link.close()


def leaves(port):
    """Asks for much, and goes without a look at the answers."""
    link = joined(port)
    link.sendall(OPEN + ADD * 200)
    link.close()


def works(port, faults, ended):
    """Adds rows until all others have ended; each reply is good, and changes are numbered without a gap."""
    link = joined(port)
    with link.makefile("rb") as lines:
        link.sendall(OPEN)
        if "ok" not in json.loads(lines.readline()):
            faults.append("the document was not opened")
        number, rounds = 0, 0
        while rounds < 50 or not ended.is_set():
            link.sendall(ADD)
            rounds += 1
            while True:
                line = json.loads(lines.readline())
                if "seq" not in line:
                    break
                number += 1
                if line["seq"] != number:
                    faults.append(f"change {number} has the number {line['seq']}")
            if "bundle" not in (line.get("ok") or {}):
                faults.append(f"a good request was answered {line}")
    link.close()


def started(program, folder, lanes, first):
    words = [program, "serve", "--lanes", str(lanes), "--port", str(first), "--conns", "1"]
    server = subprocess.Popen(words, stdin=subprocess.PIPE, stdout=subprocess.PIPE, cwd=folder)
    server.stdin.write(USER.encode())
    server.stdin.close()
    return server


def ended(server):
    line = server.stdout.read().decode()
    return server.wait(PATIENCE), json.loads(line) if line else None


def bad_clients(program, folder, faults):
    first = free_ports(8)
    server, done = started(program, folder, 8, first), threading.Event()
    worker = threading.Thread(target=works, args=(first, faults, done))
    worker.start()
    want = [
        ("nothing", says(first + 1, b""), lambda lines: lines == []),
        ("half a line", says(first + 2, OPEN[:20]), lambda lines: lines == [BAD_LINE]),
        ("no newline", says(first + 3, b"x" * 3_000_000), lambda lines: lines == [TOO_LONG]),
        ("no text", says(first + 4, b"\xff\xfe\x00\n" + OPEN), lambda lines: lines[0] == BAD_LINE and "ok" in lines[1]),
        ("one token twice", says(first + 5, OPEN + ADD), lambda lines: "ok" in lines[0] and "bundle" in lines[-1]["ok"]),
    ]
    faults += [f"{name}: {lines}" for name, lines, is_right in want if not is_right(lines)]
    resets(first + 6)
    leaves(first + 7)
    done.set()
    worker.join(PATIENCE)
    status, summary = ended(server)
    if status != 0 or summary["connections"] != 8:
        faults.append(f"status {status}, told {summary}")


def port_in_use(program, folder, faults):
    first = free_ports(2)
    with socket.socket() as other:
        other.setsockopt(socket.SOL_SOCKET, socket.SO_REUSEADDR, 1)
        other.bind(("127.0.0.1", first + 1))
        other.listen()
        server = started(program, folder, 2, first)
        lines = says(first, OPEN + ADD)
        status, summary = ended(server)
    if "bundle" not in lines[-1]["ok"] or status != 10 or summary != {"bundles": 1, "connections": 1, "entries": 3}:
        faults.append(f"a port in use: status {status}, told {summary}, answered {lines}")


def main(program):
    program, faults = str(pathlib.Path(program).resolve()), []
    with tempfile.TemporaryDirectory() as folder:
        bad_clients(program, folder, faults)
        port_in_use(program, folder, faults)
    for fault in faults:
        print(fault)
    print(f"{len(faults)} faults")
    return 1 if faults else 0


if __name__ == "__main__":
    if len(sys.argv) != 2:
        sys.exit(__doc__)
    sys.exit(main(sys.argv[1]))
