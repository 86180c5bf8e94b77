#!/usr/bin/env python3
"""Tries the edge of the built program: files that are no document of ours, ports, ends of connections, a full pipe.

    python3 tools/try_edge.py PROGRAM

Documents in which a record is missing, whose table has another layout, is a view, or is not there beside another
application's, and files that are none: each has to end the run with status 6 and to stay as it was. A new document has
small pages, is opened again, and one with SQLite's own page size is too; users that are not good leave no file. A port
whose last connection is out refuses who comes later; lines behind the end of a session do not reset its connection. A
server is watched whose standard error nobody reads, and one has too few descriptors for all of its lanes: each serves
all of its connections. Beside a connection that is reset at its first to its fourth line another one is written byte
for byte what it is written alone. Its status is 1 where anything differs.
"""
import json
import os
import resource
import socket
import sqlite3
import struct
import subprocess
import sys
import tempfile

from loopback import HOST, free_ports, joined
from scripts import OPEN, USER
from try_lanes import alone

PATIENCE = 30
OPENED = b'{"method":"openDoc","token":"ta"}\n'
SYNC = b'{"method":"sync"}\n'
CLOSE = b'{"method":"closeDoc"}\n'
LONG_LINES = 12  # Of 20,000 bytes each: together more than three pipes hold.
MAKE = "CREATE TABLE record (number INTEGER PRIMARY KEY, bytes BLOB NOT NULL) STRICT"
ADD_LINE = '{"actions":[["AddRecord","Table1",null,{"A":%d}]],"method":"applyUserActions"}'
ADD = '{"line":' + ADD_LINE + ',"session":"s1"}\n'


def run(program, folder, script):
    """The status of a run over the document `book` in that folder, and what it wrote."""
    words = [program, "replay", "--doc", "book"]
    ran = subprocess.run(words, input=(USER + script).encode(), cwd=folder, capture_output=True, timeout=PATIENCE)
    return ran.returncode, ran.stdout


def changed(folder, *statements):
    """Runs statements over the document, as another program would."""
    with sqlite3.connect(os.path.join(folder, "book.grist"), isolation_level=None) as base:
        for statement in statements:
            base.execute(statement)
    base.close()


def contents(folder):
    """What the tables of the document hold, by SQLite itself; the bytes where it is no database."""
    path = os.path.join(folder, "book.grist")
    try:
        base = sqlite3.connect(f"file:{path}?mode=ro", uri=True)
        told = [line for line in base.iterdump()]
        base.close()
        return told
    except sqlite3.DatabaseError:
        with open(path, "rb") as file:
            return file.read()


def refused(program, what, *statements, bundles=3):
    """Whether a document that was changed so is refused, and stays as it was."""
    with tempfile.TemporaryDirectory() as folder:
        if bundles:
            run(program, folder, OPEN + "".join(ADD % number for number in range(bundles)))
        changed(folder, *statements)
        before = contents(folder)
        status, written = run(program, folder, OPEN)
        if status != 6 or written:
            return f"{what}: status {status}"
        if contents(folder) != before:
            return f"{what}: the file was changed"
    return None


def strange_documents(program):
    """What is not refused of documents that are none of ours."""
    row = "number INTEGER PRIMARY KEY, bytes BLOB NOT NULL"
    yield refused(program, "a gap in the numbers", "DELETE FROM record WHERE number = 1")
    yield refused(program, "no first record", "DELETE FROM record WHERE number = 0")
    yield refused(program, "one more column", "DROP TABLE record", f"CREATE TABLE record ({row}, more TEXT NOT NULL) STRICT")
    yield refused(program, "no primary key", "DROP TABLE record", "CREATE TABLE record (number INTEGER, bytes BLOB NOT NULL) STRICT")
    yield refused(program, "a view", "ALTER TABLE record RENAME TO other", "CREATE VIEW record AS SELECT * FROM other")
    yield refused(program, "another application's", "CREATE TABLE people (name TEXT)", bundles=0)


def small_pages(program):
    """What is wrong with the pages of a new document, and with opening it and one with other pages."""
    with tempfile.TemporaryDirectory() as folder:
        status, first = run(program, folder, OPEN + ADD % 1)
        again, second = run(program, folder, OPEN)
        with open(os.path.join(folder, "book.grist"), "rb") as file:
            page = int.from_bytes(file.read(18)[16:18], "big")
        if (status, again, page) != (0, 0, 1024) or b'"A":[1]' not in second:
            return f"a new document: status {status}, then {again}, pages of {page} bytes"
        if os.path.exists(os.path.join(folder, "book.grist-new")):
            return "a new document: what it was begun with is there"
    with tempfile.TemporaryDirectory() as folder:
        changed(folder, "PRAGMA page_size = 4096", "PRAGMA journal_mode = WAL", MAKE)
        status, _ = run(program, folder, OPEN + ADD % 1)
        again, second = run(program, folder, OPEN)
        if (status, again) != (0, 0) or b'"A":[1]' not in second:
            return f"a document with greater pages: status {status}, then {again}"
    return None


def no_file(program):
    """What is wrong where a run ends before it has heard its users: it makes no file."""
    with tempfile.TemporaryDirectory() as folder:
        words = [program, "replay", "--doc", "book"]
        ran = subprocess.run(words, input=b'{"user":1}\n', cwd=folder, capture_output=True, timeout=PATIENCE)
        left = os.listdir(folder)
        return None if ran.returncode == 3 and not left else f"bad users: status {ran.returncode}, and {left}"


class Server:
    """A server of two lanes with a connection each."""

    def __init__(self, program, *words, **how):
        self.port = free_ports(2)
        with tempfile.TemporaryFile() as users:
            users.write(USER.encode())
            users.seek(0)
            asked = [program, "serve", "--lanes", "2", "--port", str(self.port), "--conns", "1", *words]
            self.run = subprocess.Popen(asked, stdin=users, stdout=subprocess.PIPE, **how)

    def __enter__(self):
        return self

    def __exit__(self, *fault):
        self.run.kill()
        self.run.wait()
        self.run.stdout.close()

    def link(self, lane):
        """A connection of a lane, and the lines that come there."""
        link = joined(self.port + lane, PATIENCE)
        return link, link.makefile("rb")

    def status(self):
        """How the server ends by itself."""
        return self.run.wait(PATIENCE)


def reply(link, line):
    """The reply to a line: what comes behind the changes. The empty text where none comes."""
    link[0].sendall(line)
    while True:
        came = link[1].readline()
        if not came or b'"seq"' not in came:
            return came


def unread_error(program):
    """What is wrong with a watched server whose standard error is a pipe that nobody reads."""
    add = {"actions": [["AddRecord", "Table1", None, {"B": "x" * 20_000}]], "method": "applyUserActions"}
    line = json.dumps(add).encode() + b"\n"
    with Server(program, "--watch", "l1c1", stderr=subprocess.PIPE) as server:
        links = [server.link(lane) for lane in (0, 1)]
        told = [reply(link, OPENED) for link in links]
        for _ in range(LONG_LINES):
            told += [reply(links[0], line), reply(links[1], SYNC)]
        for link, lines in links:
            lines.close()
            link.close()
        refused = [it for it in told if b'"ok"' not in it]
        status = server.status()
        server.run.stderr.close()
        return None if status == 0 and not refused else f"standard error unread: status {status}, {refused[:1]}"


def broken_neighbour(program):
    """What is wrong with a connection beside one that is reset behind so many of its lines."""
    own = [OPENED, (ADD_LINE % 1).encode() + b"\n", SYNC, CLOSE]
    for broken in range(1, 5):
        with Server(program) as server:
            (link, lines), (bad, bad_lines) = server.link(0), server.link(1)
            bad.sendall((OPENED + SYNC * 20)[:len(OPENED) + len(SYNC) * (broken - 1) - 5])
            bad.setsockopt(socket.SOL_SOCKET, socket.SO_LINGER, struct.pack("ii", 1, 0))
            bad_lines.close()
            bad.close()
            link.sendall(b"".join(own))
            told = lines.read()
            lines.close()
            link.close()
            status = server.status()
        if status != 0 or told != alone(program, *own):
            return f"beside a connection that is reset at line {broken}: status {status}, {told[:200]}"
    return None


def few_descriptors(program):
    """What is wrong with a server that has descriptors for its listeners and for one connection more."""
    # Linux takes the descriptor of a connection before it waits for one, so that one lane waits and the other tries again.
    def bounded():
        resource.setrlimit(resource.RLIMIT_NOFILE, (6, 6))

    with Server(program, preexec_fn=bounded) as server:
        links = [server.link(lane) for lane in (0, 1)]
        told = []
        for link, lines in links[::-1]:
            told.append(reply((link, lines), OPENED))
            lines.close()
            link.close()
        status = server.status()
        refused = [it for it in told if b'"ok"' not in it]
        return None if status == 0 and not refused else f"too few descriptors: status {status}, {refused[:1]}"


def last_connection(program):
    """What is wrong with the end of a connection and of its port."""
    with Server(program) as server:
        (link, lines), (other, no_lines) = server.link(0), server.link(1)
        link.sendall(OPENED + CLOSE + SYNC * 2000)
        told = lines.read()
        if told.count(b"\n") != 2:
            return f"behind the end of a session: {told.count(bytes([10]))} lines"
        try:
            socket.create_connection((HOST, server.port), timeout=PATIENCE).close()
            return "a port whose last connection is out takes another one"
        except ConnectionRefusedError:
            pass
        for end in (lines, link, no_lines, other):
            end.close()
        status = server.status()
        return None if status == 0 else f"a server: status {status}"


def fault_of(tried, program):
    """What is wrong with what was tried; a connection that ends or stands still is."""
    try:
        return tried(program)
    except (OSError, subprocess.TimeoutExpired) as fault:
        return f"{tried.__name__}: {fault!r}"


def main(program):
    tries = [small_pages, no_file, last_connection, broken_neighbour, unread_error, few_descriptors]
    found = [*strange_documents(program), *(fault_of(tried, program) for tried in tries)]
    faults = [it for it in found if it]
    for fault in faults:
        print(fault)
    print(f"edge: {len(found)} things were tried, {len(faults)} differ")
    return 1 if faults else 0


if __name__ == "__main__":
    sys.exit(main(os.path.abspath(sys.argv[1])))
