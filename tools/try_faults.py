#!/usr/bin/env python3
"""Lets each call of the built program's outside fail in turn, and looks at what is written then.

    python3 tools/try_faults.py PROGRAM [EVERY]

tools/outside.c, which is built with cc and loaded before the C library, lets one call of the program fail. Of a replay
that is each read of its input, which comes in pieces of seven bytes (status 4, and what the lines that came whole ask
for); each write of an output that is not gathered whole (status 5, and a front of it); each request for memory, it alone
or it and all behind it (status 7 and a front of the answer, or the whole answer). Over a file it is each request for
memory and each call of the disk: the next run then opens the document of the bundles that were accepted, and where the
disk failed a bundle is refused with 19 and the next one is kept. Of a server of two lanes it is each of the first reads
and writes of one connection, while the other is written byte for byte what it is written alone; accepting at one port
(status 10, and all else is served); and requests for memory.
With EVERY only each so many-th request for memory is refused. Its status is 1 where anything differs.
"""
import functools
import json
import os
import shutil
import socket
import subprocess
import sys
import tempfile
import time

from loopback import HOST, free_ports
from scripts import USER, ask, bundle, closing, formula, opening, update, user
from try_lanes import alone

PATIENCE = 60
SHIM = os.path.join(os.path.dirname(os.path.abspath(__file__)), "outside.c")
USERS = [user(), user("te", "editors", 2, "Ed")]
REQUESTS = [
    opening(), opening("s2", "te"), bundle(["AddRecord", "Table1", None, {"A": 1}]), "no\n",
    formula("Table1", "F", "$A + len(Table1.all)"), update("Table1", 1, "s2", A=5, B="x" * 40),
    bundle(["RemoveRecord", "Table1", 7]), ask("s2", method="undo", bundle=1), ask("s1", method="sync"),
    bundle(["AddTable", "T", [{"id": "R", "type": "Ref:Table1"}]], ["AddRecord", "T", None, {"R": 1}]),
    ask("s2", method="fetchTable", table="T"), closing(), ask("s2", method="sync"),
]
LONG = USERS + ["no\n"] * 1_200  # What is answered finds no room in what a run gathers.
LINES = [b'{"method":"openDoc","token":"ta"}\n'] + [b'{"method":"sync"}\n'] * 3 + [b'{"method":"closeDoc"}\n']
FIRST_CALLS = 8  # Of a connection: it reads and writes no more often than it has lines, and once at its end.


def script(lines):
    return "".join(lines).encode()


class Outside:
    """The program, beside what lets calls of it fail."""

    def __init__(self, program, folder):
        self.program, self.folder = program, folder
        self.shim = os.path.join(folder, "outside.so")
        subprocess.run(["cc", "-shared", "-fPIC", "-O2", "-o", self.shim, SHIM], check=True)

    def surroundings(self, outside, port=-1):
        """The environment in which that call fails, of a connection at that port."""
        return {**os.environ, "LD_PRELOAD": self.shim, "OUTSIDE": outside, "OUTSIDE_COUNT": self.count_file(),
                "OUTSIDE_PORT": str(port)}

    def count_file(self):
        return os.path.join(self.folder, "count")

    def run(self, came, outside=None, words=("replay",), folder=None):
        """The status of a run over these bytes and what it wrote."""
        env = self.surroundings(outside) if outside else None
        ran = subprocess.run([self.program, *words], input=came, cwd=folder or self.folder, env=env, timeout=PATIENCE,
                             stdout=subprocess.PIPE, stderr=subprocess.DEVNULL)
        return ran.returncode, ran.stdout

    def count(self, came, word, words=("replay",), folder=None):
        """How many calls of that kind a run makes."""
        self.run(came, f"{word} -1", words, folder)
        with open(self.count_file()) as file:
            return int(file.read())

    @functools.lru_cache(maxsize=None)
    def whole(self, came):
        """What is written for these bytes where nothing fails."""
        status, written = self.run(came)
        if status:
            raise SystemExit(f"the program ended with {status}")
        return written


def reads(outside):
    """Each read of the input fails in turn."""
    came = script(USERS + REQUESTS)
    for number in range(-(-len(came) // 7) + 2):
        is_past = number > -(-len(came) // 7)
        want = outside.whole(came[:came.rfind(b"\n", 0, number * 7) + 1])
        if outside.run(came, f"input {number}") != (0 if is_past else 4, want):
            yield f"read {number}: {outside.run(came, f'input {number}')}"


def writes(outside):
    """Each write of the output fails in turn."""
    came = script(LONG)
    want, fronts = outside.whole(came), []
    for number in range(outside.count(came, "output")):
        status, written = outside.run(came, f"output {number}")
        fronts.append(len(written))
        if status != 5 or not want.startswith(written):
            yield f"write {number}: status {status}, and {len(written)} bytes"
    if len(fronts) < 2 or fronts != sorted(set(fronts)) or fronts[0] != 0:
        yield f"the fronts that were written have {fronts} bytes"


def memory(outside, every):
    """Each request for memory is refused in turn, over a keeper in memory."""
    came = script(USERS + REQUESTS)
    want = outside.whole(came)
    for word in ("memory", "memories"):
        for number in range(0, outside.count(came, word), every):
            status, written = outside.run(came, f"{word} {number}")
            if (status, written) != (0, want) and not (status == 7 and is_front(written, want)):
                yield f"{word} {number}: status {status}, and {written[-200:]}"


class Kept:
    """Runs over a document in a file, in a folder of their own."""

    words = ("replay", "--doc", "book")
    bundles = [bundle(["AddRecord", "Table1", None, {"A": number, "B": "x" * 300 * number}]) for number in range(5)]
    script = script([*USERS, opening(), *bundles])

    def __init__(self, outside):
        self.outside = outside

    @functools.lru_cache(maxsize=None)
    def view(self, kept):
        """What a session is told that opens the document of the bundles with these places."""
        lines = [*USERS, opening(), *(self.bundles[place] for place in kept), opening("s2")]
        return self.outside.run(script(lines))[1].splitlines()[-1]

    def run(self, outside):
        """The status and the lines of a run that meets that fault, and what the next run tells."""
        with tempfile.TemporaryDirectory() as folder:
            status, written = self.outside.run(self.script, outside, self.words, folder)
            again, told = self.outside.run(script([*USERS, opening("s2")]), None, self.words, folder)
            return status, written.splitlines(), told if not again else f"status {again}"

    def count(self, word):
        with tempfile.TemporaryDirectory() as folder:
            return self.outside.count(self.script, word, self.words, folder)

    def fronts(self):
        """The views of each number of bundles, those in front."""
        return [self.view(tuple(range(count))) for count in range(len(self.bundles) + 1)]


def files(outside):
    """Each call of the disk fails in turn: the run ends before it has answered, or one bundle is refused with 19."""
    kept = Kept(outside)
    for number in range(kept.count("disk")):
        status, lines, told = kept.run(f"disk {number}")
        answers = [said for said in (json.loads(line)["line"] for line in lines[1:]) if "seq" not in said]
        places = tuple(place for place, answer in enumerate(answers) if "ok" in answer)
        codes = [answer["error"]["code"] for answer in answers if "error" in answer]
        if status == 6 and not lines:
            places = ()
        elif status not in (0, 6) or codes not in ([], [19]) or len(answers) != len(kept.bundles):
            yield f"disk {number}: status {status}, and {lines}"
        if told.strip() != kept.view(places):
            yield f"disk {number}: kept {places}, and the next run tells {told[:300]}"


def kept_memory(outside, every):
    """Each request for memory over a file is refused in turn: the next run opens the document of a front."""
    kept = Kept(outside)
    fronts = kept.fronts()
    for number in range(0, kept.count("memory"), every):
        status, lines, told = kept.run(f"memory {number}")
        accepted = sum(b'"ok":{' in line for line in lines[1:])
        if status not in (0, 7) or told.strip() not in fronts[accepted:]:
            yield f"memory {number} over a file: status {status}, {accepted} accepted, and the next run tells {told[:300]}"


class TwoLanes:
    """A server of two lanes, whose first one's connection meets a fault."""

    def __init__(self, outside, fault, connections=1):
        self.port = free_ports(2)
        with tempfile.TemporaryFile() as users:
            users.write(USER.encode())
            users.seek(0)
            words = [outside.program, "serve", "--lanes", "2", "--port", str(self.port),
                     "--conns", str(connections)]
            self.server = subprocess.Popen(words, stdin=users, stdout=subprocess.PIPE,
                                           env=outside.surroundings(fault, self.port))

    def joined(self, lane):
        """A connection to that lane; nothing where the server has ended."""
        until = time.monotonic() + PATIENCE
        while self.server.poll() is None and time.monotonic() < until:
            try:
                return socket.create_connection((HOST, self.port + lane), timeout=PATIENCE)
            except ConnectionRefusedError:
                time.sleep(0.01)
        return None

    def written(self, lane):
        """What that lane's connection is written, which sends all its lines at once."""
        link, came = self.joined(lane), b""
        if link is None:
            return came
        try:
            link.sendall(b"".join(LINES))
            link.shutdown(socket.SHUT_WR)
            while part := link.recv(65_536):
                came += part
        except OSError:
            pass
        link.close()
        return came

    def end(self):
        """The status, and what the server told at its end."""
        told, _ = self.server.communicate(timeout=PATIENCE)
        return self.server.returncode, told


def lanes(outside):
    """Each of the first reads and writes of one connection fails; the other is written all that it is alone."""
    want = alone(outside.program, *LINES)
    for word in ("comes", "goes"):
        for number in range(FIRST_CALLS):
            server = TwoLanes(outside, f"{word} {number}")
            first, second = server.written(0), server.written(1)
            status, told = server.end()
            if second != want or not is_front(first, want) or status or json.loads(told)["connections"] != 2:
                yield f"{word} {number}: status {status}, {first}, {second}, {told}"


def ports(outside):
    """Accepting fails for good, at once and behind a connection: the other lane is served, and all of it is told."""
    want = alone(outside.program, *LINES)
    for number in range(2):
        server = TwoLanes(outside, f"accepts {number}", 2)
        first = [server.written(0) for _ in range(number)]
        second = [server.written(1) for _ in range(2)]
        status, told = server.end()
        if first + second != [want] * (number + 2) or status != 10 or json.loads(told)["connections"] != number + 2:
            yield f"accepting {number}: status {status}, {first}, {second}, {told}"


def lanes_memory(outside, every):
    """Each request for memory of a server is refused in turn: a connection ends, or 7, and what is written is a front."""
    want = alone(outside.program, *LINES)
    server = TwoLanes(outside, "memory -1")
    server.written(0), server.written(1), server.end()
    with open(outside.count_file()) as file:
        count = int(file.read())
    for number in range(0, count, every):
        server = TwoLanes(outside, f"memory {number}")
        fronts = [server.written(lane) for lane in (0, 1)]
        status, told = server.end()
        if status not in (0, 7, 10) or not all(is_front(front, want) for front in fronts):
            yield f"memory {number} of a server: status {status}, {fronts}"


def is_front(written, want):
    return want.startswith(written) and (not written or written.endswith(b"\n"))


def main(program, every=1):
    if not shutil.which("cc"):
        print("faults: there is no C compiler here, so nothing was tried")
        return 0
    with tempfile.TemporaryDirectory() as folder:
        outside = Outside(os.path.abspath(program), folder)
        tries = [reads(outside), writes(outside), memory(outside, every), files(outside), kept_memory(outside, every),
                 lanes(outside), ports(outside), lanes_memory(outside, every)]
        faults = [fault for tried in tries for fault in tried]
    for fault in faults:
        print(fault)
    print(f"faults: {len(tries)} kinds were tried, {len(faults)} calls differ")
    return 1 if faults else 0


if __name__ == "__main__":
    sys.exit(main(sys.argv[1], *map(int, sys.argv[2:])))
