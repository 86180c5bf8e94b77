#!/usr/bin/env python3
"""Tries the lanes of a built server: that they run at the same time, what each is written, and what is told at the end.

    python3 tools/try_lanes.py PROGRAM

Starts `PROGRAM serve` on ports of 127.0.0.1 that nobody uses. Two connections each say their second line only once
the other was answered, so both are answered where lanes run at the same time, and neither where one is served after
the other. Sessions that change nothing are written what `PROGRAM replay` gives one alone; two that write at the same
time are each written what it gives for the requests of both in one order. Two that add a record each are counted, and
so are their requests. A session that lags is told so and ends. Words of no form serve nobody. Its status is 1 where
anything differs.
"""
import json
import pathlib
import subprocess
import sys
import threading

from loopback import PATIENCE, Server
from scripts import USER

OPEN = b'{"method":"openDoc","token":"ta"}\n'
SYNC = b'{"method":"sync"}\n'
ADD = b'{"actions":[["AddRecord","Table1",null,{"A":1}]],"method":"applyUserActions"}\n'
ADD_OF = b'{"actions":[["AddRecord","Table1",null,{"A":%d}]],"method":"applyUserActions"}\n'
CHANGES = [b'{"actions":[["UpdateRecord","Table1",1,{"A":%d}]],"method":"applyUserActions"}\n' % value for value in (2, 1)]
CLOSE = b'{"method":"closeDoc"}\n'
LAGGED = b'{"error":{"code":21,"name":"Lagged"}}\n'


def replayed(program, frames):
    """What two sessions are written, by number, for these lines of theirs in this order."""
    text = "".join(json.dumps({"line": json.loads(line), "session": f"s{lane}"}) + "\n" for lane, line in frames)
    ran = subprocess.run([program, "replay"], input=USER + text, capture_output=True, text=True, timeout=PATIENCE)
    own = [b"", b""]
    for frame in map(json.loads, ran.stdout.splitlines()):
        own[int(frame["session"][1:])] += json.dumps(frame["line"], separators=(",", ":"), sort_keys=True).encode() + b"\n"
    return own


def alone(program, *lines):
    """What a session is written that has these lines for itself."""
    return replayed(program, [(0, line) for line in lines])[0]


def meeting(program):
    """Whether two connections are both answered that wait for one another, each as if it was alone."""
    server = Server(program)
    try:
        given = [server.ask(0, OPEN), server.ask(1, OPEN)]
        for line in (SYNC, CLOSE):
            for lane in (1, 0):
                given[lane] += server.ask(lane, line)
        told = server.end()
    except (OSError, subprocess.TimeoutExpired) as fault:
        return f"lanes do not run at the same time: {fault}"
    finally:
        server.stop()
    if given != [alone(program, OPEN, SYNC, CLOSE)] * 2:
        return f"a session is written {given}"
    return None if told == (b'{"bundles":0,"connections":2,"entries":6}\n', 0) else f"the server told {told}"


def counting(program):
    """Whether bundles, connections and requests are counted."""
    server = Server(program)
    try:
        for lane in (0, 1):
            for line in (OPEN, ADD, CLOSE):
                if b'"ok"' not in server.ask(lane, line).splitlines()[-1]:
                    return f"{line} is refused"
        told = server.end()
    finally:
        server.stop()
    return None if told == (b'{"bundles":2,"connections":2,"entries":6}\n', 0) else f"the server told {told}"


def lagging(program):
    """Whether a session that asks for nothing while another adds a row and changes it 4,096 times is told 4,096 lines and that it lags, and ends."""
    server = Server(program)
    try:
        server.ask(1, OPEN)
        server.ask(0, OPEN)
        server.ask(0, ADD)
        for change in CHANGES * 2_048:
            server.ask(0, change)
        told = server.ask(1, SYNC + SYNC)
        behind = server.lines[1].readline()
        if b'"ok"' not in server.ask(0, CLOSE):
            return "who writes beside a session that lags is refused"
    except (OSError, subprocess.TimeoutExpired) as fault:
        return f"a session that lags is not answered: {fault}"
    finally:
        server.stop()
    lines = told.splitlines(keepends=True)
    if len(lines) != 4_097 or lines[-1] != LAGGED or behind:
        return f"a session that lags is told {len(lines)} lines, the last {lines[-1:]}, and then {behind}"
    return None


def sharing(program):
    """Whether two that write at the same time are each written what `PROGRAM replay` gives for their requests in one order."""
    server, written = Server(program), [b"", b""]
    asked = [[SYNC if number % 4 == 3 else ADD_OF % (10 * number + lane) for number in range(40)] for lane in (0, 1)]

    def writes(lane):
        for line in asked[lane]:
            written[lane] += server.ask(lane, line)

    try:
        written = [server.ask(lane, OPEN) for lane in (0, 1)]
        threads = [threading.Thread(target=writes, args=(lane,)) for lane in (0, 1)]
        for thread in threads:
            thread.start()
        for thread in threads:
            thread.join()
    except (OSError, subprocess.TimeoutExpired) as fault:
        return f"two that write are not answered: {fault}"
    finally:
        server.stop()
    # each request with how many bundles had been told to its session by its reply
    turns = []
    for lane in (0, 1):
        told, number = 0, 0
        for line in written[lane].splitlines()[1:]:
            if b'"seq"' in line:
                told += 1
            else:
                turns.append((told, asked[lane][number] == SYNC, lane, asked[lane][number]))
                number += 1
    order = sorted(turns, key=lambda turn: turn[:2])
    frames = [(lane, OPEN) for lane in (0, 1)] + [(lane, line) for _, _, lane, line in order]
    given = replayed(program, frames)
    return None if given == written else "two that write at the same time are not written what one order gives"


def no_form(program):
    """Whether words of no form serve nobody."""
    words = [program, "serve", "--lanes", "0", "--port", "4000", "--conns", "1"]
    ran = subprocess.run(words, input=USER.encode(), capture_output=True, timeout=PATIENCE)
    return None if (ran.returncode, ran.stdout) == (2, b"") else f"status {ran.returncode}"


def main(program):
    program = str(pathlib.Path(program).resolve())
    faults = [fault for fault in (meeting(program), counting(program), sharing(program), lagging(program), no_form(program)) if fault]
    for fault in faults:
        print(fault)
    print(f"lanes: {5 - len(faults)} passed, {len(faults)} failed")
    return 1 if faults else 0


if __name__ == "__main__":
    if len(sys.argv) != 2:
        sys.exit(__doc__)
    sys.exit(main(sys.argv[1]))
