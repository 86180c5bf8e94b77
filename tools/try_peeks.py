#!/usr/bin/env python3
"""Tries the peeks of a built server: what they are answered, that they need no turn, and which history they show.

    python3 tools/try_peeks.py PROGRAM

Starts `PROGRAM serve` on ports of 127.0.0.1 that nobody uses. Two connections that peek are written what is worked
out by hand here, and their peeks are no entries. A lane whose watcher, a socket, takes nothing holds its turn: one
that asks for a turn meanwhile is not answered, and one that peeks is. And four lanes write and peek at the same time,
beside one that hears all they changed, in its order: each peek shows what some first of these changes led to, never
fewer than the one before it on its connection, and the own changes before it among them. Its status is 1 where
anything differs.
"""
import json
import pathlib
import socket
import subprocess
import sys
import threading

from loopback import PATIENCE, Server
from scripts import USER, user

WRITERS = 4
TIMES = 25
HELD = 1.0  # For so many seconds nothing comes where a turn is waited for.


def line(**members):
    return json.dumps(members).encode() + b"\n"


def opening(token):
    return line(method="openDoc", token=token)


def peek(table):
    return line(method="peekTable", table=table)


def adding(*actions):
    return line(method="applyUserActions", actions=list(actions))


SYNC = line(method="sync")
CLOSE = line(method="closeDoc")


def added(table, **types):
    """The action that tells of a table without formulas."""
    infos = ",".join(f'{{"formula":"","id":"{id}","isFormula":false,"type":"{kind}"}}' for id, kind in types.items())
    return f'["AddTable","{table}",[{infos}]]'


NEW_TABLE = added("Table1", A="Any", B="Any", C="Any")
OF_OWNERS = [
    added("_grist_ACLResources", colIds="Text", tableId="Text"),
    added("_grist_ACLRules", aclFormula="Text", memo="Text", permissionsText="Text",
          resource="Ref:_grist_ACLResources", rulePos="Int", userAttributes="Text"),
]
ONE_ROW = '["BulkAddRecord","Table1",[1],{"A":[5],"B":[null],"C":[null]}]'


def reply(*actions):
    return f'{{"ok":{{"actions":[{",".join(actions)}]}}}}\n'.encode()


# A token, what comes, and what is written.
OF_ED = ("te", [
    (opening("te"), reply(NEW_TABLE)),
    (peek("Table1"), reply(NEW_TABLE)),
    (CLOSE, b'{"ok":null}\n'),
], b'{"bundles":0,"connections":1,"entries":2}\n')
OF_ANN = ("ta", [
    (peek("Table1"), b'{"error":{"code":3,"name":"NotOpen"}}\n'),
    (opening("ta"), reply(NEW_TABLE, *OF_OWNERS)),
    (adding(["AddRecord", "Table1", None, {"A": 5}]),
     f'{{"actions":[{ONE_ROW}],"seq":1}}\n{{"ok":{{"bundle":1,"retValues":[1]}}}}\n'.encode()),
    (peek("Table1"), reply(NEW_TABLE, ONE_ROW)),
    (peek("Nope"), b'{"error":{"code":6,"name":"NoSuchTable"}}\n'),
    (CLOSE, b'{"ok":null}\n'),
], b'{"bundles":1,"connections":1,"entries":3}\n')


def by_hand(program, token, lines, end):
    """Whether one connection is written what is worked out."""
    server = Server(program, 1, USER + user("te", "editors", 2, "Ed"))
    try:
        for asked, wanted in lines:
            given = server.ask(0, asked)
            if given != wanted:
                return f"{asked} is answered {given}"
        told = server.end()
    finally:
        server.stop()
    return None if told == (end, 0) else f"the server told {told}"


def is_quiet(link):
    """Whether nothing comes for a while."""
    link.settimeout(HELD)
    try:
        link.recv(1, socket.MSG_PEEK)
        return False
    except TimeoutError:
        return True
    finally:
        link.settimeout(PATIENCE)


def read_away(end):
    end.settimeout(None)
    while end.recv(65_536):
        pass


def beside_a_turn(program):
    """Whether a peek is answered while another lane holds the turn, since its watcher takes nothing."""
    ours, theirs = socket.socketpair()
    theirs.setsockopt(socket.SOL_SOCKET, socket.SO_SNDBUF, 4_096)
    server = Server(program, 3, words=("--watch", "l1c1"), told=theirs)
    theirs.close()
    try:
        for lane in range(3):
            server.ask(lane, opening("ta"))
        server.links[0].sendall(adding(["BulkAddRecord", "Table1", [None] * 5_000, {"A": ["x" * 100] * 5_000}]))
        ours.settimeout(PATIENCE)
        ours.recv(1, socket.MSG_PEEK)  # The watcher is told, so the turn is held.
        server.links[2].sendall(SYNC)
        if not is_quiet(server.links[2]):
            return "a lane that waits for a watcher holds no turn"
        before = server.ask(1, peek("Table1"))
        if before != reply(NEW_TABLE):
            return f"beside a turn a peek is answered {before[:80]}"
        if not is_quiet(server.links[2]):
            return "the turn was given back before the peek was answered"
        threading.Thread(target=read_away, args=(ours,), daemon=True).start()
        if b'"ok"' not in server.answer(0) or b'"ok"' not in server.answer(2):
            return "a lane is not answered once the watcher reads"
        server.ask(1, SYNC)
        after = json.loads(server.ask(1, peek("Table1")))["ok"]["actions"]
        if len(after) != 2 or len(after[1][2]) != 5_000:
            return "a peek does not show what its session was told"
        for lane in range(3):
            server.ask(lane, CLOSE)
        told = server.end()
    except (OSError, subprocess.TimeoutExpired) as fault:
        return f"a peek waits for a turn: {fault}"
    finally:
        server.stop()
    return None if told == (b'{"bundles":1,"connections":3,"entries":9}\n', 0) else f"the server told {told}"


def cells_in(actions):
    """The value of A by its row, after these changes of the new document."""
    cells = {}
    for action in actions:
        if action[0] == "BulkAddRecord":
            cells.update(zip(action[2], action[3]["A"]))
    return cells


def write_and_peek(server, lane, seen):
    """Adds rows and peeks, each in turn, and notes what is shown."""
    server.ask(lane, opening("ta"))
    for number in range(TIMES):
        server.ask(lane, adding(["AddRecord", "Table1", None, {"A": lane * 1_000 + number}]))
        seen.append(cells_in(json.loads(server.ask(lane, peek("Table1")))["ok"]["actions"]))


def is_in_order(lane, seen, states):
    """Whether what a connection saw are such states, one after the other, each with its own changes."""
    last = 0
    for number, cells in enumerate(seen):
        own = [value for value in cells.values() if value // 1_000 == lane]
        if len(cells) < last or cells != states[len(cells)] or own != [lane * 1_000 + one for one in range(number + 1)]:
            return False
        last = len(cells)
    return len(seen) == TIMES


def first_changes(program):
    """Whether each peek shows the first of the changes that all lanes made."""
    server = Server(program, WRITERS + 1)
    seen = [[] for _ in range(WRITERS)]
    try:
        server.ask(WRITERS, opening("ta"))
        writers = [threading.Thread(target=write_and_peek, args=(server, lane, seen[lane])) for lane in range(WRITERS)]
        for one in writers:
            one.start()
        for one in writers:
            one.join()
        heard = server.ask(WRITERS, SYNC).splitlines()[:-1]
        for lane in range(WRITERS + 1):
            server.ask(lane, CLOSE)
        told = server.end()
    finally:
        server.stop()
    states = [{}]
    for one in heard:
        states.append(states[-1] | cells_in(json.loads(one)["actions"]))
    if len(states) != WRITERS * TIMES + 1:
        return f"{len(states) - 1} changes were heard"
    if not all(is_in_order(lane, seen[lane], states) for lane in range(WRITERS)):
        return "a peek shows what no first of the changes led to, or older than was seen"
    entries = (WRITERS + 1) * 2 + WRITERS * TIMES + 1
    wanted = f'{{"bundles":{WRITERS * TIMES},"connections":{WRITERS + 1},"entries":{entries}}}\n'.encode()
    return None if told == (wanted, 0) else f"the server told {told}"


def main(program):
    program = str(pathlib.Path(program).resolve())
    found = [by_hand(program, *OF_ED), by_hand(program, *OF_ANN), beside_a_turn(program), first_changes(program)]
    faults = [fault for fault in found if fault]
    for fault in faults:
        print(fault)
    print(f"peeks: {len(found) - len(faults)} passed, {len(faults)} failed")
    return 1 if faults else 0


if __name__ == "__main__":
    if len(sys.argv) != 2:
        sys.exit(__doc__)
    sys.exit(main(sys.argv[1]))
