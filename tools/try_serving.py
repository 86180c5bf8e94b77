#!/usr/bin/env python3
"""Plays clients against a built server, all at once, and compares what each was given with the kept file.

    tools/try_serving.py PROGRAM [CLIENTS] [SECONDS] [PAUSE]

Starts `PROGRAM serve --doc NAME` with a lane a client on ports of 127.0.0.1 that nobody uses, and CLIENTS clients (40
unless told), whose users are an owner, an editor and a viewer in turn. For SECONDS (60 unless told) each adds rows,
changes some of them and takes some back, and rests PAUSE seconds (0 unless told) between; then all wait for one
another, ask for what they were not told yet, and close. Each client checks its own lines: one reply a request,
changes numbered from 1 without a gap, its own change among those of its request. At the end the bundles that the
server tells are those that were accepted and those that the file holds, its connections the clients and its entries
the requests. `PROGRAM replay --doc NAME` then opens the kept file for each user, and what it shows must be what each
client's lines come to. Its status is 1 where anything differs. After each quarter of the time it tells how many
requests there were and how much memory the server has.
"""
import json
import pathlib
import sqlite3
import subprocess
import sys
import tempfile
import threading
import time

from loopback import free_ports, joined

PATIENCE = 120
USERS = [("owners", "to"), ("editors", "te"), ("viewers", "tv")]


def user_lines():
    """The lines of the three users."""
    return "".join(
        json.dumps({"user": {"access": access, "email": f"{token}@x.org", "id": number, "name": access, "token": token}})
        + "\n"
        for number, (access, token) in enumerate(USERS, 1)
    )


class View:
    """What a user sees, by the changes that were told: for each table the cells of its rows."""

    def __init__(self):
        self.tables = {}

    def patch(self, actions):
        for name, table, *rest in actions:
            if name == "AddTable":
                self.tables[table] = {}
            elif name == "BulkRemoveRecord":
                for row in rest[0]:
                    del self.tables[table][row]
            elif name in ("BulkAddRecord", "BulkUpdateRecord"):
                for place, row in enumerate(rest[0]):
                    cells = {column: values[place] for column, values in rest[1].items()}
                    if name == "BulkAddRecord":
                        self.tables[table][row] = cells
                    else:
                        self.tables[table][row].update(cells)
            else:
                raise ValueError(f"{name} was told")


class Client(threading.Thread):
    """One session: what it asked, what it was told, and the view that this comes to."""

    def __init__(self, port, token, until, pause, meeting):
        super().__init__()
        self.port, self.token, self.until, self.pause, self.meeting = port, token, until, pause, meeting
        self.view, self.told, self.asked, self.accepted, self.faults = View(), 0, 0, 0, []

    def ask(self, request):
        """The reply, and the changes that came before it."""
        self.link.sendall(json.dumps(request).encode() + b"\n")
        self.asked += 1
        changes = []
        while True:
            line = self.lines.readline()
            if not line.endswith(b"\n"):
                raise EOFError("closed before the reply")
            told = json.loads(line)
            if "seq" not in told:
                self.accepted += "bundle" in (told.get("ok") or {})
                return told, changes
            self.told += 1
            if told["seq"] != self.told:
                self.faults.append(f"port {self.port}: change {self.told} has the number {told['seq']}")
            self.view.patch(told["actions"])
            changes += told["actions"]

    def run(self):
        try:
            self.link = joined(self.port, PATIENCE)
            self.lines = self.link.makefile("rb")
            self.play()
            self.link.close()
        except (OSError, EOFError, ValueError, KeyError, threading.BrokenBarrierError) as fault:
            self.faults.append(f"port {self.port}: {fault!r}")
            self.meeting.abort()

    def play(self):
        reply, _ = self.ask({"method": "openDoc", "token": self.token})
        self.view.patch(reply["ok"]["actions"])
        number = 0
        while time.monotonic() < self.until:
            self.edit(number)
            time.sleep(self.pause)
            number += 1
        self.meeting.wait(PATIENCE)
        self.ask({"method": "sync"})
        self.ask({"method": "closeDoc"})

    def edit(self, number):
        cells = {"A": number, "B": f"{self.port}.{number}"}
        reply, changes = self.ask({"actions": [["AddRecord", "Table1", None, cells]], "method": "applyUserActions"})
        mine = [a for a in changes if a[0] == "BulkAddRecord" and a[3].get("B") == [cells["B"]]]
        if ("ok" in reply) != (self.token != "tv") or ("ok" in reply) != (len(mine) == 1):
            self.faults.append(f"port {self.port}: request {number} was answered {reply}, its row told {len(mine)} times")
        if "ok" not in reply or number % 4:
            return
        bundle, row = reply["ok"]["bundle"], reply["ok"]["retValues"][0]
        self.must({"actions": [["UpdateRecord", "Table1", row, {"C": [["L"], "x", None][number % 3]}]], "method": "applyUserActions"})
        if not number % 8:
            self.must({"bundle": bundle + 1, "method": "undo"})

    def must(self, request):
        reply, _ = self.ask(request)
        if "ok" not in reply:
            self.faults.append(f"port {self.port}: {request} was answered {reply}")


def kept_view(program, folder, token):
    """What a user is shown of the kept document."""
    script = user_lines() + json.dumps({"line": {"method": "openDoc", "token": token}, "session": "s1"}) + "\n"
    words = [program, "replay", "--doc", "played"]
    ran = subprocess.run(words, input=script, capture_output=True, text=True, timeout=PATIENCE, cwd=folder)
    view = View()
    view.patch(json.loads(ran.stdout.splitlines()[0])["line"]["ok"]["actions"])
    return view.tables


def resident(process):
    """How many kilobytes of memory a process has."""
    with open(f"/proc/{process}/status") as status:
        return next(line.split()[1] for line in status if line.startswith("VmRSS"))


def played(program, folder, clients, seconds, pause):
    """The clients once all have ended, what the server wrote, and its status."""
    first = free_ports(clients)
    words = [program, "serve", f"--lanes={clients}", "--port", str(first), "--conns=1", "--doc", "played"]
    with open(folder + "/users", "w+") as users:
        users.write(user_lines())
        users.seek(0)
        server = subprocess.Popen(words, stdin=users, stdout=subprocess.PIPE, text=True, cwd=folder)
    meeting, until = threading.Barrier(clients), time.monotonic() + seconds
    everyone = [Client(first + i, USERS[i % len(USERS)][1], until, pause, meeting) for i in range(clients)]
    for one in everyone:
        one.start()
    for quarter in range(1, 5):
        time.sleep(max(0, until - seconds + quarter * seconds / 4 - time.monotonic()))
        print(f"{sum(one.asked for one in everyone)} requests, {resident(server.pid)} kB", flush=True)
    for one in everyone:
        one.join(seconds + 2 * PATIENCE)
    told, _ = server.communicate(timeout=PATIENCE)
    return everyone, told, server.returncode


def main(program, clients=40, seconds=60, pause=0):
    program, clients = str(pathlib.Path(program).resolve()), int(clients)
    with tempfile.TemporaryDirectory() as folder:
        everyone, told, status = played(program, folder, clients, float(seconds), float(pause))
        kept = {token: kept_view(program, folder, token) for _, token in USERS}
        records = sqlite3.connect(folder + "/played.grist").execute("select count(*) from record").fetchone()[0]
    faults = [fault for one in everyone for fault in one.faults]
    accepted = sum(one.accepted for one in everyone)
    want = {"bundles": accepted, "connections": clients, "entries": sum(one.asked for one in everyone)}
    if status != 0 or told != json.dumps(want, separators=(",", ":")) + "\n":
        faults.append(f"status {status}, told {told!r}, wanted {want}")
    if records != accepted:
        faults.append(f"{records} records are kept of {accepted} bundles")
    faults += [f"port {one.port}: its lines come to another view" for one in everyone if one.view.tables != kept[one.token]]
    for fault in faults[:20]:
        print(fault)
    lines = sum(one.told for one in everyone)
    print(f"{clients} clients, {accepted} bundles, {lines} changes told, {len(faults)} faults")
    return 1 if faults else 0


if __name__ == "__main__":
    if not 2 <= len(sys.argv) <= 5:
        sys.exit(__doc__)
    sys.exit(main(*sys.argv[1:]))
