#!/usr/bin/env python3
"""Kills `replay --doc` at random moments, and compares what is reopened with the replies that were written.

    python3 tools/crash_replay.py [kills] [seed] [program]

50 kills where the number is left out; the program is crates/grist_main/out/grist_main. Each run opens the
document that the killed ones before it left, adds one record with the next number after another, and is
killed; every fifth kill a new document is begun. Then the document has to hold the numbers from 1 on,
without a gap, and at least those whose replies were written. A bundle that was kept as the program was
killed may be there without its reply. A copy of the file has to pass SQLite's own integrity check.
"""
import json
import os
import random
import shutil
import sqlite3
import subprocess
import sys
import tempfile
import threading
import time

from scripts import OPEN, USER

HERE = os.path.dirname(os.path.abspath(__file__))
PROGRAM = os.path.join(HERE, "..", "crates", "grist_main", "out", "grist_main")
ADD = '{"line":{"actions":[["AddRecord","Table1",null,{"A":%d}]],"method":"applyUserActions"},"session":"s1"}\n'
BUNDLES = 4000


def numbers_in(reply):
    """The numbers in column A of Table1, of the reply to an openDoc."""
    for action in json.loads(reply)["line"]["ok"]["actions"]:
        if action[:2] == ["BulkAddRecord", "Table1"]:
            return action[3]["A"]
    return []


def reopened(program, folder):
    """The numbers that a new run finds in the document."""
    run = subprocess.run([program, "replay", "--doc", "book"], input=(USER + OPEN).encode(), cwd=folder, capture_output=True)
    if run.returncode:
        raise SystemExit(f"the program ended with {run.returncode}")
    return numbers_in(run.stdout.splitlines()[0])


def feed(stdin, first):
    """Asks for bundles, until they are all asked for or nobody reads."""
    try:
        stdin.write((USER + OPEN).encode())
        for number in range(first, first + BUNDLES):
            stdin.write((ADD % number).encode())
            stdin.flush()
        stdin.close()
    except OSError:
        pass


def killed(program, folder, first, seconds):
    """How many replies to bundles a run wrote that was killed after so many seconds."""
    with tempfile.TemporaryFile() as out:
        run = subprocess.Popen([program, "replay", "--doc", "book"], stdin=subprocess.PIPE, stdout=out, cwd=folder)
        thread = threading.Thread(target=feed, args=(run.stdin, first))
        thread.start()
        time.sleep(seconds)
        run.kill()
        run.wait()
        thread.join()
        out.seek(0)
        whole = out.read().split(b"\n")[:-1]
    return sum(1 for line in whole if b'"ok":{"bundle":' in line)


def checked(folder):
    """What SQLite's integrity check says of a copy, and how many records it finds."""
    with tempfile.TemporaryDirectory() as place:
        for name in os.listdir(folder):
            shutil.copy(os.path.join(folder, name), place)
        with sqlite3.connect(os.path.join(place, "book.grist")) as file:
            word = file.execute("PRAGMA integrity_check").fetchone()[0]
            # A run that is killed as it makes the file leaves it without its table.
            if not file.execute("SELECT count(*) FROM sqlite_master WHERE name = 'record'").fetchone()[0]:
                return word, 0
            return word, file.execute("SELECT count(*) FROM record").fetchone()[0]


def main():
    kills = int(sys.argv[1]) if len(sys.argv) > 1 else 50
    seed = int(sys.argv[2]) if len(sys.argv) > 2 else int(time.time())
    program = os.path.abspath(sys.argv[3] if len(sys.argv) > 3 else PROGRAM)
    dice = random.Random(seed)
    beyond, told, folder = 0, 0, None
    for turn in range(kills):
        if turn % 5 == 0:
            if folder:
                shutil.rmtree(folder)
            folder, there = tempfile.mkdtemp(), 0
        replies = killed(program, folder, there + 1, dice.uniform(0.0, 0.5))
        word, records = checked(folder) if os.path.exists(os.path.join(folder, "book.grist")) else ("ok", 0)
        numbers = reopened(program, folder)
        if numbers != list(range(1, len(numbers) + 1)) or len(numbers) < there + replies or word != "ok" or records > len(numbers):
            raise SystemExit(f"kill {turn + 1} of seed {seed}: {there} before, {replies} replies, {len(numbers)} rows, {word}")
        beyond, told, there = beyond + len(numbers) - there - replies, told + replies, len(numbers)
    shutil.rmtree(folder)
    print(f"{kills} kills (seed {seed}): {told} bundles whose reply was written, all there; {beyond} more that were kept")


if __name__ == "__main__":
    main()
