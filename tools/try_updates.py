#!/usr/bin/env python3
"""Plays random changes against a built program, and compares each formula cell with evaluation from scratch.

    tools/try_updates.py PROGRAM [SCRIPTS] [REQUESTS] [SEED]

Each of SCRIPTS scripts (400 unless told) makes a document with formulas (sums over lookups, references, choices,
chains, cells that read themselves), keeps it in a file, and asks for REQUESTS changes (25 unless told): rows that are
added, changed and removed, a few at a time or many, formulas that change, columns that come and go, and undos. At its
end one more session opens the document, whose cells were evaluated by what changed; then a run over the file does the
same, whose cells were evaluated from the records alone. Both are shown the same, or the script is told by its seed.
Its status is 1 where any differs.
"""
import json
import pathlib
import random
import subprocess
import sys
import tempfile

from scripts import USER, ask, bundle

FORMULAS = [
    "$A + 1",
    "$F1 * 2",
    "SUM(T.lookupRecords(K=$K).A)",
    "T.lookupOne(id=$id - 1).F4 + $A",
    "$R.A",
    "IF($A > 3, $F3, $R.F1)",
    "len(T.lookupRecords(R=$R))",
    "SUM(U.lookupRecords(T=$id).B)",
    "$F2 // $A",
    "MAX(T.lookupRecords(F1=$A).id)",
]
U_FORMULAS = ["$T.F3", "$T.F1 + $B", "U.lookupOne(B=$B).id"]


class Maker:
    """Makes the requests of one script."""

    def __init__(self, seed):
        self.random = random.Random(seed)
        self.rows = {"T": 0, "U": 0}

    def value(self, column):
        if column in "RT":
            return self.random.randrange(0, self.rows["T"] + 2)
        return self.random.choice([None, self.random.randrange(-2, 7), self.random.randrange(0, 4)])

    def cells(self, table, count):
        columns = self.random.sample({"T": ["A", "K", "R"], "U": ["B", "T"]}[table], self.random.randrange(1, 3))
        return {column: [self.value(column) for _ in range(count)] for column in columns}

    def opening(self):
        columns = [{"id": "A", "type": "Int"}, {"id": "K", "type": "Int"}, {"id": "R", "type": "Ref:T"}]
        formulas = [{"formula": text, "id": f"F{number}"} for number, text in enumerate(FORMULAS, 1)]
        keep = set(self.random.sample(range(len(formulas)), self.random.randrange(2, 9))) | {0}
        others = [{"id": "B", "type": "Int"}, {"id": "T", "type": "Ref:T"}]
        more = [{"formula": text, "id": f"G{number}"} for number, text in enumerate(U_FORMULAS, 1)]
        yield USER + ask("s1", method="openDoc", token="ta")
        yield bundle(["AddTable", "T", columns + [f for place, f in enumerate(formulas) if place in keep]])
        yield bundle(["AddTable", "U", others + self.random.sample(more, self.random.randrange(0, 4))])
        for table in self.rows:
            yield self.add(table, self.random.choice([3, 20, 80]))

    def add(self, table, count):
        self.rows[table] += count
        return bundle(["BulkAddRecord", table, [None] * count, self.cells(table, count)])

    def update(self, table, count):
        last = max(1, self.rows[table])
        rows = sorted(self.random.sample(range(1, last + 1), min(count, last)))
        return bundle(["BulkUpdateRecord", table, rows, self.cells(table, len(rows))])

    def request(self):
        table, kind = self.random.choice("TU"), self.random.random()
        if kind < 0.5:
            return self.update(table, self.random.choice([1, 1, 2, 5, 70]))
        if kind < 0.65:
            return self.add(table, self.random.choice([1, 1, 3, 66]))
        if kind < 0.77:
            return bundle(["RemoveRecord", table, self.random.randrange(1, self.rows[table] + 2)])
        if kind < 0.9:
            return ask("s1", method="undo", bundle=self.random.randrange(1, 30))
        if kind < 0.95:
            text = self.random.choice(FORMULAS)
            return bundle(["ModifyColumn", "T", f"F{self.random.randrange(1, 11)}", {"formula": text}])
        return bundle(["AddColumn", "T", "X", {"formula": self.random.choice(FORMULAS)}], ["UpdateRecord", "T", 1, {"A": 3}])


def shown(program, folder, script):
    """What the last line of a run over the file shows, and how many bundles it tells as accepted."""
    words = [program, "replay", "--doc", "played"]
    ran = subprocess.run(words, input=script, capture_output=True, text=True, timeout=120, cwd=folder)
    lines = [json.loads(line)["line"] for line in ran.stdout.splitlines()]
    if ran.returncode or "ok" not in lines[-1]:
        sys.exit(f"the program ended with {ran.returncode}")
    return lines[-1]["ok"]["actions"], sum("bundle" in (line.get("ok") or {}) for line in lines)


def main(program, scripts=400, requests=25, seed=1):
    program, differing, accepted = str(pathlib.Path(program).resolve()), [], 0
    for number in range(int(seed), int(seed) + int(scripts)):
        maker = Maker(number)
        script = "".join(maker.opening()) + "".join(maker.request() for _ in range(int(requests)))
        with tempfile.TemporaryDirectory() as folder:
            by_changes, bundles = shown(program, folder, script + ask("s2", method="openDoc", token="ta"))
            afresh, _ = shown(program, folder, USER + ask("s2", method="openDoc", token="ta"))
        accepted += bundles
        if by_changes != afresh:
            differing.append(number)
    print(f"{scripts} scripts, {accepted} accepted bundles, {len(differing)} scripts differ: {differing[:20]}")
    return 1 if differing else 0


if __name__ == "__main__":
    if not 2 <= len(sys.argv) <= 5:
        sys.exit(__doc__)
    sys.exit(main(*sys.argv[1:]))
