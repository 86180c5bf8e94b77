#!/usr/bin/env python3
"""An owner and a viewer at one document: what each sees of a table, and what each is told.

    python3 examples/side_by_side.py PORT

A server of two lanes with the users of examples/people listens on PORT and the next one:
`grist_main serve --lanes 2 --port PORT --conns 1 < examples/people`. Ann makes a table of staff, with rules that hide
from viewers the salaries and the rows of the team East. After each of her changes both are asked for what they see.
"""
import json
import sys

from client import Connection

RULES = [("Salary", "user.Access == VIEWER", "-R"), ("*", "user.Access == VIEWER and rec.Team == 'East'", "-R")]
WIDTH = 44


def bundle(*actions):
    return {"method": "applyUserActions", "actions": list(actions)}


MADE = bundle(
    ["AddTable", "Staff", [{"id": "Name"}, {"id": "Team"}, {"id": "Salary", "type": "Int"}]],
    ["BulkAddRecord", "Staff", [None] * 3, {"Name": ["Bo", "Cy", "Di"], "Team": ["East", "West", "West"], "Salary": [3000, 2800, 2900]}],
    ["BulkAddRecord", "_grist_ACLResources", [None] * 2, {"tableId": ["Staff"] * 2, "colIds": [rule[0] for rule in RULES]}],
    ["BulkAddRecord", "_grist_ACLRules", [None] * 2, {"resource": [1, 2], "aclFormula": [rule[1] for rule in RULES],
                                                      "permissionsText": [rule[2] for rule in RULES]}],
)
STEPS = [
    ("Bo is paid more", "ann", bundle(["UpdateRecord", "Staff", 1, {"Salary": 3300}])),
    ("Bo joins the team West", "ann", bundle(["UpdateRecord", "Staff", 1, {"Team": "West"}])),
    ("Vic changes a name", "vic", bundle(["UpdateRecord", "Staff", 2, {"Name": "Cyd"}])),
    ("Vic asks for a salary", "vic", bundle(["UpdateRecord", "Staff", 2, {"Salary": 1}])),
    ("Ann takes it back", "ann", {"method": "undo", "bundle": 3}),
]


def table(connection):
    """The rows of Staff as a session sees them, and what it was told since it last asked."""
    changes, reply = connection.ask({"method": "fetchTable", "table": "Staff"})
    _, _, rows, cells = reply["ok"]["actions"][1]
    heads = sorted(cells, key=("Name", "Team", "Salary").index)
    lines = ["id " + " ".join(f"{it:6}" for it in heads)]
    lines += [f"{row:2} " + " ".join(f"{cells[it][k]!s:6}" for it in heads) for k, row in enumerate(rows)]
    return changes, lines


def told(changes):
    return [f"{name} {json.dumps(rest[-2:])}" for line in changes for name, table, *rest in line["actions"]] or ["nothing"]


def beside(left, right):
    for k in range(max(len(left), len(right))):
        print(f"{(left[k:k + 1] or [''])[0]:{WIDTH}}| {(right[k:k + 1] or [''])[0]}".rstrip())


def main(port):
    ann, vic = Connection(port), Connection(port + 1)
    ann.ask({"method": "openDoc", "token": "ta"})
    ann.ask(MADE)
    vic.ask({"method": "openDoc", "token": "tv"})
    beside(["Ann, owner", *table(ann)[1]], ["Vic, viewer", *table(vic)[1]])
    for what, who, request in STEPS:
        asked = ann if who == "ann" else vic
        changes, reply = asked.ask(request)
        print(f"\n{what}: {json.dumps(reply)}")
        (more, left), (seen, right) = table(ann), table(vic)
        if "ok" in reply:
            beside([*told(changes + more), *left], [*told(seen), *right])
    ann.close()
    vic.close()


if __name__ == "__main__":
    if len(sys.argv) != 2:
        sys.exit(__doc__)
    main(int(sys.argv[1]))
