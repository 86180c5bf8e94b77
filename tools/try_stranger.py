#!/usr/bin/env python3
"""Plays two histories that differ in what is hidden from a viewer alone, and wants his lines to be the same.

    python3 tools/try_stranger.py PROGRAM [SEEDS]

Rules hide from him a table, a column, the rows of one kind and single cells of another; formula texts are hidden
from every viewer. In the one history the owner changes all of that, renames it, removes it and undoes; in the other
nobody does. The viewer syncs, fetches, and tries what is hidden and what is not there.

Then random histories, eight of them or as many as are named, under rules that ask for two attributes of users, of
whom two find one row. The rows of attributes change in columns that rules mention and in others, come, go, and are
overtaken by a lesser row; so do the rows that the rules hide. Each session keeps its view by what it is told, and it
must be what a session that opens then is shown. Its status is 1 where a byte or a view differs.
"""
import json
import random
import subprocess
import sys

USERS = [
    '{"user":{"access":"owners","email":"ann@x.org","id":1,"name":"Ann","token":"ta"}}',
    '{"user":{"access":"viewers","email":"vic@x.org","id":3,"name":"Vic","token":"tv"}}',
]


def line(session, **request):
    return json.dumps({"line": request, "session": session}, separators=(",", ":"), sort_keys=True)


def owner(*actions):
    return line("s1", actions=list(actions), method="applyUserActions")


def viewer(*actions):
    return line("s9", actions=list(actions), method="applyUserActions")


RULES = [
    ("Secret", "*", "user.Access == VIEWER"),
    ("T", "B", "user.Access == VIEWER"),
    ("T", "C", "user.Access == VIEWER and rec.K == 2"),
    ("T", "*", "user.Access == VIEWER and rec.K == 1"),
]
COLUMNS = [{"id": "K", "type": "Int"}, {"id": "B"}, {"id": "C"}, {"id": "F", "isFormula": True, "formula": "$K + 1"}]
START = [
    line("s1", method="openDoc", token="ta"),
    owner(
        ["AddTable", "Secret", [{"id": "X"}]],
        ["AddTable", "T", COLUMNS],
        ["BulkAddRecord", "T", [None] * 3, {"K": [0, 1, 2], "B": ["b0", "b1", "b2"], "C": ["c0", "c1", "c2"]}],
        ["AddRecord", "Secret", None, {"X": 1}],
    ),
    owner(
        ["BulkAddRecord", "_grist_ACLResources", [None] * 4, {"tableId": [r[0] for r in RULES], "colIds": [r[1] for r in RULES]}],
        ["BulkAddRecord", "_grist_ACLRules", [None] * 4,
         {"resource": [1, 2, 3, 4], "aclFormula": [r[2] for r in RULES], "permissionsText": ["-R"] * 4}],
    ),
    line("s9", method="openDoc", token="tv"),
]
HIDDEN = [
    owner(["UpdateRecord", "T", 1, {"B": "x"}]),
    owner(["UpdateRecord", "T", 2, {"C": "y", "B": "z"}]),
    owner(["UpdateRecord", "T", 3, {"C": "q"}]),
    owner(["AddRecord", "Secret", None, {"X": 2}]),
    owner(["AddColumn", "Secret", "Y", {}]),
    owner(["RenameTable", "Secret", "Hid"]),
    owner(["RemoveRecord", "T", 2]),
    line("s1", method="undo", bundle=9),
    owner(["ModifyColumn", "T", "F", {"formula": "1 + $K"}]),
    owner(["RenameColumn", "T", "B", "B9"]),
    owner(["AddRecord", "_grist_ACLResources", None, {"tableId": "Hid", "colIds": "*"}]),
]
TRIES = [
    line("s9", method="sync"),
    line("s9", method="fetchTable", table="Secret"),
    line("s9", method="fetchTable", table="T"),
    viewer(["UpdateRecord", "T", 2, {"C": 1}]),
    viewer(["UpdateRecord", "T", 77, {"C": 1}]),
    viewer(["UpdateRecord", "T", 1, {"B": 1}]),
    viewer(["UpdateRecord", "T", 1, {"Q": 1}]),
]


def lines_given(program, lines):
    ran = subprocess.run([program, "replay"], input="\n".join(USERS + START + lines) + "\n", capture_output=True, text=True)
    if ran.returncode:
        raise SystemExit(f"status {ran.returncode}")
    return ran.stdout.splitlines()


def of(session, lines):
    return [it for it in lines if it.endswith(f'"session":"{session}"}}')]


PEOPLE = [("owners", "ann"), ("editors", "ed"), ("editors", "di"), ("viewers", "vic"), ("viewers", "ed")]
TABLES = [
    ["AddTable", "People", [{"id": "Email"}, {"id": "Region"}, {"id": "Level", "type": "Int"}, {"id": "Note"},
                            {"id": "Load", "type": "Int", "formula": "SUM(Tasks.lookupRecords(Who=$id).Hours)"}]],
    ["AddTable", "Teams", [{"id": "Member"}, {"id": "Team", "type": "Int"}, {"id": "Desk"}]],
    ["AddTable", "Tasks", [{"id": "Who", "type": "Ref:People"}, {"id": "Region"}, {"id": "Team", "type": "Int"},
                           {"id": "Hours", "type": "Int"}]],
]
ATTRIBUTES = [
    {"charId": "Email", "lookupColId": "Email", "name": "P", "tableId": "People"},
    {"charId": "Name", "lookupColId": "Member", "name": "G", "tableId": "Teams"},
]
ASKED = [
    ("Tasks", "*", "user.Access == EDITOR and rec.Region != user.P.Region"),
    ("Tasks", "Hours", "user.Access == VIEWER and user.G.Team != rec.Team"),
    ("Teams", "*", "user.P.Level == 2 and user.G.Team != 1"),
    ("People", "Note", "user.Access != OWNER and user.P.id != rec.id"),
]
REGIONS, NAMES = ["north", "south", None], ["ann", "ed", "di", "vic", "nobody"]


def mail(name):
    return f"{name}@x.org"


def begun():
    """The users, the document with its rules, and a session of each user."""
    users = [json.dumps({"user": {"access": a, "email": mail(n), "id": i + 1, "name": n, "token": f"t{i}"}})
             for i, (a, n) in enumerate(PEOPLE)]
    blank = [""] * len(ASKED)
    rules = ["BulkAddRecord", "_grist_ACLRules", [None] * (2 + len(ASKED)), {
        "aclFormula": ["", ""] + [r[2] for r in ASKED], "permissionsText": ["", ""] + ["-R"] * len(ASKED),
        "resource": [0, 0] + [i + 1 for i in range(len(ASKED))],
        "userAttributes": [json.dumps(a, separators=(",", ":"), sort_keys=True) for a in ATTRIBUTES] + blank}]
    resources = ["BulkAddRecord", "_grist_ACLResources", [None] * len(ASKED),
                 {"tableId": [r[0] for r in ASKED], "colIds": [r[1] for r in ASKED]}]
    rows = [["BulkAddRecord", "People", [None] * 5, {"Email": [mail(n) for n in NAMES], "Region": [*REGIONS, *REGIONS[:2]],
                                                     "Level": [0, 1, 2, 2, 1], "Note": NAMES}],
            ["BulkAddRecord", "Teams", [None] * 5, {"Member": NAMES, "Team": [0, 1, 2, 1, 0], "Desk": NAMES}],
            ["BulkAddRecord", "Tasks", [None] * 6, {"Who": [1, 2, 3, 4, 5, 2], "Region": REGIONS * 2,
                                                    "Team": [0, 1, 2] * 2, "Hours": [4, 0, 7, 1, 9, 3]}]]
    opened = [line(f"s{i}", method="openDoc", token=f"t{i}") for i in range(len(PEOPLE))]
    changes = [line("s0", actions=it, method="applyUserActions") for it in (TABLES, rows, [resources, rules])]
    return users + [opened[0], *changes, *opened[1:]]


def drawn(draw):
    """One random user action; rows are asked for whether or not they are there."""
    row = draw.randrange(1, 7)
    person = {"Email": mail(draw.choice(NAMES)), "Region": draw.choice(REGIONS), "Level": draw.randrange(3), "Note": str(draw.random())}
    team = {"Member": draw.choice(NAMES), "Team": draw.randrange(3), "Desk": str(draw.random())}
    task = {"Who": draw.randrange(5), "Region": draw.choice(REGIONS), "Team": draw.randrange(3), "Hours": draw.randrange(40)}
    table, cells = draw.choice([("People", person), ("Teams", team), ("Tasks", task), ("Tasks", task)])
    some = dict(draw.sample(sorted(cells.items(), key=lambda c: c[0]), draw.randrange(1, 3)))
    return draw.choice([*[["AddRecord", table, draw.choice([None, None, row]), cells]] * 2, ["RemoveRecord", table, row],
                        *[["UpdateRecord", table, row, some]] * 6])


def put(view, action):
    """Does one action on a view: tables of columns and rows."""
    kind, table, *rest = action
    if kind == "AddTable":
        view[table] = {"columns": {}, "rows": {}}
        for column in rest[0]:
            put(view, ["AddColumn", table, column["id"], {k: v for k, v in column.items() if k != "id"}])
    elif kind == "RemoveTable":
        del view[table]
    elif kind in ("AddColumn", "ModifyColumn"):
        view[table]["columns"][rest[0]] = rest[1]
        if kind == "AddColumn":
            for cells in view[table]["rows"].values():
                cells[rest[0]] = None
    elif kind == "RemoveColumn":
        del view[table]["columns"][rest[0]]
        for cells in view[table]["rows"].values():
            del cells[rest[0]]
    elif kind == "BulkRemoveRecord":
        for row in rest[0]:
            del view[table]["rows"][row]
    else:
        for place, row in enumerate(rest[0]):
            if kind == "BulkAddRecord":
                view[table]["rows"][row] = {}
            view[table]["rows"][row].update({column: values[place] for column, values in rest[1].items()})


def views_of(lines):
    """What each session's view is by the lines that it was given: those that open it, and its stream."""
    views = {}
    for it in map(json.loads, lines):
        said = it["line"].get("ok", it["line"]) if isinstance(it.get("line"), dict) else {}
        if isinstance(said, dict) and "actions" in said:
            for action in said["actions"]:
                put(views.setdefault(it["session"], {}), action)
    return views


def history(program, seed):
    """How many bundles were accepted, and whether each session's view is what a new session is shown."""
    draw = random.Random(seed)
    bundles = [line("s0", actions=[drawn(draw) for _ in range(draw.choice([1, 1, 1, 2]))], method="applyUserActions")
               for _ in range(60)]
    ends = [it for i in range(len(PEOPLE)) for it in (line(f"s{i}", method="sync"), line(f"n{i}", method="openDoc", token=f"t{i}"))]
    ran = subprocess.run([program, "replay"], input="\n".join(begun() + bundles + ends) + "\n", capture_output=True, text=True)
    if ran.returncode:
        raise SystemExit(f"status {ran.returncode}")
    lines = ran.stdout.splitlines()
    views = views_of(lines)
    accepted = sum('"ok":{"bundle"' in it for it in lines)
    return accepted, all(views.get(f"s{i}") == views.get(f"n{i}") for i in range(len(PEOPLE)))


def histories(program, seeds):
    ran = [history(program, seed) for seed in range(seeds)]
    exact = all(same for _, same in ran)
    print(f"{seeds} random histories, {sum(n for n, _ in ran)} bundles: the views are {'what is shown' if exact else 'NOT WHAT IS SHOWN'}")
    return exact and all(n > 20 for n, _ in ran)


def main(program, seeds=8):
    busy = lines_given(program, TRIES + [it for hidden in HIDDEN for it in [hidden, *TRIES]])
    still = lines_given(program, TRIES * (1 + len(HIDDEN)))
    accepted = [it for it in of("s1", busy) if '"ok":{"bundle"' in it]
    same = of("s9", busy) == of("s9", still)
    print(f"{len(accepted)} bundles of the owner, {len(of('s9', busy))} lines of the viewer: {'the same' if same else 'NOT THE SAME'}")
    exact = histories(program, seeds)
    return 0 if same and exact and len(accepted) == len(HIDDEN) + 2 else 1


if __name__ == "__main__":
    if len(sys.argv) not in (2, 3):
        sys.exit(__doc__)
    sys.exit(main(sys.argv[1], *map(int, sys.argv[2:])))
