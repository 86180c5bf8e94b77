#!/usr/bin/env python3
"""Tries what `audit` says against verdicts, over pairs of documents that show an editor the same.

    python3 tools/try_audits.py PROGRAM [ACTIONS] [SEED]

PROGRAM is the built program. Each pair has one set of random rules; the second document differs from the first in
what the rules hide from the editor. Where the audit says that the editor is closed, random actions have to be answered
byte for byte alike in both, until ACTIONS of them were tried (2,000 if it is not said). Where it names a leak, it is
counted whether some action is answered otherwise; at least one pair has to show that. Each action stands in a bundle
before one that is always refused, so that no bundle changes a document. The last line counts; the status is 1 where a
closed pair differed, or no leak showed.
"""
import json
import pathlib
import random
import subprocess
import sys
import tempfile

ANN = {"user": {"access": "owners", "email": "ann@x.org", "id": 1, "name": "Ann", "token": "ta"}}
ED = {"user": {"access": "editors", "email": "ed@x.org", "id": 2, "name": "Ed", "token": "te"}}
ABSENT = ["RemoveTable", "Absent"]

# What is hidden from the editor: a column, and, where it is taken up, the rows that have 1 in it.
HIDES_COLUMN = ("Secret", "-R", "user.Access == EDITOR")
HIDES_SUM = ("Sum", "-R", "user.Access == EDITOR")
HIDES_ROWS = ("*", "-R", "user.Access == EDITOR and rec.Secret == 1")
HIDES_FORMULA = ("Twice", "-S", "user.Access == EDITOR")

WRITING = [
    ("*", "-U", "rec.Count > 5"), ("*", "-U", "newRec.Count > 5"), ("*", "-C", "newRec.Count == 3"),
    ("Title", "-U", "rec.Title == newRec.Title"), ("Title", "-U", "newRec.Title == 'b'"),
    ("*", "-D", "rec.Count == 2"), ("*", "-D", "rec.Twice > 6"), ("*", "-S", "user.Access == EDITOR"),
    ("Count", "-S", "user.Access == EDITOR"), ("*", "-D", "rec.id > 3"), ("Title", "+U", "user.Access == EDITOR"),
    ("*", "-U", "rec.Title == 'a' and user.Name == 'Ed'"), ("*", "-CD", "user.Access == EDITOR"),
]
LEAKING = [
    ("*", "-U", "rec.Secret == 2"), ("*", "-D", "rec.Sum > 8"), ("*", "-CU", "newRec.Twice > 4"),
    ("*", "-U", "newRec.Secret > 4"), ("*", "-D", "rec.Secret > 4"),
]


def line(session, **asked):
    return {"line": asked, "session": session}


def run(program, folder, words, lines):
    text = "".join(json.dumps(it, separators=(",", ":"), sort_keys=True) + "\n" for it in lines)
    ran = subprocess.run([program, *words], input=text, capture_output=True, text=True, cwd=folder)
    if ran.returncode:
        sys.exit(f"{words} ended with {ran.returncode}: {ran.stderr}")
    return ran.stdout.splitlines()


def rule_actions(rules):
    columns = list(dict.fromkeys(it[0] for it in rules))
    for column in columns:
        yield ["AddRecord", "_grist_ACLResources", None, {"tableId": "T", "colIds": column}]
    for place, (column, permissions, formula) in enumerate(rules):
        yield ["AddRecord", "_grist_ACLRules", None, {"resource": columns.index(column) + 1, "rulePos": place,
               "permissionsText": permissions, "aclFormula": formula}]


def document(rules, rows):
    table = ["AddTable", "T", [{"id": "Secret", "type": "Int"}, {"id": "Title", "type": "Text"},
             {"id": "Count", "type": "Int"}, {"id": "Sum", "formula": "$Secret + 1"},
             {"id": "Twice", "formula": "$Count * 2"}]]
    kept = [["AddRecord", "T", None, dict(zip(("Secret", "Title", "Count"), it))] for it in rows]
    yield ANN
    yield line("s1", method="openDoc", token="ta")
    yield line("s1", method="applyUserActions", actions=[table, *kept, *rule_actions(rules)])


def action(chance):
    rows = [chance.randint(1, 7) for _ in range(chance.randint(1, 3))]
    cells = {"Title": chance.choice("abc"), "Count": chance.randint(0, 8)}
    kept = {it: cells[it] for it in chance.sample(sorted(cells), chance.randint(1, 2))}
    column = chance.choice(["Title", "Count", "Twice", "Secret", "Sum", "New"])
    return chance.choice([
        lambda: ["UpdateRecord", "T", rows[0], kept],
        lambda: ["BulkUpdateRecord", "T", sorted(set(rows)), {it: [kept[it]] * len(set(rows)) for it in kept}],
        lambda: ["AddRecord", "T", None, kept],
        lambda: ["BulkAddRecord", "T", [None, None], {it: [kept[it], kept[it]] for it in kept}],
        lambda: ["RemoveRecord", "T", rows[0]],
        lambda: ["UpdateRecord", "T", rows[0], {"Secret": rows[-1]}],
        lambda: ["AddColumn", "T", column, {"type": "Int"}],
        lambda: ["RemoveColumn", "T", column],
        lambda: ["RenameColumn", "T", column, chance.choice(["Title", "Other"])],
        lambda: ["ModifyColumn", "T", column, chance.choice([{"type": "Text"}, {"formula": "$Count * 2"}])],
        lambda: ["RenameTable", "T", "U"], lambda: ["RemoveTable", "T"], lambda: ["AddTable", "V", [{"id": "A"}]],
    ])()


def pair(chance, rules):
    """The rows of two documents, which differ in what the rules hide."""
    secrets = [chance.choice([1, 2, 3]) for _ in range(6)]
    shown = [(chance.choice("abc"), chance.randint(0, 8)) for _ in range(6)]
    first = [(it, *cells) for it, cells in zip(secrets, shown)]
    second = [(1 if it == 1 else chance.choice([2, 3, 4, 5, 6]), *cells) for it, cells in zip(secrets, shown)]
    if HIDES_ROWS in rules:
        hidden = [(1, chance.choice("abc"), chance.randint(0, 8)) for _ in range(8)]
        second = [hidden.pop() if it[0] == 1 else it for it in second] + hidden[:chance.randint(0, 2)]
    return first, second


def tried(program, chance, rules, actions):
    """Whether the editor is closed, and the actions that were answered otherwise; nothing where the views differ."""
    told = []
    for rows in pair(chance, rules):
        with tempfile.TemporaryDirectory() as folder:
            words = ["--doc", "book"]
            made = run(program, folder, ["replay", *words], document(rules, rows))
            if '"bundle":1' not in made[-1]:
                sys.exit(f"the document was not made: {made[-1]}")
            opened = line("s1", method="openDoc", token="te")
            bundles = [line("s1", method="applyUserActions", actions=[it, ABSENT]) for it in actions]
            answers = run(program, folder, ["replay", *words], [ED, opened, *bundles])
            told.append((answers[0], answers[1:], run(program, folder, ["audit", *words], [ED])[0]))
    (view, answers, audit), (other_view, other_answers, other_audit) = told
    if view != other_view:
        return None
    if audit != other_audit:
        sys.exit(f"audits differ where views do not: {audit} {other_audit} {rules}")
    differ = [it for it, one, other in zip(actions, answers, other_answers) if one != other]
    return json.loads(audit)["closed"], differ, sum('"code":20' in it for it in answers)


def main(program, wanted=2000, seed=1):
    chance = random.Random(int(seed))
    program = str(pathlib.Path(program).resolve())
    closed = denied = leaks = shown = wrong = pairs = 0
    while closed < int(wanted) or not leaks:
        rules = chance.sample(WRITING, chance.randint(1, 4)) + chance.sample(LEAKING, chance.randint(0, 1))
        hides = chance.choice([[HIDES_COLUMN, HIDES_SUM], [HIDES_COLUMN, HIDES_SUM, HIDES_ROWS],
                               [HIDES_COLUMN, HIDES_SUM, HIDES_FORMULA]])
        chance.shuffle(rules)
        actions = [action(chance) for _ in range(50)]
        came = tried(program, chance, hides + rules, actions)
        if came is None:
            continue
        pairs += 1
        if came[0]:
            closed, denied, wrong = closed + len(actions), denied + came[2], wrong + len(came[1])
            for it in came[1]:
                print(f"answered otherwise though closed: {it} under {hides + rules}")
        else:
            leaks, shown = leaks + 1, shown + bool(came[1])
    print(f"{pairs} pairs; {closed} actions of a closed user, {denied} of them denied, {wrong} answered otherwise; "
          f"{leaks} pairs with a leak, {shown} of which showed it")
    return 1 if wrong or not shown else 0


if __name__ == "__main__":
    if not 2 <= len(sys.argv) <= 4:
        sys.exit(__doc__)
    sys.exit(main(*sys.argv[1:]))
