#!/usr/bin/env python3
"""Renames columns of random documents through formulas and rules, and compares all that is seen before and after.

    tools/try_renames.py PROGRAM [RENAMES] [SEED]

Each script makes a document of two tables with references, formulas (sums over lookups, attributes, choices, columns
of type Any) and rules with attributes of users, and asks for eight renames. Before and after each, the document is
opened for an owner, an editor and a viewer; and each script is played a second time without its renames. Where a
rename was accepted, each user sees the same cells as before it, the renamed column under its new name; what the
editor and the viewer then ask for is accepted, or refused for the same, as where nothing was renamed. Scripts are made
until RENAMES renames (1,000 unless told) were accepted. Its status is 1 where anything differs.
"""
import json
import pathlib
import random
import subprocess
import sys

from scripts import ask, bundle, opening, user

USERS = (user("ta"), user("te", "editors", 2, "Ed"), user("tv", "viewers", 3, "Vi"))
TOKENS = ("ta", "te", "tv")
NEW_NAMES = ("K", "Key", "N", "Num", "R", "Who", "Z", "a_1", "Total", "café")
FORMULAS = (
    "${k}", "$R.{k}", "SUM(T.lookupRecords({k}=$id).{n})", "T.lookupOne({k}=1).{k}", "rec.{n}",
    "len(U.lookupRecords(T=$id))", "IF(${n} > 2, $R, T.lookupOne(id=1)).{k}", "MAX(T.all.{n})",
    "IFERROR($R.R.{n}, ${k})", "($R or rec).{k}", "'{k}' + \"{n}\"",
)
FORMULAS_OF_ANY = ("T.lookupOne({n}=2)", "$R")
RULES = (
    "rec.{k} == user.P.{k}", "newRec.{n} != 3 or rec.{k} is None", "user.P.{n} in [1, 2]", "'{k}' == rec.{n}",
    "user.Access == OWNER", "rec.R == 1 and rec.{k} > 0",
)


class Maker:
    """Makes one document, and what is asked of it."""

    def __init__(self, seed):
        self.random = random.Random(seed)
        self.columns = {"T": ["K", "N", "R"], "U": ["B", "K", "T"]}

    def named(self, text):
        return text.format(k=self.random.choice(["K", "N"]), n=self.random.choice(["N", "K"]))

    def tables(self):
        pick = self.random.choice
        own = [{"id": "K", "type": pick(["Int", "Text"])}, {"id": "N", "type": "Int"}, {"id": "R", "type": "Ref:T"}]
        more = self.random.sample(FORMULAS, self.random.randrange(2, 6))
        own += [{"formula": self.named(text), "id": f"F{at}", "type": pick(["Any", "Int"])}
                for at, text in enumerate(more)]
        if self.random.random() < 0.3:
            text = self.named(pick(FORMULAS_OF_ANY))
            own += [{"formula": text, "id": "X", "type": pick(["Any", "Ref:T"])},
                    {"formula": self.named("$X.{k}"), "id": "Y"}]
        other = [{"id": "B", "type": "Int"}, {"id": "K", "type": "Int"}, {"id": "T", "type": "Ref:T"},
                 {"formula": self.named("$T.{k}"), "id": "G"}, {"formula": "$K + $B", "id": "H"}]
        self.columns["T"] += [column["id"] for column in own[3:]]
        self.columns["U"] += ["G", "H"]
        yield bundle(["AddTable", "T", own], ["AddTable", "U", other])
        count = self.random.randrange(2, 7)
        value = lambda: pick([None, 1, 2, 3, 5])
        yield bundle(["BulkAddRecord", "T", [None] * count, {
            "K": [value() for _ in range(count)], "N": [value() for _ in range(count)],
            "R": [self.random.randrange(0, count + 1) for _ in range(count)]}])
        yield bundle(["BulkAddRecord", "U", [None] * count, {
            "B": [value() for _ in range(count)], "K": [value() for _ in range(count)],
            "T": [self.random.randrange(0, count + 1) for _ in range(count)]}])

    def rules(self):
        actions = [["AddRecord", "_grist_ACLResources", None, {"colIds": ids, "tableId": table}]
                   for table, ids in (("T", "*"), ("T", "K,N"), ("U", "*"), ("T", "R"))]
        if self.random.random() < 0.8:
            attribute = {"charId": self.random.choice(["Email", "UserID"]),
                         "lookupColId": self.random.choice(["K", "N"]), "name": "P", "tableId": "T"}
            actions.append(["AddRecord", "_grist_ACLRules", None, {"userAttributes": json.dumps(attribute)}])
        for _ in range(self.random.randrange(0, 4)):
            actions.append(["AddRecord", "_grist_ACLRules", None, {
                # The owner sees everything, and so can rename whatever others do not see.
                "aclFormula": f"user.Access != OWNER and ({self.named(self.random.choice(RULES))})",
                "permissionsText": self.random.choice(["-R", "-U", "+R-U", "-UD", "all", "-CRUD"]),
                "resource": self.random.choice([1, 1, 2, 3, 4])}])
        yield bundle(*actions)

    def rename(self):
        table = self.random.choice("TTTU")
        names = [name for name in self.columns[table] if name not in ("R", "T")]
        return table, self.random.choice(names), self.random.choice(NEW_NAMES)

    def tries(self, called):
        """What the editor and the viewer ask for in the end; `called` gives a column's present name."""
        for session in ("te", "tv"):
            yield opening("tries" + session, session)
            for table in "TU":
                for column in self.columns[table][:3]:
                    row = self.random.randrange(1, 4)
                    change = {called(table, column): self.random.choice([None, 1, 2])}
                    yield bundle(["UpdateRecord", table, row, change], session="tries" + session)
                yield bundle(["RemoveRecord", table, self.random.randrange(1, 6)], session="tries" + session)


def lines_of(program, script):
    """The lines that the program gives, by session."""
    ran = subprocess.run([program, "replay"], input=script, capture_output=True, text=True, timeout=120, check=False)
    if ran.returncode:
        sys.exit(f"the program ended with {ran.returncode}")
    given = {}
    for line in ran.stdout.splitlines():
        told = json.loads(line)
        given.setdefault(told["session"], []).append(told["line"])
    return given


def view(reply):
    """The tables outside the metadata by column: its type, whether it has a formula, and its cells by row."""
    tables = {}
    for action in reply["ok"]["actions"]:
        if action[1].startswith("_"):
            continue
        if action[0] == "AddTable":
            tables[action[1]] = {column["id"]: [column["type"], column["isFormula"], column["formula"] is None, {}]
                                 for column in action[2]}
        elif action[0] == "BulkAddRecord":
            for column, values in action[3].items():
                tables[action[1]][column][3].update(zip(action[2], map(json.dumps, values)))
    return tables


def renamed(tables, table, old, new):
    """The view under the new name."""
    if old not in tables.get(table, {}):
        return tables
    columns = {new if column == old else column: told for column, told in tables[table].items()}
    return dict(tables, **{table: columns})


def looks(number):
    return "".join(opening(f"look{number}{token}", token) for token in TOKENS)


def same_views(given, asked, answers):
    """Whether each user sees the same before and after each rename."""
    for number, ((table, old, _), answer) in enumerate(zip(asked, answers)):
        new = answer["ok"]["retValues"][0] if "ok" in answer else old
        for token in TOKENS:
            before, after = (view(given[f"look{at}{token}"][-1]) for at in (number, number + 1))
            if renamed(before, table, old, new or old) != after:
                return False
    return True


def verdicts(given):
    told = []
    for session in ("trieste", "triestv"):
        for line in given[session][1:]:
            if "seq" not in line:
                told.append(json.dumps(line.get("error") or "accepted"))
    return told


def play(program, seed):
    """How many renames were accepted, how many were not resolved, and whether all is the same."""
    maker = Maker(seed)
    start = "".join(USERS) + opening("s1", "ta") + "".join(maker.tables()) + "".join(maker.rules())
    present = {table: {name: name for name in names} for table, names in maker.columns.items()}
    script, asked, answers, given = start + looks(0), [], [], {}
    for number in range(8):
        table, old, new = maker.rename()
        asked.append((table, present[table][old], new))
        script += ask("s1", column=present[table][old], method="renameColumn", new=new, table=table) + looks(number + 1)
        given = lines_of(program, script)
        answer = [line for line in given["s1"] if "seq" not in line][-1]
        answers.append(answer)
        if "ok" in answer and answer["ok"]["retValues"][0]:
            present[table][old] = answer["ok"]["retValues"][0]
    state = maker.random.getstate()
    with_names = lines_of(program, script + "".join(maker.tries(lambda table, column: present[table][column])))
    maker.random.setstate(state)
    without = lines_of(program, start + "".join(maker.tries(lambda table, column: column)))
    accepted = sum("ok" in answer for answer in answers)
    unresolved = sum(answer.get("error", {}).get("code") == 22 for answer in answers)
    return accepted, unresolved, same_views(given, asked, answers) and verdicts(with_names) == verdicts(without)


def main(program, renames=1000, seed=1):
    program, accepted, unresolved, differing, number = str(pathlib.Path(program).resolve()), 0, 0, [], int(seed)
    while accepted < int(renames):
        more, counted, same = play(program, number)
        accepted, unresolved = accepted + more, unresolved + counted
        if not same:
            differing.append(number)
        number += 1
    print(f"{number - int(seed)} documents, {accepted} renames accepted, {unresolved} not resolved, "
          f"{len(differing)} documents differ: {differing[:20]}")
    return 1 if differing else 0


if __name__ == "__main__":
    if not 2 <= len(sys.argv) <= 4:
        sys.exit(__doc__)
    sys.exit(main(*sys.argv[1:]))
