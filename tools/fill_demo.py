#!/usr/bin/env python3
"""Fills the new document of a running `grist_web` with people, projects, tasks and rules, and says what to open.

    python3 tools/fill_demo.py PORT

It waits until the server listens. The first user of examples/demo_users has to be an owner.
"""
import datetime
import sys

from web_sockets import WebClient

PATIENCE = 1800


def columns(*given):
    """Columns of data, and of formulas where a third text stands."""
    return [{"id": one[0], "type": one[1], **({"formula": one[2]} if one[2:] else {})} for one in given]


def day(text):
    """A date of that day."""
    return ["d", int(datetime.datetime.fromisoformat(text + "T00:00:00+00:00").timestamp())]


def rows(table, ids, *given):
    """The action that adds these rows."""
    return ["BulkAddRecord", table, [None] * len(given),
            {name: [row[place] for row in given] for place, name in enumerate(ids)}]


def rule(resource, table, cols, formula, permissions, memo):
    """The two actions of a rule, which is about the resource of that number."""
    return [["AddRecord", "_grist_ACLResources", None, {"colIds": cols, "tableId": table}],
            ["AddRecord", "_grist_ACLRules", None, {"aclFormula": formula, "memo": memo,
                                                   "permissionsText": permissions, "resource": resource}]]


DOCUMENT = [
    ["AddTable", "People", columns(("Name", "Text"), ("Email", "Text"), ("Role", "Text"), ("Rate", "Int"),
                                   ("Note", "Text"))],
    rows("People", ("Name", "Email", "Role", "Rate", "Note"),
         ("Olga Brandt", "olga@x.org", "Head of studio", 140, ""),
         ("Emil Sato", "emil@x.org", "Designer", 95, "asks for a rise in spring"),
         ("Vera Lindqvist", "vera@x.org", "Writer", 80, ""),
         ("Tom Adeyemi", "tom@x.org", "Developer", 110, "has another offer"),
         ("Ines Moreau", "ines@x.org", "Developer", 105, ""),
         ("Karl Weiss", "karl@x.org", "Photographer", 90, "free from June on")),
    ["AddTable", "Projects", columns(("Name", "Text"), ("Lead", "Ref:People"), ("Due", "Date"), ("Budget", "Int"),
                                     ("Private", "Bool"))],
    rows("Projects", ("Name", "Lead", "Due", "Budget", "Private"),
         ("Harbour museum", 2, day("2027-03-31"), 48000, False), ("Tea house", 3, day("2027-01-15"), 9500, False),
         ("Takeover plan", 1, day("2027-06-30"), 120000, True), ("Night trains", 4, day("2027-02-28"), 31000, False)),
    ["AddTable", "Tasks", columns(("Title", "Text"), ("Project", "Ref:Projects"), ("Who", "RefList:People"),
                                  ("Hours", "Int"), ("Due", "Date"), ("Done", "Bool"))],
    rows("Tasks", ("Title", "Project", "Who", "Hours", "Due", "Done"),
         ("Sketch the entrance hall", 1, ["L", 2], 12, day("2026-12-04"), True),
         ("Labels for the ship models", 1, ["L", 3, 2], 20, day("2026-12-11"), False),
         ("Light plan, east wing", 1, ["L", 6], 8, day("2026-12-18"), False),
         ("Menu, first print", 2, ["L", 3], 6, day("2026-12-02"), True),
         ("Photographs of the garden", 2, ["L", 6], 10, day("2026-12-09"), False),
         ("Price the offer", 3, ["L", 1], 30, day("2026-12-15"), False),
         ("Talks with the bank", 3, ["L", 1, 4], 16, day("2027-01-08"), False),
         ("Timetable as a web page", 4, ["L", 4, 5], 42, day("2027-01-22"), False),
         ("Seat map", 4, ["L", 5], 18, day("2027-01-12"), False),
         ("Posters for three stations", 4, ["L", 2, 6], 24, day("2027-02-05"), False)),
    ["AddColumn", "Projects", "Hours", {"type": "Int", "formula": "SUM(Tasks.lookupRecords(Project=$id).Hours)"}],
    ["AddColumn", "Projects", "Open", {"type": "Int", "formula":
                                       "len(Tasks.lookupRecords(Project=$id, Done=False))"}],
    ["AddColumn", "Tasks", "Secret", {"type": "Bool", "formula": "$Project.Private"}],
]

RULES = [
    ("Tasks", "*", "user.Access != OWNER and rec.Secret", "-RUD", ""),
    ("Tasks", "Secret", "user.Access != OWNER", "-R", ""),
    ("Tasks", "Title,Project,Who,Hours,Due", "user.Access != OWNER and rec.Done", "-U",
     "a task that is done stays as it is: open it again first"),
    ("Projects", "*", "user.Access != OWNER and rec.Private", "-RUD", ""),
    ("Projects", "Budget", "user.Access != OWNER and rec.Budget >= 30000", "-R", ""),
    ("Projects", "Budget,Private", "user.Access != OWNER", "-U", "only the owner decides on money"),
    ("People", "Rate", "user.Access != OWNER and rec.Email != user.Email", "-RU", ""),
    ("People", "Note", "user.Access != OWNER", "-RU", ""),
    ("People", "*", "user.Access != OWNER", "-CUD", "the owner keeps the list of people"),
    ("*", "*", "user.Access != OWNER", "-S", "the owner makes tables and columns"),
]


def main():
    port = int(sys.argv[1])
    client = WebClient(port, PATIENCE)
    rules = [action for number, one in enumerate(RULES, 1) for action in rule(number, *one)]
    bundles = [["RemoveTable", "Table1"]] + DOCUMENT, rules
    replies = [client.ask({"method": "openDoc", "token": "olga"})[1]]
    replies += [client.ask({"actions": actions, "method": "applyUserActions"})[1] for actions in bundles]
    client.close()
    for reply in replies:
        if "error" in reply:
            print("the document could not be filled:", reply["error"])
            return 1
    if len(sys.argv) == 2:
        names = "left=olga&left-name=Olga&left-told=owner&right=emil&right-name=Emil&right-told=editor"
        print(f"""
The document is there. Open in a browser:

  two people side by side   http://127.0.0.1:{port}/two#{names}&table=Projects
  Olga, who owns it         http://127.0.0.1:{port}/#token=olga&name=Olga
  Emil, who edits           http://127.0.0.1:{port}/#token=emil&name=Emil
  Vera, who looks           http://127.0.0.1:{port}/#token=vera&name=Vera

Ctrl+C ends the server, and the document with it.""", flush=True)
    return 0


if __name__ == "__main__":
    sys.exit(main())
