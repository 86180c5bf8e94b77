"""Lines for the program and runs over them: what the tools that measure and try it share."""
import json
import os
import pathlib
import subprocess
import tempfile
import time

ROOT = pathlib.Path(__file__).resolve().parent.parent
PROGRAM = str(ROOT / "crates" / "grist_main" / "out" / "grist_main")
BULK_ROWS = 5_000  # As many rows as one line of an ordinary script adds.


def user(token="ta", access="owners", number=1, name="Ann"):
    """A line of input that tells of a user."""
    told = {"access": access, "email": f"{name.lower()}@x.org", "id": number, "name": name, "token": token}
    return json.dumps({"user": told}) + "\n"


def ask(session, **line):
    """A request of a session."""
    return json.dumps({"line": line, "session": session}) + "\n"


def bundle(*actions, session="s1"):
    return ask(session, method="applyUserActions", actions=list(actions))


def opening(session="s1", token="ta"):
    return ask(session, method="openDoc", token=token)


def closing(session="s1"):
    return ask(session, method="closeDoc")


USER, OPEN = user(), opening()


def table(id, **types):
    """A bundle that adds a table with these columns; what is behind a `=` is a formula, of an Int column where no type stands before it."""
    return bundle(["AddTable", id, [column(name, kind) for name, kind in types.items()]])


def column(id, kind):
    kind, is_formula, text = kind.partition("=")
    if is_formula:
        return {"id": id, "type": kind or "Int", "formula": text, "isFormula": True}
    return {"id": id, "type": kind}


def formula(table, id, text):
    return bundle(["AddColumn", table, id, {"formula": text, "isFormula": True, "type": "Int"}])


def rows(table, each=BULK_ROWS, **columns):
    """Bundles that add rows with these columns of values, so many each."""
    count = len(next(iter(columns.values())))
    for first in range(0, count, each):
        part = {name: list(values[first:first + each]) for name, values in columns.items()}
        yield bundle(["BulkAddRecord", table, [None] * min(each, count - first), part])


def update(table, row, session="s1", **cells):
    return bundle(["UpdateRecord", table, row, cells], session=session)


def run_once(lines, words=("replay",), folder=None, program=None, processors=None):
    """The seconds of a run over these lines, on these processors alone where some are given, its peak memory in bytes,
    and what it wrote."""
    only = processors and (lambda: os.sched_setaffinity(0, processors))
    with tempfile.TemporaryFile() as script, tempfile.TemporaryFile() as out:
        script.writelines(line.encode() for line in lines)
        script.seek(0)
        start = time.monotonic()
        run = subprocess.Popen([program or PROGRAM, *words], stdin=script, stdout=out, cwd=folder, preexec_fn=only)
        _, status, usage = os.wait4(run.pid, 0)
        seconds = time.monotonic() - start
        run.returncode = os.waitstatus_to_exitcode(status)
        if run.returncode:
            raise SystemExit(f"the program ended with {run.returncode}")
        out.seek(0)
        return seconds, usage.ru_maxrss * 1024, out.read()


def least(lines, times=3, words=("replay",), folder=None, processors=None):
    """The least seconds of so many runs over these lines, and the greatest peak of memory."""
    lines = list(lines)
    ran = [run_once(lines, words, folder, processors=processors)[:2] for _ in range(times)]
    return min(seconds for seconds, _ in ran), max(peak for _, peak in ran)


def told(lines, words=("replay",), folder=None):
    """What each line that a run writes says; a refusal ends the tool."""
    found = [json.loads(line)["line"] for line in run_once(lines, words, folder)[2].splitlines()]
    refused = [it for it in found if "error" in it]
    if refused:
        raise SystemExit(f"the program answered {json.dumps(refused[0])}")
    return found


def compiled(folder, source, *libraries):
    """A program of tools/rivals, built into a folder."""
    place = os.path.join(folder, pathlib.Path(source).stem)
    text = str(ROOT / "tools" / "rivals" / source)
    words = ["rustc", "-O", text, "-o", place] if source.endswith(".rs") else ["cc", "-O2", "-w", "-o", place, text, *libraries]
    subprocess.run(words, check=True)
    return place


def numbers_told(words, folder=None):
    """The numbers that a rival prints."""
    return [float(it) for it in subprocess.run(words, cwd=folder, check=True, stdout=subprocess.PIPE, text=True).stdout.split()]
