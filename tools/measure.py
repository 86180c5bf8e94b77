#!/usr/bin/env python3
"""Measures the built program, workload by workload, and prints the rows of docs/MEASURED.md.

    python3 tools/measure.py [--small] [NAME..]      all workloads where no name is given

It runs crates/grist_main/out/grist_main, which `rt run` in crates/grist_main makes. Each workload stands in the table
WORKLOADS below; rivals (SQLite, an echo server, PostgreSQL) stand in tools/rivals and take turns with the program.
What a part of a script takes is the time of the script with it less that without it; scripts are run three or five
times, and the least time counts. Measure on an idle machine: the load is printed with the commit. The column "before"
has what the page says now. With --small each is run over less, to see that it runs.
"""
import os
import pathlib
import re
import shutil
import statistics
import subprocess
import sys
import tempfile
import time

from loopback import joined
from rivals import postgres, triggers
import scripts
from scripts import OPEN, USER, bundle, closing, column, formula, least, opening, rows, run_once, table, told, update, user

PAGE = scripts.ROOT / "docs" / "MEASURED.md"
SMALL = "--small" in sys.argv


def size(count):
    return max(count // 50, 20) if SMALL else count


def added_rows():
    """Records added one a bundle: 50,000 and twice as many."""
    add = [bundle(["AddRecord", "Table1", None, {"A": row, "B": f"x{row}"}]) for row in range(size(100_000))]
    half = len(add) // 2
    once, low = least([USER, OPEN, *add[:half]])
    twice, high = least([USER, OPEN, *add])
    yield f"{half:,} records added one a bundle, each", f"{1e6 * once / half:.1f} µs", ""
    yield f"{2 * half:,} records beside {half:,}", f"{twice / once:.2f} times", ""
    yield "peak memory of an added record, with its entry in the history", f"{(high - low) / half:.0f} bytes", ""


def bundles():
    """Bundles of 500 added records over loaded tables."""
    count, each, seconds, peaks = size(60), 500, {}, {}
    add = [["AddRecord", "Table1", None, {"A": n, "B": f"x{n}"}] for n in range(count * each)]
    more = [bundle(*add[k * each:(k + 1) * each]) for k in range(count)]
    for loaded in (2_000, 25_000, 50_000):
        before = [USER, OPEN, *rows("Table1", A=range(loaded), B=[f"x{n}" for n in range(loaded)])]
        without, peaks[loaded] = least(before, 5)
        seconds[loaded] = (least(before + more, 5)[0] - without) / count / each
    yield "a record added in a bundle of 500 over 50,000 rows", f"{1e6 * seconds[50_000]:.2f} µs", ""
    yield "the same beside 2,000 rows", f"{seconds[50_000] / seconds[2_000]:.2f} times", ""
    yield "peak memory of a loaded cell, with its line and its entry", f"{(peaks[50_000] - peaks[25_000]) / 75_000:.0f} bytes", ""


def undo():
    """Bundles of 500 updates of one cell each, and undos of half of them."""
    each, count = 500, size(100)
    before = [USER, OPEN, *rows("Table1", A=range(each), B=[f"x{n}" for n in range(each)])]
    done = [bundle(*(["UpdateRecord", "Table1", row, {"A": k * 1_000_000 + row}] for row in range(1, each + 1)))
            for k in range(1, count + 1)]
    numbers = range(1 + count, 1 + count - count // 2, -1)
    undone = [scripts.ask("s1", method="undo", bundle=number) for number in numbers]
    first, _ = least(before, 5)
    second, peak = least(before + done, 5)
    third, _ = least(before + done + undone, 5)
    _, without = least(before + [line + closing() + OPEN for line in done], 5)
    yield "an undo of 500 updates beside its bundle", f"{(third - second) / (second - first) * count / (count // 2):.2f} times", ""
    yield "what the log of a session holds of an updated cell", f"{(peak - without) / count / each:.0f} bytes", ""


def rules():
    """A bundle that updates a cell of each of 5,000 rows, by an editor, under no rule, one of the row, and many others."""
    count, times = size(5_000), 10
    editor = [user("te", "editors", 9, "Ed"), opening("s2", "te")]
    text = "rec.A == 1000000 and user.Access == EDITOR"

    def seconds_of(own, others):
        lines = [USER, editor[0], OPEN, editor[1], *rows("Table1", count, A=range(count), B=["x"] * count)]
        tables = ["Table1"] * own + [f"T{n}" for n in range(others)]
        if tables:
            lines += rows("_grist_ACLResources", tableId=tables, colIds=["*"] * len(tables))
            lines += rows("_grist_ACLRules", resource=range(1, len(tables) + 1), aclFormula=[text] * len(tables),
                          permissionsText=["-U"] * len(tables))
        ids = list(range(1, count + 1))
        more = [bundle(["BulkUpdateRecord", "Table1", ids, {"B": [f"y{k}"] * count}], session="s2")
                for k in range(times)]
        return (least(lines + more, 5)[0] - least(lines, 5)[0]) / times

    none, one, many, both = seconds_of(0, 0), seconds_of(1, 0), seconds_of(0, 1_000), seconds_of(1, 1_000)
    yield "a cell that a rule of its row is asked about, more than without", f"{1e9 * (one - none) / count:.0f} ns", ""
    yield "a bundle under that rule and 1,000 rules of other tables, beside that rule alone", f"{both / one:.2f} times", ""
    yield "the same beside no rule at all", f"{many / none:.2f} times", ""


def formulas():
    """Formula columns over a chain of rows and over sums of lookups, filled at once."""
    chain = "Run.lookupOne(id=$id - 1).V + $A"
    seconds = {}
    for count in (size(10_000), size(50_000), size(100_000)):
        plain, with_cells = ([USER, OPEN, bundle(["AddTable", "Run", columns]), *rows("Run", count, A=[1] * count)]
                             for columns in ([column("A", "Int")], [column("A", "Int"), column("V", "=" + chain)]))
        check_last(told(with_cells), "V", count)
        (without, low), (seconds[count], high) = least(plain), least(with_cells)
        seconds[count] -= without
        told_of = f"{1e6 * seconds[count] / count:.2f} µs, {(high - low) / count:.0f} bytes"
        yield f"a formula cell of a chain of {count:,}, with its line", told_of, "400 bytes"
        if shutil.which("rustc"):
            with tempfile.TemporaryDirectory() as folder:
                plain_rust = scripts.numbers_told([scripts.compiled(folder, "boxed_chain.rs"), str(count)])[0]
            beside = f"{1e9 * seconds[count] / count / plain_rust:.0f} times"
            yield (f"a cell of a chain of {count:,}, with its line, beside an addition of boxed values in Rust", beside,
                   "40, of its evaluation alone")
    half, whole = sorted(seconds)[1:]
    yield f"a chain of {whole:,} rows beside {half:,}", f"{seconds[whole] / seconds[half]:.2f} times", "2.3"
    tasks, projects = size(5_000), 100
    project, hours = [n * 37 % projects + 1 for n in range(tasks)], [n * 7919 % 40 for n in range(tasks)]
    total = [sum(hour for hour, own in zip(hours, project) if own == row) for row in range(1, projects + 1)]
    before = [USER, OPEN, table("Projects", Name="Text"), *rows("Projects", Name=[f"p{n}" for n in range(projects)]),
              table("Tasks", Project="Ref:Projects", Hours="Int"), *rows("Tasks", Project=project, Hours=hours)]
    of_tasks = formula("Tasks", "Total2", "SUM(Tasks.lookupRecords(Project=$Project).Hours)")
    check_last(told([*before, of_tasks]), "Total2", total[project[-1] - 1])
    (without, low), (filled, high) = least(before), least([*before, of_tasks])
    told_of = f"{1e6 * (filled - without) / tasks:.1f} µs, {(high - low) / tasks:.0f} bytes"
    yield f"{tasks:,} sums over lookups of {tasks // projects} rows, a cell", told_of, ""


def check_last(lines, column, wanted):
    """That the last changes which hold a column tell this of its last row."""
    found = [action[3][column][-1] for line in lines for action in line.get("actions", [])
             if action[0] in ("BulkAddRecord", "BulkUpdateRecord") and column in action[3]]
    if found[-1:] != [wanted]:
        raise SystemExit(f"the last cell of {column} is not {wanted}")


def updates():
    """One change of a document with formulas, beside triggers of SQLite."""
    count, few, before = size(101), max(5, size(101) // 10), {}

    def row(what, load, edits, theirs, aim=""):
        first = least(load + edits[:1])[0]
        ours = (least(load + edits)[0] - first) * 1e3 / (len(edits) - 1)
        before[what] = ours
        return what, f"{ours:.3f} ms, {ours / theirs:.2f} of SQLite", aim

    second = opening("s2")
    for length in (1_000, 10_000):
        load = [USER, OPEN, second, table("Run", A="Int"), *rows("Run", A=[1] * length)]
        load.append(formula("Run", "V", "Run.lookupOne(id=$id - 1).V + $A"))
        yield row(f"a cell at the end of a chain of {length:,}", load,
                  [update("Run", length - 1, A=n + 2) for n in range(count)],
                  triggers.chain(length, length - 1, count), "0.02 ms")
        yield row(f"a cell at the start of a chain of {length:,}", load, [update("Run", 1, A=n + 2) for n in range(few)],
                  triggers.chain(length, 1, few), "6.5 ms" if length == 10_000 else "")
    for length in (5_000, 50_000):
        keys, numbers = length // triggers.ROWS_A_KEY, range(1, length + 1)
        load = [USER, OPEN, second, table("Work", N="Int", K="Int")]
        load += rows("Work", N=[n % 1000 - 500 for n in numbers], K=[n % keys for n in numbers])
        load += [formula("Work", "Q", "$N // 3"), formula("Work", "S", "SUM(Work.lookupRecords(K=$K).N)")]
        yield row(f"a number that 50 sums read, of {length:,} rows", load,
                  [update("Work", n * 17 % length + 1, N=n + 1000) for n in range(count)],
                  triggers.sums(length, count, False), "0.5 ms")
        yield row(f"a row that 50 sums read, added to {length:,}", load,
                  [bundle(["AddRecord", "Work", None, {"N": n, "K": n % keys}]) for n in range(few)],
                  triggers.sums(length, few, True), "1 ms")
    ends = [before[f"a cell at the end of a chain of {length:,}"] for length in (10_000, 1_000)]
    reads, come = ([before[f"{what} {length:,}{of}"] for length in (50_000, 5_000)]
                   for what, of in (("a number that 50 sums read, of", " rows"), ("a row that 50 sums read, added to", "")))
    yield "a cell at the end of a chain, 10,000 rows beside 1,000", f"{ends[0] / ends[1]:.2f} times", "1.5"
    yield "a number that 50 sums read, 50,000 rows beside 5,000", f"{reads[0] / reads[1]:.2f} times", "flat"
    yield "a row that 50 sums read, 50,000 rows beside 5,000", f"{come[0] / come[1]:.2f} times", "flat"


FEW = {"Q": "$N // 3", "S": "SUM(Work.lookupRecords(K=$K).N)"}
MORE = {**FEW, "T": "SUM(Work.lookupRecords(K=$K).Q)", "U": "$N + $S", "V": "MAX(Work.lookupRecords(K=$K).N)",
        "W": "$S if $N < 0 else $Q"}
# Two of six look rows up.
SIX = {**FEW, "T": "MAX(Work.lookupRecords(K=$K).Q)", "U": "$N + $S", "V": "$Q * 2", "W": "$S if $N < 0 else $Q"}


def work_rows(count):
    """Rows of a table of numbers, 50 of a key."""
    keys = max(count // 50, 1)
    return rows("Work", 500, N=[n * 7919 % 1000 - 500 for n in range(count)], K=[n * 37 % keys for n in range(count)])


def opened():
    """A kept document as the generator makes it, opened, and told whole to a session."""
    count, words = size(5_000), ("replay", "--doc", "work")
    for texts in (FEW, MORE):
        lines = [USER, OPEN, table("Work", N="Int", K="Int", **{id: "=" + text for id, text in texts.items()})]
        lines += work_rows(count)
        lines += [update("Work", row, N=row * 31 % 1000 - 500) for row in range(1, min(count, 200) + 1)]
        with tempfile.TemporaryDirectory() as folder:
            made = run_once(lines, words, folder)[0]
            alone, shown = least([USER], 5, words, folder)[0], least([USER, OPEN], 5, words, folder)[0]
        yield (f"a kept document of {count:,} rows and {len(texts)} formula columns, opened and told whole",
               f"{1e3 * shown:.0f} ms ({1e3 * alone:.0f} opened, made in {made:.2f} s)", "500 ms")


def levels():
    """Kept documents opened on one processor and on all: their formula columns are evaluated level by level."""
    words, every = ("replay", "--doc", "work"), os.sched_getaffinity(0)
    one = {min(every)}
    for count in (size(5_000), size(200_000)):
        data = [USER, OPEN, table("Work", N="Int", K="Int"), *work_rows(count)]
        with tempfile.TemporaryDirectory() as folder:
            run_once(data, words, folder)
            plain = least([USER], 3, words, folder, one)[0]
            run_once([USER, OPEN, *(formula("Work", id, text) for id, text in SIX.items())], words, folder)
            alone, low = least([USER], 3, words, folder, one)
            shared, high = least([USER], 3, words, folder, every)
        yield (f"a kept document of {count:,} rows and {len(SIX)} formula columns, opened on {len(every)} processors",
               f"{1e3 * shared:.0f} ms, {shared / alone:.2f} of one processor's time, {high / low:.2f} of its memory "
               f"({1e3 * plain:.0f} ms without formulas)", "0.4" if count > size(5_000) else "1")


def keeping():
    """Records kept, beside a C program over SQLite in the same mode; and documents opened again."""
    count = size(5_000)

    def clear(folder, name):
        for file in pathlib.Path(folder).glob(f"{name}*"):
            file.unlink()

    add = [bundle(["AddRecord", "Table1", None, {"A": row, "B": f"x{row}"}]) for row in range(2 * count)]
    with tempfile.TemporaryDirectory() as folder:
        rival, ours, theirs, costs = scripts.compiled(folder, "keeper.c", "-lsqlite3"), [], [], []
        for _ in range(5):
            clear(folder, "a.grist"), clear(folder, "c.db")
            kept = run_once([USER, OPEN, *add[:count]], ("replay", "--doc", "a"), folder)[0]
            ours.append(kept - run_once([USER, OPEN, *add[:count]])[0])
            theirs.append(scripts.numbers_told([rival, "copy", "a.grist", "c.db"], folder)[0])
        mine, c = count / statistics.median(ours), count / statistics.median(theirs)
        yield "records kept a second, one a bundle", f"{mine:,.0f}, {mine / c:.2f} of SQLite in C", "0.85"
        for number in (count, 2 * count):
            clear(folder, "b.grist"), clear(folder, "e.grist")
            run_once([USER, OPEN, *add[:number]], ("replay", "--doc", "b"), folder)
            run_once([USER], ("replay", "--doc", "e"), folder)
            whole, empty = (statistics.median(run_once([USER], ("replay", "--doc", it), folder)[0] for _ in range(7))
                            for it in "be")
            read = statistics.median(scripts.numbers_told([rival, "read", "b.grist"], folder)[0] for _ in range(7))
            costs.append(whole - empty)
            yield (f"{number:,} bundles opened again",
                   f"{1e3 * costs[-1]:.1f} ms, where C reads the file in {1e3 * read:.1f}", "")
        yield f"{2 * count:,} bundles opened again beside {count:,}", f"{costs[1] / costs[0]:.2f} times", ""


def serving():
    """Sixteen connections that add rows, beside an echo server and SQLite in C, and beside one that reads nothing."""
    lanes, port, echo, requests = 16, 21400, 21390, size(1_000)

    def served(folder, rival, *doc, idle=False):
        words = [scripts.PROGRAM, "serve", "--lanes", str(lanes + idle), "--port", str(port), "--conns", "1", *doc]
        server = subprocess.Popen(words, stdin=subprocess.PIPE, stdout=subprocess.PIPE, cwd=folder)
        server.stdin.write(USER.encode())
        server.stdin.close()
        if idle:
            quiet = joined(port + lanes)
            quiet.sendall(b'{"method":"openDoc","token":"ta"}\n')
            time.sleep(0.2)
            quiet.sendall(b'{"method":"fetchTable","table":"Table1"}\n' * 1_000)
        speed = scripts.numbers_told([rival, "load", str(port), "1", str(requests)])
        if idle:
            quiet.close()
        line = server.stdout.read().decode()
        if server.wait() or f'"bundles":{lanes * requests},' not in line:
            raise SystemExit(f"the server told {line!r} and ended with {server.returncode}")
        return speed

    turns = {"echo": [], "memory": [], "sqlite": [], "kept": [], "idle": []}
    with tempfile.TemporaryDirectory() as folder:
        rival = scripts.compiled(folder, "serving.c", "-lpthread", "-lsqlite3")
        other = subprocess.Popen([rival, "echo", str(echo)])
        for number in range(3):
            turns["echo"].append(scripts.numbers_told([rival, "load", str(echo), "0", str(requests)]))
            turns["memory"].append(served(folder, rival))
            plain = os.path.join(folder, f"plain{number}")
            turns["sqlite"].append(scripts.numbers_told([rival, "sqlite", plain, str(requests)]))
            turns["kept"].append(served(folder, rival, "--doc", f"book{number}"))
            turns["idle"].append(served(folder, rival, idle=True))
        other.kill()
    (echoes, _), (asked, lines), (plain, _), (kept, _), (beside, _) = (max(it) for it in turns.values())
    yield f"requests a second of {lanes} connections, in memory", f"{asked:,.0f}, {lines:,.0f} lines", ""
    yield "their lines beside those of an echo server in C", f"{lines / echoes:.2f}", "0.5"
    yield "requests a second over a kept document", f"{kept:,.0f}, {kept / plain:.2f} of SQLite in C by 16 threads", "0.85"
    yield "requests beside a connection that reads nothing", f"{beside / asked:.2f} of those without it", ""


REGIONS = ("North", "East", "South", "West")
TASK = {"Region": "Text", "Title": "Text", "N": "Int", "Cost": "Int", "Note": "Text", "Secret": "Int",
        "Assignee": "Text", "Stage": "Int", "Hours": "Int"}
PEOPLE = (("owners", "ann"), ("editors", "ed"), ("editors", "eve"), ("viewers", "vi"))
ATTRIBUTE = '{"charId":"Email","lookupColId":"Email","name":"Who","tableId":"People"}'
RULES = (  # the resource, the formula, what it allows and denies
    ("Tasks", "Cost", "user.Access == VIEWER", "-R"),
    ("Tasks", "Cost", "user.Access == EDITOR and newRec.Cost < 0", "-U"),
    ("Tasks", "Note", "rec.Secret == 1 and user.Access != OWNER", "-R"),
    ("Tasks", "Assignee", "user.Access == EDITOR and rec.Assignee != newRec.Assignee", "-U"),
    ("Tasks", "*", "user.Access == VIEWER and rec.Region != user.Who.Region", "-R"),
    ("Tasks", "*", "user.Access == EDITOR and rec.Stage == 9", "-UD"),
    ("Tasks", "*", "user.Access == VIEWER", "-CUD"),
    ("People", "*", "user.Access != OWNER", "-CRUD"),
    ("Projects", "*", "user.Access == VIEWER", "-R"),
    ("Projects", "*", "user.Access == EDITOR", "-CUD"),
    ("*", "*", "user.Access != OWNER", "-S"),
)


def peeks():
    """One connection that writes beside sixteen open sessions: that look at nothing, that peek at its table of 1,000 rows now and then and without a pause, also at another server, and that fetch it; and looks a second where nobody writes."""
    lookers, port, milliseconds = 16, 21600, size(3_000)

    def started(first, count):
        words = [scripts.PROGRAM, "serve", "--lanes", str(count + 1), "--port", str(first), "--conns", "1"]
        server = subprocess.Popen(words, stdin=subprocess.PIPE, stdout=subprocess.PIPE)
        server.stdin.write(USER.encode())
        server.stdin.close()
        return server

    def rival_words(first, count, method, pause, quiet, more=0):
        return [rival, str(first), str(count), method, str(milliseconds + more), str(pause), str(quiet)]

    def speeds(count, method="peekTable", pause=0, quiet=0):
        server = started(port, count)
        found = scripts.numbers_told(rival_words(port, count, method, pause, quiet))
        if server.wait():
            raise SystemExit(f"the server ended with {server.returncode}")
        return found

    def apart():
        """The one that writes, at one server, beside those that peek at another."""
        other = started(port + 100, lookers)
        looking = subprocess.Popen(rival_words(port + 100, lookers, "peekTable", 0, 1, more=1_000), stdout=subprocess.DEVNULL)
        found = speeds(0)
        looking.wait()
        other.wait()
        return found

    def turn():
        yield speeds(0)
        yield speeds(lookers, "none", pause=50_000)
        yield speeds(lookers, pause=50_000)
        yield speeds(lookers)
        yield apart()
        yield speeds(lookers, "fetchTable")
        yield speeds(lookers, quiet=1)
        yield speeds(lookers, "fetchTable", quiet=1)

    with tempfile.TemporaryDirectory() as folder:
        rival = scripts.compiled(folder, "peeks.c", "-lpthread")
        turns = [list(turn()) for _ in range(3)]
    alone, beside, resting, peeking, elsewhere, fetching = (max(it[place][0] for it in turns) for place in range(6))
    peeked, fetched, peeked_alone, fetched_alone = (max(it[place][1] for it in turns) for place in (3, 5, 6, 7))
    yield "bundles a second of one connection that writes", f"{alone:,.0f}", ""
    yield f"the same beside {lookers} open sessions that look at nothing", f"{beside:,.0f}", ""
    yield f"the same beside {lookers} that peek at its table of 1,000 rows, each up to 20 times a second", f"{resting / beside:.2f} of those that look at nothing", "0.9"
    yield f"the same beside {lookers} that peek without a pause", f"{peeking / alone:.2f} of one alone", ""
    yield f"the same beside {lookers} that peek so at another server", f"{elsewhere / alone:.2f} of one alone", ""
    yield f"the same beside {lookers} that fetch it", f"{fetching / alone:.2f} of one alone", ""
    yield "peeks a second without a pause, and where nobody writes", f"{peeked:,.0f}, {peeked / fetched:.1f} times the fetches; {peeked_alone:,.0f}, {peeked_alone / fetched_alone:.1f} times", "4"


def task(row):
    return (REGIONS[row % 4], f"Task {row}", row % 500, row * 7 % 1_000, f"about the task {row}",
            int(row // 4 % 5 == 0), f"p{row % 40}@x.org", row % 7, row % 24)


def tasks(count):
    """The lines of a document of tasks under twelve rules, one of them with an attribute of users."""
    yield from (user(name, access, number + 1, name) for number, (access, name) in enumerate(PEOPLE))
    yield opening("s1", "ann")
    yield table("Tasks", **TASK) + table("People", Email="Text", Region="Text") + table("Projects", Name="Text")
    yield bundle(["RemoveTable", "Table1"])
    yield from rows("Tasks", **dict(zip(TASK, map(list, zip(*map(task, range(count)))))))
    names = [name for _, name in PEOPLE] + [f"p{n}" for n in range(36)]
    yield from rows("People", Email=[f"{name}@x.org" for name in names],
                    Region=["South" if name == "vi" else "North" for name in names])
    yield from rows("Projects", Name=[f"Project {n}" for n in range(12)])
    yield from rules_lines(RULES)


def views():
    """A censored table opened by a viewer, beside PostgreSQL under row security; updates beside other sessions."""
    count, times = size(5_000), size(100)
    before = list(tasks(count))
    shown = str(told(before + [opening("vi0", "vi")])[-1])
    if shown.count("['C']") != count // 20 or "'Cost'" in shown or shown.count("'Task ") != count // 4:
        raise SystemExit("the viewer is not shown what the rules say")
    own = (least(before + [opening("vi0", "vi"), closing("vi0")] * times, 5)[0] - least(before, 5)[0]) / times
    yield (f"{count:,} tasks, a quarter of them shown, opened by a viewer under 12 rules",
           f"{1e3 * own:.3f} ms, {1e9 * own / count:.0f} ns a row of the table", "")
    programs = postgres.postgres_folder()
    if programs:
        yield "the same beside PostgreSQL, which reads the same rows", f"{1e3 * own / postgres_reading(programs, count):.2f} times", "0.25"

    def updating(count, sessions):
        before = [*tasks(count), *(opening(f"{name}{n}", name) for n in range(sessions // 4)
                                   for _, name in PEOPLE if (name, n) != ("ann", 0))]
        more = [update("Tasks", n * 7 % count + 1, session="ed0", Hours=n) for n in range(size(1_000))]
        told(before + more[:3])
        return (least(before + more, 5)[0] - least(before, 5)[0]) / len(more)

    few, many, wide = updating(count, 4), updating(count, 40), updating(10 * count, 4)
    yield "an updated cell beside 4 sessions of four users", f"{1e6 * few:.1f} µs", ""
    yield "the same beside 40 sessions", f"{many / few:.2f} times", "2"
    yield f"the same over {10 * count:,} rows", f"{wide / few:.2f} times", "1.3"


def postgres_reading(programs, count):
    """Milliseconds that PostgreSQL reads the viewer's rows in."""
    with tempfile.TemporaryDirectory(prefix="views-") as folder:
        server = postgres.Postgres(programs, folder)
        try:
            kinds = ", ".join(f"{name.lower()} {kind.lower()}" for name, kind in TASK.items())
            lines = "".join("\t".join(map(str, (row + 1, *task(row)))) + "\n" for row in range(count))
            text = (scripts.ROOT / "tools" / "rivals" / "views.sql").read_text()
            server.ask(f"create table tasks(id int primary key, {kinds});\ncopy tasks from stdin;\n{lines}\\.\n{text}")
            shown = server.ask("select count(*), count(*) filter (where note = '[C]') from shown", "viewer").strip()
            if shown != f"{count // 4}|{count // 20}":
                raise SystemExit(f"PostgreSQL shows {shown} rows and censored cells")
            return server.milliseconds("select * from shown;")
        finally:
            server.stop()


def audits():
    """An audit of one user of a wide table under many rules, and one of many users under few."""
    ids, count, many = [f"C{n}" for n in range(size(1_024))], size(1_000), size(4_096)
    wide = [USER, OPEN, table("Wide", **dict.fromkeys(ids, "Int")),
            *rows("_grist_ACLResources", tableId=["Wide"], colIds=["*"]),
            *rows("_grist_ACLRules", resource=[1] * count, permissionsText=["-U"] * count,
                  aclFormula=[f"rec.{ids[n % len(ids)]} == 1 and user.Access == EDITOR" for n in range(count)])]
    users = [user(f"t{n}", "editors", n, "Ed") for n in range(many)]
    with tempfile.TemporaryDirectory() as folder:
        for name, lines in (("wide", wide), ("work", tasks(size(5_000)))):
            run_once(lines, ("replay", "--doc", name), folder)
        words = {name: ("audit", "--doc", name) for name in ("wide", "work")}
        alone, one = least([], 3, words["wide"], folder)[0], least([USER], 3, words["wide"], folder)[0]
        none, all_of_them = least([], 3, words["work"], folder)[0], least(users, 3, words["work"], folder)[0]
    yield (f"an audit of a user of a table of {len(ids):,} columns under {count:,} rules of all of them",
           f"{one:.2f} s ({alone:.2f} s without a user)", "2 s")
    yield (f"an audit of {many:,} users of the tasks under 12 rules",
           f"{all_of_them:.2f} s ({none:.2f} s without users)", "2 s")


WORK = {"Who": "Ref:People", "Title": "Text", "Region": "Text=$Project.Region", "Rate": "Int", "Project": "Ref:Projects",
        "Open": "=IF($Done, 0, $Hours)", "Hours": "Int", "Done": "Bool", "Cost": "=$Hours * $Rate"}
WORK_RULES = (
    ("Tasks", "*", "user.Access == EDITOR and rec.Region != user.Who.Region", "-R"),
    ("Tasks", "Rate,Cost", "user.Access == VIEWER", "-R"),
    ("Tasks", "*", "rec.Done and user.Access == EDITOR", "-U"),
    ("Projects", "Budget,Left", "user.Access != OWNER", "-R"),
    ("Projects", "*", "user.Access == EDITOR", "-CD"),
    ("People", "Email", "user.Access == VIEWER", "-R"),
    ("*", "*", "user.Access == EDITOR", "-S"),
    ("Tasks", "*", "user.Access == EDITOR", "-D"),
    ("Tasks", "Who", "rec.Done and user.Access == VIEWER", "-R"),
)
WORKERS = (("owners", "ann"), ("editors", "p3"), ("editors", "p4"), ("viewers", "vi"))


def work(count):
    """The lines of a document of tasks, people and projects with sums over lookups, which four users have open."""
    people = max(count // 25, 8)
    yield from (user(name, access, number + 1, name) for number, (access, name) in enumerate(WORKERS))
    yield opening("s0", "ann")
    yield bundle(["AddTable", "Tasks", [column(name, kind) for name, kind in WORK.items()]],
                 ["AddTable", "People", [column(name, kind) for name, kind in dict(
                     Name="Text", Email="Text", Region="Text",
                     Load="=SUM(Tasks.lookupRecords(Who=$id).Open)").items()]],
                 ["AddTable", "Projects", [column(name, kind) for name, kind in dict(
                     Title="Text", Region="Text", Budget="Int", Spent="=SUM(Tasks.lookupRecords(Project=$id).Cost)",
                     Left="=$Budget - $Spent").items()]], session="s0")
    for line in (*rows("People", Name=[f"P{n}" for n in range(people)], Email=[f"p{n}@x.org" for n in range(people)],
                       Region=[REGIONS[n % 2] for n in range(people)]),
                 *rows("Projects", Title=[f"Project {n}" for n in range(people)], Budget=[1_000 * n for n in range(people)],
                       Region=[REGIONS[n % 3] for n in range(people)]),
                 *rules_lines(WORK_RULES),
                 *rows("Tasks", 250, Who=[n * 7 % people + 1 for n in range(count)], Title=[f"Task {n}" for n in range(count)],
                       Rate=[n % 9 for n in range(count)], Project=[n * 11 % people + 1 for n in range(count)],
                       Hours=[n * 13 % 40 for n in range(count)], Done=[n % 3 == 0 for n in range(count)])):
        yield line.replace('"session": "s1"', '"session": "s0"')
    yield from (opening(f"s{number + 1}", name) for number, (_, name) in enumerate(WORKERS[1:]))


def rules_lines(wanted):
    """The lines that add these rules, and an attribute of users."""
    about = list(dict.fromkeys((table, columns) for table, columns, _, _ in wanted))
    yield from rows("_grist_ACLResources", tableId=[it[0] for it in about], colIds=[it[1] for it in about])
    yield from rows("_grist_ACLRules", resource=[about.index(it[:2]) + 1 for it in wanted] + [0],
                    aclFormula=[it[2] for it in wanted] + [""], permissionsText=[it[3] for it in wanted] + [""],
                    userAttributes=[""] * len(wanted) + [ATTRIBUTE])


def counted(lines):
    """The instructions of a run over these lines, as callgrind counts them."""
    with tempfile.TemporaryDirectory() as folder:
        place = os.path.join(folder, "counted")
        words = ["valgrind", "--tool=callgrind", f"--callgrind-out-file={place}", scripts.PROGRAM, "replay"]
        run = subprocess.run(words, input="".join(lines).encode(), capture_output=True, cwd=folder)
        if run.returncode or b'"error"' in run.stdout:
            raise SystemExit(f"the program ended with {run.returncode}: {run.stdout[-300:]}")
        with open(place) as text:
            return int(re.search(r"^(?:summary|totals): (\d+)", text.read(), re.M).group(1))


def of_changes():
    """Instructions of single changes of a document that four users look at, and of an opening."""
    def each(before, more):
        return (counted(before + more) - counted(before)) / len(more) / 1e6

    few, many = (each(list(work(count)), [update("Tasks", n * 37 % count + 1, "s0", Hours=100 + n) for n in range(20)])
                 for count in (size(1_000), size(4_000)))
    before = list(work(size(4_000)))
    turned = each(before, [update("People", 4, "s0", Region=REGIONS[n % 2]) for n in range(4)])
    opened = each(before, [opening(f"v{n}", "vi") for n in range(4)])
    yield f"instructions of an updated task of {size(4_000):,}, beside four users, sums over lookups, rules and an attribute", f"{many:.2f} million", "3 million"
    yield f"the same beside {size(1_000):,} tasks", f"{many / few:.2f} times", "1.3"
    yield "instructions of a person's changed region there, by which that person sees other tasks", f"{turned:.1f} million", ""
    yield "instructions of an opening there by a viewer", f"{opened:.1f} million", ""


def generated():
    """A generated run, by its one line."""
    count = size(5_000)
    seconds = min(run_once([], ("gen", str(count)))[0] for _ in range(3))
    yield f"`gen {count}`", f"{seconds:.2f} s", "0.25 s"


WORKLOADS = {
    "adds": added_rows, "bundles": bundles, "undo": undo, "rules": rules, "formulas": formulas, "updates": updates,
    "opening": opened, "levels": levels, "keeping": keeping, "serving": serving, "peeks": peeks, "views": views, "told": of_changes, "audits": audits, "gen": generated,
}


def machine():
    with open("/proc/cpuinfo", encoding="utf-8") as text:
        models = [line.split(":", 1)[1].strip() for line in text if line.startswith("model name")]
    return f"{os.cpu_count()} × {models[0] if models else 'processor'}, load {os.getloadavg()[0]:.1f}"


def page_rows():
    """What the page says now, by what was measured."""
    found = {}
    for line in PAGE.read_text(encoding="utf-8").splitlines() if PAGE.exists() else []:
        cells = [it.strip() for it in line.strip("|").split(" | ")]
        if len(cells) >= 2:
            found[cells[0]] = cells[1]
    return found


def main(names):
    commit = subprocess.run(["git", "rev-parse", "--short=8", "HEAD"], cwd=scripts.ROOT, capture_output=True, text=True).stdout.strip()
    said = page_rows()
    print("| What | Now | Aim | Command | Commit, machine | Before |\n|---|---|---|---|---|---|")
    for name in names or WORKLOADS:
        for what, now, aim in WORKLOADS[name]():
            cells = (what, now, aim, f"`{name}`", f"{commit}, {machine()}", said.get(what, ""))
            print("| " + " | ".join(cells).replace("|  |", "| |") + " |", flush=True)


if __name__ == "__main__":
    words = [it for it in sys.argv[1:] if it != "--small"]
    if any(it not in WORKLOADS for it in words):
        sys.exit(__doc__ + "\nWorkloads: " + " ".join(WORKLOADS))
    main(words)
