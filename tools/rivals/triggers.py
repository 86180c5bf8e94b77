"""The cells of two documents kept by SQLite, by triggers that are written for their formulas, with a log of what
changed that is read after each change: the rival of evaluation by what changed."""
import sqlite3
import time

ROWS_A_KEY = 50


def timed(edit, count):
    """The median milliseconds of an edit."""
    times = []
    for number in range(count):
        start = time.perf_counter()
        edit(number)
        times.append((time.perf_counter() - start) * 1e3)
    return sorted(times)[count // 2]


def chain(rows, row, count):
    """An update of one row of a chain, where each cell adds its own number to the cell before."""
    db = sqlite3.connect(":memory:", isolation_level=None)
    db.execute("create table run(id integer primary key, a int, v int)")
    db.execute("create table log(seq integer primary key, id int, v int)")
    db.executemany("insert into run values(?, 1, ?)", [(i, i) for i in range(1, rows + 1)])
    db.execute("""create trigger t after update of a on run begin
        update run set v = s.v from (select id, (select coalesce((select v from run where id = new.id - 1), 0))
            + sum(a) over (order by id) v from run where id >= new.id) s where run.id = s.id and run.v <> s.v;
        insert into log(id, v) select id, v from run where id >= new.id; end""")
    seen = [0]

    def edit(number):
        db.execute("update run set a = ? where id = ?", (number + 2, row))
        seen[0] = db.execute("select seq, id, v from log where seq > ?", (seen[0],)).fetchall()[-1][0]

    return timed(edit, count)


def sums(rows, count, is_added):
    """An update of one number, or a row that is added, where each row has the sum over the rows of its key."""
    keys = max(1, rows // ROWS_A_KEY)
    db = sqlite3.connect(":memory:", isolation_level=None)
    db.execute("create table work(id integer primary key, n int, k int, q int, s int)")
    db.execute("create index work_k on work(k)")
    db.execute("create table log(seq integer primary key, id int, col text, val int)")
    cells = [(i, i % 1000 - 500, i % keys, (i % 1000 - 500) // 3) for i in range(1, rows + 1)]
    db.executemany("insert into work values(?, ?, ?, ?, 0)", cells)
    db.execute("update work set s = g.s from (select k, sum(n) s from work group by k) g where g.k = work.k")
    change = """update work set q = floor(new.n / 3.0) where id = new.id;
        insert into log(id, col, val) values(new.id, 'N', new.n), (new.id, 'Q', floor(new.n / 3.0));
        update work set s = (select sum(n) from work where k = new.k) where k = new.k;
        insert into log(id, col, val) select id, 'S', s from work where k = new.k; end"""
    db.execute("create trigger u after update of n on work begin " + change)
    db.execute("create trigger i after insert on work begin " + change)
    seen = [0]

    def edit(number):
        if is_added:
            db.execute("insert into work(n, k) values(?, ?)", (number, number % keys))
        else:
            db.execute("update work set n = ? where id = ?", (number + 1000, number * 17 % rows + 1))
        seen[0] = db.execute("select seq, id, col, val from log where seq > ?", (seen[0],)).fetchall()[-1][0]

    return timed(edit, count)
