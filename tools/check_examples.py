#!/usr/bin/env python3
"""Runs the examples over a built program, and tells where one does not give what stands beside it or in a page.

    python3 tools/check_examples.py PROGRAM

Each examples/**/NAME.in with a NAME.out is given to `PROGRAM replay`, which must give these very bytes. Each line of
JSON in docs/EXAMPLES.md must be one of theirs, or of a run over a kept document; `..` stands for what is left out.
What examples/side_by_side.py prints over a server must stand in README.md. Its last line counts, and its status is 1
where something differs.
"""
import pathlib
import re
import sqlite3
import subprocess
import sys
import tempfile

from loopback import free_ports

ROOT = pathlib.Path(__file__).resolve().parent.parent
EXAMPLES = ROOT / "examples"
PAGE = ROOT / "docs" / "EXAMPLES.md"
SECONDS = 60
AGAIN = ('{"line":{"method":"openDoc","token":"ta"},"session":"s1"}\n'
         '{"line":{"actions":[["UpdateRecord","Table1",1,{"A":6}]],"method":"applyUserActions"},"session":"s1"}\n')


def replay(program, lines, folder=None, *words):
    return subprocess.run([program, "replay", *words], input=lines, capture_output=True, timeout=SECONDS, cwd=folder)


def stored(program):
    """The stored examples: whether each gives what stands beside it, and all lines of them."""
    told, lines = [], []
    for given in sorted(EXAMPLES.rglob("*.in")):
        wanted = given.with_suffix(".out")
        if wanted.exists():
            ran = replay(program, given.read_bytes())
            good = ran.returncode == 0 and ran.stdout == wanted.read_bytes()
            told.append((str(given.relative_to(ROOT)), good))
            lines += (given.read_text() + wanted.read_text()).splitlines()
    return told, lines


def kept(program):
    """The lines of the example over a kept document: its first record, and its second run."""
    with tempfile.TemporaryDirectory() as folder:
        first = (EXAMPLES / "two_owners.in").read_bytes()
        replay(program, first, folder, "--doc", "book")
        file = sqlite3.connect(f"{folder}/book.grist")
        records = [f"{number}|{text.decode()}" for number, text in file.execute("SELECT number, bytes FROM record")]
        file.close()
        users = b"".join(line for line in first.splitlines(keepends=True) if line.startswith(b'{"user"'))
        return records + replay(program, users + AGAIN.encode(), folder, "--doc", "book").stdout.decode().splitlines()


def is_line(shown, lines):
    pattern = re.compile(".*".join(re.escape(part) for part in shown.split("..")))
    return any(pattern.fullmatch(line) for line in lines)


def shown():
    """The lines of JSON that the page shows."""
    for number, line in enumerate(PAGE.read_text().splitlines(), 1):
        if line.startswith(('{"', "0|{")):
            yield number, line


def side_by_side(program):
    port = free_ports(2)
    words = [program, "serve", "--lanes", "2", "--port", str(port), "--conns", "1"]
    server = subprocess.Popen(words, stdin=(EXAMPLES / "people").open(), stdout=subprocess.DEVNULL)
    try:
        ran = subprocess.run([sys.executable, str(EXAMPLES / "side_by_side.py"), str(port)], capture_output=True, text=True,
                             timeout=SECONDS)
        return ran.returncode == 0 and ran.stdout.strip() in (ROOT / "README.md").read_text()
    finally:
        server.kill()


def main(program):
    program = str(pathlib.Path(program).resolve())
    told, lines = stored(program)
    lines += kept(program)
    told += [(f"docs/EXAMPLES.md:{number}", is_line(line, lines)) for number, line in shown()]
    told.append(("README.md, what side_by_side.py prints", side_by_side(program)))
    failed = [name for name, good in told if not good]
    for name in failed:
        print(f"{name}: not what the program gives")
    print(f"examples: {len(told) - len(failed)} passed, {len(failed)} failed")
    return 1 if failed else 0


if __name__ == "__main__":
    if len(sys.argv) != 2:
        sys.exit(__doc__)
    sys.exit(main(sys.argv[1]))
