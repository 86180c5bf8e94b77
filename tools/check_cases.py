#!/usr/bin/env python3
"""Runs the whole inputs of cases/ over a built program, and tells where one does not give its exact output.

    python3 tools/check_cases.py PROGRAM [NAME..]

cases/README.md says what a case is. A name may end in `*`. Its last line counts, and its status is 1 where a case failed.
"""
import fnmatch
import lzma
import pathlib
import subprocess
import sys
import tempfile

CASES = pathlib.Path(__file__).resolve().parent.parent / "cases"
SECONDS = 300  # On a busy machine, before a run counts as one that hangs.


def part(case, name, absent):
    """A file of a case, which may be packed."""
    if (case / name).exists():
        return (case / name).read_bytes()
    packed = case / f"{name}.xz"
    return lzma.decompress(packed.read_bytes()) if packed.exists() else absent


def runs(case):
    """The runs of a case in order; the files of the first have no number."""
    number = 1
    while True:
        behind = "" if number == 1 else f".{number}"
        if not (case / f"args{behind}").exists():
            return
        yield number, behind
        number += 1


def first_difference(wanted, given):
    if wanted == given:
        return None
    wanted, given = wanted.split(b"\n"), given.split(b"\n")
    at = next((k for k, (a, b) in enumerate(zip(wanted, given)) if a != b), min(len(wanted), len(given)))
    show = [it[at][:300].decode("utf-8", "backslashreplace") if at < len(it) else "(end)" for it in (wanted, given)]
    return f"line {at + 1} differs\n    wanted {show[0]}\n    given  {show[1]}"


def fault_of(program, case, behind, place):
    """What is wrong with a run, or nothing."""
    words = part(case, f"args{behind}", b"").decode().removesuffix("\n").split("\n")
    try:
        ran = subprocess.run([program, *words], cwd=place, input=part(case, f"stdin{behind}", b""), capture_output=True,
                             timeout=SECONDS)
    except subprocess.TimeoutExpired:
        return f"no end within {SECONDS} seconds"
    status = int(part(case, f"status{behind}", b"0"))
    if ran.returncode != status:
        return f"status {ran.returncode}, not {status}: {ran.stderr[-300:].decode('utf-8', 'backslashreplace')}"
    told = part(case, f"stderr{behind}", None)
    return first_difference(part(case, f"stdout{behind}", b""), ran.stdout) or (
        told is not None and first_difference(told, ran.stderr)) or None


def main(program, names):
    program = str(pathlib.Path(program).resolve())
    wanted = [it for it in sorted(CASES.iterdir()) if (it / "args").exists()]
    wanted = [it for it in wanted if not names or any(fnmatch.fnmatch(it.name, name) for name in names)]
    failed = 0
    for case in wanted:
        with tempfile.TemporaryDirectory() as place:
            for number, behind in runs(case):
                fault = fault_of(program, case, behind, place)
                if fault:
                    failed += 1
                    print(f"{case.name}, run {number}: {fault}\n    {part(case, 'about', b'').decode().strip()}", flush=True)
                    break
    print(f"cases: {len(wanted) - failed} passed, {failed} failed")
    return 1 if failed or not wanted else 0


if __name__ == "__main__":
    if len(sys.argv) < 2:
        sys.exit(__doc__)
    sys.exit(main(sys.argv[1], sys.argv[2:]))
