#!/usr/bin/env python3
"""Tries edits of crates, wrong bodies that the proof must refuse, and writes into tools/edits/TRIED what came of them.

    python3 tools/try_edits.py [--gate] NAME..      the edits in tools/edits/NAME; with --gate those in must-fail/
    python3 tools/try_edits.py --from LOG           what a log of `rt ci` over this state tells of those in must-fail/
    python3 tools/try_edits.py --stale              names the edits that TRIED tells nothing of, or of an older crate

An edit costs the gate a check, so crates/NAME/must-fail/ has few, and tools/edits/NAME/ the others. This copies the
repository, with what its checks kept, to a scratch folder beside it, puts the spare edits of the named crates in the
place of the gate's, and runs `rt must-fail` of these crates there (with --gate, here). A line of TRIED: the crate, the
edit, `refused`, `named` (only because a proof cites a name that is gone, which says little of the contract) or
`not` (which is also said of one that cannot be tried), the last commit that changed the crate or one
below it, the kit and the date. Its status is 1 where an edit was not refused.
"""
import datetime
import os
import re
import shutil
import subprocess
import sys
import tempfile

import sources

ROOT = str(sources.ROOT)
TRIED = sources.ROOT / "tools" / "edits" / "TRIED"
SAID = re.compile(r"must-fail (\w+)/([\w.-]+)\.edit: (refused|NOT REFUSED|BAD EDIT|NOT TRIED)(.*only because a proof file names)?")
HEAD = "# Written by tools/try_edits.py: crate, edit, refused, named or not, last commit of the crate and those below it, kit, date.\n"


def output(*words):
    return subprocess.run(words, cwd=ROOT, capture_output=True, text=True).stdout.strip()


def commit_of(crate):
    """The last commit that changed the crate's text, or that of a crate below it."""
    folders = [f"crates/{name}/{part}" for name in sorted(sources.below(crate)) for part in ("src", "specs", "proofs")]
    return output("git", "log", "-1", "--format=%h", "--abbrev=8", "--", *folders)


def edits():
    """Each edit of the repository: its crate and its name."""
    for place in (sources.CRATES, sources.ROOT / "tools" / "edits"):
        for edit in sorted(place.glob("*/must-fail/*.edit" if place == sources.CRATES else "*/*.edit")):
            yield (edit.parent.parent if place == sources.CRATES else edit.parent).name, edit.stem


def tried():
    lines = TRIED.read_text(encoding="utf-8").splitlines() if TRIED.exists() else []
    return {tuple(line.split()[:2]): line.split()[2:] for line in lines if line and line[0] != "#"}


def write(found):
    there = set(edits())
    lines = [" ".join([*key, *rest]) for key, rest in sorted(found.items()) if key in there]
    TRIED.write_text(HEAD + "\n".join(lines) + "\n", encoding="utf-8")


def copy_with_spare_edits(to, names):
    """Copies what `rt` reads, with the spare edits of these crates for the gate's. What checks kept is linked."""
    for name in ("crates.txt", "HANDLES"):
        shutil.copy(os.path.join(ROOT, name), to)
    crates = os.path.join(ROOT, "crates")
    shutil.copytree(crates, os.path.join(to, "crates"), ignore=shutil.ignore_patterns("out"))
    for name in os.listdir(crates):
        kept = os.path.join(crates, name, "out", "rlib")
        if os.path.isdir(kept) and name not in names:
            shutil.copytree(kept, os.path.join(to, "crates", name, "out", "rlib"), copy_function=os.link)
    for name in names:
        place = os.path.join(to, "crates", name, "must-fail")
        shutil.rmtree(place, ignore_errors=True)
        shutil.copytree(os.path.join(ROOT, "tools", "edits", name), place)


def note(lines):
    """Notes each edit that these lines tell of, and hands the lines on."""
    kit = output("rt", "version").split()[0].removeprefix("rattle-kit-") or "unknown"
    date = datetime.date.today().isoformat()
    found = tried()
    for line in lines:
        said = SAID.search(line)
        if said and said.group(3) != "NOT TRIED":
            verdict = "named" if said.group(4) else "refused" if said.group(3) == "refused" else "not"
            found[said.group(1), said.group(2)] = [verdict, commit_of(said.group(1)), kit, date]
            write(found)
        yield line


def run(names, folder):
    """Runs the edits, and notes each as it is told."""
    started = subprocess.Popen(["rt", "must-fail", *names], cwd=folder, stdout=subprocess.PIPE, stderr=subprocess.STDOUT,
                               text=True)
    for line in note(started.stdout):
        print(line, end="", flush=True)
    return started.wait()


def stale():
    known = tried()
    lacking = [key for key in edits() if key not in known]
    commits = {crate: commit_of(crate) for crate in {crate for crate, _ in known}}
    older = [key for key in edits() if key in known and known[key][1] != commits[key[0]]]
    for what, keys in (("not tried at any state that was noted", lacking), ("of an older crate", older)):
        for crate, name in keys:
            print(f"{crate} {name}: {what}")
    refused = sum(rest[0] == "refused" for rest in known.values())
    print(f"{len(known) + len(lacking)} edits: {refused} were refused, {len(known) - refused} were not; {len(older)} of "
          f"these over an older crate; {len(lacking)} are not tried")
    return 0


def main(words):
    if words == ["--stale"]:
        return stale()
    if words[:1] == ["--from"] and len(words) == 2:
        with open(words[1], encoding="utf-8") as log:
            print(sum(bool(SAID.search(line)) for line in note(log)), "edits noted")
        return 0
    names = [it for it in words if it != "--gate"]
    if not names or any(it.startswith("-") for it in names):
        print(__doc__, file=sys.stderr)
        return 2
    if "--gate" in words:
        return run(names, ROOT)
    lacking = [it for it in names if not os.path.isdir(os.path.join(ROOT, "tools", "edits", it))]
    if lacking:
        print(f"{lacking[0]} has no spare edits", file=sys.stderr)
        return 2
    with tempfile.TemporaryDirectory(prefix="edits-", dir=os.path.join(ROOT, ".git")) as to:
        copy_with_spare_edits(to, names)
        return run(names, to)


if __name__ == "__main__":
    sys.exit(main(sys.argv[1:]))
