#!/usr/bin/env python3
"""Checks what pages say of the sources, as far as a machine can, and tells what is not so.

    python3 tools/check_docs.py

Names in backquotes stand in the sources, among the tools and edits, or in the kit; files and links are there.
docs/ARCHITECTURE.md and docs/PROMISES.md have each crate of crates.txt, under its headings. What is past the bounds of
CONTRIBUTING.md is named there or, of contracts, in tools/lists/long_contracts.txt. Its status is 1 where one is not so.
"""
import re
import sys

import sources

ROOT = sources.ROOT
PAGES = [ROOT / "README.md", ROOT / "CONTRIBUTING.md", *sorted((ROOT / "docs").glob("*.md"))]
TICKED = re.compile(r"`([^`\n]+)`")
NAME = re.compile(r"^[A-Za-z_]\w*(?:(?:::|\.)[A-Za-z_]\w*)*(?:\(\))?!?$")
PATH = re.compile(r"^[\w.*/-]+/[\w.*/-]*$|^[\w-]+\.(?:rt|antt|py|md|txt|edit|in|out|c|rs)$")
LINK = re.compile(r"\]\(([^)#\s]*)(#[^)\s]*)?\)")
WORD = re.compile(r"[A-Za-z_]\w*")
CONTRACTS = ROOT / "tools" / "lists" / "long_contracts.txt"
WORDS = ROOT / "tools" / "lists" / "words.txt"
BOUNDS = {"body": 40, "contract": 12, "file": 800, "specs": 150, "crate": 1500, "edits": 8}


def known_words():
    """Each word that stands in a source, a tool, an example or a script of the repository, or names a file of it."""
    found = set()
    for pattern in ("crates/*/src/**/*.rt", "crates/*/specs/**/*.antt", "crates/*/proofs/**/*.antt", "tools/**/*",
                    "crates/*/must-fail/*", "examples/**/*", "cases/**/*", "crates.txt", "HANDLES", ".ci/run"):
        for file in ROOT.glob(pattern):
            if file.is_file():
                found.add(file.name.rsplit(".", 1)[0])
                if file.stat().st_size < 1 << 20:
                    found |= set(WORD.findall(file.read_text(encoding="utf-8", errors="replace")))
            elif file.is_dir():
                found.add(file.name)
    return found | set(line.split()[0] for line in WORDS.read_text().splitlines() if line and line[0] != "#")


def pages():
    """Each line of a page that is no part of a block of code, with its place."""
    for page in PAGES:
        inside = False
        for number, line in enumerate(page.read_text(encoding="utf-8").splitlines(), 1):
            if line.startswith("```"):
                inside = not inside
            elif not inside:
                yield page, number, line


def is_file(path):
    path = path.rstrip("/")
    return any(True for it in (ROOT / path, ROOT / "docs" / path) if it.exists()) or \
        any(True for _ in ROOT.glob(path)) or any(True for _ in ROOT.glob(f"crates/*/{path}")) or \
        any(True for _ in ROOT.glob(f"crates/*/*/{path}")) or any(True for _ in ROOT.glob(f"crates/*/*/*/{path}"))


def names_that_are_gone():
    words = known_words()
    for page, number, line in pages():
        for text in TICKED.findall(line):
            if "NAME" in text or "CRATE" in text:
                continue
            if PATH.match(text) and not text.startswith("/") and "out/" not in text:
                if not is_file(text) and not is_file(text.split(" ")[0]):
                    yield page, number, f"`{text}` is no file"
            elif NAME.match(text):
                lacking = [it for it in WORD.findall(text) if it not in words]
                if lacking:
                    yield page, number, f"`{text}`: nothing has the name {lacking[0]}"


def links_that_lead_nowhere():
    for page, number, line in pages():
        for path, _ in LINK.findall(line):
            if path and "://" not in path and not (page.parent / path).exists():
                yield page, number, f"the link to {path} leads nowhere"


def crates_that_differ():
    page = ROOT / "docs" / "ARCHITECTURE.md"
    named = set(TICKED.findall(page.read_text(encoding="utf-8")))
    for crate in sources.crates():
        if crate not in named:
            yield page, 1, f"the crate {crate} is not named"
    page = ROOT / "docs" / "PROMISES.md"
    text = page.read_text(encoding="utf-8")
    for title in sources.headings():
        if f"\n# {title}" not in text and f"\n## {title}" not in text:
            yield page, 1, f"the heading {title!r} of crates.txt is not there"
    promised = set()
    for number, line in enumerate(text.splitlines(), 1):
        if line.startswith("## ") and ":" in line:
            for name in re.split(r",| and ", line[3:].split(":")[0]):
                promised.add(name.strip())
                if name.strip() not in sources.crates():
                    yield page, number, f"there is no crate {name.strip()}"
    for crate in sources.crates():
        if crate not in promised and not sources.is_test(crate) and f"`{crate}`" not in text:
            yield page, 1, f"nothing is said of the crate {crate}"


def past_bounds():
    """What is past the bounds: its kind, and its name as CONTRIBUTING.md has it."""
    for crate in sources.crates():
        lines = {it: len(it.read_text(encoding="utf-8").splitlines()) for it in sources.files(crate, "src", ".rt")}
        if sum(lines.values()) > BOUNDS["crate"]:
            yield "crate", f"`{crate}`", f"{sum(lines.values()):,} lines"
        for folder, ending, bound in (("src", ".rt", "file"), ("proofs", ".antt", "file"), ("specs", ".antt", "specs")):
            for file in sources.files(crate, folder, ending):
                count = len(file.read_text(encoding="utf-8").splitlines())
                if count > BOUNDS[bound]:
                    yield "file", f"`{folder}/{file.relative_to(sources.CRATES / crate / folder)}` of `{crate}`", f"{count} lines"
        if len(list((sources.CRATES / crate / "must-fail").glob("*.edit"))) > BOUNDS["edits"]:
            yield "edits", f"`{crate}`", "too many edits"
    for function in sources.functions():
        if not sources.is_test(function.crate):
            if len(function.body or []) > BOUNDS["body"]:
                yield "body", f"`{function.name}` of `{function.crate}`", f"{len(function.body)} lines"
            if len(function.contract) > BOUNDS["contract"]:
                yield "contract", f"{function.crate} {function.name}", f"{len(function.contract)} lines"


def bounds_that_are_not_named():
    page = ROOT / "CONTRIBUTING.md"
    text = page.read_text(encoding="utf-8").split("Past the bounds today", 1)[-1].split("\n\n")[0]
    listed = {" ".join(line.split()[:2]) for line in CONTRACTS.read_text().splitlines() if line and line[0] != "#"}
    past = list(past_bounds())
    for kind, name, size in past:
        if kind == "contract" and name not in listed:
            yield CONTRACTS, 1, f"the contract of {name} has {size}, and is not in the list"
        if kind != "contract" and name not in text:
            yield page, 1, f"{name} is past the bounds with {size}, and is not named under them"
    said = {name for kind, name, _ in past if kind == "crate"}
    for crate in re.findall(r"`(\w+)`", text.split("the crates", 1)[-1].split(";")[0]):
        if f"`{crate}`" not in said:
            print(f"CONTRIBUTING.md names `{crate}` as past the bounds, and it is not: take it out")
    gone = sorted(listed - {name for kind, name, _ in past if kind == "contract"})
    if gone:
        print(f"{len(gone)} contracts of tools/lists/long_contracts.txt are within the bound or gone, as {gone[0]}: take them out")


def main():
    found = [*names_that_are_gone(), *links_that_lead_nowhere(), *crates_that_differ(), *bounds_that_are_not_named()]
    for page, number, said in found:
        print(f"{page.relative_to(ROOT)}:{number}: {said}")
    print(f"docs: {len(found)} sentences are not so")
    return 1 if found else 0


if __name__ == "__main__":
    sys.exit(main())
