#!/usr/bin/env python3
"""Prints the lines of each crate: src/, specs/ and proofs/, its edits in the gate and by hand, and its tests.

    python3 tools/sizes.py
"""
import sources


def lines_of(crate, folder, ending):
    return sum(len(it.read_text(encoding="utf-8").splitlines()) for it in sources.files(crate, folder, ending))


def edits_of(folder):
    return len(list(folder.glob("*.edit")))


def tests_of(crate):
    return sum(it.read_text(encoding="utf-8").count("#[test]") for it in sources.files(crate, "src", ".rt"))


def main():
    heads = ("crate", "src", "specs", "proofs", "edits", "by hand", "tests")
    rows = [(crate, lines_of(crate, "src", ".rt"), lines_of(crate, "specs", ".antt"), lines_of(crate, "proofs", ".antt"),
             edits_of(sources.CRATES / crate / "must-fail"), edits_of(sources.ROOT / "tools" / "edits" / crate),
             tests_of(crate)) for crate in sources.crates()]
    rows.append(("all", *(sum(column) for column in list(zip(*rows))[1:])))
    for row in (heads, *rows):
        print(f"{row[0]:20}" + "".join(f"{it:>9,}" if isinstance(it, int) else f"{it:>9}" for it in row[1:]))


if __name__ == "__main__":
    main()
