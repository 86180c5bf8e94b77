#!/usr/bin/env python3
"""Names the lines of src/ and specs/ that are wider than 100 columns, but for imports and
attributes, which the layout keeps on one line, lines of a script in a text, and the page of `grist_web`, which
tools/page_constant.py writes; it fails where there are any.

    python3 tools/check_widths.py
"""
import glob
import os
import sys

ROOT = os.path.dirname(os.path.dirname(os.path.abspath(__file__)))
WIDEST = 100
MADE = (os.path.join("crates", "grist_web", "src", "page.rt"),)
ONE_LINE = ("use ", "ghost use ", "pub use ", "#[", "> {", "< {", "+ {")


def wide_lines():
    """Each line that is too wide, with its file and number."""
    for pattern in ("crates/*/src/**/*.rt", "crates/*/specs/**/*.antt"):
        for path in sorted(glob.glob(os.path.join(ROOT, pattern), recursive=True)):
            if os.path.relpath(path, ROOT) in MADE:
                continue
            with open(path, encoding="utf-8") as file:
                for number, line in enumerate(file, 1):
                    if len(line.rstrip("\n")) > WIDEST and not line.lstrip().startswith(ONE_LINE):
                        yield os.path.relpath(path, ROOT), number, len(line.rstrip("\n"))


def main():
    found = list(wide_lines())
    for path, number, width in found:
        print(f"{path}:{number}: {width} columns")
    print(f"{len(found)} lines are wider than {WIDEST} columns")
    return 1 if found else 0


if __name__ == "__main__":
    sys.exit(main())
