#!/usr/bin/env python3
"""Makes the constant of the page that `grist_web` serves, out of `web/index.html`; or compares the two.

    python3 tools/page_constant.py            writes crates/grist_web/src/page.rt
    python3 tools/page_constant.py --compare  its status is 1 where that file is another

The page has at most 900 lines, and the layout of the constant is that of the page.
"""
import pathlib
import sys

ROOT = pathlib.Path(__file__).resolve().parent.parent
PAGE = ROOT / "web" / "index.html"
CONSTANT = ROOT / "crates" / "grist_web" / "src" / "page.rt"
MOST_LINES = 900
HEAD = """//! The page, as tools/page_constant.py makes it of web/index.html.

/// The page of the address `/`, and of `/two`.
pub(crate) const PAGE: &str = r##"""


def constant(page):
    """The file that holds a page."""
    if '"##' in page:
        raise SystemExit('the page has "## in it, which ends the constant')
    if page.count("\n") >= MOST_LINES:
        raise SystemExit(f"the page has {page.count(chr(10))} lines: fewer than {MOST_LINES} are wanted")
    return f'{HEAD}"{page}"##;\n'


def main():
    made = constant(PAGE.read_text(encoding="utf-8"))
    if sys.argv[1:] == ["--compare"]:
        if CONSTANT.read_text(encoding="utf-8") != made:
            print("crates/grist_web/src/page.rt is not web/index.html: run tools/page_constant.py")
            return 1
        print("the constant is the page")
        return 0
    CONSTANT.write_text(made, encoding="utf-8")
    return 0


if __name__ == "__main__":
    sys.exit(main())
