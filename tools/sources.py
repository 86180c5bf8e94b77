"""The sources as the checks of this folder read them: crates with what they stand on, functions of src/,
definitions of specs/, lemmas. All by the layout that `rt fmt` gives, so line by line."""
import functools
import pathlib
import re
from dataclasses import dataclass

ROOT = pathlib.Path(__file__).resolve().parent.parent
CRATES = ROOT / "crates"
FN = re.compile(r"^( *)(pub(?:\([a-z]+\))? )?(?:const )?fn (\w+)")
BLOCK = re.compile(r"^(?:unsafe )?(?:impl|trait|pub trait|pub\(crate\) trait)\b(.*)")
LEMMA = re.compile(r"^( *)(?:pub )?([^\s:()\[\]{},.]+) : (?!Type\b)")
DEFINITION = re.compile(r"^(?:abbrev|def|opaque|record|data|inductive) (?:pub )?(\S+)")


@dataclass
class Function:
    crate: str
    file: pathlib.Path
    line: int
    name: str
    head: list      # the lines of the signature
    contract: list  # those of its clauses
    body: list      # those between the braces; None where a trait only names it
    of: str         # the head of the block that it stands in, or ""

    @property
    def where(self):
        return f"{self.file.relative_to(ROOT)}:{self.line}"

    @property
    def is_pub(self):
        return self.head[0].lstrip().startswith("pub fn") or self.head[0].lstrip().startswith("pub const fn")


def crates():
    """Each crate, from the lowest up, with the names of the libraries that it uses."""
    found = {}
    for line in (ROOT / "crates.txt").read_text().splitlines():
        if line and not line.startswith("#"):
            name, libraries = line.split(":", 1)
            found[name.split()[0]] = libraries.split()
    return found


def headings():
    """The headings of crates.txt, each with its crates."""
    found, at = {}, None
    for line in (ROOT / "crates.txt").read_text().splitlines():
        if line.startswith("# "):
            at = line[2:]
        elif line and at:
            found.setdefault(at, []).append(line.split(":")[0].split()[0])
    return found


def is_test(crate):
    return crate.endswith("_tests")


def files(crate, folder, ending):
    return sorted((CRATES / crate / folder).rglob(f"*{ending}"))


@functools.cache
def below(crate):
    """The crate and all of this repository that it stands on."""
    own, found = crates(), {crate}
    for name in own.get(crate, []):
        if name in own:
            found |= below(name)
    return frozenset(found)


def functions_of(crate, file):
    """The functions of a file of src/."""
    lines = file.read_text(encoding="utf-8").splitlines()
    block, at = "", 0
    while at < len(lines):
        line = lines[at]
        if BLOCK.match(line):
            block = line if line.rstrip().endswith("{") else " ".join(lines[at:at + 4])
        elif line == "}":
            block = ""
        met = FN.match(line)
        if not met:
            at += 1
            continue
        start, indent = at, met.group(1)
        end_of_head = start
        while not ends_head(lines, end_of_head, indent):
            end_of_head += 1
        head = lines[start:end_of_head + 1]
        at = end_of_head + 1
        contract, body = [], None
        if lines[end_of_head].rstrip().endswith("{}"):
            body = []
        elif lines[end_of_head].rstrip().endswith("}"):
            body = [lines[end_of_head].split("{", 1)[1].rsplit("}", 1)[0]]
        elif lines[end_of_head].rstrip().endswith("{"):
            at, body = until_brace(lines, at, indent)
        elif not lines[end_of_head].rstrip().endswith(";"):
            while at < len(lines) and lines[at] != indent + "{" and not ends_trait_fn(lines, at, indent):
                contract.append(lines[at])
                at += 1
            if at < len(lines) and lines[at] == indent + "{":
                at, body = until_brace(lines, at + 1, indent)
        yield Function(crate, file, start + 1, met.group(3), head, contract, body, block)


def ends_head(lines, at, indent):
    """Whether the signature ends in this line: what follows is a clause, a body or nothing."""
    line = lines[at].rstrip()
    if line.endswith(("{", ";", "{}")) or (line.endswith("}") and "{" in line and "fn " in line):
        return True
    after = lines[at + 1] if at + 1 < len(lines) else ""
    text = after.strip()
    return after == indent + "{" or text.startswith(("requires", "ensures", "//", "ghost ")) or text == ""


def ends_trait_fn(lines, at, indent):
    """Whether a function without a body ends before this line: its contract ends in `;`, or the block does."""
    line = lines[at]
    return line == indent[:-4] + "}" or line.strip() == ";" or bool(FN.match(line)) or line.startswith(indent + "///")


def until_brace(lines, at, indent):
    body = []
    while at < len(lines) and lines[at] != indent + "}":
        body.append(lines[at])
        at += 1
    return at + 1, body


def functions(names=None):
    """All functions of these crates, or of all."""
    for crate in names or crates():
        for file in files(crate, "src", ".rt"):
            yield from functions_of(crate, file)


def paragraphs(file):
    """The pieces of a file of definitions or lemmas: each begins where a line is not indented, and comments and
    imports are left out. Lines of a `module _` block are pieces of their own, one level in."""
    piece, first = [], 0
    for number, line in enumerate(file.read_text(encoding="utf-8").splitlines(), 1):
        text = line.rstrip()
        if text.lstrip().startswith("--") or not text or text.startswith(("use ", "ghost use ")):
            if piece and not text:
                yield first, piece
                piece = []
            continue
        deep = len(text) - len(text.lstrip())
        opens = deep == 0 or (deep == 2 and LEMMA.match(text))
        if opens and piece and not same_name(piece[0], text):
            yield first, piece
            piece = []
        if not piece:
            first = number
        piece.append(text)
    if piece:
        yield first, piece


def same_name(before, text):
    """Whether a line goes on with what the piece is about: an equation of the same name."""
    met = LEMMA.match(before) or DEFINITION.match(before)
    name = met.groups()[-1] if met else None
    return bool(name) and text.split()[0] == name and " : " not in text.split("=")[0]
