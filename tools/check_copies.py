#!/usr/bin/env python3
"""Refuses what stands to the letter in more than one crate: bodies of functions, definitions, and lemmas.

    python3 tools/check_copies.py [--write]

Bodies of some length count, with the same name or not; definitions of specs/ with their name; and the statements of
lemmas, whatever a lemma is called there. Tests are not looked at. Those that may stand twice, each with its crates, are
in tools/lists/copies.txt, with why; a copy in a crate that is not said there fails. With --write that list is written
anew, with the sections that it has: so what is gone goes out of it.
"""
import collections
import sys

import sources

LIST = sources.ROOT / "tools" / "lists" / "copies.txt"
LEAST_BODY, LEAST_STATEMENT = 60, 30
HEAD = "# What may stand to the letter in more than one crate: a kind, the first of its names, its crates. The list is to shrink."


def bodies():
    for function in sources.functions():
        lines = [it.strip() for it in function.body or []]
        text = " ".join(it for it in lines if it and not it.startswith("//"))
        if not sources.is_test(function.crate) and len(text) >= LEAST_BODY:
            yield function.crate, function.name, text


def pieces(folder):
    for crate in sources.crates():
        if not sources.is_test(crate):
            for file in sources.files(crate, folder, ".antt"):
                for _, piece in sources.paragraphs(file):
                    yield crate, piece


def definitions():
    for crate, piece in pieces("specs"):
        met = sources.DEFINITION.match(piece[0])
        if met:
            yield crate, met.group(1), " ".join(" ".join(piece).split())


def lemmas():
    """Statements: what stands behind the name and before its equations."""
    for crate, piece in pieces("proofs"):
        met = sources.LEMMA.match(piece[0])
        if not met or sources.DEFINITION.match(piece[0]) or "-clause-" in met.group(2):
            continue
        name = met.group(2)
        said = [piece[0].split(" : ", 1)[1]]
        for line in piece[1:]:
            if line.split()[0] == name and "=" in line:
                break
            said.append(line)
        text = " ".join(" ".join(said).split())
        if len(text) >= LEAST_STATEMENT:
            yield crate, name, text


def copies():
    """Each text that stands in more than one crate: its kind, its first name, and its crates."""
    for kind, found in (("body", bodies()), ("definition", definitions()), ("lemma", lemmas())):
        places = collections.defaultdict(list)
        for crate, name, text in found:
            places[text].append((crate, name))
        for at in places.values():
            crates = frozenset(crate for crate, _ in at)
            if len(crates) > 1:
                yield kind, min(name for _, name in at), crates


def listed():
    """The list by section: its lines of comment, and its entries."""
    sections = [([], [])]
    for text in LIST.read_text(encoding="utf-8").splitlines() if LIST.exists() else []:
        if text.startswith("#"):
            if sections[-1][1]:
                sections.append(([], []))
            sections[-1][0].append(text)
        elif text.strip():
            kind, name, *crates = text.split()
            sections[-1][1].append((kind, name, frozenset(crates)))
    return sections


def taken(copy, entries):
    """The entry that lets a copy be, where there is one: of its kind and name, with all of its crates."""
    return next((it for it in entries if it[:2] == copy[:2] and copy[2] <= it[2]), None)


def write(found, sections):
    """The list with the crates of today, and what is new in a section of its own."""
    left, out = sorted(found, key=lambda it: (it[0], it[1])), [HEAD, ""]
    for comments, entries in sections:
        here = [it for it in left if taken(it, entries)]
        left = [it for it in left if it not in here]
        if here:
            out += [*(it for it in comments if it != HEAD), *map(line, here), ""]
    if left:
        out += ["# Not looked at yet.", *map(line, left), ""]
    LIST.write_text("\n".join(out), encoding="utf-8")


def line(copy):
    order = list(sources.crates())
    return " ".join([*copy[:2], *sorted(copy[2], key=order.index)])


def main(words):
    found = list(copies())
    if "--write" in words:
        write(found, listed())
    may = [it for _, entries in listed() for it in entries]
    new = [it for it in found if not taken(it, may)]
    for copy in new:
        print(f"{line(copy)}: stands in each of these crates to the letter")
    used = [taken(it, may) for it in found]
    gone = [it for it in may if it not in used]
    if gone:
        print(f"{len(gone)} of tools/lists/copies.txt are gone, as {gone[0][0]} {gone[0][1]}: --write takes them out")
    kinds = collections.Counter(it[0] for it in found)
    print("copies: " + ", ".join(f"{kinds[it]} of a {it}" for it in ("body", "definition", "lemma"))
          + f"; {len(new)} of them may not be")
    return 1 if new else 0


if __name__ == "__main__":
    sys.exit(main(sys.argv[1:]))
