#!/usr/bin/env python3
"""Names the functions that the program does not reach, and fails where one is not meant to be so.

    python3 tools/check_reach.py [--all]

It walks from `main` of grist_main by names: a call of a name reaches each function of that name in a crate
that the caller stands on, and each one that meets a trait. So it may take a function for reached that is not, and
not the other way round. Laws (`.._law`) have no body that runs, and are left out. Those that are meant to be
unreached stand in tools/lists/unreached.txt, with why. With --all it prints these too.
"""
import collections
import re
import sys

import sources

LIST = sources.ROOT / "tools" / "lists" / "unreached.txt"
CALL = re.compile(r"(?:(\b[A-Z]\w*)(?:::<[^<>]*>)?::|([a-z_]\w*)::|(\.)\s*|(\b))([a-z_]\w*)\b(?!\s*:[^:])")
START = ("grist_main", "main")


def of_type(function):
    """The name of the type that a function is written for, or of the trait."""
    met = re.search(r"(?:\bfor |^(?:unsafe )?impl(?:<.*?>)? |trait )(\w+)", function.of.split("{")[0])
    named = re.findall(r"\bfor (\w+)", function.of)
    return named[-1] if named else (met.group(1) if met else "")


def meets_trait(function):
    return " for " in function.of or "trait " in function.of.split("{")[0]


def text_of(function):
    lines = [it.split("//")[0] for it in function.body or []]
    return "\n".join(it for it in lines if not it.lstrip().startswith(("invariant", "ghost", "assert_ghost")))


def unreached():
    """The functions that the walk does not reach, of the crates that the program may have."""
    all_functions = [it for it in sources.functions() if not sources.is_test(it.crate)]
    by_name = collections.defaultdict(list)
    for function in all_functions:
        by_name[function.name].append(function)
    program = sources.below("grist_main")
    reached, waiting = set(), []

    def reach(function):
        if id(function) not in reached:
            reached.add(id(function))
            waiting.append(function)

    for function in all_functions:
        if (function.crate, function.name) == START or (meets_trait(function) and function.crate in program):
            reach(function)
    while waiting:
        caller = waiting.pop()
        below = sources.below(caller.crate)
        for kind, module, dot, bare, name in CALL.findall(text_of(caller)):
            found = [it for it in by_name.get(name, []) if it.crate in below or meets_trait(it)]
            if kind and kind != "Self":
                exact = [it for it in found if of_type(it) == kind]
                found = exact or found
            elif not dot and not module:
                # A bare name is a function outside of any block, of this crate or one that it imports.
                found = [it for it in found if not it.of]
                own = [it for it in found if it.file == caller.file]
                found = own or found
            for function in found:
                reach(function)
    return [it for it in all_functions if id(it) not in reached and not it.name.endswith("_law")]


def meant():
    """The entries of the list: `crate function`, or `crate *` for all of a crate."""
    lines = LIST.read_text(encoding="utf-8").splitlines() if LIST.exists() else []
    return {tuple(it.split()[:2]) for it in lines if it.strip() and not it.startswith("#")}


def main(words):
    listed, found = meant(), unreached()
    used = set()
    new = []
    for function in found:
        keys = {(function.crate, function.name), (function.crate, "*")} & listed
        used |= keys
        if not keys:
            new.append(function)
        if not keys or "--all" in words:
            print(f"{function.crate} {function.name}  ({function.where}, {len(function.body or [])} lines)")
    for crate, name in sorted(listed - used):
        print(f"{crate} {name} is listed in tools/lists/unreached.txt and is reached or gone: take the line out")
    print(f"reach: {len(found) - len(new)} functions are meant to be unreached, {len(new)} are not")
    return 1 if new else 0


if __name__ == "__main__":
    sys.exit(main(sys.argv[1:]))
