#!/usr/bin/env python3
"""Compares what random formulas give in the program with what Python 3 gives for the same expressions.

    python3 tools/compare_formulas.py [seed] [program]      the seed is 1 where it is left out

It makes 2,000 formulas in tables of 8 rows, whose columns hold Ints, truths, texts, nulls, lists and any
of these, and has crates/grist_main/out/grist_main, which `rt run` in crates/grist_main makes (or another
program that takes the word replay), evaluate them. Then it prints how many cells were compared, how many
formulas were left out, and each difference. It exits with 1 where there is a difference, and with 2 where
the program refuses an action or ends by an error.

The expression is the formula's own text without `$`, read by Python's own parser. So groups, values, the
order of evaluation, short cuts and errors are Python's: ZeroDivisionError, TypeError, and OverflowError
wherever a number leaves 64 bits, on the way too. `$F3` is a formula column that stands before.

Where docs/FORMULAS.md means otherwise than Python, the expression is turned into what is meant:

- texts and lists are not repeated by `*`, `%` formats no text, and `<` compares no lists: TypeError;
- a list in a list is TypeError, at its place among the items;
- `is` asks for one kind and equality, and not for one object;
- `str` of a list puts its texts between `'` without escapes;
- IF and IFERROR evaluate what is asked for alone, and IFERROR gives '' where there is no second argument;
- SUM, MIN and MAX take the Ints among the arguments and the items of lists, and pass over truths and all
  else; MIN and MAX of none are 0.

Never made are records, lookups, Dates, names that are no function's and wrong numbers of arguments. Left
out are formulas over 4,096 bytes, and those for which Python raises any other error.
"""
import ast
import collections
import json
import os
import random
import subprocess
import sys

from scripts import OPEN, PROGRAM, USER

FORMULAS, FORMULAS_OF_TABLE, ROWS = 2_000, 200, 8
LEAST, GREATEST = -(2**63), 2**63 - 1
LONGEST = 4_096
FRAME = '{"line":{"actions":%s,"method":"applyUserActions"},"session":"s1"}\n'
ERRORS = (ZeroDivisionError, TypeError, OverflowError)

# The data columns and what their cells are.
COLUMNS = {"A": "int", "B": "int", "P": "bool", "Q": "bool", "S": "text", "U": "text", "N": "null", "L": "list", "M": "any"}
KINDS = ("int", "int", "bool", "bool", "text", "list", "null")
INTS = (2, 3, 7, 10, 64, 2**31, 2**32, 3037000500, 2**62, GREATEST - 1, GREATEST)
TEXTS = ("", "a", "a", "ab", "abc", "Z", "b a", "1", "-7", "None", "é", "漢字", "😀", "\ufffd", "a\nb", "t\tt", "back\\", "it's", 'say "a"')


# What the operators and functions mean.

def within(value):
    """A value as it is, where no number leaves 64 bits."""
    if type(value) is int and not LEAST <= value <= GREATEST:
        raise OverflowError
    return value


def on_numbers(left, right):
    if not (isinstance(left, int) and isinstance(right, int)):
        raise TypeError


def no_lists(left, right):
    if isinstance(left, list) or isinstance(right, list):
        raise TypeError


def multiply(left, right):
    on_numbers(left, right)
    return within(left * right)


def remainder(left, right):
    on_numbers(left, right)
    return within(left % right)


def ordered(test):
    """A comparison that takes no lists."""
    def compare(left, right):
        no_lists(left, right)
        return test(left, right)
    return compare


def is_same(left, right):
    return type(left) is type(right) and left == right


def item(value):
    if isinstance(value, list):
        raise TypeError
    return value


def text_of(value):
    """The text of a value; of a text in a list, between quotes."""
    if isinstance(value, list):
        return "[%s]" % ", ".join(f"'{part}'" if isinstance(part, str) else str(part) for part in value)
    return str(value)


def ints(values):
    """The Ints among values and the items of lists."""
    flat = (part for value in values for part in (value if isinstance(value, list) else [value]))
    return [part for part in flat if type(part) is int]


def or_else(value, other=lambda: ""):
    try:
        return value()
    except ERRORS:
        return other()


MEANINGS = {
    "Add": lambda left, right: within(left + right),
    "Sub": lambda left, right: within(left - right),
    "Mult": multiply,
    "FloorDiv": lambda left, right: within(left // right),
    "Mod": remainder,
    "USub": lambda value: within(-value),
    "Eq": lambda left, right: left == right,
    "NotEq": lambda left, right: left != right,
    "Is": is_same,
    "IsNot": lambda left, right: not is_same(left, right),
    "Lt": ordered(lambda left, right: left < right),
    "LtE": ordered(lambda left, right: left <= right),
    "Gt": ordered(lambda left, right: left > right),
    "GtE": ordered(lambda left, right: left >= right),
    "In": lambda left, right: left in right,
    "NotIn": lambda left, right: left not in right,
    "item": item,
    "IF": lambda condition, value, other: value() if condition() else other(),
    "IFERROR": or_else,
    "SUM": lambda *values: within(sum(ints(values))),
    "MIN": lambda *values: min(ints(values), default=0),
    "MAX": lambda *values: max(ints(values), default=0),
    "len": len,
    "abs": lambda value: within(abs(value)),
    "str": text_of,
    "bool": bool,
}


def call(name, *arguments):
    return ast.Call(ast.Name(name, ast.Load()), list(arguments), [])


def later(expression):
    """A function without parameters that evaluates the expression."""
    none = ast.arguments(posonlyargs=[], args=[], kwonlyargs=[], kw_defaults=[], defaults=[])
    return ast.Lambda(none, expression)


class Meant(ast.NodeTransformer):
    """Puts calls of what is meant in the places of operators, lists, columns and lazy functions."""

    def visit_BinOp(self, node):
        return call(type(node.op).__name__, self.visit(node.left), self.visit(node.right))

    def visit_UnaryOp(self, node):
        if isinstance(node.op, ast.Not):
            return self.generic_visit(node)
        return call(type(node.op).__name__, self.visit(node.operand))

    def visit_Compare(self, node):
        (operator,), (right,) = node.ops, node.comparators
        return call(type(operator).__name__, self.visit(node.left), self.visit(right))

    def visit_List(self, node):
        return ast.List([call("item", self.visit(part)) for part in node.elts], ast.Load())

    def visit_Call(self, node):
        arguments = [self.visit(part) for part in node.args]
        if node.func.id in ("IF", "IFERROR"):
            arguments = [later(part) for part in arguments]
        return call(node.func.id, *arguments)

    def visit_Name(self, node):
        return call("cell", ast.Constant(node.id))


def compiled(formula):
    """The expression of a formula, ready to be evaluated over a row."""
    tree = ast.parse("(\n%s)" % formula.replace("$", ""), mode="eval")
    return compile(ast.fix_missing_locations(Meant().visit(tree)), formula, "eval")


def value_in(row, code):
    """What Python gives in a row: a value, or the error."""
    def cell(name):
        value = row[name]
        if isinstance(value, Exception):
            raise value
        return value

    try:
        return eval(code, {**MEANINGS, "cell": cell, "__builtins__": {}})
    except ERRORS as error:
        return error


def as_json(value):
    """A value as the program writes it."""
    if isinstance(value, Exception):
        return ["E", type(value).__name__]
    return ["L", *value] if isinstance(value, list) else value


# Random formulas. Each is made with its level: from 0, a conditional, to 8, an atom.

class Maker:
    """Makes expressions over the columns and the formula columns before."""

    def __init__(self, dice):
        self.dice = dice
        self.before = []

    def space(self):
        return self.dice.choice((" ", " ", " ", " ", " ", "  ", "\t", "\n", " \r\n"))

    def inside(self, part, level):
        """An operand where this level is wanted."""
        text, own = part
        return text if own >= level and self.dice.random() < 0.9 else f"({text})"

    def binary(self, operator, level, left, right, chained=True):
        gap = self.space() if operator[0].isalpha() or self.dice.random() < 0.9 else ""
        left, right = self.inside(left, level if chained else level + 1), self.inside(right, level + 1)
        return f"{left}{gap}{operator}{gap}{right}", level

    def function(self, name, *parts):
        return "%s(%s)" % (name, f",{self.space()}".join(self.inside(part, 0) for part in parts)), 8

    def quoted(self, text):
        quote = self.dice.choice("'\"")
        for plain, escape in (("\\", "\\\\"), ("\n", "\\n"), ("\t", "\\t"), (quote, "\\" + quote)):
            text = text.replace(plain, escape)
        return quote + text + quote

    def leaf(self, kind):
        choice = self.dice.choice
        names = [name for name, held in COLUMNS.items() if held in (kind, "any")]
        if self.before and self.dice.random() < 0.1:
            names = self.before
        if self.dice.random() < 0.6:
            return "$" + choice(names), 8
        literals = {
            "int": lambda: choice(("0", "1", "1", str(choice(INTS)), str(choice(INTS)))),
            "bool": lambda: choice(("True", "False")),
            "text": lambda: self.quoted(choice(TEXTS)),
            "list": lambda: choice(("[]", "[1]", "[True]")),
            "null": lambda: "None",
        }
        if kind == "int" and self.dice.random() < 0.2:
            return "-1", 7
        return literals[kind](), 8

    def int(self, depth):
        number = lambda: self.part(self.dice.choice(("int", "int", "int", "bool")), depth)
        several = lambda: [self.part(self.dice.choice(("int", "list", "any")), depth) for _ in range(self.dice.randint(1, 3))]
        return self.dice.choice((
            lambda: self.binary("+", 5, number(), number()),
            lambda: self.binary("-", 5, number(), number()),
            lambda: self.binary("*", 6, number(), number()),
            lambda: self.binary("//", 6, number(), number()),
            lambda: self.binary("%", 6, number(), number()),
            lambda: self.binary(self.dice.choice(("*", "//", "%")), 6, self.part("any", depth), self.part("any", depth)),
            lambda: self.binary(self.dice.choice(("*", "//", "%")), 6, number(), ("-1", 7)),
            lambda: (self.dice.choice(("-", "- ")) + self.inside(number(), 7), 7),
            lambda: self.function("len", self.part(self.dice.choice(("text", "list")), depth)),
            lambda: self.function("abs", number()),
            lambda: self.function(self.dice.choice(("SUM", "MIN", "MAX")), *several()),
        ))()

    def bool(self, depth):
        part = lambda kind: self.part(kind, depth)
        kind = self.dice.choice(("int", "int", "bool", "text", "text", "list"))
        same = lambda left, right: self.binary(self.dice.choice(("==", "!=", "is", "is not")), 4, left, right, False)
        number = lambda: part(self.dice.choice(("int", "bool")))
        return self.dice.choice((
            lambda: self.binary(self.dice.choice(("<", "<=", ">", ">=")), 4, part(kind), part(kind), False),
            lambda: self.binary(self.dice.choice(("<", "<=", ">", ">=")), 4, part("any"), part(kind), False),
            lambda: same(part(kind), part(kind)),
            lambda: same(part("any"), part("any")),
            lambda: same(number(), number()),
            lambda: same(part("list"), part("list")),
            lambda: self.binary(self.dice.choice(("in", "not in")), 4, part("any"), part("list"), False),
            lambda: self.binary(self.dice.choice(("in", "not in")), 4, part("text"), part("text"), False),
            lambda: ("not " + self.inside(part("any"), 3), 3),
            lambda: self.function("bool", part("any")),
        ))()

    def text(self, depth):
        return self.dice.choice((
            lambda: self.binary("+", 5, self.part("text", depth), self.part("text", depth)),
            lambda: self.function("str", self.part("any", depth)),
        ))()

    def list(self, depth):
        items = lambda: [self.part(self.dice.choice(("int", "bool", "text", "null")), depth) for _ in range(self.dice.randint(1, 3))]
        return self.dice.choice((
            lambda: ("[%s]" % ", ".join(self.inside(part, 0) for part in items()), 8),
            lambda: self.binary("+", 5, self.part("list", depth), self.part("list", depth)),
        ))()

    def null(self, _):
        return self.leaf("null")

    def choice(self, kind, depth):
        """One of several parts of a kind, which the truth of another or an error decides."""
        part = lambda: self.part(kind, depth)
        test = lambda: self.part(self.dice.choice(("bool", "any")), depth)
        return self.dice.choice((
            lambda: self.function("IF", test(), part(), part()),
            lambda: self.function("IFERROR", part(), part()),
            lambda: self.function("IFERROR", part()),
            lambda: self.binary("or", 1, part(), part()),
            lambda: self.binary("and", 2, part(), part()),
            lambda: self.conditional(part(), test(), part()),
        ))()

    def conditional(self, value, test, other):
        value, test, other = self.inside(value, 1), self.inside(test, 1), self.inside(other, 0)
        return f"{value} if{self.space()}{test}{self.space()}else {other}", 0

    def part(self, kind, depth):
        """An expression that mostly is of this kind."""
        if kind == "any" or self.dice.random() < 0.04:
            kind = self.dice.choice(KINDS)
        if depth == 0 or self.dice.random() < 0.1:
            return self.leaf(kind)
        if self.dice.random() < 0.2:
            return self.choice(kind, depth - 1)
        return getattr(self, kind)(depth - 1)

    def formula(self):
        return self.part("any", self.dice.choice((1, 1, 1, 2, 2, 3, 4, 5)))[0]


def cell_of(dice, kind):
    """The value of a cell of a data column."""
    if kind == "any":
        kind = dice.choice(KINDS)
    if kind == "list":
        return [cell_of(dice, dice.choice(("int", "bool", "text", "null"))) for _ in range(dice.randint(0, 3))]
    makers = {
        "int": lambda: dice.choice((0, 1, 1, -1, dice.randint(-99, 99), dice.choice(INTS), -dice.choice(INTS), LEAST)),
        "bool": lambda: dice.random() < 0.5,
        "text": lambda: dice.choice(TEXTS),
        "null": lambda: None,
    }
    return makers[kind]()


class Table:
    """Random rows, and formulas with what Python gives for them."""

    def __init__(self, dice, name, count):
        self.name = name
        self.rows = [{id: cell_of(dice, kind) for id, kind in COLUMNS.items()} for _ in range(ROWS)]
        self.data = [dict(row) for row in self.rows]
        self.formulas = {}
        self.left_out = 0
        maker = Maker(dice)
        while len(self.formulas) < count:
            self.take(maker, f"F{len(self.formulas) + 1}", maker.formula())

    def take(self, maker, id, formula):
        """Takes a formula, where Python and the program both have a meaning for it."""
        try:
            if len(formula.encode()) > LONGEST:
                raise ValueError
            code = compiled(formula)
            values = [value_in(row, code) for row in self.rows]
        except Exception:
            self.left_out += 1
            return
        for row, value in zip(self.rows, values):
            row[id] = value
        self.formulas[id] = formula
        maker.before.append(id)

    def actions(self, formulas_last):
        """The user actions that make it; the formulas come before the rows or behind them."""
        table = ["AddTable", self.name, [{"id": id, "type": "Any"} for id in COLUMNS]]
        columns = [["AddColumn", self.name, id, {"formula": text, "isFormula": True, "type": "Any"}] for id, text in self.formulas.items()]
        cells = {id: [as_json(row[id]) for row in self.data] for id in COLUMNS}
        rows = ["BulkAddRecord", self.name, [None] * ROWS, cells]
        return [table, rows, *columns] if formulas_last else [table, *columns, rows]


def stop(message):
    print(message, file=sys.stderr)
    raise SystemExit(2)


def answers_of(program, tables):
    """The columns of each table by its name, as a session sees them that opens behind all changes."""
    frames = [FRAME % json.dumps(table.actions(place % 2 == 0)) for place, table in enumerate(tables)]
    script = "".join((USER, OPEN, *frames, OPEN.replace("s1", "s2")))
    run = subprocess.run([program, "replay"], input=script.encode(), stdout=subprocess.PIPE)
    if run.returncode:
        stop(f"the program ended with {run.returncode}")
    lines = [json.loads(line) for line in run.stdout.splitlines()]
    for frame in lines:
        if "error" in frame["line"]:
            stop(f"the program answered {json.dumps(frame)}")
    actions = lines[-1]["line"]["ok"]["actions"]
    return {action[1]: action[3] for action in actions if action[0] == "BulkAddRecord"}


def differences(table, columns):
    """Each cell in which the program gives something else than Python, as a text."""
    for id, formula in table.formulas.items():
        for place, row in enumerate(table.rows):
            wanted, given = json.dumps(as_json(row[id])), json.dumps(columns[id][place])
            if wanted != given:
                read = {name: as_json(row[name]) for name in row if f"${name}" in formula}
                yield f"{formula!r} over {json.dumps(read)}: Python gives {wanted}, the program {given}"


def main():
    seed = int(sys.argv[1]) if len(sys.argv) > 1 else 1
    program = sys.argv[2] if len(sys.argv) > 2 else PROGRAM
    dice = random.Random(seed)
    tables = [Table(dice, f"T{number}", FORMULAS_OF_TABLE) for number in range(1, FORMULAS // FORMULAS_OF_TABLE + 1)]
    answers = answers_of(os.path.abspath(program), tables)
    found = [line for table in tables for line in differences(table, answers[table.name])]
    print("\n".join(found), end="\n" if found else "")
    values = [row[id] for table in tables for row in table.rows for id in table.formulas]
    kinds = collections.Counter(type(value).__name__ for value in values)
    left_out = sum(table.left_out for table in tables)
    print(f"seed {seed}: {FORMULAS} formulas, {len(values)} cells compared, {left_out} formulas left out, {len(found)} differences")
    print("values by kind: " + ", ".join(f"{kind} {count}" for kind, count in sorted(kinds.items())))
    raise SystemExit(1 if found else 0)


if __name__ == "__main__":
    main()
