#!/usr/bin/env python3
"""Makes the tables of the axioms from crates/gv_axioms/axioms.txt: specs/Table.antt, src/generated/table.rt, and the table in
docs/axioms.md; that page's examples are the cases of crates/axiom_cases/data/instances.txt. With `check` it writes nothing, and fails where a file differs from what it would write."""

import re
import sys
from pathlib import Path

TOP = Path(__file__).resolve().parent.parent
CRATE = TOP / "crates" / "gv_axioms"
DOCS = TOP / "docs" / "axioms.md"
CASES = TOP / "crates" / "axiom_cases" / "data" / "instances.txt"
MADE = "Made by tools/axioms.py from axioms.txt: edit that."

# by level, the binary operators, loosest first
LEVELS = [
    {"||": "Or"},
    {"&&": "And"},
    {"==": "Equal", "<": "Less", "<=": "AtMost"},
    {"+": "Plus", "-": "Minus", "|": "BitOr", "^": "BitXor"},
    {"*": "Times", "/": "Divide", "%": "Remainder", "&": "BitAnd"},
]
NAMED = {
    "imp": "Imp", "if": "If", "fits": "Fits", "len": "Len", "at": "At", "upd": "Upd", "sub": "Sub", "cat": "Cat",
    "iszero": "IsZero", "le64": "Le64", "un64": "Un64", "put64": "Put64", "get": "Get", "has": "Has", "put": "Put",
    "del": "Del", "slen": "SLen", "scap": "SCap", "sl": "Sl",
}
OF_PART = {"K": "literal", "V": "copied", "Z": "zero"}
SORTS = ("Bool", "Word", "Bytes", "SliceS")
TOKEN = re.compile(r"\s*(\d+|\w+|&&|\|\||==|<=|[-+*/%&|^!<(),])")


class Formula:
    """A recursive descent over the text of one formula, whose letters are the parts in order."""

    def __init__(self, text, letters):
        self.tokens = TOKEN.findall(text)
        self.letters = letters
        self.at = 0

    def peek(self):
        return self.tokens[self.at] if self.at < len(self.tokens) else None

    def take(self, wanted=None):
        token = self.peek()
        if token is None or (wanted is not None and token != wanted):
            raise ValueError(f"{wanted or 'a token'} is wanted, not {token}: {self.tokens}")
        self.at += 1
        return token

    def whole(self):
        tree = self.binary(0)
        if self.peek() is not None:
            raise ValueError(f"more than a formula: {self.tokens}")
        return tree

    def binary(self, level):
        if level == len(LEVELS):
            return self.unary()
        left = self.binary(level + 1)
        while self.peek() in LEVELS[level]:
            operator = LEVELS[level][self.take()]
            left = ("over", operator, [left, self.binary(level + 1)])
        return left

    def unary(self):
        if self.peek() == "!":
            self.take()
            return ("over", "Not", [self.unary()])
        if self.peek() == "(":
            self.take()
            inner = self.binary(0)
            self.take(")")
            return inner
        token = self.take()
        if token.isdigit():
            return ("over", f"Number {token}", [])
        if self.peek() == "(":
            return self.call(token)
        return ("part", self.letters.index(token))

    def call(self, name):
        self.take("(")
        if name in OF_PART:
            tree = (OF_PART[name], self.letters.index(self.take()))
            self.take(")")
            return tree
        parts = [self.binary(0)]
        while self.peek() == ",":
            self.take()
            parts.append(self.binary(0))
        self.take(")")
        return ("over", NAMED[name], parts)


def kind(text, letters):
    """What a part has to be: a variant with the place it names, or the sort."""
    if text in SORTS:
        return ("Of", text)
    words = text.split()
    return (words[0], letters.index(words[1])) if len(words) == 2 else (words[0],)


def premise(text, letters):
    """A premise: where it is asked for Bytes alone, the place of the part that is to be of that sort, and the formula."""
    formula, where, letter = text.partition(" where ")
    place = letters.index(letter.split()[0]) if where else None
    return (place, Formula(formula, letters).whole())


def read():
    """The axioms in order: number, source line, kinds, premises, conclusion."""
    axioms = []
    for line in (CRATE / "axioms.txt").read_text().splitlines():
        if not line or line.startswith("#"):
            continue
        number, parts, rest = re.fullmatch(r"(\d+) \(([^)]*)\): (.*)", line).groups()
        if int(number) != len(axioms) + 1:
            raise ValueError(f"number {number} is out of order")
        pairs = [part.split(": ") for part in parts.split(", ")]
        letters = [letter for letter, _ in pairs]
        before, conclusion = re.fullmatch(r"(.*?)\s*=> (.*)", rest).groups()
        premises = [premise(text, letters) for text in before.split("; ") if text]
        axioms.append({
            "number": int(number), "line": line, "pairs": pairs, "before": before, "after": conclusion,
            "kinds": [kind(text, letters) for _, text in pairs],
            "premises": premises, "conclusion": Formula(conclusion, letters).whole(),
        })
    return axioms


def listed(items):
    return "".join(f"{item} ∷ " for item in items) + "[]"


def antt_kind(kind):
    if kind[0] == "Of":
        return f"kind.Of sort.{kind[1]}"
    return f"kind.{kind[0]}" + (f" {kind[1]}" if len(kind) == 2 else "")


def antt_pattern(tree, inner=False):
    if tree[0] != "over":
        text = f"{tree[0]} {tree[1]}"
    else:
        operator = f"op.{tree[1]}" if " " not in tree[1] else f"(op.{tree[1]})"
        text = f"over{len(tree[2])} {operator}" + "".join(f" {antt_pattern(part, True)}" for part in tree[2])
    return f"({text})" if inner else text


def antt_conclusion(tree):
    """The lines of a conclusion: an equation has a line for each side."""
    if tree[:2] != ("over", "Equal"):
        return [f"      {antt_pattern(tree)};"]
    left, right = (antt_pattern(part, True) for part in tree[2])
    return ["      over2 op.Equal", f"      {left}", f"      {right};"]


def antt(axioms):
    out = [
        f"-- The axioms in order. {MADE}",
        "use Rattle.std.specs.Prelude.{List, [], ◌∷◌}",
        "use Rattle.gv_terms.specs.declared.sort.Sort.TheVariants as sort",
        "use Rattle.gv_terms.specs.declared.operator.Operator.TheVariants as op",
        "use Rattle.gv_axioms.specs.declared.kind.Kind.TheVariants as kind",
        "use Rattle.gv_axioms.specs.Schema.{Axiom, always, for_bytes}",
        "use Rattle.gv_axioms.specs.Schema.Pattern.{part, literal, copied, zero, over0, over1, over2, over3}",
    ]
    for axiom in axioms:
        name = f"axiom_{axiom['number']}"
        premises = [
            f"always ({antt_pattern(formula)})" if place is None else f"for_bytes {place} ({antt_pattern(formula)})"
            for place, formula in axiom["premises"]
        ]
        out += [
            "", f"-- {axiom['line']}", f"abbrev pub {name} : Axiom", f"{name} = record {{",
            f"  kinds = {listed(antt_kind(kind) for kind in axiom['kinds'])};",
            "  premises =", *[f"      {item} ∷" for item in premises], "      [];",
            "  conclusion =", *antt_conclusion(axiom["conclusion"]), "}",
        ]
    names = [f"axiom_{axiom['number']}" for axiom in axioms]
    rows = [" ∷ ".join(names[at:at + 8]) for at in range(0, len(names), 8)]
    out += ["", "abbrev pub table : List Axiom", "table =", "    " + "\n    ∷ ".join(rows) + " ∷ []"]
    return "\n".join(out) + "\n"


def steps(tree):
    """The formula with each operator behind its parts."""
    if tree[0] != "over":
        return [f"Step::{tree[0].capitalize()}({tree[1]})"]
    operator, _, literal = tree[1].partition(" ")
    written = f"Operator::{operator}" + (f"({literal})" if literal else "")
    return [step for part in tree[2] for step in steps(part)] + [f"Step::Apply({written}, {len(tree[2])})"]


def rust_kind(kind):
    if kind[0] == "Of":
        return f"Kind::Of(Sort::{kind[1]})"
    return f"Kind::{kind[0]}" + (f"({kind[1]})" if len(kind) == 2 else "")


def constant(name, sort, items):
    """A flat table: a table of references to tables takes the checker too long."""
    return [f"pub(crate) static {name}: [{sort}; {len(items)}] = [", *(f"    {item}" for item in items), "];", ""]


def told(items, what):
    """Items of the table of steps: behind the last step of a formula stands whose it is."""
    return [f"{item}," for item in items[:-1]] + [f"{items[-1]}, // {what}"]


def rust(axioms):
    kinds, premises, made, rows = [], [], [], []

    def span(items, more):
        items += more
        return f"Span {{ from: {len(items) - len(more)}, to: {len(items)} }}"

    def fields(name, *pairs):
        return "\n".join([f"{name} {{", *(f"        {field}: {value}," for field, value in pairs), "    },"])

    for number, axiom in enumerate(axioms, 1):
        of_kinds = span(kinds, [f"{rust_kind(kind)}," for kind in axiom["kinds"]])
        asked = []
        for place, formula in axiom["premises"]:
            where = "None" if place is None else f"Some({place})"
            asked.append(fields("Premise", ("bytes", where), ("steps", span(made, told(steps(formula), f"{number} asks")))))
        of_premises = span(premises, asked)
        conclusion = span(made, told(steps(axiom["conclusion"]), f"{number} gives"))
        rows.append(f"// {axiom['line']}\n    " + fields("Row", ("kinds", of_kinds), ("premises", of_premises), ("conclusion", conclusion)))
    out = [
        f"//! The axioms in order. {MADE}", "",
        "use crate::kind::Kind;", "use crate::row::{Premise, Row, Span};", "use crate::step::Step;",
        "use gv_terms::{Operator, Sort};", "",
        *constant("KINDS", "Kind", kinds), *constant("STEPS", "Step", made), *constant("PREMISES", "Premise", premises), *constant("ROWS", "Row", rows),
    ]
    return "\n".join(out[:-1]) + "\n"


def examples():
    """Of each number the last of its cases in crates/axiom_cases: the parts, and what the instance over them is."""
    shown = {}
    for line in CASES.read_text().splitlines():
        case = re.fullmatch(r"(\d+) [^:]*: \d+ \((.*)\) => (.*?) ?gives (.*)", line)
        if case:
            shown[int(case[1])] = case.groups()[1:]
    return shown


def in_docs(axioms):
    """The page with its two tables made anew: what stands before, between and behind them is kept."""
    before, _, rest = DOCS.read_text().partition("| Number | Parts | Premises")
    between, _, rest = rest.partition("\n\n")[2].partition("| Number | Over")
    behind = rest.partition("\n\n")[2]
    rows = ["| Number | Parts | Premises | Gives |", "|---|---|---|---|"]
    for axiom in axioms:
        parts = ", ".join(f"{letter}: {kind}" for letter, kind in axiom["pairs"])
        cells = [str(axiom["number"]), parts, axiom["before"].replace("; ", "`, `"), axiom["after"]]
        rows.append("| " + " | ".join([cells[0], cells[1], *[f"`{cell}`" if cell else "" for cell in cells[2:]]]).replace("||", "\\|\\|") + " |")
    shown = ["| Number | Over | Premises | Gives |", "|---|---|---|---|"]
    for number, cells in sorted(examples().items()):
        told = " | ".join(f"`{cell}`" if cell else "" for cell in (cells[0].replace("; ", "`, `"), cells[1].replace("; ", "`, `"), cells[2]))
        shown.append(f"| {number} | {told} |".replace("||", "\\|\\|"))
    return before + "\n".join(rows) + "\n\n" + between + "\n".join(shown) + "\n\n" + behind


def main():
    axioms = read()
    made = {DOCS: in_docs(axioms), CRATE / "specs" / "Table.antt": antt(axioms), CRATE / "src" / "generated" / "table.rt": rust(axioms)}
    status = 0
    for path, text in made.items():
        if "check" not in sys.argv[1:]:
            path.write_text(text)
        elif path.read_text() != text:
            print(f"{path.relative_to(TOP)} isn't what tools/axioms.py makes", file=sys.stderr)
            status = 1
    return status


if __name__ == "__main__":
    sys.exit(main())
