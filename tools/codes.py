#!/usr/bin/env python3
"""Writes docs/codes.md: every code of refusal, cause and status, with the smallest text that has it.

  codes.py            prints the page
  codes.py --check    ends with 1 where docs/codes.md isn't what would be printed

The texts are not written here: each is the shortest case of the tables that the programs of cases run, so a page
that stands is one whose texts are tested. A code that no table has is marked as not made yet.
"""
import os
import re
import sys

TOP = os.path.dirname(os.path.dirname(os.path.abspath(__file__)))
PAGE = f"{TOP}/docs/codes.md"

# number, name and meaning, in the order of the numbers
CODES = [
    ("BadUtf8", "a byte that is no UTF-8"),
    ("BadChar", "a character that begins no token"),
    ("OpenComment", "a `/*` without its `*/`"),
    ("OpenText", "a text literal without its end"),
    ("BadNumber", "a malformed number, or one that is too large for its place"),
    ("Unexpected", "a token that no text of the grammar has there"),
    ("NotInProfile", "Go that this project's profile leaves out; and a text that isn't of the small form"),
    ("TooDeep", "the token that opens level 201"),
    ("EndOfText", "the text ends where the grammar wants more; the place is behind the last byte"),
    ("Undeclared", "a name that nothing declares"),
    ("Twice", "a name that is declared a second time, or that a constant of terms has; a field that one body assigns twice"),
    ("WrongType", "an expression, a term or a value of another type than its place wants"),
    ("WrongCount", "too few or too many parts"),
    ("NotAssignable", "a left side that can't be assigned"),
    ("MissingReturn", "a function with results whose end can be reached"),
    ("Captured", "a variable that a literal uses and that is assigned later"),
    ("ConstTooLarge", "a constant that doesn't fit its type"),
    ("NoRecover", "no `Recover` of the right shape"),
    ("TooLong", "a text of more than 16,777,216 bytes, at 1:1"),
    ("Interface", "operations of the package that are not the specification's"),
    ("Disks", "a number of disks that the imports don't have"),
    ("TooMany", "a number above the limit of its place"),
    ("TooManyCells", "more live cells than 2^24"),
    ("TooManyEvents", "more events than 1,000,000"),
]

WALK_CAUSES = [
    ("Repeated", "a call under a number that was used before"),
    ("NotCalled", "an act or an answer of a call that is not in the table"),
    ("ActedAlready", "a second act"),
    ("NotActed", "an answer before the act"),
    ("WrongReply", "an answer that isn't the reply of the act"),
    ("Order", "an entry that isn't the next one of the history"),
    ("Missing", "no move is left, and the history goes on; the number is one past the last move"),
    ("BadChoice", "choices that the picks don't allow"),
]

CAUSES = [
    ("Scope", "a variable that the path lacks, or a term without the sort of its place"),
    ("NameTaken", "a new name that is in use"),
    ("Count", "another number of names, terms or blocks than there must be"),
    ("NoAtom", "an atom that isn't there; of a script of the small form: an operation's sum in the package isn't the one in the specification, and the place is the word `step` of its block"),
    ("NotKnown", "a formula that isn't known"),
    ("Mismatch", "a formula, a term or an atom of another form than there must be"),
    ("Mode", "what the own or the shared mode, or the block, doesn't allow"),
    ("Bracket", "a bracket that isn't closed, or isn't opened"),
    ("NotDurable", "a predicate that a crash doesn't keep"),
    ("NotPersistent", "an atom or a predicate that can't be copied"),
    ("HasToken", "a token is left"),
    ("CrashBlock", "the crash condition isn't left"),
    ("PathEnd", "a path that hasn't ended, or has ended already"),
    ("NoStep", "no step since the block's start"),
    ("WrongPoint", "another point than there must be"),
    ("NotAPlus", "a listed term that is no sum or difference of whole numbers"),
    ("Negative", "a negative factor of a row that may be above 0"),
    ("Wide", "a number outside 128 bits"),
    ("NotContradiction", "the sums don't show a contradiction"),
    ("BadAxiom", "no such instance of an axiom"),
    ("Excluded", "a number that is excepted"),
    ("Missing", "a block that is missing"),
    ("Hole", "a hole"),
]

STATUSES = [
    (0, "accepted", "`accepted for runs without crash`"),
    (0, "accepted in runs with crashes too", "`accepted`"),
    (0, "explained", "`explained`"),
    (0, "a schedule was run to its end", "the history, an entry a line, and `end`"),
    (0, "judged with an explanation", "its moves, a line each"),
    (0, "points of procedures", "`proc NAME`, and behind it a line a point"),
    (0, "texts were made", "`gen K accepted PKGBYTES SPECBYTES SCRIPTBYTES COMMANDS`"),
    (1, "unjustified", "`unjustified LINE:COL CAUSE`, the place in the script"),
    (1, "not explained", "`not explained at K CAUSE`, the number of a move from 1"),
    (1, "judged to have no explanation", "`no explanation`"),
    (2, "the words are no command", "the usage line"),
    (3, "a file can't be read", "`cannot read NAME`"),
    (4, "a text is refused", "`NAME:LINE:COL CODE`"),
    (5, "out of memory", "`out of memory`"),
    (6, "the report can't be written", "a prefix of it"),
    (7, "nodes of a search are spent", "`spent MOST`"),
    (8, "an event of a schedule was undefined", "the history so far, and `undefined K REASON`, the number of the event from 1"),
]

# what a command that isn't there yet will print
NOT_MADE = ("`accepted`", "`proc NAME`, and behind it a line a point", "`gen K accepted PKGBYTES SPECBYTES SCRIPTBYTES COMMANDS`",
            "the history so far, and `undefined K REASON`, the number of the event from 1")

# what the first words of a case say of its text
FORMS = {
    "both": "history",
    "history": "history",
    "moves": "moves",
    "schedule": "schedule",
}

# what stands before and behind a case of a specification in each form of its table; another form asks something else of a text
FRAMES = {
    "text": ("", ""),
    "tree": ("", ""),
    "whole": ("", ""),
    "line": ("spec s; disks 0;\\n", "\\ncrash {}"),
    "middle": ("spec s; disks 0;\\n", "\\ncrash {}"),
}


def cases_of(path):
    """The cases of a table: the form that stands above, what is given, and what is wanted."""
    form = ""
    with open(path, encoding="utf-8") as table:
        for line in table:
            line = line.rstrip("\n")
            if line.startswith("form "):
                form = line[5:]
            name, colon, rest = line.partition(": ")
            said, arrow, want = rest.partition(" => ")
            if colon and arrow and not line.startswith("//"):
                yield form, said, want


def length(text):
    """How many bytes a table's text has: `\\n` and `\\xHH` are one, `[[PIECE*COUNT]]` is the piece so many times."""
    text = re.sub(r"\[\[(.*?)\*(\d+)\]\]", lambda it: it[1] * int(it[2]), text)
    return len(re.sub(r"\\x[0-9A-Fa-f]{2}|\\.", "n", text).encode())


def refusals():
    """For each code its cases: kind of text, text and place."""
    found = {}
    tables = f"{TOP}/crates"
    for name, kind in (("token_cases/data/go.txt", "package"), ("token_cases/data/own.txt", "any own text"),
                       ("spec_cases/data/specifications.txt", "specification"), ("spec_cases/data/meanings.txt", "specification"),
                       ("walk_cases/data/lines.txt", "")):
        if not os.path.exists(f"{tables}/{name}"):
            continue
        for form, said, want in cases_of(f"{tables}/{name}"):
            told = re.fullmatch(r"(\d+:\d+) (\w+)", want)
            if not told:
                continue
            of, text = kind, said
            if not kind:
                word, _, text = said.partition(" forms")
                of, text = FORMS.get(word, ""), text[1:]
            elif kind == "specification":
                if form not in FRAMES:
                    continue
                front, back = FRAMES[form]
                text = front + said + back
            if of:
                found.setdefault(told[2], []).append((length(text), len(text), of, text, told[1]))
    return found


def walks():
    """For each cause its cases: history, moves and number."""
    found = {}
    path = f"{TOP}/crates/walk_cases/data/walks.txt"
    for _, said, want in cases_of(path) if os.path.exists(path) else ():
        told = re.fullmatch(r"(\d+) (\w+)", want)
        word, _, rest = said.partition(" ")
        if told and word == "walk":
            history, _, moves = rest.partition(" | ")
            found.setdefault(told[2], []).append((len(rest), history.partition(" ")[2], moves, told[1]))
    return found


def unjustified():
    """For each cause of a script the first case of the program's tables that is answered with it: its table and name."""
    found = {}
    for table in sorted(os.listdir(f"{TOP}/cases")):
        name = ""
        with open(f"{TOP}/cases/{table}", encoding="utf-8", errors="replace") as it:
            for line in it:
                if line.startswith("== "):
                    name = line[3:].strip()
                told = re.fullmatch(r"unjustified \d+:\d+ (\w+)", line.strip())
                if told and name:
                    found.setdefault(told[1], f"`{table}`, {name}")
    return found


def shown(text):
    """A text in a table's cell; tables write its newlines as `\\n`."""
    text = text.replace("|", "\\|")
    if not text.strip():
        return "nothing at all" if not text else "blanks"
    return f"`` {text} ``" if "`" in text else f"`{text}`"


def page():
    lines = [
        "# Codes, causes and statuses",
        "",
        "This page is written by `tools/codes.py` from the tables of cases that the tests run: each text is the smallest there that has the",
        "code, with the place at which it is refused. A newline is shown as `\\n`, a byte as `\\x` with two digits. A code without a text is",
        "marked as made by no reader yet, or its text is too long for this page.",
        "",
        "## Codes of refusal",
        "",
        "A text is refused at the first stage that has a fault: its length, its characters (1 to 5, and 7 for literals), its grammar (5 to 9), its names,",
        "types and counts (the rest). Within a stage the least place counts, and at one place the lower number.",
        "",
        "| Number | Code | Where | Kind of text | Smallest text | Place |",
        "|---|---|---|---|---|---|",
    ]
    found = refusals()
    elsewhere = {"Interface": "package or specification: [the program](program.md#replay)", "TooManyCells": "schedule: [the machine](machine.md)",
                 "TooLong": "any file: [small forms](small-forms.md)", "TooDeep": "specification: [its text](specifications.md)"}
    for number, (code, meaning) in enumerate(CODES, 1):
        cases = sorted(found.get(code, []))
        if cases:
            *_, of, text, place = cases[0]
            lines.append(f"| {number} | `{code}` | {meaning} | {of} | {shown(text)} | {place} |")
        else:
            lines.append(f"| {number} | `{code}` | {meaning} | {elsewhere.get(code, 'not made yet')} | | |")
    lines += [
        "",
        "## Why an explanation is refused",
        "",
        "Histories and moves of a counter, whose `Inc` replies how often it was called before.",
        "",
        "| Cause | Where | History | Moves | Move |",
        "|---|---|---|---|---|",
    ]
    told = walks()
    for cause, meaning in WALK_CAUSES:
        cases = sorted(told.get(cause, []))
        _, history, moves, number = cases[0] if cases else (0, "", "", "")
        lines.append(f"| `{cause}` | {meaning} | {shown(history)} | {shown(moves)} | {number} |" if cases
                     else f"| `{cause}` | {meaning} | not made yet | | |")
    examples = unjustified()
    lines += [
        "",
        "## Why a script is unjustified",
        "",
        "The first premise of a command that fails. Each cause's line, as text and in JSON, is a case of `crates/report_cases`; an example is the first call of the",
        "program in `cases/` that is answered so.",
        "",
        "| Number | Cause | Where | Example |",
        "|---|---|---|---|",
        *(f"| {number} | `{cause}` | {where} | {examples.get(cause, 'not made yet')} |" for number, (cause, where) in enumerate(CAUSES, 1)),
        "",
        "## Statuses",
        "",
        "| Status | Means | Printed | |",
        "|---|---|---|---|",
        *(f"| {status} | {means} | {printed} | {'not made yet' if printed in NOT_MADE else ''} |" for status, means, printed in STATUSES),
    ]
    return "\n".join(lines) + "\n"


def main(words):
    made = page()
    if words == ["--check"]:
        with open(PAGE, encoding="utf-8") as it:
            stands = it.read()
        if stands != made:
            print("docs/codes.md isn't what tools/codes.py writes", file=sys.stderr)
            return 1
        return 0
    print(made, end="")
    return 0


if __name__ == "__main__":
    sys.exit(main(sys.argv[1:]))
