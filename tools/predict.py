"""Computes the table of a grammar, and reports where it isn't predictive."""

from dataclasses import dataclass

from grammar_file import GrammarError


@dataclass
class Solved:
    empty: list  # by name: whether it derives the empty list
    first: list  # by name: the classes that begin what it derives
    follow: list  # by name: the classes that may stand behind it, 0 for the end
    table: list  # by name and class: a rule, or None


def solve(grammar):
    rows = [(grammar.names.index(rule.name), grammar.row(rule)) for rule in grammar.rules]
    members = [[grammar.classes.index(c) + 1 for c in cs] for cs in grammar.sets.values()]
    report_barren(grammar, rows)
    report_recursion(grammar, rows)
    empty = empties(len(grammar.names), rows)
    first = firsts(len(grammar.names), rows, members, empty)
    roots = [grammar.names.index(root) for root in grammar.root_kinds()]
    follow = follows(len(grammar.names), roots, rows, members, empty, first)
    return Solved(empty, first, follow, table_of(grammar, rows, members, empty, first, follow))


def is_empty(row, empty):
    return all(kind == "Act" or kind == "Name" and empty[number] for kind, number in row)


def empties(count, rows):
    empty = [False] * count
    grown = True
    while grown:
        grown = False
        for name, row in rows:
            if not empty[name] and is_empty(row, empty):
                empty[name] = grown = True
    return empty


def beginnings(row, members, empty, first):
    """The classes that may begin what a row derives."""
    out = set()
    for kind, number in row:
        if kind == "Token":
            return out | set(members[number])
        if kind == "Name":
            out |= first[number]
            if not empty[number]:
                return out
    return out


def firsts(count, rows, members, empty):
    first = [set() for _ in range(count)]
    grown = True
    while grown:
        grown = False
        for name, row in rows:
            new = beginnings(row, members, empty, first)
            if not new <= first[name]:
                first[name] |= new
                grown = True
    return first


def follows(count, roots, rows, members, empty, first):
    follow = [set() for _ in range(count)]
    for root in roots:
        follow[root].add(0)
    grown = True
    while grown:
        grown = False
        for name, row in rows:
            for at, (kind, number) in enumerate(row):
                if kind != "Name":
                    continue
                rest = row[at + 1 :]
                new = beginnings(rest, members, empty, first)
                if is_empty(rest, empty):
                    new = new | follow[name]
                if not new <= follow[number]:
                    follow[number] |= new
                    grown = True
    return follow


def table_of(grammar, rows, members, empty, first, follow):
    table = [[None] * (len(grammar.classes) + 1) for _ in grammar.names]
    conflicts = []
    for rule, (name, row) in enumerate(rows):
        classes = beginnings(row, members, empty, first)
        if is_empty(row, empty):
            classes = classes | follow[name]
        for at in sorted(classes):
            if table[name][at] is None:
                table[name][at] = rule
                continue
            what = grammar.classes[at - 1] if at else "the end"
            one, other = grammar.rules[table[name][at]], grammar.rules[rule]
            conflicts.append(f"conflict before {what}: {one.text()} | {other.text()}")
    if conflicts:
        raise GrammarError(conflicts)
    return table


def report_barren(grammar, rows):
    """Names that derive no list of tokens."""
    ends = set()
    grown = True
    while grown:
        grown = False
        for name, row in rows:
            if name not in ends and all(kind != "Name" or number in ends for kind, number in row):
                ends.add(name)
                grown = True
    barren = [name for at, name in enumerate(grammar.names) if at not in ends]
    if barren:
        raise GrammarError([f"{name} derives nothing: each of its rules comes back to a name that never ends" for name in barren])


def report_recursion(grammar, rows):
    """Names that may stand at the front of what they derive themselves."""
    empty = empties(len(grammar.names), rows)
    heads = {at: {} for at in range(len(grammar.names))}
    for rule, (name, row) in enumerate(rows):
        for kind, number in row:
            if kind == "Token":
                break
            if kind == "Name":
                heads[name].setdefault(number, rule)
                if not empty[number]:
                    break
    for start in heads:
        path = path_back(heads, start)
        if path:
            steps = ", ".join(grammar.rules[rule].text() for rule in path)
            raise GrammarError([f"left recursion: {grammar.names[start]} comes back to its own front by {steps}"])


def path_back(heads, start):
    """Rules that lead from a name's front back to the name."""
    seen, stack = set(), [(start, [])]
    while stack:
        name, path = stack.pop()
        for inner, rule in heads[name].items():
            if inner == start:
                return path + [rule]
            if inner not in seen:
                seen.add(inner)
                stack.append((inner, path + [rule]))
    return None
