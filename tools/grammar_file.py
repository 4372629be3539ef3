"""Reads grammar files."""

import os
import re
from dataclasses import dataclass, field

MARKS = ["OPEN", "SAVE", "RESTORE", "OPEN_BEFORE"]
SECTIONS = ["classes", "sets", "kinds", "rust", "antt", "acts", "rules"]
SETTINGS = ["language", "crate", "token", "roots", "fragment", "include", "context", "code"]
LIMIT = 255


class GrammarError(Exception):
    """What is wrong with a grammar, a line each."""

    def __init__(self, lines):
        super().__init__("\n".join(lines))
        self.lines = lines


@dataclass
class Act:
    name: str
    takes: list  # pairs of a variable and a kind, the lowest part first
    kind: str  # of what it makes
    antt: str = ""
    rust: str = ""


@dataclass
class Rule:
    name: str  # the name that it is of
    label: str
    words: list  # a word of a name, a set or a class, or an act in braces

    def title(self):
        return f"{self.name}/{self.label}"

    def text(self):
        return " ".join([self.title(), "="] + self.words)


@dataclass
class GrammarFile:
    """A grammar. What it includes stands first in its classes, sets, names and rules; acts and kinds are its own alone."""

    language: str = ""
    crate: str = ""
    token: str = ""
    roots: str = ""  # names that texts are read as, each with the kind of its tree: `Block:Stmts Sum:Expr`
    fragment: str = ""  # `yes` where other grammars may include this one
    include: str = ""  # the path of an included grammar, from the folder of this file
    context: str = ""  # what acts are given beside the parts: a variable and its Rust type
    code: str = ""  # `nodes` where a tree is a list of nodes, and acts are definitions alone: what such a list is the tree of
    base: object = None  # the included grammar
    classes: list = field(default_factory=list)
    sets: dict = field(default_factory=dict)
    open_sets: list = field(default_factory=list)  # those that an including grammar may enlarge
    kinds: dict = field(default_factory=dict)
    others: dict = field(default_factory=dict)  # with `code nodes`, by kind a value that stands where no parts fit
    rust: list = field(default_factory=list)
    antt: list = field(default_factory=list)
    acts: list = field(default_factory=list)
    rules: list = field(default_factory=list)
    names: list = field(default_factory=list)

    def act_names(self):
        return (self.base.act_names() if self.base else MARKS) + [act.name for act in self.acts]

    def all_kinds(self):
        return {**(self.base.kinds if self.base else {}), **self.kinds}

    def root_kinds(self):
        """Each root with the kind of its tree."""
        return dict(word.split(":") for word in self.roots.split())

    def context_name(self):
        return self.context.split(":")[0].strip()

    def own(self, what):
        """What of its classes, sets, names or rules the grammar doesn't include."""
        return list(getattr(self, what))[len(getattr(self.base, what)) if self.base else 0 :]

    def set_names(self):
        return list(self.sets)

    def symbol(self, word):
        """A word of a row, as a pair of what it is and its number."""
        if word.startswith("{"):
            return ("Act", self.act_names().index(word[1:-1]))
        if word in self.names:
            return ("Name", self.names.index(word))
        return ("Token", self.set_names().index(word))

    def row(self, rule):
        return [self.symbol(word) for word in rule.words]


def upper(word):
    """A word in the form of a constant: SumTail is SUM_TAIL, LParen is L_PAREN."""
    return re.sub(r"(?<=[a-z0-9])(?=[A-Z])|(?<=[A-Z])(?=[A-Z][a-z])", "_", word).upper()


def read_grammar(path):
    """The grammar of a file, with its names, sets and acts checked."""
    grammar = GrammarFile()
    section = None
    with open(path, encoding="utf-8") as file:
        for number, line in enumerate(file, 1):
            text = line.split("#")[0].rstrip() if section not in ("rust", "antt") else line.rstrip()
            if not text.strip() or text.lstrip().startswith("#"):
                continue
            if text in SECTIONS:
                section = text
            elif not text.startswith(" "):
                read_setting(grammar, text, number, path)
                section = None
            elif section is None:
                raise GrammarError([f"line {number}: stands in no section"])
            else:
                read_line(grammar, section, text, number)
    complete(grammar)
    return grammar


def read_setting(grammar, text, number, path):
    words = text.split(None, 1)
    if len(words) != 2 or words[0] not in SETTINGS:
        raise GrammarError([f"line {number}: neither a section nor a setting: {text}"])
    setattr(grammar, words[0], words[1].strip())
    if words[0] == "include":
        include(grammar, os.path.join(os.path.dirname(path), grammar.include))


def include(grammar, path):
    """Begins a grammar with another one."""
    if grammar.classes or grammar.sets or grammar.rules:
        raise GrammarError([f"include {grammar.include}: stands before all sections"])
    base = read_grammar(path)
    if base.fragment != "yes":
        raise GrammarError([f"include {grammar.include}: {base.language} is no fragment"])
    if base.base:
        raise GrammarError([f"include {grammar.include}: {base.language} includes another grammar"])
    grammar.base = base
    grammar.context = base.context
    grammar.classes = list(base.classes)
    grammar.sets = {name: list(members) for name, members in base.sets.items()}
    grammar.names = list(base.names)
    grammar.rules = list(base.rules)


def read_line(grammar, section, text, number):
    body = text.strip()
    deeper = text.startswith(" " * 8)
    if section == "classes":
        grammar.classes += body.split()
    elif section in ("sets", "kinds"):
        name, sign, rest = body.partition("=")
        if not sign:
            raise GrammarError([f"line {number}: wants `name = ..`"])
        if section == "kinds":
            read_kind(grammar, name.strip(), rest)
        else:
            read_set(grammar, name.strip(), rest.split(), number)
    elif section in ("rust", "antt"):
        getattr(grammar, section).append(body)
    elif section == "acts":
        read_act(grammar, body, deeper, number)
    else:
        read_rule(grammar, body, deeper, number)


def read_kind(grammar, name, rest):
    """`Kind = RustType`, with `| value` behind it where the parts of an act may be none that it takes."""
    rust, _, other = rest.partition("|")
    grammar.kinds[name] = rust.strip()
    grammar.others[name] = other.strip() or value_of(rust.strip())


def value_of(rust):
    """The empty list, or no value; none for other types."""
    return "[]" if rust.startswith("List<") else "None" if rust.startswith("Option<") else ""


def read_set(grammar, name, members, number):
    """`name = classes`, with `...` behind them where an including grammar may add more; `name += classes` adds them."""
    if name.endswith("+"):
        name = name[:-1].strip()
        if not grammar.base or name not in grammar.base.open_sets:
            raise GrammarError([f"line {number}: no included grammar lets {name} be enlarged"])
        grammar.sets[name] += members
        return
    if members[-1:] == ["..."]:
        members = members[:-1]
        grammar.open_sets.append(name)
    grammar.sets[name] = members


def read_act(grammar, body, deeper, number):
    if deeper:
        word, _, rest = body.partition(" ")
        if word not in ("antt", "rust") or not grammar.acts:
            raise GrammarError([f"line {number}: an act has the lines `antt ..` and `rust ..`"])
        setattr(grammar.acts[-1], word, rest.strip())
        return
    left, sign, kind = body.partition("->")
    words = left.split()
    if not sign or not words or any(":" not in word for word in words[1:]):
        raise GrammarError([f"line {number}: wants `NAME variable:Kind .. -> Kind`"])
    takes = [tuple(word.split(":")) for word in words[1:]]
    grammar.acts.append(Act(words[0], takes, kind.strip()))


def read_rule(grammar, body, deeper, number):
    if not deeper:
        if body in grammar.names:
            raise GrammarError([f"line {number}: {body} has its rules in two places"])
        grammar.names.append(body)
        return
    label, sign, rest = body.partition("=")
    if not sign or not grammar.names:
        raise GrammarError([f"line {number}: wants `label = symbols` below a name"])
    grammar.rules.append(Rule(grammar.names[-1], label.strip(), rest.split()))


def complete(grammar):
    """Sees that every word is known, and makes a set of each class that stands alone."""
    faults = setting_faults(grammar)
    if faults:
        raise GrammarError(faults)
    if not grammar.base:
        grammar.kinds = {"Token": grammar.token, **grammar.kinds}
    faults += root_faults(grammar)
    for name, members in grammar.sets.items():
        faults += [f"the set {name} has no class {m}" for m in members if m not in grammar.classes]
    used = set(grammar.root_kinds())
    for rule in grammar.rules:
        for word in rule.words:
            used.add(word.strip("{}"))
            faults += word_faults(grammar, rule, word)
        faults += late_faults(rule)
    for act in grammar.acts:
        faults += act_faults(grammar, act, used)
    faults += [f"the name {n} has no rule" for n in grammar.names if not any(r.name == n for r in grammar.rules)]
    faults += [f"the name {n} stands in no rule" for n in grammar.names if n not in used]
    numbered = (("names", grammar.names), ("classes", grammar.classes), ("acts", grammar.act_names()), ("sets", grammar.sets))
    faults += [f"too many {what}" for what, items in numbered if len(items) > LIMIT]
    if faults:
        raise GrammarError(faults)


def setting_faults(grammar):
    faults = [f"{setting} is missing" for setting in ("language", "crate", "token", "roots") if not getattr(grammar, setting)]
    faults += [f"the root {word} wants its kind, as `Name:Kind`" for word in grammar.roots.split() if word.count(":") != 1]
    if grammar.base and grammar.token != grammar.base.token:
        faults.append(f"the tokens of {grammar.base.language} are {grammar.base.token}")
    return faults


def root_faults(grammar):
    faults = []
    for root, kind in grammar.root_kinds().items():
        if root not in grammar.names:
            faults.append(f"the root {root} has no rules")
        if kind not in grammar.all_kinds():
            faults.append(f"the root {root}: {kind} is no kind")
    return faults


def word_faults(grammar, rule, word):
    if word.startswith("{"):
        return [] if word[1:-1] in grammar.act_names() else [f"{rule.title()}: {word} is no act"]
    if word in grammar.names or word in grammar.sets:
        return []
    if word in grammar.classes:
        grammar.sets[word] = [word]
        return []
    return [f"{rule.title()}: {word} is no name, set or class"]


def act_faults(grammar, act, used):
    faults = []
    if act.name not in used:
        faults.append(f"the act {act.name} stands in no rule")
    for kind in [kind for _, kind in act.takes] + [act.kind]:
        if kind not in grammar.all_kinds():
            faults.append(f"the act {act.name}: {kind} is no kind")
    if not act.antt:
        faults.append(f"the act {act.name} wants the line `antt ..`")
    if bool(act.rust) == (grammar.code == "nodes"):
        faults.append(f"the act {act.name} {'has no code to have' if act.rust else 'wants'} the line `rust ..`")
    if grammar.code == "nodes" and not grammar.others.get(act.kind):
        faults.append(f"the kind {act.kind} wants a value, as `{act.kind} = {grammar.kinds.get(act.kind)} | value`")
    return faults


def late_faults(rule):
    """OPEN_BEFORE stands at the front of a row, before a token."""
    out = []
    for at, word in enumerate(rule.words):
        if word == "{OPEN_BEFORE}" and (at > 0 or len(rule.words) < 2 or rule.words[1].startswith("{")):
            out.append(f"{rule.title()}: {{OPEN_BEFORE}} stands only at the front of a row, before a token")
    return out
