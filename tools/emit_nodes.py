"""Prints the generated files on the acts of a grammar whose trees are lists of nodes: a node is a token or an act.

Acts have no code. They say what part an act makes of the parts on top, so what a list of nodes is the tree of; the code
needs of an act only how many parts it takes, and of which kind the part is that it makes."""

from emit_acts import context_type, made, made_from, mentions, part_enum, part_imports, part_type, term_part, test_of, title
from grammar_file import MARKS, upper


def parts_source(grammar):
    """The parts, and by act how many it takes and what kind it makes."""
    out = f"//! The parts of the {grammar.language} language. {made_from(grammar)}\n\n"
    out += "\n".join(sorted(grammar.rust)) + "\n\n" + part_enum(grammar)
    kinds = list(grammar.all_kinds())
    acts = (grammar.base.acts if grammar.base else []) + grammar.acts
    out += "".join(f"pub const {kind_constant(kind)}: u8 = {at};\n\n" for at, kind in enumerate(kinds))
    out += "/// By act, the marks among them, how many parts it takes.\n"
    out += array("TAKEN", [0] * len(MARKS) + [len(act.takes) for act in acts])
    out += "/// By act, the kind of the part that it makes; a mark makes none.\n"
    return out + array("MADE", [len(kinds)] * len(MARKS) + [kinds.index(act.kind) for act in acts])


def kind_constant(kind):
    return "KIND_" + upper(kind)


def array(name, numbers):
    return f"pub static {name}: [u8; {len(numbers)}] = [{', '.join(map(str, numbers))}];\n\n"


def antt_type(rust):
    """A Rust type as one of definitions: `List<Boxed<Expr>>` is `List Expr`."""
    head, sign, rest = rust.partition("<")
    if not sign:
        return rust
    of = antt_type(rest[:-1])
    if head == "Boxed":
        return of
    return f"{head} ({of})" if " " in of else f"{head} {of}"


def parts_spec(grammar):
    """What part each act makes of those on top."""
    stem = grammar.language
    declared = f"Rattle.{grammar.crate}.specs.declared.generated.{stem}_acts"
    terms = " ".join([act.antt for act in grammar.acts] + list(grammar.others.values()))
    words = ["Bool", "true", "false", "List", "[]", "◌∷◌"]
    words += [word for word in ("◌++◌", "Some", "None") if mentions(terms, word.replace("◌", "")) or word == "◌++◌" and grammar.base]
    words += ["ℕ"] if grammar.context else []
    out = f"-- What part each act makes of those on top, the top one first. {made_from(grammar)}\n"
    out += f"use Rattle.std.specs.Prelude.{{{', '.join(words + ['Option', 'map'])}}}\n"
    out += "use Rattle.gv_grammar.specs.declared.steps.Step.{Step}\n"
    out += "use Rattle.gv_grammar.specs.Building.{Reduction, act_of, run}\n"
    out += f"use Rattle.{grammar.crate}.specs.Making.{{Making, reduction_of, no_token}}\n"
    out += part_imports(grammar, declared)
    out += "".join(line + "\n" for line in grammar.antt)
    for kind in grammar.kinds:
        out += f"\nabbrev pub {test_of(kind)} : {part_type(grammar)} → Bool\n"
        out += f"{test_of(kind)} ({term_part(grammar, kind, 'of')}) = true\n{test_of(kind)} part = false\n"
    for act in grammar.acts:
        out += act_spec(grammar, act)
    behind = "the acts that it includes" if grammar.base else "the marks"
    out += f"\n-- {'its own' if grammar.base else 'the'} acts, from the first number behind {behind} on\n"
    out += f"abbrev pub {stem}_makings : List (Making {part_type(grammar)})\n{stem}_makings =\n"
    for at, act in enumerate(grammar.acts):
        tests = "".join(test_of(kind) + " ∷ " for _, kind in reversed(act.takes)) + "[]"
        out += f"    {'∷ ' if at else ''}record {{ takes = {tests}; makes = λ parts. {term_part(grammar, act.kind, f'({made(act)} parts)')} }}\n"
    out += f"    ∷ []\n{acts_of(grammar)}"
    context = f"{grammar.context_name()} " if grammar.context else ""
    acts = f"({stem}_acts {context.strip()})" if context else f"{stem}_acts"
    out += f"\n-- the parts that steps leave of tokens\nabbrev pub {stem}_built : {context_type(grammar)}List Step → List {grammar.token} → Option (List {part_type(grammar)})\n"
    return out + f"{stem}_built {context}steps tokens = run PToken (act_of {acts}) steps tokens []\n"


def acts_of(grammar):
    """All acts, as what they do with the parts."""
    stem, of = grammar.language, part_type(grammar)
    if not grammar.base:
        return f"\nabbrev pub {stem}_acts : List (Reduction {of})\n{stem}_acts = map reduction_of {stem}_makings\n"
    context = f"{grammar.context_name()} " if grammar.context else ""
    given = context_type(grammar)
    included = f"{grammar.base.language}_acts {context}".strip()
    out = f"\nabbrev pub {stem}_own_acts : {given}List (Reduction {of})\n{stem}_own_acts {context}= map reduction_of {stem}_makings\n"
    return out + f"\nabbrev pub {stem}_acts : {given}List (Reduction {of})\n{stem}_acts {context}= {included} ++ {stem}_own_acts {context}".rstrip() + "\n"


def act_spec(grammar, act):
    pattern = " ∷ ".join([term_part(grammar, kind, name) for name, kind in reversed(act.takes)] + ["parts"])
    out = f"\nabbrev pub {made(act)} : List {part_type(grammar)} → {antt_type(grammar.kinds[act.kind])}\n"
    if not act.takes:
        return out + f"{made(act)} parts = {act.antt}\n"
    return out + f"{made(act)} ({pattern}) = {act.antt}\n{made(act)} parts = {grammar.others[act.kind]}\n"
