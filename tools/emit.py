"""Prints the generated files of a grammar: its tables, and what its acts are made from (emit_acts)."""

from emit_acts import acts_source, acts_spec, build_invariants, make_answers
from emit_nodes import parts_source, parts_spec
from grammar_file import MARKS, upper

WIDTH = 100


def files(grammar, solved):
    """The generated files, by path within the crate."""
    stem = grammar.language
    title = stem.title()
    folder = f"proofs/generated/{stem}_acts"
    out = {
        f"src/generated/{stem}_table.rt": table_source(grammar, solved),
        f"src/generated/{stem}_acts.rt": parts_source(grammar) if grammar.code == "nodes" else acts_source(grammar),
        f"specs/{title}Table.antt": table_spec(grammar),
        f"specs/{title}Acts.antt": parts_spec(grammar) if grammar.code == "nodes" else acts_spec(grammar),
        f"proofs/{title}Predictive.antt": predictive_proof(grammar),
        f"proofs/generated/{stem}_table/{stem}_grammar/Answers.antt": grammar_answers(grammar),
    }
    if grammar.code != "nodes":
        out[f"{folder}/build_parts/Invariants.antt"] = build_invariants(grammar)
        out[f"{folder}/make/Answers.antt"] = make_answers(grammar)
    if grammar.fragment:
        out[f"specs/{title}Fragment.antt"] = fragment_spec(grammar)
    if grammar.fragment or grammar.base:
        out[f"proofs/{title}Contains.antt"] = contains_proof(grammar)
    return out


def made_from(grammar):
    return f"Made by tools/grammar.py from {grammar.language}.grammar: edit that."


def class_constant(word):
    return "CLASS_" + upper(word)


def set_constant(word):
    return "SET_" + upper(word)


def name_constant(word):
    return "NAME_" + upper(word)


def rule_constant(rule):
    return f"RULE_{upper(rule.name)}_{upper(rule.label)}"


def act_constant(word):
    return word if word in MARKS else "ACT_" + word


def snake(word):
    return upper(word).lower()


def symbol(grammar, word):
    """What a word of a row is, with its constant."""
    if word.startswith("{"):
        return "Act", act_constant(word[1:-1])
    if word in grammar.names:
        return "Name", name_constant(word)
    return "Token", set_constant(word)


def symbol_source(grammar, word):
    return "Symbol::{}({})".format(*symbol(grammar, word))


def symbol_term(grammar, word):
    return "{} {}".format(*symbol(grammar, word))


def constants(pairs, kind):
    return "".join(f"pub const {name}: {kind} = {value};\n\n" for name, value in pairs)


def number_array(name, kind, values):
    """A static array, its numbers filled into lines."""
    lines, line = [], "   "
    for value in values:
        piece = f" {value},"
        if len(line) + len(piece) > WIDTH:
            lines.append(line)
            line = "   "
        line += piece
    short = f"pub static {name}: [{kind}; {len(values)}] = [" + ", ".join(map(str, values)) + "];\n\n"
    if len(short) - 2 <= WIDTH:
        return short
    return f"pub static {name}: [{kind}; {len(values)}] = [\n" + "\n".join(lines + [line]) + "\n];\n\n"


def starts(rows):
    out = [0]
    for row in rows:
        out.append(out[-1] + len(row))
    return out


def numbered(grammar, what, constant):
    """The constants of a grammar's own names, sets or classes; what it includes has those of its own."""
    items, own = list(getattr(grammar, what)), grammar.own(what)
    first = len(items) - len(own)
    return [(constant(item), first + at) for at, item in enumerate(own)]


def own_constants(grammar):
    first_act = len(grammar.act_names()) - len(grammar.acts)
    out = constants([(name, number + 1) for name, number in numbered(grammar, "classes", class_constant)], "u8")
    out += constants(numbered(grammar, "sets", set_constant), "u8")
    out += constants(numbered(grammar, "names", name_constant), "u8")
    out += constants([("ACT_" + act.name, first_act + at) for at, act in enumerate(grammar.acts)], "u8")
    if grammar.fragment:
        out += f"/// One more than the last act.\npub const ACTS_END: u8 = {len(grammar.act_names())};\n\n"
    return out + constants(numbered(grammar, "rules", rule_constant), "u16")


def included_constants(grammar):
    """The constants of an included grammar that the table's rows name."""
    base, found = grammar.base, set()
    for rule in grammar.rules:
        for word in rule.words:
            kind, constant = symbol(grammar, word)
            of_base = kind == "Act" and word[1:-1] in base.act_names() or word in base.names or word in base.sets
            if of_base and word.strip("{}") not in MARKS:
                found.add(constant)
    return sorted(found)


def table_source(grammar, solved):
    stem, title = grammar.language, grammar.language.title()
    marks = [mark for mark in MARKS if any("{" + mark + "}" in rule.words for rule in grammar.rules)]
    rows = [rule.words for rule in grammar.rules]
    sets = [[grammar.classes.index(c) + 1 for c in members] for members in grammar.sets.values()]
    roots = [grammar.names.index(root) for root in grammar.root_kinds()]
    out = f"//! The {stem} grammar as tables. {made_from(grammar)}\n"
    out += "ghost use Rattle.std.specs.Prelude.{◌≡◌};\n"
    out += "ghost use Rattle.gv_grammar.specs.Derivation.{tables_of};\n"
    out += "ghost use Rattle.gv_grammar.specs.Predictive.{MayBegin};\n"
    out += f"ghost use Rattle.{grammar.crate}.specs.{title}Table.{{{stem}_tables}};\n\n"
    out += f"use gv_grammar::{import_list(['Grammar', 'Symbol'] + marks)};\n"
    if grammar.base:
        out += wrapped_use(f"{grammar.base.crate}::generated::{grammar.base.language}_table", included_constants(grammar)) + "\n"
    out += "\n" + own_constants(grammar)
    out += number_array("ROOTS", "u8", roots)
    out += number_array("NAMES", "u8", [grammar.names.index(rule.name) for rule in grammar.rules])
    out += number_array("STARTS", "u16", starts(rows))
    out += f"pub static SYMBOLS: [Symbol; {starts(rows)[-1]}] = [\n"
    for rule in grammar.rules:
        out += f"    // {rule.text()}\n"
        out += "".join(f"    {symbol_source(grammar, word)},\n" for word in rule.words)
    out += "];\n\n"
    out += number_array("CLASSES", "u8", [c for members in sets for c in members])
    out += number_array("SET_STARTS", "u16", starts(sets))
    out += number_array("TABLE", "u16", [0 if rule is None else rule + 1 for row in solved.table for rule in row])
    out += f"pub const WIDTH: u8 = {len(grammar.classes) + 1};\n\n"
    out += f"/// The {stem} grammar.\npub fn {stem}_grammar() -> Grammar\n"
    out += f"    ensures tables {{ tables_of result ≡ {stem}_tables }}\n"
    for root in grammar.root_kinds():
        out += f"    ensures {snake(root)} {{ MayBegin (tables_of result) {root_constant(grammar, root)} }}\n"
    out += "{\n    Grammar {\n"
    for name in ("roots", "names", "symbols", "starts", "classes", "set_starts", "table"):
        out += f"        {name}: &{name.upper()},\n"
    return out + "        width: WIDTH,\n    }\n}\n"


def root_constant(grammar, root):
    return name_constant(root)


def predictive_proof(grammar):
    stem, title = grammar.language, grammar.language.title()
    return f"""-- The {stem} grammar's table is predictive: computed here, from the tables alone. {made_from(grammar)}
use Rattle.std.proofs.Common.{{◌≡◌, true, refl}}
use Rattle.gv_grammar.specs.Predictive.{{is_predictive, certificate_of}}
use Rattle.{grammar.crate}.specs.{title}Table.{{{stem}_tables}}

pub {stem}_predictive : is_predictive {stem}_tables ≡ true
unfolding is_predictive certificate_of
{stem}_predictive = refl
"""


def grammar_answers(grammar):
    stem, title = grammar.language, grammar.language.title()
    out = f"-- {made_from(grammar)}\nuse Rattle.std.proofs.Common.{{refl}}\n"
    out += f"use Rattle.{grammar.crate}.proofs.{title}Predictive.{{{stem}_predictive}}\n"
    out += f"use Rattle.{grammar.crate}.proofs.generated.{stem}_table.{stem}_grammar.Goals as goal\n"
    for root in grammar.root_kinds():
        goal = f"returns-clause-{snake(root)}"
        out += f"\npub {goal} : goal.{goal}\n{goal} c = ({stem}_predictive, refl)\n"
    return out


def import_list(names):
    """The names of one `use`."""
    return "{" + ", ".join(sorted(names)) + "}"


def wrapped_use(path, names):
    short = f"use {path}::{import_list(names)};"
    if len(short) <= WIDTH:
        return short
    lines, line = [], "   "
    for name in sorted(names):
        piece = f" {name},"
        if len(line) + len(piece) > WIDTH:
            lines.append(line)
            line = "   "
        line += piece
    return f"use {path}::{{\n" + "\n".join(lines + [line]) + "\n};"


def table_spec(grammar):
    stem, title = grammar.language, grammar.language.title()
    arrays = ["ROOTS", "NAMES", "SYMBOLS", "STARTS", "CLASSES", "SET_STARTS", "TABLE", "WIDTH"]
    fields = "; ".join(f"{name.lower()} = {name}" for name in arrays)
    return (
        f"-- The {stem} grammar as lists. {made_from(grammar)}\n"
        "use Rattle.gv_grammar.specs.Derivation.{Tables}\n"
        f"use Rattle.{grammar.crate}.specs.declared.generated.{stem}_table.TheConstants.{{{', '.join(arrays)}}}\n\n"
        f"abbrev pub {stem}_tables : Tables\n{stem}_tables = record {{ {fields} }}\n"
    )


def fragment_spec(grammar):
    """The rules, sets and acts that including grammars have in common."""
    stem, title = grammar.language, grammar.language.title()
    used = sorted({symbol(grammar, word)[1] for rule in grammar.rules for word in rule.words} - set(MARKS))
    used += sorted({name_constant(name) for name in grammar.names} - set(used))
    used += sorted({class_constant(c) for name, members in grammar.sets.items() if name not in grammar.open_sets for c in members})
    marks = [mark for mark in MARKS if any("{" + mark + "}" in rule.words for rule in grammar.rules)]
    acts = f"Rattle.{grammar.crate}.specs.{title}Acts.{{{stem}_acts}}"
    params = "".join(f"{snake(name)} " for name in grammar.open_sets)
    out = f"-- What grammars that include terms begin with: rules, sets and acts. {made_from(grammar)}\n".replace("terms", f"the {stem} grammar")
    out += "use Rattle.std.specs.Prelude.{ℕ, List, [], ◌∷◌}\n"
    out += "use Rattle.gv_grammar.specs.declared.symbols.Symbol.{Symbol}\n"
    out += "use Rattle.gv_grammar.specs.declared.symbols.Symbol.TheVariants.{Token, Name, Act}\n"
    out += f"use Rattle.gv_grammar.specs.declared.levels.TheConstants.{{{', '.join(marks)}}}\n"
    out += "use Rattle.gv_grammar.specs.Fragment.{Fragment}\n"
    out += f"use Rattle.{grammar.crate}.specs.declared.generated.{stem}_table.TheConstants.{{{', '.join(used)}}}\n"
    out += f"use Rattle.{grammar.crate}.specs.declared.generated.{stem}_acts.Part.{{Part}}\nuse {acts}\n\n"
    out += f"abbrev pub {stem}_rules : List (ℕ × List Symbol)\n{stem}_rules =\n"
    for at, rule in enumerate(grammar.rules):
        row = "".join(f"{symbol_term(grammar, word)} ∷ " for word in rule.words) + "[]"
        out += f"    {'∷ ' if at else ''}({name_constant(rule.name)}, {row})\n"
    out += "    ∷ []\n\n-- the sets, where these are all classes of those that may be larger\n"
    types = "List ℕ → " * len(grammar.open_sets)
    out += f"abbrev pub {stem}_sets : {types}List (List ℕ)\n{stem}_sets {params}=\n"
    for at, (name, members) in enumerate(grammar.sets.items()):
        row = snake(name) if name in grammar.open_sets else "(" + "".join(class_constant(c) + " ∷ " for c in members) + "[])"
        out += f"    {'∷ ' if at else ''}{row}\n"
    out += f"    ∷ []\n\nabbrev pub {stem}_fragment : {{O : Type 0}} → {context_type(grammar)}{types}Fragment (Part O)\n"
    context = grammar.context_name() + " " if grammar.context else ""
    given = f"({stem}_acts {context.strip()})" if context else f"{stem}_acts"
    out += f"{stem}_fragment {context}{params}= record {{ rules = {stem}_rules; sets = {stem}_sets {params.strip()}; acts = {given} }}\n"
    return out


def context_type(grammar):
    return "List ℕ → " if grammar.context else ""


def contains_proof(grammar):
    """That the tables begin with the fragment that they include, or that they are."""
    stem, title = grammar.language, grammar.language.title()
    base = grammar.base or grammar
    base_title = base.language.title()
    table = f"Rattle.{{}}.specs.declared.generated.{{}}_table.TheConstants.{{{{{{}}}}}}"
    sets = [grammar.sets[name] for name in base.open_sets]
    members = {c for row in sets for c in row}
    out = f"-- The {stem} tables begin with the {base.language} grammar's rules, sets and acts. {made_from(grammar)}\n"
    out += "use Rattle.std.proofs.Common.{ℕ, List, [], ◌∷◌, refl}\n"
    out += "use Rattle.gv_grammar.specs.Fragment.{Contains}\n"
    for owner in [base, grammar] if grammar.base else [grammar]:
        mine = sorted(class_constant(c) for c in members if c in owner.own("classes"))
        if mine:
            out += f"use {table.format(owner.crate, owner.language, ', '.join(mine))}\n"
    out += f"use Rattle.{base.crate}.specs.{base_title}Fragment.{{{base.language}_fragment}}\n"
    if grammar.base:
        out += f"use Rattle.{grammar.crate}.specs.{title}Acts.{{{stem}_acts, {stem}_own_acts}}\n"
        out += f"use Rattle.{base.crate}.specs.declared.generated.{base.language}_acts.Part.{{Part}}\n"
        out += f"use Rattle.{grammar.crate}.specs.declared.generated.{stem}_acts.{title}Part.{{{title}Part}}\n"
    else:
        out += f"use Rattle.{grammar.crate}.specs.{title}Acts.{{{stem}_acts}}\n"
        out += f"use Rattle.{grammar.crate}.specs.declared.generated.{stem}_acts.NoOther.{{NoOther}}\n"
    out += f"use Rattle.{grammar.crate}.specs.{title}Table.{{{stem}_tables}}\n\n"
    for name, row in zip(base.open_sets, sets):
        out += f"abbrev pub {stem}_{snake(name)} : List ℕ\n{stem}_{snake(name)} = {''.join(class_constant(c) + ' ∷ ' for c in row)}[]\n\n"
    own = f"{title}Part" if grammar.base else "NoOther"
    context = grammar.context_name() if grammar.context else ""
    given = "".join(f" {stem}_{snake(name)}" for name in base.open_sets)
    binder = f"({context} : List ℕ) → " if context else ""
    acts = f"({stem}_acts {context})" if context else f"{stem}_acts"
    fragment = f"({base.language}_fragment {{O = {own}}}{' ' + context if context else ''}{given})"
    out += f"pub {stem}_contains : {binder}Contains {stem}_tables {acts} {fragment}\n"
    out += f"{stem}_contains {context + ' ' if context else ''}= record {{\n"
    out += f"  rules = {nested('(refl, refl, ', len(base.rules))};\n  sets = {nested('(refl, ', len(base.sets))};\n"
    more = (f"{stem}_own_acts {context}".strip() if grammar.base else "[]")
    return out + f"  more = {more};\n  same = refl;\n}}\n"


def nested(one, times):
    return one * times + "tt" + ")" * times
