"""Prints the generated files on the acts of a grammar: the parts, what each act makes of them, and the building.

emit_nodes does it for a grammar whose trees are lists of nodes."""

from grammar_file import upper


def made_from(grammar):
    return f"Made by tools/grammar.py from {grammar.language}.grammar: edit that."


def snake(word):
    return upper(word).lower()


def own_kinds(grammar):
    return grammar.kinds


def is_included(grammar, kind):
    return bool(grammar.base) and kind in grammar.base.kinds


def title(grammar):
    return grammar.language.title()


def part_type(grammar):
    """The parts as a type of definitions."""
    if grammar.fragment:
        return "(Part O)"
    return f"(Part {title(grammar)}Part)" if grammar.base else "Part"


def rust_part(grammar):
    if grammar.fragment:
        return "Part<O>"
    return f"Part<{title(grammar)}Part>" if grammar.base else "Part"


def any_other(grammar):
    return "{O : Type 0} → " if grammar.fragment else ""


def term_part(grammar, kind, of):
    """A part of a kind as a term of definitions."""
    if grammar.base and not is_included(grammar, kind):
        return f"POther (P{kind} {of})"
    return f"P{kind} {of}"


def code_part(grammar, kind, of):
    if grammar.base and not is_included(grammar, kind):
        return f"Part::Other({title(grammar)}Part::{kind}({of}))"
    return f"Part::{kind}({of})"


def test_of(kind):
    return "is_" + snake(kind)


def pop_of(kind):
    return "pop_" + snake(kind)


def made(act):
    return "made_" + act.name.lower()


def mentions(text, word):
    for sign in "().,&{}[];:?*":
        text = text.replace(sign, " ")
    return word in text.split()


def takes_context(grammar, text):
    return bool(grammar.context) and mentions(text, grammar.context_name())


def tests_taken(act):
    return "".join(test_of(kind) + " ∷ " for _, kind in reversed(act.takes)) + "[]"


def context_type(grammar):
    return "List ℕ → " if grammar.context else ""


def with_context(grammar, word, sign=""):
    """A definition applied to the context."""
    return f"({word} {grammar.context_name()}{sign})" if grammar.context else word


# ---- definitions


def acts_spec(grammar):
    stem, base = grammar.language, grammar.base
    declared = f"Rattle.{grammar.crate}.specs.declared.generated.{stem}_acts"
    terms = " ".join(act.antt for act in grammar.acts)
    words = ["Bool", "true", "false", "List", "[]", "◌∷◌"] + (["ℕ"] if grammar.context else [])
    words += [word for word in ("◌++◌", "Some", "None") if mentions(terms, word.replace("◌", "")) or word == "◌++◌" and base]
    words += ["Option"]
    out = f"-- What each act makes of the parts, the top one first. {made_from(grammar)}\n"
    out += f"use Rattle.std.specs.Prelude.{{{', '.join(dict.fromkeys(words))}}}\n"
    out += "use Rattle.gv_grammar.specs.declared.steps.Step.{Step}\n"
    out += "use Rattle.gv_grammar.specs.Building.{Reduction, act_of, run}\n"
    out += part_imports(grammar, declared)
    out += "".join(line + "\n" for line in grammar.antt)
    out += token_import(grammar)
    for kind in own_kinds(grammar):
        out += f"\nabbrev pub {test_of(kind)} : {any_other(grammar)}{part_type(grammar)} → Bool\n"
        out += f"{test_of(kind)} ({term_part(grammar, kind, 'of')}) = true\n{test_of(kind)} part = false\n"
    for act in grammar.acts:
        out += act_spec(grammar, act)
    own = f"{stem}_own_acts" if base else f"{stem}_acts"
    context = grammar.context_name() + " " if grammar.context else ""
    what = "its own acts" if base else "the acts"
    out += f"\n-- {what}, from the first number behind {'those that it includes' if base else 'the marks'} on\n"
    out += f"abbrev pub {own} : {any_other(grammar)}{context_type(grammar)}List (Reduction {part_type(grammar)})\n{own} {context}=\n"
    for at, act in enumerate(grammar.acts):
        makes = with_context(grammar, made(act)) if takes_context(grammar, act.antt) else made(act)
        out += f"    {'∷ ' if at else ''}record {{ takes = {tests_taken(act)}; makes = {makes} }}\n"
    out += "    ∷ []\n"
    if base:
        out += f"\nabbrev pub {stem}_acts : {context_type(grammar)}List (Reduction {part_type(grammar)})\n"
        out += f"{stem}_acts {context}= {with_context(grammar, base.language + '_acts')} ++ {with_context(grammar, own)}\n"
    alone = part_type(grammar).replace("O)", "NoOther)") if grammar.fragment else part_type(grammar)
    out += "\n-- the parts that steps leave of tokens\n"
    out += f"abbrev pub {stem}_built : {context_type(grammar)}List Step → List {grammar.token} → Option (List {alone})\n"
    out += f"{stem}_built {context}steps tokens = run PToken (act_of {with_context(grammar, stem + '_acts')}) steps tokens []\n"
    return out


def token_import(grammar):
    """The tokens' type, which the lines `antt` of a grammar file bring in."""
    return ""


def part_imports(grammar, declared):
    base = grammar.base
    own = [f"{kind} as P{kind}" for kind in own_kinds(grammar)] + (["Other as POther"] if grammar.fragment else [])
    if not base:
        out = f"use {declared}.Part.{{Part}}\nuse {declared}.Part.TheVariants.{{{', '.join(own)}}}\n"
        return out + (f"use {declared}.NoOther.{{NoOther}}\n" if grammar.fragment else "")
    included = f"Rattle.{base.crate}.specs.declared.generated.{base.language}_acts.Part"
    variants = [f"{kind} as P{kind}" for kind in base.kinds] + ["Other as POther"]
    tests = [test_of(kind) for kind in base.kinds if any(kind == k for act in grammar.acts for _, k in act.takes)]
    out = f"use {included}.{{Part}}\nuse {included}.TheVariants.{{{', '.join(variants)}}}\n"
    out += f"use Rattle.{base.crate}.specs.{base.language.title()}Acts.{{{', '.join(tests + [base.language + '_acts'])}}}\n"
    out += f"use {declared}.{title(grammar)}Part.{{{title(grammar)}Part}}\n"
    return out + f"use {declared}.{title(grammar)}Part.TheVariants.{{{', '.join(own)}}}\n"


def act_spec(grammar, act):
    parts = [term_part(grammar, kind, name) for name, kind in reversed(act.takes)] + ["parts"]
    pattern = " ∷ ".join(parts)
    context = grammar.context_name() + " " if takes_context(grammar, act.antt) else ""
    given = context_type(grammar) if context else ""
    made_part = term_part(grammar, act.kind, "(" + act.antt + ")")
    out = f"\nabbrev pub {made(act)} : {any_other(grammar)}{given}List {part_type(grammar)} → List {part_type(grammar)}\n"
    out += f"{made(act)} {context}{f'({pattern})' if act.takes else pattern} = {made_part} ∷ parts\n"
    if act.takes:
        out += f"{made(act)} {context}parts = parts\n"
    return out


# ---- code


def acts_source(grammar):
    stem, base = grammar.language, grammar.base
    declared = f"Rattle.{grammar.crate}.specs.declared.generated.{stem}_acts"
    out = f"//! The parts of the {stem} language, and what acts make of them. {made_from(grammar)}\n"
    out += "ghost use Rattle.std.specs.Prelude.{◌≡◌, ◌≤◌, ◌<◌, ◌∷◌, [], true, reverse, Some, IsSome, OnOk, IfOk};\n"
    out += "ghost use Rattle.gv_grammar.specs.Building.{has_tops, accepts, made_by, is_whole};\n"
    names = [test_of(kind) for kind in own_kinds(grammar)] + [made(act) for act in grammar.acts] + [f"{stem}_acts", f"{stem}_built"]
    out += f"ghost use Rattle.{grammar.crate}.specs.{title(grammar)}Acts.{{{', '.join(names)}}};\n"
    out += code_imports(grammar, declared)
    numbers = ["ACT_" + act.name for act in grammar.acts] + (["ACTS_END"] if grammar.fragment else [])
    uses = grammar.rust + [wrapped(f"crate::generated::{stem}_table", numbers), "use gv_grammar::{FIRST_ACT, Step};", "use std::alloc::{AllocError, Global};"]
    if base:
        pops = [pop_of(kind) for kind in base.kinds if taken(grammar, kind)]
        uses.append(wrapped(f"{base.crate}::generated::{base.language}_acts", ["Part", "make as make_included"] + pops))
        uses.append(f"use {base.crate}::generated::{base.language}_table::ACTS_END;")
    out += "\n" + "\n".join(sorted(uses, key=lambda line: line.split("{")[0])) + "\n\n" + part_enum(grammar)
    out += "".join(pop_source(grammar, kind, rust) for kind, rust in own_kinds(grammar).items() if taken(grammar, kind))
    out += "".join(make_source(grammar, act) for act in grammar.acts)
    return out + dispatch_source(grammar) + build_source(grammar)


def code_imports(grammar, declared):
    base = grammar.base
    own = [f"{kind} as P{kind}" for kind in own_kinds(grammar)]
    if not base:
        return f"ghost use {declared}.Part.TheVariants.{{{', '.join(own)}}};\n"
    included = f"Rattle.{base.crate}.specs.declared.generated.{base.language}_acts.Part.TheVariants"
    variants = [f"{kind} as P{kind}" for kind in base.kinds] + ["Other as POther"]
    tests = [test_of(kind) for kind in base.kinds if taken(grammar, kind)]
    out = f"ghost use {included}.{{{', '.join(variants)}}};\n"
    if tests:
        out += f"ghost use Rattle.{base.crate}.specs.{base.language.title()}Acts.{{{', '.join(tests)}}};\n"
    return out + f"ghost use {declared}.{title(grammar)}Part.TheVariants.{{{', '.join(own)}}};\n"


def taken(grammar, kind):
    return grammar.fragment or kind in {k for act in grammar.acts for _, k in act.takes} | set(grammar.root_kinds().values())


def wrapped(path, names):
    return f"use {path}::{{{', '.join(sorted(names))}}};"


def part_enum(grammar):
    kinds = "".join(f"    {kind}({rust}),\n" for kind, rust in own_kinds(grammar).items())
    if grammar.base:
        return f"/// What a stretch of tokens was read as that no {grammar.base.language} has.\n#[derive(Drop)]\npub enum {title(grammar)}Part {{\n{kinds}}}\n\n"
    if grammar.fragment:
        out = f"/// What a stretch of tokens was read as; `Other` is what an including language has besides.\n#[derive(Drop)]\npub enum Part<O> {{\n{kinds}    Other(O),\n}}\n\n"
        return out + f"/// What the {grammar.language} language alone has besides.\n#[derive(Drop)]\npub struct NoOther;\n\n"
    return f"/// What a stretch of tokens was read as.\n#[derive(Drop)]\npub enum Part {{\n{kinds}}}\n\n"


def generic(grammar):
    return "<O: Drop>" if grammar.fragment else ""


def public(grammar):
    return "pub " if grammar.fragment else ""


def pop_source(grammar, kind, rust):
    return (
        f"{public(grammar)}fn {pop_of(kind)}{generic(grammar)}(parts: &mut Vec<{rust_part(grammar)}>) -> {rust}\n"
        f"    requires {{ has_tops ({test_of(kind)} ∷ []) (reverse parts.old.items) ≡ true }}\n"
        f"    ensures {{ reverse parts.old.items ≡ {term_part(grammar, kind, 'result')} ∷ reverse parts.new.items }}\n"
        "{\n    match parts.pop() {\n"
        f"        Some({code_part(grammar, kind, 'of')}) => of,\n        _ => unreachable!(),\n    }}\n}}\n\n"
    )


def needs_memory(act):
    return mentions(act.rust, "alloc")


def make_source(grammar, act):
    given = ("alloc: Global, " if needs_memory(act) else "") + (f"{grammar.context}, " if takes_context(grammar, act.rust) else "")
    out = f"fn make_{act.name.lower()}{generic(grammar)}({given}parts: &mut Vec<{rust_part(grammar)}>) -> Result<(), AllocError>\n"
    if act.takes:
        out += f"    requires {{ has_tops ({tests_taken(act)}) (reverse parts.old.items) ≡ true }}\n"
    makes = made(act) + (f" {grammar.context_name()}.now" if takes_context(grammar, act.antt) else "")
    out += f"    ensures {{ OnOk result ({makes} (reverse parts.old.items) ≡ reverse parts.new.items) }}\n{{\n"
    for name, kind in reversed(act.takes):
        out += f"    let {name} = {pop_of(kind)}(parts);\n"
    return out + f"    let made = {act.rust};\n    parts.push({code_part(grammar, act.kind, 'made')})?;\n    Ok(())\n}}\n\n"


def act_words(grammar, act):
    words = (["alloc"] if needs_memory(act) else []) + ([grammar.context_name()] if takes_context(grammar, act.rust) else [])
    return ", ".join(words + ["parts"])


def dispatch_source(grammar):
    stem = grammar.language
    context = f"{grammar.context}, " if grammar.context else ""
    acts = f"({stem}_acts {grammar.context_name()}.now)" if grammar.context else f"{stem}_acts"
    out = "/// Does an act on the parts, the last of them on top.\n"
    out += f"{public(grammar)}fn make{generic(grammar)}(alloc: Global, {context}act: u8, parts: &mut Vec<{rust_part(grammar)}>) -> Result<(), AllocError>\n"
    out += "    requires behind_marks { FIRST_ACT ≤ act }\n"
    if grammar.fragment:
        out += "    requires of_these { act < ACTS_END }\n"
    out += f"    requires accepted {{ accepts {acts} act (reverse parts.old.items) ≡ true }}\n"
    out += f"    ensures {{ OnOk result (made_by {acts} act (reverse parts.old.items) ≡ reverse parts.new.items) }}\n{{\n"
    if grammar.base:
        words = "alloc, " + (grammar.context_name() + ", " if grammar.context else "") + "act, parts"
        out += f"    if act < ACTS_END {{\n        return make_included({words});\n    }}\n"
    out += "    match act {\n"
    for act in grammar.acts:
        out += f"        ACT_{act.name} => make_{act.name.lower()}({act_words(grammar, act)}),\n"
    return out + "        _ => unreachable!(),\n    }\n}\n\n"


def build_source(grammar):
    stem = grammar.language
    context = f"    {grammar.context},\n" if grammar.context else ""
    name = grammar.context_name()
    word = name + ", " if grammar.context else ""
    built = f"{stem}_built {name + '.now ' if grammar.context else ''}steps.now tokens.now"
    parts = "Part<NoOther>" if grammar.fragment else rust_part(grammar)
    test = "if *act >= FIRST_ACT && *act < ACTS_END" if grammar.fragment else "if *act >= FIRST_ACT"
    out = f"""/// The parts that the steps leave of the tokens.
fn build_parts(
    alloc: Global,
{context}    steps: &[Step],
    tokens: &[{grammar.token}],
) -> Result<Vec<{parts}>, AllocError>
    requires {{ IsSome ({built}) }}
    ensures {{ IfOk result (λ parts. {built} ≡ Some (reverse parts.items)) }}
{{
    let mut parts = Vec::new(alloc);
    let mut rest = tokens;
    for step in steps {{
        match step {{
            Step::Take => {{
                let Some((token, after)) = rest.split_first() else {{
                    unreachable!()
                }};
                parts.push(Part::Token(*token))?;
                rest = after;
            }}
            Step::Do(act) => {{
                {test} {{
                    make(alloc, {word}*act, &mut parts)?;
                }}
            }}
        }}
    }}
    Ok(parts)
}}
"""
    out = out.replace(test, "if *act >= FIRST_ACT")
    for root, kind in grammar.root_kinds().items():
        out += f"""
/// What the steps of a derivation of a whole {root} build of its tokens.
pub fn build_{snake(kind)}(
    alloc: Global,
{context}    steps: &[Step],
    tokens: &[{grammar.token}],
) -> Result<{grammar.all_kinds()[kind]}, AllocError>
    requires {{ is_whole {test_of(kind)} ({built}) ≡ true }}
    ensures {{ IfOk result (λ whole. {built} ≡ Some ({term_part(grammar, kind, 'whole')} ∷ [])) }}
{{
    let mut parts = build_parts(alloc, {word}steps, tokens)?;
    Ok({pop_of(kind)}(&mut parts))
}}
"""
    return out


# ---- proofs


def build_invariants(grammar):
    stem = grammar.language
    own = f"Rattle.{(grammar.base or grammar).crate}.specs.declared.generated.{(grammar.base or grammar).language}_acts.Part.TheVariants"
    acts = f"({stem}_acts l.{grammar.context_name()})" if grammar.context else f"{stem}_acts"
    return f"""-- {made_from(grammar)}
use Rattle.std.proofs.Common.{{◌≡◌, [], drop, reverse}}
use Rattle.gv_grammar.specs.Building.{{act_of, run}}
use Rattle.{grammar.crate}.specs.{title(grammar)}Acts.{{{stem}_acts}}
use {own}.{{Token as PToken}}
use Rattle.{grammar.crate}.proofs.generated.{stem}_acts.build_parts.Given as goal

-- the steps that are left make of the rest what all steps make of all tokens
abbrev pub invariant-loop-step : goal.invariant-loop-step
invariant-loop-step l =
    run PToken (act_of {acts}) (drop l.step-index l.steps) l.rest (reverse l.parts.items) ≡ run PToken (act_of {acts}) l.steps l.fn.tokens []
"""


def make_answers(grammar):
    stem = grammar.language
    acts = f"({stem}_acts c.args.{grammar.context_name()}.now)" if grammar.context else f"{stem}_acts"
    over = "over " if grammar.fragment else ""
    out = f"""-- {made_from(grammar)}
use Rattle.std.proofs.Common.{{arith, reverse}}
use Rattle.gv_grammar.proofs.Building.{{accepted_within}}
use Rattle.{grammar.crate}.specs.{title(grammar)}Acts.{{{stem}_acts}}
use Rattle.{grammar.crate}.proofs.generated.{stem}_acts.make.Goals as goal

pub unreachable-requires : goal.unreachable-requires
unreachable-requires {over}c =
    let within = accepted_within {acts} c.args.act (reverse c.args.parts.now.items) c.requires.accepted in
    let behind = c.requires.behind_marks in
    omega (arith, within, behind)
"""
    return out
