#!/usr/bin/env python3
"""Writes how the node of each form is taken apart, from a grammar whose trees are lists of nodes.

    tools/nodes.py GRAMMAR CRATE              writes the generated files into crates/CRATE, beside the crate of GRAMMAR
    tools/nodes.py GRAMMAR CRATE --to FOLDER  writes them into FOLDER

For each kind of part but tokens there is a type of nodes, a variant an act, a function that tells which one a node is, and
what that says of the part. Nothing rests on this program: every generated function is proved.
"""

import os
import re
import sys

from emit_acts import made, test_of
from emit_nodes import antt_type
from grammar_file import GrammarError, read_grammar, upper


def snake(word):
    return upper(word).lower()


def camel(name):
    return "".join(part.capitalize() for part in name.split("_"))


def kept(act):
    """The parts of an act that what it makes names, each with how many parts come behind it."""
    behind = len(act.takes)
    return [(name, kind, behind - 1 - at) for at, (name, kind) in enumerate(act.takes) if name != "_"]


def all_parts(act):
    """All parts of an act, those without a name by a name of their own."""
    return [(name if name != "_" else f"passed_{at}", kind) for at, (name, kind) in enumerate(act.takes)]


def inner(act):
    """The parts that are no tokens."""
    return [(name, kind) for name, kind, _ in kept(act) if kind != "Token"]


def used(text):
    """A file without the imports that nothing in it names."""
    lines = text.split("\n")
    body = "\n".join(line for line in lines if not re.match(r"(ghost )?use ", line))
    kept_lines = []
    for line in lines:
        match = re.match(r"((?:ghost )?use .*\.)\{(.*)\}(;?)$", line)
        if match:
            names = [name for name in match[2].split(", ") if is_named(body, name.split(" as ")[-1])]
            if not names:
                continue
            line = f"{match[1]}{{{', '.join(names)}}}{match[3]}"
        kept_lines.append(line)
    return "\n".join(kept_lines)


def is_named(body, name):
    sign = name.replace("◌", "")
    if name != sign:
        return f" {sign} " in body or name == "if◌then◌else◌" and "if " in body
    return name in body if name == "[]" else re.search(rf"(?<![\w.]){re.escape(name)}(?!\w)", body) is not None


class Views:
    """The generated files of a grammar."""

    def __init__(self, grammar, crate):
        self.grammar = grammar
        self.crate = crate
        self.kinds = [kind for kind in grammar.kinds if self.acts(kind)]

    def acts(self, kind):
        return [act for act in self.grammar.acts if act.kind == kind]

    def note(self):
        return f"Made by tools/nodes.py from {self.grammar.language}.grammar: edit that."

    def files(self):
        out = {"src/generated.rt": self.root(), "specs/Lib.antt": self.lib(["Places"], "pub mod "), "proofs/Lib.antt": self.lib(["Opened", "Tops", "MadeKinds"], "pub mod ", "Acts")}
        out["proofs/Tops.antt"] = self.tops()
        for kind in self.kinds:
            stem = snake(kind) + "_node"
            out[f"src/generated/{stem}.rt"] = self.source(kind)
            out[f"specs/{kind}.antt"] = self.spec(kind)
            out[f"proofs/{kind}Acts.antt"] = self.proof(kind)
            for act in self.acts(kind):
                out[f"proofs/generated/{stem}/{act.name.lower()}_made/Answers.antt"] = self.answers(kind, act)
            out[f"proofs/generated/{stem}/{stem}/Answers.antt"] = self.top_answers(kind)
        return {name: used(text) if name.endswith(".antt") else text for name, text in out.items()}

    def lib(self, own, word, behind=""):
        return "".join(word + name + "\n" for name in own + [kind + behind for kind in self.kinds])

    def root(self):
        out = f"//! Nodes by the kinds of their parts. {self.note()}\n\n"
        return out + "".join(f"pub mod {snake(kind)}_node;\n" for kind in self.kinds)

    # ---- code

    def type_of(self, kind):
        return self.grammar.kinds[kind] if kind != "Token" else "Lexeme"

    def field(self, kind):
        return "Lexeme" if kind == "Token" else "usize"

    def declared(self, rust):
        """The imports of the declared types that a type of a part names."""
        names = [word for word in re.findall(r"\w+", rust) if word not in ("List", "Option", "Boxed")]
        return sorted(set(names))

    def type_imports(self, kinds, prefix, as_any):
        crate = self.grammar.crate
        out = ""
        for name in sorted({name for kind in kinds for name in self.declared(self.type_of(kind))}):
            home = "lexeme" if name == "Lexeme" else "tree"
            to = f"{name} as Any{name}" if as_any else name
            out += f"{prefix}use Rattle.{crate}.specs.declared.{home}.{name}.{{{to}}}{';' if as_any else ''}\n"
        return out

    def any_type(self, kind):
        return re.sub(r"\b(?!List\b|Option\b)([A-Z]\w*)", r"Any\1", antt_type(self.type_of(kind)))

    def source(self, kind):
        acts, crate = self.acts(kind), self.grammar.crate
        words = ["◌≡◌"] + [word for word in ("List", "Option") if word in self.any_type(kind).split()]
        out = f"//! {kind} nodes. {self.note()}\n#![tactic(auto, unfolding({crate}::specs::Nodes::arity))]\n\n"
        out += f"ghost use Rattle.std.specs.Prelude.{{{', '.join(words)}}};\n"
        out += f"ghost use Rattle.{crate}.specs.declared.generated.{self.grammar.language}_acts.Part.TheVariants.{{{kind} as P{kind}}};\n"
        out += self.type_imports([kind], "ghost ", True)
        out += f"ghost use Rattle.{crate}.specs.Nodes as tree;\n"
        out += f"ghost use Rattle.{self.crate}.specs.Places.{{IsMadeBy}};\nghost use Rattle.{self.crate}.specs.{kind}.{{Is{kind}Node, IsSome{kind}}};\n\n"
        places = [act for act in acts if inner(act)]
        tokens = [act for act in acts if any(k == "Token" for _, k, _ in kept(act))]
        used = ["act_of"] + (["place_of"] if places else []) + (["token_of"] if tokens else [])
        out += f"use crate::parts::{{{', '.join(used)}}};\n"
        out += f"use {crate}::generated::{self.grammar.language}_table::{{{', '.join(sorted('ACT_' + act.name for act in acts))}}};\n"
        out += f"use {crate}::{{{'Lexeme, ' if tokens else ''}Node}};\n\n"
        out += self.node_type(kind)
        for act in acts:
            out += self.maker(kind, act)
        return out + self.top(kind)

    def node_type(self, kind):
        out = f"/// Which act makes a part of the kind {kind}, with the tokens and the places of the parts that it takes.\n"
        out += f"#[derive(Clone, Copy)]\npub enum {kind}Node {{\n"
        for act in self.acts(kind):
            fields = ", ".join(f"{name}: {self.field(k)}" for name, k, _ in kept(act))
            out += f"    {camel(act.name)}{' { ' + fields + ' }' if fields else ''},\n"
        return out + "}\n"

    def maker(self, kind, act):
        constant = f"ACT_{act.name}"
        fields = ", ".join(name for name, _, _ in kept(act))
        out = f"\nfn {act.name.lower()}_made({'_' if not fields else ''}nodes: &[Node], {'_' if not fields else ''}at: usize) -> {kind}Node\n"
        here = "_" if not fields else ""
        out += f"    requires formed {{ tree.IsFormed {here}nodes.now }}\n    requires made {{ IsMadeBy {here}nodes.now {here}at {constant} }}\n"
        out += f"    ensures {{ (whole : {self.any_type(kind)}) → tree.IsPartAt {here}nodes.now {here}at (P{kind} whole) → Is{kind}Node {here}nodes.now {here}at result whole }}\n{{\n"
        for name, k, behind in kept(act):
            call = "token_of" if k == "Token" else "place_of"
            out += f"    let {name} = {call}(nodes, at, {constant}, {behind});\n"
        return out + f"    {kind}Node::{camel(act.name)}{' { ' + fields + ' }' if fields else ''}\n}}\n"

    def top(self, kind):
        acts = self.acts(kind)
        out = f"\n/// The node at a place where a part of the kind {kind} stands.\npub fn {snake(kind)}_node(nodes: &[Node], at: usize) -> {kind}Node\n"
        out += f"    requires formed {{ tree.IsFormed nodes.now }}\n    requires some {{ IsSome{kind} nodes.now at }}\n"
        out += f"    ensures {{ (whole : {self.any_type(kind)}) → tree.IsPartAt nodes.now at (P{kind} whole) → Is{kind}Node nodes.now at result whole }}\n{{\n"
        out += "    match act_of(nodes, at) {\n"
        for act in acts:
            out += f"        ACT_{act.name} => {act.name.lower()}_made(nodes, at),\n"
        return out + "        _ => unreachable!(),\n    }\n}\n"

    # ---- definitions

    def spec(self, kind):
        crate, acts = self.grammar.crate, self.acts(kind)
        terms = " ".join(act.antt for act in acts)
        words = ["◌≡◌", "ℕ", "◌<◌", "List", "length"] + [w for w in ("[]", "◌∷◌", "◌++◌", "Some", "None") if w.replace("◌", "") in terms]
        words += ["Option"] if any("Option" in self.type_of(k) for k in [kind] + [k for act in acts for _, k in inner(act)]) else []
        kinds = [kind] + [k for act in acts for _, k, _ in kept(act)]
        out = f"-- {kind} nodes. {self.note()}\n"
        out += f"use Rattle.std.specs.Prelude.{{{', '.join(words)}}}\n"
        parts = sorted({kind} | {k for act in acts for _, k in inner(act)})
        out += f"use Rattle.{crate}.specs.declared.generated.{self.grammar.language}_acts.Part.TheVariants.{{{', '.join(f'{k} as P{k}' for k in parts)}}}\n"
        out += self.type_imports(kinds, "", False)
        out += f"use Rattle.{crate}.specs.declared.node.Node.{{Node}}\n"
        out += "".join(line.strip() + "\n" for line in self.grammar.antt if " as " in line and re.search(r"\b" + line.split(" as ")[1] + r"\.", terms))
        out += f"use Rattle.{crate}.specs.Nodes.{{IsPartAt}}\n"
        if any(inner(act) for act in acts):
            out += f"use Rattle.{self.crate}.specs.Places.{{IsBefore}}\n"
        declared = f"Rattle.{self.crate}.specs.declared.generated.{snake(kind)}_node.{kind}Node"
        out += f"use {declared}.{{{kind}Node}}\nuse {declared}.TheVariants as node\n"
        of = antt_type(self.type_of(kind))
        out += f"\n-- a part of the kind stands there\npub record IsSome{kind} (nodes : List Node) (at : ℕ) : Type 0 where\n  pub whole : {of}\n  pub within : at < length nodes\n  pub part : IsPartAt nodes at (P{kind} whole)\n"
        for act in acts:
            if inner(act):
                out += self.act_record(kind, act)
        out += f"\n-- what is told of a node before `limit` is so of this part\nabbrev pub Is{kind}Node : List Node → ℕ → {kind}Node → {of} → Type 0\n"
        for act in acts:
            names = [name for name, _, _ in kept(act)]
            pattern = " ".join([f"node.{camel(act.name)}"] + names)
            pattern = f"({pattern})" if names else pattern
            if inner(act):
                out += f"Is{kind}Node nodes limit {pattern} whole = Is{camel(act.name)} nodes limit {' '.join(names)} whole\n"
            else:
                out += f"Is{kind}Node nodes limit {pattern} whole = whole ≡ {self.term(act, {})}\n"
        return out

    def term(self, act, names):
        """What an act makes, with other names for its parts."""
        out = act.antt
        for name, other in names.items():
            out = re.sub(rf"(?<![\w.]){name}(?!\w|\s*=)", other, out)
        return out if re.fullmatch(r"[\w.\[\]]+|\(.*\)", out) else f"({out})"

    def act_record(self, kind, act):
        args = "".join(f" ({name} : {'Lexeme' if k == 'Token' else 'ℕ'})" for name, k, _ in kept(act))
        out = f"\npub record Is{camel(act.name)} (nodes : List Node) (limit : ℕ){args} (whole : {antt_type(self.type_of(kind))}) : Type 0 where\n"
        for name, k in inner(act):
            out += f"  pub of_{name} : {antt_type(self.type_of(k))}\n"
        for name, k in inner(act):
            out += f"  pub at_{name} : IsBefore nodes limit {name} (P{k} of_{name})\n"
        return out + f"  pub made : whole ≡ {self.term(act, {name: 'of_' + name for name, _ in inner(act)})}\n"

    # ---- proofs

    def tops(self):
        """Parts by the tests that they pass."""
        crate, language = self.grammar.crate, self.grammar.language
        kinds = list(self.grammar.kinds)
        tests = [test_of(kind) for kind in kinds]
        out = f"-- What stands on top of the parts that an act takes, by its tests. {self.note()}\n"
        out += "use Rattle.std.proofs.Common.{◌≡◌, ℕ, Bool, true, false, List, [], ◌∷◌, Option, Some, None, refl, ap}\nuse Rattle.std.specs.Prelude.{if◌then◌else◌}\nuse Rattle.std.proofs.lemmas.Bool.{false≢true}\n"
        out += "use Rattle.gv_grammar.specs.Building.{has_tops, accepts, made_by}\nuse Rattle.gv_grammar.proofs.Tests.{both}\n"
        out += f"use Rattle.{crate}.specs.declared.generated.{language}_acts.Part.{{Part}}\n"
        out += f"use Rattle.{crate}.specs.declared.generated.{language}_acts.Part.TheVariants.{{{', '.join(f'{k} as P{k}' for k in ['Token'] + kinds if k != 'Token')}, Token as PToken}}\n"
        out += self.type_imports(["Token"] + kinds, "", False)
        out += f"use Rattle.{crate}.specs.{language.title()}Acts.{{{language}_acts, {', '.join(sorted(set(tests + ['is_token'])))}}}\n"
        out += f"use Rattle.{crate}.specs.Nodes.{{done_by}}\n"
        out += f"""
-- what an act that makes something has taken, and what it made
pub accepted : (act : ℕ) (parts made : List Part) → done_by act parts ≡ Some made → (accepts {language}_acts act parts ≡ true) × (made ≡ made_by {language}_acts act parts)
unfolding done_by
accepted act parts made h = go (accepts {language}_acts act parts) refl h
  where
    go : (b : Bool) → accepts {language}_acts act parts ≡ b → (if b then Some (made_by {language}_acts act parts) else None) ≡ Some made
        → (accepts {language}_acts act parts ≡ true) × (made ≡ made_by {language}_acts act parts)
    go false e h = absurd cc
    go true e h = (e, cc)

-- what follows from the part on top and the others
abbrev pub Topped : {{K : Type 0}} → (K → Part) → List (Part → Bool) → List Part → Type 0 → Type 0
Topped {{K}} of tests parts G = (top : K) (rest : List Part) → parts ≡ of top ∷ rest → has_tops tests rest ≡ true → G

topped : {{K G : Type 0}} (of : K → Part) (test : Part → Bool) → ((p : Part) → test p ≡ true → (k : K) × (p ≡ of k))
    → (tests : List (Part → Bool)) (parts : List Part) → has_tops (test ∷ tests) parts ≡ true → Topped of tests parts G → G
topped of test inside tests [] h follows = absurd (false≢true h)
topped of test inside tests (p ∷ ps) h follows =
    let b = both (test p) (has_tops tests ps) h in
    let i = inside p b.0 in
    follows i.0 ps (ap (λ (q : Part). q ∷ ps) i.1) b.1
"""
        for kind in ["Token"] + [k for k in kinds if k != "Token"]:
            of, low = antt_type(self.type_of(kind)), snake(kind)
            out += f"\nin_{low} : (p : Part) → {test_of(kind)} p ≡ true → (k : {of}) × (p ≡ P{kind} k)\nin_{low} (P{kind} k) h = (k, refl)\nin_{low} p h = absurd (false≢true h)\n"
            out += f"\npub top_{low} : {{G : Type 0}} (tests : List (Part → Bool)) (parts : List Part) → has_tops ({test_of(kind)} ∷ tests) parts ≡ true → Topped {{K = {of}}} (λ k. P{kind} k) tests parts G → G\n"
            out += f"top_{low} tests parts h follows = topped (λ (k : {of}). P{kind} k) {test_of(kind)} in_{low} tests parts h follows\n"
        return out

    def proof(self, kind):
        crate, acts, language = self.grammar.crate, self.acts(kind), self.grammar.language
        terms = " ".join(act.antt for act in acts)
        parts = sorted({"Token", kind} | {k for act in acts for _, k in act.takes})
        records = [f"Is{camel(act.name)}" for act in acts if inner(act)]
        out = f"-- {kind} nodes by the acts that make them. {self.note()}\n"
        out += "use Rattle.std.proofs.Common.{◌≡◌, ℕ, Bool, true, List, [], ◌∷◌, ◌++◌, Option, Some, None, refl, sym, ap, ◌∙◌}\nuse Rattle.std.specs.Prelude.{drop, take}\n"
        out += "use Rattle.gv_grammar.specs.Building.{has_tops}\n"
        out += f"use Rattle.{crate}.specs.declared.generated.{language}_acts.Part.{{Part}}\n"
        out += f"use Rattle.{crate}.specs.declared.generated.{language}_acts.Part.TheVariants.{{{', '.join(f'{k} as P{k}' for k in parts)}}}\n"
        out += self.type_imports(["Token", kind] + [k for act in acts for _, k in act.takes], "", False)
        out += "".join(line.strip() + "\n" for line in self.grammar.antt if " as " in line and re.search(r"\b" + line.split(" as ")[1] + r"\.", terms))
        out += f"use Rattle.{crate}.specs.declared.node.Node.{{Node}}\nuse Rattle.{crate}.specs.declared.node.Node.TheVariants.{{Made}}\n"
        out += f"use Rattle.{crate}.specs.declared.generated.{language}_table.TheConstants as act\n"
        out += f"use Rattle.{crate}.specs.{language.title()}Acts.{{{', '.join(sorted({test_of(k) for act in acts for _, k in act.takes} | {made(act) for act in acts}))}}}\n"
        out += f"use Rattle.{crate}.specs.Nodes.{{built, done_by, IsPartAt}}\n"
        out += f"use Rattle.{self.crate}.specs.Places.{{IsMadeBy, IsPartOf, IsTokenOf}}\n"
        if records:
            out += f"use Rattle.{self.crate}.specs.{kind}.{{{', '.join(records)}}}\n"
        out += f"use Rattle.{self.crate}.proofs.Opened.{{opened, at_part, same_act}}\n"
        out += f"use Rattle.{self.crate}.proofs.Tops.{{{', '.join(['accepted'] + sorted({'top_' + snake(k) for act in acts for _, k in act.takes}))}}}\n"
        return out + "".join(self.act_proof(kind, act) for act in acts)

    def act_proof(self, kind, act):
        of, name, low = antt_type(self.type_of(kind)), camel(act.name), act.name.lower()
        parts = list(reversed(all_parts(act)))
        shape = " ∷ ".join([f"P{k} {n}" for n, k in parts] + ["behind"])
        names = [n for n, _, _ in kept(act)]
        given = "".join(f" (at_{n} : {'Lexeme' if k == 'Token' else 'ℕ'})" for n, k, _ in kept(act))
        facts = "".join(f" → {'IsTokenOf' if k == 'Token' else 'IsPartOf'} nodes at {behind} at_{n}" for n, k, behind in kept(act))
        outer = {n: f"at_{n}" for n, k, _ in kept(act) if k == "Token"}
        end = f"Is{name} nodes at {' '.join('at_' + n for n in names)} whole" if inner(act) else f"whole ≡ {self.term(act, outer)}"
        said = f"P{kind} whole ∷ rest ≡ P{kind} ({made(act)} parts) ∷ drop {len(parts)} parts"
        ats, iss = "".join(f" at_{n}" for n in names), "".join(f" known_{n}" for n in names)
        typed = "".join(f" ({n} : {antt_type(self.type_of(k))})" for n, k in parts)
        out = f"\n{low}_end : (nodes : List Node) (at : ℕ){given}{facts}\n    → (whole : {of}) (parts rest : List Part){typed} (behind : List Part) → built (take at nodes) ≡ Some parts → parts ≡ {shape}\n    → {said} → {end}\n"
        out += f"{low}_end nodes at{ats}{iss} whole parts rest{''.join(' ' + n for n, _ in parts)} behind before shape q =\n"
        out += f"    let made : whole ≡ {made(act)} parts = cc in\n"
        last = f"made ∙ ap (λ (ps : List Part). {made(act)} ps) shape" + self.same_tokens(kind, act)
        if inner(act):
            out += "    record {\n" + "".join(f"      of_{n} = {n};\n" for n, _ in inner(act))
            for n, k, behind in kept(act):
                if k != "Token":
                    out += f"      at_{n} = at_part nodes at {behind} at_{n} parts ({self.rest(act, behind)}) (P{k} {n}) known_{n} before (ap (λ (ps : List Part). drop {behind} ps) shape);\n"
            out += f"      made = {last};\n    }}\n"
        else:
            out += f"    {last}\n"
        out += f"\npub {low}_is : (nodes : List Node) (at : ℕ){given} → IsMadeBy nodes at act.ACT_{act.name}{facts}\n    → (whole : {of}) → IsPartAt nodes at (P{kind} whole) → {end}\n"
        out += f"{low}_is nodes at{ats} by{iss} whole is =\n"
        out += f"    let o = opened nodes at (Made by.raw by.from) (P{kind} whole) by.node is in\n"
        out += f"    let a = accepted act.ACT_{act.name} o.parts (P{kind} whole ∷ o.rest) (same_act by.raw act.ACT_{act.name} o.parts by.number ∙ o.done) in\n"
        tests = " ∷ ".join([test_of(k) for _, k in parts] + ["[]"])
        out += f"    go o.parts o.rest o.before a.0 a.1\n  where\n    go : (parts rest : List Part) → built (take at nodes) ≡ Some parts → has_tops ({tests}) parts ≡ true → {said} → {end}\n"
        out += "    go parts rest before h q =\n"
        shown = "refl"
        for at in reversed(range(len(parts))):
            shown = f"e{at}" if at == len(parts) - 1 else f"(e{at} ∙ ap (λ (ps : List Part). P{parts[at][1]} x{at} ∷ ps) {shown})"
        for at, (n, k) in enumerate(parts):
            left = " ∷ ".join([test_of(kk) for _, kk in parts[at + 1 :]] + ["[]"])
            out += f"        top_{snake(k)} ({left}) {'parts' if at == 0 else f'r{at - 1}'} {'h' if at == 0 else f'h{at - 1}'} (λ x{at} r{at} e{at} h{at}.\n"
        behind = f"r{len(parts) - 1}" if parts else "parts"
        out += f"        {low}_end nodes at{ats}{iss} whole parts rest{''.join(f' x{at}' for at in range(len(parts)))} {behind} before {shown} q{')' * len(parts)}\n"
        return out

    def rest(self, act, behind):
        """The parts before one, the last one first."""
        before = list(reversed(all_parts(act)))[behind + 1 :]
        return " ∷ ".join([f"P{k} {n}" for n, k in before] + ["behind"])

    def same_tokens(self, kind, act):
        """The steps from the tokens of the parts to those that were read."""
        out, done = "", {}
        for n, k, behind in kept(act):
            if k == "Token":
                term = self.term(act, {**done, n: "x"})
                out += f"\n      ∙ ap (λ (x : Lexeme). {self.typed(kind, term)}) (sym (known_{n}.same parts ({self.rest(act, behind)}) {n} before (ap (λ (ps : List Part). drop {behind} ps) shape)))"
                done[n] = f"at_{n}"
        return out

    def typed(self, kind, term):
        return f"let y : {antt_type(self.type_of(kind))} = {term} in y" if "record" in term else term

    def answers(self, kind, act):
        low = act.name.lower()
        out = f"use Rattle.{self.crate}.proofs.{kind}Acts.{{{low}_is}}\nuse Rattle.{self.crate}.proofs.generated.{snake(kind)}_node.{low}_made.Goals as goal\n\n"
        calls = [(n, f"c.{'token_of' if k == 'Token' else 'place_of'}-{n}") for n, k, _ in kept(act)]
        here = "_" if not calls else ""
        given = "".join(f" {call}.result" for _, call in calls)
        facts = "".join(f" {call}.ensures" for _, call in calls)
        return out + f"pub returns : goal.returns\nreturns c = λ whole is. {low}_is c.args.{here}nodes.now c.args.{here}at{given} c.requires.made{facts} whole is\n"

    def top_answers(self, kind):
        crate, stem = self.grammar.crate, snake(kind) + "_node"
        out = "use Rattle.std.proofs.Common.{refl, arith}\n"
        out += f"use Rattle.{crate}.specs.declared.generated.{self.grammar.language}_acts.Part.TheVariants.{{{kind} as P{kind}}}\nuse Rattle.{crate}.specs.{self.grammar.language.title()}Acts.{{{test_of(kind)}}}\n"
        out += f"use Rattle.{self.crate}.proofs.Opened.{{some_made}}\nuse Rattle.{self.crate}.proofs.MadeKinds.{{made_there}}\nuse Rattle.{self.crate}.proofs.generated.{stem}.{stem}.Goals as goal\n"
        out += f"\npub act_of-requires : goal.act_of-requires\nact_of-requires c = some_made c.args.nodes.now c.args.at (P{kind} c.requires.some.whole) c.requires.some.within c.requires.some.part refl\n"
        out += "\npub unreachable-requires : goal.unreachable-requires\nunreachable-requires c =\n"
        out += f"    let among = made_there {test_of(kind)} c.args.nodes.now c.args.at c.act_of.result (P{kind} c.requires.some.whole) c.act_of.ensures.behind_marks c.act_of.ensures.made c.requires.some.part refl in\n"
        out += "    let e = among.one_of in\n    grind (arith, e)\n"
        return out


def main(words):
    if len(words) not in (2, 4) or len(words) == 4 and words[2] != "--to":
        print(__doc__, file=sys.stderr)
        return 2
    try:
        grammar = read_grammar(words[0])
    except GrammarError as error:
        print("\n".join(error.lines), file=sys.stderr)
        return 1
    folder = words[3] if len(words) == 4 else os.path.join(os.path.dirname(os.path.dirname(words[0])), words[1])
    files = Views(grammar, words[1]).files()
    for name, text in files.items():
        target = os.path.join(folder, name)
        os.makedirs(os.path.dirname(target), exist_ok=True)
        with open(target, "w", encoding="utf-8") as file:
            file.write(text)
    print(f"{words[1]}: {len(files)} files")
    return 0


if __name__ == "__main__":
    sys.exit(main(sys.argv[1:]))
