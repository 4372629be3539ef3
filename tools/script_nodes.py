#!/usr/bin/env python3
"""Writes how the node of each form of a script is taken apart, from the grammar of scripts.

    tools/script_nodes.py GRAMMAR CRATE KIND..              writes the generated files into crates/CRATE, beside the crate of GRAMMAR
    tools/script_nodes.py GRAMMAR CRATE KIND.. --to FOLDER  writes them into FOLDER

It is what nodes.py does, for some of the kinds of a grammar that includes that of terms, and whose texts its acts are given. A
crate that is made so has by hand what `parts` has of gv_certnodes, or takes it from there. Nothing rests on this program: every
generated function is proved.
"""

import os
import re
import sys
from dataclasses import replace

from emit_acts import made, test_of
from emit_nodes import antt_type
from grammar_file import MARKS, GrammarError, read_grammar
from nodes import Views, all_parts, camel, inner, kept, snake, used

BASE = "gv_certnodes"
TERMREAD = {"PlacedTerm": "placed", "SeenToken": "token"}


def renamed(act):
    """An act whose parts bear no name that the generated text has for something else."""
    takes = [("place" if name == "at" else name, kind) for name, kind in act.takes]
    return replace(act, takes=takes, antt=re.sub(r"(?<![\w.])at(?!\w)", "place", act.antt) if takes != act.takes else act.antt)


def named(text):
    """A file without the imports of constructors under a name that nothing in it has."""
    lines = text.split("\n")
    body = "\n".join(line for line in lines if not line.startswith("use "))
    return "\n".join(line for line in lines if not re.match(r"use .* as (\w+)$", line) or re.search(rf"(?<![\w.]){line.split(' as ')[1]}\.", body))


class ScriptViews(Views):
    """The generated files of some kinds."""

    def __init__(self, grammar, crate, kinds):
        super().__init__(grammar, crate)
        self.kinds = kinds

    def acts(self, kind):
        return [renamed(act) for act in self.grammar.base.acts + self.grammar.acts if act.kind == kind]

    def note(self):
        return f"Made by tools/script_nodes.py from {self.grammar.language}.grammar: edit that."

    def files(self):
        specs, proofs = (["Places"], ["Opened", "MadeKinds"]) if self.crate == BASE else ([], [])
        if any(self.is_long(kind) for kind in self.kinds):
            proofs.append("Halves")
        out = {"src/generated.rt": self.root()}
        out["specs/Lib.antt"] = self.lib(specs, "pub mod ")
        out["proofs/Lib.antt"] = self.lib(proofs, "pub mod ", "Acts")
        for kind in self.kinds:
            stem = snake(kind) + "_node"
            out[f"src/generated/{stem}.rt"] = self.source(kind)
            out[f"specs/{kind}.antt"] = self.spec(kind)
            out[f"proofs/{kind}Acts.antt"] = self.proof(kind)
            for act in self.acts(kind):
                out[f"proofs/generated/{stem}/{act.name.lower()}_made/Answers.antt"] = self.answers(kind, act)
            out[f"proofs/generated/{stem}/{stem}/Answers.antt"] = self.top_answers(kind)
            if self.is_long(kind):
                for word in ("earlier", "later"):
                    goal = f"{word}_{stem}"
                    text = f"use Rattle.std.proofs.Common.{{arith}}\nuse Rattle.{self.crate}.proofs.generated.{stem}.{goal}.Goals as goal\n\n"
                    text += "pub unreachable-requires : goal.unreachable-requires\nunreachable-requires c = let e = c.requires.among in grind (arith, e)\n"
                    out[f"proofs/generated/{stem}/{goal}/Answers.antt"] = text
        return {name: named(used(text)) if name.endswith(".antt") else text for name, text in out.items()}

    def numbers(self, kind):
        """The numbers of the acts of a kind."""
        acts = self.grammar.base.acts + self.grammar.acts
        return [len(MARKS) + at for at, act in enumerate(acts) if act.kind == kind]

    def is_long(self, kind):
        """Whether a kind has too many acts to be told apart at once."""
        return len(self.acts(kind)) > 20

    # ---- names

    def is_base(self, kind):
        return kind in self.grammar.base.kinds

    def type_of(self, kind):
        return self.grammar.base.kinds[kind] if self.is_base(kind) else self.grammar.kinds[kind]

    def field(self, kind):
        return "SeenToken" if kind == "Token" else "usize"

    def part(self, kind, of):
        return f"P{kind} {of}" if self.is_base(kind) else f"POther (P{kind} {of})"

    def table_of(self, kind):
        return ("gv_termread", "term_table") if self.is_base(kind) else ("gv_scriptsyntax", "script_table")

    def variants(self, kinds, ghost):
        """The imports of the constructors of parts."""
        first, last = ("ghost ", ";") if ghost else ("", "")
        bases = sorted({kind for kind in kinds if self.is_base(kind)})
        own = sorted({kind for kind in kinds if not self.is_base(kind)})
        names = [f"{kind} as P{kind}" for kind in bases] + (["Other as POther"] if own else [])
        out = f"{first}use Rattle.gv_termread.specs.declared.generated.term_acts.Part.TheVariants.{{{', '.join(names)}}}{last}\n" if names else ""
        if own:
            out += f"{first}use Rattle.gv_scriptsyntax.specs.declared.generated.script_acts.ScriptPart.TheVariants.{{{', '.join(f'{kind} as P{kind}' for kind in own)}}}{last}\n"
        return out

    def type_imports(self, kinds, prefix, as_any):
        out = ""
        for name in sorted({name for kind in kinds for name in self.declared(self.type_of(kind))}):
            home = f"gv_termread.specs.declared.{TERMREAD[name]}" if name in TERMREAD else "gv_scriptsyntax.specs.declared.tree"
            to = f"{name} as Any{name}" if as_any else name
            out += f"{prefix}use Rattle.{home}.{name}.{{{to}}}{';' if as_any else ''}\n"
        return out

    def prefixes(self, terms):
        """The imports of the constructors that terms name."""
        out = "".join(line.strip() + "\n" for line in self.grammar.antt if " as " in line and re.search(r"\b" + line.split(" as ")[1] + r"\.", terms))
        words = [word for word in ("number", "constant", "variable", "in_parens", "maker", "apply", "unary", "binary") if any(re.match(word + " ", act.antt) for act in self.grammar.base.acts if act.antt in terms)]
        return out + (f"use Rattle.gv_termread.specs.Trees.{{{', '.join(words)}}}\n" if words else "")

    # ---- code

    def source(self, kind):
        acts = self.acts(kind)
        words = ["◌≡◌"] + [word for word in ("List", "Option") if word in self.any_type(kind).split()] + (["[]", "◌∷◌", "true"] if self.is_long(kind) else [])
        out = f"//! {kind} nodes. {self.note()}\n#![tactic(auto, unfolding(gv_scriptsyntax::specs::Nodes::arity))]\n\n"
        out += f"ghost use Rattle.std.specs.Prelude.{{{', '.join(words)}}};\n"
        out += self.variants([kind], True)
        out += self.type_imports([kind], "ghost ", True)
        out += "ghost use Rattle.gv_grammar.specs.Derivation.{is_among};\n" if self.is_long(kind) else ""
        out += "ghost use Rattle.gv_scriptsyntax.specs.Nodes as tree;\n"
        out += f"ghost use Rattle.{BASE}.specs.Places.{{IsMadeBy}};\nghost use Rattle.{self.crate}.specs.{kind}.{{Is{kind}Node, IsSome{kind}}};\n\n"
        places = [act for act in acts if inner(act)]
        tokens = [act for act in acts if any(k == "Token" for _, k, _ in kept(act))]
        calls = ["act_of"] + (["place_of"] if places else []) + (["token_of"] if tokens else [])
        home, table = self.table_of(kind)
        out += f"use {'crate::parts' if self.crate == BASE else BASE}::{{{', '.join(calls)}}};\n"
        out += "use gv_scriptsyntax::Node;\n"
        out += f"use {home}::generated::{table}::{{{', '.join(sorted('ACT_' + act.name for act in acts))}}};\n"
        if tokens:
            out += "use gv_termread::SeenToken;\n"
        out += "\n" + self.node_type(kind)
        for act in acts:
            out += self.maker(kind, act)
        return out + self.top(kind)

    def maker(self, kind, act):
        constant = f"ACT_{act.name}"
        fields = ", ".join(name for name, _, _ in kept(act))
        here = "_" if not fields else ""
        out = f"\nfn {act.name.lower()}_made({here}text: &[u8], {here}nodes: &[Node], {here}at: usize) -> {kind}Node\n"
        out += f"    requires formed {{ tree.IsFormed {here}text.now {here}nodes.now }}\n    requires made {{ IsMadeBy {here}nodes.now {here}at {constant} }}\n"
        out += f"    ensures {{ (whole : {self.any_type(kind)}) → tree.IsPartAt {here}text.now {here}nodes.now {here}at ({self.part(kind, 'whole')}) → Is{kind}Node {here}text.now {here}nodes.now {here}at result whole }}\n{{\n"
        for name, k, behind in kept(act):
            call = "token_of" if k == "Token" else "place_of"
            out += f"    let {name} = {call}(text, nodes, at, {constant}, {behind});\n"
        return out + f"    {kind}Node::{camel(act.name)}{' { ' + fields + ' }' if fields else ''}\n}}\n"

    def long_top(self, kind):
        """Of a kind with many acts: the earlier ones and the later ones, each by a function of its own."""
        acts, numbers, stem = self.acts(kind), self.numbers(kind), snake(kind)
        half = len(acts) // 2
        whole = f"(whole : {self.any_type(kind)}) → tree.IsPartAt text.now nodes.now at ({self.part(kind, 'whole')}) → Is{kind}Node text.now nodes.now at result whole"
        out = ""
        for word, some, here in (("earlier", acts[:half], numbers[:half]), ("later", acts[half:], numbers[half:])):
            out += f"\nfn {word}_{stem}_node(text: &[u8], nodes: &[Node], at: usize, act: u8) -> {kind}Node\n"
            out += "    requires formed { tree.IsFormed text.now nodes.now }\n    requires made { IsMadeBy nodes.now at act }\n"
            out += f"    requires among {{ is_among act ({' ∷ '.join(map(str, here))} ∷ []) ≡ true }}\n    ensures {{ {whole} }}\n{{\n    match act {{\n"
            out += "".join(f"        ACT_{act.name} => {act.name.lower()}_made(text, nodes, at),\n" for act in some) + "        _ => unreachable!(),\n    }\n}\n"
        out += f"\n/// The node at a place where a part of the kind {kind} stands.\npub fn {stem}_node(text: &[u8], nodes: &[Node], at: usize) -> {kind}Node\n"
        out += f"    requires formed {{ tree.IsFormed text.now nodes.now }}\n    requires some {{ IsSome{kind} text.now nodes.now at }}\n    ensures {{ {whole} }}\n{{\n"
        out += f"    let act = act_of(nodes, at);\n    if act < ACT_{acts[half].name} {{\n        earlier_{stem}_node(text, nodes, at, act)\n    }} else {{\n        later_{stem}_node(text, nodes, at, act)\n    }}\n}}\n"
        return out

    def top(self, kind):
        if self.is_long(kind):
            return self.long_top(kind)
        out = f"\n/// The node at a place where a part of the kind {kind} stands.\npub fn {snake(kind)}_node(text: &[u8], nodes: &[Node], at: usize) -> {kind}Node\n"
        out += f"    requires formed {{ tree.IsFormed text.now nodes.now }}\n    requires some {{ IsSome{kind} text.now nodes.now at }}\n"
        out += f"    ensures {{ (whole : {self.any_type(kind)}) → tree.IsPartAt text.now nodes.now at ({self.part(kind, 'whole')}) → Is{kind}Node text.now nodes.now at result whole }}\n{{\n"
        out += "    match act_of(nodes, at) {\n"
        for act in self.acts(kind):
            out += f"        ACT_{act.name} => {act.name.lower()}_made(text, nodes, at),\n"
        return out + "        _ => unreachable!(),\n    }\n}\n"

    # ---- definitions

    def spec(self, kind):
        acts = self.acts(kind)
        terms = " ".join(act.antt for act in acts)
        words = ["◌≡◌", "ℕ", "◌<◌", "List", "length"] + [w for w in ("[]", "◌∷◌", "◌++◌", "Some", "None") if w.replace("◌", "") in terms]
        words += ["Option"] if any("Option" in self.type_of(k) for k in [kind] + [k for act in acts for _, k in inner(act)]) else []
        kinds = [kind] + [k for act in acts for _, k, _ in kept(act)]
        out = f"-- {kind} nodes. {self.note()}\n"
        out += f"use Rattle.std.specs.Prelude.{{{', '.join(words)}}}\n"
        out += self.variants([kind] + [k for act in acts for _, k in inner(act)], False)
        out += self.type_imports(kinds, "", False)
        out += "use Rattle.gv_scriptsyntax.specs.declared.node.Node.{Node}\n"
        out += self.prefixes(terms)
        out += "use Rattle.gv_scriptsyntax.specs.Nodes.{IsPartAt}\n"
        if any(inner(act) for act in acts):
            out += f"use Rattle.{BASE}.specs.Places.{{IsBefore}}\n"
        declared = f"Rattle.{self.crate}.specs.declared.generated.{snake(kind)}_node.{kind}Node"
        out += f"use {declared}.{{{kind}Node}}\nuse {declared}.TheVariants as node\n"
        of = antt_type(self.type_of(kind))
        out += f"\n-- a part of the kind stands there\npub record IsSome{kind} (text : List ℕ) (nodes : List Node) (at : ℕ) : Type 0 where\n  pub whole : {of}\n  pub within : at < length nodes\n  pub part : IsPartAt text nodes at ({self.part(kind, 'whole')})\n"
        for act in acts:
            if inner(act):
                out += self.act_record(kind, act)
        out += f"\n-- what is told of a node before `limit` is so of this part\nabbrev pub Is{kind}Node : List ℕ → List Node → ℕ → {kind}Node → {of} → Type 0\n"
        for act in acts:
            names = [name for name, _, _ in kept(act)]
            pattern = " ".join([f"node.{camel(act.name)}"] + names)
            pattern = f"({pattern})" if names else pattern
            if inner(act):
                out += f"Is{kind}Node text nodes limit {pattern} whole = Is{camel(act.name)} text nodes limit {' '.join(names)} whole\n"
            else:
                out += f"Is{kind}Node text nodes limit {pattern} whole = whole ≡ {self.term(act, {})}\n"
        return out

    def act_record(self, kind, act):
        args = "".join(f" ({name} : {'SeenToken' if k == 'Token' else 'ℕ'})" for name, k, _ in kept(act))
        out = f"\npub record Is{camel(act.name)} (text : List ℕ) (nodes : List Node) (limit : ℕ){args} (whole : {antt_type(self.type_of(kind))}) : Type 0 where\n"
        for name, k in inner(act):
            out += f"  pub of_{name} : {antt_type(self.type_of(k))}\n"
        for name, k in inner(act):
            out += f"  pub at_{name} : IsBefore text nodes limit {name} ({self.part(k, f'of_{name}')})\n"
        return out + f"  pub made : whole ≡ {self.term(act, {name: 'of_' + name for name, _ in inner(act)})}\n"

    # ---- proofs

    def proof(self, kind):
        acts = self.acts(kind)
        terms = " ".join(act.antt for act in acts)
        records = [f"Is{camel(act.name)}" for act in acts if inner(act)]
        home, table = self.table_of(kind)
        out = f"-- {kind} nodes by the acts that make them. {self.note()}\n"
        out += "use Rattle.std.proofs.Common.{◌≡◌, ℕ, Bool, true, List, [], ◌∷◌, ◌++◌, Option, Some, None, refl, sym, ap, ◌∙◌}\nuse Rattle.std.specs.Prelude.{drop, take}\n"
        out += "use Rattle.gv_grammar.specs.Building.{has_tops}\n"
        out += self.variants(["Token", kind] + [k for act in acts for _, k in act.takes], False)
        out += self.type_imports(["Token", kind] + [k for act in acts for _, k in act.takes], "", False)
        out += self.prefixes(terms)
        out += "use Rattle.gv_scriptsyntax.specs.declared.node.Node.{Node}\nuse Rattle.gv_scriptsyntax.specs.declared.node.Node.TheVariants.{Made}\n"
        out += f"use Rattle.{home}.specs.declared.generated.{table}.TheConstants as act\n"
        tests = {test_of(k) for act in acts for _, k in act.takes}
        base_tests = {"is_token", "is_term"}
        makes = {made(act) for act in acts}
        from_terms = sorted(tests & base_tests | (makes if self.is_base(kind) else set()))
        from_script = sorted(tests - base_tests | (set() if self.is_base(kind) else makes))
        out += f"use Rattle.gv_termread.specs.TermActs.{{{', '.join(from_terms)}}}\n" if from_terms else ""
        out += f"use Rattle.gv_scriptsyntax.specs.ScriptActs.{{{', '.join(from_script)}}}\n" if from_script else ""
        out += "use Rattle.gv_scriptsyntax.specs.Nodes.{Parts, built, IsPartAt}\n"
        out += "use Rattle.gv_scriptnodes.specs.Places.{IsChild, IsTokenOf}\nuse Rattle.gv_scriptnodes.proofs.Opened.{opened}\n"
        out += f"use Rattle.gv_scriptnodes.proofs.Tops.{{{', '.join(['accepted'] + sorted({'top_' + snake(k) for act in acts for _, k in act.takes}))}}}\n"
        out += f"use Rattle.{BASE}.specs.Places.{{IsMadeBy}}\n"
        if records:
            out += f"use Rattle.{self.crate}.specs.{kind}.{{{', '.join(records)}}}\n"
        out += f"use Rattle.{BASE}.proofs.Opened.{{at_part, same_act}}\n"
        return out + "".join(self.act_proof(kind, act) for act in acts)

    def act_proof(self, kind, act):
        of, name, low = antt_type(self.type_of(kind)), camel(act.name), act.name.lower()
        parts = list(reversed(all_parts(act)))
        shape = " ∷ ".join([self.part(k, n) for n, k in parts] + ["behind"])
        names = [n for n, _, _ in kept(act)]
        given = "".join(f" (at_{n} : {'SeenToken' if k == 'Token' else 'ℕ'})" for n, k, _ in kept(act))
        facts = "".join(f" → {'IsTokenOf' if k == 'Token' else 'IsChild'} text nodes at {behind} at_{n}" for n, k, behind in kept(act))
        outer = {n: f"at_{n}" for n, k, _ in kept(act) if k == "Token"}
        end = f"Is{name} text nodes at {' '.join('at_' + n for n in names)} whole" if inner(act) else f"whole ≡ {self.term(act, outer)}"
        makes = f"{made(act)} text" if "text" in act.antt.split() else made(act)
        said = f"{self.part(kind, 'whole')} ∷ rest ≡ " + (f"{makes} parts" if self.is_base(kind) else f"{self.part(kind, f'({makes} parts)')} ∷ drop {len(parts)} parts")
        ats, iss = "".join(f" at_{n}" for n in names), "".join(f" known_{n}" for n in names)
        typed = "".join(f" ({n} : {antt_type(self.type_of(k))})" for n, k in parts)
        out = f"\n{low}_end : (text : List ℕ) (nodes : List Node) (at : ℕ){given}{facts}\n    → (whole : {of}) (parts rest : Parts){typed} (behind : Parts) → built text (take at nodes) ≡ Some parts → parts ≡ {shape}\n    → {said} → {end}\n"
        out += f"{low}_end text nodes at{ats}{iss} whole parts rest{''.join(' ' + n for n, _ in parts)} behind before shape q =\n"
        if self.is_base(kind):
            out += f"    let there : {self.part(kind, 'whole')} ∷ rest ≡ {self.part(kind, self.term(act, {}))} ∷ behind = q ∙ ap (λ (ps : Parts). {makes} ps) shape in\n"
            out += f"    let made : whole ≡ {self.term(act, {})} = cc in\n"
            last = "made" + self.same_tokens(kind, act)
        else:
            out += f"    let made : whole ≡ {makes} parts = cc in\n"
            last = f"made ∙ ap (λ (ps : Parts). {makes} ps) shape" + self.same_tokens(kind, act)
        if inner(act):
            out += "    record {\n" + "".join(f"      of_{n} = {n};\n" for n, _ in inner(act))
            for n, k, behind in kept(act):
                if k != "Token":
                    out += f"      at_{n} = at_part text nodes at {behind} at_{n} parts ({self.rest(act, behind)}) ({self.part(k, n)}) known_{n} before (ap (λ (ps : Parts). drop {behind} ps) shape);\n"
            out += f"      made = {last};\n    }}\n"
        else:
            out += f"    {last}\n"
        out += f"\npub {low}_is : (text : List ℕ) (nodes : List Node) (at : ℕ){given} → IsMadeBy nodes at act.ACT_{act.name}{facts}\n    → (whole : {of}) → IsPartAt text nodes at ({self.part(kind, 'whole')}) → {end}\n"
        out += f"{low}_is text nodes at{ats} by{iss} whole is =\n"
        out += f"    let o = opened text nodes at (Made by.raw by.from) ({self.part(kind, 'whole')}) by.node is in\n"
        out += f"    let a = accepted text act.ACT_{act.name} o.parts ({self.part(kind, 'whole')} ∷ o.rest) (same_act text by.raw act.ACT_{act.name} o.parts by.number ∙ o.done) in\n"
        tests = " ∷ ".join([test_of(k) for _, k in parts] + ["[]"])
        out += f"    go o.parts o.rest o.before a.0 a.1\n  where\n    go : (parts rest : Parts) → built text (take at nodes) ≡ Some parts → has_tops ({tests}) parts ≡ true → {said} → {end}\n"
        out += "    go parts rest before h q =\n"
        shown = "refl"
        for at in reversed(range(len(parts))):
            shown = f"e{at}" if at == len(parts) - 1 else f"(e{at} ∙ ap (λ (ps : Parts). {self.part(parts[at][1], f'x{at}')} ∷ ps) {shown})"
        for at, (n, k) in enumerate(parts):
            left = " ∷ ".join([test_of(kk) for _, kk in parts[at + 1 :]] + ["[]"])
            out += f"        top_{snake(k)} ({left}) {'parts' if at == 0 else f'r{at - 1}'} {'h' if at == 0 else f'h{at - 1}'} (λ x{at} r{at} e{at} h{at}.\n"
        behind = f"r{len(parts) - 1}" if parts else "parts"
        out += f"        {low}_end text nodes at{ats}{iss} whole parts rest{''.join(f' x{at}' for at in range(len(parts)))} {behind} before {shown} q{')' * len(parts)}\n"
        return out

    def rest(self, act, behind):
        """The parts before one, the last one first."""
        before = list(reversed(all_parts(act)))[behind + 1 :]
        return " ∷ ".join([self.part(k, n) for n, k in before] + ["behind"])

    def same_tokens(self, kind, act):
        """The steps from the tokens of the parts to those that were read."""
        out, done = "", {}
        for n, k, behind in kept(act):
            if k == "Token":
                term = self.term(act, {**done, n: "x"})
                out += f"\n      ∙ ap (λ (x : SeenToken). {self.typed(kind, term)}) (sym (known_{n}.same parts ({self.rest(act, behind)}) {n} before (ap (λ (ps : Parts). drop {behind} ps) shape)))"
                done[n] = f"at_{n}"
        return out

    def answers(self, kind, act):
        low = act.name.lower()
        out = f"use Rattle.{self.crate}.proofs.{kind}Acts.{{{low}_is}}\nuse Rattle.{self.crate}.proofs.generated.{snake(kind)}_node.{low}_made.Goals as goal\n\n"
        calls = [(n, f"c.{'token_of' if k == 'Token' else 'place_of'}-{n}") for n, k, _ in kept(act)]
        here = "_" if not calls else ""
        given = "".join(f" {call}.result" for _, call in calls)
        facts = "".join(f" {call}.ensures" for _, call in calls)
        return out + f"pub returns : goal.returns\nreturns c = λ whole is. {low}_is c.args.{here}text.now c.args.{here}nodes.now c.args.{here}at{given} c.requires.made{facts} whole is\n"

    def top_answers(self, kind):
        stem = snake(kind) + "_node"
        part = self.part(kind, "c.requires.some.whole")
        long = self.is_long(kind)
        out = "use Rattle.std.proofs.Common.{refl, arith, [], ◌∷◌, inl, inr}\n" + self.variants([kind], False)
        out += f"use Rattle.{self.crate}.proofs.Halves.{{either, bounded}}\n" if long else ""
        out += "" if self.is_base(kind) else f"use Rattle.gv_scriptsyntax.specs.ScriptActs.{{{test_of(kind)}}}\n"
        out += f"use Rattle.{BASE}.proofs.Opened.{{some_made}}\nuse Rattle.{BASE}.proofs.MadeKinds.{{{'term_there' if self.is_base(kind) else 'made_there'}}}\nuse Rattle.{self.crate}.proofs.generated.{stem}.{stem}.Goals as goal\n"
        call = "act_of-act" if long else "act_of"
        out += f"\npub {call}-requires : goal.{call}-requires\n{call}-requires c = some_made c.args.text.now c.args.nodes.now c.args.at ({part}) c.requires.some.within c.requires.some.part refl\n"
        if long:
            return out + self.long_answers(kind, part)
        out += "\npub unreachable-requires : goal.unreachable-requires\nunreachable-requires c =\n"
        if self.is_base(kind):
            out += "    let e = term_there c.args.text.now c.args.nodes.now c.args.at c.act_of.result c.requires.some.whole c.act_of.ensures.made c.requires.some.part in\n"
            return out + "    let l = c.act_of.ensures.behind_marks in\n    grind (arith, e, l)\n"
        out += f"    let among = made_there {test_of(kind)} c.args.text.now c.args.nodes.now c.args.at c.act_of.result ({part}) c.act_of.ensures.made c.requires.some.part refl refl in\n"
        return out + "    let e = among.one_of in\n    grind (arith, e)\n"

    def long_answers(self, kind, part):
        numbers, out = self.numbers(kind), ""
        half = len(numbers) // 2
        some = numbers[:half], numbers[half:]
        lists = [f"({' ∷ '.join(map(str, here))} ∷ [])" for here in some]
        inside = ["(omega arith, omega arith, " * len(here) + "tt" + ")" * len(here) for here in some]
        for word, at in (("earlier", 1), ("later", 0)):
            name = f"{word}_{snake(kind)}_node-requires-clause-among"
            bounds = f"bounded c.act_of-act.result {some[at][0]} {some[at][-1] + 1} {lists[at]} {inside[at]}"
            never = "let l = k.0 in let m = k.1 in let never : ⊥ = grind (arith, l, m) in absurd never"
            ends = f"inl a ↦ a | inr b ↦ let k = {bounds} b in {never}" if at else f"inl a ↦ let k = {bounds} a in {never} | inr b ↦ b"
            out += f"\npub {name} : goal.{name}\n{name} c =\n"
            out += f"    let among = made_there {test_of(kind)} c.args.text.now c.args.nodes.now c.args.at c.act_of-act.result ({part}) c.act_of-act.ensures.made c.requires.some.part refl refl in\n"
            out += f"    elim (either c.act_of-act.result {lists[0]} {lists[1]} among.one_of) [ {ends} ]\n"
        return out


def main(words):
    folder = None
    if "--to" in words[:-1]:
        at = words.index("--to")
        folder, words = words[at + 1], words[:at] + words[at + 2 :]
    if len(words) < 3:
        print(__doc__, file=sys.stderr)
        return 2
    try:
        grammar = read_grammar(words[0])
    except GrammarError as error:
        print("\n".join(error.lines), file=sys.stderr)
        return 1
    folder = folder or os.path.join(os.path.dirname(os.path.dirname(words[0])), words[1])
    files = ScriptViews(grammar, words[1], words[2:]).files()
    for name, text in files.items():
        target = os.path.join(folder, name)
        os.makedirs(os.path.dirname(target), exist_ok=True)
        with open(target, "w", encoding="utf-8") as file:
            file.write(text)
    print(f"{words[1]}: {len(files)} files")
    return 0


if __name__ == "__main__":
    sys.exit(main(sys.argv[1:]))
