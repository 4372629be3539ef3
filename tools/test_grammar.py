#!/usr/bin/env python3
"""Tests of the reports on grammars: each bad one is refused in words that name its rule."""

import os
import sys
import tempfile
import unittest

sys.path.insert(0, os.path.dirname(os.path.abspath(__file__)))

import predict
from emit_nodes import antt_type, parts_source, parts_spec
from grammar_file import GrammarError, read_grammar

HEAD = """language tiny
crate tiny
token Token
roots Top:Tree

classes
    Id Plus Open Close

kinds
    Tree = Tree

acts
    LEAF _:Token -> Tree
        antt Leaf
        rust Tree::Leaf

rules
"""


def reports(rules):
    """What is said of a grammar with these rules; nothing where it is predictive."""
    with tempfile.NamedTemporaryFile("w", suffix=".grammar", delete=False) as file:
        file.write(HEAD + rules)
    try:
        predict.solve(read_grammar(file.name))
        return []
    except GrammarError as error:
        return error.lines
    finally:
        os.unlink(file.name)


class Reports(unittest.TestCase):
    CASES = [
        ("    Top\n        leaf = Id {LEAF}\n", None),
        ("    Top\n        one = Id {LEAF}\n        two = Id Plus\n", "conflict before Id: Top/one = Id {LEAF} | Top/two = Id Plus"),
        ("    Top\n        leaf = Id {LEAF} Tail Id\n    Tail\n        more = Id Tail\n        end =\n", "conflict before Id: Tail/more = Id Tail | Tail/end ="),
        ("    Top\n        more = Top Plus\n        leaf = Id {LEAF}\n", "left recursion: Top comes back to its own front by Top/more = Top Plus"),
        (
            "    Top\n        leaf = Empty Side\n    Empty\n        none =\n    Side\n        back = Empty Top\n        leaf = Id {LEAF}\n",
            "left recursion: Top comes back to its own front by Top/leaf = Empty Side, Side/back = Empty Top",
        ),
        (
            "    Top\n        leaf = Id {LEAF}\n        loop = Open Loop\n    Loop\n        again = Plus Loop\n",
            "Loop derives nothing: each of its rules comes back to a name that never ends",
        ),
        ("    Top\n        leaf = Id {LEAF} Word\n", "Top/leaf: Word is no name, set or class"),
        ("    Top\n        leaf = Id {TREE}\n", "Top/leaf: {TREE} is no act"),
        ("    Top\n        leaf = Id {OPEN_BEFORE} {LEAF}\n", "Top/leaf: {OPEN_BEFORE} stands only at the front of a row, before a token"),
        ("    Top\n        leaf = Id {LEAF}\n    Lost\n        one = Plus\n", "the name Lost stands in no rule"),
    ]

    def test_reports(self):
        for rules, wanted in self.CASES:
            with self.subTest(rules=rules):
                said = reports(rules)
                if wanted is None:
                    self.assertEqual(said, [])
                else:
                    self.assertIn(wanted, said)


FRAGMENT = """language part
crate part
token Token
roots Item:Tree
fragment yes

classes
    Id Plus

sets
    Word = Id ...
    Sign = Plus

kinds
    Tree = Tree

acts
    LEAF _:Token -> Tree
        antt Leaf
        rust Tree::Leaf
    SIGN _:Token -> Tree
        antt Leaf
        rust Tree::Leaf

rules
    Item
        word = Word {LEAF}
        sign = Sign {SIGN}
"""

WHOLE = """language whole
crate whole
token Token
include part.grammar
roots Top:Tree Item:Tree

classes
    Key Close

sets
    SETS

rules
    Top
        item = Key Item Close
"""


def including(sets, fragment=FRAGMENT):
    """The grammar that includes the fragment, or what is said of it."""
    with tempfile.TemporaryDirectory() as folder:
        for name, text in (("part.grammar", fragment), ("whole.grammar", WHOLE.replace("SETS", sets))):
            with open(os.path.join(folder, name), "w", encoding="utf-8") as file:
                file.write(text)
        try:
            grammar = read_grammar(os.path.join(folder, "whole.grammar"))
            return grammar, predict.solve(grammar)
        except GrammarError as error:
            return error.lines, None


class Including(unittest.TestCase):
    def test_fragment_stands_first(self):
        grammar, solved = including("Word += Key")
        self.assertEqual(grammar.classes, ["Id", "Plus", "Key", "Close"])
        self.assertEqual(grammar.sets["Word"], ["Id", "Key"])
        self.assertEqual(grammar.names, ["Item", "Top"])
        self.assertEqual(grammar.act_names()[4:], ["LEAF", "SIGN"])
        self.assertEqual(grammar.own("classes"), ["Key", "Close"])
        # the end stands behind each root, and `Close` behind an item as well
        self.assertEqual(solved.follow, [{0, 4}, {0}])

    def test_only_open_sets_are_enlarged(self):
        self.assertEqual(including("Sign += Key")[0], ["line 11: no included grammar lets Sign be enlarged"])

    def test_only_fragments_are_included(self):
        said = including("Word += Key", FRAGMENT.replace("fragment yes\n", ""))[0]
        self.assertEqual(said, ["include part.grammar: part is no fragment"])


class Nodes(unittest.TestCase):
    NODES = HEAD.replace("roots Top:Tree", "roots Top:Tree\ncode nodes").replace("        rust Tree::Leaf\n", "").replace("antt Leaf", "antt leaf token")
    NODES = NODES.replace("LEAF _:Token", "LEAF token:Token")

    def of(self, kind):
        with tempfile.NamedTemporaryFile("w", suffix=".grammar", delete=False) as file:
            file.write(self.NODES.replace("Tree = Tree", kind) + "    Top\n        leaf = Id {LEAF}\n")
        try:
            return read_grammar(file.name)
        except GrammarError as error:
            return error.lines
        finally:
            os.unlink(file.name)

    def test_a_kind_wants_a_value(self):
        self.assertEqual(self.of("Tree = Tree"), ["the kind Tree wants a value, as `Tree = Tree | value`"])
        self.assertEqual(self.of("Tree = List<Leaf>").others["Tree"], "[]")

    def test_an_act_makes_one_part(self):
        grammar = self.of("Tree = Tree | nothing")
        self.assertIn("made_leaf (PToken token ∷ parts) = leaf token\nmade_leaf parts = nothing\n", parts_spec(grammar))
        self.assertIn("record { takes = is_token ∷ []; makes = λ parts. PTree (made_leaf parts) }", parts_spec(grammar))
        self.assertIn("pub static TAKEN: [u8; 5] = [0, 0, 0, 0, 1];", parts_source(grammar))

    def test_acts_of_a_fragment_come_first(self):
        own = """language whole
crate whole
token Token
include part.grammar
roots Top:Pair
code nodes

classes
    Key

kinds
    Pair = Pair | nothing

acts
    PAIR key:Token tree:Tree -> Pair
        antt pair key tree

rules
    Top
        pair = Key Item {PAIR}
"""
        with tempfile.TemporaryDirectory() as folder:
            for name, text in (("part.grammar", FRAGMENT), ("whole.grammar", own)):
                with open(os.path.join(folder, name), "w", encoding="utf-8") as file:
                    file.write(text)
            grammar = read_grammar(os.path.join(folder, "whole.grammar"))
        self.assertIn("made_pair (PTree tree ∷ PToken key ∷ parts) = pair key tree\n", parts_spec(grammar))
        self.assertIn("makes = λ parts. POther (PPair (made_pair parts)) }", parts_spec(grammar))
        self.assertIn("whole_acts = part_acts ++ whole_own_acts\n", parts_spec(grammar))
        self.assertIn("pub static TAKEN: [u8; 7] = [0, 0, 0, 0, 1, 1, 2];", parts_source(grammar))

    def test_types_of_definitions(self):
        self.assertEqual(antt_type("List<List<Lexeme>>"), "List (List Lexeme)")
        self.assertEqual(antt_type("Option<Boxed<Expr>>"), "Option Expr")


if __name__ == "__main__":
    unittest.main()
