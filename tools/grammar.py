#!/usr/bin/env python3
"""Writes what a grammar file says as tables, acts and the skeletons of proofs.

    tools/grammar.py FILE              writes the generated files into the folder of FILE
    tools/grammar.py FILE --to FOLDER  writes them into FOLDER
    tools/grammar.py FILE --laws       prints the skeletons of the two laws

docs/grammar.md tells what a grammar file holds. Nothing rests on this program: the check computes from the tables alone
whether they are predictive, and every generated function is proved.
"""

import os
import sys

import emit
import laws
import predict
from grammar_file import GrammarError, read_grammar


def main(words):
    if not words or words[0].startswith("-"):
        print(__doc__, file=sys.stderr)
        return 2
    path, rest = words[0], words[1:]
    try:
        grammar = read_grammar(path)
        solved = predict.solve(grammar)
    except GrammarError as error:
        for line in error.lines:
            print(f"{path}: {line}", file=sys.stderr)
        return 1
    if rest == ["--laws"]:
        print(laws.skeletons(grammar), end="")
        return 0
    folder = rest[1] if len(rest) == 2 and rest[0] == "--to" else os.path.dirname(path) or "."
    for name, text in emit.files(grammar, solved).items():
        target = os.path.join(folder, name)
        os.makedirs(os.path.dirname(target), exist_ok=True)
        with open(target, "w", encoding="utf-8") as file:
            file.write(text)
    print(
        f"{grammar.language}: {len(grammar.names)} names, {len(grammar.rules)} rules, "
        f"{len(grammar.classes)} classes, {len(grammar.acts)} acts"
    )
    return 0


if __name__ == "__main__":
    sys.exit(main(sys.argv[1:]))
