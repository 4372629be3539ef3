"""Prints the skeletons of the two laws of a language."""

from emit import act_constant, class_constant, name_constant, rule_constant, set_constant


def skeletons(grammar):
    """Of a grammar's own rules; a fragment's laws are those of any tables that contain it, by `c`."""
    out = "-- Law 1: the chain of each rule's symbols up to its first name, whose own law goes on from there.\n"
    for rule in grammar.own("rules"):
        out += f"-- {rule.text()}\n{chain(grammar, rule)}\n"
    out += "\n-- Law 2: what each name means, in order.\nmeanings =\n"
    for at, name in enumerate(grammar.own("names")):
        out += f"    {'∷ ' if at else ''}?  -- {name}\n"
    out += "    ∷ []\n"
    for rule in grammar.own("rules"):
        lemma = f"{snake(rule.name)}_{snake(rule.label)}"
        out += f"\n-- {rule.text()}\n{lemma} : Keeps {rule_constant(rule)} {name_constant(rule.name)}\n"
        out += f"{lemma} _ {pattern(grammar, rule)} n = ?\n"
    lemmas = [f"{snake(rule.name)}_{snake(rule.label)}" for rule in grammar.own("rules")]
    rules = "tt"
    for lemma in reversed(lemmas):
        rules = f"({lemma}, {rules})"
    return out + f"\n{kept(grammar)}\nall_rules = {rules}\n"


def kept(grammar):
    """What the rules keep, all together."""
    tables = f"{grammar.language}_tables"
    if grammar.fragment:
        return f"all_rules : RowsMean g Token class_of M {grammar.language}_rules"
    if not grammar.base:
        return f"all_rules : RulesMean {tables} Token class_of M {tables}.names 0"
    rules = f"(length {grammar.base.language}_rules)"
    return f"all_rules : RulesMean {tables} Token class_of M (drop {rules} {tables}.names) {rules}"


def snake(word):
    return "".join("_" + c.lower() if c.isupper() and at else c.lower() for at, c in enumerate(word))


def token_step(word, grammar, opens):
    members = grammar.sets[word]
    alone = len(members) == 1 and word not in grammar.open_sets
    if grammar.fragment:
        return f"{opens}_of c {set_constant(word)} refl {f'(sole {class_constant(members[0])} i)' if alone else 'i'}"
    return f"{opens} {set_constant(word)} {class_constant(members[0])} i refl" if alone else f"{opens}_in {set_constant(word)} i"


def chain(grammar, rule):
    """How law 1 goes through a rule: `op` for a token that opens, `sv` and `rs` for marks, `ac` for acts."""
    of = "_of c" if grammar.fragment else ""
    out = [f"ru{of} {rule_constant(rule)} refl"]
    words = list(rule.words)
    while words:
        word = words.pop(0)
        if word == "{OPEN}" and words and not words[0].startswith("{"):
            out.append(token_step(words.pop(0), grammar, "op"))
        elif word == "{OPEN_BEFORE}" and words:
            out[0] = f"late_rule {rule_constant(rule)} refl"
            out.append(token_step(words.pop(0), grammar, "late_mark"))
        elif word in ("{SAVE}", "{RESTORE}"):
            out.append("sv" if word == "{SAVE}" else "rs")
        elif word.startswith("{"):
            out.append(f"ac{of} {act_constant(word[1:-1])} refl")
        elif word in grammar.names:
            out.append(f"{snake(word)}_reads d ?")
            break
        else:
            out.append(token_step(word, grammar, "tk"))
    else:
        out[-1] += " k"
    return " (".join(out) + ")" * (len(out) - 1)


def pattern(grammar, rule):
    """What law 2 matches for a rule: what stands for each of its symbols."""
    out = "none"
    for word in reversed(rule.words):
        if word.startswith("{"):
            out = f"(acted {out})"
        elif word in grammar.names:
            out = f"(means {{ts = ts}} d {out})"
        else:
            out = f"(taken t i {out})"
    return out
