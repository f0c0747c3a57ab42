#!/usr/bin/env python3
"""Says which forms of the language no example of the manual shows: forms.py MANUAL

The grammar is the manual's own, the block that begins with `script ::=`, and so are the reserved words. The examples are the
blocks ```sql, as documents.py runs them; a statement that is refused, the last of an example with another status than 0, shows
nothing. A form is a way that a rule leaves open: a choice between bars, a part in brackets that is there, a part in braces that
stands once or more. The status is 1 where one isn't shown.
"""
import pathlib
import re
import sys

sys.path.insert(0, str(pathlib.Path(__file__).resolve().parent.parent / "tools"))

import scripts  # noqa: E402

PART = re.compile(r"'(?P<mark>[^']+)'|(?P<name>[A-Za-z]+)|(?P<sign>[][{}()|])|\s+")
BLOCK = re.compile(r"^```(.*)\n((?:.*\n)*?)```$", re.M)
SPELLED = {"subquery": "query"}


class Rule:
    """A rule's body: a list of choices, each a list of parts; `kind` is its bracket."""

    def __init__(self, kind):
        self.kind, self.choices = kind, [[]]


def grammar(text):
    """The rules by name."""
    rules = {}
    for found in re.finditer(r"^(\w+) +::= +((?:.*\n)(?: +.*\n)*)", text, re.M):
        name, body = found[1], found[2]
        rules[name] = parsed("query" if name in SPELLED else body)
    return rules


def parsed(body):
    open_, closing = [Rule("(")], {"]": "[", "}": "{", ")": "("}
    for part in PART.finditer(body):
        if part["mark"]:
            open_[-1].choices[-1].append(("mark", part["mark"]))
        elif part["name"]:
            word = part["name"]
            open_[-1].choices[-1].append(("word", word.lower()) if word.isupper() else ("rule", word))
        elif part["sign"] == "|":
            open_[-1].choices.append([])
        elif part["sign"] in ("[", "{", "("):
            open_.append(Rule(part["sign"]))
        elif part["sign"]:
            rule = open_.pop()
            assert rule.kind == closing[part["sign"]], body
            open_[-1].choices[-1].append(("inside", rule))
    assert len(open_) == 1, body
    return open_[0]


class Reader:
    """All readings of tokens by the rules: from a place, each end that a rule may have, with the forms that lead there."""

    def __init__(self, rules, reserved, tokens):
        self.rules, self.reserved, self.tokens, self.known = rules, reserved, tokens, {}

    def ends(self, rule, at):
        key = (id(rule), at)
        if key not in self.known:
            self.known[key] = {}
            found = {}
            for number, choice in enumerate(rule.choices):
                for end, forms in self.sequence(choice, at).items():
                    found.setdefault(end, (forms, (id(rule), number)))
            if rule.kind == "{":
                for end in sorted(found):
                    if end > at:
                        for last, forms in self.ends(rule, end).items():
                            found.setdefault(last, (found[end], forms))
            if rule.kind in "[{":
                found.setdefault(at, ())
            self.known[key] = found
        return self.known[key]

    def sequence(self, parts, at):
        ends = {at: ()}
        for part in parts:
            behind = {}
            for place, forms in ends.items():
                for end, more in self.part(part, place).items():
                    behind.setdefault(end, (forms, more))
            ends = behind
        return ends

    def part(self, part, at):
        kind, value = part
        if kind == "inside":
            return self.ends(value, at)
        if kind == "rule" and value in self.rules:
            return self.ends(self.rules[value], at)
        token = self.tokens[at] if at < len(self.tokens) else None
        if token is None:
            return {}
        if kind == "rule":
            fits = token.kind == value or value == "name" and token.kind == "word" and token.value.decode() not in self.reserved
        else:
            fits = token.kind == kind and (b"<>" if token.is_mark(b"!=") else token.value).decode() == value
        return {at + 1: ()} if fits else {}


def flat(forms, found):
    """The pairs of a rule and a choice in nested tuples of them."""
    left = [forms]
    while left:
        it = left.pop()
        if len(it) == 2 and isinstance(it[0], int):
            found.add(it)
        else:
            left.extend(it)


def spelled(choice):
    words = []
    for kind, value in choice:
        if kind == "inside":
            inside = " | ".join(spelled(it) for it in value.choices)
            words.append(f"{value.kind}{inside}{ {'[': ']', '{': '}', '(': ')'}[value.kind]}")
        else:
            words.append(value.upper() if kind == "word" else value)
    return " ".join(words)


def forms_of(name, rule, found, around=""):
    """The forms that a rule leaves open, by what they are called: the rule, the form, and the choice that it is a part of."""
    if len(rule.choices) > 1 or around and rule.kind in "[{":
        for number, choice in enumerate(rule.choices):
            found[f"{name}: {spelled(choice)}{around}"] = (id(rule), number)
    for choice in rule.choices:
        for kind, value in choice:
            if kind == "inside":
                forms_of(name, value, found, f" (in {spelled(choice)})")


def shown(manual, rules, reserved):
    """The forms that the examples of the manual show, and how many examples these are."""
    found, count = set(), 0
    blocks = list(BLOCK.finditer(manual))
    for block, behind in zip(blocks, blocks[1:]):
        if block[1] != "sql":
            continue
        refused = re.search(r"status ([1-9])", manual[block.end():behind.start()])
        if refused and refused[1] == "3":
            continue
        statements = scripts.statements(block[2].encode())
        for statement in statements[:-1] if refused else statements:
            readings = Reader(rules, reserved, statement.tokens).ends(rules["statement"], 0)
            if len(statement.tokens) not in readings:
                sys.exit(f"forms: no reading of {block[2][statement.start:statement.end]}")
            flat((readings[len(statement.tokens)],), found)
        count += 1
    return found, count


def main():
    manual = pathlib.Path(sys.argv[1]).read_text()
    rules = grammar(next(it[2] for it in BLOCK.finditer(manual) if it[2].startswith("script ")))
    reserved = set(re.findall(r"`(\w+)`", re.search(r"^The reserved words are:((?:.*\n)+?.*\.)", manual, re.M)[1]))
    forms = {}
    for name in rules:
        if name != "script":
            forms_of(name, rules[name], forms)
    found, count = shown(manual, rules, reserved)
    missing = {form for form, place in forms.items() if place not in found}
    for form in sorted(missing):
        print(f"{sys.argv[1]}: no example shows {form}", file=sys.stderr)
    print(f"check: {sys.argv[1]}: {len(forms) - len(missing)} of {len(forms)} forms of the grammar are shown by {count} examples", file=sys.stderr)
    return bool(missing)


if __name__ == "__main__":
    sys.exit(main())
