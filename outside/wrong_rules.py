#!/usr/bin/env python3
"""Puts one wrong rule at a time into the reference and counts the differences that then show: wrong_rules.py [--seed N]
[--queries N] [WORD ..], where the words pick the rules whose names have one of them. A wrong rule without a difference is one
that these queries don't tell from the right one."""

import os
import pathlib
import re
import shutil
import subprocess
import sys
import tempfile
from dataclasses import dataclass

from compare import PROGRAM, asked_for

HERE = os.path.dirname(os.path.realpath(__file__))


@dataclass
class WrongRule:
    """A wrong rule: its name, the module of the reference that it goes into, and the text there whose place another takes. `also`
    has more of the three, where one place isn't enough."""

    name: str
    module: str
    right: str
    wrong: str
    also: tuple = ()


DECISIVE = "            if decisive in truths.values():\n"
SUBLINK_LISTS = "        lists = self.lists(sublink.query, inner_outer)\n"
MEMBERS = "== row[:len(node.groups)]"
OPERANDS = "        values = self.values(parts)\n"
BESIDE = "            beside = [Scope(items[:])] + outer if word in LATERAL else outer\n"
OWN_PLACES = "    return places + [place for sublink in sublinks_of(node) for place in shape(sublink.query)]\n"
FILTERED = "        return {row: self.with_sublinks(node, row, outer, lists[row]) for row in bag}\n"


def decisive(kind, truth, instead):
    """A sublink of this kind is decided by other rows where its comparisons are never so."""
    return (f"            if sublink.kind == '{kind}' and {truth} not in truths.values():\n"
            f"                decisive = {instead}\n{DECISIVE}")


def member(condition):
    """A row of a group contributes only on this condition for each aggregate."""
    return MEMBERS + (" and all(" + condition + " for (function, argument), value in"
                      " zip(node.aggregates, row[len(node.groups):]))")


def stops(name, truth):
    """An operator that looks no further where its first operand is so."""
    return (f"        if name == '{name}' and self.value(parts[0]) is {truth}:\n"
            f"            return self.value(parts[0])\n{OPERANDS}")


def beside(items):
    """A lateral query sees these items too. Their columns aren't in the row that it gets: it reads one of the same kind there."""
    return ("            places = {kind: place for _, columns in items for _, kind, place in columns}\n"
            "            unseen = [(each, [(column, kind, places[kind]) for column, kind, *_ in columns if kind in places])\n"
            f"                      for each, columns in {items}]\n"
            "            beside = [Scope(items + unseen)] + outer if word in LATERAL else outer\n")


RULES = [
    WrongRule("ANY that is true adds all rows", "witnesses", "if decisive in", "if sublink.kind == 'all' and decisive in"),
    WrongRule("ALL that is false adds all rows", "witnesses", "if decisive in", "if sublink.kind == 'any' and decisive in"),
    WrongRule("ANY that is unknown adds the unknown rows alone", "witnesses", DECISIVE, decisive("any", True, None)),
    WrongRule("ALL that is unknown adds the unknown rows alone", "witnesses", DECISIVE, decisive("all", False, None)),
    WrongRule("ANY that isn't true adds the false rows alone", "witnesses", DECISIVE, decisive("any", True, False)),
    WrongRule("EXISTS adds one row", "witnesses", SUBLINK_LISTS,
              "        chosen = chosen[:1] if sublink.kind == 'exists' else chosen\n" + SUBLINK_LISTS),
    WrongRule("EXCEPT adds the same row of its right side too", "witnesses", " if other != row", ""),
    WrongRule("EXCEPT adds no row of its right side", "witnesses", "others or {empty(node.right)}", "{empty(node.right)}"),
    WrongRule("UNION adds right lists only where there are no left ones", "witnesses", "| self.beside(", "or self.beside("),
    WrongRule("INTERSECT adds no row of its right side", "witnesses", "self.beside(left[row], right[row])",
              "self.beside(left[row], {empty(node.right)})"),
    WrongRule("DISTINCT keeps the lists of one row alone", "witnesses", "return {row: lists[row] for",
              "return {row: {min(lists[row], key=str)} for"),
    WrongRule("MAX adds the rows that have it alone", "witnesses", MEMBERS,
              member("function != 'max' or Row(each, outer).value(argument) == value")),
    WrongRule("COUNT adds no row in which its argument is NULL", "witnesses", MEMBERS,
              member("function != 'count' or Row(each, outer).value(argument) is not None")),
    WrongRule("EXCEPT ALL takes all copies away", "meaning", "max(here - there, 0)", "0 if there else here"),
    WrongRule("INTERSECT ALL takes the greater number", "meaning", "min(here, there)", "here and there and max(here, there)"),
    WrongRule("a condition that is unknown keeps the row", "meaning", "told if truth is True]\n\n    def made",
              "told if truth is not False]\n\n    def made"),
    WrongRule("ANY takes unknown for false", "meaning", "return disjunction(truths) if", "return True in truths if"),
    WrongRule("ALL takes unknown for false", "meaning", "else conjunction(truths)", "else set(truths) <= {True}"),
    WrongRule("LIMIT takes no notice of ORDER BY", "meaning", ".elements(), node.keys)", ".elements(), [])"),
    WrongRule("a join's condition is looked at over an empty side", "meaning", "self.on_each(pairs, lambda",
              "self.on_each(pairs or [(row, (None,) * node.right.width) for row in left], lambda"),
    WrongRule("/ rounds down", "values", "quotient = -quotient", "quotient = left // right"),
    WrongRule("AND looks no further behind what is false", "values", OPERANDS, stops("and", False)),
    WrongRule("COALESCE looks no further behind what isn't NULL", "values", OPERANDS, stops("coalesce", "not None")),
    WrongRule("a step of a chain is looked at beside an operand's fault", "values", "        result, *others",
              "        calculated(steps[0][0], self.value(first), self.value(steps[0][1]))\n        result, *others"),
    WrongRule("NULL comes first", "values", "return 3, 0", "return -1, 0"),
    WrongRule("the second place of a relation has the number 2", "names", 'f"{number}_" if', 'f"{number + 1}_" if'),
    WrongRule("LATERAL sees the tables behind it", "names", BESIDE, beside(
        "[(each.alias or each.of, catalog.tables[each.of]) for _, each, _ in joins[joins.index((word, source, written)) + 1:]"
        " if isinstance(each.of, str) and each.of in catalog.tables]")),
    WrongRule("LATERAL sees what stands before a comma", "names", BESIDE, beside("seen")),
    WrongRule("LATERAL may ask for its provenance", "names", "beside, word not in LATERAL)", "beside)"),
    WrongRule("a sublink in LATERAL and LATERAL are one level", "names", BESIDE, BESIDE.replace("items[:]", "items[:], None, True"), (
        ("names", "    groups: dict = None\n", "    groups: dict = None\n    beside: bool = False\n"),
        ("names", "return level, place, kind", "return level - (scope.beside and level > 1 and not scopes[level - 1].beside), place, kind"),
        # Where the row is too short, it reads NULL.
        ("values", "self.rows[level][place]", "(*self.rows[level], *[None] * 1000)[place]"))),
    WrongRule("LEFT JOIN LATERAL keeps no row without a partner", "meaning", 'if not rights and node.kind == "LEFT"', "if False"),
    WrongRule("a row beside LATERAL counts once", "meaning", "left[row] * times", "times"),
    WrongRule("LATERAL adds all rows of its query", "witnesses", "self.lists(node.right, (row,) + outer)[other]",
              "set().union(*self.lists(node.right, (row,) + outer).values())"),
    WrongRule("the places of ON's sublinks stand behind those of WHERE", "tree", OWN_PLACES,
              "    cut = len(places) - sum(len(shape(query)) for query in queries_in(getattr(node, 'input', None))) * on_below(node)\n"
              f"    {OWN_PLACES.strip().replace('places +', 'places[:cut] +', 1)} + places[cut:]\n\n\n"
              "def on_below(node):\n"
              "    return getattr(node, 'clause', None) == 'WHERE' and isinstance(node.input, Join)\n",
              (("witnesses", "from .tree import shape", "from .tree import on_below, queries_in, shape"),
               ("witnesses", FILTERED, FILTERED.replace("return", "kept =") +
                "        own = sum(len(shape(query)) for query in queries_in(node))\n"
                "        moved = sum(len(shape(query)) for query in queries_in(node.input)) * on_below(node)\n"
                "        cut = len(shape(node)) - own - moved\n"
                "        return {row: {it[:cut] + it[cut + moved:] + it[cut:cut + moved] for it in kept[row]} for row in kept}\n"))),
]


def differences(rule, seed, queries):
    """How many differences show with a wrong rule, or what went wrong else."""
    with tempfile.TemporaryDirectory() as held:
        copy = shutil.copytree(HERE, os.path.join(held, "outside"))
        for module, right, wrong in ((rule.module, rule.right, rule.wrong), *rule.also):
            path = pathlib.Path(copy, "reference", module + ".py")
            text = path.read_text(encoding="utf-8")
            if right not in text:
                return "the right rule isn't found"
            path.write_text(text.replace(right, wrong), encoding="utf-8")
        words = [sys.executable, "compare.py", "--seed", str(seed), "--queries", str(queries)]
        ended = subprocess.run(words, cwd=copy, env={**os.environ, "PERM": os.path.realpath(PROGRAM)}, capture_output=True)
    told = re.search(r"queries, (\d+) differences\n$", ended.stdout.decode())
    return told.group(1) if told else "no answer: " + ended.stderr.decode()[-200:]


def main():
    asked = asked_for(__doc__, ["words"])
    for rule in RULES:
        if not asked.words or any(word in rule.name for word in asked.words):
            print(f"{rule.name:62}{differences(rule, asked.seed, asked.queries):>6}", flush=True)


if __name__ == "__main__":
    main()
