#!/usr/bin/env python3
"""Compares the program's answers to random queries with those of the reference: compare.py [--seed N] [--queries N]."""

import argparse
import os
import re
import subprocess
import sys
import tempfile
from collections import Counter
from dataclasses import dataclass, field

from queries import Queries
from reference import answer
from reference.meaning import TooMuch
from reference.names import Refused, asks_for_provenance
from reference.text import write_query
from reference.tree import Aggregate, Base, DependentJoin, Filter, Join, Project, Provenance, SetOperation, Table, children, \
    shape, sublinks_of

TOP = os.path.dirname(os.path.dirname(os.path.realpath(__file__)))
PROGRAM = os.environ.get("PERM") or os.path.join(TOP, "crates", "perm_cli", "out", "perm_cli")
# A run of the program may take so many seconds, a query so many places, places in sublinks, bytes and lines of its answer, which
# has a row for each combination of source rows.
SECONDS, PLACES, SUBLINK_PLACES, BYTES, LINES = 6, 14, 6, 6000, 1500
BATCH = 30
# How many queries with a lateral query are made to break a rule.
BROKEN = .25
# What the nodes don't tell any more, by the text of a query.
WRITTEN = {"order by": "ORDER BY", "view": r"\bv[0-9]\b", "query in from": r"(FROM|JOIN) \(+SELECT"}
# What is decided on unknown comparisons alone is rare, so sublinks come more often than the other styles.
ORDER = ["sublinks", "faults", "lateral", "sets", "sublinks", "lateral", "wide", "faults", "sublinks", "lateral", "views"]


@dataclass
class Case:
    """A query with what the reference says of it: the lines of its answer, or the codes of which it names one, and at which place
    of its text, if that is known."""

    text: str
    kinds: set
    is_traced: bool
    lines: list = None
    codes: set = None
    at: int = 0


@dataclass
class Totals:
    """What was compared, by kind of node, and what was different: triples of the script, what was expected and what was given."""

    compared: Counter = field(default_factory=Counter)
    left_out: Counter = field(default_factory=Counter)
    differences: list = field(default_factory=list)
    done: int = 0


def sublink_places(node, inside=False):
    """How many places of a query stand in sublinks, also behind marks."""
    own = int(inside and isinstance(node, Base))
    return own + sum(sublink_places(child, inside) for child in children(node)) + sum(
        sublink_places(sublink.query, True) for sublink in sublinks_of(node))


def highest_level(part):
    """The level of the furthest outer row that a settled expression reads."""
    if isinstance(part, tuple) and part[:1] == ("column",):
        return part[1]
    return max(map(highest_level, part), default=0) if isinstance(part, (tuple, list)) else 0


def reach(node):
    """How many rows further out than its own a query reads."""
    own = [getattr(node, part, None) for part in ("condition", "items", "aggregates")] + [
        sublink.tested for sublink in sublinks_of(node)]
    return max([highest_level(own)] + [reach(child) - is_lateral(node, child) for child in children(node)] + [
        reach(sublink.query) - 1 for sublink in sublinks_of(node)])


def is_lateral(node, child):
    """Whether the child sees the rows of the node's left one."""
    return isinstance(node, DependentJoin) and child is node.right


def joins_lateral(node):
    """Whether a lateral query is among the items that are joined here."""
    return isinstance(node, DependentJoin) or isinstance(node, Join) and any(map(joins_lateral, children(node)))


def kind_of(node):
    """The words for a node in the totals."""
    if isinstance(node, Join):
        return "join, " + node.kind.lower()
    if isinstance(node, DependentJoin):
        return "lateral join, " + node.kind.lower()
    if isinstance(node, SetOperation):
        return node.word.lower() + " all" * node.keeps_all
    if isinstance(node, Filter):
        return node.clause.lower()
    if isinstance(node, Aggregate):
        return "group by" if node.groups else "aggregates without group by"
    if not isinstance(node, Base):
        return type(node).__name__.lower()
    if node.label.relation is None:
        return "source, provenance columns of a query or view" if isinstance(node.input, Provenance) else "source, marked columns"
    return "source, table" if isinstance(node.input, Table) else "source, baserelation"


def kinds_in(node, depth=0, beside=False):
    """The kinds of node in a query, and of sublinks and lateral queries with where they stand and what they read. `depth` counts
    sublinks around, and `beside` tells whether a lateral query is."""
    kinds = {kind_of(node)} | {f"aggregate, {function}" for function, _ in getattr(node, "aggregates", [])}
    for child in children(node):
        kinds |= kinds_in(child, depth, beside or is_lateral(node, child))
    if isinstance(node, DependentJoin):
        kinds |= {"lateral query, closed" if reach(node.right) < 1 else "lateral query, correlated"}
        kinds |= {"lateral query in a sublink"} if depth else set()
        kinds |= {"lateral query in a lateral query"} if beside else set()
    if isinstance(node, Join) and node.sublinks and joins_lateral(node):
        kinds |= {"sublink in on beside a lateral query"}
    for sublink in sublinks_of(node):
        further = reach(sublink.query)
        clause = "items" if isinstance(node, Project) else "on" if isinstance(node, Join) else node.clause.lower()
        kinds |= {f"sublink, {sublink.kind}", "sublink in " + clause,
                  "sublink, closed" if further < 1 else "sublink, correlated"} | kinds_in(sublink.query, depth + 1, beside)
        kinds |= {"sublink in a sublink"} if depth else set()
        kinds |= {"sublink in a lateral query"} if beside else set()
        kinds |= {"sublink that reads two rows out"} if further > 1 else set()
    return kinds


def refused_case(made, query, at):
    """A query that breaks a rule, with the rule's code and its place in the text, or None where it breaks none."""
    try:
        made.catalog.resolve(query)
    except Refused as refused:
        text, traced = write_query(query), asks_for_provenance(query.body)
        place = at if at is None else len(text[:at].encode())
        return Case(text, {"refused " + refused.code}, traced, codes={refused.code}, at=place)
    return None


def make_case(made, totals):
    """A query with the reference's answer, or None where it is too large, or no query can be made."""
    try:
        query, at = made.statement(), None
        refused = refused_case(made, query, at)
        if not refused and made.chance(BROKEN):
            query, at = made.broken(query) or (query, at)
            refused = refused_case(made, query, at)
        if refused:
            return refused
        text, is_traced = write_query(query), asks_for_provenance(query.body)
        resolved = made.catalog.resolve(query)
        node = resolved.node
        places = len(shape(node.input)) if isinstance(node, Provenance) else 0
        if len(text) > BYTES or places > PLACES or sublink_places(node) > SUBLINK_PLACES:
            raise TooMuch
        lines, codes = answer(made.tables, resolved)
        if lines and len(lines) > LINES:
            raise TooMuch
        kinds = kinds_in(node) | {word for word, pattern in WRITTEN.items() if re.search(pattern, text)}
        return Case(text, kinds | {f"fault {code}" for code in codes or ()}, is_traced, lines, codes)
    except Refused as refused:
        totals.left_out["refused by the reference, " + refused.code] += 1
    except (TooMuch, RecursionError):
        totals.left_out["too large"] += 1
    return None


def run(script):
    """The lines that the program gives to a script, and its status; None where it takes too long."""
    with tempfile.NamedTemporaryFile("w", suffix=".sql", encoding="utf-8") as held:
        held.write(script)
        held.flush()
        try:
            ended = subprocess.run([PROGRAM, held.name], capture_output=True, timeout=SECONDS)
        except subprocess.TimeoutExpired:
            return None
    return ended.stdout.decode(errors="replace").split("\n")[:-1], ended.returncode


def is_expected(case, setup, given, status):
    """Whether the program says of a case alone what the reference does: each line in its place, its refusal, or one of its faults."""
    if case.lines is not None:
        return (given, status) == (case.lines, 0)
    at = "[0-9]+" if case.at is None else len(setup.encode()) + case.at
    return len(given) == 1 and any(re.fullmatch(f"error {code} at {at}", given[0]) and status == (5 if code >= "E30" else 4)
                                   for code in case.codes)


def compare_alone(case, statements, totals):
    """Compares a case in a script of its own, which gives a small script for a difference and the offset for a fault."""
    setup = "".join(f"{statement};\n" for statement in statements)
    ran = run(setup + case.text + ";\n")
    if ran is None:
        totals.left_out[f"the program took more than {SECONDS} seconds"] += 1
        return
    given, status = ran[0][len(statements):], ran[1]
    if is_expected(case, setup, given, status):
        count(case, totals)
        return
    expected = case.lines + ["status 0"] if case.lines is not None else ["one of " + ", ".join(sorted(case.codes))]
    totals.differences.append((setup + case.text + ";\n", expected, given + [f"status {status}"]))


def count(case, totals):
    for kind in case.kinds | {"all queries"}:
        totals.compared[kind, case.is_traced] += 1


def compare_batch(made, wanted, totals):
    """Compares some queries over one database: in one script those that answer, and alone where that isn't as expected."""
    cases = []
    for _ in range(wanted * 3):
        case = make_case(made, totals) if len(cases) < wanted else None
        cases += [case] if case else []
    totals.done += len(cases)
    answering = [case for case in cases if case.lines is not None]
    script = "".join(f"{statement};\n" for statement in made.statements + [case.text for case in answering])
    ran = run(script)
    if ran and ran[1] == 0 and ran[0][len(made.statements):] == [line for case in answering for line in case.lines]:
        for case in answering:
            count(case, totals)
        answering = []
    for case in answering + [case for case in cases if case.lines is None]:
        compare_alone(case, made.statements, totals)


def compare(seed, queries):
    """Compares so many random queries, by each style in turn."""
    totals, number = Totals(), 0
    while totals.done < queries and number < queries:
        style = ORDER[number % len(ORDER)]
        compare_batch(Queries(f"{seed} {number}", style), min(BATCH, queries - totals.done), totals)
        number += 1
    return totals


def report(totals):
    """Prints what was compared, what was left out, and the smallest script of those that differ."""
    print(f"{'':50}{'plain':>10}{'PROVENANCE':>12}")
    for kind in sorted({kind for kind, _ in totals.compared}):
        print(f"{kind:50}{totals.compared[kind, False]:10}{totals.compared[kind, True]:12}")
    for why, times in sorted(totals.left_out.items()):
        print(f"not compared: {why}: {times}")
    if totals.differences:
        script, expected, given = min(totals.differences, key=lambda difference: len(difference[0]))
        print("the smallest script that differs:", script, "expected:", *expected, "given:", *given, sep="\n")
    compared = totals.compared["all queries", False] + totals.compared["all queries", True] + len(totals.differences)
    print(f"{compared} queries, {len(totals.differences)} differences")


def asked_for(description, more=()):
    """What the command line asks for, once the program is there."""
    words = argparse.ArgumentParser(description=description)
    words.add_argument("--seed", type=int, default=1)
    words.add_argument("--queries", type=int, default=1000)
    for word in more:
        words.add_argument(word, nargs="*")
    asked = words.parse_args()
    if not os.access(PROGRAM, os.X_OK):
        sys.exit("outside: the program isn't built: run ./build once")
    return asked


def main():
    asked = asked_for(__doc__)
    totals = compare(asked.seed, asked.queries)
    report(totals)
    sys.exit(1 if totals.differences else 0)


if __name__ == "__main__":
    main()
