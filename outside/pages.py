#!/usr/bin/env python3
"""Compares the sources that a page tells with the reference's places, on random queries: pages.py [--seed N] [--queries N]

`./page` finds the sources of an answer by the names of its columns; the reference knows them. Each query is one with PROVENANCE,
over tables and views of which the page would know the columns. A source is wrong where the page names one whose columns aren't
those of a place of that relation, or of a part of one whose columns have names of their own. What the page can't tell apart is
counted. The status is 1 where one is wrong.
"""
import argparse
import pathlib
import sys
from collections import Counter

sys.path.insert(0, str(pathlib.Path(__file__).resolve().parent.parent / "tools"))

import places  # noqa: E402
from compare import ORDER  # noqa: E402
from queries import Queries  # noqa: E402
from reference.meaning import TooMuch  # noqa: E402
from reference.names import Refused, provenance_names  # noqa: E402
from reference.text import write_query  # noqa: E402
from reference.tree import Provenance, shape  # noqa: E402


def relations_of(made):
    """The tables and views that the page would know, with their columns."""
    found = {name: [[column for column, _ in columns]] for name, columns in made.catalog.tables.items()}
    for name, view in made.catalog.views.items():
        found[name] = [list(view.names)]
    return found


def wrong(groups, known):
    """A source of a page that is no place of that relation and no part of one with names of its own; None where there is none."""
    borders, at = {}, 0
    for label, kinds in known:
        borders[at] = (at + len(kinds), label.relation)
        at += len(kinds)
    for group in groups:
        if not group.name or " or " in group.name or borders.get(group.start) == (group.end, group.name):
            continue
        inside = any(start <= group.start and group.end <= end and relation is None for start, (end, relation) in borders.items())
        if not inside:
            return group
    return None


def main():
    words = argparse.ArgumentParser()
    words.add_argument("--seed", type=int, default=1)
    words.add_argument("--queries", type=int, default=1000)
    asked = words.parse_args()
    counted, number, differences = Counter(), 0, 0
    while counted["queries"] < asked.queries:
        made = Queries(f"pages {asked.seed} {number}", ORDER[number % len(ORDER)])
        number += 1
        for _ in range(20):
            try:
                query = made.statement()
                node = made.catalog.resolve(query).node
            except (Refused, TooMuch, RecursionError):
                continue
            if not isinstance(node, Provenance) or counted["queries"] == asked.queries:
                continue
            known = shape(node.input)
            text = write_query(query)
            script = "".join(f"{it};\n" for it in [*made.statements, text])
            groups, alone = places.sources(provenance_names(known), relations_of(made), places.aliases(script.encode()))
            mistake = wrong(groups, known)
            if mistake:
                differences += 1
                print(f"{script}{mistake}", file=sys.stderr)
            counted["queries"] += 1
            counted["sources"] += len(known)
            counted["sources told by name"] += sum(1 for it in groups if it.name)
            counted["queries whose names can be read in several ways"] += not alone
    for word, times in counted.items():
        print(f"{word}: {times}")
    print(f"{counted['queries']} queries, {differences} differences")
    return differences > 0


if __name__ == "__main__":
    sys.exit(main())
