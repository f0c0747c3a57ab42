#!/usr/bin/env python3
"""Rows of dependent joins and of joins whose condition has sublinks, and what lateral queries see, by the reference. What each
query answers was worked out by hand; of those that are built as nodes the same rows are proved of the definitions in
`crates/worked_examples/specs/DependentRows.antt`, and the others are queries as they are written, whose names are settled first. It
prints `all as worked out`, or ends with status 1 at the first that isn't."""

from reference.names import Catalog, Refused
from reference.text import write_query
from reference.tree import (
    INTEGER, TEXT, Aggregate, Base, DependentJoin, Filter, Join, Label, Project, Provenance, Query, Select, Source, Sublink, Table)
from reference.values import Fault
from reference.witnesses import Witnesses

STEPS = 10_000


def column(level, place):
    return ("column", level, place)


def compared(operator, left, right):
    return ("operation", operator, [left, right])


def source(name, *columns):
    """A table as an item of FROM: a source of all its columns."""
    kinds = [TEXT if each == "b" else INTEGER for each in columns]
    width = len(columns)
    return Base(Table(name, width), list(range(width)), Label(name, list(columns)), kinds, width)


R, S = source("r", "a", "b"), source("s", "c")
# SELECT MAX(c) FROM s WHERE s.c <= r.a
GREATEST = Aggregate(Filter(S, compared("<=", column(0, 0), column(1, 0)), [], "WHERE", 1), [], [("max", column(0, 0))], 1)
# SELECT c FROM s WHERE c = r.a
SAME = Filter(S, compared("=", column(0, 0), column(1, 0)), [], "WHERE", 1)
# SELECT 1 / 0 FROM s
DIVIDING = Project(S, [("chain", ("value", 1), [("/", ("value", 0))])], [], 1)
# r RIGHT JOIN s ON r.a = s.c AND s.c IN (SELECT c FROM s)
IN_ON = Join("RIGHT", R, S, ("operation", "and", [compared("=", column(0, 0), column(0, 2)), ("sublink", 0)]),
             [Sublink("any", S, "=", column(0, 2))], 3)


def beside(node):
    """PROVENANCE of the first column of r and of what stands beside its row."""
    return Provenance(Project(node, [column(0, 0), column(0, 2)], [], 2), 2)


# What it is, the query, the rows of r and of s, and the rows that it answers or the code of its fault.
WORKED = [
    ("each row of s that the right side looked at contributes", beside(DependentJoin("INNER", R, GREATEST, 3)),
     [(1, "x"), (2, "y")], [(1,), (2,)], [(1, 1, 1, "x", 1), (2, 2, 2, "y", 1), (2, 2, 2, "y", 2)]),
    ("counts multiply, and NULL meets nothing", DependentJoin("INNER", R, SAME, 3),
     [(1, "x"), (2, "y"), (2, "y"), (None, "x")], [(2,), (2,), (None,)], [(2, "y", 2)] * 4),
    ("a left row whose right side is empty stays", DependentJoin("LEFT", R, SAME, 3),
     [(1, "x"), (None, "y")], [(None,)], [(1, "x", None), (None, "y", None)]),
    ("it has nothing at the right places", beside(DependentJoin("LEFT", R, SAME, 3)),
     [(1, "x")], [(2,)], [(1, None, 1, "x", None)]),
    ("a fault under a row", DependentJoin("LEFT", R, DIVIDING, 3), [(1, "x")], [(1,)], "E30"),
    ("no row, no fault", DependentJoin("LEFT", R, DIVIDING, 3), [], [(1,)], []),
    ("a right row that met none has nothing of r and of the sublink", beside(IN_ON),
     [(1, "x")], [(1,), (3,)], [(1, 1, 1, "x", 1, 1), (None, 3, None, None, 3, None)]),
]


def named(*names):
    """An item: a column, by its name or by that of its item and its own."""
    return "value", ("column", *(None,) * (2 - len(names)), *names), None


def select(items, *sources, where=None, provenance=False):
    return Query(Select(items, list(sources), where, provenance=provenance))


def lateral(query, word="CROSS LATERAL", name="x"):
    return word, Source(query, name), ("truth", True) if word == "LEFT LATERAL" else None


def equal(left, right):
    return "compare", "=", ("column", None, left), ("column", *right)


FROM_R, FROM_S = (Source("r"), []), (Source("s"), [])
# SELECT c FROM s WHERE c = r.a, and what it is with r of a query around it
LIKE_R = select([named("c")], FROM_S, where=equal("c", ("r", "a")))
# SELECT 1 AS one WHERE EXISTS (SELECT c FROM s WHERE c = a): from the sublink r is two rows away, since both are a level
IN_SUBLINK = select([("value", ("number", 1), "one")], where=("exists", select([named("c")], FROM_S, where=equal("c", (None, "a")))))
READS_C = select([named("c")])
BOTH = [named("r", "a"), named("x", "c")]

# What it is, the query, and the rows that it answers over r of (1, 'x') and (2, 'y') and s of 2, or the rule that it breaks.
WRITTEN = [
    ("it sees the item before it", select(BOTH, (Source("r"), [lateral(LIKE_R)]), provenance=True), [(2, 2, 2, "y", 2)]),
    ("a left one keeps the rows without a partner", select(BOTH, (Source("r"), [lateral(LIKE_R, "LEFT LATERAL")]), provenance=True),
     [(1, None, 1, "x", None), (2, 2, 2, "y", 2)]),
    ("a sublink in it counts a level, and so does it", select([named("a")], (Source("r"), [lateral(IN_SUBLINK)])), [(2,)]),
    ("in a sublink it sees its own items first", select([named("a")], FROM_R, where=(
        "exists", select([named("x", "c")], (Source("s"), [lateral(select([("value", ("column", None, "c"), "c")], where=equal(
            "c", ("r", "a"))))])))), [(2,)]),
    ("the item behind it is unknown", select([named("a")], (Source("r"), [lateral(READS_C), ("CROSS", Source("s"), None)])), "E11"),
    ("so is what stands before a comma", select([named("a")], FROM_S, (Source("r"), [lateral(READS_C)])), "E11"),
    ("and its own item", select([named("a")], (Source("r"), [lateral(select([named("x", "a")]))])), "E11"),
    ("it may not ask for its provenance", select([named("a")], (Source("r"), [lateral(select([named("a")], provenance=True))])), "E25"),
]
CATALOG = Catalog()
CATALOG.tables = {"r": [("a", INTEGER), ("b", TEXT)], "s": [("c", INTEGER)]}


def answered(node, rows_of_r, rows_of_s):
    try:
        bag = Witnesses({"r": rows_of_r, "s": rows_of_s}, STEPS).rows(node, ())
    except Fault as fault:
        return "".join(fault.codes)
    return sorted(bag.elements(), key=repr)


def answered_as_written(query):
    try:
        return answered(CATALOG.resolve(query).node, [(1, "x"), (2, "y")], [(2,)])
    except Refused as refused:
        return refused.code


def compare(what, found, worked):
    expected = worked if isinstance(worked, str) else sorted(worked, key=repr)
    if found != expected:
        raise SystemExit(f"{what}: {found}, and not {expected}")


for what, node, rows_of_r, rows_of_s, worked in WORKED:
    compare(what, answered(node, rows_of_r, rows_of_s), worked)
for what, query, worked in WRITTEN:
    compare(f"{what}: {write_query(query)}", answered_as_written(query), worked)
print("all as worked out")
