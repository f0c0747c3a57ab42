"""Trees: SQL as it is written, and queries once their names are settled.

A written expression is a tuple whose first part names its form:

    ("number", n)  ("text", t)  ("truth", b)  ("null",)  ("null_of", kind)  ("column", table or None, name)  ("parens", e)
    ("not", e)  ("minus", e)  ("and", [e, ..])  ("or", [e, ..])  ("chain", e, [(operator, e), ..])
    ("compare", operator, e, e)  ("like", negated, e, e)  ("between", negated, e, e, e)  ("in_list", negated, e, [e, ..])
    ("is_null", negated, e)  ("is_truth", negated, word, e)  ("is_distinct", negated, e, e)
    ("case", [(e, e), ..], e or None)  ("coalesce", [e, ..])  ("nullif", e, e)  ("aggregate", function, e or None)
    ("exists", query)  ("scalar", query)  ("in_query", negated, e, query)  ("quantified", word, operator, e, query)

The functions of aggregates are count_all, count, count_distinct, sum, min and max. A settled expression is a tuple too:

    ("value", v)  ("column", level, place)  ("sublink", number)  ("operation", name, [e, ..])  ("chain", e, [(operator, e), ..])
    ("is_null", e)  ("is_truth", value, e)  ("same", e, e)  ("case", [(e, e), ..], e)

where level 0 is the node's own row and level 1 the nearest outer row.
"""

from dataclasses import dataclass, field, make_dataclass

# The kinds of values, by the words that CAST takes; UNTOLD is the kind of a NULL that nothing has given one yet.
INTEGER, TEXT, TRUTH, UNTOLD = "INTEGER", "TEXT", "BOOLEAN", "UNTOLD"
LEAST, GREATEST = -2**63, 2**63 - 1


@dataclass
class Query:
    """A query as it is written. `order` has pairs of a key (a name, or a number from 1) and whether it goes down."""
    body: object
    order: list = field(default_factory=list)
    limit: int = None


@dataclass
class Select:
    """One SELECT. Items are ("all",), ("all_of", table) and ("value", expression, alias or None); `sources` has pairs of a
    `Source` and its joins, each a word (INNER, LEFT, RIGHT, FULL, CROSS, CROSS LATERAL, LEFT LATERAL), a `Source` and its condition."""
    items: list
    sources: list = field(default_factory=list)
    where: tuple = None
    groups: list = field(default_factory=list)
    having: tuple = None
    distinct: bool = False
    provenance: bool = False


@dataclass
class Source:
    """An item of FROM: a name or a query, its alias, and its mark: None, "BASERELATION", or a list of columns."""
    of: object
    alias: str = None
    mark: object = None


def with_parts(name, parts, meaning):
    """A class of trees that has these parts; two trees are the same only where they are one."""
    return make_dataclass(name, parts.split(), eq=False, namespace={"__doc__": meaning})


Parens = with_parts("Parens", "query", "A query in parentheses, as a side of a set operation.")
SetChain = with_parts("SetChain", "first steps", """Set operations from the left: the first side, then triples of a word,
whether ALL stands behind it, and a side.""")
Label = with_parts("Label", "relation columns", """How the provenance columns of a place are named: by a relation and its
columns, or by the columns alone.""")

# The nodes. `width` is how many columns a row has.
Table = with_parts("Table", "name width", "The rows of a table.")
Single = with_parts("Single", "width", "One row of no columns: what a SELECT without FROM reads.")
Base = with_parts("Base", "input places label kinds width", """Where provenance ends: the rows of the input, of which the columns
at `places` are told.""")
Filter = with_parts("Filter", "input condition sublinks clause width", """The rows for which the condition is true: a WHERE or a
HAVING, as `clause` says.""")
Project = with_parts("Project", "input items sublinks width", "The row of the items for each row.")
Join = with_parts("Join", "kind left right condition sublinks width", """The pairs of rows for which the condition is true; `kind`
says whose rows without a partner stay. The sublinks of the condition see the pair.""")
DependentJoin = with_parts("DependentJoin", "kind left right width", """Each row of the left query beside each row that the right
query has with that row as its nearest outer one (LATERAL); of the kind LEFT a row under which it has none stays.""")
SetOperation = with_parts("SetOperation", "word keeps_all left right width", "UNION, INTERSECT or EXCEPT, with ALL or without.")
Distinct = with_parts("Distinct", "input width", "Each row once.")
Aggregate = with_parts("Aggregate", "input groups aggregates width", """A row for each group: the columns at `groups`, then the
aggregates, which are pairs of a function and its argument.""")
Limit = with_parts("Limit", "input keys count width", """The first `count` rows by the keys, which are pairs of a place and
whether it goes down, and then by all columns.""")
Provenance = with_parts("Provenance", "input width", "Every row of the input beside each of its witness lists.")
Sublink = with_parts("Sublink", "kind query operator tested", """A query in an expression: its kind is exists, scalar, any or all;
the last two compare a tested value.""")


def children(node):
    """The nodes that a node reads, but for those in its expressions."""
    return [getattr(node, part) for part in ("input", "left", "right") if hasattr(node, part)]


def sublinks_of(node):
    """The sublinks in a node's expressions."""
    return getattr(node, "sublinks", [])


def shape(node):
    """The places of a query: label and kinds of each source in the order in which the query names them. The sources in a
    node's sublinks come behind those that the node reads; a PROVENANCE of its own is no source until an item of FROM has it."""
    if isinstance(node, Base):
        return [(node.label, [node.kinds[place] for place in node.places])]
    if isinstance(node, Provenance):
        return []
    places = [place for child in children(node) for place in shape(child)]
    return places + [place for sublink in sublinks_of(node) for place in shape(sublink.query)]


def queries_in(node):
    """The queries of a node's sublinks."""
    return [sublink.query for sublink in sublinks_of(node)]
