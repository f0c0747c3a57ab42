"""Queries as SQL text, and rows as the text of an answer."""

import re

from .tree import Parens, SetChain

RESERVED = set("""all and any as asc baserelation between by case cast create cross delete desc distinct drop else end except
exists false from full group having in inner insert intersect into is join left like limit not null on or order outer provenance
right select some table then true union unknown values when where""".split())
JOINS = {"INNER": "JOIN", "LEFT": "LEFT JOIN", "RIGHT": "RIGHT OUTER JOIN", "FULL": "FULL JOIN", "CROSS": "CROSS JOIN",
         "CROSS LATERAL": "CROSS JOIN LATERAL", "LEFT LATERAL": "LEFT OUTER JOIN LATERAL"}

# How strongly a form binds, by the grammar; what isn't here needs no parentheses.
STRENGTHS = {"or": 1, "and": 2, "not": 3, "is_null": 4, "is_truth": 4, "is_distinct": 4, "compare": 5, "quantified": 5,
             "like": 6, "between": 6, "in_list": 6, "in_query": 6, "minus": 9}


def name(word):
    """A name, in double quotes where it has to be."""
    if re.fullmatch(r"[a-z_][a-z0-9_]*", word) and word not in RESERVED:
        return word
    return '"' + word.replace('"', '""') + '"'


def text_literal(characters):
    """A text in single quotes."""
    return "'" + characters.replace("'", "''") + "'"


def strength(expression):
    """How strongly an expression binds: the higher, the nearer to a single word."""
    if expression[0] == "chain":
        return 7 if expression[2][0][0] in "+-" else 8
    return STRENGTHS.get(expression[0], 10)


def within(expression, least):
    """An expression where only one that binds at least so strongly may stand."""
    written = write(expression)
    return f"({written})" if strength(expression) < least else written


def write(expression):
    """An expression as SQL text."""
    return WRITERS[expression[0]](*expression[1:])


def listed(expressions):
    return ", ".join(map(write, expressions))


def joined(word, least):
    return lambda parts: f" {word} ".join(within(part, least) for part in parts)


def word_not(negated):
    return "NOT " if negated else ""


def chain(first, steps):
    least = strength(("chain", first, steps)) + 1
    return within(first, least) + "".join(f" {operator} {within(part, least)}" for operator, part in steps)


def case(arms, otherwise):
    written = "".join(f" WHEN {write(condition)} THEN {write(value)}" for condition, value in arms)
    return "CASE" + written + (f" ELSE {write(otherwise)}" if otherwise is not None else "") + " END"


def aggregate(function, argument):
    if function == "count_all":
        return "COUNT(*)"
    if function == "count_distinct":
        return f"COUNT(DISTINCT {write(argument)})"
    return f"{function.upper()}({write(argument)})"


WRITERS = {
    "number": str,
    "text": text_literal,
    "truth": lambda holds: "TRUE" if holds else "FALSE",
    "null": lambda: "NULL",
    "null_of": lambda kind: f"CAST(NULL AS {kind})",
    "column": lambda table, column: (name(table) + "." if table is not None else "") + name(column),
    "parens": lambda inner: f"({write(inner)})",
    "not": lambda inner: "NOT " + within(inner, 3),
    "minus": lambda inner: "- " + within(inner, 9),
    "and": joined("AND", 3),
    "or": joined("OR", 2),
    "chain": chain,
    "compare": lambda operator, left, right: f"{within(left, 6)} {operator} {within(right, 6)}",
    "like": lambda negated, tested, pattern: f"{within(tested, 7)} {word_not(negated)}LIKE {within(pattern, 7)}",
    "between": lambda negated, tested, low, high:
        f"{within(tested, 7)} {word_not(negated)}BETWEEN {within(low, 7)} AND {within(high, 7)}",
    "in_list": lambda negated, tested, parts: f"{within(tested, 7)} {word_not(negated)}IN ({listed(parts)})",
    "in_query": lambda negated, tested, query: f"{within(tested, 7)} {word_not(negated)}IN ({write_query(query)})",
    "quantified": lambda word, operator, tested, query: f"{within(tested, 6)} {operator} {word} ({write_query(query)})",
    "is_null": lambda negated, tested: f"{within(tested, 5)} IS {word_not(negated)}NULL",
    "is_truth": lambda negated, word, tested: f"{within(tested, 5)} IS {word_not(negated)}{word}",
    "is_distinct": lambda negated, left, right: f"{within(left, 5)} IS {word_not(negated)}DISTINCT FROM {within(right, 5)}",
    "case": case,
    "coalesce": lambda parts: f"COALESCE({listed(parts)})",
    "nullif": lambda left, right: f"NULLIF({write(left)}, {write(right)})",
    "aggregate": aggregate,
    "exists": lambda query: f"EXISTS ({write_query(query)})",
    "scalar": lambda query: f"({write_query(query)})",
}


def write_source(source):
    written = name(source.of) if isinstance(source.of, str) else f"({write_query(source.of)})"
    if source.alias:
        written += " " + name(source.alias)
    if source.mark == "BASERELATION":
        return written + " BASERELATION"
    return written + (f" PROVENANCE ({', '.join(map(name, source.mark))})" if source.mark else "")


def write_sources(sources):
    def write_joins(first, joins):
        return write_source(first) + "".join(
            f" {JOINS[word]} {write_source(source)}" + (f" ON {write(condition)}" if condition is not None else "")
            for word, source, condition in joins)
    return ", ".join(write_joins(*each) for each in sources)


def write_item(item):
    if item[0] == "all":
        return "*"
    if item[0] == "all_of":
        return name(item[1]) + ".*"
    return write(item[1]) + (" AS " + name(item[2]) if item[2] else "")


def write_body(body):
    if isinstance(body, Parens):
        return f"({write_query(body.query)})"
    if isinstance(body, SetChain):
        return write_body(body.first) + "".join(
            f" {word}{' ALL' if keeps_all else ''} {write_body(side)}" for word, keeps_all, side in body.steps)
    written = "SELECT " + "PROVENANCE " * body.provenance + "DISTINCT " * body.distinct + ", ".join(map(write_item, body.items))
    if body.sources:
        written += " FROM " + write_sources(body.sources)
    if body.where is not None:
        written += " WHERE " + write(body.where)
    if body.groups:
        written += " GROUP BY " + listed(body.groups)
    return written + (" HAVING " + write(body.having) if body.having is not None else "")


def write_query(query):
    """A query as SQL text."""
    written = write_body(query.body)
    if query.order:
        keys = ((name(key) if isinstance(key, str) else str(key)) + " DESC" * down for key, down in query.order)
        written += " ORDER BY " + ", ".join(keys)
    return written + (f" LIMIT {query.limit}" if query.limit is not None else "")


def write_value(value):
    """A field of an answer: NULL is empty, a text stands in quotes, an integer and a truth value bare."""
    if value is None:
        return ""
    if isinstance(value, bool):
        return "true" if value else "false"
    return str(value) if isinstance(value, int) else '"' + value.replace('"', '""') + '"'


def answer_lines(names, rows):
    """The lines of an answer: the names, the rows, their number."""
    return [",".join(map(write_value, row)) for row in [names, *rows]] + [f"({len(rows)} rows)"]
