"""What both engines' rules share: the answer's order, the readings of tables in front of a text, and what may meet a fault."""
from dataclasses import dataclass

from .printed import quoted


class Unsayable(Exception):
    """A form that the engine can't be asked for: its message says which."""


@dataclass
class Safe:
    """A text that an engine may be asked, the names of the answer's columns, and whether an operand of it may meet a fault."""

    text: str
    names: list
    faulty: bool


def sort_keys(draft, at):
    """The keys of the ORDER BY that begins there: for each its token, and the last token of it."""
    found, at = [], at + 2
    while True:
        last = at + 1 if draft.one_of(at + 1, ("desc", "asc")) else at
        found.append((at, last))
        if not draft.mark(last + 1, ","):
            return found
        at = last + 2


def order_of(draft):
    """Where the ORDER BY of the whole text stands; None where it has none."""
    depth, found = 0, None
    for at in range(len(draft)):
        if draft.mark(at, "("):
            depth += 1
        elif draft.mark(at, ")"):
            depth -= 1
        elif depth == 0 and draft.word(at, "order", "by"):
            found = at
    return found


def order_by_all(draft, width, key):
    """Puts behind the keys of the answer all other columns, so that equal keys leave no choice; `key` writes one."""
    at, given = order_of(draft), []
    if at is not None:
        given = [draft.said[first] for first, _ in sort_keys(draft, at)]
    added = ", ".join(key(str(number)) for number in range(1, width + 1) if str(number) not in given)
    if added:
        draft.behind[-1] += (", " if given else "\nORDER BY ") + added


def may_fault(draft):
    """Whether the text has an operand that Perm may refuse on some rows."""
    return any(draft.is_operator(at) or draft.word(at, "sum") or draft.mark(at, "-") and not draft.is_operator(at)
               and draft.tokens[at + 1].kind != "number" for at in range(len(draft))) or any(several(draft))


def several(draft):
    """The parentheses of subqueries that stand for one value and may have several rows."""
    for at in range(len(draft)):
        if draft.mark(at, "(") and draft.word(at + 1, "select") and stands_for_value(draft, at) and not is_single(draft, at):
            yield at


def stands_for_value(draft, at):
    """Whether the query in the parenthesis there is an operand, not a source, a set, nor what a quantifier is asked of."""
    if at == 0 or draft.one_of(at - 1, ("from", "join", "lateral", "in", "any", "all", "some", "exists", "as")):
        return False
    if not draft.mark(at - 1, ","):
        return True
    return not draft.word(draft.partner[at] + 1, "as") or not is_source_comma(draft, at - 1)


def lists_of_one(draft):
    """A subquery that is the one value of a list, which an engine would read as the query that IN asks."""
    for at in range(len(draft)):
        alone = draft.word(at, "in") and draft.mark(at + 1, "(") and draft.mark(at + 2, "(") and draft.word(at + 3, "select")
        if alone and draft.partner[at + 2] + 1 == draft.partner[at + 1]:
            draft.around(at + 2, draft.partner[at + 2], "COALESCE(", ", NULL)")


def is_source_comma(draft, at):
    """Whether the comma there stands between sources: the nearest word of a clause before it, on its level, is FROM."""
    depth = 0
    while at > 0:
        at -= 1
        depth += 1 if draft.mark(at, ")") else -1 if draft.mark(at, "(") else 0
        if depth < 0 or depth == 0 and draft.one_of(at, ("select", "where", "having")):
            return False
        if depth == 0 and draft.is_from(at):
            return True
    return False


def is_single(draft, at):
    """Whether the query in the parenthesis has one row at most by its form: an aggregate without groups, or LIMIT 1 at its end."""
    last = draft.partner[at]
    if draft.word(last - 2, "limit") and draft.said[last - 1] in ("0", "1"):
        return True
    depth, aggregate = 0, draft.one_of(at + 2, ("count", "sum", "min", "max")) and draft.partner.get(at + 3)
    for inside in range(at + 1, last):
        depth += 1 if draft.mark(inside, "(") else -1 if draft.mark(inside, ")") else 0
        if depth == 0 and draft.one_of(inside, ("group", "having", "union", "intersect", "except")):
            return draft.word(inside, "having") and bool(aggregate)
    return bool(aggregate)


def read_tables(scopes, tables):
    """A WITH that reads each table of the text as the language has it: views of the statement's own, as it were."""
    parts = []
    for name in dict.fromkeys(scopes.bases):
        columns = ", ".join(f"{it.expression} AS {quoted(it.name)}" for it in tables[name].columns)
        parts.append(f"{quoted(name)} AS NOT MATERIALIZED (SELECT {columns} FROM {tables[name].origin} AS t)")
    return f"WITH {', '.join(parts)}\n" if parts else ""


def columns_of(tables):
    """What the text's reader wants to know of the tables' columns."""
    return {(name, column.name): column.meaning for name, table in tables.items() for column in table.columns}
