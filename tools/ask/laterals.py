"""A lateral query that is a join: what it reads of the rows on its left stands in equations of its own WHERE alone."""
from .printed import quoted

COMPARISONS = ("=", "<>", "<", "<=", ">", ">=")
AGGREGATES = ("count", "sum", "min", "max")


def parted(draft, scopes):
    """The lateral queries that are joins, each with its SELECT and what `join` moves, and those that are none."""
    joins, others = [], []
    for select in scopes.selects:
        for source in select.sources:
            if draft.word(source.first, "lateral"):
                moved = conditions(draft, scopes, source)
                if moved:
                    joins.append((select, source, moved))
                else:
                    others.append(source)
    return joins, others


def conditions(draft, scopes, source):
    """The conditions of the query's WHERE that read what stands before it: for each its first and last token, and its sides.

    None where the query reads that elsewhere, where more than WHERE stands in it, or where an operand of it may meet a fault.
    """
    opened = source.first + 1
    closed, query = draft.partner[opened], source.table[0]
    clauses = [it for it in query.clauses if it[0] != "on"]
    if len(source.table) > 1 or len(clauses) != 1 or clauses[0][0] != "where" or clauses[0][2] + 1 != closed or draft.word(opened + 2, "distinct"):
        return None
    own = range(query.items[0][0], query.items[-1][1] + 1), range(clauses[0][1], clauses[0][2] + 1)
    if any(draft.one_of(at, AGGREGATES + ("or", "between", "select")) or draft.mark(at, "-", "+", "*", "/", "%") for part in own for at in part):
        return None
    inside = {it.name for select in scopes.selects for it in select.sources if opened < it.first < closed}
    local = {it.name for it in query.sources}
    outer = {at for at in range(opened, closed) if draft.is_name(at) and draft.mark(at + 1, ".") and draft.name(at) not in inside}
    found = []
    for first, last in conjuncts(draft, *clauses[0][1:3]):
        if outer & set(range(first, last + 1)):
            sides = comparison(draft, first, last)
            if sides is None or not all(draft.name(at) in local or at in outer for at in sides[:2]):
                return None
            found.append((first, last, sides, [at for at in sides[:2] if at not in outer]))
    moved = {at for first, last, _, _ in found for at in range(first, last + 1)}
    return found if outer <= moved and scopes.are_told() else None


def conjuncts(draft, first, last):
    """The parts between the words AND of a condition."""
    at = begins = first
    while at <= last:
        if draft.word(at, "and"):
            yield begins, at - 1
            begins = at + 1
        at = draft.partner[at] + 1 if draft.mark(at, "(") or draft.word(at, "case") else at + 1
    yield begins, last


def comparison(draft, first, last):
    """Where the two columns stand that are compared, and the operator; None where it is no such comparison."""
    while draft.mark(first, "("):
        wrapped = 2 if draft.word(last - 1, "is", "true") else 0
        if draft.partner[first] != last - wrapped:
            return None
        first, last = first + 1, last - wrapped - 1
    if not draft.is_name(first) or not draft.is_name(last):
        return None
    behind, right = draft.last_of(first) + 1, draft.first_of(last)
    if right - behind == 1 and draft.mark(behind, *COMPARISONS):
        return first, right, draft.said[behind]
    return (first, right, "IS NOT DISTINCT FROM") if right - behind == 4 and draft.word(behind, "is", "not", "distinct", "from") else None


def join(draft, select, source, moved):
    """Puts the conditions behind ON, and what they read of the query into its items."""
    written, name, end = [], draft.fresh("joined_on"), source.table[0].items[-1][1]
    for first, last, (left, right, operator), local in moved:
        sides = []
        for at in (left, right):
            sides.append(draft.written(at, at + 2))
            if at in local:
                column = quoted(f"{name}{len(written)}{len(sides)}")
                draft.behind[end] += f", {sides[-1]} AS {column}"
                sides[-1] = f"{quoted(source.name)}.{column}"
        written.append(f"{sides[0]} {operator} {sides[1]}")
        draft.drop(first, last)
        draft.replace(first, "TRUE")
    draft.replace(source.first, "")
    condition = " AND ".join(written)
    number = select.sources.index(source)
    if source.joined == "cross":
        draft.replace(source.mark, "")
        draft.behind[draft.partner[source.first + 1] + 2] += f" ON {condition}"
    else:
        draft.replace(next(it[1] for it in select.clauses if it[0] == "on" and it[3] == number), condition)
