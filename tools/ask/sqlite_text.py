"""Makes a printed text safe for SQLite: a pass over its tokens. docs/DATABASES.md has the table of what it does.

The functions perm_plus .. perm_several are the connection's own (on_sqlite.py); they raise where SQLite would go on with NULL, with a
float or with the first of several rows.
"""
from .laterals import join, parted
from .printed import Draft, chains, quoted, steps
from .safety import Safe, Unsayable, columns_of, lists_of_one, may_fault, order_by_all, read_tables, several, sort_keys
from .scopes import Scopes

COMPARISONS = ("=", "<>", "<", "<=", ">", ">=")
FUNCTION = {"+": "perm_plus", "-": "perm_minus", "*": "perm_times", "/": "perm_quotient", "%": "perm_remainder"}


def safe(text, tables):
    """The text over these tables."""
    draft = Draft(text)
    scopes = Scopes(draft).with_columns(columns_of(tables))
    faulty = may_fault(draft)
    names_alone(draft)
    lateral_by_lists(draft, scopes)
    single_rows(draft)
    by_bytes(draft)
    lists_of_one(draft)
    checked_arithmetic(draft)
    lists_apart(draft)
    quantified(draft)
    numbered_copies(draft, scopes)
    for at in range(len(draft)):
        if draft.word(at, "order", "by"):
            nulls_placed(draft, at)
    order_by_all(draft, len(scopes.names()), lambda number: f"{number} NULLS LAST")
    return Safe(read_tables(scopes, tables) + draft.text(), scopes.names(), faulty)


def numbered_copies(draft, scopes):
    """INTERSECT ALL and EXCEPT ALL, by a number for each copy of a row: then no row stands twice."""
    copy = quoted(draft.fresh("copy"))
    for selects in scopes.queries:
        for left, right in zip(selects, selects[1:]):
            if not draft.one_of(left.stop + 1, ("intersect", "except")) or not draft.word(left.stop + 2, "all"):
                continue
            names = [[draft.name(last) for _, last in select.items] for select in (left, right)]
            if len(selects) > 2 or any(len(set(it)) < len(it) for it in names):
                raise Unsayable(f"SQLite has no {draft.said[left.stop + 1]} ALL, and this query can't be put otherwise")
            (columns, front), (_, other) = (numbered(it, copy) for it in names)
            draft.around(left.start, left.stop, f"SELECT {columns} FROM ({front}", ")")
            draft.replace(left.stop + 2, "")
            draft.around(right.start, right.stop, other, "))")


def numbered(names, copy):
    """The columns of these names, and what begins a query that numbers the copies of each row of the next parenthesis."""
    columns = ", ".join(map(quoted, names))
    return columns, f"SELECT *, ROW_NUMBER() OVER (PARTITION BY {columns}) AS {copy} FROM ("


def names_alone(draft):
    """A name that SQLite doesn't know is a text to it where it stands in double quotes, but not in these."""
    for at, token in enumerate(draft.tokens):
        if token.kind == "name":
            draft.replace(at, "`" + token.value.decode().replace("`", "``") + "`")


def by_bytes(draft):
    """LIKE tells no capitals from small letters in SQLite; GLOB does."""
    for at in range(len(draft)):
        if not draft.word(at, "like"):
            continue
        draft.replace(at, "GLOB")
        last = draft.last_of(at + 1)
        if last == at + 1 and draft.tokens[last].kind == "text":
            pattern = glob(draft.tokens[last].value.decode().replace("''", "'"))
            draft.replace(last, "'" + pattern.replace("'", "''") + "'")
        else:
            draft.around(at + 1, last, "perm_pattern(", ")")


def glob(pattern):
    """The pattern of GLOB that means what one of LIKE means."""
    return "".join({"%": "*", "_": "?"}.get(it, f"[{it}]" if it in "*?[" else it) for it in pattern)


def lateral_by_lists(draft, scopes):
    """A lateral query that is no join as the list of its rows, which SQLite's json_each takes apart again beside each row on its left."""
    sources = [it for select in scopes.selects for it in select.sources]
    columns, rows = {}, draft.fresh("rows")
    joins, others = parted(draft, scopes)
    for source in others:
        if sum(it.name == source.name for it in sources) > 1 or not scopes.are_told():
            raise Unsayable("SQLite has no LATERAL, and this query, in which names are printed as numbers, can't be put otherwise")
        columns[source.name] = [draft.name(last) for _, last in source.table[0].items]
        listed = ", ".join(f"{quoted(rows)}.{quoted(it)}" for it in columns[source.name])
        draft.replace(source.first, f"json_each((SELECT json_group_array(json_array({listed})) FROM")
        draft.behind[draft.partner[source.first + 1]] += f" AS {quoted(rows)}))"
    items = {first for select in scopes.selects for first, last in select.items if last == first + 2}
    for at in range(len(draft)):
        if draft.is_name(at) and draft.mark(at + 1, ".") and draft.name(at) in columns:
            column = draft.name(at + 2)
            place = columns[draft.name(at)].index(column)
            draft.replace(at + 2, '"value"')
            draft.around(at, at + 2, "json_extract(", f", '$[{place}]')" + (f" AS {quoted(column)}" if at in items else ""))
    for lateral in joins:
        join(draft, *lateral)


def single_rows(draft):
    """A subquery that stands for a value and has several rows is a fault."""
    rows = quoted(draft.fresh("rows"))
    for at in several(draft):
        column = quoted(draft.name(last_item(draft, at)))
        value = f"(SELECT CASE WHEN COUNT(*) > 1 THEN perm_several() ELSE MAX({rows}.{column}) END FROM "
        draft.around(at, draft.partner[at], value, f" AS {rows})")


def last_item(draft, at):
    """The last token of the one item of the query in the parenthesis."""
    depth, inside = 0, at + 1
    while inside < draft.partner[at]:
        depth += 1 if draft.mark(inside, "(") else -1 if draft.mark(inside, ")") else 0
        if depth == 0 and (draft.is_from(inside) or draft.one_of(inside, ("union", "where", "order", "limit", "intersect", "except"))):
            return inside - 1
        inside += 1
    return inside - 1


def checked_arithmetic(draft):
    for operands, operators in chains(draft):
        for operator, left, right in steps(draft, operands, operators):
            function = FUNCTION[draft.tokens[operator].value.decode()]
            draft.around(left[0], right[1], f"{function}(", ")")
            draft.replace(operator, ",")
    for at in range(len(draft)):
        if draft.mark(at, "-") and not draft.is_operator(at) and draft.tokens[at + 1].kind != "number":
            draft.replace(at, "perm_minus(0, ")
            draft.behind[draft.last_of(at + 1)] += ")"


def lists_apart(draft):
    """IN binds as loosely as `=` in SQLite, and more loosely than `<`: beside a comparison it gets parentheses."""
    for at in range(len(draft)):
        if not draft.word(at, "in") or not draft.mark(at + 1, "("):
            continue
        first, last = draft.first_of(at - 2 if draft.word(at - 1, "not") else at - 1), draft.partner[at + 1]
        while draft.is_operator(first - 1):
            first = draft.first_of(first - 2)
        if draft.mark(first - 1, *COMPARISONS) or draft.mark(last + 1, *COMPARISONS) or draft.word(first - 2, "distinct", "from"):
            draft.around(first, last, "(", ")")


def quantified(draft):
    """A comparison with ANY or ALL by the least or the greatest of what it gives, and unknown by a count."""
    rows, value, found = (quoted(draft.fresh(it)) for it in ("rows", "value", "found"))
    for at in range(len(draft)):
        asked = draft.one_of(at, ("any", "all")) and draft.mark(at + 1, "(") and draft.word(at + 2, "select")
        if not asked or not draft.mark(at - 1, *COMPARISONS):
            continue
        first, last = draft.first_of(at - 2), draft.partner[at + 1]
        decided, other = (f"MAX({found}) = 1 THEN 1", 0) if draft.word(at, "any") else (f"MIN({found}) = 0 THEN 0", 1)
        case = f"CASE WHEN {decided} WHEN COUNT(*) > COUNT({found}) THEN NULL ELSE {other} END"
        draft.around(first, last, f"(SELECT {case} FROM (SELECT ", f") AS {rows}))")
        # The column gets a name of its own, so that a bare name on the left means what it meant.
        draft.replace(at, f"{rows}.{value} AS {found} FROM (SELECT NULL AS {value} WHERE 0 UNION ALL SELECT * FROM")


def nulls_placed(draft, at):
    """NULL comes last, and first under DESC."""
    for first, last in sort_keys(draft, at):
        draft.behind[last] += " NULLS FIRST" if draft.word(last, "desc") and last > first else " NULLS LAST"
