"""Makes a printed text safe for PostgreSQL: a pass over its tokens. docs/DATABASES.md has the table of what it does."""
from .laterals import join, parted
from .printed import Draft, chains, quoted, steps
from .safety import Safe, columns_of, lists_of_one, may_fault, order_by_all, read_tables
from .scopes import INTEGER, TEXT, Scopes


def safe(text, tables, bytewise=True):
    """The text over these tables; `bytewise` says that the database compares texts by their bytes unless told otherwise."""
    draft = Draft(text)
    scopes = Scopes(draft).with_columns(columns_of(tables))
    faulty = may_fault(draft)
    for lateral in parted(draft, scopes)[0]:
        join(draft, *lateral)
    keep_backslashes(draft)
    if not bytewise:
        collate_literals(draft)
    whole_sums(draft)
    wide_arithmetic(draft)
    lists_of_one(draft)
    compare_by_equality(draft, scopes)
    hash_full_joins(draft, scopes)
    order_by_all(draft, len(scopes.names()), str)
    return Safe(read_tables(scopes, tables) + draft.text(), scopes.names(), faulty)


def keep_backslashes(draft):
    """A `\\` in a pattern is a character like others."""
    for at in range(len(draft)):
        if draft.word(at, "like"):
            last = draft.last_of(at + 1)
            if draft.tokens[at + 1].kind == "text" and last == at + 1:
                draft.replace(last, draft.said[last].replace("\\", "\\\\"))
            else:
                draft.behind[last] += " ESCAPE ''"


def collate_literals(draft):
    """A text of the script compares by its bytes."""
    for at, token in enumerate(draft.tokens):
        if token.kind == "text" and not draft.word(at - 1, "like"):
            draft.around(at, at, "(", ' COLLATE "C")')


def whole_sums(draft):
    """A SUM is an integer again: PostgreSQL's has no bound, and its quotient a fraction."""
    for at in range(len(draft)):
        if draft.word(at, "sum") and draft.mark(at + 1, "("):
            draft.around(at, draft.partner[at + 1], "CAST(", " AS BIGINT)")


def wide_arithmetic(draft):
    """Arithmetic has 64 bits, though the column or the number has fewer."""
    for operands, operators in chains(draft):
        for first, last in {left for _, left, _ in steps(draft, operands, operators) if left in operands}:
            draft.around(first, last, "CAST(", " AS BIGINT)")
    for at in range(len(draft)):
        if draft.mark(at, "-") and not draft.is_operator(at) and draft.tokens[at + 1].kind != "number":
            draft.around(at + 1, draft.last_of(at + 1), "CAST(", " AS BIGINT)")


def compare_by_equality(draft, scopes):
    """IS NOT DISTINCT FROM, for which PostgreSQL knows no index and no hash: by `=` where one side is never NULL and unknown is as good
    as false, else by an equality of arrays, in which NULL is the same as NULL."""
    for at in range(len(draft)):
        if not draft.word(at, "is", "not", "distinct", "from") or not draft.is_name(at - 1) or not draft.is_name(at + 4):
            continue
        if not draft.said[at]:
            continue
        first, last = draft.first_of(at - 1), draft.last_of(at + 4)
        select, clause = scopes.within[at - 1]
        joins = joins_before(select, clause)
        left, right = scopes.meaning(first, select, joins), scopes.meaning(at + 4, select, joins)
        if left.kind is None or left.kind != right.kind:
            continue
        for word in range(at + 1, at + 4):
            draft.replace(word, "")
        draft.replace(at, "=")
        if not (left.whole or right.whole) or not is_conjunct(draft, select, clause, first, last):
            kind = {INTEGER: "BIGINT", TEXT: "TEXT"}.get(left.kind, "BOOLEAN")
            for begin, end in ((first, at - 1), (at + 4, last)):
                draft.around(begin, end, "ARRAY[CAST(", f" AS {kind})]")


def joins_before(select, clause):
    """How many sources of the SELECT are joined before this clause looks at them."""
    word, number = clause
    return select.clauses[number][3] if word == "on" and number < len(select.clauses) else len(select.sources)


def is_conjunct(draft, select, clause, first, last):
    """Whether these tokens are one of the conditions of ON, WHERE or HAVING that all have to be true."""
    word, number = clause
    if word not in ("on", "where", "having") or number >= len(select.clauses):
        return False
    _, begins, ends, _ = select.clauses[number]
    at = begins
    while at <= ends:
        if draft.word(at, "or"):
            return False
        at = draft.partner[at] + 1 if draft.mark(at, "(") or draft.word(at, "case") else at + 1
    inside = any(draft.mark(it, "(") and it < first < draft.partner[it] for it in range(begins, first))
    ahead, behind = first == begins or draft.word(first - 1, "and"), last == ends or draft.word(last + 1, "and")
    return not inside and ahead and behind and not follows_between(draft, begins, first)


def follows_between(draft, begins, first):
    """Whether the AND before the token may be that of a BETWEEN."""
    return any(draft.word(it, "between") for it in range(begins, first))


def hash_full_joins(draft, scopes):
    """PostgreSQL wants something to hash or merge a FULL JOIN by: an equation of what is 0 on each side."""
    for select in scopes.selects:
        for number, source in enumerate(select.sources):
            if source.joined != "full":
                continue
            clause = next(it for it in select.clauses if it[0] == "on" and it[3] == number)
            left, right = (f"CAST(({quoted(it.name)}.*) IS NULL AS INTEGER) * 0" for it in (select.sources[number - 1], source))
            draft.around(clause[1], clause[2], f"{left} = {right} AND (", ")")
