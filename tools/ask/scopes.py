"""Which table's column a name of a printed text means, and whether it can be NULL there.

A reading of the text as far as that takes: its SELECTs, their items and sources, and where names stand. What can't be told is None,
and then nothing is made of it.
"""
from dataclasses import dataclass, field

INTEGER, TEXT, TRUTH = "INTEGER", "TEXT", "BOOLEAN"
ENDS = ("where", "group", "having", "order", "limit", "union", "intersect", "except")
JOINS = ("join", "left", "right", "full", "cross", "inner")
KINDS = {b"bigint": INTEGER, b"integer": INTEGER, b"text": TEXT, b"boolean": TRUTH}


@dataclass
class Meaning:
    """What is known of a value: its kind, and whether it is never NULL."""

    kind: str = None
    whole: bool = False


@dataclass(eq=False)
class Source:
    """An item of FROM. `table` is a name or the SELECTs of a query; `joined` is the word in front of it, `mark` where that stands."""

    name: str
    table: object
    first: int
    joined: str = ""
    mark: int = -1


@dataclass(eq=False)
class Select:
    outer: object
    start: int = 0
    stop: int = 0
    items: list = field(default_factory=list)
    sources: list = field(default_factory=list)
    clauses: list = field(default_factory=list)

    def padded(self, source, joins):
        """Whether one of the first joins fills this source's columns with NULL."""
        for number, other in enumerate(self.sources[:joins]):
            if other.joined in ("full", "left") and other is source:
                return True
            if other.joined in ("full", "right") and source in self.sources[:number]:
                return True
        return False


class Scopes:
    """The SELECTs of a text. `bases` are the names of its tables in order, `within` tells the SELECT and clause of a token."""

    def __init__(self, draft):
        self.draft, self.within, self.selects, self.bases, self.known = draft, {}, [], [], {}
        self.queries = []
        self.top = self.query(0, None)[0]

    def query(self, at, outer):
        """The SELECTs of the query that begins there, and where it ends."""
        found = []
        while True:
            select, at = self.select(at, outer)
            found.append(select)
            if not self.draft.one_of(at, ("union", "intersect", "except")):
                break
            at += 2 if self.draft.word(at + 1, "all") else 1
        self.queries.append(found)
        while at < len(self.draft) and not self.draft.mark(at, ")"):
            at += 1
        return found, at

    def select(self, at, outer):
        select = Select(outer, at)
        self.selects.append(select)
        at += 2 if self.draft.word(at + 1, "distinct") else 1
        while True:
            first, at = at, self.expression(at, select, "items", ("from",) + ENDS)
            select.items.append((first, at - 1))
            if not self.draft.mark(at, ","):
                break
            at += 1
        if self.draft.word(at, "from"):
            at = self.sources(at + 1, select)
        while self.draft.one_of(at, ("where", "group", "having")):
            clause = self.draft.tokens[at].value.decode()
            first, at = at + 1, self.expression(at + 1, select, clause, ENDS, through=True)
            select.clauses.append((clause, first, at - 1, len(select.sources)))
        select.stop = at - 1
        return select, at

    def sources(self, at, select):
        joined, mark = "", -1
        while True:
            source, at = self.source(at, select)
            source.joined, source.mark = joined, mark
            select.sources.append(source)
            if self.draft.word(at, "on"):
                first, at = at + 1, self.expression(at + 1, select, "on", ENDS + JOINS)
                select.clauses.append(("on", first, at - 1, len(select.sources) - 1))
            joined, mark = "", at
            if self.draft.mark(at, ","):
                at += 1
                continue
            if not self.draft.one_of(at, JOINS):
                return at
            joined = self.draft.tokens[at].value.decode()
            while self.draft.one_of(at, JOINS + ("outer",)):
                at += 1

    def source(self, at, select):
        first, name, outer = at, None, select.outer
        if self.draft.word(at, "lateral"):
            at, outer = at + 1, select
        if self.draft.mark(at, "("):
            table, at = self.query(at + 1, outer)
        else:
            table = name = self.draft.name(at)
            self.bases.append(name)
        at += 1
        if self.draft.word(at, "as"):
            name, at = self.draft.name(at + 1), at + 2
        return Source(name, table, first), at

    def expression(self, at, select, clause, ends, through=False):
        """Goes over an expression, and over what stands behind commas where `through` says so, up to what ends it."""
        where = clause, len(select.clauses)
        while at < len(self.draft) and not self.draft.mark(at, ")", ";"):
            if self.draft.one_of(at, ends) and not self.draft.word(at - 1, "distinct", "from"):
                break
            if self.draft.mark(at, ",") and not through:
                break
            if self.draft.mark(at, "("):
                if self.draft.word(at + 1, "select"):
                    at = self.query(at + 1, select)[1]
                else:
                    at = self.expression(at + 1, select, clause, (), through=True)
            elif self.draft.is_name(at):
                self.within[at] = select, where
            at += 1
        return at

    def meaning(self, at, select, joins):
        """What is known of the column that is named there, in a clause behind so many sources of the SELECT."""
        last = self.draft.last_of(at)
        column, item = self.draft.name(last), self.draft.name(at) if last > at else None
        while select is not None:
            for source in select.sources:
                found = self.of_source(source, column) if item in (None, source.name) else None
                if found:
                    return Meaning(found.kind, found.whole and not select.padded(source, joins))
            select, joins = select.outer, None
        return Meaning()

    def of_source(self, source, column):
        """What is known of a source's column; None where it has none of the name."""
        if isinstance(source.table, str):
            return self.columns.get((source.table, column))
        if (source, column) not in self.known:
            self.known[source, column] = self.of_query(source, column)
        return self.known[source, column]

    def of_query(self, source, column):
        first = source.table[0]
        for number, (_, last) in enumerate(first.items):
            if self.draft.name(last) == column:
                return both([self.of_item(it, number) for it in source.table])
        return None

    def of_item(self, select, number):
        first, last = select.items[number]
        if self.draft.word(last - 1, "as"):
            last -= 2
        return self.of_value(select, first, last)

    def of_value(self, select, first, last):
        draft = self.draft
        if draft.mark(first, "(") and draft.partner[first] == last and not draft.word(first + 1, "select"):
            return self.of_value(select, first + 1, last - 1)
        if draft.last_of(first) != last:
            operators = draft.is_operator(draft.last_of(first) + 1) or draft.mark(first, "-")
            return Meaning(INTEGER if operators else None)
        if draft.is_name(first):
            return self.meaning(first, select, len(select.sources))
        token = draft.tokens[first]
        if token.kind in ("number", "text"):
            return Meaning(INTEGER if token.kind == "number" else TEXT, True)
        if draft.mark(first, "-") or draft.one_of(first, ("sum", "count")):
            return Meaning(INTEGER, draft.word(first, "count"))
        if draft.one_of(first, ("min", "max")):
            return Meaning(self.of_value(select, first + 2, last - 1).kind)
        if draft.word(first, "cast"):
            return Meaning(KINDS.get(draft.tokens[last - 1].value))
        return Meaning()

    def with_columns(self, columns):
        """Sets what is known of the tables' columns, by the names of the table and the column."""
        self.columns = columns
        return self

    def are_told(self):
        """Whether each column is named with its table's name in front."""
        draft = self.draft
        return all(draft.mark(at - 1, ".") or draft.mark(at + 1, ".") or draft.word(at - 1, "as") for at in self.within)

    def names(self):
        """The names of the answer's columns."""
        return [self.draft.name(last) for _, last in self.top[0].items]


def both(meanings):
    kinds = {it.kind for it in meanings}
    return Meaning(kinds.pop() if len(kinds) == 1 else None, all(it.whole for it in meanings))
