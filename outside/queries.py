"""Random tables, views and queries from a seed."""

import copy
import itertools
import os
import random
from dataclasses import dataclass, replace

from reference import answer
from reference.meaning import TooMuch
from reference.names import LATERAL, Catalog, Refused, Scope, has_aggregate, lookup, resolve_body, resolve_source, resolve_sources
from reference.text import name, text_literal, write_query
from reference.tree import GREATEST, INTEGER, LEAST, TEXT, TRUTH, Parens, Query, Select, SetChain, Source

TEXTS = ["x", "y", "xy", "", 'a"b', "o'k", "ä", "%", "x_y,"]
PATTERNS = ["%", "x%", "_", "%y", "x_", "", "%x%", "_%_", "ä", '%"%', "__%"]
OPERATORS = ["=", "=", "<>", "<", "<=", ">", ">="]
DOMAINS = [[1, 2, None], [1, 2, 3, None], [0, 1, 2], [1, 2, None, None], [0, 1, 2, 3, -1, None]]


@dataclass
class Style:
    """What a database's queries have much of: chances of set operations, sublinks, faults, views with marks, grouping, lateral
    queries behind an item of FROM and SELECTs over one table with short expressions, how deep other expressions go, how many
    SELECTs stand inside each other, and how often FROM has no item, one, two and three beside the lateral queries."""

    sets: float = .1
    sublinks: float = .3
    faults: float = .02
    views: float = .1
    grouped: float = .2
    lateral: float = .06
    simple: float = .4
    depths: tuple = (0, 1, 1, 2)
    nested: tuple = (1, 1, 2)
    items: tuple = (3, 60, 32, 5)


STYLES = {
    "wide": Style(sets=.2, simple=.1, depths=(0, 1, 2, 2, 3)),
    "sublinks": Style(sublinks=.85, simple=.85, nested=(1, 1, 2, 3)),
    "sets": Style(sets=.8, sublinks=.15, simple=.85),
    "faults": Style(sets=.1, faults=.4, sublinks=.2, grouped=.25, simple=.3, depths=(1, 1, 2)),
    "views": Style(views=.45, sublinks=.2),
    "lateral": Style(views=.15, lateral=.45, sublinks=.35, simple=.15, nested=(1, 1, 1, 2), items=(2, 45, 38, 15)),
}
# What a reference stands as until it is known where: no name is so.
MARK = "\0"


@dataclass
class Place:
    """Where an expression stands: the scopes that it sees, how deep sublinks may go from there and how many more the SELECT may
    have, the rows before grouping, and whether it sees its own rows alone."""

    scopes: list
    nested: int = 0
    room: list = None
    ungrouped: Scope = None
    own_only: bool = False


def selects_in(part):
    """Each SELECT of a written query, outer ones first."""
    if isinstance(part, Select):
        yield part
    for each in part if isinstance(part, (tuple, list)) else getattr(part, "__dict__", {}).values():
        yield from selects_in(each)


def laterals_in(query):
    """Each lateral query of a written query, with the items of its FROM that it doesn't see, the first of which is its own."""
    for select in selects_in(query):
        for group, (_, joins) in enumerate(select.sources):
            others = [source for at, (first, steps) in enumerate(select.sources) if at != group
                      for source in [first] + [step[1] for step in steps]]
            for number, (word, source, _) in enumerate(joins):
                if word in LATERAL:
                    yield source.of, [step[1] for step in joins[number:]] + others


class Queries:
    """Tables, views and queries over them. `statements` makes the tables and views."""

    def __init__(self, seed, style):
        self.random, self.style = random.Random(seed), STYLES[style]
        self.catalog, self.tables, self.statements, self.numbers = Catalog(), {}, [], itertools.count(1)
        for table in self.random.sample(["r", "s", "t", "u", "Big T"], self.choice([2, 3, 3])):
            self.make_table(table)
        for number in range(self.choice([0, 1, 2]) + (self.style.views > .3)):
            self.make_view(f"v{number}")

    def chance(self, likely):
        return self.random.random() < likely

    def choice(self, things):
        return self.random.choice(list(things))

    def some(self, make, counts):
        return [make() for _ in range(self.choice(counts))]

    def fresh(self, letter):
        return f"{letter}{next(self.numbers)}"

    # Tables and views

    def make_table(self, table):
        columns = [(column, INTEGER if self.chance(.85) else TEXT)
                   for column in self.random.sample("abcd", self.choice([1, 2, 2, 3]))]
        integers = self.choice(DOMAINS) + ([GREATEST, LEAST] if self.chance(.05) else [])
        texts = self.choice([TEXTS[:3] + [None], TEXTS + [None]])
        rows = [tuple(self.choice(integers if kind == INTEGER else texts) for _, kind in columns)
                for _ in range(self.choice([0, 1, 2, 2, 3, 3, 3, 4, 4, 4, 5, 5]))]
        self.catalog.tables[table], self.tables[table] = columns, rows
        self.statements.append(f"CREATE TABLE {name(table)} ({', '.join(f'{name(each)} {kind}' for each, kind in columns)})")
        if rows:
            written = (f"({', '.join(map(self.constant, row))})" for row in rows)
            self.statements.append(f"INSERT INTO {name(table)} VALUES {', '.join(written)}")

    def constant(self, value):
        if isinstance(value, str):
            return text_literal(value)
        return "NULL" if value is None else f"{value + 1} - 1" if value == LEAST else str(value)

    def make_view(self, view):
        for _ in range(6):
            try:
                query = self.query([], None, 1, provenance=self.chance(.35), unique=True)
                self.catalog.add_view(view, query)
                if not answer(self.tables, self.catalog.views[view], 100_000)[1] or self.chance(.1):
                    self.statements.append(f"CREATE VIEW {view} AS {write_query(query)}")
                    return
            except (Refused, TooMuch):
                pass
            self.catalog.views.pop(view, None)

    # Expressions

    def literal(self, kind):
        if self.chance(.12):
            return self.choice([("null_of", kind), ("null",)])
        if kind == INTEGER:
            return ("number", self.choice([0, 1, 2, 3])) if self.chance(.9) else ("minus", ("number", 1))
        return ("text", self.choice(TEXTS)) if kind == TEXT else ("truth", self.chance(.6))

    def column(self, kind, place, outer=.3):
        """A reference to a column of this kind that can be seen, or a literal where there is none."""
        seen = [(level, item, column) for level, scope in enumerate(place.scopes[:1] if place.own_only else place.scopes)
                for item, columns in scope.items for column, its_kind, at in columns
                if its_kind == kind and (scope.groups is None or at in scope.groups)]
        for _ in range(4 if seen else 0):
            far = [each for each in seen if each[0]] if self.chance(outer) else []
            level, item, column = self.choice(far or [each for each in seen if not each[0]] or seen)
            table = item if self.chance(.6) else None
            try:
                found, _, its_kind = lookup(place.scopes, table, column)
                if (found, its_kind) == (level, kind):
                    return "column", table, column
            except Refused:
                pass
        return self.literal(kind)

    def comparison(self, place):
        """A comparison of a column with another, in a sublink often with an outer one."""
        kind = self.random.choices([INTEGER, TEXT], [9, 1])[0]
        left, right = self.column(kind, place, .1), self.column(kind, place, .7)
        if kind == INTEGER and self.chance(self.style.faults):
            left = self.faulty(place)
            if self.chance(.5):
                guard = "compare", self.choice(OPERATORS), self.column(INTEGER, place, .1), ("number", self.choice([0, 1]))
                return self.choice(["and", "and", "or"]), [guard, ("compare", self.choice(OPERATORS), left, right)]
        return "compare", self.choice(OPERATORS), left, self.literal(kind) if left == right else right

    def faulty(self, place):
        """Arithmetic that meets a fault on some rows."""
        column, other = self.column(INTEGER, place), self.column(INTEGER, place)
        if self.chance(.25):
            last = ("chain", ("number", 1), [("/", other)]) if self.chance(.6) else other
            return "chain", ("number", GREATEST), [("+", column), (self.choice("+-"), last)]
        first = self.choice([("number", 1), ("number", 1), ("number", GREATEST), other])
        return "chain", first, [(self.choice("///%+-*"), column)]

    def aggregate(self, kind, place):
        inside = Place([place.ungrouped] + place.scopes[1:], own_only=True)
        function = self.choice(["min", "max"] if kind == TEXT else
                               ["count_all", "count_all", "count", "count_distinct", "sum", "sum", "min", "max", "max"])
        if function == "count_all":
            return "aggregate", function, None
        any_kind = self.choice([INTEGER, INTEGER, TEXT, TRUTH]) if function.startswith("count") else kind
        return "aggregate", function, self.expression(any_kind, inside, self.choice([0, 0, 1]))

    def expression(self, kind, place, depth):
        if place.ungrouped is not None and kind != TRUTH and self.chance(.45):
            return self.aggregate(kind, place)
        if kind == INTEGER and self.chance(self.style.faults):
            return self.faulty(place)
        with_sublink = place.nested > 0 and place.room[0] > 0
        if with_sublink and self.chance(self.style.sublinks if kind == TRUTH else self.style.sublinks / 4):
            return self.tested(self.sublink(place), place) if kind == TRUTH else self.scalar(kind, place)
        if depth <= 0 or self.chance(.2):
            if kind == TRUTH and self.chance(.85):
                return self.comparison(place)
            return self.column(kind, place) if self.chance(.9) else self.literal(kind)
        return (self.truth if kind == TRUTH else self.value)(kind, place, depth - 1)

    def truth(self, _, place, depth):
        kind = self.choice([INTEGER, INTEGER, INTEGER, TEXT, TEXT, TRUTH])

        def part(of=kind):
            return self.expression(of, place, depth)
        forms = {
            "compare": lambda: (self.choice(OPERATORS), part(), part()),
            "and": lambda: (self.some(lambda: part(TRUTH), [2, 2, 3]),),
            "or": lambda: (self.some(lambda: part(TRUTH), [2, 2, 3]),),
            "not": lambda: (part(TRUTH),),
            "is_null": lambda: (self.chance(.4), part()),
            "is_truth": lambda: (self.chance(.4), self.choice(["TRUE", "FALSE", "UNKNOWN"]), part(TRUTH)),
            "is_distinct": lambda: (self.chance(.5), part(), part()),
            "like": lambda: (self.chance(.3), part(TEXT), ("text", self.choice(PATTERNS)) if self.chance(.8) else part(TEXT)),
            "between": lambda: (self.chance(.3), part(), part(), part()),
            "in_list": lambda: (self.chance(.4), part(), self.some(part, [1, 2, 3])),
            "parens": lambda: (part(TRUTH),),
            "case": lambda: ([(part(TRUTH), part(TRUTH))], part(TRUTH) if self.chance(.7) else None),
        }
        form = self.random.choices(list(forms), [28, 14, 12, 8, 6, 8, 6, 6, 6, 6, 3, 3])[0]
        return (form, *forms[form]())

    def value(self, kind, place, depth):
        def part(of=kind):
            return self.expression(of, place, depth)

        def chain():
            operators = self.choice(["+-", "+-", "*", "*/%"])
            return part(), [(self.choice(operators), part() if self.chance(.6) else ("number", self.choice([1, 2, 3])))
                            for _ in range(self.choice([1, 1, 2]))]
        forms = {
            "case": lambda: (self.some(lambda: (part(TRUTH), part()), [1, 1, 2]), part() if self.chance(.7) else None),
            "coalesce": lambda: (self.some(part, [1, 2, 3]),),
            "nullif": lambda: (part(), part()),
            "parens": lambda: (part(),),
            "minus": lambda: (part(),),
            "chain": chain,
        }
        form = self.random.choices(list(forms), [12, 16, 8, 5] + ([6, 40] if kind == INTEGER else [0, 0]))[0]
        return (form, *forms[form]())

    def inner(self, place, kinds, **asked):
        place.room[0] -= 1
        return self.query(place.scopes, kinds, place.nested - 1, inside=True, **asked)

    def scalar(self, kind, place):
        if kind != TRUTH and self.chance(.6):
            return "scalar", self.inner(place, [kind], one_row=True)
        query = self.inner(place, [kind])
        if self.chance(.8):
            query.limit = 1
        return "scalar", query

    def sublink(self, place):
        kind = self.random.choices([INTEGER, TEXT, TRUTH], [10, 1, 1])[0]
        form = self.random.choices(["exists", "in_query", "quantified", "compare"], [25, 30, 38, 7])[0]
        if form == "exists":
            return form, self.inner(place, None)
        tested = self.expression(kind, replace(place, nested=0), 0)
        if form == "in_query":
            return form, self.chance(.55), tested, self.inner(place, [kind])
        if form == "quantified":
            return form, self.choice(["ANY", "SOME", "ALL", "ALL"]), self.choice(OPERATORS), tested, self.inner(place, [kind])
        return form, self.choice(OPERATORS), self.scalar(kind, place), tested

    def tested(self, truth, place):
        """A sublink as it is, or what keeps rows for which it isn't true."""
        if self.chance(.4):
            return "is_truth", self.chance(.6), self.choice(["TRUE", "FALSE", "UNKNOWN"]), truth
        return self.choice([truth, truth, truth, ("not", truth), ("or", [truth, self.expression(TRUTH, place, 0)])])

    # Queries

    def query(self, outer, kinds, depth, provenance=False, inside=False, unique=False, one_row=False):
        """A query that sees these outer scopes. `kinds` are its columns', where they have to be some; `unique` is for a view, the
        columns of which have different names; `one_row` is for a value, which an aggregate without GROUP BY gives."""
        if depth > 0 and not one_row and self.chance(self.style.sets):
            kinds = kinds or self.random.choices([INTEGER, TEXT], [5, 1], k=self.choice([1, 1, 1, 2]))
            body = self.sets(outer, kinds, depth, provenance, unique, inside)
        else:
            body = self.select(outer, kinds, depth, provenance, unique, one_row, inside)
        query = Query(body)
        if not one_row:
            _, names, _ = resolve_body(self.catalog, body, outer)
            for number in self.some(lambda: self.random.randrange(len(names)), [1, 1, 2]) if self.chance(.22) else []:
                named = self.chance(.5) and names.count(names[number]) == 1
                query.order.append((names[number] if named else number + 1, self.chance(.5)))
            if self.chance(.08):
                query.limit = self.choice([0, 1, 1, 2, 2, 3, 5])
        return query

    def sets(self, outer, kinds, depth, provenance, unique, inside):
        def side():
            if self.chance(.2):
                return Parens(self.query(outer, kinds, depth - 1, inside=inside))
            return self.select(outer, kinds, depth - 1, inside=inside)

        def term(first):
            if self.chance(.3):
                return SetChain(first, self.some(lambda: ("INTERSECT", self.chance(.5), side()), [1, 1, 2]))
            return first
        first = term(self.select(outer, kinds, depth - 1, provenance, unique, inside=inside))
        if isinstance(first, SetChain) and self.chance(.5):
            return first
        return SetChain(first, self.some(
            lambda: (self.choice(["UNION", "EXCEPT", "EXCEPT"]), self.chance(.5), term(side())), [1, 1, 2]))

    def source(self, outer, depth, inside):
        """An item of FROM."""
        source = Source(self.choice(self.catalog.tables), self.fresh("y") if self.chance(.5) else None)
        if self.catalog.views and self.chance(self.style.views):
            source.of = self.choice(self.catalog.views)
        elif depth > 0 and self.chance(.25):
            source = Source(self.query(outer, None, depth - 1, self.chance(.3), inside), self.fresh("x"))
        if self.chance(self.style.views + .05):
            names = [column for column, _ in resolve_source(self.catalog, source, outer)[2]]
            names = [column for column in names if names.count(column) == 1]
            source.mark = self.random.sample(names, self.random.randint(1, len(names))) if names and self.chance(.5) \
                else "BASERELATION"
        return source

    def laterals(self, first, joins, outer, depth, inside):
        """Joins with a lateral query, which sees the items before it, behind these: none in most cases."""
        if depth < 0 or not self.chance(self.style.lateral):
            return []
        scopes = [resolve_sources(self.catalog, [(first, joins)], outer)[1]] + outer
        query = self.query(scopes, [INTEGER], depth - 1, inside=inside, one_row=True) if self.chance(.25) \
            else self.query(scopes, None, depth - 1, inside=inside)
        word = self.choice(LATERAL)
        return [(word, Source(query, self.fresh("x")), ("truth", True) if word == "LEFT LATERAL" else None)]

    def sources(self, outer, depth, inside):
        sources, used = [], set()
        for _ in range(self.random.choices([0, 1, 2, 3], self.style.items)[0]):
            source = self.source(outer, depth, inside)
            if (source.alias or source.of) in used:
                source.alias = self.fresh("z")
            used.add(source.alias or source.of)
            if not sources or self.chance(.25):
                sources.append((source, self.laterals(source, [], outer, depth, inside)))
                continue
            first, joins = sources[-1]
            word, condition = self.choice(["INNER", "INNER", "LEFT", "RIGHT", "FULL", "CROSS"]), None
            if word != "CROSS":
                scope = resolve_sources(self.catalog, [(first, joins + [("CROSS", source, None)])], outer)[1]
                beside = any(step[0] in LATERAL for step in joins)
                place = Place([scope] + outer, depth if inside else max(depth, 1), [self.choice([1] if beside else [0, 0, 1])])
                condition = self.expression(TRUTH, place, self.choice([0, 0, 0, 1, 2]))
            joins.append((word, source, condition))
            joins += self.laterals(first, joins, outer, depth, inside)
        return sources

    def grouping(self, scope, one_row):
        """GROUP BY, and the scope behind it."""
        groups, top = [], Scope(scope.items, {})
        columns = [(item, column, place) for item, columns in scope.items for column, _, place in columns
                   if [each[0] for each in columns].count(column) == 1]
        for _ in range(self.choice([0, 0, 0, 1] if one_row else [0, 1, 1, 2]) if columns else 0):
            item, column, place = self.choice(columns)
            top.groups.setdefault(place, len(groups))
            groups.append(("column", item, column))
        return groups, top

    def select(self, outer, kinds, depth, provenance=False, unique=False, one_row=False, inside=False):
        simple = self.chance(self.style.simple)
        source = Source(self.choice(self.catalog.tables), self.fresh("y") if self.chance(.6) else None)
        sources = [(source, [])] if simple else self.sources(outer, depth, inside)
        depths = (0,) if simple else self.style.depths
        scope = resolve_sources(self.catalog, sources, outer)[1]
        nested = depth if inside else max(depth, 1)
        place = Place([scope] + outer, nested, [self.choice([1, 1, 2])])
        select = Select([], sources, provenance=provenance, distinct=self.chance(.12))
        if self.chance(.35 if simple and inside else .5):
            select.where = self.expression(TRUTH, place, self.choice(depths))
        grouped = one_row or self.chance(self.style.grouped / 2 if simple else self.style.grouped)
        if grouped:
            select.groups, top = self.grouping(scope, one_row)
            place = replace(place, scopes=[top] + outer, ungrouped=scope)
            if self.chance(.4):
                select.having = self.expression(TRUTH, place, self.choice([0, 1, 2]))
        elif not kinds and sources and not unique and self.chance(.25):
            select.items = [self.choice([("all",), ("all_of", scope.items[0][0])])]
            return select
        kinds = kinds or self.random.choices([INTEGER, TEXT, TRUTH], [5, 1, 2], k=self.choice([1, 1, 2, 2, 3]))
        for number, kind in enumerate(kinds):
            alias = "abcdef"[number] if unique else self.choice(["a", "b", "k", "Zed"]) if self.chance(.3) else None
            select.items.append(("value", self.expression(kind, place, self.choice(depths)), alias))
        if grouped and not select.groups and select.having is None and not any(map(has_aggregate, select.items)):
            select.having = "compare", ">=", ("aggregate", "count_all", None), ("number", 0)
        return select

    def statement(self):
        """A query of a statement."""
        return self.query([], None, self.choice(self.style.nested), provenance=self.chance(.6))

    def columns_of(self, item):
        """Names of columns that an item of FROM may have."""
        if isinstance(item.of, Query):
            return "ab"
        view = self.catalog.views.get(item.of)
        return view.names if view else [column for column, _ in self.catalog.tables[item.of]]

    def broken(self, query):
        """The query with a lateral query that asks for its provenance, or reads what it may not see: itself, what stands behind it
        or before a comma, or a name that may mean anything; and the place in its text where it does so. None where it has no
        lateral query that begins with SELECT, or breaks a rule without the condition that it had."""
        broken = copy.deepcopy(query)
        laterals = []
        for lateral, unseen in laterals_in(broken):
            front = lateral.body
            while isinstance(front, SetChain):
                front = front.first
            laterals += [(front, unseen)] if isinstance(front, Select) else []
        if not laterals:
            return None
        front, unseen = self.choice(laterals)
        if self.chance(.3):
            before = write_query(broken)
            front.provenance = True
            return broken, len(os.path.commonprefix([before, write_query(broken)]))
        item = self.choice(unseen[1:] if unseen[1:] and self.chance(.8) else unseen[:1])
        table, column = (item.alias or item.of) if self.chance(.8) else None, self.choice(self.columns_of(item))

        def reading(table, column):
            front.where = "is_null", False, ("column", table, column)
            return write_query(broken)
        at = reading(*((MARK, column) if table else (None, MARK))).index(name(MARK))
        front.where = "truth", True
        if self.refuses(broken):
            return None
        reading(table, column)
        return broken, at

    def refuses(self, query):
        """Whether a query breaks a rule, as where a source of the condition that it had is named further out."""
        try:
            self.catalog.resolve(query)
        except Refused:
            return True
        return False
