"""Names and kinds: from a query as it is written to the nodes that it means, or to the number of the rule it breaks."""

from dataclasses import dataclass

from .tree import (
    INTEGER, TEXT, TRUTH, UNTOLD, Aggregate, Base, DependentJoin, Distinct, Filter, Join, Label, Limit, Parens, Project, Provenance,
    Select, SetChain, SetOperation, Single, Sublink, Table, shape, with_parts)

# The joins whose query sees the items before it, and what kind they are of.
LATERAL = {"CROSS LATERAL": "INNER", "LEFT LATERAL": "LEFT"}


class Refused(Exception):
    """A query breaks a rule of names and kinds; `code` is its number, such as E11."""

    def __init__(self, code):
        super().__init__(code)
        self.code = code


@dataclass
class Scope:
    """What the items of FROM show: pairs of a name and its columns, each a name, a kind and a place. In a grouped query
    `groups` has the place in the grouped row of each place that GROUP BY names."""

    items: list
    groups: dict = None


@dataclass
class Context:
    """Where an expression stands: its scope and the outer ones, the nearest first; the sublinks found so far, and the
    aggregates, or None where none may stand. `own_only` is for arguments of aggregates, which see no outer column."""

    scopes: list
    sublinks: list = None
    aggregates: list = None
    group_count: int = 0
    ungrouped: Scope = None
    own_only: bool = False


Resolved = with_parts("Resolved", "node names kinds keys places", """A query whose names are settled. `places` has the places of
its provenance columns, or is None where it doesn't ask for them.""")


def united(kind, other):
    """One kind out of two that have to be one: a NULL without a kind takes the other's."""
    if kind == UNTOLD:
        return other
    if other in (UNTOLD, kind):
        return kind
    raise Refused("E20")


def settled(kind):
    """The kind of a column that is seen from outside: a NULL without a kind is a text."""
    return TEXT if kind == UNTOLD else kind


def the_one(found):
    """The one thing of a name; none is E11, several are E12."""
    if len(found) != 1:
        raise Refused("E12" if found else "E11")
    return found[0]


def lookup(scopes, table, column):
    """Level, place and kind of a reference: the nearest scope that has such a name decides, and a name of an item of FROM
    hides the same name further out. In a grouped query only columns of GROUP BY are seen."""
    for level, scope in enumerate(scopes):
        seen = [columns for item, columns in scope.items if table in (None, item)]
        found = [each for columns in seen for each in columns if each[0] == column]
        if (found if table is None else seen):
            _, kind, place = the_one(found)
            if scope.groups is not None:
                if place not in scope.groups:
                    raise Refused("E22")
                place = scope.groups[place]
            return level, place, kind
    raise Refused("E11")


def turned(negated, settled_expression):
    return ("operation", "not", [settled_expression]) if negated else settled_expression


class Expressions:
    """Settles expressions in a context: `resolve` gives the settled expression and its kind. The parts are looked at from
    the left, then the kinds of all of them."""

    def __init__(self, catalog, context):
        self.catalog, self.context = catalog, context

    def resolve(self, expression):
        return FORMS[expression[0]](self, *expression[1:])

    def of_kind(self, kind, expressions):
        parts = [self.resolve(each) for each in expressions]
        for _, given in parts:
            united(given, kind)
        return [part for part, _ in parts], kind

    def of_one_kind(self, expressions):
        parts, kind = [self.resolve(each) for each in expressions], UNTOLD
        for _, given in parts:
            kind = united(kind, given)
        return [part for part, _ in parts], kind

    def of_column(self, table, column):
        level, place, kind = lookup(self.context.scopes, table, column)
        if self.context.own_only and level > 0:
            raise Refused("E23")
        return ("column", level, place), kind

    def of_chain(self, first, steps):
        parts, _ = self.of_kind(INTEGER, [first] + [part for _, part in steps])
        return ("chain", parts[0], [(operator, part) for (operator, _), part in zip(steps, parts[1:])]), INTEGER

    def of_is_truth(self, negated, word, tested):
        value = {"TRUE": True, "FALSE": False, "UNKNOWN": None}[word]
        return turned(negated, ("is_truth", value, self.of_kind(TRUTH, [tested])[0][0])), TRUTH

    def of_case(self, arms, otherwise):
        parts = [(self.resolve(condition), self.resolve(value)) for condition, value in arms]
        last, last_kind = self.resolve(otherwise or ("null",))
        kind = UNTOLD
        for (_, condition_kind), (_, value_kind) in parts:
            united(condition_kind, TRUTH)
            kind = united(kind, value_kind)
        return ("case", [(condition, value) for (condition, _), (value, _) in parts], last), united(kind, last_kind)

    def of_aggregate(self, function, argument):
        """An aggregate is a column of the grouped row. Its argument sees the rows before they are grouped, and no others."""
        context = self.context
        if context.aggregates is None:
            raise Refused("E23")
        kind = INTEGER
        if function != "count_all":
            inner = Context([context.ungrouped] + context.scopes[1:], own_only=True)
            argument, given = Expressions(self.catalog, inner).resolve(argument)
            if function == "sum":
                united(given, INTEGER)
            elif function in ("min", "max"):
                kind = settled(given)
                if kind == TRUTH:
                    raise Refused("E20")
        context.aggregates.append((function, argument))
        return ("column", 0, context.group_count + len(context.aggregates) - 1), kind

    def sublink(self, kind, query, columns=1, operator=None, tested=None):
        """A sublink of one column, but for EXISTS, which counts only rows; its query sees this row as its nearest outer one."""
        context = self.context
        if context.sublinks is None:
            raise Refused("E24")
        if tested is not None:
            inner = Context(context.scopes, None, context.aggregates, context.group_count, context.ungrouped, context.own_only)
            tested, tested_kind = Expressions(self.catalog, inner).resolve(tested)
        resolved = resolve_query(self.catalog, query, context.scopes)
        if columns is not None and len(resolved.names) != columns:
            raise Refused("E21")
        if tested is not None:
            united(tested_kind, resolved.kinds[0])
        context.sublinks.append(Sublink(kind, resolved.node, operator, tested))
        return ("sublink", len(context.sublinks) - 1), resolved.kinds[0] if kind == "scalar" else TRUTH


def operation(name, parts_and_kind, kind=None, negated=False):
    """An operator over settled parts, of this kind or of its parts'; NOT LIKE and the like are the NOT of it."""
    parts, their_kind = parts_and_kind
    return turned(negated, ("operation", name, parts)), kind or their_kind


FORMS = {
    "number": lambda self, value: (("value", value), INTEGER),
    "text": lambda self, value: (("value", value), TEXT),
    "truth": lambda self, value: (("value", value), TRUTH),
    "null": lambda self: (("value", None), UNTOLD),
    "null_of": lambda self, kind: (("value", None), kind),
    "column": Expressions.of_column,
    "parens": Expressions.resolve,
    "not": lambda self, inner: operation("not", self.of_kind(TRUTH, [inner])),
    "minus": lambda self, inner: operation("minus", self.of_kind(INTEGER, [inner])),
    "and": lambda self, parts: operation("and", self.of_kind(TRUTH, parts)),
    "or": lambda self, parts: operation("or", self.of_kind(TRUTH, parts)),
    "chain": Expressions.of_chain,
    "compare": lambda self, operator, *sides: operation(operator, self.of_one_kind(sides), TRUTH),
    "like": lambda self, negated, *parts: operation("like", self.of_kind(TEXT, parts), TRUTH, negated),
    "between": lambda self, negated, *parts: operation("between", self.of_one_kind(parts), TRUTH, negated),
    "in_list": lambda self, negated, tested, parts: operation("in_list", self.of_one_kind([tested, *parts]), TRUTH, negated),
    "is_null": lambda self, negated, tested: (turned(negated, ("is_null", self.resolve(tested)[0])), TRUTH),
    "is_truth": Expressions.of_is_truth,
    "is_distinct": lambda self, negated, *sides: (turned(not negated, ("same", *self.of_one_kind(sides)[0])), TRUTH),
    "case": Expressions.of_case,
    "coalesce": lambda self, parts: operation("coalesce", self.of_one_kind(parts)),
    "nullif": lambda self, *parts: operation("nullif", self.of_one_kind(parts)),
    "aggregate": Expressions.of_aggregate,
    "exists": lambda self, query: self.sublink("exists", query, None),
    "scalar": lambda self, query: self.sublink("scalar", query),
    # IN is = ANY, and NOT IN is <> ALL.
    "in_query": lambda self, negated, tested, query:
        self.sublink("all" if negated else "any", query, operator="<>" if negated else "=", tested=tested),
    "quantified": lambda self, word, operator, tested, query:
        self.sublink("all" if word == "ALL" else "any", query, operator=operator, tested=tested),
}


def has_aggregate(part):
    """Whether an aggregate stands in a written expression, outside the queries in it."""
    if isinstance(part, (tuple, list)):
        return part[:1] == ("aggregate",) or any(map(has_aggregate, part))
    return False


def name_of(expression, number):
    """The name of an item without an alias: the column's or the function's, or the item's number."""
    while expression[0] == "parens":
        expression = expression[1]
    if expression[0] == "column":
        return expression[2]
    return expression[1].split("_")[0] if expression[0] == "aggregate" else f"column{number}"


def resolve_source(catalog, source, outer, may_ask=True):
    """An item of FROM: its node, its name and its columns. A table is a source of provenance under its own name, and a query
    or view with PROVENANCE is one by its provenance columns. BASERELATION makes all columns of what it marks one source,
    under the name of a table or view or the alias of a query; PROVENANCE (..) makes the columns one that it lists. `may_ask` is
    whether PROVENANCE may stand at the front of a query."""
    base_name = source.of if isinstance(source.of, str) else source.alias
    places = None
    if base_name == source.of and base_name in catalog.tables:
        columns = catalog.tables[base_name]
        node, is_relation = Table(base_name, len(columns)), True
    else:
        if isinstance(source.of, str) and source.of not in catalog.views:
            raise Refused("E10")
        inner = catalog.views[source.of] if isinstance(source.of, str) else resolve_query(catalog, source.of, outer, True, may_ask)
        columns, node, places, is_relation = list(zip(inner.names, inner.kinds)), inner.node, inner.places, False
    names, kinds = [column for column, _ in columns], [kind for _, kind in columns]
    label = Label(None, [])
    if source.mark == "BASERELATION" or source.mark is None and is_relation:
        places, label = list(range(len(columns))), Label(base_name, names)
    elif source.mark:
        places = []
        for marked in source.mark:
            place = the_one([place for place, column in enumerate(names) if column == marked])
            if place in places:
                raise Refused("E14")
            places.append(place)
    if places is not None:
        label.columns = label.columns or [names[place] for place in places]
        node = Base(node, places, label, kinds, len(columns))
    return node, source.alias or base_name, columns


def joined_by(catalog, word, written, left, right, scopes):
    """A join of two nodes, whose condition sees these scopes."""
    width = left.width + right.width
    if word in LATERAL:
        return DependentJoin(LATERAL[word], left, right, width)
    condition, sublinks = ("value", True), []
    if word != "CROSS":
        condition = Expressions(catalog, Context(scopes, sublinks)).of_kind(TRUTH, [written])[0][0]
    return Join("INNER" if word == "CROSS" else word, left, right, condition, sublinks, width)


def resolve_sources(catalog, sources, outer):
    """FROM: its node and its scope. Joins go from the left; items that a comma parts are joined by a condition that is true. The
    condition of a join sees the items from the last comma up to its own. So does a lateral query, without its own; no other query
    of FROM sees any."""
    node, seen, names = None, [], set()

    def add(source, scopes, may_ask=True):
        inner, name, columns = resolve_source(catalog, source, scopes, may_ask)
        if name in names:
            raise Refused("E15")
        names.add(name)
        return inner, name, columns

    def placed(name, columns, start):
        return name, [(column, kind, start + place) for place, (column, kind) in enumerate(columns)]

    for first, joins in sources:
        joined, name, columns = add(first, outer)
        start = node.width if node else 0
        items = [placed(name, columns, 0)]
        for word, source, written in joins:
            beside = [Scope(items[:])] + outer if word in LATERAL else outer
            right, name, columns = add(source, beside, word not in LATERAL)
            items.append(placed(name, columns, joined.width))
            joined = joined_by(catalog, word, written, joined, right, [Scope(items[:])] + outer)
        seen += [(name, [(column, kind, start + place) for column, kind, place in columns]) for name, columns in items]
        node = Join("INNER", node, joined, ("value", True), [], node.width + joined.width) if node else joined
    return node or Single(0), Scope(seen)


def resolve_items(catalog, items, context):
    """The items of a SELECT: settled expressions, names and kinds."""
    settled_items, names, kinds = [], [], []
    top = context.scopes[0]
    for item in items:
        if item[0] == "value":
            expression, kind = Expressions(catalog, context).resolve(item[1])
            settled_items.append(expression)
            names.append(item[2] or name_of(item[1], len(settled_items)))
            kinds.append(kind)
            continue
        shown = [columns for name, columns in top.items if item[0] == "all" or name == item[1]]
        if not shown:
            raise Refused("E11")
        for column, kind, place in (each for columns in shown for each in columns):
            if top.groups is not None and place not in top.groups:
                raise Refused("E22")
            settled_items.append(("column", 0, place if top.groups is None else top.groups[place]))
            names.append(column)
            kinds.append(kind)
    return settled_items, names, kinds


def resolve_select(catalog, select, outer):
    """A SELECT: FROM, WHERE, GROUP BY with the aggregates, HAVING, the items, DISTINCT. It is grouped where GROUP BY, HAVING
    or an aggregate among its items stands; without GROUP BY all rows are one group."""
    node, scope = resolve_sources(catalog, select.sources, outer)
    context = Context([scope] + outer)

    def filtered(written, clause):
        context.sublinks = []
        condition = Expressions(catalog, context).of_kind(TRUTH, [written])[0][0]
        return Filter(node, condition, context.sublinks, clause, node.width)

    if select.where is not None:
        node = filtered(select.where, "WHERE")
    grouping = having = None
    if select.groups or select.having is not None or any(has_aggregate(item) for item in select.items):
        groups = [lookup([scope], *group[1:])[1] for group in select.groups]
        top = Scope(scope.items, {})
        for number, place in enumerate(groups):
            top.groups.setdefault(place, number)
        context = Context([top] + outer, [], [], len(groups), scope)
        node = grouping = Aggregate(node, groups, context.aggregates, None)
        if select.having is not None:
            node = having = filtered(select.having, "HAVING")
    context.sublinks = []
    items, names, kinds = resolve_items(catalog, select.items, context)
    if grouping:
        grouping.width = len(grouping.groups) + len(grouping.aggregates)
    if having:
        having.width = grouping.width
    node = Project(node, items, context.sublinks, len(items))
    return Distinct(node, node.width) if select.distinct else node, names, kinds


def resolve_body(catalog, body, outer):
    """A SELECT, a query in parentheses or set operations: node, names and kinds. The names are those of the first side."""
    if isinstance(body, Select):
        return resolve_select(catalog, body, outer)
    if isinstance(body, Parens):
        inner = resolve_query(catalog, body.query, outer)
        return inner.node, inner.names, inner.kinds
    node, names, kinds = resolve_body(catalog, body.first, outer)
    for word, keeps_all, side in body.steps:
        right, right_names, right_kinds = resolve_body(catalog, side, outer)
        if len(right_names) != len(names):
            raise Refused("E21")
        kinds = [united(kind, other) for kind, other in zip(kinds, right_kinds)]
        node = SetOperation(word, keeps_all, node, right, node.width)
    return node, names, kinds


def asks_for_provenance(body):
    """Whether PROVENANCE stands behind the first SELECT."""
    while isinstance(body, SetChain):
        body = body.first
    return isinstance(body, Select) and body.provenance


def provenance_names(places):
    """The names of the provenance columns: prov_relation_column, with a number from 1 behind the relation for its second
    place and so on; columns that are marked as provenance keep their names."""
    times, names = {}, []
    for label, _ in places:
        if label.relation is None:
            names += label.columns
            continue
        number = times.get(label.relation, 0)
        times[label.relation] = number + 1
        prefix = f"prov_{label.relation}_" + (f"{number}_" if number else "")
        names += [prefix + column for column in label.columns]
    return names


def resolve_query(catalog, query, outer, is_settled=False, may_ask=False):
    """A query: its body, ORDER BY, LIMIT, then its provenance. Keys that no LIMIT needs have no effect inside a query."""
    if asks_for_provenance(query.body) and not may_ask:
        raise Refused("E25")
    node, names, kinds = resolve_body(catalog, query.body, outer)
    keys = []
    for key, down in query.order:
        named = [place for place, name in enumerate(names) if key in (name, place + 1)]
        keys.append((the_one(named), down))
    if query.limit is not None:
        node = Limit(node, keys, query.limit, node.width)
    if is_settled:
        kinds = [settled(kind) for kind in kinds]
    places = None
    if asks_for_provenance(query.body):
        traced = shape(node)
        added = provenance_names(traced)
        node = Provenance(node, node.width + len(added))
        places = list(range(len(names), node.width))
        names, kinds = names + added, kinds + [kind for _, place_kinds in traced for kind in place_kinds]
    return Resolved(node, names, kinds, keys, places)


class Catalog:
    """Tables, by their columns, each a name and a kind, and views, by their settled queries."""

    def __init__(self):
        self.tables, self.views = {}, {}

    def resolve(self, query):
        """A query of a statement, settled."""
        return resolve_query(self, query, [], True, True)

    def add_view(self, name, query):
        """Makes a view; two columns of one name are E14."""
        resolved = self.resolve(query)
        if len(set(resolved.names)) != len(resolved.names):
            raise Refused("E14")
        self.views[name] = resolved
