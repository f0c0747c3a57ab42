"""What the statements of a script are, which names they read, and IMPACT as the EXCEPT that answers the same."""
from dataclasses import dataclass

import scripts

RESERVED = set(
    b"all and any as asc baserelation between by case cast create cross delete desc distinct drop else end except exists false from full "
    b"group having in inner insert intersect into is join left like limit not null on or order outer provenance right select some table "
    b"then true union unknown values when where".split()
)
# What a statement that is answered may be, and what isn't since it would write.
QUERY, REWRITE, VIEW, DROP_VIEW, STORE, FRESH, IMPACT, WRITE, OTHER = (
    "query", "explain", "view", "drop view", "store", "fresh", "impact", "write", "other")
BEGINNINGS = (
    ((b"explain", b"rewrite"), REWRITE), ((b"create", b"view"), VIEW), ((b"drop", b"view"), DROP_VIEW), ((b"show", b"fresh"), FRESH),
    ((b"impact", b"delete"), IMPACT), ((b"insert",), WRITE), ((b"delete",), WRITE), ((b"copy",), WRITE), ((b"drop", b"table"), WRITE),
)


def kind_of(statement):
    words = statement.tokens
    if statement.begins(b"create", b"table"):
        return STORE if len(words) > 3 and words[3].is_word(b"as") else WRITE
    ahead = 0
    while ahead < len(words) - 1 and words[ahead].is_mark(b"("):
        ahead += 1
    if words[ahead].is_word(b"select"):
        return QUERY
    return next((kind for beginning, kind in BEGINNINGS if statement.begins(*beginning)), OTHER)


def sources(tokens):
    """The places of tokens that name a table or view: behind FROM, JOIN, and a comma between sources."""
    found, inside = [], [""]
    for at, token in enumerate(tokens):
        if token.is_mark(b"("):
            inside.append("")
        elif token.is_mark(b")"):
            if len(inside) > 1:
                inside.pop()
        elif token.is_word(b"from") and at and tokens[at - 1].is_word(b"distinct"):
            continue
        elif token.kind == "word" and token.value in (b"from", b"where", b"group", b"having", b"order", b"select"):
            inside[-1] = token.value.decode()
        ahead = tokens[at - 1] if at else None
        if ahead and token.is_name() and token.value not in (RESERVED if token.kind == "word" else ()):
            if ahead.is_word(b"from") and inside[-1] == "from" or ahead.is_word(b"join") or ahead.is_mark(b",") and inside[-1] == "from":
                found.append(at)
    return found


def named(statement):
    """The names of tables and views that the statement may read, write or make."""
    words = statement.tokens
    found = [words[at].value.decode(errors="replace") for at in sources(words)]
    if kind_of(statement) in (FRESH, STORE, VIEW, WRITE, DROP_VIEW) and len(words) > 2:
        found.append(words[2].value.decode(errors="replace"))
    return found


def quoted_names(statements):
    """The names that the script writes between double quotes."""
    return {it.value.decode(errors="replace") for statement in statements for it in statement.tokens if it.kind == "name"}


def source_text(script, tokens):
    return script[tokens[0].start:tokens[-1].end]


@dataclass
class Impact:
    """The parts of an IMPACT: the table, its condition's tokens, and those of its query with and without the ORDER BY."""

    table: scripts.Token
    condition: list
    body: list
    order: list

    @staticmethod
    def of(statement):
        """The parts; None where the statement is shorter than an IMPACT."""
        words = statement.tokens
        behind = next((at for at in range(4, len(words) - 1) if words[at].is_word(b"of") and (
            words[at + 1].is_word(b"select") or words[at + 1].is_mark(b"("))), None)
        if behind is None:
            return None
        query, depth, order = words[behind + 1:], 0, None
        for at, token in enumerate(query):
            depth += 1 if token.is_mark(b"(") else -1 if token.is_mark(b")") else 0
            if depth == 0 and token.is_word(b"order"):
                order = at
        cut = len(query) if order is None else order
        return Impact(words[3], words[5:behind] if words[4].is_word(b"where") else [], query[:cut], query[cut:])

    def kept(self, script):
        """The query of the rows that would stay."""
        where = b"(" + source_text(script, self.condition) + b") IS NOT TRUE" if self.condition else b"FALSE"
        return b"(SELECT * FROM " + scripts.quoted(self.table.value) + b" WHERE " + where + b")"


def replaced(script, tokens, by):
    """The tokens' text with each source that `by` has a text for put in that one's place, under its own name."""
    parts, at = [], tokens[0].start
    for place in sources(tokens):
        token = tokens[place]
        text = by.get(token.value)
        if text is None:
            continue
        behind = tokens[place + 1] if place + 1 < len(tokens) else None
        named_there = behind is not None and (behind.is_word(b"as") or behind.kind == "name" or behind.kind == "word"
                                              and behind.value not in RESERVED)
        parts += [script[at:token.start], text, b"" if named_there else b" AS " + scripts.quoted(token.value)]
        at = token.end
    return b"".join(parts) + script[at:tokens[-1].end]


def reads(tokens, names):
    return any(tokens[at].value in names for at in sources(tokens))


def impact_texts(script, impact, views, mark):
    """The statements that answer an IMPACT: views over the rows that would stay, made and dropped, and the EXCEPT between.

    `views` has the tokens of the query of each view, in the order in which they were made.
    """
    by, made = {impact.table.value: impact.kept(script)}, []
    for name, tokens in views.items():
        if reads(tokens, by):
            own = scripts.quoted(name + b" " + mark)
            made.append((b"CREATE VIEW " + own + b" AS " + replaced(script, tokens, by), b"DROP VIEW " + own))
            by[name] = own
    query = b"(" + source_text(script, impact.body) + b") EXCEPT (" + replaced(script, impact.body, by) + b")"
    order = b" " + source_text(script, impact.order) if impact.order else b""
    return [it[0] for it in made], query + order, [it[1] for it in reversed(made)]
