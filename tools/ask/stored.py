"""Answers that are stored in the database, and what is remembered of them in the table perm_stored beside.

A row of it says of a stored table: a table that its query read, in the order of the printed text, and that table's fingerprint then;
the row of place 0 is of the stored table itself.
"""
from dataclasses import dataclass

from .printed import quoted
from .scopes import INTEGER

MEMORY = "perm_stored"


@dataclass
class Source:
    name: str
    fingerprint: str


@dataclass
class Stored:
    """A stored answer with provenance: how many of its columns are the query's own, and its sources as they were."""

    own: int
    itself: str
    sources: list


class Memory:
    """What the database remembers of stored answers."""

    def __init__(self, engine):
        self.engine = engine
        self.there = bool(engine.tables([MEMORY], set()))
        self.known = self.read() if self.there else {}

    def read(self):
        found = {}
        text = f"SELECT name, own, place, source, fingerprint FROM {self.engine.tables([MEMORY], set())[MEMORY].origin} ORDER BY name, place"
        for rows in self.engine.rows(text):
            for name, own, place, source, fingerprint in rows:
                if place == 0:
                    found[name] = Stored(own, fingerprint, [])
                elif name in found:
                    found[name].sources.append(Source(source, fingerprint))
        return found

    def keep(self, name, stored):
        """Writes down what is remembered of a table."""
        engine = self.engine
        if not self.there:
            kinds = "name TEXT, own {0}, place {0}, source TEXT, fingerprint TEXT".format(engine.columns_for(INTEGER))
            engine.try_statement(f"CREATE TABLE {engine.place_for(MEMORY)} ({kinds})")
            self.there = True
        rows = [(0, name, stored.itself)] + [(place, it.name, it.fingerprint) for place, it in enumerate(stored.sources, 1)]
        values = ", ".join(f"({literal(name)}, {stored.own}, {place}, {literal(source)}, {literal(fingerprint)})" for place, source, fingerprint in rows)
        engine.try_statement(f"INSERT INTO {engine.place_for(MEMORY)} VALUES {values}")
        self.known[name] = stored

    def holds(self, name, table):
        """Whether the table is a stored answer that nobody wrote to since."""
        return name in self.known and not table.reason and self.engine.fingerprint(table) == self.known[name].itself


def prelude(name, table, stored):
    """The statements of the language that make a table which stores provenance in the same columns."""
    base = quoted(f"{name} as it was stored")
    places = ", ".join(quoted(it.name) for it in table.columns[stored.own:])
    own = ", ".join(quoted(it.name) for it in table.columns[:stored.own])
    mark = f" PROVENANCE ({places})" if places else ""
    return [table.create(f"{name} as it was stored"), f"CREATE TABLE {quoted(name)} AS SELECT PROVENANCE {own} FROM {base}{mark}"]


def literal(text):
    return "'" + text.replace("'", "''") + "'"
