"""Answers with provenance taken apart: each row of the query's own columns once, with its witnesses, source by source."""
from dataclasses import dataclass

import answers
import places


def is_empty(row):
    return all(it is None for it in row)


def source_rows(source, witnesses):
    """The rows of a source in these witnesses, each with the numbers of those in which it stands."""
    rows = {}
    for at, witness in enumerate(witnesses, 1):
        rows.setdefault(witness[source.start:source.end], []).append(at)
    return rows


@dataclass
class Figure:
    """A row of the query's own columns: how often the plain answer has it, its witnesses, and for each source its rows in these."""

    row: tuple
    times: int
    witnesses: list
    sources: list

    def count(self):
        return len(self.witnesses)

    def has_empty(self):
        return any(is_empty(it) for rows in self.sources for it in rows)


def is_told(answer, table):
    """Whether the answer without the word PROVENANCE tells how many of the columns are the query's own."""
    own = len(answer.plain.names) if answer.plain else None
    return own is not None and table.names[:own] == answer.plain.names and {row[:own] for row in table.rows} == set(answer.plain.rows)


def sources(answer, table, aliases):
    """The sources of the answer's provenance columns, and whether the names can be read in this way alone."""
    return places.sources(table.names[len(answer.plain.names):], answer.relations, aliases)


def known_rows(answer, source):
    """What is known of the rows of the table that the source is."""
    known = answer.equal.get(source.name)
    return known if known and known.columns == source.columns else answers.Rows(source.columns, {})


def figures(answer, table, found):
    """The rows of the answer, in its order."""
    own = len(answer.plain.names)
    grouped, times = {}, {}
    for row in table.rows:
        grouped.setdefault(row[:own], []).append(row[own:])
    for row in answer.plain.rows:
        times[row] = times.get(row, 0) + 1
    return [Figure(row, times.get(row, 1), witnesses, [source_rows(it, witnesses) for it in found]) for row, witnesses in grouped.items()]
