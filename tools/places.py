"""Which columns of an answer with provenance belong to which source.

The first columns are the query's own: as many as it has without the word PROVENANCE, under the same names. Behind them stand the
sources' columns, whose names say it: `prov_TABLE_COLUMN`, or `prov_TABLE_N_COLUMN` where the table was named N times before. Names
may hold anything, so this is no grammar to be read back: a group of columns is a source's where their names are, in order, what
the program makes of the columns of a table or view of the script, or where they begin with `prov_` and the alias of a query with
BASERELATION behind it. Columns that fit no source keep the names that the script gave them. Where the names can be read in
several ways it is said.
"""
import re
from dataclasses import dataclass

import scripts

# How many readings of the names are looked at.
MOST = 8
LONGEST_TITLE = 40


@dataclass(frozen=True)
class Source:
    """A group of columns: from which to which one, of what, how often that was named before, and the columns' own names."""

    start: int
    end: int
    name: str
    before: int
    columns: tuple


def aliases(script):
    """The names of queries in FROM that have BASERELATION behind them."""
    found = set()
    for statement in scripts.statements(script):
        words = statement.tokens
        for at, word in enumerate(words):
            if not word.is_word(b"baserelation") or at < 2 or not words[at - 1].is_name():
                continue
            ahead = at - 3 if words[at - 2].is_word(b"as") else at - 2
            if ahead >= 0 and words[ahead].is_mark(b")"):
                found.add(words[at - 1].value.decode(errors="replace"))
    return found


def numbered(name, front, column):
    """How often the relation was named before, by the name of a column of its place; None where the name is no such one."""
    if name == f"{front}_{column}":
        return 0
    middle = re.fullmatch(re.escape(front) + r"_([1-9][0-9]*)_" + re.escape(column), name, re.S)
    return int(middle[1]) if middle else None


def fitting(names, at, relations, aliases):
    """The sources that may begin with that column."""
    found = set()
    for name, tables in relations.items():
        for columns in tables:
            before = numbered(names[at], f"prov_{name}", columns[0])
            if before is None or at + len(columns) > len(names):
                continue
            front = f"prov_{name}_{before}" if before else f"prov_{name}"
            if names[at:at + len(columns)] == [f"{front}_{column}" for column in columns]:
                found.add(Source(at, at + len(columns), name, before, tuple(columns)))
    for name in aliases - set(relations):
        front = f"prov_{name}_"
        end = at
        while end < len(names) and names[end].startswith(front):
            end += 1
            columns = [it[len(front):] for it in names[at:end]]
            number = re.match(r"([1-9][0-9]*)_", columns[0])
            if number and all(it.startswith(number[0]) for it in columns):
                found.add(Source(at, end, name, int(number[1]), tuple(it[len(number[0]):] for it in columns)))
            else:
                found.add(Source(at, end, name, 0, tuple(columns)))
    return found


def readings(names, relations, aliases):
    """Some ways, each a tuple of sources in order, to read the names, of those that leave the fewest columns without a source."""
    best = {len(names): (0, [()])}
    for at in reversed(range(len(names))):
        ways = {}
        left, behind = best[at + 1]
        ways.setdefault(left + 1, []).extend(behind)
        for source in sorted(fitting(names, at, relations, aliases), key=lambda it: (it.end, it.name)):
            left, behind = best[source.end]
            ways.setdefault(left, []).extend((source, *it) for it in behind)
        least = min(ways)
        best[at] = least, ways[least][:MOST]
    return best[0][1]


def misnumbered(sources):
    """How many of the sources have another number than that of the earlier ones of their name: those of a PROVENANCE inside."""
    earlier, wrong = {}, 0
    for source in sources:
        wrong += source.before != earlier.get(source.name, 0)
        earlier[source.name] = earlier.get(source.name, 0) + 1
    return wrong


def title(source):
    """What a source is called: without a name by its columns."""
    if source.name:
        return source.name + (f" ({ordinal(source.before + 1)} time)" if source.before else "")
    columns = ", ".join(source.columns)
    return columns if len(columns) <= LONGEST_TITLE else columns[:LONGEST_TITLE] + ".."


def ordinal(number):
    ending = "th" if number % 100 in (11, 12, 13) else {1: "st", 2: "nd", 3: "rd"}.get(number % 10, "th")
    return f"{number}{ending}"


def with_others(names, sources):
    """The sources, and between them groups of the columns that no source has, under the name ''."""
    groups, at = [], 0
    for source in [*sources, Source(len(names), len(names), "", 0, ())]:
        if at < source.start:
            groups.append(Source(at, source.start, "", 0, tuple(names[at:source.start])))
        at = source.end
        groups.append(source)
    return groups[:-1]


def sources(names, relations, aliases):
    """The sources of provenance columns of these names, and whether the names can be read in this way alone."""
    found = readings(names, relations, aliases)
    if len(found) == MOST:
        return [Source(0, len(names), "", 0, tuple(names))], False
    least = min(map(misnumbered, found))
    found = [with_others(names, it) for it in found if misnumbered(it) == least]
    # What stands between two borders that all readings have is one source, or can't be told apart.
    borders = sorted(set.intersection(*({0} | {source.end for source in reading} for reading in found)))
    groups, alone = [], True
    for start, end in zip(borders, borders[1:]):
        within = {tuple(it for it in reading if start <= it.start < end) for reading in found}
        if len(within) == 1:
            groups.extend(within.pop())
            continue
        single = all(len(it) == 1 for it in within)
        name = " or ".join(sorted({title(it[0]) for it in within})) if single else ""
        groups.append(Source(start, end, name, 0, tuple(names[start:end])))
        alone = False
    return groups, alone
