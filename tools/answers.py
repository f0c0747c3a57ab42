"""The program's answers, statement by statement, as bytes, and as tables of values.

A second run of a script, with questions of our own between its statements, tells where each answer begins and ends, and how many
columns a query has without PROVENANCE. Its answers are compared with those of the first, to the byte.
"""
import os
import pathlib
import re
import subprocess
import tempfile
from dataclasses import dataclass, field

import scripts

LONGEST_SCRIPT = 1 << 20
FIELD = re.compile(rb'"((?:[^"]|"")*)"|([^,\n"]*)')
COUNT = re.compile(rb"\((\d+) rows\)\n")
REFUSAL = re.compile(rb"error [AE](\d\d)(?: at (\d+)| [a-z0-9 ]+)?\n\Z")


TOP = pathlib.Path(__file__).resolve().parent.parent
READY = 'top=$1; . "$top/tools/built.sh" && is_built || exec python3 "$top/tools/kept.py" make'


def program():
    """The program that PERM names, or ./perm; of that first an unproved program is made, where there is none, and it is said how far that is."""
    named = os.environ.get("PERM")
    if not named:
        subprocess.run(["bash", "-c", READY, "bash", TOP], stdin=subprocess.DEVNULL, stdout=subprocess.DEVNULL)
    return named or str(TOP / "perm")


class Bare(str):
    """A field without quotes: an integer or a truth value. NULL is None, and a text is a plain str."""


@dataclass
class Table:
    names: list
    rows: list


def record(text, at):
    """The fields of the record that begins there, and where the next one begins."""
    fields = []
    while True:
        match = FIELD.match(text, at)
        quoted, bare = match[1], match[2]
        if quoted is not None:
            fields.append(quoted.replace(b'""', b'"').decode())
        else:
            fields.append(Bare(bare.decode()) if bare else None)
        at = match.end() + 1
        if text[match.end():at] != b",":
            return tuple(fields), at


def table(text):
    """The answer of a query as a table; None where the text is none."""
    if not text.startswith(b'"'):
        return None
    names, at = record(text, 0)
    rows = []
    while not (counted := COUNT.match(text, at)):
        if at >= len(text):
            return None
        row, at = record(text, at)
        rows.append(row)
    fits = counted.end() == len(text) and int(counted[1]) == len(rows) and all(len(row) == len(names) for row in rows)
    return Table(list(names), rows) if fits else None


@dataclass(frozen=True)
class Rows:
    """What is known of a table's rows: the names of its columns, how often each row stands that stands several times, and how many others there
    are than these; None where it wasn't asked."""

    columns: tuple
    times: dict
    distinct: int | None = None


@dataclass
class Answer:
    """What a statement answered. `plain` is what it answers without the word PROVENANCE, where it has that; `equal` has what is
    known of the tables' rows."""

    statement: scripts.Statement
    text: bytes
    plain: Table | None = None
    relations: dict = field(default_factory=dict)
    equal: dict = field(default_factory=dict)


@dataclass
class Run:
    """A run of a script: what it wrote, on both streams, its status, and its answers; None where they can't be told apart."""

    written: bytes
    said: bytes
    status: int
    answers: list | None = None


def run(program, script):
    done = subprocess.run([program, script], stdin=subprocess.DEVNULL, capture_output=True)
    return Run(done.stdout, done.stderr, done.returncode)


@dataclass(frozen=True)
class Question:
    """A query of our own behind the statement of this number: of the columns of what it made, of its plain answer, or, with the table's name,
    of the rows of a table that stand several times, or of their number."""

    statement: int
    text: bytes
    table: bytes | None = None
    counts_all: bool = False


def without_word(script, statement, word):
    """The text of the query without the word PROVENANCE, as long as with it."""
    return script[statement.start:word.start] + b" " * (word.end - word.start) + script[word.end:statement.end]


def of_equal_rows(table, columns):
    names = b", ".join(map(scripts.quoted, columns))
    return b"SELECT %s, COUNT(*) FROM %s GROUP BY %s HAVING COUNT(*) > 1" % (names, scripts.quoted(table), names)


def questions(script, statements):
    found, tables, changed = [], {}, set()
    for number, statement in enumerate(statements):
        word = statement.provenance()
        if word:
            found.append(Question(number, without_word(script, statement, word)))
            for it in sorted(changed):
                found.append(Question(number, of_equal_rows(it, tables[it]), it))
                found.append(Question(number, b"SELECT COUNT(*) FROM " + scripts.quoted(it), it, True))
            changed.clear()
        elif statement.made():
            found.append(Question(number, b"SELECT * FROM " + scripts.quoted(statement.made()) + b" LIMIT 0"))
        note_tables(statement, tables, changed)
    return found


def note_tables(statement, tables, changed):
    """Keeps which tables there are, with their columns, and which of them changed since they were asked of."""
    name = statement.changed()
    if name is None:
        return
    if statement.begins(b"drop") or statement.begins(b"create"):
        tables.pop(name, None)
        changed.discard(name)
    if statement.columns():
        tables[name] = statement.columns()
    if name in tables:
        changed.add(name)


def asked_script(script, statements, asked, mark):
    """The script with a mark in front of each statement and question, the order of these, and where each statement went."""
    parts, order, moved, length = [], [], {}, 0
    behind = {}
    for question in asked:
        behind.setdefault(question.statement, []).append(question)
    for number, statement in enumerate(statements):
        for item in [number, *behind.get(number, [])]:
            front = b"SELECT '%s %d' AS mark;\n" % (mark, len(order))
            if item == number:
                moved[number] = length + len(front)
            order.append(item)
            parts.append(front + (script[statement.start:statement.end] if item == number else item.text) + b"\n;\n")
            length += len(parts[-1])
    return b"".join(parts), order, moved


def free_mark(*texts):
    """A text that stands in none of these."""
    number = 0
    while any(b"mark%d " % number in text for text in texts):
        number += 1
    return b"mark%d" % number


def segments(written, mark):
    """What stands behind each mark, in order; None where something stands in front of the first."""
    front = re.compile(rb'"mark"\n"%s \d+"\n\(1 rows\)\n' % mark)
    first, *rest = front.split(written)
    return None if first else rest


def moved_back(text, statement, moved):
    """A refusal of the statement as it is where the statement stands in the script."""
    found = REFUSAL.search(text)
    if not found or not found[2]:
        return text
    return text[:found.start(2)] + b"%d" % (int(found[2]) - moved + statement.start) + text[found.end(2):]


def ask(program, script, told):
    """The answers of the script's statements, of which `told` is a run; None where a second run doesn't tell them apart."""
    statements = scripts.statements(script)
    asked = questions(script, statements)
    mark = free_mark(script, told.written)
    while True:
        text, order, moved = asked_script(script, statements, asked, mark)
        if len(text) > LONGEST_SCRIPT:
            return None
        with tempfile.TemporaryDirectory() as folder:
            path = os.path.join(folder, "asked.sql")
            pathlib.Path(path).write_bytes(text)
            second = run(program, path)
        found = segments(second.written, mark)
        if found is None or len(found) > len(order):
            return None
        last = order[len(found) - 1] if found else None
        if len(found) == len(order) and second.status == 0 or isinstance(last, int):
            break
        # A question of our own was refused, as a view that meets a fault: it isn't asked again.
        if last is None or last not in asked:
            return None
        asked.remove(last)
    return joined(statements, order, moved, found, told)


def joined(statements, order, moved, found, told):
    answers, relations, equal = [], {}, {}
    for item, text in zip(order, found):
        if isinstance(item, int):
            statement = statements[item]
            equal.pop(statement.changed() and statement.changed().decode(), None)
            answers.append(Answer(statement, moved_back(text, statement, moved[item]), relations=dict(relations), equal=dict(equal)))
            continue
        answered = table(text)
        if item.table is not None and answered:
            name = item.table.decode()
            known = counted(equal.get(name), answered) if item.counts_all else repeated(answered)
            equal[name] = answers[-1].equal[name] = known
        elif statements[item.statement].provenance():
            answers[-1].plain = answered
        elif answered:
            relations.setdefault(statements[item.statement].made().decode(), []).append(answered.names)
    return answers if b"".join(it.text for it in answers) == told.written else None


def repeated(answered):
    return Rows(tuple(answered.names[:-1]), {row[:-1]: int(row[-1]) for row in answered.rows})


def counted(known, answered):
    """What is known of a table's rows, and how many different ones there are."""
    return known and Rows(known.columns, known.times, int(answered.rows[0][0]) - sum(it - 1 for it in known.times.values()))
