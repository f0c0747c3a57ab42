"""What perm itself says of a script over the tables of a database: each query's printed text, and the first refusal.

One run of perm over a script that makes the tables, without rows, and has EXPLAIN REWRITE before each query. Behind each it asks for
the kinds of the answer's columns: the same query on one side of a UNION ALL, of which the other side is printed with NULLs of them.
"""
import os
import pathlib
import re
import tempfile
from dataclasses import dataclass, field

import answers
import refusals
import scripts

from . import script_parts as parts
from .failures import NoDatabase
from .printed import Draft
from .scopes import KINDS, Scopes

REFUSED = re.compile(rb"error (E\d\d)(?: at (\d+))?\n\Z")
SPELLED = 3


@dataclass
class Refusal:
    """The line that refuses a statement, the sentence for it, and where it stands in the script."""

    line: str
    offset: int
    sentence: str
    status: int


@dataclass
class Step:
    """A statement with what perm answered: its text, for a query the printed one and the kinds of its columns."""

    kind: str
    statement: scripts.Statement
    text: str = ""
    kinds: list = field(default_factory=list)
    plain: str = ""
    columns: list = field(default_factory=list)


@dataclass
class Piece:
    """A statement for perm, which one it is for, and where the script's own begins in it."""

    text: bytes
    role: str
    number: int = -1
    front: int = 0
    origin: int = 0


def settle(program, script, prelude, plain=False):
    """The steps up to the first statement that is refused or writes, the refusal, if there is one, and what perm says beside."""
    statements = scripts.statements(script)
    mark = answers.free_mark(script)
    pieces = [Piece(it.encode(), "prelude") for it in prelude] + pieces_of(script, statements, mark, plain)
    told, places = ran(program, pieces, mark)
    if told.status not in (0, 4, 5):
        refusal = unreadable(program, script)
        if refusal is None:
            raise NoDatabase(f"perm ends with status {told.status} at a script of its own: {told.said.decode(errors='replace').strip()}")
        return [], refusal, beside(told)
    return *steps_of(statements, pieces, places, told, mark), beside(told)


def beside(told):
    """What perm says beside its note on a refusal, as that its answers come from sources that aren't proved."""
    return refusals.without_note(told.said).decode(errors="replace")


def unreadable(program, script):
    """The refusal of a script that can't be spelled or parsed; perm says so before it runs anything."""
    front = b"SELECT a;\n"
    told = run_text(program, front + script)
    found = REFUSED.search(told.written)
    if told.status != SPELLED or not found:
        return None
    offset = int(found[2]) - len(front)
    return Refusal(f"error {found[1].decode()} at {offset}", offset, sentence(told.said), told.status)


def run_text(program, text):
    with tempfile.TemporaryDirectory() as folder:
        path = os.path.join(folder, "asked.sql")
        pathlib.Path(path).write_bytes(text)
        return answers.run(program, path)


def pieces_of(script, statements, mark, plain):
    found, views = [], {}
    for number, statement in enumerate(statements):
        kind = parts.kind_of(statement)
        if kind == parts.WRITE:
            break
        found += pieces_for(script, statement, kind, number, views, mark, plain)
        if kind == parts.VIEW and len(statement.tokens) > 4:
            views[statement.tokens[2].value] = statement.tokens[4:]
        elif kind == parts.DROP_VIEW and len(statement.tokens) > 2:
            views.pop(statement.tokens[2].value, None)
    return found


def pieces_for(script, statement, kind, number, views, mark, plain):
    """The statements for perm that one of the script stands for."""
    own = script[statement.start:statement.end]
    if kind == parts.QUERY:
        return explained(own, number, statement.start) + without_word(script, statement, number, plain)
    if kind == parts.STORE and len(statement.tokens) > 4:
        query = scripts.Statement(statement.tokens[4:], [], statement.tokens[4].start, statement.end)
        return ([Piece(own, "said", number, 0, statement.start)] + explained(script[query.start:query.end], number, query.start)
                + without_word(script, query, number, True))
    impact = parts.Impact.of(statement) if kind == parts.IMPACT else None
    if impact is None:
        shown = [Piece(b"EXPLAIN REWRITE SELECT * FROM " + scripts.quoted(statement.made()), "columns", number)] if plain and kind == parts.VIEW else []
        return [Piece(own, "said", number, 0, statement.start), *shown]
    made, query, dropped = parts.impact_texts(script, impact, views, mark)
    return ([Piece(own, "said", number, 0, statement.start)] + [Piece(it, "made", number) for it in made] + explained(query, number, None)
            + [Piece(it, "made", number) for it in dropped])


def without_word(script, query, number, wanted):
    """The same query without its word PROVENANCE, where it has that: it tells how many of the columns are its own."""
    word = query.provenance() if wanted else None
    if word is None:
        return []
    return [Piece(b"EXPLAIN REWRITE " + script[query.start:word.start] + b" " + script[word.end:query.end], "plain", number)]


def explained(query, number, origin):
    front = b"EXPLAIN REWRITE "
    kinds = front + b"SELECT PROVENANCE 1 FROM (" + query + b"\n) kinds BASERELATION UNION ALL SELECT 1"
    return [Piece(front + query, "text" if origin is not None else "made text", number, len(front), origin or 0), Piece(kinds, "kinds", number)]


def ran(program, pieces, mark):
    """A run over the pieces, a mark in front of each, and where each begins in that script."""
    written, places, length = [], [], 0
    for number, piece in enumerate(pieces):
        front = b"SELECT '%s %d' AS mark;\n" % (mark, number)
        places.append(length + len(front))
        written += [front, piece.text, b"\n;\n"]
        length += len(front) + len(piece.text) + 3
    if length > answers.LONGEST_SCRIPT:
        raise NoDatabase("the script is too long, with what is put between its statements to ask perm")
    return run_text(program, b"".join(written)), places


def steps_of(statements, pieces, places, told, mark):
    found, steps = answers.segments(told.written, mark), {}
    if found is None:
        raise NoDatabase("perm's answer can't be told apart")
    for at, (piece, text) in enumerate(zip(pieces, found)):
        if told.status and at == len(found) - 1:
            return [steps[it] for it in sorted(steps) if it != piece.number], refusal_of(statements, piece, text, places[at], told)
        if piece.number >= 0:
            step = steps.setdefault(piece.number, Step(parts.kind_of(statements[piece.number]), statements[piece.number]))
            keep(step, piece, text.decode())
    return list(steps.values()), None


def keep(step, piece, text):
    if piece.role in ("text", "made text") or piece.role == "said" and step.kind not in (parts.IMPACT, parts.STORE):
        step.text = text
    elif piece.role == "plain":
        step.plain = text
    elif piece.role == "columns":
        step.columns = Scopes(Draft(text)).names()
    elif piece.role == "kinds":
        step.kinds = kinds_of(text)


def kinds_of(text):
    """The kinds of the columns, by the NULLs of the printed text's other side."""
    draft, found = Draft(text), []
    for at in range(len(draft)):
        if draft.word(at, "union", "all"):
            found = [KINDS[draft.tokens[it + 4].value] for it in range(at, len(draft)) if draft.word(it, "cast") and draft.word(it + 2, "null", "as")]
    return found


def refusal_of(statements, piece, text, place, told):
    """The refusal where the statement stands in the script."""
    code, at = REFUSED.search(text).groups()
    if piece.role == "prelude":
        raise NoDatabase(f"perm refuses what the database's tables are: {text.decode().strip()}: {piece.text.decode()}")
    statement = statements[piece.number]
    inside = int(at) - place - piece.front if at else -1
    offset = piece.origin + inside if piece.role in ("text", "said") and inside >= 0 else statement.start
    if int(code[1:]) >= 30:
        offset = statement.start
    return Refusal(f"error {code.decode()} at {offset}", offset, sentence(told.said), told.status)


def sentence(said):
    """The sentence of the note on perm's error stream."""
    found = re.search(rb"^.*?\.sql:(?:\d+:\d+:)? (.*) \(E\d\d\)$", said, re.M)
    return found[1].decode(errors="replace") if found else ""
