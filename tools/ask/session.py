"""A run of a script over a database: statement by statement, in one snapshot."""
import io
import os
from dataclasses import dataclass

import scripts

from . import script_parts as parts
from . import settling, stored, told
from .failures import Failure, Lost, NoDatabase
from .on_postgres import PostgreSQL
from .on_sqlite import Sqlite
from .printed import Draft
from .safety import Unsayable
from .scopes import Scopes

# What a run ends with: perm's statuses, and two of the database's own.
RAN, RULE, FAULT, ENGINE, UNREACHED = 0, 4, 5, 10, 11
FAULTS = {
    30: "this statement divides by zero",
    31: "this statement meets a number that 64 bits don't hold",
    32: "a subquery of this statement that stands for one value has several rows",
}


@dataclass
class Options:
    """How a database is asked: which program settles names, which columns are left out, in which schemas tables are looked for."""

    program: str
    without: tuple = ()
    schemas: tuple = ()
    trusted: bool = False
    plain: bool = False
    begin: object = None


class Ended(Exception):
    """The statement that ends the run: its line, where it stands, the sentence, and the status."""

    def __init__(self, line, offset, sentence, status):
        super().__init__(sentence)
        self.line, self.offset, self.sentence, self.status = line, offset, sentence, status


def is_server(database):
    """Whether the words are for libpq: an address of PostgreSQL, or settings like dbname=books, where no file has that name."""
    return database.startswith(("postgresql://", "postgres://")) or "=" in database and not os.path.exists(database)


def opened(database, options, writes):
    if is_server(database):
        return PostgreSQL(database, writes, options.without, options.schemas)
    if options.schemas:
        raise NoDatabase("a SQLite file has no schemas")
    return Sqlite(database, writes, options.without)


class Session:
    """A script's run. `write` takes a statement's number and a file of its answer; `say` takes what is for the error stream."""

    def __init__(self, engine, name, script, options, write, say):
        self.engine, self.name, self.script, self.options, self.write, self.say = engine, name, script, options, write, say
        self.statements = scripts.statements(script)
        self.lax, self.noted, self.plain = [], set(), {}
        self.memory = stored.Memory(engine)
        self.read_tables()

    def read_tables(self):
        names = list(dict.fromkeys(it for statement in self.statements for it in parts.named(statement)))
        found = self.engine.tables(names, parts.quoted_names(self.statements))
        self.tables = {name: table for name, table in found.items() if not table.reason}
        self.unread = {name: table.reason for name, table in found.items() if table.reason}
        self.kept = {name for name, table in self.tables.items() if name in self.memory.known and self.memory.holds(name, table)}

    def prelude(self):
        found = []
        for name, table in self.tables.items():
            found += stored.prelude(name, table, self.memory.known[name]) if name in self.kept else [table.create(name)]
        return found

    def run(self):
        """Runs the script, and gives the status."""
        try:
            steps, refusal, beside = settling.settle(self.options.program, self.script, tuple(self.prelude()), self.options.plain)
            self.steps = steps
            self.say(beside)
            if self.options.begin:
                self.options.begin(self)
            for number, step in enumerate(steps):
                with self.answered(step) as file:
                    self.write(number, file)
            if refusal:
                self.refuse(refusal)
            if len(steps) < len(self.statements):
                self.refuse_writing(self.statements[len(steps)])
        except Ended as ended:
            self.write(None, io.BytesIO(f"{ended.line}\n".encode()))
            self.say_lax()
            self.say(told.note(self.name, self.script, ended.offset, ended.sentence))
            return ended.status
        self.say_lax()
        return RAN

    def refuse(self, refusal):
        code = refusal.line.split()[1]
        reason = next((it for name, it in self.unread.items() if refusal.line.startswith("error E10") and self.names_at(refusal.offset, name)), None)
        sentence = f"{refusal.sentence}; the database has one, but {reason}".replace("TABLE.", f"{self.name_at(refusal.offset)}.") if reason else refusal.sentence
        raise Ended(refusal.line, refusal.offset, f"{sentence} ({code})", refusal.status)

    def name_at(self, offset):
        token = next((it for statement in self.statements for it in statement.tokens if it.start == offset), None)
        return token.value.decode(errors="replace") if token else ""

    def names_at(self, offset, name):
        return self.name_at(offset) == name

    def refuse_writing(self, statement):
        words = " ".join(it.value.decode(errors="replace").upper() for it in statement.tokens[:2 if statement.tokens[0].value in (b"create", b"drop", b"delete", b"insert") else 1])
        raise Ended(f"error A01 at {statement.start}", statement.start,
                    f"{words} would write to the database, and ./ask writes to none of its tables (A01)", RULE)

    # One statement

    def answered(self, step):
        """A file of what the statement answers."""
        if step.kind in (parts.QUERY, parts.IMPACT):
            return self.asked(step.text, step)[0]
        if step.kind == parts.STORE:
            return io.BytesIO(f"CREATE TABLE AS {self.store(step)}\n".encode())
        if step.kind == parts.FRESH:
            return io.BytesIO(f"{self.freshness(step.statement.tokens[2].value.decode())}\n".encode())
        return io.BytesIO(step.text.encode())

    def asked(self, text, step):
        start = step.statement.start
        try:
            safe = self.safe(text, start)
            if len(safe.names) != len(step.kinds):
                raise Ended(f"error A02 at {start}", start, "the kinds of the answer's columns can't be told (A02)", RULE)
            return told.answer(safe.names, step.kinds, self.engine.rows(safe.text))
        except Failure as failure:
            raise self.ended(failure, start) from failure

    def safe(self, text, start):
        """What the engine may be asked, after a look at whether its tables hold what their types say."""
        try:
            safe = self.engine.safe(text, self.tables)
        except Unsayable as error:
            raise Ended(f"error A02 at {start}", start, f"{error} (A02)", RULE) from error
        for name in dict.fromkeys(Scopes(Draft(text)).bases):
            self.note_table(name)
            wrong = None if self.options.trusted else self.engine.wrong_column(self.tables[name])
            if wrong:
                raise Ended(f"error A03 at {start}", start, f"column {wrong} of table {name} holds a value that isn't of its type (A03)", RULE)
        if safe.faulty:
            self.lax.append(scripts.place(self.script, start)[0])
        return safe

    def plain_answer(self, number):
        """A file of what the query would answer without PROVENANCE; None where it has no such word, or that meets a fault."""
        step = self.steps[number]
        if not step.plain or step.kind != parts.QUERY:
            return None
        try:
            safe = self.engine.safe(step.plain, self.tables)
            return told.answer(safe.names, step.kinds[:len(safe.names)], self.engine.rows(safe.text))[0]
        except (Failure, Unsayable):
            return None

    def columns_made(self, number):
        """The names of the columns of the table or view that the statement made."""
        step = self.steps[number]
        return Scopes(Draft(step.text)).names() if step.text.startswith("SELECT") else step.columns

    def note_table(self, name):
        if name not in self.noted:
            self.noted.add(name)
            for it in self.tables[name].notes:
                self.say(f"note: {name}.{it}\n")

    def ended(self, failure, start):
        if failure.fault:
            return Ended(f"error E{failure.fault} at {start}", start, f"{FAULTS[failure.fault]}, {self.engine.name} says: {failure} (E{failure.fault})", FAULT)
        return Ended(f"error A04 at {start}", start, f"{self.engine.name} refuses this statement: {failure} (A04)", ENGINE)

    def say_lax(self):
        if self.lax:
            lines = ", ".join(map(str, dict.fromkeys(self.lax)))
            self.say(f"note: {self.engine.name} evaluates no more than it needs, so where perm would meet a fault it may answer: "
                     f"line{'s' if len(set(self.lax)) > 1 else ''} {lines}\n")

    # Stored answers

    def store(self, step):
        start, name = step.statement.start, step.statement.tokens[2].value.decode()
        safe, engine = self.safe(step.text, start), self.engine
        try:
            columns = ", ".join(f"CAST({it} AS {engine.columns_for(kind)}) AS {it}" for it, kind in (
                ('"' + column.replace('"', '""') + '"', kind) for column, kind in zip(safe.names, step.kinds)))
            engine.try_statement(f"CREATE TABLE {engine.place_for(name)} AS SELECT {columns} FROM (\n{safe.text}\n) AS answer")
            sources = [stored.Source(it, engine.fingerprint(self.tables[it])) for it in dict.fromkeys(Scopes(Draft(step.text)).bases)]
            self.tables[name] = self.engine_table(name)
            itself = engine.fingerprint(self.tables[name])
            query = step.statement.tokens[4:]
            traced = scripts.Statement(query, [], query[0].start, query[-1].end).provenance()
            if traced:
                own = sum(1 for it in safe.names) - self.places(safe.names, step)
                self.memory.keep(name, stored.Stored(own, itself, sources))
                self.kept.add(name)
            return itself.split()[0]
        except Failure as failure:
            raise self.ended(failure, start) from failure

    def engine_table(self, name):
        if isinstance(self.engine, Sqlite):
            self.engine.names.append(name)
        return self.engine.tables([name], {name})[name]

    def places(self, names, step):
        """How many of the columns are provenance: those behind what the query answers without the word."""
        return len(names) - len(Scopes(Draft(step.plain)).names())

    def freshness(self, name):
        known = self.memory.known.get(name)
        if known is None or name not in self.kept:
            return "not stored"
        for source in known.sources:
            table = self.tables.get(source.name) or self.engine.tables([source.name], {source.name}).get(source.name)
            if table is None or table.reason or self.engine.fingerprint(table) != source.fingerprint:
                return f"stale {source.name}"
        return "fresh"


def run(database, name, script, options, write, say):
    """The status of a run of the script over the database; what it answers goes to `write`, what is said beside to `say`."""
    statements = scripts.statements(script)
    writes = any(parts.kind_of(it) == parts.STORE for it in statements)
    try:
        engine = opened(database, options, writes)
    except (NoDatabase, Failure, Lost) as error:
        say(f"ask: {error}\n")
        return UNREACHED
    try:
        return run_over(engine, name, script, options, write, say, writes)
    finally:
        engine.close()


def run_over(engine, name, script, options, write, say, writes=False):
    try:
        status = Session(engine, name, script, options, write, say).run()
        if writes:
            engine.keep()
        return status
    except Lost as error:
        say(f"ask: {engine.name} went away: {error}\n")
    except (NoDatabase, Failure) as error:
        say(f"ask: {error}\n")
    return UNREACHED

