"""SQLite as an engine: its file, how its tables are read, and the functions that raise where SQLite would go on."""
import hashlib
import os
import re
import sqlite3
import urllib.parse

from . import sqlite_text
from .failures import Failure, NoDatabase
from .printed import quoted
from .readings import INTEGER, TEXT, Column, Table, in_units

LEAST, GREATEST = -2**63, 2**63 - 1
DECIMAL = re.compile(r"\s*(?:DECIMAL|NUMERIC|DEC)\s*\(\s*(\d+)\s*(?:,\s*(\d+)\s*)?\)\s*\Z", re.I)
# Types of SQLite's affinity NUMERIC that name what is written as a text.
AS_TEXT = ("DATE", "TIME", "UUID", "JSON")
# From this version on all that a text may hold is there, such as FULL JOIN.
LEAST_VERSION = (3, 39)


class Fault(Exception):
    """Raised by a function of the connection's own; SQLite tells no more than that one was."""


class Sqlite:
    """A connection to a file. `writes` says that a statement of the script makes a table."""

    name = "SQLite"
    fetched = 5000

    def __init__(self, path, writes=False, without=()):
        if sqlite3.sqlite_version_info < LEAST_VERSION:
            raise NoDatabase(f"this Python's SQLite is {sqlite3.sqlite_version}; needed is 3.39 or later")
        if not os.path.isfile(path):
            raise NoDatabase(f"{path}: there is no SQLite file of this name")
        self.without, self.fault, self.right = set(without), None, set()
        try:
            how = "rw" if writes else "ro"
            self.held = sqlite3.connect(f"file:{urllib.parse.quote(path)}?mode={how}", uri=True, isolation_level=None)
            self.add_functions()
            self.held.execute("BEGIN IMMEDIATE" if writes else "BEGIN")
            # The snapshot is taken by the first read.
            self.names = [it[0] for it in self.held.execute("SELECT name FROM main.sqlite_schema WHERE type IN ('table', 'view')")]
        except sqlite3.Error as error:
            raise NoDatabase(f"{path}: SQLite says: {error}") from error

    def add_functions(self):
        def raising(code):
            self.fault = self.fault or code
            raise Fault

        def in_range(value):
            return value if LEAST <= value <= GREATEST else raising(31)

        def quotient(left, right):
            if left is None or right is None:
                return None
            if right == 0:
                raising(30)
            return in_range(abs(left) // abs(right) * (1 if (left < 0) == (right < 0) else -1))

        def remainder(left, right):
            if left is None or right is None:
                return None
            if right == 0:
                raising(30)
            return abs(left) % abs(right) * (-1 if left < 0 else 1)

        def either(calculate):
            return lambda left, right: None if left is None or right is None else in_range(calculate(left, right))
        self.held.create_function("perm_plus", 2, either(int.__add__))
        self.held.create_function("perm_minus", 2, either(int.__sub__))
        self.held.create_function("perm_times", 2, either(int.__mul__))
        self.held.create_function("perm_quotient", 2, quotient)
        self.held.create_function("perm_remainder", 2, remainder)
        self.held.create_function("perm_several", 0, lambda: raising(32))
        self.held.create_function("perm_pattern", 1, lambda it: None if it is None else sqlite_text.glob(it))

    # Tables

    def tables(self, names, exact):
        """The readings of the tables that have these names; `exact` are names that the script quotes as they stand."""
        found = {}
        for name in names:
            held = next((it for it in self.names if it == name), None) or next((it for it in self.names if it.lower() == name.lower()), None)
            if held is not None and not held.startswith("sqlite_"):
                found[name] = self.table(name, held, exact)
        return found

    def table(self, name, held, exact):
        table = Table(f"main.{quoted(held)}")
        statement = self.held.execute("SELECT sql FROM main.sqlite_schema WHERE name = ?", (held,)).fetchone()[0] or ""
        collated = " COLLATE BINARY" if re.search(r"\bcollate\b", statement, re.I) else ""
        for _, column, kind, needed, _, key, hidden in self.held.execute(f"PRAGMA main.table_xinfo({quoted(held)})").fetchall():
            spelled = column if column in exact else lowered(column)
            if hidden != 1 and not {f"{name}.{spelled}", f"{name}.{column}"} & self.without:
                self.add_column(table, column, spelled, kind, collated, bool(needed))
        return table.checked()

    def add_column(self, table, column, spelled, kind, collated, needed):
        value, kind = f"t.{quoted(column)}", kind.strip() or self.kind_by_values(table, column)
        decimal, affinity = DECIMAL.match(kind), affinity_of(kind)
        if decimal:
            scale = int(decimal[2] or 0)
            number = f"CAST(ROUND({value} * {10**scale}) AS INTEGER)"
            wrong = (f"{value} IS NOT NULL AND (typeof({value}) NOT IN ('integer', 'real') OR ABS({value} * {10**scale}) > 9007199254740992 "
                     f"OR {number} / {10**scale}.0 <> {value})")
            table.columns.append(Column(spelled, INTEGER, number if scale else value, needed, wrong))
            table.notes.append(in_units(f"{spelled}", kind.lower(), scale))
        elif affinity == INTEGER or kind.upper() in ("BOOLEAN", "BOOL"):
            table.columns.append(Column(spelled, INTEGER, value, needed, f"typeof({value}) NOT IN ('integer', 'null')"))
        elif affinity == TEXT:
            table.columns.append(Column(spelled, TEXT, value + collated, needed, f"typeof({value}) NOT IN ('text', 'null')"))
        elif affinity is None and any(it in kind.upper() for it in AS_TEXT):
            wrong = f"typeof({value}) NOT IN ('text', 'integer', 'null')"
            table.columns.append(Column(spelled, TEXT, f"CAST({value} AS TEXT)", needed, wrong))
        else:
            table.refuse(spelled, kind)

    def kind_by_values(self, table, column):
        """The type of a column that is declared with none, as of a view: that of its values, if it is one."""
        kinds = {it[0] for it in self.held.execute(f"SELECT DISTINCT typeof(t.{quoted(column)}) FROM {table.origin} AS t")} - {"null"}
        return "TEXT" if not kinds else f"{kinds.pop().upper()}" if len(kinds) == 1 else "of several types"

    def wrong_column(self, table):
        """The name of a column that holds what its type doesn't say; None where there is none. One pass over the table, once a run."""
        if table.origin in self.right:
            return None
        wrong = [it for it in table.columns if it.wrong]
        if wrong and self.held.execute(f"SELECT 1 FROM {table.origin} AS t WHERE {' OR '.join(f'({it.wrong})' for it in wrong)} LIMIT 1").fetchone():
            return next(it.name for it in wrong if self.held.execute(f"SELECT 1 FROM {table.origin} AS t WHERE {it.wrong} LIMIT 1").fetchone())
        self.right.add(table.origin)
        return None

    # Statements

    def safe(self, text, tables):
        return sqlite_text.safe(text, tables)

    def rows(self, text):
        """Lists of rows."""
        self.fault = None
        try:
            cursor = self.held.execute(text)
            while rows := cursor.fetchmany(self.fetched):
                yield rows
        except (sqlite3.Error, OverflowError) as error:
            raise self.failure(error) from error

    def run(self, text):
        for _ in self.rows(text):
            pass

    def failure(self, error):
        if self.fault:
            return Failure(str(error), self.fault)
        return Failure(str(error), 31 if str(error) == "integer overflow" else None)

    def fingerprint(self, table):
        """The number of the table's rows and a sum over them that tells other rows apart."""
        return fingerprint_of(rows for rows in self.rows(f"SELECT {', '.join(it.expression for it in table.columns)} FROM {table.origin} AS t"))

    def place_for(self, name):
        return f"main.{quoted(name)}"

    def columns_for(self, kind):
        return kind

    def try_statement(self, text):
        """Runs what writes, whole or not at all."""
        self.run("SAVEPOINT perm_statement")
        try:
            self.run(text)
        except Failure:
            self.run("ROLLBACK TO perm_statement")
            raise
        finally:
            self.run("RELEASE perm_statement")

    def keep(self):
        self.run("COMMIT")

    def close(self):
        self.held.close()


def lowered(name):
    return "".join(it.lower() if it.isascii() else it for it in name)


def affinity_of(kind):
    """The kind of a declared type by SQLite's own rules; None for its NUMERIC, 'REAL' and 'BLOB' for these."""
    kind = kind.upper()
    if "INT" in kind:
        return INTEGER
    if any(it in kind for it in ("CHAR", "CLOB", "TEXT")):
        return TEXT
    if "BLOB" in kind:
        return "BLOB"
    return "REAL" if any(it in kind for it in ("REAL", "FLOA", "DOUB")) else None


def fingerprint_of(batches):
    """The number of the rows, and a sum of 128 bits of what each row is hashed to, in whichever order they come."""
    count, total = 0, 0
    for rows in batches:
        for row in rows:
            count += 1
            total += int.from_bytes(hashlib.blake2b(repr(row).encode(), digest_size=16).digest(), "big")
    return f"{count} {total % 2**128:032x}"
