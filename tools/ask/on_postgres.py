"""PostgreSQL as an engine: its connection, and how its tables are read."""
import contextlib
import importlib
import os
import sys

from . import postgres_text
from .failures import Failure, Lost, NoDatabase
from .printed import quoted
from .readings import INTEGER, TEXT, Column, Table, in_units

DRIVERS = ("psycopg2", "psycopg")
PACKAGES = "python3-psycopg2 (or python3-psycopg)"
DEBIAN = "/usr/bin/python3"
AGAIN = "PERM_ASK_AGAIN"
FAULTS = {"22012": 30, "22003": 31, "21000": 32}
BYTEWISE = ("C", "POSIX", "C.UTF-8", "C.utf8", "ucs_basic")
WHOLE = ("int2", "int4", "int8")
AS_TEXT = ("date", "time", "timetz", "timestamp", "timestamptz", "uuid", "bool", "json", "jsonb", "bpchar", "varchar", "name", "char")
SETTINGS = {
    "client_encoding": "UTF8", "standard_conforming_strings": "on", "DateStyle": "ISO, YMD", "TimeZone": "UTC",
    "cursor_tuple_fraction": "1",
    # A text with provenance is wide: to compile it takes longer than to run it.
    "jit": "off",
}
# A relation's columns with the types below their domains, and the collations of these.
COLUMNS = """
WITH RECURSIVE typed AS (
    SELECT a.attnum, a.attname, a.attnotnull, a.attcollation, a.atttypid AS type, a.atttypmod AS modifier
    FROM pg_catalog.pg_attribute a WHERE a.attrelid = %s AND a.attnum > 0 AND NOT a.attisdropped
  UNION ALL
    SELECT d.attnum, d.attname, d.attnotnull OR t.typnotnull, d.attcollation, t.typbasetype, t.typtypmod
    FROM typed d JOIN pg_catalog.pg_type t ON t.oid = d.type WHERE t.typtype = 'd'
)
SELECT d.attname, t.typname, t.typtype, d.modifier, d.attnotnull, c.collname, c.collisdeterministic, pg_catalog.format_type(t.oid, d.modifier)
FROM typed d JOIN pg_catalog.pg_type t ON t.oid = d.type LEFT JOIN pg_catalog.pg_collation c ON c.oid = d.attcollation
WHERE t.typtype <> 'd' ORDER BY d.attnum
"""
RELATION = """
SELECT c.oid, n.nspname FROM pg_catalog.pg_class c JOIN pg_catalog.pg_namespace n ON n.oid = c.relnamespace
WHERE c.relname = %s AND n.nspname = ANY (%s::text[]) AND c.relkind IN ('r', 'p', 'v', 'm', 'f')
ORDER BY array_position(%s::text[], n.nspname::text) LIMIT 1
"""


def driver():
    """The library that speaks with PostgreSQL; None where this Python has none."""
    for name in DRIVERS:
        try:
            return importlib.import_module(name)
        except ImportError:
            continue
    return None


def with_driver():
    """The library, or this program anew under Debian's Python, for which Debian's package is; a word where neither has it."""
    found = driver()
    if found is None and os.path.exists(DEBIAN) and os.path.realpath(sys.executable) != os.path.realpath(DEBIAN) and not os.environ.get(AGAIN):
        os.environ[AGAIN] = "yes"
        os.execv(DEBIAN, [DEBIAN, *sys.argv])
    if found is None:
        raise NoDatabase(f"PostgreSQL is asked by a Python library that isn't there: install {PACKAGES}, "
                         f"as by: apt-get install {PACKAGES.split()[0]}")
    return found


class PostgreSQL:
    """A connection by what libpq takes. `writes` says that a statement of the script makes a table."""

    name = "PostgreSQL"
    fetched = 5000

    def __init__(self, where, writes=False, without=(), schemas=()):
        self.library, self.without = with_driver(), set(without)
        try:
            self.held = self.library.connect(where)
        except self.library.Error as error:
            raise NoDatabase(f"PostgreSQL says: {str(error).strip()}") from error
        self.held.autocommit = True
        self.settle(writes, schemas)

    def settle(self, writes, schemas):
        for name, value in SETTINGS.items():
            self.ask(f"SET {name} = '{value}'")
        self.ask(f"BEGIN ISOLATION LEVEL REPEATABLE READ {'READ WRITE' if writes else 'READ ONLY'}")
        encoding, collation = self.ask("SELECT pg_catalog.pg_encoding_to_char(encoding), datcollate FROM pg_catalog.pg_database "
                                       "WHERE datname = pg_catalog.current_database()")[0]
        if encoding != "UTF8":
            raise NoDatabase(f"the database's encoding is {encoding}; texts compare by their bytes, so it has to be UTF8")
        provider = self.ask("SELECT datlocprovider::text FROM pg_catalog.pg_database WHERE datname = pg_catalog.current_database()"
                            if self.held_version() >= 150000 else "SELECT 'c'")[0][0]
        self.bytewise = collation in BYTEWISE and provider == "c"
        self.schemas = list(schemas) or self.ask("SELECT pg_catalog.current_schemas(false)::text[]")[0][0]
        for schema in schemas:
            if not self.ask("SELECT 1 FROM pg_catalog.pg_namespace WHERE nspname = %s", (schema,)):
                raise NoDatabase(f"there is no schema {schema}")

    def held_version(self):
        return int(self.ask("SHOW server_version_num")[0][0])

    def ask(self, text, values=None):
        """The rows of a statement, all at once; none where it has none."""
        cursor = self.held.cursor()
        try:
            cursor.execute(text, values)
            return cursor.fetchall() if cursor.description else []
        except self.library.Error as error:
            raise self.failure(error) from error

    def failure(self, error):
        state = getattr(error, "pgcode", None) or getattr(error, "sqlstate", None)
        message = str(error).strip().split("\n")[0]
        if self.held.closed or state in (None, "57P01", "57P02", "57P03") and isinstance(error, (self.library.OperationalError,
                                                                                               self.library.InterfaceError)):
            return Lost(message or "the connection is closed")
        return Failure(message, FAULTS.get(state))

    # Tables

    def tables(self, names, _):
        """The readings of the tables that have these names, each in the first schema that has one."""
        found = {}
        with self.whole():
            for name in names:
                relation = self.ask(RELATION, (name, self.schemas, self.schemas))
                if relation:
                    found[name] = self.table(name, *relation[0])
        return found

    def table(self, name, oid, schema):
        table = Table(f"{quoted(schema)}.{quoted(name)}")
        for row in self.ask(COLUMNS, (oid,)):
            if f"{name}.{row[0]}" not in self.without:
                self.add_column(table, *row)
        return table.checked()

    def add_column(self, table, column, kind, sort, modifier, whole, collation, deterministic, written):
        value = f"t.{quoted(column)}"
        if kind in WHOLE:
            table.columns.append(Column(column, INTEGER, value, whole))
        elif kind == "text" or kind in AS_TEXT or sort == "e":
            # A boolean, a date and the like have no collation; their texts compare as the database's do.
            own = self.bytewise if collation in (None, "default") else collation in BYTEWISE
            text = value if kind == "text" else f"CAST({value} AS TEXT)"
            table.columns.append(Column(column, TEXT, text if own and deterministic is not False else f'{text} COLLATE "C"', whole))
        elif kind == "numeric" and modifier >= 4 and ((modifier - 4) & 0x7FF) < 1024:
            scale = (modifier - 4) & 0x7FF
            table.columns.append(Column(column, INTEGER, f"CAST({value} * {10**scale} AS BIGINT)", whole))
            table.notes.append(in_units(column, written, scale))
        else:
            table.refuse(column, written)

    def wrong_column(self, _):
        """None: a column holds what its type says."""
        return None

    # Statements

    def safe(self, text, tables):
        return postgres_text.safe(text, tables, self.bytewise)

    @contextlib.contextmanager
    def whole(self):
        """What is asked inside is done whole or not at all, and where it fails the transaction goes on."""
        self.ask("SAVEPOINT perm_statement")
        try:
            yield
            self.ask("RELEASE perm_statement")
        except Failure:
            self.ask("ROLLBACK TO perm_statement")
            raise

    def rows(self, text):
        """Lists of rows, by a cursor of the server."""
        with self.whole():
            self.ask(f"DECLARE perm_answer NO SCROLL CURSOR FOR {text}")
            while rows := self.ask(f"FETCH {self.fetched} FROM perm_answer"):
                yield rows
            self.ask("CLOSE perm_answer")

    def try_statement(self, text):
        """Runs what writes, whole or not at all."""
        with self.whole():
            self.ask(text)

    def fingerprint(self, table):
        """The number of the table's rows and sums over them that tell other rows apart."""
        row = f"ROW({', '.join(it.expression for it in table.columns)})::text"
        return " ".join(map(str, self.ask(
            f"SELECT COUNT(*), COALESCE(SUM(pg_catalog.hashtextextended({row}, 0)::numeric), 0), "
            f"COALESCE(SUM(pg_catalog.hashtextextended({row}, 1)::numeric), 0) FROM {table.origin} AS t")[0]))

    def place_for(self, name):
        return f"{quoted(self.schemas[0])}.{quoted(name)}" if self.schemas else quoted(name)

    def columns_for(self, kind):
        return "BIGINT" if kind == INTEGER else kind

    def keep(self):
        self.ask("COMMIT")

    def close(self):
        try:
            self.held.close()
        except self.library.Error:
            pass
