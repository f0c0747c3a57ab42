#!/usr/bin/env python3
"""Tests ./ask: ask_test.py. The program is ./perm, or the one that PERM names. SQLite is Python's own; what needs PostgreSQL is left
out with a word where its server or its Python library isn't there. The server is the tests' own, in a temporary folder."""
import contextlib
import io
import os
import pathlib
import re
import resource
import sqlite3
import subprocess
import sys
import tempfile
import unittest
from unittest import mock

TOP = pathlib.Path(__file__).resolve().parent.parent
sys.path += [str(TOP / "bench"), str(TOP / "examples")]

import books  # noqa: E402
import scripts  # noqa: E402
from ask import on_postgres, postgres_text, script_parts, session, sqlite_text, told  # noqa: E402
from ask.failures import NoDatabase  # noqa: E402
from ask.printed import Draft, chains, steps  # noqa: E402
from ask.readings import Column, Table  # noqa: E402
from ask.safety import Unsayable  # noqa: E402
from ask.scopes import INTEGER, TEXT, Scopes  # noqa: E402
from postgres import Postgres, binaries  # noqa: E402

# From here on under the Python that has the library, if one has.
with contextlib.suppress(NoDatabase):
    on_postgres.with_driver()
PROGRAM = os.environ.get("PERM") or str(TOP / "perm")
SQLITE = sqlite3.sqlite_version_info >= (3, 39)
R = {"r": Table("r", [Column("a", INTEGER, 't."a"', True), Column("b", TEXT, 't."b"'), Column("c", INTEGER, 't."c"')])}
MOST_MEMORY = 200 << 20


def asked(database, script, *words, **options):
    """The status of ./ask, and what it writes on both streams."""
    with tempfile.TemporaryDirectory() as folder:
        pathlib.Path(folder, "asked.sql").write_text(script)
        done = subprocess.run([sys.executable, str(TOP / "ask"), *words, database, "asked.sql"], cwd=folder, capture_output=True, text=True,
                              env={**os.environ, "PERM": PROGRAM, **options}, check=False)
    return done.returncode, done.stdout, done.stderr


def over(engine, script):
    """The same over an engine that is held."""
    answered, said = [], []
    status = session.run_over(engine, "asked.sql", script.encode(), session.Options(PROGRAM), lambda _, file: answered.append(file.read()), said.append)
    return status, b"".join(answered).decode(), "".join(said)


def without_front(text):
    """A safe text without the WITH that reads the tables."""
    return re.sub(r"\s+", " ", re.sub(r"\AWITH .*\n", "", text))


def report():
    """The statements of the report example that don't write, and what perm answers to them."""
    script = (TOP / "examples/report.sql").read_bytes()
    kept = [it for it in scripts.statements(script) if script_parts.kind_of(it) != script_parts.WRITE]
    text = ";\n".join(script[it.start:it.end].decode() for it in kept[:-1]) + ";\n"
    answer = subprocess.run([PROGRAM, "examples/report.sql"], cwd=TOP, capture_output=True, text=True, check=True).stdout
    lines = [it for it in answer.splitlines(keepends=True) if not re.match(r"CREATE TABLE\n|COPY|INSERT|stale", it)]
    return text, "".join(lines)


class Tokens(unittest.TestCase):
    """The pass over a text's tokens, without a program and without an engine."""

    def postgres(self, text, **how):
        return without_front(postgres_text.safe(text, R, **how).text)

    def sqlite(self, text):
        return without_front(sqlite_text.safe(text, R).text)

    def test_arithmetic_is_read_by_its_levels(self):
        draft = Draft('SELECT "r"."a" + 2 * "r"."c" - (- 3) AS "x" FROM "r"')
        (operands, operators), = chains(draft)
        self.assertEqual([draft.said[operator] for operator, _, _ in steps(draft, operands, operators)], ["*", "+", "-"])

    def test_names_are_found_where_they_belong(self):
        scopes = Scopes(Draft('SELECT "j"."a" AS "x", 1 AS "y" FROM (SELECT "r"."a" FROM "r" UNION SELECT "s"."z" FROM "s") AS "j", "r"'))
        self.assertEqual((scopes.bases, scopes.names()), (["r", "s", "r"], ["x", "y"]))

    def test_postgres_arithmetic_has_64_bits(self):
        self.assertEqual(self.postgres('SELECT SUM("r"."a" * 2) AS "x" FROM "r";'),
                         'SELECT CAST(SUM(CAST("r"."a" AS BIGINT) * 2) AS BIGINT) AS "x" FROM "r" ORDER BY 1')

    def test_postgres_compares_by_equality_where_a_side_is_never_null(self):
        text = 'SELECT 1 AS "x" FROM "r" JOIN "r" AS "s" ON "r"."{0}" IS NOT DISTINCT FROM "s"."{0}";'
        self.assertIn('ON "r"."a" = "s"."a"', self.postgres(text.format("a")))
        self.assertIn('ON ARRAY[CAST("r"."b" AS TEXT)] = ARRAY[CAST("s"."b" AS TEXT)]', self.postgres(text.format("b")))
        self.assertIn("ARRAY[", self.postgres(text.format("a").replace(";", ' WHERE NOT ("r"."a" IS NOT DISTINCT FROM "s"."a");')))
        padded = 'FROM "r" AS "q" LEFT JOIN "r" ON TRUE LEFT JOIN "r" AS "s" ON TRUE WHERE "r"."a" IS NOT DISTINCT FROM "s"."a"'
        self.assertIn("ARRAY[", self.postgres(f'SELECT 1 AS "x" {padded};'))
        self.assertIn('WHERE "q"."a" = "s"."a"', self.postgres(f'SELECT 1 AS "x" {padded};'.replace('WHERE "r"', 'WHERE "q"')))

    def test_postgres_takes_any_full_join(self):
        self.assertIn('ON CAST(("r".*) IS NULL AS INTEGER) * 0 = CAST(("s".*) IS NULL AS INTEGER) * 0 AND ("r"."a" < "s"."a")',
                      self.postgres('SELECT 1 AS "x" FROM "r" FULL JOIN "r" AS "s" ON "r"."a" < "s"."a";'))

    def test_postgres_patterns_and_collations(self):
        text = """SELECT 'x' AS "x" FROM "r" WHERE "r"."b" LIKE 'a\\%' AND "r"."b" LIKE "r"."b";"""
        self.assertIn("""LIKE 'a\\\\%' AND "r"."b" LIKE "r"."b" ESCAPE ''""", self.postgres(text))
        self.assertIn("""SELECT ('x' COLLATE "C") AS""", self.postgres(text, bytewise=False))

    def test_sqlite_arithmetic_raises(self):
        self.assertEqual(self.sqlite('SELECT "r"."a" + 2 * "r"."c" AS "x" FROM "r";'),
                         "SELECT perm_plus(`r`.`a` , perm_times(2 , `r`.`c`)) AS `x` FROM `r` ORDER BY 1 NULLS LAST")

    def test_sqlite_places_null(self):
        self.assertIn("ORDER BY 2 DESC NULLS FIRST, 1 NULLS LAST LIMIT 1", self.sqlite(
            'SELECT "q"."a" FROM (SELECT "r"."a", "r"."b" FROM "r" ORDER BY 2 DESC, 1 LIMIT 1) AS "q";'))

    def test_sqlite_numbers_copies_of_rows(self):
        one, other = ('SELECT *, ROW_NUMBER() OVER (PARTITION BY "{}") AS "copy" FROM ('.format(it) for it in "ab")
        self.assertEqual(self.sqlite('SELECT "r"."a" FROM "r" EXCEPT ALL SELECT 1 AS "b";'),
                         f'SELECT "a" FROM ({one}SELECT `r`.`a` FROM `r`) EXCEPT {other}SELECT 1 AS `b`)) ORDER BY 1 NULLS LAST')
        with self.assertRaises(Unsayable):
            self.sqlite('SELECT "r"."a", "r"."a" FROM "r" EXCEPT ALL SELECT 1 AS "a", 2 AS "b";')

    def test_sqlite_patterns(self):
        self.assertEqual(sqlite_text.glob("a%_*[?"), "a*?[*][[][?]")
        text = 'SELECT "r"."b" LIKE (SELECT "s"."b" FROM "r" AS "s") AS "x" FROM "r";'
        self.assertIn("GLOB perm_pattern((SELECT CASE WHEN COUNT(*) > 1", self.sqlite(text))

    def test_a_list_of_one_subquery_stays_a_list(self):
        text = 'SELECT "r"."a" IN ((SELECT "s"."a" FROM "r" AS "s" LIMIT 1)) AS "x" FROM "r";'
        self.assertIn('IN (COALESCE((SELECT "s"."a" FROM "r" AS "s" LIMIT 1), NULL))', self.postgres(text))
        self.assertIn("IN (COALESCE((SELECT `s`.`a` FROM `r` AS `s` LIMIT 1), NULL))", self.sqlite(text))

    def test_sqlite_reads_in_beside_a_comparison(self):
        text = 'SELECT TRUE >= "r"."a" + 1 IN (SELECT "s"."a" FROM "r" AS "s") AS "x" FROM "r";'
        self.assertIn("TRUE >= (perm_plus(`r`.`a` , 1) IN (SELECT `s`.`a` FROM `r` AS `s`)) AS", self.sqlite(text))

    def test_a_lateral_query_is_a_join_where_it_can_be(self):
        text = """SELECT "r"."a", "y"."c" FROM "r" {} JOIN LATERAL (SELECT "s"."c" FROM "r" AS "s" WHERE "s"."c" > 2 AND (("s"."a" = "r"."a") IS TRUE)) AS "y"{};"""
        joined = '(SELECT "s"."c", "s"."a" AS "joined_on01" FROM "r" AS "s" WHERE "s"."c" > 2 AND TRUE ) AS "y" ON "y"."joined_on01" = "r"."a"'
        for front, behind, kind in (("CROSS", "", ""), ("LEFT", " ON TRUE", "LEFT ")):
            self.assertIn(f'FROM "r" {kind}JOIN {joined}', self.postgres(text.format(front, behind)))
            self.assertNotIn("json_each", self.sqlite(text.format(front, behind)))
        for part in ('"s"."c" > 2 AND ("s"."a" / 2) = "r"."a"', '"s"."c" > 2 OR "s"."a" = "r"."a"', '"s"."a" = "r"."a" LIMIT 1'):
            given = text.format("CROSS", "").replace('"s"."c" > 2 AND (("s"."a" = "r"."a") IS TRUE)', part)
            self.assertIn("LATERAL", self.postgres(given))
            self.assertIn("json_each", self.sqlite(given))

    def test_the_answers_columns_are_all_keys(self):
        self.assertTrue(self.postgres('SELECT "r"."a", "r"."b", "r"."c" FROM "r" ORDER BY 2 DESC;').endswith("ORDER BY 2 DESC, 1, 3"))

    def test_notes_are_perms(self):
        with tempfile.TemporaryDirectory() as folder:
            for text in ("SELECT 1;\n\tSELECT nosuch;", "SELECT " + "'é', " * 60 + "nosuch, " + "'ü', " * 60 + "1;"):
                pathlib.Path(folder, "s.sql").write_text(text)
                done = subprocess.run([PROGRAM, "s.sql"], cwd=folder, capture_output=True, check=False)
                script = text.encode()
                self.assertEqual(told.note("s.sql", script, script.index(b"nosuch"), "no column of this name (E11)"), done.stderr.decode())


class Scripts(unittest.TestCase):
    """What holds of both engines, by `self.make`, which makes a database of statements and gives its name."""

    def test_the_report_is_perms(self):
        text, answer = report()
        status, given, _ = asked(self.make_books(), text)
        self.assertEqual((status, given), (0, answer))

    def test_a_stored_figure_is_fresh_until_its_sources_change(self):
        database = self.make_books()
        store = "CREATE TABLE figure AS SELECT PROVENANCE SUM(price) AS total FROM lines WHERE invoice = 10;\n"
        self.assertEqual(asked(database, store)[:2], (0, "CREATE TABLE AS 2\n"))
        show = "SHOW FRESH figure; SHOW FRESH lines; SELECT PROVENANCE total FROM figure;"
        rows = '"total","prov_lines_invoice","prov_lines_article","prov_lines_pieces","prov_lines_price"\n' \
            '1100,10,"ink",1,900\n1100,10,"pen",3,200\n(2 rows)\n'
        self.assertEqual(asked(database, show)[:2], (0, f"fresh\nnot stored\n{rows}"))
        self.change(database, "INSERT INTO lines VALUES (11, 'rubber', 1, 80)")
        self.assertEqual(asked(database, show)[:2], (0, f"stale lines\nnot stored\n{rows}"))
        self.change(database, "UPDATE figure SET total = 0")
        self.assertEqual(asked(database, "SHOW FRESH figure;")[:2], (0, "not stored\n"))
        self.assertEqual(asked(database, store)[:2], (4, "error E13 at 13\n"))

    def test_impact_is_perms(self):
        script = (TOP / "examples/impact.sql").read_text()
        text = script[script.index("CREATE VIEW"):]
        answer = (TOP / "examples/impact.out").read_text()
        status, given, said = asked(self.make_books(), text)
        self.assertEqual((status, given), (0, answer[answer.index("CREATE VIEW"):]), said)
        self.assertEqual(asked(self.make_books(), "IMPACT DELETE FROM lines OF SELECT COUNT(*) FROM lines;")[:2], (4, "error E28 at 28\n"))

    def test_refusals_are_perms_and_writing_is_refused(self):
        database = self.make_books()
        for text, line, status in (
            ("SELECT a FROM WHERE", "error E05 at 14", 3), ("SELECT 1;\nSELECT nosuch FROM debtors", "error E11 at 17", 4),
            ("SELECT 1 # 2", "error E02 at 9", 3), ("SELECT 1 FROM nosuch", "error E10 at 14", 4), ("SELECT (1", "error E05 at 9", 3),
            ("DELETE FROM lines", "error A01 at 0", 4), ("SELECT 1; INSERT INTO lines VALUES (1)", "error A01 at 10", 4),
            ("CREATE TABLE z (a INTEGER)", "error A01 at 0", 4), ("DROP TABLE lines", "error A01 at 0", 4), ("COPY lines FROM 'x'", "error A01 at 0", 4),
            ("SELECT 1 / (id - 1) AS x FROM debtors", "error E30 at 0", 5), ("SELECT 9223372036854775807 + id AS x FROM debtors", "error E31 at 0", 5),
            ("SELECT (SELECT id FROM debtors) AS x", "error E32 at 0", 5), ("SELECT SUM(9223372036854775807 - id) AS x FROM debtors", "error E31 at 0", 5),
        ):
            ended, given, said = asked(database, text)
            self.assertEqual((ended, given.splitlines()[-1]), (status, line), f"{text}: {given} {said}")
            self.assertTrue(re.search(rf"\A(note: .*\n)?asked\.sql:\d+:\d+: .*\({line.split()[1]}\)\n", said), f"{text}: {said}")

    def test_a_table_that_changes_is_asked_as_it_was(self):
        database = self.make_books()
        with contextlib.closing(session.opened(database, session.Options(PROGRAM), False)) as engine:
            self.change(database, "DELETE FROM lines")
            self.assertEqual(over(engine, "SELECT COUNT(*) FROM lines;")[:2], (0, '"count"\n4\n(1 rows)\n'))
        self.assertEqual(asked(database, "SELECT COUNT(*) FROM lines;")[:2], (0, '"count"\n0\n(1 rows)\n'))

    def test_the_quantifiers_and_lateral_queries_are_perms(self):
        made = "CREATE TABLE r (a INTEGER, b TEXT);\nINSERT INTO r VALUES (1, 'x'), (2, NULL), (NULL, 'y'), (-7, 'Z');\n"
        asks = """SELECT a > ANY (SELECT c.a FROM r c WHERE c.b > r.b) AS x, a <= ALL (SELECT c.a FROM r c WHERE c.a > 1) AS y, b FROM r;
SELECT PROVENANCE x.a, m FROM r x LEFT JOIN LATERAL (SELECT y.a AS m FROM r y WHERE y.a < x.a ORDER BY 1 DESC LIMIT 1) z ON TRUE;
SELECT x.a, y.b FROM r x FULL JOIN r y ON x.a < y.a ORDER BY 2 DESC;
SELECT a FROM r ORDER BY a LIMIT 3; SELECT a / 2 AS q, a % 2 AS m, -a AS n, b LIKE '_' AS l, b NOT LIKE 'z%' AS k FROM r;
SELECT PROVENANCE b, COUNT(*) FROM r GROUP BY b UNION ALL SELECT b, NULL FROM r INTERSECT SELECT 'x', 1;
SELECT b FROM r UNION ALL SELECT b FROM r EXCEPT ALL SELECT b FROM r INTERSECT ALL SELECT NULL FROM r ORDER BY 1 DESC;
SELECT a FROM r WHERE a NOT IN ((SELECT c.a FROM r c WHERE c.a > 5)) OR a IN ((SELECT MAX(c.a) FROM r c));
SELECT a, TRUE > a IN (SELECT c.a FROM r c WHERE c.a > 1) AS x, a IN (SELECT c.a FROM r c) < (b = 'x') AS y FROM r;
"""
        with tempfile.TemporaryDirectory() as folder:
            pathlib.Path(folder, "s.sql").write_text(made + asks)
            answer = subprocess.run([PROGRAM, "s.sql"], cwd=folder, capture_output=True, text=True, check=True).stdout
        status, given, said = asked(self.make(made), asks)
        self.assertEqual((status, given), (0, answer.split("\n", 2)[2]), said)

    def test_odd_names(self):
        made = '''CREATE TABLE "a ""b%s" ("select" INTEGER, "x.y" TEXT, "é'" INTEGER);
INSERT INTO "a ""b%s" VALUES (1, 'v', 2);'''
        status, given, said = asked(self.make(made), 'SELECT PROVENANCE "select", t."é\'" FROM "a ""b%s" t;')
        self.assertEqual((status, given), (0, '"select","é\'","prov_a ""b%s_select","prov_a ""b%s_x.y","prov_a ""b%s_é\'"\n1,2,1,"v",2\n(1 rows)\n'), said)

    def test_views_of_the_database_are_tables(self):
        database = self.make_books()
        self.change(database, "CREATE VIEW towns AS SELECT town, COUNT(*) AS n FROM debtors GROUP BY town")
        self.assertEqual(asked(database, "SELECT PROVENANCE n FROM towns WHERE town = 'Graz';")[:2],
                         (0, '"n","prov_towns_town","prov_towns_n"\n1,"Graz",1\n(1 rows)\n'))


@unittest.skipUnless(SQLITE, "Python's SQLite is older than 3.39")
class OnSqlite(Scripts):
    def make(self, statements):
        path = os.path.join(self.enterContext(tempfile.TemporaryDirectory()), "made.db")
        with contextlib.closing(sqlite3.connect(path)) as held:
            held.executescript(statements + "PRAGMA journal_mode = WAL;")
        return path

    def make_books(self):
        path = self.make("")
        with mock.patch.object(sys, "argv", ["books.py", path]):
            books.main()
        return path

    def change(self, database, statement):
        with contextlib.closing(sqlite3.connect(database)) as held:
            held.execute(statement)
            held.commit()

    def test_each_type(self):
        database = self.make("""CREATE TABLE Kinds (i INTEGER PRIMARY KEY, "Small" TINYINT, t VARCHAR(3), d DATE, ok BOOLEAN, n DECIMAL(10, 2), j JSON,
            v TEXT COLLATE NOCASE); INSERT INTO kinds VALUES (1, 2, 'x', '2024-01-05', 1, 12.34, '[1]', 'A'), (2, NULL, NULL, NULL, NULL, -0.1, NULL, 'a');
            CREATE TABLE f (a INTEGER, x REAL); CREATE TABLE b (x BLOB); CREATE TABLE bad (a INTEGER, n DECIMAL(4, 1));
            INSERT INTO bad VALUES ('three', 1.5);""")
        status, given, said = asked(database, "SELECT * FROM kinds WHERE v = 'A' AND d < '2024-02'; SELECT n, small FROM kinds; SELECT \"Small\" AS x FROM kinds WHERE i = 1;")
        self.assertEqual((status, said.splitlines()[1]), (4, "asked.sql:1:64: no column of this name (E11)"), given)
        status, given, said = asked(database, "SELECT * FROM kinds WHERE v = 'A' AND d < '2024-02'; SELECT n, small FROM kinds;")
        self.assertEqual((status, given), (0, '"i","small","t","d","ok","n","j","v"\n1,2,"x","2024-01-05",1,1234,"[1]","A"\n(1 rows)\n'
                                           '"n","small"\n-10,\n1234,2\n(2 rows)\n'))
        self.assertEqual(said, "note: kinds.n is decimal(10, 2): read in units of 0.01\n")
        for table, word in (("f", "its column x is REAL"), ("b", "its column x is BLOB"), ("bad", "column a of table bad holds a value")):
            status, given, said = asked(database, f"SELECT 1 FROM {table};")
            self.assertEqual(status, 4)
            self.assertIn(word, said)
        self.assertEqual(asked(database, "SELECT * FROM f;", "--without", "f.x")[:2], (0, '"a"\n(0 rows)\n'))

    def test_a_large_answer_takes_little_memory(self):
        database = self.make("""CREATE TABLE big AS WITH n(i) AS (SELECT 1 UNION ALL SELECT i + 1 FROM n WHERE i < 100000)
            SELECT i, 'a text of some length' AS t FROM n;""")
        status, given, _ = asked(database, "SELECT PROVENANCE i FROM big;")
        self.assertEqual((status, given[-14:]), (0, "(100000 rows)\n"))
        self.assertLess(resource.getrusage(resource.RUSAGE_CHILDREN).ru_maxrss * 1024, MOST_MEMORY)

    def test_the_forms_of_an_answer(self):
        database = self.make_books()
        script = "CREATE VIEW v AS SELECT name FROM debtors WHERE id < 3; SELECT * FROM v; SELECT 1 AS one;"
        self.assertEqual(asked(database, script, "--csv")[:2], (0, '"name"\n"Ada"\n"Bob"\n\n"one"\n1\n'))
        status, page, _ = asked(database, (TOP / "examples/books/figure.sql").read_text(), "--page")
        self.assertEqual(status, 0)
        self.assertIn("<b>3 witnesses</b>: 1 row of debtors, 2 rows of invoices, 3 rows of lines", page)

    def test_a_database_that_is_none(self):
        self.assertEqual(asked("nosuch.db", "SELECT 1;")[::2], (11, "ask: nosuch.db: there is no SQLite file of this name\n"))
        self.assertEqual(asked(str(TOP / "README.md"), "SELECT 1;")[0], 11)
        self.assertEqual(asked(self.make(""), "SELECT 1;", "--schema", "x")[0], 11)

    def test_nothing_is_written(self):
        database = self.make_books()
        before = pathlib.Path(database).read_bytes()
        self.assertEqual(asked(database, "SELECT PROVENANCE name FROM debtors;")[0], 0)
        self.assertEqual(pathlib.Path(database).read_bytes(), before)


class Library(unittest.TestCase):
    def test_a_missing_library_is_asked_for(self):
        with mock.patch.object(on_postgres, "driver", lambda: None), mock.patch.dict(os.environ, {on_postgres.AGAIN: "yes"}):
            with self.assertRaisesRegex(NoDatabase, "apt-get install python3-psycopg2"):
                on_postgres.with_driver()


SERVER = {}


def missing():
    """Why PostgreSQL can't be asked here; None where it can."""
    if binaries() is None:
        return "PostgreSQL isn't there"
    return None if on_postgres.driver() else f"this Python has none of {', '.join(on_postgres.DRIVERS)}"


@unittest.skipIf(missing(), missing())
class OnPostgres(Scripts):
    """Each test has a database of its own."""

    @classmethod
    def setUpClass(cls):
        SERVER["held"] = Postgres(binaries()).__enter__()
        cls.addClassCleanup(SERVER["held"].__exit__)
        SERVER["count"] = 0

    def connected(self, database):
        held = on_postgres.driver().connect(database)
        held.autocommit = True
        return contextlib.closing(held)

    def change(self, database, *statements):
        with self.connected(database) as held:
            for statement in statements:
                held.cursor().execute(statement)

    def make(self, statements, options=""):
        SERVER["count"] += 1
        name, where = f"made{SERVER['count']}", f"host={SERVER['held'].home} user=bench dbname="
        self.change(where + "postgres", f"CREATE DATABASE {name} {options}")
        self.change(where + name, statements or "SELECT 1")
        return where + name

    def make_books(self):
        database = self.make(";".join(f"CREATE TABLE {table} ({columns})" for table, columns in books.TABLES.items()))
        for table in books.TABLES:
            for row in books.rows(table):
                values = ", ".join("NULL" if it is None else it if it.isdigit() else f"'{it}'" for it in row)
                self.change(database, f"INSERT INTO {table} VALUES ({values})")
        return database

    def test_each_type(self):
        database = self.make("""CREATE TYPE mood AS ENUM ('sad', 'ok'); CREATE DOMAIN cents AS NUMERIC(10, 2); CREATE SCHEMA other;
            CREATE TABLE kinds (s SMALLINT, i INTEGER, b BIGINT, t TEXT, v VARCHAR(9), c CHAR(5), d DATE, z TIMESTAMPTZ, u UUID, ok BOOLEAN, m mood,
                j JSONB, n NUMERIC(12, 2), p cents);
            INSERT INTO kinds VALUES (1, 2147483647, 3, 'a\\b', 'v', 'c', '2024-02-01', '2024-02-01 10:00+02', 'a0eebc99-9c0b-4ef8-bb6d-6bb9bd380a11',
                true, 'ok', '{"a": 1}', 12.34, 0.05);
            CREATE TABLE f (a INTEGER, x DOUBLE PRECISION); CREATE TABLE n (x NUMERIC); CREATE TABLE b (x BYTEA); CREATE TABLE other.f (a BIGINT);""")
        status, given, said = asked(database, "SELECT * FROM kinds WHERE d >= '2024-01' AND t LIKE '_\\%'; SELECT i + i AS twice FROM kinds;")
        self.assertEqual((status, given), (0, '"s","i","b","t","v","c","d","z","u","ok","m","j","n","p"\n1,2147483647,3,"a\\b","v","c","2024-02-01",'
                                           '"2024-02-01 08:00:00+00","a0eebc99-9c0b-4ef8-bb6d-6bb9bd380a11","true","ok","{""a"": 1}",1234,5\n(1 rows)\n'
                                           '"twice"\n4294967294\n(1 rows)\n'), said)
        self.assertIn("note: kinds.n is numeric(12,2): read in units of 0.01\nnote: kinds.p is numeric(10,2): read in units of 0.01\n", said)
        for table, word in (("f", "its column x is double precision"), ("n", "its column x is numeric"), ("b", "its column x is bytea")):
            status, given, said = asked(database, f"SELECT 1 FROM {table};")
            self.assertEqual((status, given), (4, "error E10 at 14\n"))
            self.assertIn(word, said)
        self.assertEqual(asked(database, "SELECT * FROM f;", "--schema", "other", "--schema", "public")[:2], (0, '"a"\n(0 rows)\n'))
        self.assertEqual(asked(database, "SELECT 1;", "--schema", "nosuch")[0], 11)

    def test_what_fails_leaves_the_transaction_whole(self):
        database = self.make("CREATE TABLE r (a INTEGER); INSERT INTO r VALUES (1);")
        with contextlib.closing(session.opened(database, session.Options(PROGRAM), False)) as engine:
            with mock.patch.object(on_postgres, "RELATION", "SELECT 1 / 0 WHERE %s IS NOT NULL AND %s IS NOT NULL AND %s IS NOT NULL"):
                self.assertEqual(over(engine, "SELECT a FROM r;")[0], 11)
            self.assertEqual(over(engine, "SELECT a FROM r;")[:2], (0, '"a"\n1\n(1 rows)\n'))

    def test_texts_compare_by_their_bytes(self):
        database = self.make("CREATE TABLE r (b TEXT); INSERT INTO r VALUES ('a'), ('B'), ('Z'), (NULL)",
                             "TEMPLATE template0 LOCALE_PROVIDER icu ICU_LOCALE 'en'")
        self.assertEqual(asked(database, "SELECT b, b < 'a' AS less FROM r; SELECT MAX(b) FROM r; SELECT b FROM r ORDER BY b LIMIT 1;")[:2],
                         (0, '"b","less"\n"B",true\n"Z",true\n"a",false\n,\n(4 rows)\n"max"\n"a"\n(1 rows)\n"b"\n"B"\n(1 rows)\n'))

    def test_indexes_are_used(self):
        database = self.make("CREATE TABLE r (a INTEGER PRIMARY KEY, b INTEGER NOT NULL); INSERT INTO r SELECT i, i % 9000 FROM generate_series(1, 20000) i; "
                             "CREATE INDEX ON r (b); ANALYZE r")
        with contextlib.closing(session.opened(database, session.Options(PROGRAM), False)) as engine:
            texts = []
            engine.rows = lambda text: texts.append(text) or iter([])
            over(engine, "CREATE VIEW v AS SELECT b, COUNT(*) AS n FROM r GROUP BY b; SELECT PROVENANCE n FROM v WHERE b = 7; SELECT a FROM r WHERE a = 5;")
            for text in texts:
                plan = " ".join(it[0] for it in engine.ask(f"EXPLAIN {text}"))
                self.assertIn("Index", plan)
                self.assertNotIn("Seq Scan", plan)

    def test_a_server_that_goes_away(self):
        database = self.make_books()
        with contextlib.closing(session.opened(database, session.Options(PROGRAM), False)) as engine:
            self.change(database, "SELECT pg_terminate_backend(pid) FROM pg_stat_activity WHERE datname = current_database() AND pid <> pg_backend_pid()")
            status, given, said = over(engine, "SELECT 1 AS x FROM lines;")
        self.assertEqual((status, given), (11, ""))
        self.assertIn("ask: PostgreSQL went away: ", said)

    def test_a_role_that_may_only_read(self):
        database = self.make_books()
        name = database.rsplit("=", 1)[1]
        self.change(database, "DROP ROLE IF EXISTS reader", "CREATE ROLE reader LOGIN", "GRANT SELECT ON debtors TO reader",
                    f"REVOKE ALL ON DATABASE {name} FROM PUBLIC", f"GRANT CONNECT ON DATABASE {name} TO reader")
        self.addCleanup(self.change, database, "REVOKE ALL ON debtors FROM reader", f"REVOKE ALL ON DATABASE {name} FROM reader", "DROP ROLE reader")
        reader = database.replace("user=bench", "user=reader")
        self.assertEqual(asked(reader, "SELECT PROVENANCE name FROM debtors WHERE id = 2;")[:2],
                         (0, '"name","prov_debtors_id","prov_debtors_name","prov_debtors_town"\n"Bob",2,"Bob","Graz"\n(1 rows)\n'))
        status, given, said = asked(reader, "SELECT COUNT(*) FROM lines;")
        self.assertEqual((status, given), (10, "error A04 at 0\n"))
        self.assertIn("PostgreSQL refuses this statement: permission denied for table lines (A04)", said)
        status, given, said = asked(reader, "CREATE TABLE x AS SELECT id FROM debtors;")
        self.assertEqual((status, given), (10, "error A04 at 0\n"))
        self.assertIn("permission denied", said)

    def test_a_server_that_isnt_there(self):
        self.assertEqual(asked("host=/nosuch dbname=x", "SELECT 1;")[0], 11)

    def test_the_recipe_of_shards(self):
        """The commands of docs/ENGINES.md, with databases of one server in the place of servers."""
        blocks = re.findall(r"^```(shard|coordinator|books)\n(.*?)^```$", (TOP / "docs/ENGINES.md").read_text(), re.M | re.S)
        own = {kind: text for kind, text in blocks}
        self.assertEqual(len(blocks), 3)
        made = [self.make(own["shard"]) for _ in range(3)]
        text = own["coordinator"]
        for number, where in enumerate(made):
            name = where.rsplit("=", 1)[1]
            text = text.replace(f"host 'shard{number}.example', dbname 'books'", f"host '{SERVER['held'].home}', dbname '{name}'")
        coordinator = self.make(text.replace("(user 'books')", "(user 'bench')"))
        for line in own["books"].strip().splitlines():
            self.assertTrue(line.startswith('./ask "host=coordinator.example dbname=books'))
        options = re.search(r"options='[^']*'", own["books"])[0]
        status, given, said = asked(f"{coordinator} {options}", (TOP / "examples/books/figure.sql").read_text())
        self.assertEqual(status, 0, said)
        database = self.make_books()
        self.assertEqual(asked(database, (TOP / "examples/books/figure.sql").read_text())[1], given)


del Scripts

if __name__ == "__main__":
    if missing():
        print(f"check: {missing()}: what asks it isn't tested", file=sys.stderr)
    unittest.main(verbosity=1, argv=[sys.argv[0], *sys.argv[1:]])
