#!/usr/bin/env python3
"""Asks other engines through ./ask: engines.py [--seed N] [--queries N] [--alone].

Each random query is answered by the program. ./ask then asks SQLite and PostgreSQL, which have the same tables: it has to give the
program's own bytes, the fault that the program meets, or a refusal that names what the engine can't do. PostgreSQL is a server of the
script's own in a temporary folder; an engine that isn't there is left out with a word. `--alone` asks neither: the text of EXPLAIN
REWRITE of each query is run by the program, which has to give the same bytes.
"""

import argparse
import contextlib
import functools
import os
import pathlib
import re
import sqlite3
import sys
import tempfile
import time
from collections import Counter
from dataclasses import dataclass, field

from compare import BYTES, ORDER, PLACES, PROGRAM, SUBLINK_PLACES, TOP, run, sublink_places
from queries import Queries
from reference import answer
from reference.meaning import TooMuch
from reference.names import Refused
from reference.text import name, text_literal, write_query
from reference.tree import INTEGER, Provenance, shape

sys.path += [os.path.join(TOP, "bench"), os.path.join(TOP, "tools")]
from ask import session, settling  # noqa: E402
from ask.failures import NoDatabase  # noqa: E402
from ask.on_postgres import PostgreSQL, with_driver  # noqa: E402
from ask.on_sqlite import Sqlite  # noqa: E402
from postgres import Postgres, binaries  # noqa: E402

BATCH = 30
ROWS = 1500
SECONDS = 5
ANSWERED, REFUSED, FAULT, ENGINE = 0, 4, 5, session.ENGINE
# What the program says of a text that nests deeper, or is larger, than a script may be.
TOO_DEEP = re.compile(r"error E(06|27) ")
# What ./ask says of statements of which an operand may meet a fault.
LAX = "where perm would meet a fault it may answer"
NAMED = re.compile(r"at line \d+|\"[^\"]*\"|\d+:\d+")
# Both engines are asked for the same texts.
settling.settle = functools.lru_cache(maxsize=4)(settling.settle)


@dataclass
class Case:
    """A query and what the program answers to it: rows of texts, truth values and numbers as they are written, or a fault."""

    text: str
    resolved: object
    lines: list
    status: int
    printed: str = ""


@dataclass
class Totals:
    done: int = 0
    told: Counter = field(default_factory=Counter)
    differences: list = field(default_factory=list)

    def differs(self, engine, case, setup, given):
        self.told[f"{engine}: differs"] += 1
        self.differences.append((engine, f"{setup}{case.text};\n{case.printed}", case.lines, given))


class Asked:
    """An engine that ./ask asks, with the tables of one random database at a time."""

    def ask(self, script):
        """The lines that ./ask answers, its status, and what it says beside."""
        answered, said = [], []
        options = session.Options(PROGRAM, trusted=True)
        status = session.run_over(self.engine, "asked.sql", script.encode(), options, lambda _, file: answered.append(file.read()), said.append)
        return b"".join(answered).decode().split("\n")[:-1], status, "".join(said)

    def close(self):
        if self.engine:
            self.engine.close()
            self.engine = None


class OnSqlite(Asked):
    name, integer, engine = "SQLite", "INTEGER", None

    def __init__(self, stack):
        self.path = os.path.join(stack.enter_context(tempfile.TemporaryDirectory()), "asked.db")
        stack.callback(self.close)

    def load(self, tables):
        self.close()
        pathlib.Path(self.path).unlink(missing_ok=True)
        with contextlib.closing(sqlite3.connect(self.path)) as held:
            for statement in statements_of(tables, self.integer):
                held.execute(statement)
            held.commit()
        self.engine = Sqlite(self.path)

    def ask(self, script):
        began = time.monotonic()
        self.engine.held.set_progress_handler(lambda: time.monotonic() - began > SECONDS, 100_000)
        return super().ask(script)


class OnPostgres(Asked):
    name, integer, engine = "PostgreSQL", "BIGINT", None

    def __init__(self, stack, paths):
        self.where = f"host={stack.enter_context(Postgres(paths)).home} user=bench dbname=postgres"
        stack.callback(self.close)

    def load(self, tables):
        self.close()
        with contextlib.closing(with_driver().connect(self.where)) as held:
            held.cursor().execute("DROP SCHEMA public CASCADE; CREATE SCHEMA public;" + ";".join(statements_of(tables, self.integer)))
            held.commit()
        self.engine = PostgreSQL(f"{self.where} options='-c statement_timeout={SECONDS * 1000}'")


def statements_of(tables, integer):
    """What makes the tables of a database: their columns and rows by their names."""
    for table, (columns, rows) in tables.items():
        kinds = ", ".join(f"{name(column)} {integer if kind == INTEGER else 'TEXT'}" for column, kind in columns)
        yield f"CREATE TABLE {name(table)} ({kinds})"
        for row in rows:
            values = (("NULL" if value is None else text_literal(value) if isinstance(value, str) else
                       "-9223372036854775807 - 1" if value == -2**63 else str(value)) for value in row)
            yield f"INSERT INTO {name(table)} VALUES ({', '.join(values)})"


def made_cases(made, setup, known, wanted):
    """Queries that break no rule, with the program's answers and their printed texts."""
    for _ in range(wanted * 3):
        if wanted <= 0:
            return
        try:
            query = made.statement()
            text, resolved = write_query(query), made.catalog.resolve(query)
        except (Refused, RecursionError, TooMuch):
            continue
        node = resolved.node
        places = len(shape(node.input)) if isinstance(node, Provenance) else 0
        if len(text) > BYTES or places > PLACES or sublink_places(node) > SUBLINK_PLACES:
            continue
        ran = run(f"{setup}{text};\n")
        if ran is not None and len(ran[0]) <= ROWS:
            wanted -= 1
            yield Case(text, resolved, ran[0][known:], ran[1])


def same_fault(case, made, given, status):
    """Whether a text ends with a fault that the query meets: which one of several is named is free."""
    if status != FAULT or len(given) != 1:
        return False
    codes = {line.split()[1] for line in (given[0], case.lines[0])}
    return len(codes) == 1 or codes <= (answer(made.tables, case.resolved)[1] or set())


def read_back(case, made, tables, known, totals):
    """The program runs the text itself, over the tables alone."""
    ran = run(tables + case.printed)
    if ran is None:
        totals.told["perm: too slow"] += 1
        return
    given, status = ran[0][known:], ran[1]
    if status not in (ANSWERED, FAULT) and given and TOO_DEEP.match(given[0]):
        totals.told["perm: too deep to be read again"] += 1
    elif (given, status) == (case.lines, case.status) or case.status == FAULT and same_fault(case, made, given, status):
        totals.told["perm: same" if status == ANSWERED else "perm: same fault"] += 1
    else:
        totals.differs("perm", case, tables, given + [f"status {status}"])


def compare_engine(engine, case, views, tables, totals):
    """What ./ask answers over an engine beside the program's answer."""
    lines, status, said = engine.ask(f"{views}{case.text};\n")
    given = lines[views.count("CREATE VIEW"):]
    if (given, status) == (case.lines, case.status):
        totals.told[f"{engine.name}: the same bytes"] += 1
    elif case.status == FAULT and status == FAULT:
        # The scripts differ in front of the query, so do the offsets.
        same = given[0].split()[1] == case.lines[0].split()[1]
        totals.told[f"{engine.name}: {'the same fault' if same else 'another fault'}"] += 1
    elif case.status == FAULT and status == ANSWERED and LAX in said:
        totals.told[f"{engine.name}: rows where the program meets a fault, and says that this may be"] += 1
    elif status == FAULT:
        totals.told[f"{engine.name}: a fault there alone: {said.split(' says: ')[1].splitlines()[0]}"] += 1
    elif status in (REFUSED, ENGINE):
        why = next(line for line in said.splitlines() if line.endswith(")")).split(": ", 1)[1]
        totals.told[f"{engine.name}: refused: {NAMED.sub('..', why)}"] += 1
    else:
        totals.differs(engine.name, case, tables, given + [f"status {status}", said])


def compare_database(made, engines, wanted, totals):
    setup = "".join(f"{statement};\n" for statement in made.statements)
    made_tables = [statement for statement in made.statements if not statement.startswith("CREATE VIEW")]
    tables = "".join(f"{statement};\n" for statement in made_tables)
    cases = list(made_cases(made, setup, len(made.statements), wanted))
    totals.done += len(cases)
    for case in [] if engines else cases:
        told = run(f"{setup}EXPLAIN REWRITE {case.text};\n")
        if told is None or told[1] != ANSWERED:
            totals.differs("perm", case, setup, ["isn't printed"])
            continue
        case.printed = "\n".join(told[0][len(made.statements):]) + "\n"
        read_back(case, made, tables, len(made_tables), totals)
    held = {table: (columns, made.tables[table]) for table, columns in made.catalog.tables.items()}
    views = "".join(f"{statement};\n" for statement in made.statements if statement.startswith("CREATE VIEW"))
    for engine in engines:
        engine.load(held)
        for case in cases:
            compare_engine(engine, case, views, tables, totals)


def there(alone, stack):
    """The engines that are there."""
    if alone:
        return []
    paths = binaries()
    try:
        paths = with_driver() and paths
    except NoDatabase as error:
        print(f"outside: {error}", file=sys.stderr)
        paths = None
    if not paths:
        print("outside: PostgreSQL isn't there, and left out", file=sys.stderr)
    return [OnSqlite(stack)] + ([OnPostgres(stack, paths)] if paths else [])


def main():
    words = argparse.ArgumentParser(description=__doc__.split("\n")[0])
    words.add_argument("--seed", type=int, default=1)
    words.add_argument("--queries", type=int, default=1000)
    words.add_argument("--alone", action="store_true")
    asked = words.parse_args()
    if not os.access(PROGRAM, os.X_OK):
        sys.exit("outside: the program isn't built: run ./build once")
    totals, number = Totals(), 0
    with contextlib.ExitStack() as stack:
        engines = there(asked.alone, stack)
        while totals.done < asked.queries and number < asked.queries:
            made = Queries(f"{asked.seed} {number}", ORDER[number % len(ORDER)])
            compare_database(made, engines, min(BATCH, asked.queries - totals.done), totals)
            number += 1
    for what, times in sorted(totals.told.items()):
        print(f"{what}: {times}")
    for engine in sorted({difference[0] for difference in totals.differences}):
        _, script, expected, given = min((it for it in totals.differences if it[0] == engine), key=lambda difference: len(difference[1]))
        print(f"the smallest script that differs, on {engine}:", script, "expected:", *expected, "given:", *given, sep="\n")
    print(f"{totals.done} queries, {len(totals.differences)} differences")
    sys.exit(1 if totals.differences else 0)


if __name__ == "__main__":
    main()
