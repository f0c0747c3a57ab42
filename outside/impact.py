#!/usr/bin/env python3
"""Compares IMPACT with a deletion that is carried out, on random monotone queries over random small tables.

    outside/impact.py [--seed N] [--queries N] [--wrong RULE]

Each query is asked, then IMPACT, then the query again, the rows are deleted, and the query is asked once more: IMPACT has to answer the first
answer's rows that the last one doesn't have, each once and in their order, and to change nothing. A fault of the query has to be one of the
IMPACT, and so has one of the DELETE where the query reads its table; otherwise the IMPACT answers. `--wrong` puts a wrong rule into what is
expected: `copies` (a row vanishes where it comes less often), `bag` (each row as often as it went) or `all` (every row of a query that reads
the table vanishes). The status is 1 where an answer is another one.
"""
import argparse
import os
import pathlib
import random
import re
import subprocess
import sys
import tempfile
from collections import Counter
from dataclasses import dataclass

PROGRAM = os.environ.get("PERM") or pathlib.Path(__file__).resolve().parent.parent / "crates/perm_cli/out/perm_cli"
RULES = ("copies", "bag", "all")
BATCH = 40
TABLES = {"r": "ab", "s": "ac", "t": "b"}
FAULT = re.compile(r"error (E3[012]) at (\d+)")
TOLD = re.compile(r"\((\d+) rows\)")


@dataclass
class Case:
    """Statements that make the tables, a query with the tables that it reads, and a table with a condition, or none."""

    made: list
    query: str
    reads: set
    table: str
    where: str

    def impact(self):
        return f"IMPACT DELETE FROM {self.table}{self.where} OF {self.query}"

    def delete(self):
        return f"DELETE FROM {self.table}{self.where}"


class Maker:
    """Random cases. `view` is the query of the view v, with the tables that this reads."""

    def __init__(self, chance):
        self.chance, self.view = chance, None

    def likely(self, share):
        return self.chance.random() < share

    def one(self, things):
        return self.chance.choice(list(things))

    def rows(self, table):
        values = self.one((["1", "2", "NULL"], ["0", "1", "2"], ["1", "1", "2", "3", "NULL"]))
        rows = [", ".join(self.one(values) for _ in TABLES[table]) for _ in range(self.one((0, 1, 2, 3, 4, 5)))]
        columns = ", ".join(f"{column} INTEGER" for column in TABLES[table])
        made = [f"CREATE TABLE {table} ({columns})"]
        return made + ([f"INSERT INTO {table} VALUES {', '.join(f'({row})' for row in rows)}"] if rows else [])

    def number(self, columns, depth):
        """An expression for an integer."""
        if depth == 0 or self.likely(.5):
            return self.one(columns) if columns and self.likely(.8) else self.one(("0", "1", "2", "CAST(NULL AS INTEGER)"))
        a, b = self.number(columns, depth - 1), self.number(columns, depth - 1)
        return self.one((f"{a} + {b}", f"{a} - {b}", f"({a}) * ({b})", f"COALESCE({a}, {b})", f"NULLIF({a}, {b})",
                         f"CASE WHEN {self.truth(columns, 0)} THEN {a} ELSE {b} END",
                         f"({a}) / ({b})" if self.likely(.15) else f"({a}) + 1"))

    def truth(self, columns, depth):
        if depth > 0 and self.likely(.4):
            a, b = self.truth(columns, depth - 1), self.truth(columns, depth - 1)
            return self.one((f"({a} AND {b})", f"({a} OR {b})", f"(NOT {a})", f"(({a}) IS NOT TRUE)"))
        a, b = self.number(columns, min(depth, 1)), self.number(columns, min(depth, 1))
        return self.one((f"{a} = {b}", f"{a} <> {b}", f"{a} < {b}", f"({a}) IS NULL", f"({a}) IN ({b}, 1)", f"({a}) BETWEEN 1 AND {b}",
                         f"({a}) IS DISTINCT FROM ({b})"))

    def source(self, alias, depth):
        """A source with its columns and the tables that it reads."""
        if depth > 0 and self.likely(.25):
            width = self.one((1, 2))
            text, reads = self.query(width, depth - 1)
            return f"({text}) {alias}", [f"{alias}.n{place}" for place in range(width)], reads
        if self.view and self.likely(.3):
            return f"v {alias}", [f"{alias}.n0"], self.view
        table = self.one(TABLES)
        return f"{table} {alias}", [f"{alias}.{column}" for column in TABLES[table]], {table}

    def select(self, width, depth):
        if self.likely(.05):
            return f"SELECT {self.items([], width)}", set()
        text, columns, reads = self.source("x", depth)
        if self.likely(.45):
            other, more, also = self.source("y", depth)
            columns, reads = columns + more, reads | also
            text += self.one((f", {other}", f" CROSS JOIN {other}", f" JOIN {other} ON {self.truth(columns, 1)}"))
        where = f" WHERE {self.truth(columns, 2)}" if self.likely(.6) else ""
        return f"SELECT {'DISTINCT ' if self.likely(.25) else ''}{self.items(columns, width)} FROM {text}{where}", reads

    def items(self, columns, width):
        return ", ".join(f"{self.number(columns, 1)} AS n{place}" for place in range(width))

    def query(self, width, depth):
        text, reads = self.select(width, depth)
        while self.likely(.3):
            other, more = self.select(width, depth)
            text, reads = f"{text} UNION {'ALL ' if self.likely(.4) else ''}{other}", reads | more
        return text, reads

    def case(self):
        made, self.view = [line for table in TABLES for line in self.rows(table)], None
        if self.likely(.3):
            text, self.view = self.query(1, 0)
            made.append(f"CREATE VIEW v AS {text}")
        width = self.one((1, 1, 2))
        query, reads = self.query(width, 2)
        if self.likely(.3):
            query += f" ORDER BY n{self.one(range(width))}{self.one(('', ' DESC'))}"
        table = self.one(TABLES)
        where = f" WHERE {self.truth(TABLES[table], 1)}" if self.likely(.85) else ""
        return Case(made, query, reads, table, where)


class Differs(Exception):
    pass


def expect(told, what):
    if not told:
        raise Differs(what)


class Runs:
    """Runs of the program over scripts in a folder."""

    def __init__(self, folder):
        self.path = os.path.join(folder, "script.sql")

    def told(self, statements):
        """The lines that each statement answered, and the number of the one that met a fault with its code, if one did."""
        script, starts = "", []
        for statement in statements:
            starts.append(len(script))
            script += statement + ";\n"
        pathlib.Path(self.path).write_text(script)
        lines = subprocess.run([PROGRAM, self.path], capture_output=True, text=True).stdout.splitlines()
        answers, answer = [], []
        for line in lines:
            fault = FAULT.fullmatch(line)
            if fault:
                return answers, (starts.index(int(fault[2])), fault[1])
            expect(not line.startswith("error"), line)
            answer.append(line)
            if not answer[0].startswith('"') or TOLD.fullmatch(line):
                answers.append(answer)
                answer = []
        return answers, None


def expected(before, after, reads, wrong):
    """The lines of an IMPACT by those of its query before and behind the deletion."""
    rows, left = before[1:-1], Counter(after[1:-1])
    if wrong == "all":
        gone = list(dict.fromkeys(rows)) if reads else []
    elif wrong == "copies":
        gone = [row for row in dict.fromkeys(rows) if left[row] < rows.count(row)]
    elif wrong == "bag":
        gone = [row for row in rows if not left[row]]
    else:
        gone = [row for row in dict.fromkeys(rows) if not left[row]]
    return [before[0], *gone, f"({len(gone)} rows)"]


def looked_at(case, answers, fault, runs, wrong):
    """Compares what a case's statements behind those that make its tables answered; says what kind of case it was."""
    asked, told = ("query", "impact", "again", "delete", "then"), dict(zip(("query", "impact", "again", "delete", "then"), answers))
    place = asked[len(answers)] if fault else None
    reads = case.table in case.reads
    if place is None:
        expect(told["impact"] == expected(told["query"], told["then"], reads, wrong), "other rows vanish")
        expect(told["again"] == told["query"], "something was deleted")
        return "rows vanish" if len(told["impact"]) > 2 else "no row vanishes"
    if place == "query":
        expect(runs.told(case.made + [case.impact()])[1], "a fault of the query isn't met")
        return "the query meets a fault"
    if place == "impact":
        expect(reads and runs.told(case.made + [case.delete()])[1], "a fault is met that neither the query nor the condition meets")
        return "the condition meets a fault"
    expect(place == "delete" and not reads and len(told["impact"]) == 2, f"a fault of the {place}")
    return "the condition of another table meets a fault"


def batch(cases, runs, wrong, kinds, differing):
    """Compares the cases, in one run as far as no fault ends it; says how many were looked at."""
    statements, begins = [], []
    for case in cases:
        begins.append(len(statements))
        view = ["DROP VIEW v"] if case.made[-1].startswith("CREATE VIEW") else []
        statements += case.made + [case.query, case.impact(), case.query, case.delete(), case.query]
        statements += view + [f"DROP TABLE {table}" for table in TABLES]
    answers, fault = runs.told(statements)
    for number, case in enumerate(cases):
        first = begins[number] + len(case.made)
        ended = fault if fault and fault[0] < first + 5 else None
        try:
            expect(ended or len(answers) >= first + 5, "nothing was answered")
            kinds[looked_at(case, answers[first:first + 5], ended, runs, wrong)] += 1
        except Differs as difference:
            differing.append((case, str(difference)))
        if ended:
            return number + 1
    return len(cases)


def main():
    words = argparse.ArgumentParser(description=__doc__, formatter_class=argparse.RawDescriptionHelpFormatter)
    words.add_argument("--seed", type=int, default=1)
    words.add_argument("--queries", type=int, default=5000)
    words.add_argument("--wrong", choices=RULES)
    asked = words.parse_args()
    if not os.access(PROGRAM, os.X_OK):
        sys.exit("outside: the program isn't built: run ./build once")
    maker, kinds, differing = Maker(random.Random(asked.seed)), Counter(), []
    with tempfile.TemporaryDirectory() as folder:
        runs, left = Runs(folder), [maker.case() for _ in range(asked.queries)]
        while left:
            left = left[batch(left[:BATCH], runs, asked.wrong, kinds, differing):]
    if differing:
        case, what = min(differing, key=lambda it: len(it[0].query) + len("".join(it[0].made)))
        print(";\n".join([*case.made, case.query, case.impact(), case.delete(), case.query]) + f";\n-- {what}")
    for kind, count in sorted(kinds.items()):
        print(f"{kind}: {count}")
    print(f"{asked.queries} queries, {len(differing)} differences")
    sys.exit(bool(differing))


main()
