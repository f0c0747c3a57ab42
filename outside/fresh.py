#!/usr/bin/env python3
"""Compares SHOW FRESH with a model of it on random scripts that make, read, change, drop and store tables.

    outside/fresh.py [--seed N] [--scripts N] [--wrong RULE]

The model keeps identities and versions alone, by the rule as docs/LANGUAGE.md tells it, and no rows. `--wrong` puts a wrong rule into it:
`names` (a table of the kept name will do), `last` (the last changed table is named), `idle` (a DELETE of no row changes nothing), `right`
(the right side is read before the left one), `sublinks` (what only a subquery reads isn't kept) or `views` (what a view reads isn't kept).
The status is 1 where a script answers otherwise.
"""
import argparse
import os
import pathlib
import random
import subprocess
import sys
import tempfile
from dataclasses import dataclass

PROGRAM = os.environ.get("PERM") or pathlib.Path(__file__).resolve().parent.parent / "crates/perm_cli/out/perm_cli"
RULES = ("names", "last", "idle", "right", "sublinks", "views")
STORED = "CREATE TABLE AS"
# Two stored sources may have provenance columns of one name, and then no table is made of them.
EQUAL_NAMES = "error E14"


@dataclass
class Table:
    identity: int
    version: int
    # the name, identity and version of each table that the stored query read
    kept: list | None = None


class Model:
    """A script while it is made, with what it answers."""

    def __init__(self, chance, wrong):
        self.chance, self.wrong = chance, wrong
        self.tables, self.views, self.drawn = {}, {}, 0
        self.statements, self.answers = [], []

    def draw(self):
        self.drawn += 1
        return self.drawn

    def say(self, statement, answer):
        self.statements.append(statement + ";")
        self.answers.append(answer)

    def source(self):
        """A name for FROM, and the identities that it reads."""
        if self.views and self.chance.random() < 0.25:
            name = self.chance.choice(sorted(self.views))
            return name, [] if self.wrong == "views" else self.views[name]
        name = self.chance.choice(sorted(self.tables))
        return name, [self.tables[name].identity]

    def query(self):
        """A query with PROVENANCE, and the identities that it reads, in order."""
        (a, left), (b, right), (c, third) = self.source(), self.source(), self.source()
        sides = right + left if self.wrong == "right" else left + right
        inside = [] if self.wrong == "sublinks" else right
        rest = [] if self.wrong == "sublinks" else third
        begin = f"SELECT PROVENANCE 1 AS x FROM {a} p"
        return self.chance.choice((
            (begin, left),
            (f"{begin} CROSS JOIN {b} q", sides),
            (f"{begin} LEFT JOIN {b} q ON TRUE", sides),
            (f"{begin} RIGHT JOIN {b} q ON 1 = 1", sides),
            (f"{begin} UNION ALL SELECT 2 FROM {b} q", sides),
            (f"{begin} WHERE EXISTS (SELECT 1 FROM {b} q)", left + inside),
            (f"{begin} WHERE NOT EXISTS (SELECT 1 FROM {b} q) OR EXISTS (SELECT 1 FROM {c} z)", left + inside + rest),
            (f"SELECT PROVENANCE 1 AS x FROM (SELECT 1 AS y FROM {a} p) s BASERELATION, {b} q", sides),
        ))

    def create(self, name):
        number = self.draw()
        self.tables[name] = Table(number, number)
        self.say(f"CREATE TABLE {name} (x INTEGER)", "CREATE TABLE")

    def store(self, name):
        query, reads = self.query()
        names = {table.identity: (held, table.version) for held, table in self.tables.items()}
        kept = [(names[identity][0], identity, names[identity][1]) for identity in dict.fromkeys(reads)]
        number = self.draw()
        self.tables[name] = Table(number, number, kept)
        self.say(f"CREATE TABLE {name} AS {query}", STORED)

    def view(self, name):
        (a, left), (b, right) = [(n, [self.tables[n].identity]) for n in self.chance.choices(sorted(self.tables), k=2)]
        self.views[name] = left + right
        self.say(f"CREATE VIEW {name} AS SELECT 1 AS x FROM {a} p CROSS JOIN {b} q", "CREATE VIEW")

    def delete(self, name):
        if self.wrong != "idle":
            self.tables[name].version, self.tables[name].kept = self.draw(), None
        self.say(f"DELETE FROM {name} WHERE 1 = 2", "DELETE 0")

    def drop(self, name):
        if len(self.tables) > 2 and all(self.tables[name].identity not in reads for reads in self.views.values()):
            del self.tables[name]
            self.say(f"DROP TABLE {name}", "DROP TABLE")

    def changed(self, kept):
        name, identity, version = kept
        if self.wrong == "names":
            return name not in self.tables
        return (identity, version) not in ((table.identity, table.version) for table in self.tables.values())

    def show(self, name):
        kept = self.tables[name].kept
        stale = [table[0] for table in kept or [] if self.changed(table)]
        told = "fresh" if not stale else f"stale {stale[-1 if self.wrong == 'last' else 0]}"
        self.say(f"SHOW FRESH {name}", "not stored" if kept is None else told)

    def step(self):
        name, view = f"t{self.chance.randrange(6)}", f"v{self.chance.randrange(3)}"
        if name not in self.tables:
            self.chance.choice((self.create, self.store, self.store))(name)
        elif view not in self.views and self.chance.random() < 0.2:
            self.view(view)
        else:
            self.chance.choice((self.delete, self.drop, self.show, self.show, self.show))(name)


def script(chance, wrong):
    model = Model(chance, wrong)
    for name in ("t0", "t1", "t2"):
        model.create(name)
    for _ in range(chance.randrange(8, 40)):
        model.step()
    return model


def agrees(model, path):
    pathlib.Path(path).write_text("\n".join(model.statements))
    told = subprocess.run([PROGRAM, path], capture_output=True, text=True).stdout.splitlines()
    answers = model.answers
    if told and told[-1].startswith(EQUAL_NAMES) and answers[len(told) - 1] == STORED:
        told, answers = told[:-1], answers[:len(told) - 1]
    return len(told) == len(answers) and all(
        line.startswith(STORED) if answer == STORED else line == answer for line, answer in zip(told, answers))


def main():
    words = argparse.ArgumentParser(description=__doc__, formatter_class=argparse.RawDescriptionHelpFormatter)
    words.add_argument("--seed", type=int, default=1)
    words.add_argument("--scripts", type=int, default=1000)
    words.add_argument("--wrong", choices=RULES)
    asked = words.parse_args()
    if not os.access(PROGRAM, os.X_OK):
        sys.exit("outside: the program isn't built: run ./build once")
    chance, differing, shown = random.Random(asked.seed), [], 0
    with tempfile.TemporaryDirectory() as folder:
        for _ in range(asked.scripts):
            model = script(chance, asked.wrong)
            shown += sum(answer == "fresh" or answer.startswith("stale") for answer in model.answers)
            if not agrees(model, os.path.join(folder, "script.sql")):
                differing.append(model.statements)
    if differing:
        print("\n".join(min(differing, key=len)))
    print(f"{asked.scripts} scripts, {shown} stored tables asked for, {len(differing)} differences")
    sys.exit(bool(differing))


main()
