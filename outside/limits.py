#!/usr/bin/env python3
"""Runs scripts of a megabyte that are one chain of the grammar each: limits.py [--only WORD] [--bytes N]

Each has to end by itself, with the status that is named, within SECONDS of a processor and MEGABYTES where it makes no rows: none may end
by a signal, which is how a stack that is too small would show. A chain is as long as the bytes allow. Each limit of the language is
tried too: the last number that is taken, and the next one, which is refused.
"""
import argparse
import os
import pathlib
import resource
import subprocess
import sys
import tempfile

PROGRAM = os.environ.get("PERM") or pathlib.Path(__file__).resolve().parent.parent / "crates/perm_cli/out/perm_cli"
MOST = 1 << 20
SECONDS, MEGABYTES = 2.0, 256
# A script that ends only by the clock or by a limit of memory ends here.
LAST_SECONDS, LAST_BYTES = 60, 6 << 30
TABLE = "CREATE TABLE r (a INTEGER, b TEXT);"


def chain(front, first, link, back=";"):
    """Scripts of one chain: what stands in front, the first part, a link as often as there is room, and what stands behind. `%d` in a
    link is its number."""
    def script(room):
        parts, left, number = [], room - len(front) - len(first) - len(back), 0
        while True:
            number += 1
            text = link.replace("%d", str(number))
            if len(text) > left:
                return front + first + "".join(parts) + back
            parts.append(text)
            left -= len(text)
    return script


def nested(front, opening, inner, closing, back=";"):
    def script(room):
        times = (room - len(front) - len(inner) - len(back)) // (len(opening) + len(closing))
        return front + opening * times + inner + closing * times + back
    return script


# Name, script, and the status that it ends with: 0 it is answered, 3 it is no script (nested too deep), 4 it breaks a limit or a rule.
CHAINS = [
    ("spaces", chain("", "SELECT 1;", " ", ""), 0),
    ("comments", chain("", "SELECT 1;", "--\n", ""), 0),
    ("semicolons", chain("", "SELECT 1;", ";", ""), 0),
    ("a long text", chain("SELECT '", "", "x", "';"), 0),
    ("a long name", chain('SELECT 1 AS "', "", "x", '";'), 0),
    ("quotes in a text", chain("SELECT '", "", "''", "';"), 0),
    ("digits", chain("SELECT ", "", "9", ";"), 3),
    *[(f"{word.strip().lower()}", chain("", "SELECT 1", f" {word}SELECT 1"), 4)
      for word in ("UNION ", "UNION ALL ", "EXCEPT ", "EXCEPT ALL ", "INTERSECT ", "INTERSECT ALL ")],
    *[(f"{word.lower()} join", chain(TABLE, "SELECT 1 FROM r x", f" {word} JOIN r y%d ON TRUE"), 4)
      for word in ("INNER", "LEFT", "RIGHT", "FULL")],
    ("cross join", chain(TABLE, "SELECT 1 FROM r x", " CROSS JOIN r y%d"), 4),
    ("joins with one name", chain(TABLE, "SELECT 1 FROM r", " CROSS JOIN r"), 4),
    ("comma items", chain(TABLE, "SELECT 1 FROM r x", ",r y%d"), 4),
    ("comma items of PROVENANCE", chain(TABLE, "SELECT PROVENANCE 1 FROM r x", ",r y%d"), 4),
    ("joins on names", chain("", "SELECT 1 FROM (SELECT 1 AS c) x", " JOIN (SELECT 1 AS c%d) y%d ON c%d=c"), 4),
    *[(f"{kind.lower()} lateral", chain(TABLE, "SELECT 1 FROM r x", f" {kind} JOIN LATERAL(SELECT 1)y%d{back}"), 4)
      for kind, back in (("CROSS", ""), ("LEFT", " ON TRUE"))],
    ("comma subqueries", chain("", "SELECT 1 FROM (SELECT 1) x", ",(SELECT 1) y%d"), 4),
    *[(f"chain of {operator}", chain("", "SELECT 1", f"{operator}1"), 0) for operator in ("+", "-", "*", "/", "%")],
    ("chain of ||", chain("", "SELECT 'a'", "||'a'"), 3),
    ("chain of AND", chain("", "SELECT TRUE", " AND TRUE"), 0),
    ("chain of OR", chain("", "SELECT FALSE", " OR FALSE"), 0),
    ("chain of =", chain("", "SELECT 1", "=1"), 3),
    ("NOTs", chain("", "SELECT ", "NOT ", "TRUE;"), 0),
    ("signs", chain("", "SELECT ", "- ", "1;"), 0),
    ("IS NULLs", chain("", "SELECT 1", " IS NULL"), 3),
    ("parentheses", nested("SELECT ", "(", "1", ")"), 3),
    ("queries in parentheses", nested("", "(", "SELECT 1", ")"), 3),
    ("subqueries in FROM", nested("", "SELECT a FROM (", "SELECT 1 AS a", ") x"), 3),
    ("EXISTS in EXISTS", nested("SELECT 1 WHERE ", "EXISTS(SELECT 1 WHERE ", "TRUE", ")"), 3),
    ("WHENs", chain("", "SELECT CASE", " WHEN FALSE THEN 1", " END;"), 0),
    ("arguments of COALESCE", chain("SELECT COALESCE(", "NULL", ",1", ");"), 0),
    ("list of IN", chain("SELECT 1 IN (", "2", ",2", ");"), 0),
    ("items", chain("", "SELECT 1", ",1"), 4),
    ("items with names", chain("", "SELECT 1 AS a", ",1 AS a%d"), 4),
    ("stars", chain(TABLE, "SELECT *", ",*", " FROM r;"), 4),
    ("keys of ORDER BY", chain(TABLE, "SELECT a FROM r ORDER BY a", ",a"), 0),
    ("groups", chain(TABLE, "SELECT 1 FROM r GROUP BY a", ",a"), 0),
    ("aggregates", chain(TABLE, "SELECT COUNT(*)", "+COUNT(*)", " FROM r;"), 0),
    ("columns of a table", chain("CREATE TABLE t (", "c INTEGER", ",c%d INTEGER", ");"), 4),
    ("columns of one name", chain("CREATE TABLE t (", "c INTEGER", ",c INTEGER", ");"), 4),
    ("values of a row", chain(TABLE + "INSERT INTO r VALUES (", "1", ",1", ");"), 4),
    ("rows of INSERT", chain(TABLE + "INSERT INTO r VALUES ", "(1,'')", ",(1,'')", ";"), 0),
    ("attributes", chain(TABLE, "SELECT 1 FROM r PROVENANCE (a", ",a", ");"), 4),
    ("statements", chain("", "SELECT 1;", "SELECT 1;", ""), 0),
    ("tables", chain("", "CREATE TABLE t (a TEXT);", "CREATE TABLE t%d (a TEXT);", ""), 0),
    ("views", chain(TABLE, "", "CREATE VIEW v%d AS SELECT a FROM r;", ""), 0),
    ("views over views", lambda room: over_views(room), 4),
    *[(f"impact on {word.strip().lower()}", chain(TABLE, "IMPACT DELETE FROM r OF SELECT a FROM r", f" {word}SELECT a FROM r"), 4)
      for word in ("UNION ", "EXCEPT ")],
    ("impact on comma items", chain(TABLE, "IMPACT DELETE FROM r OF SELECT 1 FROM r x", ",r y%d"), 4),
    ("impact on joins", chain(TABLE, "IMPACT DELETE FROM r OF SELECT 1 FROM r x", " LEFT JOIN r y%d ON TRUE"), 4),
    ("wide subqueries in FROM", lambda room: "CREATE VIEW v AS " + levels(room) + ";", 0),
    ("PROVENANCE in PROVENANCE", lambda room: provenance_of_provenance(12), 0),
    ("sublinks in one condition", chain(TABLE, "SELECT 1 FROM r WHERE TRUE", " AND EXISTS(SELECT 1)"), 4),
]


# What a query of one SELECT of a constant has: the list, and the one row below it.
SMALLEST = 2


def sized(operators):
    """A script whose last query has so many operators: views that are twice the one before, and a chain of some of them."""
    views, sizes = ["CREATE VIEW v0 AS SELECT 1 AS a;"], [SMALLEST]
    while 2 * sizes[-1] + 3 < operators:
        views.append(f"CREATE VIEW v{len(views)} AS SELECT a FROM v{len(views) - 1} UNION ALL SELECT a FROM v{len(views) - 1};")
        sizes.append(2 * sizes[-1] + 3)
    # A part of the chain costs its SELECT and the UNION ALL in front of it; WHERE costs one more.
    left, parts = operators + 1, []
    for number in reversed(range(len(sizes))):
        while sizes[number] + 2 <= left:
            left -= sizes[number] + 2
            parts.append(f"SELECT a FROM v{number}")
    parts = [part + " WHERE a = 2" * (at < left) for at, part in enumerate(parts)]
    return "".join(views) + " UNION ALL ".join(parts) + ";"


def wide(columns):
    return TABLE + "SELECT " + ",".join("1" for _ in range(columns)) + " FROM r;"


def high(items):
    return TABLE + "SELECT 1 FROM " + ",".join(f"r x{number}" for number in range(items)) + ";"


def declared(columns):
    return "CREATE TABLE t (" + ",".join(f"c{number} TEXT" for number in range(columns)) + ");"


def with_provenance(columns):
    """A SELECT PROVENANCE of one column and the provenance of so many, of which each item has 128."""
    half = "CREATE TABLE h (" + ",".join(f"c{number} TEXT" for number in range(128)) + ");"
    rest = "CREATE TABLE l (" + ",".join(f"c{number} TEXT" for number in range(columns % 128 or 128)) + ");"
    items = [f"h x{number}" for number in range((columns - 1) // 128)] + ["l"]
    return half + rest + "SELECT PROVENANCE 1 FROM " + ",".join(items) + ";"


def unions(selects):
    return " UNION ".join("SELECT 1" for _ in range(selects)) + ";"


# Each limit: what is made of a number, the last number that is taken, and how the next one's answer begins.
BOUNDS = [
    ("columns of a table", declared, 256, "error E26"),
    ("columns of a query", wide, 1024, "error E26"),
    ("provenance columns", with_provenance, 1023, "error E26"),
    ("items of FROM", high, 254, "error E27"),
    ("SELECTs of UNIONs", unions, 255, "error E27"),
    ("operators", sized, 65536, "error E27"),
    ("spaces", lambda spaces: " " * spaces, MOST, "error E41 script"),
]


def bounds(only):
    """How many limits aren't where they have to be."""
    failed = 0
    for name, script, last, refusal in BOUNDS:
        if only not in name:
            continue
        taken, refused = Ran(script(last)), Ran(script(last + 1))
        wrong = taken.status != 0 or not refused.last or not refused.last[0].startswith(refusal)
        failed += wrong
        print(f"{name:28} {last} are taken with status {taken.status}, one more answers {' '.join(refused.last)}{'  <-- wrong' * wrong}", flush=True)
    return failed


def levels(room):
    """A query in FROM of another, 60 deep, each with as many columns as there is room for, 1,000 at most."""
    columns = min(1000, room // 60 // len("c100,") - 10)
    names = ",".join(f"c{number}" for number in range(columns))
    text = "SELECT " + ",".join(f"1 AS c{number}" for number in range(columns))
    for _ in range(60):
        text = f"SELECT {names} FROM ({text}) x"
    return text


def provenance_of_provenance(depth):
    """PROVENANCE over a grouping of what PROVENANCE answers, so deep: what stands for a level holds the next one twice."""
    text = "SELECT PROVENANCE COUNT(*) AS n FROM r"
    for _ in range(depth - 1):
        text = f"SELECT PROVENANCE COUNT(*) AS n FROM ({text}) x"
    return TABLE + text + ";"


def over_views(room):
    parts, left, number = [TABLE, "CREATE VIEW v0 AS SELECT a FROM r;"], room - 100, 0
    while left > 0:
        number += 1
        parts.append(f"CREATE VIEW v{number} AS SELECT a FROM v{number - 1};")
        left -= len(parts[-1])
    return "".join(parts)


class Ran:
    """A run: how it ended, in how many seconds of a processor and at most which memory."""

    def __init__(self, script):
        with tempfile.NamedTemporaryFile("w", suffix=".sql") as file, tempfile.TemporaryFile() as answer:
            file.write(script)
            file.flush()
            started = subprocess.Popen([PROGRAM, file.name], stdout=answer, stderr=subprocess.DEVNULL,
                                       preexec_fn=lambda: (resource.setrlimit(resource.RLIMIT_CPU, (LAST_SECONDS, LAST_SECONDS)),
                                                           resource.setrlimit(resource.RLIMIT_AS, (LAST_BYTES, LAST_BYTES))))
            _, ended, used = os.wait4(started.pid, 0)
            self.seconds = used.ru_utime + used.ru_stime
            started.returncode = self.status = os.waitstatus_to_exitcode(ended)
            self.megabytes = used.ru_maxrss / 1024
            answer.seek(0)
            self.last = answer.read()[-200:].decode(errors="replace").strip().splitlines()[-1:]


def main():
    words = argparse.ArgumentParser(description=__doc__.splitlines()[0])
    words.add_argument("--only", default="")
    words.add_argument("--bytes", type=int, default=MOST)
    given = words.parse_args()
    failed = bounds(given.only)
    for name, script, status in CHAINS:
        if given.only not in name:
            continue
        ran = Ran(script(given.bytes))
        wrong = ran.status != status or ran.seconds > SECONDS or ran.megabytes > MEGABYTES
        failed += wrong
        print(f"{name:28} {ran.status:3} {ran.seconds:7.2f} s {ran.megabytes:6.0f} MB  {' '.join(ran.last)[:40]:40}{'  <-- wrong' * wrong}", flush=True)
    print(f"{failed} chains and limits are otherwise than they have to be")
    return failed > 0


if __name__ == "__main__":
    sys.exit(main())
