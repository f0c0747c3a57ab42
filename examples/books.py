#!/usr/bin/env python3
"""Makes a SQLite file of the books of the report example: books.py FILE."""
import csv
import pathlib
import sqlite3
import sys

TABLES = {
    "debtors": "id INTEGER PRIMARY KEY, name TEXT NOT NULL, town TEXT",
    "invoices": "number INTEGER PRIMARY KEY, debtor INTEGER NOT NULL, issued TEXT NOT NULL",
    "lines": "invoice INTEGER NOT NULL, article TEXT NOT NULL, pieces INTEGER NOT NULL, price INTEGER NOT NULL",
}


def rows(table):
    """The rows of a table of the example; an empty field is NULL."""
    with open(pathlib.Path(__file__).parent / f"report/{table}.csv", newline="") as file:
        return [[field or None for field in row] for row in csv.reader(file)]


def main():
    if len(sys.argv) != 2:
        sys.exit("usage: books.py FILE")
    held = sqlite3.connect(sys.argv[1])
    for table, columns in TABLES.items():
        held.execute(f"CREATE TABLE {table} ({columns})")
        held.executemany(f"INSERT INTO {table} VALUES ({', '.join('?' * (columns.count(',') + 1))})", rows(table))
    held.execute("CREATE INDEX lines_of ON lines (invoice)")
    held.commit()


if __name__ == "__main__":
    main()
