#!/usr/bin/env python3
"""Tests ./csv-in and ./csv-out: csv_test.py PROGRAM

Each file is turned into one for COPY, and PROGRAM, which runs the statements for it, has to answer the values that are meant. What is
refused has to be refused by its line. Answers that are written as CSV and as JSON are read back.
"""
import contextlib
import csv
import importlib.machinery
import importlib.util
import io
import json
import os
import pathlib
import subprocess
import sys
import tempfile

import answers

TOP = pathlib.Path(__file__).resolve().parent.parent


def command(name):
    """The command of that name, as a module."""
    loader = importlib.machinery.SourceFileLoader(name.replace("-", "_"), str(TOP / name))
    module = importlib.util.module_from_spec(importlib.util.spec_from_loader(loader.name, loader))
    loader.exec_module(module)
    return module


# The bytes of a file, the options, and the rows that COPY has to make of it; None is NULL.
TURNED = [
    ("a,b\n1,x\n2,y\n", "", [("1", "x"), ("2", "y")]),
    ("a;b\r\n1,50;x\r\n-2;y\r\n", "", [("-200", "y"), ("150", "x")]),
    ("\ufeffa\tb\n1\tä\n", "", [("1", "ä")]),
    ("a;b\n1;ä\n".encode("utf-16"), "", [("1", "ä")]),
    ("a;b\n1;ä\n".encode("utf-16-be"), "--encoding utf-16-be", [("1", "ä")]),
    ("a;b\n1;M\u00fcll \u20ac\n".encode("cp1252"), "", [("1", "Müll €")]),
    ("a;b\r1;x\r", "", [("1", "x")]),
    ("sep=;\na;b,c\n1;x\n", "", [("1", "x")]),
    ("a|b\n'1|2'|3\n", "--quote '", [("1|2", "3")]),
    ('a,b\n1,"two\nlines, and ""quotes"""\n\n2,x\n', "", [("1", 'two\nlines, and "quotes"'), ("2", "x")]),
    ('a,b\n1,"a\rb"\n', "", [("1", "a\rb")]),
    ("a;b\n1.234,50;1\n2;2\n", "", [("200", "2"), ("123450", "1")]),
    ("a;b\n1,234.5;1\n2;2\n", "", [("20", "2"), ("12345", "1")]),
    ("a;b\n1 234,5;1\n1\u202f234;2\n", "", [("12340", "2"), ("12345", "1")]),
    ("a;b\n1'234.50;1\n", "", [("123450", "1")]),
    ("a;b\n1.234;1\n", "--decimal ,", [("1234", "1")]),
    ("a;b\n1.234;1\n", "--decimal .", [("1234", "1")]),
    ("a;b\n1.234;1,5\n", "", [("1234", "15")]),
    ("a;b\n12,50-;(3)\n+1;4\n", "", [("-1250", "-3"), ("100", "4")]),
    ("a;b\n0400;1\n12;2\n", "", [("0400", "1"), ("12", "2")]),
    ("a;b\n1;\n;n/a\n", "--null n/a", [("1", None), (None, None)]),
    ("a;b\n01.02.2024;1\n3.12.2023 9:05;2\n", "--dates dmy", [("2023-12-03 09:05", "2"), ("2024-02-01", "1")]),
    ("a;b\n02/28/2024;1\n", "--dates mdy", [("2024-02-28", "1")]),
    ("a;b\n02/28/2024;1\n", "", [("02/28/2024", "1")]),
    ("x,y\nz,y\n", "--header no", [("x", "y"), ("z", "y")]),
    ("x,y\nz,y\n", "--header yes", [("z", "y")]),
    ("1,x\n2,y\n", "", [("1", "x"), ("2", "y")]),
    ("order,Größe,a b,a-b,\n1,2,3,4,5\n", "--header yes", [("1", "2", "3", "4", "5")]),
    ("a\n1\n\n2\n", "", [("1",), ("2",)]),
    ("a\nx\n''\n", "--header yes --null ''", [("x",), (None,)]),
    ("a;b\n1;9223372036854775807\n", "", [("1", "9223372036854775807")]),
    ("a;b\n1;2\n", "--text a --text b", [("1", "2")]),
    ("a\tb\n1.234\t1\n", "--separator tab --thousands none", [("1234", "1")]),
    ("a;b\n1.234;1\n", "--thousands .", [("1234", "1")]),
    ("a;b\n", "--header yes", []),
]
# What is refused, and words of why.
NOT_TURNED = [
    ("a,b\n1,x\n2\n", "", "old.csv:3: 1 fields, not 2"),
    ('a,b\n1,"x\ny"\n2,y,z\n', "", "old.csv:4: 3 fields, not 2"),
    ("a;b\n1.234;1\n", "", "'1.234' can be read in two ways: say --decimal"),
    ("a;b\n1,50;1.5\n", "", "for decimal marks"),
    ("a;b,c\n1;2,3\n", "", "say --separator"),
    ("x,y\nz,y\n", "", "say --header"),
    ('a,b\n1,"x"y\n', "", "old.csv:2:"),
    ('a,b\n1,"x\n', "", "old.csv:2:"),
    ("a;b\n1;ä\n".encode("utf-16-be"), "", "say --encoding"),
    (b"a;b\n1;\x81\n", "", "old.csv:2: these bytes"),
    ("a;b\n1;9223372036854775808\n", "", "old.csv:2: column b: '9223372036854775808' doesn't fit"),
    ("a;b\n1;2\nx;3\n", "--number a", "old.csv:3: column a: 'x' is no number"),
    ("a;b\n30.02.2024;1\n", "--dates dmy", "old.csv:2: column a: '30.02.2024' is no date"),
    ("a;b\n01.02.24;1\n", "--dates dmy", "no year of four digits"),
    ("", "", "no record"),
    ("a,b\n1,2\n", "--text c", "no column has the name 'c'"),
]

SCRIPT = """CREATE TABLE r (a INTEGER, b TEXT); INSERT INTO r VALUES (1, 'x,"y"'), (1, ''), (2, NULL), (1, '');
SELECT a, b FROM r; SELECT COUNT(*) AS n FROM r; SELECT a, nosuch FROM r;
"""
TRACED = """CREATE TABLE r (a INTEGER, b TEXT); INSERT INTO r VALUES (1, 'x'), (1, ''), (9223372036854775807, NULL);
SELECT PROVENANCE a, COUNT(*) AS n FROM r GROUP BY a;
"""


class Failed(Exception):
    pass


def expect(told, what):
    if not told:
        raise Failed(what)


def value(cell):
    return None if cell is None else str(cell)


def turned(program, csv_in, folder, data, words):
    """What the command said, and the rows that the program makes of what it wrote; None where it refused."""
    pathlib.Path("old.csv").write_bytes(data if isinstance(data, bytes) else data.encode())
    pathlib.Path("new.csv").unlink(missing_ok=True)
    out, said = io.StringIO(), io.StringIO()
    with contextlib.redirect_stdout(out), contextlib.redirect_stderr(said):
        status = csv_in.main(["old.csv", "new.csv", "--table", "t", *(it.strip('"') for it in words.split())])
    expect(status == (0 if os.path.exists("new.csv") else 1) and sorted(os.listdir()) != [], f"status {status}")
    if status:
        return said.getvalue(), None
    pathlib.Path("new.sql").write_text(out.getvalue() + "SELECT * FROM t;")
    told = answers.run(program, "new.sql")
    expect(told.status == 0, f"{data!r}: the program answers {told.written} to\n{out.getvalue()}")
    answer = told.written[told.written.index(b'"'):]
    return said.getvalue(), [tuple(map(value, row)) for row in answers.table(answer).rows]


def files_in(program, folder):
    csv_in = command("csv-in")
    for data, words, rows in TURNED:
        said, found = turned(program, csv_in, folder, data, words)
        expect(found is not None and sorted(found, key=repr) == sorted(rows, key=repr), f"{data!r} {words} makes {found}; it says {said}")
    for data, words, why in NOT_TURNED:
        said, found = turned(program, csv_in, folder, data, words)
        expect(found is None and why in said, f"{data!r} {words} makes {found}; it says {said}")
    left = set(os.listdir()) - {"old.csv", "new.csv", "new.sql"}
    expect(not left, f"{left} are left")
    pathlib.Path("new.csv").unlink(missing_ok=True)


def documented():
    """What docs/START.md shows of the example's files is what they become."""
    csv_in, text = command("csv-in"), (TOP / "docs/START.md").read_text()
    for name, words in {"export": ["out/ledger.csv", "--dates", "dmy"], "accounts": ["out/accounts.csv"]}.items():
        made, statements, said = pathlib.Path("made.csv"), io.StringIO(), io.StringIO()
        with contextlib.redirect_stdout(statements), contextlib.redirect_stderr(said):
            csv_in.main([str(TOP / f"examples/ledger/{name}.csv"), "made.csv", *words[1:]])
        shown = [f"```csv {words[0]}\n{made.read_text()}```\n"]
        table = pathlib.Path(words[0]).stem
        shown.append(statements.getvalue().replace("TABLE made", f"TABLE {table}").replace("COPY made FROM 'made.csv'", f"COPY {table} FROM '{words[0]}'"))
        if name == "export":
            shown.append(said.getvalue().replace("made.csv", words[0]))
        expect(all(it in text for it in shown), f"docs/START.md shows others than {shown}")
        made.unlink()


def out(words, program):
    done = subprocess.run([TOP / "csv-out", *words], capture_output=True, env={**os.environ, "PERM": program})
    return done.returncode, done.stdout.decode(), done.stderr.decode()


def files_out(program, folder):
    pathlib.Path("script.sql").write_text(SCRIPT)
    pathlib.Path("traced.sql").write_text(TRACED)
    status, text, said = out(["script.sql", "--answer", "1"], program)
    rows = list(csv.reader(io.StringIO(text, newline="")))
    expect(status == 4 and rows == [["a", "b"], ["1", ""], ["1", ""], ["1", 'x,"y"'], ["2", ""]], f"answer 1 is {status} {text} {said}")
    expect('1,""\r\n' in text and "2,\r\n" in text, f"an empty text and NULL aren't told apart in {text}")
    status, text, said = out(["script.sql", "--to", "made", "--separator", ";", "--mark"], program)
    expect(sorted(os.listdir("made")) == ["answer-1.csv", "answer-2.csv"], f"files are {os.listdir('made')}")
    expect(pathlib.Path("made/answer-2.csv").read_bytes() == "\ufeffn\r\n4\r\n".encode(), "answer 2 is another")
    status, text, said = out(["traced.sql", "--json"], program)
    lines = [json.loads(it) for it in text.splitlines()]
    wanted = [
        {"answer": 1, "row": {"a": 1, "n": 2}, "times": 1, "witnesses": 2,
         "sources": [{"source": "r", "rows": [{"row": {"a": 1, "b": ""}, "witnesses": [1]}, {"row": {"a": 1, "b": "x"}, "witnesses": [2]}]}]},
        {"answer": 1, "row": {"a": 9223372036854775807, "n": 1}, "times": 1, "witnesses": 1,
         "sources": [{"source": "r", "rows": [{"row": {"a": 9223372036854775807, "b": None}, "witnesses": [1]}]}]},
    ]
    expect(status == 0 and lines == wanted, f"JSON is {lines}; it says {said}")
    status, text, said = out(["script.sql", "--answer", "3"], program)
    expect(status == 1 and "no answer 3" in said, f"an answer that isn't there: {status} {said}")


def main():
    program = os.path.abspath(sys.argv[1])
    with tempfile.TemporaryDirectory() as folder:
        os.chdir(folder)
        try:
            files_in(program, folder)
            documented()
            files_out(program, folder)
        except Failed as error:
            print(f"csv: {error}", file=sys.stderr)
            return True
        finally:
            os.chdir(TOP)
    print(f"csv: {len(TURNED)} files were turned into others, {len(NOT_TURNED)} refused, and answers written as CSV and JSON", file=sys.stderr)
    return False


if __name__ == "__main__":
    sys.exit(main())
