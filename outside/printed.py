#!/usr/bin/env python3
"""Prints each query of scripts by EXPLAIN REWRITE and runs the texts: printed.py [SCRIPT ..]

Each query that a script answers is printed where it stands, and its text is run there in its place: it has to give the same
bytes, or to meet a fault that the query meets. A query that is refused for its names, kinds or limits has to be refused by
EXPLAIN REWRITE with the same code. With no word the examples' scripts are taken. A script is run in its own folder.
"""
import os
import pathlib
import subprocess
import sys
import tempfile
from collections import Counter

TOP = pathlib.Path(__file__).resolve().parent.parent
PROGRAM = os.environ.get("PERM") or str(TOP / "crates/perm_cli/out/perm_cli")
sys.path.append(str(TOP / "tools"))
import scripts  # noqa: E402

SECONDS = 60
ANSWERED, FAULT, UNREAD = 0, 5, (3, 6)
# What the text's own nesting, height or length may break where the query's doesn't.
OF_SIZE = (b"E06", b"E27", b"E41")


def run(script, folder):
    """What the script answers, and its status."""
    with tempfile.NamedTemporaryFile(suffix=".sql") as held:
        held.write(script)
        held.flush()
        done = subprocess.run([PROGRAM, held.name], cwd=folder, capture_output=True, timeout=SECONDS)
    return done.stdout, done.returncode


def is_query(statement):
    """Whether the statement is a query, in parentheses perhaps."""
    return next((word.is_word(b"select") for word in statement.tokens if not word.is_mark(b"(")), False)


def code(answer):
    """The code of a refusal; None where the answer is none."""
    words = answer.split(b" ")
    return words[1] if words[0] == b"error" else None


def outcome(before, query, folder, told):
    """What becomes of a query behind the statements that stand before it, which answer `told`."""
    answer, status = run(before + query + b";\n", folder)
    printed, ended = run(before + b"EXPLAIN REWRITE " + query + b";\n", folder)
    answer, printed = answer[len(told):], printed[len(told):]
    if ended != ANSWERED:
        return "refused alike" if status == ended and code(answer) == code(printed) else "not printed"
    again, back = run(before + printed, folder)
    # A script that is too long or nests too deeply is refused as a whole.
    again = again if back in UNREAD else again[len(told):]
    if (again, back) == (answer, status):
        return "the same"
    if status == back == FAULT and code(again) == code(answer):
        return "the same fault"
    return "the text is too large" if code(again) in OF_SIZE else "differs"


def outcomes(path):
    """What becomes of each query of the script that it comes to."""
    script = path.read_bytes()
    before, told = b"", b""
    for statement in scripts.statements(script):
        text = script[statement.start:statement.end]
        if is_query(statement):
            yield text, outcome(before, text, path.parent, told)
            continue
        told, status = run(before + text + b";\n", path.parent)
        if status != ANSWERED:
            return
        before += text + b";\n"


def main(words):
    if not os.access(PROGRAM, os.X_OK):
        sys.exit("outside: the program isn't built: run ./build once")
    totals, differing = Counter(), 0
    for path in map(pathlib.Path, words or sorted((TOP / "examples").glob("*.sql"))):
        for query, what in outcomes(path):
            totals[what] += 1
            if what in ("differs", "not printed"):
                differing += 1
                print(f"{path}: {what}: {query.decode(errors='replace')}")
    for what, times in sorted(totals.items()):
        print(f"{what}: {times}")
    sys.exit(1 if differing else 0)


if __name__ == "__main__":
    main(sys.argv[1:])
