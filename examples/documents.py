#!/usr/bin/env python3
"""Runs the examples of documents and compares what they answer: documents.py PROGRAM DOCUMENT..

An example is a block ```sql, the script, and the block behind it, which names no language: the answer. Text between the two
that says `status N` tells the exit status; it is 0 otherwise. A block ```csv NAME is a file that later scripts of the
document may copy. A block ```sql PATH has lines of that script, in their order, which is run whole from the top of the
repository: the answer is the end of what it answers. A block ```refusals has statements that are answered, an empty line, and
then a refused statement on each line, with its refusal behind it: `-- E10 at 14`, an offset in that line. Each is run behind
the first ones. A block ```said behind an answer is what the error stream says in the end, where the script is named example.sql.
"""
import os
import pathlib
import re
import sqlite3
import subprocess
import sys
import tempfile

TOP = pathlib.Path(__file__).resolve().parent.parent
BLOCK = re.compile(r"^```(.*)\n((?:.*\n)*?)```$", re.M)
REFUSAL = re.compile(r"-- E(\d\d) (?:at (\d+)|(.*))$")


def run(program, script, folder):
    done = subprocess.run([program, script], cwd=folder, stdin=subprocess.DEVNULL, capture_output=True)
    return done.returncode, done.stdout.decode(), done.stderr.decode()


def run_text(program, text, folder):
    pathlib.Path(folder, "example.sql").write_text(text)
    return run(program, "example.sql", folder)


def ask_text(program, database, text, folder):
    """What ./ask answers to the script over the database."""
    pathlib.Path(folder, "example.sql").write_text(text)
    done = subprocess.run([TOP / "ask", database, "example.sql"], cwd=folder, stdin=subprocess.DEVNULL, capture_output=True,
                          env={**os.environ, "PERM": program})
    return done.returncode, done.stdout.decode(), done.stderr.decode()


def make_database(path, statements):
    held = sqlite3.connect(path)
    held.executescript(statements)
    held.close()


def mistake(program, words, script, answer, said, status, folder):
    """Why the example is wrong; None where it is right."""
    if words[0] == "ask":
        ended, written, told = ask_text(program, words[1], script, folder)
        if written != answer:
            return f"it answers\n{written}{told}"
    elif len(words) > 1:
        lines = iter((TOP / words[1]).read_text().splitlines())
        if not all(line in lines for line in script.splitlines()):
            return f"it isn't of lines of {words[1]}"
        ended, written, told = run(program, words[1], TOP)
        if not written.endswith(answer):
            return f"{words[1]} answers\n{written}"
    else:
        ended, written, told = run_text(program, script, folder)
        if written != answer:
            return f"it answers\n{written}"
    if said and not told.endswith(said):
        return f"the error stream says\n{told}"
    return None if ended == status else f"it ends with status {ended}, not {status}"


def mistaken_refusals(program, block, folder):
    """How many refusals the block has, and the reasons why some are wrong."""
    first, _, refused = block.partition("\n\n")
    first += "\n"
    reasons, lines = [], refused.splitlines()
    ended, answered, _ = run_text(program, first, folder)
    if ended != 0:
        reasons.append(f"the first statements answer\n{answered}")
    for line in lines:
        told = REFUSAL.search(line)
        if told is None:
            reasons.append(f"no refusal stands behind {line}")
            continue
        code = int(told[1])
        place = f"at {len(first.encode()) + int(told[2])}" if told[2] else told[3]
        # A script that isn't spelled, or isn't read, answers its refusal alone.
        wanted = f"error E{told[1]} {place}\n" if code < 10 else f"{answered}error E{told[1]} {place}\n"
        status = 3 if code < 10 else 4 if code < 30 else 5 if code < 40 else 6
        found = run_text(program, first + line + "\n", folder)
        if found[:2] != (status, wanted) or not f"(E{told[1]})\n" in found[2]:
            reasons.append(f"{line}\nis answered\n{found}")
    return len(lines), reasons


def check(program, document, folder):
    """How many examples the document has, and how many of them are wrong."""
    text = (TOP / document).read_text()
    blocks = list(BLOCK.finditer(text))
    count = wrong = 0
    for block, behind, further in zip(blocks, blocks[1:] + [None], blocks[2:] + [None, None]):
        words = block[1].split()
        if words[:1] == ["csv"]:
            file = pathlib.Path(folder, words[1])
            file.parent.mkdir(parents=True, exist_ok=True)
            file.write_text(block[2])
        if words[:1] == ["sqlite"]:
            make_database(os.path.join(folder, words[1]), block[2])
        if words == ["refusals"]:
            found, reasons = mistaken_refusals(program, block[2], folder)
        elif words[:1] in (["sql"], ["ask"]):
            status = re.search(r"status (\d)", text[block.end():behind.start()]) if behind else None
            found, reasons = 1, ["no answer stands behind it"]
            if behind and not behind[1]:
                said = further[2] if further and further[1] == "said" else ""
                reason = mistake(program, words, block[2], behind[2], said, int(status[1]) if status else 0, folder)
                reasons = [reason] if reason else []
        else:
            continue
        count += found
        wrong += len(reasons)
        for reason in reasons:
            print(f"{document}: the example at line {text.count(chr(10), 0, block.start()) + 1}: {reason}", file=sys.stderr)
    return count, wrong


def main():
    program, failed = os.path.abspath(sys.argv[1]), False
    for document in sys.argv[2:]:
        with tempfile.TemporaryDirectory() as folder:
            os.symlink(TOP / "examples", os.path.join(folder, "examples"))
            count, wrong = check(program, document, folder)
        print(f"check: {document}: {count} examples, {wrong} of them wrong", file=sys.stderr)
        failed |= wrong > 0
    sys.exit(failed)


main()
