"""The command ./ask: its words, and where its answers go."""
import argparse
import os
import pathlib
import shutil
import sys

import answers
import scripts

from . import script_parts as parts
from . import session

TOP = pathlib.Path(__file__).resolve().parent.parent.parent
WORDS = """Runs a script of the language over the tables of a database: perm settles names and takes provenance out, the engine has the
rows. DATABASE is a SQLite file, or what libpq takes, as postgresql://host/books or "host=.. dbname=..". docs/DATABASES.md is its manual."""


def words(given):
    found = argparse.ArgumentParser(prog="ask", description=WORDS)
    found.add_argument("database", metavar="DATABASE")
    found.add_argument("script", metavar="SCRIPT")
    form = found.add_mutually_exclusive_group()
    form.add_argument("--csv", action="store_true", help="write the rows of queries alone, for a spreadsheet: no counts, no other lines")
    form.add_argument("--page", action="store_true", help="write a page for a browser, as ./page does")
    found.add_argument("--schema", action="append", default=[], metavar="NAME", help="look for tables in this schema; may be given again")
    found.add_argument("--without", action="append", default=[], metavar="TABLE.COLUMN", help="leave a column out, as one that can't be read")
    found.add_argument("--trusted", action="store_true", help="don't look whether columns of SQLite hold what their types say")
    found.add_argument("--program", default=os.environ.get("PERM") or str(TOP / "perm"), metavar="PATH",
                       help="the program that settles names (PERM names one too); ./perm of this repository otherwise")
    return found.parse_args(given)


def script_of(asked):
    """The bytes of the script; where perm wouldn't take the file, it says so itself, and the run ends."""
    path = asked.script
    if os.path.isfile(path) and os.path.getsize(path) <= answers.LONGEST_SCRIPT and os.access(path, os.R_OK):
        return pathlib.Path(path).read_bytes()
    told = answers.run(asked.program, path)
    sys.stdout.buffer.write(told.written)
    sys.stderr.buffer.write(told.said)
    sys.exit(told.status)


def say(text):
    sys.stderr.write(text)
    sys.stderr.flush()


def as_text(asked, script, options):
    """Writes the answers as perm does, or as a spreadsheet wants them."""
    statements, written = scripts.statements(script), []

    def write(number, file):
        if asked.csv:
            if number is None or parts.kind_of(statements[number]) not in (parts.QUERY, parts.IMPACT):
                return
            sys.stdout.buffer.write(b"\n" if written else b"")
            written.append(number)
            without_count(file)
        shutil.copyfileobj(file, sys.stdout.buffer)
        sys.stdout.buffer.flush()
    return session.run(asked.database, asked.script, script, options, write, say)


def without_count(file):
    """Cuts the line that counts the rows."""
    end = file.seek(0, 2)
    file.seek(max(0, end - 32))
    tail = file.read()
    cut = end - len(tail) + tail[:-1].rfind(b"\n") + 1
    file.seek(0)
    file.truncate(cut)


def as_page(asked, script, options):
    from . import paged
    return paged.write(asked, script, options)


def main(given=None):
    asked = words(given)
    try:
        script = script_of(asked)
        options = session.Options(asked.program, tuple(asked.without), tuple(asked.schema), asked.trusted, asked.page)
        return (as_page if asked.page else as_text)(asked, script, options)
    except KeyboardInterrupt:
        return 130
    except BrokenPipeError:
        os.dup2(os.open(os.devnull, os.O_WRONLY), sys.stdout.fileno())
        return 8
    except OSError as error:
        say(f"ask: {error}\n")
        return 8
