"""The page of a script's answers over a database: what ./page makes of perm's, of ./ask's."""
import contextlib
import os
import pathlib
import sys

import answers
import html_page
import refusals
import scripts

from . import session

TOP = pathlib.Path(__file__).resolve().parent.parent.parent


class Collected:
    """The answers of a run, as a page wants them: each with its plain answer and the tables and views that are known there."""

    def __init__(self, script):
        self.statements, self.found, self.said, self.rest = scripts.statements(script), [], [], b""
        self.relations, self.session = {}, None

    def begin(self, made):
        self.session = made
        self.relations = {name: [[it.name for it in table.columns]] for name, table in made.tables.items()}

    def write(self, number, file):
        text = file.read()
        if number is None:
            self.rest = text
            if len(self.found) < len(self.statements):
                self.found.append(answers.Answer(self.statements[len(self.found)], text, relations=dict(self.relations)))
            return
        statement = self.statements[number]
        plain = self.session.plain_answer(number)
        self.found.append(answers.Answer(statement, text, plain and answers.table(plain.read()), dict(self.relations)))
        if statement.made():
            self.relations.setdefault(statement.made().decode(), []).append(self.session.columns_made(number))


def write(asked, script, options):
    """Writes the page, and gives the status."""
    collected = Collected(script)
    options.begin = collected.begin
    status = session.run(asked.database, asked.script, script, options, collected.write, collected.said.append)
    written = b"".join(it.text for it in collected.found)
    told = answers.Run(written, "".join(collected.said).encode(), status, collected.found if written else None)
    page = html_page.page(os.path.basename(asked.script), script, told, refusals.sentences(TOP / "docs/LANGUAGE.md"))
    with contextlib.suppress(BrokenPipeError):
        sys.stdout.buffer.write(page.encode(errors="replace"))
    return status

