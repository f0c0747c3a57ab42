"""The page of a run: HTML that loads nothing, in which everything of the script and of its answers is escaped."""
import base64
import hashlib
import html
import json
import pathlib
import re
from dataclasses import dataclass

import answers
import places
import refusals
import scripts
import traced

HERE = pathlib.Path(__file__).resolve().parent
RESERVED = set(
    "all and any as asc baserelation between by case cast create cross delete desc distinct drop else end except exists false from full "
    "group having in inner insert intersect into is join left like limit not null on or order outer provenance right select some table "
    "then true union unknown values when where view copy show fresh header explain rewrite impact of lateral".split()
)
# An answer with more source rows and rows than these is put into the document by the page's script, as far as it is to be seen.
LARGE = 2000
# Characters that a browser wouldn't show, or would take for something else.
UNSHOWN = re.compile("[\x00-\x08\x0b\x0c\x0e-\x1f\x7f-\x9f\u202a-\u202e\u2066-\u2069]")
ENDED = {
    0: "The script ran to its end.",
    2: "The program wasn't called as it has to be.",
    3: "The script isn't of the grammar, so nothing was run.",
    4: "A statement breaks a rule, so the script ended there.",
    5: "A statement met a fault, so the script ended there.",
    6: "A file is missing, too long or damaged, so the script ended there.",
    7: "A file couldn't be read, so the script ended there.",
    8: "The output failed, so not all may stand here.",
    9: "Memory was wanting, so not all may stand here.",
    10: "The database refused a statement, so the script ended there.",
    11: "The database couldn't be asked, so not all may stand here.",
}


def visible(text):
    return UNSHOWN.sub(lambda it: f"\\u{ord(it[0]):04x}", text)


def shown(text):
    return html.escape(visible(text))


def read(data):
    return shown(data.decode(errors="replace"))


def number(count, one, many=None):
    return f"{count} {one if count == 1 else many or one + 's'}"


def cell(value):
    if value is None:
        return "<td class=null>NULL"
    if isinstance(value, answers.Bare):
        return f"<td>{value}" if value in ("true", "false") else f"<td class=n>{value}"
    return f"<td>{shown(value)}" if value else "<td class=null>''"


def head(names, rows):
    """The heads of columns, those of numbers to the right."""
    cells = []
    for at, name in enumerate(names):
        cells.append(f"<th scope=col{' class=n' if kind(rows, at) == 'n' else ''}>{shown(name)}")
    return "".join(cells)


def kind(rows, at):
    """What the column's values are: n for integers, b for truth values, t for texts."""
    value = next((row[at] for row in rows if row[at] is not None), "")
    if not isinstance(value, answers.Bare):
        return "t"
    return "b" if value in ("true", "false") else "n"


def plain_table(table):
    rows = "".join("<tr>" + "".join(map(cell, row)) + "\n" for row in table.rows)
    return f"<div class=scroll><table class=rows><thead><tr>{head(table.names, table.rows)}<tbody>\n{rows}</table></div>\n<p class=count>{number(len(table.rows), 'row')}</p>\n"


def ranges(numbers, dash, comma):
    """Ascending numbers, in a row as from-to."""
    found = []
    for it in numbers:
        if found and found[-1][1] == it - 1:
            found[-1][1] = it
        else:
            found.append([it, it])
    return comma.join(f"{first}{dash}{last}" if first != last else str(first) for first, last in found)


EMPTY = ". Empty: no row of that source is part of the witness, or one that is NULL throughout; the answer doesn't tell which"


class Marks:
    """Numbers of source rows, the same for the same row of a table wherever it stands in an answer."""

    def __init__(self):
        self.known = {}

    def of(self, source, row):
        return self.known.setdefault((source.name, source.columns, row), len(self.known))


def source_table(source, rows, count, marks, equal):
    """The table of a source's rows; with several witnesses each row tells those in which it stands."""
    told, lines = [row for row in rows if not traced.is_empty(row)], []
    repeated = any(it in equal for it in told)
    for row, standing in rows.items():
        where = f"<td class='w t'>{f'{equal[row]} times' if row in equal else ''}" if repeated else ""
        where += f"<td class=w>{ranges(standing, '–', ', ')}" if count > 1 else ""
        if traced.is_empty(row):
            lines.append(f"<tr class=none><td colspan={len(source.columns)}>empty{where}\n")
        else:
            marked = f'data-k={marks.of(source, row)} data-w="{ranges(standing, "-", " ")}"'
            lines.append(f"<tr tabindex=0 {marked}>{''.join(map(cell, row))}{where}\n")
    title = f"{shown(places.title(source))} <small>{number(len(told), 'row') if told else 'empty'}</small>"
    further = ["<th scope=col class='w t'>equal rows"] * repeated + ["<th scope=col class=w>in witness"] * (count > 1)
    foot = sums(told, rows, equal, len(further))
    return (
        f"<div class=one><table class=source><caption>{title}</caption><thead><tr>{head(source.columns, told)}{''.join(further)}<tbody>\n"
        f"{''.join(lines)}{foot}</table></div>\n"
    )


def sums(told, rows, equal, further):
    """The sums of columns of integers, each row as often as it stands in its table."""
    kinds = [kind(told, at) for at in range(len(told[0]))] if told else []
    if "n" not in kinds:
        return ""
    cells = []
    for at, it in enumerate(kinds):
        if it != "n":
            cells.append("<td>")
            continue
        values = [(int(row[at]), equal.get(row, 1), len(rows[row])) for row in told if row[at] is not None]
        each = sum(value * standing for value, _, standing in values)
        title = f"each row as often as it stands in its table; over the witnesses {each}"
        cells.append(f'<td class=n title="{title}"><span class=word>sum </span>{sum(value * times for value, times, _ in values)}')
    return f"<tfoot><tr>{''.join(cells)}{'<td class=w>' * further}\n"


def summary(sources, found, count, times, equal):
    """What is said of a figure's witnesses: before the number of these, the number, and behind it."""
    parts = []
    for source, rows, known in zip(sources, found, equal):
        told = [row for row in rows if not traced.is_empty(row)]
        title = visible(places.title(source))
        more = sum(known.times.get(row, 1) for row in told)
        often = f" (with equal ones {more})" if more > len(told) else ""
        every = "all " if len(told) == known.distinct and len(told) > 1 else ""
        parts.append(f"{every}{number(len(told), 'row')}{often} of {title}" if told else f"{title} empty")
    before = f"stands {times} times in the plain answer; from " if times > 1 else "from "
    return before, number(count, "witness", "witnesses"), f": {', '.join(parts)}" if parts else ""


def row_name(at, place):
    """What an address names a figure by: the number of its statement, and its place in the answer."""
    return f"s{at}r{place + 1}"


def figure_rows(at, place, figure, sources, marks, equal):
    before, strong, behind = map(html.escape, summary(sources, figure.sources, figure.count(), figure.times, equal))
    tables = "".join(source_table(source, rows, figure.count(), marks, known.times) for source, rows, known in zip(sources, figure.sources, equal))
    return (
        f"<tr class=row id={row_name(at, place)}>{''.join(map(cell, figure.row))}<td class=fill>\n<tr class=from><td colspan={len(figure.row) + 1}>"
        f"<details data-i={place}><summary>{before}<b>{strong}</b>{behind}</summary><div class=sources>\n{tables}</div></details>\n"
    )


def source_data(source, rows, marks, equal):
    return [[marks.of(source, row), ranges(standing, "-", " "), equal.get(row, 1), row] for row, standing in rows.items()]


def data(table, figures, sources, marks, equal):
    """The answer as the page's script reads it: no text of it can end the element in which it stands."""
    own = len(figures[0].row) if figures else len(table.names) - sum(it.end - it.start for it in sources)
    of_sources = [
        {"title": visible(places.title(it)), "columns": it.columns, "names": table.names[own + it.start:own + it.end],
         "kinds": [kind(table.rows, own + column) for column in range(it.start, it.end)]}
        for it in sources
    ]
    of_figures = [
        [it.row, it.times, it.count(), summary(sources, it.sources, it.count(), it.times, equal), [source_data(source, rows, marks, known.times) for source, rows, known in zip(sources, it.sources, equal)]]
        for it in figures
    ]
    told = {"names": table.names[:own], "kinds": [kind(table.rows, at) for at in range(own)], "sources": of_sources, "figures": of_figures}
    return f"<script type=application/json class=data>{json.dumps(told, separators=(',', ':')).replace('<', chr(92) + 'u003c')}</script>\n"


def traced_table(at, answer, table, sources):
    """An answer with provenance: each row of the query's own columns once, and under it its witnesses, a table a source."""
    figures, marks = traced.figures(answer, table, sources), Marks()
    equal = [traced.known_rows(answer, it) for it in sources]
    size = len(figures) + sum(len(rows) for it in figures for rows in it.sources)
    large = size > LARGE
    lines = "" if large else "".join(figure_rows(at, place, it, sources, marks, equal) for place, it in enumerate(figures))
    note = "<noscript><p class=note>This answer is large: the page's script shows it, and scripts are off.</p></noscript>\n" if large else ""
    buttons = "<button type=button data-open=yes>Open all</button><button type=button data-open=no>Close all</button>"
    tools = f"<p class=tools>{buttons}{' of those that are shown ' if large else ' '}</p>\n" if len(figures) > 1 else ""
    empty = EMPTY if any(it.has_empty() for it in figures) else ""
    total = f"<p class=count>{number(len(figures), 'row')}, {number(len(table.rows), 'witness', 'witnesses')} in all{empty}</p>\n"
    return (
        f"{note}{tools}<div class=scroll><table class='rows why' data-at={at}{' data-large' * large}><thead><tr>{head(answer.plain.names, [it.row for it in figures])}"
        f"<th class=fill><tbody>\n{lines}</table></div>\n{total}{data(table, figures, sources, marks, equal)}"
    )


def traced_answer(at, answer, table, aliases):
    if not traced.is_told(answer, table):
        return "<p class=note>How many of these columns are the query's own can't be told.</p>\n" + plain_table(table)
    sources, alone = traced.sources(answer, table, aliases)
    note = "" if alone else "<p class=note>The names of these columns can be read in several ways, so some of the sources aren't told apart.</p>\n"
    return note + traced_table(at, answer, table, sources)


def freshness(answer):
    name = answer.statement.tokens[2].value
    text = answer.text.rstrip(b"\n")
    if text == b"fresh":
        return f"<p class=state><code>{read(name)}</code> is <b>fresh</b>: the tables that its query read are as they were.</p>\n"
    if text.startswith(b"stale "):
        table = read(text.removeprefix(b"stale "))
        return f"<p class='state stale'><code>{read(name)}</code> is <b>stale</b>: <code>{table}</code> isn't what its query read.</p>\n"
    if text == b"not stored":
        return f"<p class=state><code>{read(name)}</code> stores no provenance.</p>\n"
    return None


@dataclass
class Known:
    """What is known of refusals: the manual's sentences, and what the program said that may help with the one of this run."""

    sentences: dict
    hints: list


def refusal(script, line, known):
    """The line of a refusal with its meaning, the place that it names, and what may help."""
    text = line.decode(errors="replace").rstrip("\n")
    told = refusals.sentence(text, known.sentences)
    parts = [f"<p class=refusal><b>{shown(text)}</b>{': ' + shown(told) if told else ''}</p>\n"]
    offset = re.search(r" at (\d+)$", text)
    if offset and script is not None:
        row, column, content = scripts.place(script, int(offset[1]))
        mark = "".join(it if it == "\t" else " " for it in content[:column - 1]) + "^"
        parts.append(f"<p class=count>line {row}, column {column}</p><pre class=text>{shown(content)}\n<b class=place>{mark}</b></pre>\n")
    parts += [f"<p class=hint>{shown(it)}</p>\n" for it in known.hints]
    return "".join(parts)


def highlighted(script, statement):
    parts, at = [], statement.start
    for token in statement.tokens:
        if token.kind == "word" and token.value.decode() in RESERVED:
            parts += [read(script[at:token.start]), "<b>", read(script[token.start:token.end]), "</b>"]
            at = token.end
    return "".join(parts) + read(script[at:statement.end])


def comments(statement):
    lines = [it.value.removeprefix(b"--").strip() for it in statement.comments]
    return f"<p class=comment>{read(b' '.join(it for it in lines if it))}</p>\n" if any(lines) else ""


def answered(at, script, answer, aliases, known):
    """What the statement answered; the second is whether it is a line."""
    if answers.REFUSAL.match(answer.text):
        return refusal(script, answer.text, known), False
    table = answers.table(answer.text)
    if table and answer.statement.provenance():
        return traced_answer(at, answer, table, aliases), False
    if table:
        return plain_table(table), False
    fresh = freshness(answer) if answer.statement.begins(b"show", b"fresh") else None
    if fresh:
        return fresh, False
    if answer.text.count(b"\n") == 1:
        return f"<p>{read(answer.text.rstrip())}</p>", True
    return f"<pre class=text>{read(answer.text)}</pre>\n" if answer.text else "", False


def statement_part(at, script, statement, answer, aliases, known):
    code = f"<pre class=sql><code>{highlighted(script, statement)}</code></pre>"
    if answer is None:
        return f"{comments(statement)}<article class=unrun>{code}<p class=count>not run</p></article>\n"
    text, line = answered(at, script, answer, aliases, known)
    return f"{comments(statement)}<article{' class=quiet' if line else ''}>{code}\n{text}</article>\n"


def body(script, told, known):
    if told.answers is None:
        note = "" if told.status not in (0, 4, 5) else "<p class=note>Where each answer begins can't be told here, so all stand as they were written.</p>\n"
        last = told.written.splitlines(keepends=True)[-1:]
        why = refusal(script, last[0], known) if last and answers.REFUSAL.match(last[0]) else ""
        return f"{note}<pre class=text>{read(told.written)}</pre>\n{why}"
    aliases, statements = places.aliases(script), scripts.statements(script)
    found = told.answers + [None] * (len(statements) - len(told.answers))
    return "".join(statement_part(at, script, *pair, aliases, known) for at, pair in enumerate(zip(statements, found), 1))


def checksum(text):
    return "'sha256-" + base64.b64encode(hashlib.sha256(text.encode()).digest()).decode() + "'"


def page(name, script, told, sentences, renewing=""):
    """The page; with a script that renews it, where it is served, which may ask its own server."""
    style, code = ((HERE / file).read_text() for file in ("page.css", "page.js"))
    runs = [code, renewing] if renewing else [code]
    policy = f"default-src 'none'; style-src {checksum(style)}; script-src {' '.join(map(checksum, runs))}; base-uri 'none'; form-action 'none'"
    policy += "; connect-src 'self'" if renewing else ""
    lines = [it for it in refusals.without_note(told.said).splitlines() if not it.startswith(b"perm: .. ")]
    said = "".join(f"<p class=note>{read(line)}</p>\n" for line in lines[:20])
    lead, known = ENDED.get(told.status, "The program gave no answer."), Known(sentences, refusals.hints(told.said))
    return (
        f'<!doctype html>\n<html lang=en>\n<head>\n<meta charset=utf-8>\n<meta http-equiv=Content-Security-Policy content="{policy}">\n'
        f'<meta name=viewport content="width=device-width, initial-scale=1">\n<title>{shown(name)}</title>\n<style>{style}</style>\n</head>\n<body>\n'
        f"<header><h1>{shown(name)}</h1><p class=lead>{lead}</p>\n{said}</header>\n<main>\n{body(script, told, known)}</main>\n"
        f"<p id=told role=status></p>\n{''.join(f'<script>{it}</script>' for it in runs)}\n</body>\n</html>\n"
    )
