#!/usr/bin/env python3
"""Tests ./page: page_test.py [--pictures FOLDER].

Each page is read back: from its tables alone, row by row and witness by witness, every answer has to come out as the program
wrote it; of a large answer from the data that its script shows, and of others from both. Then pages are opened in a headless Chromium, where
one is installed: opened by keyboard and by mouse, a row chosen, filtered, summed up, handed out as CSV, gone to by its address, printed, with
names and values that would be markup, with 10^4 rows, and with a figure of 10^5 witnesses. The pictures are written to the folder.
"""
import argparse
import csv
import html.parser
import io
import json
import os
import pathlib
import re
import subprocess
import sys
import tempfile
import time

import answers
import browser
import scripts

TOP = pathlib.Path(__file__).resolve().parent.parent
PROGRAM = os.environ.get("PERM") or str(TOP / "perm")
# The wanted times, in seconds: for a large page to be loaded, and for 10^5 witnesses to be opened; where other things run beside, more.
LOADED, OPENED = 10, 1
if os.getloadavg()[0] > os.cpu_count():
    LOADED, OPENED = 60, 20

HOSTILE = """CREATE TABLE "<script>x=1</script>" ("</td><b>" TEXT, "&amp;" INTEGER, "a,""b" TEXT);
INSERT INTO "<script>x=1</script>" VALUES ('<img src=x onerror=''window.pwned=1''>', 1, ''), ('</table></script><script>window.pwned=1</script>', 2, NULL),
  ('"', 3, 'two
lines'), (NULL, NULL, NULL), ('&lt;', 4, '(1 rows)'), ('\u202eabc', 5, '"mark"');
-- <script>window.pwned=1</script>
SELECT * FROM "<script>x=1</script>";
SELECT PROVENANCE "</td><b>", "&amp;" > 2 AS "<i>" FROM "<script>x=1</script>" ORDER BY 1 DESC;
CREATE TABLE "prov_r" (a INTEGER); CREATE TABLE r (a INTEGER, "1_a" INTEGER);
INSERT INTO r VALUES (1, 2), (1, 2), (3, NULL), (NULL, NULL); INSERT INTO "prov_r" VALUES (1);
SELECT PROVENANCE x.a FROM r x LEFT JOIN prov_r p ON x.a = p.a;
SELECT PROVENANCE r.a FROM r, (SELECT a, "1_a" AS "1_b" FROM r) q BASERELATION WHERE q.a = r.a;
SELECT PROVENANCE a FROM r PROVENANCE (a, "1_a");
SELECT PROVENANCE COUNT(*) FROM r WHERE a > 9;
SELECT PROVENANCE x.a FROM (SELECT PROVENANCE a FROM r) x, r y WHERE x.a = y.a;
SELECT PROVENANCE 1;
CREATE TABLE kept AS SELECT PROVENANCE a FROM r; SHOW FRESH kept; INSERT INTO r VALUES (7, 7); SHOW FRESH kept; SHOW FRESH r;
SELECT PROVENANCE a FROM kept;
CREATE VIEW v AS SELECT a / 0 AS a FROM r;
SELECT PROVENANCE a FROM r WHERE a = 1; ;
SELECT a / (a - 1) FROM r;
SELECT 1;
"""


EQUAL = """CREATE TABLE r (a INTEGER, name TEXT); INSERT INTO r VALUES (10, 'x'), (10, 'x'), (5, 'y,"1"'), (NULL, 'z');
SELECT PROVENANCE SUM(a) AS total FROM r;
"""


class Failed(Exception):
    pass


class Row(list):
    """The cells of a row; `empty` where it says that there is no row."""

    empty = False


class Tables(html.parser.HTMLParser):
    """The tables of a page, with those inside their cells, and the data behind them; cells are as the program writes them."""

    def __init__(self):
        super().__init__()
        self.tables, self.open, self.text, self.data, self.foot = [], [], None, None, False

    def handle_starttag(self, tag, given):
        given = dict(given)
        if tag == "script" and given.get("class") == "data":
            self.data = ""
        if tag in ("tbody", "tfoot"):
            self.foot = tag == "tfoot"
        if self.foot:
            self.text = None
            return
        if tag == "table":
            self.open.append({"class": given["class"], "large": "data-large" in given, "names": [], "rows": [], "inside": [], "data": None})
            (self.open[-2]["inside"] if len(self.open) > 1 else self.tables).append(self.open[-1])
        elif tag in ("td", "th") and self.open:
            self.text = {"tag": tag, "class": given.get("class", ""), "text": ""}
            table = self.open[-1]
            (table["names"] if tag == "th" else table["rows"][-1]).append(self.text)
        elif tag == "tr" and self.open:
            self.text = None
            if self.open[-1]["names"]:
                self.open[-1]["rows"].append(Row())
                self.open[-1]["rows"][-1].empty = given.get("class") == "none"
        elif tag in ("caption", "details"):
            self.text = None

    def handle_endtag(self, tag):
        if tag == "table":
            self.open.pop()
            self.text, self.foot = None, False
        if tag == "script" and self.data is not None:
            self.tables[-1]["data"], self.data = json.loads(self.data), None

    def handle_data(self, data):
        if self.data is not None:
            self.data += data
        elif self.text is not None:
            self.text["text"] += data


def value(cell):
    text = cell["text"].removesuffix("\n")
    if cell["class"] == "null":
        return None if text == "NULL" else ""
    return text


def numbers(text):
    found = []
    for part in text.strip().split(", "):
        first, _, last = part.partition("–")
        found += range(int(first), int(last or first) + 1)
    return found


def by_data(data):
    """The rows of an answer with provenance, from what the page's script shows."""
    rows = []
    for row, times, count, _, sources in data["figures"]:
        witnesses = [[None] * len(sources) for _ in range(count)]
        for at, source in enumerate(sources):
            for _, standing, _, cells in source:
                for number in numbers(standing.replace(" ", ", ").replace("-", "–")):
                    witnesses[number - 1][at] = cells
        rows += [tuple(map(shown_value, [*row, *(cell for cells in witness for cell in cells)])) for witness in witnesses]
    return rows


def restored(table):
    """The rows of a table of the page, with those of witnesses behind them."""
    if table["large"]:
        return by_data(table["data"])
    rows = by_tables(table)
    if table["data"] and sorted(rows, key=repr) != sorted(by_data(table["data"]), key=repr):
        raise Failed(f"the data {table['data']} are others than the table")
    return rows


def by_tables(table):
    if "why" not in table["class"].split():
        return [tuple(map(value, row)) for row in table["rows"]]
    rows, inside = [], iter(table["inside"])
    width = len([it for it in table["names"] if it["class"] != "fill"])
    plain = [row for row in table["rows"] if len(row) == width + 1]
    groups = sources_of(table, len(plain))
    for row, sources in zip(plain, groups):
        own = tuple(map(value, row[:width]))
        count = max([it for source in sources for it in witnesses(source)], default=1)
        for number in range(1, count + 1):
            rows.append(own + tuple(it for source in sources for it in witness(source, number)))
    return rows


def sources_of(table, count):
    """The tables of sources of each plain row: as many for each."""
    inside = table["inside"]
    each = len(inside) // count if count else 0
    return [inside[at * each:(at + 1) * each] for at in range(count)]


def columns(source):
    return [it for it in source["names"] if "w" not in it["class"].split()]


def is_several(source):
    return any(it["class"] == "w" for it in source["names"])


def witnesses(source):
    if not is_several(source):
        return [1]
    return [it for row in source["rows"] for it in numbers(row[-1]["text"])]


def witness(source, number):
    """The source's row in the witness of that number."""
    width = len(columns(source))
    several = is_several(source)
    for row in source["rows"]:
        if several and number not in numbers(row[-1]["text"]):
            continue
        return (None,) * width if row.empty else tuple(map(value, row[:width]))
    raise Failed(f"no row of witness {number}")


def shown_value(text):
    """A value as the page shows it."""
    import html_page

    return text if text is None else html_page.UNSHOWN.sub(lambda it: f"\\u{ord(it[0]):04x}", text)


def wanted(script, told):
    """The tables of the answers: their rows as texts."""
    found = []
    for answer in answers.ask(PROGRAM, script, told):
        table = answers.table(answer.text)
        if table:
            found.append([tuple(map(shown_value, row)) for row in table.rows])
    return found


def compare(path):
    """The page of a script, and whether its tables are the answers."""
    done = subprocess.run([str(TOP / "page"), path], capture_output=True)
    told = answers.run(PROGRAM, path)
    if done.returncode != told.status or done.stderr:
        return done.stdout, f"status {done.returncode}, {done.stderr.decode()}"
    reader = Tables()
    reader.feed(done.stdout.decode())
    try:
        rows = [restored(table) for table in reader.tables]
    except Failed as error:
        return done.stdout, str(error)
    right = wanted(pathlib.Path(path).read_bytes(), told)
    if len(rows) != len(right):
        return done.stdout, f"{len(rows)} tables, not {len(right)}"
    for number, (one, other) in enumerate(zip(rows, right)):
        if sorted(one, key=repr) != sorted(other, key=repr):
            return done.stdout, f"table {number} is {one}, not {other}"
    return done.stdout, None


def large(folder):
    """A script whose answer has 10^4 rows, each with a witness of three sources."""
    file = os.path.join(folder, "many.csv")
    pathlib.Path(file).write_text("".join(f"{number},article {number % 97},{number * 7 % 1000}\n" for number in range(10_000)))
    path = os.path.join(folder, "many.sql")
    pathlib.Path(path).write_text(f"""CREATE TABLE orders (number INTEGER, article TEXT, price INTEGER);
COPY orders FROM '{file}';
CREATE TABLE groups (low INTEGER, name TEXT); INSERT INTO groups VALUES (0, 'even'), (1, 'odd');
SELECT PROVENANCE o.number, o.article, g.name FROM orders o JOIN groups g ON o.number % 2 = g.low JOIN orders p ON p.number = o.number;
""")
    return path


def larger(folder):
    """A script whose answer has one figure of 10^5 witnesses, and a row that stands three times."""
    file = os.path.join(folder, "ledger.csv")
    lines = [f"{number},{number % 1000},{number * 7 % 1000}\n" for number in range(99_998)]
    pathlib.Path(file).write_text("".join(lines) + "99998,7,7\n99999,8,1\n99999,8,1\n99999,8,1\n")
    path = os.path.join(folder, "ledger.sql")
    pathlib.Path(path).write_text(f"""CREATE TABLE ledger (number INTEGER, account INTEGER, amount INTEGER);
COPY ledger FROM '{file}';
SELECT PROVENANCE SUM(amount) AS total FROM ledger;
""")
    return path


def expect(told, what):
    if not told:
        raise Failed(what)


def in_browser(pages, pictures):
    with browser.Browser() as window:
        report(window, pages["report"], pictures)
        found(window, pages["equal"])
        hostile(window, pages["hostile"])
        many(window, pages["many"])
        one_large(window, pages["ledger"])


def set_filter(window, place, column, how, value):
    """Sets the filter that the selector finds."""
    window.value(
        f"(() => {{ const it = document.querySelector({json.dumps(place)}), [column, how] = it.querySelectorAll('select');"
        f" column.value = [...column.options].find(it => it.textContent === {json.dumps(column)}).value; how.value = {json.dumps(how)};"
        f" const value = it.querySelector('input'); value.value = {json.dumps(value)}; value.dispatchEvent(new Event('input')); }})()"
    )


def texts(window, selector):
    return window.value(f"[...document.querySelectorAll({json.dumps(selector)})].map(it => it.textContent.trim())")


def csv_of(window, details):
    """The records of a figure's witnesses, as they are handed out."""
    return list(csv.reader(io.StringIO(window.value(f"csv(stateOf({details}))").removeprefix("\ufeff"), newline="")))


def becomes(window, test, seconds=10):
    """Whether the test is true soon: what is opened is put into the document by an event behind the click."""
    ends = time.monotonic() + seconds
    while not window.value(test):
        if time.monotonic() > ends:
            return False
        time.sleep(0.02)
    return True


def found(window, path):
    """Equal rows, sums, a filter, a figure's address, and its witnesses as CSV."""
    window.open(path)
    expect(not window.complaints(), f"the browser complains: {window.complaints()}")
    expect(texts(window, "summary") == ["from 3 witnesses: all 3 rows (with equal ones 4) of r"], f"summaries say {texts(window, 'summary')}")
    window.value("document.querySelector('details').open = true")
    expect(becomes(window, "document.querySelectorAll('td.w.t').length == 3"), "the witnesses aren't in the document")
    expect(texts(window, "td.w.t") == ["", "2 times", ""] , f"equal rows are told by {texts(window, 'td.w.t')}")
    sums = texts(window, "tfoot .n")
    window.value("showSources(stateOf(document.querySelector('details')))")
    expect(sums == ["sum 25"] and texts(window, "tfoot .n") == sums, f"the sum is {sums}, then {texts(window, 'tfoot .n')}")
    set_filter(window, "details .filter", "r: name", "has", "X")
    expect(texts(window, "tfoot .n") == ["sum 20"] and texts(window, "output")[-1] == "1 of 3 witnesses", f"filtered it has {texts(window, 'tfoot .n')}")
    expect(csv_of(window, "document.querySelector('details')")[1:] == [["25", "10", "x"]], "the CSV isn't of the filtered witnesses")
    set_filter(window, "details .filter", "r: name", "is", "")
    wanted = [["total", "prov_r_a", "prov_r_name"], ["25", "", "z"], ["25", "10", "x"], ["25", "5", 'y,"1"']]
    rows = csv_of(window, "document.querySelector('details')")
    expect(rows[0] == wanted[0] and sorted(rows[1:]) == wanted[1:], f"the CSV is {rows}")
    window.open(path + "#s3r1")
    expect(window.value("document.querySelector('details').open"), "an address doesn't open its figure")


def report(window, path, pictures):
    window.open(path)
    expect(not window.complaints(), f"the browser complains: {window.complaints()}")
    for _ in range(50):
        window.press("Tab")
        if window.value("document.activeElement.tagName") == "SUMMARY":
            break
    expect(window.value("document.activeElement.tagName") == "SUMMARY", "no summary is reached by the keyboard")
    window.press("Enter", text="\r")
    expect(window.value("document.activeElement.parentElement.open"), "Enter opens no witnesses")
    for _ in range(6):
        window.press("Tab")
        if window.value("document.activeElement.tagName") == "TR":
            break
    expect(window.value("document.activeElement.tagName") == "TR", "no source row is reached by the keyboard")
    window.press(" ", code="Space", text=" ")
    expect(window.value("document.activeElement.classList.contains('chosen')"), "the space bar chooses no row")
    window.press("Escape")
    expect(window.value("document.querySelectorAll('.chosen, .same, .with').length") == 0, "Escape leaves marks")
    if pictures:
        window.value("document.activeElement.blur()")
        window.shot(os.path.join(pictures, "page-report-whole.png"), whole=True)
    row = ".one:nth-of-type(2) tbody tr:nth-of-type(2)"
    window.click(row)
    expect(window.value("document.querySelectorAll('.same').length") == 2, "the invoice isn't marked in both places")
    expect(window.value("document.querySelectorAll('.with').length") == 2, "what stands beside the invoice isn't marked")
    if pictures:
        top = window.value("document.querySelector('table.why').closest('article').previousElementSibling.getBoundingClientRect().top + scrollY")
        window.value("document.activeElement.blur()")
        window.shot(os.path.join(pictures, "page-report.png"), top=top - 16, height=650)
    window.click(row)
    expect(window.value("document.querySelectorAll('.same').length") == 0, "a second click leaves marks")
    window.value("document.querySelector('details').open = false")
    window.media("print")
    expect(window.value("document.querySelector('.sources').offsetHeight > 0"), "printed witnesses aren't open")
    expect(window.printed() > 10_000, "nothing is printed")
    window.media("")
    expect(not window.value("document.querySelector('details').open"), "printing leaves the witnesses open")


def hostile(window, path):
    window.open(path)
    expect(not window.complaints(), f"the browser complains: {window.complaints()}")
    expect(window.value("window.pwned === undefined"), "a value ran as a script")
    expect(window.value("[...document.scripts].filter(it => !it.type).length") == 1, "a value became a script")
    expect(window.value("document.querySelectorAll('img, b b, i').length") == 0, "a value became markup")
    cells = window.value("[...document.querySelectorAll('td')].map(it => it.textContent.replace(/\\n$/, ''))")
    expect("<img src=x onerror='window.pwned=1'>" in cells, "a value isn't shown as it is")


def many(window, path):
    begun = time.monotonic()
    window.open(path)
    expect(not window.complaints(), f"the browser complains: {window.complaints()}")
    rows = "document.querySelectorAll('tr.row').length"
    expect(window.value(rows) == 200, f"{window.value(rows)} rows are put into the document at first")
    took = time.monotonic() - begun
    window.click(".more button")
    expect(window.value(rows) == 400, "no more rows are shown")
    set_filter(window, ".tools .filter", "number", "is", "9999")
    expect(window.value(rows) == 1 and texts(window, ".tools output") == ["1 of 10,000 rows"], f"the filter leaves {window.value(rows)} rows")
    window.value("document.querySelector('details').open = true")
    expect(becomes(window, "document.querySelector('details[open] tr[data-k]') != null"), "no witness is in the document")
    window.click("details[open] tr[data-k]")
    expect(window.value("document.querySelectorAll('.same').length") == 2, "the row isn't marked in both places")
    window.open(path + "#s5r9001")
    expect(window.value("document.querySelectorAll('details[open]').length") == 1, "an address doesn't open a figure far below")
    print(f"page: 10^4 rows, {os.path.getsize(path) / 1e6:.1f} MB: loaded in {took:.1f} s", file=sys.stderr)
    expect(took < LOADED, f"10^4 rows take {took:.1f} s")


def one_large(window, path):
    begun = time.monotonic()
    window.open(path)
    expect(window.value("document.querySelectorAll('tr.row').length") == 1, "the figure isn't there")
    loaded = time.monotonic() - begun
    begun = time.monotonic()
    window.click("summary")
    expect(window.value("document.querySelector('.sources').offsetHeight > 0"), "a click opens no witnesses")
    expect(becomes(window, "document.querySelectorAll('.source tbody tr').length == 200"), "not the first 200 witnesses are in the document")
    took = time.monotonic() - begun
    total = texts(window, "tr.row td")[0]
    expect(texts(window, "tfoot .n")[2] == f"sum {total}", f"the lines make {texts(window, 'tfoot .n')}, not {total}")
    set_filter(window, "details .filter", "ledger: account", "is", "8")
    expect(texts(window, "details output") == ["101 of 100,000 witnesses"], f"the filter leaves {texts(window, 'details output')}")
    expect("3 times" in texts(window, "td.w.t"), "equal rows aren't told")
    expect(len(csv_of(window, "document.querySelector('details')")) == 102, "the CSV has other witnesses")
    print(f"page: 10^5 witnesses, {os.path.getsize(path) / 1e6:.1f} MB: loaded in {loaded:.1f} s, opened in {took:.1f} s", file=sys.stderr)
    expect(loaded < LOADED and took < OPENED, f"10^5 witnesses take {loaded:.1f} s, and {took:.1f} s to be opened")


STAND_IN = """#!/bin/sh
printf 'error E11 at 7\n'
printf '%s:1:8: no column of this name (E11)\nSELECT a;\n       ^\nhint: names <that> are near: b\nhint: another\n' "$1" >&2
exit 4
"""


def hinted(folder):
    """What the program says that may help stands at the refusal, once, and not at the top; a stand-in for the program says it."""
    stand_in, script = pathlib.Path(folder, "stand_in"), pathlib.Path(folder, "hinted.sql")
    stand_in.write_text(STAND_IN)
    stand_in.chmod(0o755)
    script.write_text("SELECT a;\n")
    page = subprocess.run([str(TOP / "page"), str(script)], capture_output=True, env={**os.environ, "PERM": str(stand_in)}).stdout.decode()
    expect(page.count("names &lt;that&gt; are near: b") == 1 and page.count("<p class=hint>another</p>") == 1, "hints don't stand at the refusal")
    expect("class=note" not in page.partition("<main>")[0], "a hint stands at the top")


def main():
    words = argparse.ArgumentParser()
    words.add_argument("--pictures")
    pictures = words.parse_args().pictures
    os.chdir(TOP)
    failed = False
    with tempfile.TemporaryDirectory() as folder:
        for name, text in {"hostile": HOSTILE, "equal": EQUAL}.items():
            pathlib.Path(folder, f"{name}.sql").write_text(text)
        made = [pathlib.Path(folder, "hostile.sql"), pathlib.Path(folder, "equal.sql"), pathlib.Path(large(folder)), pathlib.Path(larger(folder))]
        scripts_read = [*sorted(TOP.glob("examples/*.sql")), *made]
        pages = {}
        for path in scripts_read:
            name = os.path.relpath(path) if path.is_relative_to(TOP) else str(path)
            # The largest is opened alone: it is made as the other large one.
            page, why = (subprocess.run([str(TOP / "page"), name], capture_output=True).stdout, None) if path.stem == "ledger" else compare(name)
            pages[path.stem] = os.path.join(folder, path.stem + ".html")
            pathlib.Path(pages[path.stem]).write_bytes(page)
            if why:
                print(f"page: {path.name}: {why}", file=sys.stderr)
                failed = True
        try:
            hinted(folder)
        except Failed as error:
            print(f"page: {error}", file=sys.stderr)
            failed = True
        print(f"page: {len(scripts_read) - 1} pages were read back", file=sys.stderr)
        if not browser.found():
            print("page: no Chromium is installed (apt-get install chromium), so no page was opened in it", file=sys.stderr)
        else:
            try:
                in_browser(pages, pictures)
                print("page: opened in Chromium", file=sys.stderr)
            except (Failed, OSError) as error:
                print(f"page: {error}", file=sys.stderr)
                failed = True
    return failed


if __name__ == "__main__":
    sys.exit(main())
