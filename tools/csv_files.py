"""CSV files as people have them: their bytes as text, their separator, their records with the lines in which these begin.

What isn't told is looked for, and what was found is said. Where several readings fit, none is taken.
"""
import codecs
import csv
import io
import re
from dataclasses import dataclass, field

csv.field_size_limit(1 << 28)
MARKS = ((codecs.BOM_UTF8, "utf-8"), (codecs.BOM_UTF16_LE, "utf-16-le"), (codecs.BOM_UTF16_BE, "utf-16-be"))
SEPARATORS = {",": "a comma", ";": "a semicolon", "\t": "a tab", "|": "a bar"}
ENDS = re.compile("\r\n|\n|\r")


class Refused(Exception):
    """Why a file isn't read, for its reader."""


@dataclass
class File:
    """A file's records, each with the line in which it begins, and what was found of the file."""

    name: str
    records: list
    lines: list
    said: list = field(default_factory=list)

    def at(self, number):
        return f"{self.name}:{self.lines[number]}"


def decoded(name, data, encoding):
    """The file's text, and what is said of its encoding."""
    for mark, found in MARKS:
        if data.startswith(mark) and encoding in (None, found, "utf-16"):
            return text_of(name, data[len(mark):], found), f"encoding: {found} by the mark at its start"
    if encoding:
        return text_of(name, data, encoding), f"encoding: {encoding}, as is said"
    if b"\0" in data[:1000]:
        raise Refused(f"{name}: it has zero bytes and no mark, as UTF-16 without one: say --encoding utf-16-le or utf-16-be")
    try:
        return data.decode(), "encoding: UTF-8, which all its bytes are"
    except UnicodeDecodeError as error:
        line = len(ENDS.findall(data[:error.start].decode("latin-1"))) + 1
        said = f"encoding: Windows-1252, since line {line} isn't UTF-8; --encoding says another"
        return text_of(name, data, "windows-1252"), said


def text_of(name, data, encoding):
    try:
        return data.decode(encoding)
    except LookupError:
        raise Refused(f"no encoding has the name {encoding}") from None
    except UnicodeDecodeError as error:
        line = len(ENDS.findall(data[:error.start].decode(encoding, "replace"))) + 1
        raise Refused(f"{name}:{line}: these bytes aren't {encoding}: {data[error.start:error.start + 8].hex(' ')}") from None


def rows_of(name, text, separator, quote, first=None):
    """The records that aren't blank lines, and the line of each."""
    records, lines, begun = [], [], 1
    reader = csv.reader(io.StringIO(text, newline=""), delimiter=separator, quotechar=quote, strict=True)
    try:
        for record in reader:
            if record:
                records.append(record)
                lines.append(begun)
            begun = reader.line_num + 1
            if first and len(records) == first:
                break
    except csv.Error as error:
        raise Refused(f"{name}:{begun}: {error}, with {SEPARATORS.get(separator, repr(separator))} between fields; a quote inside a field stands twice, or --quote says another") from None
    return records, lines


def separated(name, text, quote):
    """The separator by which all of the first records have as many fields, more than one."""
    fits = {}
    for it in SEPARATORS:
        try:
            widths = {len(record) for record in rows_of(name, text, it, quote, 1000)[0]}
        except Refused:
            continue
        if len(widths) == 1 and widths != {1}:
            fits[it] = widths.pop()
    if len(fits) > 1:
        raise Refused(f"{name}: {' and '.join(SEPARATORS[it] for it in fits)} may be between fields: say --separator")
    if fits:
        separator, width = fits.popitem()
        return separator, f"separator: {SEPARATORS[separator]}, by which all records have {width} fields"
    # Of one that is broken by a few lines, the reader shall hear which ones.
    header = ENDS.split(text, maxsplit=1)[0]
    counts = {it: header.count(it) for it in SEPARATORS if it in header}
    if len(counts) == 1:
        separator = next(iter(counts))
        return separator, f"separator: {SEPARATORS[separator]}, which the first line has"
    if counts:
        raise Refused(f"{name}: by no separator have all records as many fields: say --separator")
    return ",", "separator: none, so each line is a field"


def ends_said(text):
    found = {"\r\n": "CR LF", "\n": "LF", "\r": "CR"}
    kinds = [found[it] for it in found if it in set(ENDS.findall(text))]
    return f"line ends: {' and '.join(kinds) or 'none'}"


def opened(name, data, encoding=None, separator=None, quote='"'):
    """The file of these bytes, all of whose records have as many fields."""
    text, said = decoded(name, data, encoding)
    said = [said]
    told = re.match(r"sep=(.)(?:\r\n|\n|\r)", text)
    skipped = 0
    if told:
        said.append(f"separator: {SEPARATORS.get(told[1], repr(told[1]))}, as its first line says, which isn't data")
        text, skipped, separator = text[told.end():], 1, separator or told[1]
    elif separator:
        said.append(f"separator: {SEPARATORS.get(separator, repr(separator))}, as is said")
    else:
        separator, how = separated(name, text, quote)
        said.append(how)
    records, lines = rows_of(name, text, separator, quote)
    said.append(ends_said(text))
    if not records:
        raise Refused(f"{name}: it has no record")
    found = File(name, records, [it + skipped for it in lines], said)
    for number, record in enumerate(records):
        if len(record) != len(records[0]):
            raise Refused(f"{found.at(number)}: {len(record)} fields, not {len(records[0])} as in the first record: {separator.join(record)[:100]}")
    return found
