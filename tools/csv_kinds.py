"""What the texts of a column are: numbers, whole or with decimals and marks between thousands, dates, or texts.

All of a column's values decide, and what they are is said. Where several readings fit them and differ, none is taken: the column's reader
has to say which one.
"""
import datetime
import functools
import re
from dataclasses import dataclass

from csv_files import Refused

# Marks between thousands: blanks of all kinds and apostrophes are written for one another.
SPACES, APOSTROPHES = " \u00a0\u202f\u2009", "'\u2019"
THOUSANDS = {",": ".", ".": ","}
LOWEST, HIGHEST = -(1 << 63), (1 << 63) - 1
DATE = re.compile(r"(\d{1,4})([./-])(\d{1,2})\2(\d{1,4})(?:[ T](\d{1,2}:\d{2}(?::\d{2})?))?", re.A)
PLAIN, CODE = re.compile("[+-]?[0-9]+"), re.compile("[+-]?0[0-9]+")
ORDERS = {"dmy": (2, 1, 0), "mdy": (2, 0, 1), "ymd": (0, 1, 2)}


@dataclass(frozen=True)
class Reading:
    """How numbers are written: the decimal mark, and the marks between thousands, which may be none."""

    decimal: str
    thousands: str

    def parts(self, text):
        """The sign, the digits before the decimal mark and those behind it; None where the text is no such number."""
        match = pattern(self).fullmatch(text)
        if not match:
            return None
        before, front, _, behind, after = match.groups()
        # Parentheses stand for minus, and a sign stands in front or behind.
        if (before == "(") != (after == ")") or before and after == "-":
            return None
        negative = before in ("(", "-") or after == "-"
        return "-" if negative else "", front if front.isdigit() else re.sub("[^0-9]", "", front), behind or ""

    def said(self):
        names = {",": "a comma", ".": "a point", SPACES: "blanks", APOSTROPHES: "apostrophes"}
        return f"decimal mark {names[self.decimal]}" + (f", thousands by {names[self.thousands]}" if self.thousands else "")


@functools.cache
def pattern(reading):
    """A number of this reading: what stands in front, the digits, the mark between thousands, the decimals, and what stands behind."""
    groups = rf"[0-9]{{1,3}}(?:([{re.escape(reading.thousands)}])[0-9]{{3}})(?:\3[0-9]{{3}})*" if reading.thousands else "(?!)()"
    return re.compile(rf"[{SPACES}]*([(+-])?({groups}|[0-9]+)(?:{re.escape(reading.decimal)}([0-9]+))?([)-])?[{SPACES}]*")


def all_readings(decimal, thousands):
    """The readings that the file's reader leaves open."""
    found = []
    for mark in [decimal] if decimal else [".", ","]:
        for between in (THOUSANDS[mark], SPACES, APOSTROPHES):
            if thousands is None or thousands in between:
                found.append(Reading(mark, between))
        if thousands == "none":
            found.append(Reading(mark, ""))
    return found


def number(parts, scale):
    """The whole number that these parts are, by that many decimals."""
    sign, front, behind = parts
    return int(sign + front + behind.ljust(scale, "0"))


def scale_of(values, reading):
    """How many decimals the values have by this reading; None where one of them is no number by it."""
    most = 0
    for value in values:
        parts = reading.parts(value)
        if parts is None:
            return None
        most = max(most, len(parts[2]))
    return most


def is_code(values):
    """Whether a number is written with zeros in front, as a code is, or without anything else and too long."""
    return any(CODE.fullmatch(it) for it in values)


@dataclass
class Numbers:
    """The readings that fit all values of a column, each with its scale."""

    fits: dict

    def settled(self, decimal):
        """The one reading of the numbers, where all that fit agree, or agree with the decimal mark of other columns; else None."""
        fits = {it: scale for it, scale in self.fits.items() if decimal in (None, it.decimal)} or self.fits
        return next(iter(fits.items())) if len({(scale, it.decimal if scale else "") for it, scale in fits.items()}) == 1 else None

    def decides(self):
        """The decimal mark, where these numbers can be read by one alone."""
        marks = {it.decimal for it in self.fits}
        return marks.pop() if len(marks) == 1 else None


def numbers(values, readings):
    """What the values are as numbers; None where they are none."""
    strange = next((it for it in values if not PLAIN.fullmatch(it)), None)
    fitting = [it for it in readings if strange is None or it.parts(strange)]
    if not values or not fitting or is_code(values):
        return None
    others = {it for it in values if not PLAIN.fullmatch(it)} if strange is not None else ()
    fits = {it: scale_of(others, it) for it in fitting}
    fits = {it: scale for it, scale in fits.items() if scale is not None}
    return Numbers(fits) if fits else None


def odd(values, readings, part=.1):
    """The place of the first value that is no number by the reading that fits most, and how many such there are; None where more than this
    part of the values are no numbers."""
    strange = [at for at, value in enumerate(values) if not PLAIN.fullmatch(value)]
    best = None
    for it in readings:
        missed = []
        for at in strange:
            if it.parts(values[at]) is None:
                missed.append(at)
                if len(missed) > len(values) * part:
                    break
        else:
            best = missed if best is None or len(missed) < len(best) else best
    return (best[0], len(best)) if best else None


def is_dated(values):
    return bool(values) and all(DATE.fullmatch(it) for it in values)


@functools.lru_cache(1 << 16)
def iso(value, order):
    """The date in the order of ISO 8601; refuses one that isn't in that order."""
    match = DATE.fullmatch(value)
    if not match:
        raise Refused(f"'{value}' is no date")
    parts = (match[1], match[3], match[4])
    year, month, day = (parts[it] for it in ORDERS[order])
    if len(year) != 4:
        raise Refused(f"'{value}' has no year of four digits in the order {order}")
    try:
        date = datetime.date(int(year), int(month), int(day)).isoformat()
    except ValueError:
        raise Refused(f"'{value}' is no date in the order {order}") from None
    return f"{date} {'0' * (match[5][1] == ':')}{match[5]}" if match[5] else date
