"""How a table of a database is read: which columns it has in the language, and by which expression the engine gives each."""
from dataclasses import dataclass, field

from .printed import quoted
from .scopes import INTEGER, TEXT, Meaning

MOST_COLUMNS = 256
# Digits that always fit 64 bits.
DIGITS = 18


@dataclass
class Column:
    """A column under its name in the language. `wrong` is a condition on t under which the value isn't what its type says."""

    name: str
    kind: str
    expression: str
    whole: bool = False
    wrong: str = ""

    @property
    def meaning(self):
        return Meaning(self.kind, self.whole)


@dataclass
class Table:
    """A table as it is read: where it lies, its columns, what is to be said of them, and why it can't be read, if so."""

    origin: str
    columns: list = field(default_factory=list)
    notes: list = field(default_factory=list)
    reason: str = ""

    def refuse(self, column, kind):
        self.reason = self.reason or (f"its column {column} is {kind or 'of no type'}, which has no reading here; --without TABLE.{column} "
                                      "leaves the column out")

    def checked(self):
        """The table, refused where it has more or fewer columns than a table may have."""
        if not self.reason and not 0 < len(self.columns) <= MOST_COLUMNS:
            self.reason = f"it has {len(self.columns)} columns, and a table has from 1 to {MOST_COLUMNS}"
        return self

    def create(self, name):
        """The statement of the language that makes a table of the same columns."""
        columns = ", ".join(f"{quoted(it.name)} {it.kind}" for it in self.columns)
        return f"CREATE TABLE {quoted(name)} ({columns})"


def in_units(name, kind, scale):
    """What is said of a column of numbers with a point."""
    return f"{name} is {kind}: read in units of {'0.' + '0' * (scale - 1) + '1' if scale else '1'}"


__all__ = ["INTEGER", "TEXT", "Column", "Table"]
