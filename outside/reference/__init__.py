"""A reference of queries and their provenance: what a query answers over given tables, by the definitions alone."""

from .text import answer_lines
from .values import Fault, sorted_rows
from .witnesses import Witnesses


def answer(tables, resolved, steps=400_000):
    """The lines that a settled query answers and no codes, or no lines and the codes of the faults that it may name. The rows
    of tables are tuples. `TooMuch` is raised where it takes more steps."""
    try:
        bag = Witnesses(tables, steps).rows(resolved.node, ())
    except Fault as fault:
        return None, set(fault.codes)
    return answer_lines(resolved.names, sorted_rows(bag.elements(), resolved.keys)), None
