"""Values: their order, SQL's three-valued logic, arithmetic, and the value of an expression on a row. NULL is None."""

from .tree import GREATEST, LEAST


class Fault(Exception):
    """An evaluation met faults; `codes` has all that it may name: E30, E31, E32."""

    def __init__(self, codes):
        super().__init__(codes)
        self.codes = frozenset(codes)


def each_of(parts):
    """The values of all parts, which are functions. All are evaluated, so that the faults of all are met."""
    values, codes = [], set()
    for part in parts:
        try:
            values.append(part())
        except Fault as fault:
            codes |= fault.codes
    if codes:
        raise Fault(codes)
    return values


def order_key(value):
    """The order of values: integers as numbers, texts by their bytes, false before true, NULL last. It tells values apart
    just as grouping, DISTINCT and set operations do, for which NULL is the same as NULL."""
    if value is None:
        return 3, 0
    if isinstance(value, bool):
        return 2, value
    return (0, value) if isinstance(value, int) else (1, value.encode())


def sorted_rows(rows, keys):
    """Rows by the keys, then by all columns from the left; DESC turns a key round, and NULL comes first there."""
    rows = sorted(rows, key=lambda row: tuple(map(order_key, row)))
    for place, down in reversed(keys):
        rows = sorted(rows, key=lambda row: order_key(row[place]), reverse=down)
    return rows


def conjunction(truths):
    """AND: false where one is false, else unknown where one is unknown, else true."""
    return False if False in truths else None if None in truths else True


def disjunction(truths):
    """OR: true where one is true, else unknown where one is unknown, else false."""
    return True if True in truths else None if None in truths else False


def compared(operator, left, right):
    """A comparison: unknown where a side is NULL."""
    if left is None or right is None:
        return None
    left, right = order_key(left), order_key(right)
    return {"=": left == right, "<>": left != right, "<": left < right, "<=": left <= right, ">": left > right,
            ">=": left >= right}[operator]


def is_like(characters, pattern):
    """LIKE: % is any characters, _ is one, others are themselves."""
    if pattern == "":
        return characters == ""
    if pattern[0] == "%":
        return any(is_like(characters[start:], pattern[1:]) for start in range(len(characters) + 1))
    return characters != "" and pattern[0] in ("_", characters[0]) and is_like(characters[1:], pattern[1:])


def in_range(number):
    """The number, or E31 where 64 bits don't hold it."""
    if not LEAST <= number <= GREATEST:
        raise Fault({"E31"})
    return number


def calculated(operator, left, right):
    """Arithmetic: NULL where a side is NULL, before a division by zero is one (E30). A division cuts towards zero, and the
    remainder has the sign of the dividend."""
    if left is None or right is None:
        return None
    if operator in "+-*":
        return in_range({"+": left + right, "-": left - right, "*": left * right}[operator])
    if right == 0:
        raise Fault({"E30"})
    quotient = abs(left) // abs(right)
    if (left < 0) != (right < 0):
        quotient = -quotient
    return in_range(quotient) if operator == "/" else left - quotient * right


class Row:
    """What an expression sees: a row, the outer rows, the nearest first, and the values of the node's sublinks."""

    def __init__(self, row, outer, sublinks=()):
        self.rows, self.sublinks = (row,) + outer, sublinks

    def value(self, expression):
        """The value of an expression. All operands are evaluated, of AND and COALESCE too; only a CASE stops: it takes the
        first arm whose condition is true and evaluates no condition behind it and no other value."""
        return FORMS[expression[0]](self, *expression[1:])

    def values(self, expressions):
        return each_of([lambda part=part: self.value(part) for part in expressions])

    def of_case(self, arms, otherwise):
        for condition, value in arms:
            if self.value(condition) is True:
                return self.value(value)
        return self.value(otherwise)

    def of_chain(self, first, steps):
        """Operators of one strength go from the left, once all operands have a value."""
        result, *others = self.values([first] + [part for _, part in steps])
        for (operator, _), value in zip(steps, others):
            result = calculated(operator, result, value)
        return result

    def of_same(self, left, right):
        """IS NOT DISTINCT FROM: never unknown, and NULL is the same as NULL."""
        left, right = self.values([left, right])
        return order_key(left) == order_key(right)

    def of_operation(self, name, parts):
        values = self.values(parts)
        return OPERATIONS[name](values) if name in OPERATIONS else compared(name, *values)


FORMS = {
    "value": lambda self, value: value,
    "column": lambda self, level, place: self.rows[level][place],
    "sublink": lambda self, number: self.sublinks[number],
    "is_null": lambda self, tested: self.value(tested) is None,
    "is_truth": lambda self, truth, tested: self.value(tested) is truth,
    "case": Row.of_case,
    "chain": Row.of_chain,
    "same": Row.of_same,
    "operation": Row.of_operation,
}

OPERATIONS = {
    "not": lambda values: None if values[0] is None else not values[0],
    "minus": lambda values: None if values[0] is None else in_range(-values[0]),
    "and": conjunction,
    "or": disjunction,
    "like": lambda values: None if None in values else is_like(*values),
    "between": lambda values: conjunction([compared(">=", values[0], values[1]), compared("<=", values[0], values[2])]),
    "in_list": lambda values: disjunction([compared("=", values[0], value) for value in values[1:]]),
    "coalesce": lambda values: next((value for value in values if value is not None), None),
    "nullif": lambda values: None if compared("=", *values) is True else values[0],
}
