"""The text of EXPLAIN REWRITE as tokens, around which something may be put.

Tables, columns and aliases stand in double quotes there, so a word is a word of the language. A rule puts texts in front of tokens
and behind them; rules for smaller parts go before those for larger ones, so that what is put around stands outside.
"""
import scripts

FUNCTIONS = ("cast", "count", "sum", "min", "max", "coalesce", "nullif", "exists")
VALUES = ("null", "true", "false")
ARITHMETIC = ("+", "-", "*", "/", "%")


class Draft:
    """A printed text, without its `;`."""

    def __init__(self, text):
        self.source = text.encode()
        self.tokens = [it for it in scripts.tokens(self.source) if it.kind != "comment"]
        if self.tokens and self.tokens[-1].is_mark(b";"):
            self.tokens.pop()
        self.said = [self.source[it.start:it.end].decode() for it in self.tokens]
        self.front, self.behind = [""] * len(self.tokens), [""] * len(self.tokens)
        self.partner = partners(self.tokens)

    def __len__(self):
        return len(self.tokens)

    def text(self):
        """The text with what was put into it."""
        parts, at = [], 0
        for number, token in enumerate(self.tokens):
            parts += [self.source[at:token.start].decode(), self.front[number], self.said[number], self.behind[number]]
            at = token.end
        return "".join(parts).strip()

    def word(self, at, *words):
        """Whether the tokens from there on are these words."""
        return at >= 0 and at + len(words) <= len(self) and all(
            self.tokens[at + number].is_word(word.encode()) for number, word in enumerate(words))

    def one_of(self, at, words):
        return 0 <= at < len(self) and self.tokens[at].kind == "word" and self.tokens[at].value.decode() in words

    def is_from(self, at):
        """Whether the clause FROM begins there, and not the end of IS NOT DISTINCT FROM."""
        return self.word(at, "from") and not self.word(at - 1, "distinct")

    def mark(self, at, *marks):
        return 0 <= at < len(self) and self.tokens[at].kind == "mark" and self.tokens[at].value.decode() in marks

    def is_name(self, at):
        return 0 <= at < len(self) and self.tokens[at].kind == "name"

    def name(self, at):
        return self.tokens[at].value.decode()

    def around(self, first, last, front, behind):
        self.front[first] = front + self.front[first]
        self.behind[last] += behind

    def replace(self, at, text):
        self.said[at] = text

    def written(self, first, last):
        """These tokens with what was put around them."""
        return "".join(part for at in range(first, last + 1) for part in (self.front[at], self.said[at], self.behind[at]))

    def drop(self, first, last):
        """Takes these tokens out, with what was put around them."""
        for at in range(first, last + 1):
            self.front[at] = self.said[at] = self.behind[at] = ""

    def last_of(self, first):
        """The last token of the primary that begins there."""
        if self.mark(first, "-"):
            return self.last_of(first + 1)
        if self.mark(first, "(") or self.word(first, "case"):
            return self.partner[first]
        if self.one_of(first, FUNCTIONS) and self.mark(first + 1, "("):
            return self.partner[first + 1]
        return first + 2 if self.mark(first + 1, ".") else first

    def first_of(self, last):
        """The first token of the primary that ends there."""
        if self.mark(last, ")") or self.word(last, "end"):
            opened = self.partner[last]
            return opened - 1 if self.mark(last, ")") and self.one_of(opened - 1, FUNCTIONS) else opened
        return last - 2 if self.mark(last - 1, ".") else last

    def ends_primary(self, at):
        """Whether a primary may end there, so that an operator behind it has two sides."""
        return at >= 0 and (self.tokens[at].kind in ("number", "text", "name") or self.mark(at, ")")
                            or self.one_of(at, VALUES + ("end",)))

    def fresh(self, name):
        """A name that stands nowhere in the text, from this one on."""
        known = {it.value.decode() for it in self.tokens if it.kind == "name"}
        while name in known:
            name += "_"
        return name

    def is_operator(self, at):
        return self.mark(at, *ARITHMETIC) and self.ends_primary(at - 1)


def partners(tokens):
    """For each parenthesis and each CASE the place of what closes it, and the other way round."""
    found, opened = {}, []
    for at, token in enumerate(tokens):
        if token.is_mark(b"(") or token.is_word(b"case"):
            opened.append(at)
        elif (token.is_mark(b")") or token.is_word(b"end")) and opened:
            first = opened.pop()
            found[first], found[at] = at, first
    return found


def quoted(name):
    return '"' + name.replace('"', '""') + '"'


def chains(draft):
    """The chains of arithmetic, such as a + b * c: for each the first and last tokens of its operands, and its operators between."""
    found, seen = [], set()
    for at in range(len(draft)):
        if not draft.is_operator(at) or at in seen:
            continue
        operands, operators = [(draft.first_of(at - 1), at - 1)], []
        while draft.is_operator(at):
            seen.add(at)
            operators.append(at)
            last = draft.last_of(at + 1)
            operands.append((at + 1, last))
            at = last + 1
        found.append((operands, operators))
    return found


def steps(draft, operands, operators):
    """The operations of a chain, inner ones first: the operator, and the first and last tokens of either side."""
    found = []
    sums, terms, term = [], [], operands[0]
    for operator, operand in zip(operators, operands[1:]):
        if draft.mark(operator, "*", "/", "%"):
            found.append((operator, term, operand))
            term = term[0], operand[1]
        else:
            terms.append(term)
            sums.append(operator)
            term = operand
    terms.append(term)
    left = terms[0]
    for operator, right in zip(sums, terms[1:]):
        found.append((operator, left, right))
        left = left[0], right[1]
    return found
