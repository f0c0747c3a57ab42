"""Scripts of the language, as far as a wrapper has to read them: tokens, statements, and the files that COPY names."""
import re
from dataclasses import dataclass

TOKEN = re.compile(
    rb"""(?P<blank>[ \t\n\r]+) | (?P<comment>--[^\n]*) | (?P<word>[A-Za-z_][A-Za-z0-9_]*) | (?P<number>[0-9]+)
       | '(?P<text>(?:[^']|'')*)' | "(?P<name>(?:[^"]|"")*)" | (?P<mark><>|!=|<=|>=|[(),;.*+\-/%=<>]) | (?P<other>.)""",
    re.X | re.S,
)
QUERY = "query"


@dataclass
class Token:
    """`kind` is the group of TOKEN. A word is in small letters, a text and a quoted name are without their quotes."""

    kind: str
    value: bytes
    start: int
    end: int

    def is_word(self, word):
        return self.kind == "word" and self.value == word

    def is_mark(self, mark):
        return self.kind == "mark" and self.value == mark

    def is_name(self):
        return self.kind in ("word", "name")


def tokens(script):
    """The tokens of the bytes, comments among them and blanks not."""
    found = []
    for match in TOKEN.finditer(script):
        kind, value = match.lastgroup, match[match.lastgroup]
        if kind == "word":
            value = value.lower()
        elif kind == "text":
            value = value.replace(b"''", b"'")
        elif kind == "name":
            value = value.replace(b'""', b'"')
        if kind != "blank":
            found.append(Token(kind, value, match.start(), match.end()))
    return found


@dataclass
class Statement:
    """A statement that isn't empty: its tokens without comments, the comments in front of it, and where its tokens stand."""

    tokens: list
    comments: list
    start: int
    end: int

    def begins(self, *words):
        return len(self.tokens) >= len(words) and all(it.is_word(word) for it, word in zip(self.tokens, words))

    def provenance(self):
        """The word PROVENANCE behind the first SELECT of a query; None where the statement is no query or has none."""
        ahead = 0
        while ahead < len(self.tokens) and self.tokens[ahead].is_mark(b"("):
            ahead += 1
        words = self.tokens[ahead:ahead + 2]
        if len(words) == 2 and words[0].is_word(b"select") and words[1].is_word(b"provenance"):
            return words[1]
        return None

    def made(self):
        """The name of the table or view that the statement makes; None where it makes none."""
        if self.begins(b"create", b"table") or self.begins(b"create", b"view"):
            return self.tokens[2].value if len(self.tokens) > 2 else None
        return None


    def columns(self):
        """The names of the columns of a table that the statement makes by naming them; None where it makes none so."""
        if not self.begins(b"create", b"table") or len(self.tokens) < 6 or not self.tokens[3].is_mark(b"("):
            return None
        return [word.value for before, word in zip(self.tokens[3:], self.tokens[4:]) if (before.is_mark(b"(") or before.is_mark(b",")) and word.is_name()]

    def changed(self):
        """The name of the table that the statement makes, fills, empties or drops; None where it leaves all as they are."""
        for words in ((b"create", b"table"), (b"drop", b"table"), (b"insert", b"into"), (b"delete", b"from"), (b"copy",)):
            if self.begins(*words) and len(self.tokens) > len(words):
                return self.tokens[len(words)].value
        return None


def statements(script):
    """The statements of the bytes, in order."""
    found, words, comments = [], [], []
    for token in tokens(script):
        if token.kind == "comment":
            # A comment inside a statement stays where it is.
            if not words:
                comments.append(token)
        elif not token.is_mark(b";"):
            words.append(token)
        elif words:
            found.append(Statement(words, comments, words[0].start, words[-1].end))
            words, comments = [], []
    if words:
        found.append(Statement(words, comments, words[0].start, words[-1].end))
    return found


def copied(script):
    """The names of files behind COPY name FROM, each once."""
    names = []
    for statement in statements(script):
        words = statement.tokens
        if statement.begins(b"copy") and len(words) > 3 and words[3].kind == "text" and words[3].value not in names:
            names.append(words[3].value)
    return names


def quoted(name):
    """The name as a quoted name."""
    return b'"' + name.replace(b'"', b'""') + b'"'


def place(script, offset):
    """The line and the column of the byte at the offset, both from 1, and the text of the line; columns count characters."""
    start = script.rfind(b"\n", 0, offset) + 1
    end = script.find(b"\n", offset)
    line = script[start:len(script) if end < 0 else end]
    return script.count(b"\n", 0, offset) + 1, len(script[start:offset].decode(errors="replace")) + 1, line.decode(errors="replace")
