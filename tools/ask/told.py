"""What is written: an engine's rows in the form of perm's answers, and notes on refusals in the form of perm's."""
import tempfile

import scripts

from .scopes import INTEGER, TEXT

# An answer waits here until it is whole; beyond this many bytes on the disk.
HELD = 16 << 20
AROUND = 80


def fields(kinds):
    """For each column what writes its value."""
    def integer(value):
        return "" if value is None else str(int(value))

    def text(value):
        return "" if value is None else '"' + value.replace('"', '""') + '"'

    def truth(value):
        return "" if value is None else "true" if value else "false"
    return [{INTEGER: integer, TEXT: text}.get(kind, truth) for kind in kinds]


def answer(names, kinds, batches, counted=True):
    """A file of the whole answer, and the number of its rows."""
    file, writers, count = tempfile.SpooledTemporaryFile(HELD), fields(kinds), 0
    file.write((",".join(map(fields([TEXT])[0], names)) + "\n").encode())
    for rows in batches:
        count += len(rows)
        file.write("".join(",".join([write(value) for write, value in zip(writers, row)]) + "\n" for row in rows).encode())
    if counted:
        file.write(f"({count} rows)\n".encode())
    file.seek(0)
    return file, count


def note(name, script, offset, sentence):
    """The sentence with the line and the column of the place, the script's line there, and a mark under it."""
    row, column, _ = scripts.place(script, offset)
    start = script.rfind(b"\n", 0, offset) + 1
    end = script.find(b"\n", offset)
    ahead, behind = script[start:offset], script[offset:len(script) if end < 0 else end]
    if len(ahead) > AROUND:
        ahead = b".." + whole_characters(ahead[-AROUND:], ahead=True)
    if len(behind) > AROUND:
        behind = whole_characters(behind[:AROUND]) + b".."
    shown = "".join(it if it == "\t" or it.isprintable() else " " for it in (ahead + behind).decode(errors="replace"))
    mark = "".join(it if it == "\t" else " " for it in shown[:len(ahead.decode(errors="replace"))])
    return f"{name}:{row}:{column}: {sentence}\n{shown}\n{mark}^\n"


def whole_characters(piece, ahead=False):
    """The piece without the bytes of a character that was cut."""
    while piece and (piece[0] & 0xC0) == 0x80 and ahead:
        piece = piece[1:]
    return piece if ahead else piece.decode(errors="ignore").encode()
