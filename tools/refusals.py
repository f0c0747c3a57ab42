"""What the manual says of each refusal."""
import re

# What the program says of a refusal at the end of the error stream: a sentence, in a script a line and a mark under it, and what may help.
NOTE = re.compile(rb"^.*: .* \(E\d\d\)\n(?:.*\n[ \t]*\^\n)?((?:hint: .*\n)*)\Z", re.M)
ROW = re.compile(r"^\| `error (E\d\d)( [^`]*)?` \| \d \| (.*) \|$", re.M)


def sentences(manual):
    """The manual's sentence for each code and form, as `E11 at N`; empty where there is no manual."""
    try:
        return {it[1] + (it[2] or ""): it[3] for it in ROW.finditer(manual.read_text())}
    except OSError:
        return {}


def sentence(line, known):
    """The sentence for the line of a refusal, without its mark-up."""
    form = re.sub(r"record \d+ field \d+", "record K field J", re.sub(r"record \d+$", "record K", re.sub(r"at \d+", "at N", line)))
    return known.get(form.removeprefix("error "), "").replace("`", "")


def without_note(said):
    """What the error stream says beside the program's note on a refusal."""
    return NOTE.sub(b"", said)


def hints(said):
    """What the program says on the error stream that may help."""
    found = NOTE.search(said)
    lines = found[1].decode(errors="replace").splitlines() if found else []
    return [it.removeprefix("hint: ") for it in lines]
