#!/usr/bin/env python3
"""What a reader of the headline has to believe: definitions.py [PAGE].

Lists the files of specs/ with the definitions that the contract of `perm` speaks of, directly or through others, in the order
in which a reader meets them from that contract on, each with its number of definitions and of lines that aren't blank or a
comment. Where PAGE is named, the sum's last line has to stand in it, in words `N lines in M files`, or the status is 1.
"""
import pathlib
import re
import sys

TOP = pathlib.Path(__file__).resolve().parent.parent
START = TOP / "crates" / "perm_engine" / "src" / "run.rt"
USE = re.compile(r"^(?:ghost |pub )?use Rattle\.(\w+)\.specs\.([\w.«»-]+?)(?:\.\{(.*?)\}| as (\S+?))?;?$")
HEAD = re.compile(r"^ *(?:(?:pub|abbrev|unfoldable|pattern|record|data|mutual|syntax|irreducible) +)*([^\s:({]+)")
KINDS = {"pub", "abbrev", "unfoldable", "pattern", "record", "data", "mutual"}


def paragraphs(text):
    """The declarations of a file: lines that hang together, with what is indented below a blank line."""
    found = []
    for part in re.split(r"\n\s*\n", text):
        lines = [line for line in part.splitlines() if line.strip() and not line.lstrip().startswith("--") and not USE.match(line)]
        if not lines:
            continue
        if lines[0].startswith(" ") and found:
            found[-1] += lines
        else:
            found.append(lines)
    return found


def names_of(lines):
    """The names that a declaration gives: its own, those of a mutual block, and a data type's constructors."""
    first = lines[0].split()
    names = []
    if "mutual" in first:
        names += [HEAD.match(line)[1] for line in lines[1:] if re.match(r"^  \S.* : ", line)]
    else:
        names.append(HEAD.match(lines[0])[1])
    if "data" in first:
        names += [word for line in lines[1:] for word in re.match(r"^ +(?:pub )?([^:]*):", line + ":")[1].split()]
    return [name for name in names if name not in KINDS]


class Module:
    """A file of specs/: which declaration gives a name, and where the names that it brings in come from."""

    def __init__(self, path):
        text = path.read_text()
        self.path = path
        self.uses, self.under = uses_of(text.splitlines())
        self.declared = {}
        for lines in paragraphs(text):
            for name in names_of(lines):
                self.declared.setdefault(name, (tuple(lines), path))


def uses_of(lines):
    """The file of each name that is brought in, with the name there, and the file of each name for a whole module."""
    uses, under = {}, {}
    for line in lines:
        found = USE.match(line.strip())
        if not found:
            continue
        path = TOP / "crates" / found[1] / "specs" / (found[2].replace(".", "/") + ".antt")
        if found[4]:
            under[found[4]] = path
        for item in (found[3] or "").split(", "):
            name, _, other = item.partition(" as ")
            uses[other or name] = (path, name)
    return uses, under


class Reading:
    """What has been met so far: the declarations of each file, in the order in which they came."""

    def __init__(self):
        self.modules, self.files, self.seen = {}, {}, set()

    def module(self, path):
        if path not in self.modules:
            self.modules[path] = Module(path) if path.exists() else None
        return self.modules[path]

    def meet(self, text, uses, under, own):
        """All that a text speaks of, nearest first."""
        left = [(text, uses, under, own)]
        while left:
            text, uses, under, own = left.pop(0)
            for word in dict.fromkeys(re.findall(r"[^\s(){}\[\],;:λ→×↔≡∷=]+", text)):
                path, name = self.place(word, uses, under, own)
                module = path and self.module(path)
                if not module or name not in module.declared or (path, module.declared[name][0]) in self.seen:
                    continue
                lines = module.declared[name][0]
                self.seen.add((path, lines))
                self.files.setdefault(path, []).append(lines)
                left.append(("\n".join(lines), module.uses, module.under, path))

    @staticmethod
    def place(word, uses, under, own):
        """The file and the name there that a word stands for, or nothing."""
        first, _, rest = word.partition(".")
        if rest and first in under:
            return under[first], rest
        if word in uses or first in uses:
            return uses.get(word) or uses[first]
        return own, word if word in KINDS or not own else first


def contract(text):
    """The text of the contract of `perm`."""
    start = text.index("pub fn perm<")
    return text[start : text.index("\n{", start)]


def main():
    text = START.read_text()
    reading = Reading()
    uses, under = uses_of(text.splitlines())
    reading.meet(contract(text), uses, under, None)
    rows = [(path.relative_to(TOP / "crates"), len(found), sum(map(len, found))) for path, found in reading.files.items()]
    for path, definitions, lines in rows:
        print(f"{lines:5} lines, {definitions:3} definitions: {path}")
    total = f"{sum(row[2] for row in rows):,} lines in {len(rows)} files"
    print(f"{sum(row[1] for row in rows):,} definitions: {total}")
    if len(sys.argv) > 1 and total not in pathlib.Path(sys.argv[1]).read_text():
        sys.exit(f"definitions: {sys.argv[1]} doesn't say '{total}'")


main()
