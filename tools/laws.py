#!/usr/bin/env python3
"""Writes docs/LAWS.md, an index of the laws: laws.py [--check].

A law is a public function of a crate's src/ without parameters and without a result, whose body is empty or calls other laws:
its contract is the theorem, and its `///` lines say it in words. The crates stand in the order of crates.txt, from the lowest to the
highest, and the laws of a file as they stand there. With --check nothing is written, and the status is 1 where the page is another.
"""
import pathlib
import re
import sys

TOP = pathlib.Path(__file__).resolve().parent.parent
PAGE = TOP / "docs" / "LAWS.md"
LAW = re.compile(r"^pub fn (\w+)\(\)$")
CALLS = re.compile(r"(?: {4}\w+\(\);)*")
HEAD = """# Laws

The laws of the crates, from the lowest crate to the highest: {count} of them, in {files} files of {crates} crates. `tools/laws.py` writes this
page of the sources, and `./check` compares it.

A law is the contract of a public function that does nothing: behind its `ensures` stands the theorem, and its words here are those above
it. The definitions that it names are those of the lines `ghost use` of its file. Its proof is `proofs/PATH/NAME/Answers.antt` of its crate,
where the law stands in `src/PATH.rt`, or none where the compiler's tactic finds it. What a function promises that does something, as
`perm` does by the headline, isn't here but in the tables of the crates' READMEs.
"""


def words_above(lines, at):
    """The `///` lines that stand right above a line, as one text."""
    start = at
    while start > 0 and lines[start - 1].startswith("///"):
        start -= 1
    return " ".join(" ".join(line[3:] for line in lines[start:at]).split())


def laws_of(text):
    """The laws of a file, each by its name and its words."""
    lines = text.splitlines()
    for at, line in enumerate(lines):
        found = LAW.match(line)
        if not found:
            continue
        opening = next(i for i in range(at, len(lines)) if lines[i].startswith("{"))
        closing = next(i for i in range(opening, len(lines)) if lines[i].endswith("}"))
        body = "".join(lines[opening:closing + 1])
        if CALLS.fullmatch(body[1:-1]):
            yield found[1], words_above(lines, at)


def crates():
    return [line.partition(":")[0] for line in (TOP / "crates.txt").read_text().splitlines() if line and not line.startswith("#")]


def page():
    parts, count, files, holders = [], 0, 0, 0
    for crate in crates():
        found = {path: list(laws_of(path.read_text())) for path in sorted((TOP / "crates" / crate / "src").rglob("*.rt"))}
        found = {path: laws for path, laws in found.items() if laws}
        if not found:
            continue
        parts.append(f"## `{crate}`\n")
        for path, laws in found.items():
            parts.append(f"[`{path.relative_to(TOP / 'crates' / crate)}`](../{path.relative_to(TOP)}):\n")
            parts += [f"- `{name}`: {words}" for name, words in laws]
            parts.append("")
        count, files, holders = count + sum(map(len, found.values())), files + len(found), holders + 1
    return HEAD.format(count=count, files=files, crates=holders) + "\n" + "\n".join(parts).rstrip() + "\n"


def main():
    if sys.argv[1:] not in ([], ["--check"]):
        sys.exit("usage: laws.py [--check]")
    text = page()
    if not sys.argv[1:]:
        PAGE.write_text(text)
    elif not PAGE.exists() or PAGE.read_text() != text:
        sys.exit(f"laws: {PAGE.relative_to(TOP)} lists other laws than the sources have; tools/laws.py writes it")


main()
