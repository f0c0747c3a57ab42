#!/usr/bin/env python3
"""Tries the wrong bodies of a crate that the gate leaves out: later.py CRATE [NAME ..].

They stand in crates/CRATE/must-fail/LATER.md, each below a heading that is its name. They are written beside the others as
edits, tried by `rt must-fail CRATE`, and taken away again. The status is that of the trial.
"""
import pathlib
import re
import subprocess
import sys

TOP = pathlib.Path(__file__).resolve().parent.parent


def edits_of(page):
    """The name and the text of each edit of a page."""
    for part in page.split("\n## ")[1:]:
        name, _, rest = part.partition("\n")
        lines = [line[4:] for line in rest.splitlines() if line.startswith("    ")]
        yield name.strip(), "\n".join(lines) + "\n"


def main():
    if len(sys.argv) < 2 or not re.fullmatch(r"\w+", sys.argv[1]):
        sys.exit(__doc__)
    crate, wanted = sys.argv[1], sys.argv[2:]
    folder = TOP / "crates" / crate / "must-fail"
    page = folder / "LATER.md"
    if not page.exists():
        sys.exit(f"later: {crate} has no edits that the gate leaves out")
    edits = {folder / f"{name}.edit": text for name, text in edits_of(page.read_text()) if not wanted or name in wanted}
    try:
        for path, text in edits.items():
            path.write_text(text)
        return subprocess.run(["rt", "must-fail", crate], cwd=TOP, check=False).returncode
    finally:
        for path in edits:
            path.unlink(missing_ok=True)


sys.exit(main())
