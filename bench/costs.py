#!/usr/bin/env python3
"""Writes docs/COSTS.md, what each crate costs to check and how large it is: costs.py [FILE].

FILE (bench/costs.txt where none is named) has the figures that are measured, a line each, in processor seconds:

    CRATE check SECONDS
    CRATE edits SECONDS NUMBER

The first is a check of the crate from nothing, where those below it are proved: user and system seconds together, as
`/usr/bin/time -f '%U %S' rt check --jobs 1` says them in the crate's folder. `rt check` begins with what is kept in `out/` of
this and of other clones on the machine, so for that there may be nothing kept of the crate. The second is the same of `rt
must-fail CRATE`, of which nothing is kept either: all of its edits, whose number is NUMBER, with the check that they begin
with. Of two lines of one crate and kind the later one counts. A line that begins with `#` is said above the table, but for
`##`, which is left out. `bench/processes.py` takes such lines of a run of the gate. What the crates hold is counted here: lines that
aren't blank, functions and edits; and of the figures and of what each crate uses, how long a run from nothing takes on four
processors and on two, where each begins what has the longest chain of crates behind it.
"""
import pathlib
import re
import sys

TOP = pathlib.Path(__file__).resolve().parent.parent
FUNCTION = re.compile(r"^ *(?:pub(?:\([^)]*\))? )?(?:const )?fn \w", re.M)
HEAD = """# Costs

What each crate costs to check, and how large it is. `bench/costs.py` writes this file: of the figures in `bench/costs.txt`, and of what
it counts itself. How they are to be read, and what keeps them low: [DECISIONS.md](DECISIONS.md#what-the-gate-costs).

- *Check*, *Edits*: processor seconds of a check from nothing, and of all edits of the crate with what they begin with.
- *Code*, *Specs*, *Proofs*: lines that aren't blank, of `src/`, `specs/` and `proofs/`. *Functions*: those of `src/`.
"""
COLUMNS = ("Crate", "Check", "Edits", "Number of edits", "Code", "Specs", "Proofs", "Functions")


def read(path):
    """The measured figures by crate, and the notes."""
    figures, notes = {}, []
    for number, line in enumerate(path.read_text().splitlines(), 1):
        words = line.split()
        if line.startswith("#"):
            notes += [] if line.startswith("##") else [line[1:].strip()]
        elif len(words) == 3 and words[1] == "check" or len(words) == 4 and words[1] == "edits":
            figures.setdefault(words[0], {})[words[1]] = [float(word) for word in words[2:]]
        elif words:
            sys.exit(f"costs: line {number} of {path} is none of `CRATE check SECONDS` and `CRATE edits SECONDS NUMBER`")
    return figures, notes


def texts(folder, ending):
    return [path.read_text() for path in sorted(folder.rglob("*" + ending))]


def lines(sources):
    return sum(1 for text in sources for line in text.splitlines() if line.strip())


def crate_row(folder, figures):
    """The figures of a crate, in the order of the columns; None where one wasn't measured."""
    code = texts(folder / "src", ".rt")
    edits = len(list((folder / "must-fail").glob("*.edit")))
    seconds, measured = figures.get("edits", (None, edits))
    if measured != edits:
        print(f"costs: {folder.name} has {edits} edits, and {measured:.0f} were measured", file=sys.stderr)
    return [
        figures.get("check", [None])[0],
        seconds,
        edits,
        lines(code),
        lines(texts(folder / "specs", ".antt")),
        lines(texts(folder / "proofs", ".antt")),
        sum(len(FUNCTION.findall(text)) for text in code),
    ]


def uses_of():
    """The crates that each uses, in the order of crates.txt."""
    lines = [line for line in (TOP / "crates.txt").read_text().splitlines() if line and line[0] != "#"]
    return {line.split(":")[0].split()[0]: line.split(":")[1].split() for line in lines}


def jobs_of(figures, uses):
    """What a run has to do: the seconds of each job, what it waits for, and the chain of seconds that begins with it."""
    jobs = {}
    for name, used in uses.items():
        known = figures.get(name, {})
        jobs[name, "check"] = known.get("check", [0])[0], [(other, "check") for other in used if other in uses]
        if "edits" in known:
            jobs[name, "edits"] = known["edits"][0], [(name, "check")]
    chains = {}
    for job in reversed(list(jobs)):
        behind = [chains[other] for other in chains if job in jobs[other][1]]
        chains[job] = jobs[job][0] + max(behind, default=0)
    return jobs, chains


def wall(figures, uses, processors):
    """The seconds that a run takes on so many processors."""
    jobs, chains = jobs_of(figures, uses)
    now, left, running, done = 0.0, set(jobs), [], set()
    while left or running:
        ready = sorted((job for job in left if all(other in done for other in jobs[job][1])), key=lambda job: -chains[job])
        for job in ready[: processors - len(running)]:
            left.discard(job)
            running.append((now + jobs[job][0], job))
        now, job = min(running)
        running.remove((now, job))
        done.add(job)
    return now


def shown(figure):
    return "" if figure is None else f"{figure:,.0f}"


def main():
    path = pathlib.Path(sys.argv[1]) if len(sys.argv) > 1 else TOP / "bench" / "costs.txt"
    figures, notes = read(path)
    names = [line.split(":")[0].split()[0] for line in (TOP / "crates.txt").read_text().splitlines() if line and line[0] != "#"]
    for name in sorted(set(figures) - set(names)):
        print(f"costs: there is no crate {name}", file=sys.stderr)
    rows = {name: crate_row(TOP / "crates" / name, figures.get(name, {})) for name in names}
    rows["all"] = [sum(figure or 0 for figure in column) for column in zip(*rows.values())]
    table = [COLUMNS, ["---"] * len(COLUMNS)]
    table += [[name if name == "all" else f"`{name}`"] + [shown(figure) for figure in row] for name, row in rows.items()]
    text = HEAD + "\n" + "".join(note + "\n" for note in notes) + "\n" * bool(notes)
    text += "".join("| " + " | ".join(cells) + " |\n" for cells in table)
    uses = uses_of()
    sums = [sum(known.get(kind, [0])[0] for name, known in figures.items() if name in uses) / 60 for kind in ("check", "edits")]
    text += f"\nBy these figures a run from nothing takes {sums[0]:.0f} processor minutes for proofs and {sums[1]:.0f} for edits: "
    text += " and ".join(f"{wall(figures, uses, processors) / 60:.0f} minutes on {word} processors" for processors, word in ((4, "four"), (2, "two"))) + ".\n"
    (TOP / "docs" / "COSTS.md").write_text(text)


main()
