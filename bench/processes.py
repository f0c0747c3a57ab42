#!/usr/bin/env python3
"""What the processes of a run of the gate take: processes.py FOLDER OUT, beside `rt ci` in FOLDER, until it is stopped.

Each second the processor seconds, user and system, of each `rattle` process below FOLDER are read, and OUT is written anew: for each
crate the line `CRATE check SECONDS` of the dearest process that proved it, and behind `##` the megabytes that it took at most. These lines
are those that `bench/costs.py` takes. Where other programs run beside, the figures are too high.
"""
import os
import pathlib
import sys
import time

TICK = os.sysconf("SC_CLK_TCK")
PAGES = os.sysconf("SC_PAGE_SIZE") / (1 << 20)


def seen(process, folder):
    """The crate that a process proves, its seconds and its megabytes; None where it is none of the run's."""
    words = (process / "cmdline").read_text().split("\0")
    if not words[0].endswith("/rattle") or "--crate-name" not in words or not os.readlink(process / "cwd").startswith(folder):
        return None
    times = (process / "stat").read_text().rsplit(")", 1)[1].split()
    return words[words.index("--crate-name") + 1], (int(times[11]) + int(times[12])) / TICK, int((process / "statm").read_text().split()[1]) * PAGES


def look(folder, most):
    for process in pathlib.Path("/proc").iterdir():
        try:
            found = seen(process, folder) if process.name.isdigit() else None
        except (OSError, ValueError, IndexError):
            continue
        if found:
            crate, seconds, megabytes = found
            known = most.get(crate, (0, 0))
            most[crate] = max(seconds, known[0]), max(megabytes, known[1])


def main():
    if len(sys.argv) != 3:
        sys.exit(__doc__)
    folder, out = os.path.realpath(sys.argv[1]) + "/", pathlib.Path(sys.argv[2])
    most = {}
    while True:
        look(folder, most)
        out.write_text("".join(f"{crate} check {seconds:.0f}\n## {megabytes:.0f} MB\n" for crate, (seconds, megabytes) in most.items()))
        time.sleep(1)


main()
