#!/usr/bin/env python3
"""Tests ./watch and `./perm -`: watch_test.py PROGRAM

A script is watched while it and a file that it copies change: each time it has to be answered again, and the page has to be another one, which
a headless Chromium, where one is installed, has to show by itself.
"""
import contextlib
import os
import pathlib
import shutil
import subprocess
import sys
import tempfile
import time
import urllib.error
import urllib.request

import browser

TOP = pathlib.Path(__file__).resolve().parent.parent
SCRIPT = "CREATE TABLE t (a INTEGER); COPY t FROM 't.csv'; SELECT PROVENANCE a FROM t;\n"
PATIENCE = 60


class Failed(Exception):
    pass


def expect(told, what):
    if not told:
        raise Failed(what)


def got(address, host=None):
    """The status and the text that the address answers."""
    with contextlib.suppress(urllib.error.HTTPError):
        with urllib.request.urlopen(urllib.request.Request(address, headers={"Host": host} if host else {}), timeout=PATIENCE) as answer:
            return answer.status, answer.read().decode()
    return None, ""


def next_answer(watching):
    """What is said until the next answer is there."""
    for line in watching.stderr:
        if line.startswith(b"watch: status"):
            return line.decode()
    raise Failed("it ended")


def watched(program, folder):
    script, file = folder / "watched.sql", folder / "t.csv"
    script.write_text(SCRIPT)
    file.write_text("1\n")
    watching = subprocess.Popen([TOP / "watch", "watched.sql"], cwd=folder, env={**os.environ, "PERM": program}, stdin=subprocess.DEVNULL,
                                stdout=open(folder / "answers", "wb"), stderr=subprocess.PIPE)
    try:
        address = watching.stderr.readline().decode().rpartition(" ")[2].strip()
        told = next_answer(watching)
        expect("status 0" in told and ">1\n" in got(address)[1], f"the first answer is {told}")
        file.write_text("7\n8\n")
        expect("status 0" in next_answer(watching), "a changed file isn't answered")
        expect(got(f"{address}newer?1") == (200, "yes"), "the first page is the newest")
        expect(">8\n" in got(address)[1], "the page isn't of the changed file")
        script.write_text("SELECT a;\n")
        expect("status 4" in next_answer(watching), "a changed script isn't answered")
        expect("E11" in got(address)[1], "the page has no refusal")
        script.unlink()
        expect("status 6" in next_answer(watching), "a script that is gone isn't answered")
        expect(got(address, "elsewhere.example")[0] is None and got(address + "x")[0] is None, "another host or address gets a page")
        if browser.found():
            renewed(address, script, watching)
    finally:
        watching.terminate()
        watching.communicate()
    written = (folder / "answers").read_text()
    expect(written.count("COPY 1\n") == 1 and written.count("COPY 2\n") == 1 and "error E40 script\n" in written, f"it wrote {written}")


def renewed(address, script, watching):
    """A browser that shows the page takes the newer one by itself."""
    with browser.Browser() as window:
        window.load(address)
        expect(not window.complaints(), f"the browser complains: {window.complaints()}")
        script.write_text("SELECT 'renewed' AS a;\n")
        next_answer(watching)
        begun = time.monotonic()
        while "renewed" not in window.value("document.body.textContent"):
            expect(time.monotonic() < begun + PATIENCE, "the page isn't renewed")
            time.sleep(.1)


def from_input(program, folder):
    """A script from the standard input is run as one of a file, from the same folder."""
    top = folder / "top"
    (top / "crates/perm_cli/out").mkdir(parents=True)
    shutil.copy(TOP / "perm", top)
    # No source is newer than the program.
    (top / "HANDLES").touch()
    (top / "crates.txt").write_text("perm_cli:\n")
    os.symlink(TOP / "tools", top / "tools")
    shutil.copyfile(program, top / "crates/perm_cli/out/perm_cli")
    (top / "crates/perm_cli/out/perm_cli").chmod(0o755)
    for text in (SCRIPT, "SELECT 1;\n  SELECT nosuch;\n", "SELECT 1 / 0;", "\xff", "", " " * 1048577):
        data = text.encode("latin-1")
        (folder / "t.csv").write_text("1\n")
        (folder / "-").write_bytes(data)
        right = subprocess.run([program, "-"], cwd=folder, capture_output=True)
        done = subprocess.run([top / "perm", "-"], cwd=folder, input=data, capture_output=True)
        expect((done.returncode, done.stdout, done.stderr) == (right.returncode, right.stdout, right.stderr), f"{text[:40]!r} is answered {done}")


def main():
    program = os.path.abspath(sys.argv[1])
    with tempfile.TemporaryDirectory() as name:
        try:
            watched(program, pathlib.Path(name))
            from_input(program, pathlib.Path(name))
        except Failed as error:
            print(f"watch: {error}", file=sys.stderr)
            return True
    print("watch: a script was watched, and others read from the standard input", file=sys.stderr)
    return False


if __name__ == "__main__":
    sys.exit(main())
