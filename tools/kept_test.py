#!/usr/bin/env python3
"""Tests the unproved program that ./perm keeps: kept_test.py PROGRAM

A stand-in for a kit has an rt that calls the kit's compiler for a module as the real one does, and then runs PROGRAM, and a linker whose
programs are PROGRAM. So this tests which step is taken when, who waits for whom, and what is left where a step fails; that the real
linker makes a program of the real module only a first answer shows.
"""
import os
import pathlib
import shutil
import subprocess
import sys
import tempfile
import time

import kept
import unproved_test

HERE = pathlib.Path(__file__).resolve().parent
# The kit's rt, which leaves word of each call beside itself. It ends without an answer where its compiler fails, as the real one.
RT = """#!/usr/bin/env python3
import os, pathlib, subprocess, sys, tempfile, time
kit = pathlib.Path(os.path.realpath(__file__)).parent.parent
with open(os.environ["CALLS"], "a") as calls:
    calls.write("rt\\n")
time.sleep(float(os.environ.get("SLOW", "0")))
with tempfile.TemporaryDirectory() as folder:
    pathlib.Path(folder, "module.bc").write_text("module")
    if subprocess.run([kit / "toolchain/bin/clang", *os.environ["COMPILED"].split()], cwd=folder).returncode:
        sys.stderr.write("checked: no-answer: clang failed\\nrun=none proved=no\\n")
        sys.exit(6)
words = sys.argv[sys.argv.index("--") + 1:]
done = subprocess.run([os.environ["PROVED"], *words], capture_output=True)
sys.stdout.buffer.write(done.stdout)
sys.stderr.buffer.write(done.stderr + b"run=ended status=%d runners=1 races=unchecked proved=no\\n" % done.returncode)
sys.exit(done.returncode)
"""
LINKER = """#!/bin/sh
echo "ld.lld $*" | cut -c1-60 >> "$CALLS"
[ -z "$BROKEN" ] || exit 1
while [ "$1" != -o ]; do relocatable="$relocatable$1"; shift; done
case $relocatable in -r*) echo object > "$2" ;; *) cp "$PROVED" "$2" ;; esac
"""


class Clone:
    """A folder with the tools and a source, and a kit, both of stand-ins."""

    def __init__(self, folder, program):
        self.top, self.kit, self.calls = folder / "clone", folder / "kit", folder / "calls"
        for name in ("tools", "crates/perm_cli/src"):
            (self.top / name).mkdir(parents=True)
        for file in [*HERE.glob("*.py"), HERE / "built.sh"]:
            shutil.copy(file, self.top / "tools")
        shutil.copy(HERE.parent / "perm", self.top)
        (self.top / "crates.txt").write_text("perm_cli:\n")
        (self.top / "HANDLES").touch()
        self.source = self.top / "crates/perm_cli/src/main.rt"
        self.source.write_text("fn main() {}\n")
        texts = {"bin/rt": RT, "bin/rtlib.py": "", "toolchain/bin/clang": "#!/bin/sh\necho clang >> \"$CALLS\"; echo > module.o\n", "toolchain/bin/ld.lld": LINKER}
        for name in (*kept.OF_KIT, *texts):
            file = self.kit / name
            file.parent.mkdir(parents=True, exist_ok=True)
            file.write_text(texts.get(name, ""))
            file.chmod(0o755)
        (self.kit / "toolchain/lib").mkdir()
        self.given = {**os.environ, "PATH": f"{self.kit}/bin:{os.environ['PATH']}", "PROVED": program, "CALLS": str(self.calls),
                      "COMPILED": unproved_test.COMPILED}

    def begin(self, folder, *words, **given):
        return subprocess.Popen([self.top / "perm", *words], cwd=folder, env={**self.given, **given}, stdin=subprocess.DEVNULL,
                                stdout=subprocess.PIPE, stderr=subprocess.PIPE)

    def ask(self, folder, *words, **given):
        """What the call answers: its status, its output, what the program said, and what ./perm said."""
        return self.end(self.begin(folder, *words, **given))

    def end(self, started):
        out, said = started.communicate(timeout=60)
        own = [it for it in said.splitlines(keepends=True) if it.startswith(b"perm: ")]
        return started.returncode, out, b"".join(it for it in said.splitlines(keepends=True) if it not in own), own

    def called(self):
        """Who was called since the last time."""
        found = self.calls.read_text().splitlines() if self.calls.exists() else []
        self.calls.unlink(missing_ok=True)
        return found

    def programs(self):
        return sorted(self.top.glob("out/kept/*/perm"))

    def settled(self):
        """Waits until no program is to be optimised."""
        for _ in range(100):
            if not list(self.top.glob("out/kept/*/module.bc")):
                return True
            time.sleep(.05)
        return False


class Failed(Exception):
    pass


def expect(told, what):
    if not told:
        raise Failed(what)


def answers_and_keeps(clone, folder, right):
    """The first answer makes a program, which the second one is of, at once, in any folder, for any script."""
    first = clone.ask(folder, "here.sql")
    expect(first[:3] == right("here.sql"), f"the first answer is {first}")
    expect(b"unproved" in first[3][0] and len(first[3]) > 2, f"the first answer says {first[3]}")
    expect(clone.settled(), "the program isn't optimised")
    calls = clone.called()
    expect(calls[0] == "rt" and sum("-O0" in it for it in calls) == 1 and sum("-O2" in it for it in calls) == 1, f"called were {calls}")
    begun = time.monotonic()
    second = clone.ask(folder / "below", "../fault.sql")
    took = time.monotonic() - begun
    expect(second[:3] == right("../fault.sql", "below"), f"the second answer is {second}")
    expect(len(second[3]) == 1 and b"unproved" in second[3][0], f"the second answer says {second[3]}")
    expect(not clone.called(), "the second answer calls rt")
    expect(took < (os.getloadavg()[0] > os.cpu_count() and 5 or .5), f"the second answer takes {took:.2f} s")
    above = clone.ask(folder / "below", "above.sql")
    expect(above[:3] == right("above.sql", "below"), f"a file above the folder answers {above}")


def makes_anew(clone, folder, right):
    """A changed source makes another program; one that is as it was before makes none."""
    clone.source.write_text("fn main() { }\n")
    expect(clone.ask(folder, "here.sql")[:3] == right("here.sql"), "a changed source is answered otherwise")
    expect("rt" in clone.called() and len(clone.programs()) == 2, "a changed source makes no program")
    clone.source.write_text("fn main() {}\n")
    os.utime(clone.source)
    expect(clone.ask(folder, "here.sql")[:3] == right("here.sql") and "rt" not in clone.called(), "a source as it was before makes a program")
    expect(clone.settled(), "the second program isn't optimised")
    for number in range(5):
        clone.source.write_text(f"fn main() {{ {number} }}\n")
        clone.ask(folder, "here.sql")
    expect(len(clone.programs()) <= kept.STAY, "old programs stay")
    expect(clone.settled(), "the last program isn't optimised")


def one_makes(clone, folder, right):
    """Of two calls at once one makes the program, and the other one waits for it."""
    clone.source.write_text("fn main() { two }\n")
    clone.called()
    calls = [clone.begin(folder, "here.sql", SLOW="1") for _ in range(2)]
    found = [clone.end(it) for it in calls]
    expect(all(it[:3] == right("here.sql") for it in found), f"two calls at once answer {found}")
    expect(clone.called().count("rt") == 1, "two calls at once make two programs")


def one_is_ended(clone, folder, right):
    """Where the call that makes the program is ended, the next one makes it; so it is where the optimised one isn't there yet."""
    clone.source.write_text("fn main() { ended }\n")
    call = clone.begin(folder, "here.sql", SLOW="5")
    call.stderr.readline()
    call.terminate()
    expect(clone.end(call)[0] == 143, "a call that is ended answers")
    expect(clone.ask(folder, "here.sql")[:3] == right("here.sql"), "behind a call that is ended another answers otherwise")
    expect(clone.settled(), "the program isn't optimised")
    made = max(clone.programs(), key=lambda it: it.stat().st_mtime).parent
    (made / "module.bc").write_text("module")
    clone.ask(folder, "here.sql")
    expect(clone.settled(), "a program whose optimising was ended isn't optimised")


def plain_ways(clone, folder, right):
    """Where no program can be made or kept, rt answers."""
    shutil.rmtree(clone.top / "out")
    ways = {"a linker that fails": {"BROKEN": "yes"}, "an rt with other words": {"COMPILED": unproved_test.COMPILED.replace("-O0", "-O1")},
            "a program that answers otherwise": {"PROVED": shutil.which("true")}}
    for name, given in ways.items():
        found = clone.ask(folder, "here.sql", **given)
        wanted = right("here.sql") if name != "a program that answers otherwise" else (0, b"", b"")
        expect(found[:3] == wanted and not clone.programs(), f"{name} answers {found}")
    shutil.rmtree(clone.top / "out")
    (clone.top / "out").touch()
    found = clone.ask(folder, "here.sql")
    expect(found[:3] == right("here.sql"), f"where nothing can be written it answers {found}")
    (clone.top / "out").unlink()
    (clone.kit / "c/libos_c.a").unlink()
    found = clone.ask(folder, "here.sql")
    expect(found[:3] == right("here.sql") and not clone.programs(), f"a kit that lies otherwise answers {found}")


def main():
    program = os.path.abspath(sys.argv[1])
    with tempfile.TemporaryDirectory() as name:
        folder = pathlib.Path(name)
        clone = Clone(folder, program)
        (folder / "below").mkdir()
        (folder / "one.csv").write_text("1\n2\n")
        (folder / "here.sql").write_text("CREATE TABLE t (a INTEGER); COPY t FROM 'one.csv'; SELECT a FROM t;")
        (folder / "below/above.sql").write_text("CREATE TABLE t (a INTEGER); COPY t FROM '../one.csv'; SELECT a FROM t;")
        (folder / "fault.sql").write_text("SELECT 1 / 0;")

        def right(script, within="."):
            done = subprocess.run([program, script], cwd=folder / within, capture_output=True)
            return done.returncode, done.stdout, done.stderr

        # The plain rt runs in another folder, and is handed the script by its whole path.
        (folder / "here.sql").write_text((folder / "here.sql").read_text().replace("one.csv", f"{folder}/one.csv"))
        try:
            for test in (answers_and_keeps, makes_anew, one_makes, one_is_ended, plain_ways):
                test(clone, folder, right)
        except Failed as error:
            print(f"kept: {error}", file=sys.stderr)
            return True
    print("kept: a program is made once, kept, made anew, and left where it can't be", file=sys.stderr)
    return False


if __name__ == "__main__":
    sys.exit(main())
