#!/usr/bin/env python3
"""Tests the answers of a clone in which nothing is built: unproved_test.py PROGRAM

A stand-in for `rt try` runs the program, in a folder with what it is handed on, and says what `rt try` says. So this tests what
./perm hands on and makes of what comes back, and takes no minute and a half. Stand-ins for a kit's compiler and linker write who they are:
so this tests which of them makes a module.
"""
import os
import pathlib
import subprocess
import sys
import tempfile

import in_parts

HERE = pathlib.Path(__file__).resolve().parent
STAND_IN = """#!/usr/bin/env python3
import os, shutil, subprocess, sys, tempfile
words = sys.argv[1:]
assert words[0] == "try" and os.path.basename(os.getcwd()) == "perm_cli"
behind = words.index("--")
data = [words[at + 1] for at in range(behind) if words[at] == "--data"]
with tempfile.TemporaryDirectory() as folder:
    for it in data:
        name, _, file = it.partition("=")
        path = os.path.join(folder, name)
        os.makedirs(os.path.dirname(path), exist_ok=True)
        shutil.copyfile(file, path)
    done = subprocess.run([os.environ["PROVED"], *words[behind + 1:]], cwd=folder, capture_output=True)
sys.stderr.buffer.write(done.stderr)
if len(done.stdout) > 1 << 20:
    sys.stderr.write("checked: no-answer: too long\\nrun=none proved=no\\n")
    sys.exit(6)
sys.stdout.buffer.write(done.stdout)
sys.stdout.flush()
sys.stderr.write(f"checked: ended status={done.returncode}\\nraces: not looked for, since a kit has no ThreadSanitizer\\n")
sys.stderr.write(f"run=ended status={done.returncode} runners=1 races=unchecked proved=no\\n")
sys.exit(done.returncode)
"""
SCRIPTS = {
    "here.sql": "CREATE TABLE t (a INTEGER); COPY t FROM 'data/one.csv'; COPY t FROM './data/one.csv'; SELECT a FROM t;",
    "data/below.sql": "CREATE TABLE t (a INTEGER); COPY t FROM 'data/it''s=.csv' HEADER;",
    "missing.sql": "CREATE TABLE t (a INTEGER); COPY t FROM 'nothing.csv';",
    "folder.sql": "CREATE TABLE t (a INTEGER); COPY t FROM 'data';",
    "whole.sql": "CREATE TABLE t (a INTEGER); COPY t FROM '{folder}/data/one.csv'; SELECT a FROM t;",
    "fault.sql": "SELECT 1 / 0;",
    "unread.sql": "SELECT 'a;",
    "above.sql": "CREATE TABLE t (a INTEGER); COPY t FROM '../{name}/data/one.csv';",
    "long.sql": "CREATE TABLE t (a TEXT); INSERT INTO t VALUES ('{long}'); SELECT a FROM t; SELECT a FROM t;",
}
# A file whose name can't be handed on, one above the folder, and an answer that is too long.
NO_ANSWER = {"data/below.sql", "above.sql", "long.sql"}

# As the kit's `rt try` calls its compiler.
COMPILED = (
    "--target=x86_64-unknown-linux-gnu --sysroot=/kit -march=x86-64 -mllvm -trap-unreachable -ffunction-sections -fdata-sections "
    "-mllvm -sink-common-insts=false --no-default-config -no-canonical-prefixes -fintegrated-cc1 -fno-crash-diagnostics -Werror "
    "-c -x ir module.bc -o module.o -fPIE -O0 -fsanitize=address"
)


def maker(clang, folder, words):
    """Who makes the module of these words of clang."""
    subprocess.run([clang, *words.split()], cwd=folder, check=True)
    return pathlib.Path(folder, "module.o").read_text().strip()


def parts_fail():
    """Whether a module is made by another than should make it."""
    with tempfile.TemporaryDirectory() as folder, tempfile.TemporaryDirectory() as made:
        kit = pathlib.Path(folder)
        tools = {"bin/rt": "", "bin/rtlib.py": "", "toolchain/bin/clang": "echo clang > module.o", "toolchain/bin/ld.lld": "echo ld.lld > module.o; test ! -e broken"}
        for name, text in tools.items():
            (kit / name).parent.mkdir(parents=True, exist_ok=True)
            (kit / name).write_text(f"#!/bin/sh\n{text}\n")
            (kit / name).chmod(0o755)
        before, os.environ["PATH"] = os.environ["PATH"], f"{kit}/bin:{os.environ['PATH']}"
        clang = pathlib.Path(in_parts.rt(made)).parent.parent / "toolchain/bin/clang"
        os.environ["PATH"] = before
        found = [maker(clang, folder, COMPILED), maker(clang, folder, COMPILED.replace("-O0", "-O2"))]
        (kit / "broken").touch()
        found.append(maker(clang, folder, COMPILED))
    if found != ["ld.lld", "clang", "clang"]:
        print(f"unproved: modules are made by {found}", file=sys.stderr)
    return found != ["ld.lld", "clang", "clang"]


def main():
    program, failed = os.path.abspath(sys.argv[1]), parts_fail()
    with tempfile.TemporaryDirectory() as folder:
        with tempfile.TemporaryDirectory() as path:
            stand_in = pathlib.Path(path, "rt")
            stand_in.write_text(STAND_IN)
            stand_in.chmod(0o755)
            os.makedirs(os.path.join(folder, "data"))
            for name in ("one.csv", "it's=.csv"):
                pathlib.Path(folder, "data", name).write_text("1\n2\n")
            for name, text in SCRIPTS.items():
                text = text.replace("{folder}", folder).replace("{name}", os.path.basename(folder)).replace("{long}", "x" * 600_000)
                pathlib.Path(folder, name).write_text(text)
            given = {**os.environ, "PATH": f"{path}:{os.environ['PATH']}", "PROVED": program}
            others = ["no.sql", "data", "", "-", "--", "--help", "--generate", "--generate=3", os.path.join(folder, "here.sql")]
            pairs = [["here.sql", "here.sql"], ["--generate", "3"], ["--", "here.sql"], ["--", "--generate"], ["--", ""]]
            for words in [*([it] for it in SCRIPTS), [], *([it] for it in others), *pairs]:
                proved = subprocess.run([program, *words], cwd=folder, capture_output=True)
                told = subprocess.run([sys.executable, HERE / "unproved.py", *words], cwd=folder, env=given, capture_output=True)
                answer = (1, b"") if words and words[0] in NO_ANSWER else (proved.returncode, proved.stdout)
                first, said = told.stderr.split(b"\n", 1)
                said = b"".join(it for it in said.splitlines(keepends=True) if not it.startswith(b"perm: .. "))
                if (told.returncode, told.stdout) != answer or b"unproved" not in first or said != proved.stderr and answer[0] != 1:
                    print(f"unproved: perm {' '.join(words)}: status {told.returncode}, {told.stdout[:500]}, {said}", file=sys.stderr)
                    failed = True
    return failed


if __name__ == "__main__":
    sys.exit(main())
