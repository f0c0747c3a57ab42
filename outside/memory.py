#!/usr/bin/env python3
"""Refuses one allocation after the other to the program, and holds what it writes against the run that has all: memory.py [--first N] [SCRIPT ..]

Where the Nth allocation is refused, the run has to end by itself: with the whole answer and the status that it has otherwise, or with status 9
and the whole texts of some first statements. The C library's calls are wrapped for this by a small library that is made here of C (gcc) and
goes in front by LD_PRELOAD; with no gcc the script says so and ends with status 0.
"""
import argparse
import os
import pathlib
import shutil
import subprocess
import sys
import tempfile
from concurrent.futures import ThreadPoolExecutor

TOP = pathlib.Path(__file__).resolve().parent.parent
PROGRAM = os.environ.get("PERM") or TOP / "crates/perm_cli/out/perm_cli"
NO_MEMORY, SECONDS, WORKERS = 9, 20, 2
# Allocations before main is entered belong to the C library, so counting begins with the first call of the program's own code.
WRAPPED = """
#define _GNU_SOURCE
#include <dlfcn.h>
#include <errno.h>
#include <stdint.h>
#include <stdlib.h>
#include <unistd.h>
static long wanted = -1, count;
__attribute__((constructor)) static void begin(void) {
    const char *text = getenv("PERM_REFUSED");
    if (text) wanted = atol(text);
    count = 0;
}
static int refused(void) { return wanted >= 0 && ++count == wanted; }
#define REAL(name) static __typeof__(&name) real; if (!real) real = (__typeof__(&name))dlsym(RTLD_NEXT, #name)
void *malloc(size_t size) { REAL(malloc); if (refused()) { errno = ENOMEM; return 0; } return real(size); }
void *realloc(void *old, size_t size) { REAL(realloc); if (refused()) { errno = ENOMEM; return 0; } return real(old, size); }
void *aligned_alloc(size_t by, size_t size) { REAL(aligned_alloc); if (refused()) { errno = ENOMEM; return 0; } return real(by, size); }
int posix_memalign(void **to, size_t by, size_t size) { REAL(posix_memalign); if (refused()) return ENOMEM; return real(to, by, size); }
__attribute__((destructor)) static void end(void) {
    const char *path = getenv("PERM_COUNTED");
    if (!path || wanted < 0) return;
    char text[24]; int at = sizeof text; long left = count;
    do { text[--at] = '0' + left % 10; left /= 10; } while (left);
    FILE_WRITE
}
"""
WRITTEN = """int file = open(path, 0101, 0600); if (file >= 0) { if (write(file, text + at, sizeof text - at) < 0) _exit(99); close(file); }"""


def wrapped(folder):
    """The library that refuses."""
    source, made = folder / "refusing.c", folder / "refusing.so"
    source.write_text("#include <fcntl.h>\n" + WRAPPED.replace("FILE_WRITE", WRITTEN))
    subprocess.run(["gcc", "-shared", "-fPIC", "-O1", "-w", "-o", made, source, "-ldl"], check=True)
    return made


class Script:
    """A script, and what the run with all memory answers."""

    def __init__(self, path, library):
        self.path, self.library = path, library
        with tempfile.NamedTemporaryFile() as counted:
            self.text, self.status = self.run(0, PERM_COUNTED=counted.name)
            self.allocations = int(counted.read() or 0)
        self.prefixes = prefixes(self.text)

    def run(self, number, **more):
        ended = subprocess.run([PROGRAM, self.path], cwd=TOP, stdout=subprocess.PIPE, stderr=subprocess.DEVNULL, timeout=SECONDS,
                               env={"LD_PRELOAD": str(self.library), "PERM_REFUSED": str(number), **more})
        return ended.stdout, ended.returncode

    def mistake(self, number):
        """What is wrong with the run whose allocation of this number is refused; None where nothing is."""
        try:
            text, status = self.run(number)
        except subprocess.TimeoutExpired:
            return "it doesn't end"
        if (text, status) == (self.text, self.status):
            return None
        if status != NO_MEMORY:
            return f"status {status}, and {len(text)} bytes"
        return None if text in self.prefixes else f"{len(text)} bytes, which aren't the texts of some first statements"


def prefixes(text):
    """Each text that some first statements of an answer can have: those that end where a statement's text may end."""
    found, lines, rows = {b""}, text.splitlines(keepends=True), False
    so_far = b""
    for line in lines:
        so_far += line
        head = line.startswith(b'"') and not rows
        rows = rows or head
        if rows and line.startswith(b"(") and line.endswith(b" rows)\n"):
            rows = False
        if not rows:
            found.add(so_far)
    return found


def main():
    words = argparse.ArgumentParser(description=__doc__.splitlines()[0])
    words.add_argument("--first", type=int, default=1000)
    words.add_argument("scripts", nargs="*", default=["examples/report.sql"])
    given = words.parse_args()
    if not shutil.which("gcc"):
        print("no gcc: nothing is refused")
        return 0
    failed = 0
    with tempfile.TemporaryDirectory() as folder, ThreadPoolExecutor(WORKERS) as several:
        library = wrapped(pathlib.Path(folder))
        for path in given.scripts:
            script = Script(path, library)
            numbers = range(1, min(given.first, script.allocations) + 1)
            mistakes = [(number, it) for number, it in zip(numbers, several.map(script.mistake, numbers)) if it]
            for number, mistake in mistakes:
                print(f"{path}: allocation {number} refused: {mistake}")
            print(f"{path}: {len(numbers)} of {script.allocations} allocations refused, one a run: {len(mistakes)} wrong answers")
            failed += len(mistakes)
    return failed > 0


if __name__ == "__main__":
    sys.exit(main())
