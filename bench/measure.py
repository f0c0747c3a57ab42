"""What the benchmarks share: the program, its peer, and the measure of a run."""

import os
import resource
import shutil
import sys
import tempfile
import time

TOP = os.path.dirname(os.path.dirname(os.path.realpath(__file__)))
PROGRAM = os.environ.get("PERM") or os.path.join(TOP, "crates", "perm_cli", "out", "perm_cli")
PEER = shutil.which("sqlite3")
RUNS = 5
# A run may take so many processor seconds and so many bytes; a command is run no more once its runs took so many seconds.
SECONDS = 60
BYTES = 4 * 2**30
PATIENCE = 20


def need_program():
    if not os.access(PROGRAM, os.X_OK):
        sys.exit("bench: the program isn't built: run ./build once")


class Run:
    """The best of some runs of a command: its seconds, its peak memory in bytes, and what it wrote.

    A run that needs more than it may take is ended; then the seconds are None and there is no other run. So it is with one
    that ends with the status `short`, which perm has for want of memory. What the last run wrote stays in a file: the system counts
    a script's own memory at the start of a run into the peak of that run, so the script has to stay small.
    """

    def __init__(self, words, stdin=os.devnull, status=0, short=9):
        self.seconds, self.peak, self.out = None, 0, tempfile.TemporaryFile()
        started = time.perf_counter()
        for _ in range(RUNS):
            seconds, ended = self.once(words, stdin)
            if ended < 0 or ended == short:
                self.seconds = None
                return
            if ended != status:
                sys.exit(f"bench: {' '.join(words)} ended with status {ended}")
            self.seconds = seconds if self.seconds is None else min(self.seconds, seconds)
            if time.perf_counter() - started > PATIENCE:
                return

    def once(self, words, stdin):
        self.out.truncate(0)
        self.out.seek(0)
        with open(stdin) as given:
            began = time.perf_counter()
            child = os.posix_spawn(
                words[0], words, os.environ,
                file_actions=[(os.POSIX_SPAWN_DUP2, given.fileno(), 0), (os.POSIX_SPAWN_DUP2, self.out.fileno(), 1)])
            resource.prlimit(child, resource.RLIMIT_CPU, (SECONDS, SECONDS))
            resource.prlimit(child, resource.RLIMIT_AS, (BYTES, BYTES))
            _, ended, usage = os.wait4(child, 0)
            seconds = time.perf_counter() - began
        self.peak = max(self.peak, usage.ru_maxrss * 1024)
        return seconds, os.waitstatus_to_exitcode(ended)

    @property
    def answer(self):
        self.out.seek(0)
        return self.out.read()

    def last_line(self):
        self.out.seek(max(0, self.out.seek(0, os.SEEK_END) - 200))
        return self.out.read().splitlines()[-1]

    def show(self, name, size):
        print(f"{name:10} {self.seconds * 1000:9.1f} ms {self.seconds * 1e9 / size:8.1f} ns a byte"
              f" {self.peak / 2**20:8.1f} MiB {self.peak / size:6.1f} bytes a byte")


def compare(run, peer):
    print(f"ratio: {run.seconds / peer.seconds:.2f} in time, {run.peak / peer.peak:.2f} in memory")
