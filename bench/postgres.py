"""A PostgreSQL server of the benchmarks' own: it lives in a temporary folder and is reached by a socket there alone."""

import os
import pwd
import shutil
import signal
import subprocess
import sys
import tempfile
import time

from measure import SECONDS, Run
from tables import TABLES, of_one, rows_of, write

NEEDED = ("initdb", "postgres", "psql")
# psql's status where a statement failed, as one that took too long
FAILED = 3
PLACES = (os.environ.get("PATH", ""), "/usr/lib/postgresql/15/bin")
# Its own processor alone, as perm and sqlite3 have, and room to sort and hash in memory.
SETTINGS = {"listen_addresses": "", "fsync": "off", "max_parallel_workers_per_gather": "0", "work_mem": "1GB"}


def binaries():
    """The paths of what is needed, or None where one is missing."""
    found = {name: shutil.which(name, path=os.pathsep.join(PLACES)) for name in NEEDED}
    return found if all(found.values()) else None


def keeper():
    """Whom the server runs as: it refuses to be root."""
    if os.geteuid() != 0:
        return {}
    for name in ("postgres", "nobody"):
        try:
            user = pwd.getpwnam(name)
        except KeyError:
            continue
        return {"user": user.pw_uid, "group": user.pw_gid, "extra_groups": []}
    sys.exit("bench: there is no user as whom PostgreSQL could run")


class Postgres:
    """The server, from `with` to its end; `load` gives it the tables of a folder anew."""

    name = "PostgreSQL"
    often = 1

    def __init__(self, paths):
        self.paths = paths

    def __enter__(self):
        signal.signal(signal.SIGTERM, lambda number, _: sys.exit(128 + number))
        self.home = tempfile.mkdtemp()
        self.log = open(os.path.join(self.home, "log"), "w")
        how = {"cwd": self.home, "stdin": subprocess.DEVNULL, "stdout": self.log, "stderr": subprocess.STDOUT, **keeper()}
        if "user" in how:
            os.chown(self.home, how["user"], how["group"])
        data = os.path.join(self.home, "data")
        made = [self.paths["initdb"], "-D", data, "-U", "bench", "-A", "trust", "-E", "UTF8", "--no-locale", "--no-sync"]
        subprocess.run(made, check=True, **how)
        settings = {**SETTINGS, "unix_socket_directories": self.home}
        words = [word for name, value in settings.items() for word in ("-c", f"{name}={value}")]
        self.server = subprocess.Popen([self.paths["postgres"], "-D", data, *words], **how)
        try:
            self.wait()
        except BaseException:
            self.__exit__()
            raise
        return self

    def __exit__(self, *_):
        self.server.send_signal(signal.SIGINT)
        self.server.wait()
        self.log.close()
        shutil.rmtree(self.home)

    def wait(self):
        for _ in range(600):
            if self.server.poll() is None and subprocess.run(self.psql("-c", "SELECT 1"), capture_output=True).returncode == 0:
                return
            time.sleep(0.1)
        sys.exit("bench: PostgreSQL doesn't start")

    def psql(self, *words):
        return [self.paths["psql"], "-X", "-q", "-A", "-t", "-v", "ON_ERROR_STOP=1", "-h", self.home, "-U", "bench", "-d", "postgres", *words]

    def load(self, folder):
        self.folder = folder
        statements = []
        for table, columns in TABLES.items():
            statements.append(f"DROP TABLE IF EXISTS {table};\nCREATE TABLE {table} ({columns});\n")
            statements.append(f"\\copy {table} FROM '{folder}/{table}.csv' CSV\n")
        statements.append("ANALYZE;\n")
        subprocess.run(self.psql("-f", write(folder, "postgres_load.sql", "".join(statements))), check=True, capture_output=True)
        self.loaded = self.run("")
        return self

    def run(self, statement):
        """psql with a statement, behind which the server's process for it tells its own peak memory."""
        script = f"SELECT pg_backend_pid() AS process \\gset\n\\setenv PROCESS :process\n{statement}\\! grep VmHWM /proc/$PROCESS/status\n"
        return Run(self.psql("-f", write(self.folder, "postgres_query.sql", script)), short=FAILED)

    def ask(self, query):
        """As the other programs do, but the server has the tables already, and the peak memory is its process's for the query."""
        def asked(times):
            return self.run(f"SET statement_timeout = '{SECONDS}s';\n" + f"COPY ({query}) TO STDOUT (FORMAT csv);\n" * times)

        run = asked(1)
        if run.seconds is None:
            return None, 0, None
        peak = int(run.last_line().split()[1]) * 1024
        seconds = of_one(run, self.loaded, lambda: asked(self.often), self.often)
        return seconds, peak, lambda: rows_of(b"".join(run.answer.splitlines(keepends=True)[:-1]))
