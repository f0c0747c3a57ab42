"""What the benchmarks of queries share: tables as CSV files, how each program loads them, and the rows of an answer."""

import csv
import os
import random
import subprocess
import sys
import tempfile

from measure import BYTES, PEER, PROGRAM, RUNS, SECONDS, Run

REFUSED = 4
SIZES = (10**4, 10**5, 10**6)
# How often a script asks a query that is timed, so that what loading takes more or less counts little; of one that takes longer once.
OFTEN = {10**4: 20, 10**5: 10, 10**6: 5}
LONG = 2.0
KEYS = 10**5
TABLES = {
    "r": "id INTEGER, few INTEGER, many INTEGER, word TEXT",
    "t": "id INTEGER, number INTEGER",
    "s": "a INTEGER, b TEXT",
    "u": "a INTEGER, b TEXT",
    "p": "a INTEGER, b TEXT",
}
# The tables r and t are as long as is asked; of the others the length, and below which number their keys are.
SMALL = {"s": (10**3, KEYS), "u": (10**3, KEYS), "p": (10, 10)}


def or_null(chance, field, generator):
    return "" if generator.random() < chance else field


def skewed(count, generator):
    """A number below the count; small ones come more often."""
    return int(count * generator.random() ** 2)


def write_files(folder, size):
    """One file for each table, of integers and short texts; an empty field is NULL. The seed is fixed."""
    generator = random.Random(size)
    with open(os.path.join(folder, "r.csv"), "w") as file:
        for number in range(size):
            few = or_null(0.01, skewed(10, generator), generator)
            many = or_null(0.01, skewed(KEYS, generator), generator)
            word = or_null(0.02, f"w{skewed(5000, generator)}", generator)
            file.write(f"{number},{few},{many},{word}\n")
    for table, (length, keys) in SMALL.items():
        with open(os.path.join(folder, f"{table}.csv"), "w") as file:
            for _ in range(length):
                file.write(f"{skewed(keys, generator)},t{skewed(100, generator)}\n")
    numbers = list(range(size))
    generator.shuffle(numbers)
    with open(os.path.join(folder, "t.csv"), "w") as file:
        for number in numbers:
            file.write(f"{number},{skewed(KEYS, generator)}\n")


def own_loading(folder):
    return "".join(f"CREATE TABLE {name} ({columns});\nCOPY {name} FROM '{folder}/{name}.csv';\n" for name, columns in TABLES.items())


def peer_loading(folder):
    """sqlite3 reads an empty field as an empty text."""
    statements = [".mode csv\n"]
    for table, columns in TABLES.items():
        statements.append(f"CREATE TABLE {table} ({columns});\n.import {folder}/{table}.csv {table}\n")
        for column in columns.split(", "):
            name = column.split()[0]
            statements.append(f"UPDATE {table} SET {name} = NULL WHERE {name} = '';\n")
    return "".join(statements)


def write(folder, name, text):
    path = os.path.join(folder, name)
    with open(path, "w") as file:
        file.write(text)
    return path


def asked(folder, query):
    """How many columns perm answers, over tables without rows, and how it refuses the query, if it does."""
    creates = "".join(f"CREATE TABLE {table} ({columns});\n" for table, columns in TABLES.items())
    script = write(folder, "asked.sql", f"{creates}{query};\n")
    with tempfile.TemporaryFile() as out:
        child = os.posix_spawn(PROGRAM, [PROGRAM, script], os.environ, file_actions=[(os.POSIX_SPAWN_DUP2, out.fileno(), 1)])
        status = os.waitstatus_to_exitcode(os.wait4(child, 0)[1])
        out.seek(0)
        lines = out.read().decode().splitlines()
    if status == 0:
        return len(next(csv.reader(lines[len(TABLES) :]))), None
    if status == REFUSED:
        return 0, lines[-1]
    sys.exit(f"bench: perm ended with status {status} at {query}")


def those_that_run(folder, queries):
    """The queries that perm doesn't refuse; what the peers are asked stands in the order of all columns, as perm's answers do."""
    runs = []
    for name, query, peer_query in queries:
        width, reason = asked(folder, query)
        peer_query = peer_query or query
        if reason is not None:
            print(f"{name:27} left out: {reason}")
        elif " ORDER BY " in peer_query:
            runs.append((name, query, peer_query))
        else:
            runs.append((name, query, f"{peer_query} ORDER BY {', '.join(str(n + 1) for n in range(width))}"))
    return runs


def rows_of(text):
    return sorted(csv.reader(text.decode().splitlines()))


def own_rows(answer):
    """The rows behind the lines that the loading answers and the header, without the count at the end."""
    lines = answer.splitlines(keepends=True)[2 * len(TABLES) :]
    return rows_of(b"".join(lines[1:-1]))


def are_same(rows, others):
    """Whether both give the same rows: asked in a process of its own, so that this one stays small."""
    child = os.fork()
    if child == 0:
        os._exit(0 if rows() == others() else 1)
    return os.waitpid(child, 0)[1] == 0


def alone(run, loaded):
    """The seconds without loading; a run that is faster than loading was counts as a tenth of a millisecond."""
    return None if run.seconds is None else max(run.seconds - loaded.seconds, 1e-4)


def of_one(run, loaded, several, often):
    """The seconds of a query that was run once: a part of those of a script that asks it often, unless once takes long."""
    if run.seconds is None or run.seconds - loaded.seconds > LONG:
        return alone(run, loaded)
    more = several()
    return alone(run if more.seconds is None else more, loaded) / (1 if more.seconds is None else often)


def shown(seconds, peak):
    return f"not within {SECONDS} s and {BYTES // 2**30} GiB" if seconds is None else f"{seconds * 1000:9.1f} ms {peak / 2**20:7.1f} MiB"


class Own:
    """perm, which loads the files in each run."""

    often = 1

    def __init__(self, folder):
        self.folder, self.loading = folder, own_loading(folder)
        self.loaded = Run([PROGRAM, write(folder, "load.sql", self.loading)])

    def ask(self, query):
        """The seconds of the query alone, the peak memory of the whole run, and a function that gives the rows."""

        def asked(times):
            return Run([PROGRAM, write(self.folder, "query.sql", self.loading + f"{query};\n" * times)])

        run = asked(1)
        return of_one(run, self.loaded, lambda: asked(self.often), self.often), run.peak, lambda: own_rows(run.answer)


class Sqlite:
    """sqlite3 in memory, which restores a database of the files in each run: to read the files themselves takes it longer."""

    name = "sqlite3"
    often = 1

    def __init__(self, folder):
        stored = os.path.join(folder, "peer.db")
        if os.path.exists(stored):
            os.remove(stored)
        subprocess.run([PEER, stored], input=peer_loading(folder), text=True, check=True, stdout=subprocess.DEVNULL)
        self.folder, self.loading = folder, f".mode csv\n.restore {stored}\n"
        self.loaded = Run([PEER, ":memory:"], write(folder, "peer_load.sql", self.loading))

    def ask(self, query):
        def asked(times):
            return Run([PEER, ":memory:"], write(self.folder, "peer_query.sql", self.loading + f"{query};\n" * times))

        run = asked(1)
        return of_one(run, self.loaded, lambda: asked(self.often), self.often), run.peak, lambda: rows_of(run.answer)


def times_at(folder, size, queries, peers_at):
    """Asks perm and its peers each query over tables of this size. Gives perm's seconds of each."""
    write_files(folder, size)
    own, peers, times = Own(folder), peers_at(folder), {}
    for program in (own, *peers):
        program.often = OFTEN.get(size, 1)
    print(f"{size} rows; loading takes perm {own.loaded.seconds * 1000:.0f} ms", flush=True)
    for name, query, peer_query in queries:
        seconds, peak, rows = own.ask(query)
        line = f"{name:27} {shown(seconds, peak)}"
        for peer in peers:
            peer_seconds, peer_peak, peer_rows = peer.ask(peer_query)
            line += f"   {peer.name} {shown(peer_seconds, peer_peak)}"
            if seconds is not None and peer_seconds is not None:
                line += f" ratio {seconds / peer_seconds:6.2f}"
                if not are_same(rows, peer_rows):
                    sys.exit(f"bench: perm and {peer.name} answer other rows: {query}")
        print(line, flush=True)
        times[name] = seconds
    return times


def time_queries(folder, queries, peers_at):
    """Asks at each size, and then says how much more time each query took at the next greater one."""
    print(f"{os.cpu_count()} processors; best of {RUNS} runs, without loading")
    runs = those_that_run(folder, queries)
    times = [times_at(folder, size, runs, peers_at) for size in SIZES]
    print("growth from size to size, of ten times as many rows")
    for name, _, _ in runs:
        pairs = [(less[name], more[name]) for less, more in zip(times, times[1:])]
        print(f"{name:27} " + ", ".join("unknown" if None in pair else f"{pair[1] / pair[0]:.1f} times" for pair in pairs), flush=True)
