#!/usr/bin/env python3
"""Measures runs that leave a log, against a bare loop of writes and syncs and against sqlite3, on one machine.

Usage: bench/durable.py GRAPH [FOLDER [ROUNDS]]    It wants cc, sqlite3 and /usr/bin/time. FOLDER is on the disk that
is measured. In each round each command runs once, in turn; ratios of the sums of all rounds are what is compared.

1. 2,000 transactions of begin, vertex, put, commit, each durable before the next, and the bare C loop of
   bench/appends.c: two writes and two syncs for each, of as many bytes in all.
2. 1,000 transactions of 1,000 puts each over 10,000 vertices, and the same edges into a file by sqlite3 with a WAL
   journal and synchronous=FULL, a transaction each.
3. `dump` of a log of 1,000,000 records of one put each, and the same edges loaded by sqlite3 into :memory: in one
   transaction; the peak memory of `dump` against the size of the log.
"""
import os
import subprocess
import sys
import tempfile
import time

from logs import write_log, write_sql

HERE = os.path.dirname(os.path.abspath(__file__))
SMALL = 2_000
LARGE, PUTS, VERTICES = 1_000, 1_000, 10_000
RECORDS = 1_000_000
SCHEMA = """PRAGMA journal_mode=WAL;
PRAGMA synchronous=FULL;
CREATE TABLE vertex(v INTEGER PRIMARY KEY, p BLOB NOT NULL);
CREATE TABLE edge(v INTEGER, l INTEGER, d INTEGER, p BLOB NOT NULL, PRIMARY KEY (v, l, d)) WITHOUT ROWID;
"""


def timed(command, stdin=None):
    """The wall time of a command that has to succeed, and its peak memory in bytes."""
    start = time.monotonic()
    done = subprocess.run(["/usr/bin/time", "-f", "%M", *command], stdin=stdin, stdout=subprocess.DEVNULL,
                          stderr=subprocess.PIPE, check=True)
    return time.monotonic() - start, int(done.stderr.split()[-1]) * 1024


def fresh(path):
    for name in (path, path + "-wal", path + "-shm"):
        if os.path.exists(name):
            os.remove(name)


def run_script(graph, log, script):
    fresh(log)
    subprocess.run([graph, log, "init"], check=True)
    with open(script, "rb") as source:
        return timed([graph, log, "run"], source)[0]


def run_sql(base, sql):
    if base != ":memory:":
        fresh(base)
    with open(sql, "rb") as source:
        return timed(["sqlite3", base], source)[0]


def write_small(path):
    with open(path, "w") as out:
        for v in range(1, SMALL + 1):
            out.write(f"0 begin\n0 vertex {v:08x}\n0 put {v} 1 {v % 97} {v:08x}\n0 commit\n")


def large_edge(transaction, put):
    n = transaction * PUTS + put
    return n * 7919 % VERTICES + 1, put % 4, n * 2654435761 % 2**31, f"{n:08x}"


def write_large(path, sql_path):
    with open(path, "w") as out, open(sql_path, "w") as sql:
        sql.write(SCHEMA + "BEGIN;\n")
        out.write("0 begin\n")
        for v in range(1, VERTICES + 1):
            out.write("0 vertex -\n")
            sql.write(f"INSERT INTO vertex VALUES({v}, x'');\n")
        out.write("0 commit\n")
        sql.write("COMMIT;\n")
        for transaction in range(LARGE):
            out.write("0 begin\n")
            sql.write("BEGIN;\n")
            for put in range(PUTS):
                v, label, d, payload = large_edge(transaction, put)
                out.write(f"0 put {v} {label} {d} {payload}\n")
                sql.write(f"REPLACE INTO edge VALUES({v}, {label}, {d}, x'{payload}');\n")
            out.write("0 commit\n")
            sql.write("COMMIT;\n")


def judged(what, ours, theirs, name, most):
    ratio = sum(ours) / sum(theirs)
    print(f"{what}: graph {sum(ours):.3f} s, {name} {sum(theirs):.3f} s in {len(ours)} rounds, ratio {ratio:.3f} "
          f"(at most {most}: {'met' if ratio <= most else 'NOT MET'})", flush=True)


def small(graph, run, rounds):
    script, log, bare = (os.path.join(run, name) for name in ("small", "small.log", "bare"))
    write_small(script)
    subprocess.run(["cc", "-O2", "-o", bare, os.path.join(HERE, "appends.c")], check=True)
    run_script(graph, log, script)
    size = (os.path.getsize(log) - 9) // SMALL
    ours, theirs = [], []
    for _ in range(rounds):
        ours.append(run_script(graph, log, script))
        start = time.monotonic()
        subprocess.run([bare, str(SMALL + 1), str(size)], cwd=run, check=True)
        theirs.append(time.monotonic() - start)
    if abs(os.path.getsize(os.path.join(run, "bare.log")) - os.path.getsize(log)) > SMALL:
        sys.exit("the two wrote different amounts")
    judged(f"{SMALL} durable transactions of a vertex and an edge", ours, theirs, "bare loop", 1 / 0.9)


def large(graph, run, rounds):
    script, sql, log, base = (os.path.join(run, name) for name in ("large", "large.sql", "large.log", "large.db"))
    write_large(script, sql)
    ours, theirs = [], []
    for _ in range(rounds):
        ours.append(run_script(graph, log, script))
        theirs.append(run_sql(base, sql))
    judged(f"{LARGE} durable transactions of {PUTS} puts", ours, theirs, "sqlite3", 0.5)


def opened(graph, run, rounds):
    log, sql = os.path.join(run, "records.log"), os.path.join(run, "records.sql")
    write_log(log, RECORDS)
    write_sql(sql, RECORDS)
    ours, theirs, peak = [], [], 0
    for _ in range(rounds):
        wall, memory = timed([graph, log, "dump"])
        ours.append(wall)
        peak = max(peak, memory)
        theirs.append(run_sql(":memory:", sql))
    judged(f"opening and dumping a log of {RECORDS} records", ours, theirs, "sqlite3", 0.5)
    times = peak / os.path.getsize(log)
    print(f"  peak memory {peak / 1e6:.1f} MB, {times:.1f} times the log (at most 12: {'met' if times <= 12 else 'NOT MET'})")


def main():
    graph = os.path.abspath(sys.argv[1])
    folder = os.path.abspath(sys.argv[2] if len(sys.argv) > 2 else ".")
    rounds = int(sys.argv[3]) if len(sys.argv) > 3 else 5
    with tempfile.TemporaryDirectory(dir=folder) as run:
        for part in (small, large, opened):
            part(graph, run, rounds)


if __name__ == "__main__":
    main()
