#!/usr/bin/env python3
"""Measures the decoding of logs against sqlite3: the same edges, in one go, on one machine.

1. A log has a record for each edge, one put each, in groups of 64 records of distinct vertices, behind groups
   that make the vertices.
2. A log makes one vertex, a hub, with 10,000 edges, and then replaces an edge of it in each record, one record a
   group.

The SQL inserts the same vertices and edges into :memory:, with the index that a program needs to find an edge, each
statement on a line of its own, in one transaction.

Usage: bench/logs.py PROGRAM GRAPH [SIZE..]    PROGRAM is crates/decode_trial as `rt run` builds it, and GRAPH the
program, whose `check` decodes a log and makes its graph: `make bench-logs`.
Ratios of one run are what is compared; seconds say little of another machine. It wants sqlite3.
"""
import os
import resource
import struct
import subprocess
import sys
import tempfile
import time

GROUP = 64
VERTICES = 6400
HUB_EDGES = 10000
REPLACED = [100000, 200000]
SCHEMA = """CREATE TABLE vertex(v INTEGER PRIMARY KEY, p BLOB NOT NULL);
CREATE TABLE edge(v INTEGER, l INTEGER, d INTEGER, p BLOB NOT NULL, PRIMARY KEY (v, l, d)) WITHOUT ROWID;
"""


def record(tid, read, changes):
    return struct.pack(">QQI", tid, read, len(changes)) + b"".join(changes)


def group(epoch, records):
    payload = struct.pack(">QI", epoch, len(records)) + b"".join(records)
    return b"\x01" + struct.pack(">I", len(payload)) + payload


def new(v):
    return b"\x01" + struct.pack(">QH", v, 0)


def put(v, d, payload):
    return b"\x04" + struct.pack(">QHQH", v, 5, d, len(payload)) + payload


def edge(i):
    """The vertex, destination and payload of the i-th edge: neighbours in a group are of distinct vertices."""
    return i % VERTICES + 1, i * 2654435761 % 2**32, struct.pack(">I", i)


def write_log(path, size):
    with open(path, "wb") as out:
        out.write(b"TELLOG1\n")
        tid, epoch = 1, 1
        out.write(group(epoch, [record(tid, 0, [new(v) for v in range(1, VERTICES + 1)])]))
        for start in range(0, size, GROUP):
            epoch += 1
            records = []
            for i in range(start, min(start + GROUP, size)):
                tid += 1
                records.append(record(tid, epoch - 1, [put(*edge(i))]))
            out.write(group(epoch, records))
        out.write(b"\x00")


def write_sql(path, size):
    with open(path, "w") as out:
        out.write(SCHEMA + "BEGIN;\n")
        for v in range(1, VERTICES + 1):
            out.write(f"INSERT INTO vertex VALUES({v}, x'');\n")
        for i in range(size):
            v, d, payload = edge(i)
            out.write(f"INSERT INTO edge VALUES({v}, 5, {d}, x'{payload.hex()}');\n")
        out.write("COMMIT;\n")


def hub_edge(i):
    """The destination and the payload of the i-th put on the hub."""
    return i * 7919 % HUB_EDGES, struct.pack(">I", i)


def write_hub_log(path, replaced):
    with open(path, "wb") as out:
        out.write(b"TELLOG1\n")
        changes = [new(1)] + [put(1, *hub_edge(i)) for i in range(HUB_EDGES)]
        out.write(group(1, [record(1, 0, changes)]))
        for i in range(HUB_EDGES, HUB_EDGES + replaced):
            epoch = i - HUB_EDGES + 2
            out.write(group(epoch, [record(epoch, epoch - 1, [put(1, *hub_edge(i))])]))
        out.write(b"\x00")


def write_hub_sql(path, replaced):
    with open(path, "w") as out:
        out.write(SCHEMA + "BEGIN;\nINSERT INTO vertex VALUES(1, x'');\n")
        for i in range(HUB_EDGES + replaced):
            d, payload = hub_edge(i)
            out.write(f"REPLACE INTO edge VALUES(1, 5, {d}, x'{payload.hex()}');\n")
        out.write("COMMIT;\n")


def timed(command, path):
    """Wall and processor time of a command on a file, and its last line."""
    before = resource.getrusage(resource.RUSAGE_CHILDREN)
    start = time.monotonic()
    with open(path, "rb") as source:
        done = subprocess.run(command, stdin=source, capture_output=True, check=True)
    wall = time.monotonic() - start
    after = resource.getrusage(resource.RUSAGE_CHILDREN)
    cpu = after.ru_utime + after.ru_stime - before.ru_utime - before.ru_stime
    return wall, cpu, done.stdout.decode().strip()


def compare(what, command, log, sql, last):
    """Runs a command and sqlite3, prints both, and answers the command's processor time."""
    wall, cpu, said = timed(command, log)
    other, other_cpu, _ = timed(["sqlite3", ":memory:"], sql)
    grown = f", {cpu / last:.2f} times the last size" if last else ""
    print(f"{what}, {os.path.getsize(log)} bytes: decoded in {wall:.3f} s ({cpu:.3f} s of processor time{grown}), "
          f"sqlite3 {other:.3f} s ({other_cpu:.3f} s), ratio {wall / other:.3f}, of processor time {cpu / other_cpu:.3f}; {said}",
          flush=True)
    return cpu


def main():
    program, graph = sys.argv[1:3]
    sizes = [int(word) for word in sys.argv[3:]] or [500000, 1000000, 2000000]
    with tempfile.TemporaryDirectory() as folder:
        log, sql = os.path.join(folder, "log"), os.path.join(folder, "sql")
        last = None
        for size in sizes:
            write_log(log, size)
            write_sql(sql, size)
            last = compare(f"{size} records", [program], log, sql, last)
        for name, command in ("decoded", [program]), ("checked", [os.path.abspath(graph), log, "check"]):
            last = None
            for replaced in REPLACED:
                write_hub_log(log, replaced)
                write_hub_sql(sql, replaced)
                last = compare(f"{name}: {replaced} edges of a hub replaced", command, log, sql, last)


if __name__ == "__main__":
    main()
