#!/usr/bin/env python3
"""Measures the program against sqlite3 and wc: the same work, in one go, on one machine.

The program's log lies in /dev/shm, where a sync costs nothing, as sqlite3's base lies in memory: what runs that are
durable on a disk cost is the matter of bench/durable.py. Each run begins on a fresh log.

Usage: bench/bench.py GRAPH [--keep FOLDER]

Each command runs three times, one after another. Its figures are the least wall time, the least processor
time, and the greatest peak memory. Ratios of one run are what is compared: the seconds alone say little of
another machine.
"""
import os
import random
import subprocess
import sys
import tempfile
import time

RUNS = 3
TRANSACTIONS = 50_000
PUTS = 7
HUB_SIZES = (10_000, 20_000, 40_000, 80_000)
# Past this size the replies outgrow the script: the edges printed grow with the square of the puts.
HUB_JUDGED = 20_000
SCAN_EVERY = 1_000
TEXT_BYTES = 64_000_000
SQLITE = ["sqlite3", ":memory:"]

# A list of edges is found in the table by its destinations, as a put needs, and in the index newest first, as a
# scan prints it. `n` counts the puts.
SCHEMA = """\
CREATE TABLE vertex(v INTEGER PRIMARY KEY, p BLOB NOT NULL);
CREATE TABLE edge(v INTEGER, l INTEGER, d INTEGER, n INTEGER NOT NULL, p BLOB NOT NULL, PRIMARY KEY (v, l, d)) WITHOUT ROWID;
CREATE INDEX newest_first ON edge(v, l, n DESC);
"""


class Script:
    """A script for the program and, line for line, the same requests as SQL."""

    def __init__(self, folder, name):
        self.graph_path = os.path.join(folder, name + ".graph")
        self.sql_path = os.path.join(folder, name + ".sql")
        self.graph = open(self.graph_path, "w")
        self.sql = open(self.sql_path, "w")
        self.sql.write(SCHEMA)
        self.puts = 0

    def begin(self):
        self.graph.write("0 begin\n")
        self.sql.write("BEGIN;\n")

    def vertex(self, v, payload):
        self.graph.write(f"0 vertex {payload}\n")
        self.sql.write(f"INSERT INTO vertex VALUES({v}, x'{payload}');\n")

    def put(self, v, label, d, payload):
        self.graph.write(f"0 put {v} {label} {d} {payload}\n")
        self.puts += 1
        self.sql.write(f"REPLACE INTO edge VALUES({v}, {label}, {d}, {self.puts}, x'{payload}');\n")

    def scan(self, v, label):
        self.graph.write(f"0 scan {v} {label}\n")
        self.sql.write(f"SELECT d, hex(p) FROM edge WHERE v = {v} AND l = {label} ORDER BY n DESC;\n")

    def commit(self):
        self.graph.write("0 commit\n")
        self.sql.write("COMMIT;\n")

    def close(self):
        self.graph.close()
        self.sql.close()


def write_transactions(folder):
    """Many small transactions: each makes a vertex with seven edges."""
    rng = random.Random(1)
    script = Script(folder, "transactions")
    for v in range(1, TRANSACTIONS + 1):
        script.begin()
        script.vertex(v, f"{v:08x}")
        for _ in range(PUTS):
            script.put(v, 5, rng.randrange(1, TRANSACTIONS + 1), f"{rng.randrange(1 << 32):08x}")
        script.commit()
    script.close()
    return script


def write_hub(folder, size):
    """One transaction that puts many edges on one vertex, with a scan after every thousand."""
    script = Script(folder, f"hub{size}")
    script.begin()
    script.vertex(1, "61")
    printed = 0
    for d in range(1, size + 1):
        script.put(1, 5, d, "00ff")
        if d % SCAN_EVERY == 0:
            script.scan(1, 5)
            printed += d
    script.commit()
    script.close()
    return script, printed


def write_text(folder):
    """Lines of all kinds on sessions without a transaction, nearly all answered `no-txn`."""
    rng = random.Random(2)
    path = os.path.join(folder, "text.graph")

    def payload():
        return bytes(rng.randrange(256) for _ in range(rng.randrange(24))).hex() or "-"

    def number():
        return rng.randrange(1 << rng.randrange(1, 63))

    def label():
        return rng.randrange(65536)

    forms = (
        lambda: f"put {number()} {label()} {number()} {payload()}",
        lambda: f"del {number()} {label()} {number()}",
        lambda: f"edge {number()} {label()} {number()}",
        lambda: f"scan {number()} {label()}",
        lambda: f"set {number()} {payload()}",
        lambda: f"vertex {payload()}",
        lambda: f"get {number()}",
        lambda: f"drop {number()}",
        lambda: f"labels {number()}",
        lambda: "commit",
        lambda: "abort",
    )
    block = "".join(f"{rng.randrange(65536)} {rng.choice(forms)()}\n" for _ in range(40_000))
    with open(path, "w") as out:
        for _ in range(TEXT_BYTES // len(block) + 1):
            out.write(block)
        out.write("0 begin\n0 commit\n")
    return path


class Figures:
    """What some runs of a command took: wall and processor time in seconds, and peak memory in bytes."""

    def __init__(self):
        self.wall = self.processor = float("inf")
        self.peak = 0

    def note(self, wall, processor, peak):
        self.wall = min(self.wall, wall)
        self.processor = min(self.processor, processor)
        self.peak = max(self.peak, peak)

    def against(self, other, most):
        """How these compare with another command's: ratios of wall time, which is judged, and of processor time."""
        ratio = self.wall / other.wall
        return (f"ratio {ratio:.2f} (at most {most}: {verdict(ratio <= most)}), "
                f"of processor time {self.processor / other.processor:.2f}")


def measure(command, path, environment=None):
    """The figures of some runs of a command on a file; the program runs on a fresh log each time."""
    figures = Figures()
    for _ in range(RUNS):
        if command[-1] == "run":
            with open(command[1], "wb") as log:
                log.write(b"TELLOG1\n\x00")
        with open(path) as source, open(os.devnull, "w") as sink, tempfile.NamedTemporaryFile("r") as told:
            # The peak is told by `time`: asked for here, it would be at least that of this interpreter.
            timed = ["/usr/bin/time", "-f", "%M", "-o", told.name, *command]
            started = time.perf_counter()
            child = subprocess.Popen(timed, stdin=source, stdout=sink, env=environment)
            _, status, usage = os.wait4(child.pid, 0)
            wall = time.perf_counter() - started
            peak = told.read()
        child.returncode = os.waitstatus_to_exitcode(status)
        if child.returncode != 0:
            sys.exit(f"{command} on {path} ended with status {child.returncode}")
        figures.note(wall, usage.ru_utime + usage.ru_stime, int(peak) * 1024)
    return figures


def verdict(holds):
    return "met" if holds else "NOT MET"


def memory_row(figures, path, judged=True):
    size = os.path.getsize(path)
    times = figures.peak / size
    aim = f"below 30: {verdict(times < 30)}" if judged else "no aim at this size"
    return f"peak memory {figures.peak / 1e6:.1f} MB, {times:.1f} times the script of {size / 1e6:.1f} MB ({aim})"


def write_lines(folder, name, lines):
    path = os.path.join(folder, name + ".graph")
    with open(path, "w") as out:
        out.writelines(line + "\n" for line in lines)
    return path


def hub_commits(size):
    """Transactions of one put each, all on one vertex: each copies the list at its first touch."""
    yield from ("0 begin", "0 vertex -", "0 commit")
    for d in range(size):
        yield from ("0 begin", f"0 put 1 5 {d} 00ff", "0 commit")


def old_snapshot(size):
    """Reads of vertices that were changed since the snapshot: each folds all records up to the snapshot."""
    for _ in range(size):
        yield from ("0 begin", "0 vertex 00", "0 commit")
    yield from ("1 begin", "0 begin")
    yield from (f"0 set {v} 01" for v in range(1, size + 1))
    yield "0 commit"
    yield from (f"1 get {v}" for v in range(1, size + 1))


def show_slow_work(graph, folder):
    print("work at two sizes, of which one is twice the other:")
    for work, size in ((hub_commits, 5_000), (old_snapshot, 1_000)):
        once = measure(graph, write_lines(folder, f"{work.__name__}{size}", work(size)))
        twice = measure(graph, write_lines(folder, f"{work.__name__}{2 * size}", work(2 * size)))
        print(f"  {work.__doc__.split(':')[0]}: {size} take {once.processor:.2f} s of processor time, {2 * size} take {twice.processor:.2f} s")


def compare_transactions(graph, folder):
    script = write_transactions(folder)
    ours = measure(graph, script.graph_path)
    theirs = measure(SQLITE, script.sql_path)
    print(f"{TRANSACTIONS} transactions of begin, vertex, {PUTS} puts, commit:")
    print(f"  graph {ours.wall:.3f} s, sqlite3 {theirs.wall:.3f} s, {ours.against(theirs, 0.5)}")
    print(f"  {memory_row(ours, script.graph_path)}")


def compare_hubs(graph, folder):
    print(f"one transaction that puts edges on one vertex, with a scan after every {SCAN_EVERY} puts:")
    for size in HUB_SIZES:
        script, printed = write_hub(folder, size)
        ours = measure(graph, script.graph_path)
        theirs = measure(SQLITE, script.sql_path)
        print(f"  {size} puts, {printed} edges printed: graph {ours.wall:.3f} s, sqlite3 {theirs.wall:.3f} s, ratio {ours.wall / theirs.wall:.2f}; "
              f"{ours.wall / printed * 1e9:.0f} ns for each edge printed, of processor time {ours.processor / printed * 1e9:.0f} ns")
        print(f"    {memory_row(ours, script.graph_path, size <= HUB_JUDGED)}")


def compare_text(graph, folder):
    path = write_text(folder)
    ours = measure(graph, path)
    theirs = measure(["wc", "-lw"], path, dict(os.environ, LC_ALL="C"))
    print(f"reading and printing alone, {os.path.getsize(path) / 1e6:.0f} MB of lines on idle sessions:")
    print(f"  graph {ours.wall:.3f} s, wc -lw {theirs.wall:.3f} s, {ours.against(theirs, 5)}")
    print(f"  {memory_row(ours, path)}")


def main():
    kept = sys.argv[sys.argv.index("--keep") + 1] if "--keep" in sys.argv else None
    with tempfile.TemporaryDirectory() as temporary, tempfile.NamedTemporaryFile(dir="/dev/shm") as log:
        graph = [os.path.abspath(sys.argv[1]), log.name, "run"]
        folder = kept or temporary
        os.makedirs(folder, exist_ok=True)
        compare_transactions(graph, folder)
        compare_hubs(graph, folder)
        compare_text(graph, folder)
        show_slow_work(graph, folder)


main()
