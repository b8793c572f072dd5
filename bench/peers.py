#!/usr/bin/env python3
"""Measures the store against LMDB, RocksDB, SQLite and bare C on one generated graph, in turn, in one go.

Usage: bench/peers.py STORE_TRIAL GRAPH [FOLDER [ROUNDS [SCALE]]]    `make bench-peers`. It wants g++, liblmdb-dev,
librocksdb-dev and libsqlite3-dev. FOLDER is on the disk that is measured (the one at hand, if it is left out). SCALE
divides all sizes, to try it.

STORE_TRIAL is crates/store_trial, which works on the store by its calls; bench/peers.cc does the same work on the others.
In each round each of them does, in processes of its own:

- load: 1,000,000 edges over 10,000 vertices, some with many and most with few, 1,000 puts a durable transaction; then
  reads of one edge, 1,000 a transaction, and a read of each vertex's list, one a transaction. It is killed then.
- open: a new process opens what was killed, reads one list and ends. For the store it is `graph LOG run`.
- commits: durable transactions of one put, by 1, 4 and 8 threads, each on a vertex of its own; all systems in turn, four
  times within seconds, since a disk and a machine that others use too change from minute to minute.
- hub: reads of a list of 1,000,000 edges for two seconds, alone, and beside a thread that puts edges on it in place of
  others and commits each.

What is read is summed up, and the sums of all have to agree. Of the rounds the least time counts. The table goes into
bench/RESULTS.md between two marked lines, and a picture of it into docs/peers.svg; with SCALE they are only printed.
"""
import math
import os
import resource
import shutil
import signal
import subprocess
import sys
import tempfile
import time

HERE = os.path.dirname(os.path.abspath(__file__))
PEERS = {"c": "bare C", "lmdb": "LMDB", "lmdb-dup": "LMDB, sorted duplicates", "rocksdb": "RocksDB", "sqlite": "SQLite"}
SYSTEMS = {"store": "the store", **PEERS}
THREADS = {1: 0, 4: 2, 8: 3}
SHARDS, PUTS, FOREVER = 16, 1_000, 4_000_000_000
TURNS = 4
BEGIN, END = "<!-- written by bench/peers.py: begin -->", "<!-- written by bench/peers.py: end -->"


class Sizes:
    def __init__(self, scale):
        self.vertices = 10_000 // scale // 8 * 8
        self.edges = 1_000_000 // scale // PUTS * PUTS
        self.reads = 1_000_000 // scale // PUTS * PUTS
        self.commits = 1_000 // scale
        self.hub = 1_000_000 // scale // PUTS * PUTS
        self.millis = 2_000 // scale


class Bench:
    def __init__(self, trial, graph, peers, folder, sizes):
        self.trial, self.graph, self.peers, self.folder, self.sizes = trial, graph, peers, folder, sizes
        self.best = {}   # (work, system): the least figure
        self.sums = {}   # work: what was read

    def keep(self, work, system, figure):
        old = self.best.get((work, system))
        self.best[work, system] = figure if old is None else min(old, figure)

    def agree(self, work, told):
        seen = (told["edges"], told["sum"])
        if self.sums.setdefault(work, seen) != seen:
            sys.exit(f"{work}: {seen} where others saw {self.sums[work]}")

    def fresh(self, system):
        path = os.path.join(self.folder, system)
        shutil.rmtree(path, ignore_errors=True)
        os.mkdir(path)
        return path

    def command(self, system, path, work, *numbers):
        """The command of a peer's work, or of the store's phases."""
        if system != "store":
            return [self.peers, system, path, work, *map(str, numbers)]
        return [self.trial, os.path.join(path, "log"), str(SHARDS), str(self.sizes.vertices), str(self.sizes.edges),
                str(self.sizes.hub), *map(str, numbers)]

    def lines(self, command, names):
        """What a process tells of these phases, one after another; then it is killed, if it still runs."""
        told = []
        with subprocess.Popen(command, stdout=subprocess.DEVNULL, stderr=subprocess.PIPE, text=True) as run:
            for line in run.stderr:
                words = line.split()
                if len(words) != 11 or words[0] != names[len(told)]:
                    run.kill()
                    sys.exit(f"{' '.join(command)}: {line.strip()} where {names[len(told)]} was to come")
                told.append({words[i]: int(words[i + 1]) for i in range(1, 11, 2)})
                if len(told) == len(names):
                    break
            run.send_signal(signal.SIGKILL)
            run.stderr.read()
        if len(told) < len(names):
            sys.exit(f"{' '.join(command)}: ended before {names[len(told)]}")
        return told

    def phases(self, *phases):
        return [word for name, depth, transactions, calls, millis in phases
                for word in (name, depth, transactions, calls, millis)]

    def graph_of(self, system):
        s, path = self.sizes, self.fresh(system)
        names = ["load", "read", "scan"]
        if system == "store":
            names = ["make", *names, "eighth", "eighth"]
            reads = s.reads // PUTS
            command = self.command(system, path, "", *self.phases(
                ("make", 0, s.vertices // 8, 8, FOREVER), ("load", 0, s.edges // PUTS, PUTS, FOREVER),
                ("read", 0, reads, PUTS, FOREVER), ("scan", 0, s.vertices, 1, FOREVER), ("eighth", 0, reads, PUTS, FOREVER),
                ("eighth", 3, reads, PUTS, FOREVER), ("scan", 0, FOREVER, 1, FOREVER)))
        else:
            if system == "c":
                names += ["eighth", "eighth"]
            command = self.command(system, path, "graph", s.vertices, s.edges, s.reads)
        told = self.lines(command, names)
        for name, phase in zip(names, told):
            if name in ("read", "scan"):
                self.agree(name, phase)
                self.keep(name, system, phase["read"] / phase["edges"])
        loaded = told[names.index("load")]
        self.keep("load", system, loaded["nanos"] / s.edges)
        if names[-1] == "eighth":
            for name, phase in zip(("one reader", "eight readers"), told[-2:]):
                self.keep(name, system, phase["nanos"] / phase["edges"])
        self.open_of(system, path)

    def open_of(self, system, path):
        start = time.monotonic()
        if system == "store":
            done = subprocess.run([self.graph, os.path.join(path, "log"), "run"], input=b"0 begin\n0 scan 1 1\n",
                                  stdout=subprocess.PIPE, check=True)
            wall = time.monotonic() - start
            edges = int(done.stdout.split()[6])
        else:
            told = self.lines(self.command(system, path, "open"), ["open"])
            wall = time.monotonic() - start
            edges = told[0]["edges"]
        self.agree("open", {"edges": edges, "sum": 0})
        self.keep("open", system, wall * 1e9)

    def own_of(self, system, threads):
        s, path = self.sizes, self.fresh(system)
        if system == "store":
            command = self.command(system, path, "", *self.phases(
                ("make", 0, 1, 8, FOREVER), ("own", THREADS[threads], s.commits, 1, FOREVER)))
            told = self.lines(command, ["make", "own"])[1:]
        else:
            command = self.command(system, path, "own", threads, s.commits)
            told = self.lines(command, ["own"] * (2 if system == "c" else 1))
        for phase in told:
            if phase["transactions"] != threads * s.commits:
                sys.exit(f"{system}: {phase['transactions']} commits by {threads} threads")
            self.keep(f"commits {threads}", system, phase["nanos"] / phase["transactions"])

    def hub_of(self, system):
        s, path = self.sizes, self.fresh(system)
        if system == "store":
            command = self.command(system, path, "", *self.phases(
                ("make", 0, 1, 1, FOREVER), ("fill", 0, s.hub // PUTS, PUTS, FOREVER), ("hub", 0, FOREVER, 1, s.millis),
                ("hub", 1, FOREVER, 1, s.millis)))
            told = self.lines(command, ["make", "fill", "hub", "hub"])[2:]
        else:
            told = self.lines(self.command(system, path, "hub", s.hub, s.millis), ["alone", "beside"])
        for name, phase in zip(("alone", "beside"), told):
            if phase["edges"] % s.hub or not phase["edges"]:
                sys.exit(f"{system}: {phase['edges']} edges of a hub of {s.hub}")
            self.keep(name, system, phase["read"] / phase["edges"])
        # The store's transactions are the reads and the commits; the others' are the commits.
        both = told[1]
        commits = both["transactions"] - (both["edges"] // s.hub if system == "store" else 0)
        self.keep("beside commits", system, both["nanos"] / max(commits, 1))

    def round(self):
        for system in SYSTEMS:
            self.graph_of(system)
            self.hub_of(system)
            print(f"  {SYSTEMS[system]} is done", flush=True)
        for threads in THREADS:
            for _turn in range(TURNS):
                for system in SYSTEMS:
                    self.own_of(system, threads)
        for system in SYSTEMS:
            shutil.rmtree(os.path.join(self.folder, system), ignore_errors=True)
        print("  commits are done", flush=True)


WORKS = {
    "load": ("load, puts a second", lambda ns: f"{1e9 / ns:,.0f}"),
    "read": ("read of one edge, ns", lambda ns: f"{ns:,.0f}"),
    "scan": ("read of all lists, ns an edge", lambda ns: f"{ns:,.1f}"),
    "alone": ("read of a hub's list, ns an edge", lambda ns: f"{ns:,.1f}"),
    "beside": ("the same beside a writer, ns an edge", lambda ns: f"{ns:,.1f}"),
    "beside commits": ("that writer's commits a second", lambda ns: f"{1e9 / ns:,.0f}"),
    "commits 1": ("commits of one put a second, 1 thread", lambda ns: f"{1e9 / ns:,.0f}"),
    "commits 4": ("4 threads", lambda ns: f"{1e9 / ns:,.0f}"),
    "commits 8": ("8 threads", lambda ns: f"{1e9 / ns:,.0f}"),
    "open": ("opening after a kill, and one list, ms", lambda ns: f"{ns / 1e6:,.0f}"),
}


def aims(best):
    """Each aim, what was measured, and whether it is met."""
    rows = []

    def row(aim, measured, met, note=""):
        rows.append((aim, measured, ("met" if met else "not met") + note))

    for threads in THREADS:
        share = best[f"commits {threads}", "c"] / best[f"commits {threads}", "store"]
        row(f"commits of one put by {threads} thread{'s' if threads > 1 else ''} reach 0.85 of bare C's", f"{share:.2f}",
            share >= 0.85)
    lmdb = min(best["load", "lmdb"], best["load", "lmdb-dup"])
    row("a load reaches 8 times LMDB's rate", f"{lmdb / best['load', 'store']:.1f}", lmdb / best["load", "store"] >= 8)
    ratio = best["read", "store"] / best["read", "c"]
    row("a read of one edge takes at most 3 times bare C's", f"{ratio:.2f}", ratio <= 3)
    ratio = best["alone", "store"] / best["alone", "c"]
    row("a read of a hub's list takes at most 2 times bare C's", f"{ratio:.2f}", ratio <= 2)
    ratio = best["beside", "store"] / best["alone", "store"]
    row("beside a writer it takes at most 1.3 times that", f"{ratio:.2f}", ratio <= 1.3)
    gain = best["one reader", "store"] / best["eight readers", "store"]
    bare = best["one reader", "c"] / best["eight readers", "c"]
    cores = os.cpu_count()
    row("eight readers on eight shards reach 5 times one reader", f"{gain:.2f}; bare C {bare:.2f}", gain >= 5,
        f" (with {cores} processors)" if cores < 8 else "")
    return rows


def table(best):
    lines = ["| | " + " | ".join(SYSTEMS.values()) + " |", "|---|" + "---:|" * len(SYSTEMS)]
    for work, (what, shown) in WORKS.items():
        lines.append(f"| {what} | " + " | ".join(shown(best[work, system]) for system in SYSTEMS) + " |")
    lines += ["", "| aim | measured | |", "|---|---|---|"]
    lines += [f"| {aim} | {measured} | {met} |" for aim, measured, met in aims(best)]
    return lines


def picture(best):
    """Bars of times, each a multiple of bare C's, on a scale where each tenfold is as long."""
    works = [("load", "load"), ("read", "read of an edge"), ("scan", "all lists"), ("alone", "a hub's list"),
             ("beside", "beside a writer"), ("commits 1", "commits, 1 thread"), ("commits 4", "4 threads"),
             ("commits 8", "8 threads"), ("open", "open after a kill")]
    systems = [s for s in SYSTEMS if s != "c"]
    colours = {"store": "#d9822b", "lmdb": "#4c8bb5", "lmdb-dup": "#8ab6d1", "rocksdb": "#7a9e59", "sqlite": "#9b7fb8"}
    left, bar, gap, wide, top = 150, 11, 16, 520, 46
    times = {(w, s): best[w, s] / best[w, "c"] for w, _ in works for s in systems}
    first, last = math.floor(math.log10(min(times.values()))), math.ceil(math.log10(max(times.values())))

    def x(t):
        return left + wide * (math.log10(t) - first) / max(1, last - first)

    height = top + len(works) * (len(systems) * bar + gap) + 20
    out = [f'<svg xmlns="http://www.w3.org/2000/svg" width="{left + wide + 70}" height="{height}" '
           f'viewBox="0 0 {left + wide + 70} {height}" font-family="sans-serif" font-size="11">',
           "<style>text { fill: #444 } line { stroke: #999; stroke-opacity: .5 }",
           "@media (prefers-color-scheme: dark) { text { fill: #ccc } }</style>",
           f'<text x="{left}" y="14">Time, as a multiple of bare C on the same work: shorter is better</text>']
    at = left
    for system in systems:
        out.append(f'<rect x="{at}" y="22" width="9" height="9" fill="{colours[system]}"/>'
                   f'<text x="{at + 13}" y="31">{SYSTEMS[system]}</text>')
        at += 30 + 6.2 * len(SYSTEMS[system])
    for decade in range(first, last + 1):
        place = x(10.0 ** decade)
        out.append(f'<line x1="{place:.1f}" y1="{top - 6}" x2="{place:.1f}" y2="{height - 18}"/>'
                   f'<text x="{place:.1f}" y="{height - 5}" text-anchor="middle">{10.0 ** decade:g}</text>')
    y = top
    for work, what in works:
        middle = y + len(systems) * bar / 2 + 4
        out.append(f'<text x="{left - 10}" y="{middle:.1f}" text-anchor="end">{what}</text>')
        for system in systems:
            t = times[work, system]
            out.append(f'<rect x="{left}" y="{y}" width="{x(t) - left:.1f}" height="{bar - 2}" fill="{colours[system]}"/>'
                       f'<text x="{x(t) + 4:.1f}" y="{y + bar - 2}" font-size="9">{t:.3g}</text>')
            y += bar
        y += gap
    return "\n".join(out + ["</svg>", ""])


def processors():
    """The processors' time so far, in seconds: all of it, what the host of a virtual machine took, and what all work here took."""
    with open("/proc/stat") as stat:
        user, nice, system, idle, iowait, irq, softirq, steal = map(int, stat.readline().split()[1:9])
    busy = user + nice + system + irq + softirq
    tick = os.sysconf("SC_CLK_TCK")
    return (busy + idle + iowait + steal) / tick, steal / tick, busy / tick


def taken(before, after, own):
    """How much of the processors' time others took: the host of a virtual machine, and other processes than the measured."""
    total, host, busy = (b - a for a, b in zip(before, after))
    return f"the machine's host took {host / total:.1%} of the processors' time, other processes {max(0.0, busy - own) / total:.1%}"


def versions():
    done = subprocess.run(["dpkg-query", "-W", "-f", "${Package} ${Version}, ", "liblmdb0", "librocksdb*", "libsqlite3-0"],
                          capture_output=True, text=True)
    return done.stdout.rstrip(", ")


def write_results(lines):
    path = os.path.join(HERE, "RESULTS.md")
    with open(path) as results:
        before, rest = results.read().split(BEGIN)
    after = rest.split(END)[1]
    with open(path, "w") as results:
        results.write(before + BEGIN + "\n" + "\n".join(lines) + "\n" + END + after)


def main():
    trial, graph = (os.path.abspath(word) for word in sys.argv[1:3])
    folder = os.path.abspath(sys.argv[3] if len(sys.argv) > 3 else ".")
    rounds = int(sys.argv[4]) if len(sys.argv) > 4 else 3
    scale = int(sys.argv[5]) if len(sys.argv) > 5 else 1
    began, before = time.strftime("%d %B %Y"), processors()
    with tempfile.TemporaryDirectory(dir=folder) as run:
        peers = os.path.join(run, "peers")
        subprocess.run(["g++", "-O2", "-std=c++17", "-o", peers, os.path.join(HERE, "peers.cc"), "-llmdb", "-lrocksdb",
                        "-lsqlite3", "-lpthread"], check=True)
        bench = Bench(trial, graph, peers, run, Sizes(scale))
        for number in range(rounds):
            print(f"round {number + 1} of {rounds}", flush=True)
            bench.round()
    children = resource.getrusage(resource.RUSAGE_CHILDREN)
    others = taken(before, processors(), children.ru_utime + children.ru_stime)
    lines = [f"{began}; {rounds} round{'s' if rounds > 1 else ''}; {os.cpu_count()} processors; {others}; {versions()}.", "",
             *table(bench.best)]
    print("\n".join(lines))
    if scale == 1:
        write_results(lines)
        with open(os.path.join(HERE, "..", "docs", "peers.svg"), "w") as out:
            out.write(picture(bench.best))


if __name__ == "__main__":
    main()
