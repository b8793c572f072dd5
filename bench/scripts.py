#!/usr/bin/env python3
"""Measures scripts that workers run: their time, what an edge of a hub takes to print, and peak memory, in one go.

The logs lie in /dev/shm, where a sync costs nothing.

- workers: each session changes a vertex of its own, in transactions of one begin, some puts and a commit, by 1, 2 and 4
  workers; the vertices are on the log already. In the first script a transaction has seven puts, in the second one thousand,
  so that there workers hardly ever wait for each other. Then as many lines as the first script has, on sessions without a
  transaction: reading them, ordering and printing their replies.
- a hub: scans of one list of 1,000, 10,000 and 100,000 edges, 2,000,000 edges in all, less the time of a run without.
- memory: 300,000 puts on eight lists in transactions of 1,000, without scans, and with one in each transaction.

Usage: bench/scripts.py GRAPH

Each command of the first two runs three times, in turn with the others. The figures are the least wall time and the least
processor time.
"""
import os
import random
import subprocess
import sys
import tempfile
import time

RUNS = 3
SESSIONS = 8
SCRIPTS = ((50_000, 7), (352, 1_000))
VERTICES = "0 begin\n" + "0 vertex 61\n" * SESSIONS + "0 commit\n"
WORKERS = (1, 2, 4)
HUBS = (1_000, 10_000, 100_000)
PRINTED = 2_000_000
LISTS, LONG = 300, 1_000


def write_script(path, transactions, puts):
    rng = random.Random(1)
    each = transactions // SESSIONS
    with open(path, "w") as script:
        for _ in range(each):
            for s in range(SESSIONS):
                script.write(f"{s} begin\n{put_lines(rng, s, puts)}{s} commit\n")
    return each * SESSIONS * (puts + 2), each * SESSIONS


def timed(words, path):
    with open(path, "rb") as script:
        before = os.times()
        began = time.monotonic()
        done = subprocess.run(words, stdin=script, stdout=subprocess.PIPE, check=True)
        wall = time.monotonic() - began
        after = os.times()
    used = after.children_user + after.children_system - before.children_user - before.children_system
    return wall, used, done.stdout


def put_lines(rng, session, count):
    return "".join(f"{session} put {session + 1} 1 {rng.randrange(1 << 40)} 0011223344556677\n" for _ in range(count))


def fresh(graph, log, *scripts):
    """A new log, on which these scripts have run."""
    if os.path.exists(log):
        os.remove(log)
    subprocess.run([graph, log, "init"], check=True)
    for script in scripts:
        subprocess.run([graph, log, "run"], input=script.encode(), stdout=subprocess.DEVNULL, check=True)


def print_best(graph, log, path, lines, records):
    """The least times of some runs by each number of workers."""
    best = {}
    for _ in range(RUNS):
        for workers in WORKERS:
            fresh(graph, log, VERTICES)
            wall, used, told = timed([graph, log, "run", "--workers", str(workers)], path)
            assert told.count(b"\n") == lines and told.count(b" committed ") == records
            old = best.get(workers, (wall, used))
            best[workers] = (min(old[0], wall), min(old[1], used))
    first = best[1][0]
    for workers, (wall, used) in best.items():
        print(f"  {workers} workers: {wall:.3f} s, processors {used:.3f} s, {wall / first:.2f} of one worker's time")
    return best[4][0] / first


def of_workers(graph, folder, log, transactions, puts):
    path = os.path.join(folder, "script")
    lines, records = write_script(path, transactions, puts)
    print(f"{transactions} transactions of begin, {puts} puts and commit, on {SESSIONS} sessions, logs in memory:")
    ratio = print_best(graph, log, path, lines, records)
    print(f"  four workers take {ratio:.2f} of one worker's time (at most 0.45)")


def of_idle(graph, folder, log, lines):
    path = os.path.join(folder, "idle")
    with open(path, "w") as script:
        script.writelines(f"{i % SESSIONS} put 1 1 {i} 0011223344556677\n" for i in range(lines))
    print(f"{lines} lines without a transaction:")
    print_best(graph, log, path, lines, 0)


def of_hubs(graph, folder, log):
    path = os.path.join(folder, "scans")
    print(f"scans of a hub, {PRINTED} edges in all:")
    for size in HUBS:
        fresh(graph, log, VERTICES, "0 begin\n" + put_lines(random.Random(2), 0, size) + "0 commit\n")
        least = {}
        for _ in range(RUNS):
            for scans in (0, PRINTED // size):
                with open(path, "w") as script:
                    script.write("0 begin\n" + "0 scan 1 1\n" * scans + "0 commit\n")
                wall = timed([graph, log, "run"], path)[0]
                least[scans] = min(least.get(scans, wall), wall)
        print(f"  {size} edges: {(least[PRINTED // size] - least[0]) / PRINTED * 1e9:.0f} ns an edge")


def of_memory(graph, folder, log):
    path = os.path.join(folder, "lists")
    for scan in ("", "{0} scan {1} 1\n"):
        rng = random.Random(3)
        with open(path, "w") as script:
            for i in range(LISTS):
                s = i % SESSIONS
                script.write(f"{s} begin\n{put_lines(rng, s, LONG)}{scan.format(s, s + 1)}{s} commit\n")
        fresh(graph, log, VERTICES)
        with open(path, "rb") as script:
            run = subprocess.Popen([graph, log, "run", "--workers", "4"], stdin=script, stdout=subprocess.PIPE)
            text = sum(map(len, iter(lambda: run.stdout.read(1 << 20), b"")))
            status, usage = os.wait4(run.pid, 0)[1:]
            run.returncode = os.waitstatus_to_exitcode(status)
        assert run.returncode == 0
        size = os.path.getsize(path)
        print(f"{LISTS * LONG} puts, {LISTS if scan else 0} scans, {text / 1e6:.0f} MB of replies: "
              f"peak memory {usage.ru_maxrss * 1024 / size:.1f} times the script of {size / 1e6:.1f} MB (below 30)")


def main():
    graph = sys.argv[1]
    with tempfile.TemporaryDirectory(dir="/dev/shm") as folder:
        log = os.path.join(folder, "log")
        for transactions, puts in SCRIPTS:
            of_workers(graph, folder, log, transactions, puts)
        of_idle(graph, folder, log, SCRIPTS[0][0] * (SCRIPTS[0][1] + 2))
        of_hubs(graph, folder, log)
        of_memory(graph, folder, log)


if __name__ == "__main__":
    main()
