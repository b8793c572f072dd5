#!/usr/bin/env python3
"""Kills the program in the middle of runs, at random moments, and judges the log that is left each time.

Usage: bench/kill.py GRAPH [KILLS [COMMITS [FOLDER [SEED]]]]    300 kills of runs of 20,000 commits, as it stands.

A run begins on a fresh log, and is killed (SIGKILL) at a moment drawn evenly over the time that a whole run takes.
Just before, the groups whose gates are open in the file are counted. Then `check` has to accept the log, `dump`
has to print the graph after the first so many commits of the script, and these are no fewer than the groups
that were counted. A second run, of a script that commits once more, has to go on from there. FOLDER is where the
logs lie: /dev/shm, as it stands, since a kill takes nothing from the system's cache and a sync costs nothing there.
"""
import os
import random
import signal
import subprocess
import sys
import tempfile
import time

VERTICES = 64
LABELS = 3


def change(commit):
    """The edge that a commit puts after the first one, which makes the vertices."""
    return commit % VERTICES + 1, commit % LABELS, commit * 7919 % 1000, f"{commit:06x}"


def script_of(commits):
    lines = ["0 begin"] + ["0 vertex 61"] * VERTICES + ["0 commit"]
    for commit in range(2, commits + 1):
        v, label, d, payload = change(commit)
        lines += ["0 begin", f"0 put {v} {label} {d} {payload}", "0 commit"]
    return "".join(line + "\n" for line in lines).encode()


class Graph:
    """The graph after some commits of the script, moved on commit by commit."""

    def __init__(self):
        self.commits = 0
        self.lists = {}

    def at(self, commits):
        if commits < self.commits:
            self.__init__()
        while self.commits < commits:
            self.commits += 1
            if self.commits > 1:
                v, label, d, payload = change(self.commits)
                pairs = self.lists.setdefault((v, label), {})
                pairs.pop(d, None)
                pairs[d] = payload
        return self

    def dump(self):
        lines = [f"epoch {self.commits}"]
        vertices = VERTICES if self.commits else 0
        for v in range(1, vertices + 1):
            lines.append(f"vertex {v} 61")
            for label in range(LABELS):
                pairs = self.lists.get((v, label), {})
                lines += [f"edge {v} {label} {d} {p}" for d, p in reversed(pairs.items())]
        edges = sum(map(len, self.lists.values()))
        return "".join(line + "\n" for line in lines + [f"end {vertices} {edges}"])


def open_gates(path):
    """How many groups of a log stand behind an open gate with a whole payload, as the file is now."""
    with open(path, "rb") as log:
        data = log.read()
    place, groups = 8, 0
    while place < len(data) and data[place] == 1:
        place += 5 + int.from_bytes(data[place + 1:place + 5], "big")
        groups += 1
    return groups


def said(graph, log, *words, script=b""):
    done = subprocess.run([graph, log, *words], input=script, capture_output=True)
    if done.returncode != 0:
        sys.exit(f"{' '.join(words)} ended with status {done.returncode}: {done.stderr.decode()}")
    return done.stdout.decode()


def fresh(graph, log):
    if os.path.exists(log):
        os.remove(log)
    said(graph, log, "init")


def whole_time(graph, log, script_path):
    fresh(graph, log)
    start = time.monotonic()
    with open(script_path, "rb") as script:
        subprocess.run([graph, log, "run"], stdin=script, stdout=subprocess.DEVNULL, check=True)
    return time.monotonic() - start


def killed(graph, log, script_path, after):
    """Kills a run after so many seconds; the groups with open gates just before, and whether it was still running."""
    fresh(graph, log)
    with open(script_path, "rb") as script:
        run = subprocess.Popen([graph, log, "run"], stdin=script, stdout=subprocess.DEVNULL)
        time.sleep(after)
        groups = open_gates(log)
        run.send_signal(signal.SIGKILL)
        return groups, run.wait() == -signal.SIGKILL


def main():
    graph = os.path.abspath(sys.argv[1])
    kills, commits = (int(word) for word in (sys.argv[2:4] + ["300", "20000"][len(sys.argv[2:4]):]))
    folder = sys.argv[4] if len(sys.argv) > 4 else "/dev/shm"
    rng = random.Random(int(sys.argv[5]) if len(sys.argv) > 5 else 1)
    model = Graph()
    hit = between = more = 0
    with tempfile.TemporaryDirectory(dir=folder) as run:
        log, script_path = os.path.join(run, "log"), os.path.join(run, "script")
        with open(script_path, "wb") as out:
            out.write(script_of(commits))
        whole = whole_time(graph, log, script_path)
        for number in range(kills):
            groups, running = killed(graph, log, script_path, rng.uniform(0, whole))
            words = said(graph, log, "check").split()
            epoch, rest = int(words[3]), int(words[9])
            if epoch < groups:
                sys.exit(f"kill {number}: {groups} groups had open gates, and {epoch} are left")
            if said(graph, log, "dump") != model.at(epoch).dump():
                sys.exit(f"kill {number}: the dump is not that of the first {epoch} commits")
            again = said(graph, log, "run", script=b"0 begin\n0 vertex 62\n0 commit\n").splitlines()
            if again[2] != f"3 committed {epoch + 1}":
                sys.exit(f"kill {number}: the next run said {again}")
            hit += running
            between += running and 0 < epoch < commits
            more += rest > 0
    print(f"{kills} kills of runs of {commits} commits, a whole one of {whole:.2f} s: {hit} while it ran, {between} of them "
          f"between the first commit and the last; {more} logs with a rest behind the last gate; no log refused, no commit lost")


if __name__ == "__main__":
    main()
