#!/usr/bin/env python3
"""Runs 64 workers on one vertex again and again, kills the runs at random moments, and counts what is lost.

Usage: bench/soak.py GRAPH [SECONDS [FOLDER [SEED]]]    `make soak SECONDS=60`. FOLDER is where the log lies: /dev/shm, as
it stands, since a kill takes nothing from the system's cache and a sync costs nothing there.

Each run is a script of 64 sessions by 64 workers on one log. Each session puts an edge on the first vertex in a
transaction, and tries again with the next edge, whether it committed or was refused because another one held the vertex
or had changed it. Where the program has the command `drill`, every third run is a drill by 64 workers. Two runs of three
are killed (SIGKILL) at a moment drawn evenly over the time that a whole run takes. Replies are printed after the last
line, so most of these have printed nothing, and none of their commits is acknowledged. After each run:

- `check` has to accept the log, and its last epoch and its records may not have become fewer;
- `dump --at` the epoch before the run has to print what `dump` printed then: so nothing that was there is lost;
- the edges of the first vertex have to be ones that a session put, each at most once, and those of a session newest first;
- each commit that the run acknowledged has to be among the records, with its edge in the list; where it ended by itself
  nothing else may be there, and where it was killed, what it added besides is counted as recovered.

A log that holds 50,000 records makes place for a new one. The status is 1 where anything is lost or amiss, and the log
is left where it lies.
"""
import os
import random
import shutil
import signal
import subprocess
import sys
import tempfile
import time

SESSIONS = WORKERS = 64
ATTEMPTS = 40
RECORDS = 50_000


class Lost(Exception):
    pass


def edge_of(run, session, attempt):
    """The destination of an edge, which tells who put it; its payload spells the same number."""
    return (run * SESSIONS + session) * 1_000 + attempt


def script_of(run):
    lines = []
    for attempt in range(ATTEMPTS):
        for session in range(SESSIONS):
            d = edge_of(run, session, attempt)
            lines.append(f"{session} begin\n{session} put 1 1 {d} {d:016x}\n{session} commit\n")
    return "".join(lines).encode()


class Soak:
    def __init__(self, graph, folder, seed):
        self.graph, self.folder, self.rng = graph, folder, random.Random(seed)
        self.log = os.path.join(folder, "log")
        self.has_drill = False
        self.runs = self.killed = self.logs = 0
        self.acknowledged = self.recovered = self.held = self.conflicts = 0
        self.whole = {}   # kind of run: the time that whole ones took of late
        self.before = None

    def said(self, *words, script=b"", at=None):
        done = subprocess.run([self.graph, at or self.log, *words], input=script, capture_output=True)
        if done.returncode != 0:
            raise Lost(f"{' '.join(words)} ended with status {done.returncode}: {done.stderr.decode()}")
        return done.stdout.decode()

    def find_drill(self):
        trial = os.path.join(self.folder, "trial")
        self.said("init", at=trial)
        self.has_drill = subprocess.run([self.graph, trial, "drill", "1", "1", "1"], capture_output=True).returncode == 0
        os.remove(trial)

    def start_log(self):
        """A new log with the vertex that all change."""
        if os.path.exists(self.log):
            os.remove(self.log)
        self.said("init")
        self.said("run", script=b"0 begin\n0 vertex 61\n0 commit\n")
        self.before = self.state()
        self.logs += 1

    def state(self):
        """The last epoch, how many records there are, and the text of the graph."""
        words = self.said("check").split()
        return int(words[3]), int(words[5]), self.said("dump")

    def run_once(self):
        """A run, whole or killed: of which kind, what it printed, and whether it ended by itself."""
        self.runs += 1
        kind = "drill" if self.has_drill and self.runs % 3 == 0 else "script"
        script, printed = (os.path.join(self.folder, name) for name in ("script", "printed"))
        with open(script, "wb") as out:
            out.write(script_of(self.runs))
        words = ["run", "--workers", str(WORKERS), "--shards", str(self.rng.randint(1, 64))]
        if kind == "drill":
            words = ["drill", str(self.runs), str(SESSIONS), str(ATTEMPTS), "--workers", str(WORKERS)]
        start = time.monotonic()
        with open(script, "rb") as source, open(printed, "wb") as sink:
            run = subprocess.Popen([self.graph, self.log, *words], stdin=source, stdout=sink, stderr=subprocess.DEVNULL)
        if kind in self.whole and self.rng.random() < 2 / 3:
            try:
                run.wait(self.rng.uniform(0, self.whole[kind]))
            except subprocess.TimeoutExpired:
                run.send_signal(signal.SIGKILL)
        ended = run.wait() == 0
        if ended:
            self.whole[kind] = time.monotonic() - start
        elif run.returncode == -signal.SIGKILL:
            self.killed += 1
        else:
            raise Lost(f"run {self.runs} ended with status {run.returncode}")
        with open(printed) as told:
            return kind, told.read(), ended

    def hot_list(self, text):
        """The edges of the first vertex, newest first, each of which a session put."""
        seen, last = set(), {}
        for line in text.splitlines():
            if not line.startswith("edge 1 1 "):
                continue
            _, _, _, d, payload = line.split()
            number = int(d)
            who, attempt = divmod(number, 1_000)
            if payload != f"{number:016x}" or number in seen or attempt >= last.get(who, ATTEMPTS) or who // SESSIONS > self.runs:
                raise Lost(f"run {self.runs} left what nobody put: {line}")
            seen.add(number)
            last[who] = attempt
        return seen

    def acknowledged_of(self, kind, told):
        """The commits that a run acknowledged: how many, and the edges of the first vertex among them."""
        lines = told[:told.rfind("\n") + 1].splitlines()
        if kind == "drill":
            return (int(lines[0].split()[-1]) if lines else 0), set()
        edges = set()
        for number, line in enumerate(lines):
            attempt, session = divmod(number // 3, SESSIONS)
            reply = line.split()[1]
            self.held += reply == "held"
            self.conflicts += reply == "conflict"
            if reply == "committed":
                edges.add(edge_of(self.runs, session, attempt))
        return len(edges), edges

    def judge(self, kind, told, ended):
        epoch, records, text = self.before
        after = self.state()
        if after[0] < epoch or after[1] < records:
            raise Lost(f"run {self.runs}: epoch {epoch} and {records} records before it, {after[0]} and {after[1]} after")
        if self.said("dump", "--at", str(epoch)) != text:
            raise Lost(f"run {self.runs}: the graph of epoch {epoch} is not what it was")
        gained = self.hot_list(after[2]) - self.hot_list(text)
        added = after[1] - records
        commits, edges = self.acknowledged_of(kind, told)
        whole = commits == added if ended else commits <= added
        if not whole or not edges <= gained or len(gained) != (added if kind == "script" else 0):
            raise Lost(f"run {self.runs}: {commits} commits acknowledged, {added} records and {len(gained)} edges in the log")
        self.acknowledged += commits
        self.recovered += added - commits
        self.before = after

    def go_on(self, seconds):
        end = time.monotonic() + seconds
        self.find_drill()
        self.start_log()
        while time.monotonic() < end:
            self.judge(*self.run_once())
            if self.before[1] > RECORDS:
                self.start_log()


def main():
    graph = os.path.abspath(sys.argv[1])
    seconds = float(sys.argv[2]) if len(sys.argv) > 2 else 60
    folder = tempfile.mkdtemp(dir=sys.argv[3] if len(sys.argv) > 3 else "/dev/shm")
    seed = int(sys.argv[4]) if len(sys.argv) > 4 else time.time_ns()
    soak = Soak(graph, folder, seed)
    try:
        soak.go_on(seconds)
    except Lost as lost:
        print(f"LOST after {soak.runs} runs (seed {seed}): {lost}; the log is {soak.log}")
        sys.exit(1)
    shutil.rmtree(folder)
    print(f"{seconds:.0f} s of {WORKERS} workers on one vertex, seed {seed}: {soak.runs} runs on {soak.logs} logs, "
          f"{soak.killed} of them killed; commits: {soak.acknowledged} acknowledged, {soak.recovered} more recovered of runs "
          f"that were killed, 0 lost; {soak.held} attempts held, {soak.conflicts} in conflict")


if __name__ == "__main__":
    main()
