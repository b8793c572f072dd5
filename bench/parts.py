#!/usr/bin/env python3
"""Measures transactions through the parts of a store against C over a hash map and arrays, in processor time.

PROGRAM KIND VERTICES EDGES CHANGES COUNT (crates/part_trial) goes through the clock and one shard, call by call: `load`
makes the vertices and puts EDGES on each, on average, CHANGES to a transaction, each with begin, enqueue, collect,
publish, apply and done; `read` then reads COUNT edges; `apply` puts one edge more in a transaction of its own, COUNT
times, all on one vertex. bench/parts.c does the first two over a hash map and arrays, without transactions: it looks at
the payload of an edge in its place, and once more (`copy`) hands out a copy of it, as the shard's answer is one. Both
run in turn, in rounds; the least processor time of each counts, less that of a run with a COUNT of 0 for `read` and
`apply`.

Usage: bench/parts.py PROGRAM [ROUNDS]    PROGRAM is crates/part_trial as `rt run` builds it: `make bench-parts`. It
wants cc.
"""
import os
import subprocess
import sys
import tempfile

HERE = os.path.dirname(os.path.abspath(__file__))


def spent(command):
    """The processor time of a run in seconds, and the sum that it prints."""
    with subprocess.Popen([str(word) for word in command], stdout=subprocess.PIPE) as run:
        told = run.stdout.read().split()
        _, status, usage = os.wait4(run.pid, 0)
        run.returncode = os.waitstatus_to_exitcode(status)
    if run.returncode or len(told) < 2:
        sys.exit(f"{' '.join(map(str, command))} failed")
    return usage.ru_utime + usage.ru_stime, told[1]


def least(rounds, commands):
    """The least times of these commands, run in turn."""
    times = {}
    sums = {}
    for _ in range(rounds):
        for name, command in commands.items():
            time, sums[name] = spent(command)
            times[name] = min(time, times.get(name, time))
    return times, sums


def judged(ratio, most):
    return f"{ratio:.2f} of at most {most}" + ("" if ratio <= most else "  MISSED")


def main():
    ours = os.path.abspath(sys.argv[1])
    rounds = int(sys.argv[2]) if len(sys.argv) > 2 else 5
    with tempfile.TemporaryDirectory() as folder:
        c = os.path.join(folder, "parts")
        subprocess.run(["cc", "-O2", "-o", c, os.path.join(HERE, "parts.c")], check=True)
        edges = 1_000_000
        load = ("load", 10_000, 100, 1_000, 0)
        time, _ = least(rounds, {"parts": (ours, *load), "C": (c, *load)})
        print(f"load of {edges} edges over 10000 vertices, 1000 to a transaction: parts {edges / time['parts']:.0f} a second, "
              f"C {edges / time['C']:.0f} a second, time {judged(time['parts'] / time['C'], 2.5)}")
        count = 4_000_000
        shape = ("read", 142_857, 7, 1_000)
        time, told = least(rounds, {"parts": (ours, *shape, count), "parts idle": (ours, *shape, 0),
                                    "C": (c, *shape, count), "C copies": (c, "copy", *shape[1:], count),
                                    "C idle": (c, *shape, 0)})
        if not told["parts"] == told["C"] == told["C copies"]:
            sys.exit(f"different sums: {told}")
        parts = (time["parts"] - time["parts idle"]) * 1e9 / count
        bare = (time["C"] - time["C idle"]) * 1e9 / count
        copies = (time["C copies"] - time["C idle"]) * 1e9 / count
        print(f"read of one edge of a vertex of degree 7 among {edges}: parts {parts:.0f} ns, C {bare:.0f} ns, "
              f"{judged(parts / bare, 2)}; C with a copy of the payload {copies:.0f} ns, {parts / copies:.2f}")
        count = 200_000
        ns = {}
        for degree in (100, 1_000_000):
            shape = ("apply", 1, degree, 1_000)
            time, _ = least(rounds, {"busy": (ours, *shape, count), "idle": (ours, *shape, 0)})
            ns[degree] = (time["busy"] - time["idle"]) * 1e9 / count
        print(f"a transaction of one edge on a vertex of 1000000 edges: {ns[1_000_000]:.0f} ns, on one of 100 at first: "
              f"{ns[100]:.0f} ns, {judged(ns[1_000_000] / ns[100], 2)}")


if __name__ == "__main__":
    main()
