#!/usr/bin/env python3
"""Measures what commits by several threads cost without a graph: bench/commits.c, whose threads take the turns that a
store's transactions take and append a log's groups, by 1, 2 and 4 threads.

Usage: bench/commits.py [ROUNDS [COUNT]]

In each round each kind runs once by each number of threads, COUNT transactions in all, on a log in /dev/shm:

- as a store's: each event of the clock under a take of its own, and two writes and two syncs for each group;
- together: a leader queues its record and collects its group under one take;
- words: a begin, the epoch of a record and the visible one are asked of words beside the clock, which no event of a store
  here is;
- together and words: both of these, so that three takes of the clock are left;
- no appends: as a store's, but an append does nothing;
- neither: together, without appends, and the clock has no lines that change.

It prints the least and the middle one of the rounds, in nanoseconds a transaction, the middle one as a share of one
thread's, and takes of the clock for each transaction and records for each group in the last round. It wants cc.
"""
import os
import statistics
import subprocess
import sys
import tempfile

HERE = os.path.dirname(os.path.abspath(__file__))
THREADS = (1, 2, 4)
KINDS = {
    "as a store's": [],
    "together": ["together"],
    "words": ["words"],
    "together and words": ["together", "words"],
    "no appends": ["quick"],
    "neither": ["together", "quick", "bare"],
}


def main():
    rounds = int(sys.argv[1]) if len(sys.argv) > 1 else 7
    count = sys.argv[2] if len(sys.argv) > 2 else "100000"
    found = {(kind, threads): [] for kind in KINDS for threads in THREADS}
    with tempfile.TemporaryDirectory(dir="/dev/shm") as folder:
        program = os.path.join(folder, "commits")
        subprocess.run(["cc", "-O2", "-pthread", "-o", program, os.path.join(HERE, "commits.c")], check=True)
        for _ in range(rounds):
            for (kind, threads), runs in found.items():
                words = [program, folder, str(threads), count, *KINDS[kind]]
                told = subprocess.run(words, stdout=subprocess.PIPE, check=True).stdout
                runs.append([float(word) for word in told.split()])
    for kind in KINDS:
        one = statistics.median(run[0] for run in found[kind, 1])
        print(f"{kind}:")
        for threads in THREADS:
            runs = found[kind, threads]
            middle = statistics.median(run[0] for run in runs)
            print(f"  {threads} threads: {min(run[0] for run in runs):.0f}, {middle:.0f} ns, {middle / one:.2f} of one "
                  f"thread's; {runs[-1][1]:.1f} takes of the clock, groups of {runs[-1][2]:.1f}")


if __name__ == "__main__":
    main()
