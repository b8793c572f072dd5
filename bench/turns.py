#!/usr/bin/env python3
"""Measures turns against atomic exchanges that nobody contends.

PROGRAM DEPTH SHARDS STRIDE COUNT (crates/turn_trial) lets 2^DEPTH threads take a shard's turn, raise its count and
give the turn back, COUNT times each, by turn_board. bench/turns.c does as many pairs of atomic exchanges in as many
threads, each on a cache line of its own. Each runs in turn, in rounds; of the rounds of each the fastest counts.

- one thread: how much a take and give of a free turn costs, in pairs of exchanges (at most 3 is wanted);
- eight threads on eight turns: how much more they do than one, as a share of how much more eight threads of
  exchanges do than one (at least 0.7 is wanted): once on eight turns beside each other, and once on eight of 64
  turns, each eight turns from the next;
- two threads on one turn: what a turn costs that is handed over.

Usage: bench/turns.py PROGRAM [ROUNDS [COUNT]]    PROGRAM is crates/turn_trial as `rt run` builds it:
`make bench-turns`. It wants cc.
"""
import os
import subprocess
import sys
import tempfile
import time

HERE = os.path.dirname(os.path.abspath(__file__))


def timed(command, wanted=None):
    start = time.monotonic()
    done = subprocess.run(command, check=True, stdout=subprocess.PIPE)
    if wanted is not None and int(done.stdout) != wanted:
        sys.exit(f"{command}: {done.stdout!r}, where {wanted} was to come")
    return time.monotonic() - start


def main():
    program = os.path.abspath(sys.argv[1])
    rounds = int(sys.argv[2]) if len(sys.argv) > 2 else 7
    count = int(sys.argv[3]) if len(sys.argv) > 3 else 2_000_000
    with tempfile.TemporaryDirectory() as run:
        bare = os.path.join(run, "turns")
        subprocess.run(["cc", "-O2", "-pthread", "-o", bare, os.path.join(HERE, "turns.c")], check=True)
        rows = {
            "one": ([program, "0", "1", "1", str(count)], count),
            "eight": ([program, "3", "8", "1", str(count)], 8 * count),
            "spaced": ([program, "3", "64", "8", str(count)], 8 * count),
            "handed": ([program, "1", "1", "1", str(count // 10)], 2 * (count // 10)),
            "bare one": ([bare, "1", str(count)], None),
            "bare eight": ([bare, "8", str(count)], None),
        }
        least = dict.fromkeys(rows, float("inf"))
        for _ in range(rounds):
            for name, (command, wanted) in rows.items():
                least[name] = min(least[name], timed(command, wanted))
    each = {name: 1e9 * least[name] / count for name in least}
    print(f"one thread: {each['one']:.1f} ns a take and give, {each['bare one']:.1f} ns two exchanges, "
          f"ratio {least['one'] / least['bare one']:.2f}")
    gain = 8 * least["bare one"] / least["bare eight"]
    for name, what in (("eight", "beside each other"), ("spaced", "eight turns apart")):
        more = 8 * least["one"] / least[name]
        print(f"eight threads on eight turns {what}: {more:.2f} times one thread, exchanges {gain:.2f} times, "
              f"share {more / gain:.2f}")
    print(f"two threads on one turn: {1e9 * least['handed'] / (2 * (count // 10)):.1f} ns a take and give")


if __name__ == "__main__":
    main()
