#!/usr/bin/env python3
"""Measures appends to a log on a real file against the least that makes records durable one by one.

PROGRAM COUNT (crates/append_trial) makes a log by graph_wal over a FileDisk, in the folder where it runs, and appends COUNT - 1 groups of
one small record to it (55 bytes each). bench/appends.c is a bare loop of two writes and two syncs over as many
bytes. Both run in turn, in rounds of a few hundred, in one folder; the sums of the rounds are compared.

Usage: bench/appends.py PROGRAM [FOLDER [ROUNDS [COUNT]]]    PROGRAM is crates/append_trial as `rt run` builds it:
`make bench-appends`. It wants cc. A ratio of 1 is the bare loop's speed.
"""
import os
import subprocess
import sys
import tempfile
import time

HERE = os.path.dirname(os.path.abspath(__file__))


def timed(command, folder):
    start = time.monotonic()
    subprocess.run(command, cwd=folder, check=True, stdout=subprocess.DEVNULL)
    return time.monotonic() - start


def main():
    program = os.path.abspath(sys.argv[1])
    folder = os.path.abspath(sys.argv[2] if len(sys.argv) > 2 else ".")
    rounds = int(sys.argv[3]) if len(sys.argv) > 3 else 20
    count = sys.argv[4] if len(sys.argv) > 4 else "200"
    with tempfile.TemporaryDirectory(dir=folder) as run:
        bare = os.path.join(run, "bare")
        subprocess.run(["cc", "-O2", "-o", bare, os.path.join(HERE, "appends.c")], check=True)
        sums = {bare: [], program: []}
        for _ in range(rounds):
            for command in sums:
                sums[command].append(timed([command, count], run))
        if os.path.getsize(os.path.join(run, "bare.log")) != os.path.getsize(os.path.join(run, "appends.log")):
            sys.exit("the two wrote different amounts")
    least, log = (sum(times) for times in sums.values())
    middle = [sorted(times)[rounds // 2] for times in sums.values()]
    print(f"{rounds} rounds of {count}: bare loop {least:.2f} s, log {log:.2f} s, speed {least / log:.2f} of the bare loop's")
    print(f"  middle round: bare loop {middle[0]:.3f} s, log {middle[1]:.3f} s, speed {middle[0] / middle[1]:.2f}")


if __name__ == "__main__":
    main()
