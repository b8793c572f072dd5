#!/usr/bin/env python3
"""Gives the program damaged logs, and checks that each ends with status 0 or 4 and that a refused log stays as it is.

Usage: bench/damage.py GRAPH [COUNT [SEED]]    10,000 logs, as it stands; they lie in /dev/shm.

The seed is a log with all kinds of changes, in groups of one to three records. A copy has one to four bytes
changed, by one, in one bit or to any value, and one in sixteen is cut. `check` has to leave the file byte for byte.
Where it refuses the log, `run` has to refuse it too, and leave it; where it accepts it, `run` of an empty script
leaves what is before the rest. A log without a byte has status 5.
"""
import os
import random
import subprocess
import sys
import tempfile

from logs import group, new, put, record
import struct


def seed_log():
    def setting(v, p):
        return b"\x02" + struct.pack(">QH", v, len(p)) + p

    def dropping(v):
        return b"\x03" + struct.pack(">Q", v)

    def deleting(v, d):
        return b"\x05" + struct.pack(">QHQ", v, 5, d)

    return b"TELLOG1\n" + b"".join([
        group(1, [record(1, 0, [new(1), put(1, 9, b"\xff"), put(1, 7, b"")])]),
        group(2, [record(2, 1, [new(2), setting(2, b"abc")]), record(3, 1, [put(1, 9, b"\x00"), deleting(1, 7)]), record(4, 1, [new(3)])]),
        group(3, [record(6, 2, [dropping(3), put(2, 1, b"xyz")])]),
        group(4, [record(7, 3, [deleting(2, 1), setting(1, b"")]), record(8, 3, [new(9), put(9, 9, b"edge")])]),
    ]) + b"\x00"


def damaged(rng, seed):
    log = bytearray(seed)
    for _ in range(rng.randrange(1, 5)):
        at = rng.randrange(len(log))
        kind = rng.randrange(3)
        if kind == 0:
            log[at] = (log[at] + rng.choice((1, 255))) % 256
        elif kind == 1:
            log[at] ^= 1 << rng.randrange(8)
        else:
            log[at] = rng.randrange(256)
    if rng.randrange(16) == 0:
        del log[rng.randrange(len(log) + 1):]
    return bytes(log)


def ended(graph, log, command):
    done = subprocess.run([graph, log, command], stdin=subprocess.DEVNULL, capture_output=True, timeout=20)
    return done.returncode, done.stdout


def judge(graph, path, bytes_):
    """The status of `check`, or what went wrong."""
    with open(path, "wb") as out:
        out.write(bytes_)
    status, said = ended(graph, path, "check")
    if status not in (0, 4, 5) or (status == 5) != (bytes_ == b""):
        return f"check ended with status {status}"
    if open(path, "rb").read() != bytes_:
        return "check changed the file"
    if status != 0 and said:
        return "check refused the log and printed something"
    again, said_again = ended(graph, path, "run")
    left = open(path, "rb").read()
    if again != status or said_again:
        return f"run ended with status {again}, check with {status}"
    durable = int(said.split()[7]) if status == 0 else len(bytes_)
    if left != bytes_[:durable]:
        return "run left other bytes"
    return status


def main():
    graph = os.path.abspath(sys.argv[1])
    count = int(sys.argv[2]) if len(sys.argv) > 2 else 10_000
    rng = random.Random(int(sys.argv[3]) if len(sys.argv) > 3 else 1)
    seed, counts = seed_log(), {0: 0, 4: 0, 5: 0}
    with tempfile.TemporaryDirectory(dir="/dev/shm") as folder:
        path = os.path.join(folder, "log")
        if judge(graph, path, seed) != 0:
            sys.exit("the log that is to be damaged is refused")
        for number in range(count):
            log = damaged(rng, seed)
            verdict = judge(graph, path, log)
            if verdict not in counts:
                with open(f"damaged-{number}.log", "wb") as out:
                    out.write(log)
                sys.exit(f"damaged-{number}.log: {verdict}")
            counts[verdict] += 1
    print(f"{count} damaged logs of {len(seed)} bytes: {counts[4]} refused and left byte for byte, {counts[0]} accepted up to their rest, {counts[5]} empty")


if __name__ == "__main__":
    main()
