#!/usr/bin/env python3
"""Measures work on the block of an edge log against C over an array of structs, in processor time.

PROGRAM KIND EDGES 0|8 all|half COUNT (crates/block_trial) makes the block of a log and does one kind of work on it,
COUNT times: scans in parts of 64 edges, looks for 4,096 destinations that are not there, appends, appends with
doubling, and an edge that is appended at the same place, without a commit and with one. bench/blocks.c does the same over
structs (`scan`, sums alone; `parts`, by parts of 64) and over bytes (`append`, `double`), with a filter of the same
bits. Both run in turn, in rounds; the least processor time of each counts, less that of a run with a COUNT of 0, which
makes the log and does nothing more. `double` goes through the calls of an edge log in a pool (tel_block): its blocks are
given back and taken again, so that rounds after the first take no memory. C's bytes grow on its heap.

Usage: bench/blocks.py PROGRAM [ROUNDS [MILLIONS]]    PROGRAM is crates/block_trial as `rt run` builds it: `make
bench-blocks`. MILLIONS: how many million edges one run goes over, mostly 100. It wants cc.
"""
import os
import subprocess
import sys
import tempfile

HERE = os.path.dirname(os.path.abspath(__file__))
EDGES = (1_000, 10_000, 1_000_000)


def spent(command):
    """The processor time of a run in seconds, and the sum that it prints."""
    with subprocess.Popen(command, stdout=subprocess.PIPE) as run:
        told = run.stdout.read().split()
        _, status, usage = os.wait4(run.pid, 0)
        run.returncode = os.waitstatus_to_exitcode(status)
    if run.returncode or len(told) < 2:
        sys.exit(f"{' '.join(command)} failed")
    return usage.ru_utime + usage.ru_stime, told[1]


def least(rounds, steps, works):
    """The least ns a step of each of these works (a program, a kind, its other words, a count), run in turn."""
    busy, idle, sums = {}, {}, {}
    for _ in range(rounds):
        for name, (program, kind, words, count) in works.items():
            for times, many in ((idle, 0), (busy, count)):
                time, told = spent([program, kind, *words, str(many)])
                times[name] = min(time, times.get(name, time))
                if many:
                    sums[name] = told
    told = {sums[name] for name, work in works.items() if work[1] not in ("place", "convert")}
    if len(told) > 1:
        sys.exit(f"different sums: {sums}")
    return {name: (busy[name] - idle[name]) * 1e9 / steps(works[name]) for name in works}


def line(what, found, aim=""):
    print(f"{what:34}" + "  ".join(f"{name} {ns:7.2f}" for name, ns in found.items()) + f"   {aim}", flush=True)


def judged(ratio, most):
    return f"{ratio:.2f} of at most {most}" + ("" if ratio <= most else "  MISSED")


def main():
    ours = os.path.abspath(sys.argv[1])
    rounds = int(sys.argv[2]) if len(sys.argv) > 2 else 5
    work = int(float(sys.argv[3]) * 1e6) if len(sys.argv) > 3 else 100_000_000
    with tempfile.TemporaryDirectory() as run:
        c = os.path.join(run, "blocks")
        subprocess.run(["cc", "-O2", "-o", c, os.path.join(HERE, "blocks.c")], check=True)
        print(f"ns of processor time a step, the least of {rounds} rounds")
        for half in ("all", "half"):
            for pays in ("0", "8"):
                scans, bare = {}, {}
                for edges in EDGES:
                    words, count = (str(edges), pays, half), work // edges
                    works = {"block": (ours, "scan", words, count), "C": (c, "scan", words, count),
                             "C by parts": (c, "parts", words, count)}
                    found = least(rounds, lambda w: edges * w[3], works)
                    scans[edges], bare[edges] = found["block"], found["C"]
                    ratio = found["block"] / found["C"]
                    line(f"scan {edges} x {pays} bytes, {half}", found,
                         judged(ratio, 1.6) if edges == EDGES[-1] else f"{ratio:.2f}")
                print(f"  the slowest length to the fastest: {judged(max(scans.values()) / min(scans.values()), 2)}"
                      f"; C's {max(bare.values()) / min(bare.values()):.2f}")
        for edges in EDGES:
            words, count = (str(edges), "8", "all"), work // 2 // 4096
            found = least(rounds, lambda w: 4096 * w[3], {"block": (ours, "find", words, count),
                                                          "C": (c, "find", words, count)})
            line(f"find in {edges}, denied", found, f"{judged(found['block'] - found['C'], 30)} ns beyond")
            probe = found["C"]
            # C walks where its filter says yes by chance, in a long log for a millisecond.
            few = max(1, count if edges < EDGES[-1] else 20)
            found = {**least(rounds, lambda w: 4096 * w[3], {"block": (ours, "absent", words, count)}),
                     **least(rounds, lambda w: 4096 * w[3], {"C": (c, "absent", words, few)})}
            line(f"find in {edges}, not there", found, f"{judged(found['block'] - probe, 30)} ns beyond C's probe")
        for kind in ("append", "double"):
            for pays in ("0", "8"):
                for edges in EDGES:
                    words, count = (str(edges), pays, "all"), max(1, work // 4 // edges)
                    found = least(rounds, lambda w: edges * w[3], {"block": (ours, kind, words, count),
                                                                   "C": (c, kind, words, count)})
                    line(f"{kind} {edges} x {pays} bytes", found, judged(found["block"] / found["C"], 2))
        commits = {}
        for edges in (100, 1_000_000):
            words, count = (str(edges), "8", "all"), work // 4
            found = least(rounds, lambda w: w[3], {"append": (ours, "place", words, count),
                                                   "append and convert": (ours, "convert", words, count)})
            commits[edges] = found["append and convert"] - found["append"]
            line(f"convert in {edges}", found, f"convert {commits[edges]:.2f} ns")
        print(f"  convert in 1000000 to that in 100: {judged(commits[1_000_000] / commits[100], 2)}")


if __name__ == "__main__":
    main()
