#!/usr/bin/env python3
"""Tells where the workers of a script wait: how long a group's append takes, how long it is until the next one begins,
and which part of their time the workers let others run (sched_yield).

Usage: bench/waits.py GRAPH [SPAN]    SPAN: how many groups are drawn, mostly 2.

It runs the script of bench/scripts.py on a log in /dev/shm by 1, 2 and 4 workers, with bench/waits.c loaded before the C
library, and prints for each the time from the first append to the last, and quartiles over all groups. Then it draws a
few groups in the middle of the run of 4 workers, a line for each thread and a letter for each quarter of a microsecond:
W a write, S a sync, y a yield, and a dot what is neither. It wants cc and a processor whose counter of ticks has one
speed.
"""
import bisect
import os
import struct
import subprocess
import sys
import tempfile

sys.dont_write_bytecode = True
from scripts import SCRIPTS, VERTICES, write_script

HERE = os.path.dirname(os.path.abspath(__file__))
WHOLE, CALL = struct.Struct("<QQ"), struct.Struct("<QQII")
YIELD, WRITE, SYNC = 1, 2, 3


def noted(words, script, shim, to):
    """The calls of a run, in their order, and the ticks of a microsecond."""
    with open(script, "rb") as lines:
        subprocess.run(words, stdin=lines, stdout=subprocess.DEVNULL, check=True,
                       env={**os.environ, "LD_PRELOAD": shim, "WAITS": to})
    with open(to, "rb") as it:
        ticks, nanoseconds = WHOLE.unpack(it.read(WHOLE.size))
        return sorted(CALL.iter_unpack(it.read())), 1000 * ticks / nanoseconds


def groups_of(calls):
    """The begin and the end of each append: a write, a sync, a write and a sync of one thread."""
    disk = [it for it in calls if it[2] != YIELD]
    found, at = [], 0
    while at + 3 < len(disk):
        four = disk[at:at + 4]
        if [it[2] for it in four] == [WRITE, SYNC, WRITE, SYNC] and len({it[3] for it in four}) == 1:
            found.append((four[0][0], four[3][1]))
            at += 4
        else:
            at += 1
    return found


def quartiles(numbers):
    numbers = sorted(numbers)
    return ", ".join(f"{numbers[len(numbers) * part // 4]:.1f}" for part in (1, 2, 3))


def draw(calls, groups, span, speed):
    begin, end = groups[len(groups) // 2][0], groups[len(groups) // 2 + span][1]
    width = int((end - begin) / speed * 4) + 1
    lines = {}
    for before, after, kind, thread in calls[bisect.bisect_left(calls, (begin,)):bisect.bisect_right(calls, (end,))]:
        line = lines.setdefault(thread, ["."] * width)
        for at in range(int((before - begin) / speed * 4), min(width, int((after - begin) / speed * 4) + 1)):
            line[at] = "?yWS"[kind] if line[at] in ".y" else line[at]
    for thread in sorted(lines):
        print(f"  {thread} {''.join(lines[thread])}")


def main():
    graph = os.path.abspath(sys.argv[1])
    span = int(sys.argv[2]) if len(sys.argv) > 2 else 2
    with tempfile.TemporaryDirectory(dir="/dev/shm") as room:
        script, log, shim = f"{room}/script", f"{room}/log", f"{room}/waits.so"
        subprocess.run(["cc", "-O2", "-shared", "-fPIC", "-o", shim, f"{HERE}/waits.c"], check=True)
        _, transactions = write_script(script, *SCRIPTS[0])
        for workers in (1, 2, 4):
            if os.path.exists(log):
                os.remove(log)
            subprocess.run([graph, log, "init"], check=True)
            subprocess.run([graph, log, "run"], input=VERTICES.encode(), stdout=subprocess.DEVNULL, check=True)
            calls, speed = noted([graph, log, "run", "--workers", str(workers)], script, shim, f"{room}/calls")
            groups = groups_of(calls)
            yields = [after - before for before, after, kind, _ in calls if kind == YIELD]
            between = [(two[0] - one[1]) / speed for one, two in zip(groups, groups[1:])]
            whole = workers * (groups[-1][1] - groups[0][0])
            print(f"{workers} workers: {len(groups)} groups of {transactions / len(groups):.1f}"
                  f" in {whole / workers / speed / 1000:.0f} ms;"
                  f" an append takes {quartiles((end - begin) / speed for begin, end in groups)} microseconds,"
                  f" the next begins {quartiles(between)} after it;"
                  f" {len(yields) / len(groups):.0f} yields a group, {sum(yields) / whole:.2f} of the workers' time")
        draw(calls, groups, span, speed)


main()
