#!/usr/bin/env python3
"""Runs the program where files and streams refuse, and compares each status, what standard error says of it and what is
left with the table below.

Usage: bench/refused.py GRAPH    Run by root, it takes the row on permissions as nobody (by setpriv).
"""
import fcntl
import os
import re
import subprocess
import sys
import tempfile

FIRST = b"1 begin\n1 vertex 61\n1 put 1 5 9 ff\n1 put 1 5 7 -\n1 scan 1 5\n1 commit\n"
EMPTY = b"TELLOG1\n\x00"

# What standard error says under each status that comes here.
SAID = {
    0: rb"",
    3: rb"graph: bad script at line \d+ column \d+\n",
    4: rb"graph: bad log at \d+ group \d+\n",
    5: rb"graph: no log\n",
    6: rb"graph: read fault\n",
    7: rb"graph: write fault\n",
    8: rb"graph: disk fault\n",
    10: rb"graph: epoch \d+ is above \d+\n",
    11: rb"graph: log holds \d+ bytes\n",
}

# The commands whose status was told otherwise.
otherwise = []


def run(command, script=b"", stdout=subprocess.PIPE, prefix=()):
    done = subprocess.run([*prefix, *command], input=script, stdout=stdout, stderr=subprocess.PIPE)
    if not re.fullmatch(SAID.get(done.returncode, rb"(?!)"), done.stderr):
        otherwise.append((command, done.returncode, done.stderr))
    return done.returncode, done.stdout or b""


def expect(what, got, wanted):
    print(f"{'as expected' if got == wanted else f'NOT AS EXPECTED: {got!r}'}: {what}")
    return got == wanted


def rows(graph, folder):
    log = os.path.join(folder, "log")

    def write(data):
        with open(log, "wb") as out:
            out.write(data)

    def read():
        with open(log, "rb") as source:
            return source.read()

    for command in ("run", "dump", "check"):
        yield f"{command} of a path that is not there: status 5, and nothing is made", (run([graph, log, command])[0], os.path.exists(log)), (5, False)
        yield f"{command} of a directory: status 8", run([graph, folder, command])[0], 8
    yield "init in a folder that is not there: status 8", run([graph, os.path.join(folder, "no", "log"), "init"])[0], 8
    yield "init of a directory: status 8", run([graph, folder, "init"])[0], 8
    yield "init makes the nine bytes", (run([graph, log, "init"]), read()), ((0, b""), EMPTY)
    yield "init again: status 11, and the log stays", (run([graph, log, "init"])[0], read()), (11, EMPTY)
    write(EMPTY + b"abc")
    yield "a log of nine bytes and a rest is checked", (run([graph, log, "check"]), read()), ((0, b"format 1 epoch 0 records 0 durable 9 rest 3\n"), EMPTY + b"abc")
    yield "a script that is refused leaves the rest", (run([graph, log, "run"], b"0 begun\n"), read()), ((3, b""), EMPTY + b"abc")
    yield "an empty script cuts the rest off", (run([graph, log, "run"]), read()), ((0, b""), EMPTY)
    yield "a script that stops in the middle of a line: status 3", (run([graph, log, "run"], FIRST[:-8])[0], read()), (3, EMPTY)
    with open("/dev/full", "wb") as full:
        yield "replies to a device that is full: status 7", run([graph, log, "run"], FIRST, full)[0], 7
    yield "and the commit stands", run([graph, log, "dump"]), (0, b"epoch 1\nvertex 1 61\nedge 1 5 7 -\nedge 1 5 9 ff\nend 1 2\n")
    with open("/dev/full", "wb") as full:
        yield "a dump to a device that is full: status 7", run([graph, log, "dump"], stdout=full)[0], 7
    before = read()
    yield "an epoch above the last: status 10", run([graph, log, "dump", "--at", "2"])[0], 10
    yield "standard input that is closed: status 6", run(["sh", "-c", f"'{graph}' '{log}' run <&-"])[0], 6
    for command in ("dump", "check"):
        yield f"{command} where standard output is closed: status 7", run(["sh", "-c", f"'{graph}' '{log}' {command} >&-"])[0], 7
    yield "and all of this leaves the log", read(), before
    yield "run where standard output is closed: status 7", run(["sh", "-c", f"'{graph}' '{log}' run >&-"], FIRST)[0], 7
    yield "and the commit stands", run([graph, log, "check"]), (0, b"format 1 epoch 2 records 2 durable 193 rest 0\n")
    write(before)
    with open(log, "rb") as held:
        fcntl.flock(held, fcntl.LOCK_EX)
        yield "run, drill on a log that another one has locked: status 8", [run([graph, log, *words], FIRST)[0] for words in (["run"], ["drill", "1", "1", "1"])], [8, 8]
        yield "dump of it", run([graph, log, "dump"])[0], 0
    yield "and it stays", read(), before
    for command in ("init", "run", "dump", "check"):
        yield f"{command} of a device: status 8", run([graph, "/dev/null", command])[0], 8
    write(before[:100])
    yield "a log cut by a byte: status 4 by every command, and it stays", ([run([graph, log, c], FIRST)[0] for c in ("run", "dump", "check")], read()), ([4, 4, 4], before[:100])
    write(before)
    prefix = ()
    if os.geteuid() == 0:
        os.chmod(folder, 0o777)
        prefix = ("setpriv", "--reuid=nobody", "--clear-groups")
    os.chmod(log, 0o444)
    yield "check, dump, run of a file that may only be read: status 0, 0, 8", [run([graph, log, c], FIRST, prefix=prefix)[0] for c in ("check", "dump", "run")], [0, 0, 8]
    os.chmod(log, 0)
    yield "a file without permission: status 8", run([graph, log, "check"], prefix=prefix)[0], 8
    yield "standard error says each status in a line, and nothing where it is 0", otherwise, []


def main():
    graph = os.path.abspath(sys.argv[1])
    with tempfile.TemporaryDirectory() as folder:
        copy = os.path.join(folder, "graph")
        with open(graph, "rb") as source, open(copy, "wb") as out:
            out.write(source.read())
        os.chmod(copy, 0o755)
        os.chmod(folder, 0o755)
        logs = os.path.join(folder, "logs")
        os.mkdir(logs)
        good = [expect(*row) for row in rows(copy, logs)]
    sys.exit(0 if all(good) else 1)


if __name__ == "__main__":
    main()
