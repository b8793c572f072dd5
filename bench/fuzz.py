#!/usr/bin/env python3
"""Gives the program many damaged scripts, and checks that it ends each with the exit status 0 or 3.

Usage: bench/fuzz.py GRAPH COUNT [SEED]    Each run begins on a fresh log in /dev/shm.

Each script is one of the seeds below with up to four damages: a byte changed, taken out or put in, a piece
doubled or cut off, or a number put at its limit. A run that is stopped by a signal, does not end within ten
seconds, or ends with another status is kept in a file, and named. An interrupt ends it early.
"""
import os
import random
import signal
import sys
import tempfile

SEEDS = [
    b"1 begin\n1 vertex 61\n1 put 1 5 9 ff\n1 put 1 5 7 -\n1 scan 1 5\n1 commit\n2 begin\n1 begin\n1 put 1 5 9 00\n1 commit\n2 scan 1 5\n2 put 1 5 8 -\n",
    b"0 begin\n0 vertex -\n0 set 1 00ff\n0 get 1\n0 edge 1 2 3\n0 del 1 2 3\n0 labels 1\n0 drop 1\n0 get 1\n0 abort\n",
    b"4294967295 begin\n4294967295 compact 1 65535\n4294967295 put 9223372036854775807 65535 9223372036854775807 aa\n4294967295 commit",
    b"",
]
BYTES = b"0123456789abcdefABCDEF \n\r\t-+.\x00\x7f\x80\xc3\xa9\xff"
NUMBERS = [b"0", b"00", b"65535", b"65536", b"4294967295", b"4294967296", b"9223372036854775807", b"9223372036854775808", b"18446744073709551616"]


def damaged(rng):
    script = bytearray(rng.choice(SEEDS))
    for _ in range(rng.randrange(1, 5)):
        at = rng.randrange(len(script) + 1)
        kind = rng.randrange(6)
        if kind == 0 and at < len(script):
            script[at] = rng.choice(BYTES)
        elif kind == 1 and at < len(script):
            del script[at]
        elif kind == 2:
            script.insert(at, rng.choice(BYTES))
        elif kind == 3:
            end = min(len(script), at + rng.randrange(40))
            script[at:at] = script[at:end]
        elif kind == 4:
            del script[at:]
        else:
            words = bytes(script).split(b" ")
            words[rng.randrange(len(words))] = rng.choice(NUMBERS)
            script = bytearray(b" ".join(words))
    return bytes(script)


def status_of(graph, log, script, stdin, devnull):
    with open(log, "wb") as fresh:
        fresh.write(b"TELLOG1\n\x00")
    os.ftruncate(stdin, 0)
    os.pwrite(stdin, script, 0)
    os.lseek(stdin, 0, os.SEEK_SET)
    actions = [(os.POSIX_SPAWN_DUP2, stdin, 0), (os.POSIX_SPAWN_DUP2, devnull, 1), (os.POSIX_SPAWN_DUP2, devnull, 2)]
    child = os.posix_spawn(graph, [graph, log, "run"], {}, file_actions=actions)
    signal.alarm(10)
    try:
        return os.waitstatus_to_exitcode(os.waitpid(child, 0)[1])
    except TimeoutError:
        ended, status = os.waitpid(child, os.WNOHANG)
        if ended:
            return os.waitstatus_to_exitcode(status)
        os.kill(child, signal.SIGKILL)
        os.waitpid(child, 0)
        return "no end"
    finally:
        signal.alarm(0)


def late(number, frame):
    raise TimeoutError


def main():
    graph, count = os.path.abspath(sys.argv[1]), int(sys.argv[2])
    seed = int(sys.argv[3]) if len(sys.argv) > 3 else 1
    rng = random.Random(seed)
    signal.signal(signal.SIGALRM, late)
    signal.signal(signal.SIGINT, signal.default_int_handler)
    devnull = os.open(os.devnull, os.O_RDWR)
    seen = {}
    try:
        with tempfile.TemporaryFile() as file, tempfile.NamedTemporaryFile(dir="/dev/shm") as log:
            for _ in range(count):
                script = damaged(rng)
                status = status_of(graph, log.name, script, file.fileno(), devnull)
                seen[status] = seen.get(status, 0) + 1
                if status not in (0, 3):
                    with tempfile.NamedTemporaryFile(suffix=".graph", delete=False) as kept:
                        kept.write(script)
                    print(f"status {status}: {kept.name}")
    except KeyboardInterrupt:
        pass
    print(f"seed {seed}: {sum(seen.values())} scripts, statuses {seen}")
    sys.exit(0 if set(seen) <= {0, 3} else 1)


main()
