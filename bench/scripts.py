#!/usr/bin/env python3
"""Measures `check` on scripts of up to 1,048,576 bytes that are made to be slow.

Use: bench/scripts.py [PROGRAM]; without a word it takes the program that `rt run` or `rt ci` left in its crate. Each script
is checked three times; printed are the best time, the processor's share of it and how the check ended. This is no part of
the gate. It leaves no file.
"""
import itertools
import os
import random
import string
import sys
import tempfile
import time

MOST_BYTES = 1_048_576
FRONT, BEHIND = "at 0 share ", " any strict\n"
LETTERS = string.ascii_lowercase + string.digits


def share(names):
    """A line that shares as many of the names as a script has room for."""
    room, taken = MOST_BYTES - len(FRONT) - len(BEHIND) + 1, []
    for name in names:
        room -= len(name) + 1
        if room < 0:
            break
        taken.append(name)
    return FRONT + ",".join(taken) + BEHIND


def spelled(length):
    """The names of a length in order."""
    return map("".join, itertools.product(LETTERS, repeat=length))


def every_name():
    """Names that differ, the shorter ones first."""
    return itertools.chain.from_iterable(map(spelled, itertools.count(1)))


def scripts():
    """The scripts by what they are."""
    distinct = share(every_name())
    names = distinct[len(FRONT):-len(BEHIND)].split(",")
    random.Random(1).shuffle(names)
    blanks = " " * (MOST_BYTES // 1000 - len("route any a\n"))
    few = ",".join(itertools.islice(spelled(3), 255))
    return {
        "one share of distinct names": distinct,
        "the same in no order": share(names),
        "one share of names of two bytes": share(itertools.cycle(spelled(2))),
        "one share of names of 16 bytes": share(f"{number:016}" for number in itertools.count()),
        "1000 shares": (FRONT + few + BEHIND) * 1000,
        "1000 routes with long blanks": f"route{blanks} any a\n" * 1000,
        "only commas": "," * MOST_BYTES,
        "only spaces": " " * MOST_BYTES,
        "only line feeds": "\n" * MOST_BYTES,
        "words of one byte": "a " * (MOST_BYTES // 2),
    }


def run(program, path):
    """One check: its time, the processor's share of it and its status."""
    start = time.monotonic()
    child = os.fork()
    if child == 0:
        closed = os.open(os.devnull, os.O_WRONLY)
        os.dup2(closed, 1)
        os.dup2(closed, 2)
        os.execv(program, [program, "check", "nat", "--instances", "a,b", path])
    _, status, used = os.wait4(child, 0)
    return time.monotonic() - start, used.ru_utime + used.ru_stime, os.waitstatus_to_exitcode(status)


def main():
    here = os.path.dirname(os.path.abspath(__file__))
    program = sys.argv[1] if len(sys.argv) > 1 else os.path.join(here, "../crates/opennf/out/opennf")
    with tempfile.TemporaryDirectory() as folder:
        path = os.path.join(folder, "script")
        for title, text in scripts().items():
            assert len(text) <= MOST_BYTES
            with open(path, "w", encoding="ascii") as file:
                file.write(text)
            seconds, busy, status = min(run(program, path) for _ in range(3))
            print(f"{title}: {seconds:.2f} s, processor {busy:.2f} s, status {status}")


if __name__ == "__main__":
    main()
