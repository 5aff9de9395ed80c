#!/usr/bin/env python3
"""Runs programs in turn on several captures, and prints their best times and peak memory.

Use: measure.py FOLDER PROGRAM.. -- CAPTURE..

On each capture each program runs five times, and once more for its memory; what it writes goes to a file in FOLDER. Times
are those that pass and, where other programs run beside it, the fairer ones that the processor spends. The first program's
times are divided by each other's. The status is 1 where a program fails or writes other bytes than the first.
"""
import filecmp
import os
import subprocess
import sys
import time

RUNS = 5
WORDS = ["sim", "conntrack", "--instances", "a", "--inside", "10.0.0.0/24", "--schedule", "last"]


def times_of(command, output):
    """The time that one run takes, and the processor's share of it."""
    with open(output, "wb") as file:
        start = time.perf_counter()
        process = subprocess.Popen(command, stdin=subprocess.DEVNULL, stdout=file)
        _, status, usage = os.wait4(process.pid, 0)
        passed = time.perf_counter() - start
    process.returncode = os.waitstatus_to_exitcode(status)
    if process.returncode != 0:
        raise subprocess.CalledProcessError(process.returncode, command)
    return passed, usage.ru_utime + usage.ru_stime


def peak_of(command):
    """The most memory of one run, in bytes: what the system has as its peak when it is last seen running.

    The system's own account of a child that has ended counts what this process held when it made the child, so it
    can't tell a small peak.
    """
    process = subprocess.Popen(command, stdin=subprocess.DEVNULL, stdout=subprocess.DEVNULL)
    peak = 0
    while process.poll() is None:
        with open(f"/proc/{process.pid}/status") as status:
            peak = max([peak] + [int(line.split()[1]) for line in status if line.startswith("VmHWM:")])
    return peak * 1024


def measured(folder, programs, capture):
    """Prints the figures of one capture; the peaks, and whether all programs wrote the same."""
    outputs = [os.path.join(folder, f"report-{place}") for place in range(len(programs))]
    times = [[] for _ in programs]
    for _ in range(RUNS):
        for program, output, taken in zip(programs, outputs, times):
            taken.append(times_of([program, *WORDS, capture], output))
    print(f"{os.path.basename(capture)}:")
    best = [(min(passed for passed, _ in taken), min(spent for _, spent in taken)) for taken in times]
    peaks = [peak_of([program, *WORDS, capture]) for program in programs]
    same = True
    for program, output, (passed, spent), peak in zip(programs, outputs, best, peaks):
        line = f"  {passed:.3f} s, {spent:.3f} s of the processor, {peak / 2**20:.1f} MiB  {program}"
        if program != programs[0]:
            line += f"; the first takes {best[0][0] / passed:.2f} and {best[0][1] / spent:.2f} times as long"
        print(line)
        if not filecmp.cmp(outputs[0], output, shallow=False):
            same = False
            print(f"  {program} writes other bytes than the first")
    return peaks, same


def main(arguments):
    if "--" not in arguments[2:-1]:
        sys.exit("use: measure.py FOLDER PROGRAM.. -- CAPTURE..")
    split = arguments.index("--")
    folder, programs, captures = arguments[0], arguments[1:split], arguments[split + 1 :]
    same = [measured(folder, programs, capture)[1] for capture in captures]
    if all(same) and len(programs) > 1:
        print("the outputs are the same")
    return 0 if all(same) else 1


if __name__ == "__main__":
    try:
        sys.exit(main(sys.argv[1:]))
    except subprocess.CalledProcessError as failure:
        sys.exit(f"measure.py: {failure.cmd[0]} ended with status {failure.returncode}")
