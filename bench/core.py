#!/usr/bin/env python3
"""Runs the program speed_core, and prints the choices that it takes in a second, the time of a world like the program's network,
and the memory that a choice takes.

Use: core.py PROGRAM
"""
import subprocess
import sys
import time

RUNS = 5
PAUSE = 0.0005
# Each world: its name, its nodes and its tokens, and the hops of a token by the schedule and by threads. Where there are few
# tokens, at most as many choices are enabled at once; where there are many, each node has always something to do.
WORLDS = [
    ("ring", 5, 5, 2_000_000, 100_000),
    ("ring", 5, 320, 30_000, 10_000),
    ("ring", 5, 1280, 8_000, 2_500),
    ("hub", 17, 16, 200_000, 20_000),
    ("hub", 17, 1088, 8_000, 2_000),
]
# The world that is like the program's network: its nodes, packets and rounds of work on each, which take some 90 ns, or none.
NETWORKS = [(4, 1_000_000, 60), (18, 1_000_000, 60), (4, 1_000_000, 0), (18, 1_000_000, 0)]
ORDERS = ["first", "last", "1234567", "threads"]
# The lists double when they are full, so two runs are compared of which one has four times as many choices.
SMALL, LARGE = 500_000, 2_000_000


def run(command):
    """The choices of one run, and its seconds."""
    start = time.perf_counter()
    output = subprocess.run(command, stdin=subprocess.DEVNULL, stdout=subprocess.PIPE, check=True).stdout
    seconds = time.perf_counter() - start
    return int(output.split()[1]), seconds


def status_of(process):
    """The lines of the system's status of a process, by their names."""
    try:
        with open(f"/proc/{process.pid}/status") as status:
            return dict(line.split(":", 1) for line in status)
    except (FileNotFoundError, ProcessLookupError):
        return {}


def peaks_of(command):
    """The choices of one run, its most memory while several threads run, and its most memory of all, in bytes.

    It looks once in a while: looking without a pause keeps the threads of the program from running.
    """
    process = subprocess.Popen(command, stdin=subprocess.DEVNULL, stdout=subprocess.PIPE)
    beside, whole = 0, 0
    while process.poll() is None:
        status = status_of(process)
        if "VmHWM" in status:
            whole = max(whole, int(status["VmHWM"].split()[0]))
            if int(status["Threads"]) > 1:
                beside = max(beside, int(status["VmRSS"].split()[0]))
        time.sleep(PAUSE)
    output = process.stdout.read()
    if process.returncode != 0:
        raise subprocess.CalledProcessError(process.returncode, command)
    return int(output.split()[1]), beside * 1024, whole * 1024


def print_speed(program, shape, order, nodes, items, hops):
    results = [run([program, shape, order, str(nodes), str(items), str(hops)]) for _ in range(RUNS)]
    choices = results[0][0]
    times = [seconds for _, seconds in results]
    all_times = " ".join(f"{seconds:.3f}" for seconds in times)
    print(
        f"{shape} of {nodes} with {items} tokens, {order}: {choices / min(times):,.0f} choices a second"
        f" ({choices} choices, best {min(times):.3f} s of {all_times})"
    )


def print_network(program, nodes, packets, rounds):
    """The best time of each order, with the choices that it takes, against the schedule `first`."""
    best = {}
    for order in ORDERS:
        results = [run([program, "network", order, str(nodes), str(packets), str(rounds)]) for _ in range(RUNS)]
        times = [seconds for _, seconds in results]
        best[order] = min(times)
        all_times = " ".join(f"{seconds:.3f}" for seconds in times)
        print(
            f"network of {nodes} nodes, {packets} packets, {rounds} rounds of work, {order}: {min(times):.3f} s of {all_times}"
            f" ({min(times) / best['first']:.2f} of first, {results[0][0]} choices)"
        )


def bytes_of(program, order):
    """The bytes that a choice of the ring takes while several threads run, and at the peak.

    The greatest of some runs are taken: in a run of several rounds the histories are shorter.
    """
    runs = []
    for hops in (SMALL // 320, LARGE // 320):
        peaks = [peaks_of([program, "ring", order, "5", "320", str(hops)]) for _ in range(RUNS)]
        runs.append([max(values) for values in zip(*peaks)])
    (small, low_beside, low), (large, high_beside, high) = runs
    return (high_beside - low_beside) / (large - small), (high - low) / (large - small)


def main(arguments):
    if len(arguments) != 1:
        sys.exit("use: core.py PROGRAM")
    program = arguments[0]
    for shape, nodes, items, by_schedule, by_threads in WORLDS:
        print_speed(program, shape, "first", nodes, items, by_schedule)
        print_speed(program, shape, "threads", nodes, items, by_threads)
    for nodes, packets, rounds in NETWORKS:
        print_network(program, nodes, packets, rounds)
    _, listed = bytes_of(program, "first")
    steps, peak = bytes_of(program, "threads")
    print(f"memory of a choice in a list of choices: {listed:.1f} bytes")
    print(f"memory of a choice by threads: {steps:.1f} bytes while the threads run, which is its step in a history,")
    print(f"    and {peak:.1f} bytes at the peak, with the merge and the merged list")


if __name__ == "__main__":
    try:
        main(sys.argv[1:])
    except subprocess.CalledProcessError as failure:
        sys.exit(f"core.py: {failure.cmd[0]} ended with status {failure.returncode}")
