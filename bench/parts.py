#!/usr/bin/env python3
"""Measures parts of the network beside plain Rust.

Use: parts.py FOLDER PART_SPEED OPENNF YARDSTICK

Each command runs seven times, in turn with the others of its row; what counts is the least time that the processor spends on it, in the
program and in the system. What is done before (filling a table) is taken off, by a run with fewer rounds. The status is 1 where a program
fails, or where two that do the same print or write something else. What `gen` writes stands in FOLDER.
"""
import filecmp
import os
import subprocess
import sys

RUNS = 7
PACKETS = 10_000_000
LOOKUPS = 20_000_000
ROUNDS = 10


def spent(command):
    """The processor's time on one run, and what it prints."""
    process = subprocess.Popen(command, stdin=subprocess.DEVNULL, stdout=subprocess.PIPE)
    output = process.stdout.read()
    _, status, usage = os.wait4(process.pid, 0)
    process.returncode = os.waitstatus_to_exitcode(status)
    if process.returncode != 0:
        raise subprocess.CalledProcessError(process.returncode, command)
    return usage.ru_utime + usage.ru_stime, output


def least(commands, same=True):
    """The least time of each command. They print the same, where `same` says so."""
    times, outputs = [[] for _ in commands], set()
    for _ in range(RUNS):
        for command, taken in zip(commands, times):
            seconds, output = spent(command)
            taken.append(seconds)
            outputs.add(output)
    if same and len(outputs) != 1:
        sys.exit(f"parts.py: {commands[0][1:]} isn't answered alike: {outputs}")
    return [min(taken) for taken in times]


def beyond(commands, size, few, many):
    """The time of each command for the rounds from `few` to `many`."""
    fewer, more = (least([[*command, str(size), str(count)] for command in commands]) for count in (few, many))
    return [large - small for small, large in zip(fewer, more)]


def print_row(text, first, second, unit, scale):
    print(f"{text}: {first * scale:.1f} {unit}, beside {second * scale:.1f} {unit}: {first / second:.2f}", flush=True)


def main(arguments):
    if len(arguments) != 4:
        sys.exit("use: parts.py FOLDER PART_SPEED OPENNF YARDSTICK")
    folder, speed_parts, opennf, yardstick = arguments
    for flows in 32_768, 1_000_000:
        ours, sip, folding = beyond([[speed_parts, "step"], [yardstick, "sip"], [yardstick, "step"]], flows, 1, PACKETS)
        for hash, theirs in ("its own hash", sip), ("a hash of two multiplications", folding):
            print_row(f"a step of the tracker in a table of {flows} flows, beside a HashMap with {hash}", ours, theirs, "ns", 1e9 / PACKETS)
    for part, masks in ("target", "one mask"), ("target-4", "four masks"):
        times = least([[speed_parts, part, str(routes), str(LOOKUPS)] for routes in (1000, 2)], same=False)
        print_row(f"a flow's target with 1000 routes of {masks}, beside 2", *times, "ns", 1e9 / LOOKUPS)
    select = beyond([[speed_parts, "select"], [yardstick, "select"]], 1_000_000, 1, ROUNDS + 1)
    print_row("select 100000 of 1000000 flows", *select, "ms", 1e3 / ROUNDS)
    whole = beyond([[speed_parts, "import"], [yardstick, "import"]], 1_000_000, 1, ROUNDS + 1)
    print_row("select and import them", *whole, "ms", 1e3 / ROUNDS)
    files = [os.path.join(folder, f"generated-{place}.pcap") for place in range(2)]
    words = "gen 7 --packets 1000000 --hosts 256".split()
    times = least([[program, *words, file] for program, file in zip((opennf, yardstick), files)])
    print_row("a generated capture of 1000000 packets", *times, "ms", 1e3)
    return 0 if filecmp.cmp(*files, shallow=False) else "parts.py: the captures differ"


if __name__ == "__main__":
    try:
        sys.exit(main(sys.argv[1:]))
    except subprocess.CalledProcessError as failure:
        sys.exit(f"parts.py: {failure.cmd} ended with status {failure.returncode}")
