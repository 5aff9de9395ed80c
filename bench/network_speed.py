#!/usr/bin/env python3
"""Measures runs of the network by several instances and with moves, and prints how their times and their memory compare.

Use: network_speed.py FOLDER PROGRAM FEW TENTH MOVED TWELVE [MOVES]

The captures are generated packets (FEW), a tenth as many of them (TENTH), packets of a tenth as many flows, each of which comes
again and again (MOVED), and the generated ones for 12 moves (TWELVE). The scripts go into FOLDER. Each run is made five times,
in turn with the run that it is compared with, and once more for its memory. MOVES is the program of moves.rs: what moves take is
then compared with what the same moves take there, as one writes them (plain) and tuned, by the middle of fifteen rounds of all five runs.
"""
import os
import statistics
import struct
import subprocess
import sys
from typing import NamedTuple

import measure

FILE_HEADER, RECORD_HEADER, CAPTURED = 24, 16, 8
SIXTEEN = ",".join("abcdefghijklmnop")
ROUNDS = 15


class Measure(NamedTuple):
    seconds: float  # that pass
    spent: float  # of the processor
    peak: int  # in bytes


def packets_in(capture):
    """How many records a little-endian capture has."""
    with open(capture, "rb") as file:
        content = file.read()
    count, place = 0, FILE_HEADER
    while place < len(content):
        place += RECORD_HEADER + struct.unpack_from("<I", content, place + CAPTURED)[0]
        count += 1
    return count


def written(folder, name, lines):
    """A script's path."""
    path = os.path.join(folder, name + ".script")
    with open(path, "w", encoding="ascii") as file:
        file.writelines(line + "\n" for line in lines)
    return path


def command(program, name, instances, *words):
    return [program, name, "conntrack", "--instances", instances, "--inside", "10.0.0.0/24", *words]


def sim(program, instances, *words):
    return command(program, "sim", instances, *words)


def measured(*commands):
    """The best of each command, which are run in turn."""
    times = [[] for _ in commands]
    for _ in range(measure.RUNS):
        for command, taken in zip(commands, times):
            taken.append(measure.times_of(command, os.devnull))
    return [
        Measure(min(passed for passed, _ in taken), min(spent for _, spent in taken), measure.peak_of(command))
        for command, taken in zip(commands, times)
    ]


def tell(name, it, beside=None):
    line = f"  {it.seconds:.3f} s, {it.spent:.3f} s of the processor, {it.peak / 2**20:.1f} MiB  {name}"
    if beside is not None:
        line += f"; {it.seconds / beside.seconds:.2f} and {it.spent / beside.spent:.2f} times as long"
    print(line, flush=True)


def report(command):
    """What a command writes."""
    return subprocess.run(command, stdin=subprocess.DEVNULL, stdout=subprocess.PIPE, check=True).stdout


def instances(folder, program, few):
    print("one instance and three, by the schedule `first`:")
    routes = written(folder, "routes", ["route local=10.0.0.0/26 b", "route local=10.0.0.128/26 c"])
    one, three, routed = measured(
        sim(program, "a", few), sim(program, "a,b,c", few), sim(program, "a,b,c", few, routes)
    )
    tell("one", one)
    tell("three, of which the first has all packets", three, one)
    tell("three, which two routes give packets to", routed, one)


def threads(folder, program, few):
    print("by threads, beside `sim` with as many instances:")
    routes = os.path.join(folder, "routes.script")
    spread, run = measured(sim(program, "a,b,c", few, routes), command(program, "run", "a,b,c", few, routes))
    tell("`sim` with three instances", spread)
    tell("`run` with three", run, spread)
    one, sixteen = measured(command(program, "run", "a", few), command(program, "run", SIXTEEN, few))
    tell("`run` with one instance", one)
    tell("`run` with sixteen, of which the first has all packets", sixteen, one)


def journals(folder, program, few):
    print("with a journal, and an audit of it:")
    journal = os.path.join(folder, "few.journal")
    plain, written = measured(sim(program, "a", few), sim(program, "a", "--journal", journal, few))
    audit, = measured(command(program, "audit", "a", "--journal", journal, few))
    tell("`sim`", plain)
    tell("`sim` that writes its journal", written, plain)
    tell("`audit` of that journal", audit, plain)


def growth(program, tenth, few):
    print("a tenth of the packets, and all:")
    less, more = measured(sim(program, "a", tenth), sim(program, "a", few))
    tell("a tenth", less)
    tell("all", more, less)
    behind = packets_in(few) - packets_in(tenth)
    print(f"  {(more.peak - less.peak) / behind:.0f} bytes at the peak for each further packet, the report's text among them: "
          f"{len(report(sim(program, 'a', few))) / packets_in(few):.0f}")


def beside_plain_rust(moves, capture, period, count, taken, opennf):
    """What the moves take, beside the same moves by plain Rust. `opennf` are the two commands without and with them."""
    if moves is None:
        return
    words = [capture, str(period), str(count), taken]
    commands = [*opennf, *([moves, mode, *words] for mode in ("none", "plain", "tuned"))]
    rounds = [[measure.times_of(command, os.devnull)[1] for command in commands] for _ in range(ROUNDS)]
    own = added(rounds, 0, 1)
    for place, name in (3, "plain"), (4, "tuned"):
        other = added(rounds, 2, place)
        ratio = f"{own / other:.2f} times as long as" if other > 0 else "a time that can't be told from that"
        print(f"  the moves take {ratio} in {name} Rust, of the processor's time: {own * 1000:.1f} ms beside {other * 1000:.1f}")


def added(rounds, without, with_moves):
    """What a command takes more of the processor than another: the middle of what it took more in each of some rounds."""
    return statistics.median(spent[with_moves] - spent[without] for spent in rounds)


def there_and_back(folder, program, moved, moves):
    packets = packets_in(moved)
    print(f"{packets // 10} units moved to another instance and back, among {packets} packets:")
    script = written(folder, "there-and-back", [
        f"at {packets * 3 // 10} move a b any order", f"at {packets * 3 // 10} settle",
        f"at {packets * 6 // 10} move b a any order", f"at {packets * 6 // 10} settle",
    ])
    commands = sim(program, "a,b", moved), sim(program, "a,b", moved, script)
    without, with_moves = measured(*commands)
    tell("without the moves", without)
    tell("with them", with_moves, without)
    beside_plain_rust(moves, moved, packets * 3 // 10, 2, "any", commands)
    print(f"  {(with_moves.peak - without.peak) / (packets // 10):.0f} bytes more at the peak for each unit that is moved")


def twelve_moves(folder, program, twelve, moves):
    print("12 moves of half of the flows:")
    ways = ("a b", "b c", "c a") * 4
    script = written(folder, "twelve", [
        line for place, way in enumerate(ways, 1)
        for line in (f"at {700 * place} move {way} local=10.0.0.0/25 order", f"at {700 * place} settle")
    ])
    commands = sim(program, "a,b,c", twelve), sim(program, "a,b,c", twelve, script)
    without, with_moves = measured(*commands)
    tell("without the moves", without)
    tell("with them", with_moves, without)
    beside_plain_rust(moves, twelve, 700, 12, "half", commands)


def main(arguments):
    if len(arguments) not in (6, 7):
        sys.exit("use: network_speed.py FOLDER PROGRAM FEW TENTH MOVED TWELVE [MOVES]")
    folder, program, few, tenth, moved, twelve, moves = [*arguments, None][:7]
    instances(folder, program, few)
    threads(folder, program, few)
    journals(folder, program, few)
    growth(program, tenth, few)
    there_and_back(folder, program, moved, moves)
    twelve_moves(folder, program, twelve, moves)


if __name__ == "__main__":
    try:
        main(sys.argv[1:])
    except subprocess.CalledProcessError as failure:
        sys.exit(f"network_speed.py: {failure.cmd[0]} ended with status {failure.returncode}")
