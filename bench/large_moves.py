#!/usr/bin/env python3
"""Writes a capture of 100,000 flows of two packets each, scripts that move all of them at once, and the reports of these by the
schedule `last`, worked out from what a move and a settle are.

Use: large_moves.py FOLDER

FOLDER gets the capture large.pcap and, for each NAME, NAME.script, NAME.list with the instances, and NAME.out:

  there    all flows are moved from a to b, which keeps their order
  back     a plain move to b, and one back that keeps the order
  refused  b takes one record less
"""
import os
import sys

sys.dont_write_bytecode = True
import shapes  # noqa: E402

FLOWS = 100_000
START = ["opennf report 1", "function conntrack instances 2 window 256", f"trace packets {2 * FLOWS} skipped 0 whole"]


def unit(j):
    """The flow of packet j from 0, as shapes.py makes it: so that units can be sorted, and in print."""
    host, port, remote = j % 256, 1024 + j // 256 % 256, 53 + j // 65536
    return (host, port, remote), f"udp 10.0.0.{host}:{port} 192.0.2.9:{remote}"


def report(turns, answers, home):
    """The report of a run whose packets are processed at the instance of the last turn, as (first number, instance), and whose records
    are left at home."""
    places, number = [], 1
    for (_, place), (following, _) in zip(turns, [*turns[1:], (2 * FLOWS + 1, "")]):
        places += [place] * (following - number)
        number = following
    return [
        *START,
        *(f"out {number} single" for number in range(1, 2 * FLOWS + 1)),
        *(f"done {number} {place}" for number, place in enumerate(places, 1)),
        *(f"answer {op} {answer}" for op, answer in enumerate(answers, 1)),
        *(f"state {text} {home} single out packets 2 bytes 0" for _, text in sorted(map(unit, range(FLOWS)))),
        f"tally a {places.count('a')} 0",
        f"tally b 0 {places.count('b')}",
        "end",
    ]


def moves(*points):
    """The lines of these moves, each with a settle after it."""
    return [line for point, move in points for line in (f"at {point} move {move}", f"at {point} settle")]


RUNS = {
    "there": ("a,b:100000", moves((FLOWS, "a b any order")), [(1, "a"), (FLOWS + 1, "b")], ["done"], "b"),
    "back": (
        "a,b",
        moves((FLOWS, "a b any lossfree"), (FLOWS + FLOWS // 2, "b a any order")),
        [(1, "a"), (FLOWS + 1, "b"), (FLOWS + FLOWS // 2 + 1, "a")],
        ["done", "done"],
        "a",
    ),
    "refused": ("a,b:99999", moves((FLOWS, "a b any order")), [(1, "a")], ["import 0 100000 99999"], "a"),
}


def main(arguments):
    if len(arguments) != 1:
        sys.exit("use: large_moves.py FOLDER")
    os.chdir(arguments[0])
    packets = [shapes.distinct(j) for j in range(FLOWS)]
    with open("large.pcap", "wb") as file:
        file.write(shapes.FILE_HEADER + b"".join(packets + packets))
    for name, (instances, lines, turns, answers, home) in RUNS.items():
        for ending, content in ("script", lines), ("list", [instances]), ("out", report(turns, answers, home)):
            with open(f"{name}.{ending}", "w", encoding="ascii") as file:
                file.writelines(line + "\n" for line in content)


if __name__ == "__main__":
    main(sys.argv[1:])
