#!/usr/bin/env python3
"""Compares the program with the model by whole reports, over captures and scripts of moves, copies and shares that are drawn by chance.

Use: compare.py PROGRAM SEED COUNT

Each run has a function, up to 16 instances with limits and marks, a window, a schedule, a capture and a script of routes, moves, copies, shares and settles;
one in four is of the command `published`, which has a packet's number and a filter in place of instances and script, and one in four of `strong`, which has
a list of names and a filter. The words, what the program wrote and what the model wrote of a run that differs are left in a folder, which is named. Printed at
the end are how many runs were the same, and how often each answer came. The status is 1 where a run differs.
"""
import os
import random
import re
import shutil
import subprocess
import sys
import tempfile
from collections import Counter

sys.dont_write_bytecode = True
import cases  # noqa: E402
import make_capture  # noqa: E402
import model  # noqa: E402
import network_checks  # noqa: E402
from functions import FUNCTIONS, UDP, Prefix, Site, print_address  # noqa: E402

TRACE, SCRIPT = "trace.pcap", "script"
MOST_DIFFERENCES = 5


def frame_of(packet):
    """An IPv4 datagram that is read as this packet."""
    (source, source_port), (target, target_port) = packet.source, packet.target
    if packet.proto == UDP:
        segment = cases.udp(source_port, target_port, packet.head)
    else:
        segment = cases.tcp(source_port, target_port, packet.flags, packet.head)
    return cases.ipv4(segment, packet.proto, print_address(source), print_address(target))


def chance_trace(chance, site, many):
    """A capture's bytes, and about how many packets it has."""
    kind = chance.random()
    if many:
        count = chance.choice([300, 600])
        return b"".join(make_capture.capture(chance.getrandbits(64), count, chance.choice([40, 256]))), count
    if kind < 0.1:
        return cases.chance_capture(chance), 40
    count = chance.choice([0, 1, 3, 10, 30, 30, 100])
    packets = [network_checks.chance_packet(chance, site, False) for _ in range(count)]
    records = [cases.record(frame_of(packet), seconds=packet.nanos // 10**9) for packet in packets]
    return cases.file_header() + b"".join(records), count


def chance_limits(chance, names):
    """The LIST of these instances. Few limits are so low that a move is refused, and few instances are marked."""
    limits = [chance.choice(["", "", "", ":0", ":1", ":2", ":5", ":70", ":1000000"]) for _ in names]
    marks = [chance.choice(["", "", "", "", ":v1"]) for _ in names]
    return ",".join(map("".join, zip(names, limits, marks)))


def chance_site(chance):
    """A function, its site and the words of the options that each network has."""
    function = chance.choice(list(FUNCTIONS.values()))
    is_nat = function.name == "nat"
    more = cases.TRANSLATED if is_nat else []
    if chance.random() < 0.8:
        more = [*more, "--window", str(chance.choice([1, 1, 2, 3, 7, 16, 100, 256, 4096, chance.randrange(1, 4097)]))]
    if chance.random() < 0.9:
        more = [*more, "--schedule", chance.choice(["first", "last", *[str(chance.getrandbits(64))] * 4])]
    return function, Site(Prefix(0x0A000000, 24), 0xCB007101 if is_nat else None), more


def put_trace(chance, site):
    """About how many packets the capture has, which is written beside."""
    trace, count = chance_trace(chance, site, chance.random() < 0.03)
    with open(TRACE, "wb") as file:
        file.write(trace)
    return count


def chance_words(chance):
    """The words of a run. Its capture and its script are written beside."""
    function, site, more = chance_site(chance)
    names = list(network_checks.NAMES[: chance.choice([1, 2, 2, 2, 3, 3, 3, 5, 16])])
    count = put_trace(chance, site)
    script = None
    if chance.random() < 0.95:
        script = SCRIPT
        with open(SCRIPT, "w", encoding="ascii") as file:
            file.write(network_checks.chance_script(chance, function, names, count))
    return cases.network_words(function.name, chance_limits(chance, names), TRACE, script, more)


def chance_published(chance):
    """The words of a published move. Its capture is written beside."""
    function, site, more = chance_site(chance)
    point = str(chance.randrange(put_trace(chance, site) + 3))
    return ["published", function.name, "--inside", "10.0.0.0/24", *more, TRACE, point, network_checks.chance_filter(chance, function)]


def chance_strong(chance):
    """The words of strong sharing. Its capture is written beside."""
    function, site, more = chance_site(chance)
    names = ",".join(network_checks.NAMES[: chance.choice([2, 2, 2, 3, 3, 5, 16])])
    put_trace(chance, site)
    shared = [network_checks.chance_filter(chance, function)] if chance.random() < 0.8 else []
    return ["strong", function.name, "--instances", names, "--inside", "10.0.0.0/24", *more, TRACE, *shared]


RUNS = [chance_words, chance_strong, chance_words, chance_published]


def names_in(words):
    """The instances' names in the words."""
    return [item.split(":")[0] for item in words[words.index("--instances") + 1].split(",")]


def by_model(words):
    """What the model makes of the words: the status and both outputs."""
    try:
        return 0, model.run([word.encode() for word in words]), b""
    except model.Refusal as refusal:
        return refusal.status, b"", f"opennf: {refusal.line}\n".encode()


def by_program(program, words):
    ended = subprocess.run([program, *words], stdin=subprocess.DEVNULL, capture_output=True, check=False, timeout=60)
    return ended.returncode, ended.stdout, ended.stderr


def keep(place, words, wanted, given):
    """Leaves the run in a folder of its own."""
    folder = tempfile.mkdtemp(prefix=f"compare-{place}-")
    for name in TRACE, SCRIPT:
        if os.path.exists(name):
            shutil.copy(name, folder)
    with open(os.path.join(folder, "words"), "w", encoding="ascii") as file:
        file.write(" ".join(words) + "\n")
    for name, (status, out, err) in ("model", wanted), ("program", given):
        with open(os.path.join(folder, name), "wb") as file:
            file.write(b"status %d\n" % status + err + out)
    return folder


def main(arguments):
    if len(arguments) != 3 or not arguments[2].isdigit():
        sys.exit("use: compare.py PROGRAM SEED COUNT")
    program, seed, count = os.path.abspath(arguments[0]), arguments[1], int(arguments[2])
    answers, differences = Counter(), 0
    with tempfile.TemporaryDirectory() as folder:
        os.chdir(folder)
        for place in range(count):
            words = RUNS[place % len(RUNS)](random.Random(f"{seed} {place}"))
            wanted, given = by_model(words), by_program(program, words)
            if given != wanted:
                differences += 1
                print(f"compare.py: run {place} of seed {seed} differs: {keep(place, words, wanted, given)}")
            if differences == MOST_DIFFERENCES:
                break
            answers.update(re.findall(rb"^answer \d+ (no packet|[a-z]+)", wanted[1], re.MULTILINE))
            answers["no report"] += wanted[0] != 0
        os.chdir(os.sep)
    found = {str(word, "ascii") if isinstance(word, bytes) else word: times for word, times in sorted(answers.items(), key=str)}
    print(f"compare.py: {place + 1 - differences} runs are the same, {differences} differ; answers {found}")
    return 1 if differences else 0


if __name__ == "__main__":
    sys.exit(main(sys.argv[1:]))
