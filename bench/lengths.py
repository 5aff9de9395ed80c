#!/usr/bin/env python3
"""Counts the choices of the program's runs, by their journals, against the most that a run of that size has.

Use: lengths.py PROGRAM

Two runs whose numbers were worked out by hand, and then runs with each kind of command: by 2 and 16 instances, with one packet under
way at a time and with many, by several schedules and by threads. How many pieces a run's moves send is told by the model, which takes
the same choices. For each kind the run that comes nearest to the most is printed. The status is 1 where a run has more.
"""
import os
import struct
import sys
import tempfile

sys.dont_write_bytecode = True
import cases  # noqa: E402
import compare  # noqa: E402
import model  # noqa: E402
import network  # noqa: E402

JOURNAL = "journal"
INSTANCES = {2: "a,b", 16: ",".join(cases.MANY)}
HOSTS = [1, 2, 3, 1, 2, 3, 1, 1, 2, 2, 3, 3]

# What stands after `at K` in the script, once near the front of the packets and once after their midst, or once alone.
KINDS = {
    "none": [],
    "move order": ["move a b any order"] * 2,
    "move lossfree": ["move a b any lossfree"] * 2,
    "settled moves": ["move a b any order", "settle", "move b a any order", "settle"],
    "refused move": ["move a b any order"] * 2,
    "copy": ["copy a b any"] * 2,
    "copy all": ["copy a b all"] * 2,
    "settled copies": ["copy a b any", "settle", "copy b a all", "settle"],
    "unknown": ["move a z any order", "copy z a any", "share a,z any strict"],
    "share": ["share {names} any strict"],
    "settled share": ["share {names} any strict", "settle"],
    "share of some": ["share {names} local=10.0.0.1 strict", "settle", "move a b local=10.0.0.2/31 order", "copy a b all"],
}


def most_choices(instances, packets, lines, pieces):
    """The most choices of a run of so many instances, packets, lines of the script after its routes, and pieces that moves send."""
    return (2 * instances + 6) * packets + (4 * instances + 24) * lines + 4 * pieces + 3 * instances + 8


def counted(program, words):
    """The number of choices of the program's run, and the choices."""
    status, _, errors = compare.by_program(program, [*words, "--journal", JOURNAL])
    if status != 0:
        sys.exit(f"lengths.py: {' '.join(words)}: {errors.decode()}")
    with open(JOURNAL, "rb") as file:
        content = file.read()
    os.remove(JOURNAL)
    return struct.unpack(">Q", content[8:16])[0], list(zip(content[16::2], content[17::2]))


def pieces_sent(words, choices):
    """How many pieces moves send, by the model, with these choices."""
    _, world = model.start(model.read_words([word.encode() for word in words]))
    if network.run_told(world, choices) is not None:
        sys.exit(f"lengths.py: {' '.join(words)}: the journal is no run of the model")
    return world.pieces


def write(name, frames, lines):
    with open(f"{name}.pcap", "wb") as file:
        file.write(cases.capture_of(frames))
    with open(f"{name}.script", "w", encoding="ascii") as file:
        file.write("".join(line + "\n" for line in lines))


def check_by_hand(program):
    """A move of three packets has 38 choices and at most 80. One of 130 units in three pieces has at most 1390."""
    write("three", cases.HANDSHAKE, ["at 1 move a b any order"])
    write("crowd", map(cases.question, range(1, 131)), ["at 130 move a b any order", "at 130 settle"])
    hold(most_choices(2, 3, 1, 1) == 80 and most_choices(2, 130, 2, 3) == 1390, "the most choices by hand")
    words = cases.network_words("conntrack", "a,b", "three.pcap", "three.script", ["--schedule", "last"])
    count, choices = counted(program, words)
    hold(pieces_sent(words, choices) == 1 and count <= 80, "three packets", count)
    words = cases.network_words("conntrack", "a,b", "crowd.pcap", "crowd.script", ["--schedule", "last"])
    count, choices = counted(program, words)
    hold(pieces_sent(words, choices) == 3 and count <= 1390, "a crowd", count)


def hold(holds, *what):
    if not holds:
        print("lengths.py:", *what)
        sys.exit(1)


def lines_of(kind, names):
    """The script of a kind: its lines stand near the front and after the midst of the packets, in their order."""
    lines = [line.format(names=names) for line in KINDS[kind]]
    return [f"at {1 if 2 * place < len(lines) else 7} {line}" for place, line in enumerate(lines)]


def check_kind(program, kind):
    """The count and the most of the run of a kind that comes nearest to it."""
    runs = []
    for number, names in INSTANCES.items():
        listed = names.replace("b", "b:0", 1) if kind == "refused move" else names
        lines = lines_of(kind, names)
        write("kind", map(cases.question, HOSTS), lines)
        for window in "1", "2", "256":
            for schedule in "first", "last", "1", "2", None:
                more = ["--window", window] + (["--schedule", schedule] if schedule else [])
                words = cases.network_words("conntrack", listed, "kind.pcap", "kind.script", more)
                called = words if schedule else ["run", *words[1:]]
                count, choices = counted(program, called)
                most = most_choices(number, len(HOSTS), len(lines), pieces_sent(words, choices))
                hold(count <= most, kind, " ".join(called), count, most)
                runs.append((count / most, count, most, number))
    return max(runs)


def main(arguments):
    if len(arguments) != 1:
        sys.exit("use: lengths.py PROGRAM")
    program = os.path.abspath(arguments[0])
    with tempfile.TemporaryDirectory() as folder:
        os.chdir(folder)
        try:
            check_by_hand(program)
            nearest = {kind: check_kind(program, kind) for kind in KINDS}
        finally:
            os.chdir(os.sep)
    for kind, (_, count, most, number) in nearest.items():
        print(f"{kind}: {count} choices of at most {most}, with {number} instances")
    print(f"lengths.py: no run of {len(KINDS)} kinds has more choices than its size allows")
    return 0


if __name__ == "__main__":
    sys.exit(main(sys.argv[1:]))
