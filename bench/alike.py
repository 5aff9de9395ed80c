#!/usr/bin/env python3
"""Holds two runs over one capture to the same outputs and records: a run with a script, of any instances and by any schedule, and one of a single
instance without a script. They say the same of each unit that no completed `lossfree` move covered.

Use: alike.py PROGRAM SEED COUNT

The first runs are those of the examples, by the words in their second lines, each by `sim` and by `run`; then come COUNT runs that are drawn by chance, one
in four of them by `run`. Printed at the end are how many agree, over how many units, and how many units were covered. The status is 1 where one differs."""
import os
import random
import re
import subprocess
import sys
import tempfile
from collections import defaultdict

sys.dont_write_bytecode = True
import compare  # noqa: E402
import model  # noqa: E402
from functions import flow_of  # noqa: E402

TOP = os.path.join(os.path.dirname(os.path.abspath(__file__)), os.pardir)
WORDS = re.compile(r"^# \./opennf ((?:sim|run) .*)$", re.MULTILINE)


def report_of(program, words):
    """The report's lines, or None where there is none."""
    ended = subprocess.run([program, *words], stdin=subprocess.DEVNULL, capture_output=True, check=False, timeout=60)
    return ended.stdout.decode("ascii").splitlines() if ended.returncode == 0 else None


def example_words():
    """The words of each example of `sim` and `run`, by both commands."""
    for name in sorted(os.listdir(os.path.join(TOP, "examples"))):
        if name.endswith(".txt"):
            with open(os.path.join(TOP, "examples", name), encoding="utf-8") as file:
                for said in WORDS.findall(file.read()):
                    _, *words = said.split()
                    yield ["sim", *words]
                    yield by_threads(words)


def by_threads(words):
    """These words of `sim` as those of `run`, which has no schedule."""
    return ["run", *(word for place, word in enumerate(words) if "--schedule" not in words[max(place - 1, 0): place + 1])]


def chance_words(seed, count):
    """So many runs that are drawn by chance. Each one's capture and script stand in the folder until the next."""
    for place in range(count):
        _, *words = compare.chance_words(random.Random(f"{seed} {place}"))
        yield by_threads(words) if place % 4 == 0 else ["sim", *words]


def alone(words):
    """The words of the run over the same capture by one instance without a script."""
    kept = [words[place: place + 2] for place, word in enumerate(words) if word in ("--inside", "--outside")]
    return ["sim", words[1], "--instances", "a", *sum(kept, []), asked_of(words).trace.decode()]


def asked_of(words):
    return model.read_words([word.encode() for word in ["sim", *words[1:]]])


def units_of(asked):
    """The unit of each packet by its number."""
    packets = model.read_trace(model.read_file(asked.trace, "trace")).packets
    return {number: asked.function.unit(flow_of(asked.site, packet)[0]) for number, packet in enumerate(packets, 1)}


def covered_by(asked, lines):
    """The filters of the completed moves that don't keep the order."""
    done = {int(line.split()[1]) for line in lines if re.fullmatch(r"answer \d+ done", line)}
    commands = [command for _, command in model.read_script(asked).lines if command is not None]
    return [command.flows for command in commands if command.verb == "move" and command.how == "lossfree" and command.number in done]


def said_of(asked, units, lines):
    """What a report says of each unit: the outputs of its packets in order, and its records."""
    said = defaultdict(lambda: ([], []))
    by_name = {asked.function.print_unit(unit): unit for unit in units.values()}
    for line in lines:
        if line.startswith("out "):
            number, output = line[4:].split(" ", 1)
            said[units[int(number)]][0].append((int(number), output))
        elif line.startswith("state "):
            name = next(name for name in by_name if line[6:].startswith(name + " "))
            said[by_name[name]][1].append(line[7 + len(name):].split(" ", 1)[1])
    return said


class Tally:
    def __init__(self):
        self.runs = self.refused = self.units = self.covered = self.differences = 0

    def hold(self, program, words):
        """Holds a run to that of one instance."""
        lines = report_of(program, words)
        if lines is None:
            self.refused += 1
            return
        self.runs += 1
        asked = asked_of(words)
        units, covers = units_of(asked), covered_by(asked, lines)
        here, there = (said_of(asked, units, report) for report in (lines, report_of(program, alone(words))))
        for unit in {*units.values(), *here, *there}:
            if any(asked.function.takes(flows, unit) for flows in covers):
                self.covered += 1
                continue
            self.units += 1
            if here[unit] != there[unit]:
                self.differences += 1
                print(f"alike.py: {asked.function.print_unit(unit)} differs: {' '.join(words)}: {here[unit]} and {there[unit]}")


def main(arguments):
    if len(arguments) != 3 or not arguments[2].isdigit():
        sys.exit("use: alike.py PROGRAM SEED COUNT")
    program, seed, count = os.path.abspath(arguments[0]), arguments[1], int(arguments[2])
    tally = Tally()
    os.chdir(TOP)
    for words in example_words():
        tally.hold(program, words)
    with tempfile.TemporaryDirectory() as folder:
        os.chdir(folder)
        for words in chance_words(seed, count):
            tally.hold(program, words)
        os.chdir(os.sep)
    print(f"alike.py: {tally.runs} runs, {tally.refused} without a report; {tally.units} units are the same but for {tally.differences}, {tally.covered} were covered")
    return 1 if tally.differences else 0


if __name__ == "__main__":
    sys.exit(main(sys.argv[1:]))
