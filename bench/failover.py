#!/usr/bin/env python3
"""What is left of a run where an instance fails and another takes over from the records that stand by there, a part of the model in model.py.

Use: failover.py, which prints how many packets are lost by how often one copies, for the capture and the words of examples/failover.txt
     failover.py FAILED TO AFTER sim WORD.., which prints the report of a failover in this run; instances go by their places from 0

A run goes as its choices say, so many of them. The units whose records are live at the instance that fails are affected. The record of such a
unit that stands by at the other one is what the function makes of some first packets of the unit, of those that were processed; the packets
after these are lost, and those that came and weren't processed are open.
"""
import os
import sys
import tempfile
from collections import defaultdict
from typing import NamedTuple

sys.dont_write_bytecode = True
import model  # noqa: E402
import network  # noqa: E402
from functions import flow_of  # noqa: E402


class Failing(NamedTuple):
    failed: int  # the instance that fails
    to: int  # the one that takes over
    after: int  # so many choices


class Left(NamedTuple):
    """What is left, each by unit in the order of the units: the record that stands by or None, and the packets by their numbers."""

    standing: dict
    lost: dict
    pending: dict


def run_first(world, choices, after):
    """Takes so many of the choices, and gives None; else the step, from 1, at which they fail to be there and a run."""
    for step, choice in enumerate(choices[:after], 1):
        if not world.is_enabled(choice):
            return step
        world.take(choice)
    return None if after <= len(choices) else len(choices) + 1


class Units:
    """The units of a run's packets, and the function's steps on their packets."""

    def __init__(self, asked, trace):
        self.asked = asked
        self.packets = trace.packets

    def of(self, number):
        return self.asked.function.unit(flow_of(self.asked.site, self.packets[number - 1])[0])

    def stepped(self, record, numbers):
        for number in numbers:
            record = self.asked.function.step(self.asked.site, record, self.packets[number - 1])[0]
        return record

    def seen(self, standing, numbers):
        """How many of the first packets the record that stands by is made of: there is one such number, and no other."""
        record, fits = None, []
        for count in range(len(numbers) + 1):
            if record == standing:
                fits.append(count)
            record = self.stepped(record, numbers[count : count + 1])
        (count,) = fits
        return count


def left_of(units, world, failing):
    """What is left in this world."""
    standby = world.nodes[network.node_of(failing.to)].standby
    processed, came = defaultdict(list), defaultdict(list)
    for kind, number, *_ in world.log:
        if kind == "processed":
            processed[units.of(number)].append(number)
        elif kind == "arrived":
            came[units.of(number)].append(number)
    left = Left({}, {}, {})
    for unit in sorted(world.nodes[network.node_of(failing.failed)].records):
        standing, done = standby.get(unit), processed[unit]
        left.standing[unit] = standing
        left.lost[unit] = done[units.seen(standing, done) :]
        left.pending[unit] = sorted(set(came[unit]) - set(done))
    return left


def numbered(word, by_unit):
    return [f"{word} {number}" for number in sorted(sum(by_unit.values(), []))]


def report(asked, trace, world, failing):
    """The lines of the report, as bytes."""
    units = Units(asked, trace)
    left = left_of(units, world, failing)
    failed, to = asked.names[failing.failed], asked.names[failing.to]
    spelled, record_text = asked.function.print_unit, asked.function.print_record
    lines = [
        "opennf failover 1",
        f"function {asked.function.name} instances {len(asked.names)} window {asked.window}",
        f"trace packets {len(trace.packets)} skipped {trace.skipped} {'cut' if trace.cut else 'whole'}",
        f"fail {failed} after {failing.after}",
    ]
    for unit, record in left.standing.items():
        lines.append(f"gone {spelled(unit)}" if record is None else f"promote {spelled(unit)} to {to} {record_text(record)}")
    lines += numbered("lost", left.lost) + numbered("open", left.pending)
    for unit, record in left.standing.items():
        caught = units.stepped(record, left.lost[unit] + left.pending[unit])
        lines.append(f"caught {spelled(unit)} {to} {record_text(caught)}")
    return "".join(line + "\n" for line in [*lines, "end"]).encode()


def failed_over(asked, choices, failing):
    """The report of a failover by the model. The choices are those of a journal, all of them."""
    trace, world = model.start(asked)
    step = run_first(world, choices, failing.after)
    if step is not None:
        raise model.Refusal(3, f"not a run at step {step}")
    return report(asked, trace, world, failing)


# --- How often one copies ---

EXAMPLES = os.path.join(os.path.dirname(os.path.abspath(__file__)), os.pardir, "examples")
WORDS = "sim conntrack --instances a,b --inside 10.0.0.0/24 --schedule 7".split()


def copies(interval, packets):
    """The lines of copies from a to b at an interval; before the last packet."""
    return [line for place in range(interval, packets, interval) for line in (f"at {place} copy a b any", f"at {place} settle")]


def left_at_each(lines):
    """What is left right after each packet that is processed, where a fails there; and how many choices the run has."""
    with tempfile.NamedTemporaryFile("w", suffix=".script", encoding="ascii") as script:
        script.writelines(line + "\n" for line in lines)
        script.flush()
        words = [*WORDS, os.path.join(EXAMPLES, "office.pcap"), script.name]
        asked = model.read_words([word.encode() for word in words])
        choices = model.simulate(asked)[1].choices
        trace, world = model.start(asked)
    units, found = Units(asked, trace), []
    for after, choice in enumerate(choices, 1):
        notes = len(world.log)
        world.take(choice)
        if any(note[0] == "processed" for note in world.log[notes:]):
            found.append(left_of(units, world, Failing(0, 1, after)))
    return found, len(choices)


def table():
    scripts = {"never": [], **{f"every {step} packets": copies(step, 138) for step in (40, 20, 10, 5)}, "after each packet": copies(1, 138)}
    scripts["a strict share in place of copies"] = ["at 0 share a,b any strict", "at 0 settle"]
    print("| copies | lost in the mean | lost at most | units gone at most | choices |\n|---|---|---|---|---|")
    for name, lines in scripts.items():
        found, choices = left_at_each(lines)
        lost = [sum(map(len, left.lost.values())) for left in found]
        gone = [sum(record is None for record in left.standing.values()) for left in found]
        print(f"| {name} | {sum(lost) / len(lost):.1f} | {max(lost)} | {max(gone)} | {choices} |")


def main(words):
    if not words:
        return table()
    failing, asked = Failing(*map(int, words[:3])), model.read_words([word.encode() for word in words[3:]])
    sys.stdout.buffer.write(failed_over(asked, model.simulate(asked)[1].choices, failing))


if __name__ == "__main__":
    main(sys.argv[1:])
