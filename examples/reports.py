"""Reads the reports of runs, and the scripts and captures that they are of: for examples/draw and examples/json.

A report tells where each packet was processed, and not of which unit it is. With the capture, the site and the script it can be told
which units a move had to take, how many of them had a record then, and which packets its destination processed of them.
"""
import re
from collections import Counter
from typing import NamedTuple, Optional

from flows import Fault, Filter, count_of, number_of, read_capture, site_of, unit_in, unit_of


MOST_BYTES = 1 << 28  # of a report or a script


def read_text(name):
    try:
        with open(name, "rb") as file:
            content = file.read(MOST_BYTES + 1)
    except OSError as fault:
        raise Fault(f"{name}: {fault.strerror}") from None
    if len(content) > MOST_BYTES:
        raise Fault(f"{name}: is longer than {MOST_BYTES:,} bytes")
    try:
        return content.decode("utf-8")
    except UnicodeDecodeError:
        raise Fault(f"{name}: isn't a text") from None


# --- The report ---

NAME, NUMBER = "[a-z0-9]{1,16}", "[0-9]{1,9}"
UNIT = r"(?:tcp|udp) [\d.]+:\d+ [\d.]+:\d+|[\d.]+"
TOP_FORMS = {
    "function": r"function (conntrack|nat|monitor) instances (\d{1,2}) window (\d{1,4})",
    "trace": r"trace packets (\d{1,7}) skipped (\d{1,10}) (whole|cut)",
}
# The lines of a report by their first words, in their order.
FORMS = {
    "opennf": "opennf (report|published|strong) 1",
    **TOP_FORMS,
    "out": r"out (\d{1,7}) ([ -~]+)",
    "event": rf"event (\d{{1,7}}) ({NAME})",
    "done": rf"done (\d{{1,7}}) ({NAME})",
    "answer": rf"answer (\d{{1,4}}) (done|no packet|unknown {NAME}|overlap {NUMBER}|old {NUMBER} {NUMBER}|import {NUMBER} {NUMBER} {NUMBER})",
    "state": rf"state ({UNIT}) ({NAME}) ([ -~]+)",
    "standby": rf"standby ({UNIT}) ({NAME}) ([ -~]+)",
    "live": rf"live ({NAME}) ({NUMBER})",
    "tally": rf"tally ({NAME}) ({NUMBER}(?: {NUMBER}){{0,15}})",
    "end": "end",
}


class Report(NamedTuple):
    """What the lines of a report say. An instance is its place in `names`."""

    file: str
    kind: str  # the second word of its first line
    function: str
    window: int
    packets: int
    skipped: int
    is_cut: bool
    names: list
    outputs: dict  # by packet
    queued: list  # of (packet, instance), in the order of the queue of strong sharing
    done: list  # of (packet, instance), in the order of processing
    answers: dict  # by command
    records: list  # for each instance its (unit, record)
    standing: list  # for each instance the (unit, record) that stand by there
    live: list  # how many records each instance has
    tallies: list  # for each instance how many packets each one has processed, as far as it knows
    is_summary: bool

    def processed(self, instance):
        return self.tallies[instance][instance]


def lines_by_word(name, text, forms, beside=None):
    """The fields of a report's lines, by their first words. The lines stand in the order of the forms, but for those beside others."""
    order, found, place = list(forms), {word: [] for word in forms}, 0
    *lines, rest = text.split("\n")
    if rest:
        raise Fault(f"{name}: ends within a line")
    for number, line in enumerate(lines, 1):
        word = line.split(" ")[0]
        match = re.fullmatch(forms.get(word, "(?!)"), line, re.ASCII)
        if not match:
            raise Fault(f"{name} line {number}: isn't a line of a report")
        at = order.index((beside or {}).get(word, word))
        if at < place or (word in ("opennf", "function", "trace", "end") and found[word]):
            raise Fault(f"{name} line {number}: stands in a wrong place")
        place = at
        found[word].append(match.groups())
    return found


def report_of(name, text):
    found = lines_by_word(name, text, FORMS)
    for word in "opennf", "function", "trace", "tally", "end":
        if not found[word]:
            raise Fault(f"{name}: has no line '{word}'")
    (function, instances, window), (packets, skipped, end) = found["function"][0], found["trace"][0]
    (kind,) = found["opennf"][0]
    names = [instance for instance, _ in found["tally"]]
    check_names(name, found, names, int(instances))
    records = {word: [[] for _ in names] for word in ("state", "standby")}
    for word, held in records.items():
        for unit, instance, record in found[word]:
            held[names.index(instance)].append((unit, record))
    live = {instance: int(count) for instance, count in found["live"]}
    report = Report(
        file=name,
        kind=kind,
        function=function,
        window=int(window),
        packets=int(packets),
        skipped=int(skipped),
        is_cut=end == "cut",
        names=names,
        outputs={int(number): output for number, output in found["out"]},
        queued=instances_of(found["event"], names),
        done=instances_of(found["done"], names),
        answers={int(number): answer for number, answer in found["answer"]},
        records=records["state"],
        standing=records["standby"],
        live=[live[instance] for instance in names] if live else list(map(len, records["state"])),
        tallies=[[int(count) for count in counts.split(" ")] for _, counts in found["tally"]],
        is_summary=bool(live),
    )
    check_counts(report)
    return report


def instances_of(lines, names):
    return [(int(number), names.index(instance)) for number, instance in lines]


def check_names(name, found, names, instances):
    """Each instance has one tally, and a summary one count of live records for each."""
    if len(set(names)) != instances or any(counts.count(" ") + 1 != len(names) for _, counts in found["tally"]):
        raise Fault(f"{name}: hasn't one tally for each of {count_of(instances, 'instance')}")
    for instance in [line[1] for word in ("event", "done", "state", "standby") for line in found[word]]:
        if instance not in names:
            raise Fault(f"{name}: has no tally of instance {instance}")
    if found["live"] and [instance for instance, _ in found["live"]] != names:
        raise Fault(f"{name}: hasn't one line 'live' for each of {count_of(instances, 'instance')}")


def check_counts(report):
    """The packets and commands of a run that came to its end are numbered from 1, and each stands there once."""
    numbers = [] if report.is_summary else list(range(1, report.packets + 1))
    if sorted(number for number, _ in report.done) != numbers or sorted(report.outputs) != numbers:
        raise Fault(f"{report.file}: hasn't one line 'out' and one line 'done' for each of {count_of(report.packets, 'packet')}")
    if sum(map(report.processed, range(len(report.names)))) != report.packets:
        raise Fault(f"{report.file}: its tallies don't add up to {count_of(report.packets, 'packet')}")
    if len(set(report.queued)) != len(report.queued) or not set(report.queued) <= set(report.done):
        raise Fault(f"{report.file}: has a packet twice in its queue, or one that another instance processed")
    if sorted(report.answers) != list(range(1, len(report.answers) + 1)):
        raise Fault(f"{report.file}: its answers aren't numbered from 1")


# --- The script ---


class Command(NamedTuple):
    """A command of a script."""

    behind: int  # the packet that it stands behind
    words: list  # from `move`, `copy` or `share` on
    names: list  # the instances that it names
    flows: Optional[Filter]  # None is a copy of the tally


class Script(NamedTuple):
    routes: list  # of (filter, name)
    commands: list


def read_script(name, report):
    """A script with as many commands as the report has answers. What breaks its rules is for `opennf check` to say."""
    script = Script([], [])
    for number, line in enumerate(read_text(name).split("\n"), 1):
        words = line.removesuffix("\r").replace("\t", " ").split()
        if not words or words[0].startswith("#") or words[2:] == ["settle"]:
            continue
        try:
            add_line(script, words)
        except ValueError:
            raise Fault(f"{name} line {number}: isn't a line of a script") from None
    if len(script.commands) != len(report.answers):
        raise Fault(f"{name}: has {count_of(len(script.commands), 'command')}, and the report {count_of(len(report.answers), 'answer')}")
    if any(instance not in report.names for _, instance in script.routes):
        raise Fault(f"{name}: has a route to an instance that the report doesn't have")
    return script


def add_line(script, words):
    kind = " ".join(words[:1] + words[2:3])
    if len(words) == 3 and words[0] == "route":
        script.routes.append((Filter(words[1]), words[2]))
    elif kind == "at move" and len(words) == 7 and words[6] in ("order", "lossfree"):
        script.commands.append(Command(number_of(words[1], 2**32 - 1), words[2:], words[3:5], Filter(words[5])))
    elif kind == "at copy" and len(words) == 6:
        flows = None if words[5] == "all" else Filter(words[5])
        script.commands.append(Command(number_of(words[1], 2**32 - 1), words[2:], words[3:5], flows))
    elif kind == "at share" and len(words) == 6 and words[5] == "strict":
        script.commands.append(Command(number_of(words[1], 2**32 - 1), words[2:], words[3].split(","), Filter(words[4])))
    else:
        raise ValueError(words)


# --- What each move took ---


class Stay(NamedTuple):
    """A part of a run in which the packets of a unit go to one instance, or to the members of a share."""

    command: int  # the one that led there, 0 for the routes
    behind: int  # the packet that it stands behind
    at: set


class Taking(NamedTuple):
    """What a move took from its source."""

    records: Optional[int]  # None where it can't be told
    first: Optional[int]  # of the units that it had to take, the least packet that was processed at the destination


def stays_of(unit, script, report):
    """Where the packets of a unit go in turn, by the routes and by what is answered `done`."""
    at = next((name for flows, name in script.routes if flows.takes(unit)), report.names[0])
    stays = [Stay(0, -1, {at})]
    for number, command in enumerate(script.commands, 1):
        verb = command.words[0]
        if verb == "copy" or report.answers[number] != "done" or command.names[0] != at or not command.flows.takes(unit):
            continue
        if verb == "share":
            return [*stays, Stay(number, command.behind, set(command.names))]
        at = command.names[1]
        stays.append(Stay(number, command.behind, {at}))
    return stays


def places_of(done, stays, fault):
    """For each packet of a unit, as (number, instance) in the order of processing, its stay by its place in the list. Where an
    instance is that of several stays, it is the last one whose command came before the packet, if what follows lets it be."""
    latest, last = [], len(stays) - 1
    for _, name in reversed(done):
        while last >= 0 and name not in stays[last].at:
            last -= 1
        latest.append(last)
    places, now = [], 0
    for (number, name), most in zip(done, reversed(latest)):
        while now <= most and name not in stays[now].at:
            now += 1
        if now > most:
            raise fault
        now = next((place for place in range(most, now, -1) if name in stays[place].at and stays[place].behind < number), now)
        places.append(now)
    return places


def takings_of(report, script, packets):
    """For each command what it took, None for what isn't a move. Without packets it is only told where a move found no record."""
    takings = [Taking(None, None) if command.words[0] == "move" else None for command in script.commands]
    for number, answer in report.answers.items():
        if takings[number - 1] and answer != "done":
            takings[number - 1] = Taking(0, None)
    if packets is None or report.is_summary:
        return takings if report.is_summary else with_nothing(takings, report, script)
    fault = Fault(f"{report.file}: its packets aren't where the script and the capture lead them")
    done = {}
    for number, instance in report.done:
        done.setdefault(unit_of(report.function, packets[number - 1].flow), []).append((number, report.names[instance]))
    if set(done) != {unit_in(unit) for held in report.records for unit, _ in held}:
        raise Fault(f"{report.file}: its units aren't those of the capture at this site")
    records, firsts = Counter(), {}
    for unit, dones in done.items():
        stays = stays_of(unit, script, report)
        places = places_of(dones, stays, fault)
        for place, stay in enumerate(stays[1:], 1):
            records[stay.command] += places[0] < place
            here = [number for (number, _), at in zip(dones, places) if at == place]
            firsts[stay.command] = min([*here, firsts.get(stay.command, report.packets + 1)])
    return [
        Taking(records[number], first if (first := firsts.get(number, report.packets + 1)) <= report.packets else None)
        if taking and taking.records is None
        else taking
        for number, taking in enumerate(takings, 1)
    ]


def with_nothing(takings, report, script):
    """A move that had to take no unit of the report took no record."""
    had_to = {stay.command for held in report.records for unit, _ in held for stay in stays_of(unit_in(unit), script, report)}
    return [
        Taking(0, None) if taking and number not in had_to else taking for number, taking in enumerate(takings, 1)
    ]


# --- Words ---


class Asked(NamedTuple):
    """A report, and what belongs to it as far as the words name it."""

    report: Report
    script: Optional[Script]
    packets: Optional[list]
    takings: list  # for each command; empty without the script


OPTIONS = "--script", "--trace", "--inside", "--outside"
USE = "[--script SCRIPT] [--trace CAPTURE --inside PREFIX [--outside ADDR]] REPORT"


def read_words(program, words):
    """What the words of a command line name."""
    given, name = given_words(program, words)
    return asked_of(given, name, read_text(name))


def given_words(program, words):
    """The options of a command line with their values, and the name of the report."""
    given, words = {}, list(words)
    while len(words) > 1 and words[0] in OPTIONS and words[0] not in given:
        option, value, *words = words
        given[option] = value
    has_trace = "--trace" in given
    if len(words) != 1 or words[0].startswith("-") or has_trace != ("--inside" in given) or has_trace < ("--outside" in given):
        raise Fault(f"use: {program} {USE}")
    return given, words[0]


def asked_of(given, name, text):
    """A report, and what else the options name."""
    report = report_of(name, text)
    script = read_script(given["--script"], report) if "--script" in given else None
    packets = None
    if "--trace" in given:
        packets = read_capture(given["--trace"], site_of(given["--inside"], given.get("--outside")), report.packets)
    return Asked(report, script, packets, takings_of(report, script, packets) if script else [])
