#!/usr/bin/env python3
"""Compares the journals, the audits and the runs by threads of the program with the model.

Use: audits.py PROGRAM SEED COUNT

First some journals that were worked out by hand, every fault of one, and the rows on copies and shares by threads. Then COUNT runs that are drawn by chance as in compare.py: a
simulation's journal has the choices of the model's schedule; what threads did is a run of the model with the same report; and an audit
of a journal, right or spoiled, answers what the model makes of its choices, and so does a failover of two of its instances. Right ones are those of simulations, of threads, and of
choices that the model takes by weights. A run that differs is left in a folder, which is named. The status is 1 where one does.
"""
import os
import random
import shutil
import struct
import sys
import tempfile
from collections import Counter

sys.dont_write_bytecode = True
import cases  # noqa: E402
import compare  # noqa: E402
import failover  # noqa: E402
import model  # noqa: E402
import network  # noqa: E402
import network_checks  # noqa: E402

JOURNAL = "journal"
KINDS = {"conntrack": 1, "nat": 2, "monitor": 3}
MOST_CHOICES = 200_000_000
MOST_PAIRS = 12


class Difference(Exception):
    """A run in which the program does something else: its words, what is wanted and what was given."""


# --- Journals ---


def journal_of(kind, instances, choices, count=None):
    header = struct.pack(">4sHBBQ", b"ONFJ", 1, kind, instances, len(choices) if count is None else count)
    return header + bytes(part for choice in choices for part in choice)


def choices_of(content, function, instances):
    """The choices of a journal, or the first check that fails."""
    letters, version, kind, nodes, count = struct.unpack(">4sHBBQ", content[:16].ljust(16, b"\0"))
    checks = (
        ("short", len(content) >= 16),
        ("magic", letters == b"ONFJ"),
        ("version", version == 1),
        ("kind", kind == KINDS[function.name]),
        ("count", nodes == instances and count <= MOST_CHOICES),
        ("short", len(content) >= 16 + 2 * count),
        ("extra", len(content) <= 16 + 2 * count),
    )
    for fault, holds in checks:
        if not holds:
            raise model.Refusal(2, f"journal: {fault}")
    return list(zip(content[16::2], content[17::2]))


def audit(asked, content):
    """The report of an audit by the model."""
    trace, world = model.start(asked)
    step = network.run_told(world, choices_of(content, asked.function, len(asked.names)))
    if step is not None:
        raise model.Refusal(3, f"not a run at step {step}")
    return model.report(asked, trace, world)


def audited(words, content, is_summary=False):
    """What the model makes of an audit: the status and both outputs. The words are those of a simulation."""
    asked = model.read_words([word.encode() for word in words])._replace(is_summary=is_summary)
    try:
        return 0, audit(asked, content), b""
    except model.Refusal as refusal:
        return refusal.status, b"", f"opennf: {refusal.line}\n".encode()


def failed_over(words, content, failing):
    """What the model makes of a failover: the status and both outputs."""
    asked = model.read_words([word.encode() for word in words])
    try:
        model.start(asked)
        return 0, failover.failed_over(asked, choices_of(content, asked.function, len(asked.names)), failing), b""
    except model.Refusal as refusal:
        return refusal.status, b"", f"opennf: {refusal.line}\n".encode()


# --- The program ---


def unscheduled(command, words, *more):
    """The words of another command, from those of a simulation, and more options."""
    words = list(words)
    if "--schedule" in words:
        place = words.index("--schedule")
        words = words[:place] + words[place + 2 :]
    return [command, *words[1:], *more]


def hold(program, words, wanted):
    """The program does what is wanted."""
    given = compare.by_program(program, words)
    if given != wanted:
        raise Difference(words, wanted, given)


def hold_audit(program, words, content, wanted, is_summary=False):
    with open(JOURNAL, "wb") as file:
        file.write(content)
    more = ["--summary"] if is_summary else []
    hold(program, unscheduled("audit", words, "--journal", JOURNAL, *more), wanted)
    os.remove(JOURNAL)


def hold_failover(program, words, content, failing, wanted):
    names = compare.names_in(words)
    asked = "--failed", names[failing.failed], "--to", names[failing.to], "--after", str(failing.after)
    with open(JOURNAL, "wb") as file:
        file.write(content)
    hold(program, unscheduled("fail", words, "--journal", JOURNAL, *asked), wanted)
    os.remove(JOURNAL)


def journal_left():
    """The journal's file, which is taken away."""
    if not os.path.exists(JOURNAL):
        return None
    with open(JOURNAL, "rb") as file:
        content = file.read()
    os.remove(JOURNAL)
    return content


# --- Journals by hand ---


def choices_by_hand(text):
    return [(int(node), int(port)) for node, port in text.split()]


def words_by_hand(name, frames, lines, *more, instances="a,b"):
    """The words of a run with this capture and this script, which are written beside."""
    with open(f"{name}.pcap", "wb") as file:
        file.write(cases.capture_of(frames))
    with open(f"{name}.script", "w", encoding="ascii") as file:
        file.write("".join(line + "\n" for line in lines))
    return cases.network_words("conntrack", instances, f"{name}.pcap", f"{name}.script", more)


def report_of(packets, lines, window=256):
    head = ["opennf report 1", f"function conntrack instances 2 window {window}", f"trace packets {packets} skipped 0 whole"]
    return "".join(line + "\n" for line in [*head, *lines, "end"]).encode()


def failover_of(packets, lines):
    head = ["opennf failover 1", "function conntrack instances 2 window 256", f"trace packets {packets} skipped 0 whole"]
    return "".join(line + "\n" for line in [*head, *lines, "end"]).encode()


def check_by_hand(program):
    """A move that keeps the order of three packets, and one by which they pass one another. Then each way to spoil the first."""
    kept, loose = map(choices_by_hand, (network_checks.KEPT, network_checks.LOOSE))
    words = words_by_hand("kept", cases.HANDSHAKE, ["at 1 move a b any order"])
    tallies = ["answer 1 done", cases.connection("established", "b", 3), "tally a 0 0", "tally b 0 3"]
    outs = ["out 1 opening", "out 2 answered", "out 3 established", *cases.dones("1b 2b 3b")]
    hold_audit(program, words, journal_of(1, 2, kept), (0, report_of(3, [*outs, *tallies]), b""))
    plain = words_by_hand("loose", cases.HANDSHAKE, ["at 1 move a b any lossfree"])
    tallies[1] = cases.connection("answered", "b", 3)
    outs = ["out 1 opening", "out 2 answered", "out 3 opening", *cases.dones("1b 3b 2b")]
    hold_audit(program, plain, journal_of(1, 2, loose), (0, report_of(3, [*outs, *tallies]), b""))
    whole = journal_of(1, 2, kept)
    faults = (
        (2, "journal: short", whole[:15]),
        (2, "journal: short", b""),
        (2, "journal: magic", b"ONFX" + whole[4:]),
        (2, "journal: version", whole[:4] + b"\0\2" + whole[6:]),
        (2, "journal: kind", whole[:6] + b"\2" + whole[7:]),
        (2, "journal: count", whole[:7] + b"\3" + whole[8:]),
        (2, "journal: count", journal_of(1, 2, [], MOST_CHOICES + 1)),
        (2, "journal: count", journal_of(1, 2, [], 2**64 - 1)),
        (2, "journal: short", journal_of(1, 2, [], MOST_CHOICES)),
        (2, "journal: short", whole[:-1]),
        (2, "journal: extra", whole + b"\0"),
        (3, "not a run at step 6", journal_of(1, 2, kept[:4] + kept[5:])),
        (3, "not a run at step 38", journal_of(1, 2, kept[:-1])),
        (3, "not a run at step 39", journal_of(1, 2, [*kept, (0, 0)])),
        (3, "not a run at step 1", journal_of(1, 2, [])),
        (3, "not a run at step 1", journal_of(1, 2, [(255, 255)])),
    )
    for status, line, content in faults:
        wanted = status, b"", f"opennf: {line}\n".encode()
        hold_audit(program, words, content, wanted)
        if audited(words, content) != wanted:
            sys.exit(f"audits.py: the model's line on a journal isn't the one that was worked out by hand: {line}")
    one = words_by_hand("one", cases.HANDSHAKE, ["at 1 move a b any order"], "--window", "1")
    hold_audit(program, one, whole, (3, b"", b"opennf: not a run at step 18\n"))


# A copy after the first of three packets of one flow, which the second passes and the third hasn't met; and a packet without a copy.
COPIED = "00 20 02 00 10 21 12 31 13 01 00 00 20 00"


def check_failovers_by_hand(program):
    question, unit = cases.question(1), "udp 10.0.0.1:5000 192.0.2.9:53"
    copied = words_by_hand("copied", [question] * 3, ["at 1 copy a b any", "at 1 settle"])
    lines = [
        "fail a after 14",
        f"promote {unit} to b single out packets 1 bytes 20",
        "lost 2",
        "open 3",
        f"caught {unit} b single out packets 3 bytes 60",
    ]
    choices = choices_by_hand(COPIED)
    wanted = 0, failover_of(3, lines), b""
    rows = [(copied, choices, failover.Failing(0, 1, 14), wanted)]
    alone = words_by_hand("alone", [question], [])
    lines = ["fail a after 2", f"gone {unit}", "lost 1", f"caught {unit} b single out packets 1 bytes 20"]
    rows.append((alone, choices[:2], failover.Failing(0, 1, 2), (0, failover_of(1, lines), b"")))
    rows.append((alone, choices[:2], failover.Failing(0, 1, 0), (0, failover_of(1, ["fail a after 0"]), b"")))
    rows.append((alone, choices[:2], failover.Failing(0, 1, 3), (3, b"", b"opennf: not a run at step 3\n")))
    rows.append((alone, choices[1:], failover.Failing(0, 1, 3), (3, b"", b"opennf: not a run at step 1\n")))
    for words, told, failing, wanted in rows:
        content = journal_of(1, 2, told)
        hold_failover(program, words, content, failing, wanted)
        if failed_over(words, content, failing) != wanted:
            sys.exit(f"audits.py: the model's failover isn't the one that was worked out by hand: {wanted}")


def check_threads_by_hand(program):
    """Runs whose report is the same whatever the threads do: a move before all packets, and one of 130 units by a window of 1."""
    early = words_by_hand("early", cases.HANDSHAKE, ["at 0 move a b any order", "at 0 settle"])
    lines = ["out 1 opening", "out 2 answered", "out 3 established", *cases.dones("1b 2b 3b"), "answer 1 done"]
    report = report_of(3, [*lines, cases.connection("established", "b", 3), "tally a 0 0", "tally b 0 3"])
    hold(program, unscheduled("run", early, "--journal", JOURNAL), (0, report, b""))
    hold_audit(program, early, journal_left(), (0, report, b""))
    check_crowd(program)


def check_crowd(program):
    """A move of 130 units, whose records go in three pieces. The last packet is of a unit that came before: it alone may meet the move."""
    hosts = [*range(1, 131), 1]
    outs = [f"out {number} single" for number in range(1, 132)]
    dones = [f"done {number} a" for number in range(1, 131)]
    for limit, answer, places in ("", "done", "ab"), (":130", "done", "ab"), (":129", "import 0 130 129", "a"):
        lines = ["at 131 move a b any order", "at 131 settle"]
        words = words_by_hand("crowd", map(cases.question, hosts), lines, "--window", "1", instances=f"a,b{limit}")
        home = "b" if answer == "done" else "a"
        states = [cases.host_state(host, home, 2 if host == 1 else 1) for host in hosts[:130]]
        tallies = {"a": ["tally a 131 0", "tally b 0 0"], "b": ["tally a 130 0", "tally b 0 1"]}
        reports = [
            report_of(131, [*outs, *dones, f"done 131 {place}", f"answer 1 {answer}", *states, *tallies[place]], window=1)
            for place in places
        ]
        running = unscheduled("run", words, "--journal", JOURNAL)
        given = compare.by_program(program, running)
        if given not in [(0, report, b"") for report in reports]:
            raise Difference(running, (0, reports[0], b""), given)
        hold_audit(program, words, journal_left(), given)


def check_rows(program):
    """The rows on copies and shares by threads, in a window as it is and one of 1: the report is what the model makes of the journal, and
    an audit's. Where nothing can change it, it is the one that was worked out by hand."""
    for name, (function, instances, frames, lines, more, report) in {**cases.rows_on_copies(), **cases.rows_on_shares()}.items():
        with open("row.pcap", "wb") as file:
            file.write(cases.capture_of(frames))
        with open("row.script", "w", encoding="ascii") as file:
            file.write("".join(line + "\n" for line in lines))
        site = more[:2] if more[:1] == ["--outside"] else []
        for window in 256, 1:
            words = cases.network_words(function, instances, "row.pcap", "row.script", [*site, "--window", str(window)])
            running = unscheduled("run", words, "--journal", JOURNAL)
            given = compare.by_program(program, running)
            content = journal_left() or b""
            wanted = audited(words, content)
            if name in cases.SETTLED_ROWS:
                head = f"opennf report 1\nfunction {function} instances {instances.count(',') + 1} window {window}\n"
                head += f"trace packets {len(frames)} skipped 0 whole\n"
                wanted = 0, (head + "".join(line + "\n" for line in [*report, "end"])).encode(), b""
            if given != wanted:
                raise Difference(running, wanted, given)
            hold_audit(program, words, content, given)


# --- Journals by chance ---


def spoiled(chance, content):
    """A journal that is changed at a place: a choice more, less, other or moved, a byte of the header, or a byte more or less."""
    header, choices = content[:8], [content[place : place + 2] for place in range(16, len(content), 2)]
    place = chance.randrange(len(choices) + 1)
    other = bytes([chance.choice([0, 0, 1, 2, 3, 17, 255]), chance.choice([0, 1, 2, 3, 17, 255])])
    way = chance.choice(["more", "less", "other", "moved", "moved", "end", "header", "byte", "cut"])
    if way == "header":
        return content[: place % 16] + bytes([chance.choice([0, 1, 2, 3, 255])]) + content[place % 16 + 1 :]
    if way == "byte":
        return content + chance.randbytes(chance.choice([1, 2, 3]))
    if way == "cut":
        return content[: chance.randrange(len(content) + 1)]
    if way == "more":
        choices.insert(place, other)
    elif way == "less":
        del choices[place : place + 1]
    elif way == "other":
        choices[place : place + 1] = [other]
    elif way == "moved":
        choices[place : place + 2] = reversed(choices[place : place + 2])
    else:
        del choices[place:]
    return header + struct.pack(">Q", len(choices)) + b"".join(choices)


def right_journal(chance, program, words, asked):
    """A journal of a run of these words, held to the model's choices or to its report."""
    source = chance.choice(["sim", "run", "run", "weights"])
    if source == "weights":
        _, world = model.start(asked)
        network_checks.run_by_weights(world, chance)
        return journal_of(KINDS[asked.function.name], len(asked.names), world.choices)
    if source == "sim":
        trace, world = model.simulate(asked)
        hold(program, [*words, "--journal", JOURNAL], (0, model.report(asked, trace, world), b""))
        content, wanted = journal_left(), journal_of(KINDS[asked.function.name], len(asked.names), world.choices)
        if content != wanted:
            raise Difference([*words, "--journal", JOURNAL], (0, wanted, b""), (0, content, b""))
        return content
    running = unscheduled("run", words, "--journal", JOURNAL)
    given = compare.by_program(program, running)
    content = journal_left() or b""
    if given != audited(words, content):
        raise Difference(running, audited(words, content), given)
    return content


def check_by_chance(chance, program, answers):
    words = compare.chance_words(chance)
    asked = model.read_words([word.encode() for word in words])
    try:
        model.start(asked)
    except model.Refusal as refusal:
        wanted = refusal.status, b"", f"opennf: {refusal.line}\n".encode()
        hold(program, unscheduled("run", words, "--journal", JOURNAL), wanted)
        if journal_left() is not None:
            raise Difference(words, "no journal", "a journal")
        hold_audit(program, words, b"", wanted)
        answers["refused"] += 1
        return
    content = right_journal(chance, program, words, asked)
    journals = [content, *(spoiled(chance, content) for _ in range(4))]
    for journal in journals:
        is_summary = chance.random() < 0.3
        wanted = audited(words, journal, is_summary)
        hold_audit(program, words, journal, wanted, is_summary)
        answers[" ".join(wanted[2].decode().split()[1:3]) or "a report"] += 1
        check_failovers(chance, program, words, journal)


def check_failovers(chance, program, words, journal):
    """A failover at a place by chance, for each pair of instances, or for some where there are many."""
    places = range(len(compare.names_in(words)))
    pairs = [(failed, to) for failed in places for to in places if failed != to]
    count = max(len(journal) - 16, 0) // 2
    for failed, to in chance.sample(pairs, min(len(pairs), MOST_PAIRS)):
        failing = failover.Failing(failed, to, chance.randrange(count + 3))
        hold_failover(program, words, journal, failing, failed_over(words, journal, failing))


def keep(name, difference):
    """Leaves the run in a folder of its own."""
    words, wanted, given = difference.args
    folder = tempfile.mkdtemp(prefix=f"audits-{name}-")
    shutil.copytree(os.curdir, folder, dirs_exist_ok=True)
    with open(os.path.join(folder, "words"), "w", encoding="utf-8") as file:
        file.write(" ".join(words) + "\n")
    for side, content in ("wanted", wanted), ("given", given):
        with open(os.path.join(folder, side), "w", encoding="utf-8") as file:
            file.write(repr(content) + "\n")
    return folder


def main(arguments):
    if len(arguments) != 3 or not arguments[2].isdigit():
        sys.exit("use: audits.py PROGRAM SEED COUNT")
    program, seed, count = os.path.abspath(arguments[0]), arguments[1], int(arguments[2])
    answers, name = Counter(), "hand"
    with tempfile.TemporaryDirectory() as folder:
        os.chdir(folder)
        try:
            check_by_hand(program)
            check_failovers_by_hand(program)
            check_threads_by_hand(program)
            check_rows(program)
            for place in range(count):
                name = str(place)
                check_by_chance(random.Random(f"{seed} {place}"), program, answers)
        except Difference as difference:
            print(f"audits.py: run {name} of seed {seed} differs: {keep(name, difference)}")
            return 1
        finally:
            os.chdir(os.sep)
    print(f"audits.py: {count} runs and their audits are as the model has them; answers {dict(sorted(answers.items()))}")
    return 0


if __name__ == "__main__":
    sys.exit(main(sys.argv[1:]))
