#!/usr/bin/env python3
"""Holds the model's network to what every run keeps, over runs drawn by chance.

Use: network_checks.py SEED COUNT

Each run has a function, instances, limits, marks, a window, a script of routes, moves, copies, shares and settles, and packets of a few
hosts. Its choices are taken first, last, by a number, or with a weight for each link, so that some links are seldom looked at. `check`
looks at one run that has ended. It knows the function's table for the packets of one unit, the script and the log of the run.
Before them two runs are held to what was worked out by hand, choice by choice.
"""
import random
import sys
from collections import Counter

sys.dont_write_bytecode = True
import model  # noqa: E402
import network  # noqa: E402
import script_reader  # noqa: E402
from functions import FUNCTIONS, TCP, UDP, Prefix, Site, flow_of  # noqa: E402


class Broken(Exception):
    """What doesn't hold of a run."""


def hold(holds, *what):
    if not holds:
        raise Broken(*what)


class Run:
    """A run that has ended, and what its log says of units and commands."""

    def __init__(self, asked, script, trace, world):
        self.asked = asked
        self.script = script
        self.packets = trace.packets
        self.world = world
        self.log = world.log
        self.commands = {command.number: command for _, command in script.lines if command}
        self.answers = {op: answer for kind, op, answer in self.notes("answered")}
        self.units = [self.unit_of(packet) for packet in trace.packets]

    def unit_of(self, packet):
        return self.asked.function.unit(flow_of(self.asked.site, packet)[0])

    def notes(self, kind):
        return [note for note in self.log if note[0] == kind]

    def place_of(self, note):
        return self.log.index(note)

    def takes(self, command, unit):
        return self.asked.function.takes(command.flows, unit)

    def ends(self, command):
        return [self.asked.names.index(name) for name in command.names]

    def owner(self, unit, log):
        """The instance that the unit's packets go to after these notes."""
        routes = [*self.script.routes, (network.ANY, 0)]
        owner = next(instance for flows, instance in routes if self.asked.function.takes(flows, unit))
        for kind, op, *_ in log:
            if kind == "installed" and self.commands[op].verb == "move" and self.takes(self.commands[op], unit):
                source, destination = self.ends(self.commands[op])
                owner = destination if owner == source else owner
        return owner

    def share_of(self, unit, log):
        """The share whose Installed note is among these and that covers the unit, and None without one."""
        ops = (op for kind, op, *_ in log if kind == "installed" and self.commands[op].verb == "share")
        return next((op for op in ops if self.covers(op, unit)), None)

    def member_of(self, op, number):
        """The member of a share that processes a packet."""
        flow = flow_of(self.asked.site, self.packets[number - 1])[0]
        members = self.ends(self.commands[op])
        return members[(flow.local[1] + flow.remote[1] + flow.remote[0]) % len(members)]

    def covers(self, op, unit):
        """The command takes the unit, whose packets went to its source, or to the home of what it shares, when it began."""
        begun = self.place_of(("begun", op))
        return self.takes(self.commands[op], unit) and self.owner(unit, self.log[:begun]) == self.ends(self.commands[op])[0]


def check(run):
    check_packets(run)
    check_records(run)
    check_tallies(run)
    check_standby(run)
    check_answers(run)
    check_refused(run)
    check_settles(run)
    check_shared(run)


def check_packets(run):
    """Each packet is processed once, at a place where it may be, and in order within a unit that no plain move covered."""
    done = [number for _, number, *_ in run.notes("processed")]
    hold(sorted(done) == list(range(1, len(run.packets) + 1)), "packets", done)
    hold([number for _, number in run.notes("arrived")] == sorted(done), "arrivals")
    for unit in set(run.units):
        loose = any(
            run.commands[op].how == "lossfree" and run.covers(op, unit) for _, op in run.notes("installed")
        )
        of_unit = [number for number in done if run.units[number - 1] == unit]
        hold(loose or of_unit == sorted(of_unit), "order", unit, of_unit)


def check_records(run):
    """Outputs and records are those of the unit's packets one after another, and each record is at its owner alone."""
    instances = run.world.nodes[2:]
    for unit in set(run.units):
        record = None
        for _, number, _, output in run.notes("processed"):
            if run.units[number - 1] == unit:
                record, wanted = run.asked.function.step(run.asked.site, record, run.packets[number - 1])
                hold(output == wanted, "output", number, output, wanted)
        places = [place for place, instance in enumerate(instances) if unit in instance.records]
        hold(places == [run.owner(unit, run.log)], "places", unit, places)
        hold(instances[places[0]].records[unit] == record, "record", unit)
    hold(sum(len(instance.records) for instance in instances) == len(set(run.units)), "records")
    for instance in instances:
        hold(not instance.held and not any(op in run.commands and run.answers[op] == "done" for op in instance.rules), "left")


def check_tallies(run):
    """Each instance has counted its own packets, and of another no more than that one; without copies of tallies none."""
    counts = Counter(instance for _, _, instance, _ in run.notes("processed"))
    are_copied = any(command.flows is None for command in run.commands.values())
    for place, instance in enumerate(run.world.nodes[2:]):
        for slot, count in enumerate(instance.tally):
            most = counts[slot] if slot == place or are_copied else 0
            hold(count == most if slot == place else count <= most, "tally", place, instance.tally)


def check_standby(run):
    """What stands by of a unit is its record after the packets that were processed before the latest of the copies that were kept; at
    the members of a share but its home, after all that were processed up to then, by itself too."""
    records, given = {}, {}  # by unit: its records so far; by copy and unit: how many packets were processed before
    wanted = [{} for _ in run.asked.names]
    for place, (kind, number, *rest) in enumerate(run.log):
        if kind == "processed":
            unit = run.units[number - 1]
            so_far = records.setdefault(unit, [])
            before = so_far[-1] if so_far else None
            so_far.append(run.asked.function.step(run.asked.site, before, run.packets[number - 1])[0])
            if rest[0] != run.owner(unit, run.log[:place]) and run.share_of(unit, run.log[:place]) is not None:
                wanted[rest[0]][unit] = len(so_far)
        elif kind == "exported":
            given.update(((number, unit), len(records[unit])) for unit in rest[1])
        elif kind == "kept" and run.commands[number].verb == "copy":
            for unit in rest[1]:
                wanted[rest[0]][unit] = max(wanted[rest[0]].get(unit, 0), given[number, unit])
        elif kind == "kept" and rest[0] != run.ends(run.commands[number])[0]:
            wanted[rest[0]].update((unit, len(records[unit])) for unit in rest[1])
    for instance, places in zip(run.world.nodes[2:], wanted):
        hold(instance.standby == {unit: records[unit][count - 1] for unit, count in places.items()}, "standby", instance.standby)


def check_answers(run):
    """Each command has one answer, and it is the true one."""
    hold(sorted(op for _, op, _ in run.notes("answered")) == sorted(run.commands), "answers")
    live = [set() for _ in run.asked.names]
    open_commands = set()
    coming = {}
    for kind, op, *rest in run.log:
        if kind == "processed":
            live[rest[0]].add(run.units[op - 1])
        elif kind == "kept" and run.commands[op].verb == "share" and rest[0] == run.ends(run.commands[op])[0]:
            live[rest[0]] |= set(rest[1])
        elif kind == "exported" and run.commands[op].verb != "move":
            hold(set(rest[1]) == {unit for unit in live[rest[0]] if run.takes(run.commands[op], unit)}, "copied", op)
        elif kind == "exported":
            coming[op] = rest[1]
            live[rest[0]] -= set(rest[1])
            wanted = {unit for unit in set(run.units) if run.covers(op, unit)}
            hold(set(rest[1]) <= wanted, "exported", op)
        elif kind == "imported":
            live[rest[0]] |= set(rest[1])
        elif kind == "begun":
            open_commands.add(op)
        elif kind == "answered":
            check_answer(run, op, rest[0], open_commands, coming.get(op))
            if run.commands[op].verb != "share":
                open_commands.discard(op)


def check_answer(run, op, answer, open_commands, coming):
    command = run.commands[op]
    unknown = [name for name in command.names if name not in run.asked.names]
    if unknown:
        hold(answer == f"unknown {unknown[0]}", "unknown", answer)
        return
    begun = ("begun", op) in run.log
    if not begun:
        meeting = [other for other in open_commands if meet(run.commands[other].flows, command.flows)]
        hold(meeting and answer == f"overlap {min(meeting)}", "overlap", answer)
        return
    installed = ("installed", op) in run.log
    imported, exported, kept = (
        [unit for _, its, _, units in run.notes(kind) if its == op for unit in units] for kind in ("imported", "exported", "kept")
    )
    if command.verb == "copy":
        hold(answer == "done" and not installed and not imported and kept == exported, "copy", op)
        return
    if command.verb == "share":
        hold(answer == "done" and installed and not imported and set(exported) <= set(kept), "share", op)
        return
    destination = run.ends(command)[1]
    is_old = run.asked.marks[destination] and any(has_time(run, op, unit) for unit in coming)
    hold(installed == (answer == "done"), "installed", op)
    if answer.startswith("import"):
        held, its, limit = map(int, answer.split()[1:])
        hold(held + its > limit and its == len(coming) and limit == run.asked.limits[destination], "import", answer)
    else:
        hold(answer == ("old 2 1" if is_old else "done"), "old", answer)
    hold(sorted(imported) == exported and not kept, "imported", op)


def meet(one, other):
    """Both are filters, and they meet."""
    return one is not None and other is not None and one.meets(other)


def has_time(run, op, unit):
    """The function keeps times, and a packet of the unit that was processed before its state was given came later than at time 0."""
    place = next(place for place, note in enumerate(run.log) if note[:2] == ("exported", op))
    numbers = [number for kind, number, *_ in run.log[:place] if kind == "processed" and run.units[number - 1] == unit]
    return run.asked.function is FUNCTIONS["conntrack"] and any(run.packets[number - 1].nanos > 0 for number in numbers)


def check_refused(run):
    """While a move is refused, the packets of its units are processed at its source."""
    for op, answer in run.answers.items():
        if not answer.startswith(("import", "old")):
            continue
        begun, end = run.place_of(("begun", op)), run.place_of(("answered", op, answer))
        for kind, number, *rest in run.log[begun:end]:
            if kind == "processed" and run.covers(op, run.units[number - 1]):
                hold(rest[0] == run.ends(run.commands[op])[0], "refused", op, number)


def check_settles(run):
    """A packet after a settle is processed at its owner, where no command after the settle has begun before."""
    in_front = {}  # by packet: how many commands stand in front of the last settle before it
    commands, settled, lines = 0, None, list(run.script.lines)
    for number in range(1, len(run.packets) + 1):
        while lines and lines[0][0] < number:
            command = lines.pop(0)[1]
            if command:
                commands = command.number
            else:
                settled = commands
        in_front[number] = settled
    latest = 0  # the last command that has begun
    for place, (kind, number, *rest) in enumerate(run.log):
        if kind == "begun":
            latest = max(latest, number)
        if kind == "processed" and in_front[number] is not None and latest <= in_front[number]:
            unit, log = run.units[number - 1], run.log[:place]
            share = run.share_of(unit, log)
            wanted = run.owner(unit, log) if share is None else run.member_of(share, number)
            hold(rest[0] == wanted, "settle", number)


def check_shared(run):
    """A packet that arrived after a share had its unit is processed at its member, and the next of these packets when all members have
    what that one made of the record. Each member but the home took the first records before."""
    arrived = {}  # by packet: the share that had its unit then
    for op, command in run.commands.items():
        if command.verb != "share" or ("installed", op) not in run.log:
            continue
        home, *others = members = run.ends(command)
        to_sync = Counter(others)  # members that have yet to take records
        for place in range(run.place_of(("installed", op)), len(run.log)):
            kind, number, *rest = run.log[place]
            if kind == "arrived" and run.share_of(run.units[number - 1], run.log[:place]) == op:
                arrived[number] = op
            elif kind == "processed" and arrived.get(number) == op:
                hold(rest[0] == run.member_of(op, number), "member", number)
                hold(not +to_sync, "before all are synced", number)
                to_sync = Counter(member for member in members if member != rest[0])
            elif kind == "kept" and number == op:
                hold(to_sync[rest[0]] == 1, "synced", op, rest[0])
                to_sync[rest[0]] = 0
        hold(not +to_sync, "synced at the end", op)


# --- Runs by chance ---

NAMES = "abcdefghijklmnop"


def chance_packet(chance, site, many):
    """A packet of a few units, or of many, so that their records go in several pieces."""
    proto = chance.choice([TCP, TCP, UDP])
    host = chance.randrange(256) if many else chance.choice([1, 1, 2, 3, 129, 130])
    inside = site.inside.bits + host, chance.choice([53, 80, 5000])
    outside = 0xC0000209 + chance.randrange(2), chance.choice([53, 80, 443])
    ends = [inside, outside]
    if chance.random() < 0.4:
        ends.reverse()
    if site.outside is not None and chance.random() < 0.3:
        port = 1024 + 252 * (inside[0] % 256) + chance.randrange(3)
        ends = [outside, (site.outside, port)]
    if chance.random() < 0.05:
        ends[1] = ends[0]
    flags = chance.choice([2, 18, 16, 17, 4]) if proto == TCP else 0
    head = chance.choice([b"", b"", b"SSH-2.0-x", b"HTTP/1.1", b"220 x"])
    nanos = chance.choice([0, 0, 10**9, 400 * 10**9])
    return model.Packet(nanos, proto, *ends, flags, len(head), head)


def chance_filter(chance, function):
    by_host = ["any", "any", "local=10.0.0.0/25", "local=10.0.0.128/25", "local=10.0.0.1", "local=10.0.0.2/31", "local=10.0.0.129"]
    by_flow = ["proto=tcp", "rport=53", "proto=udp,local=10.0.0.0/25", "remote=192.0.2.9", "lport=5000"]
    return chance.choice(by_host + (by_flow if function is FUNCTIONS["conntrack"] else []))


def chance_moves(chance, function, names):
    """The moves of one moment, as source, destination and filter: one; a chain that takes the same flows on; or two into one
    destination, which can be open at once."""
    shape = chance.random()
    if len(names) > 2 and shape < 0.15:
        way = chance.sample(names, chance.randrange(3, len(names) + 1))
        flows = chance_filter(chance, function)
        return [(*ends, flows) for ends in zip(way, way[1:])]
    if len(names) > 2 and shape < 0.3:
        destination, *sources = chance.sample(names, 3)
        return list(zip(sources, [destination] * 2, ["local=10.0.0.0/25", "local=10.0.0.128/25"]))
    ends = chance.sample([*names, "z"] if chance.random() < 0.1 or len(names) == 1 else names, 2)
    return [(*ends, chance_filter(chance, function))]


def chance_copy(chance, function, names):
    """A copy of units, or of the state of all flows."""
    source, destination = chance.sample([*names, "z"] if chance.random() < 0.1 or len(names) == 1 else names, 2)
    what = "all" if chance.random() < 0.25 else chance_filter(chance, function)
    return f"copy {source} {destination} {what}"


def chance_share(chance, function, names):
    """A share, mostly of some of the units: those that it takes are no move's or copy's from then on."""
    members = chance.sample([*names, "z"] if chance.random() < 0.05 or len(names) == 1 else names, chance.randrange(2, max(len(names), 2) + 1))
    return f"share {','.join(members)} {chance_filter(chance, function)} strict"


def chance_script(chance, function, names, packets):
    shares = chance.choice([0, 0, 0.1, 0.5])
    lines = [f"route {chance_filter(chance, function)} {chance.choice(names)}" for _ in range(chance.choice([0, 0, 1, 3]))]
    for point in sorted(chance.randrange(packets + 2) for _ in range(chance.choice([0, 1, 2, 2, 4, 8]))):
        settles = chance.choice([0, 0.5, 1])
        while chance.random() < shares:
            lines.append(f"at {point} {chance_share(chance, function, names)}")
            if chance.random() < settles:
                lines.append(f"at {point} settle")
        while chance.random() < 0.4:
            lines.append(f"at {point} {chance_copy(chance, function, names)}")
            if chance.random() < settles:
                lines.append(f"at {point} settle")
        for source, destination, flows in chance_moves(chance, function, names):
            how = chance.choice(["order", "order", "lossfree"])
            lines.append(f"at {point} move {source} {destination} {flows} {how}")
            if chance.random() < settles:
                lines.append(f"at {point} settle")
    return "".join(line + "\n" for line in lines)


def run_by_weights(world, chance):
    """Takes choices by a weight of their own each, which change now and then. The input is mostly slow, so that packets arrive
    in each phase of a move."""
    weights, lasts = {}, chance.choice([5, 20, 100])
    while not world.is_complete():
        if chance.random() < 1 / lasts:
            weights = {(network.SWITCH, network.SWITCH): chance.choice([0.001, 0.1, 0.1, 1])}
        choices = world.enabled()
        if not choices:
            raise Broken("stuck")
        for choice in choices:
            weights.setdefault(choice, chance.choice([1, 1, 1, 10, 0.01]))
        world.take(chance.choices(choices, [weights[choice] for choice in choices])[0])


def run_by_chance(chance):
    function = chance.choice(list(FUNCTIONS.values()))
    site = Site(Prefix(0x0A000000, 24), 0xCB007101 if function.name == "nat" else None)
    names = list(NAMES[: chance.choice([1, 2, 2, 3, 3, 5])])
    limits = [chance.choice([0, 1, 2, 5, 150, 1_000_000, 1_000_000]) for _ in names]
    marks = [chance.random() < 0.2 for _ in names]
    many = chance.random() < 0.05
    packets = [chance_packet(chance, site, many) for _ in range(300 if many else chance.choice([0, 1, 3, 10, 30]))]
    text = chance_script(chance, function, names, len(packets))
    script = script_reader.read_script(text.encode(), function, names)
    schedule = chance.choice(["first", "last", chance.getrandbits(64), *["weights"] * 4])
    asked = model.Simulation(function, names, limits, marks, site, chance.choice([1, 2, 3, 256]), schedule, b"", None)
    world = network.start(asked, script, packets)
    if schedule == "weights":
        run_by_weights(world, chance)
    else:
        network.run(world, schedule)
    return Run(asked, script, model.Trace(packets, 0, False), world)


# --- Runs by hand ---

# A move of a connection's three packets from a to b that keeps their order: the first is an event at a, the others wait at b.
KEPT = "00 00 10 21 20 12 12 21 12 21 12 31 13 31 13 01 01 00 00 00 20 12 01 30 30 30 30 13 01 10 01 20 30 12 13 03 03 03"
# The same move without keeping it: the third packet overtakes the second, which is an event at a after the records are at b.
LOOSE = "00 00 10 21 20 12 12 21 12 21 12 31 13 00 01 01 00 00 30 30 20 20 12 12 01 01 30 30 13 10 01 01 20 30 12 13 03 03 03"


def run_by_hand(how, choices):
    """The done lines and the record after these choices, each a node and a port."""
    function, site = FUNCTIONS["conntrack"], Site(Prefix(0x0A000000, 24), None)
    inside, outside = (0x0A000001, 40000), (0xC6336407, 80)
    ways = (inside, outside, 2), (outside, inside, 18), (inside, outside, 16)
    packets = [model.Packet(0, TCP, source, target, flags, 0, b"") for source, target, flags in ways]
    script = script_reader.read_script(f"at 1 move a b any {how}".encode(), function, ["a", "b"])
    asked = model.Simulation(function, ["a", "b"], [1, 1], [False, False], site, 256, None, b"", None)
    world = network.start(asked, script, packets)
    for choice in choices.split():
        hold(tuple(map(int, choice)) in world.enabled(), "enabled", choice)
        world.take(tuple(map(int, choice)))
    hold(world.is_complete(), "complete", how)
    done = [note[1:] for note in world.log if note[0] == "processed"]
    return done, [function.print_record(record) for record in world.nodes[3].records.values()]


def check_by_hand():
    kept = [(1, 1, "opening"), (2, 1, "answered"), (3, 1, "established")], ["established out packets 3 bytes 0"]
    loose = [(1, 1, "opening"), (3, 1, "opening"), (2, 1, "answered")], ["answered out packets 3 bytes 0"]
    hold(run_by_hand("order", KEPT) == kept, "by hand", "order")
    hold(run_by_hand("lossfree", LOOSE) == loose, "by hand", "lossfree")


def main(arguments):
    if len(arguments) != 2 or not arguments[1].isdigit():
        sys.exit("use: network_checks.py SEED COUNT")
    check_by_hand()
    answers = Counter()
    for place in range(int(arguments[1])):
        chance = random.Random(f"{arguments[0]} {place}")
        try:
            run = run_by_chance(chance)
            check(run)
        except (Broken, network.Stray) as fault:
            sys.exit(f"network_checks.py: run {place}: {fault!r}")
        answers.update(answer.split()[0] for answer in run.answers.values())
    print(f"{arguments[1]} runs keep what every run keeps; answers {dict(sorted(answers.items()))}")


if __name__ == "__main__":
    main(sys.argv[1:])
