"""The network of a run, a part of the model in model.py: the switch, the controller, the instances, and the links between them.

Node 0 is the switch, node 1 the controller, and node 2 + i instance i. A choice names a node and a port: the node takes the
oldest message that the node of the port's number has sent it, or, as (0, 0), the next item of the input. Each node is a class
whose `take` is its table: it changes the node, sends and notes. A message and a note are tuples that begin with their name.
What no run may bring to a node raises Stray.

The switch's rules are kept as what they mean: the routes, and the changes of target since.
"""
from collections import deque
from typing import NamedTuple

import make_capture
from functions import Filter, flow_of

SWITCH, CONTROLLER = 0, 1
AT_CONTROLLER = None  # in the place of an instance: the packets of what is shared go to the controller
ANY = Filter("any")
MOST_CHUNKS = 64


def node_of(instance):
    return 2 + instance


class Stray(Exception):
    """A message that comes in no run."""


class Parcel(NamedTuple):
    """A packet under way, with its number and its flow."""

    number: int
    packet: object
    flow: object


class Piece(NamedTuple):
    """Up to 64 records of a move, by their units."""

    chunks: list
    total: int  # of all pieces of the move
    newest: int  # the highest version of these, 1 where there is none
    is_last: bool


class Step:
    """What a node sends, as (receiver, message), and notes while it takes one message."""

    def __init__(self):
        self.sent = []
        self.notes = []

    def send(self, node, *message):
        self.sent.append((node, message))

    def note(self, *note):
        self.notes.append(note)


# --- The switch ---


class Windowed:
    """What the switches of all networks have: a window of packets that may be under way."""

    def __init__(self, window):
        self.window = window
        self.flying = 0  # packets under way
        self.closed = False

    def is_ready(self, item):
        return item[0] != "packet" or self.flying < self.window

    def has_ended(self):
        return self.closed and self.flying == 0

    def let_in(self, parcel, step):
        self.flying += 1
        step.note("arrived", parcel.number)

    def close(self, nodes, step):
        """Stops these nodes, in order."""
        self.closed = True
        for node in nodes:
            step.send(node, "stop")

    def take_back(self, message):
        """A cell comes home. No other message is left to take."""
        if message[0] != "credit":
            raise Stray(message)
        self.flying -= 1


class Switch(Windowed):
    def __init__(self, routes, window, instances):
        super().__init__(window)
        self.routes = routes + [(ANY, 0)]
        self.changes = []  # of (filter, instance before, instance after or AT_CONTROLLER)
        self.instances = instances
        self.waiting = 0  # commands without an answer

    def target(self, flow):
        target = next(instance for flows, instance in self.routes if flows.matches(flow))
        for flows, before, after in self.changes:
            if target == before and flows.matches(flow):
                target = after
        return target

    def is_ready(self, item):
        return super().is_ready(item) and (item[0] != "settle" or self.waiting == 0)

    def take(self, port, message, step):
        match message:
            case "packet", parcel:
                self.let_in(parcel, step)
                target = self.target(parcel.flow)
                if target is AT_CONTROLLER:
                    step.send(CONTROLLER, "diverted", parcel)
                else:
                    step.send(node_of(target), "carry", parcel, "plain")
            case "command", command:
                self.waiting += 1
                step.send(CONTROLLER, "asked", command)
            case ("settle",):
                pass
            case ("end",):
                step.send(CONTROLLER, "end")
            case "forward", parcel, mark, to:
                step.send(node_of(to), "carry", parcel, mark)
            case "install", op, flows, before, after:
                self.changes.append((flows, before, after))
                step.note("installed", op)
                step.send(node_of(before), "fence", op)
            case "fence to", op, to:
                step.send(node_of(to), "fence", op)
            case "answered", _:
                self.waiting -= 1
            case ("finish",):
                self.close(map(node_of, range(self.instances)), step)
            case _:
                self.take_back(message)


# --- The instances ---


class Instance:
    def __init__(self, index, instances, limit, is_marked, site, function):
        self.index = index
        self.limit = limit
        self.is_marked = is_marked  # it reads chunks of version 1 alone
        self.site = site
        self.function = function
        self.records = {}  # by unit
        self.standby = {}  # by unit, those that copies and shares brought
        self.rules = {}  # by operation, in the order in which they were set: (filter, action)
        self.held = {}  # by operation: parcels
        self.tally = [0] * instances
        self.ended = False

    def has_ended(self):
        return self.ended

    def process(self, parcel, mark, step):
        """The live record takes the packet's step; of a packet that a share serves, the one that stands by does unless this is
        its home, and the controller gets it."""
        unit = self.function.unit(parcel.flow)
        share = mark[1] if mark[0] == "shared" else None
        records = self.records if share is None or mark[2] else self.standby
        records[unit], output = self.function.step(self.site, records.get(unit), parcel.packet)
        self.tally[self.index] += 1
        step.note("processed", parcel.number, self.index, output)
        if share is not None:
            step.send(CONTROLLER, "shared", share, (unit, records[unit]))
        step.send(SWITCH, "credit", parcel)

    def carry(self, parcel, mark, step):
        op, action = None, None
        if mark == "plain":
            matching = ((op, action) for op, (flows, action) in self.rules.items() if flows.matches(parcel.flow))
            op, action = next(matching, (None, None))
        if action == "drop":
            step.send(CONTROLLER, "event", op, parcel)
        elif action == "buffer":
            self.held.setdefault(op, []).append(parcel)
        else:
            self.process(parcel, mark, step)

    def add(self, op, chunks, step):
        """The chunks' records become live. In a run no instance has a record of their units."""
        units = [unit for unit, _ in chunks]
        if any(unit in self.records for unit in units):
            raise Stray(op, units)
        self.records.update(chunks)
        step.note("imported", op, self.index, units)

    def keep(self, chunks):
        """Of each unit the record of more packets stands by."""
        for unit, record in chunks:
            held = self.standby.get(unit)
            if held is None or held.packets < record.packets:
                self.standby[unit] = record
            elif held.packets == record.packets and held != record:
                raise Stray(unit, held, record)

    def sync(self, chunks, is_home):
        """Of each unit this is the record, whatever was here. In a run none is older."""
        records = self.records if is_home else self.standby
        for unit, record in chunks:
            if unit in records and records[unit].packets > record.packets:
                raise Stray(unit, records[unit], record)
            records[unit] = record

    def chunks(self, op, flows, step):
        """What is live of the units that the filter takes, in their order."""
        units = sorted(unit for unit in self.records if self.function.takes(flows, unit))
        step.note("exported", op, self.index, units)
        return [(unit, self.records[unit]) for unit in units]

    def refusal(self, piece):
        """Why the pieces of a move aren't taken, where they aren't; the first one is asked."""
        if len(self.records) + piece.total > self.limit:
            return f"import {len(self.records)} {piece.total} {self.limit}"
        return f"old {piece.newest} 1" if self.is_marked and piece.newest > 1 else None

    def may_take(self, message):
        """In a run nothing comes after the stop."""
        return not self.ended

    def take(self, port, message, step):
        if not self.may_take(message):
            raise Stray(message)
        match message:
            case "carry", parcel, mark:
                self.carry(parcel, mark, step)
            case "fence", op:
                self.rules.pop(op, None)
                for parcel in self.held.pop(op, []):
                    self.process(parcel, "plain", step)
                step.send(CONTROLLER, "fenced", op)
            case ("stop",):
                self.ended = True
                step.send(CONTROLLER, "final")
            case "enable", op, flows, action:
                self.rules[op] = flows, action
                step.send(CONTROLLER, "enabled", op)
            case "stream", op, flows:
                chunks = self.chunks(op, flows, step)
                newest = max((self.function.version(record) for _, record in chunks), default=1)
                for start in range(0, max(len(chunks), 1), MOST_CHUNKS):
                    is_last = start + MOST_CHUNKS >= len(chunks)
                    step.send(CONTROLLER, "piece", op, Piece(chunks[start : start + MOST_CHUNKS], len(chunks), newest, is_last))
            case "get", op, flows:
                step.send(CONTROLLER, "chunks", op, self.chunks(op, flows, step))
            case "get all", op:
                step.send(CONTROLLER, "all chunk", op, list(self.tally))
            case "standby", op, chunks:
                self.keep(chunks)
                step.note("kept", op, self.index, [unit for unit, _ in chunks])
                step.send(CONTROLLER, "kept", op)
            case "put all", op, tally:
                self.tally = list(map(max, self.tally, tally))
                step.send(CONTROLLER, "kept", op)
            case "sync", op, chunks, is_home:
                self.sync(chunks, is_home)
                step.note("kept", op, self.index, [unit for unit, _ in chunks])
                step.send(CONTROLLER, "synced", op)
            case "delete", op, units:
                for unit in units:
                    del self.records[unit]
                step.send(CONTROLLER, "deleted", op)
            case "put", op, piece, is_first:
                answer = self.refusal(piece) if is_first else None
                if answer:
                    step.send(CONTROLLER, "put no", op, answer, piece)
                else:
                    self.add(op, piece.chunks, step)
                    if is_first or piece.is_last:
                        step.send(CONTROLLER, "put ok", op)
            case "restore", op, chunks:
                self.add(op, chunks, step)
                step.send(CONTROLLER, "restored", op)
            case _:
                raise Stray(message)


# --- The controller ---


class Move:
    """A move under way. Its phases in order are freezing, streaming, holding, passing and ending; without an order to keep,
    there is no holding. After a refusal restoring, returning and undoing follow on streaming.

    The records come in pieces. A piece is to remove while the source is to delete its records, then removed until it is put. The door
    is shut until the first piece is put, asked until that is answered, and then open or refused."""

    def __init__(self, command, source, destination):
        self.op = command.number
        self.flows = command.flows
        self.keeps_order = command.how == "order"
        self.source = source
        self.destination = destination
        self.phase = "freezing"
        self.door = "shut"
        self.to_remove = deque()
        self.removed = deque()
        self.all_came = False
        self.asked_last = False  # the piece at the door is the last one
        self.why = None  # the answer after a refusal
        self.stored = []  # parcels

    def begin(self, step):
        self.enable(step, self.source, "drop")

    def enable(self, step, instance, action):
        step.send(node_of(instance), "enable", self.op, self.flows, action)

    def forward(self, step, parcel, instance):
        step.send(SWITCH, "forward", parcel, ("pass", self.op), instance)

    def forward_stored(self, step, instance):
        for parcel in self.stored:
            self.forward(step, parcel, instance)
        self.stored = []

    def release(self, step):
        self.forward_stored(step, self.destination)
        step.send(SWITCH, "install", self.op, self.flows, self.source, self.destination)
        self.phase = "passing"

    def push(self, step):
        put = node_of(self.destination), "put", self.op
        if self.door == "shut" and self.removed:
            piece = self.removed.popleft()
            self.door, self.asked_last = "asked", piece.is_last
            step.send(*put, piece, True)
        elif self.door == "open":
            while self.removed:
                step.send(*put, self.removed.popleft(), False)
        elif self.door == "refused" and self.all_came and not self.to_remove:
            chunks = [chunk for piece in self.removed for chunk in piece.chunks]
            step.send(node_of(self.source), "restore", self.op, chunks)
            self.phase = "restoring"

    def take(self, instance, message, step):
        """The answer, where the message ends the move."""
        sender = {self.source: "source", self.destination: "destination"}.get(instance)
        match self.phase, sender, message:
            case "passing", "source", ("event", _, parcel):
                self.forward(step, parcel, self.destination)
            case _, "source", ("event", _, parcel):
                self.stored.append(parcel)
            case "freezing", "source", ("enabled", _):
                step.send(node_of(self.source), "stream", self.op, self.flows)
                self.phase = "streaming"
            case "streaming", "source", ("piece", _, piece):
                self.to_remove.append(piece)
                self.all_came = piece.is_last
                step.send(node_of(self.source), "delete", self.op, [unit for unit, _ in piece.chunks])
            case "streaming", "source", ("deleted", _):
                self.removed.append(self.to_remove.popleft())
                self.push(step)
            case "streaming", "destination", ("put ok", _):
                if self.door == "asked" and not self.asked_last:
                    self.door = "open"
                    self.push(step)
                elif self.keeps_order:
                    self.enable(step, self.destination, "buffer")
                    self.phase = "holding"
                else:
                    self.release(step)
            case "streaming", "destination", ("put no", _, why, piece):
                self.door, self.why = "refused", why
                self.removed.appendleft(piece)
                self.push(step)
            case "holding", "destination", ("enabled", _):
                self.release(step)
            case "passing", "source", ("fenced", _):
                step.send(SWITCH, "fence to", self.op, self.destination)
                self.phase = "ending"
            case "ending", "destination", ("fenced", _):
                return "done"
            case "restoring", "source", ("restored", _):
                self.enable(step, self.source, "buffer")
                self.phase = "returning"
            case "returning", "source", ("enabled", _):
                self.forward_stored(step, self.source)
                step.send(SWITCH, "fence to", self.op, self.source)
                self.phase = "undoing"
            case "undoing", "source", ("fenced", _):
                return self.why
            case _:
                raise Stray(self.phase, sender, message)
        return None


class Copy:
    """A copy under way: it waits for what the source gives, and then for the destination to keep that."""

    def __init__(self, command, source, destination):
        self.op = command.number
        self.flows = command.flows  # None is the state of all flows
        self.source = source
        self.destination = destination
        self.phase = "getting"

    def begin(self, step):
        asks = ("get all", self.op) if self.flows is None else ("get", self.op, self.flows)
        step.send(node_of(self.source), *asks)

    def take(self, instance, message, step):
        """The answer, where the message ends the copy."""
        match self.phase, message:
            case "getting", ("chunks" | "all chunk" as kind, _, what) if instance == self.source:
                step.send(node_of(self.destination), "standby" if kind == "chunks" else "put all", self.op, what)
                self.phase = "keeping"
            case "keeping", ("kept", _) if instance == self.destination:
                return "done"
            case _:
                raise Stray(self.phase, instance, message)
        return None


class Share:
    """A share that has begun, up to the end of the run. It waits for the home's fence and then for its records; then members have
    to take these. From there on it is idle, has a packet out at a member, or waits for members to take what that made of it."""

    def __init__(self, command, *members):
        self.op = command.number
        self.flows = command.flows
        self.members = members
        self.home = members[0]
        self.phase = "fencing"
        self.left = 0  # members that have yet to answer
        self.out = None  # the member that has a packet
        self.queue = deque()

    def begin(self, step):
        step.send(SWITCH, "install", self.op, self.flows, self.home, AT_CONTROLLER)

    def is_idle(self):
        return self.phase == "idle" and not self.queue

    def sync(self, but, chunks, step):
        """Each member but one is to take the records."""
        others = [member for member in self.members if member != but]
        for member in others:
            step.send(node_of(member), "sync", self.op, chunks, member == self.home)
        self.left = len(others)

    def serve(self, step):
        if self.phase == "idle" and self.queue:
            parcel = self.queue.popleft()
            (_, local_port), (remote, remote_port) = parcel.flow.local, parcel.flow.remote
            self.out = self.members[(local_port + remote_port + remote) % len(self.members)]
            self.phase = "out"
            step.send(SWITCH, "forward", parcel, ("shared", self.op, self.out == self.home), self.out)

    def take(self, instance, message, step):
        """The answer, where the message sets the share up."""
        match self.phase, message:
            case "fencing", ("fenced", _) if instance == self.home:
                step.send(node_of(self.home), "get", self.op, self.flows)
                self.phase = "getting"
            case "getting", ("chunks", _, chunks) if instance == self.home:
                self.sync(self.home, chunks, step)
                self.phase = "setting"
            case "out", ("shared", _, chunk) if instance == self.out:
                self.sync(self.out, [chunk], step)
                self.phase = "syncing"
            case "setting" | "syncing" as phase, ("synced", _) if instance in self.members and self.left > 0:
                self.left -= 1
                if self.left == 0:
                    self.phase = "idle"
                    return "done" if phase == "setting" else None
            case _:
                raise Stray(self.phase, instance, message)
        return None


class Controller:
    def __init__(self, names):
        self.names = names
        self.open = {}  # moves, copies and shares by their numbers; a share stays
        self.end_came = False
        self.finish_sent = False
        self.finals = set()

    def has_ended(self):
        return len(self.finals) == len(self.names)

    def refusal(self, command):
        for name in command.names:
            if name not in self.names:
                return f"unknown {name}"
        filters = [(op, it.flows) for op, it in self.open.items() if it.flows is not None and command.flows is not None]
        meeting = [op for op, flows in filters if flows.meets(command.flows)]
        return f"overlap {min(meeting)}" if meeting else None

    def shares(self):
        return [it for it in self.open.values() if isinstance(it, Share)]

    def answer(self, op, answer, step):
        step.note("answered", op, answer)
        step.send(SWITCH, "answered", op)

    def take(self, port, message, step):
        match port, message:
            case 0, ("asked", command):
                refusal = self.refusal(command)
                if refusal:
                    self.answer(command.number, refusal, step)
                else:
                    kind = {"move": Move, "copy": Copy, "share": Share}[command.verb]
                    operation = kind(command, *map(self.names.index, command.names))
                    self.open[command.number] = operation
                    step.note("begun", command.number)
                    operation.begin(step)
            case 0, ("diverted", parcel):
                share = next(it for it in self.shares() if it.flows.matches(parcel.flow))
                share.queue.append(parcel)
                share.serve(step)
            case 0, ("end",):
                self.end_came = True
            case _, ("final",):
                self.finals.add(port)
            case _, ("event", op, parcel) if op not in self.open:
                step.send(SWITCH, "forward", parcel, ("pass", op), port - 2)
            case _, (_, op, *_) if op in self.open:
                operation = self.open[op]
                answer = operation.take(port - 2, message, step)
                if answer:
                    self.answer(op, answer, step)
                if operation in self.shares():
                    operation.serve(step)
                elif answer:
                    del self.open[op]
            case _:
                raise Stray(port, message)
        is_done = all(isinstance(it, Share) and it.is_idle() for it in self.open.values())
        if self.end_came and is_done and not self.finish_sent:
            self.finish_sent = True
            step.send(SWITCH, "finish")


# --- Worlds and schedules ---


def items_of(site, packets, lines):
    """The input: the packets, each line of the script after the packet that it names, and the end."""
    items, lines = [], deque(lines)
    for number in range(len(packets) + 1):
        if number > 0:
            packet = packets[number - 1]
            items.append(("packet", Parcel(number, packet, flow_of(site, packet)[0])))
        while lines and (lines[0][0] <= number or number == len(packets)):
            command = lines.popleft()[1]
            items.append(("command", command) if command else ("settle",))
    return items + [("end",)]


class World:
    def __init__(self, nodes, items):
        self.nodes = nodes
        self.links = {(sender, node): deque() for node in range(len(nodes)) for sender in range(len(nodes))}
        self.input = deque(items)
        self.log = []
        self.choices = []  # that were taken
        self.pieces = 0  # that moves sent

    def is_enabled(self, choice):
        node, port = choice
        if choice == (SWITCH, SWITCH):
            return bool(self.input) and self.nodes[SWITCH].is_ready(self.input[0])
        return bool(self.links.get((port, node)))

    def enabled(self):
        """The choices that can be taken, in order of (node, port)."""
        choices = [(node, sender) for (sender, node), link in self.links.items() if link]
        if self.input and self.nodes[SWITCH].is_ready(self.input[0]):
            choices.insert(0, (SWITCH, SWITCH))
        return choices

    def take(self, choice):
        self.choices.append(choice)
        node, port = choice
        line = self.input if choice == (SWITCH, SWITCH) else self.links[port, node]
        step = Step()
        self.nodes[node].take(port, line.popleft(), step)
        for receiver, message in step.sent:
            self.links[node, receiver].append(message)
        self.log += step.notes
        self.pieces += sum(message[0] == "piece" for _, message in step.sent)

    def is_complete(self):
        return not self.input and not any(self.links.values()) and all(node.has_ended() for node in self.nodes)


def places(schedule):
    """The places from 0 of a schedule's choices: each time it is given how many can be taken."""
    words = make_capture.words(schedule) if isinstance(schedule, int) else None
    count = yield
    while True:
        count = yield {"first": 0, "last": count - 1}[schedule] if words is None else next(words) % count


def start(asked, script, packets):
    """The world of a run at its start: what is asked for has the function, the site, the instances and the window."""
    instances = [
        Instance(index, len(asked.names), limit, is_marked, asked.site, asked.function)
        for index, (limit, is_marked) in enumerate(zip(asked.limits, asked.marks))
    ]
    nodes = [Switch(script.routes, asked.window, len(asked.names)), Controller(asked.names), *instances]
    return World(nodes, items_of(asked.site, packets, script.lines))


def run(world, schedule):
    """Runs a world up to its end."""
    place = places(schedule)
    next(place)
    while not world.is_complete():
        choices = world.enabled()
        if not choices:
            raise Stray("nothing can be taken, and the world isn't complete")
        world.take(choices[place.send(len(choices))])


def run_told(world, choices):
    """Runs a world as it is told, and gives None at its end; else the step, from 1, at which the choices fail to be a run."""
    for step, choice in enumerate(choices, 1):
        if not world.is_enabled(choice):
            return step
        world.take(choice)
    return None if world.is_complete() else len(choices) + 1
