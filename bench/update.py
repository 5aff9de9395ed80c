"""The network of a two-phase update, a part of the model in model.py: a switch, a controller and two instances, with one move of what a filter takes
from the source to the destination after the published method.

Nodes, choices, messages and notes are as in network.py, whose instances and world serve here too.
"""
import network
from functions import flow_of
from network import CONTROLLER, SWITCH, Instance, Parcel, Stray, Windowed, World, node_of

SOURCE, DESTINATION = 0, 1
OP = 1
MOST_RECORDS = 1_000_000


class TwoSwitch(Windowed):
    """What goes to the source goes there alone, until the low rule is laid; then it is copied to the controller. From the high rule on it goes to the
    destination."""

    def __init__(self, flows, window):
        super().__init__(window)
        self.flows = flows
        self.rule = None

    def take(self, port, message, step):
        match message:
            case "packet", parcel:
                self.let_in(parcel, step)
                rule = self.rule if self.flows.matches(parcel.flow) else None
                step.send(node_of(DESTINATION if rule == "high" else SOURCE), "carry", parcel, "plain")
                if rule == "low":
                    step.send(CONTROLLER, "copied", parcel)
            case ("begin",) | ("end",):
                step.send(CONTROLLER, message[0])
            case "forward", parcel:
                step.send(node_of(DESTINATION), "carry", parcel, ("pass", OP))
            case "lay", rule:
                self.rule = rule
                step.note(rule)
                step.send(CONTROLLER, "laid", rule)
            case "finish", to:
                self.closed = to == DESTINATION
                step.send(node_of(to), "stop")
            case _:
                self.take_back(message)


class TwoInstance(Instance):
    """An instance that tells the controller of each packet that was sent on to it."""

    def take(self, port, message, step):
        super().take(port, message, step)
        match message:
            case "carry", parcel, ("pass", _):
                step.send(CONTROLLER, "seen", parcel.number)


class TwoController:
    """Its phases in order are idle, freezing, getting, deleting, putting, holding, laying, waiting, turning, settling, ending and over."""

    def __init__(self, flows):
        self.flows = flows
        self.phase = "idle"
        self.stored = []  # parcels, until the destination holds what comes
        self.stores = True
        self.last = None  # the number of the latest copy
        self.seen = None  # that of the latest packet that the destination has had by way of the controller
        self.chunks = []
        self.input_ended = False
        self.finishes = False
        self.ended = False

    def has_ended(self):
        return self.ended

    def take(self, port, message, step):
        source, destination = node_of(SOURCE), node_of(DESTINATION)
        match self.phase, port, message:
            case _, _, ("end",):
                self.input_ended = True
            case _, _, ("event", _, parcel):
                if self.stores:
                    self.stored.append(parcel)
                else:
                    step.send(SWITCH, "forward", parcel)
            case _, _, ("seen", number):
                self.seen = number
            case "idle", _, ("begin",):
                self.phase = "freezing"
                step.send(source, "enable", OP, self.flows, "drop")
            case "freezing", _, ("enabled", _):
                self.phase = "getting"
                step.send(source, "get", OP, self.flows)
            case "getting", _, ("chunks", _, chunks):
                self.phase, self.chunks = "deleting", chunks
                step.send(source, "delete", OP, [unit for unit, _ in chunks])
            case "deleting", _, ("deleted", _):
                self.phase = "putting"
                step.send(destination, "restore", OP, self.chunks)
            case "putting", _, ("restored", _):
                self.phase = "holding"
                step.send(destination, "enable", OP, self.flows, "buffer")
            case "holding", _, ("enabled", _):
                self.phase, self.stores = "laying", False
                for parcel in self.stored:
                    step.send(SWITCH, "forward", parcel)
                step.send(SWITCH, "lay", "low")
            case "laying", _, ("laid", "low"):
                self.phase = "waiting"
            case "waiting", _, ("copied", parcel):
                self.phase, self.last = "turning", parcel.number
                step.send(SWITCH, "lay", "high")
            case "turning", _, ("copied", parcel):
                self.last = parcel.number
            case "turning", _, ("laid", "high"):
                self.phase = "settling"
            case "ending", port, ("fenced", _) if port == destination:
                self.phase = "over"
                step.note("answered", OP, "done")
            case "over", port, ("final",) if self.finishes and port == source:
                step.send(SWITCH, "finish", DESTINATION)
            case "over", port, ("final",) if self.finishes and port == destination:
                self.ended = True
            case _:
                raise Stray(self.phase, port, message)
        self.settle(step)

    def settle(self, step):
        """What follows as soon as it can, whichever message came."""
        if self.phase == "settling" and self.seen == self.last:
            self.phase = "ending"
            step.send(node_of(DESTINATION), "fence", OP)
        if self.phase == "waiting" and self.input_ended:
            self.phase = "over"
            step.note("answered", OP, "no packet")
        if self.phase == "over" and self.input_ended and not self.finishes:
            self.finishes = True
            step.send(SWITCH, "finish", SOURCE)


def items_of(site, packets, at):
    """The input: so many packets, or all where there are fewer, the begin of the update, the others, and the end."""
    items = [("packet", Parcel(number, packet, flow_of(site, packet)[0])) for number, packet in enumerate(packets, 1)]
    return [*items[:at], ("begin",), *items[at:], ("end",)]


def start(asked, packets):
    """The world of an update at its start."""
    instances = [
        TwoInstance(place, 2, MOST_RECORDS, False, asked.site, asked.function) for place in (SOURCE, DESTINATION)
    ]
    nodes = [TwoSwitch(asked.flows, asked.window), TwoController(asked.flows), *instances]
    return World(nodes, items_of(asked.site, packets, asked.at))


def run(asked, packets):
    """The world at the end of an update."""
    world = start(asked, packets)
    network.run(world, asked.schedule)
    return world
