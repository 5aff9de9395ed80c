"""Strong sharing, a part of the model in model.py: members that share the units of a filter from the first packet to the last.

The world, its choices and the members are those of network.py; the switch and the controller are of their own. A member is an instance that
raises each packet of the filter as an event. The controller queues what is raised, and serves it packet by packet.
"""
from collections import deque

from network import CONTROLLER, SWITCH, Instance, Stray, Windowed, World, items_of, node_of

THE_SHARE = 1
MOST_RECORDS = 1_000_000


class StrongSwitch(Windowed):
    def __init__(self, flows, window, members):
        super().__init__(window)
        self.flows = flows
        self.members = members

    def take(self, port, message, step):
        match message:
            case "packet", parcel:
                self.let_in(parcel, step)
                member = (parcel.number - 1) % self.members if self.flows.matches(parcel.flow) else 0
                step.send(node_of(member), "carry", parcel, "plain")
            case ("end",):
                step.send(CONTROLLER, "end")
            case ("finish",):
                self.close(map(node_of, range(self.members)), step)
            case _:
                self.take_back(message)


class StrongController:
    def __init__(self, members):
        self.members = members
        self.queue = deque()  # of (parcel, member)
        self.out = None  # the member at which a packet is
        self.left = 0  # members that have yet to take the record after it
        self.finals = 0

    def is_ready(self, item):
        return True

    def is_idle(self):
        return self.out is None and self.left == 0

    def has_ended(self):
        return self.finals == self.members and not self.queue and self.is_idle()

    def serve(self, step):
        """The front of the queue goes to the member that raised it, where no packet is out."""
        if self.queue and self.is_idle():
            parcel, self.out = self.queue.popleft()
            step.send(node_of(self.out), "carry", parcel, ("shared", THE_SHARE, self.out == 0))

    def take(self, port, message, step):
        match message:
            case ("end",):
                step.send(SWITCH, "finish")
            case "event", _, parcel:
                step.note("queued", parcel.number, port - 2)
                self.queue.append((parcel, port - 2))
                self.serve(step)
            case "shared", _, chunk:
                if self.out != port - 2:
                    raise Stray(port, message)
                for member in range(self.members):
                    if member != self.out:
                        step.send(node_of(member), "sync", THE_SHARE, [chunk], member == 0)
                self.out, self.left = None, self.members - 1
            case "synced", _:
                self.left -= 1
                self.serve(step)
            case ("final",):
                self.finals += 1
            case _:
                raise Stray(port, message)


class Member(Instance):
    def __init__(self, index, asked):
        super().__init__(index, len(asked.names), MOST_RECORDS, False, asked.site, asked.function)
        self.rules[THE_SHARE] = asked.flows, "drop"

    def may_take(self, message):
        """Packets that are served and records come after the stop, too."""
        return not self.ended or message[0] == "sync" or (message[0] == "carry" and message[2] != "plain")


def start(asked, packets):
    """The world at its start: what is asked for has the function, the site, the members' names, the window and the filter."""
    count = len(asked.names)
    members = [Member(index, asked) for index in range(count)]
    nodes = [StrongSwitch(asked.flows, asked.window, count), StrongController(count), *members]
    return World(nodes, items_of(asked.site, packets, []))
