"""The site, its flows, the filters over them, and the three functions: a part of the model in model.py.

A function tells which unit keeps the state of a flow, what a packet makes of the unit's record and what it says of it, and
how the record is printed. Records are never changed in place.
"""
import re
from typing import NamedTuple, Optional

TCP, UDP = 6, 17
PROTOCOLS = {"tcp": TCP, "udp": UDP}
PROTOCOL_NAMES = {number: name for name, number in PROTOCOLS.items()}
FIN, SYN, RST, ACK = 1, 2, 4, 16


# --- Numbers and prefixes ---


def read_number(text, least, most):
    """A decimal number without leading zeros, in these bounds."""
    if not re.fullmatch("0|[1-9][0-9]*", text, re.ASCII):
        return None
    return int(text) if least <= int(text) <= most else None


def read_address(text):
    """`A.B.C.D`: decimal numbers without leading zeros."""
    parts = [read_number(part, 0, 255) for part in text.split(".")]
    return int.from_bytes(bytes(parts), "big") if len(parts) == 4 and None not in parts else None


class Prefix(NamedTuple):
    """The addresses whose first `length` bits are those of `bits`."""

    bits: int
    length: int

    def holds(self, address):
        return address >> (32 - self.length) == self.bits >> (32 - self.length)

    def meets(self, other):
        return self.holds(other.bits) or other.holds(self.bits)


def read_prefix(text):
    """`A.B.C.D/L`, where no bit is set after the first L."""
    address, slash, length = text.partition("/")
    bits, length = read_address(address), read_number(length, 0, 32)
    if not slash or bits is None or length is None:
        return None
    return Prefix(bits, length) if bits % (1 << (32 - length)) == 0 else None


def print_address(address):
    return ".".join(map(str, address.to_bytes(4, "big")))


def print_end(end):
    address, port = end
    return f"{print_address(address)}:{port}"


# --- Flows ---


class Site(NamedTuple):
    inside: Prefix
    outside: Optional[int]  # the address that a translator's site has outside

    def holds(self, end):
        return self.inside.holds(end[0])


class Flow(NamedTuple):
    """Ordered by these fields in this order."""

    proto: int
    local: tuple  # address and port
    remote: tuple


OUT, IN = "out", "in"
# The outside ports from here on belong to the inside hosts, so many to each in turn.
FIRST_PORT, PORTS_PER_HOST = 1024, 252


def is_for_translation(site, packet):
    """The packet stays outside, and goes to a port that belongs to an inside host."""
    address, port = packet.target
    is_outside = not site.holds(packet.source) and not site.holds(packet.target)
    return is_outside and address == site.outside and port >= FIRST_PORT


def flow_of(site, packet):
    """The packet's flow and its direction. The end inside is local; a port that belongs to a host stands for that host; where
    both ends or none are inside, the smaller one is local."""
    if is_for_translation(site, packet):
        port = packet.target[1]
        host = site.inside.bits + (port - FIRST_PORT) // PORTS_PER_HOST
        return Flow(packet.proto, (host, port), packet.source), IN
    if site.holds(packet.source) == site.holds(packet.target):
        leaves = packet.source <= packet.target
    else:
        leaves = site.holds(packet.source)
    if leaves:
        return Flow(packet.proto, packet.source, packet.target), OUT
    return Flow(packet.proto, packet.target, packet.source), IN


# --- Filters ---


class FilterFault(Exception):
    """The text is no filter."""


class Filter:
    """What a flow is to agree with: a value for each field that is given."""

    FIELDS = "proto", "local", "lport", "remote", "rport"

    def __init__(self, text):
        self.given = {}
        for field in text.split(",") if text != "any" else []:
            name, _, value = field.partition("=")
            if name not in self.FIELDS or name in self.given:
                raise FilterFault
            self.given[name] = self.read_value(name, value)
            if self.given[name] is None:
                raise FilterFault

    @staticmethod
    def read_value(name, text):
        if name == "proto":
            return PROTOCOLS.get(text)
        if name in ("lport", "rport"):
            return read_number(text, 0, 65535)
        return read_prefix(text if "/" in text else text + "/32")

    def matches(self, flow):
        (local, local_port), (remote, remote_port) = flow.local, flow.remote
        of_flow = {"proto": flow.proto, "local": local, "lport": local_port, "remote": remote, "rport": remote_port}
        return all(
            value.holds(of_flow[name]) if isinstance(value, Prefix) else value == of_flow[name]
            for name, value in self.given.items()
        )

    def meets(self, other):
        """A flow may match both: no field that both give keeps them apart."""
        both = [(self.given[name], other.given[name]) for name in self.given if name in other.given]
        return all(mine.meets(its) if isinstance(mine, Prefix) else mine == its for mine, its in both)


class OfFlows:
    """A function that keeps a record for each flow."""

    @staticmethod
    def unit(flow):
        return flow

    @staticmethod
    def takes(flows, unit):
        return flows.matches(unit)

    @staticmethod
    def splits(flows):
        return False

    @staticmethod
    def print_unit(unit):
        return f"{PROTOCOL_NAMES[unit.proto]} {print_end(unit.local)} {print_end(unit.remote)}"


class OfHosts:
    """A function that keeps a record for each local host. A filter that looks at more than the host would split it."""

    @staticmethod
    def unit(flow):
        return flow.local[0]

    @staticmethod
    def takes(flows, unit):
        return "local" not in flows.given or flows.given["local"].holds(unit)

    @staticmethod
    def splits(flows):
        return any(name != "local" for name in flows.given)

    @staticmethod
    def version(record):
        """The version of the chunk that the record is stored as."""
        return 1

    @staticmethod
    def print_unit(unit):
        return print_address(unit)


# --- The connection tracker ---


class Track(NamedTuple):
    state: str
    opener: str
    packets: int
    bytes: int
    seen: int  # the greatest time of a packet; 0 where none is known


# What a packet makes of each state. R has the flag RST, SA both SYN and ACK, S SYN, F FIN, A none of these; the
# first that fits counts. `>` is a packet in the direction of the opener, `<` one against it. D is a UDP packet.
TABLE = """
             R      S        SA>          SA<          F>      F<      A>           A<           D>      D<
opening      reset  opening  opening      answered     finfwd  finrev  opening      opening      -       -
answered     reset  answered answered     answered     finfwd  finrev  established  answered     -       -
established  reset  established established established finfwd finrev  established  established  -       -
finfwd       reset  finfwd   finfwd       finfwd       finfwd  closed  finfwd       finfwd       -       -
finrev       reset  finrev   finrev       finrev       closed  finrev  finrev       finrev       -       -
closed       closed opening  closed       closed       closed  closed  closed       closed       -       -
reset        reset  opening  reset        reset        reset   reset   reset        reset        -       -
loose        reset  loose    loose        loose        finfwd  finrev  loose        established  -       -
single       -      -        -            -            -       -       -            -            single  both
both         -      -        -            -            -       -       -            -            both    both
"""
# The state of a flow's first packet.
FIRST = {"R": "reset", "S": "opening", "SA": "answered", "F": "finfwd", "A": "loose", "D": "single"}


def read_table(text):
    header, *rows = (line.split() for line in text.strip().splitlines())
    table = {}
    for state, *cells in rows:
        for column, cell in zip(header, cells, strict=True):
            table[state, column] = cell
    return table


NEXT = read_table(TABLE)


def class_of(packet):
    if packet.proto == UDP:
        return "D"
    fin, syn, rst, ack = (packet.flags & bit for bit in (FIN, SYN, RST, ACK))
    if rst:
        return "R"
    if syn:
        return "SA" if ack else "S"
    return "F" if fin else "A"


# A flow without packets for longer than this begins anew.
IDLE = 300 * 10**9


def first_track(packet, direction):
    """The record of a flow's first packet."""
    kind = class_of(packet)
    # An answer seen first comes from the end that didn't open.
    opener = {OUT: IN, IN: OUT}[direction] if kind == "SA" else direction
    return Track(FIRST[kind], opener, 1, packet.length, packet.nanos)


def next_track(record, packet, direction):
    if record is None:
        return first_track(packet, direction)
    counts = record.packets + 1, record.bytes + packet.length, max(record.seen, packet.nanos)
    if record.seen != 0 and packet.nanos > record.seen + IDLE:
        anew = first_track(packet, direction)
        return Track(anew.state, anew.opener, *counts)
    kind = class_of(packet)
    column = kind if kind in ("R", "S") else kind + (">" if direction == record.opener else "<")
    opens_again = kind == "S" and record.state in ("closed", "reset")
    return Track(
        NEXT[record.state, column],
        direction if opens_again else record.opener,
        *counts,
    )


class Tracker(OfFlows):
    name = "conntrack"

    @staticmethod
    def step(site, record, packet):
        """The record after the packet, and the output."""
        record = next_track(record, packet, flow_of(site, packet)[1])
        return record, record.state

    @staticmethod
    def version(record):
        """The version of the chunk that the record is stored as."""
        return 1 if record.seen == 0 else 2

    @staticmethod
    def print_record(record):
        seen = f" seen {record.seen}" if record.seen != 0 else ""
        return f"{record.state} {record.opener} packets {record.packets} bytes {record.bytes}{seen}"


# --- The address translator ---


class Translation(NamedTuple):
    """Of a host. The place of an inside end, as (protocol, port), says which of the host's outside ports it has."""

    ends: tuple = ()
    packets: int = 0
    drops: int = 0


class Translator(OfHosts):
    name = "nat"

    @staticmethod
    def step(site, record, packet):
        record = record or Translation()
        ends, drops = record.ends, record.drops
        leaves, stays = site.holds(packet.source), site.holds(packet.target)
        end = packet.proto, packet.source[1]
        if leaves and not stays and site.outside is not None:
            if end not in ends and len(ends) < PORTS_PER_HOST:
                ends += (end,)
            if end in ends:
                host = packet.source[0] % 256
                port = FIRST_PORT + host * PORTS_PER_HOST + ends.index(end)
                output = f"map {print_end((site.outside, port))}"
            else:
                output = "drop noport"
        elif is_for_translation(site, packet):
            place = (packet.target[1] - FIRST_PORT) % PORTS_PER_HOST
            if place < len(ends) and ends[place][0] == packet.proto:
                host = flow_of(site, packet)[0].local[0]
                output = f"unmap {print_end((host, ends[place][1]))}"
            else:
                output = "drop nomap"
        elif stays and not leaves:
            output = "drop direct"
        else:
            output = "pass"
        drops += output.startswith("drop")
        return Translation(ends, record.packets + 1, drops), output

    @staticmethod
    def print_record(record):
        return f"ports {len(record.ends)} packets {record.packets} drops {record.drops}"


# --- The asset monitor ---


class Assets(NamedTuple):
    """Of a host."""

    packets: int = 0
    services: tuple = ()  # each as (protocol, port) and the banner's name


BANNERS = {b"SSH-": "ssh", b"HTTP/": "http", b"220 ": "greeting", b"+OK": "pop3", b"* OK": "imap"}
NO_BANNER = "-"
MOST_SERVICES = 64
FIRST_FREE_PORT = 1024


def announces(packet):
    """A packet that leaves its host tells by itself of the service that it comes from."""
    if packet.proto == UDP:
        return packet.source[1] < FIRST_FREE_PORT
    return packet.flags & (SYN | ACK | RST) == SYN | ACK


class Monitor(OfHosts):
    name = "monitor"

    @staticmethod
    def step(site, record, packet):
        record = record or Assets()
        services, output = dict(record.services), "quiet"
        service = packet.proto, packet.source[1]
        spelled = f"{PROTOCOL_NAMES[packet.proto]} {packet.source[1]}"
        is_out = flow_of(site, packet)[1] == OUT
        banner = next((name for start, name in BANNERS.items() if packet.head.startswith(start)), None)
        if is_out and announces(packet) and service not in services:
            if len(services) < MOST_SERVICES:
                services[service] = NO_BANNER
                output = f"new {spelled}"
            else:
                output = "full"
        elif is_out and services.get(service) == NO_BANNER and banner:
            services[service] = banner
            output = f"banner {spelled} {banner}"
        return Assets(record.packets + 1, tuple(sorted(services.items()))), output

    @staticmethod
    def print_record(record):
        services = ",".join(f"{PROTOCOL_NAMES[proto]}/{port}/{banner}" for (proto, port), banner in record.services)
        return f"packets {record.packets} services {services or 'none'}"


FUNCTIONS = {function.name: function for function in (Tracker, Translator, Monitor)}
