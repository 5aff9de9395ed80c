"""Flows, the filters over them, and the packets of a capture, as docs/FORMATS.md has them: for examples/draw and examples/json."""
import re
import struct
from typing import NamedTuple, Optional


class Fault(Exception):
    """Why something can't be read, in one line."""


def count_of(number, thing):
    return f"{number:,} {thing}{'' if number == 1 else 's'}"


# --- Flows and filters ---

PROTOCOLS = {"tcp": 6, "udp": 17}
PROTOCOL_NAMES = {number: name for name, number in PROTOCOLS.items()}


class Flow(NamedTuple):
    """The two ends of a flow. Of a host it is the local address alone."""

    proto: Optional[int]
    local: int
    lport: Optional[int]
    remote: Optional[int]
    rport: Optional[int]


def number_of(text, most):
    if not re.fullmatch("[0-9]{1,10}", text, re.ASCII) or int(text) > most:
        raise ValueError(text)
    return int(text)


def address_of(text):
    parts = [number_of(part, 255) for part in text.split(".")]
    if len(parts) != 4:
        raise ValueError(text)
    return int.from_bytes(bytes(parts), "big")


def address_text(address):
    return ".".join(map(str, address.to_bytes(4, "big")))


class Prefix(NamedTuple):
    bits: int
    length: int

    def holds(self, address):
        return address >> 32 - self.length == self.bits >> 32 - self.length


def prefix_of(text):
    address, slash, length = text.partition("/")
    return Prefix(address_of(address), number_of(length, 32) if slash else 32)


class Filter:
    """What a flow is to agree with: a value for each field that is given."""

    def __init__(self, text):
        self.text = text
        self.given = {}
        for field in text.split(",") if text != "any" else []:
            name, _, value = field.partition("=")
            if name == "proto":
                self.given[name] = PROTOCOLS.get(value, 0)
            elif name in ("local", "remote"):
                self.given[name] = prefix_of(value)
            elif name in ("lport", "rport"):
                self.given[name] = number_of(value, 65535)
            else:
                raise ValueError(text)

    def takes(self, flow):
        fields = flow._asdict()
        return all(
            value.holds(fields[name]) if isinstance(value, Prefix) else value == fields[name] for name, value in self.given.items()
        )


def unit_of(function, flow):
    """The flow, or the local host, whose state the function keeps."""
    return flow if function == "conntrack" else Flow(None, flow.local, None, None, None)


def unit_in(text):
    """The unit that the text of a report's line names."""
    proto, *ends = text.split(" ")
    if not ends:
        return Flow(None, address_of(text), None, None, None)
    (local, lport), (remote, rport) = (end.split(":") for end in ends)
    return Flow(PROTOCOLS[proto], address_of(local), int(lport), address_of(remote), int(rport))


# --- The capture ---


class Site(NamedTuple):
    inside: Prefix
    outside: Optional[int]


class Packet(NamedTuple):
    time: int  # in nanoseconds
    flow: Flow
    is_out: bool
    length: int  # of the payload, captured or not


# The byte order by a capture's first four bytes, and how many nanoseconds one of a record's fractions of a second is.
CAPTURES = {"a1b2c3d4": (">", 1000), "d4c3b2a1": ("<", 1000), "a1b23c4d": (">", 1), "4d3cb2a1": ("<", 1)}
ETHERNET, RAW = 1, 101
FIRST_PORT, PORTS_PER_HOST = 1024, 252


def site_of(inside, outside):
    try:
        return Site(prefix_of(inside), None if outside is None else address_of(outside))
    except ValueError as fault:
        raise Fault(f"{fault} is neither a prefix nor an address") from None


def read_capture(name, site, count):
    """The steered packets of a capture, in their order. A report has so many."""
    packets = []
    try:
        with open(name, "rb") as file:
            header = file.read(24)
            if header[:4].hex() not in CAPTURES or len(header) < 24:
                raise Fault(f"{name}: isn't a capture")
            order, unit = CAPTURES[header[:4].hex()]
            link = struct.unpack(order + "I", header[20:])[0] % 65536
            while len(front := file.read(16)) == 16:
                seconds, fraction, captured = struct.unpack(order + "III", front[:12])
                frame = file.read(captured)
                if len(frame) < captured:
                    break
                packet = packet_of(datagram_of(frame, link), site, seconds * 10**9 + fraction * unit)
                packets.extend([packet] if packet else [])
    except OSError as fault:
        raise Fault(f"{name}: {fault.strerror}") from None
    if len(packets) != count:
        raise Fault(f"{name}: has {count_of(len(packets), 'packet')}, and the report {count:,}")
    return packets


def datagram_of(frame, link):
    """What stands behind the frame's header, where that says IPv4; one VLAN tag may stand in front of the type."""
    if link == RAW:
        return frame
    size = 18 if frame[12:14] == b"\x81\x00" else 14
    return frame[size:] if frame[size - 2 : size] == b"\x08\x00" else b""


def packet_of(datagram, site, time):
    """The packet of a datagram, None where it isn't one of TCP or UDP with all of its headers."""
    head = datagram[0] % 16 * 4 if len(datagram) >= 20 and datagram[0] >> 4 == 4 else 0
    if head < 20 or len(datagram) < head or struct.unpack_from(">H", datagram, 6)[0] % 8192:
        return None
    proto, segment = datagram[9], datagram[head:]
    least = {PROTOCOLS["tcp"]: 20, PROTOCOLS["udp"]: 8}.get(proto)
    if least is None or len(segment) < least:
        return None
    own = segment[12] // 16 * 4 if proto == PROTOCOLS["tcp"] else least
    total = struct.unpack_from(">H", datagram, 2)[0] or len(datagram)
    if own < least or total < head + own:
        return None
    source, target = zip(struct.unpack_from(">II", datagram, 12), struct.unpack_from(">HH", segment))
    flow, is_out = flow_of(site, proto, source, target)
    return Packet(time, flow, is_out, total - head - own)


def flow_of(site, proto, source, target):
    """The flow of a packet from one end to another, and whether the packet goes out."""
    leaves, comes = site.inside.holds(source[0]), site.inside.holds(target[0])
    if not leaves and not comes and target[0] == site.outside and target[1] >= FIRST_PORT:
        host = site.inside.bits + (target[1] - FIRST_PORT) // PORTS_PER_HOST
        return Flow(proto, host, target[1], *source), False
    is_out = leaves if leaves != comes else source <= target
    return Flow(proto, *source, *target) if is_out else Flow(proto, *target, *source), is_out
