#!/usr/bin/env python3
"""A model of the program, written apart from it, to compare the two.

Use: model.py sim FUNCTION --instances LIST --inside PREFIX [--outside ADDR] [--window W] [--schedule S] [--summary]
         TRACE [SCRIPT]
     model.py strong FUNCTION --instances LIST --inside PREFIX [--outside ADDR] [--window W] [--schedule S] TRACE [FILTER]
     model.py gen NUMBER --packets N --hosts H TRACE
     model.py published FUNCTION --inside PREFIX [--outside ADDR] [--window W] [--schedule S] TRACE K FILTER

It prints what the program prints for these words, writes the same file and ends with the same status. It takes the words in
this order alone. It is slow and plain: the whole capture is read first, and a message is a tuple. The functions stand in
functions.py, scripts in script_reader.py, the network in network.py, that of strong sharing in strong_share.py and the reports in
reports.py, and the network of an update in update.py.
"""
import os
import struct
import sys
from typing import NamedTuple, Optional

sys.dont_write_bytecode = True
import make_capture  # noqa: E402
import network  # noqa: E402
import script_reader  # noqa: E402
import strong_share  # noqa: E402
import update  # noqa: E402
from functions import FUNCTIONS, Filter, FilterFault, Site, Translator, read_address, read_number, read_prefix  # noqa: E402
from reports import report, strong_report  # noqa: E402


class Refusal(Exception):
    """Why there is no report: the program's status, and the line that it writes on standard error."""

    def __init__(self, status, line):
        super().__init__(line)
        self.status = status
        self.line = line


# --- The words ---


class Simulation(NamedTuple):
    """A run that is to be simulated."""

    function: type
    names: list
    limits: list
    marks: list  # whether the instance reads chunks of version 1 alone
    site: Site
    window: int
    schedule: object  # "first", "last" or a number
    trace: bytes
    script: Optional[bytes]
    is_summary: bool = False


class Sharing(NamedTuple):
    """Strong sharing that is to be simulated."""

    function: type
    names: list
    site: Site
    window: int
    schedule: object  # "first", "last" or a number
    trace: bytes
    flows: object  # the filter of what is shared


class Making(NamedTuple):
    """A capture that is to be made."""

    number: int
    packets: int
    hosts: int
    trace: bytes


class Update(NamedTuple):
    """A two-phase update."""

    function: type
    site: Site
    window: int
    schedule: object
    trace: bytes
    at: int  # after how many packets it starts
    flows: Filter
    names: tuple = ("a", "b")
    is_summary: bool = False


def is_file(text):
    return text == "-" or (text != "" and not text.startswith("-"))


def read_words(words):
    """What the words ask for. The words are bytes; they are in this order and no other."""
    try:
        texts = [word.decode("utf-8") for word in words]
    except UnicodeDecodeError:
        texts = []
    asked = None
    if texts[:1] == ["sim"]:
        asked = read_sim(texts, words)
    elif texts[:1] == ["strong"]:
        asked = read_strong(texts, words)
    elif texts[:1] == ["published"]:
        asked = read_published(texts, words)
    elif len(texts) == 7:
        asked = read_gen(texts, words[6])
    if asked is None:
        raise Refusal(1, "bad words")
    return asked


MOST_INSTANCES, MOST_WINDOW, MOST_RECORDS, MARK = 16, 4096, 1_000_000, "v1"


def read_options(texts):
    """The texts of a network's options, from the third word on, and the place of the first word after them."""
    values, place = {"--instances": "", "--inside": "", "--outside": None, "--window": "256", "--schedule": "first"}, 2
    for name in values:
        if texts[place : place + 1] == [name] and place + 1 < len(texts):
            values[name] = texts[place + 1]
            place += 2
    return values, place


def read_sim(texts, words):
    values, place = read_options(texts)
    is_summary = texts[place : place + 1] == ["--summary"]
    place += is_summary
    files = words[place:]
    if len(files) not in (1, 2) or not all(map(is_file, texts[place:])):
        return None
    function = FUNCTIONS.get(texts[1])
    instances = read_instances(values["--instances"])
    site = read_site(function, values["--inside"], values["--outside"])
    window = read_number(values["--window"], 1, MOST_WINDOW)
    schedule = read_schedule(values["--schedule"])
    if None in (function, instances, site, window, schedule):
        return None
    return Simulation(function, *instances, site, window, schedule, files[0], files[1] if files[1:] else None, is_summary)


def read_strong(texts, words):
    values, place = read_options(texts)
    if len(words) - place not in (1, 2) or not is_file(texts[place]):
        return None
    function = FUNCTIONS.get(texts[1])
    names = read_members(values["--instances"])
    site = read_site(function, values["--inside"], values["--outside"])
    window = read_number(values["--window"], 1, MOST_WINDOW)
    schedule = read_schedule(values["--schedule"])
    if None in (function, names, site, window, schedule):
        return None
    try:
        flows = script_reader.read_filter(texts[place + 1] if texts[place + 1 :] else "any", function)
    except script_reader.BrokenRule:
        return None
    return Sharing(function, names, site, window, schedule, words[place], flows)


def read_members(text):
    """The names of two members or more, with commas between them."""
    names = text.split(",")
    return names if all(map(script_reader.is_name, names)) and 2 <= len(set(names)) == len(names) <= MOST_INSTANCES else None


def read_published(texts, words):
    values, place = {"--outside": None, "--window": "256", "--schedule": "first"}, 2
    for name in "--inside", "--outside", "--window", "--schedule":
        if texts[place : place + 1] == [name] and place + 1 < len(texts):
            values[name] = texts[place + 1]
            place += 2
    if len(texts) != place + 3 or not is_file(texts[place]) or "--inside" not in values:
        return None
    function = FUNCTIONS.get(texts[1])
    site = read_site(function, values["--inside"], values["--outside"])
    window = read_number(values["--window"], 1, MOST_WINDOW)
    schedule = read_schedule(values["--schedule"])
    at = read_number(texts[place + 1], 0, 2**32 - 1)
    flows = read_whole(function, texts[place + 2])
    if None in (function, site, window, schedule, at, flows):
        return None
    return Update(function, site, window, schedule, words[place], at, flows)


def read_whole(function, text):
    """The filter, where it splits no unit."""
    try:
        flows = Filter(text)
    except FilterFault:
        return None
    return None if function is None or function.splits(flows) else flows


def read_instances(text):
    """The names, limits and marks of `NAME`, `NAME:LIMIT`, `NAME:v1` or `NAME:LIMIT:v1`, with commas between them."""
    names, limits, marks = [], [], []
    for item in text.split(","):
        name, *more = item.split(":")
        is_marked = more[-1:] == [MARK]
        limit = ":".join(more[:-1] if is_marked else more)
        has_limit = len(more) > is_marked
        names.append(name)
        limits.append(read_number(limit, 0, MOST_RECORDS) if has_limit else MOST_RECORDS)
        marks.append(is_marked)
    if not all(map(script_reader.is_name, names)) or None in limits:
        return None
    return (names, limits, marks) if len(set(names)) == len(names) <= MOST_INSTANCES else None


def read_site(function, inside, outside):
    """The translator alone has an outside address, and needs one that isn't in its 256 inside ones."""
    prefix, address = read_prefix(inside), read_address(outside or "")
    if prefix is None or (address is None) != (outside is None) or (function is Translator) != (outside is not None):
        return None
    if address is not None and (prefix.length != 24 or prefix.holds(address)):
        return None
    return Site(prefix, address)


def read_schedule(text):
    return text if text in ("first", "last") else read_number(text, 0, 2**64 - 1)


def read_gen(texts, trace):
    numbers = read_number(texts[1], 0, 2**64 - 1), read_number(texts[3], 1, MOST_PACKETS), read_number(texts[5], 1, 256)
    if [texts[0], texts[2], texts[4]] != ["gen", "--packets", "--hosts"] or None in numbers or not is_file(texts[6]):
        return None
    return Making(*numbers, trace)


# --- The capture ---


class Packet(NamedTuple):
    nanos: int  # its time
    proto: int
    source: tuple  # address and port
    target: tuple  # address and port
    flags: int
    length: int  # of the payload, captured or not
    head: bytes  # the first captured bytes of the payload


class Trace(NamedTuple):
    packets: list
    skipped: int
    cut: bool


# The byte order, and how many nanoseconds one of a record's fractions of a second is.
FORMS = {
    bytes.fromhex("a1b2c3d4"): (">", 1000),
    bytes.fromhex("d4c3b2a1"): ("<", 1000),
    bytes.fromhex("a1b23c4d"): (">", 1),
    bytes.fromhex("4d3cb2a1"): ("<", 1),
}
PCAPNG = bytes.fromhex("0a0d0d0a")
ETHERNET, RAW = 1, 101
MOST_CAPTURED = 262_144
MOST_HEAD = 64
MOST_PACKETS = 1_000_000
MOST_BYTES = 4_294_967_296


def refuse_trace(offset, kind):
    raise Refusal(2, f"trace byte {offset}: {kind}")


def read_header(capture):
    """The byte order, the nanoseconds of a fraction and the link type, from the first 24 bytes."""
    magic = capture[:4]
    if magic == PCAPNG:
        refuse_trace(0, "pcapng")
    if magic not in FORMS:
        refuse_trace(0, "magic")
    if len(capture) < 24:
        refuse_trace(len(capture), "header")
    order, fraction = FORMS[magic]
    major, minor, link = struct.unpack(order + "4xHH12xI", capture[:24])
    if (major, minor) != (2, 4):
        refuse_trace(4, "version")
    link %= 1 << 16
    if link not in (ETHERNET, RAW):
        refuse_trace(20, f"link type {link}")
    return order, fraction, link


def read_trace(capture):
    order, unit, link = read_header(capture)
    packets, skipped, offset = [], 0, 24
    while offset < len(capture):
        if len(capture) - offset < 16:
            return Trace(packets, skipped, True)
        seconds, fraction, captured = struct.unpack_from(order + "III", capture, offset)
        end = offset + 16 + captured
        if captured > MOST_CAPTURED:
            refuse_trace(offset, f"record length {captured}")
        if end > len(capture):
            return Trace(packets, skipped, True)
        packet = read_packet(ip_of(capture[offset + 16 : end], link), seconds * 10**9 + fraction * unit)
        if end > MOST_BYTES or (packet and len(packets) == MOST_PACKETS):
            refuse_trace(offset, "too long")
        if packet:
            packets.append(packet)
        else:
            skipped += 1
        offset = end
    return Trace(packets, skipped, False)


def ip_of(frame, link):
    """What follows the frame's link header, where that says IPv4. One VLAN tag may stand in front of the type."""
    if link == RAW:
        return frame
    for tag, header in (b"", 14), (b"\x81\x00", 18):
        if len(frame) >= header and frame[12:14].startswith(tag) and frame[header - 2 : header] == b"\x08\x00":
            return frame[header:]
    return b""


def read_packet(ip, nanos) -> Optional[Packet]:
    """The packet, where it is IPv4 with TCP or UDP, its headers are whole, and it is no later fragment."""
    if len(ip) < 20 or ip[0] >> 4 != 4:
        return None
    header = ip[0] % 16 * 4
    if header < 20 or len(ip) < header:
        return None
    total, fragment, proto = struct.unpack_from(">2xH2xHxB", ip)
    source, target = struct.unpack_from(">II", ip, 12)
    if fragment % (1 << 13) != 0:
        return None
    # A total length of 0 is what a capture has of a packet that the sender's card was to cut up.
    total = total or len(ip)
    segment = ip[header:]
    if proto == 17 and len(segment) >= 8:
        flags, own = 0, 8
    elif proto == 6 and len(segment) >= 20:
        flags, own = segment[13], segment[12] // 16 * 4
        if own < 20:
            return None
    else:
        return None
    if total < header + own:
        return None
    source_port, target_port = struct.unpack_from(">HH", segment)
    head = ip[header + own : total][:MOST_HEAD]
    return Packet(nanos, proto, (source, source_port), (target, target_port), flags, total - header - own, head)


# --- The runs ---


def read_file(name, role, most=-1):
    try:
        with open(name, "rb") as file:
            return file.read(most)
    except OSError:
        raise Refusal(4, f"read fault {role}") from None


def read_script(asked):
    if asked.script is None:
        return script_reader.EMPTY
    content = read_file(asked.script, "script", script_reader.MOST_BYTES + 1)
    try:
        script = script_reader.read_script(content, asked.function, asked.names)
    except script_reader.ScriptFault as fault:
        raise Refusal(2, f"script line {fault.line}: {fault.rule}") from None
    return script


def start(asked):
    """The capture, and the world at the start of the run."""
    script = read_script(asked)
    trace = read_trace(read_file(asked.trace, "trace"))
    return trace, network.start(asked, script, trace.packets)


def simulate(asked):
    """The capture, and the world at the end of the run."""
    trace, world = start(asked)
    network.run(world, asked.schedule)
    return trace, world


def share(asked):
    """The capture, and the world at the end of strong sharing."""
    trace = read_trace(read_file(asked.trace, "trace"))
    world = strong_share.start(asked, trace.packets)
    network.run(world, asked.schedule)
    return trace, world


def run(words):
    """The report's bytes for the program's words after its name, each as bytes. A capture that is asked for is written."""
    asked = read_words(words)
    if isinstance(asked, Making):
        return make(asked)
    if isinstance(asked, Sharing):
        return strong_report(asked, *share(asked))
    if isinstance(asked, Update):
        trace = read_trace(read_file(asked.trace, "trace"))
        return report(asked, trace, update.run(asked, trace.packets), "opennf published 1")
    return report(asked, *simulate(asked))


def make(asked):
    """Writes the capture, and gives the line that tells its numbers."""
    try:
        with open(asked.trace, "wb") as file:
            file.writelines(make_capture.capture(asked.number, asked.packets, asked.hosts))
    except OSError:
        raise Refusal(5, "write fault capture") from None
    return f"gen number {asked.number} packets {asked.packets} hosts {asked.hosts}\n".encode()


def write_all(descriptor, content):
    while content:
        content = content[os.write(descriptor, content) :]


def attempt(words):
    """Does what the words ask, up to the last byte of the report."""
    try:
        text = run(words)
    except MemoryError:
        raise Refusal(6, "no memory") from None
    try:
        write_all(1, text)
    except OSError:
        raise Refusal(5, "write fault report") from None


def main(words):
    try:
        attempt(words)
    except Refusal as refusal:
        try:
            write_all(2, f"opennf: {refusal.line}\n".encode())
        except OSError:
            pass  # the status stays
        return refusal.status
    return 0


if __name__ == "__main__":
    os._exit(main([os.fsencode(word) for word in sys.argv[1:]]))
