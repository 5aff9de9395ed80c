#!/usr/bin/env python3
"""Writes captures and words for the program, and beside them what the model makes of them.

Use: cases.py FOLDER SEED COUNT

FOLDER gets captures and, for each case, four files:

  NAME.words     the program's words, each ended by a byte 0; it is to be run in FOLDER
  NAME.out       what must stand on standard output
  NAME.err       what must stand on standard error
  NAME.status    the status
  NAME.capture   what must stand in the file that the last word names, where the words make a capture

Captures and scripts that the words name stand there too. Beside the fixed cases it makes COUNT captures by chance from SEED,
with every form of header, records that are cut, odd lengths, options, tags, fragments and flags.
"""
import os
import random
import struct
import sys

sys.dont_write_bytecode = True
import make_capture  # noqa: E402
import model  # noqa: E402

HERE = os.path.dirname(os.path.abspath(__file__))
EXAMPLES = os.path.join(HERE, os.pardir, "examples")
MICRO, NANO = 0xA1B2C3D4, 0xA1B23C4D
FORMS = {
    "little-micro": ("<", MICRO),
    "little-nano": ("<", NANO),
    "big-micro": (">", MICRO),
    "big-nano": (">", NANO),
}


# --- Captures ---


def file_header(order="<", magic=MICRO, link=101, version=(2, 4)):
    return struct.pack(order + "IHHIIII", magic, *version, 0, 0, 65535, link)


def record(frame, order="<", seconds=0, fraction=0, captured=None, original=None):
    captured = len(frame) if captured is None else captured
    return struct.pack(order + "IIII", seconds, fraction, captured, len(frame) if original is None else original) + frame


def rewritten(capture, order, magic):
    """A little-endian capture of microseconds in another form."""
    link, place = struct.unpack_from("<I", capture, 20)[0], 24
    pieces = [file_header(order, magic, link)]
    while place < len(capture):
        seconds, fraction, captured, original = struct.unpack_from("<IIII", capture, place)
        frame = capture[place + 16 : place + 16 + captured]
        fraction *= 1000 if magic == NANO else 1
        pieces.append(record(frame, order, seconds, fraction, captured, original))
        place += 16 + captured
    return b"".join(pieces)


def address(text):
    return bytes(map(int, text.split(".")))


def ipv4(segment, proto, source="10.0.0.1", target="192.0.2.9", total=None, fragment=0, options=b"", version=4):
    header = 20 + len(options)
    total = header + len(segment) if total is None else total
    first = struct.pack(">BBHHHBBH", version << 4 | header // 4, 0, total, 0, fragment, 64, proto, 0)
    return first + address(source) + address(target) + options + segment


def udp(source, target, payload=b""):
    return struct.pack(">HHHH", source, target, 8 + len(payload), 0) + payload


def tcp(source, target, flags, payload=b"", words=5):
    options = bytes(4 * max(0, words - 5))
    return struct.pack(">HHIIBBHHH", source, target, 0, 0, words << 4, flags, 0, 0, 0) + options + payload


def ethernet(packet, kind=0x0800, tag=False):
    return bytes(12) + (b"\x81\x00\x00\x07" if tag else b"") + struct.pack(">H", kind) + packet


# --- Cases ---


class Cases:
    def __init__(self, folder):
        self.folder = folder

    def file(self, name, content):
        with open(os.path.join(self.folder, name), "wb") as file:
            file.write(content)
        return name

    def words(self, name, words):
        """A case by its words: the model runs in the folder, as the program will."""
        words = [word.encode() if isinstance(word, str) else word for word in words]
        try:
            status, out, err = 0, model.run(words), ""
        except model.Refusal as refusal:
            status, out, err = refusal.status, b"", f"opennf: {refusal.line}\n"
        self.file(name + ".words", b"".join(word + b"\0" for word in words))
        self.file(name + ".out", out)
        self.file(name + ".err", err.encode())
        self.file(name + ".status", b"%d\n" % status)

    def trace(self, name, trace, inside="10.0.0.0/24", instance="a"):
        """A case by the capture's name."""
        self.words(name, words(trace, inside, instance))

    def capture(self, name, content, inside="10.0.0.0/24", instance="a"):
        """A case by the capture's bytes."""
        self.trace(name, self.file(name + ".pcap", content), inside, instance)


    def made(self, name, *words):
        """A case that makes a capture. What the model wrote stands beside, and in the file is what was there before, or what
        would show where it isn't written over."""
        before = bytes(100_000)
        if os.path.exists(words[-1]):
            with open(words[-1], "rb") as file:
                before = file.read()
        self.words(name, ["gen", *words])
        os.rename(words[-1], name + ".capture")
        self.file(words[-1], before)


def words(trace, inside="10.0.0.0/24", instance="a", schedule="last", more=()):
    """The options stand in the order in which the model takes them; `more` are those of the window."""
    return ["sim", "conntrack", "--instances", instance, "--inside", inside, *more, "--schedule", schedule, trace]


def by_hand(cases):
    """Captures whose reports were worked out by hand: the model is held to them."""
    one_packet = bytes.fromhex(
        "d4c3b2a1 0200 0400 00000000 00000000 ffff0000 65000000"
        "01000000 00000000 30000000 30000000"
        "45000030 00000000 40110000 0a000001 c0000209 13880035 001c0000" + "00" * 20
    )
    start = "opennf report 1\nfunction conntrack instances 1 window {}\ntrace "
    single = (
        "out 1 single\ndone 1 a\nstate udp 10.0.0.1:5000 192.0.2.9:53 a single out packets 1 bytes 20 seen 1000000000\ntally a 1\nend\n"
    )
    tagged = file_header(">", NANO, 1) + b"".join(
        record(frame, ">")
        for frame in (
            ethernet(ipv4(udp(5000, 53, bytes(20)), 17), tag=True),
            ethernet(ipv4(bytes(8), 1)),
            ethernet(ipv4(udp(5000, 53, bytes(20)), 17, fragment=185)),
            ethernet(ipv4(tcp(40000, 80, 2), 6, total=0)),
        )
    )
    question = ipv4(udp(5000, 53, bytes(20)), 17)
    answer = ipv4(udp(53, 5000, bytes(20)), 17, source="192.0.2.9", target="10.0.0.1")
    in_time, idle = (
        file_header() + record(question, seconds=1) + record(answer, seconds=2) + record(answer, seconds=last)
        for last in (302, 303)
    )
    three = "packets 3 skipped 0 whole\nout 1 single\nout 2 both\nout 3 {}\ndone 1 a\ndone 2 a\ndone 3 a\n"
    kept = "state udp 10.0.0.1:5000 192.0.2.9:53 a {} packets 3 bytes 60 seen {}000000000\ntally a 3\nend\n"
    wanted = {
        "in-time": (in_time, three.format("both") + kept.format("both out", 302)),
        "idle": (idle, three.format("single") + kept.format("single in", 303)),
        "empty": (one_packet[:24], "packets 0 skipped 0 whole\ntally a 0\nend\n"),
        "one-packet": (one_packet, "packets 1 skipped 0 whole\n" + single),
        "cut": (one_packet + bytes(10), "packets 1 skipped 0 cut\n" + single),
        "four-kinds": (
            tagged,
            "packets 2 skipped 2 whole\nout 1 single\nout 2 opening\ndone 1 a\ndone 2 a\n"
            "state tcp 10.0.0.1:40000 192.0.2.9:80 a opening out packets 1 bytes 0\n"
            "state udp 10.0.0.1:5000 192.0.2.9:53 a single out packets 1 bytes 20\n"
            "tally a 2\nend\n",
        ),
    }
    # With one instance each schedule and each window gives the same.
    ways = [(schedule, window) for window in ("1", "256", "4096") for schedule in ("first", "last", "29")]
    for name, (capture, report) in wanted.items():
        cases.capture("hand-" + name, capture)
        windows = {f"hand-{name}": "256"}
        for schedule, window in ways:
            way = f"hand-{name}-{schedule}-{window}"
            cases.words(way, words(f"hand-{name}.pcap", schedule=schedule, more=["--window", window]))
            windows[way] = window
        for way, window in windows.items():
            with open(way + ".out", "rb") as file:
                if file.read() != (start.format(window) + report).encode():
                    sys.exit(f"cases.py: the model's report of {way} isn't the one that was worked out by hand")
    for length, line in (23, "trace byte 23: header"), (3, "trace byte 0: magic"), (0, "trace byte 0: magic"):
        cases.capture(f"hand-first-{length}", one_packet[:length])
        with open(f"hand-first-{length}.err", "rb") as file:
            if file.read() != f"opennf: {line}\n".encode():
                sys.exit(f"cases.py: the model's line on the first {length} bytes isn't the one that was worked out by hand")


def office(cases):
    """Real traffic: as it is, in the other three forms, and cut at each of its last 100 bytes."""
    for name in "office", "office-raw":
        with open(os.path.join(EXAMPLES, name + ".pcap"), "rb") as file:
            capture = file.read()
        for form, (order, magic) in FORMS.items():
            cases.capture(f"{name}-{form}", rewritten(capture, order, magic))
        for cut in range(1, 101):
            if name == "office" or cut % 10 == 0:
                cases.capture(f"{name}-without-{cut:03}", capture[:-cut])


def headers(cases):
    """Headers of every kind, and files that end within one."""
    for form, (order, magic) in FORMS.items():
        for link in 0, 1, 101, 113, 0xFFFF, 0x10001, 0x80000065, 0x650000:
            cases.capture(f"header-{form}-{link}", file_header(order, magic, link))
        for version in (2, 3), (2, 5), (1, 4), (4, 2):
            cases.capture(f"header-{form}-version-{version[0]}.{version[1]}", file_header(order, magic, 1, version))
    whole = file_header()
    for length in range(24):
        cases.capture(f"header-of-{length:02}", whole[:length])
    pcapng = bytes.fromhex("0a0d0d0a1c0000004d3c2b1a01000000ffffffffffffffff1c000000")
    cases.capture("pcapng", pcapng)
    cases.capture("pcapng-start", pcapng[:4])
    cases.capture("pcapng-cut", pcapng[:3])
    for magic in 0, 0xA1B2C3D5, 0xA1B2CD34, 0xFFFFFFFF:
        cases.capture(f"magic-{magic:08x}", file_header("<", magic))
    cases.capture("text", b"this is no capture, but a text that is longer than a header\n")
    # Zone, sigfigs and snaplen say nothing.
    cases.capture("header-of-ones", whole[:8] + b"\xff" * 12 + whole[20:] + record(ipv4(udp(5000, 53), 17)))


def records(cases):
    """Records at the limits of their length, and files that end within one."""
    good = record(ipv4(udp(5000, 53, bytes(20)), 17))
    most, more = 262_144, 262_145
    start = file_header() + good
    cases.capture("record-longest", start + record(bytes(most)) + good)
    cases.capture("record-longest-steered", start + record(ipv4(udp(5000, 53), 17) + bytes(most - 28)) + good)
    cases.capture("record-too-long", start + record(bytes(more)) + good)
    cases.capture("record-too-long-and-cut", start + record(b"", captured=more))
    cases.capture("record-longest-and-cut", start + record(b"", captured=most))
    cases.capture("record-of-all-ones", start + b"\xff" * 16)
    cases.capture("record-cut-of-ones", start + b"\xff" * 15)
    cases.capture("record-empty", start + record(b"") + good)
    cases.capture("record-too-long-later", start + record(b"") + record(bytes(40)) + b"\xff" * 30)
    for length in range(1, len(good)):
        cases.capture(f"record-of-{length:02}", start + good[:length])


def frames(cases):
    """A frame that is taken, and each of its first parts: as a record of its own that holds no more."""
    for name, link, frame in (
        ("udp", 101, ipv4(udp(5000, 53, b"0123"), 17)),
        ("tcp", 101, ipv4(tcp(5000, 80, 2, b"0123", 6), 6, options=bytes(4))),
        ("ethernet", 1, ethernet(ipv4(tcp(5000, 80, 2, b"0123"), 6))),
        ("tagged", 1, ethernet(ipv4(udp(5000, 53, b"0123"), 17), tag=True)),
        ("tagged-twice", 1, ethernet(ethernet(ipv4(udp(5000, 53), 17), tag=True)[12:], 0x8100)),
        ("arp", 1, ethernet(bytes(28), 0x0806)),
        ("ipv6", 1, ethernet(b"\x60" + bytes(59), 0x86DD)),
    ):
        parts = [record(frame[:length]) for length in range(len(frame) + 1)]
        cases.capture(f"frame-{name}", file_header(link=link) + b"".join(parts))
    totals = [record(ipv4(udp(5000, 53, bytes(8)), 17, total=total)) for total in (0, 1, 19, 20, 27, 28, 29, 36, 99, 65535)]
    cases.capture("frame-totals", file_header() + b"".join(totals))
    fragments = [record(ipv4(udp(5000, 53), 17, fragment=bits)) for bits in (0x2000, 0x4000, 0x8000, 1, 185, 0x1FFF, 0xE000)]
    cases.capture("frame-fragments", file_header() + b"".join(fragments))
    versions = [record(ipv4(udp(5000, 53), 17, version=version)) for version in range(16)]
    cases.capture("frame-versions", file_header() + b"".join(versions))
    offsets = [record(ipv4(tcp(5000, 80, 16, bytes(60), size), 6, total=total)) for size in range(16) for total in (39, 40, 79, 80, None)]
    cases.capture("frame-offsets", file_header() + b"".join(offsets))
    protos = [record(ipv4(tcp(5000, 80, 16), proto)) for proto in range(256)]
    cases.capture("frame-protocols", file_header() + b"".join(protos))


def flows(cases):
    """Which end is local, for ends inside and outside and on the edge."""
    hosts = ("0.0.0.0", "9.255.255.255", "10.0.0.0", "10.0.0.1", "10.0.0.255", "10.0.1.0", "192.0.2.9", "255.255.255.255")
    packets = [
        record(ipv4(udp(source_port, target_port), 17, source, target))
        for source in hosts
        for target in hosts
        for source_port, target_port in ((1, 1), (1, 2), (65535, 0))
    ]
    capture = cases.file("ends.pcap", file_header() + b"".join(packets))
    for inside in "10.0.0.0/24", "0.0.0.0/0", "10.0.0.1/32", "10.0.0.0/31", "128.0.0.0/1", "255.255.255.255/32":
        cases.trace("ends-" + inside.replace("/", "-"), capture, inside)


def paths(cases):
    """The tracker: every flag byte after every way into a state."""
    syn, ack, fin, rst = 2, 16, 1, 4
    ways = {
        "opening": [(1, syn)],
        "answered": [(1, syn), (0, syn | ack)],
        "established": [(1, syn), (0, syn | ack), (1, ack)],
        "finfwd": [(1, syn), (1, fin)],
        "finrev": [(1, syn), (0, fin)],
        "closed": [(1, syn), (1, fin), (0, fin)],
        "reset": [(1, rst)],
        "loose": [(1, ack)],
        "none": [],
    }
    for name, way in ways.items():
        packets = []
        for flags in range(256):
            for last in 0, 1:
                for out, bits in way + [(last, flags), (1, ack), (0, ack)]:
                    port = 1000 + 2 * flags + last
                    ends = ("10.0.0.1", "192.0.2.9") if out else ("192.0.2.9", "10.0.0.1")
                    ports = (port, 80) if out else (80, port)
                    packets.append(record(ipv4(tcp(*ports, bits, b"x"), 6, *ends)))
        cases.capture(f"path-{name}", file_header() + b"".join(packets))


def command_lines(cases):
    """Words that are refused whatever the program will learn to read, and files that can't be read."""
    good = cases.file("good.pcap", file_header() + record(ipv4(udp(5000, 53, bytes(20)), 17)))
    cases.trace("name-of-16", good, instance="abcdefghij012345")
    for place, name in enumerate(("-", "two words.pcap", "two\nlines.pcap", "Büro.pcap", "a" * 250 + ".pcap")):
        cases.trace(f"file-{place}", cases.file(name, file_header()))
    by_bytes = b"\xff.pcap"
    with open(os.path.join(os.fsencode(cases.folder), by_bytes), "wb") as file:
        file.write(file_header())
    cases.words("file-not-utf8", [*words("x")[:-1], by_bytes])
    os.mkdir(os.path.join(cases.folder, "folder.pcap"))
    cases.trace("file-a-folder", "folder.pcap")
    cases.trace("file-missing", "missing.pcap")
    cases.trace("file-below-a-file", "good.pcap/x")
    cases.trace("file-name-too-long", "x" * 300)
    bad = {
        "none": [],
        "empty": [""],
        "command-alone": ["sim"],
        "no-options": ["sim", "conntrack", good],
        "help": ["--help"],
        "help-of-sim": ["sim", "--help"],
        "version": ["--version"],
        "command-unknown": ["simulate", *words(good)[1:]],
        "command-upper": ["SIM", *words(good)[1:]],
        "function-unknown": ["sim", "firewall", *words(good)[2:]],
        "trace-missing": words(good)[:-1],
        "trace-empty": words(""),
        "trace-an-option": words("-x"),
        "words-too-many": [*words(good), good, good],
        "schedule-unknown": [*words(good)[:-2], "middle", good],
        "option-unknown": [*words(good), "--fast"],
        "option-not-utf8": [*words(good), b"--\xc3"],
        "word-not-utf8": ["sim", b"\xe2\x82", *words(good)[2:]],
        "surrogate": [*words(good)[:-1], b"\xed\xa0\x80"],
        "outside-for-conntrack": [*words(good)[:-1], "--outside", "203.0.113.1", good],
    }
    for name, command_line in bad.items():
        cases.words("words-" + name, command_line)
    for place, inside in enumerate((
        "", "10.0.0.0", "10.0.0/24", "10.0.0.0.0/24", "10.0.0.1/24", "10.0.0.0/33", "10.0.0.0/-1", "10.0.0.256/32",
        "10.0.0.0/", "/24", "10.0.0.0/024", "010.0.0.0/24", "+10.0.0.0/24", " 10.0.0.0/24", "10.0.0.0/24 ",
        "10..0.0/24", "0x0a.0.0.0/24", "10.0.0.0/24/24", "10.0.0.0/4294967320", "4294967306.0.0.0/24", "٣.0.0.0/32",
        "0.0.0.1/0", "128.0.0.0/0", "10.0.0.0/24\n",
    )):
        cases.trace(f"inside-{place:02}", good, inside)
    for place, instance in enumerate(("", "A", "a_b", "abcdefghij0123456", "ä", "a b", "a\n", "-", "-a", ",", "a,", "a:")):
        cases.trace(f"instance-{place:02}", good, instance=instance)


def making(cases):
    """Captures that are made, and words that ask for none."""
    greatest = str(2**64 - 1)
    cases.made("made-three", "7", "--packets", "3", "--hosts", "1", "three.pcap")
    cases.made("made-one", "0", "--packets", "1", "--hosts", "256", "-")
    cases.made("made-some", greatest, "--packets", "2000", "--hosts", "255", "zwei Büros.pcap")
    cases.made("made-most", "1", "--packets", "1000000", "--hosts", "256", "most.pcap")
    good = ["gen", "7", "--packets", "3", "--hosts", "1", "never.pcap"]
    for place, trace in enumerate(("folder.pcap", "missing/x", "good.pcap/x", "x" * 300, "/dev/full")):
        cases.words(f"made-nowhere-{place}", [*good[:-1], trace])
    wrong = (
        *((1, number) for number in ("", "-1", "+7", "07", "7.0", " 7", "x", "0x7", "٣", str(2**64), "9" * 30)),
        *((3, packets) for packets in ("0", "1000001", "01", "-1", "", "3 ", "4294967299", greatest)),
        *((5, hosts) for hosts in ("0", "257", "001", "-1", "", "4294967297")),
        *((6, trace) for trace in ("", "-x", "--hosts", b"\xff")),
        *((2, "--packet"), (4, "--packets"), (4, "--host"), (0, "GEN"), (0, "generate")),
    )
    for number, (place, word) in enumerate(wrong):
        cases.words(f"made-never-{number:02}", [*good[:place], word, *good[place + 1 :]])
    for count in range(1, len(good)):
        cases.words(f"made-of-{count}-words", good[:count])
    cases.words("made-in-two-files", [*good, "other"])
    cases.words("made-inside", [*good[:-1], "--inside", "10.0.0.0/24", "never.pcap"])


# --- Networks ---

# Three packets of a TCP connection of 10.0.0.1: opened, answered, established. The captures below are at time 0 where they name none.
HANDSHAKE = [
    ipv4(tcp(40000, 80, 2), 6, "10.0.0.1", "198.51.100.7"),
    ipv4(tcp(80, 40000, 18), 6, "198.51.100.7", "10.0.0.1"),
    ipv4(tcp(40000, 80, 16), 6, "10.0.0.1", "198.51.100.7"),
]
TRANSLATED = ["--outside", "203.0.113.1"]


def question(host, port=5000):
    """A UDP packet of 20 bytes that a host sends."""
    return ipv4(udp(port, 53, bytes(20)), 17, f"10.0.0.{host}")


def capture_of(frames, seconds=0):
    return file_header() + b"".join(record(frame, seconds=seconds) for frame in frames)


def network_words(function, instances, trace, script=None, more=()):
    """The options stand in the order in which the model takes them: outside, window, schedule."""
    script = [] if script is None else [script]
    return ["sim", function, "--instances", instances, "--inside", "10.0.0.0/24", *more, trace, *script]


def network_case(cases, name, function, instances, frames, lines, more=(), seconds=0):
    """A case by its packets, all of one moment, and the lines of its script."""
    trace = cases.file(f"net-{name}.pcap", capture_of(frames, seconds))
    script = None if lines is None else cases.file(f"net-{name}.script", "".join(line + "\n" for line in lines).encode())
    cases.words(f"net-{name}", network_words(function, instances, trace, script, more))


# Sixteen instances.
MANY = "abcdefghijklmnop"

# Each run that was worked out by hand is also compared with the model by these, which leave other packets under way.
OTHER_WAYS = [["--window", window, "--schedule", schedule] for window in ("1", "4096") for schedule in ("first", "last", "29")]


def connection(state, instance, packets):
    return f"state tcp 10.0.0.1:40000 198.51.100.7:80 {instance} {state} out packets {packets} bytes 0"


def host_state(host, instance, packets):
    return f"state udp 10.0.0.{host}:5000 192.0.2.9:53 {instance} single out packets {packets} bytes {20 * packets}"


def standby(host, instance, packets):
    return f"standby udp 10.0.0.{host}:5000 192.0.2.9:53 {instance} single out packets {packets} bytes {20 * packets}"


def refused(answer, seen=""):
    """The lines of a connection's three packets, which are processed at a since its move to b is refused."""
    return ["out 1 opening", "out 2 answered", "out 3 established", *dones("1a 2a 3a"), f"answer 1 {answer}",
        connection("established", "a", 3) + seen, "tally a 3 0", "tally b 0 0"]


def dones(text):
    """The done lines of packets at instances, as `1a 2b`."""
    return [f"done {word[:-1]} {word[-1]}" for word in text.split()]


def rows_on_copies():
    """Runs with copies by their names: the function, the instances, the frames, the script's lines, more words, and the report's lines
    from the outputs to the tallies."""
    last, first, half = ["--schedule", "last"], [], "local=10.0.0.0/25"
    copied = ["at 1 copy a b any", "at 1 settle"]
    then_moved = ["at 2 move a b any order", "at 2 settle"]
    singles = [f"out {number} single" for number in range(1, 7)]
    one_done = ["out 1 single", "done 1 a"]
    three = [*singles[:3], *dones("1a 2a 3b"), "answer 1 done", "answer 2 done"]
    at_both = [host_state(1, "b", 3), standby(1, "b", 1)]
    two_hosts = [*singles[:2], *dones("1a 2a")]
    in_turn = [question(host) for host in (1, 129) * 3]
    return {
        # The copy has the record after the first packet, and the move takes it on; so it stands by at b, and is live there.
        "copied": ("conntrack", "a,b", [question(1)] * 3, [*copied, *then_moved], last, [*three, *at_both, "tally a 2 0", "tally b 0 1"]),
        "copied-all": ("conntrack", "a,b", [question(1)] * 3, [*copied, "at 2 copy a b all", *then_moved], last,
            [*three, "answer 3 done", *at_both, "tally a 2 0", "tally b 2 1"]),
        "copied-twice": ("conntrack", "a,b", [question(1)], [*copied, *copied], last,
            [*one_done, "answer 1 done", "answer 2 done", host_state(1, "a", 1), standby(1, "b", 1), "tally a 1 0", "tally b 0 0"]),
        "copied-later": ("conntrack", "a,b", [question(1)] * 2, [*copied, "at 2 copy a b any"], first,
            [*singles[:2], *dones("1a 2a"), "answer 1 done", "answer 2 done", host_state(1, "a", 2), standby(1, "b", 2), "tally a 2 0", "tally b 0 0"]),
        "copied-early": ("conntrack", "a,b", [question(1)], ["at 0 copy a b any"], last,
            [*one_done, "answer 1 done", host_state(1, "a", 1), "tally a 1 0", "tally b 0 0"]),
        "copied-in-a-move": ("conntrack", "a,b", [question(1)], ["at 1 move a b any order", "at 1 copy b a local=10.0.0.1"], first,
            [*one_done, "answer 1 done", "answer 2 overlap 1", host_state(1, "b", 1), "tally a 1 0", "tally b 0 0"]),
        "copied-beside": ("conntrack", "a,b,c", [question(1), question(129)], [f"at 2 move a b {half} order", "at 2 copy a c local=10.0.0.128/25",
            "at 2 copy a c all"], first, [*two_hosts, *(f"answer {number} done" for number in (1, 2, 3)), host_state(1, "b", 1), host_state(129, "a", 1),
                standby(129, "c", 1), "tally a 2 0 0", "tally b 0 0 0", "tally c 2 0 0"]),
        "copied-to-none": ("conntrack", "a,b", [question(1)], ["at 1 copy a z any", "at 1 copy z a all"], last,
            [*one_done, "answer 1 unknown z", "answer 2 unknown z", host_state(1, "a", 1), "tally a 1 0", "tally b 0 0"]),
        # Packets of both hosts come while one is moved and the other is copied.
        "copied-amidst": ("conntrack", "a,b,c", in_turn, ["at 2 move a b local=10.0.0.1 order", "at 2 copy a c local=10.0.0.129", "at 2 copy a c all"],
            last, [*singles, *dones("1a 2a 3b 4a 5b 6a"), *(f"answer {number} done" for number in (1, 2, 3)), host_state(1, "b", 3),
                host_state(129, "a", 3), standby(129, "c", 1), "tally a 4 0 0", "tally b 0 2 0", "tally c 2 0 0"]),
    }


def rows_on_shares():
    """Runs with shares, in the same form. The member of 10.0.0.h:P and 192.0.2.9:53 has the place P - 5000 + 6 by the number of members."""
    last, one = ["--schedule", "last"], ["--window", "1", "--schedule", "last"]
    shared = ["at 0 share a,b any strict", "at 0 settle"]
    hosts = [question(2, 5000), question(2, 5001)]
    maps = ["out 1 map 203.0.113.1:1528", "out 2 map 203.0.113.1:1529"]
    both = ["state 10.0.0.2 a ports 2 packets 2 drops 0", "standby 10.0.0.2 b ports 2 packets 2 drops 0", "tally a 1 0", "tally b 0 1"]
    crowd = [f"out {number} map 203.0.113.1:{1527 + number}" for number in range(1, 17)]
    sixteenth = "ports 16 packets 16 drops 0"
    few = [question(1), question(2)]
    full = ["route local=10.0.0.2/32 b", "at 0 share a,b,c,d local=10.0.0.1/32 strict", "at 0 settle", "at 2 move b a local=10.0.0.2/32 order"]
    many = [question(*end) for end in ((1, 5000), (1, 5001), (2, 5000), (2, 5001), (129, 5000), (1, 5001), (129, 5000), (2, 5000))]
    beside = ["route local=10.0.0.2 c", "at 0 share a,b local=10.0.0.1 strict", "at 0 share c,a local=10.0.0.2 strict", "at 0 settle",
        "at 5 move a b local=10.0.0.128/25 order", "at 5 move a c local=10.0.0.0/31 order", "at 5 settle"]
    return {
        "shared": ("nat", "a,b", hosts, shared, [*TRANSLATED, *last], [*maps, *dones("1a 2b"), "answer 1 done", *both]),
        "shared-and-moved": ("nat", "a,b", hosts, [*shared, "at 1 move a b any order"], [*TRANSLATED, *last],
            [*maps, *dones("1a 2b"), "answer 1 done", "answer 2 overlap 1", *both]),
        "shared-with-none": ("nat", "a,b", hosts, ["at 0 share a,z any strict"], [*TRANSLATED, *last],
            [*maps, *dones("1a 2a"), "answer 1 unknown z", "state 10.0.0.2 a ports 2 packets 2 drops 0", "tally a 2 0", "tally b 0 0"]),
        # The first record comes to the home, which has room for one, by the share; so there is none for what is moved.
        "shared-and-full": ("conntrack", "a:1,b,c,d", few, full, last,
            ["out 1 single", "out 2 single", *dones("1c 2b"), "answer 1 done", "answer 2 import 1 1 1", host_state(1, "a", 1),
                host_state(2, "b", 1), *(standby(1, name, 1) for name in "bcd"),
                "tally a 0 0 0 0", "tally b 0 1 0 0", "tally c 0 0 1 0", "tally d 0 0 0 0"]),
        "shared-by-sixteen": ("nat", ",".join(MANY), [question(2, port) for port in range(5000, 5016)],
            [f"at 0 share {','.join(MANY)} any strict", "at 0 settle"], [*TRANSLATED, *last],
            [*crowd, *(f"done {number} {MANY[(number + 5) % 16]}" for number in range(1, 17)), "answer 1 done", f"state 10.0.0.2 a {sixteenth}",
                *(f"standby 10.0.0.2 {name} {sixteenth}" for name in MANY[1:]),
                *(f"tally {name} {' '.join(str(int(slot == name)) for slot in MANY)}" for name in MANY)]),
        # Each host's packets are those of its share; a third host is moved, and one that is shared is not.
        "shared-twice": ("monitor", "a,b,c", many, beside, one,
            [*(f"out {number} quiet" for number in range(1, 9)), *dones("1a 2b 3c 4a 5a 6b 7b 8c"),
                *(f"answer {number} done" for number in (1, 2, 3)), "answer 4 overlap 1", "state 10.0.0.1 a packets 3 services none",
                "state 10.0.0.2 c packets 3 services none", "state 10.0.0.129 b packets 2 services none",
                "standby 10.0.0.1 b packets 3 services none", "standby 10.0.0.2 a packets 3 services none",
                "tally a 3 0 0", "tally b 0 3 0", "tally c 0 0 2"]),
        # What was there before goes to the other member at once; a copy of the state of all flows may go on, and one of units may not.
        "shared-later": ("conntrack", "a,b", [question(1)] * 2, ["at 1 share a,b any strict", "at 1 settle", "at 2 copy a b any", "at 2 copy a b all"], last,
            ["out 1 single", "out 2 single", *dones("1a 2a"), "answer 1 done", "answer 2 overlap 1", "answer 3 done", host_state(1, "a", 2),
                standby(1, "b", 2), "tally a 2 0", "tally b 2 0"]),
    }


# Rows whose report is the same whatever is done when.
SETTLED_ROWS = "shared", "shared-and-moved", "shared-with-none", "shared-by-sixteen"


def networks_by_hand(cases):
    """Runs whose reports were worked out by hand: the model is held to their lines from the outputs to the tallies."""
    last, first = ["--schedule", "last"], []
    outs = ["out 1 opening", "out 2 answered", "out 3 established"]
    move = "at 1 move a b any order"
    settled = [move, "at 1 settle"]
    early = ["at 0 move a b any order", "at 0 settle"]
    at_b = connection("established", "b", 3)
    half = "local=10.0.0.0/25"
    five = [question(host) for host in (1, 2, 3, 129, 130)]
    halves = ["route local=10.0.0.128/25 b", f"at 5 move a b {half} order"]
    fives = [f"out {number} single" for number in range(1, 6)] + dones("1a 2a 3a 4b 5b")
    five_states = ["tally a 3 0", "tally b 0 2"]
    round_trip = [f"at {at} {what}" for at, way in ((1, "a b"), (2, "b c"), (3, "c a")) for what in (f"move {way} any order", "settle")]
    round_report = [*(f"out {number} single" for number in range(1, 5)), *dones("1a 2b 3c 4a"), "answer 1 done", "answer 2 done",
        "answer 3 done", host_state(1, "a", 4), "tally a 2 0 0", "tally b 0 1 0", "tally c 0 0 1"]
    four = [question(1), question(9), question(1), question(9)]
    singles = [f"out {number} single" for number in range(1, 5)]
    # The schedule `first` takes in all packets, and then the lower instance goes on.
    routed = {order: [*singles, *dones(order), host_state(1, "a", 2), host_state(9, "c", 2), "tally a 2 0 0", "tally b 0 0 0", "tally c 0 0 2"]
        for order in ("1a 2c 3a 4c", "1a 3a 2c 4c")}
    one_done = ["out 1 single", "done 1 a"]
    # 100 hosts at a and 100 at b, all moved to c, which takes 180.
    crowd = [*range(1, 101), *range(129, 229)]
    crowd_dones = [f"out {number} single" for number in range(1, 201)]
    crowd_dones += [f"done {number} {'a' if number <= 100 else 'b'}" for number in range(1, 201)]
    to_c = ["at 200 move a c local=10.0.0.0/25 order", "at 200 move b c local=10.0.0.128/25 order"]
    crowd_tallies = ["tally a 100 0 0", "tally b 0 100 0", "tally c 0 0 0"]
    ssh = [
        ipv4(tcp(40000, 22, 2), 6, "192.0.2.9", "10.0.0.5"),
        ipv4(tcp(22, 40000, 18), 6, "10.0.0.5", "192.0.2.9"),
        ipv4(tcp(40000, 22, 16), 6, "192.0.2.9", "10.0.0.5"),
        ipv4(tcp(22, 40000, 16, b"SSH-2.0-x"), 6, "10.0.0.5", "192.0.2.9"),
    ]
    assets = ["out 1 quiet", "out 2 new tcp 22", "out 3 quiet", "out 4 banner tcp 22 ssh", *dones("1a 2a 3a 4a"),
        "state 10.0.0.5 a packets 4 services tcp/22/ssh", "tally a 4"]
    back = [
        question(1),
        ipv4(udp(53, 1276, bytes(20)), 17, "192.0.2.9", "203.0.113.1"),
        ipv4(tcp(53, 1276, 2), 6, "192.0.2.9", "203.0.113.1"),
        ipv4(udp(53, 5000), 17, "192.0.2.9", "10.0.0.1"),
        ipv4(udp(5000, 53), 17, "10.0.0.1", "10.0.0.9"),
        question(1, 5001),
    ]
    back_outs = ("map 203.0.113.1:1276", "unmap 10.0.0.1:5000", "drop nomap", "drop direct", "pass", "map 203.0.113.1:1277")
    ports = [question(255, port) for port in range(1001, 1254)]
    translated = [f"out {number} map 203.0.113.1:{65283 + number}" for number in range(1, 253)] + ["out 253 drop noport"]
    moved = [*outs, *dones("1a 2b 3b"), "answer 1 done", at_b, "tally a 1 0", "tally b 0 2"]
    # 130 hosts, whose records go in pieces of 64, 64 and 2.
    pieces = [question(host) for host in range(1, 131)]
    in_pieces = ["at 130 move a b any order", "at 130 settle"]
    pieces_at = {place: [*(f"out {host} single" for host in range(1, 131)), *(f"done {host} a" for host in range(1, 131)), answer,
        *(host_state(host, place, 1) for host in range(1, 131)), "tally a 130 0", "tally b 0 0"]
        for place, answer in (("a", "answer 1 import 0 130 129"), ("b", "answer 1 done"))}
    stayed = [*outs, *dones("1a 2a 3a"), "answer 1 done", at_b, "tally a 3 0", "tally b 0 0"]
    wanted = {
        "settled": ("conntrack", "a,b", HANDSHAKE, settled, last, moved),
        "settled-first": ("conntrack", "a,b", HANDSHAKE, settled, first, moved),
        "plain": ("conntrack", "a,b", HANDSHAKE, ["at 1 move a b any lossfree", "at 1 settle"], last, moved),
        "pieces": ("conntrack", "a,b", pieces, in_pieces, last, pieces_at["b"]),
        "pieces-refused": ("conntrack", "a,b:129", pieces, in_pieces, last, pieces_at["a"]),
        "no-room-for-any": ("conntrack", "a:0,b:0", HANDSHAKE, [move], last, refused("import 0 1 0")),
        "marked-at-0": ("conntrack", "a,b:v1", HANDSHAKE, settled, last, moved),
        "settle-alone": ("conntrack", "a,b,c", four, ["route local=10.0.0.9/32 c", "at 2 settle"], last, routed["1a 2c 3a 4c"]),
        "settle-alone-first": ("conntrack", "a,b,c", four, ["route local=10.0.0.9/32 c", "at 2 settle"], first, routed["1a 3a 2c 4c"]),
        "late": ("conntrack", "a,b", HANDSHAKE, [move], last, moved),
        "late-first": ("conntrack", "a,b", HANDSHAKE, [move], first, stayed),
        "late-first-one": ("conntrack", "a,b", HANDSHAKE, [move], ["--window", "1", *first], stayed),
        "early": ("conntrack", "a,b", HANDSHAKE, early, last,
            [*outs, *dones("1b 2b 3b"), "answer 1 done", at_b, "tally a 0 0", "tally b 0 3"]),
        "refused": ("conntrack", "a,b:0", HANDSHAKE, settled, last, refused("import 0 1 0")),
        "five": ("conntrack", "a,b:5", five, halves, last,
            [*fives, "answer 1 done", *(host_state(host, "b", 1) for host in (1, 2, 3, 129, 130)), *five_states]),
        "five-refused": ("conntrack", "a,b:4", five, halves, last,
            [*fives, "answer 1 import 2 3 4", *(host_state(host, "a" if host < 4 else "b", 1) for host in (1, 2, 3, 129, 130)), *five_states]),
        "overlap": ("conntrack", "a,b", [question(1)], [f"at 1 move a b {half} order", "at 1 move a b local=10.0.0.1/32 order"], first,
            [*one_done, "answer 1 done", "answer 2 overlap 1", host_state(1, "b", 1), "tally a 1 0", "tally b 0 0"]),
        "apart": ("conntrack", "a,b", [question(1)], [f"at 1 move a b {half} order", "at 1 move a b local=10.0.0.128/25 order"], first,
            [*one_done, "answer 1 done", "answer 2 done", host_state(1, "b", 1), "tally a 1 0", "tally b 0 0"]),
        "one-by-one": ("conntrack", "a,b", [question(1)], [f"at 1 move a b {half} order", "at 1 move a b local=10.0.0.1/32 order"], last,
            [*one_done, "answer 1 done", "answer 2 done", host_state(1, "b", 1), "tally a 1 0", "tally b 0 0"]),
        "unknown": ("conntrack", "a,b", [question(1)], ["at 1 move a z any order"], last,
            [*one_done, "answer 1 unknown z", host_state(1, "a", 1), "tally a 1 0", "tally b 0 0"]),
        "round": ("conntrack", "a,b,c", [question(1)] * 4, round_trip, last, round_report),
        "round-one": ("conntrack", "a,b,c", [question(1)] * 4, round_trip, ["--window", "1", *last], round_report),
        "round-most": ("conntrack", "a,b,c", [question(1)] * 4, round_trip, ["--window", "4096", *last], round_report),
        "route": ("conntrack", "a,b,c", four, ["route local=10.0.0.9/32 c", "at 2 move a b any order", "at 2 settle"], last,
            [*singles, *dones("1a 2c 3b 4c"), "answer 1 done", host_state(1, "b", 2), host_state(9, "c", 2),
                "tally a 1 0 0", "tally b 0 1 0", "tally c 0 0 2"]),
        "past-limit": ("conntrack", "a,b,c:180", [question(host) for host in crowd], [halves[0], *to_c], first,
            [*crowd_dones, "answer 1 done", "answer 2 done", *(host_state(host, "c", 1) for host in crowd), *crowd_tallies]),
        "at-limit": ("conntrack", "a,b,c:180", [question(host) for host in crowd], [halves[0], to_c[0], "at 200 settle", to_c[1]], first,
            [*crowd_dones, "answer 1 done", "answer 2 import 100 100 180",
                *(host_state(host, "c" if host <= 100 else "b", 1) for host in crowd), *crowd_tallies]),
        "ports": ("nat", "a", ports, None, [*TRANSLATED, *last],
            [*translated, *(f"done {number} a" for number in range(1, 254)), "state 10.0.0.255 a ports 252 packets 253 drops 1", "tally a 253"]),
        "back": ("nat", "a,b", back, ["at 1 move a b local=10.0.0.1 order", "at 1 settle"], [*TRANSLATED, *last],
            [*(f"out {number} {output}" for number, output in enumerate(back_outs, 1)), *dones("1a 2b 3b 4b 5b 6b"), "answer 1 done",
                "state 10.0.0.1 b ports 2 packets 6 drops 2", "tally a 1 0", "tally b 0 5"]),
        "assets": ("monitor", "a", ssh, None, last, assets),
    }
    for name, (function, instances, frames, lines, more, report) in {**wanted, **rows_on_copies(), **rows_on_shares()}.items():
        network_case(cases, f"hand-{name}", function, instances, frames, lines, more)
        hold_to(f"net-hand-{name}", report)
        for place, way in enumerate(OTHER_WAYS):
            network_case(cases, f"way-{place}-{name}", function, instances, frames, lines, [*(TRANSLATED if function == "nat" else []), *way])
    # Packets at 1 s, and a move to an instance that reads chunks of version 1 alone. The monitor keeps no times.
    seen = " seen 1000000000"
    for name, function, instances, frames, lines, report in (
        ("old", "conntrack", "a,b:v1", HANDSHAKE, settled, refused("old 2 1", seen)),
        ("old-and-full", "conntrack", "a,b:0:v1", HANDSHAKE, settled, refused("import 0 1 0", seen)),
        ("no-times", "monitor", "a,b:v1", ssh, ["at 4 move a b any order", "at 4 settle"],
            [*assets[:-2], "answer 1 done", "state 10.0.0.5 b packets 4 services tcp/22/ssh", "tally a 4 0", "tally b 0 0"]),
    ):
        network_case(cases, f"hand-{name}", function, instances, frames, lines, last, seconds=1)
        hold_to(f"net-hand-{name}", report)
        for place, way in enumerate(OTHER_WAYS):
            network_case(cases, f"way-{place}-{name}", function, instances, frames, lines, way, seconds=1)


def hold_to(name, report):
    """Ends with a word where the model's lines from the outputs to the tallies aren't these."""
    with open(name + ".out", encoding="ascii") as file:
        if file.read().splitlines()[3:-1] != report:
            sys.exit(f"cases.py: the model's report of {name} isn't the one that was worked out by hand")


def sixteen_instances(cases):
    """1000 routes to sixteen instances; and a chain of moves from each to the next."""
    instances = ",".join(MANY)
    # 250 hosts with four ports each have a route of their own, and six hosts have none.
    routes = [f"route local=10.0.0.{host},lport={5000 + port} {MANY[(host + 5 * port) % 16]}" for port in range(4) for host in range(250)]
    packets = [(host, port) for host in range(256) for port in range(4)]
    places = [MANY[(host + 5 * port) % 16] if host < 250 else "a" for host, port in packets]
    tallies = [f"tally {name} {' '.join(str(places.count(name) if slot == name else 0) for slot in MANY)}" for name in MANY]
    report = [*(f"out {number} single" for number in range(1, 1025)), *(f"done {number} {place}" for number, place in enumerate(places, 1)),
        *(f"state udp 10.0.0.{host}:{5000 + port} 192.0.2.9:53 {place} single out packets 1 bytes 20"
            for (host, port), place in zip(packets, places)), *tallies]
    frames = [question(host, 5000 + port) for host, port in packets]
    for name, more in ("last", ["--schedule", "last"]), ("one", ["--window", "1"]):
        network_case(cases, f"hand-routes-{name}", "conntrack", instances, frames, routes, more)
        hold_to(f"net-hand-routes-{name}", report)
    for name, more in ("first", []), ("number", ["--schedule", "16"]), ("most", ["--window", "4096", "--schedule", "3"]):
        network_case(cases, f"routes-{name}", "conntrack", instances, frames, [*routes, "at 500 move a p any order"], more)
    # One packet at each instance in turn, and the last one at the first again.
    steps = list(enumerate(zip(MANY, MANY[1:] + MANY[:1]), 1))
    chain = [f"at {at} {what}" for at, (source, target) in steps for what in (f"move {source} {target} any order", "settle")]
    report = [*(f"out {number} single" for number in range(1, 18)), *(f"done {number} {name}" for number, name in enumerate(MANY + "a", 1)),
        *(f"answer {op} done" for op in range(1, 17)), host_state(1, "a", 17),
        *(f"tally {name} {' '.join(str((2 if name == 'a' else 1) if slot == name else 0) for slot in MANY)}" for name in MANY)]
    for name, more in ("last", []), ("one", ["--window", "1"]), ("most", ["--window", "4096"]):
        network_case(cases, f"hand-chain-{name}", "conntrack", instances, [question(1)] * 17, chain, [*more, "--schedule", "last"])
        hold_to(f"net-hand-chain-{name}", report)
    # The same without settles, so that several are open, or refused; and plain moves.
    for name, how in ("order", "order"), ("plain", "lossfree"):
        lines = [f"at {at} move {source} {target} local=10.0.0.{at % 4} {how}" for at, (source, target) in steps]
        for place, way in enumerate(OTHER_WAYS):
            network_case(cases, f"chain-{name}-{place}", "conntrack", instances, [question(number % 4) for number in range(64)], lines, way)


def office_moves(cases):
    """Real traffic under scripts: each function, 1 to 3 instances, windows and schedules."""
    with open(os.path.join(EXAMPLES, "office.pcap"), "rb") as file:
        trace = cases.file("net-office.pcap", file.read())
    with open(os.path.join(EXAMPLES, "office-raw.pcap"), "rb") as file:
        raw = cases.file("net-office-raw.pcap", file.read())
    # The hosts are 10.0.0.2, 3 and 5.
    low, high = "local=10.0.0.2/31", "local=10.0.0.5"
    two = [f"route {high} b", f"at 30 move a b {low} order", f"at 35 move b a {high} order", "at 60 settle", "at 90 move b a any lossfree"]
    three = [f"route {high} c", f"at 30 move a b {low} lossfree", f"at 30 move c a {high} order", "at 31 move a c any order",
        "at 80 settle", "at 80 move b c any order", "at 110 move c nobody any order", "at 110 settle"]
    ports = ["at 20 move a b proto=tcp order", "at 20 move a b proto=udp,rport=53 order", "at 60 settle", "at 100 move b a lport=80 lossfree"]
    kept = ["at 20 copy a b any", f"at 40 move a b {low} order", f"at 40 copy a b {high}", "at 41 copy b a any", "at 60 settle",
        "at 60 copy b a any", "at 80 copy a b any", "at 90 copy a b all", "at 100 copy b a all"]
    shared = ["at 20 share a,b local=10.0.0.2/31 strict", f"at 40 move a b {high} order", "at 60 settle", f"at 60 share b,a {high} strict",
        "at 80 copy a b all", "at 90 move a b any order"]
    scripts = {name: cases.file(f"net-{name}.script", "".join(line + "\n" for line in lines).encode())
        for name, lines in (("two", two), ("three", three), ("ports", ports), ("kept", kept), ("shared", shared))}
    runs = [
        ("conntrack", "a", trace, None, []),
        ("conntrack", "a", trace, None, ["--window", "1", "--schedule", "7"]),
        ("conntrack", "a,b", trace, "two", []),
        ("conntrack", "a,b", raw, "two", ["--window", "3", "--schedule", "last"]),
        ("conntrack", "a,b:1", trace, "two", ["--window", "256", "--schedule", "1"]),
        ("conntrack", "a,b", trace, "ports", ["--window", "3", "--schedule", "18446744073709551615"]),
        ("conntrack", "a:60,b:9", trace, "ports", ["--schedule", "2"]),
        ("conntrack", "a,b,c", trace, "three", ["--window", "1", "--schedule", "3"]),
        ("conntrack", "a,b,c", raw, "three", ["--window", "3"]),
        ("conntrack", "a,b,c", trace, None, ["--schedule", "last"]),
        ("nat", "a", trace, None, [*TRANSLATED, "--window", "3", "--schedule", "4"]),
        ("nat", "a,b", trace, "two", [*TRANSLATED, "--schedule", "0"]),
        ("nat", "a:1,b:0", raw, "two", [*TRANSLATED]),
        ("nat", "a,b,c", trace, "three", [*TRANSLATED, "--window", "1", "--schedule", "last"]),
        ("monitor", "a", raw, None, []),
        ("monitor", "a,b", trace, "two", ["--window", "1", "--schedule", "5"]),
        ("monitor", "a,b:1", trace, "two", ["--schedule", "last"]),
        ("monitor", "a,b,c", trace, "three", ["--window", "3", "--schedule", "6"]),
        ("conntrack", "a,b", trace, "kept", []),
        ("conntrack", "a:1,b:1", raw, "kept", ["--window", "3", "--schedule", "10"]),
        ("nat", "a,b", trace, "kept", [*TRANSLATED, "--schedule", "last"]),
        ("monitor", "a,b,c", trace, "kept", ["--window", "1", "--schedule", "11"]),
        ("conntrack", "a,b", trace, "shared", []),
        ("conntrack", "a:1,b:1", raw, "shared", ["--window", "3", "--schedule", "12"]),
        ("nat", "a,b", trace, "shared", [*TRANSLATED, "--schedule", "last"]),
        ("monitor", "a,b,c", trace, "shared", ["--window", "1", "--schedule", "13"]),
    ]
    for place, (function, instances, capture, script, more) in enumerate(runs):
        cases.words(f"net-office-{place:02}", network_words(function, instances, capture, scripts.get(script), more))


def many_units(cases):
    """A made capture of so many hosts that their records go in several pieces."""
    trace = cases.file("net-many.pcap", b"".join(make_capture.capture(7, 600, 200)))
    low = "local=10.0.0.0/25"
    script = cases.file("net-many.script", f"route local=10.0.0.128/25 b\nat 400 move a b {low} order\nat 401 settle\n"
        "at 500 move b a any lossfree\n".encode())
    for place, (function, instances, more) in enumerate((
        ("conntrack", "a,b", ["--window", "3", "--schedule", "last"]),
        ("conntrack", "a,b:250", ["--window", "3", "--schedule", "8"]),
        ("nat", "a,b", [*TRANSLATED, "--schedule", "last"]),
        ("monitor", "a:100,b", ["--window", "1", "--schedule", "9"]),
    )):
        cases.words(f"net-many-{place}", network_words(function, instances, trace, script, more))
    shared = cases.file("net-many-shared.script", f"at 300 share a,b,c {low} strict\nat 301 settle\nat 500 copy a c local=10.0.0.128/25\n".encode())
    for place, (function, more) in enumerate((("conntrack", ["--schedule", "last"]), ("nat", [*TRANSLATED, "--schedule", "10"]), ("monitor", []))):
        cases.words(f"net-many-shared-{place}", network_words(function, "a,b,c", trace, shared, more))


def moves_back_and_forth(cases):
    """Hundreds of moves by chance, of few filters and so of the same flows again and again: of all flows, of ports, of prefixes that hold one
    another, each mostly followed by one back or on."""
    filters = ["any", "local=10.0.0.0/29", "local=10.0.0.4/30", "proto=udp", "rport=53", "remote=192.0.2.9", *(f"local=10.0.0.{host}" for host in range(8)),
        *(f"lport={5000 + port}" for port in range(4)), *(f"local=10.0.0.{host},lport={5000 + host % 4}" for host in range(8))]
    for place in range(6):
        chance = random.Random(f"moves back and forth {place}")
        names = "abcdefgh"[: chance.choice([2, 3, 8])]
        packets = [question(chance.randrange(8), 5000 + chance.randrange(4)) for _ in range(60)]
        lines = [f"route {flows} {chance.choice(names)}" for flows in chance.sample(filters, chance.choice([0, 2, 8]))]
        points = sorted(chance.randrange(61) for _ in range(100))
        for point in points:
            flows, way = chance.choice(filters), chance.sample(names, 2)
            for source, target in [way, way[::-1], way][: chance.choice([1, 2, 2, 3])]:
                lines.append(f"at {point} move {source} {target} {flows} {chance.choice(['order', 'lossfree'])}")
                if place % 2:
                    lines.append(f"at {point} settle")
        for way, more in enumerate((["--schedule", "last"], ["--window", "3", "--schedule", str(place)])):
            network_case(cases, f"back-and-forth-{place}-{way}", "conntrack", ",".join(names), packets, lines, more)


def network_refusals(cases):
    """Which of several faults is told: words, then the script, then the capture."""
    bad = cases.file("net-bad.pcap", b"no capture")
    good = cases.file("net-good.pcap", capture_of([question(1)]))
    faulty, late, share = (
        cases.file(f"net-{name}.script", text)
        for name, text in (
            ("faulty", b"at 0 copy a b any\nat 0 stop\n"),
            ("late", b"at 0 move a b any order\nat 0 copy a b all\nat 0 share a,b any strict\n"),
            ("share", b"at 1 settle\nat 1 share a,b any strict\n"),
        )
    )
    for name, trace, script in (
        ("script", bad, faulty), ("late", bad, late), ("share", bad, share), ("trace", bad, None), ("no-script", bad, "missing"),
        ("no-trace", "missing", late), ("script-no-trace", "missing", faulty), ("no-file", "missing", "missing"),
    ):
        cases.words(f"net-refused-{name}", network_words("conntrack", "a,b", trace, script))
    for place, (function, instances, more) in enumerate((
        ("nat", "a,b", []), ("monitor", "a", TRANSLATED),
        ("nat", "a", ["--outside", "10.0.0.9"]), ("nat", "a", ["--outside", "203.0.113.1/32"]),
        ("conntrack", "a,a", []), ("conntrack", "a,b:1000001", []), ("conntrack", "a,b:v2", []), ("conntrack", "a,b:v1:5", []),
        ("conntrack", "a,b:5:V1", []), ("conntrack", "a,b::v1", []), ("conntrack", "a,b:5:v1:v1", []), ("conntrack", "a,a:v1", []), ("conntrack", "a:", []), ("conntrack", "a:01", []),
        ("conntrack", ",".join(f"a{number}" for number in range(17)), []),
        ("conntrack", "a", ["--window", "0"]), ("conntrack", "a", ["--window", "4097"]), ("conntrack", "a", ["--window", "01"]),
        ("conntrack", "a", ["--schedule", "18446744073709551616"]), ("conntrack", "a", ["--schedule", "middle"]),
        ("conntrack", "a", ["--schedule", "01"]),
    )):
        cases.words(f"net-words-{place:02}", network_words(function, instances, good, None, more))


def faulty_scripts(cases):
    """Scripts for the monitor, and the line that each is refused by, which was worked out by hand."""
    trace = cases.file("net-one.pcap", capture_of([question(1)]))
    for place, (text, fault) in enumerate((
        (b"\xff", "1: not utf8"),
        (b"# \xc3\nat 0 stop", "1: not utf8"),
        (b"# x\n\n \t\r\nat 0 stop\n", "4: word"),
        (b"at 4294967296 settle", "1: word"),
        (b"at 01 settle", "1: word"),
        (b"at 0 share a any strict", "1: word"),
        (b"at 9 settle\nat 5 settle\n", "2: order"),
        (b"at 0 settle\nroute any z\n", "2: order"),
        (b"route any z", "1: name"),
        (b"at 0 move A A x order", "1: name"),
        (b"at 0 share a,b,a any strict", "1: same instance"),
        (b"at 0 move z z x order", "1: same instance"),
        (b"route local=10.0.0.1/24 a", "1: filter"),
        (b"at 0 move a b local=10.0.0.1,,rport=1 order", "1: filter"),
        (b"at 0 move a b proto=tcp,proto=tcp order", "1: filter"),
        (b"at 0 copy a b rport=65535", "1: splits unit"),
        (b"at 0 settle\n" * 1001, "1001: too many"),
        (b"route any a\n" * 1001, "1001: too many"),
        (b"#" * 1_048_577, "0: too many"),
    )):
        script = cases.file(f"net-script-{place:02}.script", text)
        cases.words(f"net-script-{place:02}", network_words("monitor", "a,b", trace, script))
        with open(f"net-script-{place:02}.err", encoding="ascii") as file:
            if file.read() != f"opennf: script line {fault}\n":
                sys.exit(f"cases.py: the model's line on {text[:50]} isn't the one that was worked out by hand")


def networks_at_times(cases):
    """Packets at 1, 2, 3 and 4 s: runs of the connection tracker whose reports were worked out by hand."""
    back = ipv4(udp(53, 5000, bytes(20)), 17, "192.0.2.9", "10.0.0.1")
    four, hosts = [question(1), back, question(1), question(2)], [question(host) for host in (1, 2, 5, 9)]
    outs = ["out 1 single", "out 2 both", "out 3 both", "out 4 single"]
    at_a = dones("1a 2a 3a 4a")

    def pair(instance, packets=3, part="state"):
        return f"{part} udp 10.0.0.1:5000 192.0.2.9:53 {instance} both out packets {packets} bytes {20 * packets} seen {packets}000000000"

    def single(host, instance, second):
        return f"{host_state(host, instance, 1)} seen {second}000000000"

    rows = [
        ("plain", "a,b", "89", four, ["at 1 move a b any lossfree"],
            [*outs, *dones("1a 4b 2b 3b"), "answer 1 done", pair("b"), single(2, "b", 4), "tally a 1 0", "tally b 0 3"]),
        ("order", "a,b", "6", four, ["at 1 move a b local=10.0.0.1 order"],
            [*outs, *dones("1a 2a 4a 3b"), "answer 1 done", pair("b"), single(2, "a", 4), "tally a 3 0", "tally b 0 1"]),
        ("copied", "a,b", "last", four, ["at 2 copy a b any", "at 2 settle", "at 3 copy a b all", "at 3 move a b local=10.0.0.1 order"],
            [*outs, *at_a, "answer 1 done", "answer 2 done", "answer 3 done", pair("b"), single(2, "a", 4), pair("b", 2, "standby"),
                "tally a 4 0", "tally b 3 0"]),
        ("refused", "a,b:0", "first", four, ["at 1 move a b local=10.0.0.1 order", "at 1 settle"],
            [*outs, *at_a, "answer 1 import 0 1 0", pair("a"), single(2, "a", 4), "tally a 4 0", "tally b 0 0"]),
        ("routes", "a,b,c", "last", hosts, ["route local=10.0.0.1 b", "route local=10.0.0.0/30 c", "route local=10.0.0.4/30 b"],
            [*(f"out {number} single" for number in range(1, 5)), *dones("1b 2c 3b 4a"), single(1, "b", 1), single(2, "c", 2),
                single(5, "b", 3), single(9, "a", 4), "tally a 1 0 0", "tally b 0 2 0", "tally c 0 0 1"]),
        *((f"alone-{schedule}", "a", schedule, four, ["# nothing"], [*outs, *at_a, pair("a"), single(2, "a", 4), "tally a 4"])
            for schedule in ("first", "last", "0", "18446744073709551615")),
    ]
    for name, instances, schedule, frames, lines, report in rows:
        packets = b"".join(record(frame, seconds=second) for second, frame in enumerate(frames, 1))
        trace = cases.file(f"net-timed-{name}.pcap", file_header() + packets)
        script = cases.file(f"net-timed-{name}.script", "".join(line + "\n" for line in lines).encode())
        cases.words(f"net-timed-{name}", network_words("conntrack", instances, trace, script, ["--schedule", schedule]))
        hold_to(f"net-timed-{name}", report)


NETWORKS = networks_by_hand, networks_at_times, sixteen_instances, office_moves, many_units, moves_back_and_forth, network_refusals, faulty_scripts


def by_chance(cases, seed, count):
    for place in range(count):
        chance = random.Random(f"{seed} {place}")
        inside = chance.choice(["10.0.0.0/24"] * 6 + ["0.0.0.0/0", "10.0.0.0/30", "10.0.0.1/32", "10.0.0.0/31"])
        cases.capture(f"chance-{place:04}", chance_capture(chance), inside, chance.choice(["a", "b1", "z" * 16]))


def chance_capture(chance):
    order, magic = chance.choice(list(FORMS.values()))
    link = chance.choice([1, 101])
    pieces = [file_header(order, magic, link | chance.choice([0, 0, 0, 0x10000, 0xFC000000]))]
    # Mostly close times, and steps around the 300 seconds after which a flow begins anew.
    seconds = chance.choice([0, 1, 1_700_000_000, 2**32 - 2000])
    for _ in range(chance.choice([1, 5, 40, 40, 40])):
        frame = chance_frame(chance, link)
        if chance.random() < 0.1:
            frame = frame[: chance.randrange(len(frame) + 1)]
        seconds = min(max(seconds + chance.choice([0] * 8 + [1, 1, -1, 299, 300, 301, -301]), 0), 2**32 - 1)
        fraction = chance.choice([0, 0, chance.randrange(10**6), chance.getrandbits(32)])
        pieces.append(record(frame, order, seconds, fraction, original=chance.getrandbits(32)))
    if chance.random() < 0.05:
        pieces.append(record(b"", order, captured=262_144 + chance.randrange(3)))
    capture = b"".join(pieces)
    if chance.random() < 0.1:
        capture = capture[: chance.randrange(len(capture))]
    return capture + chance.randbytes(chance.choice([0] * 6 + [5, 15, 16]))


def chance_frame(chance, link):
    hosts, ports = ["10.0.0.0", "10.0.0.1", "10.0.0.3", "10.0.0.4", "192.0.2.9"], [1, 80, 5000]
    source, target = chance.choice(hosts), chance.choice(hosts)
    ends = chance.choice(ports), chance.choice(ports)
    payload = bytes(chance.choice([0, 0, 1, 100]))
    proto = chance.choice([6, 6, 6, 17, 17, 1 if chance.random() < 0.3 else 6])
    if proto == 17:
        segment = udp(*ends, payload)
    else:
        flags = chance.choice([2, 18, 16, 17, 1, 4, 24, 6, 19, 0, chance.getrandbits(8)])
        segment = tcp(*ends, flags, payload, chance.choice([5, 5, 5, 8, 15, chance.randrange(16)]))
    options = bytes(4 * chance.choice([0, 0, 0, 1, 10]))
    whole = 20 + len(options) + len(segment)
    total = chance.choice([whole] * 6 + [0, whole + 1000, whole - 1, chance.randrange(100)])
    fragment = chance.choice([0, 0, 0, 0x4000, 0x2000, chance.getrandbits(16)])
    packet = ipv4(segment, proto, source, target, total, fragment, options, chance.choice([4] * 15 + [6]))
    if link == 101:
        return packet + bytes(chance.choice([0, 0, 6]))
    kind = chance.choice([0x0800] * 8 + [0x0806, 0x8100, 0x86DD])
    return ethernet(packet, kind, chance.random() < 0.3) + bytes(chance.choice([0, 0, 6]))


def main(arguments):
    if len(arguments) != 3:
        sys.exit("use: cases.py FOLDER SEED COUNT")
    folder, seed, count = arguments[0], arguments[1], int(arguments[2])
    os.chdir(folder)
    cases = Cases(os.curdir)
    for make in by_hand, office, headers, records, frames, flows, paths, command_lines, making, *NETWORKS:
        make(cases)
    by_chance(cases, seed, count)


if __name__ == "__main__":
    main(sys.argv[1:])
