#!/usr/bin/env python3
"""Holds sequence pictures of a document to what the model does.

Use: pictures.py DOCUMENT

A picture is a block of indented lines below a line with the names of its lanes, as in docs/ARCHITECTURE.md. Each arrow stands from one
lane to another and begins with the name of a message. Those of the sections on shares and on strong sharing must be, one after another, the
messages that are sent in a run of the model: in the picture of a share that is set up, up to its answer; in that of a packet that is served,
from where the packet arrives.
"""
import re
import sys

sys.dont_write_bytecode = True
import model  # noqa: E402
import network  # noqa: E402
import script_reader  # noqa: E402
import strong_share  # noqa: E402
from functions import FUNCTIONS, UDP, Prefix, Site  # noqa: E402

LANES = ["switch", "controller", "a", "b"]
FUNCTION, SITE = FUNCTIONS["conntrack"], Site(Prefix(0x0A000000, 24), None)
PACKET = model.Packet(0, UDP, (0x0A000001, 5001), (0xC0000209, 53), 0, 0, b"")


def sent_in(world):
    """What is sent in a world's run, as (sender, receiver, name)."""
    sent = []
    for number, node in enumerate(world.nodes):

        def take(port, message, step, number=number, take=node.take):
            take(port, message, step)
            sent.extend((number, receiver, what[0]) for receiver, what in step.sent)

        node.take = take
    network.run(world, "last")
    return sent


def sent_by_share():
    """What is sent in a run of one share and one packet, which is b's: before the packet arrives, and after that."""
    script = script_reader.read_script(b"at 0 share a,b any strict\nat 0 settle\n", FUNCTION, ["a", "b"])
    asked = model.Simulation(FUNCTION, ["a", "b"], [1, 1], [False, False], SITE, 256, "last", b"", None)
    sent = sent_in(network.start(asked, script, [PACKET]))
    names = [name for _, _, name in sent]
    arrival, end = names.index("diverted"), names.index("end")
    return [sent[:arrival], sent[arrival:end]]


def sent_by_strong():
    """What is sent in a run of strong sharing for its second packet, which is b's."""
    asked = model.Sharing(FUNCTION, ["a", "b"], SITE, 256, "last", b"", network.ANY)
    sent = sent_in(strong_share.start(asked, [PACKET, PACKET]))
    names = [name for _, _, name in sent]
    return [sent[names.index("carry", names.index("synced")) : names.index("end")]]


SECTIONS = {"## A share, step by step": sent_by_share, "## Strong sharing": sent_by_strong}


def arrows_of(lines):
    """The arrows, as (sender, receiver, name): the first line has a bar in each lane, and an arrow begins and ends at bars."""
    columns = [match.start() for match in re.finditer(r"\|", lines[0])]
    arrows = []
    for match, line in ((match, line) for line in lines for match in re.finditer(r"\|-- (\w+)[^|]*>\||\|<-+ (\w+)[^|]*--\|", line)):
        ends = columns.index(match.start()), columns.index(match.end() - 1)
        arrows.append((*(ends if match[1] else reversed(ends)), (match[1] or match[2]).lower()))
    return arrows


def pictures(text, title):
    """The blocks of a section that have lanes, as lists of lines."""
    section = text.partition(f"\n{title}\n")[2].partition("\n## ")[0]
    blocks = [block.splitlines() for block in section.split("\n\n")]
    return [lines for first, *lines in blocks if re.sub(r"\([^)]*\)", "", first).split() == LANES]


def main(arguments):
    if len(arguments) != 1:
        sys.exit("use: pictures.py DOCUMENT")
    with open(arguments[0], encoding="utf-8") as file:
        text = file.read()
    for title, sent_by_model in SECTIONS.items():
        found, wanted = list(map(arrows_of, pictures(text, title))), sent_by_model()
        if found != wanted:
            sys.exit(f"pictures.py: the pictures of {title} have {found} in place of {wanted}")


if __name__ == "__main__":
    main(sys.argv[1:])
