#!/usr/bin/env python3
"""Makes a capture of one shape. Use: shapes.py one|distinct|repeated|skipped PACKETS FILE

The file is a pcap capture of version 2.4, little-endian with microseconds and link type 101 (raw IP). PACKETS is 1 to
1000000. The packets are UDP without a payload, 28 bytes each, and all of one moment:

  one        each goes from 10.0.0.1:5000 to 192.0.2.9:53, so that they are one flow
  distinct   packet j, counted from 0, goes from 10.0.0.H:S to 192.0.2.9:D, where H is j modulo 256, S is 1024 and then
             the next 8 bits of j, and D is 53 and then the bits above: no two are of one flow
  repeated   the same of a tenth as many flows: packet j is as packet j modulo PACKETS / 10 of those above
  skipped    each is an ICMP packet in place of UDP, so that no record is steered
"""
import struct
import sys

FILE_HEADER = struct.pack("<IHHIIII", 0xA1B2C3D4, 2, 4, 0, 0, 65535, 101)
RECORD = struct.pack("<IIII", 0, 0, 28, 28)
# Version and header length, service, total length, identification, fragment; time to live, protocol, checksum; addresses.
IPV4 = struct.Struct(">BBHHHBBHII")
UDP = struct.Struct(">HHHH")
PEER = 192 << 24 | 2 << 8 | 9


def packet(protocol, host, source_port, target_port):
    """A record of one packet from a host of 10.0.0.0/24."""
    header = IPV4.pack(4 << 4 | 5, 0, 28, 0, 0, 64, protocol, 0, 10 << 24 | host, PEER)
    return RECORD + header + UDP.pack(source_port, target_port, 8, 0)


def distinct(j):
    return packet(17, j % 256, 1024 + j // 256 % 256, 53 + j // 65536)


# By the number of the packet, and how many there are.
SHAPES = {
    "one": lambda j, packets: packet(17, 1, 5000, 53),
    "distinct": lambda j, packets: distinct(j),
    "repeated": lambda j, packets: distinct(j % max(packets // 10, 1)),
    "skipped": lambda j, packets: packet(1, 1, 5000, 53),
}


def main(arguments):
    if len(arguments) != 3 or arguments[0] not in SHAPES or not arguments[1].isdigit():
        sys.exit("use: shapes.py one|distinct|repeated|skipped PACKETS FILE")
    shape, packets = SHAPES[arguments[0]], int(arguments[1])
    if not 1 <= packets <= 1_000_000:
        sys.exit("shapes.py: PACKETS is 1 to 1000000")
    with open(arguments[2], "wb", buffering=1 << 20) as file:
        file.write(FILE_HEADER)
        file.writelines(shape(j, packets) for j in range(packets))


if __name__ == "__main__":
    main(sys.argv[1:])
