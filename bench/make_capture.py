#!/usr/bin/env python3
"""Makes a generated capture. Use: make_capture.py NUMBER PACKETS HOSTS FILE

The same three numbers always make the same bytes. The file is a pcap capture of version 2.4, little-endian with
microseconds, zone 0, sigfigs 0, snaplen 65535 and link type 101 (raw IP). PACKETS is 1 to 1000000, HOSTS 1 to 256.

Packet j, counted from 1, is drawn from the j-th 64-bit word of SplitMix64 that starts from NUMBER:

  bits of the word   what they choose
  all                the host inside, 10.0.0.H: H is the word modulo HOSTS
  from 16            the peer outside, 192.0.2.P: P is these bits modulo 64
  32 and 33          both 0: the packet goes from the peer to the host; else from the host to the peer
  40                 0: UDP, between the host's port 50000 + P and the peer's port 53
                     1: TCP, between the host's port 40000 + P and the peer's port 443
  41 and 42          TCP flags: 0 SYN, 1 and 2 ACK, 3 FIN and ACK
  48 to 56           the length of the payload, 0 to 511

Packet j is sent j milliseconds after the start of 1970. Only its headers are captured, 28 bytes for UDP and 40 for
TCP; the record's original length and the IPv4 header's total length count the payload too. The time to live is 64.
Every checksum, sequence number and window is 0.
"""
import struct
import sys

MASK = (1 << 64) - 1
FIN, SYN, ACK = 1, 2, 16


def words(number):
    """The words of SplitMix64 from a number, without end."""
    while True:
        number = (number + 0x9E3779B97F4A7C15) & MASK
        word = ((number ^ number >> 30) * 0xBF58476D1CE4E5B9) & MASK
        word = ((word ^ word >> 27) * 0x94D049BB133111EB) & MASK
        yield word ^ word >> 31


FILE_HEADER = struct.pack("<IHHIIII", 0xA1B2C3D4, 2, 4, 0, 0, 65535, 101)
# The record's header is little-endian, and the packet after it big-endian: two structs.
RECORD = struct.Struct("<IIII")
# Version and header length, service, total length, identification, fragment; time to live, protocol, checksum; addresses.
IPV4 = struct.Struct(">BBHHHBBHII")
UDP = struct.Struct(">HHHH")
TCP = struct.Struct(">HHIIBBHHH")


def record(j, word, hosts):
    """The record of packet j."""
    peer = (word >> 16) % 64
    is_tcp = word >> 40 & 1 == 1
    payload = (word >> 48) % 512
    local = (10 << 24 | word % hosts, (40000 if is_tcp else 50000) + peer)
    remote = (192 << 24 | 2 << 8 | peer, 443 if is_tcp else 53)
    (source, source_port), (target, target_port) = (
        (remote, local) if (word >> 32) % 4 == 0 else (local, remote)
    )
    if is_tcp:
        flags = (SYN, ACK, ACK, FIN | ACK)[(word >> 41) % 4]
        segment = TCP.pack(source_port, target_port, 0, 0, 5 << 4, flags, 0, 0, 0)
    else:
        segment = UDP.pack(source_port, target_port, 8 + payload, 0)
    captured = 20 + len(segment)
    total = captured + payload
    second, millisecond = divmod(j, 1000)
    return b"".join((
        RECORD.pack(second, millisecond * 1000, captured, total),
        IPV4.pack(4 << 4 | 5, 0, total, 0, 0, 64, 6 if is_tcp else 17, 0, source, target),
        segment,
    ))


def capture(number, packets, hosts):
    """The capture's bytes, in pieces."""
    yield FILE_HEADER
    for j, word in zip(range(1, packets + 1), words(number)):
        yield record(j, word, hosts)


def main(arguments):
    if len(arguments) != 4 or not all(word.isdigit() for word in arguments[:3]):
        sys.exit("use: make_capture.py NUMBER PACKETS HOSTS FILE")
    number, packets, hosts = map(int, arguments[:3])
    if number > MASK or not 1 <= packets <= 1_000_000 or not 1 <= hosts <= 256:
        sys.exit("make_capture.py: NUMBER is below 2^64, PACKETS 1 to 1000000, HOSTS 1 to 256")
    with open(arguments[3], "wb", buffering=1 << 20) as file:
        file.writelines(capture(number, packets, hosts))


if __name__ == "__main__":
    main(sys.argv[1:])
