"""Reads pcaps, block files and spools, and says what a query gives over them, without the program.

All of it is made from docs/FORMAT.md alone; the header walk and the writer of block files, with which
each block file that is read is compared byte for byte, are those of pairs.py. A packet is (seconds,
nanoseconds, original length, captured bytes).
"""
import functools
import os
import re
import struct

from drill import pcap as drill_pcap
from pairs import PORT, PROTO, V4, VLAN, block_file, keys, room

keys = functools.lru_cache(maxsize=None)(keys)
FRACTION = {0xA1B2C3D4: 1000, 0xA1B23C4D: 1}
HEAD = struct.Struct("<IIII")
STAMP = re.compile("[0-9a-f]{16}")


def read_pcap(text):
    """The packets of a little-endian pcap."""
    unit = FRACTION[int.from_bytes(text[:4], "little")]
    packets, at = [], 24
    while at < len(text):
        sec, fraction, length, original = HEAD.unpack_from(text, at)
        packets.append((sec, fraction * unit, original, text[at + 16 : at + 16 + length]))
        at += 16 + length
    return packets


def write_pcap(packets, unit=1):
    """A pcap in nanoseconds, or with a unit of 1000 in microseconds."""
    magic = {unit: magic for magic, unit in FRACTION.items()}[unit]
    parts = [struct.pack("<IHHIIII", magic, 2, 4, 0, 0, 262144, 1)]
    for sec, nsec, original, body in packets:
        parts += [HEAD.pack(sec, nsec // unit, len(body), original), body]
    return b"".join(parts)


@functools.lru_cache(maxsize=16)  # a drill makes the same files each time
def read_block_file(text):
    """The packets of a block file, every byte of which must be as docs/FORMAT.md says."""
    size = int.from_bytes(text[4:8], "little")
    packets = []
    for start in range(0, len(text), size):
        at = start + 48
        for _ in range(int.from_bytes(text[start + 12 : start + 16], "little")):
            sec, nsec, length, original = struct.unpack_from("<IIII", text, at + 4)
            packets.append((sec, nsec, original, text[at + 48 : at + 48 + length]))
            at += 48 + (length + 15) // 16 * 16
    if block_file(packets, size)[0] != text:
        raise ValueError("a block file breaks its format")
    return packets


def files(folder):
    """The names in both folders of a spool, as PKT0/NAME and IDX0/NAME."""
    return sorted(f"{part}/{name}" for part in ("PKT0", "IDX0") for name in os.listdir(os.path.join(folder, part)))


def stamps(folder):
    """The stamps of the pairs: of those whose two files are there."""
    names = [set(filter(STAMP.fullmatch, os.listdir(os.path.join(folder, part)))) for part in ("PKT0", "IDX0")]
    return sorted(int(name, 16) for name in names[0] & names[1])


def packets_of(folder, stamp):
    with open(os.path.join(folder, "PKT0", f"{stamp:016x}"), "rb") as file:
        return read_block_file(file.read())


def cut(packets, size, blocks):
    """The packets as a load cuts them into pairs: each has as many as go into so many blocks."""
    pairs, used, filled = [], size, blocks
    for packet in packets:
        if used + room(packet[3]) > size:
            used, filled = 48, filled + 1
        if filled > blocks or not pairs:
            pairs.append([])
            used, filled = 48, 1
        used += room(packet[3])
        pairs[-1].append(packet)
    return pairs


def is_port(number):
    return lambda packet: (PORT, number) in keys(packet[3])


def is_in_net(high, low):
    """IPv4 addresses from one to another, as numbers."""
    return lambda packet: any(kind == V4 and high <= value <= low for kind, value in keys(packet[3]))


# The queries of a drill, and for each whether a packet matches.
DRILL_QUERIES = {
    "port 53": is_port(53),
    "ip proto 6 and net 10.0.0.0/25": lambda packet: (PROTO, 6) in keys(packet[3]) and is_in_net(0x0A000000, 0x0A00007F)(packet),
    "before 2001-09-09T01:48:20Z": lambda packet: packet[0] < 1_000_000_100,
    "after 2001-09-09T01:48:20Z": lambda packet: packet[0] >= 1_000_000_100,
}


def drill_pairs(count):
    """The packets of a drill, as it cuts them into pairs."""
    return cut(read_pcap(drill_pcap(count)), 65536, 16)


def drill_summary(count, pairs):
    """What a drill of so many packets writes over a spool that has these pairs then, its own among
    them."""
    lines = [f"drill {count}", f"pairs {len(drill_pairs(count))}"]
    packets = [packet for pair in pairs for packet in pair]
    for text, holds in DRILL_QUERIES.items():
        found = list(filter(holds, packets))
        lines.append(f"{text}: {len(found)} packets {len(write_pcap(found, 1000))} bytes")
    return "".join(line + "\n" for line in lines).encode()


def list_lines(pairs):
    """What list writes over pairs, given by their stamps in rising order."""
    text = ""
    for stamp, packets in pairs.items():
        least, greatest = min(packets)[:2], max(packets)[:2]
        text += "{} {} {}.{:09} {}.{:09}\n".format(stamp, len(packets), *least, *greatest)
    return text.encode()


def check_lines(pairs):
    """What check writes over whole pairs, given by their stamps in rising order."""
    return "".join(f"{stamp} whole {len(packets)}\n" for stamp, packets in pairs.items()).encode()


# Queries, and for each whether a packet matches.
QUERIES = {
    "before 2100-01-01T00:00:00Z": lambda packet: True,
    "port 53": is_port(53),
    "net 10.0.0.0/29 and port 443": lambda packet: is_in_net(0x0A000000, 0x0A000007)(packet) and is_port(443)(packet),
    "udp or vlan 20": lambda packet: bool({(PROTO, 17), (VLAN, 20)} & set(keys(packet[3]))),
    "after 2001-09-09T01:46:43Z and before 2001-09-09T01:46:45Z": lambda packet: 1_000_000_003 <= packet[0] < 1_000_000_005,
    "port 54": is_port(54),
}


def answer(packets, holds, unit=1000):
    """The pcap of those packets that match, by time; those of one time keep their order."""
    return write_pcap(sorted(filter(holds, packets), key=lambda packet: packet[:2]), unit)
