#!/usr/bin/env python3
"""Makes the packets of `steno drill` once more, from docs/FORMAT.md alone, and compares.

The packets are made as text in hexadecimal, and read back from their bytes, field by field, by the
queries. Then the program drills a folder twice, and folders that it can't drill. The last line is
'N passed, M failed'; the status is 0 if none failed.
"""
import ipaddress
import pathlib
import struct
import subprocess
import sys
import tempfile

from report import report

STENO = pathlib.Path(__file__).resolve().parent.parent / "steno"
SECONDS = 300
FIRST, MIDDLE = 1000000000, 1000000100
NEAR = ipaddress.ip_network("10.0.0.0/25")


def frame(k):
    """The 64 bytes of packet k."""
    protocol = "11" if k % 2 == 0 else "06"
    source, target = 1024 + k % 5000, 53 if k % 10 == 0 else 443
    text = (
        "020000000002 020000000001 0800"
        f"45000032 00000000 40 {protocol} 0000 0a00{k // 256 % 256:02x}{k % 256:02x} c0a800{k % 7:02x}"
        f"{source:04x} {target:04x}" + "00" * 26
    )
    return bytes.fromhex(text.replace(" ", ""))


def time_of(k):
    """Seconds since 1970, and nanoseconds."""
    return FIRST + k // 100, k % 100 * 10_000_000


def pcap(count):
    """The input of this many packets, in nanoseconds."""
    head = struct.pack("<IHHiIII", 0xA1B23C4D, 2, 4, 0, 0, 262144, 1)
    records = (struct.pack("<IIII", *time_of(k), 64, 64) + frame(k) for k in range(count))
    return head + b"".join(records)


def packets_of(text):
    """The records of a little-endian pcap in nanoseconds: second, nanosecond, frame."""
    at = 24
    while at < len(text):
        second, nano, captured, original = struct.unpack_from("<IIII", text, at)
        assert captured == original and nano < 10**9
        yield second, nano, text[at + 16:at + 16 + captured]
        at += 16 + captured


def ports(packet):
    assert packet[12:14] == b"\x08\x00" and packet[14] == 0x45 and packet[23] in (6, 17)
    return struct.unpack_from(">HH", packet, 34)


def addresses(packet):
    return ipaddress.ip_address(packet[26:30]), ipaddress.ip_address(packet[30:34])


QUERIES = [
    ("port 53", lambda second, packet: 53 in ports(packet)),
    ("ip proto 6 and net 10.0.0.0/25",
     lambda second, packet: packet[23] == 6 and any(a in NEAR for a in addresses(packet))),
    ("before 2001-09-09T01:48:20Z", lambda second, packet: second < MIDDLE),
    ("after 2001-09-09T01:48:20Z", lambda second, packet: second >= MIDDLE),
]


def summary(count, loaded, pairs):
    """What a drill of this many packets writes, once so many were loaded of each."""
    lines = [f"drill {count}", f"pairs {pairs}"]
    made = list(packets_of(pcap(count)))
    for text, matches in QUERIES:
        found = loaded * sum(matches(second, packet) for second, _, packet in made)
        lines.append(f"{text}: {found} packets {24 + 80 * found} bytes")
    return "\n".join(lines) + "\n"


# the summary of 20,000 packets over an empty folder, and over the folder of one such drill
ONCE = """drill 20000
pairs 3
port 53: 2000 packets 160024 bytes
ip proto 6 and net 10.0.0.0/25: 64 packets 5144 bytes
before 2001-09-09T01:48:20Z: 10000 packets 800024 bytes
after 2001-09-09T01:48:20Z: 10000 packets 800024 bytes
"""
TWICE = """drill 20000
pairs 3
port 53: 4000 packets 320024 bytes
ip proto 6 and net 10.0.0.0/25: 128 packets 10264 bytes
before 2001-09-09T01:48:20Z: 20000 packets 1600024 bytes
after 2001-09-09T01:48:20Z: 20000 packets 1600024 bytes
"""


def pairs_of(count):
    """How many pairs hold this many packets of 112 bytes in a block: 584 a block, 16 blocks."""
    block = (65536 - 48) // 112
    return -(-count // (16 * block))


def cases():
    made = list(packets_of(pcap(20000)))
    yield "a packet has 64 bytes", all(len(packet) == 64 for _, _, packet in made), "other lengths"
    once, twice = summary(20000, 1, pairs_of(20000)), summary(20000, 2, pairs_of(20000))
    yield "the counts of one drill", once == ONCE, once
    yield "the counts of a second one", twice == TWICE, twice


def steno(*arguments):
    """Status, standard output, standard error."""
    done = subprocess.run([STENO, *map(str, arguments)], stdin=subprocess.DEVNULL, capture_output=True, text=True,
                          timeout=SECONDS)
    return done.returncode, done.stdout, done.stderr


def made_files(folder):
    """The files of a spool that the program made, of each name the text."""
    return {path.relative_to(folder): path.read_bytes() for path in folder.rglob("*") if path.is_file()}


def damage_summary(folder):
    """Makes the first pair's index name another number of packets; gives its stamp."""
    index = min(path for path in (folder / "IDX0").iterdir() if len(path.name) == 16)
    text = bytearray(index.read_bytes())
    text[8] ^= 1
    index.write_bytes(text)
    return int(index.name, 16)


def runs(folder):
    spool = folder / "spool"
    # Builds the program if need be.
    subprocess.run([STENO], stdin=subprocess.DEVNULL, capture_output=True)
    for name, wanted in ("one drill", ONCE), ("a second one, over the pairs of both", TWICE):
        seen = steno("drill", spool, 20000)
        yield f"the program writes the summary of {name}", seen == (0, wanted, ""), seen
    status, lines, _ = steno("list", spool)
    counts = [int(line.split()[1]) for line in lines.splitlines()]
    yield "each drill made three pairs", (status, counts) == (0, [9344, 9344, 1312] * 2), lines
    for count in "0", "1000001", "x":
        seen = steno("drill", folder / "none", count)
        yield f"no drill of {count} packets", (seen[0], seen[1]) == (2, "") and not (folder / "none").exists(), seen
    place = folder / "place"
    place.write_text("")
    seen = steno("drill", place, 1)
    yield "no drill in a file", seen[:2] == (7, "") and seen[2].startswith("steno: the spool failed\n"), seen
    stamp = damage_summary(spool)
    before = made_files(spool)
    seen = steno("drill", spool, 1)
    named = seen[2].startswith(f"steno: pair {stamp} is damaged at ")
    yield "a damaged pair ends a drill, and nothing is written", seen[:2] == (8, "") and named, seen
    after = made_files(spool)
    yield "what was there stays", all(after.get(name) == text for name, text in before.items()), len(after)
    yield "and so does the pair that was made", len(after) == len(before) + 2, len(after)


def all_cases():
    yield from cases()
    with tempfile.TemporaryDirectory() as folder:
        yield from runs(pathlib.Path(folder))


if __name__ == "__main__":
    sys.exit(report(all_cases()))
