#!/usr/bin/env python3
"""Compares block files, indexes and answers with this script's own, made from docs/FORMAT.md alone.

Some 200 packets of every kind that the header walk knows, whole and cut, out of order in time, go
through `pair_files`: its block file and the rows of its index are this script's; LevelDB reads the
index with sums verified; an index that LevelDB's builder made, at other block sizes and restart
intervals, is whole, too; for each of some 40 queries the answer over the pair is that of `steno
once` over the packets; and bytes that are changed are found, at their part and place. What needs
LevelDB is left out, and that is said, if it is missing. The last line is 'N passed, M failed'; the
status is 0 if none failed.
"""
import pathlib
import random
import shutil
import struct
import subprocess
import sys
import tempfile

from report import report

ROOT = pathlib.Path(__file__).resolve().parent.parent
OURS = ROOT / "crates" / "pair_files" / "out" / "pair_files"
STENO = ROOT / "crates" / "steno" / "out" / "steno"
TABLES = ROOT / "crates" / "table_rows" / "out" / "table_rows"
SOURCE = ROOT / "tests" / "leveldb" / "rows.cc"
SECONDS = 120
BLOCK = 4096

CASES = []


def check(name, holds, said=""):
    CASES.append((name, holds, said))


def run(command, given=b""):
    done = subprocess.run([str(part) for part in command], input=given, capture_output=True, timeout=SECONDS)
    return done.returncode, done.stdout, done.stderr


# ---- frames

ETHER = bytes.fromhex("020000000002020000000001")


def ports(source, target):
    return struct.pack(">HH", source, target) + bytes(8)


def ip4(protocol, source, target, inside, offset=0, options=0):
    words = 5 + options
    head = struct.pack(">BBHHHBBH", 0x40 | words, 0, 4 * words + len(inside), 7, offset, 64, protocol, 0)
    return bytes.fromhex("0800"), head + source + target + bytes(4 * options) + inside


def ip6(first, source, target, inside):
    head = struct.pack(">IHBB", 0x60000000, len(inside), first, 64)
    return bytes.fromhex("86dd"), head + source + target + inside


def with_extensions(numbers, kind, inside):
    """Extension headers of IPv6 before what is inside, each with the number of what follows it."""
    for outer in (60, 44, 51):
        if numbers.random() < 0.4:
            rest = {60: bytes(7), 44: b"\0" + struct.pack(">H", numbers.choice([0, 1, 800])) + bytes(4), 51: b"\1" + bytes(10)}
            inside, kind = bytes([kind]) + rest[outer] + inside, outer
    return kind, inside


def behind_tags(kinds, tags, packet):
    kind, inside = packet
    for outer, tag in zip(reversed(kinds), reversed(tags)):
        kind, inside = outer, struct.pack(">H", tag) + kind + inside
    return kind, inside


def behind_labels(labels, packet):
    _, inside = packet
    entries = b"".join(struct.pack(">I", label << 12 | (n == len(labels) - 1) << 8 | 64) for n, label in enumerate(labels))
    return bytes.fromhex("8847"), entries + inside


def frames(numbers):
    """Frames by random choice of what they are made of, some of them cut."""
    four = [bytes([10, 0, 0, n]) for n in range(1, 9)] + [bytes([192, 168, 1, n]) for n in range(1, 5)]
    six = [bytes.fromhex("fd" + "00" * 14) + bytes([n]) for n in range(1, 7)]
    while True:
        inside = ports(numbers.choice([53, 80, 443, 1024, 65535]), numbers.choice([0, 53, 443, 8080]))
        protocol = numbers.choice([6, 17, 17, 1, 47])
        kind = numbers.randrange(8)
        if kind < 4:
            offset = numbers.choice([0, 0, 0, 0x2000, 185])
            packet = ip4(protocol, numbers.choice(four), numbers.choice(four), inside, offset, numbers.choice([0, 0, 1, 10]))
        elif kind < 6:
            first, chain = with_extensions(numbers, protocol, inside)
            packet = ip6(first, numbers.choice(six), numbers.choice(six), chain)
        elif kind == 6:
            packet = bytes.fromhex("0806"), bytes(28)
        else:
            packet = ip4(protocol, numbers.choice(four), numbers.choice(four), inside)
        around = numbers.randrange(4)
        if around == 1:
            packet = behind_tags([b"\x81\x00"], [numbers.choice([10, 20, 4095, 0x6014])], packet)
        elif around == 2:
            packet = behind_tags([b"\x88\xa8", b"\x81\x00"], [numbers.choice([10, 30]), 20], packet)
        elif around == 3 and packet[0] in (b"\x08\x00", b"\x86\xdd"):
            packet = behind_labels(numbers.choice([[17], [16, 17], [1048575]]), packet)
        frame = ETHER + packet[0] + packet[1]
        yield frame[: numbers.randrange(len(frame) + 1)] if numbers.random() < 0.15 else frame


def records(numbers, count):
    """Packets: second, nanosecond, original length, frame."""
    made = frames(numbers)
    for _ in range(count):
        frame = next(made)
        yield 1_000_000_000 + numbers.randrange(12), numbers.randrange(4) * 250_000_000, len(frame) + numbers.randrange(3), frame


# ---- the header walk, from docs/FORMAT.md

PROTO, PORT, VLAN, V4, MPLS, V6, SECOND = range(1, 8)
WIDTH = {PROTO: 1, PORT: 2, VLAN: 2, V4: 4, MPLS: 4, V6: 16, SECOND: 4}


def number(frame, at, size):
    return int.from_bytes(frame[at : at + size], "big")


def port_keys(frame, at):
    return [(PORT, number(frame, at, 2)), (PORT, number(frame, at + 2, 2))] if at + 4 <= len(frame) else []


def chain_keys(frame, kind, at):
    while True:
        size = None
        if at + 2 <= len(frame):
            if kind in (0, 43, 60):
                size = 8 * (frame[at + 1] + 1)
            elif kind == 51:
                size = 4 * (frame[at + 1] + 2)
        if kind == 44:
            size = 8
        if size is None or at + size > len(frame):
            return [(PROTO, kind)] + (port_keys(frame, at) if kind in (6, 17) else [])
        if kind == 44 and number(frame, at + 2, 2) >> 3:
            return [(PROTO, frame[at])]
        kind, at = frame[at], at + size


def ip_keys(frame, version, at):
    if version == 4:
        if at + 20 > len(frame) or frame[at] >> 4 != 4 or frame[at] & 15 < 5:
            return []
        keys = [(PROTO, frame[at + 9]), (V4, number(frame, at + 12, 4)), (V4, number(frame, at + 16, 4))]
        if number(frame, at + 6, 2) & 0x1FFF == 0 and frame[at + 9] in (6, 17):
            keys += port_keys(frame, at + 4 * (frame[at] & 15))
        return keys
    if at + 40 > len(frame) or frame[at] >> 4 != 6:
        return []
    return [(V6, number(frame, at + 8, 16)), (V6, number(frame, at + 24, 16))] + chain_keys(frame, frame[at + 6], at + 40)


def keys(frame):
    if len(frame) < 14:
        return []
    found, kind, at = [], number(frame, 12, 2), 14
    while kind in (0x8100, 0x88A8, 0x9100):
        if at + 4 > len(frame):
            return found
        found.append((VLAN, number(frame, at, 2) & 0xFFF))
        kind, at = number(frame, at + 2, 2), at + 4
    if kind in (0x8847, 0x8848):
        bottom = False
        while not bottom:
            if at + 4 > len(frame):
                return found
            entry = number(frame, at, 4)
            found.append((MPLS, entry >> 12))
            bottom, at = entry >> 8 & 1, at + 4
        version = frame[at] >> 4 if at < len(frame) else 0
        return found + (ip_keys(frame, version, at) if version in (4, 6) else [])
    if kind in (0x0800, 0x86DD):
        return found + ip_keys(frame, 4 if kind == 0x0800 else 6, at)
    return found


# ---- files, from docs/FORMAT.md

def pcap(packets):
    text = struct.pack("<IHHIIII", 0xA1B23C4D, 2, 4, 0, 0, 262144, 1)
    return text + b"".join(struct.pack("<IIII", sec, nsec, len(frame), length) + frame for sec, nsec, length, frame in packets)


def room(frame):
    return 48 + (len(frame) + 15) // 16 * 16


def block_file(packets, size):
    """The bytes of the block file, and the positions of its packets."""
    blocks, positions = [[]], []
    for packet in packets:
        if 48 + sum(room(other[3]) for other in blocks[-1]) + room(packet[3]) > size:
            blocks.append([])
        positions.append(size * (len(blocks) - 1) + 48 + sum(room(other[3]) for other in blocks[-1]))
        blocks[-1].append(packet)
    text = b""
    for place, block in enumerate(blocks):
        used = 48 + sum(room(packet[3]) for packet in block)
        head = struct.pack("<IIIIIIQ", 1, size, 1, len(block), 48, used, place)
        head += struct.pack("<IIII", *block[0][:2], *block[-1][:2])
        body = b""
        for n, (sec, nsec, length, frame) in enumerate(block):
            distance = room(frame) if n + 1 < len(block) else 0
            one = struct.pack("<IIIIIIHH", distance, sec, nsec, len(frame), length, 0, 48, 48) + bytes(20) + frame
            body += one + bytes(room(frame) - len(one))
        text += head + body + bytes(size - used)
    return text, positions


def index_rows(packets, positions):
    rows, times = {}, sorted(packet[:2] for packet in packets)
    for (sec, _, _, frame), position in zip(packets, positions):
        for kind, value in {*keys(frame), (SECOND, sec)}:
            key = bytes([kind]) + value.to_bytes(WIDTH[kind], "big")
            rows[key] = rows.get(key, b"") + struct.pack(">I", position)
    rows[b"\0"] = struct.pack(">IIIIII", 1, len(packets), *times[0], *times[-1])
    return rows


def lines(rows):
    return b"".join(key.hex().encode() + b" " + value.hex().encode() + b"\n" for key, value in sorted(rows.items()))


# ---- what is tried

QUERIES = """port 53 | port 443 | port 0 | port 65535 | port 54
tcp | udp | icmp | ip proto 47 | ip proto 60
host 10.0.0.1 | host 192.168.1.4 | host 10.0.0.9 | host fd00::1 | host fd00::7
net 10.0.0.0/8 | net 10.0.0.0/29 | net 10.0.0.4/30 | net 0.0.0.0/0 | net 10.0.0.1/32
net fd00::/16 | net fd00::2/127 | net ::/0 | net 192.168.1.0 mask 255.255.255.254
vlan 10 | vlan 20 | vlan 4095 | vlan 30 | mpls 17 | mpls 16 | mpls 1048575
before 2001-09-09T01:46:46Z | after 2001-09-09T01:46:46Z | before 1970-01-01T00:00:00Z | after 2100-01-01T00:00:00Z
net 10.0.0.0/8 and port 53 | tcp or udp and port 53 | tcp or (udp and port 53)
host 10.0.0.1 or host 10.0.0.2 or host fd00::3 | (vlan 10 or mpls 17) and (tcp or udp)
after 2001-09-09T01:46:43Z and before 2001-09-09T01:46:45Z | port 53 and port 443 and vlan 20"""


def answers(pair, text):
    for query in (query.strip() for row in QUERIES.split("\n") for query in row.split("|")):
        wanted = run([STENO, "once", "--ns", query], text)
        check(f"the answer to {query!r}", run([OURS, "answer", *pair, query]) == wanted and wanted[0] == 0)


def damage(folder, block, index, packets, positions):
    """Bytes are changed one at a time; what `check` says is worked out from docs/FORMAT.md."""
    def says(name, blocks, table, wanted):
        (folder / "hurt.block").write_bytes(blocks)
        (folder / "hurt.index").write_bytes(table)
        said = run([OURS, "check", folder / "hurt.block", folder / "hurt.index"])
        check(f"damage: {name}", said == (1, wanted.encode() + b"\n", b""), said)

    def with_byte(text, at, byte):
        return text[:at] + bytes([byte]) + text[at + 1 :]

    size = len(index)
    says("the layout version", with_byte(block, 0, 2), index, "damaged block 0 2 1")
    says("a block file cut in half a block", block[:-10], index, f"damaged block 0 {len(block) - 10} {(len(block) - 10) // BLOCK * BLOCK}")
    says("a status of a record", with_byte(block, positions[3] + 20, 9), index, f"damaged block {positions[3] + 20} 9 0")
    says("an index of 40 bytes", block, index[:40], "damaged index 0 40 48")
    says("the last byte of the magic", block, with_byte(index, size - 1, 0), f"damaged index {size - 8} {0x004775248B80FB57} {0xDB4775248B80FB57}")
    rows = index_rows(packets, positions)

    def of_rows(changed):
        return run([TABLES, "make"], lines(changed))[1]

    says("no summary row", block, of_rows({key: value for key, value in rows.items() if key != b"\0"}), "damaged index 0 0 1")
    says("a summary of 23 bytes", block, of_rows({**rows, b"\0": rows[b"\0"][:-1]}), "damaged index 0 23 24")
    says("a summary of version 2", block, of_rows({**rows, b"\0": struct.pack(">I", 2) + rows[b"\0"][4:]}), "damaged index 0 2 1")
    last = max(rows)
    says("a position of three bytes", block, of_rows({**rows, last: rows[last][:-1]}), "damaged index 0 3 0")
    says("a position twice", block, of_rows({**rows, last: rows[last] + rows[last][-4:]}), "damaged index 0 0 1")
    early = struct.pack(">I", int.from_bytes(rows[b"\0"][8:12], "big") - 1)
    changes = {
        "a least time that is too early": {**rows, b"\0": rows[b"\0"][:8] + early + rows[b"\0"][12:]},
        "a row too few": {key: value for key, value in rows.items() if key != last},
        "a row too many": {**rows, b"\x08": b""},
        "a row that lost its last position": {**rows, last: rows[last][:-4]},
        "a row under the next key": {(last[:-1] + bytes([last[-1] + 1]) if key == last else key): value for key, value in rows.items()},
    }
    for name, changed in changes.items():
        says(name, block, of_rows(changed), "damaged rows {} {} {}".format(*difference(changed, rows)))


def difference(found, wanted):
    """The number of the first row that differs, and the bytes there; 256 if there is none."""
    def texts(rows):
        return [struct.pack(">I", len(key)) + key + value for key, value in sorted(rows.items())]

    have, want = texts(found), texts(wanted)
    for place in range(max(len(have), len(want))):
        one, other = (rows[place] if place < len(rows) else b"" for rows in (have, want))
        if one != other:
            at = next(n for n in range(max(len(one), len(other))) if one[n : n + 1] != other[n : n + 1])
            return place, *(text[at] if at < len(text) else 256 for text in (one, other))


def main():
    if not OURS.exists():
        sys.exit(f"{OURS} is not built: run `rt ci` first")
    packets = list(records(random.Random(7), 200))
    block, positions = block_file(packets, BLOCK)
    rows = index_rows(packets, positions)
    text = pcap(packets)
    with tempfile.TemporaryDirectory() as name:
        folder = pathlib.Path(name)
        pair = folder / "block", folder / "index"
        check("the block file", run([OURS, "pack", BLOCK], text) == (0, block, b""))
        pair[0].write_bytes(block)
        status, index, said = run([OURS, "index", pair[0]])
        pair[1].write_bytes(index)
        check("an index is made", status == 0, said)
        check("the rows of the index", run([TABLES, "print", pair[1]]) == (0, lines(rows), b""))
        check("the pair is whole", run([OURS, "check", *pair]) == (0, f"whole {len(packets)}\n".encode(), b""))
        answers(pair, text)
        damage(folder, block, index, packets, positions)
        compiler, theirs = shutil.which("g++") or shutil.which("c++"), folder / "rows"
        if compiler is None or subprocess.run(
            [compiler, "-O2", "-std=c++17", "-o", theirs, SOURCE, "-lleveldb"], capture_output=True
        ).returncode:
            print("left out: indexes compared with LevelDB's (no C++ compiler, or no LevelDB headers)")
            return report(CASES)
        check("LevelDB reads the index", run([theirs, "print", pair[1]]) == (0, lines(rows), b""))
        for size in (256, 1024, 65536):
            for restarts in (1, 4, 64):
                path = folder / "theirs"
                run([theirs, "make", path, size, restarts, "plain", "short"], lines(rows))
                said = run([OURS, "check", pair[0], path])
                check(f"LevelDB's index of blocks of {size}, restarts every {restarts}", said == (0, f"whole {len(packets)}\n".encode(), b""), said)
    return report(CASES)


if __name__ == "__main__":
    sys.exit(main())
