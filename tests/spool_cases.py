"""The cases of end_to_end.py over a spool in a real folder: load, list, check, query and drill.

The program that the launcher built is run without the launcher. What is there is read by spool.py,
which is made from docs/FORMAT.md alone. What the machine does not allow (a mount of one's own,
another user to become), or a tool that is missing, is left out, and said.
"""
import fcntl
import functools
import gzip
import os
import pathlib
import random
import shutil
import struct
import subprocess

import spool
from make import file_head, samples
from pairs import records
from real_shelf import as_nobody, has_rights_to_lose

STENO = str(pathlib.Path(__file__).resolve().parent.parent / "crates" / "steno" / "out" / "steno")
SECONDS = 120
SMALL = ["--block", "4096", "--blocks", "2"]
EVERYTHING = "before 2100-01-01T00:00:00Z"
FAILED = b"steno: the spool failed\n"
UNIT = {"--ns": 1, None: 1000}


def run(*arguments, stdin=b"", **more):
    done = subprocess.run([STENO, *map(str, arguments)], input=stdin, capture_output=True, timeout=SECONDS, **more)
    return done.stdout, done.stderr, done.returncode


def lines_of(pairs):
    """A load's lines but for the stamps: how many packets each pair has."""
    return [len(pair) for pair in pairs]


def counts(said):
    return [int(line.split()[1]) for line in said.decode().splitlines()]


def pairs_in(folder):
    return {stamp: spool.packets_of(folder, stamp) for stamp in spool.stamps(folder)}


def is_sound(name, folder, pairs):
    """List, check and every query over a spool say what its pairs have."""
    there = pairs_in(folder)
    yield f"{name}: the pairs", list(there.values()) == pairs, [len(pair) for pair in there.values()]
    for command, wanted in (("list", spool.list_lines(there)), ("check", spool.check_lines(there))):
        said = run(command, folder)
        yield f"{name}: {command}", said == (wanted, b"", 0), said
    packets = [packet for pair in pairs for packet in pair]
    for query, holds in spool.QUERIES.items():
        for option, unit in UNIT.items():
            said = run("query", *([option] if option else []), folder, query)
            wanted = spool.answer(packets, holds, unit)
            yield f"{name}: query {query!r} {option or ''}", said == (wanted, b"", 0), (len(said[0]), len(wanted), said[1:])


def loads_a_sample(folder):
    there = folder / "spool"
    text = samples()["mixed"]
    out, err, status = run("load", there, stdin=text)
    stamp = spool.stamps(there)[-1] if there.exists() else 0
    yield "a sample is loaded", (out, err, status) == (f"{stamp} 7\n".encode(), b"", 0), (out, err, status)
    yield "its folders have these files alone", spool.files(there) == [f"{part}/{stamp:016x}" for part in ("IDX0", "PKT0")], spool.files(there)
    yield from is_sound("a sample", there, [spool.read_pcap(text)])
    for query in ("port 53", "vlan 20 or mpls 17", "host fd00::1", "tcp and port 443"):
        said, wanted = run("query", there, query), run("once", query, stdin=text)
        yield f"a sample: {query!r} as once answers it", said == wanted and said[2] == 0, said
    again = run("load", there, stdin=text)
    yield "it is loaded once more", again[1:] == (b"", 0) and counts(again[0]) == [7], again
    yield from is_sound("a sample twice", there, [spool.read_pcap(text)] * 2)


def loads_many_pairs(folder):
    there = folder / "spool"
    packets = list(records(random.Random(11), 2000))
    pairs = spool.cut(packets, 4096, 2)
    out, err, status = run("load", *SMALL, there, stdin=spool.write_pcap(packets))
    yield "a capture of many pairs", (counts(out), err, status) == (lines_of(pairs), b"", 0), (out, err, status)
    yield "its lines have the pairs' stamps", [int(line.split()[0]) for line in out.splitlines()] == spool.stamps(there), out
    yield from is_sound("many pairs", there, pairs)
    ordered = sorted(packets, key=lambda packet: packet[:2])
    for limit, kept in ((0, 0), (1, 1), (700, 700), (5000, 2000)):
        said = run("query", "--packets", limit, there, EVERYTHING)
        yield f"the first {limit} packets", said == (spool.write_pcap(ordered[:kept], 1000), b"", 0), said[1:]
    sizes = [len(packet[3]) for packet in ordered[:100]]
    for less, kept in ((0, 100), (1, 99)):
        said = run("query", f"--bytes={sum(sizes) - less}", there, EVERYTHING)
        wanted = next(n for n in range(kept, -1, -1) if sum(sizes[:n]) <= sum(sizes) - less)
        yield f"as many bytes as 100 packets have, less {less}", said == (spool.write_pcap(ordered[:wanted], 1000), b"", 0), said[1:]


def selects_as_tcpdump(folder):
    tcpdump = shutil.which("tcpdump")
    if tcpdump is None:
        print("left out: answers compared with tcpdump's (no tcpdump)")
        return
    there, capture = folder / "spool", folder / "capture.pcap"
    bodies = [plain_frame(k) for k in range(3000)]
    capture.write_bytes(spool.write_pcap([(1_000_000_000 + k // 100, k % 100 * 10_000_000, len(body), body) for k, body in enumerate(bodies)], 1000))
    run("load", "--block", "65536", "--blocks", "3", there, stdin=capture.read_bytes())
    for query in ("port 53", "net 10.0.0.0/8 and port 53", "tcp", "host 10.0.0.7 or host 192.168.0.3 and udp", "port 80"):
        theirs = subprocess.run([tcpdump, "-r", capture, "-w", "-", query], capture_output=True, timeout=SECONDS).stdout
        out, err, status = run("query", there, query)
        good = (err, status) == (b"", 0) and spool.read_pcap(out) == spool.read_pcap(theirs)
        yield f"{query!r} selects what tcpdump selects", good, (len(out), len(theirs), err, status)
    reads = subprocess.run([tcpdump, "-nr", "-"], input=run("query", there, "port 53")[0], capture_output=True, timeout=SECONDS)
    yield "tcpdump reads an answer", reads.returncode == 0 and reads.stdout.count(b"\n") == 300, reads.stderr
    if shutil.which("tshark"):
        reads = subprocess.run(["tshark", "-nr", "-", "-T", "fields", "-e", "frame.number"], input=run("query", there, "port 53")[0],
                               capture_output=True, timeout=SECONDS)
        yield "tshark reads an answer", reads.stdout.count(b"\n") == 300, reads.stderr


def plain_frame(k):
    """A packet of IPv4 whose ports and addresses go by its number."""
    port = 53 if k % 10 == 0 else 443
    head = struct.pack(">BBHIBBH", 0x45, 0, 56, 0x4000, 64, 17 if k % 2 else 6, 0) + bytes([10, 0, k // 256 % 256, k % 256, 192, 168, 0, k % 7])
    return bytes.fromhex("0200000000020200000000010800") + head + struct.pack(">HH", 1024 + k % 5000, port) + bytes(32)


def takes_any_input(folder):
    """A compressed capture by a pipe, captures that follow one another, other forms of pcap, none,
    and broken ones."""
    packets = list(records(random.Random(5), 900))
    pieces = [packets[at : at + 300] for at in range(0, 900, 300)]
    there = folder / "zipped"
    (folder / "capture.gz").write_bytes(gzip.compress(spool.write_pcap(packets)))
    done = subprocess.run(["bash", "-c", 'set -o pipefail; zcat "$2" | "$0" load --block 4096 "$1"', STENO, there, folder / "capture.gz"],
                          capture_output=True, timeout=SECONDS)
    yield "a compressed capture", (counts(done.stdout), done.stderr, done.returncode) == ([900], b"", 0), done
    yield from is_sound("a compressed capture", there, [packets])
    there = folder / "rotating"
    for number, piece in enumerate(pieces):
        said = run("load", there, stdin=spool.write_pcap(piece))
        yield f"capture {number + 1} of three", (counts(said[0]), *said[1:]) == ([300], b"", 0), said
    yield from is_sound("captures that follow one another", there, pieces)
    for number, (name, text) in enumerate(samples().items()):
        there = folder / f"form-{number}"
        said = run("load", there, stdin=text)
        wanted = run("once", "--ns", EVERYTHING, stdin=text)
        good = said[1:] == (b"", 0) and run("query", "--ns", there, EVERYTHING) == wanted
        yield f"the sample {name}", good, said
    there = folder / "empty"
    said = run("load", there, stdin=file_head("little", "micro"))
    yield "an input without packets", said == (b"", b"", 0) and spool.files(there) == [], said
    yield from is_sound("a spool without pairs", there, [])


def refuses_inputs(folder):
    packets = list(records(random.Random(6), 300))
    text = spool.write_pcap(packets)
    last = 16 + len(packets[-1][3])
    long = (5, 0, 4001, bytes(4001))
    head = spool.HEAD.pack(5, 0, 60, 60)
    zeros = "steno: input is not a pcap file, it begins with 0x00000000\n"
    no_room = "captured length 4001 does not fit a block of 4096\n"
    cases = [
        ("a record cut off", text[:-1], f"steno: record 300: {last - 1} of {last} bytes\n", 299),
        ("a record without its body", text + head, "steno: record 301: 16 of 76 bytes\n", 300),
        ("no pcap", bytes(24), zeros, 0),
        ("nothing", b"", "steno: record 0: 0 of 24 bytes\n", 0),
        ("a file head cut off", text[:23], "steno: record 0: 23 of 24 bytes\n", 0),
        ("a packet longer than a block", spool.write_pcap([*packets, long, *packets]),
         f"steno: record 301: {no_room}", 300),
        ("a first packet longer than a block", spool.write_pcap([long, *packets]),
         f"steno: record 1: {no_room}", 0)]
    for have in (1, 10, 15):
        cases += [
            (f"a record head of {have} bytes", text + head[:have],
             f"steno: record 301: {have} of 16 bytes\n", 300),
            (f"a first record head of {have} bytes", text[:24] + head[:have],
             f"steno: record 1: {have} of 16 bytes\n", 0)]
    for name, given, message, kept in cases:
        there = folder / name.replace(" ", "-")
        pairs = spool.cut(packets[:kept], 4096, 2)
        out, err, status = run("load", *SMALL, there, stdin=given)
        good = (counts(out), err, status) == (lines_of(pairs), message.encode(), 3)
        yield f"{name}: what comes before it is loaded", good, (out, err, status)
        yield from is_sound(name, there, pairs)


# Block sizes, the length of the longest packet that a block of each holds, and one more. In the
# greatest blocks there is room for more than the longest packet of a pcap.
LONGEST = [(4096, 4000, 4001), (8192, 8096, 8097), (65536, 65440, 65441),
           (262144, 262048, 262049), (524288, 262144, None), (1048576, 262144, None)]


def long_packet(number, length):
    """A packet of this length, whose last byte is another one than those before it."""
    body = plain_frame(number).ljust(length - 1, b"\0") + b"\1"
    return 1_000_000_000 + number, number, length + number, body


def takes_the_longest_packets(folder):
    """A packet that fills a block, alone and among others, and one that has a byte more."""
    few = list(records(random.Random(16), 5))
    for size, most, more in LONGEST:
        longest = [long_packet(number, most) for number in range(3)]
        plan = ["--block", size, "--blocks", "2"]
        for name, packets in (("alone", longest[:1]), ("three times", longest),
                              ("among others", [*few, longest[0], *few])):
            there = folder / f"{size} {name}"
            pairs = spool.cut(packets, size, 2)
            out, err, status = run("load", *plan, there, stdin=spool.write_pcap(packets))
            name = f"the longest packet of a block of {size}, {name}"
            good = (counts(out), err, status) == (lines_of(pairs), b"", 0)
            yield name, good, (out, err, status)
            yield from is_sound(name, there, pairs)
        if more is not None:
            there, name = folder / f"{size} and more", f"a byte more than a block of {size} holds"
            given = spool.write_pcap([longest[0], long_packet(7, more), *longest])
            out, err, status = run("load", *plan, there, stdin=given)
            line = f"steno: record 2: captured length {more} does not fit a block of {size}\n"
            yield name, (counts(out), err, status) == ([1], line.encode(), 3), (out, err, status)
            yield from is_sound(name, there, [longest[:1]])
    there, packets = folder / "by itself", [long_packet(0, 262144)]
    for number, words in enumerate(([there], ["--blocks", "1", there], ["--", there]), 1):
        out, err, status = run("load", *words, stdin=spool.write_pcap(packets))
        name = f"the longest packet of a pcap, load {number}"
        yield name, (counts(out), err, status) == ([1], b"", 0), (out, err, status)
        yield from is_sound(name, there, [packets] * number)


def refuses_arguments(folder):
    there = folder / "spool"
    usage = b"steno: usage: steno COMMAND [ARGUMENTS] [OPTIONS]\n"
    for arguments in (["load"], ["load", ""], ["load", there, "x"], ["load", "--block", "5000", there], ["load", "--blocks", "4096", there],
                      ["load", "--blocks", "0", there], ["load", "--ns", there], ["query", there], ["query", "--limit", "3", there, "udp"],
                      ["list"], ["list", "--ns", there], ["check", there, there], ["check", "--packets", "3", there], ["drill", there],
                      ["drill", there, "0"], ["drill", there, "1000001"], ["drill", "1", there], ["drill", "--limit", "3", there, "1"]):
        said = run(*arguments)
        yield f"{' '.join(map(str, arguments))} has no plan", said == (b"", usage, 2), said
    said = run("query", there, "port")
    yield "a query is refused before the folder is touched", said == (b"", b"steno: query: number at 4\n", 4) and not there.exists(), said


def copies_keep_their_pairs(folder):
    there, copy = folder / "spool", folder / "copy"
    packets = list(records(random.Random(9), 400))
    run("load", *SMALL, there, stdin=spool.write_pcap(packets))
    for name, text in (("PKT0/.draft-3", b"left"), ("IDX0/.draft-4", b""), ("PKT0/0000000000000001", b"half"), ("IDX0/0000000000000002", b"half"),
                       ("IDX0/.parked-0000000000000003", b"parked")):
        (there / name).write_bytes(text)
    subprocess.run(["cp", "-a", there, copy], check=True)
    shutil.rmtree(there)
    yield from is_sound("a copy by cp -a, with what a crash left", copy, spool.cut(packets, 4096, 2))
    names = [f"{part}/{stamp:016x}" for part in ("IDX0", "PKT0") for stamp in spool.stamps(copy)]
    yield "what belongs to no pair is removed", spool.files(copy) == names, spool.files(copy)
    for name in ("PKT0/notes", "IDX0/000000000000000A"):
        (copy / name).write_bytes(b"mine")
    run("list", copy)
    yield "files of other names are left", {"PKT0/notes", "IDX0/000000000000000A"} <= set(spool.files(copy)), spool.files(copy)


def names_damage(folder):
    """A changed byte of the second of three pairs."""
    there = folder / "spool"
    packets = list(records(random.Random(10), 200))
    run("load", *SMALL, there, stdin=spool.write_pcap(packets))
    stamps = spool.stamps(there)
    path = there / "PKT0" / f"{stamps[1]:016x}"
    text = path.read_bytes()
    path.write_bytes(b"\2" + text[1:])
    out, err, status = run("check", there)
    lines = out.decode().splitlines()
    good = lines[1:2] == [f"{stamps[1]} damaged block 0 2 1"] and [line.split()[1] for line in lines] == ["whole", "damaged", "whole"]
    yield "check names the damage of a block file", good and (err, status) == (b"", 8), (out, err, status)
    path.write_bytes(text[:68] + b"\x09" + text[69:])
    out, err, status = run("query", there, EVERYTHING)
    yield "query names the damaged pair", (err, status) == (f"steno: pair {stamps[1]} is damaged at 68: 9 for 0\n".encode(), 8), (err, status)
    path.write_bytes(text)
    path = there / "IDX0" / f"{stamps[2]:016x}"
    index = path.read_bytes()
    path.write_bytes(index[:40])
    said = run("list", there)
    yield "list names a damaged index", said[1:] == (f"steno: pair {stamps[2]} is damaged at 0: 40 for 48\n".encode(), 8), said
    path.write_bytes(index)
    yield from is_sound("a spool whose files are as they were", there, spool.cut(packets, 4096, 2))


MIDDLE = "2001-09-09T01:46:46Z"


def counts_what_it_answers(folder):
    """A capture that rotates: its files are loaded in turn, in two units and with several plans."""
    there, numbers = folder / "spool", random.Random(14)
    plans = [[], SMALL, ["--block=8192", "--blocks=1"], ["--block=4096", "--blocks=4095"], SMALL]
    told, loaded = b"", 0
    for number, (plan, count) in enumerate(zip(plans, (1, 700, 350, 999, 40)), 1):
        given = spool.write_pcap(list(records(numbers, count)), 1000 if number % 2 else 1)
        out, err, status = run("load", *plan, there, stdin=given)
        told, loaded = told + out, loaded + count
        good = sum(counts(out)) == count and (err, status) == (b"", 0)
        yield f"file {number} is loaded", good, (out, err, status)
        yield from counts_alike(f"after file {number}", there, told, loaded)
    for limit in (5, 2):
        given = spool.write_pcap(list(records(numbers, 60)))
        out, err, status = run("load", *SMALL, "--limit", limit, there, stdin=given)
        yield f"a load that keeps {limit} pairs", (err, status) == (b"", 0), (out, err, status)
        told = b"".join((told + out).splitlines(keepends=True)[-limit:])
        yield from counts_alike(f"once {limit} pairs are kept", there, told, sum(counts(told)))


def counts_alike(name, folder, told, loaded):
    """list and check have the lines that the loads printed, and queries find as many packets."""
    lines, err, status = run("list", folder)
    printed = b"".join(b" ".join(line.split(b" ")[:2]) + b"\n" for line in lines.splitlines())
    good = (printed, err, status) == (told, b"", 0)
    yield f"{name}: list has the lines of the loads", good, lines
    said = run("check", folder)
    yield f"{name}: so has check", said == (told.replace(b" ", b" whole "), b"", 0), said
    for options in ([], ["--ns"]):
        out, err, status = run("query", *options, folder, EVERYTHING)
        found = len(spool.read_pcap(out))
        good = found == sum(counts(lines)) == loaded and (err, status) == (b"", 0)
        seen = (found, counts(lines), loaded, err, status)
        yield f"{name}: a query {options} finds as many packets as list counts", good, seen
    halves = [run("query", folder, f"{side} {MIDDLE}")[0] for side in ("before", "after")]
    found = [len(spool.read_pcap(half)) for half in halves]
    yield f"{name}: so do two queries of which each has the rest", sum(found) == loaded, found


# Their order is another one as decimal text, as signed numbers or as numbers of 32 bits.
STAMPS = [0, 9, 10, 99, 100, 2**32 - 1, 2**32, 2**63 - 1, 2**63, 2**64 - 2, 2**64 - 1]


def of_one_load(number):
    """Packets whose times are those of other loads, are out of order, or differ by nanoseconds."""
    packets = []
    for place in range(24):
        second = 1_000_000_008 - place % 6 - (60 if number % 3 == 2 else 0)
        nanosecond = 250_000_000 + (0 if place % 2 else 900 - 50 * number)
        body = plain_frame(100 * number + place)
        packets.append((second, nanosecond, len(body) + number, body))
    return packets


def answers_by_stamp(folder):
    """Pairs whose packets' times are the same, overlap or go backwards, under stamps of all sizes.

    A folder may list its files in the order in which they were made: they are made by rising
    stamps, by falling ones, and in no order.
    """
    loads, made = [of_one_load(number) for number in range(len(STAMPS))], folder / "made"
    for packets in loads:
        run("load", made, stdin=spool.write_pcap(packets))
    yield from is_sound("loads whose times overlap", made, loads)
    mixed = random.Random(17).sample(range(len(STAMPS)), len(STAMPS))
    pairs = [loads[number] for number in mixed]
    packets = [packet for pair in pairs for packet in pair]
    ordered = sorted(packets, key=lambda packet: packet[:2])
    rising = range(len(STAMPS))
    for name, order in (("rising", rising), ("falling", rising[::-1]), ("mixed", mixed)):
        there = folder / name
        for place in order:
            copy_pair(made, spool.stamps(made)[mixed[place]], there, STAMPS[place])
        yield from is_sound(f"{name} stamps", there, pairs)
        for limit in (1, 2, 15, 16, 17, len(packets) - 1):
            said = run("query", "--packets", limit, there, EVERYTHING)
            good = said == (spool.write_pcap(ordered[:limit], 1000), b"", 0)
            yield f"{name} stamps: the first {limit} packets", good, said[1:]


def copy_pair(folder, stamp, other, as_stamp):
    """Puts a pair into another spool, under any stamp: no byte of its files says which it had."""
    for part in ("PKT0", "IDX0"):
        (other / part).mkdir(parents=True, exist_ok=True)
        shutil.copy(folder / part / f"{stamp:016x}", other / part / f"{as_stamp:016x}")


LAST = 2**64 - 1
SPENT = f"steno: no stamp follows {LAST}\n".encode()


def with_last_stamp(folder, packets, stamp):
    """A spool of these packets, whose last pair gets this stamp."""
    run("load", *SMALL, folder, stdin=spool.write_pcap(packets))
    last = spool.stamps(folder)[-1]
    for part in ("PKT0", "IDX0"):
        (folder / part / f"{last:016x}").rename(folder / part / f"{stamp:016x}")


def finds_no_stamp(folder):
    """No pair can follow the one with the greatest stamp: what is there stays, and is answered."""
    old, new = (list(records(random.Random(seed), 200)) for seed in (18, 19))
    pairs, more = spool.cut(old, 4096, 2), spool.cut(new, 4096, 2)
    yield "a load takes several stamps", len(more) > 2, len(more)
    for left in (0, 1, len(more) - 1, len(more)):
        there, name = folder / str(left), f"a spool with {left} stamps left"
        with_last_stamp(there, old, LAST - left)
        yield from is_sound(name, there, pairs)
        said = run("load", *SMALL, there, stdin=spool.write_pcap(new))
        stamps = range(LAST - left + 1, LAST + 1)
        lines = "".join(f"{stamp} {len(pair)}\n" for stamp, pair in zip(stamps, more)).encode()
        wanted = (lines, b"", 0) if left == len(more) else (lines, SPENT, 10)
        yield f"{name}: a load of {len(more)} pairs", said == wanted, said
        yield from is_spent(name, there, pairs + more[:left])
    there = folder / "drilled"
    with_last_stamp(there, old, LAST - 1)
    said, drilled = run("drill", there, 9345), spool.drill_pairs(9345)
    yield "a drill of two pairs with one stamp left", said == (b"", SPENT, 10), said
    yield from is_spent("after a drill of two pairs", there, pairs + drilled[:1])


def is_spent(name, folder, pairs):
    """A spool with these pairs takes no further one, and is left as it is."""
    yield f"{name}: the greatest stamp is there", spool.stamps(folder)[-1:] == [LAST], folder
    before, text = content(folder), samples()["mixed"]
    for words in (["load", folder], ["load", *SMALL, folder], ["drill", folder, "1"]):
        said = run(*words, stdin=text if words[0] == "load" else b"")
        yield f"{name}: {words[0]} finds no stamp", said == (b"", SPENT, 10), said
        good = content(folder) == before
        yield f"{name}: {words[0]} without a stamp changes nothing", good, spool.files(folder)
    said = run("load", folder, stdin=file_head("little", "micro"))
    yield f"{name}: an input without packets takes no stamp", said == (b"", b"", 0), said
    yield from is_sound(name, folder, pairs)


COMMANDS = [("load",), ("list",), ("check",), ("query", "udp"), ("drill", "1")]


def each_fails(name, folder, line, **more):
    """Each command ends because the spool failed, with a second line that says which call, and
    leaves the folder as it was."""
    text = samples()["mixed"]
    before = content(folder)
    for command, *rest in COMMANDS:
        said = run(command, folder, *rest, stdin=text if command == "load" else b"", **more)
        yield f"{name}: {command}", said == (b"", FAILED + line, 7) and content(folder) == before, said


def content(path):
    """All that lies at a path, with its bytes; nothing if the path isn't there."""
    if path.is_file():
        return path.read_bytes()
    return {str(file): file.read_bytes() for file in sorted(path.rglob("*")) if file.is_file()}


def finds_something_in_its_way(folder):
    packets = list(records(random.Random(12), 150))
    there = folder / "spool"
    run("load", *SMALL, there, stdin=spool.write_pcap(packets))
    held = os.open(there, os.O_RDONLY)
    fcntl.flock(held, fcntl.LOCK_EX)
    yield from each_fails("another program has the folder", there, f"steno: lock {there}: another program has the folder\n".encode())
    os.close(held)
    yield from is_sound("a folder that is free again", there, spool.cut(packets, 4096, 2))
    taken = folder / "file"
    taken.write_bytes(b"mine")
    yield from each_fails("a file in the folder's place", taken, f"steno: make folder {taken}/PKT0: Not a directory\n".encode())
    below = taken / "spool"
    said = run("list", below)
    yield "a file above the folder", said == (b"", FAILED + f"steno: make folder {below}: Not a directory\n".encode(), 7), said
    half = folder / "half"
    half.mkdir()
    (half / "IDX0").write_bytes(b"mine")
    yield "a file in the place of IDX0", run("list", half) == (b"", FAILED + f"steno: list {half}/IDX0: Not a directory\n".encode(), 7), run("list", half)


def lacks_rights(folder):
    copy = shutil.copy(STENO, folder / "steno")
    if not has_rights_to_lose(copy):
        print("left out: spools without rights (no other user to become)")
        return
    os.chmod(folder, 0o755)
    closed = folder / "closed"
    closed.mkdir(mode=0o555)
    line = f"steno: make folder {closed}/PKT0: Permission denied\n".encode()
    for command, *rest in COMMANDS:
        done = subprocess.run([copy, command, closed, *rest], input=samples()["mixed"], capture_output=True, timeout=SECONDS, preexec_fn=as_nobody)
        yield f"a folder in which nothing may be made: {command}", (done.stdout, done.stderr, done.returncode) == (b"", FAILED + line, 7), done


def meets_full_outputs(folder):
    text = samples()["mixed"]
    sample = [spool.read_pcap(text)]
    added = {"load": sample, "drill": spool.drill_pairs(1)}
    for number, (command, *rest) in enumerate(COMMANDS):
        there = folder / str(number)
        run("load", there, stdin=text)
        with open("/dev/full", "wb") as full:
            done = subprocess.run([STENO, command, there, *rest], input=text if command == "load" else b"", stdout=full, stderr=subprocess.PIPE,
                                  timeout=SECONDS)
        call = "flush" if command == "query" else "write"
        line = f"steno: writing the output failed\nsteno: {call} standard output: No space left on device\n".encode()
        yield f"a full output: {command}", (done.stderr, done.returncode) == (line, 6), done
        yield from is_sound(f"after a full output of {command}", there, sample + added.get(command, []))
    there = folder / "folder"
    place = os.open(folder, os.O_RDONLY)
    done = subprocess.run([STENO, "load", there], stdin=place, capture_output=True, timeout=SECONDS)
    os.close(place)
    line = b"steno: reading the input failed\nsteno: read standard input: Is a directory\n"
    yield "a folder as input", (done.stdout, done.stderr, done.returncode) == (b"", line, 5), done


def meets_a_full_disk(folder):
    """A file system of 96 KiB of its own: what was told before it was full is there, and whole."""
    packets = list(records(random.Random(13), 2000))
    pairs = spool.cut(packets, 4096, 2)
    script = """
mount -t tmpfs -o size=96k none "$2" || exit 77
"$1" load --block 4096 --blocks 2 "$2/spool" <"$3" >"$4/lines" 2>"$4/said"
echo $? >"$4/status"
cp -a "$2/spool" "$4/copy"
"""
    disk, outside = folder / "disk", folder / "outside"
    disk.mkdir()
    outside.mkdir()
    (folder / "input").write_bytes(spool.write_pcap(packets))
    if shutil.which("unshare") is None or subprocess.run(["unshare", "-m", "sh", "-c", script, "sh", STENO, disk, folder / "input", outside],
                                                         capture_output=True, timeout=SECONDS).returncode:
        print("left out: a full file system (no mount of one's own)")
        return
    told = counts((outside / "lines").read_bytes())
    said, status = (outside / "said").read_text(), int((outside / "status").read_text())
    yield "some pairs fit", 0 < len(told) < len(pairs) and told == lines_of(pairs)[: len(told)], told
    lines = said.split("\n")
    words = lines[1].split(": ") if len(lines) == 3 else []
    good = lines[0] + "\n" == FAILED.decode() and words[0:1] == ["steno"] and words[-1] == "No space left on device" and f" {disk}/spool/" in words[1]
    yield "a full disk ends the load, and a second line names the call and the file", good and status == 7, (said, status)
    yield from is_sound("a spool on a disk that was full", outside / "copy", pairs[: len(told)])
    done = run("load", outside / "copy", stdin=samples()["mixed"])
    yield "and it takes more where there is room", (counts(done[0]), *done[1:]) == ([7], b"", 0), done


GROUPS = [loads_a_sample, loads_many_pairs, selects_as_tcpdump, takes_any_input, refuses_inputs,
          takes_the_longest_packets, refuses_arguments, copies_keep_their_pairs,
          counts_what_it_answers, answers_by_stamp, finds_no_stamp, names_damage,
          finds_something_in_its_way, lacks_rights, meets_full_outputs, meets_a_full_disk]


def groups(folder):
    os.chmod(folder, 0o755)
    for group in GROUPS:
        place = pathlib.Path(folder, group.__name__)
        place.mkdir()
        yield from group(place)
