#!/usr/bin/env python3
"""Runs the program from the command line and compares what it writes, byte for byte.

The last line is 'N passed, M failed'; the status is 0 if none failed.
"""
import fcntl
import gzip
import os
import pathlib
import random
import resource
import signal
import socket
import subprocess
import sys
import tempfile
import time

ROOT = pathlib.Path(__file__).resolve().parent.parent
sys.path.insert(0, str(ROOT / "samples"))
from make import file_head, frames, record, samples  # noqa: E402
import spool_cases  # noqa: E402
from report import report  # noqa: E402

STENO = str(ROOT / "steno")
SECONDS = 60
FRAMES, SAMPLES = frames(), samples()
MICRO, NANO = file_head("little", "micro"), file_head("little", "nano")
USAGE = b"steno: usage: steno COMMAND [ARGUMENTS] [OPTIONS]\n"


def micro(seconds, fraction, frame, original=None):
    return record("little", seconds, fraction, FRAMES[frame] if isinstance(frame, str) else frame, original)


nano = micro  # a record has the same form in both units


DNS = micro(1000000000, 123456, "udp53")
LABELS = micro(1000000000, 123456, "two_labels")
TAGS = micro(1000000000, 123456, "two_tags")
WEB = micro(1000000000, 123456, "tcp80")
LATER = micro(1000000000, 123456, "later_fragment")
WHOLE = micro(1000000000, 123456, "extension_headers")
CUT = micro(1000000000, 123456, FRAMES["extension_headers"][:67], 78)
WHOLE_NANO = micro(1000000000, 123456789, "udp53")
SECOND_FRAME = FRAMES["udp53"] + b"second"
FIRST, SECOND = micro(5, 1, "udp53"), micro(5, 1, SECOND_FRAME)
LONGEST = 262144
WRITING_FAILED = b"steno: writing the output failed\n"
READING_FAILED = b"steno: reading the input failed\n"

# what is tried: name, arguments, standard input, standard output, standard error, status
CASES = [
    ("no packet, no answer", ["once", "port 80"], MICRO, MICRO, b"", 0),
    ("the packet of the port", ["once", "port 53"], MICRO + DNS, MICRO + DNS, b"", 0),
    ("another port", ["once", "port 54"], MICRO + DNS, MICRO, b"", 0),
    ("big-endian and nanoseconds", ["once", "port 53"], SAMPLES["dns_big_nano"], MICRO + DNS, b"", 0),
    ("big-endian", ["once", "port 53"], SAMPLES["dns_big"], MICRO + DNS, b"", 0),
    ("nanoseconds", ["once", "port 53"], SAMPLES["dns_nano"], MICRO + DNS, b"", 0),
    ("a packet after two labels", ["once", "port 443"], MICRO + LABELS, MICRO + LABELS, b"", 0),
    ("a later fragment has no ports", ["once", "port 53"], MICRO + LATER, MICRO, b"", 0),
    ("an extension header cut off hides the ports", ["once", "port 53"], MICRO + WHOLE + CUT, MICRO + WHOLE, b"", 0),
    ("packets of one time keep their order", ["once", "port 53"], MICRO + SECOND + FIRST, MICRO + SECOND + FIRST, b"", 0),
    ("packets come out by their time", ["once", "port 53"], MICRO + DNS + FIRST + SECOND, MICRO + FIRST + SECOND + DNS, b"", 0),
    ("an inner tag", ["once", "vlan 20"], MICRO + TAGS, MICRO + TAGS, b"", 0),
    ("an outer tag", ["once", "vlan 10"], MICRO + TAGS, MICRO + TAGS, b"", 0),
    ("a tag that isn't there", ["once", "vlan 30"], MICRO + TAGS, MICRO, b"", 0),
    ("a label and a port after it", ["once", "mpls 17 and port 443"], MICRO + LABELS, MICRO + LABELS, b"", 0),
    ("both addresses in the net, one packet", ["once", "net 10.0.0.0/8"], MICRO + DNS, MICRO + DNS, b"", 0),
    ("a net by its mask, host bits cleared", ["once", "net 10.1.2.3 mask 255.0.0.0"], MICRO + DNS, MICRO + DNS, b"", 0),
    ("a later fragment has its protocol", ["once", "ip proto 17"], MICRO + LATER, MICRO + LATER, b"", 0),
    ("the protocol after whole extension headers", ["once", "ip proto 17"], MICRO + WHOLE + CUT, MICRO + WHOLE, b"", 0),
    ("the header that is cut off is the protocol", ["once", "ip proto 60"], MICRO + WHOLE + CUT, MICRO + CUT, b"", 0),
    ("an address of IPv6", ["once", "host fd00::1"], MICRO + WHOLE + CUT, MICRO + WHOLE + CUT, b"", 0),
    ("and and or bind equally", ["once", "tcp or udp and port 53"], MICRO + WEB, MICRO, b"", 0),
    ("parentheses bind", ["once", "tcp or (udp and port 53)"], MICRO + WEB, MICRO + WEB, b"", 0),
    ("before leaves out its second", ["once", "before 2001-09-09T01:46:40Z"], MICRO + DNS, MICRO, b"", 0),
    ("after has its second", ["once", "after 2001-09-09T01:46:40Z"], MICRO + DNS, MICRO + DNS, b"", 0),
    ("an offset", ["once", "after 2001-09-09T03:46:40+02:00"], MICRO + DNS, MICRO + DNS, b"", 0),
    ("a packet of long ago", ["once", "before 45m ago"], MICRO + DNS, MICRO + DNS, b"", 0),
    ("no packet of late", ["once", "after 45m ago"], MICRO + DNS, MICRO, b"", 0),
    ("nanoseconds kept", ["once", "--ns", "port 53"], SAMPLES["dns_big_nano"], NANO + WHOLE_NANO, b"", 0),
    ("an option after the query", ["once", "port 53", "--ns"], SAMPLES["dns_big_nano"], NANO + WHOLE_NANO, b"", 0),
    ("an option before the command", ["--ns", "once", "port 53"], SAMPLES["dns_big_nano"], NANO + WHOLE_NANO, b"", 0),
    ("the first packet by time", ["once", "--packets", "1", "port 53"], MICRO + DNS + FIRST, MICRO + FIRST, b"", 0),
    ("a limit after an equals sign", ["once", "--packets=2", "port 53"], MICRO + DNS + FIRST, MICRO + FIRST + DNS, b"", 0),
    ("no packet at all", ["once", "--packets", "0", "port 53"], MICRO + DNS + FIRST, MICRO, b"", 0),
    ("as many captured bytes as the first has", ["once", "--bytes", "46", "port 53"], MICRO + FIRST + SECOND, MICRO + FIRST, b"", 0),
    ("a byte less", ["once", "--bytes", "45", "port 53"], MICRO + FIRST + SECOND, MICRO, b"", 0),
    ("a byte less than both have", ["once", "--bytes", "97", "port 53"], MICRO + FIRST + SECOND, MICRO + FIRST, b"", 0),
    ("as many as both have", ["once", "--bytes", "98", "port 53"], MICRO + FIRST + SECOND, MICRO + FIRST + SECOND, b"", 0),
    ("a packet over the limit is not skipped", ["once", "--bytes", "51", "port 53"], MICRO + SECOND + FIRST, MICRO, b"", 0),
    ("arguments after two hyphens", ["once", "--", "port 53"], MICRO + DNS, MICRO + DNS, b"", 0),
    ("all options, before the query", ["once", "--ns", "--packets", "2", "--bytes", "97", "port 53"], MICRO + SECOND + DNS + FIRST,
     NANO + nano(5, 1000, SECOND_FRAME), b"", 0),
    ("all options, before, between and after the arguments", ["--packets=2", "once", "--bytes", "98", "port 53", "--ns"],
     MICRO + SECOND + DNS + FIRST, NANO + nano(5, 1000, SECOND_FRAME) + nano(5, 1000, "udp53"), b"", 0),
    ("all options, and two hyphens", ["--bytes=144", "--ns", "--packets=00003", "once", "--", "port 53"], MICRO + SECOND + DNS + FIRST,
     NANO + nano(5, 1000, SECOND_FRAME) + nano(5, 1000, "udp53") + nano(1000000000, 123456000, "udp53"), b"", 0),
    ("a query that begins with a hyphen", ["once", "--", "-x"], MICRO, b"", b"steno: query: syntax at 0\n", 4),
    ("a hyphen alone is an argument", ["once", "-"], MICRO, b"", b"steno: query: syntax at 0\n", 4),
    ("a record head cut off", ["once", "port 53"], MICRO + DNS + DNS[:10], MICRO + DNS, b"steno: record 2: 10 of 16 bytes\n", 3),
    ("a body cut off", ["once", "port 53"], MICRO + DNS + DNS[:-1], MICRO + DNS, b"steno: record 2: 61 of 62 bytes\n", 3),
    ("nothing", ["once", "port 53"], b"", b"", b"steno: record 0: 0 of 24 bytes\n", 3),
    ("a file head cut off", ["once", "port 53"], MICRO[:23], b"", b"steno: record 0: 23 of 24 bytes\n", 3),
    ("zeros", ["once", "port 53"], bytes(24), b"", b"steno: input is not a pcap file, it begins with 0x00000000\n", 3),
    ("many zeros", ["once", "port 53"], bytes(4096), b"", b"steno: input is not a pcap file, it begins with 0x00000000\n", 3),
    ("a pcapng file", ["once", "port 53"], bytes.fromhex("0a0d0d0a1c0000004d3c2b1a01000000ffffffffffffffff1c000000"), b"",
     b"steno: input is not a pcap file, it begins with 0x0a0d0d0a\n", 3),
    ("a gzip file", ["once", "port 53"], gzip.compress(MICRO + DNS, mtime=0), b"",
     b"steno: input is not a pcap file, it begins with 0x00088b1f\n", 3),
    ("an older version", ["once", "port 53"], MICRO[:6] + b"\3\0" + MICRO[8:], b"", b"steno: pcap version 2.3 is not read\n", 3),
    ("another link type", ["once", "port 53"], MICRO[:20] + b"\x65\0\0\0" + DNS, b"", b"steno: link type 101 is not read\n", 3),
    ("a fraction of a whole second", ["once", "port 53"], MICRO + DNS + micro(1, 1000000, "udp53"), MICRO + DNS,
     b"steno: record 2: fraction 1000000 is out of range\n", 3),
    ("a body over the limit", ["once", "port 53"], MICRO + DNS + DNS[:8] + (262145).to_bytes(4, "little") * 2, MICRO + DNS,
     b"steno: record 2: captured length 262145 is over 262144\n", 3),
    ("no arguments", [], MICRO, b"", USAGE, 2),
    ("no query", ["once"], MICRO, b"", USAGE, 2),
    ("an argument too many", ["once", "a", "b"], MICRO, b"", USAGE, 2),
    ("an argument that begins with a hyphen", ["once", "-x"], MICRO, b"", USAGE, 2),
    ("an option given twice", ["once", "--ns", "tcp", "--ns"], MICRO, b"", USAGE, 2),
    ("a limit given twice", ["once", "--packets", "1", "--packets=1", "tcp"], MICRO, b"", USAGE, 2),
    ("an option with a value that takes none", ["once", "--ns=1", "tcp"], MICRO, b"", USAGE, 2),
    ("an option without its value", ["once", "tcp", "--packets"], MICRO, b"", USAGE, 2),
    ("an option without its value, and a query", ["once", "--packets", "tcp"], MICRO, b"", USAGE, 2),
    ("a limit out of range", ["once", "--packets", "4294967296", "tcp"], MICRO, b"", USAGE, 2),
    ("a limit of eleven digits", ["once", "--bytes", "00000000001", "tcp"], MICRO, b"", USAGE, 2),
    ("a limit with a sign", ["once", "--bytes=+1", "tcp"], MICRO, b"", USAGE, 2),
    ("an option of another command", ["once", "--block", "4096", "tcp"], MICRO, b"", USAGE, 2),
    ("a shortened name", ["once", "--pack", "1", "tcp"], MICRO, b"", USAGE, 2),
    ("help is no command", ["--help"], MICRO, b"", USAGE, 2),
    ("an unknown command", ["twice", "port 53"], MICRO, b"", USAGE, 2),
    ("an argument that is no UTF-8", ["once", b"\xff"], MICRO, b"", USAGE, 2),
    ("a number out of range", ["once", "port 70000"], MICRO, b"", b"steno: query: number at 5\n", 4),
    ("no number", ["once", "port"], MICRO, b"", b"steno: query: number at 4\n", 4),
    ("no address", ["once", "host 10.0.0.256"], MICRO, b"", b"steno: query: address at 5\n", 4),
    ("no time", ["once", "after noon"], MICRO, b"", b"steno: query: time at 6\n", 4),
    ("too many parentheses", ["once", "(" * 65 + "tcp" + ")" * 65], MICRO, b"", b"steno: query: depth at 64\n", 4),
    ("an empty query", ["once", ""], MICRO, b"", b"steno: query: syntax at 0\n", 4),
    ("a query over the limit", ["once", "port 53" + " " * 4090], MICRO, b"", b"steno: query: 4097 bytes are over 4096\n", 4),
    ("a query is refused before the input is read", ["once", "tcp tcp"], b"", b"", b"steno: query: syntax at 4\n", 4),
]


def run(arguments, stdin, **more):
    done = subprocess.run([STENO, *arguments], input=stdin, timeout=SECONDS,
                          **{"stdout": subprocess.PIPE, "stderr": subprocess.PIPE, **more})
    return done.stdout, done.stderr, done.returncode


def shown(outcome):
    out, err, status = outcome
    out = b"" if out is None else out
    return f"output {len(out)} bytes {out[:100].hex()}, messages {err!r}, status {status}"


def compare(name, wanted, got):
    return name, got == wanted, f"wanted {shown(wanted)}, got {shown(got)}"


def cases():
    for name, arguments, stdin, out, err, status in CASES:
        yield compare(name, (out, err, status), run(arguments, stdin))


def relative_times():
    """A packet of ten minutes ago, and one of ninety, each on the right side of each time: the
    clock counts seconds since 1970, and goes on."""
    for minutes, times in ((10, [("1m", "15m"), ("9m", "11m"), ("0h", "1h")]), (90, [("89m", "91m"), ("1h", "2h")])):
        packet = micro(int(time.time()) - 60 * minutes, 0, "udp53")
        for near, far in times:
            for query, has in ((f"after {near} ago", False), (f"after {far} ago", True), (f"before {near} ago", True),
                               (f"before {far} ago", False)):
                out = MICRO + packet if has else MICRO
                yield compare(f"{query}, a packet of {minutes} minutes ago", (out, b"", 0), run(["once", query], MICRO + packet))


def many_packets():
    """A capture of some MiB, out of order, and the answer to 'port 53' over it, in both units."""
    numbers = random.Random(7)
    packets = []
    for number in range(6000):
        frame = FRAMES["udp53" if number % 2 == 0 else "tcp80"] + numbers.randbytes(numbers.randint(0, 3000))
        packets.append((1000000000 + numbers.randint(0, 900), numbers.randint(0, 999999), number, frame))
    kept = sorted(packet for packet in packets if packet[2] % 2 == 0)
    capture = MICRO + b"".join(micro(second, fraction, frame) for second, fraction, _, frame in packets)
    answer = MICRO + b"".join(micro(second, fraction, frame) for second, fraction, _, frame in kept)
    finer = NANO + b"".join(nano(second, 1000 * fraction, frame) for second, fraction, _, frame in kept)
    return capture, answer, finer


def read_slowly(path):
    """The answer by a small pipe, read in pieces of many sizes. The program is stopped and goes on
    time and again while it writes, so that its writes take a part of what they are given."""
    ours, theirs = os.pipe()
    fcntl.fcntl(theirs, fcntl.F_SETPIPE_SZ, 4096)
    with open(path, "rb") as capture:
        child = subprocess.Popen([STENO, "once", "port 53"], stdin=capture, stdout=theirs, stderr=subprocess.PIPE)
    os.close(theirs)
    answer, count = [], 0
    while piece := os.read(ours, 1 + count * 7919 % 4096):
        answer.append(piece)
        count += 1
        if count % 20 == 0:
            child.send_signal(signal.SIGSTOP)
            child.send_signal(signal.SIGCONT)
    os.close(ours)
    err = child.stderr.read()
    child.stderr.close()
    return b"".join(answer), err, child.wait(SECONDS)


def given_slowly(capture):
    """The answer over an input that comes by a small pipe in pieces of many sizes, heads and bodies
    cut anywhere."""
    theirs, ours = os.pipe()
    fcntl.fcntl(ours, fcntl.F_SETPIPE_SZ, 4096)
    child = subprocess.Popen([STENO, "once", "port 53"], stdin=theirs, stdout=subprocess.PIPE, stderr=subprocess.PIPE)
    os.close(theirs)
    place, count = 0, 0
    try:
        while place < len(capture):
            size = 1 + count * 104729 % (50 if count < 300 else 9000)
            place += os.write(ours, capture[place:place + size])
            count += 1
    except BrokenPipeError:
        pass  # its status and output are compared
    os.close(ours)
    out, err = child.communicate(timeout=SECONDS)
    return out, err, child.returncode


def large_answers(folder):
    capture, answer, finer = many_packets()
    path = os.path.join(folder, "capture.pcap")
    pathlib.Path(path).write_bytes(capture)
    yield compare("an answer of some MiB", (answer, b"", 0), run(["once", "port 53"], capture))
    yield compare("an answer of some MiB in nanoseconds", (finer, b"", 0), run(["once", "--ns", "port 53"], capture))
    yield compare("an answer of some MiB that is read slowly", (answer, b"", 0), read_slowly(path))
    short = capture[:len(MICRO) + 200000]
    wanted = run(["once", "port 53"], short)
    yield compare("an input that is given slowly", wanted, given_slowly(short))
    longest = FRAMES["udp53"] + random.Random(8).randbytes(LONGEST - len(FRAMES["udp53"]))
    kept = MICRO + micro(5, 1, longest) + DNS
    yield compare("a body of 262,144 bytes", (kept, b"", 0), run(["once", "port 53"], MICRO + DNS + micro(5, 1, longest)))
    yield compare("two of them, cut short by 1,000", (kept[:24] + kept[24:-len(DNS)] * 2, b"steno: record 3: 261160 of 262160 bytes\n", 3),
                  run(["once", "port 53"], MICRO + micro(5, 1, longest) * 2 + micro(5, 1, longest)[:-1000]))


CUT_SHORT = b"steno: record 2: 10 of 16 bytes\n"
FULL = "/dev/full"
# The second line says whether the output failed as the buffer was full or at the end.
FULL_AT_ONCE = WRITING_FAILED + b"steno: write standard output: No space left on device\n"
FULL_AT_END = WRITING_FAILED + b"steno: flush standard output: No space left on device\n"


def full_disk():
    """Nothing can be written: the status says so, unless there was nothing to write."""
    large = DNS * 20000
    for name, query, stdin, err, status in (
            ("a whole input", "port 53", MICRO + DNS, FULL_AT_END, 6),
            ("a cut input", "port 53", MICRO + DNS + DNS[:10], CUT_SHORT + FULL_AT_END, 6),
            ("an answer of no packet", "port 54", MICRO + DNS, FULL_AT_END, 6),
            ("a large answer", "port 53", MICRO + large, FULL_AT_ONCE, 6),
            ("a large answer over a cut input", "port 53", MICRO + large + DNS[:10], FULL_AT_ONCE, 6),
            ("a refused input", "port 53", bytes(24), b"steno: input is not a pcap file, it begins with 0x00000000\n", 3),
            ("a refused query", "port", MICRO + DNS, b"steno: query: number at 4\n", 4)):
        with open(FULL, "wb") as full:
            yield compare(f"a full disk, {name}", (None, err, status), run(["once", query], stdin, stdout=full))


def closed_streams(folder):
    for name, line, out, err, status in (
            ("input", 'exec "$0" once "port 53" <&-', b"", READING_FAILED + b"steno: read standard input: Bad file descriptor\n", 5),
            ("output", 'exec "$0" once "port 53" >&-', b"", WRITING_FAILED + b"steno: flush standard output: Bad file descriptor\n", 6),
            ("standard error", 'exec "$0" once "port" 2>&-', b"", b"", 4)):
        done = subprocess.run(["bash", "-c", line, STENO], input=MICRO + DNS, capture_output=True, timeout=SECONDS)
        yield compare(f"a closed {name}", (out, err, status), (done.stdout, done.stderr, done.returncode))
    place = os.open(folder, os.O_RDONLY)
    done = subprocess.run([STENO, "once", "port 53"], stdin=place, capture_output=True, timeout=SECONDS)
    os.close(place)
    yield compare("a folder as input", (b"", READING_FAILED + b"steno: read standard input: Is a directory\n", 5), (done.stdout, done.stderr, done.returncode))


def input_that_breaks_off():
    """A connection that is reset after a whole packet: nothing of the answer is written."""
    ours, theirs = socket.socketpair()
    ours.sendall(MICRO + DNS)
    theirs.sendall(b"unread, so that closing resets the connection")
    ours.close()
    done = subprocess.run([STENO, "once", "port 53"], stdin=theirs, capture_output=True, timeout=SECONDS)
    theirs.close()
    line = READING_FAILED + b"steno: read standard input: Connection reset by peer\n"
    yield compare("an input that breaks off", (b"", line, 5), (done.stdout, done.stderr, done.returncode))


def one_line_alone():
    """No file may pass 40 bytes: the first message is written whole, and the second one is not."""
    signal.signal(signal.SIGXFSZ, signal.SIG_IGN)
    resource.setrlimit(resource.RLIMIT_FSIZE, (40, 40))


def messages_that_fail(folder):
    """Whether a message can be written changes neither the status nor the output."""
    for arguments, stdin, out, status in (
            ([], MICRO, b"", 2),
            (["once", b"\xff"], MICRO, b"", 2),
            (["once", "port 53"], b"", b"", 3),
            (["once", "port 53"], MICRO + DNS + DNS[:10], MICRO + DNS, 3),
            (["once", "port"], MICRO, b"", 4)):
        with open(FULL, "wb") as err:
            yield compare(f"a message that can't be written, {arguments} status {status}", (out, None, status),
                          run(arguments, stdin, stderr=err))
    cut = MICRO + DNS + DNS[:10]
    with open(FULL, "wb") as out, open(FULL, "wb") as err:
        yield compare("two messages that can't be written", (None, None, 6), run(["once", "port 53"], cut, stdout=out, stderr=err))
    path = pathlib.Path(folder, "messages")
    with open(FULL, "wb") as out, open(path, "wb") as err:
        got = run(["once", "port 53"], cut, stdout=out, stderr=err, preexec_fn=one_line_alone)
    yield compare("a second message that can't be written", (None, None, 6), got)
    said = path.read_bytes()
    yield "a first message that is written whole", said == (CUT_SHORT + WRITING_FAILED)[:40], said


def reader_that_leaves(folder):
    big = os.path.join(folder, "big.pcap")
    with open(big, "wb") as file:
        file.write(MICRO + DNS * 400000)
    line = 'set -o pipefail; "$0" once "port 53" < "$1" | head -c 24'
    done = subprocess.run(["bash", "-c", line, STENO, big], capture_output=True, timeout=SECONDS)
    good = done.stdout == MICRO and (done.returncode, done.stderr) in ((0, b""), (6, WRITING_FAILED + b"steno: write standard output: Broken pipe\n"))
    yield "a reader that leaves early", good, shown((done.stdout, done.stderr, done.returncode))


def groups(folder):
    yield from cases()
    yield from relative_times()
    yield from large_answers(folder)
    yield from full_disk()
    yield from closed_streams(folder)
    yield from input_that_breaks_off()
    yield from messages_that_fail(folder)
    yield from reader_that_leaves(folder)
    yield from spool_cases.groups(folder)


def main():
    subprocess.run([STENO], capture_output=True)  # builds the program if need be
    with tempfile.TemporaryDirectory() as folder:
        return report(groups(folder))


if __name__ == "__main__":
    sys.exit(main())
