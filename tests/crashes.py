#!/usr/bin/env python3
"""Kills `steno load` and `steno drill` at random moments, and looks at what is left of the spool.

Usage: crashes.py [--kills N] [--seed N]

Loads with blocks of 4,096 bytes, two to a pair, are killed by SIGKILL: N times (15 by default)
without a limit and a third as often with `--limit 2`, after a random time or shortly after a random
line. Whoever was told of a pair finds it: the pairs that are there are those whose lines were
printed and at most the one in flight, their packets are those of the input in its order, as this
script's own reader of block files finds them; `check` calls each pair whole; `query` gives exactly
their packets; and the next load works, and leaves no file that belongs to no pair. With the limit
the pairs are the newest of those that were published, and none is missing between. Then `load` is
killed before each of its calls of the system during one publication, in turn, if there is a C
compiler. A drill of three pairs is killed half as often, after a random time or shortly after a
pair of its own is there: what was in the spool stays, of the drill's pairs the first ones are
there, `check` calls each whole, and the next drill or load works. The last line is 'N passed, M
failed'; the status is 0 if none failed.
"""
import argparse
import os
import pathlib
import random
import shutil
import subprocess
import sys
import tempfile
import time

import spool
from failing_shelf import SOURCE
from pairs import records
from report import report

ROOT = pathlib.Path(__file__).resolve().parent.parent
STENO = [str(ROOT / "crates" / "steno" / "out" / "steno")]
SECONDS = 120
SIZE, BLOCKS, LIMIT = 4096, 2, 2
PLAN = ["--block", str(SIZE), "--blocks", str(BLOCKS)]
PACKETS = 2500
SPOOLS = 6  # so many kills share a spool


def run(*arguments, stdin=subprocess.DEVNULL):
    done = subprocess.run([*STENO, *arguments], stdin=stdin, capture_output=True, timeout=SECONDS)
    return done.stdout, done.stderr, done.returncode


class Spool:
    """A spool, and what is known of it: the packets of each pair by its stamp, oldest first."""

    def __init__(self, folder, options):
        self.folder, self.options = str(folder / "spool"), options
        self.input, self.lines = folder / "input.pcap", folder / "lines"
        self.known = {}
        self.limit = LIMIT if options else None

    def start(self, packets, more=None):
        """Begins a load of these packets, with its lines in a file."""
        self.input.write_bytes(spool.write_pcap(packets))
        with open(self.input, "rb") as given, open(self.lines, "wb") as lines:
            return subprocess.Popen([*STENO, "load", self.folder, *PLAN, *self.options], stdin=given, stdout=lines, stderr=subprocess.PIPE,
                                    env={**os.environ, **(more or {})})

    def told(self):
        """The pairs whose whole lines were printed: stamp and number of packets."""
        return [tuple(map(int, line.split())) for line in self.lines.read_text().split("\n")[:-1]]

    def look(self, packets):
        """What is wrong after a load of these packets that came so far, in words; what is there is
        known from then on."""
        pairs = spool.cut(packets, SIZE, BLOCKS)
        told, there = self.told(), spool.stamps(self.folder) if os.path.isdir(os.path.join(self.folder, "IDX0")) else []
        found = {stamp: spool.packets_of(self.folder, stamp) for stamp in there}
        wrong = []
        if [count for _, count in told] != [len(pair) for pair in pairs[: len(told)]]:
            wrong.append(f"the lines are {told}")
        published = {**self.known, **{stamp: pair for (stamp, _), pair in zip(told, pairs)}}
        if list(published) != sorted(published):
            wrong.append(f"the stamps do not rise: {list(published)}")
        in_flight = [stamp for stamp in there if stamp > max(published, default=-1)]
        if len(in_flight) > 1 or in_flight and len(told) == len(pairs):
            wrong.append(f"pairs that nobody was told of: {in_flight} after {told[-1:]}")
        elif in_flight:
            published[in_flight[0]] = pairs[len(told)]
        least = 0 if self.limit is None else max(0, len(published) - self.limit - 1)
        most = 0 if self.limit is None else max(0, len(published) - self.limit)
        if not least <= len(published) - len(there) <= most or there != list(published)[len(published) - len(there) :]:
            wrong.append(f"of the pairs {list(published)} there are {there}")
        if any(found[stamp] != published.get(stamp) for stamp in there):
            wrong.append("a pair has other packets than the input")
        self.known = found
        return wrong

    def ask(self, queries=spool.QUERIES):
        """What is wrong with the answers of the program over the pairs that are there."""
        wrong = []
        wanted = "".join(f"{stamp} whole {len(packets)}\n" for stamp, packets in self.known.items())
        said = run("check", self.folder)
        if said != (wanted.encode(), b"", 0):
            wrong.append(f"check says {said}")
        packets = [packet for pair in self.known.values() for packet in pair]
        for query, holds in queries.items():
            said = run("query", "--ns", self.folder, query)
            if said != (spool.answer(packets, holds, 1), b"", 0):
                wrong.append(f"query {query!r} gives {len(said[0])} bytes, {said[1:]}")
        return wrong

    def load_whole(self, packets):
        """What is wrong with a load that nobody kills, and with what it leaves."""
        child = self.start(packets)
        said = child.communicate(timeout=SECONDS)[1]
        wrong = self.look(packets)
        if (said, child.returncode) != (b"", 0) or len(self.told()) != len(spool.cut(packets, SIZE, BLOCKS)):
            wrong.append(f"the next load ends with {child.returncode}, {said!r}, {len(self.told())} lines")
        if spool.files(self.folder) != [f"{part}/{stamp:016x}" for part in ("IDX0", "PKT0") for stamp in self.known]:
            wrong.append(f"files are left over: {spool.files(self.folder)}")
        return wrong


def some_packets(numbers, count):
    return list(records(numbers, count))


def kill_somewhere(child, lines, numbers, pairs, seconds):
    """Kills a load after a random time, or shortly after a random line; whether it still ran."""
    if numbers.random() < 0.5:
        end = time.monotonic() + numbers.uniform(0, seconds * 0.9)
        while child.poll() is None and time.monotonic() < end:
            time.sleep(0.0005)
    else:
        wanted, end = numbers.randrange(1, pairs), time.monotonic() + SECONDS
        while child.poll() is None and time.monotonic() < end and lines.read_bytes().count(b"\n") < wanted:
            time.sleep(0.0002)
        time.sleep(numbers.uniform(0, seconds / 30))
    ran = child.poll() is None
    child.kill()
    child.communicate(timeout=SECONDS)
    return ran


def measure(folder, numbers):
    """How long a load takes, in seconds, and whether it works."""
    there, packets = Spool(folder, []), some_packets(numbers, PACKETS)
    started = time.monotonic()
    wrong = there.load_whole(packets)
    return time.monotonic() - started, wrong + there.ask()


def kills(folder, numbers, count, options, seconds):
    """So many kills, each looked at; gives how many of them met a load that ran."""
    ran = 0
    for number in range(count):
        if number % SPOOLS == 0:
            place = folder / f"spool-{number}-{len(options)}"
            place.mkdir()
            there = Spool(place, options)
        packets = some_packets(numbers, PACKETS)
        child = there.start(packets)
        ran += kill_somewhere(child, there.lines, numbers, len(spool.cut(packets, SIZE, BLOCKS)), seconds)
        wrong = there.look(packets) + there.ask() if os.path.isdir(os.path.join(there.folder, "IDX0")) else []
        wrong += there.load_whole(some_packets(numbers, numbers.randrange(1, 200))) + there.ask()
        yield f"kill {number + 1} {' '.join(options)}".strip(), not wrong, wrong
    yield f"most loads still ran when they were killed {' '.join(options)}".strip(), ran * 2 > count, f"{ran} of {count}"


def at_each_call(folder, numbers):
    """Kills a load of two pairs before each of its calls of the system on the spool, in turn."""
    compiler = shutil.which("cc") or shutil.which("gcc") or shutil.which("clang")
    library = folder / "calls.so"
    if compiler is None or subprocess.run([compiler, "-O1", "-shared", "-fPIC", "-o", library, SOURCE, "-ldl"],
                                          capture_output=True).returncode:
        print("left out: a kill at each call of the system (no C compiler)")
        return
    old, new = some_packets(numbers, 150), some_packets(numbers, 100)
    one_query = dict(list(spool.QUERIES.items())[:1])
    for options in ([], ["--limit", str(LIMIT)]):
        number, ended = 0, False
        while not ended:
            number += 1
            place = folder / f"call-{number}-{len(options)}"
            place.mkdir()
            there = Spool(place, options)
            wrong = there.load_whole(old)
            child = there.start(new, {"LD_PRELOAD": str(library), "CALLS_UNDER": there.folder, "CALLS_KILL": str(number)})
            child.communicate(timeout=SECONDS)
            ended = child.returncode == 0
            wrong += there.look(new) + there.ask(one_query) + there.load_whole(some_packets(numbers, 5)) + there.ask(one_query)
            yield f"a kill before call {number} {' '.join(options)}".strip(), not wrong, wrong
            shutil.rmtree(place)
        yield f"a load makes at least 20 calls {' '.join(options)}".strip(), number > 20, number


DRILLED = 20000  # packets of a drill, which are three pairs


class Drilled:
    """A spool of one pair in which drills are killed."""

    def __init__(self, folder, numbers):
        folder.mkdir()
        self.folder, self.numbers, self.input = str(folder / "spool"), numbers, folder / "input.pcap"
        self.pairs, self.seconds = [], 0
        self.load()

    def load(self):
        """What is wrong with a load of a few packets, and with the spool then."""
        packets = some_packets(self.numbers, 100)
        self.input.write_bytes(spool.write_pcap(packets))
        with open(self.input, "rb") as given:
            out, err, status = run("load", self.folder, stdin=given)
        self.pairs.append(packets)
        return ([] if (err, status, out.count(b"\n")) == (b"", 0, 1) else [f"a load ends with {status}, {err}"]) + self.look()

    def drill(self, count):
        """What is wrong with a drill that nobody kills, and with the spool then."""
        self.pairs += spool.drill_pairs(count)
        started = time.monotonic()
        said = run("drill", self.folder, str(count))
        self.seconds = time.monotonic() - started
        return ([] if said == (spool.drill_summary(count, self.pairs), b"", 0) else [f"a drill says {said}"]) + self.look()

    def look(self, in_flight=()):
        """What is wrong if the spool is to have its pairs, and perhaps the first of these, in
        words; `check` is asked too."""
        stamps = spool.stamps(self.folder)
        there = [spool.packets_of(self.folder, stamp) for stamp in stamps]
        if there not in [self.pairs + list(in_flight[:count]) for count in range(len(in_flight) + 1)]:
            return [f"pairs of {[len(pair) for pair in there]} packets are there"]
        self.pairs = there
        wanted = "".join(f"{stamp} whole {len(pair)}\n" for stamp, pair in zip(stamps, there))
        said = run("check", self.folder)
        wrong = [] if said == (wanted.encode(), b"", 0) else [f"check says {said}"]
        if spool.files(self.folder) != [f"{part}/{stamp:016x}" for part in ("IDX0", "PKT0") for stamp in stamps]:
            wrong.append(f"files are left over: {spool.files(self.folder)}")
        return wrong

    def kill(self, seconds):
        """Kills a drill after a random time, or shortly after a pair of it is there; whether it
        still ran."""
        child = subprocess.Popen([*STENO, "drill", self.folder, str(DRILLED)], stdin=subprocess.DEVNULL,
                                 stdout=subprocess.PIPE, stderr=subprocess.PIPE)
        if self.numbers.random() < 0.5:
            time.sleep(self.numbers.uniform(0, seconds * 0.9))
        else:
            wanted, end = len(self.pairs) + self.numbers.randrange(1, 3), time.monotonic() + SECONDS
            while child.poll() is None and time.monotonic() < end and len(spool.stamps(self.folder)) < wanted:
                time.sleep(0.0002)
            time.sleep(self.numbers.uniform(0, seconds / 10))
        ran = child.poll() is None
        child.kill()
        child.communicate(timeout=SECONDS)
        return ran


def drills(folder, numbers, count):
    """So many drills that are killed, each looked at, and a drill or a load after it."""
    whole, made, ran = Drilled(folder / "drill", numbers), spool.drill_pairs(DRILLED), 0
    wrong = whole.drill(DRILLED)
    yield "a drill that nobody kills", not wrong, wrong
    for number in range(count):
        there = Drilled(folder / f"drill-{number}", numbers)
        ran += there.kill(whole.seconds)
        wrong = there.look(made)
        wrong += there.drill(50) if number % 2 else there.load()
        yield f"kill {number + 1} of a drill", not wrong, wrong
    yield "most drills still ran when they were killed", ran * 2 > count, f"{ran} of {count}"


def cases(folder, count, numbers):
    (folder / "whole").mkdir()
    seconds, wrong = measure(folder / "whole", numbers)
    yield "a load that nobody kills", not wrong, wrong
    yield from kills(folder, numbers, count, [], seconds)
    yield from kills(folder, numbers, (count + 2) // 3, ["--limit", str(LIMIT)], seconds)
    yield from at_each_call(folder, numbers)
    yield from drills(folder, numbers, (count + 1) // 2)


def main():
    parser = argparse.ArgumentParser(description=__doc__, formatter_class=argparse.RawDescriptionHelpFormatter)
    parser.add_argument("--kills", type=int, default=15)
    parser.add_argument("--seed", type=int, default=7)
    given = parser.parse_args()
    # Builds the program if need be.
    subprocess.run([ROOT / "steno"], stdin=subprocess.DEVNULL, capture_output=True)
    with tempfile.TemporaryDirectory() as name:
        return report(cases(pathlib.Path(name), given.kills, random.Random(given.seed)))


if __name__ == "__main__":
    sys.exit(main())
