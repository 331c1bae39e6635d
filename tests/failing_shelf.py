#!/usr/bin/env python3
"""Fails each call of the file system that a shelf makes, one at a time, and looks at what is left.

The program is shelf_probe, and then steno with each of its commands on a spool; a library that is
preloaded before it (tests/preload/calls.c) writes down its calls and fails those that it is told
to. What a command writes under a fault is a beginning of the right output, in whole lines or
packets. The groups of cases run four at a time, each in a folder of its own. Without a C compiler
all is left out, and that is said. The last line is 'N passed, M failed'; the status is 0 if none
failed.
"""
import concurrent.futures
import errno
import functools
import os
import pathlib
import random
import shutil
import subprocess
import sys
import tempfile

import spool as spools
from pairs import records
from real_shelf import Session, ask, build, files
from report import report

SOURCE = pathlib.Path(__file__).resolve().parent / "preload" / "calls.c"
LAUNCHER = pathlib.Path(__file__).resolve().parent.parent / "steno"
STENO = str(LAUNCHER.parent / "crates" / "steno" / "out" / "steno")
SECONDS = 120

# One shelf call of each kind, and each once more over what the one before left.
CALLS = ["put block 10 5", "flush block", "put index 10 9000", "flush index", "list", "read index 10", "read block 10", "hide 10",
         "flush index", "list", "read parked 10", "remove parked 10", "remove block 10", "flush block", "list"]
ANSWERS = ["ok", "ok", "ok", "ok", "block 10, index 10, ok", "9000 bytes", "5 bytes", "ok", "ok", "block 10, parked 10, ok",
           "9000 bytes", "ok", "ok", "ok", "ok"]
PUT_FAILS = {"open": "failed: create", "write": "failed: write", "fdatasync": "failed: seal", "rename": "failed: settle"}


class Probe:
    """The program in a spool folder of its own, with the library before it."""

    def __init__(self, program, library, folder):
        self.program, self.library, self.folder = program, library, folder
        self.log = folder + ".log"

    def start(self, spool, fail=""):
        pathlib.Path(self.log).write_text("")
        more = {"LD_PRELOAD": self.library, "CALLS_LOG": self.log, "CALLS_UNDER": self.folder, "CALLS_FAIL": fail}
        return Session(self.program, spool, env={**os.environ, **more})

    def written(self):
        """The calls that were written down, as lists of texts, with paths below the folder; answers
        too."""
        lines = pathlib.Path(self.log).read_text(errors="surrogateescape").splitlines()
        return [[word.removeprefix(self.folder + "/") for word in line.split(" ") if word] for line in lines]

    def calls(self, asked, fail=""):
        """What the program answers to these calls in an empty folder, and its calls of the system
        for each."""
        spool = os.path.join(self.folder, "above", "spool")
        shutil.rmtree(self.folder, ignore_errors=True)
        os.mkdir(self.folder)
        session = self.start(spool, fail)
        answers = [answer_to(session, call) for call in asked]
        session.end()
        parts = [[]]
        for line in self.written():
            if line[:2] == ["write", "output"]:
                parts.append([])
            else:
                parts[-1].append(line)
        return answers, parts[:-1]


def answer_to(session, call):
    """The answer to a call, its lines joined."""
    lines = [session.ask(call)]
    while call == "list" and lines[-1] not in ("ok", "failed", "failed: no memory", "?", ""):
        lines.append(session.ask())
    return ", ".join(lines)


def changes(part):
    """Of a call's calls of the system those that change something, or have it kept."""
    return [line for line in part if line[0] in ("write", "fsync", "fdatasync", "rename", "unlink", "mkdir")
            or line[0] == "open" and int(line[3], 8) & os.O_CREAT]


def keeps_the_order(probe):
    answers, parts = probe.calls(CALLS)
    yield "no call fails", answers == ANSWERS, answers
    spool = "above/spool"
    first, wanted = changes(parts[0]), [
        ["write", f"{spool}/PKT0/.draft-0", "5", "5"],
        ["fdatasync", f"{spool}/PKT0/.draft-0", "0"],
        ["rename", f"{spool}/PKT0/.draft-0", "0", f"{spool}/PKT0/000000000000000a"]]
    yield "a put writes, syncs and renames, in this order", first[-3:] == wanted, first
    made = first[-4]
    flags = os.O_WRONLY | os.O_CREAT | os.O_EXCL
    looked_at = flags | os.O_RDWR | os.O_TRUNC | os.O_APPEND
    good = made[:2] == ["open", f"{spool}/PKT0/.draft-0"] and int(made[3], 8) & looked_at == flags and made[4] == "600"
    yield "a draft is a file that was not there", good, made
    yield "a flush syncs its folder", changes(parts[1]) == [["fsync", f"{spool}/PKT0", "0"]], parts[1]
    second = [line[:2] for line in changes(parts[2])]
    wanted = [[kind, f"{spool}/IDX0/.draft-1"] for kind in ("open", "write", "fdatasync", "rename")]
    yield "a second put makes no folder", second == wanted, parts[2]
    yield "a flush of the other folder", changes(parts[3]) == [["fsync", f"{spool}/IDX0", "0"]], parts[3]
    yield "reading and listing change nothing", [changes(parts[place]) for place in (4, 5, 6)] == [[], [], []], parts[4:7]
    wanted = [["rename", f"{spool}/IDX0/000000000000000a", "0", f"{spool}/IDX0/.parked-000000000000000a"]]
    yield "hiding is one rename", changes(parts[7]) == wanted, parts[7]
    yield "removing is one unlink", changes(parts[12]) == [["unlink", f"{spool}/PKT0/000000000000000a", "0"]], parts[12]
    drafts = [line for part in parts for line in part if line[0] == "open" and "/.draft-" in line[1]]
    good = len(drafts) == 2 and all(int(line[3], 8) & flags == flags for line in drafts)
    yield "no draft is opened but to make it", good, drafts


def above(path):
    """The folder that a path of the log lies in; the topmost folder has the empty path there."""
    return path.rpartition("/")[0]


def syncs_new_folders(probe):
    _, parts = probe.calls(CALLS)
    calls = parts[0]
    made = [place for place, line in enumerate(calls) if line[0] == "mkdir" and line[2] == "0"]
    names = [calls[place][1] for place in made]
    yield "four folders are made", names == ["above", "above/spool", "above/spool/PKT0", "above/spool/IDX0"], names
    draft = next(place for place, line in enumerate(calls) if line[0] == "open" and "/.draft-" in line[1])
    for place in made:
        path = calls[place][1]
        synced = [line for line in calls[place:draft] if line[0] == "fsync" and path_of(line, probe) == above(path) and line[2] == "0"]
        yield f"the folder above {path} is synced before anything is put into it", bool(synced), calls
    session = probe.start(os.path.join(probe.folder, "above", "spool"))
    session.ask("put block 11 5")
    session.end()
    synced = [path_of(line, probe) for line in probe.written() if line[0] == "fsync"]
    yield "folders that are there are synced again", {"above", "above/spool"} <= set(synced), synced


def path_of(line, probe):
    return "" if line[1] == probe.folder else line[1]


def is_locked(probe, spool):
    """Whether another program is refused."""
    return ask(probe.program, spool, ["flush block"]) == ["failed"]


def counted(parts):
    """Each call of the system in its turn: its kind, which of its kind it is, and for which shelf
    call it was made."""
    counts = {}
    for place, part in enumerate(parts):
        for line in part:
            counts[line[0]] = counts.get(line[0], 0) + 1
            yield line, counts[line[0]], place


def run_with_fault(probe, fail):
    """Makes the calls in an empty folder while one call of the system fails, and each call again
    that failed.

    Gives the answers of those that succeeded, the places and answers of those that failed, what was
    half done or unlocked after them, and the count of faults.
    """
    spool = os.path.join(probe.folder, "above", "spool")
    shutil.rmtree(probe.folder, ignore_errors=True)
    os.mkdir(probe.folder)
    session = probe.start(spool, fail)
    answers, failed, wrong = [], [], []
    for place, call in enumerate(CALLS):
        before = files(spool)
        answer = answer_to(session, call)
        if answer.startswith("failed"):
            failed.append((place, answer))
            if files(spool) != before:
                wrong.append(f"{call} left {files(spool)} of {before}")
            if place > 0 and not is_locked(probe, spool):
                wrong.append(f"no lock after {call}")
            answer = answer_to(session, call)
        answers.append(answer)
    faults = session.ask("faults")
    session.end()
    return answers, failed, wrong, faults


def meets_each_fault(probe):
    _, parts = probe.calls(CALLS)
    for line, number, place in list(counted(parts)):
        kind = line[0]
        for error in (errno.EIO, errno.EINTR):
            answers, failed, wrong, faults = run_with_fault(probe, f"{kind}:{number}:{error}")
            name = f"{' '.join(line[:2])} fails with {errno.errorcode[error]} at '{CALLS[place]}'"
            if error == errno.EINTR:
                yield name + " and is made again", (failed, wrong, faults) == ([], [], "0") and answers == ANSWERS, (failed, faults, answers)
                continue
            good = [where for where, _ in failed] == [place] and (wrong, faults) == ([], "1") and answers == ANSWERS
            if good and place > 0 and CALLS[place].startswith("put"):
                good = failed[0][1] == PUT_FAILS.get(kind)
            yield name, good, (failed, wrong, faults, answers)


def meets_each_fault_at_the_next_start(probe):
    """Over a spool that is there, with a left draft in it."""
    spool = os.path.join(probe.folder, "above", "spool")
    probe.calls(["put block 1 5", "put index 1 5"])
    pathlib.Path(spool, "PKT0", ".draft-7").write_bytes(b"left")
    there = files(spool)
    session = probe.start(spool)
    session.ask("flush block")
    session.end()
    calls = probe.written()
    counts = {}
    for line in calls[:-1]:
        kind = line[0]
        counts[kind] = counts.get(kind, 0) + 1
        for error, first, faults in ((errno.EIO, "failed", "1"), (errno.EINTR, "ok", "0")):
            session = probe.start(spool, f"{kind}:{counts[kind]}:{error}")
            answers = [answer_to(session, call) for call in ("flush block", "flush block", "list", "faults")]
            session.end()
            good = answers == [first, "ok", "block 1, index 1, draft block 7, ok", faults] and files(spool) == there
            yield f"{' '.join(line[:2])} fails with {errno.errorcode[error]} at the next start", good, answers


def meets_two_faults(probe):
    """A draft that can't be given up stays, is listed, and is in no later draft's way."""
    calls = ["put block 1 5", "list", "faults", "put block 1 5", "list", "remove draft block 0", "list", "faults"]
    for kind, step in PUT_FAILS.items():
        if kind == "open":
            continue
        answers, _ = probe.calls(calls, f"{kind}:1:{errno.EIO},unlink:1:{errno.EIO}")
        if kind == "write":
            answers, _ = probe.calls(calls, f"write:1:{errno.ENOSPC},unlink:1:{errno.EIO}")
        # A failed rename is counted by the shelf at once, and the draft's own faults as it is given
        # up.
        counts = ("2",) if kind == "rename" else ("1", "2")
        good = answers[:2] == [step, "draft block 0, ok"] and answers[2] in counts
        good = good and answers[3:7] == ["ok", "block 1, draft block 0, ok", "ok", "block 1, ok"] and answers[7] == answers[2]
        yield f"{kind} fails and the draft can't be removed", good, answers


def meets_a_disk_that_is_gone(probe):
    """From some call on each call of a kind fails: each shelf call that needs it is one fault."""
    for kind, calls, wanted in (
            ("write", ["put block 1 5", "put index 1 5", "list"], ["failed: write", "failed: write", "ok"]),
            ("fdatasync", ["put block 1 5", "put index 1 5", "list"], ["failed: seal", "failed: seal", "ok"]),
            ("rename", ["put block 1 5", "hide 1", "list"], ["failed: settle", "failed", "ok"]),
            ("getdents64", ["list", "put block 1 5", "flush block"], ["failed", "failed: create", "failed"]),
            ("flock", ["list", "put block 1 5", "flush block"], ["failed", "failed: create", "failed"]),
            ("statx", ["put block 1 5", "list", "read block 1"], ["ok", "failed", "failed"])):
        answers, _ = probe.calls([*calls, "faults"], f"{kind}:1+:{errno.EIO}")
        yield f"each {kind} fails", answers == [*wanted, str(sum("failed" in answer for answer in wanted))], answers


def meets_many_signals(probe):
    """Each call of a kind is broken off, several times in a row."""
    _, parts = probe.calls(CALLS)
    for kind in sorted({line[0] for line, _, _ in counted(parts)}):
        fail = ",".join(f"{kind}:{number}:{errno.EINTR}" for number in range(1, 60) if number % 4)
        answers, failed, wrong, faults = run_with_fault(probe, fail)
        yield f"each {kind} is broken off three times", (failed, wrong, faults) == ([], [], "0") and answers == ANSWERS, (failed, faults, answers)


def writes_by_halves(probe):
    answers, parts = probe.calls(["put block 1 100000", "read block 1", "faults"], "write:1:0,write:3:0")
    written = [line[2] for line in parts[0] if line[0] == "write"]
    good = answers == ["ok", "100000 bytes", "0"] and written == ["50000", "50000"]
    yield "a write that takes half of its bytes is gone on with", good, (answers, written)


MANY = 400


def lists_all_or_nothing(probe):
    """A folder whose names take several reads: one that fails is a fault, no list is shorter."""
    spool = os.path.join(probe.folder, "spool")
    for folder in ("PKT0", "IDX0"):
        os.makedirs(os.path.join(spool, folder))
        for stamp in range(MANY):
            pathlib.Path(spool, folder, f"{stamp:016x}").touch()
    whole = ", ".join([f"{kind} {stamp}" for kind in ("block", "index") for stamp in range(MANY)] + ["ok"])
    session = probe.start(spool)
    answers = [answer_to(session, "list") for _ in range(2)]
    session.end()
    yield "a long list", answers == [whole, whole], answers
    kinds = [line[0] for line in probe.written()]
    reads, looks = kinds.count("getdents64"), kinds.count("statx")
    yield "its names take several reads", reads >= 3 * 4, reads
    for kind, numbers in (("getdents64", range(1, reads + 1)), ("statx", (1, looks // 2, looks))):
        for number in numbers:
            for error in (errno.EIO, errno.EINTR, errno.EBADF):
                session = probe.start(spool, f"{kind}:{number}:{error}")
                answers = sorted(answer_to(session, "list") for _ in range(3))
                faults = session.ask("faults")
                session.end()
                good = (answers, faults) == (([whole] * 3, "0") if error == errno.EINTR else (sorted(["failed", whole, whole]), "1"))
                yield f"{kind} {number} of a long list fails with {errno.errorcode[error]}", good, (answers, faults)


SMALL = ["--block", "4096", "--blocks", "2"]
QUERY = "port 53"
LIMIT, LOW_LIMIT = 4096, 3  # how many pairs a load keeps if it isn't told, and if it is
COMMANDS = {"load": SMALL, "load with a limit": [*SMALL, "--limit", str(LOW_LIMIT)],
            "query": [QUERY], "list": [], "check": []}
# What the second line may call a call of the system.
CALL_NAMES = {"open": ["open", "create", "list"], "write": ["write"], "read": ["read"], "fsync": ["sync"], "fdatasync": ["sync"], "rename": ["rename"],
              "unlink": ["remove"], "flock": ["lock"], "getdents64": ["list"], "mkdir": ["make folder"], "statx": ["list", "open"]}


def place_of(name, path):
    """The path that the second line names: of a list that of the folder, and of no folder with a
    slash at its end."""
    path = path.rstrip("/")
    return path if name != "list" or os.path.basename(path) in ("PKT0", "IDX0") else os.path.dirname(path)


def messages(line, words):
    """What standard error may have where the call of this line failed, and the system says so."""
    return [f"steno: the spool failed\nsteno: {name} {place_of(name, line[1])}: {words}\n"
            for name in CALL_NAMES[line[0]]]


class Commands:
    """The program's commands over a spool of these packets and a left draft, with the library
    before it."""

    def __init__(self, library, folder, count=130):
        self.folder, self.spool, self.library = folder, os.path.join(folder, "spool"), library
        self.fresh, self.log, self.input = folder + ".fresh", folder + ".log", folder + ".pcap"
        numbers = random.Random(21)
        self.old, self.new = list(records(numbers, count)), list(records(numbers, count))
        self.pairs = [spools.cut(packets, 4096, 2) for packets in (self.old, self.new)]
        pathlib.Path(self.input).write_bytes(spools.write_pcap(self.old))
        shutil.rmtree(folder)
        self.run("load", SMALL, spool=self.fresh)
        pathlib.Path(self.fresh, "IDX0", ".draft-9").write_bytes(b"left")
        pathlib.Path(self.input).write_bytes(spools.write_pcap(self.new))

    def run(self, command, options, fail="", spool=None):
        """Output, messages and status of a command on the spool, and its calls there."""
        pathlib.Path(self.log).write_text("")
        more = {"LD_PRELOAD": self.library, "CALLS_LOG": self.log, "CALLS_UNDER": self.folder, "CALLS_FAIL": fail}
        words = [STENO, command.split()[0], spool or self.spool, *options]
        with open(self.input, "rb") as given:
            done = subprocess.run(words, stdin=given, capture_output=True, env={**os.environ, **more}, timeout=SECONDS)
        lines = [line.split(" ") for line in pathlib.Path(self.log).read_text(errors="surrogateescape").splitlines()]
        return (done.stdout, done.stderr.decode(), done.returncode), [line for line in lines if line[1] != "output"]

    def anew(self):
        shutil.rmtree(self.folder, ignore_errors=True)
        os.mkdir(self.folder)
        shutil.copytree(self.fresh, self.spool)

    def right(self, command):
        """What a command that only reads writes over the spool as it was at first."""
        pairs = dict(zip(spools.stamps(self.fresh), self.pairs[0]))
        if command == "query":
            return spools.answer(self.old, spools.QUERIES[QUERY])
        return spools.list_lines(pairs) if command == "list" else spools.check_lines(pairs)

    def is_sound(self, line, told, calls, limit=LIMIT):
        """Whether all is right after a run in which this call failed, with these lines and calls.

        The pairs are those that were there and those that the lines tell of, without the oldest
        ones, which were parked. One more is there if and only if the call is an fsync after its
        block file got its name: whether the disk keeps it is in doubt, so nobody is told of it. The
        answers are those over the pairs.
        """
        stamps = spools.stamps(self.spool)
        there = [spools.packets_of(self.spool, stamp) for stamp in stamps]
        old, new = self.pairs
        lines = [tuple(map(int, text.split())) for text in told.splitlines()]
        names = [call[3] for call in calls if call[0] == "rename" and call[2] == "0"]
        parked = sum("/.parked-" in name for name in names)
        in_doubt = line[0] == "fsync" and names != [] and "/PKT0/" in names[-1]
        known = (spools.stamps(self.fresh) + [stamp for stamp, _ in lines])[parked:]
        same = stamps[: len(stamps) - in_doubt] == known
        same = same and there == (old + new[: len(lines) + in_doubt])[parked:]
        same = same and [count for _, count in lines] == [len(pair) for pair in new[: len(lines)]]
        kept = len(there) <= limit + 1 and (parked == 0 or len(there) >= limit)
        wanted = spools.answer([packet for pair in there for packet in pair], spools.QUERIES[QUERY])
        return same and kept and begins(told, told) and self.run("check", [])[0][1:] == ("", 0) \
            and self.run("query", [QUERY])[0] == (wanted, "", 0) \
            and self.run("load", SMALL)[0][1:] == ("", 0)


def begins(right, said):
    """Whether an output is the first lines of the right one, or its file head and first packets.

    A pcap is known by its first four bytes. Nothing at all is a beginning, too.
    """
    ends = {0}
    if right[:4] == spools.write_pcap([], 1000)[:4]:
        at = 24
        while at <= len(right):
            ends.add(at)
            at += 16 + int.from_bytes(right[at + 8 : at + 12], "little")
    else:
        ends |= {place + 1 for place, byte in enumerate(right) if byte == ord("\n")}
    return len(said) in ends and right.startswith(said)


def numbered(calls):
    """Each call of the system: its line, and which of its kind it is."""
    counts = {}
    for line in calls:
        counts[line[0]] = counts.get(line[0], 0) + 1
        yield line, f"{line[0]}:{counts[line[0]]}"


def a_command_meets_each_fault(commands, command):
    """Whole lines or packets were written of what is right, and the pairs are those told of."""
    options = COMMANDS[command]
    loads, limit = command.startswith("load"), LOW_LIMIT if "limit" in command else LIMIT
    commands.anew()
    clean, calls = commands.run(command, options)
    right = clean[0] if loads else commands.right(command)
    yield f"{command} works", clean == (right, "", 0) and len(calls) > 15, clean
    for line, which in numbered(calls):
        commands.anew()
        said, made = commands.run(command, options, f"{which}:{errno.EIO}")
        name = f"{command}: {line[0]} {line[1]}"
        good = said[2] == 7 and said[1] in messages(line, "Input/output error")
        # A removal that fails as the oldest pair leaves is tried again later.
        good = good or limit == LOW_LIMIT and line[0] == "unlink" and said[1:] == ("", 0)
        good = good and (loads or begins(right, said[0]))
        good = good and commands.is_sound(line, said[0] if loads else b"", made, limit)
        yield f"{name} fails", good, said
        commands.anew()
        said, _ = commands.run(command, options, f"{which}:{errno.EINTR}")
        same = said[1:] == ("", 0) and (loads or said[0] == right)
        yield f"{name} is broken off", same, said


def commands_meet_a_full_disk(commands):
    """Each write of a load finds no space, alone and from then on: what was told of is there."""
    commands.anew()
    for line, which in numbered(commands.run("load", SMALL)[1]):
        for more in ("", "+"):
            if line[0] == "write":
                commands.anew()
                said, made = commands.run("load", SMALL, f"{which}{more}:{errno.ENOSPC}")
                good = said[2] == 7 and said[1] in messages(line, "No space left on device")
                good = good and commands.is_sound(line, said[0], made)
                yield f"no space at write {which}{more} of {line[1]}", good, said


# The packets of the spool before a drill, and of a drill of one pair and of one of two.
BEFORE, ONE, TWO = 4, 2, 9345


class Drills(Commands):
    """`drill` over a spool of one small pair and a left draft."""

    def __init__(self, library, folder):
        super().__init__(library, folder, BEFORE)
        [self.old] = self.pairs[0]
        [self.stamp] = spools.stamps(self.fresh)

    def without_stamps(self, text):
        """A text in which each stamp but that of the old pair, which goes by the clock, is another
        word."""
        return spools.STAMP.sub(lambda found: found[0] if int(found[0], 16) == self.stamp else "new", text)

    def drill(self, count, fail=""):
        """Output, messages and status of a drill in the spool as it was at first, and its calls
        there."""
        self.anew()
        return self.run("drill", [str(count)], fail)

    def left(self, pairs):
        """What is wrong, in words, if the spool is to have these pairs; last comes a drill."""
        wrong, stamps = [], spools.stamps(self.spool)
        if [spools.packets_of(self.spool, stamp) for stamp in stamps] != pairs:
            wrong.append(f"the pairs are {stamps}")
        drafts = {name for name in spools.files(self.spool) if "/.draft-" in name} - {"IDX0/.draft-9"}
        if drafts:
            wrong.append(f"drafts are left: {drafts}")
        said = self.run("check", [])[0]
        if said != (spools.check_lines(dict(zip(stamps, pairs))), "", 0):
            wrong.append(f"check says {said}")
        said = self.run("drill", [str(ONE)])[0]
        if said != (spools.drill_summary(ONE, pairs + spools.drill_pairs(ONE)), "", 0):
            wrong.append(f"the next drill says {said}")
        names = [f"{part}/{stamp:016x}" for part in ("IDX0", "PKT0") for stamp in spools.stamps(self.spool)]
        if spools.files(self.spool) != names:
            wrong.append(f"files are left over: {spools.files(self.spool)}")
        return wrong

    def fails(self, count, line, fail, made, words="Input/output error"):
        """Whether a drill whose call of this line fails writes nothing, says so, and leaves the old
        pair and these ones."""
        said, _ = self.drill(count, fail)
        lines = map(self.without_stamps, messages(line, words))
        good = (said[0], said[2]) == (b"", 7) and self.without_stamps(said[1]) in lines
        wrong = self.left([self.old, *made])
        return good and not wrong, (said, wrong)


def settled(calls):
    """The places of those calls of a drill that give a block file its name, which makes a pair."""
    return [place for place, line in enumerate(calls) if line[0] == "rename" and "/PKT0/" in line[1]]


def drill_meets_each_fault(drills):
    """Nothing is written. From the call on that gives its block file the name the pair is there,
    and before it is not."""
    made = spools.drill_pairs(ONE)
    clean, calls = drills.drill(ONE)
    yield "drill works", clean == (spools.drill_summary(ONE, [drills.old, *made]), "", 0) and len(calls) > 60, clean
    [pair] = settled(calls)
    for place, (line, which) in enumerate(numbered(calls)):
        good, said = drills.fails(ONE, line, f"{which}:{errno.EIO}", made if place > pair else [])
        yield f"drill: {line[0]} {line[1]} fails", good, said
        said, _ = drills.drill(ONE, f"{which}:{errno.EINTR}")
        yield f"drill: {line[0]} {line[1]} is broken off", said == clean, said


def drill_keeps_its_first_pair(drills):
    """Of a drill of two pairs each call fails that makes the second one: the first one stays."""
    made = spools.drill_pairs(TWO)
    clean, calls = drills.drill(TWO)
    yield "drill makes two pairs", clean == (spools.drill_summary(TWO, [drills.old, *made]), "", 0) and len(made) == 2, clean
    first, second = settled(calls)
    flushes = 2
    for place, (line, which) in enumerate(numbered(calls)):
        if first + flushes < place <= second + flushes:
            good, said = drills.fails(TWO, line, f"{which}:{errno.EIO}", made if place > second else made[:1])
            yield f"drill of two pairs: {line[0]} {line[1]} fails", good, said
        if line[0] == "write" and (which == "write:1" or place > first):
            there = made[:1] if place > first else []
            good, said = drills.fails(TWO, line, f"{which}+:{errno.ENOSPC}", there, "No space left on device")
            yield f"drill of two pairs: no space from {which} on", good, said


PROBE_GROUPS = [keeps_the_order, syncs_new_folders, meets_each_fault,
                meets_each_fault_at_the_next_start, meets_two_faults, meets_a_disk_that_is_gone,
                meets_many_signals, writes_by_halves, lists_all_or_nothing]
# What is tried over a spool, the longest groups first: the function, and what it is given besides.
SPOOL_GROUPS = [(Drills, drill_meets_each_fault), (Drills, drill_keeps_its_first_pair),
                *((Commands, a_command_meets_each_fault, command) for command in COMMANDS),
                (Commands, commands_meet_a_full_disk)]
PROCESSES = 4


def cases_of(place, library, kind, group, *more):
    """All cases of one group, which has the folder at this place to itself."""
    os.mkdir(place)
    return list(group(kind(library, place), *more))


def cases(folder):
    """The cases of all groups, of which four are at work at a time."""
    compiler = shutil.which("cc") or shutil.which("gcc") or shutil.which("clang")
    library = os.path.join(folder, "calls.so")
    if compiler is None or subprocess.run([compiler, "-O1", "-shared", "-fPIC", "-o", library, SOURCE, "-ldl"],
                                          capture_output=True).returncode:
        print("left out: calls of the file system that fail (no C compiler)")
        return
    program = build(folder)
    subprocess.run([LAUNCHER], stdin=subprocess.DEVNULL, capture_output=True)  # builds the program if need be
    probe = functools.partial(Probe, program)
    groups = [*SPOOL_GROUPS, *((probe, group) for group in PROBE_GROUPS)]
    with concurrent.futures.ProcessPoolExecutor(PROCESSES) as processes:
        started = []
        for number, group in enumerate(groups):
            place = os.path.join(folder, f"group-{number}")
            started.append(processes.submit(cases_of, place, library, *group))
        for done in started:
            yield from done.result()


def main():
    with tempfile.TemporaryDirectory() as folder:
        return report(cases(folder))


if __name__ == "__main__":
    sys.exit(main())
