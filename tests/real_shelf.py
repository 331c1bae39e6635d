#!/usr/bin/env python3
"""Tries the shelf in a file system by the program shelf_probe, failures of the system included.

What the machine does not allow (as root to become another user, a mount of one's own) is left out,
and said. The last line is 'N passed, M failed'; the status is 0 if none failed.
"""
import os
import pathlib
import resource
import shutil
import signal
import stat
import subprocess
import sys
import tempfile

from report import report

CRATE = pathlib.Path(__file__).resolve().parent.parent / "crates" / "shelf_probe"
SECONDS = 60
NOBODY = 65534


def build(folder):
    """A copy of the program that every user may run. The gate has built it; if it is missing, it is
    proved and built first."""
    program = CRATE / "out" / "shelf_probe"
    if not program.exists():
        built = subprocess.run(["rt", "run", "--", os.path.join(folder, "first")], cwd=CRATE, stdin=subprocess.DEVNULL, capture_output=True)
        if built.returncode != 0 or not program.exists():
            sys.exit(f"shelf_probe was not built: {built.stdout[-2000:]!r} {built.stderr[-2000:]!r}")
    return shutil.copy(program, os.path.join(folder, "shelf_probe"))


def ask(program, folder, calls, before=None):
    """What the program answers to these calls, as a list of lines."""
    done = subprocess.run([program, folder], input="".join(call + "\n" for call in calls), capture_output=True, text=True,
                          timeout=SECONDS, preexec_fn=before)
    return done.stdout.split("\n")[:-1]


def files(folder):
    """All that lies in a spool folder but folders, with sizes. Links are not followed."""
    found = {}
    for path, folders, names in os.walk(folder):
        for name in names + [name for name in folders if os.path.islink(os.path.join(path, name))]:
            whole = os.path.join(path, name)
            found[os.path.relpath(whole, folder)] = os.lstat(whole).st_size
    return found


def mode(path):
    return stat.S_IMODE(os.stat(path).st_mode)


def as_nobody():
    if os.getuid() == 0:
        os.setgroups([])
        os.setgid(NOBODY)
        os.setuid(NOBODY)


def has_rights_to_lose(program):
    """Whether the program can be run by a user whom rights refuse."""
    try:
        return subprocess.run([program], preexec_fn=as_nobody, capture_output=True, timeout=SECONDS).returncode == 2
    except (OSError, subprocess.SubprocessError):
        return False


def short_disk():
    """No file may pass 5,000 bytes: the write that passes it is short, and the next one fails."""
    signal.signal(signal.SIGXFSZ, signal.SIG_IGN)
    resource.setrlimit(resource.RLIMIT_FSIZE, (5000, 5000))


class Session:
    """The program, asked call by call."""

    def __init__(self, program, folder, env=None):
        self.process = subprocess.Popen([program, folder], stdin=subprocess.PIPE, stdout=subprocess.PIPE, text=True, env=env)

    def ask(self, call=None):
        """The first line that it answers to a call; with no call the next one."""
        if call is not None:
            self.process.stdin.write(call + "\n")
            self.process.stdin.flush()
        return self.process.stdout.readline().rstrip("\n")

    def end(self, kill=False):
        if kill:
            self.process.kill()
        self.process.stdin.close()
        self.process.wait(SECONDS)
        self.process.stdout.close()


def keeps_files(program, folder):
    spool = os.path.join(folder, "deep", "spool")
    got = ask(program, spool, ["put index 10 70000", "put block 10 5", "flush block", "flush index", "list", "read index 10", "faults"])
    want = ["ok", "ok", "ok", "ok", "block 10", "index 10", "ok", "70000 bytes", "0"]
    yield "files are put and read", got == want, got
    left = {"PKT0/000000000000000a": 5, "IDX0/000000000000000a": 70000}
    yield "files have their names and sizes", files(spool) == left, files(spool)
    with open(os.path.join(spool, "IDX0/000000000000000a"), "rb") as file:
        yield "a file has its bytes", file.read() == b"x" * 70000, "other bytes"
    modes = [mode(os.path.join(folder, "deep", path)) for path in (".", "spool", "spool/PKT0", "spool/IDX0", "spool/PKT0/000000000000000a")]
    yield "all is its owner's alone", modes == [0o700, 0o700, 0o700, 0o700, 0o600], [oct(one) for one in modes]
    got = ask(program, spool, ["hide 10", "list", "remove parked 10", "remove block 10", "list", "read block 10", "faults"])
    yield "files are parked and removed", got == ["ok", "block 10", "parked 10", "ok", "ok", "ok", "ok", "failed", "1"], got


def keeps_its_lock(program, folder):
    spool = os.path.join(folder, "locked")
    first, second = Session(program, spool), Session(program, spool)
    got = [first.ask("put block 1 5"), second.ask("flush block"), second.ask("put block 2 5"), second.ask("faults"), first.ask("faults")]
    yield "a second program is refused", got == ["ok", "failed", "failed: create", "2", "0"], got
    first.end(kill=True)
    got = [second.ask("put block 2 5"), second.ask("faults")]
    second.end()
    yield "it goes on once the first has ended, killed or not", got == ["ok", "2"], got
    yield "both files are there", sorted(files(spool)) == ["PKT0/0000000000000001", "PKT0/0000000000000002"], files(spool)


GREAT_STAMPS = [2**32, 2**63, 2**64 - 1]


def keeps_great_stamps(program, folder):
    spool = os.path.join(folder, "great")
    puts = [f"put {kind} {stamp} {size}" for size, stamp in enumerate(GREAT_STAMPS, 1) for kind in ("index", "block")]
    listed = [f"{kind} {stamp}" for kind in ("block", "index") for stamp in GREAT_STAMPS] + ["ok"]
    got = ask(program, spool, [*puts, "list", "faults"])
    yield "stamps of 33 to 64 bits are put and listed", got == ["ok"] * 6 + listed + ["0"], got
    names = [f"{folder}/{stamp:016x}" for folder in ("IDX0", "PKT0") for stamp in GREAT_STAMPS]
    yield "their names have 16 digits", sorted(files(spool)) == names, files(spool)
    reads = [f"read {kind} {stamp}" for kind in ("block", "index") for stamp in GREAT_STAMPS]
    got = ask(program, spool, ["list", *reads, "hide 18446744073709551615", "read parked 18446744073709551615", "list", "faults"])
    want = listed + ["1 bytes", "2 bytes", "3 bytes"] * 2 + ["ok", "3 bytes"] + listed[:5] + ["parked 18446744073709551615", "ok", "0"]
    yield "another program lists and reads them", got == want, got


def reads_at_great_places(program, folder):
    spool = os.path.join(folder, "places")
    os.makedirs(os.path.join(spool, "PKT0"))
    place = 2**32 + 5
    with open(os.path.join(spool, "PKT0", f"{7:016x}"), "wb") as file:
        file.write(b"low bytes")
        file.seek(place)
        file.write(b"high bytes")
    places = [(0, 9, "low bytes"), (4, 3, "byt"), (place, 10, "high bytes"), (place + 5, 100, "bytes"), (place + 10, 4, ""),
              (place + 2**32, 4, ""), (2**63, 4, ""), (2**64 - 1, 4, ""), (0, 0, "")]
    got = ask(program, spool, [f"show {at} {length} block 7" for at, length, _ in places] + ["faults"])
    yield "a read gives the bytes of its place, above 2^32 too", got == [text for _, _, text in places] + ["0"], got


def keeps_parked_files(program, folder):
    spool = os.path.join(folder, "parked")
    got = ask(program, spool, ["put index 10 9000", "put block 10 5", "hide 10", "read parked 10", "read index 10", "read block 10"])
    yield "a parked index is read under its name", got == ["ok", "ok", "ok", "9000 bytes", "failed", "5 bytes"], got
    got = ask(program, spool, ["list", "read parked 10", "faults"])
    yield "another program reads it", got == ["block 10", "parked 10", "ok", "9000 bytes", "0"], got
    got = ask(program, spool, ["remove block 99", "remove index 99", "remove parked 99", "remove draft block 99", "list", "faults"])
    yield "to remove what is not there is no fault", got == ["ok"] * 4 + ["block 10", "parked 10", "ok", "0"], got
    got = ask(program, spool, ["put index 11 70000", "age 11", "list", "faults"])
    yield "an index that left the disk is read while it is lent", got == ["ok", "70000 bytes", "block 10", "parked 10", "ok", "0"], got


def make_strangers(place):
    """Puts into a folder what is no file of a shelf, in both kinds of name: links, a pipe, folders,
    other names."""
    os.symlink("0000000000000001", os.path.join(place, "0000000000000002"))
    os.symlink("nowhere", os.path.join(place, "0000000000000003"))
    os.symlink(".", os.path.join(place, "0000000000000004"))
    os.mkfifo(os.path.join(place, "0000000000000005"))
    os.mkdir(os.path.join(place, "0000000000000006"))
    os.mkfifo(os.path.join(place, ".draft-3"))
    os.symlink("0000000000000001", os.path.join(place, ".draft-4"))
    os.symlink("0000000000000001", os.path.join(place, ".parked-0000000000000007"))
    for name in (b"\xff\xfe", b"000000000000000\xff", b".draft-\xff", b"000000000000007", b"00000000000000007", b"000000000000000A",
                 b"000000000000000g", b" 000000000000007", b"000000000000007\n", b".draft-", b".draft-05", b".draft-5x", b".draft--5",
                 b".draft-18446744073709551616", b".parked-000000000000007", b".parked-00000000000000007", b"draft-5", b"..draft-5",
                 b"0000000000000007.old", b"notes"):
        with open(os.path.join(place.encode(), name), "wb") as file:
            file.write(b"mine")


def passes_over_strangers(program, folder):
    spool = os.path.join(folder, "strange")
    ask(program, spool, ["put block 1 5", "put index 1 6"])
    for name in ("PKT0", "IDX0"):
        make_strangers(os.path.join(spool, name))
    pathlib.Path(spool, "PKT0", ".parked-0000000000000001").write_bytes(b"mine")
    there = {path: os.lstat(os.path.join(spool, path)).st_ino for path in files(spool)}
    yield "there are many of them", len(there) == 2 + 2 * 27 + 1, len(there)
    got = ask(program, spool, ["list", "put block 8 5", "flush block", "list", "remove block 8", "faults"])
    want = ["block 1", "index 1", "ok", "ok", "ok", "block 1", "block 8", "index 1", "ok", "ok", "0"]
    yield "a list has the files of a shelf alone", got == want, got
    left = {path: os.lstat(os.path.join(spool, path)).st_ino for path in files(spool)}
    yield "what is no file of a shelf is left alone", left == there, left
    got = ask(program, spool, ["put index 2 5", "put block 3 5", "read block 1", "read index 1", "list", "faults"])
    yield "names are put over links, which are not followed", got[:4] == ["ok", "ok", "5 bytes", "6 bytes"] and got[-1] == "0", got
    yield "the file that a link named is as it was", files(spool)["IDX0/0000000000000001"] == 6, files(spool)


def makes_new_drafts(program, folder):
    """A file that somebody puts under the next draft's name is neither written nor removed."""
    spool = os.path.join(folder, "drafts")
    session = Session(program, spool)
    session.ask("put block 1 5")
    foreign = pathlib.Path(spool, "PKT0", ".draft-1")
    foreign.write_bytes(b"mine")
    got = [session.ask(call) for call in ("put block 2 5", "put block 2 5", "faults")]
    session.end()
    yield "a number whose draft is there already is passed over", got == ["ok", "ok", "0"], got
    left = foreign.read_bytes() if foreign.exists() else None
    yield "that file is left", left == b"mine", left
    for place, number in (("PKT0", 0), ("IDX0", 1), ("PKT0", 6)):
        pathlib.Path(spool, place, f".draft-{number}").write_bytes(b"left")
    foreign.unlink(missing_ok=True)
    got = ask(program, spool, ["put block 3 5", "put index 3 5", "list", "faults"])
    there = ["block 1", "block 2", "block 3", "draft block 0", "draft block 6", "draft index 1", "index 3"]
    good = got[:2] == ["ok", "ok"] and sorted(got[2:-2]) == there and got[-2:] == ["ok", "0"]
    yield "drafts that another program left are in no draft's way", good, got
    greatest = os.path.join(folder, "greatest")
    os.makedirs(os.path.join(greatest, "IDX0"))
    pathlib.Path(greatest, "IDX0", f".draft-{2**64 - 1}").write_bytes(b"left")
    got = ask(program, greatest, ["put index 3 5", "put block 3 5", "list", "faults"])
    want = ["ok", "ok", "block 3", "index 3", f"draft index {2**64 - 1}", "ok", "0"]
    yield "nor is a left draft of the greatest number", sorted(got) == sorted(want), got


def keeps_its_lock_after_a_fault(program, folder):
    spool = os.path.join(folder, "faulty")
    first = Session(program, spool)
    got = [first.ask(call) for call in ("put block 1 5", "read block 2", "hide 3", "faults")]
    yield "two calls fail", got == ["ok", "failed", "failed", "2"], got
    got = ask(program, spool, ["put block 4 5", "list", "faults"])
    yield "a second program is refused after faults of the first", got == ["failed: create", "failed", "2"], got
    got = [first.ask(call) for call in ("put block 5 5", "faults")]
    first.end()
    yield "the first goes on", got == ["ok", "2"], got


CALLS = ["put block 1 100000", "flush block", "list", "remove block 1", "read block 1", "hide 1", "faults"]
REFUSED = ["failed: create", "failed", "failed", "failed", "failed", "failed", "6"]


def meets_a_file(program, folder):
    for name, taken in (("the spool folder", ""), ("PKT0", "PKT0"), ("IDX0", "IDX0")):
        spool = os.path.join(folder, "taken" + taken)
        if taken:
            os.mkdir(spool)
        pathlib.Path(spool, taken).write_bytes(b"mine")
        got = ask(program, spool, CALLS)
        yield f"a file is where {name} should be", got == REFUSED, got
        yield f"that file is left ({name})", pathlib.Path(spool, taken).read_bytes() == b"mine", "it is another"


def lacks_rights(program, folder):
    if not has_rights_to_lose(program):
        print("left out: folders without rights (no other user to become)")
        return
    spool = os.path.join(folder, "closed")
    os.mkdir(spool, 0o555)
    got = ask(program, spool, CALLS, as_nobody)
    yield "a folder in which nothing may be made", got == REFUSED and files(spool) == {}, got
    spool = os.path.join(folder, "veiled", "spool")
    os.makedirs(spool)
    if os.getuid() == 0:
        os.chown(spool, NOBODY, NOBODY)
    os.chmod(os.path.dirname(spool), 0o311)
    got = ask(program, spool, ["put block 1 5", "flush block", "list", "faults"], as_nobody)
    yield "a folder above that may not be looked into", got == ["ok", "ok", "block 1", "ok", "0"], got
    os.chmod(os.path.dirname(spool), 0o755)
    spool = os.path.join(folder, "half")
    ask(program, spool, ["put block 7 5", "put index 7 5"])
    for path in ("PKT0", "IDX0", "."):
        os.chmod(os.path.join(spool, path), 0o555)
    was = files(spool)
    calls = ["put block 1 5", "hide 7", "remove block 7", "list", "faults"]
    got = ask(program, spool, calls, as_nobody)
    want = ["failed: create", "failed", "failed", "block 7", "index 7", "ok", "3"]
    yield "read-only folders", got == want and files(spool) == was, (got, files(spool))
    for path in (".", "PKT0", "IDX0"):
        os.chmod(os.path.join(spool, path), 0o755)


def meets_a_full_disk(program, folder):
    spool = os.path.join(folder, "short")
    calls = ["put index 1 4000", "put block 1 100000", "list", "put block 2 4000", "flush block", "list", "faults"]
    got = ask(program, spool, calls, short_disk)
    want = ["ok", "failed: write", "index 1", "ok", "ok", "ok", "block 2", "index 1", "ok", "1"]
    left = {"IDX0/0000000000000001": 4000, "PKT0/0000000000000002": 4000}
    yield "a write that is cut short", got == want and files(spool) == left, (got, files(spool))


def mounted(program, options, folder, calls, then=""):
    """The same in a file system of its own, or None where the machine allows none."""
    os.makedirs(folder)
    line = f'mount -t tmpfs -o {options} none "$2" || exit 77; {then} exec "$1" "$2"'
    done = subprocess.run(["unshare", "-m", "sh", "-c", line, "sh", program, folder], input="".join(call + "\n" for call in calls),
                          capture_output=True, text=True, timeout=SECONDS)
    return None if "mount" in done.stderr or "unshare" in done.stderr else done.stdout.split("\n")[:-1]


def other_file_systems(program, folder):
    if shutil.which("unshare") is None:
        print("left out: a full file system and a read-only one (no unshare)")
        return
    calls = ["put index 1 4000", "put block 1 200000", "list", "put block 2 4000", "list", "faults"]
    got = mounted(program, "size=64k", os.path.join(folder, "full"), calls)
    if got is None:
        print("left out: a full file system and a read-only one (no mount of one's own)")
        return
    want = ["ok", "failed: write", "index 1", "ok", "ok", "block 2", "index 1", "ok", "1"]
    yield "a full file system", got == want, got
    got = mounted(program, "ro", os.path.join(folder, "fixed"), CALLS)
    yield "a read-only file system", got == REFUSED, got
    calls = ["list", "put block 2 5", "flush block", "hide 1", "remove index 1", "list", "faults"]
    then = 'echo "put index 1 5" | "$1" "$2" >/dev/null; mount -o remount,ro "$2" || exit 77;'
    got = mounted(program, "size=64k", os.path.join(folder, "later"), calls, then)
    want = ["index 1", "ok", "failed: create", "ok", "failed", "failed", "index 1", "ok", "3"]
    yield "a spool that becomes read-only", got == want, got


GROUPS = [keeps_files, keeps_great_stamps, reads_at_great_places, keeps_parked_files, passes_over_strangers, makes_new_drafts,
          keeps_its_lock, keeps_its_lock_after_a_fault, meets_a_file, lacks_rights, meets_a_full_disk, other_file_systems]


def cases(folder):
    os.chmod(folder, 0o755)
    program = build(folder)
    for group in GROUPS:
        place = os.path.join(folder, group.__name__)
        os.mkdir(place)
        yield from group(program, place)


def main():
    with tempfile.TemporaryDirectory() as folder:
        return report(cases(folder))


if __name__ == "__main__":
    sys.exit(main())
