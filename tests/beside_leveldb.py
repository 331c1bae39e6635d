#!/usr/bin/env python3
"""Compares tables with LevelDB's: each program reads what the other writes.

Sums are verified. First each byte is tried as a digit of table_rows' lines. What needs LevelDB is
left out, and that is said, if a C++ compiler or LevelDB's headers are missing (Debian: g++,
libleveldb-dev). The last line is 'N passed, M failed'; the status is 0 if none failed.
"""
import pathlib
import random
import shutil
import subprocess
import sys
import tempfile

from report import report

ROOT = pathlib.Path(__file__).resolve().parent.parent
OURS = ROOT / "crates" / "table_rows" / "out" / "table_rows"
SOURCE = ROOT / "tests" / "leveldb" / "rows.cc"
SECONDS = 120
BLOCK_SIZES = [256, 1024, 4096, 65536]
RESTARTS = [1, 2, 16, 64]

CASES = []


def check(name, holds, said=""):
    CASES.append((name, holds, said))


def run(command, given=b""):
    done = subprocess.run([str(part) for part in command], input=given, capture_output=True, timeout=SECONDS)
    return done.returncode, done.stdout, done.stderr


def lines(rows):
    return b"".join(key.hex().encode() + b" " + value.hex().encode() + b"\n" for key, value in sorted(rows.items()))


def index_rows(numbers):
    """Rows as the spool's indexes have them: a kind byte, a key, and positions of four bytes."""
    rows = {b"\0": bytes(24)}
    for number in range(3000):
        rows[b"\4" + (0x0A000000 + number * 7).to_bytes(4, "big")] = numbers.randbytes(4 * numbers.randint(1, 9))
        rows[b"\7" + (1000000000 + number).to_bytes(4, "big")] = numbers.randbytes(4)
    return rows


def row_sets():
    """Rows by name: few and many, short and long, with much and with nothing in common."""
    numbers = random.Random(1)
    common = b"common prefix of many keys "
    return {
        "no rows": {},
        "one row": {b"key": b"value"},
        "an empty key and an empty value": {b"": b"", b"\0": b"", b"\0\0": b"x"},
        "an index": index_rows(numbers),
        "keys with a common prefix": {common + str(n).encode(): b"" for n in range(2000)},
        "keys of every length": {numbers.randbytes(n % 65): numbers.randbytes(n % 40) for n in range(3000)},
        "long values": {n.to_bytes(2, "big"): numbers.randbytes(numbers.randint(0, 9000)) for n in range(300)},
        "keys of high bytes": {b"\xff" * n: b"\xff" * n for n in range(65)},
    }


def read_by_leveldb(theirs, folder, name, rows):
    """We write, LevelDB reads; and its own writer's bytes are ours where it keeps last keys."""
    status, table, said = run([OURS, "make"], lines(rows))
    check(f"{name}: a table is made", status == 0, said)
    ours, own = folder / "ours.ldb", folder / "own.ldb"
    ours.write_bytes(table)
    check(f"{name}: LevelDB reads it", run([theirs, "print", ours]) == (0, lines(rows), b""))
    check(f"{name}: we read it", run([OURS, "print", ours]) == (0, lines(rows), b""))
    run([theirs, "make", own, 4096, 16, "plain", "last"], lines(rows))
    check(f"{name}: LevelDB writes the same bytes", own.read_bytes() == table)


def read_by_us(theirs, folder, name, rows):
    """LevelDB writes, with short index keys, and we read."""
    for size in BLOCK_SIZES:
        for restarts in RESTARTS:
            path = folder / "theirs.ldb"
            run([theirs, "make", path, size, restarts, "plain", "short"], lines(rows))
            check(f"{name}: we read blocks of {size}, restarts every {restarts}", run([OURS, "print", path]) == (0, lines(rows), b""))


def lookups(theirs, folder, rows):
    """Every key is found, and no key between, before or after them."""
    keys = sorted(rows)
    asked = b"".join(key.hex().encode() + b"\n" for key in keys + [key + b"\0" for key in keys] + [b"", b"\xff" * 70])
    path = folder / "theirs.ldb"
    for size in BLOCK_SIZES:
        run([theirs, "make", path, size, 16, "plain", "short"], lines(rows))
        check(f"lookups, blocks of {size}", run([OURS, "find", path], asked) == run([theirs, "find", path], asked))


def refusals(theirs, folder):
    """A table of Snappy blocks is refused by name, and a byte that changed is found."""
    rows = {n.to_bytes(2, "big"): bytes(100) for n in range(500)}
    path = folder / "refused.ldb"
    run([theirs, "make", path, 4096, 16, "snappy", "short"], lines(rows))
    status, _, said = run([OURS, "print", path])
    check("a Snappy table is refused by name", status != 0 and b"compressed" in said, (status, said))
    run([theirs, "make", path, 4096, 16, "plain", "short"], lines(rows))
    table = bytearray(path.read_bytes())
    table[100] ^= 1
    path.write_bytes(table)
    status, _, said = run([OURS, "print", path])
    check("a byte that changed is found", status != 0 and b"damaged" in said, (status, said))


def digits():
    """Each byte as the first and as the second digit of a value: it is read, or the line is
    refused."""
    for byte in set(range(256)) - {0x0A}:
        good = byte in b"0123456789abcdefABCDEF"
        for text in (bytes([byte, 0x30]), bytes([0x30, byte])):
            status, table, said = run([OURS, "make"], b"01 " + text + b"\n")
            if good:
                holds = status == 0 and table.startswith(b"\0\1\1\1" + bytes.fromhex(text.decode()))
            else:
                holds = status != 0 and b"line 1: not hexadecimal" in said
            check(f"the digits {text!r}", holds, (status, said))


def main():
    if not OURS.exists():
        sys.exit(f"{OURS} is not built: run `rt ci` first")
    compiler = shutil.which("g++") or shutil.which("c++")
    digits()
    with tempfile.TemporaryDirectory() as name:
        folder = pathlib.Path(name)
        theirs = folder / "rows"
        if compiler is None or subprocess.run(
            [compiler, "-O2", "-std=c++17", "-o", theirs, SOURCE, "-lleveldb"], capture_output=True
        ).returncode:
            print("left out: tables compared with LevelDB's (no C++ compiler, or no LevelDB headers)")
            return report(CASES)
        for name, rows in row_sets().items():
            read_by_leveldb(theirs, folder, name, rows)
            read_by_us(theirs, folder, name, rows)
        lookups(theirs, folder, index_rows(random.Random(2)))
        refusals(theirs, folder)
    return report(CASES)


if __name__ == "__main__":
    sys.exit(main())
