#!/usr/bin/env python3
"""Makes the samples from recipes.txt and frames.txt, in this folder.

Usage: make.py [FOLDER]     (FOLDER: where the files go, this one by default)
"""
import pathlib
import struct
import sys

HERE = pathlib.Path(__file__).resolve().parent
MAGIC = {"micro": 0xA1B2C3D4, "nano": 0xA1B23C4D}
ORDER = {"little": "<", "big": ">"}
SNAPLEN = 262144
ETHERNET = 1


def lines_of(name):
    for line in (HERE / name).read_text(encoding="ascii").split("\n"):
        if line.strip() and not line.startswith("#"):
            yield line


def frames():
    """The bytes of each frame, by its name."""
    found, name = {}, None
    for line in lines_of("frames.txt"):
        if line.startswith(" "):
            found[name] += bytes.fromhex(line)
        else:
            name = line.strip()
            found[name] = b""
    return found


def file_head(order, unit):
    return struct.pack(ORDER[order] + "IHHIIII", MAGIC[unit], 2, 4, 0, 0, SNAPLEN, ETHERNET)


def record(order, seconds, fraction, body, original=None):
    original = len(body) if original is None else original
    return struct.pack(ORDER[order] + "IIII", seconds, fraction, len(body), original) + body


def samples():
    """The bytes of each sample, by its name."""
    known, made, name, order = frames(), {}, None, "little"
    for line in lines_of("recipes.txt"):
        word, *rest = line.split()
        if word == "file":
            name, order, unit = rest
            made[name] = [file_head(order, unit)]
        elif word == "record":
            seconds, fraction, frame = int(rest[0]), int(rest[1]), rest[2]
            made[name].append((seconds, fraction, known[frame], None))
        elif word == "cut":
            seconds, fraction, body, _ = made[name][-1]
            made[name][-1] = (seconds, fraction, body[: int(rest[0])], int(rest[1]))
        else:
            sys.exit(f"recipes.txt: {line!r} is no step")
        made[name, "order"] = order
    result = {}
    for name, parts in made.items():
        if isinstance(name, str):
            order = made[name, "order"]
            result[name] = parts[0] + b"".join(record(order, *part) for part in parts[1:])
    return result


def main():
    folder = pathlib.Path(sys.argv[1]) if len(sys.argv) > 1 else HERE
    for name, content in samples().items():
        (folder / f"{name}.pcap").write_bytes(content)
        print(f"{name}.pcap: {len(content)} bytes")


if __name__ == "__main__":
    main()
