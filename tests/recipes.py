#!/usr/bin/env python3
"""Runs the blocks of commands of docs/RECIPES.md, and compares what they print with what it says.

Usage: recipes.py [PROGRAM]     (PROGRAM: the program to try, the launcher by default)

Each block runs in a folder of its own, by bash, which ends at the first command that fails.
Comments above a block, which a reader of the page doesn't see, name the tools that it needs, what
is done before it and what after it. Captures are replayed from a file, ssh and sudo stay on the
machine and with the user. A block whose tools are not all there is left out, and that is said. The
last line is 'N passed, M failed'; the status is 0 if none failed.
"""
import os
import pathlib
import re
import shutil
import subprocess
import sys
import tempfile

from report import report

ROOT = pathlib.Path(__file__).resolve().parent.parent
PAGE = ROOT / "docs" / "RECIPES.md"
SECONDS = 60

# What stands for programs that need rights, an interface or another machine.
STANDINS = {
    "tcpdump": r"""#!/usr/bin/env bash
# A capture from an interface replays a file; a file for so many seconds is one of so many
# megabytes.
real=%(tcpdump)s arguments=() live=
for word; do [ "$word" != -i ] || live=yes; done
[ -n "$live" ] || exec "$real" "$@"
while [ $# -gt 0 ]; do
  case $1 in
  -i) shift 2 ;;
  -G) arguments+=(-C 1); shift 2 ;;
  -w) arguments+=(-w "$(date -u +"$2")"); shift 2 ;;
  *) arguments+=("$1"); shift ;;
  esac
done
[ "$(id -u)" -ne 0 ] || arguments+=(-Z root)
exec "$real" -r "$REPLAY" "${arguments[@]}" 2>/dev/null
""",
    "dumpcap": r"""#!/usr/bin/env bash
# A capture from an interface replays a file, into files of a megabyte.
arguments=()
while [ $# -gt 0 ]; do
  case $1 in
  -i) arguments+=(-i -); shift 2 ;;
  filesize:*) arguments+=(filesize:1000); shift ;;
  *) arguments+=("$1"); shift ;;
  esac
done
exec %(dumpcap)s "${arguments[@]}" <"$REPLAY" 2>/dev/null
""",
    "ssh": r"""#!/bin/sh
# A machine is a folder of its name.
cd "$1" && shift && exec sh -c "$*"
""",
    "sudo": r"""#!/bin/sh
# sudo -u USER COMMAND
shift 2 && exec "$@"
""",
}

# What the comments of the page may call.
PRELUDE = r"""
replay() { # a capture of this many packets, 646 bytes each and some
  export REPLAY=$PWD/replay.pcap
  python3 - "$1" >"$REPLAY" <<'PYTHON'
import sys
sys.path.insert(0, "samples")
sys.dont_write_bytecode = True
from make import file_head, frames, record
known, out = frames(), sys.stdout.buffer
out.write(file_head("little", "micro"))
for k in range(int(sys.argv[1])):
    out.write(record("little", 1000000000 + k // 100, k % 100 * 10000, known["tcp80" if k % 2 else "udp53"] + bytes(600)))
PYTHON
}
until_loaded() { # until this many captures are left
  for _ in {1..400}; do
    [ "$(ls "$CAPTURES" | wc -l)" -gt "$1" ] || break
    sleep 0.05
  done
  flock "$SPOOL.lock" true
}
units() { # the units, with the loader of this repository
  local path
  path=$(readlink -f -- "$(command -v steno-load-captures)")
  sed "s|/usr/local/bin/steno-load-captures|$path|" packaging/systemd/steno-load.service >steno-load.service
  cp packaging/systemd/steno-load.timer .
}
damage_first_pair() {
  local first
  first=$(ls "$SPOOL/PKT0" | head -n 1)
  printf '\2' | dd of="$SPOOL/PKT0/$first" conv=notrunc status=none
}
"""


def blocks():
    """Each block of commands: its name, its notes, its commands, and what it is to print, None if
    that is not said."""
    found, title, notes, lines, kind = [], "", {}, [], None
    for line in PAGE.read_text(encoding="ascii").split("\n"):
        note = re.fullmatch(r"<!-- (\w+): (.*) -->", line)
        if kind and line == "```":
            if kind == "sh":
                number = sum(name.startswith(title + ",") for name, *_ in found) + 1
                found.append((f"{title}, {number}", notes, "\n".join(lines), []))
                notes = {}
            elif kind == "text":
                found[-1][3].extend(lines)
            kind = None
        elif kind:
            lines.append(line)
        elif line.startswith("```"):
            kind, lines = line[3:], []
        elif line.startswith("## "):
            title = line[3:]
        elif note:
            notes[note[1]] = note[2]
    return found


def tools(folder, program):
    """A folder with the program, the loader and the stand-ins of those programs that are there."""
    folder.mkdir()
    (folder / "steno").symlink_to(program)
    (folder / "steno-load-captures").symlink_to(ROOT / "packaging" / "steno-load-captures")
    paths = {name: shutil.which(name) for name in STANDINS}
    for name, text in STANDINS.items():
        if paths[name] or name == "sudo":
            (folder / name).write_text(text % paths if "%(" in text else text)
            (folder / name).chmod(0o755)
    return folder


def run(folder, bin_folder, notes, commands):
    """What a block prints, what it says, and its status."""
    folder.mkdir()
    for name in ("samples", "packaging"):
        (folder / name).symlink_to(ROOT / name)
    (folder / "captures").mkdir()
    script = "\n".join(["set -eu -o pipefail", PRELUDE, "{", notes.get("before", ":"), "} >/dev/null", commands, notes.get("after", ":")])
    surroundings = {**os.environ, "PATH": f"{bin_folder}:{os.environ['PATH']}", "HOME": str(folder), "LC_ALL": "C", "INTERFACE": "eth0",
                    "SPOOL": str(folder / "spool"), "CAPTURES": str(folder / "captures")}
    try:
        done = subprocess.run(["bash", "-c", script], cwd=folder, env=surroundings, stdin=subprocess.DEVNULL, capture_output=True,
                              text=True, timeout=SECONDS)
    except subprocess.TimeoutExpired:
        return "", f"more than {SECONDS} seconds", None
    return done.stdout, done.stderr, done.returncode


def pattern(line):
    return re.escape(line).replace("STAMP", "[0-9]+").replace(re.escape("..."), ".*")


def cases(folder, program):
    bin_folder = tools(folder / "bin", program)
    for number, (name, notes, commands, wanted) in enumerate(blocks()):
        missing = [tool for tool in notes.get("needs", "").split() if not shutil.which(tool)]
        if missing:
            print(f"left out: {name} ({', '.join(missing)} missing)")
            continue
        out, err, status = run(folder / str(number), bin_folder, notes, commands)
        good = status == 0 and re.fullmatch("".join(pattern(line) + "\n" for line in wanted), out)
        yield name, bool(good), f"status {status}, output {out!r}, messages {err[-2000:]!r}"


def main(arguments):
    program = pathlib.Path(arguments[0] if arguments else ROOT / "steno").resolve()
    with tempfile.TemporaryDirectory() as folder:
        return report(cases(pathlib.Path(folder), program))


if __name__ == "__main__":
    sys.exit(main(sys.argv[1:]))
