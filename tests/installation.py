#!/usr/bin/env python3
"""Tries what is installed: packaging/install and uninstall, manual pages, completions, the loader.

The commands and options that pages and completions have to know are those of the tables of
docs/FORMAT.md, "Command line". Completion for zsh is only read. The last line is 'N passed, M
failed'; the status is 0 if none failed.
"""
import os
import pathlib
import re
import shutil
import stat
import subprocess
import sys
import tempfile

from report import report

ROOT = pathlib.Path(__file__).resolve().parent.parent
PACKAGING = ROOT / "packaging"
SECONDS = 120


def run(*arguments, stdin=b"", **more):
    done = subprocess.run(list(map(str, arguments)), input=stdin, capture_output=True, timeout=SECONDS, **more)
    return done.stdout.decode(), done.stderr.decode(), done.returncode


def commands():
    """Each command with its options, from the tables of the format."""
    page = (ROOT / "docs" / "FORMAT.md").read_text(encoding="ascii")
    part = page.split("\n## Command line\n")[1].split("\n## ")[0]
    rows = re.findall(r"^\| `([a-z]+)` \| [A-Z ]+ \| (.*) \|$", part, re.MULTILINE)
    return {name: re.findall(r"`(--[a-z]+)`", options) for name, options in rows}


def manual_pages():
    said = run(sys.executable, PACKAGING / "man" / "make.py", "--check")
    yield "the manual pages are those that are made of the documents", said == ("", "", 0), said
    source = (PACKAGING / "man" / "steno.md").read_text(encoding="ascii")
    known = {}
    for line in re.findall(r"^    (steno [a-z]+ .*)$", source.split("## Description")[0], re.MULTILINE):
        known[line.split()[1]] = re.findall(r"\[(--[a-z]+)", line)
    yield "the synopsis has each command with its options", known == commands(), known
    told = re.findall(r"^### ([a-z]+) ", source, re.MULTILINE)
    yield "the page says what each command does", told == list(commands()), told


def completed(*words):
    """What bash offers for the last of these words."""
    script = f'. "{PACKAGING}/completion/steno.bash"; COMP_WORDS=("$@"); COMP_CWORD=$(($# - 1)); _steno; printf "%s\\n" "${{COMPREPLY[@]}}"'
    return run("bash", "-c", script, "bash", *words)[0].split()


def completions():
    offered = completed("steno", "")
    yield "bash offers each command", offered == list(commands()), offered
    zsh = (PACKAGING / "completion" / "_steno").read_text(encoding="ascii")
    for command, options in commands().items():
        offered = completed("steno", command, "--")
        yield f"bash offers the options of {command}", offered == options, offered
        told = f"'{command}:" in zsh and re.search(rf"\((\w+ \| )*{command}( \| \w+)*\) _arguments", zsh)
        yield f"zsh knows {command}", bool(told), command
        missing = [option for option in options if f"'{option}[" not in zsh and f"'{option}=[" not in zsh]
        yield f"zsh knows the options of {command}", not missing, missing


def files(folder):
    """Each file in a folder, with its mode."""
    return {str(path.relative_to(folder)): stat.S_IMODE(path.stat().st_mode) for path in folder.rglob("*") if path.is_file()}


def wanted():
    """Each file that is installed, with its mode."""
    said = run("bash", "-c", f'. "{PACKAGING}/files.sh"; files; echo "644 - $list"')[0]
    return {place: int(mode, 8) for mode, _, place in map(str.split, said.splitlines())}


def installs(folder):
    target = folder / "stage" / "opt" / "steno"
    settings = ["PREFIX=/opt/steno", f"DESTDIR={folder}/stage"]
    for number in ("first", "second"):
        out, err, status = run(PACKAGING / "install", *settings)
        yield f"the {number} installation says what it put where", (out.count("installed "), err, status) == (len(wanted()), "", 0), (out, err)
        yield f"the {number} installation has all files", files(target) == wanted(), files(target)
    sample = (ROOT / "samples" / "dns.pcap").read_bytes()
    said = run(target / "bin" / "steno", "drill", folder / "spool", 1)
    yield "the program that was installed runs", said[1:] == ("", 0) and said[0].startswith("drill 1\n"), said
    done = subprocess.run([target / "bin" / "steno", "once", "port 53"], input=sample, capture_output=True, timeout=SECONDS)
    yield "and answers", (done.stdout, done.returncode) == (sample, 0), done
    service = (target / "share/doc/steno/examples/steno-load.service").read_text()
    yield "the service names the loader that was installed", 'ExecStart="/opt/steno/bin/steno-load-captures"' in service, service
    (target / "bin" / "mine").write_bytes(b"mine")
    out, err, status = run(PACKAGING / "uninstall", *settings)
    good = (out.count("removed "), err, status) == (len(wanted()), "", 0) and files(folder / "stage") == {"opt/steno/bin/mine": files(target)["bin/mine"]}
    yield "what was installed is taken away, and nothing else", good, (out, err, files(folder / "stage"))
    (target / "bin" / "mine").unlink()
    said = run(PACKAGING / "uninstall", *settings)
    yield "to take it away again changes nothing", said == (f"steno is not installed under {target}\n", "", 0), said
    shutil.rmtree(folder / "stage")
    run(PACKAGING / "install", *settings)
    run(PACKAGING / "uninstall", *settings)
    yield "of an installation alone neither a file nor the prefix is left", not target.exists(), files(folder / "stage")
    said = run(PACKAGING / "install", "PREFIX=opt", f"DESTDIR={folder}/other")
    yield "a prefix that is no absolute path", said == ("", "steno: PREFIX is no absolute path: opt\n", 1) and not (folder / "other").exists(), said


def captures(folder):
    """Puts four captures into a folder, the oldest first: two good ones, one that is cut, and a
    good one."""
    folder.mkdir()
    good = (ROOT / "samples" / "mixed.pcap").read_bytes()
    for age, (name, text) in enumerate((("new.pcap", good), ("cut.pcap", good[:100]), ("b b.pcap", good), ("-a.pcap", good))):
        (folder / name).write_bytes(text)
        os.utime(folder / name, (1_000_000_000 - age, 1_000_000_000 - age))


def loads_captures(folder):
    """The loader, with the program before it on the PATH, in a folder of its own."""
    (folder / "bin").mkdir(parents=True)
    (folder / "bin" / "steno").symlink_to(ROOT / "steno")
    captures(folder / "captures")

    def load(*arguments, **settings):
        return run(PACKAGING / "steno-load-captures", *arguments, cwd=folder,
                   env={"PATH": f"{folder}/bin:{os.environ['PATH']}", "LC_ALL": "C", **settings})

    for name, arguments, settings, status, said in (
            ("without a spool", [], {}, 2, "SPOOL is not set"),
            ("without captures", [], {"SPOOL": "spool"}, 2, "CAPTURES is not set"),
            ("a folder of captures that isn't there", [], {"SPOOL": "spool", "CAPTURES": "none"}, 2, "CAPTURES is no folder: none"),
            ("an unknown option", ["--every"], {"SPOOL": "spool"}, 2, "usage: steno-load-captures [--all | FILE...]"),
            ("a lock that can't be made", ["captures/new.pcap"], {"SPOOL": "none/spool"}, 1, "can't be locked: none/spool.lock"),
            ("a file that isn't there", ["none.pcap"], {"SPOOL": "spool"}, 1, "can't be read: none.pcap")):
        seen = load(*arguments, **settings)
        yield f"the loader: {name}", seen == ("", f"steno-load-captures: {said}\n", status), seen
    out, err, status = load(SPOOL="spool///", CAPTURES="captures")
    counts, left = [line.split()[1] for line in out.splitlines()], sorted(os.listdir(folder / "captures"))
    good = (counts, status, left) == (["7", "7", "1"], 3, ["cut.pcap.refused", "new.pcap"]) and err.endswith("refused: captures/cut.pcap.refused\n")
    yield "the loader loads the captures, the oldest first, but the newest one", good, (out, err, status, left)
    locks = [str(path.relative_to(folder)) for path in folder.rglob("*.lock")]
    yield "and has one lock, next to the spool", locks == ["spool.lock"], locks
    out, err, status = load("--all", SPOOL="spool", CAPTURES="captures")
    left = os.listdir(folder / "captures")
    yield "and then the newest one, too", (out.count(" 7\n"), err, status, left) == (1, "", 0, ["cut.pcap.refused"]), (out, err, status, left)


def cases(folder):
    yield from manual_pages()
    yield from completions()
    yield from installs(folder)
    if shutil.which("flock"):
        yield from loads_captures(folder / "loader")
    else:
        print("left out: the loader (no flock)")


def main():
    # Builds the program if need be.
    subprocess.run([ROOT / "steno"], stdin=subprocess.DEVNULL, capture_output=True)
    with tempfile.TemporaryDirectory() as folder:
        return report(cases(pathlib.Path(folder)))


if __name__ == "__main__":
    sys.exit(main())
