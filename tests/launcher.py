#!/usr/bin/env python3
"""Tries the launcher in a repository of its own, with a toolchain that only pretends to prove.

So nothing is proved here, and each case takes a moment. The last line is 'N passed, M failed'; the
status is 0 if none failed.
"""
import os
import pathlib
import pty
import re
import resource
import shutil
import signal
import subprocess
import sys
import tempfile
import time

from report import report

LAUNCHER = pathlib.Path(__file__).resolve().parent.parent / "steno"
SECONDS = 60
LONG_AGO = 978307200
NOT_BUILT = 70
BUILDING = b"proving and building first"
PROVED = ["proved high", "proved low", "proved side", "proved steno"]

# Writes down what it is asked for, and which crates it proved. 'run' makes a program that prints
# the text of its source, its arguments, with SHOWS what the C library is asked for and how many
# files may be open, and its input; a source with the word 'wrong' is not proved. TOOLCHAIN_EDITS
# has it write to that file first, and TOOLCHAIN_LINGERS has it stay once the program is made.
TOOLCHAIN = r"""#!/usr/bin/env bash
echo "$*, in ${PWD##*/}" >>"$TOOLCHAIN_LOG"
case $1 in
version) cat >/dev/null; echo 'pretended toolchain, first edition' ;;
all)
  for crate in *; do
    sleep "${TOOLCHAIN_SLEEPS:-0}"
    grep -q "^$crate[ :]" ../crates.txt || { echo 'not listed'; exit 1; }
    ! grep -q wrong "$crate"/src/* || { echo 'not proved'; exit 1; }
    echo "proved $crate" >>"$TOOLCHAIN_LOG"
    echo "== $crate"
  done
  ;;
run)
  sleep "${TOOLCHAIN_SLEEPS:-0}"
  [ -z "${TOOLCHAIN_EDITS:-}" ] || printf edited >"$TOOLCHAIN_EDITS"
  mkdir -p out
  { printf '#!/usr/bin/env bash\ntext=%q\n' "$(cat src/main.rt)"
    printf '%s\n' 'printf "%s\0" "$text" "$@"; [ -z "${SHOWS:-}" ] || printf "%s\0" "$GLIBC_TUNABLES" "$(ulimit -S -n)"; cat; exit 5'
  } >out/steno.new
  chmod +x out/steno.new && mv out/steno.new out/steno
  echo linked >>"$TOOLCHAIN_LOG"
  sleep "${TOOLCHAIN_LINGERS:-0}"
  [ "$*" = "run -- once " ] && exit 4
  exit 1
  ;;
esac
"""


class Repository:
    """A repository with a launcher, three crates that the program is built from, and another."""

    def __init__(self, folder):
        self.root = pathlib.Path(folder)
        self.log = self.root / "log"
        self.tools = self.root / "tools"
        self.command = self.tools / "rt"
        self.tools.mkdir(parents=True)
        shutil.copy(LAUNCHER, self.root / "steno")
        self.write("crates.txt", "low:\nhigh: low\nside: low # beside high\nother: low\nsteno: high side\n")
        for name in ("low", "high", "side", "other"):
            self.write(f"crates/{name}/src/lib.rt", f"library {name}")
            self.write(f"crates/{name}/specs/Lib.antt", f"specs of {name}")
        self.write("crates/steno/src/main.rt", "first")
        self.write("tools/rt", TOOLCHAIN)
        self.command.chmod(0o755)

    def write(self, path, text):
        file = self.root / path
        file.parent.mkdir(parents=True, exist_ok=True)
        file.write_text(text)

    def surroundings(self, **more):
        path = os.pathsep.join([str(self.tools), "/usr/bin", "/bin"])
        return {"PATH": path, "TOOLCHAIN_LOG": str(self.log), **more}

    def start(self, *arguments, stdin=b"", launcher=None, files=None, **more):
        """Starts the launcher; gives its output, messages and status, and what rt was asked for.

        `files` are the soft and the hard limit of open files, if they are given.
        """
        self.log.write_text("")
        limit = (lambda: resource.setrlimit(resource.RLIMIT_NOFILE, files)) if files else None
        done = subprocess.run([launcher or self.root / "steno", *arguments], input=stdin, capture_output=True,
                              env=self.surroundings(**more), timeout=SECONDS, preexec_fn=limit)
        return done.stdout, done.stderr, done.returncode, self.log.read_text().splitlines()


def ran(seen, text, arguments=(), stdin=b""):
    """The program of this text ran with these arguments and this input."""
    parts = [text.encode(), *arguments]
    return seen[0] == b"".join(part + b"\0" for part in parts) + stdin and seen[2] == 5


def built(seen, text):
    """All was proved, and the program of this text ran."""
    proved = [line for line in seen[3] if line.startswith("proved")]
    return ran(seen, text) and BUILDING in seen[1] and sorted(proved) == PROVED and "run -- once , in steno" in seen[3]


def started(seen, text):
    """The program of this text ran, nothing was built, and nothing was said."""
    return ran(seen, text) and seen[1] == b"" and not [line for line in seen[3] if not line.startswith("version")]


def refused(seen):
    """No program ran, and the launcher said so."""
    return seen[0] == b"" and seen[2] == NOT_BUILT and b"steno: the program was not built" in seen[1]


def starts(repository):
    seen = repository.start()
    yield "the first start builds", built(seen, "first"), seen
    seen = repository.start()
    yield "the second start asks nothing of the toolchain", started(seen, "first") and seen[3] == [], seen
    link = repository.root / "elsewhere" / "link"
    link.parent.mkdir()
    link.symlink_to(repository.root / "steno")
    seen = repository.start(launcher=link)
    yield "a start by a link from another folder", started(seen, "first"), seen


ARGUMENTS = [b"", b" ", b"two words", b" at both ends ", b"\t", b"line\nfeed", b"\xff\xfe", "\u00e9".encode(), b"-", b"--", b"-n",
             b"-e", b"--help", b"*", b"?", b"[a]", b"~", b"$HOME", b"$(echo no)", b"`echo no`", b"a;b", b"a&b", b"a|b", b">no",
             b"<no", b"#no", b"!!", b"\\", b"\\n", b"'", b'"', b"{a,b}", b"(a)", b"%s", b"=", b"x" * 100000]


def passes_arguments(repository):
    repository.start()
    for argument in ARGUMENTS:
        seen = repository.start(argument)
        yield f"the argument {argument[:20]!r}", ran(seen, "first", [argument]), seen
    seen = repository.start(*ARGUMENTS, stdin=bytes(range(256)))
    yield "all of them at once, and an input", ran(seen, "first", ARGUMENTS, bytes(range(256))), seen
    seen = repository.start(stdin=b"")
    yield "no argument", ran(seen, "first"), seen
    fresh = Repository(repository.root / "fresh")
    seen = fresh.start(*ARGUMENTS, stdin=bytes(range(256)))
    yield "all of them at the start that builds", ran(seen, "first", ARGUMENTS, bytes(range(256))), seen


def asks_for_memory(repository):
    repository.start()
    seen = repository.start(SHOWS="1")
    asked = seen[0].split(b"\0")[1]
    yield "memory in large pages", asked.startswith(b"glibc.malloc.hugetlb=1:") and asked.count(b"glibc.malloc.") == 4, seen
    seen = repository.start(SHOWS="1", GLIBC_TUNABLES="glibc.malloc.arena_max=1")
    yield "what the caller asks the C library for stays", seen[0].split(b"\0")[1] == b"glibc.malloc.arena_max=1", seen
    seen = repository.start(SHOWS="1", GLIBC_TUNABLES="")
    yield "a caller that asks it for nothing", seen[0].split(b"\0")[1] == b"", seen


def raises_the_limit_of_open_files(repository):
    repository.start()
    for soft, hard in ((64, 256), (256, 256)):
        seen = repository.start(SHOWS="1", files=(soft, hard))
        good = seen[0].split(b"\0")[2:3] == [b"256"] and seen[1:3] == (b"", 5)
        yield f"of {hard} open files, {soft} before", good, seen


def source(repository, line):
    """Runs a line of bash that may call the launcher's functions."""
    done = subprocess.run(["bash", "-c", f". ./steno; {line}"], cwd=repository.root, env=repository.surroundings(),
                          capture_output=True, timeout=SECONDS)
    return done.stdout, done.stderr


def takes_a_program_that_was_built(repository):
    """As the gate does, which proves and builds the program itself."""
    seen = source(repository, 'cd crates/steno && rt run')
    yield "sourcing the launcher runs nothing", seen == (b"", b""), seen
    seen = source(repository, 'keep_built "$(listing)"')
    yield "a built program is kept as such", seen == (b"", b""), seen
    seen = repository.start()
    yield "and starts", started(seen, "first") and seen[3] == [], seen
    repository.write("crates/steno/src/main.rt", "second")
    source(repository, 'listed=$(listing); printf third >crates/steno/src/main.rt; keep_built "$listed"')
    seen = repository.start()
    yield "but not over sources that changed since", built(seen, "third"), seen


def set_back(path):
    os.utime(path, (LONG_AGO, LONG_AGO))


def builds_by_content(repository):
    """Each change of a source is seen, whatever the file's time; a change of a time alone builds
    nothing."""
    source = repository.root / "crates/steno/src/main.rt"
    set_back(source)
    repository.start()
    for text, name in (("second source", "a longer source"), ("secund source", "a source of the same length")):
        source.write_text(text)
        set_back(source)
        seen = repository.start()
        yield f"{name}, its time long ago", built(seen, text), seen
        seen = repository.start()
        yield f"{name}, once it is built", started(seen, text), seen
    source.touch()
    seen = repository.start(stdin=b"input")
    asked = [line.split(",")[0] for line in seen[3]]
    good = ran(seen, "secund source", stdin=b"input") and seen[1] == b"" and asked == ["version"]
    yield "a source that was only touched is found the same, and the input is left", good, seen
    seen = repository.start()
    yield "and then nothing is asked any more", seen[3] == [], seen
    for path in ("crates/low/src/lib.rt", "crates/side/specs/Lib.antt", "crates/high/proofs/F/Proof.antt", "crates.txt"):
        file = repository.root / path
        repository.write(path, (file.read_text() if file.exists() else "") + "\n")
        set_back(file)
        seen = repository.start()
        yield f"a change of {path}, its time long ago", built(seen, "secund source"), seen
    (repository.root / "crates/high/proofs/F/Proof.antt").rename(repository.root / "crates/high/proofs/F/Other.antt")
    seen = repository.start()
    yield "another name", built(seen, "secund source"), seen
    (repository.root / "crates/high/proofs/F/Other.antt").unlink()
    seen = repository.start()
    yield "a file less", built(seen, "secund source"), seen
    repository.write("crates/other/src/lib.rt", "another text")
    repository.write("crates/low/must-fail/a.edit", "file: src/lib.rt")
    repository.write("README.md", "read me")
    seen = repository.start()
    yield "files that the program is not built from", started(seen, "secund source") and seen[3] == [], seen


def builds_by_toolchain(repository):
    repository.start()
    repository.write("tools/rt", TOOLCHAIN + "# nothing else\n")
    seen = repository.start()
    yield "the same toolchain in another file", started(seen, "first"), seen
    repository.write("tools/rt", TOOLCHAIN.replace("first edition", "second edition"))
    seen = repository.start()
    yield "another toolchain", built(seen, "first"), seen
    repository.command.rename(repository.tools / "gone")
    seen = repository.start()
    yield "no toolchain, and nothing changed", started(seen, "first"), seen
    repository.write("crates/steno/src/main.rt", "second")
    seen = repository.start()
    lacks = b"steno: the command rt of the Rattle toolchain is not on the PATH\n"
    yield "no toolchain, and a change", seen[:3] == (b"", lacks, NOT_BUILT), seen


def refuses_what_is_not_proved(repository):
    for path in ("crates/steno/src/main.rt", "crates/low/src/lib.rt"):
        repository.write("crates/steno/src/main.rt", "first")
        repository.start()
        was = (repository.root / path).read_text()
        repository.write(path, "wrong")
        for start in ("first", "second"):
            seen = repository.start()
            yield f"{path} is not proved, {start} start", refused(seen) and b"not proved" in seen[1], seen
        repository.write(path, was)
        seen = repository.start()
        yield f"{path} is mended", built(seen, "first"), seen


def builds_again_after_a_break(repository):
    """Where a build was killed or its sources changed meanwhile, no program is taken for theirs."""
    repository.start()
    for until, how in (("all check", {"TOOLCHAIN_SLEEPS": "30"}), ("linked", {"TOOLCHAIN_LINGERS": "30"})):
        repository.write("crates/steno/src/main.rt", "second")
        repository.log.write_text("")
        child = subprocess.Popen([repository.root / "steno"], stdin=subprocess.DEVNULL, stdout=subprocess.DEVNULL,
                                 stderr=subprocess.DEVNULL, env=repository.surroundings(**how), start_new_session=True)
        wait_for(lambda: until in repository.log.read_text())
        os.killpg(child.pid, signal.SIGKILL)
        child.wait(SECONDS)
        repository.write("crates/steno/src/main.rt", "first")
        seen = repository.start()
        yield f"a build that was killed at '{until}'", built(seen, "first"), seen
    repository.write("crates/steno/src/main.rt", "third")
    seen = repository.start(TOOLCHAIN_EDITS=str(repository.root / "crates/steno/src/main.rt"))
    yield "a source that changes while it is built", built(seen, "third"), seen
    seen = repository.start()
    yield "is built again at the next start", built(seen, "edited"), seen


def wait_for(holds):
    end = time.monotonic() + SECONDS
    while not holds() and time.monotonic() < end:
        time.sleep(0.01)


def proves_side_by_side(repository):
    seen = repository.start()
    asked = [re.fullmatch(r"all check --jobs (\d+), in crates", line) for line in seen[3]]
    jobs = [int(line[1]) for line in asked if line]
    good = len(jobs) == 1 and 1 <= jobs[0] <= len(os.sched_getaffinity(0))
    yield "all crates at once, as many side by side as there are processors at most", good, seen
    repository.write("crates.txt", "low:\nhigh: low\nside: low\nother: low\nsteno: high # and no more\n")
    seen = repository.start()
    good = ran(seen, "first") and "proved high" in seen[3] and "proved side" not in seen[3]
    yield "a crate that the program does not use any more", good, seen
    repository.write("crates/high/specs/More.antt", "wrong")
    (repository.root / "crates/high/src/lib.rt").rename(repository.root / "crates/high/src/other.rt")
    repository.start()
    alone = repository.root / "crates/steno/out/alone/crates/high"
    there = sorted(str(file.relative_to(alone)) for file in alone.rglob("*") if file.is_file())
    yield "no file that is gone", there == ["specs/Lib.antt", "specs/More.antt", "src/other.rt"], there


def leaves_no_list(repository):
    """The gate refuses a repository in which a second crates.txt stands."""
    listed = repository.root / "crates/steno/out/alone/crates.txt"
    repository.start()
    yield "no second list of crates after a build", not listed.exists() and listed.parent.is_dir(), listed
    repository.write("crates/low/src/lib.rt", "wrong")
    repository.start()
    yield "and none after a refusal", not listed.exists(), listed
    repository.log.write_text("")
    child = subprocess.Popen([repository.root / "steno"], stdin=subprocess.DEVNULL, stdout=subprocess.DEVNULL,
                             stderr=subprocess.DEVNULL, env=repository.surroundings(TOOLCHAIN_SLEEPS="1"), start_new_session=True)
    wait_for(lambda: "all check" in repository.log.read_text())
    there = listed.exists()
    os.killpg(child.pid, signal.SIGINT)
    child.wait(SECONDS)
    yield "and none after an interrupt", there and not listed.exists(), (there, listed)


def on_terminal(repository, **more):
    """What the launcher says if standard error is a terminal."""
    ours, theirs = pty.openpty()
    child = subprocess.Popen([repository.root / "steno"], stdin=subprocess.DEVNULL, stdout=subprocess.DEVNULL, stderr=theirs,
                             env=repository.surroundings(**more))
    os.close(theirs)
    said = b""
    while True:
        try:
            said += os.read(ours, 4096)
        except OSError:
            break
    os.close(ours)
    return said, child.wait(SECONDS)


def says_how_far_it_is(repository):
    said, status = on_terminal(repository, TOOLCHAIN_SLEEPS="0.8")
    good = re.search(rb"\rsteno: [1-3] of 4 crates proved, 0:0[0-9] minutes so far ", said)
    yield "on a terminal the launcher says how far it is", bool(good) and status == 5, (said, status)
    said, status = on_terminal(repository)
    yield "and nothing if nothing is built", (said, status) == (b"", 5), (said, status)
    repository.write("crates/steno/src/main.rt", "wrong")
    said, status = on_terminal(repository)
    yield "and why nothing was built", b"not proved" in said and status == NOT_BUILT, (said, status)
    repository.write("crates/steno/src/main.rt", "second")
    seen = repository.start(TOOLCHAIN_SLEEPS="0.6")
    yield "elsewhere it says once that it builds", built(seen, "second") and seen[1].count(b"\n") == 1 and b"\r" not in seen[1], seen


GROUPS = [starts, passes_arguments, asks_for_memory, raises_the_limit_of_open_files,
          takes_a_program_that_was_built, builds_by_content, builds_by_toolchain,
          refuses_what_is_not_proved, builds_again_after_a_break, proves_side_by_side, leaves_no_list,
          says_how_far_it_is]


def main():
    with tempfile.TemporaryDirectory() as folder:
        return report(case for group in GROUPS for case in group(Repository(os.path.join(folder, group.__name__))))


if __name__ == "__main__":
    sys.exit(main())
