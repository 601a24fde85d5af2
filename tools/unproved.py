"""Unproved builds of a program, kept between runs: `program(NAME)` is the path of one, made where there is none of these sources.

`rt try` compiles the sources with checks, runs the program once, and keeps nothing. The program lies in its folder of temporary files until
it has ended, and is taken from there. It is kept in ~/.cache/heddleorange/unproved, under the sum of all sources that it was made of and of
the kit. A kit that lays it elsewhere leaves nothing to take: then `program` answers None, and a tool calls `rt try` itself."""

import hashlib
import os
import pathlib
import subprocess
import sys
import tempfile
import time

sys.dont_write_bytecode = True
import crate_list
from crate_list import ROOT

KEPT = pathlib.Path.home() / ".cache" / "heddleorange" / "unproved"
# How many builds of one program are kept, the newest.
MOST = 3
# A scenario that is soon over, and what the program prints of it. Programs of other crates are run on nothing.
FIRST = {"mailrun": b"workers = 0\n", "mailtrace": b"workers = 0\n"}
MAGIC = b"\x7fELF"
# How often the folder is looked at, in seconds.
PAUSE = 0.02


def path_of(name):
    """Where the build of these sources is kept."""
    sum_of_all = hashlib.sha256(f"{crate_list.sum_of(name)} {crate_list.kit()}".encode()).hexdigest()
    return KEPT / f"{name}-{sum_of_all[:16]}"


def is_program(path):
    """Whether it is a file that can be run."""
    try:
        with open(path, "rb") as file:
            return bool(os.stat(path).st_mode & 0o100) and file.read(len(MAGIC)) == MAGIC
    except OSError:
        return False


def programs_in(folder):
    return [path for root, _, names in os.walk(folder) for name in names if is_program(path := os.path.join(root, name))]


def take(trying, folder, goal):
    """Takes the program from the folder while `rt try` runs it, under the name `goal`."""
    while trying.poll() is None:
        for path in programs_in(folder):
            try:
                if not goal.exists() or not os.path.samefile(path, goal):
                    goal.unlink(missing_ok=True)
                    os.link(path, goal)
            except OSError:
                continue
        time.sleep(PAUSE)


def answers_alike(made, text, wanted):
    """Whether the program that was taken ends as it did below `rt try`."""
    found = subprocess.run([made], input=text, capture_output=True, timeout=600)
    return (found.returncode, found.stdout) == wanted


def make(name, goal):
    """Builds the program; whether it could be taken."""
    KEPT.mkdir(parents=True, exist_ok=True)
    text = FIRST.get(name, b"")
    with tempfile.TemporaryDirectory(prefix="making-", dir=KEPT) as room, tempfile.TemporaryFile() as given:
        given.write(text)
        given.seek(0)
        made = pathlib.Path(room) / "program"
        how = {"cwd": ROOT / "crates" / name, "stdin": given, "stdout": subprocess.PIPE, "stderr": subprocess.PIPE, "env": {**os.environ, "TMPDIR": room}}
        with subprocess.Popen(["rt", "try"], **how) as trying:
            take(trying, room, made)
            output, said = trying.communicate()
        if not made.exists() or not answers_alike(made, text, (trying.returncode, output)):
            sys.stderr.buffer.write(said)
            return False
        os.replace(made, goal)
    for old in sorted(KEPT.glob(f"{name}-*"), key=os.path.getmtime)[:-MOST]:
        old.unlink(missing_ok=True)
    return True


def program(name, tell=lambda: None):
    """The path of an unproved build of these sources. `tell` is called before one is made."""
    goal = path_of(name)
    if not goal.exists():
        tell()
        if not make(name, goal):
            return None
    return goal
