"""The proved libraries of this machine, in ~/.cache/heddleorange/libraries: each as its statements, over those of the libraries below
as they are kept, under the sum of all sources that it was made of and of the kit. Every repository with the same sources takes it from there. Its files have a name in each place (hard links),
so they are on the disk once. What nobody took for a month goes. tools/embed hands this over to other repositories."""

import contextlib
import fcntl
import os
import pathlib
import secrets
import shutil
import tempfile
import time

import crate_list

KEPT = pathlib.Path.home() / ".cache" / "heddleorange" / "libraries"
# What is kept of a library, and the file with its number.
FORM, NUMBER = "statements", "number"
# After how many seconds what nobody took goes.
MONTH = 30 * 24 * 60 * 60


def kept(name):
    """Where the proved library of these sources is kept."""
    return KEPT / f"{name}-{crate_list.sum_of(name, f'{crate_list.kit()} {FORM}')[:24]}"


def is_kept(name):
    return kept(name).is_dir()


def link(file, new):
    """The same file under another name, or a copy where the disk is another."""
    try:
        os.link(file, new)
    except OSError:
        shutil.copy2(file, new)


def place(tree, goal):
    """Puts the same files at another place, all at once."""
    goal.parent.mkdir(parents=True, exist_ok=True)
    with tempfile.TemporaryDirectory(prefix="placing-", dir=goal.parent) as room:
        new = pathlib.Path(room) / goal.name
        shutil.copytree(tree, new, copy_function=link)
        shutil.rmtree(goal, ignore_errors=True)
        new.rename(goal)


def keep(name, rlib):
    """Keeps a library that is proved, under a number of its own: the kit may build another one of the same sources beside it."""
    (rlib / NUMBER).write_text(secrets.token_hex(16))
    place(rlib, kept(name))


def number(rlib):
    return (rlib / NUMBER).read_text() if (rlib / NUMBER).exists() else None


def hand_over(name, crates):
    """Puts a library that is kept into a folder of crates, unless it is there."""
    goal = crates / name / "out" / "rlib"
    os.utime(kept(name))
    if number(goal) != number(kept(name)):
        place(kept(name), goal)


def offer(name, crates):
    """Hands a library over, unless another command works in the crate's folder: the kit's commands lock it."""
    folder = os.open(crates / name, os.O_RDONLY)
    with contextlib.suppress(BlockingIOError):
        fcntl.flock(folder, fcntl.LOCK_EX | fcntl.LOCK_NB)
        hand_over(name, crates)
    os.close(folder)


def forget_old():
    """Removes what nobody took for a month."""
    for old in KEPT.iterdir():
        with contextlib.suppress(OSError):
            if time.time() - old.stat().st_mtime > MONTH:
                shutil.rmtree(old) if old.is_dir() else old.unlink()


@contextlib.contextmanager
def alone(name):
    """Waits until no other run on this machine works on a crate of these sources."""
    file = KEPT / f"{kept(name).name}.lock"
    with open(file, "w") as lock:
        fcntl.flock(lock, fcntl.LOCK_EX)
        yield
        file.unlink(missing_ok=True)
