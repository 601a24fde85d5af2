"""Proves crates with all that they stand on, each as `rt ci` does (gate_steps.py), or by the kit's public commands. tools/prove calls it, and so does ./prove in a repository to
which tools/embed handed this over.

Each crate is proved in a folder of its own, with the libraries below it as they are kept (proved_libraries.py): so no other command meets it, and
crates that do not need each other are proved side by side, each as soon as those that it needs are there, the longest chain first, a large one
with more jobs where processors would be idle. A library is kept, and handed over to crates/NAME/out/rlib, where `rt check` takes it; a program
and tests come to crates/NAME/out. A run that is cut off goes on where it was."""

import concurrent.futures
import contextlib
import os
import pathlib
import shutil
import signal
import subprocess
import sys
import tempfile

import crate_list
import proved_libraries
from crate_list import PARTS, ROOT
from gate_steps import OTHER_KIT, WRONG_RUN
from proof_progress import Progress, say

# How many characters are shown of what the kit says of a crate that is not proved.
SHOWN = 6000
# For how many lines a crate has one job more: each job reads all libraries below once more, which a small crate is not worth.
LINES = 3000
# What proves one crate.
STEPS = pathlib.Path(__file__).with_name("gate_steps.py")
# What a run of a program has to print and to end with, and what it is given, lies beside its sources.
BESIDE = ("stdin", "stdout", "args", "status")
# The groups of processes of the kit's commands that are running, and the folders in which they work.
RUNNING, ROOMS = set(), set()


def left_to_do(name):
    """The commands of the kit that prove the crate, without those of which all is there that they make."""
    return [way for way in crate_list.ways(name) if not (proved_libraries.is_kept(name) if way == "lib" else crate_list.is_proved(name, way))]


def lay_out(name, room):
    """Lays out the crate with what it stands on: its sources, and the libraries below it as they are kept."""
    names = crate_list.with_needs(name)
    (room / "crates.txt").write_text("".join(f"{crate_list.rows()[one]}\n" for one in names))
    for one in names:
        for part in PARTS:
            if (ROOT / "crates" / one / part).is_dir():
                shutil.copytree(ROOT / "crates" / one / part, room / "crates" / one / part)
        if one != name:
            proved_libraries.hand_over(one, room / "crates")
    for file in BESIDE:
        if (ROOT / "crates" / name / file).exists():
            shutil.copyfile(ROOT / "crates" / name / file, room / "crates" / name / file)
    if (ROOT / "crates" / name / "data").is_dir():
        shutil.copytree(ROOT / "crates" / name / "data", room / "crates" / name / "data")
    if (ROOT / "HANDLES").exists():
        shutil.copyfile(ROOT / "HANDLES", room / "HANDLES")


def ended(words, folder, given):
    """Runs a command of the kit, and answers its status, what it printed, and what it said on standard error."""
    how = {"cwd": folder, "stdin": subprocess.PIPE, "stdout": subprocess.PIPE, "stderr": subprocess.PIPE, "start_new_session": True}
    with subprocess.Popen(words, **how) as run:
        RUNNING.add(run.pid)
        printed, said = run.communicate(given)
        RUNNING.discard(run.pid)
    return run.returncode, printed, said.decode(errors="replace")


def not_proved(name, said):
    """What is said of a crate that is not proved; all that the kit said is put into its folder."""
    log = ROOT / "crates" / name / "out" / "prove.log"
    log.parent.mkdir(parents=True, exist_ok=True)
    log.write_text(said)
    return f"{name} is NOT PROVED\n{said[-SHOWN:]}(all that was said is in {log.relative_to(ROOT)})"


def take(name, files, room):
    """Takes what the kit built over into the crate's folder."""
    out = ROOT / "crates" / name / "out"
    out.mkdir(parents=True, exist_ok=True)
    for file in files:
        shutil.copy2(room / "crates" / name / "out" / file, out / f"{file}.new")
        os.replace(out / f"{file}.new", out / file)


def made_of(name, way):
    """What is taken of that which the kit builds of a program, or of tests."""
    return f"{name}_tests" if way == "test" else name


def text_beside(folder, file):
    return (folder / file).read_bytes() if (folder / file).exists() else b""


def by_commands(name, way, room, jobs):
    """What gate_steps.py does, by the public commands of a kit whose `rt` has another form: its status, and what was said. The libraries have
    their proofs then, which the crates above read."""
    folder, program = room / "crates" / name, way == "run"
    if program and (folder / "data").is_dir():
        shutil.copytree(folder / "data", folder, dirs_exist_ok=True)
    arguments = text_beside(folder, "args").decode().splitlines() if program else []
    words = ["rt", way, "--jobs", str(jobs), *(["--", *arguments] if arguments else [])]
    status, printed, said = ended(words, folder, text_beside(folder, "stdin") if program else b"")
    said = printed.decode(errors="replace") + said
    if not program or not (folder / "out" / f"{name}.stamp").exists():
        return status, said
    wanted = int(text_beside(folder, "status") or 0), text_beside(folder, "stdout")
    return 0 if (status, printed) == wanted else WRONG_RUN, said


def prove_one(name, way, room, jobs):
    """Why the library, the program or the tests are not proved, or do not run as they should, if that is so."""
    status, printed, said = ended([sys.executable, str(STEPS), way, name, str(jobs)], room, b"")
    said = printed.decode(errors="replace") + said
    if status == OTHER_KIT:
        status, said = by_commands(name, way, room, jobs)
    if status == WRONG_RUN:
        return f"{name} is proved, but it does not run as it should\n{said[-SHOWN:]}"
    if status:
        return not_proved(name, said)
    if way == "lib":
        proved_libraries.keep(name, room / "crates" / name / "out" / "rlib")
    else:
        take(name, [made_of(name, way)], room)
        crate_list.note_proved(name, way)
    return ""


@contextlib.contextmanager
def room_for(name):
    """A folder in which the crate is laid out."""
    with tempfile.TemporaryDirectory(prefix=f"proving-{name}-", dir=proved_libraries.KEPT) as folder:
        ROOMS.add(folder)
        lay_out(name, pathlib.Path(folder))
        yield pathlib.Path(folder)
        ROOMS.discard(folder)


def prove_crate(name, jobs):
    """Proves a crate, if it is not proved yet: whether it was proved now, and why it is not proved, if that is so."""
    with proved_libraries.alone(name):
        if left := left_to_do(name):
            with room_for(name) as room:
                if crate_list.sum_of(name, crate_list.kit(), room) != crate_list.sum_of(name, crate_list.kit()):
                    return True, f"{name} is NOT PROVED: its sources changed meanwhile; run it again"
                for way in left:
                    if why := prove_one(name, way, room, jobs):
                        return True, why
        if "lib" in crate_list.ways(name):
            proved_libraries.offer(name, ROOT / "crates")
    return bool(left), ""


def with_jobs(ready, idle):
    """Which of these crates start, and with how many jobs: each with one, and a large one with those that no other can use, the first before the
    others."""
    for at, name in enumerate(ready):
        jobs = min(-(-idle // (len(ready) - at)), 1 + crate_list.lines_of(name) // LINES)
        if idle >= jobs > 0:
            idle -= jobs
            yield name, jobs


def prove_all(names, at_once):
    """Proves these crates, each as soon as those that it needs are there. It answers those that are not proved."""
    progress, running, bad = Progress(names, at_once), {}, set()
    with concurrent.futures.ThreadPoolExecutor(at_once) as pool:
        while progress.left or running:
            progress.left = [name for name in progress.left if not bad.intersection(crate_list.with_needs(name))]
            ready = crate_list.next_ones(progress.left, progress.begun, progress.chains)
            idle = at_once - sum(jobs for _, jobs in running.values())
            for name, jobs in with_jobs(ready, idle):
                progress.begin(name)
                running[pool.submit(prove_crate, name, jobs)] = name, jobs
            for done in concurrent.futures.wait(running, 1, concurrent.futures.FIRST_COMPLETED).done:
                name, _ = running.pop(done)
                is_new, why = done.result()
                bad |= {name} if why else set()
                progress.end(name, is_new, why)
            progress.tell()
    return bad


def cut_off(number, _):
    """Ends all that is running, with what it started. What was proved stays kept."""
    for group in [*RUNNING]:
        with contextlib.suppress(ProcessLookupError):
            os.killpg(group, signal.SIGTERM)
    for room in [*ROOMS]:
        shutil.rmtree(room, ignore_errors=True)
    say("cut off: what was proved is kept, and the next run goes on there")
    os._exit(128 + number)


def prove(tops, at_once):
    """Proves these crates with all that they stand on, and answers the status to end with."""
    if unknown := [top for top in tops if top not in crate_list.rows()]:
        say(f"crates.txt has no crate {', '.join(unknown)}")
        return 2
    if not shutil.which("rt"):
        say("the command rt is not on the path: it comes with Rattle's kit")
        return 2
    for number in (signal.SIGINT, signal.SIGTERM, signal.SIGHUP):
        signal.signal(number, cut_off)
    proved_libraries.KEPT.mkdir(parents=True, exist_ok=True)
    proved_libraries.forget_old()
    new = [top for top in tops if not crate_list.is_program(top) or left_to_do(top)]
    names = list(dict.fromkeys(name for top in new for name in crate_list.with_needs(top)))
    if before := sum(not left_to_do(name) for name in names):
        say(f"{before} of {len(names)} crates were proved before")
    if bad := prove_all(names, max(at_once, 1)):
        say(f"not proved: {', '.join(sorted(bad))}, and what stands on that")
        return 1
    say(f"{', '.join(tops)}: all is proved")
    return 0
