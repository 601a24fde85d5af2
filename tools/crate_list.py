"""The crates of a repository as the tools need them: what each stands on (crates.txt), as what it is proved, what that costs
(crate_costs), and whether the program or the tests that stand here are proved. Of these a note stands beside each: the sum of all
sources that it was made of, and the kit. tools/embed hands this over to other repositories."""

import functools
import hashlib
import os
import pathlib
import re
import subprocess

ROOT = pathlib.Path(__file__).resolve().parent.parent
PARTS = ("src", "specs", "proofs")
# The most memory that one prover was seen to hold, in bytes.
MEMORY = 2_500_000_000


@functools.cache
def rows():
    """The lines of crates.txt by the crate that they name."""
    lines = [line.partition("#")[0].strip() for line in (ROOT / "crates.txt").read_text().splitlines()]
    return {re.match(r"\w+", line)[0]: line for line in lines if line}


def needs(name):
    """The crates of this repository that the crate names."""
    return [need for need in rows()[name].partition(":")[2].split() if need in rows()]


@functools.cache
def with_needs(name):
    """The crate behind all that it stands on, each behind those that it needs."""
    found = [low for need in needs(name) for low in with_needs(need)]
    return list(dict.fromkeys([*found, name]))


def sources(name, root=ROOT):
    """The files that a proof of the crate reads."""
    found = (file for part in PARTS for file in (root / "crates" / name / part).rglob("*"))
    return sorted(file for file in found if file.is_file())


def is_program(name):
    return (ROOT / "crates" / name / "src" / "main.rt").exists()


@functools.cache
def ways(name):
    """As what the crate is proved: as a program (run) or a library (lib), and what has tests with them too (test)."""
    has_tests = any(b"#[test]" in file.read_bytes() for file in sources(name) if file.suffix == ".rt")
    return ["run" if is_program(name) else "lib", *["test"] * has_tests]


def lines_of(name):
    return sum(file.read_bytes().count(b"\n") for file in sources(name))


def costs(names):
    """What the proof of each of these costs, in seconds of one processor: by the table, or else by its lines and the libraries that it reads."""
    table = [line.split() for line in pathlib.Path(__file__).with_name("crate_costs").read_text().splitlines() if line and line[0] != "#"]
    table = {name: float(seconds) for name, seconds in table}
    return {name: table.get(name) or 20 + lines_of(name) / 25 + 4 * len(with_needs(name)) for name in names}


def chains(names, costs):
    """What each costs with the dearest chain of those above it."""
    found = {}
    for name in reversed(names):
        found[name] = costs[name] + max([found[other] for other in found if name in needs(other)], default=0)
    return found


def next_ones(left, begun, chains):
    """Those of `left` that can start, as what they need is neither left nor begun; the longest chain first."""
    waits = {*left, *begun}
    return sorted((name for name in left if not waits.intersection(needs(name))), key=lambda name: -chains[name])


def seconds_for(left, begun, costs, chains, at_once):
    """How long it takes to prove these, so many at once; `begun` has what is left of those that are being proved."""
    left, ends, now = [*left], dict(begun), 0
    while left or ends:
        for name in next_ones(left, ends, chains)[: max(at_once - len(ends), 0)]:
            left.remove(name)
            ends[name] = now + costs[name]
        first = min(ends, key=ends.get)
        now = max(now, ends.pop(first))
    return now


def number_in(file, pattern):
    try:
        return int(re.search(pattern, pathlib.Path(file).read_text())[1])
    except (OSError, TypeError):
        return None


def processors():
    """How many processors there are to use."""
    quota, period = (number_in("/sys/fs/cgroup/cpu.max", pattern) for pattern in (r"^(\d+)", r" (\d+)"))
    found = len(os.sched_getaffinity(0))
    return max(min(found, quota // period), 1) if quota and period else found


def most_at_once():
    """How many provers the processors and the free memory hold."""
    free = 1024 * (number_in("/proc/meminfo", r"MemAvailable:\s+(\d+)") or MEMORY // 1024)
    limit, held = number_in("/sys/fs/cgroup/memory.max", r"(\d+)"), number_in("/sys/fs/cgroup/memory.stat", r"anon (\d+)")
    free = min(free, limit - held) if limit and held is not None else free
    return max(min(processors(), free // MEMORY), 1)


@functools.cache
def sum_of(name, beside="", root=ROOT):
    """The sum of all sources of the crate and of those that it stands on, by their names and texts, and of a text beside them."""
    below = (sum_of(need, beside, root) for need in needs(name))
    total = hashlib.sha256(repr((rows()[name], beside, *below)).encode())
    for file in sources(name, root):
        text = file.read_bytes()
        total.update(f"{file.relative_to(root)} {len(text)}\n".encode() + text)
    return total.hexdigest()


@functools.cache
def kit():
    return subprocess.run(["rt", "version"], stdout=subprocess.PIPE, text=True, check=True).stdout.strip()


def made_of(name, way="run", root=ROOT):
    """The file that is built of it: the program, or the tests."""
    return root / "crates" / name / "out" / (name if way == "run" else f"{name}_tests")


def note_of(made):
    return made.with_name(f"{made.name}.proved")


def note_proved(name, way="run", root=ROOT):
    """Notes that what stands here was proved, of the sources as they are."""
    made = made_of(name, way, root)
    note_of(made).write_text(f"{sum_of(name)}\n{hashlib.sha256(made.read_bytes()).hexdigest()}\n{kit()}\n")


def is_proved(name, way="run", root=ROOT, by_this_kit=True):
    """Whether its note says that what stands here was proved of the sources as they are."""
    made = made_of(name, way, root)
    try:
        sources, result, version = note_of(made).read_text().splitlines()
        is_same = result == hashlib.sha256(made.read_bytes()).hexdigest()
        return is_same and sources == sum_of(name) and (not by_this_kit or version == kit())
    except (OSError, ValueError):
        return False
