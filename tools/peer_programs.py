"""The peers of peers/: what each needs, by the names of Debian's packages, how it is built, and how it runs a workload."""

import pathlib
import re
import shutil
import subprocess
import typing

from crate_list import ROOT
from workloads import THROUGHPUT, WORKERS, process

FOLDER = ROOT / "peers"
# What is built goes here, and Git leaves it out.
OUT = FOLDER / "out"
# Where Debian's packages put the sources of crates.
CRATES = pathlib.Path("/usr/share/cargo/registry")
CARGO = ["cargo", "build", "--release", "--offline", "--quiet", "--config", 'source.crates-io.replace-with="debian"']
CXX = ["g++", "-O3", "-DNDEBUG", "-std=c++17", "-Wno-deprecated-declarations"]
# A run is cut off after so many seconds.
MOST_SECONDS = 120
SETTINGS = [str(WORKERS), str(THROUGHPUT)]


class Language(typing.NamedTuple):
    """What the peers in a language need: for each package a command or a file of it. What builds them, step by step, and the last thing
    that is made. What prints the version that is here, and a pattern in that."""

    name: str
    sources: pathlib.Path
    packages: dict
    steps: list
    made: pathlib.Path
    version: tuple

    def missing_packages(self):
        return [package for package, shown_by in self.packages.items() if not is_there(shown_by)]

    def is_built(self):
        files = [file.stat().st_mtime for file in self.sources.rglob("*") if file.is_file()]
        return self.made.exists() and self.made.stat().st_mtime >= max(files)

    def build(self):
        OUT.mkdir(exist_ok=True)
        for step in [] if self.is_built() else self.steps:
            subprocess.run(step, check=True)

    def with_version(self):
        command, pattern = self.version
        told = subprocess.run(command, stdout=subprocess.PIPE, stderr=subprocess.STDOUT, text=True, check=True).stdout
        return f"{self.name} {re.search(pattern, told)[1]}"


class Peer(typing.NamedTuple):
    """A peer by its name in the table; the command that runs a workload, with WORKLOAD for its name; which pool of ours stands beside it,
    the faster one if none is named; the workload that it lacks, if it lacks one; which journals of ours stand beside it: a peer that
    keeps a journal stands beside kept ones, another beside counted ones; and whether it is timed as ours is: the whole process, less one
    in which each send is made once. Another one tells the seconds of its run."""

    name: str
    language: Language
    words: list
    pool: str | None = None
    lacks: str | None = None
    journal: str = "counted"
    is_timed_as_ours: bool = False

    def seconds(self, workload, messages, once):
        """The seconds of a run. It has to have handled so many messages. With `once` each send is made once."""
        words = [word.replace("WORKLOAD", workload) for word in self.words] + ["once"] * once
        try:
            ran = process("", *words, most_seconds=MOST_SECONDS)
        except subprocess.TimeoutExpired:
            raise SystemExit(f"{self.name}, {workload}: not at its end after {MOST_SECONDS} seconds, so there is no table. Run it again.") from None
        told = re.fullmatch(r"(\d+\.\d+) (\d+)\n", ran.printed)
        if not told or not once and int(told[2]) != messages:
            raise SystemExit(f"{self.name}, {workload}: it printed\n{ran.printed}")
        return ran.seconds if self.is_timed_as_ours else float(told[1])


def is_there(shown_by):
    """Whether a command is on the path, or a file that fits is there."""
    path = pathlib.Path(shown_by)
    return any(path.parent.glob(path.name)) if path.is_absolute() else shutil.which(shown_by) is not None


def made_by_cargo():
    """The steps that build the Rust peers: of a copy, since cargo writes beside the sources, and without network."""
    beside = ["--manifest-path", OUT / "rust/Cargo.toml", "--target-dir", OUT / "rust/target"]
    return [["cp", "-R", FOLDER / "rust", OUT], [*CARGO, "--config", f'source.debian.directory="{CRATES}"', *beside]]


CRATES_NEEDED = {f"librust-crossbeam-{part}-dev": f"{CRATES}/crossbeam-{part}-*" for part in ("queue", "deque", "utils")}
RUST = Language(
    "Rust",
    FOLDER / "rust",
    {"cargo": "cargo", **CRATES_NEEDED},
    made_by_cargo(),
    OUT / "rust/target/release/rust_peer",
    (["rustc", "--version"], r"rustc (\S+)"),
)
ERLANG = Language(
    "Erlang/OTP",
    FOLDER / "erlang",
    {"erlang-base": "erlc"},
    [["erlc", "-o", OUT, FOLDER / "erlang/erlang_peer.erl"]],
    OUT / "erlang_peer.beam",
    (["erl", "-noshell", "-eval", "io:put_chars(erlang:system_info(otp_release)), halt()."], r"(\d+)"),
)
CAF = Language(
    "CAF",
    FOLDER / "caf",
    {"g++": "g++", "libcaf-dev": "/usr/include/caf/all.hpp"},
    [[*CXX, "-o", OUT / "caf_peer", FOLDER / "caf/caf_peer.cpp", "-lcaf_core", "-lpthread"]],
    OUT / "caf_peer",
    (["dpkg-query", "--show", "libcaf-dev"], r"(\d+\.\d+\.\d+)"),
)
JAVA = Language(
    "OpenJDK",
    FOLDER / "java",
    {"openjdk-17-jdk-headless": "javac"},
    [["javac", "-d", OUT / "java", FOLDER / "java/AkkaStandIn.java", FOLDER / "java/JavaPeer.java"]],
    OUT / "java/JavaPeer.class",
    (["java", "-version"], r'version "([^"]+)"'),
)
LANGUAGES = (RUST, ERLANG, CAF, JAVA)
SCHEDULERS = f"{WORKERS}:{WORKERS}"
ERL = ["env", "ERL_CRASH_DUMP_BYTES=0", "erl", "+S", SCHEDULERS, "-noinput", "-boot", "start_clean", "-pa", str(OUT), "-run", "erlang_peer", "main", "WORKLOAD"]
JVM = ["java", "-Xms1g", "-Xmx4g", "-XX:+UseParallelGC", "-cp", str(OUT / "java"), "JavaPeer", "WORKLOAD", *SETTINGS]


def rust(steps, pool, journal):
    words = [str(RUST.made), steps.lower(), pool, "WORKLOAD", *SETTINGS]
    return Peer(f"{steps} Rust, {pool}", RUST, words, pool, journal=journal, is_timed_as_ours=True)


PEERS = (
    rust("Plain", "shared", "kept"),
    rust("Plain", "stealing", "kept"),
    rust("Lean", "shared", "counted"),
    rust("Lean", "stealing", "counted"),
    Peer("Erlang", ERLANG, ERL),
    Peer("CAF", CAF, [str(CAF.made), "WORKLOAD", *SETTINGS], lacks="restart"),
    Peer("Stand-in, cold", JAVA, [*JVM, "1"]),
    Peer("Stand-in, warm", JAVA, [*JVM, "5"]),
)
