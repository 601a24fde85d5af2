"""The scenarios of this repository: each NAME.toml in examples/ and in the folders of scenarios/, with what becomes of it in
NAME.expected. That is the report, where the run ends well: the status is 0 and nothing is on standard error. Elsewhere it is the line
`status N` and then the line on standard error, and nothing is on standard output. NAME.turns, where it is there, has the turns of the
run, as quiet_run.py tells them."""

import pathlib
import typing

ROOT = pathlib.Path(__file__).resolve().parent.parent
STATUS = b"status "


class Outcome(typing.NamedTuple):
    """What a run ends with."""

    status: int
    output: bytes
    error: bytes

    def __str__(self):
        return f"status {self.status}\n{(self.output + self.error).decode(errors='replace')}"


class Scenario(typing.NamedTuple):
    """A scenario, the folder that it stands in, its text and what becomes of it."""

    folder: str
    name: str
    text: bytes
    wanted: Outcome
    turns: str | None


def outcome_in(expected):
    """What the text of a NAME.expected says."""
    if not expected.startswith(STATUS):
        return Outcome(0, expected, b"")
    first, _, line = expected.partition(b"\n")
    return Outcome(int(first.removeprefix(STATUS)), b"", line)


def scenario_in(file):
    """The scenario of a NAME.toml. It has to have its NAME.expected."""
    expected, turns = file.with_suffix(".expected"), file.with_suffix(".turns")
    if not expected.exists():
        raise SystemExit(f"{file.relative_to(ROOT)}: no {expected.name} stands beside it")
    told = turns.read_text().strip() if turns.exists() else None
    return Scenario(file.parent.name, file.stem, file.read_bytes(), outcome_in(expected.read_bytes()), told)


def folders():
    """The folders with scenarios, by their names."""
    return {folder.name: folder for folder in [ROOT / "examples", *sorted((ROOT / "scenarios").glob("*/"))] if folder.is_dir()}


def scenarios(*names):
    """The scenarios of these folders, of all where none is named."""
    return [scenario_in(file) for name in names or folders() for file in sorted(folders()[name].glob("*.toml"))]


def scenario(folder, name):
    """The scenario of this name in this folder."""
    return scenario_in(folders()[folder] / f"{name}.toml")


def files_alone(*names):
    """The files in these folders beside which no NAME.toml stands."""
    files = [file for name in names or folders() for file in sorted(folders()[name].iterdir())]
    return [file for file in files if not file.with_suffix(".toml").exists()]
