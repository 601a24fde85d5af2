"""The forms of documents that a tool can see: the newest version of CHANGELOG.md is also that of README.md and of `mailtrace --version`,
its versions and days go down, and each answer of docs/FAQ.md says what shows it."""

import re

import crate_list
from crate_list import ROOT

CHANGELOG, README, FAQ = ROOT / "CHANGELOG.md", ROOT / "README.md", ROOT / "docs/FAQ.md"
HEADING = re.compile(r"^## (\d+\.\d+\.\d+) \((\d{4}-\d\d-\d\d)\)$", re.M)
VERSION = re.compile(r"\b\d+\.\d+\.\d+\b")


def version():
    """The newest version, as CHANGELOG.md has it."""
    found = HEADING.search(CHANGELOG.read_text())
    return found[1] if found else ""


def told_by_mailtrace():
    """The versions in the texts of `mailtrace`."""
    sources = (file for file in crate_list.sources("mailtrace") if file.suffix == ".rt")
    return {number for file in sources for text in re.findall(r'"((?:[^"\\]|\\.)*)"', file.read_text()) for number in VERSION.findall(text)}


def faults_of_versions():
    headings = HEADING.findall(CHANGELOG.read_text())
    if not headings or len(headings) != len(re.findall(r"^## ", CHANGELOG.read_text(), re.M)):
        yield "CHANGELOG.md: each heading is a version and a day, as `## 0.4.0 (2026-11-29)`"
    numbers = [([*map(int, number.split("."))], day) for number, day in headings]
    if any(one[0] <= other[0] or one[1] < other[1] for one, other in zip(numbers, numbers[1:])):
        yield "CHANGELOG.md: a version or a day stands below an earlier one"
    if f"Version {version()}" not in README.read_text():
        yield f"README.md: it does not say Version {version()}, as CHANGELOG.md does"
    if told_by_mailtrace() != {version()}:
        yield f"crates/mailtrace: its texts have the versions {sorted(told_by_mailtrace())}, CHANGELOG.md {version()}"


def faults_of_answers():
    for answer in re.split(r"^### ", FAQ.read_text(), flags=re.M)[1:]:
        question, _, said = answer.partition("\n")
        shown = said.partition("Shown by: ")[2]
        if not question.startswith("..") or not question.endswith("?"):
            yield f"docs/FAQ.md: {question} is no question that goes on from the title"
        if not re.search(r"\]\(|`\w+/|`tools/", shown.split("\n\n")[0]):
            yield f"docs/FAQ.md: {question} does not say what shows it"


def faults():
    yield from faults_of_versions()
    yield from faults_of_answers()
