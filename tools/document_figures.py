"""Figures that stand in more than one document are the same. README.md says how many wrong bodies there are. Its table is a part of that of
docs/SPEED.md, without the quartiles: the names of its rows and columns say which part. A time in minutes is one of the figures of
docs/CONTRIBUTING.md; README.md and docs/EMBEDDING.md say that of a proof of the program alone."""

import re

import wrong_bodies
from crate_list import ROOT
from document_names import cells_of, documents

README, SPEED, CONTRIBUTING = ROOT / "README.md", ROOT / "docs/SPEED.md", ROOT / "docs/CONTRIBUTING.md"
OF_A_PROOF = (README, ROOT / "docs/EMBEDDING.md")
PROOF = ("`make prove`, from nothing", "Wall time")
MINUTES = re.compile(r"\b(\d+)\s(?:processor\s)?min(?:utes?)?\b|\b((?:half|quarter of)\san\shour|\d+\shours?)\b")
# A figure with its quartiles, or alone.
FIGURE = re.compile(r"(\d+\.\d+)(?: \(\d+\.\d+–\d+\.\d+\))?")
ROW = re.compile(r"^\|.*\|$", re.M)


def section(text, heading):
    """Where the part of a document below a heading begins and ends."""
    found = re.search(rf"^(#+) {heading}\n((?:(?!\1 ).*\n)*)", text, re.M)
    return found.span(2) if found else (0, 0)


def table(text, heading):
    """The table below a heading: its cells by the names of their row and column."""
    begin, end = section(text, heading)
    head, _, *rows = [cells_of(row) for row in ROW.findall(text[begin:end])] or [[], []]
    return {(name, column): cell for name, *cells in rows for column, cell in zip(head[1:], cells)}


def measured():
    """The figures of docs/SPEED.md beside peers, without their quartiles. A cell of another form has none."""
    cells = table(SPEED.read_text(), "Beside peers").items()
    return {place: FIGURE.fullmatch(cell)[1] for place, cell in cells if FIGURE.fullmatch(cell)}


def place_in_speed(row, column):
    """What docs/SPEED.md calls the place of a figure of README.md, where a column also says what the workload is."""
    return row, column.partition(":")[0]


def with_wrong_bodies(text):
    """The text with the numbers of wrong bodies, in the gate and outside."""
    gate, rest = (len(wrong_bodies.edits(folder)) for folder in (wrong_bodies.GATE, wrong_bodies.REST))
    return re.sub(r"\b\d+(\swrong\sbodies\s)\(\d+(\smore)", rf"{gate}\g<1>({rest}\g<2>", text)


def readme():
    """README.md with the figures of docs/SPEED.md, and with the numbers of wrong bodies."""
    text, figures = with_wrong_bodies(README.read_text()), measured()
    begin, end = section(text, "How fast")
    head, *rows = ROW.findall(text[begin:end]) or [""]
    for row in rows[1:]:
        name, *cells = cells_of(row)
        places = [place_in_speed(name, column) for column in cells_of(head)[1:]]
        told = [figures.get(place, cell) for place, cell in zip(places, cells)]
        text = text.replace(row, f"| {' | '.join([name, *told])} |")
    return text


def faults_of_speed():
    """What is wrong with the table of docs/SPEED.md, and what README.md has that it lacks."""
    figures, cells = measured(), table(SPEED.read_text(), "Beside peers")
    yield from (f"docs/SPEED.md: {cell} is no figure ({', '.join(place)})" for place, cell in cells.items() if cell != "-" and place not in figures)
    shown = [place_in_speed(*place) for place in table(README.read_text(), "How fast")]
    yield from (f"README.md: docs/SPEED.md has no figure {', '.join(place)}" for place in shown if place not in figures)
    if not shown:
        yield "README.md: it has no table below How fast"


def faults_of_times():
    """Which time in minutes is not that of docs/CONTRIBUTING.md."""
    times = table(CONTRIBUTING.read_text(), "Figures")
    if not re.fullmatch(r"\d+ min", times.get(PROOF, "")):
        yield f"docs/CONTRIBUTING.md: its figures lack {', '.join(PROOF)}, in minutes"
    for document in [*documents(), ROOT / "tools/README.md", ROOT / "peers/README.md"]:
        known = {times.get(PROOF)} if document in OF_A_PROOF else {*times.values()}
        for minutes, hours in MINUTES.findall(document.read_text()):
            if hours or f"{minutes} min" not in known:
                yield f"{document.relative_to(ROOT)}: {hours or f'{minutes} minutes'} is not what the figures of docs/CONTRIBUTING.md say"


def faults():
    yield from faults_of_speed()
    yield from faults_of_times()
