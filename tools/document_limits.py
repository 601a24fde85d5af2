"""The numbers of docs/LIMITS.md are those of the sources. The last cell of a row names where its number stands: `FILE::CONSTANT`, of a
constant with fields `FILE::CONSTANT.field`, and of a file of JSON `FILE::a/b/c`, the way to the number. It is the first number of the
row's second cell. Where that cell is empty, a rule and no number of the sources is told. Where another document says such a number in one of
the forms below, it is that of docs/LIMITS.md."""

import json
import re

from crate_list import ROOT
from document_names import cells_of, documents

LIMITS = ROOT / "docs/LIMITS.md"
SOURCE = re.compile(r"`([\w./]+)::([\w$./]+)`")
NUMBER = re.compile(r"2\^(\d+)( - 1)?|\d[\d,]*")
# How documents say the number of a row, by the beginning of its first cell.
SAID = {
    "actors, the guardian": [r"at most (N) actors", r"limits are (N) actors"],
    "outside senders": [r"(N)\s+outside senders", r"(N)\s+senders\s+outside"],
    "effects of one call": [r"(N) effects", r"call may ask for (N)"],
    "envelopes among which": [r"mailbox holds (N)", r"choice is among (N)", r"until (N) are held", r"among the (N)"],
    "places of a shared pool": [r"with (N) places", r"whose (N) places"],
    "suspensions of an actor": [r"at most (N) suspensions", r"count below (N)", r"count is at most (N)", r"suspensions are at most (N)"],
    "bytes of the text": [r"at most (N) bytes"],
}
HEAD = ["Limit", "Number", "What happens there", "Why", "Source"]


def number_in(text):
    """The first number of a text, if there is one."""
    found = NUMBER.search(text)
    if not found:
        return None
    return 2 ** int(found[1]) - bool(found[2]) if found[1] else int(found[0].replace(",", ""))


def constant(file, name):
    """The number that a constant of the code has, or a field of it."""
    whole, _, field = name.partition(".")
    body = re.search(rf"\bconst {whole}: \w+ = (.*?);", (ROOT / file).read_text(), re.S)
    told = body and (re.search(rf"\b{field}: ([\d_]+),", body[1]) if field else re.fullmatch(r"([\d_]+)(?: << (\d+))?", body[1]))
    if not told:
        return None
    shift = told[2] if not field and told[2] else 0
    return int(told[1].replace("_", "")) << int(shift)


def number_of_json(file, way):
    value = json.loads((ROOT / file).read_text())
    for word in way.split("/"):
        value = value.get(word, {}) if isinstance(value, dict) else {}
    return value if isinstance(value, int) else None


def rows():
    for line in LIMITS.read_text().splitlines():
        if line.startswith("|") and not set(line) <= set("|- ") and cells_of(line) != HEAD:
            yield cells_of(line)


def faults():
    yield from faults_of_rows()
    yield from faults_of_sentences()


def faults_of_sentences():
    """Which sentence of another document says another number."""
    numbers = {cells[0]: number_in(cells[1]) for cells in rows()}
    for beginning, forms in SAID.items():
        row = next((name for name in numbers if name.startswith(beginning)), None)
        if row is None:
            yield f"docs/LIMITS.md: it has no row {beginning}"
            continue
        for document in (one for one in documents() if one != LIMITS):
            for form in forms:
                for found in re.finditer(form.replace("N", NUMBER.pattern), document.read_text()):
                    if number_in(found[1]) != numbers[row]:
                        yield f"{document.relative_to(ROOT)}: `{' '.join(found[0].split())}` is not what docs/LIMITS.md says: {numbers[row]}"


def faults_of_rows():
    for cells in rows():
        if len(cells) != len(HEAD) or not all(cells[:4]):
            yield f"docs/LIMITS.md: a row has not the cells {', '.join(HEAD)}: {cells}"
            continue
        if not cells[4]:
            continue
        source = SOURCE.fullmatch(cells[4])
        if not source or not (ROOT / source[1]).exists():
            yield f"docs/LIMITS.md: {cells[4]} is no place of a number"
            continue
        number = (number_of_json if source[1].endswith(".json") else constant)(*source.groups())
        if number is None or number != number_in(cells[1]):
            yield f"docs/LIMITS.md: {cells[0]}: {cells[1]}, but {cells[4]} is {number}"
