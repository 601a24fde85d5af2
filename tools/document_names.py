"""What the documents name is there: files, crates, links with their headings, and what docs/PROOFS.md names of a crate in its section.

A path is one that begins with a folder of this repository, or with a crate's name (`mb_gate/specs/Rule`, the ending may be left out).
A `*`, and CRATE and NAME where they stand for one, fit any. What a build writes (`out`) is not looked for. In the section of a crate in
docs/PROOFS.md a path may begin within the crate's folder, and a name may follow it (`src/list.rt::push`).
"""

import functools
import re

import crate_list
from crate_list import ROOT

FOLDERS = ("crates", "tools", "docs", "examples", "scenarios", "peers")
PATH = re.compile(r"(?<![\w/.-])(?:\.\./)?((?:%s)/[\w./*-]*[\w*])" % "|".join([*FOLDERS, r"mb_\w+"]))
CRATE = re.compile(r"`(mb_\w+)(?:`|::)")
LINK = re.compile(r"\]\(([^()\s]+)\)")
WORD = re.compile(r"[^\W\d][\w-]*")
ENDINGS = ("", ".antt", ".rt", ".edit", ".md")
PROOFS = ROOT / "docs/PROOFS.md"
# A path within a crate's folder, maybe with the crate before it, and a name in that file.
NAME_OF_CRATE = f"(?:{'|'.join(crate_list.rows())})"
WITHIN = re.compile(rf"((?:{NAME_OF_CRATE}/)?(?:src|specs|proofs|must-fail|wrong-bodies)/[\w./-]*\w)(?:::(.*))?")
WRONG_BODY = re.compile(rf"(?:{NAME_OF_CRATE}/)?(?:must-fail|wrong-bodies)/\w+")


def documents():
    return [ROOT / "README.md", ROOT / "CHANGELOG.md", *sorted((ROOT / "docs").glob("*.md"))]


def fitting(path):
    """The files and folders of the repository that fit the path."""
    path = re.sub(r"\b(CRATE|NAME)\b", "*", path)
    return [file for ending in ENDINGS for file in ROOT.glob(path + ending)]


def is_there(path):
    return bool(fitting(path))


def missing_paths(text):
    for path in dict.fromkeys(PATH.findall(text)):
        whole = path if path.split("/")[0] in FOLDERS else f"crates/{path}"
        if "/out" not in path and not is_there(whole):
            yield f"there is no {path}"


def missing_crates(text):
    yield from (f"there is no crate {name}" for name in dict.fromkeys(CRATE.findall(text)) if name not in crate_list.rows())


@functools.cache
def headings(path):
    """The headings of a document, as links name them."""
    found = re.findall(r"^#+ (.*)$", path.read_text(), re.M)
    return {re.sub(r"[^\w\- ]", "", heading.lower()).replace(" ", "-") for heading in found}


def missing_targets(document, text):
    for link in dict.fromkeys(LINK.findall(text)):
        file, _, heading = link.partition("#")
        target = (document.parent / file).resolve() if file else document
        if re.match(r"\w+:", link):
            continue
        if not target.exists():
            yield f"the link {link} leads nowhere"
        elif heading and heading not in headings(target):
            yield f"the link {link} leads to no heading"


@functools.cache
def words(crate):
    """All words in the sources of a crate."""
    return {word for file in crate_list.sources(crate) for word in WORD.findall(file.read_text())}


def cells_of(line):
    """The cells of a table's row."""
    return [cell.strip() for cell in re.split(r"(?<!\\)\|", line)[1:-1]]


def lines_of_proofs():
    """The lines of docs/PROOFS.md that are about crates, each with the crates that its heading names."""
    crates = []
    for line in PROOFS.read_text().splitlines():
        if line.startswith("#"):
            crates = [name for name in re.findall(r"`(\w+)`", line) if name in crate_list.rows()]
        elif crates:
            yield crates, line


def missing_names():
    """What a line of docs/PROOFS.md names in backticks, and is not there: a file, a word of the file before it, or of the line's crates."""
    for crates, line in lines_of_proofs():
        named = [*crates, *(name for name in crate_list.rows() if re.search(rf"\b{name}\b", line))]
        known = {*crate_list.rows(), *crate_list.PARTS}.union(*map(words, named))
        for token in re.findall(r"`([^`]+)`", line):
            if within := WITHIN.fullmatch(token):
                path, name = within.groups()
                files = [file for folder in ("", *(f"{crate}/" for crate in crates)) for file in fitting(f"crates/{folder}{path}")]
                if not files:
                    yield f"there is no {path} in {', '.join(crates)}"
                elif name and not any(name in WORD.findall(file.read_text()) for file in files):
                    yield f"{path} has no `{name}`"
            elif "/" not in token:
                missing = [word for word in WORD.findall(token) if word not in known]
                yield from (f"{', '.join(crates)} has no `{word}` (of `{token}`)" for word in missing)


def row_faults():
    """What is wrong with the rows of docs/PROOFS.md: each has a claim, its contract, and in backticks wrong bodies alone, or crates."""
    for crates, cells in ((crates, cells_of(line)) for crates, line in lines_of_proofs()):
        if cells and not (len(cells) == 3 and all(cells)):
            yield f"a row of {', '.join(crates)} is no claim with its contract and wrong bodies: {cells[0]}"
        for token in re.findall(r"`([^`]+)`", " ".join(cells[2:])):
            if token not in crate_list.rows() and not WRONG_BODY.fullmatch(token):
                yield f"`{token}` is no wrong body"


def faults():
    for document in documents():
        text = document.read_text()
        for fault in [*missing_paths(text), *missing_crates(text), *missing_targets(document, text)]:
            yield f"{document.relative_to(ROOT)}: {fault}"
    yield from (f"docs/PROOFS.md: {fault}" for fault in [*missing_names(), *row_faults()])
