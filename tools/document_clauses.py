"""Whether each clause that docs/PROOFS.md names stands in the contract of the function that it names beside it.

A cell of a table names functions (`src/list.rt::push`, more of the same file by their names alone), and then in parentheses clauses of
theirs: each is in one of these contracts, and each of these has one of them. A clause that stands without a file is of the functions that
the text between heading and table names. A file without a function stands for all its functions, and `the same` for those of the row
before. What stands without a file may also be a definition that the contract cites, also by way of others. In parentheses behind it, or
behind a clause without a file, stand fields of that record, or of those that the clause names. Where any document says "the clause `c`",
some function has such a clause.
"""

import functools
import re
import typing

import crate_list
from crate_list import ROOT
from document_names import PROOFS, cells_of, documents

PATH = re.compile(r"(?:(\w+)/)?((?:src|specs|proofs)/[\w./-]*\w)(?:::(\w+))?")
PART = re.compile(r"the same|\(((?:`[^`]+`(?:, )?)+)\)|`([^`]+)`(?: of `([^`]+)`)?")
IMPORTS = re.compile(r"use Rattle\.(\w+)\.specs\.([\w.]+)\.\{([^}]*)\}", re.S)
# How many definitions deep a definition is looked for.
DEPTH = 3


class Item(typing.NamedTuple):
    """A function, a trait or a type of a file of the code, or a definition of one of specs/; all of the file, if it has no name."""

    file: str
    name: str


@functools.cache
def text_of(file):
    return (ROOT / file).read_text()


def from_line_on(lines, at):
    """An item from this line on: a function without its body, anything else to the brace that ends it."""
    indent = re.match(r"\s*", lines[at])[0]
    is_function = re.match(r"\s*[\w() ]*\bfn ", lines[at])
    for end in range(at, len(lines)):
        is_body = is_function and (lines[end].startswith(f"{indent}{{") or lines[end].endswith(";"))
        if lines[end] == f"{indent}}}" or is_body:
            return "\n".join(lines[at : end + 1])
    return "\n".join(lines[at:])


@functools.cache
def contract(item):
    """The text of an item's contract: nothing, if it is not in its file."""
    if not item.name:
        return text_of(item.file)
    if item.file.endswith(".antt"):
        return blocks(item.file).get(item.name, "")
    lines = text_of(item.file).split("\n")
    head = re.compile(rf"\s*[\w() ]*\b(?:fn|trait|struct|enum|impl(?:<.*>)?(?: \S+ for)?) {item.name}\b")
    return "\n".join(from_line_on(lines, at) for at, line in enumerate(lines) if head.match(line))


def clauses(text):
    """The clauses of a contract, by their names, each with its text."""
    found = {}
    for name, more in re.findall(r"\b(?:ensures|requires)\*? (\w+) (\{.*?\})(?=\s*(?:ensures|requires|\{|$|ghost|///|\n\n))", text, re.S):
        found[name] = f"{found.get(name, '')} {more}"
    return found | {name: "" for name in re.findall(r"\bghost (\w+)\b", text)}


@functools.cache
def imported(file):
    """The names that a file imports of definitions, each with the file where it is defined."""
    found = {}
    for crate, module, names in IMPORTS.findall(text_of(file)):
        path = f"crates/{crate}/specs/{module.replace('.', '/')}.antt"
        for name in re.findall(r"[^\s,]+(?: as [^\s,]+)?", names):
            found[name.split()[-1]] = (path, name.split()[0])
    return {name: place for name, place in found.items() if (ROOT / place[0]).is_file()}


@functools.cache
def blocks(file):
    """The definitions of a file of specs/, by their names, each with its text."""
    found, name = {}, ""
    for line in text_of(file).split("\n"):
        if head := re.match(r" {0,2}(?:(?:abbrev|unfoldable) )?pub (?:(?:record|data) )?(?!mod\b|use\b)([^\s:({]+)", line):
            name = name if line.startswith("  ") and name and re.match(r"  pub \S+ :", line) and "record" in found[name] else head[1]
        elif line.startswith("--") or not line:
            name = name if line.startswith("--") else ""
        if name:
            found[name] = f"{found.get(name, '')}{line}\n"
    return found


def cited(file, text, depth):
    """The definitions that a text of a file cites, and what these cite in turn, down to some depth: each by its name, with its text."""
    found, known = {}, imported(file)
    for word in set(re.findall(r"[^\W\d]\w*", text)):
        path, name = known.get(word, (file, word))
        block = blocks(path).get(name, "") if path.endswith(".antt") else ""
        if block:
            found |= {word: block, **(cited(path, block, depth - 1) if depth else {})}
    return found


def fields(file, text):
    """The fields of a record, or of the records that the text of a clause names."""
    return {name for block in [text, *cited(file, text, 0).values()] for name in re.findall(r"^ +pub ([^\s:]+) :", block, re.M)}


@functools.cache
def names_in(item):
    """What can stand alone: a clause, or a definition that the contract cites."""
    return {item.name, *clauses(contract(item)), *cited(item.file, contract(item), DEPTH)}


def files_of(crates, crate, path):
    """The files that a document names within the crates of its section, or within the crate that it names."""
    paths = [f"crates/{name}/{path}{ending}" for name in ([crate] if crate else crates) for ending in ("", ".rt", ".antt")]
    return [file for file in paths if (ROOT / file).is_file()]


class Cell:
    """A cell of a table, or a text before one, as it is read from left to right."""

    def __init__(self, crates, before, default):
        self.crates, self.before, self.default = crates, before, default
        # The items that were named since the last clauses, all that were named, and the clause that was named last without a file.
        self.items, self.all, self.last, self.closed = [], [], "", False
        self.faults = []

    def name_items(self, items):
        self.items = items if self.closed else [*self.items, *items]
        self.all, self.last, self.closed = [*self.all, *items], "", False

    def read_path(self, crate, path, name):
        items = [Item(file, name or "") for file in files_of(self.crates, crate, path)]
        found = [item for item in items if contract(item)]
        if items and not found:
            self.faults.append(f"{path} has no `{name}`")
        if name or path.startswith("src"):
            self.name_items(found[:1])

    def read_name(self, name, path):
        """Reads a name that stands alone: an item of the file before, a definition of the file behind it, or a clause."""
        if path:
            place = PATH.fullmatch(path)
            if place and not any(contract(Item(file, name)) for file in files_of(self.crates, place[1], place[2])):
                self.faults.append(f"{path} has no `{name}`")
            return
        file = self.items[-1].file if self.items and not self.closed else ""
        if file and contract(Item(file, name)):
            self.name_items([Item(file, name)])
            return
        self.last = name
        if self.default and not any(name in names_in(item) for item in self.default):
            self.faults.append(f"no contract of {listed(self.default)} has `{name}`")

    def read_clauses(self, names):
        if self.last:
            scopes = self.scopes()
            self.faults += [f"`{self.last}` has no `{name}`" for name in names if scopes and not any(name in scope for scope in scopes)]
        elif self.items:
            self.faults += [f"no contract of {listed(self.items)} has `{name}`" for name in names if not any(name in clauses(contract(item)) for item in self.items)]
            useless = [item for item in self.items if not set(names) & set(clauses(contract(item)))]
            self.faults += [f"the contract of {listed(useless)} has none of {', '.join(names)}"] if useless else []
        self.closed = True

    def scopes(self):
        """The fields of the name that stands alone, as a clause of a function, or as a definition."""
        found = [(item.file, clauses(contract(item)).get(self.last, "")) for item in self.default]
        places = [imported(item.file)[self.last] for item in self.default if self.last in imported(item.file)]
        places += [(file, self.last) for crate in self.crates for file in specs_of(crate) if self.last in blocks(file)]
        return [fields(*scope) for scope in [*found, *((file, blocks(file).get(name, "")) for file, name in places)] if scope[1]]

    def read(self, text):
        for part in PART.finditer(text):
            if part[0] == "the same":
                self.name_items(self.before)
            elif part[1]:
                self.read_clauses(re.findall(r"`([^`]+)`", part[1]))
            elif path := PATH.fullmatch(part[2]):
                self.read_path(*path.groups())
            elif "/" not in part[2]:
                self.read_name(part[2], part[3])
        return self


@functools.cache
def specs_of(crate):
    return [str(file.relative_to(ROOT)) for file in crate_list.sources(crate) if file.suffix == ".antt" and "/specs/" in str(file)]


def listed(items):
    return ", ".join(f"{item.file.removeprefix('crates/')}{'::' if item.name else ''}{item.name}" for item in items)


def sections(text):
    """The parts of docs/PROOFS.md that are about crates: these, the text between heading and table, and the second cells of the rows."""
    for part in re.split(r"^(?=#)", text, flags=re.M):
        heading, _, body = part.partition("\n")
        crates = [name for name in re.findall(r"`(\w+)`", heading) if name in crate_list.rows()]
        if crates:
            before = body.partition("\n|")[0]
            rows = [cells_of(line) for line in body.split("\n") if line.startswith("|")]
            yield crates, before, [row[1] for row in rows[2:] if len(row) == 3]


def faults_of_proofs(text):
    for crates, before, cells in sections(text):
        default = Cell(crates, [], []).read(before).all
        items = default
        for cell in cells:
            read = Cell(crates, items, [item for item in default if item.name]).read(cell)
            yield from (f"{', '.join(crates)}: {fault}" for fault in read.faults)
            items = read.all or items


@functools.cache
def all_clauses():
    """The clauses of all contracts, by their names alone."""
    files = [file for crate in crate_list.rows() for file in crate_list.sources(crate) if file.suffix == ".rt"]
    return {name for file in files for name in clauses(file.read_text())}


def faults():
    yield from (f"docs/PROOFS.md: {fault}" for fault in faults_of_proofs(PROOFS.read_text()))
    for document in documents():
        named = re.findall(r"\bclauses? `(\w+)`", document.read_text())
        yield from (f"{document.relative_to(ROOT)}: no contract has a clause `{name}`" for name in named if name not in all_clauses())
