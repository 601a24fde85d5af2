"""The public items of a crate, as its sources tell of them: types, traits, functions and constants, each with its text, its signature, its
clauses and what belongs to it (fields, cases, methods). The sources are laid out by `rt fmt`, and are read by their indentation."""

import dataclasses
import functools
import re

import crate_list
from crate_list import ROOT

HEAD = re.compile(r"pub (?:unsafe )?(struct|enum|trait|fn|const|type) (\w+)")
IMPL = re.compile(r"impl(?:<.*?>)? (?:(?P<trait>[\w:]+(?:<.*>)?) for )?(?P<type>.+?) \{?$")
USE = re.compile(r"^(pub )?use ([\w:]+?)(?:::\{([^}]*)\}|(?: as (\w+))?);", re.M | re.S)
CLAUSE = re.compile(r"(requires|ensures)(\*?)(?: (\w+))? (\{)")


@dataclasses.dataclass
class Clause:
    word: str  # requires, ensures, or ghost
    name: str
    text: str
    about: list = dataclasses.field(default_factory=list)


@dataclasses.dataclass
class Item:
    """An item, or a part of one. `head` is its signature without clauses; `about` the lines of its text."""

    kind: str
    name: str
    file: str
    head: str
    about: list
    clauses: list = dataclasses.field(default_factory=list)
    parts: list = dataclasses.field(default_factory=list)
    derived: list = dataclasses.field(default_factory=list)
    # The traits that it has by an `impl` of its own, and the type as which contracts see it.
    traits: list = dataclasses.field(default_factory=list)
    seen_as: str = ""

    @property
    def crate(self):
        return self.file.split("/")[1]

    @property
    def place(self):
        return self.crate, self.name


def indent_of(line):
    return len(line) - len(line.lstrip(" "))


def above(lines, at):
    """The text right above a line, and the attributes between."""
    about, attributes = [], []
    while at > 0 and re.match(r"\s*(///|#\[|//)", lines[at - 1]):
        at -= 1
        line = lines[at].strip()
        if line.startswith("///"):
            about.insert(0, line[3:].removeprefix(" "))
        elif line.startswith("#["):
            attributes.insert(0, line)
    return about, attributes


def without_margin(lines):
    """The lines without the margin that all but the first have in common."""
    margin = min((indent_of(line) for line in lines[1:] if line.strip()), default=0)
    return "\n".join([lines[0].strip(), *(line[margin:] for line in lines[1:])])


def head_of(lines, at):
    """A function's signature, its clauses, and the line after both."""
    indent, end = " " * indent_of(lines[at]), at
    while not (lines[end].rstrip() in (f"{indent}{{", f"{indent}{{}}") or lines[end].endswith(";")):
        if lines[end].endswith(" {") and not any(CLAUSE.search(line) for line in lines[at : end + 1]):
            return without_margin([*lines[at:end], lines[end][:-2]]), [], end
        end += 1
    first = next((it for it in range(at, end + 1) if CLAUSE.match(lines[it].lstrip())), end + 1 if lines[end].endswith(";") else end)
    signature = without_margin([line.removesuffix(";") for line in lines[at:first]])
    return signature, list(clauses_of(lines[first : end + 1])), end


def clauses_of(lines):
    """The clauses that stand in these lines, each with its text between the braces."""
    text = "\n".join(lines)
    for found in CLAUSE.finditer(text):
        if text[: found.start()].rpartition("\n")[2].strip():
            continue
        depth, end = 0, found.start(4)
        for end in range(found.start(4), len(text)):
            depth += {"{": 1, "}": -1}.get(text[end], 0)
            if not depth:
                break
        yield Clause(found[1], found[3] or "", without_margin(text[found.end(4) : end].strip().split("\n")))


def end_of(lines, at):
    """The last line of the item that begins here."""
    if lines[at].endswith((";", "}")):
        return at
    indent = " " * indent_of(lines[at])
    return next(it for it in range(at + 1, len(lines)) if lines[it].rstrip() in (f"{indent}}}", f"{indent}}};", f"{indent})", f"{indent});"))


def ghost_clause(lines, at):
    """A fact that a type always keeps, or what a trait asks to be said: `ghost NAME: { TEXT }`."""
    found = re.match(r"\s*(?:pub )?ghost (\w+): (\{.*)", lines[at])
    if not found:
        return None
    end = next(it for it in range(at, len(lines)) if lines[it].rstrip().endswith(("},", "};", "}")))
    text = without_margin([found[2], *lines[at + 1 : end + 1]]).strip().rstrip(",;")
    return Clause("ghost", found[1], text.removeprefix("{").removesuffix("}").strip())


def body_parts(kind, file, lines, at, end):
    """The fields of a struct, the cases of an enum, the methods of a trait; and the facts between them."""
    parts, clauses, inner = [], [], indent_of(lines[at]) + 4
    it = at + 1
    while it < end:
        line, about = lines[it], above(lines, it)[0]
        if indent_of(line) == inner and not line.lstrip().startswith(("//", "#", "}", ")")) and line.strip():
            if ghost := ghost_clause(lines, it):
                clauses.append(dataclasses.replace(ghost, about=about))
            elif kind == "trait" and line.lstrip().startswith("fn "):
                head, own, it = head_of(lines, it)
                parts.append(Item("method", re.search(r"fn (\w+)", head)[1], file, head, about, own))
            elif kind == "struct" and (field := re.match(r" +pub (\w+): (.*?),?$", line)):
                parts.append(Item("field", field[1], file, line.strip().rstrip(","), about))
            elif kind == "enum" and (case := re.match(r" +(\w+)", line)):
                closing = {"{": "},", "(": "),"}.get(line[-1])
                last = next(n for n in range(it, end) if lines[n] == " " * inner + closing) if closing else it
                parts.append(Item("case", case[1], file, without_margin(lines[it : last + 1]).rstrip(","), about))
                it = last
        it += 1
    return parts, clauses


def item_at(file, lines, at):
    """The public item that begins at this line."""
    kind, name = HEAD.match(lines[at]).groups()
    about, attributes = above(lines, at)
    derived = [it.strip() for line in attributes for found in re.findall(r"derive\(([^)]*)\)", line) for it in found.split(",")]
    if kind == "fn":
        head, clauses, _ = head_of(lines, at)
        return Item("function", name, file, head, about, clauses)
    end = end_of(lines, at)
    if kind in ("const", "type"):
        return Item({"const": "constant"}.get(kind, kind), name, file, without_margin(lines[at : end + 1]), about, derived=derived)
    parts, facts = body_parts(kind, file, lines, at, end) if end > at else ([], [])
    head = lines[at].removesuffix(" {") if end > at else lines[at]
    return Item(kind, name, file, head, about, facts, parts, derived)


def add_impls(found, file, lines):
    """Adds to the types of a file what its `impl` blocks say of them."""
    for at, line in enumerate(lines):
        begin = re.match(r"impl\b", line) and IMPL.match(line)
        if not begin or line.endswith("}"):
            continue
        owner = found.get(re.match(r"\w+", begin["type"])[0]) if re.match(r"\w+", begin["type"]) else None
        if not owner:
            continue
        end = next(it for it in range(at + 1, len(lines)) if lines[it] == "}")
        if begin["trait"] == "Model":
            value = next((it for it in lines[at:end] if it.strip().startswith("ghost Value")), "")
            owner.seen_as = value.partition("{")[2].rpartition("}")[0].strip()
        elif begin["trait"]:
            owner.traits.append(begin["trait"])
        else:
            owner.parts += methods(file, lines, at + 1, end)


def methods(file, lines, begin, end):
    for at in range(begin, end):
        if re.match(r"    pub (?:const )?fn ", lines[at]):
            head, clauses, _ = head_of(lines, at)
            yield Item("method", re.search(r"fn (\w+)", head)[1], file, head, above(lines, at)[0], clauses)


@functools.cache
def items_of(file):
    """The public items of a file, by their names."""
    lines = (ROOT / file).read_text().splitlines()
    found = {}
    for at, line in enumerate(lines):
        if HEAD.match(line):
            item = item_at(file, lines, at)
            found[item.name] = item
    add_impls(found, file, lines)
    return found


@functools.cache
def crate_of(crate):
    """All public items of a crate's files by their names, with what other files of the crate say of them."""
    files = [file.relative_to(ROOT).as_posix() for file in crate_list.sources(crate) if file.suffix == ".rt"]
    found = {}
    for file in files:
        for name, item in items_of(file).items():
            found.setdefault(name, item)
    for file in files:
        add_impls({name: item for name, item in found.items() if item.file != file}, file, (ROOT / file).read_text().splitlines())
    return found


def names_in(listed):
    return [it.strip() for it in listed.split(",") if it.strip()]


@functools.cache
def uses(file):
    """The names that a file brings in, each with the crate where it stands and its name there."""
    crate, found = file.split("/")[1], {}
    for _, path, listed, other in USE.findall((ROOT / file).read_text()):
        first = path.split("::")[0]
        owner = crate if first in ("crate", "self") or first not in crate_list.rows() else first
        single = [] if listed else [f"{path.rpartition('::')[2]}{f' as {other}' if other else ''}"]
        for name in [*names_in(listed), *single]:
            whole, _, alias = name.partition(" as ")
            found[alias or whole] = (owner, whole)
    return found


@functools.cache
def exports(crate):
    """What a crate's root offers: the items by the names under which it does."""
    root, found = f"crates/{crate}/src/lib.rt", {}
    text = (ROOT / root).read_text()
    for public, path, listed, other in USE.findall(text):
        if not public:
            continue
        first = path.split("::")[0]
        single = [] if listed else [f"{path.rpartition('::')[2]}{f' as {other}' if other else ''}"]
        for name in [*names_in(listed), *single]:
            whole, _, alias = name.partition(" as ")
            item = exports(first).get(whole) if first in crate_list.rows() else crate_of(crate).get(whole)
            if item:
                found[alias or whole] = item
    for module in re.findall(r"^pub mod (\w+);", text, re.M):
        found |= {f"{module}::{name}": item for name, item in items_of(f"crates/{crate}/src/{module}.rt").items()}
    return found
