"""The definitions in specs/ as the documents tell of them: each with its kind and its comment, which is the source of what is said.

A definition that a contract can cite needs a sentence. A contract can cite what its file imports by `ghost use
Rattle.CRATE.specs.MODULE.{names}`, and `rt tidy` leaves no import that is not used. (Types of the code, `specs.declared`, are described
where they stand, and lemmas say nothing new.) The sentence is the comment above the definition.
"""

import dataclasses
import functools
import re

import crate_list
from crate_list import ROOT

DEFINITION = re.compile(r"( *)(?:(?:abbrev|unfoldable) pub|pub (record|data)|pub(?! mod\b| use\b)) ([^\s:({]+)")
CONSTRUCTOR = re.compile(r" +([^\s:]+) : ")
IMPORT = re.compile(r"ghost use Rattle\.(\w+)\.specs\.([\w.]+)\.\{([^}]*)\}", re.S)
# A file of definitions hands on what it so takes from another.
HANDED_ON = re.compile(r"^pub use Rattle\.(\w+)\.specs\.([\w.]+)\.\{([^}]*)\}", re.M)
# A comment with fewer letters says nothing.
SHORTEST = 10


@dataclasses.dataclass
class Definition:
    name: str
    kind: str
    comment: str
    constructors: list


def comment_above(lines, at):
    """The comment that ends right above this line."""
    first = at
    while first > 0 and lines[first - 1].lstrip().startswith("--"):
        first -= 1
    return " ".join(line.lstrip().removeprefix("--").strip() for line in lines[first:at])


def kind_of(word, header, body):
    """What a definition is: data, a fact that can be proved, a test that can be computed, or a function."""
    takes = "(" in header or "→" in header
    if word:
        return "fact" if takes else "cases" if word == "data" else "record"
    if re.search(r"(→|:) Type \d$", header):
        is_type = "(" not in header and not re.search(r"[≡≤<⊎⊥]|→|\. |Unit|Is[TF]", body) and not re.search(r": .*[^0 ] → Type \d$", header)
        return "type" if is_type else "fact"
    result = header.rpartition(" → " if "→" in header else " : ")[2]
    return "test" if result == "Bool" else "function" if takes else "value"


def indent_of(line):
    return len(line) - len(line.lstrip(" "))


@functools.cache
def definitions(file):
    """The definitions of a file, in their order. One that is indented counts where a `module _ .. where` holds it."""
    found, lines, section = [], (ROOT / file).read_text().splitlines(), ""
    for at, line in enumerate(lines):
        if line and line[0] not in " -}":
            section = line if line.startswith("module ") else ""
        match = DEFINITION.match(line)
        if not match or match[1] and not (section and len(match[1]) == 2):
            continue
        below = next((it for it in range(at + 1, len(lines)) if indent_of(lines[it]) <= len(match[1])), len(lines))
        header, _, _ = " ".join(it.strip() for it in lines[at:below]).partition(" where ")
        end = next((it for it in range(below, len(lines)) if not lines[it]), len(lines))
        kind = kind_of(match[2], ("(" if "(" in section else "") + header, "" if match[2] else " ".join(lines[below:end]))
        held = [CONSTRUCTOR.match(line) for line in lines[at + 1 : below]] if match[2] == "data" else []
        found.append(Definition(match[3], kind, comment_above(lines, at), [it[1] for it in held if it]))
    return found


def opening(file):
    """The comment with which a file begins."""
    lines = (ROOT / file).read_text().splitlines()
    first = next((at for at, line in enumerate(lines) if not line.startswith("--")), len(lines))
    return comment_above(lines, first)


def files():
    """The files of definitions, crate by crate: all in specs/ but lists of modules and lemmas."""
    for crate in crate_list.rows():
        folder = ROOT / "crates" / crate / "specs"
        for path in sorted(folder.rglob("*.antt")):
            file = path.relative_to(ROOT).as_posix()
            if path.stem != "Lib" and not path.stem.endswith("Lemmas") and definitions(file):
                yield crate, file


def standing_for(file, name):
    """The definition of a file that a name stands for: of a constructor, its type."""
    return next((it for it in definitions(file) if name == it.name or name in it.constructors), None)


def handed_on(file, name):
    """The crate and the module from which a file takes what it hands on under this name, if it does."""
    texts = HANDED_ON.findall((ROOT / file).read_text())
    return next(((crate, module) for crate, module, names in texts if name in (part.strip() for part in names.split(","))), None)


def imported(crate, module, name):
    """The file and the name of what is imported from this module, where it is defined."""
    parts = module.split(".")
    for count in range(len(parts), 0, -1):
        file = f"crates/{crate}/specs/{'/'.join(parts[:count])}.antt"
        if (ROOT / file).exists():
            if count == len(parts) and (origin := handed_on(file, name)):
                return imported(*origin, name)
            return file, (name if count == len(parts) else parts[count])
    return f"crates/{crate}/specs/{'/'.join(parts)}.antt", name


@functools.cache
def cited():
    """Each definition that some contract may cite, by file and name, with a source file that imports it."""
    found = {}
    for crate in crate_list.rows():
        for source in sorted((ROOT / "crates" / crate / "src").rglob("*.rt")):
            for owner, module, names in IMPORT.findall(source.read_text()):
                if owner not in crate_list.rows() or module.split(".")[0] == "declared" or module.endswith("Lemmas"):
                    continue
                for name in (part.split(" as ")[0].strip() for part in names.split(",") if part.strip()):
                    found.setdefault(imported(owner, module, name), source.relative_to(ROOT).as_posix())
    return found


def faults():
    """Definitions that a contract cites and that have no comment, or that are not there."""
    for (file, name), source in sorted(cited().items()):
        told = standing_for(file, name) if (ROOT / file).exists() else None
        if not told:
            yield f"{file}: no definition {name}, which {source} imports"
        elif len(told.comment) < SHORTEST:
            yield f"{file}: {told.name}, cited in {source}, has no comment"


def sentence(text):
    """A comment as a sentence."""
    text = text[:1].upper() + text[1:]
    return text + ("" if not text or text[-1] in ".:" else ".")


def lines_of(file):
    """What is said of one file: what it is about, and each definition with its kind."""
    yield f"{file}: {sentence(opening(file))}".rstrip(": ")
    for it in definitions(file):
        cases = f" Cases: {', '.join(it.constructors)}." if it.constructors else ""
        yield f"  {it.name} ({it.kind}): {sentence(it.comment)}{cases}" if it.comment else f"  {it.name} ({it.kind})"


def listed(crates):
    """All definitions of these crates, of all if none is named."""
    for crate, file in files():
        if not crates or crate in crates:
            yield from [*lines_of(file), ""]


def count():
    return sum(len(definitions(file)) for _, file in files())
