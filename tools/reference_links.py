"""What a name in a contract, a signature or a definition stands for in the API reference: a definition of specs/, or a public item."""

import functools
import re

import public_items
import spec_definitions
from crate_list import ROOT
from document_clauses import blocks
from spec_definitions import imported

# The crates on which a program of one's own stands (docs/EMBEDDING.md), and those whose use of the library is shown.
OFFERED = ("heddleorange", "mb_actor", "mb_msg", "mb_typed", "mb_source", "mb_quantity", "mb_trace_forms", "mb_trace")
EXAMPLES = ("relay", "relay_actors", "bank", "bank_actors", "bank_shell_actors", "bank_shell", "chat_room_actors", "chat_room")
WORD = re.compile(r"(?<![\w.'])[^\W\d]\w*(?:-\w+)*'*")
IMPORT = re.compile(r"\buse Rattle\.(\w+)\.specs\.([\w.]+?)(?:\.\{([^}]*)\}|(?: as (\w+))?\s*$)", re.S | re.M)
TYPES = ("struct", "enum", "trait", "type", "constant")


@functools.cache
def offered():
    """The items that a program can name, by their place: under which crates and names."""
    found = {}
    for crate in OFFERED:
        for name, item in public_items.exports(crate).items():
            found.setdefault(item.place, (item, []))[1].append(f"{crate}::{name}")
    return found


def item_named(file, name):
    """The public item that a file of the code calls by this name."""
    crate, whole = public_items.uses(file).get(name, (file.split("/")[1], name))
    if crate != file.split("/")[1] or crate not in public_items.crate_list.rows():
        return public_items.exports(crate).get(whole)
    return public_items.crate_of(crate).get(whole)


def shown_parts(item):
    return [item, *item.parts]


@functools.cache
def items():
    """All items with a page: those that a program can name, and the types of their signatures, fields and cases in turn."""
    found = {place: item for place, (item, _) in offered().items()}
    left = list(found.values())
    while left:
        item = left.pop()
        for part in shown_parts(item):
            for name in WORD.findall(part.head):
                other = item_named(part.file, name)
                if other and other.kind in TYPES and other.place not in found:
                    found[other.place] = other
                    left.append(other)
    return found


def page_of_item(item):
    return f"{item.crate}.{item.name}.html"


def page_of_definitions(file):
    crate, module = re.fullmatch(r"crates/(\w+)/specs/(.+)\.antt", file).groups()
    return f"definitions.{crate}.{module.replace('/', '.')}.html"


def anchor(part):
    return f"{part.kind}.{part.name}"


@functools.cache
def imports(file):
    """What a file brings in for proofs: names, each with the file and the definition, or with the item that it stands for."""
    found = {}
    for crate, module, names, alias in IMPORT.findall((ROOT / file).read_text()):
        if crate not in public_items.crate_list.rows():
            continue
        for name in public_items.names_in(names):
            whole, _, other = name.partition(" as ")
            if module.startswith("declared"):
                found[other or whole] = declared(crate, module, whole)
            else:
                found[other or whole] = imported(crate, module, whole)
        if module.startswith("declared") and not names:
            found[alias or module.rpartition(".")[2]] = declared(crate, module, module.rpartition(".")[2])
    return {name: target for name, target in found.items() if target}


def declared(crate, module, name):
    """The item of the code for which a declared name stands: `declared.error.Error.TheVariants.{NoMemory}` is a case of `Error`."""
    parts = module.split(".")
    owner = next((part for part in reversed([*parts, name]) if part != "TheVariants" and public_items.crate_of(crate).get(part)), None)
    return public_items.crate_of(crate)[owner] if owner else None


def target_of(file, word):
    """The link for a name in a contract or a definition of a file, if there is one."""
    known = imports(file).get(word)
    if known is None and file.endswith(".antt") and word in blocks(file):
        known = (file, word)
    if known is None:
        return None
    if isinstance(known, tuple):
        place, name = known
        return f"{page_of_definitions(place)}#{name}" if (ROOT / place).exists() and name in blocks(place) else None
    if known.place not in items():
        return None
    case = next((part for part in known.parts if part.name == word), None)
    return page_of_item(known) + (f"#{anchor(case)}" if case and word != known.name else "")


def target_in_code(file, word):
    """The link for a type's name in a signature."""
    item = item_named(file, word)
    return page_of_item(item) if item and item.kind in TYPES and item.place in items() else None


def target_in_text(item, words):
    """The link for what a text names in backticks: a part of the item, `Type::part`, or another item."""
    owner, _, name = words.partition("(")[0].rpartition("::")
    other = item if not owner else next((it for it in items().values() if it.name == owner), None)
    part = next((it for it in other.parts if it.name == name), None) if other else None
    if part:
        return f"{page_of_item(other)}#{anchor(part)}"
    named = item_named(item.file, name) or next((it for it in items().values() if it.name == name), None)
    return page_of_item(named) if not owner and named and named.place in items() and named is not item else None


@functools.cache
def comments():
    """What is said of each definition, by the link that leads to it."""
    return {f"{page_of_definitions(file)}#{it.name}": it.comment for file in cited_files() for it in spec_definitions.definitions(file)}


@functools.cache
def cited_files():
    """The files of definitions that the contracts of the items cite, and those that these cite in turn."""
    found, left = {}, []

    def cite(file, text):
        for word in WORD.findall(text):
            link = imports(file).get(word)
            if isinstance(link, tuple) and (ROOT / link[0]).exists() and link[0] not in found:
                found[link[0]] = None
                left.append(link[0])

    for item in items().values():
        cite(item.file, item.seen_as)
        for part in shown_parts(item):
            for clause in part.clauses:
                cite(part.file, clause.text)
    while left:
        file = left.pop()
        for text in blocks(file).values():
            cite(file, text)
    return sorted(found)


@functools.cache
def example_lines():
    """The lines of the example programs, without their comments and imports."""
    files = [file for crate in EXAMPLES for file in public_items.crate_list.sources(crate) if file.suffix == ".rt"]
    return [
        (file.relative_to(ROOT).as_posix(), file.read_text(), line.strip())
        for file in files
        for line in public_items.USE.sub("", file.read_text()).splitlines()
        if line.startswith("    ") and not re.match(r"\s*(//|ghost|requires|ensures|(pub )?fn|\w+: [^=]*,$)", line)
    ]


def uses_of(item, part=None):
    """Lines of the examples that use an item, or a method of it, each with its file."""
    name = (part or item).name
    if part and "self" in part.head:
        call = rf"\.{name}\("
    elif part:
        call = rf"\b{item.name}::{name}\b"
    else:
        call = rf"(?<![\w.:]){name}\(" if item.kind == "function" else rf"\b{name}\b"
    found = [(file, line) for file, text, line in example_lines() if re.search(rf"\b{item.name}\b", text) and re.search(call, line)]
    return list(dict.fromkeys(found))[:3]
