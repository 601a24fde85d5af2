"""The wrong bodies: files NAME.edit in crates/CRATE/must-fail, which the gate tries, or in crates/CRATE/wrong-bodies, which
`tools/try_wrong_bodies` tries. Each has lines `file:`, then `old:` and `new:`, as often as something changes."""

import os
import re
import sys

import crate_list
from crate_list import ROOT

GATE, REST = "must-fail", "wrong-bodies"
# How many letters of what stays the same are shown on each side, and how many of a text at most.
ABOUT, MOST = 30, 120


def edits(folder):
    """The files of the wrong bodies in folders of this name, by their names, of which each has its own."""
    files = sorted(ROOT.glob(f"crates/*/{folder}/*.edit"))
    found = {file.stem: file for file in files}
    for file in files:
        if found[file.stem] != file:
            sys.exit(f"wrong bodies: two are called {file.stem}")
    return found


def changes(edit):
    """What an edit changes: the file within its crate, the old text and the new one, in order."""
    path, old = "", ""
    for line in edit.read_text().split("\n"):
        if line.startswith("file: "):
            path = line.removeprefix("file: ").strip()
        elif line.startswith("old: "):
            old = line.removeprefix("old: ")
        elif line.startswith("new:"):
            yield path, old, line.removeprefix("new:").removeprefix(" ")


def applied(edits):
    """The texts of the files that these wrong bodies of a crate change, by their paths in it, with the changes of them all; none, if one of
    them can't be applied: each old text has to stand once."""
    texts = {}
    for edit in edits:
        for path, old, new in changes(edit):
            file = edit.parent.parent / path
            text = texts.get(path) or (file.read_text() if file.is_file() else "")
            if text.count(old) != 1:
                return {}
            texts[path] = text.replace(old, new)
    return texts


def shortened(text, before, after):
    """The text where two differ, so many letters from its ends, with some words about it."""
    first, last = max(before - ABOUT, 0), len(text) - max(after - ABOUT, 0)
    first = text.rfind(" ", 0, first) + 1 if first else 0
    space = text.find(" ", last)
    last = space if space >= 0 and last < len(text) else len(text)
    shown = re.sub(r"\s+", " ", text[first:last])
    shown = shown if len(shown) <= MOST else f"{shown[: MOST * 2 // 3]} … {shown[-MOST // 4 :]}"
    return ("… " if first else "") + shown + (" …" if last < len(text) else "")


def told(old, new):
    """A change in a line: the two texts where they differ."""
    old, new = old.strip(), new.strip()
    before = len(os.path.commonprefix([old, new]))
    after = len(os.path.commonprefix([old[before:][::-1], new[before:][::-1]]))
    old, new = (shortened(text, before, after) for text in (old, new))
    return f"`{old}` becomes `{new}`" if new else f"`{old}` goes"


def line_of(edit):
    """A wrong body in a line: its file, and what it changes."""
    parts, last = [], ""
    for path, old, new in changes(edit):
        parts.append((f"{path}: " if path != last else "") + told(old, new))
        last = path
    return f"  {edit.parent.name}/{edit.stem}: {'; '.join(parts)}"


def listed(crates):
    """All wrong bodies of these crates, of all if none is named, with their number."""
    gate, rest = edits(GATE), edits(REST)
    yield f"{len(gate)} that the gate tries ({GATE}), and {len(rest)} for `make wrong-bodies` ({REST})"
    for crate in crate_list.rows():
        own = [edit for edit in [*gate.values(), *rest.values()] if edit.parent.parent.name == crate]
        if own and (not crates or crate in crates):
            yield from ["", f"{crate}: {len(own)}, of which the gate tries {sum(edit.parent.name == GATE for edit in own)}"]
            yield from (line_of(edit) for edit in sorted(own, key=lambda edit: edit.stem))
