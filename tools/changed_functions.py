"""Which functions of the code a wrong body changes, and what of the prover's output is about one of them."""

import re
import typing

import wrong_bodies

HEAD = re.compile(r"^(\s*)(?:pub(?:\([\w ]+\))? )?(?:const )?(?:unsafe )?fn (\w+)")
IMPL = re.compile(r"^(\s*)(?:unsafe )?impl\b(?:<.*?>)? (.*?)(?: \{)?$")
# A line that brings in names, and changes no meaning.
IMPORTS = re.compile(r"(?:pub |ghost )?use ")
# A line that tells of a place: its file, its line, and what is said.
PLACE = re.compile(r"(?:note: )?(?:\./)?((?:src|specs|proofs)/\S+?):(\d+):\d+: (.*)")
# How the prover tells that it found no proof of something that the code owes.
UNPROVED = ("it is not proved", "`search` found no proof")
# A proof that names what is not there any more, or rests on such a proof: that says little of the contract.
LOST_NAME = re.compile(r"has no field|is not in scope|has no `|was not admitted")


def module_of(file):
    """The path of a file's module, below its crate."""
    return "::".join(part for part in file.removeprefix("src/").removesuffix(".rt").split("/") if part not in ("lib", "main", "mod"))


class Function(typing.NamedTuple):
    """A function of the code: its file in the crate, its type if it is a method, its name, and its lines, counted from 1: the first of its
    attributes and comments, the one that opens its body, and the last."""

    file: str
    owner: str
    name: str
    first: int
    body: int
    last: int

    def type_name(self):
        """The name of its type: nothing, if it is no method."""
        return re.match(r"\w*", self.owner.rpartition(" for ")[2])[0]

    def path(self):
        """What the prover's `--only` calls it. A method's path begins at its type, wherever that is declared, so its end is given. For a method
        of a trait it is the path of the module."""
        if " for " in self.owner:
            return module_of(self.file)
        return f"{self.type_name() or module_of(self.file)}::{self.name}".removeprefix("::")

    def owns_proof(self, path):
        """Whether a file of proofs/ is of this function's proof, which stands at its path."""
        folder = rf"proofs/(.*/)?{self.type_name()}\w*/" if self.owner else "/".join(["proofs", *filter(None, module_of(self.file).split("::"))]) + "/"
        return re.match(f"{folder}{self.name}/", path) is not None

    def has_line(self, path, number):
        return path == self.file and self.first <= number <= self.last


def end_of(lines, at, indent):
    """The number of the line that ends the item that begins at a line, by the layout: a brace at the same indent."""
    return next((number for number in range(at, len(lines)) if lines[number] == f"{indent}}}"), None)


def begin_of(lines, at):
    """The number of the line at which the attributes and comments of an item begin."""
    while at > 0 and lines[at - 1] and not lines[at - 1].endswith(("{", "}", ";")):
        at -= 1
    return at


def functions(file, text):
    """The functions of a text of the code, outer before inner; one that stands on a single line is left out."""
    lines, owners = text.split("\n"), []
    for at, line in enumerate(lines):
        if impl := IMPL.match(line):
            owners.append((at, end_of(lines, at, impl[1]), impl[2]))
        head = HEAD.match(line)
        last = head and not line.endswith((";", "}")) and end_of(lines, at, head[1])
        if last:
            owner = next((name for first, end, name in owners if end and first < at < end), "")
            opens = (number for number in range(at, last) if lines[number] == f"{head[1]}{{" or lines[number].endswith(") {"))
            yield Function(file, owner, head[2], begin_of(lines, at) + 1, next(opens, at) + 1, last + 1)


def changed(edit):
    """The functions whose bodies a wrong body changes, imports apart; none, if it changes anything else."""
    crate, found = edit.parent.parent, []
    for file, old, _ in wrong_bodies.changes(edit):
        text = (crate / file).read_text() if (crate / file).is_file() else ""
        number = text[: text.find(old)].count("\n") + 1
        # (a text that is not there, or that an earlier pair of lines made, stands in no function)
        around = [it for it in functions(file, text) if it.body < number < it.last] if file.startswith("src/") and old in text else []
        if not around and not (old in text and IMPORTS.match(text.split("\n")[number - 1])):
            return []
        found += around[-1:]
    return list(dict.fromkeys(found))


def refusals(said, function):
    """What the prover refuses of a function, each with its place, those that speak of what it ensures first."""
    found = []
    for line in said:
        place = PLACE.match(line)
        if not place:
            continue
        path, number, text = place[1], int(place[2]), place[3]
        in_code = function.has_line(path, number) and (text.startswith("error") or any(words in text for words in UNPROVED))
        in_proof = function.owns_proof(path) and text.startswith("error") and not LOST_NAME.search(text)
        if in_code or in_proof:
            found.append(f"{path}:{number}: {text}")
    return sorted(found, key=lambda text: "ensures" not in text and "`returns" not in text)
