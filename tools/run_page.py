"""What stands in a page of HTML that shows a run: its report, its diagram and its journals, read from the page alone."""

import collections
import html.parser
import re

from sequence_diagram import Shown

# Elements without an end.
ALONE = ("area", "base", "br", "col", "hr", "img", "input", "link", "meta")
NUMBER = re.compile(r"(?:(?P<sender>.+), number|system message) (?P<number>\d+)")


class Page(html.parser.HTMLParser):
    """A page: whether each element is closed in order and refers to nothing outside, its report, and its journals, each with its rows and
    their cells; and of the lines of entries, by their names, the line of the cause that each leads to."""

    def __init__(self, text):
        super().__init__()
        self.open, self.faults, self.report, self.rows = [], [], "", collections.defaultdict(list)
        self.causes, self.line = {}, None
        self.feed(text)
        self.faults += [f"{name} is not closed" for name in self.open]

    def handle_starttag(self, name, keys):
        keys = dict(keys)
        if name == "a" and keys["href"].startswith("#"):
            self.causes[self.line] = keys.pop("href")[1:]
        self.faults += [f"{name} refers to {keys[key]}" for key in ("src", "href") if key in keys]
        if name == "details":
            self.owner = keys.get("data-actor")
            self.rows[self.owner] = []
        elif name == "tr" and "entry" in (keys.get("class") or "").split():
            self.rows[self.owner].append([])
            self.line = keys["id"]
            self.causes[self.line] = None
        elif name == "td":
            self.rows[self.owner][-1].append([""])
        elif name == "br":
            self.rows[self.owner][-1][-1].append("")
        if name not in ALONE:
            self.open.append(name)

    def handle_startendtag(self, name, keys):
        pass

    def handle_endtag(self, name):
        if not self.open or self.open.pop() != name:
            self.faults.append(f"{name} is closed out of order")

    def handle_data(self, data):
        if self.open and self.open[-1] == "pre":
            self.report += data
        elif self.open and (self.open[-1] == "td" or self.open[-2:] == ["td", "a"]):
            self.rows[self.owner][-1][-1][-1] += data

    def journals(self):
        """The entries of each journal in the words of a diagram."""
        return {owner: [shown(owner, cells) for cells in rows] for owner, rows in self.rows.items()}

    def number_faults(self):
        """Whether the entries of each journal have the numbers from 0."""
        for owner, rows in self.rows.items():
            if [cells[0] for cells in rows] != [[str(number)] for number in range(len(rows))]:
                yield f"the journal of {owner} has the entries {[cells[0][0] for cells in rows]}"


def shown(owner, cells):
    _, (message,), (number,), (outcome,), (phase,), (suspended,), (state,), effects = cells
    found = NUMBER.fullmatch(number)
    said = "" if outcome == "handled" else outcome
    after = phase, int(suspended), None if state == "-" else int(state)
    return Shown(owner, found["sender"], int(found["number"]), message, said, None, tuple(words for words in effects if words), after)


def diagram_in(page):
    """The text of the diagram of a page, which comes behind the names that stay in sight."""
    start = page.index("<svg xmlns")
    return page[start : page.index("</svg>", start) + len("</svg>\n")]
