"""What a sequence diagram of a run shows, read from its SVG alone, and whether that is what journals say. It shares nothing with the
program: what it asks of a row follows from docs/TRACE.md and docs/SEMANTICS.md."""

import collections
import json
import re
import typing
import xml.etree.ElementTree

GUARDIAN = "guardian"
# How long an arrow is that nobody is known to have sent, and how far from its receiver's lane that of a dead letter stops.
FROM_NOBODY = SHORT = 72
STRAIGHT, LOOP = re.compile(r"M(\d+),(\d+) H(\d+)"), re.compile(r"M(\d+),(\d+) h26 v12 H(\d+)")


FRESH = "fresh", 1, None
VALUE = re.compile(r"(?<= value )-?[0-9]+")


class Shown(typing.NamedTuple):
    """An entry of the journal of its owner in the words of a diagram: who sent what came (None of a system message) and under which
    number, the message, what came of it ("" where it was handled, or applied with no call), whether the actor was called, the words
    of each effect, and the phase, the suspensions and the state (None where it has none) of the actor after it."""

    owner: str
    sender: str | None
    number: int
    message: str
    outcome: str
    is_called: bool | None
    effects: tuple
    after: tuple

    def is_like(self, other):
        """Whether the two differ in their numbers, their values and what they change alone."""
        return self.valueless() == other.valueless()

    def valueless(self):
        effects = tuple(VALUE.sub("", effect) for effect in self.effects)
        return self._replace(number=0, message=VALUE.sub("", self.message), effects=effects, after=None)


class Letter(typing.NamedTuple):
    """A dead letter: to whom, from whom, the message, and why it is dead."""

    owner: str
    sender: str
    message: str
    why: str

    def is_like(self, other):
        """Whether the two differ in their numbers and values alone."""
        return self._replace(message=VALUE.sub("", self.message)) == other._replace(message=VALUE.sub("", other.message))


class Row(typing.NamedTuple):
    """A row of a diagram: whether it is one of dead letters, what kinds it is of, who receives and who sends it, how many it stands for,
    the name of the line of its first entry in a page, its words, its marks with the middle of each and its texts with the beginning of
    each, and from where to where its arrow goes at which height."""

    is_dead: bool
    kinds: set
    owner: str
    sender: str | None
    times: int
    line: str | None
    message: str
    outcome: str
    marks: dict
    start: int
    end: int
    height: int

    def __str__(self):
        return f"the row {self.message} of {self.owner} at {self.height}"


class Diagram(typing.NamedTuple):
    """The lanes by their names, the height at which each lane ends and whether a mark stands there, the actors of the row of those that
    were created, the other rows, and all words with their places."""

    lanes: dict
    ends: dict
    created: list
    all_rows: list
    words: collections.Counter

    @property
    def rows(self):
        return [row for row in self.all_rows if not row.is_dead]

    @property
    def letters(self):
        return [row for row in self.all_rows if row.is_dead]


# Reading.


def spans_of(part):
    """From where to where the arrow of a row goes, and at which height."""
    for path in part.findall(".//{*}path"):
        if "arrow" in path.get("class").split():
            if found := STRAIGHT.fullmatch(path.get("d")):
                return int(found[1]), int(found[3]), int(found[2])
            if found := LOOP.fullmatch(path.get("d")):
                return int(found[1]), int(found[3]), int(found[2]) + 12
    raise ValueError("a row has no arrow")


def row_of(part):
    """A row, as its group has it."""
    words = {text.get("class"): "".join(text.itertext()) for text in part.findall(".//{*}text")}
    message, _, _ = words.get("label", "").partition(" × ")
    times = int(part.get("data-entries") or part.get("data-letters"))
    if words.get("label") != message + (f" × {times:,}" if times > 1 else ""):
        raise ValueError(f"the row {words.get('label')} stands for {times}")
    outcome, is_dead = words.get("bad") or words.get("note") or "", bool(part.get("data-letters"))
    start, end, height = spans_of(part)
    if part.get("data-y") != str(height):
        raise ValueError(f"the row {message} at {height} says that it is at {part.get('data-y')}")
    kinds, owner, sender, line = set(part.get("class").split()[1:]), part.get("data-actor"), part.get("data-by"), part.get("data-entry")
    return Row(is_dead, kinds, owner, sender, times, line, message, outcome, marks_of(part), start, end, height)


def marks_of(part):
    """The places of the marks and texts of a row, by their kinds."""
    places = collections.defaultdict(list)
    for mark in part.iter():
        kind, numbers = mark.get("class"), [int(mark.get(key, 0)) for key in ("x", "y", "cx", "cy", "width", "height")]
        if kind in ("bar", "dot", "label", "bad", "note"):
            places[kind].append((numbers[0] + numbers[2] + numbers[4] // 2, numbers[1] + numbers[3] + numbers[5] // 2))
        elif kind == "cross":
            left, top = map(int, re.fullmatch(r"M(\d+),(\d+) l10,10 m-10,0 l10,-10", mark.get("d")).groups())
            places[kind].append((left + 5, top + 5))
    return places


def created_in(part, names):
    """Whom the row of those that were created shows: the guardian, by its dot, and each at whose lane the tip of an arrow is."""
    tips = [int(re.match(r"M(\d+)", tip.get("d"))[1]) + 8 for tip in part.findall(".//{*}path") if tip.get("class") == "system-tip"]
    return [names.get(tip, f"no lane at {tip}") for tip in tips]


def diagram_of(picture):
    """The diagram, or a ValueError where it has no such form."""
    root = xml.etree.ElementTree.fromstring(picture)
    groups = [part for part in root.findall(".//{*}g") if part.get("class")]
    lanes = {one.get("data-actor"): int(one.find("{*}text").get("x")) for one in groups if one.get("class") == "name"}
    names = {place: name for name, place in lanes.items()}
    lines = [re.fullmatch(r"M(\d+),\d+ V(\d+)", path.get("d")) for path in root.findall(".//{*}path") if path.get("class") == "lane"]
    marked = [re.fullmatch(r"M(\d+),(\d+) h24", path.get("d")) for path in root.findall(".//{*}path") if path.get("class") == "end"]
    stops = {(int(mark[1]) + 12, int(mark[2])) for mark in marked}
    ends = {names[int(line[1])]: (int(line[2]), (int(line[1]), int(line[2])) in stops) for line in lines}
    created, rows = [], []
    for part in (one for one in groups if one.get("class").startswith("row")):
        if part.find("{*}path").get("class") == "system-tip" or part.find("{*}path").get("marker-end") is None and not part.get("data-letters"):
            created.append((int(part.get("data-entries")), created_in(part, names)))
        else:
            rows.append(row_of(part))
    words = collections.Counter((int(text.get("x")), "".join(text.itertext())) for text in root.findall(".//{*}text") if text.get("text-anchor") == "middle")
    return Diagram(lanes, ends, created, rows, words)


# The words of entries.


def cause_words(message):
    return f"error {message['error']}" if message["cause"] == "error" else message["cause"]


def message_words(message):
    """A message of a line of JSON, in the words of a diagram."""
    what = message["what"]
    if what in ("user", "control"):
        return f"{'control ' if what == 'control' else ''}kind {message['kind']} value {message['value']}"
    if what in ("watch", "unwatch"):
        return f"{what} by {message['actor']}"
    if what == "resume":
        return "resume after its failure" if message["of_failure"] else "resume"
    words = [what, *([message["actor"]] if "actor" in message else []), *(["after", cause_words(message)] if "cause" in message else [])]
    return " ".join(words)


def outcome_words(line):
    """What a diagram says of what came of the message of a line of JSON."""
    what, outcome = line["message"]["what"], line["outcome"]
    if outcome in ("set aside", "dropped"):
        return outcome
    if what == "kill":
        return "killed"
    if what == "terminated" and outcome == "unhandled":
        return "death pact"
    return f"failed {line['error']}" if outcome == "failed" else "unhandled" if outcome == "unhandled" else ""


def changed_words(before, after):
    """What a diagram says of how an actor stands: the phase and the suspensions where they are others, and the state."""
    words = [after[0]] if before[0] != after[0] else []
    words += [f"suspended {after[1]}"] if before[1] != after[1] else []
    return words + ([] if after[2] is None else [f"state {after[2]}"])


def row_message(messages):
    """The message of a row with these: if their values differ, the first and the last of them."""
    if len(set(messages)) == 1:
        return messages[0]
    values = [VALUE.search(message)[0] for message in (messages[0], messages[-1])]
    return VALUE.sub("", messages[0]).replace(" value ", " values ") + (", …, " if len(messages) > 2 else ", ").join(values)


def effect_words(effect):
    return " ".join([effect["do"], effect["to"], *(f"{key} {effect[key]}" for key in ("kind", "value") if key in effect)])


def entry_of(line):
    """The entry of a line of JSON."""
    is_called = line["outcome"] not in ("applied", "set aside", "dropped")
    after = tuple(line["after"][key] for key in ("phase", "suspended", "state"))
    effects = tuple(map(effect_words, line["effects"]))
    return Shown(line["actor"], line["sender"], line["number"], message_words(line["message"]), outcome_words(line), is_called, effects, after)


def letter_of(line):
    """The dead letter of a line of JSON."""
    return Letter(line["actor"], line["sender"], message_words(line["message"]), line["why"])


def events_of(lines):
    """The entries and the dead letters of lines of JSON, in their order."""
    found = [json.loads(line) for line in lines]
    return [entry_of(line) if line["line"] == "entry" else letter_of(line) for line in found if line["line"] in ("entry", "dead letter")]


def entries_of(lines):
    """The entries of lines of JSON, in order."""
    return [event for event in events_of(lines.splitlines()) if isinstance(event, Shown)]


# Holding a diagram to entries.


def sender_of(entry, parents):
    """Who sends what came, and None where no journal says it."""
    words = entry.message.split()
    if entry.sender is not None:
        return entry.sender
    if words[0] in ("watch", "unwatch", "failed", "died"):
        return words[2 if words[1] == "by" else 1]
    return None if words[0] == "terminate" else parents.get(entry.owner)


def is_about_failure(message):
    """Whether a system message tells of a failure, or of what was decided of one."""
    return message.split()[0] in ("failed", "restart") or message == "resume after its failure"


def is_created(entry, parents):
    """Whether it stands in the row of those that the guardian created: it started, or is the guardian's own."""
    return entry.sender is None and entry.message == "create" and parents.get(entry.owner, GUARDIAN) == GUARDIAN and not entry.outcome.startswith("failed")


def row_faults(row, entries, before, line, lanes, parents):
    """Whether a row shows these entries, of an actor that stood so before them; in a page the first has this line."""
    entry = entries[0]
    sender, is_system = sender_of(entry, parents), entry.sender is None
    is_failed = entry.outcome.startswith("failed") or entry.outcome in ("killed", "death pact")
    kinds = {"system" if is_system else "user", *(["failure"] if is_failed or is_system and is_about_failure(entry.message) else [])}
    is_restart = is_system and entry.message.split()[0] in ("restart", "resume") and entry.is_called is not False
    sought = {
        "owner": (row.owner, entry.owner),
        "message": (row.message, row_message([one.message for one in entries])),
        "outcome": (row.outcome, ", ".join([*([entry.outcome] if entry.outcome else []), *changed_words(before, entries[-1].after)])),
        "line": (row.line, line),
        "kinds": (row.kinds, kinds),
        "the arrow's end": (row.end, lanes.get(entry.owner)),
        "the arrow's start": (row.start, lanes.get(row.sender) if row.sender else row.end - FROM_NOBODY),
        "the cross": (row.marks["cross"], [(row.end, row.height)] * is_failed),
        "the dot": (row.marks["dot"], [(row.start, row.height)] * (row.sender is None)),
        "the bar": (len(row.marks["bar"]), int(is_restart)),
    }
    if entry.message != "terminate":
        sought["sender"] = (row.sender, sender)
    if entry.is_called is None:
        sought.pop("the bar")
    return [f"{row}: {what} is {found}, wanted {wanted}" for what, (found, wanted) in sought.items() if found != wanted] + [*stray_faults(row, min(row.start, row.end))]


def stray_faults(row, left):
    """Whether the texts and the bar of a row stand beside its arrow: the message above its way, which begins here, and the rest at its end."""
    for kind, (least, most, above, below) in {"label": (left, left + 40, 20, 0), **dict.fromkeys(("bad", "note", "bar"), (row.end - 40, row.end + 40, 0, 12))}.items():
        for x, y in row.marks[kind]:
            if not (least <= x <= most and row.height - above <= y <= row.height + below):
                yield f"{row}: its {kind} stands at {x}, {y}"


def taken(diagram, journals, parents):
    """The entries and the dead letters in the order of the rows, each row with as many entries as it stands for from the journal of its
    actor, and a list of the letters of each other row; and what is wrong."""
    left = {name: collections.deque(entries) for name, entries in journals.items()}
    stands, places, numbers = collections.defaultdict(lambda: FRESH), collections.Counter(), {name: n for n, name in enumerate([GUARDIAN, *parents])}
    order, faults = [], []

    def take(name):
        entry = left[name].popleft()
        stands[name], places[name] = entry.after, places[name] + 1
        order.append(entry)
        return entry

    for count, names in diagram.created:
        names = ([GUARDIAN] if len(names) < count else []) + names
        for name in names:
            if not left.get(name) or not is_created(left[name][0], parents):
                return order, [f"{name} stands in the row of those that were created, but its journal does not begin with such an entry"]
            take(name)
        if len(names) != count:
            faults.append(f"the row of those that were created stands for {count}, but shows {names}")
    for row in diagram.all_rows:
        if row.is_dead:
            order.append(row)
            continue
        if len(left.get(row.owner, ())) < row.times:
            return order, faults + [f"{row}: the journal of {row.owner} has no more entries"]
        before, line = stands[row.owner], f"e{numbers[row.owner]}-{places[row.owner]}"
        entries = [take(row.owner) for _ in range(row.times)]
        if strange := [entry for entry in entries if not entry.is_like(entries[0])]:
            return order, faults + [f"{row}: {strange[0]} differs from {entries[0]}"]
        faults += row_faults(row, entries, before, line, diagram.lanes, parents)
    return order, faults + [f"{name}: no row shows {entries[0]}" for name, entries in left.items() if entries]


def form_faults(diagram, parents, order):
    """Whether the rows stand one below another, one for those that were created, and none is like the one above it."""
    heights = [row.height for row in diagram.all_rows]
    if any(below <= above for above, below in zip(heights, heights[1:])):
        yield "the rows do not stand one below another"
    place = sum(count for count, _ in diagram.created)
    entries = [event for event in order if isinstance(event, Shown)]
    first = {entry.owner: entry for entry in reversed(entries)}
    if len(diagram.created) > 1 or any(is_created(entry, parents) and first[entry.owner] is entry for entry in entries[place:]):
        yield "some that the guardian created stand in no common row"
    for above, row in zip(diagram.all_rows, diagram.all_rows[1:]):
        place += 0 if above.is_dead else above.times
        if not above.is_dead and not row.is_dead and above.sender == row.sender and entries[place].is_like(entries[place - 1]):
            yield f"{row} is like the one above it"


def letter_faults(diagram, letters):
    """Whether the rows of dead letters show these, where they are known, in order, and each arrow stops short of the receiver, beside no
    other lane."""
    wanted = collections.deque(letters or ())
    for above, row in zip([None, *diagram.all_rows], diagram.all_rows):
        if not row.is_dead:
            continue
        shown = [wanted.popleft() for _ in range(min(row.times, len(wanted)))]
        if letters is not None and (len(shown) != row.times or not all(one.is_like(shown[0]) for one in shown)
                                    or (row.owner, row.sender, row.message, row.outcome) != (*shown[0][:2], row_message([one.message for one in shown]), shown[0].why)):
            yield f"{row} stands for {row.times} from {row.sender}, {row.outcome}, wanted {shown}"
        start, end = diagram.lanes.get(row.sender, -1), diagram.lanes.get(row.owner, -1)
        stops = start < row.end if start == end else row.end == end + (SHORT if end < start else -SHORT)
        yield from stray_faults(row, min(start, end))
        if row.start != start or not stops or row.marks["cross"] != [(row.end, row.height)]:
            yield f"{row} goes from {row.start} to {row.end}, from the lane at {start} short of that at {end}"
        same = above and above.is_dead and all(getattr(above, key) == getattr(row, key) for key in ("owner", "sender", "outcome"))
        if same and VALUE.sub("", above.message) == VALUE.sub("", row.message) and " values " not in above.message + row.message:
            yield f"{row} is like the one above it"
    if wanted:
        yield f"no row shows the dead letter {wanted[0]}"


def foot_faults(diagram, report):
    """Whether each lane's foot says what the report says of its actor, and it ends with its last row where its actor has ended."""
    last = {}
    for row in diagram.rows:
        last[row.owner] = row.height
    for line in report.splitlines()[:-1]:
        name, phase, *words = line.split(" ")
        found = dict(zip(words[::2], words[1::2]))
        if name not in diagram.lanes:
            continue
        sought = [phase, *([f"state {found['state']}"] if found["state"] != "-" else []), *([f"left {found['left']}"] if found["left"] != "0" else [])]
        yield from (f"the foot of {name} has no {words}" for words in sought if not diagram.words[diagram.lanes[name], words])
        height, is_marked = diagram.ends[name]
        is_ended = phase == "ended" and name in last
        if is_marked != is_ended or is_ended and not last[name] < height < last[name] + 28:
            yield f"the lane of {name} ends at {height}, {'with' if is_marked else 'without'} a mark"


def diagram_faults(picture, journals, letters, report, parents):
    """The entries of these journals and the rows of dead letters, in the order of a picture's rows, and what is wrong with it. Where the
    dead letters are None, any may be."""
    try:
        diagram = diagram_of(picture)
    except (ValueError, TypeError, KeyError, AttributeError, xml.etree.ElementTree.ParseError) as error:
        return [], [f"no diagram: {error!r}"]
    order, faults = taken(diagram, journals, parents)
    faults += [] if faults else form_faults(diagram, parents, order)
    return order, faults + [*letter_faults(diagram, letters), *foot_faults(diagram, report)]


def journals_of(entries):
    """The entries by their owners, each journal in its order."""
    journals = collections.defaultdict(list)
    for entry in entries:
        journals[entry.owner].append(entry)
    return journals


def parents_of(top):
    """The parent of each actor of a scenario. The guardian has none."""
    return {table["name"]: table.get("parent", GUARDIAN) for table in top.get("actor", [])}


def picture_faults(picture, events, report, top):
    """Whether a picture shows these entries and dead letters, which are lines of JSON, in their order."""
    events = events_of(events)
    entries, letters = ([event for event in events if isinstance(event, kind)] for kind in (Shown, Letter))
    parents = parents_of(top)
    order, faults = diagram_faults(picture, journals_of(entries), letters, report, parents)
    if faults:
        return faults
    place = sum(count for count, _ in diagram_of(picture).created)
    created, order = order[:place], order[place:]
    wanted = [event for event in events if event not in created]
    waiting = iter([event for event in wanted if isinstance(event, Letter)])
    shown = [event for one in order for event in ([one] if isinstance(one, Shown) else [next(waiting) for _ in range(one.times)])]
    return [] if shown == wanted else ["the rows stand in another order than what happened"]
