"""Whether the order in the trace of a run on threads agrees with what caused what, by the entries that it shows and the scenario alone. It
shares nothing with the program: what it asks of an entry follows from docs/SEMANTICS.md."""

import collections
import json
import re
import typing

LINE = re.compile(r"  (?! )(?:system #(?P<system>\d+)|(?P<sender>\S+(?: \d+)?) #(?P<number>\d+)) (?P<message>.*?): (?P<outcome>[a-z]+(?: [a-z]+| \d+)?)(?:, .*)?")


class Entry(typing.NamedTuple):
    """An entry of the journal of its owner: who sent what came (None of a system message) and under which number, the words of the
    message and of the outcome, and the words of each effect."""

    owner: str
    sender: str | None
    number: int
    message: list
    outcome: str
    effects: list

    def __str__(self):
        return f"{self.sender or 'system'} #{self.number} {' '.join(self.message)}"


class Actor:
    """What the entries of an actor so far say of it."""

    def __init__(self):
        self.entries = self.sent = self.failures = self.arrived = 0
        self.watching, self.came, self.did = set(), collections.Counter(), collections.Counter()


def entries_of_text(trace):
    """The entries in the order of a trace's text."""
    found = []
    for line in trace.splitlines():
        if title := re.fullmatch(r"actor (\S+)", line):
            owner = title[1]
        elif line.startswith("    "):
            found[-1].effects.append(line.split())
        elif line.startswith("  "):
            parts = LINE.fullmatch(line)
            number = int(parts["number"] or parts["system"])
            found.append(Entry(owner, parts["sender"], number, parts["message"].split(), parts["outcome"], []))
    return found


def words_of(message):
    """The words of a message that is an object."""
    what = message["what"]
    return [what, *(["by"] if what in ("watch", "unwatch") else []), *([message["actor"]] if "actor" in message else [])]


def entries_of_lines(lines):
    """The entries in the order of lines of JSON."""
    found = [line for line in map(json.loads, lines.splitlines()) if line["line"] == "entry"]
    effects = [[[effect["do"], effect["to"]] for effect in line["effects"]] for line in found]
    return [Entry(line["actor"], line["sender"], line["number"], words_of(line["message"]), line["outcome"], asked) for line, asked in zip(found, effects)]


def cause_faults(found, top):
    """What is wrong with the order of these entries of a run of the scenario."""
    found, actors = [*found], collections.defaultdict(Actor)
    parents = {table["name"]: table.get("parent", "guardian") for table in top.get("actor", [])}
    stopped = collections.Counter()
    for send in top.get("send", []):
        stopped[send["to"]] += send.get("times", 1) if send.get("what") == "stop" else 0
    last = {entry.owner: place for place, entry in enumerate(found)}
    for place, entry in enumerate(found):
        fault = missing_cause(actors, parents, stopped, last, place, entry)
        if fault:
            return [f"{entry} of {entry.owner} at {place}: {fault}"]
        take(actors, entry, stopped)
    return []


def missing_cause(actors, parents, stopped, last, place, entry):
    """What does not stand before the entry and should."""
    owner, message = entry.owner, entry.message
    if entry.sender is not None:
        if not entry.sender.startswith("outside ") and actors[entry.sender].sent <= entry.number:
            return f"{entry.sender} has sent {actors[entry.sender].sent} envelopes so far"
        return None
    if entry.number < actors[owner].arrived:
        return None
    kind, parent = message[0], parents.get(owner)
    if kind == "died" and last.get(message[1], -1) > place:
        return f"{message[1]} has entries after it"
    if kind == "create" and parent and not actors[parent].did["spawn", owner] and not (parent == "guardian" and actors[parent].entries):
        return f"{parent} has not spawned it"
    if kind in ("watch", "unwatch"):
        by = actors[message[2]]
        if actors[owner].came[kind, message[2]] >= by.did[kind, owner] + (kind == "unwatch" and by.did["terminate"]):
            return f"{message[2]} has not asked for it"
    if kind == "failed" and actors[owner].came[kind, message[1]] >= actors[message[1]].failures:
        return f"{message[1]} has failed {actors[message[1]].failures} times so far"
    if kind in ("restart", "suspend", "resume") and not any(actors[parent].did[one] for one in ("failed", "restart", "suspend", "resume", "failure")):
        return f"{parent} has decided nothing"
    if kind == "terminate" and actors[owner].came[kind] >= stopped[owner] + (actors[parent].did["failed"] + actors[parent].did["terminate"] if parent else 0):
        return "nobody has stopped it"
    return None


def take(actors, entry, stopped):
    """Notes what the entry says of its actor and what it asks for."""
    actor, owner, message = actors[entry.owner], entry.owner, entry.message
    kind, outcome = message[0], entry.outcome
    actor.entries += 1
    if entry.sender is None and entry.number >= actor.arrived:
        actor.arrived = entry.number + 1
        actor.came[kind] += 1
        actor.came[kind, message[2] if kind in ("watch", "unwatch") else message[1] if len(message) > 1 else ""] += 1
    if outcome == "set aside":
        return
    if kind == "died" and entry.sender is None and message[1] in actor.watching:
        actor.watching.discard(message[1])
        actor.sent += 1
    if kind == "terminate":
        actor.watching.clear()
    actor.did[kind] += 1
    if outcome.startswith("failed") or kind in ("kill", "failed") or kind == "terminated" and outcome == "unhandled":
        actor.failures += 1
        actor.did["failure"] += 1
    stopped[owner] += kind == "poison"
    lasts = kind not in ("terminate", "died")
    for verb, to, *_ in entry.effects:
        actor.sent += verb in ("tell", "control")
        if lasts:
            actor.did[verb, to] += 1
            stopped[to] += verb == "stop"
            if verb == "watch" and to != owner:
                actor.watching.add(to)
            elif verb == "unwatch":
                actor.watching.discard(to)
