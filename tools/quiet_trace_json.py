#!/usr/bin/env python3
"""The trace of a quiet run as lines of JSON, by a second program: what docs/trace.schema.json says of a line, over the rules as quiet_run.py
has them. The program's own are held to it. As a command it prints the lines: tools/quiet_trace_json.py SCENARIO."""

import json
import sys

sys.dont_write_bytecode = True
from quiet_trace import Trace, trace_of
from scenario_checks import fail_tool, scenario_of

# The version of the form.
VERSION = 1
# The status of a mailbox while its actor is given an envelope: scheduled, and neither closed nor suspended.
SCHEDULED = 2


def cause_parts(cause):
    is_error = isinstance(cause, int)
    return {"cause": "error" if is_error else cause, "error": cause if is_error else None}


def line_of(kind, **parts):
    return json.dumps({"line": kind, "version": VERSION, **parts}, sort_keys=True, separators=(",", ":"), ensure_ascii=False)


class JsonTrace(Trace):
    """A run that keeps its lines of JSON."""

    def body(self, body):
        kind, *words = body
        if kind in ("user", "control"):
            return {"what": kind, "kind": words[0], "value": words[1]}
        return {"what": kind, "actor": self.name(words[0])} if kind == "terminated" else {"what": kind}

    def message(self, message):
        kind, *words = message
        if kind == "recreate":
            return {"what": "restart", **cause_parts(words[0])}
        if kind == "resume":
            return {"what": kind, "of_failure": words[0]}
        about = {"actor": self.name(words[0])} if words else {}
        return {"what": kind, **about, **(cause_parts(words[1]) if kind == "failed" else {})}

    def effect(self, effect):
        kind, to, *rest = effect
        if kind != "tell":
            return {"do": kind, "to": self.name(to)}
        what, number, value = rest[0]
        return {"do": "tell" if what == "user" else what, "to": self.name(to), "kind": number, "value": value}

    def system_came(self, number, message):
        return {"number": number, "message": self.message(message)}

    def envelope_came(self, sent, body):
        by, number = sent
        return {"sender": self.sender(by), "number": number, "message": self.body(body)}

    def note(self, cell, made):
        _, (phase, suspended, state), came, answer, effects = made
        is_failure = isinstance(answer, int)
        status = SCHEDULED if "sender" in came and answer != "dropped" else None
        after = {"phase": phase, "suspended": suspended, "state": state}
        parts = {"sender": None, **came, "actor": cell.name, "entry": cell.entries - 1, "status": status, "after": after}
        outcome = {"outcome": "failed" if is_failure else answer or "applied", "error": answer if is_failure else None}
        self.lines.append(line_of("entry", **parts, **outcome, effects=[self.effect(effect) for effect in effects]))
        self.happened(self.lines[-1])

    def dead_line(self, cell, envelope, why):
        return line_of("dead letter", actor=cell.name, why=why, **self.envelope_came(*envelope))

    def left_line(self, cell, envelope):
        return line_of("left", actor=cell.name, **self.envelope_came(*envelope))

    def aside_line(self, cell, number, message):
        return line_of("set aside", actor=cell.name, **self.system_came(number, message))


def events_of(top):
    """The lines of the entries and of the dead letters of a quiet run in the order of time, those that senders outside the actors lost
    before it by their numbers; and the causes of the entries, by their actors and places: each an actor's number and a place, or None."""
    run = JsonTrace(top)
    run.run()
    first = next((place for place, line in enumerate(run.events) if '"line":"entry"' in line), len(run.events))
    before = sorted(run.events[:first], key=lambda line: int(json.loads(line)["sender"].split()[1]))
    return before + run.events[first:], run.causes


if __name__ == "__main__":
    told = trace_of(scenario_of(sys.argv[1:], "tools/quiet_trace_json.py SCENARIO"), JsonTrace)
    if told is None:
        fail_tool("mailtrace: 6 JournalFull", 1)
    print(told, end="")
