#!/usr/bin/env python3
"""The trace of a quiet run by a second program: what docs/TRACE.md says of the form, over the rules as quiet_run.py has them. The traces
beside the examples and the program's own are held to it. As a command it prints the trace: tools/quiet_trace.py SCENARIO."""

import sys

sys.dont_write_bytecode = True
from quiet_run import Cell, JournalFull, Script, System
from scenario_checks import fail_tool, scenario_of


class Recorded(Script):
    """A script of which the last call is kept: what it answered, if it answers, and what it asked for."""

    called = None

    def keep(self, answer, effects):
        self.called = answer, list(effects)
        return answer, effects

    def begin(self, hook):
        return self.keep(*super().begin(hook))

    def receive(self, body):
        return self.keep(*super().receive(body))

    def stop(self):
        """A stop answers nothing."""
        return self.keep(None, super().stop())[1]


class SentMessage(tuple):
    """A system message that knows which entry sent it: its actor's number and its place; None of what comes from outside."""

    cause = None


class Traced(Cell):
    """A cell that tells the system of each of its entries."""

    script_type = Recorded

    def __init__(self, system, number, *others):
        super().__init__(system, number, *others)
        self.arrived, self.numbers_aside = 0, []

    def standing(self):
        return self.phase, self.suspensions, self.script.state if self.script else None

    def entry(self, what, apply):
        """Applies what came, and notes it with what became of it."""
        before, waiting = self.standing(), len(self.aside)
        if self.script:
            self.script.called = None
        self.system.current = self.number, self.entries
        apply()
        self.system.current = None
        answer, effects = self.script and self.script.called or (None, [])
        if len(self.aside) > waiting:
            answer = "set aside"
        return [before, self.standing(), what, answer, effects]

    def apply_system(self, message):
        from_aside = len(self.aside) < len(self.numbers_aside)
        number = self.numbers_aside.pop(0) if from_aside else self.arrived
        self.arrived += not from_aside
        made = self.entry(self.system.system_came(number, message), lambda: super(Traced, self).apply_system(message))
        self.system.causes.append(getattr(message, "cause", None))
        if made[3] == "set aside":
            self.numbers_aside.append(number)
        self.system.note(self, made)

    def apply_envelope(self, sent, body):
        is_dropped = body[0] == "terminated" and body[1] not in self.due
        what = self.system.envelope_came(sent, body)
        made = self.entry(what, lambda: super(Traced, self).apply_envelope(sent, body))
        self.system.causes.append(self.system.sent_at.get(sent))
        if is_dropped:
            made[3] = "dropped"
        self.system.note(self, made)


class Trace(System):
    """A run that keeps its lines; all entries and dead letters in the order of time; and which entry caused which."""

    cell_type = Traced

    def __init__(self, top):
        self.lines, self.lost, self.owner = [], [], None
        self.events, self.lost_now, self.causes, self.sent_at, self.current = [], [], [], {}, None
        super().__init__(top)

    # What causes what.

    def tell(self, to, body):
        self.sent_at[self.by, self.sent[self.by]] = self.current
        super().tell(to, body)

    def send_system(self, to, message):
        message = SentMessage(message)
        message.cause = self.current
        super().send_system(to, message)

    # Words.

    def name(self, number):
        return self.cells[number].name

    def sender(self, by):
        return f"outside {by - 64}" if by >= 64 else self.name(by)

    def system_came(self, number, message):
        return f"system #{number} {self.system_words(message)}"

    def envelope_came(self, sent, body):
        by, number = sent
        return f"{self.sender(by)} #{number} {self.body_words(body)}"

    def body_words(self, body):
        kind, *words = body
        if kind in ("user", "control"):
            return ("control " if kind == "control" else "") + f"kind {words[0]} value {words[1]}"
        return f"terminated {self.name(words[0])}" if kind == "terminated" else kind

    def system_words(self, message):
        kind, *words = message
        if kind == "recreate":
            return f"restart after {cause_words(words[0])}"
        if kind == "resume":
            return "resume after its failure" if words[0] else "resume"
        if kind in ("watch", "unwatch"):
            return f"{kind} by {self.name(words[0])}"
        if kind == "failed":
            return f"failed {self.name(words[0])} after {cause_words(words[1])}"
        return f"died {self.name(words[0])}" if kind == "died" else kind

    def effect_words(self, effect):
        kind, to, *rest = effect
        if kind != "tell":
            return f"{kind} {self.name(to)}"
        what, number, value = rest[0]
        return f"{'tell' if what == 'user' else what} {self.name(to)} kind {number} value {value}"

    # Lines.

    def happened(self, line):
        """The entry of this line happened, and then what was lost by it."""
        self.events += [line, *self.lost_now]
        self.lost_now = []

    def run_mailbox(self, cell):
        self.owner = None
        super().run_mailbox(cell)

    def note(self, cell, made):
        before, after, what, answer, effects = made
        if self.owner is None:
            self.lines.append(f"turn {cell.name}")
            self.owner = cell
        changes = [] if before[0] == after[0] else [after[0]]
        changes += [] if before[1] == after[1] else [f"suspended {after[1]}"]
        changes += [] if after[2] is None else [f"state {after[2]}"]
        outcome = f"failed {answer}" if isinstance(answer, int) else answer or "handled"
        self.lines.append(f"  {what}: " + ", ".join([outcome, *changes]))
        self.happened(self.lines[-1])
        self.lines += [f"    {self.effect_words(effect)}" for effect in effects]

    def lose(self, cell, envelope, why):
        super().lose(cell, envelope, why)
        sender = (1, cell.number) if why == "cleaned" else (0, envelope[0][0])
        self.lost.append((sender, self.dead_line(cell, envelope, why)))
        (self.events if self.current is None else self.lost_now).append(self.lost[-1][1])

    def dead_line(self, cell, envelope, why):
        return f"dead {self.envelope_came(*envelope)} to {cell.name}: {why}"

    def left_line(self, cell, envelope):
        return f"left {self.envelope_came(*envelope)} to {cell.name}"

    def aside_line(self, cell, number, message):
        return f"aside {self.system_came(number, message)} to {cell.name}"

    def told(self):
        """The whole trace, once the run has ended."""
        lines = self.lines + [line for _, line in sorted(self.lost, key=lambda one: one[0])]
        for cell in self.cells:
            while envelope := cell.mailbox.take():
                lines.append(self.left_line(cell, envelope))
        for cell in self.cells:
            for number, message in zip(cell.numbers_aside, cell.aside) if not cell.closed else ():
                lines.append(self.aside_line(cell, number, message))
        return "".join(line + "\n" for line in lines)


def cause_words(cause):
    return f"error {cause}" if isinstance(cause, int) else cause


def trace_of(top, form=Trace):
    """The trace of a scenario that passes all checks and is run quietly, or None where a journal becomes full."""
    run = form(top)
    try:
        run.run()
    except JournalFull:
        return None
    return run.told()


if __name__ == "__main__":
    told = trace_of(scenario_of(sys.argv[1:], "tools/quiet_trace.py SCENARIO"))
    if told is None:
        fail_tool("mailtrace: 6 JournalFull", 1)
    print(told, end="")
