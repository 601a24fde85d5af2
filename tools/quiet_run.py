#!/usr/bin/env python3
"""The rules of docs/SEMANTICS.md as a second program, for a scenario that passes all checks, run quietly on one thread. It shares
nothing with the program, knows no locks and no threads, and proves nothing: the reports beside the examples and the program's own
are held to it. As a command it prints the report: tools/quiet_run.py SCENARIO [--turns]. With --turns each run of a mailbox is told
before that, as (actor;system messages,envelopes). What is no scenario is told by the program's line, with the status 2."""

import collections
import sys

sys.dont_write_bytecode = True
from scenario_checks import fail_tool, scenario_of

FRESH, LIVE, BROKEN, ENDING, ENDED = "fresh", "live", "broken", "ending", "ended"
LOW, HIGH = -(2**63), 2**63 - 1
MOST_EFFECTS = 16
MOST_TAKEN_IN = 1024


class JournalFull(Exception):
    """A journal has as many entries as it may have."""


class Mailbox:
    """The envelopes of an actor, each ((sender, number), body), by the kind of its mailbox."""

    def __init__(self, table):
        self.kind = table.get("mailbox", "unbounded")
        self.capacity = table.get("capacity")
        self.other = table.get("other", 1)
        self.ranks = {}
        for row in table.get("rank", []):
            self.ranks.setdefault(row["kind"], row["rank"])
        self.arrivals, self.control, self.taken_in, self.number = collections.deque(), collections.deque(), [], 0

    def push(self, envelope):
        if self.kind == "bounded" and len(self.arrivals) >= self.capacity:
            return False
        is_control = self.kind == "control" and envelope[1][0] == "control"
        (self.control if is_control else self.arrivals).append(envelope)
        return True

    def rank(self, body):
        return self.ranks.get(body[1], self.other) if body[0] == "user" else self.other

    def take(self):
        if self.kind == "priority":
            while self.arrivals and len(self.taken_in) < MOST_TAKEN_IN:
                envelope = self.arrivals.popleft()
                self.number += 1
                self.taken_in.append((self.rank(envelope[1]), self.number, envelope))
            if not self.taken_in:
                return None
            least = min(self.taken_in, key=lambda one: one[:2])
            self.taken_in.remove(least)
            return least[2]
        parts = [part for part in (self.control, self.arrivals) if part]
        return parts[0].popleft() if parts else None

    def count(self):
        return len(self.arrivals) + len(self.control) + len(self.taken_in)


class Script:
    """The actor of a scenario. A call answers `handled`, `unhandled` or an error's number, and asks for effects."""

    def __init__(self, table, number_of, prepared, actors):
        self.table, self.number_of, self.actors = table, number_of, actors
        self.state = table.get("initial", 0)
        self.unspawned = set(prepared)
        self.rows = {}
        for row in table.get("on", []):
            self.rows.setdefault(row["kind"], row["do"])

    def ask(self, effects, effect):
        """The effect goes last, unless the outbox refuses it."""
        if len(effects) < MOST_EFFECTS and (effect[0] != "spawn" or effect[1] in self.unspawned and effect not in effects):
            effects.append(effect)

    def perform(self, operations, value):
        effects = []
        for operation in operations:
            verb, *words = operation.split(" ")
            if verb == "fail":
                return int(words[0]), self.given(effects)
            if verb == "add":
                self.state = max(LOW, min(HIGH, self.state + value))
            elif verb in ("tell", "control"):
                self.ask(effects, ("tell", self.number_of[words[0]], ("user" if verb == "tell" else verb, int(words[1]), value)))
            elif verb != "ignore":
                self.ask(effects, (verb, self.number_of[words[0]]))
        return "handled", self.given(effects)

    def given(self, effects):
        self.unspawned -= {effect[1] for effect in effects if effect[0] == "spawn"}
        return effects

    def begin(self, hook):
        self.state = self.table.get("initial", 0)
        return self.perform(self.table.get(hook, []), 0)

    def stop(self):
        return self.perform(self.table.get("stop", []), 0)[1]

    def receive(self, body):
        if body[0] == "terminated":
            operations, value = self.table.get("terminated"), body[1]
        else:
            operations, value = self.rows.get(body[1]), body[2]
        return ("unhandled", []) if operations is None else self.perform(operations, value)


class Cell:
    """An actor with all that is known of it."""

    script_type = Script

    def __init__(self, system, number, table, parent, prepared):
        self.system, self.number, self.parent, self.prepared = system, number, parent, prepared
        self.name = table.get("name", "guardian")
        self.script = self.script_type(table, system.number_of, prepared, len(system.tables)) if number else None
        self.strategy = [(row["cause"], row["then"]) for row in table.get("strategy", [])]
        self.retries, self.all_for_one = table.get("retries", -1), table.get("all_for_one", False)
        self.mailbox = Mailbox(table)
        self.phase, self.suspensions, self.failed_by, self.was_live = FRESH, 1, None, False
        self.children, self.watchers, self.watching, self.due, self.aside = [], [], [], [], []
        self.permissions = collections.Counter()
        self.listed, self.drained, self.entries = collections.deque(), collections.deque(), 0
        self.closed = self.scheduled = False
        self.handled = self.restarts = self.dead = 0

    # What the cell asks of the system.

    def send(self, to, *message):
        self.system.send_system(to, message)

    def send_all(self, receivers, *message):
        for to in list(receivers):
            self.send(to, *message)

    def carry_out(self, effects):
        for kind, to, *rest in effects:
            if kind == "tell":
                self.system.tell(to, rest[0])
            elif kind == "stop":
                self.send(to, "terminate")
            elif kind == "spawn":
                self.children.append(to)
                self.permissions[to] = 0
                self.send(to, "create")
            elif kind == "watch" and to != self.number and to not in self.watching:
                self.watching.append(to)
                self.send(to, "watch", self.number)
            elif kind == "unwatch":
                self.due = [one for one in self.due if one != to]
                if to in self.watching:
                    self.watching.remove(to)
                    self.send(to, "unwatch", self.number)

    def suspend_self(self):
        self.suspensions += 1

    def resume_self(self):
        self.suspensions = max(0, self.suspensions - 1)

    # The rules.

    def fail(self, cause, who, spared=()):
        if self.failed_by is not None:
            return
        self.suspend_self()
        self.failed_by = who
        self.send_all([child for child in self.children if child not in spared], "suspend")
        if self.number:
            self.send(self.parent, "failed", self.number, cause)
        else:
            self.send(0, "terminate")

    def end(self):
        if self.was_live and self.script:
            self.carry_out([effect for effect in self.script.stop() if effect[0] == "tell"])
        self.phase, self.closed, self.suspensions = ENDED, True, 0
        self.system.clean_up(self)
        if self.number:
            self.send(self.parent, "died", self.number)
        self.send_all([watcher for watcher in self.watchers if watcher != self.parent], "died", self.number)

    def waits(self, kind):
        """Whether a system message of this kind is set aside now."""
        if self.phase == ENDING:
            return kind in ("failed", "recreate", "suspend", "resume")
        return self.phase != FRESH and self.suspensions > 0 and kind == "failed"

    def apply_system(self, message):
        kind, *words = message
        self.entries += 1
        if self.phase == FRESH and kind not in ("create", "terminate", "watch", "unwatch"):
            return
        if self.waits(kind):
            self.aside.append(message)
            return
        getattr(self, "apply_" + kind)(*words)

    def apply_create(self):
        if self.phase != FRESH:
            return
        self.resume_self()
        if not self.number:
            self.phase = LIVE
            self.carry_out([("spawn", child) for child in self.prepared])
            return
        answer, effects = self.script.begin("start")
        self.carry_out(effects)
        self.phase = BROKEN if isinstance(answer, int) else LIVE
        if self.phase == BROKEN:
            self.fail("init", self.number)

    def apply_suspend(self):
        self.suspend_self()
        self.send_all(self.children, "suspend")

    def apply_resume(self, of_failure):
        if self.phase == BROKEN:
            self.apply_recreate("init")
            return
        self.resume_self()
        for child in list(self.children):
            self.send(child, "resume", of_failure and child == self.failed_by)
        if of_failure:
            self.failed_by = None

    def apply_recreate(self, cause):
        if not self.number:
            return
        self.resume_self()
        self.failed_by = None
        survivors = list(self.children)
        self.restarts += 1
        answer, effects = self.script.begin("restart")
        self.carry_out(effects)
        self.phase = BROKEN if isinstance(answer, int) else LIVE
        if self.phase == BROKEN:
            self.fail("init", self.number, survivors)
        else:
            self.send_all(survivors, "recreate", cause)

    def directive(self, cause):
        is_error = isinstance(cause, int)
        for pattern, directive in self.strategy:
            if pattern == "any" or (pattern == "error" and is_error) or pattern == (f"error {cause}" if is_error else cause):
                return directive
        return "restart" if is_error else "stop"

    def permits(self, child):
        """Whether the child may be started afresh once more."""
        if self.retries < 0:
            return True
        if self.retries < 1:
            return False
        self.permissions[child] += 1
        return self.permissions[child] <= self.retries

    def apply_failed(self, child, cause):
        if child not in self.children:
            return
        directive = self.directive(cause)
        concerned = list(self.children) if self.all_for_one else [child]
        if directive == "resume":
            self.send(child, "resume", True)
        elif directive == "escalate":
            self.fail(cause, child, [child])
        elif directive == "restart" and all(self.permits(one) for one in concerned):
            for one in concerned:
                if one != child:
                    self.send(one, "suspend")
                self.send(one, "recreate", cause)
        else:
            self.send_all(concerned, "terminate")

    def apply_terminate(self):
        if self.phase == ENDING:
            return
        self.was_live = self.phase == LIVE
        self.send_all(self.watching, "unwatch", self.number)
        self.watching, self.due = [], []
        self.send_all(self.children, "terminate")
        if not self.children:
            self.end()
            return
        self.suspend_self()
        self.failed_by, self.phase = self.number, ENDING

    def apply_watch(self, watcher):
        if watcher not in self.watchers:
            self.watchers.append(watcher)

    def apply_unwatch(self, watcher):
        self.watchers = [one for one in self.watchers if one != watcher]

    def apply_died(self, who):
        if who in self.watching:
            self.watching.remove(who)
            self.due.append(who)
            self.system.tell(self.number, ("terminated", who))
        if who in self.children:
            self.children.remove(who)
            if self.phase == ENDING and not self.children:
                self.end()

    def apply_envelope(self, sent, body):
        self.entries += 1
        self.handled += 1
        if body[0] == "poison":
            self.send(self.number, "terminate")
        elif body[0] == "kill":
            self.fail("killed", self.number)
        elif body[0] != "terminated" or body[1] in self.due:
            self.due = [one for one in self.due if body[0] != "terminated" or one != body[1]]
            answer, effects = self.script.receive(body)
            self.carry_out(effects)
            if isinstance(answer, int):
                self.fail(answer, self.number)
            elif answer == "unhandled" and body[0] == "terminated":
                self.fail("deathpact", self.number)

    def front(self):
        """Whether a message that is set aside goes before all others now."""
        return self.aside and self.suspensions == 0 and self.phase not in (ENDING, ENDED)


class System:
    """All actors, and the claims of those that are to be run, in order."""

    cell_type = Cell

    def __init__(self, top, refused=0):
        self.tables, self.top = top.get("actor", []), top
        self.pushed, self.refused = 0, refused
        self.number_of = {"guardian": 0, **{table["name"]: number for number, table in enumerate(self.tables, 1)}}
        parents = [self.number_of[table.get("parent", "guardian")] for table in self.tables]
        self.cells = []
        for number, table in enumerate([{}, *self.tables]):
            prepared = [child for child, parent in enumerate(parents, 1) if parent == number]
            self.cells.append(self.cell_type(self, number, table, parents[number - 1] if number else None, prepared))
        self.cells[0].listed.append(("create",))
        self.limit, self.throughput = top.get("journal_limit", 4294967295), max(1, top.get("throughput", 5))
        stealing = top.get("pool") == "stealing"
        self.own = collections.deque()
        # What was scheduled before the run: with one queue it comes first, with a queue for each worker last.
        self.feed = collections.deque() if stealing else self.own
        self.claims, self.turns = self.feed, []
        # Who sends now, an actor by its number and a sender outside from 64 on, and how many envelopes each has sent.
        self.by, self.sent = 64, collections.Counter()

    # Scheduling.

    def register(self, cell, message=False, system=False):
        has_system = system or cell.listed or cell.drained
        if cell.closed or cell.scheduled:
            return
        if has_system or (cell.suspensions == 0 and (message or cell.mailbox.count())):
            cell.scheduled = True
            self.claims.append(cell)

    def tell(self, to, body):
        cell, envelope = self.cells[to], ((self.by, self.sent[self.by]), body)
        self.sent[self.by] += 1
        self.pushed += 1
        if cell.closed or self.pushed == self.refused or not cell.mailbox.push(envelope):
            self.lose(cell, envelope, "closed" if cell.closed else "no memory" if self.pushed == self.refused else "full")
            self.register(cell)
        else:
            self.register(cell, message=True)

    def lose(self, cell, envelope, why):
        """The envelope to the cell is a dead letter."""
        cell.dead += 1

    def send_system(self, to, message):
        cell = self.cells[to]
        if cell.closed:
            self.answer_dead(cell, message)
        else:
            cell.listed.append(message)
            self.register(cell, system=True)

    def answer_dead(self, cell, message):
        """A system message to an actor that has ended: its end is told to who watches it, or has started it."""
        if message[0] == "watch":
            self.send_system(message[1], ("died", cell.number))
        elif message[0] == "create":
            self.send_system(cell.parent, ("died", cell.number))

    def clean_up(self, cell):
        dead = [*cell.drained, *cell.listed]
        cell.drained.clear()
        cell.listed.clear()
        for message in dead:
            self.answer_dead(cell, message)
        while envelope := cell.mailbox.take():
            self.lose(cell, envelope, "cleaned")

    # A run of a mailbox.

    def make_room(self, cell):
        if cell.entries >= self.limit:
            raise JournalFull

    def apply_all_system(self, cell):
        applied = 0
        while not cell.closed:
            if not cell.front() and not cell.drained:
                cell.drained, cell.listed = cell.listed, collections.deque()
                if not cell.drained:
                    break
            self.make_room(cell)
            message = cell.aside.pop(0) if cell.front() else cell.drained.popleft()
            cell.apply_system(message)
            applied += 1
        return applied

    def run_mailbox(self, cell):
        self.by = cell.number
        systems, envelopes = self.apply_all_system(cell), 0
        while envelopes < self.throughput and not cell.closed and cell.suspensions == 0:
            self.make_room(cell)
            envelope = cell.mailbox.take()
            if envelope is None:
                break
            cell.apply_envelope(*envelope)
            envelopes += 1
            systems += self.apply_all_system(cell)
        cell.scheduled = False
        self.turns.append((cell.number, systems, envelopes))
        self.register(cell)

    def run(self):
        for send in self.top.get("send", []):
            what, to = send.get("what", "user"), self.number_of[send["to"]]
            self.by = 64 + send.get("from", 0)
            for _ in range(send.get("times", 1)):
                if what == "stop":
                    self.send_system(to, ("terminate",))
                else:
                    self.tell(to, (what, send.get("kind"), send.get("value", 0)))
        self.claims = self.own
        for cell in self.cells:
            self.register(cell)
        while self.own or self.feed:
            self.run_mailbox((self.own or self.feed).popleft())

    def report(self):
        lines, sums = [], [0, 0, 0]
        for cell in self.cells:
            counts = [cell.handled, cell.mailbox.count(), cell.dead]
            sums = [one + more for one, more in zip(sums, counts)]
            state = cell.script.state if cell.script else "-"
            counted = "handled {} left {} dead {}".format(*counts)
            lines.append(f"{cell.name} {cell.phase} state {state} suspended {cell.suspensions} {counted} restarts {cell.restarts}")
        return "\n".join([*lines, "sent {} handled {} left {} dead {}".format(sum(sums), *sums)]) + "\n"


def report_of(top, refused=0):
    """The report of a scenario, or the line of its fault; and the turns. The envelope of the number `refused`, counted from 1 over all that
    are sent, finds no memory in its mailbox, and is a dead letter."""
    system = System(top, refused)
    try:
        system.run()
    except JournalFull:
        return "mailrun: 6 JournalFull\n", system.turns
    return system.report(), system.turns


def main():
    is_turns = "--turns" in sys.argv
    told, turns = report_of(scenario_of([word for word in sys.argv[1:] if word != "--turns"], "tools/quiet_run.py SCENARIO [--turns]"))
    if is_turns:
        print(*(f"({actor};{systems},{envelopes})" for actor, systems, envelopes in turns))
    if told.startswith("mailrun: "):
        fail_tool(told.rstrip(), 1)
    print(told, end="")


if __name__ == "__main__":
    main()
