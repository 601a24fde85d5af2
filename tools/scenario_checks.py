"""A second reader of docs/SCENARIO.md: which check of a scenario fails first. It shares no code with the program. A tool that takes a scenario
from its user reads it by `scenario_of`, which ends with the program's line and status where it is none."""

import math
import re
import sys
import tomllib

sys.dont_write_bytecode = True

MOST = 4294967295
# How many bytes a text has at most.
MOST_BYTES = 1_048_576
# How deep values may nest.
DEEPEST = 80


class Fault(Exception):
    """What the first check says that fails."""


def fail(place, reason):
    raise Fault(f"{place}: {reason}")


def is_name(text):
    return re.fullmatch("[a-z][a-z0-9_]{0,31}", text) is not None and text != "guardian"


def is_number(text):
    return re.fullmatch("0|[1-9][0-9]*", text) is not None and int(text) <= MOST


def is_integer(value):
    return isinstance(value, int) and not isinstance(value, bool)


def is_cause(text):
    return text in ("any", "error", "init", "killed", "deathpact") or (text[:6] == "error " and is_number(text[6:]))


class Key:
    """A key of a table, with the tests of its value, each of which takes the value, the table, and the actors."""

    def __init__(self, name, has_type, required=False, most=None, **tests):
        self.name, self.has_type, self.required, self.most, self.tests = name, has_type, required, most, tests

    def test(self, which, *given):
        return which not in self.tests or self.tests[which](*given)

    def check(self, prefix, table, actors):
        place = prefix + self.name
        allowed = self.test("allowed", table)
        if self.name not in table:
            return fail(place, "missing") if self.required and allowed else None
        value = table[self.name]
        if not self.has_type(value):
            fail(place, "wrong type")
        if not allowed:
            fail(place, "not allowed")
        if not self.test("fits", value, table):
            fail(place, "out of range")
        if self.most is not None and len(value) > self.most:
            fail(place, "too many")
        if not self.test("known", value, actors):
            fail(place, "unknown name")
        if not self.test("fresh", value, actors):
            fail(place, "repeated name")


class Actors:
    """The actors of a document: all of them, the one that is checked, and how many come before it."""

    def __init__(self, tables, earlier=0):
        self.tables, self.earlier = tables, earlier
        self.names = [table.get("name") if isinstance(table, dict) else None for table in tables]

    def own_child(self, name):
        own = self.names[self.earlier]
        return any(name == table.get("name") and own == table.get("parent", "guardian") for table in self.tables)


def whole(name, low, high, **how):
    return Key(name, is_integer, fits=lambda value, table: low <= value <= high, **how)


def word(name, *words, **how):
    return Key(name, lambda value: isinstance(value, str), fits=lambda value, table: value in words, **how)


def text(name, **how):
    return Key(name, lambda value: isinstance(value, str), **how)


def array(name, **how):
    return Key(name, lambda value: isinstance(value, list), **how)


def is_bounded(table):
    return table.get("mailbox", "unbounded") == "bounded"


def is_priority(table):
    return table.get("mailbox", "unbounded") == "priority"


def is_message(table):
    return table.get("what", "user") in ("user", "control")


TOP = [
    whole("workers", 0, 16),
    word("pool", "shared", "stealing"),
    whole("throughput", 0, MOST),
    whole("journal_limit", 1, MOST),
    array("actor", most=63),
    array("send", most=10000),
]
NAME = text(
    "name",
    required=True,
    fits=lambda value, table: is_name(value),
    fresh=lambda value, actors: value not in actors.names[: actors.earlier],
)
ACTOR = [
    text(
        "parent",
        fits=lambda value, table: is_name(value) or value == "guardian",
        known=lambda value, actors: value == "guardian" or value in actors.names[: actors.earlier],
    ),
    word("mailbox", "unbounded", "bounded", "priority", "control"),
    whole("capacity", 1, 65536, required=True, allowed=is_bounded),
    array("rank", allowed=is_priority),
    whole("other", 0, MOST, allowed=is_priority),
    Key("initial", is_integer),
    *(array(name) for name in ("start", "restart", "stop", "terminated", "on", "strategy")),
    Key("retries", is_integer),
    Key("all_for_one", lambda value: isinstance(value, bool)),
]
ROWS = {
    "rank": [whole("kind", 0, MOST, required=True), whole("rank", 0, MOST, required=True)],
    "on": [whole("kind", 0, MOST, required=True), array("do", required=True)],
    "strategy": [
        text("cause", required=True, fits=lambda value, table: is_cause(value)),
        word("then", "resume", "restart", "stop", "escalate", required=True),
    ],
}
SEND = [
    whole("from", 0, 15),
    text(
        "to",
        required=True,
        fits=lambda value, table: is_name(value) or (value == "guardian" and table.get("what") == "stop"),
        known=lambda value, actors: value == "guardian" or value in actors.names,
    ),
    word("what", "user", "poison", "kill", "stop", "control"),
    whole("kind", 0, MOST, required=True, allowed=is_message),
    Key("value", is_integer, allowed=is_message),
    whole("times", 1, 100000),
]


def check_unknown(prefix, keys, table):
    names = {key.name for key in keys}
    least = min((name for name in table if name not in names), key=str.encode, default=None)
    if least is not None:
        fail(prefix + (least if is_name(least) else "?"), "unknown key")


def check_operation(place, operation, actors, adds):
    if not isinstance(operation, str):
        fail(place, "wrong type")
    verb, *words = operation.split(" ")
    if operation == "ignore" or (operation == "add" and adds):
        return
    if verb == "fail" and len(words) == 1 and is_number(words[0]):
        return
    has_number = verb in ("tell", "control") and len(words) == 2 and is_number(words[1])
    if not has_number and not (verb in ("watch", "unwatch", "stop", "spawn") and len(words) == 1):
        fail(place, "bad op")
    if not is_name(words[0]):
        fail(place, "bad op")
    if words[0] not in actors.names:
        fail(place, "unknown name")
    if verb == "spawn" and not actors.own_child(words[0]):
        fail(place, "bad op")


def check_operations(place, found, actors, adds):
    for position, operation in enumerate(found or [], 1):
        check_operation(f"{place} {position}", operation, actors, adds)


def check_rows(place, rows, keys, actors):
    for position, row in enumerate(rows or [], 1):
        entry = f"{place} {position}"
        if not isinstance(row, dict):
            fail(entry, "wrong type")
        check_unknown(entry + " ", keys, row)
        for key in keys:
            key.check(entry + " ", row, actors)
            if key.name == "do":
                check_operations(entry + " do", row["do"], actors, adds=True)


def check_actor(prefix, table, actors):
    check_unknown(prefix, [NAME, *ACTOR], table)
    for key in ACTOR:
        key.check(prefix, table, actors)
        if key.name in ROWS:
            check_rows(prefix + key.name, table.get(key.name), ROWS[key.name], actors)
        if key.name in ("start", "restart", "stop", "terminated"):
            check_operations(prefix + key.name, table.get(key.name), actors, adds=False)


def check(top):
    check_unknown("", TOP, top)
    for key in TOP:
        key.check("", top, None)
    tables = top.get("actor", [])
    for earlier, table in enumerate(tables):
        if not isinstance(table, dict):
            fail(f"actor {earlier + 1}", "wrong type")
        NAME.check(f"actor {earlier + 1} ", table, Actors(tables, earlier))
    for earlier, table in enumerate(tables):
        check_actor(f"actor {earlier + 1} ", table, Actors(tables, earlier))
    for position, table in enumerate(top.get("send", []), 1):
        if not isinstance(table, dict):
            fail(f"send {position}", "wrong type")
        check_unknown(f"send {position} ", SEND, table)
        for key in SEND:
            key.check(f"send {position} ", table, Actors(tables))


def finite(text):
    """The float of a literal that is not too great for one."""
    value = float(text)
    if math.isinf(value) and "inf" not in text:
        raise ValueError(text)
    return value


def is_readable(value, depth=0):
    """Whether all integers fit in 64 bits, and no value lies too deep."""
    inner = value.values() if isinstance(value, dict) else value if isinstance(value, list) else ()
    fits = not is_integer(value) or -(2**63) <= value < 2**63
    return fits and depth <= DEEPEST and all(is_readable(one, depth + 1) for one in inner)


def fault_of(text):
    """The line of the fault that the program tells of a text, or None where it is a scenario; and its document. A text that Python's TOML, which
    is older, cannot read counts as none."""
    if len(text) > MOST_BYTES:
        return "12 BadScenario input: too many", None
    try:
        top = tomllib.loads(text.decode("utf-8-sig"), parse_float=finite)
    except (tomllib.TOMLDecodeError, UnicodeDecodeError, RecursionError, ValueError):
        return "11 NotToml", None
    if not is_readable(top):
        return "11 NotToml", None
    try:
        check(top)
    except Fault as fault:
        return f"12 BadScenario {fault}", None
    return None, top


def scenario_of(words, usage):
    """The document of the scenario that these arguments name. Where they name none, it ends the tool with a line and the status 2."""
    if len(words) != 1:
        fail_tool(usage)
    try:
        with open(words[0], "rb") as file:
            fault, top = fault_of(file.read())
    except OSError as error:
        fail_tool(f"{error.filename}: {error.strerror}")
    if fault:
        fail_tool(f"mailrun: {fault}")
    return top


def fail_tool(line, status=2):
    print(line, file=sys.stderr)
    sys.exit(status)
