"""Random scenarios that pass all checks and in which much happens, and documents as TOML."""

import re

ENDS = -(2**63), 2**63 - 1


class Lively:
    """Makes scenarios that pass all checks, run quietly, and in which so much happens that their reports hang on every key."""

    def __init__(self, chance):
        self.chance = chance
        self.names = ["a", "b", "c", "ab", "z_9"][: chance.randint(3, 5)]

    def often(self, share):
        return self.chance.random() < share

    def some(self, most, *makers):
        """At most so many, each by one of these."""
        return [self.chance.choice(makers)() for _ in range(self.chance.randint(0, most))]

    def add(self):
        return "add"

    def ignore(self):
        return "ignore"

    def fail(self):
        return f"fail {self.chance.choice([1, 7])}"

    def tell(self):
        verb = self.chance.choice(["tell", "tell", "tell", "control"])
        return f"{verb} {self.chance.choice(self.names)} {self.chance.choice([1, 1, 2, 3, 4])}"

    def order(self):
        return f"{self.chance.choice(['watch', 'watch', 'unwatch', 'stop'])} {self.chance.choice(self.names)}"

    def operations(self, most=2):
        return self.some(most, self.tell, self.tell, self.order, self.order, self.fail, self.ignore)

    def hooks(self, children):
        """It starts all its children."""
        watched = [f"watch {self.chance.choice(self.names)}"] if self.often(0.5) else []
        more = self.operations() if self.often(0.2) else []
        shares = {"restart": 0.4, "stop": 0.5, "terminated": 0.7}
        hooks = {name: self.operations() for name, share in shares.items() if self.often(share)}
        return {"start": [*watched, *(f"spawn {child}" for child in children), *more]} | hooks

    def mailbox(self):
        name = self.chance.choice(["unbounded", "bounded", "priority", "priority", "control"])
        if name == "bounded":
            return {"mailbox": name, "capacity": self.chance.randint(1, 3)}
        if name != "priority":
            return {"mailbox": name}
        rank = [{"kind": kind, "rank": self.chance.randint(0, 2)} for kind in self.chance.sample([1, 2, 3, 4], 2)]
        return {"mailbox": name, "rank": rank} | ({"other": self.chance.choice([0, 2])} if self.often(0.7) else {})

    def rows(self):
        """Kind 1 adds, kind 2 fails, and the others do more."""
        more = self.some(3, self.tell, self.tell, self.order, self.fail, self.add)
        does = [["add"], ["fail 1"], more, ["add", *self.operations(1)]]
        return {"on": [{"kind": kind, "do": operations} for kind, operations in enumerate(does, 1)]}

    def row(self):
        cause = self.chance.choice(["any", "any", "error", "error 1", "init", "killed", "deathpact"])
        return {"cause": cause, "then": self.chance.choice(["resume", "resume", "restart", "stop", "escalate"])}

    def supervision(self):
        strategy = {"strategy": self.some(2, self.row)} if self.often(0.7) else {}
        retries = {"retries": self.chance.randint(0, 2)} if self.often(0.5) else {}
        return strategy | retries | ({"all_for_one": True} if self.often(0.5) else {})

    def actor(self, name, parent, children):
        initial = {"initial": self.chance.choice([2, 5, ENDS[1] - 3])} if self.often(0.5) else {}
        given = [self.hooks(children), self.mailbox(), self.rows(), self.supervision()]
        return {"name": name, "parent": parent} | initial | {key: value for part in given for key, value in part.items()}

    def actors(self):
        parents = [self.chance.choice(["guardian", *self.names[:earlier] * 2]) for earlier in range(len(self.names))]
        children = {name: [child for child, parent in zip(self.names, parents) if parent == name] for name in self.names}
        return [self.actor(name, parent, children[name]) for name, parent in zip(self.names, parents)]

    def send(self):
        what = self.chance.choice(["user"] * 12 + ["control"] * 3 + ["poison", "kill", "stop"])
        message = {"kind": self.chance.choice([1, 1, 2, 2, 3, 4]), "value": self.chance.randint(1, 9)}
        given = {"from": self.chance.randint(0, 2), "to": self.chance.choice(self.names), "what": what}
        return given | (message if what in ("user", "control") else {})

    def document(self):
        return {
            "workers": 0,
            "pool": self.chance.choice(["shared", "stealing"]),
            "throughput": self.chance.randint(0, 3),
            "journal_limit": 200,
            "actor": self.actors(),
            "send": [self.send() for _ in range(self.chance.randint(8, 20))],
        }


class WithoutSends(Lively):
    """Makes such scenarios for one worker, to which nothing is sent from outside: all comes from what the actors do when they start. Their
    reports hang on the order in which the actors are run: mailboxes have little room, actors stop and fail, and who watches one passes on
    which ended."""

    LAST_KIND = 6

    def __init__(self, chance):
        super().__init__(chance)
        self.names = ["a", "b", "c", "ab", "z_9", "d", "e", "f"][: chance.randint(3, 8)]

    def tell_below(self, kind):
        """Tells a kind below this one, so that what a message leads to comes to an end."""
        verb = self.chance.choice(["tell", "tell", "tell", "control"])
        return f"{verb} {self.chance.choice(self.names)} {self.chance.randint(1, kind - 1)}"

    def operations(self, most=2):
        return self.some(most, lambda: self.tell_below(4))

    def started(self):
        """What it tells when it starts, and whom it watches or stops then."""
        tell = lambda: self.tell_below(self.LAST_KIND + 1)
        return self.some(2, self.order) + self.some(6, tell, tell, tell, tell, self.order)

    def hooks(self, children):
        """It tells some of its children something before it starts them."""
        hooks = super().hooks(children)
        start = hooks["start"] + self.started()
        self.chance.shuffle(start)
        return hooks | {"start": start}

    def rows(self):
        """Kind 1 adds, and each other kind tells some of lower kinds, and may do more."""
        rows = [{"kind": 1, "do": ["add"]}]
        for kind in range(2, self.LAST_KIND + 1):
            tell = lambda: self.tell_below(kind)
            rows.append({"kind": kind, "do": self.some(3, tell, tell, tell, tell, self.add, self.order, self.fail)})
        return {"on": rows}

    def document(self):
        return {
            "workers": 1,
            "pool": self.chance.choice(["shared", "stealing"]),
            "throughput": self.chance.choice([0, 1, 1, 2, 2, 3, 5]),
            "journal_limit": 300,
            "actor": self.actors(),
        }


class Writer:
    """Writes documents as TOML, the keys of each table in any order."""

    def __init__(self, chance):
        self.chance = chance

    def string(self, value):
        return '"' + value.replace("\\", "\\\\").replace('"', '\\"').replace("\t", "\\t") + '"'

    def key(self, name):
        bare = re.fullmatch("[A-Za-z0-9_-]+", name) and self.chance.random() < 0.9
        return name if bare else self.string(name)

    def members(self, table):
        pairs = [f"{self.key(name)} = {self.value(value)}" for name, value in table.items()]
        self.chance.shuffle(pairs)
        return pairs

    def value(self, value):
        if isinstance(value, dict):
            return "{" + ", ".join(self.members(value)) + "}"
        if isinstance(value, list):
            return "[" + ", ".join(map(self.value, value)) + "]"
        return self.string(value) if isinstance(value, str) else str(value).lower()

    def document(self, top):
        return "".join(pair + "\n" for pair in self.members(top))
