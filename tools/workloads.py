"""Six workloads as scenarios of the program, what it has to print of each, and a timed run of it. The peers in peers/ have the same
workloads in their own languages."""

import subprocess
import sys
import tempfile
import typing

WORKERS, THROUGHPUT, POOLS, MOST_TIMES = 2, 5, ("shared", "stealing"), 100_000


class Actor:
    """An actor of a workload, and what it has to end with: its state, how many messages it took, and how often it restarted."""

    def __init__(self, name, *rows, keys="", state=0, handled=0, restarts=0):
        self.name, self.rows, self.keys, self.state, self.handled, self.restarts = name, rows, keys, state, handled, restarts

    def text(self):
        rows = "".join(f"[[actor.on]]\nkind = {kind}\ndo = {list(steps)!r}\n".replace("'", '"') for kind, *steps in self.rows)
        top, _, inner = self.keys.partition("\n")
        return f'[[actor]]\nname = "{self.name}"\n{top}\n{rows}{inner}'

    def line(self):
        return f"{self.name} live state {self.state} suspended 0 handled {self.handled} left 0 dead 0 restarts {self.restarts}\n"


def counter(name, count, value=1):
    """An actor that adds up so many messages of this value."""
    return Actor(name, (1, "add"), state=count * value, handled=count)


def count(part):
    """A million messages from one sender to one actor."""
    most = 1_000_000 // part
    return [counter("a", most)], [(0, "a", 1, most)]


def fan_in(part):
    """The same from four senders."""
    most = 250_000 // part
    return [counter("a", 4 * most)], [(sender, "a", 1, most) for sender in range(4)]


def spread(part):
    """The same in blocks to 63 actors: each sender goes round them four times, and begins at another."""
    most = 992 // part
    names = [f"a{number}" for number in range(63)]
    sends = [(sender, names[(16 * sender + place) % 63], 1, most) for sender in range(4) for _ in range(4) for place in range(63)]
    return [counter(name, 16 * most) for name in names], sends


def chain(part):
    """20,000 messages that each of 63 actors passes on to the next."""
    most = 20_000 // part
    passing = [Actor(f"a{number}", (1, f"tell a{number + 1} 1"), handled=most) for number in range(62)]
    return [*passing, counter("a62", most, 3)], [(0, "a0", 3, most)]


def fan_out(part):
    """50,000 messages to an actor that tells 16 others."""
    most = 50_000 // part
    leaves = [f"b{number}" for number in range(16)]
    root = Actor("root", (1, *(f"tell {leaf} 1" for leaf in leaves)), handled=most)
    return [root, *(counter(leaf, most, 3) for leaf in leaves)], [(0, "root", 3, most)]


def restart(part):
    """100,000 messages to a child, each tenth of which makes it fail and restart."""
    most = 10_000 // part
    parent = Actor("p", keys='start = ["spawn c"]\n[[actor.strategy]]\ncause = "error"\nthen = "restart"\n')
    child = Actor("c", (1, "add"), (2, "fail 7"), keys='parent = "p"', handled=10 * most, restarts=most)
    driver = Actor("d", (1, *["tell c 1"] * 9, "tell c 2"), handled=most)
    return [parent, child, driver], [(0, "d", 3, most)]


WORKLOADS = (count, fan_in, spread, chain, fan_out, restart)


def name_of(workload):
    """What a workload is called by documents and peers."""
    return workload.__name__.replace("_", "-")


def messages(actors):
    """How many messages a workload has."""
    return sum(actor.handled for actor in actors)


def scenario(actors, sends, workers, pool, once=False):
    """The text of a scenario; with `once`, each send is made once."""
    text = [f'workers = {workers}\npool = "{pool}"\nthroughput = {THROUGHPUT}\n', *(actor.text() for actor in actors)]
    for sender, to, value, times in sends:
        while times > 0:
            now = min(times, MOST_TIMES)
            text.append(f'[[send]]\nfrom = {sender}\nto = "{to}"\nkind = 1\nvalue = {value}\n' + (f"times = {now}\n" if now > 1 and not once else ""))
            times -= now
    return "".join(text)


def report(actors):
    """What the program has to print."""
    sent = messages(actors)
    guardian = "guardian live state - suspended 0 handled 0 left 0 dead 0 restarts 0\n"
    return f"{guardian}{''.join(actor.line() for actor in actors)}sent {sent} handled {sent} left 0 dead 0\n"


class Run(typing.NamedTuple):
    """The seconds of a process, the bytes that it held at its peak, and what it printed."""

    seconds: float
    memory: float
    printed: str


def process(text, *words, most_seconds=None):
    """A run of a process that reads this text. It is cut off after so many seconds, if that is given."""
    with tempfile.TemporaryFile() as file, tempfile.TemporaryFile() as printed:
        file.write(text.encode())
        file.seek(0)
        # In a process of its own, since the peak of a child is never less than that of the process that it was made by.
        timed = "import os,subprocess,sys,time\nbegan=time.monotonic()\nrun=subprocess.Popen(sys.argv[1:],stdout=sys.stderr)\n"
        timed += "_,status,used=os.wait4(run.pid,0)\nprint(time.monotonic()-began,used.ru_maxrss*1024)\nsys.exit(status!=0)"
        how = {"stdin": file, "stdout": subprocess.PIPE, "stderr": printed, "text": True, "timeout": most_seconds}
        told = subprocess.run([sys.executable, "-c", timed, *words], **how)
        printed.seek(0)
        got = printed.read().decode()
    if told.returncode != 0:
        raise SystemExit(f"{words[0]} failed:\n{got}")
    return Run(*map(float, told.stdout.split()), got)


def measured(text, expected, *words):
    """A run of a program on a scenario. It has to print what is expected, if something is."""
    run = process(text, *words)
    if expected is not None and run.printed != expected:
        raise SystemExit(f"{words[0]} printed what was not worked out:\n{run.printed}")
    return run
