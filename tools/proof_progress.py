"""How far a proof of many crates is, and how long it may take still: in place on a terminal, else a line for each crate and each minute.
tools/embed hands this over to other repositories."""

import shutil
import sys
import time

import crate_list

# After how many seconds without a line one is told where there is no terminal.
SILENT = 60
# From how many seconds of proofs on the pace of this machine is taken from them, and between which bounds.
SEEN, SLOWEST, FASTEST = 300, 6, 0.3


class Progress:
    def __init__(self, names, at_once):
        self.left, self.begun, self.at_once = [*names], {}, at_once
        self.costs = crate_list.costs(names)
        self.chains = crate_list.chains(names, self.costs)
        self.started, self.proved = time.monotonic(), 0
        self.told = self.started

    def begin(self, name):
        self.left.remove(name)
        self.begun[name] = time.monotonic()

    def end(self, name, is_new, why):
        """A crate is through: it was proved now, or before, or else `why` says why it is not proved."""
        del self.begun[name]
        self.proved += self.costs[name] if is_new else 0
        if why:
            say(why)
        self.tell(f"{name} is proved" if is_new and not why else "")

    def seconds(self):
        return time.monotonic() - self.started

    def clock(self):
        return f"{int(self.seconds()) // 60}:{int(self.seconds()) % 60:02}"

    def more(self):
        """How many seconds it may take still: by the table of costs, and by how the first crates agreed with it."""
        pace = self.seconds() * self.at_once / self.proved if self.proved > SEEN else 1
        pace = min(max(pace, FASTEST), SLOWEST)
        now = time.monotonic()
        begun = {name: max(self.costs[name] - (now - since) / pace, 0) for name, since in self.begun.items()}
        return pace * crate_list.seconds_for(self.left, begun, self.costs, self.chains, self.at_once)

    def tell(self, told=""):
        """Says what ended, if something did, and how far all is."""
        so_far = f"{len(self.left) + len(self.begun)} left, {self.clock()} minutes so far, about {self.more() / 60:.0f} more"
        proving = f"proving {', '.join(self.begun) or 'the rest'}"
        if sys.stderr.isatty():
            line = f"{proving}; {so_far}"[: shutil.get_terminal_size().columns - 1]
            print(f"\r\x1b[K{line}", end="", file=sys.stderr, flush=True)
        elif told or time.monotonic() - self.told > SILENT:
            self.told = time.monotonic()
            print(f"{told or proving}; {so_far}", file=sys.stderr, flush=True)


def say(text):
    """Says something for good."""
    print(f"{CLEAR if sys.stderr.isatty() else ''}{text}", file=sys.stderr, flush=True)


CLEAR = "\r\x1b[K"
