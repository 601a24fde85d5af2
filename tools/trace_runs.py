"""What the tools that hold traces to the rules have in common: the traces that the rules give, and runs of the program."""

import subprocess
import sys
import tomllib

sys.dont_write_bytecode = True
from quiet_trace import Trace, trace_of
from scenario_files import Outcome


def document(text):
    """The scenario's document, or None where Python's TOML is older than it."""
    try:
        return tomllib.loads(text.decode("utf-8-sig"))
    except (tomllib.TOMLDecodeError, UnicodeDecodeError):
        return None


def rule_trace(one, form=Trace):
    """The trace that the rules give, or None where they give none: for what is no scenario, and for a run on threads."""
    top = document(one.text)
    if one.wanted.status != 0 or top is None or top.get("workers", 1) != 0:
        return None
    return trace_of(top, form)


def ended(program, text, *words):
    """What the program ends with, given this text and these arguments."""
    done = subprocess.run([program, *words], input=text, capture_output=True, timeout=600)
    return Outcome(done.returncode, done.stdout, done.stderr)


def closing_faults(program, *words):
    """A reader that closes its pipe after a line ends the program quietly."""
    text = b'workers = 0\n[[actor]]\nname = "a"\non = [{ kind = 1, do = ["add"] }]\n[[send]]\nto = "a"\nkind = 1\ntimes = 100000\n'
    with subprocess.Popen([program, *words], stdin=subprocess.PIPE, stdout=subprocess.PIPE, stderr=subprocess.PIPE) as run:
        run.stdin.write(text)
        run.stdin.close()
        run.stdout.readline()
        run.stdout.close()
        said = run.stderr.read()
        run.wait(timeout=600)
    return [] if (run.returncode, said) == (0, b"") else [f"a pipe that closes: status {run.returncode}, {said}"]
