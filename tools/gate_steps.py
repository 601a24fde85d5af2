"""What `rt ci` does with one crate, for which the kit has no command: gate_steps.py lib|run|test NAME JOBS, at the top of a repository.

It proves the crate from nothing. Of a library the crates above load the statements, and not the proofs as with `rt lib`: that is far less to
read. A program, by each of its two compilers, and tests are run too, outside the repository. The libraries below have to be there. It calls
the functions of the kit's `rt`, which are no public interface: where a kit has others, it says so.

It ends with 0 where all is well, with 1 where the crate is not proved, with 2 where its text is refused before a proof, with 3 where the kit has
another form, and with 4 where the crate is proved, but a run of it fails or does not print what it should.

A library gets the kit's note of its sources, the stamp, so that `rt check` takes it. The kit itself writes none beside statements, since these
fit only the very libraries that they were built over; here each is kept with those (proved_libraries.py)."""

import functools
import importlib.machinery
import importlib.util
import os
import pathlib
import shutil
import sys

sys.dont_write_bytecode = True
OTHER_KIT, WRONG_RUN = 3, 4


def load_kit():
    """The kit's `rt` as a module, set as it is under `rt ci`."""
    loader = importlib.machinery.SourceFileLoader("kit", os.path.realpath(shutil.which("rt")))
    kit = importlib.util.module_from_spec(importlib.util.spec_from_loader("kit", loader))
    loader.exec_module(kit)
    kit.rtlib.stop = kit.stop
    kit.rtlib.Crate = kit.Crate
    kit.rtlib.guarded()
    kit.Crate.cuts_libraries = True
    kit.Crate.allowed = kit.handles_of(os.getcwd())
    # Each sum is asked for once by each crate above, at every command.
    kit.Crate.stamp = functools.cache(kit.Crate.stamp)
    return kit


def crate_of(kit, name):
    """The crate, once its text has passed what `rt ci` asks of it before a proof."""
    crates = kit.rtlib.crates_below(os.getcwd())
    crate = next(crate for crate in crates if crate.name == name)
    kit.rtlib.stop_on_links(crate.folder)
    kit.rtlib.stop_on_unread(crate.folder, crates)
    kit.rtlib.stop_on_text(crate, "verdict")
    kit.stop_on_words(crate)
    return crate


def runs_well(kit, crate, tests):
    """Whether the programs that were made of the crate, or its tests, run as they should."""
    made = pathlib.Path(crate.folder, "out", f"{crate.name}{'_tests' if tests else ''}")
    return all(kit.run(crate, tests, ending) for ending in kit.BACKENDS.values() if made.with_name(made.name + ending).exists())


def main(way, name, jobs):
    try:
        kit = load_kit()
        crate = crate_of(kit, name)
        pathlib.Path(crate.folder, "out").mkdir(exist_ok=True)
        if crate.ci(["--jobs", jobs], way == "test"):
            return 1
        if way == "lib":
            pathlib.Path(crate.folder, "out", "rlib", "stamp").write_text(crate.stamp())
            return 0
        return 0 if runs_well(kit, crate, way == "test") else WRONG_RUN
    except (AttributeError, ImportError, KeyError, OSError, StopIteration, TypeError, ValueError) as fault:
        print(f"this kit's rt has another form than the tools know ({fault})", file=sys.stderr)
        return OTHER_KIT


if __name__ == "__main__":
    sys.exit(main(*sys.argv[1:]))
