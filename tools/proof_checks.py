"""Checks of a crate by Rattle's prover, over libraries that are proved already."""

import pathlib
import shutil
import subprocess

import crate_list
from crate_list import ROOT


class Libraries:
    """The proved libraries of a checkout of this repository: this one's, which are made where they lack, or another's of the same sources."""

    def __init__(self, checkout):
        self.checkout = pathlib.Path(checkout).resolve()
        self.kit = pathlib.Path(shutil.which("rt") or "").resolve().parent.parent

    def file(self, name):
        return self.checkout / "crates" / name / "out" / "rlib" / f"{name}.rlib"

    def make(self, name):
        """Sees to it that a crate, if it is a library, and all that it stands on is proved, and says what is not."""
        crates = [need for need in crate_list.with_needs(name) if not is_program(need)]
        if self.checkout == ROOT:
            tops = crate_list.needs(name) if is_program(name) else [name]
            status = subprocess.run([ROOT / "tools" / "prove", *tops]).returncode if tops else 0
            return f"{name}, or a crate that it stands on, is not proved" if status else ""
        lacking = [need for need in crates if not self.file(need).exists() or texts(need, self.checkout) != texts(need, ROOT)]
        return ", ".join(f"{need} is not proved in {self.checkout}, or of other sources" for need in lacking)

    def words(self, name):
        """The words of a check of this crate."""
        named = crate_list.rows()[name].partition(":")[2].split()
        root = "src/main.rt" if is_program(name) else "src/lib.rt"
        found = [f"{self.kit}/bin/rattle", "check", "--crate-name", name, root, "--extern", f"std={self.kit}/rlibs/std.rlib"]
        for need in named:
            found += ["--extern", f"{need}={self.file(need) if need in crate_list.rows() else f'{self.kit}/rlibs/{need}.rlib'}"]
        for folder in (f"{self.kit}/rlibs", *(self.file(need).parent for need in crate_list.with_needs(name)[:-1])):
            found += ["-L", f"dependency={folder}"]
        found += ["--antt-project", f"{self.kit}/rattle/logic/antt-project.json", "--logic-built", f"{self.kit}/logic_built"]
        return [*found, "--links", f"{name}=", "--jobs", "1"]


def is_program(name):
    return (ROOT / "crates" / name / "src" / "main.rt").exists()


def texts(name, root):
    """The sources of a crate in a checkout, by their names."""
    return {file.relative_to(root): file.read_bytes() for file in crate_list.sources(name, root)}


class Room:
    """A folder in which changed copies of a crate are checked, one after the other. What one proves serves the next, as far as it did not
    change."""

    def __init__(self, name, libraries, folder):
        self.name, self.libraries, self.crate, self.kept = name, libraries, folder / "crate", folder / "kept"
        earlier = libraries.checkout / "crates" / name / "out" / "incremental"
        if earlier.is_dir():
            shutil.copytree(earlier, self.kept)
        self.kept.mkdir(parents=True, exist_ok=True)

    def check(self, texts, paths):
        """Checks the crate in which some files have these texts: these functions and modules, or all where none is named. It returns the
        status and the lines that were said."""
        shutil.rmtree(self.crate, ignore_errors=True)
        for part in crate_list.PARTS:
            if (ROOT / "crates" / self.name / part).is_dir():
                shutil.copytree(ROOT / "crates" / self.name / part, self.crate / part)
        for file, text in texts.items():
            (self.crate / file).write_text(text)
        only = [word for path in sorted(set(paths)) for word in ("--only", path)]
        words = [*self.libraries.words(self.name), "--incremental", str(self.kept), *only]
        how = {"stdin": subprocess.DEVNULL, "stdout": subprocess.PIPE, "stderr": subprocess.STDOUT, "errors": "replace"}
        ran = subprocess.run(words, cwd=self.crate, **how)
        return ran.returncode, ran.stdout.splitlines()
