"""The crates of this repository, as crates.txt lists them."""

import os
import pathlib
import re
import shutil
import subprocess
import time

ROOT = pathlib.Path(__file__).resolve().parent.parent
CRATES = ROOT / "crates"
# The folders of a crate.
PARTS = ("src", "specs", "proofs")
# The memory that a check may take, in bytes, of the largest crate and some more.
ONE_CHECK = 4 << 30
# More processors than these seldom help a check.
MOST_JOBS = 8


def text_of(path):
    """Give a file's text, empty where there is none."""
    return path.read_text(encoding="utf-8") if path.is_file() else ""


def uses():
    """Give each crate's libraries: those of this repository, and those of the kit."""
    found = {}
    for line in text_of(ROOT / "crates.txt").split("\n"):
        name, colon, rest = line.partition(":")
        if colon and not line.startswith("#"):
            found[name] = rest.split()
    return {
        name: ([it for it in used if it in found], [it for it in used if it not in found])
        for name, used in found.items()
    }


def below(name, used):
    """Give all libraries of this repository that a crate stands on."""
    return {it for lib in used[name][0] for it in {lib, *below(lib, used)}}


class Kit:
    """The prover of the Rattle kit, over the libraries of this repository that stand built in a folder."""

    def __init__(self, libraries):
        said = subprocess.run(["rt", "doc"], stdout=subprocess.PIPE, text=True, check=True).stdout
        self.folder = pathlib.Path(said.strip()).parent
        self.libraries = libraries

    def words(self, verb, name):
        """Give the words by which the prover checks or builds a crate in its folder."""
        own, kits = uses()[name]
        root = "main" if (CRATES / name / "src" / "main.rt").is_file() else "lib"
        words = [str(self.folder / "bin/rattle"), verb, "--crate-name", name, f"src/{root}.rt"]
        words += ["--extern", f"std={self.folder}/rlibs/std.rlib", "-L", f"dependency={self.folder}/rlibs"]
        for it in kits:
            words += ["--extern", f"{it}={self.folder}/rlibs/{it}.rlib"]
        for it in own:
            words += ["--extern", f"{it}={self.libraries}/{it}.rlib"]
        words += ["-L", f"dependency={self.libraries}", "--links", f"{name}="]
        words += ["--antt-project", f"{self.folder}/rattle/logic/antt-project.json"]
        return [*words, "--logic-built", f"{self.folder}/logic_built"]


def lines_of(name):
    """Give how many lines of code a crate has, by which its checks take their time."""
    return sum(text_of(it).count("\n") for it in (CRATES / name / "src").rglob("*.rt"))


def linked(one, other):
    """Give a file of a library or a checked module a second name, where that can be: none is changed, but made anew."""
    try:
        if one.endswith(".oantt") or ".rlib/" in one:
            os.link(one, other)
            return
    except OSError:
        pass
    shutil.copy2(one, other)


def copy_parts(name, to):
    """Copy what a crate is made of."""
    for part in PARTS:
        if (CRATES / name / part).is_dir():
            shutil.copytree(CRATES / name / part, to / part)


def free_memory():
    """Give how much memory is free, in bytes, or None where the system doesn't tell."""
    found = re.search(r"MemAvailable:\s+(\d+)", text_of(pathlib.Path("/proc/meminfo")))
    return int(found[1]) * 1024 if found else None


def has_memory():
    """Tell whether there is memory for one more check."""
    free = free_memory()
    return free is None or free >= ONE_CHECK


def jobs_of(processors):
    """Give on how many of the processors a check is done that is alone at work, as memory allows it."""
    free = free_memory()
    return min(processors, MOST_JOBS if free is None else max(free // ONE_CHECK, 1), MOST_JOBS)


def wait_for_memory():
    """Wait until there is memory for one more check, or ten minutes."""
    for _ in range(600):
        if has_memory():
            return
        time.sleep(1)
