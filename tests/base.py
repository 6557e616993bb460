"""The base of each test of the built program: the program, the libraries to preload, and a folder of its own."""

import atexit
import os
import pathlib
import subprocess
import tempfile
import unittest

from driven import ROOT, Ended

# The program is that of the checkout, and the libraries are built, unless a script is given others.
settings = {"program": ROOT / "crates" / "dali_bench" / "out" / "dali_bench", "shims": None}


def build_shims():
    """Build what is preloaded; give its folder, which goes with this process."""
    room = tempfile.TemporaryDirectory()
    atexit.register(room.cleanup)
    folder = pathlib.Path(room.name)
    for name in ("drive_shim", "refuse_alloc"):
        source = ROOT / "tests" / f"{name}.c"
        subprocess.run(["cc", "-shared", "-fPIC", "-o", folder / f"{name}.so", source, "-ldl"], check=True)
    return folder


def preloaded(name):
    """Give the path of a library to preload."""
    settings["shims"] = settings["shims"] or build_shims()
    return settings["shims"] / f"{name}.so"


def may_run_in(folder):
    """Tell whether files may be made in a folder, and programs among them run."""
    return os.access(folder, os.W_OK) and not os.statvfs(folder).f_flag & os.ST_NOEXEC


def new_folder():
    """Make a folder that goes with its context, in memory where programs may be run there."""
    return tempfile.TemporaryDirectory(dir="/dev/shm" if may_run_in("/dev/shm") else None)


def want(found, wanted, msg=None):
    """Raise unless both are equal."""
    assert found == wanted, f"found {found!r}, wanted {wanted!r}" + (f": {msg}" if msg else "")


def in_cases(count):
    """Mark a test that takes the number of its case, from 0 to `count` - 1: BenchTest makes a test of each case."""

    def marked(test):
        test.count_of_cases = count
        return test

    return marked


def one_case(test, case):
    """Give the test of one case."""

    def tested(self):
        return test(self, case)

    tested.case = case
    return tested


def is_case(test):
    """Tell whether a test, as it is loaded, is one of several cases."""
    return hasattr(getattr(test, test.id().rpartition(".")[2], None), "case")


class BenchTest(unittest.TestCase):
    """A test with a folder of its own."""

    maxDiff = None

    def __init_subclass__(cls, **given):
        """Put tests of one case each in the place of each test that is in cases."""
        super().__init_subclass__(**given)
        for name, test in list(vars(cls).items()):
            if hasattr(test, "count_of_cases"):
                delattr(cls, name)
                for case in range(test.count_of_cases):
                    setattr(cls, f"{name}_case_{case}", one_case(test, case))

    def setUp(self):
        """Make the folder."""
        # A difference is printed whole: `unittest` cuts it short, or compares it line by line, which takes hours.
        for kind in (tuple, list, dict, bytes, Ended):
            self.addTypeEqualityFunc(kind, want)
        room = new_folder()
        self.addCleanup(room.cleanup)
        self.folder = pathlib.Path(room.name)

    def shortDescription(self):
        """Give nothing: the name of a test says what it tests."""
