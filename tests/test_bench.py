#!/usr/bin/env python3
"""Test docs/BENCH.md: run its commands, over simulated units, and compare what they print with what the page says.

    test_bench.py [PROGRAM [FOLDER]]

The page's blocks of `sh` are run one after the other in one new folder, in which `./dali_bench` is PROGRAM. Each has to
end with status 0 and to print, on both outputs together, just the block of `text` that comes next, or nothing where
another one comes first. PROGRAM and FOLDER are as of test_drive.py. The last line is `N passed, M failed`, and the
status is 0 only where none failed.
"""

import sys

sys.dont_write_bytecode = True

import beside  # noqa: E402
from base import BenchTest, settings  # noqa: E402
from driven import ROOT  # noqa: E402
from release_fixtures import BLOCK, run_commands  # noqa: E402

PAGE = ROOT / "docs" / "BENCH.md"
# Words of the page that no command of it shows.
CODES = ("Done", "Short", "Format", "Silent", "Doubt", "DoubtOpen")
REPLIES = (*(f"`kept {code} {name}`" for code, name in enumerate(CODES)), "`blocked U`", "`reused`", "`full`", "`busy`",
           "`taken`")
DRIVE_FAULTS = ("1 Journal", "2 Link", "3 Line", "4 End", "6 TooLong")


class BenchPageTest(BenchTest):
    """The page's commands, texts and tables."""

    def test_commands_print_what_is_said(self):
        for name in ("adapters", "tools"):
            (self.folder / name).symlink_to(ROOT / name)
        (self.folder / "dali_bench").symlink_to(settings["program"])
        run_commands(PAGE, self.folder)

    def test_each_text_has_its_command(self):
        """A block of text that no command prints would be compared with nothing."""
        kinds = [kind for kind, _ in BLOCK.findall(PAGE.read_text(encoding="utf-8"))]
        self.assertEqual([at for at, kind in enumerate(kinds) if kind == "text" and kinds[at - 1] != "sh"], [])
        # Those of `console` are for root, on a computer of a line.
        self.assertEqual(set(kinds) <= {"sh", "text", "json", "console"}, True)

    def test_each_reply_and_fault_has_its_row(self):
        rows = [line for line in PAGE.read_text(encoding="utf-8").splitlines() if line.startswith("|")]
        for words in (*REPLIES, *(f"`drive fault {fault}`" for fault in DRIVE_FAULTS)):
            self.assertEqual((words, sum(words in row.split("|")[1] for row in rows)), (words, 1))


if __name__ == "__main__":
    sys.exit(beside.main(__doc__, ["test_bench"], sys.argv[1:]))
