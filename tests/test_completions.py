#!/usr/bin/env python3
"""Test the completions for bash that scripts/release makes.

    test_completions.py [PROGRAM [FOLDER]]

PROGRAM and FOLDER are as of test_release.py. The last line is `N passed, M failed`, and the status is 0 only where none
failed.
"""

import re
import sys

sys.dont_write_bytecode = True

import beside  # noqa: E402
from base import BenchTest, settings  # noqa: E402
from driven import ROOT  # noqa: E402
from release_fixtures import run, unpacked  # noqa: E402

COMPLETE = 'COMP_WORDS=("$@"); COMP_CWORD=$(($# - 1)); _dali_bench; printf "%s\\n" "${COMPREPLY[@]}"'
COMMANDS = "check run frame show journal fields drive read verify scan address help".split()
# Words of a command line, of which the last is to be completed, and what it is completed to.
COMPLETED = [
    (["dali_bench", ""], COMMANDS), (["./dali_bench", "ch"], ["check"]), (["dali_bench", "he"], ["help"]),
    (["dali_bench", "check", "--j"], ["--journal"]), (["dali_bench", "journal", "--"], ["--updates", "--help"]),
    (["dali_bench", "drive", "--re"], ["--report", "--require-done", "--require-journal", "--require-now"]),
    (["dali_bench", "scan", "--g"], ["--gtin"]), (["dali_bench", "scan", "--gtin", "tab"], []),
    (["dali_bench", "check", "tab"], ["table.csv"]), (["dali_bench", "check", "--journal", "tab"], ["table.csv"]),
    (["dali_bench", "drive", "--moment", ""], []), (["dali_bench", "frame", "tab"], []),
    (["dali_bench", "fi"], ["fields"]), (["dali_bench", "fields", "tab"], []),
    (["adapters/serial_link.py", "--l"], ["--letter", "--line-feed", "--list"]), (["serial_link.py", "--baud", "t"], []),
    (["dali_daliserver_link", "--t"], ["--time-limit"]), (["dali_simulated_link", "--folder", ""], ["tables"]),
    (["dali_simulated_link", "--frames", "--", "./too"], ["./tool"]),
    (["dali_simulated_link", "--frames", "--", "./dali_bench", "jou"], ["journal"]),
    (["dali_simulated_link", "--", "other", "tab"], ["table.csv"]),
    (["dali_python_dali_link", "--t"], ["--time-limit"]), (["python_dali_link.py", "tridonic", "tab"], ["table.csv"]),
    (["line_computer", "page", "--s"], ["--shift", "--station", "--store"]), (["line_computer", "page", "--name", "tab"], []),
    (["line_computer", "re"], ["retire"]), (["line_computer", "run", "--un"], ["--until-empty"]),
    (["line_computer", "run", "--bus", "b", "--", "dali_simulated_link", "--se"], ["--seed"]),
    (["line_computer", "add", "--bus", "b", "tab"], ["table.csv"]), (["orders_from_csv", "--f"], ["--from"]),
]


class CompletionsTest(BenchTest):
    """The words that complete a command line."""

    def test_completions(self):
        top = unpacked(self.folder)
        (self.folder / "here" / "tables").mkdir(parents=True)
        (self.folder / "here" / "table.csv").write_text("")
        (self.folder / "here" / "tool").touch(0o755)
        for words, wanted in COMPLETED:
            text = f". {top}/completions.bash; set -- {' '.join(map(repr, words))}; {COMPLETE}"
            status, output, complaint = run(["bash", "-c", text], cwd=self.folder / "here")
            found = sorted(filter(None, output.splitlines()))
            # A folder is completed where a file is.
            found = [it for it in found if it != "tables" or it in wanted]
            self.assertEqual((words, status, found, complaint), (words, 0, sorted(wanted), ""))

    def test_completions_know_each_option(self):
        text = (unpacked(self.folder) / "completions.bash").read_text()
        table = re.findall(r"^        '([^']*)'\) (.*) ;;$", text, re.MULTILINE)
        rows = {tuple(key.split(" ")): text for key, text in table}
        self.assertEqual(sorted(command for program, command in rows if program == "dali_bench"),
                         sorted(["", *COMMANDS[:-1]]))
        for program, command in rows:
            path = {"dali_bench": settings["program"], "line_computer": ROOT / "line_computer",
                    "orders_from_csv": ROOT / "tools/orders_from_csv"}.get(program, ROOT / f"adapters/{program}.py")
            status, text, _ = run([path, *command.split(), "--help"])
            options = set(re.findall(r"^ +(?:-h, )?(--[a-z][a-z0-9-]*)", text, re.MULTILINE))
            its = set(re.search("options='([^']*)'", rows[program, command])[1].split()) - {"--"}
            self.assertEqual((program, command, status, its), (program, command, 0, options))


if __name__ == "__main__":
    sys.exit(beside.main(__doc__, ["test_completions"], sys.argv[1:]))
