#!/usr/bin/env python3
"""Test the program and its launcher at the edges of the system, an order that loses one frame, and tools after `run`.

    test_edges.py [PROGRAM [FOLDER]]

PROGRAM and FOLDER are as of test_drive.py. The last line is `N passed, M failed`, and the status is 0 only where none
failed.
"""

import json
import os
import re
import resource
import shutil
import subprocess
import sys

sys.dont_write_bytecode = True

import beside  # noqa: E402
from base import BenchTest, settings  # noqa: E402
from driven import FIELDS, ROOT  # noqa: E402

CHECK = ("check", "examples/gtin.json")
UNWRITTEN = "error: the output can't be written"
GTIN = {"order": 1, "unit": 5, "gtin": "4006381333931"}
# The frames of a GTIN with nothing lost, and with one miss.
FRAMES, FRAMES_WITH_MISS = 112, 119
SECONDS, BYTES = 10, 1 << 30


def run(*words, **options):
    """Run the program on these words, in the repository."""
    how = {"stdout": subprocess.PIPE, "stderr": subprocess.PIPE, "text": True, "cwd": ROOT, "check": False}
    return subprocess.run([settings["program"], *words], **{**how, **options})


def simulated(events, *fates):
    """Run a scenario with one unit; give the lines of what is printed."""
    scenario = {"limit": 1, "units": [{"address": 5}], "fates": fates, "events": events}
    return run("run", "-", input=json.dumps(scenario)).stdout.splitlines()


def limit():
    """Give this process little time and memory."""
    resource.setrlimit(resource.RLIMIT_CPU, (SECONDS, SECONDS))
    resource.setrlimit(resource.RLIMIT_AS, (BYTES, BYTES))


class EdgesTest(BenchTest):
    """Edges that no file can hold: an output that fails, words that are no text, a machine that lacks something."""

    def wants(self, ended, status, told):
        """Compare how the program ended with what is wanted."""
        self.assertEqual((ended.returncode, ended.stderr), (status, told))

    def test_an_output_that_fails(self):
        for words in (CHECK, ("fields",), ("--help",)):
            with open("/dev/full", "w", encoding="utf-8") as full:
                self.wants(run(*words, stdout=full), 2, f"{UNWRITTEN}: no storage space\n")
        self.wants(run(*CHECK, stdout=None, preexec_fn=lambda: os.close(1)), 2, f"{UNWRITTEN}\n")

    def test_a_closed_pipe(self):
        reader, writer = os.pipe()
        os.close(reader)
        with open(writer, "wb") as pipe:
            self.wants(run(*CHECK, stdout=pipe), 2, "")

    def test_an_argument_that_is_no_text(self):
        ended = run("check", b"\xff")
        self.wants(ended, 1, "error: an argument is no text in UTF-8\n")
        self.assertEqual(ended.stdout, "")

    def test_16_mib_of_brackets(self):
        (self.folder / "brackets").write_bytes(b"[" * (16 << 20))
        ended = run("check", str(self.folder / "brackets"), preexec_fn=limit)
        self.assertEqual((ended.returncode, ended.stdout), (1, "fault 11 Json\n"))

    def test_the_version(self):
        """It names the logic of this gate's kit: kits of one logic prove the same."""
        logic = subprocess.run(["rt", "version"], stdout=subprocess.PIPE, text=True, check=True).stdout.split()[-1]
        self.assertEqual(run("--version").stdout, f"dali_bench 1.0, proved with the Rattle logic {logic}\n")

    def test_a_machine_without_find(self):
        """Nothing else says whether the program is that of the sources."""
        for name in ("sh", "readlink", "dirname"):
            (self.folder / name).symlink_to(shutil.which(name))
        ended = subprocess.run([ROOT / "dali_bench", "--version"], env={"PATH": str(self.folder)}, capture_output=True,
                               text=True, check=False)
        self.assertEqual((ended.returncode, ended.stdout), (2, ""))
        self.assertIn("the command find is missing", ended.stderr)

    def test_wrong_words_of_the_gate(self):
        """A seed that is forgotten doesn't begin hours of proofs."""
        for words in (["--seed"], ["--seed", "a", "b"], ["--anew", "x"], ["--built", "nothing"], ["x"]):
            ended = subprocess.run([ROOT / "test", *words], capture_output=True, text=True, check=False)
            self.assertEqual((words, ended.returncode, ended.stdout), (words, 2, ""))
            self.assertIn("./test [--anew | --seed SEED]", ended.stderr)

    def test_the_launcher_is_a_script(self):
        """A built program that was copied over it would go on with old sources."""
        self.assertEqual((ROOT / "dali_bench").read_bytes()[:10], b"#!/bin/sh\n")


class LossTest(BenchTest):
    """An order that loses one frame or one answer."""

    def test_each_loss_costs_a_try(self):
        events = [{"submit": GTIN}, {"steps": 200}]
        for number in range(1, FRAMES + 1):
            for fate in ({"lost": [5]}, {"answer_lost": True}):
                lines = simulated(events, *[{"times": number - 1}] * (number > 1), fate)
                total = next(int(line.split()[1]) for line in lines if line.startswith("total "))
                self.assertEqual((number, fate, "reply 1 kept 0 Done" in lines), (number, fate, True))
                self.assertLessEqual((number, fate, total <= FRAMES_WITH_MISS), (number, fate, True))


class AfterRunsTest(BenchTest):
    """A unit's bank after a run, with the groups of FFh that are left out put back, and orders that weren't done."""

    def bank_of_run(self, unit, text):
        """Run the script on the output of a run."""
        return subprocess.run([ROOT / "scripts" / "bank_of_run", str(unit)], input=text, capture_output=True, text=True,
                              check=False)

    def test_the_bank_of_a_unit(self):
        events = [{"submit": {"order": 1, "unit": 5, "luminaire": "B"}}, {"steps": 2000}]
        bank = self.bank_of_run(5, "\n".join([*simulated(events), ""])).stdout
        lines = run("show", "-", input=bank).stdout.splitlines()
        self.assertEqual(sum(line.endswith(" unknown") for line in lines), len(FIELDS) - 1)
        self.assertEqual({"luminaire text B", "format 0003"} - set(lines), set())

    def test_a_unit_that_is_not_there(self):
        self.assertEqual(self.bank_of_run(7, run("run", "examples/run_gtin.json").stdout).returncode, 1)

    def test_orders_that_were_not_done(self):
        last = dict(re.findall(r"^reply (\d+) (.*)$", run("run", "examples/run_left.json").stdout, re.MULTILINE))
        self.assertEqual([number for number, reply in last.items() if reply != "kept 0 Done"], ["1"])


if __name__ == "__main__":
    sys.exit(beside.main(__doc__, ["test_edges"], sys.argv[1:]))
