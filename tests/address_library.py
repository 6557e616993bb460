"""Tests of `address` and `drive` over the link over python-dali: a library of the tests' own over simulated units."""

import json
import subprocess

from adapter_fixtures import LIBRARY_LINK, LibraryInterface
from base import BenchTest, settings
from driven import PATIENCE

# As docs/BENCH.md has it for the same two units over the simulated link.
GIVEN = "unit 0 random 50F231\nunit 1 random C6AFAC\ngiven 2 missing 0 shared 0\n"
GTIN_BYTES = "03A4CEEFADAB"


class LibraryTest(BenchTest):
    """The program over python-dali."""

    def over(self, *words):
        """Run a command over the interface; give its status, its output and its standard error."""
        link = [LIBRARY_LINK, "--time-limit", "2", "hasseb", self.interface.device]
        ended = subprocess.run([*link, "--", settings["program"], *words], cwd=self.folder, capture_output=True,
                               env=self.interface.environment, text=True, timeout=PATIENCE * 3)
        return ended.returncode, ended.stdout, ended.stderr

    def test_two_new_units_get_their_addresses_and_a_gtin(self):
        (self.folder / "units").mkdir()
        self.interface = LibraryInterface(self.folder, units=str(self.folder / "units"))
        self.assertEqual(self.over("address"), (0, "", GIVEN))
        orders = [{"order": unit + 1, "unit": unit, "gtin": "4006381333931"} for unit in (0, 1)]
        (self.folder / "orders.json").write_text(json.dumps(orders))
        done = "".join(f"reply {number} taken\nreply {number} kept 0 Done\n" for number in (1, 2))
        before = len(self.interface.frames())
        self.assertEqual(self.over("drive", "orders.json", "bench.journal"), (0, "", done))
        # No frame was sent twice, and none besides.
        self.assertEqual(len(self.interface.frames()) - before, 2 * 112)
        for name in ("new_1", "new_2"):
            bank = (self.folder / "units" / f"{name}.hex").read_text().replace(" ", "")
            self.assertEqual((name, bank[6:18]), (name, GTIN_BYTES))
