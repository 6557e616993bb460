#!/usr/bin/env python3
"""Carry a command's frames to simulated units whose interface may be unplugged: for tests/test_line.py.

    line_adapter.py FOLDER A[,A..] -- COMMAND WORDS..

Bank 1 of unit A is kept in FOLDER, as by adapters/simulated_link.py. While the file `unplugged` is there the interface
is gone, so that the link is closed at the next frame; while `absent_A` is there unit A has no power.
"""

import pathlib
import sys

sys.dont_write_bytecode = True
sys.path.insert(0, str(pathlib.Path(__file__).resolve().parent.parent / "adapters"))

import adapter  # noqa: E402
import simulated_link  # noqa: E402


class Plugged(simulated_link.FiledBus):
    """A bus over an interface that may be unplugged, with units that may be without power."""

    def __init__(self, folder, addresses):
        super().__init__(folder, [simulated_link.load_unit(folder, address) for address in addresses])
        self.all_units = self.units

    def frame(self, digits):
        """Carry a frame; give its answer as the command reads it."""
        if pathlib.Path(self.folder, "unplugged").exists():
            raise adapter.Broken("the interface is gone")
        self.units = []
        for unit in self.all_units:
            if pathlib.Path(self.folder, f"absent_{unit.short_address}").exists():
                unit.power_up()
            else:
                self.units.append(unit)
        answer = self.carry(int(digits, 16))
        return adapter.NO_ANSWER if answer is None else b"%02X" % answer


if __name__ == "__main__":
    bus = Plugged(sys.argv[1], [int(address) for address in sys.argv[2].split(",")])
    sys.exit(adapter.serve(bus.frame, sys.argv[4:]))
