#!/usr/bin/env python3
"""Carry a command's frames to the luminaire at a station's seat, unit 5: for tests/line_station.py.

    station_adapter.py FOLDER LOSS SEED MILLISECONDS -- COMMAND WORDS..

Its bank 1 is kept in FOLDER, as by adapters/simulated_link.py. While the file `absent_5` is there nothing is at the
seat; while `unplugged` is there the interface is gone. Frames are lost by the chance LOSS, and take MILLISECONDS each.
"""

import sys

sys.dont_write_bytecode = True

from line_adapter import Plugged, adapter, simulated_link  # noqa: E402


class Seat(Plugged):
    """A bus with one unit, or none."""

    def __init__(self, folder, loss, seed, pace):
        unit = simulated_link.load_unit(folder, 5)
        simulated_link.FiledBus.__init__(self, folder, [unit], loss=loss, seed=seed, frame_time=pace)
        self.all_units = self.units


if __name__ == "__main__":
    bus = Seat(sys.argv[1], float(sys.argv[2]), int(sys.argv[3]), float(sys.argv[4]))
    sys.exit(adapter.serve(bus.frame, sys.argv[6:]))
