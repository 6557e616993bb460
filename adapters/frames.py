"""The option --frames of all adapters: each frame with its answer and its times, a line on standard error.

    frame 6 C755 55 at 2026-11-28T16:20:01.123 took 29.1 ms

The number counts frames from 1, `at` is this computer's clock when the frame's line came, and `took` how long its
answer took from then on. `??` stands in place of the answer where it isn't known what became of the frame.
"""

import contextlib
import datetime
import itertools
import os
import sys
import time

UNKNOWN = b"??"


def add_option(parser):
    """Add the option to an adapter's."""
    parser.add_argument("--frames", action="store_true",
                        help="print each frame, its answer and its times to standard error")


def shown(carry):
    """Give what carries a frame as `carry` does, and prints a line of it before its answer is handed on."""
    numbers = itertools.count(1)

    def carry_shown(frame):
        answer, moment, began = UNKNOWN, datetime.datetime.now(), time.monotonic()
        try:
            answer = carry(frame)
        finally:
            put(line_of(next(numbers), frame, answer, moment, time.monotonic() - began))
        return answer

    return carry_shown


def put(line):
    """Write a line in one call. The link doesn't break where it can't be written, as on a full disk."""
    # Where there is no standard error, its number may be that of the interface.
    if sys.stderr is not None:
        with contextlib.suppress(OSError):
            os.write(sys.stderr.fileno(), line)


def line_of(number, frame, answer, moment, seconds):
    """Give the line of a frame."""
    at = moment.isoformat(timespec="milliseconds")
    return f"frame {number} {frame.decode()} {answer.decode()} at {at} took {1000 * seconds:.1f} ms\n".encode()
