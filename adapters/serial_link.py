#!/usr/bin/env python3
"""Carry a command's frames over a serial DALI interface.

    serial_link.py [options] DEVICE -- COMMAND WORDS..

It starts the command, hands each of its frames to the interface and each reply back, until the command closes its
output, and ends with its status. docs/LINK.md explains it, and has both protocols. The interface's, at 38400 baud:
we send `S`, four hexadecimal digits and a carriage return. It replies, each with a carriage return, `J` and two
hexadecimal digits for a backward frame, `N` for none, or `X` for a damaged one, which is a yes where only YES answers.
Any other reply, or none in half a second, leaves it open what became of the frame: then nothing more is sent, and the
command finds its input ended.
Options have another letter in the place of `S`, another baud rate, and a line feed in the place of a carriage return.
"""

import argparse
import errno
import fcntl
import functools
import os
import re
import select
import sys
import termios
import time

from adapter import NO_ANSWER, Broken, damaged, main, shown
from devices import add_list, serial_lines

TIME_OUT = 0.5  # seconds; within these the interface sends a frame and replies, or never
# The ends of a line, and the replies that each ends.
CARRIAGE_RETURN, LINE_FEED = b"\r", b"\n"
REPLY = rb"(?:J(?P<digits>[0-9A-Fa-f]{2})|N|(?P<damaged>X))"
REPLIES = {CARRIAGE_RETURN: re.compile(REPLY + rb"\r"), LINE_FEED: re.compile(REPLY + rb"\r?\n")}
# Each baud rate of the system, with the name that the system has for it.
BAUD_RATES = {name[1:]: getattr(termios, name) for name in dir(termios) if re.fullmatch("B[1-9][0-9]*", name)}
# Why a serial line isn't opened, and what to do.
WHY_UNOPENED = {
    errno.EAGAIN: "another adapter has it: end that one first",
    errno.EBUSY: "another program has it, as ModemManager (docs/LINK.md): end that one first",
    errno.EACCES: "it may not be opened: put the user into the group that owns it, on Debian dialout",
    errno.ENOENT: "it isn't there: is the interface plugged in?",
    errno.ENOTTY: "it is no serial line",
}
INTERFACES = """\
The interface replies J and two hexadecimal digits, N or X. An interface that
replies so, after its published driver, and not tried on hardware:

  ATX LED DALI HAT    --letter h --baud 19200 --line-feed
"""


def open_interface(options):
    """Open the serial line raw, for us alone, and pass over what is still under way on it."""
    eight_bits = termios.CS8 | termios.CREAD | termios.CLOCAL
    try:
        line = os.open(options.device, os.O_RDWR | os.O_NOCTTY | os.O_NONBLOCK)
        fcntl.flock(line, fcntl.LOCK_EX | fcntl.LOCK_NB)
        fcntl.ioctl(line, termios.TIOCEXCL)
        control = termios.tcgetattr(line)[6]
        control[termios.VMIN], control[termios.VTIME] = 1, 0
        termios.tcsetattr(line, termios.TCSANOW, [0, 0, eight_bits, 0, options.baud, options.baud, control])
    except (OSError, termios.error) as fault:
        why = WHY_UNOPENED.get(fault.args[0], os.strerror(fault.args[0]))
        raise Broken(f"the interface can't be opened: {options.device}: {why}") from fault
    time.sleep(TIME_OUT)
    return functools.partial(carry, line, options.letter, LINE_FEED if options.line_feed else CARRIAGE_RETURN)


def carry(line, letter, end, frame):
    """Hand a frame to the interface; return the answer as the command reads it."""
    try:
        termios.tcflush(line, termios.TCIFLUSH)
    except termios.error as fault:
        raise OSError(*fault.args) from fault
    request = letter + frame + end
    if os.write(line, request) != len(request):
        raise Broken("the interface takes no frame")
    reply, latest = b"", time.monotonic() + TIME_OUT
    while not reply.endswith(end) and len(reply) < 16:
        if not select.select([line], [], [], max(0, latest - time.monotonic()))[0]:
            raise Broken(words_of_silence(reply, request, end))
        piece = os.read(line, 16)
        if not piece:
            raise Broken("the interface is gone: look at its plug")
        reply += piece
    if not (known := REPLIES[end].fullmatch(reply)):
        raise Broken(f"the interface's reply {shown(reply)} is none that it may give: {advice(reply, end)}")
    return damaged(frame) if known["damaged"] else known["digits"] or NO_ANSWER


def words_of_silence(reply, request, end):
    """Tell that no whole reply came to a request, what came of one, and what to look at."""
    if not reply:
        return (f"the interface gave no reply in {TIME_OUT} seconds to {shown(request)}: look at its plug and its"
                " power, and whether --letter, --baud and --line-feed are as it wants them")
    return (f"the interface gave no reply that ends with {shown(end)} in {TIME_OUT} seconds, but {shown(reply)}:"
            f" {advice(reply, end)}")


def advice(reply, end):
    """Tell what to look at after a reply that is none."""
    if end == CARRIAGE_RETURN and REPLIES[LINE_FEED].fullmatch(reply):
        return "its lines end with a line feed, so give --line-feed"
    if end == LINE_FEED and REPLIES[CARRIAGE_RETURN].fullmatch(reply):
        return "its lines end with a carriage return, so leave out --line-feed"
    if not all(0x20 <= it <= 0x7E or it in CARRIAGE_RETURN + LINE_FEED for it in reply):
        return "look at --baud, since bytes as these come at a wrong rate"
    return "look at --letter, --baud and --line-feed (--help)"


def letter_of(text):
    """Read the letter that sends a frame."""
    if len(text) != 1 or not text.isascii() or not text.isalpha():
        raise argparse.ArgumentTypeError(f"{text!r} isn't one letter, A to Z or a to z")
    return text.encode()


def baud_rate(text):
    """Read a baud rate."""
    if text not in BAUD_RATES:
        known = ", ".join(sorted(BAUD_RATES, key=int))
        raise argparse.ArgumentTypeError(f"{text!r} is none of the system's baud rates: {known}")
    return BAUD_RATES[text]


def parser():
    """Make the reader of the options."""
    made = argparse.ArgumentParser(usage="%(prog)s [options] DEVICE -- COMMAND WORDS..", allow_abbrev=False,
                                   description="Carry a command's frames over a serial DALI interface.",
                                   epilog=INTERFACES, formatter_class=argparse.RawDescriptionHelpFormatter)
    made.add_argument("device", metavar="DEVICE", help="the serial line, as /dev/ttyUSB0")
    made.add_argument("--letter", metavar="L", type=letter_of, default="S",
                      help="the letter in front of a frame that is to be sent once (default: %(default)s)")
    made.add_argument("--baud", metavar="RATE", type=baud_rate, default="38400",
                      help="the baud rate (default: %(default)s)")
    made.add_argument("--line-feed", action="store_true",
                      help="lines end with a line feed, and not with a carriage return")
    add_list(made, serial_lines, "there is no serial line: is the interface plugged in?")
    return made


if __name__ == "__main__":
    sys.exit(main(parser(), open_interface, sys.argv[1:]))
