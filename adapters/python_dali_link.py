#!/usr/bin/env python3
"""Carry a command's frames over a DALI interface that the library python-dali has a driver for.

    python_dali_link.py [options] DRIVER DEVICE -- COMMAND WORDS..

It starts the command, hands each of its frames to the library and each answer back, until the command closes its
output, and ends with its status. docs/LINK.md explains it. It follows the library's published interface, and was tried
neither with the library nor on hardware. A frame is a command of 16 bits that the library knows nothing of: sent once,
with no other frame before it, and answered. The result is a backward frame, none, or a damaged one. A fault of the
library, or no answer of it within the time limit, leaves it open what became of the frame: then nothing more is sent,
and the command finds its input ended.
"""

import argparse
import asyncio
import atexit
import contextlib
import functools
import hashlib
import importlib
import inspect
import os
import re
import sys
import time

from adapter import NO_ANSWER, Broken, add_time_limit, claim, damaged, main
from devices import add_list, hid_devices, serial_lines

LONGEST_CONNECT = 5  # seconds
# By the name that is given here: the library's module and class, and what that takes for a device.
DRIVERS = {
    "tridonic": ("dali.driver.hid:tridonic", "{}"),
    "hasseb": ("dali.driver.hid:hasseb", "{}"),
    "luba232": ("dali.driver.serial:DriverLubaRs232", "luba232:{}"),
}
# The prefix of a device's path, for a class of the library that takes one.
URI = re.compile("^[a-z0-9]+:(?=/)")
# The devices over HID, by maker and product.
KNOWN = {"17b5:0020": "tridonic", "04cc:0802": "hasseb"}
HELP = """\
DRIVER is one of these, or MODULE:CLASS, another class of the library that is
used in the same way, with all that it takes as DEVICE:

  tridonic    Tridonic DALI USB, at /dev/hidrawN
  hasseb      hasseb DALI Master, at /dev/hidrawN
  luba232     Lunatone, by its protocol LUBA, at a serial line

Not tried with the library, nor on hardware.
"""


def of_library(module):
    """Give a module of the library."""
    try:
        return importlib.import_module(module)
    except ImportError as fault:
        raise Broken(f"{sys.executable} can't use {module} of the library python-dali: {fault}: install the library, or"
                     " start this adapter by the Python that has it (docs/SETUP.md)") from fault


def driver_of(name):
    """Give the class of the library that a driver's name stands for, and what it takes for a device."""
    place, form = DRIVERS.get(name, (name, "{}"))
    module, _, kind = place.partition(":")
    try:
        return getattr(of_library(module), kind), form
    except AttributeError as fault:
        raise Broken(f"the library python-dali that is installed has no {kind} in {module}") from fault


def commands_of_library():
    """Give what makes a command of the library out of a forward frame of 16 bits."""
    command, frame = of_library("dali.command"), of_library("dali.frame")

    class _Frame(command.Command):
        """A frame as it stands. The library keeps a class whose name begins so out of the table of what it knows."""

        sendtwice, devicetype, response = False, 0, command.Response

    return lambda word: _Frame(frame.ForwardFrame(16, word))


def open_interface(options):
    """Have the library open the device, for this adapter alone, and pass over the time in which a frame may go out."""
    kind, form = driver_of(options.driver)
    commands = commands_of_library()
    path = URI.sub("", options.device)
    if options.driver in DRIVERS or path.startswith("/"):
        want_device(path)
    # By the device itself, whatever link names it: such a name has at most some hundred bytes.
    name = os.path.realpath(path) if os.path.exists(path) else path
    claim(f"python_dali_link {hashlib.sha256(os.fsencode(name)).hexdigest()}", f"another adapter has {options.device}")
    loop = asyncio.new_event_loop()
    atexit.register(end, loop)
    opening = connected(kind, form.format(options.device))
    driver = told_by(loop, opening, LONGEST_CONNECT, f"{options.device} can't be opened")
    time.sleep(options.time_limit)
    return functools.partial(carry, loop, driver, commands, options.time_limit)


def want_device(path):
    """Raise unless a device is there that this user may open."""
    if not os.path.exists(path):
        raise Broken(f"the interface can't be opened: {path}: it isn't there: is the interface plugged in?")
    if not os.access(path, os.R_OK | os.W_OK):
        raise Broken(f"the interface can't be opened: {path}: this user may not open it (docs/LINK.md tells how to let"
                     " a group)")


async def connected(kind, device):
    """Make the library's driver, once it is connected with the device."""
    driver = kind(device)
    is_there = driver.connect()
    if inspect.isawaitable(is_there):
        is_there = await is_there
    if is_there is False:
        raise Broken(f"{device} can't be opened: the library can't")
    if hasattr(driver, "connected"):
        await driver.connected.wait()
    return driver


async def sent(driver, command):
    """Have a driver send a command; give its response."""
    for _ in range(2):  # in which the library notices what has come, and whether the device has gone
        await asyncio.sleep(0)
    if hasattr(driver, "connected") and not driver.connected.is_set():
        raise Broken("the interface is gone: look at its plug")
    return await driver.send(command)


def told_by(loop, doing, seconds, what):
    """Give what the library does within this many seconds. If it raises, it isn't known what became of it."""
    try:
        return loop.run_until_complete(asyncio.wait_for(doing, seconds))
    except Broken:
        raise
    except asyncio.TimeoutError as fault:
        raise Broken(f"{what}: the library gave no answer in {seconds:g} seconds") from fault
    except Exception as fault:
        words = " ".join(f"{type(fault).__name__} {fault}".split())
        raise Broken(f"{what}: the library tells {words}: look at the interface and its plug") from fault


def carry(loop, driver, commands, time_limit, frame):
    """Hand a frame to the library; return the answer as the command reads it."""
    sending = sent(driver, commands(int(frame, 16)))
    response = told_by(loop, sending, time_limit, "it isn't known what became of the frame")
    if not hasattr(response, "raw_value"):
        raise Broken("the library didn't tell what came back")
    back = response.raw_value
    if back is None:
        return NO_ANSWER
    return damaged(frame) if back.error else b"%02X" % back.as_integer


def end(loop):
    """End what the library still does, without a word."""
    loop.set_exception_handler(lambda *_: None)
    with contextlib.suppress(Exception):
        for task in asyncio.all_tasks(loop):
            task.cancel()
        loop.run_until_complete(asyncio.sleep(0))
        loop.close()


def found():
    """Give a line for each device that may be an interface, after the driver that is for it."""
    return [*hid_devices(KNOWN), *(f"luba232 {line}" for line in serial_lines())]


def driver_name(text):
    """Read the name of a driver."""
    module, colon, kind = text.partition(":")
    is_class = colon and all(it.isidentifier() for it in [*module.split("."), kind])
    if text not in DRIVERS and not is_class:
        raise argparse.ArgumentTypeError(f"{text!r} is none of {', '.join(DRIVERS)}, and no MODULE:CLASS")
    return text


def parser():
    """Make the reader of the options."""
    made = argparse.ArgumentParser(usage="%(prog)s [options] DRIVER DEVICE -- COMMAND WORDS..", allow_abbrev=False,
                                   description="Carry a command's frames over an interface of the library python-dali.",
                                   epilog=HELP, formatter_class=argparse.RawDescriptionHelpFormatter)
    made.add_argument("driver", metavar="DRIVER", type=driver_name, help="the driver, as below")
    made.add_argument("device", metavar="DEVICE", help="the device, as /dev/hidraw0")
    add_time_limit(made, "interface")
    add_list(made, found, "there is no device that is known, and no serial line: is the interface plugged in?")
    return made


if __name__ == "__main__":
    sys.exit(main(parser(), open_interface, sys.argv[1:]))
