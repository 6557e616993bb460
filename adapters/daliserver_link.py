#!/usr/bin/env python3
"""Carry a command's frames to a daliserver, over TCP.

    daliserver_link.py [options] -- COMMAND WORDS..

It starts the command, hands each of its frames to the server and each answer back, until the command closes its output,
and ends with its status. docs/LINK.md explains it. It follows daliserver's published protocol, and wasn't tried on
hardware. Four bytes go each way: we send version 2, type 0, and the frame's address byte and second byte. The server
answers version 2, a status, the backward frame and 0; the status is 0 for no answer, 1 for an answer and 255 for an
error. An error, any other answer, none within the time limit and a connection that ended leave it open what became of
the frame: then nothing more is sent, and the command finds its input ended. It never connects anew. It isn't known how
the server answers if several units answered at once, so no answer is reported as damaged here.
"""

import argparse
import functools
import select
import socket
import sys
import time

from adapter import NO_ANSWER, Broken, add_time_limit, claim, main
from devices import add_list

VERSION, SEND = 2, 0
ANSWER_LENGTH = 4
# The meanings of the server's status.
NONE, ANSWERED, ERROR = 0, 1, 255


def open_server(options):
    """Connect to the server, as the only adapter to it, and pass over the time in which an old frame may go out."""
    where = f"the server at {options.host}, port {options.port},"
    try:
        server = socket.create_connection((options.host, options.port), options.time_limit)
        our_end, its_end = server.getsockname(), server.getpeername()
    except OSError as fault:
        raise OSError(f"{where} can't be reached: {fault.strerror or fault}: is daliserver running there?") from fault
    if our_end == its_end:
        raise OSError(f"{where} can't be reached: the connection leads back to itself")
    address, port = its_end[:2]
    claim(f"daliserver_link {address} {port}",
          f"another adapter is connected to the server at {address}, port {port}")
    want_quiet(server, options.time_limit)
    return functools.partial(carry, server, options.time_limit)


def has_come(server, seconds):
    """Tell whether bytes or the end of the connection have come from the server, or come within these seconds."""
    return bool(select.select([server], [], [], seconds)[0])


def want_quiet(server, seconds):
    """Raise where the server has spoken unasked or closed the connection, or does so within these seconds."""
    if has_come(server, seconds):
        raise Broken("the server spoke unasked" if server.recv(1) else "the server closed the connection")


def carry(server, time_limit, frame):
    """Hand a frame to the server; return the answer as the command reads it."""
    want_quiet(server, 0)
    server.sendall(bytes([VERSION, SEND]) + bytes.fromhex(frame.decode()))
    answer, latest = b"", time.monotonic() + time_limit
    while len(answer) < ANSWER_LENGTH:
        if not has_come(server, max(0, latest - time.monotonic())):
            raise Broken(f"the server gave no answer in {time_limit:g} seconds")
        piece = server.recv(16)
        if not piece:
            raise Broken("the server closed the connection before its answer was whole")
        answer += piece
    return line_of(answer)


def line_of(answer):
    """Give the server's answer as the command reads it."""
    version, status, byte, last = answer[:ANSWER_LENGTH]
    if len(answer) == ANSWER_LENGTH and version == VERSION and last == 0:
        if status == NONE:
            return NO_ANSWER
        if status == ANSWERED:
            return b"%02X" % byte
        if status == ERROR:
            raise Broken("the server tells an error")
    raise Broken(f"the server's answer {answer.hex(' ')} is none that it may give")


def host_name(text):
    """Read the name or the address of a host."""
    try:
        is_name = text.encode("idna") != b""
    except UnicodeError:
        is_name = False
    if not is_name:
        raise argparse.ArgumentTypeError(f"{text!r} is no name of a host")
    return text


def port_number(text):
    """Read the number of a port."""
    if not (text.isascii() and text.isdigit() and 1 <= int(text) <= 65535):
        raise argparse.ArgumentTypeError(f"{text!r} is no port, 1 to 65535")
    return int(text)


def parser():
    """Make the reader of the options."""
    made = argparse.ArgumentParser(usage="%(prog)s [options] -- COMMAND WORDS..", allow_abbrev=False,
                                   description="Carry a command's frames to a daliserver, over TCP, after its "
                                               "published protocol. Not tried on hardware.")
    made.add_argument("--host", metavar="H", type=host_name, default="localhost",
                      help="where the server runs (default: %(default)s)")
    made.add_argument("--port", metavar="P", type=port_number, default="55825",
                      help="its port (default: %(default)s)")
    add_time_limit(made, "server")
    add_list(made, list, "a daliserver isn't looked for: --host and --port name it")
    return made


if __name__ == "__main__":
    sys.exit(main(parser(), open_server, sys.argv[1:]))
