"""The common base of the adapters to an interface: they start a command, carry its frames, and say where the link
broke.

An adapter gives `main` a function that opens its interface as the options say. That function returns one that carries a
frame: it takes the frame's four hexadecimal digits, and returns the answer as the command reads it. If it can't tell
what became of the frame it raises `Broken` or OSError. Then nothing more is sent.
"""

import argparse
import errno
import os
import re
import socket
import subprocess
import sys

import frames

FRAME_LINE = re.compile(rb"([0-9A-F]{4})\n")
NO_ANSWER, YES = b"--", b"FF"
# Forward frames that YES alone answers: COMPARE, QUERY MISSING SHORT ADDRESS to all; and of QUERY CONTROL GEAR PRESENT
# to one short address the second byte.
COMPARE, ASK_MISSING, ASK_PRESENT = 0xA900, 0xFF96, 0x91
# A name by which a command opens a descriptor that it was started with.
OF_A_DESCRIPTOR = re.compile("/(?:dev|proc/self)/fd/([0-9]+)")
LONGEST_LIMIT = 60  # seconds


class Broken(Exception):
    """It isn't known what became of a frame, or the link can't be trusted with the next one."""


def shown(data):
    """Spell bytes on one line: what isn't a character from 20h to 7Eh, and the backslash, as \\xHH."""
    return "".join(chr(it) if 0x20 <= it <= 0x7E and it != 0x5C else f"\\x{it:02X}" for it in data)


def handed_on(words):
    """Give the descriptors that the words of a command name, and that this program was itself handed.

    No others are handed on: a command that held the writing end of the pipe which it reads would never see its end.
    """
    return [number for number in {int(it) for word in words for it in OF_A_DESCRIPTOR.findall(os.fspath(word))}
            if is_handed(number)]


def is_handed(number):
    """Tell whether a descriptor is open and isn't one of this program's own, which aren't inheritable."""
    try:
        return os.get_inheritable(number)
    except (OSError, OverflowError):
        return False


def answer_to(line, carry):
    """Carry the frame of a command's line; return its answer."""
    known = FRAME_LINE.fullmatch(line)
    if not known:
        raise Broken(f"the command's line {shown(line)} isn't four upper-case hexadecimal digits and a line feed, as of"
                     " drive, read, verify, scan and address")
    try:
        return carry(known[1])
    except OSError as fault:
        raise Broken(words_of(fault)) from fault


def only_yes_answers(word):
    """Tell whether YES is all that a unit may answer to a forward frame, given as a number of sixteen bits."""
    address_byte, second = divmod(word, 0x100)
    is_to_one = address_byte < 0x80 and address_byte % 2 == 1
    return word in (COMPARE, ASK_MISSING) or is_to_one and second == ASK_PRESENT


def damaged(frame):
    """Give the answer to a frame, of four digits, to which what came is no valid backward frame (docs/LINK.md)."""
    return YES if only_yes_answers(int(frame, 16)) else NO_ANSWER


def claim(name, words):
    """Hold a name on this computer until this program ends; raise with these words where another program holds it."""
    holder = socket.socket(socket.AF_UNIX)
    try:
        holder.bind(f"\0{name}")
    except OSError as fault:
        if fault.errno != errno.EADDRINUSE:
            raise
        raise OSError(words) from fault
    holder.detach()


def seconds_of(text):
    """Read a time limit."""
    try:
        seconds = float(text)
    except ValueError:
        seconds = 0
    if not 0 < seconds <= LONGEST_LIMIT:
        raise argparse.ArgumentTypeError(f"{text!r} is no number of seconds over 0, up to {LONGEST_LIMIT}")
    return seconds


def add_time_limit(parser, who):
    """Add the option of the longest time in which a frame is sent and answered by what carries it."""
    parser.add_argument("--time-limit", metavar="S", type=seconds_of, default="0.5",
                        help=f"seconds within which the {who} sends a frame and answers, or never; the first frame"
                             " waits as long (default: %(default)s)")


def words_of(fault):
    """Give words for what the system refused at the interface, without its number."""
    return f"the interface can't be used: {fault.strerror}" if fault.strerror else str(fault)


def tell(fault):
    """Tell what is wrong on standard error, which the command has too."""
    print("error:", words_of(fault) if isinstance(fault, OSError) else fault, file=sys.stderr)


def serve(carry, words):
    """Start the command, carry its frames, and return its status; where the link broke never 0."""
    try:
        command = subprocess.Popen(words, stdin=subprocess.PIPE, stdout=subprocess.PIPE, bufsize=0,
                                   pass_fds=handed_on(words))
    except OSError as fault:
        raise Broken(f"the command can't be started: {words[0]}: {fault.strerror}") from fault
    least = 0
    try:
        while line := command.stdout.readline(16):
            command.stdin.write(answer_to(line, carry) + b"\n")
    except BrokenPipeError:
        pass  # the command is gone
    except (Broken, OSError) as fault:
        tell(fault)
        least = 1
    finally:
        command.stdin.close()
        command.stdout.close()
        status = command.wait()
    return max(least, status if status >= 0 else 128 - status)


def options_and_words(parser, arguments):
    """Read a command line: the options, and after -- the words of the command."""
    end = arguments.index("--") if "--" in arguments else len(arguments)
    options, unknown = parser.parse_known_args(arguments[:end])
    if unknown:
        parser.error(f"unrecognized arguments: {' '.join(unknown)}: put -- before the command")
    if not arguments[end + 1:]:
        parser.error("there is no command: put -- and its words behind the options")
    return options, arguments[end + 1:]


def main(parser, open_interface, arguments):
    """Carry a command's frames over the interface that the options name, and return the status to end with."""
    frames.add_option(parser)
    options, words = options_and_words(parser, arguments)
    try:
        carry = open_interface(options)
        return serve(frames.shown(carry) if options.frames else carry, words)
    except (Broken, OSError) as fault:
        tell(fault)
        return 2
    except KeyboardInterrupt:
        return 130
