"""Tests of the serial link, over a pseudo-terminal with an interface that a thread plays."""

import concurrent.futures
import errno
import fcntl
import re
import struct
import subprocess
import sys
import termios
import time

from adapter_desk import ADAPTERS, player, run, shown_frames, want_link_without_frames, want_named_descriptors
from adapter_fixtures import SerialInterface
from base import want
from driven import ROOT

SERIAL = ADAPTERS / "serial_link.py"
HAT = ["--letter", "h", "--baud", "19200", "--line-feed"]
TIOCGEXCL = 0x80045440  # whether a line is one program's alone, of Linux

# The adapter where the system refuses to open the line.
REFUSED = """
import os, sys
sys.path.insert(0, sys.argv[1])
import serial_link
def refuse(*_):
    raise OSError(int(sys.argv[2]), "refused")
os.open = refuse
sys.exit(serial_link.main(serial_link.parser(), serial_link.open_interface, ["/dev/ttyUSB0", "--", "true"]))
"""


def over_serial(replies, words, options=()):
    """Run a stand-in command over the serial link; return its status, the answers, what was heard, the text."""
    interface = SerialInterface(replies, b"\n" if "--line-feed" in options else b"\r")
    status, answers, told = run(SERIAL, [*options, interface.device], words)
    interface.close()
    assert "Traceback" not in told, told
    return status, answers, interface.heard, told


def test_serial_answers(folder):
    replies = [[b"N\r"], [b"J01\r"], [b"X\r"], [b"J", 0.1, b"aF", 0.1, b"\r"], [0.3, b"N\r"]]
    words = "C301 0B9C 0B98 0BC5 C712".split()
    heard = [f"S{word}\r" for word in words]
    want(over_serial(replies, words), (7, "-- 01 -- aF --".split(), heard, "answers -- 01 -- aF --\n"))


def test_serial_a_damaged_answer_is_yes_where_only_yes_answers(folder):
    words = "A900 FF96 0191 0B91 7F91 A901 A800 BB00 FF91 FE96 0A91 8191 0B90 0BC5".split()
    want(over_serial([[b"X\r"]] * len(words), words)[:2], (7, 5 * ["FF"] + 9 * ["--"]))
    want(over_serial([[b"N\r"], [b"J00\r"], [b"JFF\r"]], words[:3])[:2], (7, ["--", "00", "FF"]))


def test_serial_frames_are_shown(folder):
    replies = [[b"N\r"], [b"J01\r"], [0.2, b"X\r"], []]
    words = "C301 0B9C 0B98 A303 0BC5".split()
    status, answers, heard, told = over_serial(replies, words, ["--frames"])
    want((status, answers, heard), (4, "-- 01 -- end".split(), [f"S{word}\r" for word in words[:4]]))
    shown, _, took = shown_frames(told)
    # Of the last one nothing is known: the interface was silent.
    want(shown, list(zip(words, "-- 01 -- ??".split())))
    assert 200 <= took[2] < 500 <= took[3], took


def test_serial_goes_on_where_frames_cannot_be_shown(folder):
    for told_to in ("/dev/full", "&-"):
        interface = SerialInterface([[b"N\r"], [b"J01\r"]])
        found = want_link_without_frames(SERIAL, [interface.device], told_to, "C301 0B9C".split(), folder)
        interface.close()
        want((told_to, found, interface.heard), (told_to, ["--", "01"], ["SC301\r", "S0B9C\r"]))


def test_serial_silence(folder):
    status, answers, heard, told = over_serial([[b"N\r"], []], "C301 0B9C A303".split())
    want((status, answers, heard), (4, ["--", "end"], ["SC301\r", "S0B9C\r"]))
    assert "no reply" in told, told


def test_serial_device_gone(folder):
    status, answers, heard, _ = over_serial([[b"N\r"], ["close"]], "C301 0B9C A303".split())
    want((status, answers, heard), (4, ["--", "end"], ["SC301\r", "S0B9C\r"]))
    status, answers, heard, _ = over_serial([[b"N\r", 0.1, "close"]], "C301 pause 0B9C A303".split())
    want((status, answers, heard), (4, ["--", "end"], ["SC301\r"]))


def test_serial_other_replies(folder):
    def found(reply):
        return reply, over_serial([[reply]], "0B9C A303".split())

    replies = [b"J0\r", b"J033\r", b"J01\rN\r", b"\r", b"J01\n\r", b"F\r", b"JG1\r", b"J" * 40]
    for reply, (status, answers, heard, told) in concurrent.futures.ThreadPoolExecutor(8).map(found, replies):
        want((reply, status, answers, heard), (reply, 4, ["end"], ["S0B9C\r"]))
        assert "is none that it may give" in told, told


def test_serial_late_answer(folder):
    interface = SerialInterface([[0.7, b"J55\r"], [b"N\r"], [b"J01\r"]])
    want(run(SERIAL, [interface.device], ["0B9C", "A303"])[:2], (4, ["end"]))
    want(run(SERIAL, [interface.device], ["0B98", "0BC5"])[:2], (7, ["--", "01"]))
    interface.close()
    want(interface.heard, ["S0B9C\r", "S0B98\r", "S0BC5\r"])


def test_serial_stray_reply(folder):
    want(over_serial([[b"J01\r", 0.05, b"J02\r"], [b"N\r"]], "0B9C pause A303".split())[:2], (7, ["01", "--"]))


def test_serial_command_gone(folder):
    want(over_serial([[b"N\r"]], ["C301", "kill"])[0], 137)
    want(over_serial([[b"N\r"]], ["close", "C301"]), (7, [], ["SC301\r"], "answers \n"))
    for line in ["a303", "A30", "A3033"]:
        status, answers, heard, told = over_serial([[b"N\r"]], ["C301", line])
        want((status, answers, heard), (4, ["--", "end"], ["SC301\r"]))
        assert "isn't four upper-case" in told, told


def test_serial_cannot_start(folder):
    interface = SerialInterface([[b"N\r"], [b"N\r"]])
    words = ["C301", *["pause"] * 50]
    held = subprocess.Popen([SERIAL, interface.device, "--", *player(words)], stderr=subprocess.PIPE)
    while interface.thread.is_alive() and not interface.heard:
        time.sleep(0.05)
    is_exclusive = struct.unpack("i", fcntl.ioctl(interface.far_line, TIOCGEXCL, bytes(4)))
    status, answers, told = run(SERIAL, [interface.device], ["A303"])
    held.terminate()
    held.wait()
    held.stderr.close()
    interface.close()
    unopened = "error: the interface can't be opened: {}: {}\n".format
    has_it = unopened(interface.device, "another adapter has it: end that one first")
    want((status, answers, told, interface.heard, is_exclusive), (2, None, has_it, ["SC301\r"], (1,)))
    want(run(SERIAL, ["/dev/null"], ["A303"]), (2, None, unopened("/dev/null", "it is no serial line")))
    none = folder / "none"
    want(run(SERIAL, [none], ["A303"]), (2, None, unopened(none, "it isn't there: is the interface plugged in?")))
    want(subprocess.run([SERIAL], stderr=subprocess.DEVNULL).returncode, 2)


def test_serial_tells_why_it_is_not_opened(folder):
    for number, words in [(errno.EACCES, "put the user into the group that owns it, on Debian dialout"),
                          (errno.EBUSY, "another program has it, as ModemManager"), (errno.EIO, "Input/output error")]:
        ended = subprocess.run([sys.executable, "-c", REFUSED, SERIAL.parent, str(number)], capture_output=True, text=True)
        want((ended.returncode, ended.stdout), (2, ""))
        assert ended.stderr.startswith("error: the interface can't be opened: /dev/ttyUSB0: "), ended.stderr
        assert words in ended.stderr and "Errno" not in ended.stderr, ended.stderr


# Options


def test_serial_letter_and_baud_rate(folder):
    for options, sent, reply, speed in [
            ([], "SC301\r", b"J5A\r", termios.B38400),
            (["--letter", "h"], "hC301\r", b"J5A\r", termios.B38400),
            (["--letter", "Z", "--baud", "115200"], "ZC301\r", b"J5A\r", termios.B115200),
            (["--baud", "1200"], "SC301\r", b"J5A\r", termios.B1200),
            (["--line-feed"], "SC301\n", b"J5A\n", termios.B38400),
            (HAT, "hC301\n", b"J5A\n", termios.B19200)]:
        interface = SerialInterface([[reply]], sent[-1:].encode())
        status, answers, _ = run(SERIAL, [*options, interface.device], ["C301"])
        interface.close()
        want((options, status, answers, interface.heard), (options, 7, ["5A"], [sent]))
        want((options, interface.speeds), (options, [speed, speed]))


def test_serial_line_feeds(folder):
    replies = [[b"N\n"], [b"J01\n"], [b"X\r\n"], [b"J", 0.1, b"aF\r", 0.1, b"\n"]]
    words = "C301 0B9C 0B98 0BC5".split()
    want(over_serial(replies, words, HAT)[:3], (7, "-- 01 -- aF".split(), [f"h{word}\n" for word in words]))


def test_serial_other_line_ends(folder):
    def found(case):
        return case, over_serial([[case[1]]], ["0B9C", "A303"], case[0])

    cases = [([], b"N\n", "no reply"), ([], b"J01\n", "no reply"), ([], b"N\n\r", "none that it may give"),
             (HAT, b"N\r", "no reply"), (HAT, b"N\r\r\n", "none that it may give"),
             (HAT, b"J01\nN\n", "none that it may give"), (HAT, b"Z\n", "none that it may give"),
             (HAT, b"H0B9C\n", "none that it may give"), (HAT, b"\n", "none that it may give")]
    for case, (status, answers, heard, told) in concurrent.futures.ThreadPoolExecutor(9).map(found, cases):
        want((case, status, answers, len(heard)), (case, 4, ["end"], 1))
        assert case[2] in told, (case, told)


def test_serial_wrong_options(folder):
    interface = SerialInterface([[b"N\r"]])
    no_letter, no_rate = "isn't one letter, A to Z or a to z", "is none of the system's baud rates: 50, 75, 110, "
    for options, words in [
            *((["--letter", text], no_letter) for text in ("", "hh", "5", "\u00e9", " ", "-5")),
            *((["--baud", text], no_rate) for text in ("", "0", "19201", "x", "-1", "19_200", " 19200", "B19200")),
            (["--letter"], "expected one argument"), (["--baud"], "expected one argument"),
            (["--let", "h"], "unrecognized arguments: --let"), (["/dev/null"], "unrecognized arguments")]:
        status, answers, told = run(SERIAL, [interface.device, *options], ["A303"])
        want((options, status, answers), (options, 2, None))
        assert words in told and "error: " in told and "Traceback" not in told, (options, told)
    status, answers, told = run(SERIAL, [], ["A303"])
    want((status, answers, "required: DEVICE" in told), (2, None, True))
    interface.close()
    want(interface.heard, [])


def test_serial_help_tells_who_speaks_so(folder):
    ended = subprocess.run([SERIAL, "--help"], capture_output=True, text=True)
    want((ended.returncode, ended.stderr), (0, ""))
    for words in (" ".join(HAT), "(default: S)", "(default: 38400)", "not tried on hardware"):
        assert words in ended.stdout, (words, ended.stdout)
    assert " ".join(HAT) in (ROOT / "docs" / "LINK.md").read_text(), "LINK.md has other options"


def test_serial_a_broken_link_is_never_status_0(folder):
    interface = SerialInterface([[]])
    words = [SERIAL, interface.device, "--", "sh", "-c", "echo C301; read -r answer; exit 0"]
    ended = subprocess.run(words, capture_output=True, text=True, timeout=9)
    interface.close()
    want(ended.returncode, 1)
    assert re.fullmatch("error: the interface gave no reply in 0.5 seconds [^\n]+\n", ended.stderr), ended.stderr


# The messages for wrong options

NO_REPLY = (": look at its plug and its power, and whether --letter, --baud and --line-feed are as it wants them")
WRONG_RATE = ": look at --baud, since bytes as these come at a wrong rate"
LOOK = ": look at --letter, --baud and --line-feed (--help)"
NONE_THAT = "is none that it may give"
WITHOUT = "the interface gave no reply that ends with {} in 0.5 seconds, but {}"
MISTAKES = [
    # The interface doesn't know the letter, or hears nothing at this rate, or waits for another line end.
    ([], [], "the interface gave no reply in 0.5 seconds to S0B9C\\x0D" + NO_REPLY),
    (HAT, [], "the interface gave no reply in 0.5 seconds to h0B9C\\x0A" + NO_REPLY),
    # Its lines end with a line feed, and the options say a carriage return; and the other way round.
    ([], [b"J5A\n"], WITHOUT.format("\\x0D", "J5A\\x0A: its lines end with a line feed, so give --line-feed")),
    ([], [b"N\r\n"], WITHOUT.format("\\x0D", "N\\x0D\\x0A: its lines end with a line feed, so give --line-feed")),
    (HAT, [b"J5A\r"], WITHOUT.format(
        "\\x0A", "J5A\\x0D: its lines end with a carriage return, so leave out --line-feed")),
    # Another rate: bytes that nobody sent, with a line end by chance or without.
    ([], [b"\xf8\x80\x00"], WITHOUT.format("\\x0D", "\\xF8\\x80\\x00") + WRONG_RATE),
    ([], [b"\xe6\\\r"], f"the interface's reply \\xE6\\x5C\\x0D {NONE_THAT}" + WRONG_RATE),
    (HAT, [20 * b"\xff"], "the interface's reply " + 16 * "\\xFF" + f" {NONE_THAT}" + WRONG_RATE),
    # It refuses the letter in words of its own, or echoes what it hears.
    ([], [b"?\r"], f"the interface's reply ?\\x0D {NONE_THAT}" + LOOK),
    ([], [b"S0B9C\r"], f"the interface's reply S0B9C\\x0D {NONE_THAT}" + LOOK),
    (HAT, [b"ERR 1\r\n"], f"the interface's reply ERR 1\\x0D\\x0A {NONE_THAT}" + LOOK),
    ([], [b"OK"], WITHOUT.format("\\x0D", "OK") + LOOK),
    ([], [b"N\rN\r"], f"the interface's reply N\\x0DN\\x0D {NONE_THAT}" + LOOK),
]


def test_serial_mistakes_are_told(folder):
    def found(case):
        return case, over_serial([case[1]], ["0B9C", "A303"], case[0])

    for (options, replies, line), (status, answers, heard, told) in concurrent.futures.ThreadPoolExecutor(13).map(
            found, MISTAKES):
        want((line, status, answers, len(heard)), (line, 4, ["end"], 1))
        want([it for it in told.splitlines() if it.startswith("error: ")], [f"error: {line}"])


def test_serial_a_command_that_speaks_to_no_link_is_told(folder):
    interface = SerialInterface([[b"N\r"]])
    words = [SERIAL, interface.device, "--", "echo", "item 1 order 1 unit 5"]
    ended = subprocess.run(words, capture_output=True, text=True, timeout=9)
    interface.close()
    want((ended.returncode, ended.stderr), (1, "error: the command's line item 1 order 1 u isn't four upper-case"
                                               " hexadecimal digits and a line feed, as of drive, read, verify, scan and"
                                               " address\n"))


def test_serial_hands_on_what_the_command_names(folder):
    interface = SerialInterface([])
    want_named_descriptors(SERIAL, [interface.device])
    interface.close()
