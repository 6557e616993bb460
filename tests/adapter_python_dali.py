"""Tests of the link over python-dali, over a library of the tests' own with that one's published interface."""

import concurrent.futures
import os
import pathlib
import pty
import signal
import subprocess
import sys
import tempfile
import time

from adapter_desk import ADAPTERS, player, run, shown_frames, want_link_without_frames, want_named_descriptors
from adapter_fixtures import LIBRARY_LINK, LIMIT, LibraryInterface
from base import want
from driven import load


def over(turns, words, *options, **more):
    """Run a stand-in command over an interface that does so."""
    with tempfile.TemporaryDirectory() as folder:
        return LibraryInterface(pathlib.Path(folder), turns).run(words, *options, **more)


def beside_each_other(find, cases):
    """Give each case with what is found for it."""
    with concurrent.futures.ThreadPoolExecutor(6) as pool:
        return list(zip(cases, pool.map(find, cases)))


# Answers


def test_python_dali_answers(folder):
    turns = [["none"], ["01"], ["00"], ["FF"], ["af"], [0.3, "C0"], [0.3, "none"], ["none"], ["none"]]
    words = "C301 0B9C 0B98 0BC5 C7AF FFFF 0000 0B81 0B81".split()
    for driver in ("tridonic", "hasseb", "luba232", "dali.driver.hid:tridonic"):
        status, answers, heard, told = over(turns, words, driver=driver)
        want((driver, status, answers), (driver, 7, "-- 01 00 FF AF C0 -- -- --".split()))
        # Also the one that has to come twice goes out once for each line.
        want((driver, heard), (driver, words))
        want(told, "answers -- 01 00 FF AF C0 -- -- --\n")


def test_python_dali_a_damaged_answer_is_yes_where_only_yes_answers(folder):
    words = "A900 FF96 0191 0B91 7F91 A901 A800 BB00 FF91 FE96 0A91 8191 0B90 0BC5".split()
    want(over([["damaged"]] * len(words), words)[:2], (7, 5 * ["FF"] + 9 * ["--"]))
    want(over([["none"], ["00"], ["FF"]], words[:3])[:2], (7, ["--", "00", "FF"]))


def test_python_dali_names_the_device_as_the_library_wants_it(folder):
    for driver in ("tridonic", "hasseb", "luba232", "dali.driver.hid:hasseb"):
        with tempfile.TemporaryDirectory() as name:
            interface = LibraryInterface(pathlib.Path(name), [["none"]])
            want(interface.run(["C301"], driver=driver)[:2], (7, ["--"]))
            line = interface.heard_in.read_text().splitlines()[0]
            want((driver, line), (driver, f"device {interface.device}"))
    interface = LibraryInterface(folder, [["none"]])
    interface.device = f"other:{interface.device}"
    want(interface.run(["C301"], driver="dali.driver.serial:DriverOther")[:3], (7, ["--"], ["C301"]))


def test_python_dali_frames_are_shown(folder):
    words = "C301 0B9C 0B98 A303".split()
    status, answers, heard, told = over([["none"], [0.2, "01"], ["damaged"], ["fail"]], words, "--frames")
    want((status, answers, heard), (4, "-- 01 -- end".split(), words))
    shown, _, took = shown_frames(told)
    want(shown, list(zip(words, "-- 01 -- ??".split())))
    assert 200 <= took[1] < 1000 * LIMIT, took


def test_python_dali_goes_on_where_frames_cannot_be_shown(folder):
    for told_to in ("/dev/full", "&-"):
        interface = LibraryInterface(folder, [["none"], ["01"]])
        before = dict(os.environ)
        os.environ.update(interface.environment)
        try:
            options = ["tridonic", interface.device]
            found = want_link_without_frames(LIBRARY_LINK, options, told_to, "C301 0B9C".split(), folder)
        finally:
            os.environ.clear()
            os.environ.update(before)
        want((told_to, found), (told_to, ["--", "01"]))


def test_python_dali_adds_no_wait(folder):
    """A pair of frames comes within 100 ms by what the adapter itself takes."""
    _, _, _, told = over([["none"]] * 40, ["0B81"] * 40, "--frames")
    took = shown_frames(told)[2]
    assert sorted(took)[20] < 20, took


def test_python_dali_the_first_frame_waits(folder):
    began = time.monotonic()
    want(over([["none"]], ["C301"], limit=3)[:2], (7, ["--"]))
    assert time.monotonic() - began >= 3, "no late frame was waited for"


# Turns that close the link

BROKEN = "it isn't known what became of the frame: the library "
BREAKS = [
    (["fail"], BROKEN + "tells CommunicationError: look at the interface and its plug"),
    (["words"], BROKEN + "tells CommunicationError the device says no: look at the interface and its plug"),
    (["gone"], BROKEN + "gave no answer in 2 seconds"),
    ([2.5, "01"], BROKEN + "gave no answer in 2 seconds"),
    (["nothing"], "the library didn't tell what came back"),
    (["XY"], BROKEN + "tells ValueError invalid literal for int() with base 16: 'XY': look at the interface and its"
     " plug"),
]


def test_python_dali_breaks(folder):
    """The frame after the one that broke the link isn't sent, and neither gets an answer."""
    for (_, words), (status, answers, heard, told) in beside_each_other(
            lambda case: over([["none"], case[0], ["01"]], "C301 0B9C A303".split()), BREAKS):
        want((words, status, answers, heard), (words, 4, ["--", "end"], ["C301", "0B9C"]))
        want([it for it in told.splitlines() if it.startswith("error: ")], [f"error: {words}"])


def test_python_dali_device_that_goes_between_two_frames(folder):
    status, answers, heard, told = over([["01", "lost"], ["02"]], "0B9C pause 0B98 A303".split())
    want((status, answers, heard), (4, ["01", "end"], ["0B9C"]))
    want(told, "error: the interface is gone: look at its plug\nanswers 01 end\n")


def test_python_dali_a_broken_link_is_never_status_0(folder):
    interface = LibraryInterface(folder, [["fail"]])
    words = [sys.executable, LIBRARY_LINK, "tridonic", interface.device]
    words += ["--", "sh", "-c", "echo C301; read -r answer; exit 0"]
    ended = subprocess.run(words, capture_output=True, text=True, timeout=20, env=interface.environment)
    want((ended.returncode, ended.stderr.count("\n")), (1, 1))


def test_python_dali_command_gone(folder):
    want(over([["none"]], ["C301", "kill"])[0], 137)
    want(over([["none"]], ["close", "C301"]), (7, [], ["C301"], "answers \n"))
    status, answers, heard, told = over([["none"]], ["C301", "a303"])
    want((status, answers, heard), (4, ["--", "end"], ["C301"]))
    assert "isn't four upper-case" in told, told


# Devices and libraries that aren't there


def test_python_dali_cannot_start(folder):
    opened = "the interface can't be opened: {}: "
    for how, driver, words in [
            ({"connect": "refused"}, "tridonic", "{} can't be opened: the library can't"),
            ({"connect": "never"}, "tridonic", "{} can't be opened: the library gave no answer in 5 seconds"),
            ({"connect": "refused"}, "luba232", "{} can't be opened: the library tells OSError [Errno 16] could not"
                                                " open port: Device or resource busy: look at the interface and its"
                                                " plug"),
            ({}, "dali.driver.hid:launchpad", "the library python-dali that is installed has no launchpad in"
                                              " dali.driver.hid")]:
        interface = LibraryInterface(folder, [["none"]], **how)
        status, answers, heard, told = interface.run(["C301"], driver=driver)
        want((how, status, answers, heard), (how, 2, None, []))
        want(told, f"error: {words.format(interface.device)}\n")
    interface.device.unlink()
    words = opened.format(interface.device) + "it isn't there: is the interface plugged in?"
    want(interface.run(["C301"]), (2, None, [], f"error: {words}\n"))


def test_python_dali_without_the_library(folder):
    interface = LibraryInterface(folder, [["none"]])
    interface.environment["PYTHONPATH"] = ""
    words = (f"error: {sys.executable} can't use dali.driver.hid of the library python-dali: No module named 'dali':"
             " install the library, or start this adapter by the Python that has it (docs/SETUP.md)\n")
    want(interface.run(["C301"]), (2, None, [], words))


def test_python_dali_has_one_adapter_at_a_time(folder):
    interface = LibraryInterface(folder, [["none"]])
    (folder / "link").symlink_to(interface.device)
    words = [sys.executable, LIBRARY_LINK, "hasseb", folder / "link", "--", *player(["C301", *["pause"] * 50])]
    held = subprocess.Popen(words, stderr=subprocess.DEVNULL, env=interface.environment)
    while "C301" not in interface.heard_in.read_text():
        time.sleep(0.05)
    status, answers, _, told = interface.run(["A303"])
    want((status, answers, told), (2, None, f"error: another adapter has {interface.device}\n"))
    # Another class of the library names it by a URI.
    uri = f"other:{interface.device}"
    interface.device, device = uri, interface.device
    want(interface.run(["A303"], driver="dali.driver.serial:DriverOther")[3], f"error: another adapter has {uri}\n")
    interface.device = device
    held.send_signal(signal.SIGKILL)
    want(held.wait(), -signal.SIGKILL)
    want(interface.run(["0B9C"])[:3], (7, ["--"], ["C301", "0B9C"]))


def test_python_dali_hands_on_what_the_command_names(folder):
    interface = LibraryInterface(folder)
    before = dict(os.environ)
    os.environ.update(interface.environment)
    try:
        want_named_descriptors(LIBRARY_LINK, ["tridonic", interface.device])
    finally:
        os.environ.clear()
        os.environ.update(before)


# Over simulated units


def test_python_dali_over_simulated_units(folder):
    """Two new units answer COMPARE at once: that is damaged, and a yes; to a read it is nothing."""
    interface = LibraryInterface(folder, units=str(folder))
    words = "A500 A500 A700 A700 B1FF B3FF B5FF A900 FF96 A100 A100 C301 FF9C".split()
    status, answers, heard, _ = interface.run(words)
    want((status, heard), (7, words))
    want(answers, "-- -- -- -- -- -- -- FF FF -- -- -- --".split())


# Options


def test_python_dali_help(folder):
    wide = {**os.environ, "COLUMNS": "200"}
    ended = subprocess.run([LIBRARY_LINK, "--help"], capture_output=True, text=True, env=wide)
    want((ended.returncode, ended.stderr), (0, ""))
    for words in ("tridonic ", "hasseb ", "luba232 ", "MODULE:CLASS", "(default: 0.5)", "Not tried with the library"):
        assert words in ended.stdout, (words, ended.stdout)


def test_python_dali_wrong_options(folder):
    interface = LibraryInterface(folder, [["none"]])
    for driver, words in [(text, "is none of tridonic, hasseb, luba232, and no MODULE:CLASS")
                          for text in ("", "lunatone", ":", "dali.driver.hid:", ":tridonic", "a b:c", "dali/x:y")]:
        status, answers, heard, told = interface.run(["A303"], driver=driver)
        want((driver, status, answers, heard), (driver, 2, None, []))
        assert words in told and "error: " in told, (driver, told)
    for options, words in [(["tridonic"], "required: DEVICE"), ([], "required: DRIVER, DEVICE"),
                           (["--time-limit", "0", "tridonic", "/dev/null"], "is no number of seconds over 0, up to 60"),
                           (["tridonic", "/dev/null", "more"], "unrecognized arguments: more")]:
        status, answers, told = run(LIBRARY_LINK, options, ["A303"], env=interface.environment)
        want((options, status, answers), (options, 2, None))
        assert words in told, (options, told)


# --list of all adapters


def put_devices(folder):
    """Put down what a system has with a serial line that has a name, two that have none, and three devices over HID."""
    devices, system = folder / "dev", folder / "sys" / "class" / "hidraw"
    (devices / "serial/by-id").mkdir(parents=True)
    (devices / "dali").mkdir()
    for name in ("ttyUSB0", "ttyACM0", "ttyAMA0", "ttyS0", "hidraw0", "hidraw1", "hidraw2", "null"):
        (devices / name).touch()
    (devices / "serial/by-id/usb-FTDI_A50285BI-if00-port0").symlink_to("../../ttyUSB0")
    (devices / "dali/hasseb-1234").symlink_to("../hidraw2")
    for name, number, about in [("hidraw0", "000017B5:00000020", "HID_NAME=Tridonic DALI USB"),
                                ("hidraw1", "0000046D:0000C31C", "HID_NAME=A keyboard"),
                                ("hidraw2", "000004CC:00000802", "HID_PHYS=x")]:
        (system / name / "device").mkdir(parents=True)
        (system / name / "device" / "uevent").write_text(f"DRIVER=x\nHID_ID=0003:{number}\n{about}\n")
    return devices, folder / "sys"


def test_devices_are_listed(folder):
    sys.path.insert(0, str(ADAPTERS))
    devices, (dev, system) = load(ADAPTERS / "devices.py"), put_devices(folder)
    want(devices.serial_lines(dev), [f"{dev}/ttyACM0 (ttyACM0)", f"{dev}/ttyAMA0 (ttyAMA0)",
                                     f"{dev}/serial/by-id/usb-FTDI_A50285BI-if00-port0 (ttyUSB0)"])
    link = load(LIBRARY_LINK)
    want(devices.hid_devices(link.KNOWN, dev, system),
         [f"tridonic {dev}/hidraw0 (Tridonic DALI USB)", f"hasseb {dev}/dali/hasseb-1234 (hidraw2)"])
    want(devices.serial_lines(folder / "none") + devices.hid_devices(link.KNOWN, dev, folder / "none"), [])
    want(devices.line_of(folder / "none", "x"), f"{folder}/none (x; this user may not open it)")


def test_list_of_each_adapter(folder):
    """The list depends on the machine: each line is a device of it, or words say that there is none."""
    for name, words in [("serial_link", "there is no serial line: is the interface plugged in?\n"),
                        ("python_dali_link", "there is no device that is known, and no serial line: is the interface"
                                             " plugged in?\n"),
                        ("daliserver_link", "a daliserver isn't looked for: --host and --port name it\n")]:
        for more in ([], ["--", "false"]):
            ended = subprocess.run([ADAPTERS / f"{name}.py", "--list", *more], capture_output=True, text=True)
            want((name, ended.returncode, ended.stderr), (name, 0, "" if ended.stdout else words))
            for line in ended.stdout.splitlines():
                assert "/dev/" in line, line
    # A terminal of the test's own isn't a serial line of an interface.
    line, far_line = pty.openpty()
    listed = subprocess.run([ADAPTERS / "serial_link.py", "--list"], capture_output=True, text=True).stdout
    assert "/dev/pts" not in listed, listed
    os.close(line)
    os.close(far_line)
