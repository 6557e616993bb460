#!/usr/bin/env python3
"""Test the simulated link with stand-in commands and no dali_bench.

The last line is `N passed, M failed`, and the status is 0 only where none failed.
"""

import contextlib
import datetime
import os
import re
import signal
import subprocess
import sys
import time

sys.dont_write_bytecode = True

import adapter_desk  # noqa: E402
from adapter_desk import (ADAPTERS, player, run, shown_frames, want_link_without_frames,  # noqa: E402
                          want_named_descriptors)
from cases import case_of  # noqa: E402
from base import want  # noqa: E402
from driven import ROOT, simulated_link  # noqa: E402

SIMULATED = ADAPTERS / "simulated_link.py"
OPENED = "0B81 0B81 C301 A302 C755".split()


def saved(folder, short_address=5):
    """Return the bytes of a unit's file."""
    return bytes.fromhex((folder / f"unit_{short_address}.hex").read_text())


def blank(**changes):
    """Return the blank bank with changed locations, as x03=0x12."""
    bank = bytearray(simulated_link.BLANK_BANK_1)
    for location, byte in changes.items():
        bank[int(location[1:], 16)] = byte
    return bytes(bank)


def answers_of(bus, words):
    """Carry frames over a bus in this process, and return the answers as text."""
    answers = (bus.carry(int(word, 16)) for word in words)
    return " ".join("--" if answer is None else f"{answer:02X}" for answer in answers)


def one_unit(*words, **losses):
    """Carry frames to one blank unit at 5; return the answers and the unit."""
    unit = simulated_link.Unit(5)
    return answers_of(simulated_link.Bus([unit], **losses), " ".join(words).split()), unit


# Units and the bus, as docs/GEAR.md has them


def test_blank_bank(folder):
    bank = simulated_link.BLANK_BANK_1
    want(len(bank), 0x78)
    want({at: byte for at, byte in enumerate(bank) if byte != 0xFF}, {0x00: 0x77, 0x11: 0x00, 0x12: 0x03})


def test_registers_are_set_and_asked(folder):
    want(one_unit("A312 C334 C556 0B98 0B9C 0B9D 0D98")[0], "-- -- -- 12 34 56 --")


def test_reads(folder):
    want(one_unit("C301 A300 0BC5 0BC5 0BC5 0B98")[0], "-- -- 77 FF FF 03")
    want(one_unit("C301 A377 0BC5 0BC5 0B98")[0], "-- -- FF -- 79")
    want(one_unit("C301 A3FF 0BC5 0B98")[0], "-- -- -- FF")
    want(one_unit("C302 A300 0BC5 A30F 0BC5 0BC5")[0], "-- -- 0F -- FF --")
    want(one_unit("C307 A303 0BC5 0B98")[0], "-- -- -- 03")


def test_only_a_pair_write_enables(folder):
    for before, answer in [("0B81 0B81 C301 A302", "55"), ("0B81 C301 A302", "--"), ("0B81 A302 0B81 C301", "--"),
                           ("0B81 0D98 0B81 C301 A302", "--"), ("0B81 0B81 0BC5 C301 A302", "--"),
                           ("0B81 0B81 FE00 C301 A302", "--"), ("0B81 0B81 0B90 C301 A302", "--"),
                           ("0B81 0B81 0DC5 C301 A302", "55"), ("0D81 0D81 C301 A302", "--")]:
        want(one_unit(before, "C755")[0].split()[-1], answer)


def test_the_lock_byte_guards(folder):
    want(one_unit("0B81 0B81 C301 A303 C712 0B98 0BC5")[0], "-- -- -- -- -- 04 FF")
    found, unit = one_unit(*OPENED, "C712 0B98 A301 C712 A312 C701 0B98")
    want(found, "-- -- -- -- 55 12 04 -- -- -- 01 13")
    want(bytes(unit.banks[1]), blank(x02=0x55, x03=0x12, x12=0x01))
    found, unit = one_unit(*OPENED, "C302 A303 C712 A302 C755 C713 C712 A303 0BC5")
    want(found.split()[4:], "55 -- -- -- -- 55 13 12 -- 13".split())
    want(bytes(unit.banks[1]), blank(x02=0x55))


def test_a_write_without_reply(folder):
    found, unit = one_unit(*OPENED, "C912 C9FF A302 C9FF")
    want(found.split()[4:], "55 -- -- -- --".split())
    want(bytes(unit.banks[1]), blank(x03=0x12))


def test_losses_and_refusals(folder):
    found, unit = one_unit(*OPENED, "C712 0B98", lost_frames=[6])
    want((found.split()[5:], unit.banks[1][3]), (["--", "03"], 0xFF))
    found, unit = one_unit(*OPENED, "C712 0B98", lost_answers=[6])
    want((found.split()[5:], unit.banks[1][3]), (["--", "04"], 0x12))
    found, unit = one_unit(*OPENED, "C712 0B98", refused=[6])
    want((found.split()[5:], unit.banks[1][3]), (["--", "04"], 0xFF))


def test_losses_of_power(folder):
    found, unit = one_unit(*OPENED, "C712 0B98 0B9C C713 C301 A302 0BC5", lost_power=[(5, 7), (6, 4)])
    want(found.split()[4:], "55 12 00 00 -- -- -- FF".split())
    want(bytes(unit.banks[1]), blank(x03=0x12))
    want(one_unit("0B81 0B81 C301 A302 C755", lost_power=[(5, 2)])[0].split()[-1], "--")


def test_two_units(folder):
    units = [simulated_link.Unit(5), simulated_link.Unit(6, fixed=[0x04])]
    bus = simulated_link.Bus(units)
    want(answers_of(bus, "0B81 0B81 0D81 0D81 C301 A302 C755 C712 C713 0B98 0D98".split()),
         "-- -- -- -- -- -- -- -- 13 05 05")
    want([bytes(unit.banks[1][3:5]) for unit in units], [b"\x12\x13", b"\x12\xff"])


def test_a_powered_unit_serves_one_command_after_another(folder):
    unit = simulated_link.Unit(5)
    bus = simulated_link.Bus([unit])
    quiet = ["sh", "-c", 'exec "$@" 2>/dev/null', "sh"]
    want(simulated_link.serve(bus, [*quiet, *player([*OPENED, "kill"])]), 137)
    want(simulated_link.serve(bus, [*quiet, *player(["C712", "close", "A377"])]), 7)
    want((unit.banks[1][2], unit.banks[1][3], unit.is_enabled, bus.frames), (0x55, 0x12, True, 7))
    unit.power_up()
    want((unit.banks[1][2], unit.registers, unit.is_enabled), (0xFF, [0, 0, 0], False))


def test_units_that_cannot_be(folder):
    for arguments in [(64,), (-1,), (5, b"\x0f" * 16), (5, b"\x77" * 17), (5, blank(), [2]), (5, blank(), [0x78])]:
        try:
            simulated_link.Unit(*arguments)
        except ValueError:
            continue
        raise AssertionError(f"made of {arguments}")


# The simulated link with a command


def test_stored_runs(folder):
    for name, options in [("run_gtin_frames", []), ("run_retry_frames", ["--lose-answer", "21"]),
                          ("run_power_frames", ["--lose-power", "5:6"])]:
        sent = re.findall("^send (....) (..)$", case_of(name).wanted.decode(), re.MULTILINE)
        assert len(sent) > 90
        status, answers, _ = run(SIMULATED, ["--folder", folder, *options], [frame for frame, _ in sent])
        want((status, answers), (7, [answer for _, answer in sent]))
        want(saved(folder), blank(x03=0x03, x04=0xA4, x05=0xCE, x06=0xEF, x07=0xAD, x08=0xAB))
        (folder / "unit_5.hex").unlink()


def test_the_file_is_as_after_power_down(folder):
    (folder / "unit_5.hex").write_text(blank(x02=0x55, x03=0x12).hex("\n"))
    want(run(SIMULATED, ["--folder", folder], "C301 A302 0BC5 0BC5".split())[1], "-- -- FF 12".split())
    want(run(SIMULATED, ["--folder", folder], [*OPENED, "C713"])[1][-2:], ["55", "13"])
    want(saved(folder), blank(x03=0x13))
    want(run(SIMULATED, ["--folder", folder], "0B98 C301 A303 C714 0BC5".split())[1], "00 -- -- -- 13".split())
    lines = (folder / "unit_5.hex").read_text().splitlines()
    want((len(lines), lines[0]), (8, "77 FF FF 13 FF FF FF FF FF FF FF FF FF FF FF FF"))
    want(os.listdir(folder), ["unit_5.hex"])


def test_a_link_in_its_way_is_never_followed(folder):
    other = folder / "other"
    other.write_text("kept")
    for at_new in (other, folder / "none"):
        (folder / "unit_5.new").symlink_to(at_new)
        want(run(SIMULATED, ["--folder", folder], [*OPENED, "C712"])[0], 7)
        want((other.read_text(), saved(folder), sorted(os.listdir(folder))), ("kept", blank(x03=0x12),
             ["other", "unit_5.hex"]))
    (folder / "unit_5.new").write_text("left by a kill")
    want(run(SIMULATED, ["--folder", folder], [*OPENED, "C713"])[0], 7)
    want((saved(folder), sorted(os.listdir(folder))), (blank(x03=0x13), ["other", "unit_5.hex"]))


def test_options(folder):
    options = ["--folder", folder, "--unit", "5", "--unit", "6", "--lose-frame", "8,9", "--lose-frame", "14",
               "--lose-answer", "10", "--refuse", "11", "--fixed", "5:07", "--lose-power", "6:3,15", "--frames"]
    words = [*OPENED, *"C701 C702 0B98 0B98 C703 C704 C705 C706 A300 0B98".split()]
    status, answers, told = run(SIMULATED, options, words)
    want((status, answers[5:]), (7, "01 02 -- -- -- -- -- 06 -- 09".split()))
    want((saved(folder), saved(folder, 6)), (blank(x03=1, x04=2, x05=3, x08=6), blank()))
    want(shown_frames(told)[0], list(zip(words, answers)))


def test_frames_have_their_times(folder):
    words = "C301 0B9C A303 0B98".split()
    first = datetime.datetime.now() - datetime.timedelta(milliseconds=1)
    status, answers, told = run(SIMULATED, ["--folder", folder, "--frames", "--frame-time", "40.5"], words)
    last = datetime.datetime.now()
    shown, moments, took = shown_frames(told)
    want((status, answers, shown), (7, "-- 01 -- 03".split(), list(zip(words, answers))))
    assert first <= moments[0] and moments[-1] <= last, (first, moments, last)
    for before, behind in zip(moments, moments[1:]):
        assert (behind - before).total_seconds() >= 0.039, moments
    assert 40.4 <= min(took) and max(took) < 2000, took


def test_a_command_waits_for_its_frames(folder):
    for milliseconds, seconds in (("0", 0), ("50", 1)):
        began = time.monotonic()
        status, _, told = run(SIMULATED, ["--folder", folder, "--frame-time", milliseconds], 20 * ["A312"])
        want((status, "frame " in told), (7, False))
        assert time.monotonic() - began >= seconds, milliseconds


def test_a_link_goes_on_where_frames_cannot_be_shown(folder):
    for told_to in ("/dev/full", "&-"):
        found = want_link_without_frames(SIMULATED, ["--folder", folder], told_to, "C301 0B9C".split(), folder)
        want((told_to, found), (told_to, ["--", "01"]))


def test_frames_that_nobody_reads_are_waited_for(folder):
    # More than a pipe holds.
    words = [*2000 * ["A312"]]
    command = [SIMULATED, "--folder", folder, "--frames", "--", *player(words)]
    link = subprocess.Popen(command, stderr=subprocess.PIPE, text=True)
    time.sleep(2)
    want(link.poll(), None)
    told = link.communicate(timeout=20)[1]
    want((link.returncode, len(shown_frames(told)[0])), (7, 2000))


def lost_by_chance(loss, seed, short_address):
    """Give which of 20000 frames one unit doesn't hear, and the answers to which don't come."""
    unit = simulated_link.Unit(short_address)
    bus = simulated_link.Bus([unit], loss=loss, seed=seed)
    unheard, unanswered = [], []
    for number in range(10000):
        unit.registers[0] = 0xAA
        bus.carry(0xA355)
        if unit.registers[0] == 0xAA:
            unheard.append(number)
        if bus.carry(0x0198 + 0x200 * short_address) is None:
            unanswered.append(number)
    return unheard, unanswered


def test_losses_by_chance(folder):
    want(lost_by_chance(0, 1, 5), ([], []))
    want(lost_by_chance(1, 1, 5), (list(range(10000)), list(range(10000))))
    found = {seed: lost_by_chance(0.1, seed, 5) for seed in (1, 2, 3)}
    for unheard, unanswered in found.values():
        # A query goes unanswered by its own loss, or by that of its answer. Five deviations are allowed.
        assert abs(len(unheard) - 1000) < 150 and abs(len(unanswered) - 1900) < 200, (len(unheard), len(unanswered))
    assert found[1] != found[2] != found[3] != found[1]
    # The same seed takes the same ones, whichever units are there.
    want(lost_by_chance(0.1, 2, 60), found[2])


def test_options_of_chance(folder):
    words = [*OPENED, *20 * ["C712", "0B98"]]
    lost = run(SIMULATED, ["--folder", folder, "--loss", "1"], words)
    want((lost[:2], saved(folder)), ((7, 45 * ["--"]), blank()))
    options = ["--folder", folder, "--loss", "0.2"]
    first = run(SIMULATED, options, words)[1]
    assert 5 < first.count("--") < 40, first
    want(run(SIMULATED, [*options, "--seed", "1"], words)[1] == first, True)
    want(run(SIMULATED, [*options, "--seed", "2"], words)[1] == first, False)


def altered_by_chance(frames, answers, seed):
    """Give which bits are turned in each of 10000 settings of DTR0 to AAh, and in the answers to as many questions."""
    unit = simulated_link.Unit(5)
    bus = simulated_link.Bus([unit], altering=simulated_link.Altering(frames, answers, seed))
    heard, told = [], []
    for _ in range(10000):
        unit.registers[0] = 0
        bus.carry(0xA3AA)
        heard.append(unit.registers[0] ^ 0xAA)
        unit.registers[0] = 0x55
        answer = bus.carry(0x0B98)
        told.append(None if answer is None else answer ^ 0x55)
    return heard, told


def test_alterations_by_chance(folder):
    want(altered_by_chance(0, 0, 1), (10000 * [0], 10000 * [0]))
    heard, told = altered_by_chance(0, 1, 1)
    # Each other byte comes, and never the same.
    want((heard, sorted(set(told))), (10000 * [0], list(range(1, 0x100))))
    heard, told = altered_by_chance(1, 0, 1)
    # Of the sixteen bits eight are of the byte: another one makes it another frame, which doesn't set DTR0 to it.
    want(sorted(set(heard)), sorted({0xAA, *(1 << bit for bit in range(8))}))
    assert 0 not in heard and abs(heard.count(0xAA) - 5000) < 250, heard.count(0xAA)
    found = {seed: altered_by_chance(0.1, 0.1, seed) for seed in (1, 2, 3)}
    for heard, told in found.values():
        altered = sum(bits != 0 for bits in heard), sum(bits not in (0, None) for bits in told)
        # An answer is altered by its own chance, where its question isn't. Five deviations are allowed.
        assert abs(altered[0] - 1000) < 150 and abs(altered[1] - 900) < 200, altered
    assert found[1] != found[2] != found[3] != found[1]
    want(altered_by_chance(0.1, 0.1, 2), found[2])


def test_what_is_altered_changes_no_loss(folder):
    unit = simulated_link.Unit(5)
    buses = [simulated_link.Bus([unit], loss=0.3, seed=4, altering=it) for it in (None, simulated_link.Altering(0, 1, 4))]
    lost = [[bus.carry(0x0B98) is None for _ in range(200)] for bus in buses]
    want(lost[0], lost[1])


def test_options_that_alter(folder):
    words = [*OPENED, *20 * ["C712", "0B98"]]
    told = run(SIMULATED, ["--folder", folder], words)[1]
    altered = run(SIMULATED, ["--folder", folder, "--alter-answers", "1"], words)[1]
    want([(one == "--", other == "--") for one, other in zip(told, altered) if (one == "--") != (other == "--")], [])
    assert all(one != other for one, other in zip(told, altered) if one != "--"), (told, altered)
    want(run(SIMULATED, ["--folder", folder, "--alter-frames", "1"], ["0B98", "0B9C"])[1] != ["00", "00"], True)


def test_a_killed_command(folder):
    status, _, _ = run(SIMULATED, ["--folder", folder], [*OPENED, "C712", "kill"])
    want((status, saved(folder)), (137, blank(x03=0x12)))
    status, _, told = run(SIMULATED, ["--folder", folder, "--frames"], ["close", "A312"])
    want((status, told.count("frame")), (7, 1))
    want(run(SIMULATED, ["--folder", folder], ["A312", "cut"])[0], 7)


def test_lines_that_are_no_frame(folder):
    for line in ["a303", "A30", "A3033", "", "A303 ", " A303", "A303\r", "A" * 200]:
        status, _, told = run(SIMULATED, ["--folder", folder, "--frames"], ["A312", line, "A313"])
        assert status == 1 and "isn't four upper-case" in told and told.count("frame ") == 1, (line, status, told)


def test_what_cannot_start(folder):
    (folder / "unit_7.hex").write_text("77 FF F")
    (folder / "unit_8.hex").write_text("77 FF")
    for options in [["--unit", "64"], ["--unit", "5", "--unit", "5"], ["--unit", "7"], ["--unit", "8"],
                    ["--fixed", "6:03"], ["--fixed", "5:02"], ["--fixed", "503"], ["--lose-frame", "0"],
                    ["--alter-answers", "2"], ["--alter-frames", "x"], ["--loss", "1.01"], ["--loss", "-0.1"], ["--loss", "nan"], ["--loss", "x"], ["--seed", "x"],
                    ["--seed", "0.5"], ["--frame-time", "-1"], ["--frame-time", "10001"], ["--frame-time", "inf"],
                    ["--refuse", "x"], ["--lose-power", "6:3"], ["--lose-power", "5"], ["--lose-power", "5:0"],
                    ["--folder", folder / "none"]]:
        status, answers, told = run(SIMULATED, ["--folder", folder, *options], ["A312"])
        assert status == 2 and answers is None and told and "Traceback" not in told, (options, status, told)
    want(subprocess.run([SIMULATED, "--folder", folder], stderr=subprocess.DEVNULL).returncode, 2)
    want(subprocess.run([SIMULATED, "--folder", folder, "--", "/none"], stderr=subprocess.DEVNULL).returncode, 2)


def test_words_for_a_person(folder):
    for number, text in enumerate(("77 FF F", "77 0x12", "77 \xe4", "hello")):
        (folder / f"unit_{number}.hex").write_text(text, "latin-1")
        told = run(SIMULATED, ["--folder", folder, "--unit", number], ["A312"])[2]
        blank_one = "it holds no bytes in hexadecimal: without this file the unit is a blank one"
        want(told, f"simulated_link: {folder}/unit_{number}.hex: {blank_one}\n")
    none = folder / "none"
    for options, words, told in [
            (["--folder", none], ["A312"], f"the folder {none} isn't there: make it first\n"),
            (["--loss", "2"], ["A312"], "argument --loss: '2' is no chance, 0 to 1\n"),
            (["--frame-time", "x"], ["A312"], "argument --frame-time: 'x' is no time, 0 to 10000\n"),
            (["--lose-frame", "0"], ["A312"], "argument --lose-frame: '0', and frames count from 1, as 3,40\n"),
            (["--refuse", "3,"], ["A312"], "argument --refuse: '3,', and frames count from 1, as 3,40\n"),
            (["--lose-power", "5"], ["A312"],
             "argument --lose-power: '5' is no unit with the numbers of frames, as 5:17,40\n"),
            (["--fixed", "503"], ["A312"], "argument --fixed: '503' is no unit with a hexadecimal location, as 5:03\n"),
            (["./dali_bench", "drive"], ["A312"],
             "unrecognized arguments: ./dali_bench drive: put -- before the command\n")]:
        want(run(SIMULATED, options, words)[2].splitlines(True)[-1].split("error: ")[1], told)
    ended = subprocess.run([SIMULATED, "--folder", folder, "--", "/none"], capture_output=True, text=True)
    want((ended.returncode, ended.stderr), (2, "simulated_link: /none: No such file or directory\n"))


def test_what_the_command_names_is_handed_on(folder):
    want_named_descriptors(SIMULATED, ["--folder", folder])


def test_a_stopped_link_has_saved(folder):
    for number, (stop, status) in enumerate([(signal.SIGTERM, 130), (signal.SIGKILL, -signal.SIGKILL)]):
        played = player([*OPENED, f"C71{number}", *50 * ["pause"]])
        command = [SIMULATED, "--folder", folder, "--frames", "--", *played]
        link = subprocess.Popen(command, stderr=subprocess.PIPE, text=True, start_new_session=True)
        assert any(f"C71{number}" in line for line in link.stderr)
        link.send_signal(stop)
        want(link.wait(5), status)
        with contextlib.suppress(ProcessLookupError):
            os.killpg(link.pid, signal.SIGKILL)
        link.stderr.close()
        want(saved(folder), blank(x03=0x10 + number))


if __name__ == "__main__":
    sys.exit(adapter_desk.main(__name__, "desk_addressing"))
