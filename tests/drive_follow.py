"""Tests of `drive --follow`: orders that come line by line, from a file and through a named pipe."""

import errno
import fcntl
import json
import os
import pathlib
import re
import subprocess
import termios
import time

import driven
from base import BenchTest, in_cases, preloaded
from call_fixtures import acts_of, kill_at_each, shim
from drive_desk import (
    ABSENT,
    ABSENT_BEGAN,
    ABSENT_FRAMES,
    ABSENT_JOURNAL,
    DONE_JOURNAL,
    DONE_TOLD,
    FAULT_21,
    GTIN,
    GTIN_BYTES,
    KEPT_SILENT,
    PRESENT,
    SILENCE,
    absent_records,
    last_line,
)
from drive_fixtures import (
    BLANK,
    NOTHING,
    READY,
    SCENES,
    UNTOLD,
    Live,
    blank_bus,
    following,
    kept,
    lines_of,
    many_orders,
    piped,
    reporting,
    unkept,
    writer_of,
)
from driven import HEADER, PATIENCE, Ended, groups_of

LINE = json.dumps(ABSENT[0])
TAKEN = "reply 1 taken\n" + KEPT_SILENT
MOST_LINE = 16384
EIO = "input/output error"
SHARES = 4  # of a long test, each a case


def waiting_in(pipe):
    """Give how many bytes stand in a pipe that nobody has read yet."""
    return int.from_bytes(fcntl.ioctl(pipe, termios.FIONREAD, bytes(4)), "little")


def order_with(**fields):
    """Give the line of an order with these fields."""
    return json.dumps({"order": 7, "unit": 9, **fields})


# Lines that are refused, each with the number of its order, if it has one, and its fault.
REFUSED = [
    (json.dumps({"order": 7, "unit": 64, "gtin": GTIN}), 7, "1 Unit"), (order_with(gtin=4006381333931), 7, "2 Kind"),
    (order_with(year=True), 7, "2 Kind"), (order_with(year=100), 7, "3 Range"), (order_with(gtin="1"), 7, "4 Gtin"),
    (order_with(colour=""), 7, "5 Text"), (order_with(luminaire="x" * 61), 7, "5 Text"),
    (order_with(min_voltage=241, max_voltage=240), 7, "7 Voltage"), (order_with(), 7, "8 Empty"),
    ("{}", None, "9 Shape"), ("[]", None, "9 Shape"), ("null", None, "9 Shape"), ("5", None, "9 Shape"),
    (f"[{LINE}]", None, "9 Shape"), ('{"order": 0}', 0, "9 Shape"), ('{"unit": 9, "year": 24}', None, "9 Shape"),
    ('{"order": 18446744073709551615, "unit": "9"}', 18446744073709551615, "9 Shape"),
    ('{"order": 18446744073709551616, "unit": 9}', None, "9 Shape"), ('{"order": "7", "unit": 9}', None, "9 Shape"),
    ('{"order": -7, "unit": 9}', None, "9 Shape"), ('{"order": 7.0, "unit": 9}', None, "9 Shape"),
    (order_with(moment=5), 7, "10 Key"), (order_with(colr="x"), 7, "10 Key"), ("{", None, "11 Json"),
    ("x", None, "11 Json"), (b"\xff", None, "11 Json"), (b"\xef\xbb\xbf{}", None, "11 Json"),
    (LINE + LINE, None, "11 Json"), ("\0", None, "11 Json"), (order_with(year=24)[:-1], None, "11 Json"),
    (json.dumps({"submit": ABSENT[0], "moment": -1}), 1, "12 Document"),
    (json.dumps({"submit": ABSENT[0], "moment": "5"}), 1, "12 Document"),
    (json.dumps({"order": 8, "submit": ABSENT[0]}), 1, "12 Document"),
    (json.dumps({"order": 8, "submit": []}), None, "12 Document"),
    (json.dumps({"submit": {}}), None, "9 Shape"),
    (json.dumps({"submit": {"order": 7, "unit": 9}, "moment": 1}), 7, "8 Empty"),
    ("x" * (MOST_LINE + 1), None, "13 TooBig"), (" " * MOST_LINE + order_with(year=24), None, "13 TooBig"),
    ("{}" * 100000, None, "13 TooBig"),
]


class LinesTest(BenchTest):
    """The forms of a line."""

    def test_orders_line_by_line(self):
        second = {"order": 2, "unit": 9, "gtin": GTIN}
        desk = following(self.folder, [*ABSENT, *ABSENT, second, *ABSENT])
        told = READY + TAKEN + KEPT_SILENT + "reply 2 taken\nreply 2 kept 3 Silent\n" + KEPT_SILENT
        self.assertEqual(desk.give(SILENCE * 2), Ended(0, ABSENT_FRAMES * 2, told))
        self.assertEqual(desk.held(), ABSENT_JOURNAL + absent_records(2))
        self.assertEqual(desk.give(b""),
                         Ended(0, b"", READY + KEPT_SILENT * 2 + "reply 2 kept 3 Silent\n" + KEPT_SILENT))
        desk.write_orders(f'{{"order":1,"unit":10,"gtin":"{GTIN}"}}\n')
        self.assertEqual(desk.give(b""), Ended(0, b"", READY + "reply 1 reused\n"))

    def test_lines_as_they_may_stand(self):
        for text in (LINE, LINE + "\n", LINE + "\r\n", "\n\r\n" + LINE + "\n\n", " \t\r\n\t" + LINE + " \t",
                     "\n" * 5000 + LINE):
            desk = following(self.folder, text)
            self.assertEqual((text, desk.give(SILENCE)), (text, Ended(0, ABSENT_FRAMES, READY + TAKEN)))
            self.assertEqual(desk.held(), ABSENT_JOURNAL)
        for text in ("", "\n", "\r\n \t\n", " "):
            self.assertEqual((text, following(self.folder, text).give(b"")), (text, Ended(0, b"", READY)))

    def test_an_end_in_mid_line(self):
        for text, line in [(LINE + "\n" + LINE[:-1], "item 2 fault 11 Json"), (LINE + "\n\n{", "item 3 fault 11 Json"),
                           (LINE + "\n{}", "item 2 fault 9 Shape")]:
            told = READY + TAKEN + line + "\n"
            self.assertEqual((text, following(self.folder, text).give(SILENCE)), (text, Ended(1, ABSENT_FRAMES, told)))

    def test_what_an_unfinished_order_still_asks_for(self):
        desk = following(self.folder, "", ABSENT_BEGAN)
        self.assertEqual(desk.give(SILENCE), Ended(0, ABSENT_FRAMES, KEPT_SILENT + READY))
        self.assertEqual(desk.held(), ABSENT_JOURNAL)

    def test_ready_before_a_byte_is_read(self):
        desk = piped(self.folder, ABSENT_BEGAN)
        pipe = os.open(desk.orders, os.O_RDWR)
        os.write(pipe, LINE.encode() + b"\n")
        # Its link breaks over what the journal still asks for: it isn't ready, and nothing is read.
        self.assertEqual(desk.give(b""), Ended(1, ABSENT_FRAMES[:5], "drive fault 4 End\n"))
        self.assertEqual(waiting_in(pipe), len(LINE) + 1)
        # It can't say that it is: nothing is read either.
        ended = desk.give(SILENCE, shim(desk, f"write err 2 fail {errno.ENOSPC}"))
        self.assertEqual((ended.status, ended.sent, ended.told), (2, ABSENT_FRAMES, KEPT_SILENT))
        self.assertEqual((waiting_in(pipe), desk.held()), (len(LINE) + 1, ABSENT_JOURNAL))
        command, last = desk.start(), time.monotonic() + PATIENCE
        while waiting_in(pipe):
            assert time.monotonic() < last, "the stream isn't read"
            time.sleep(0.01)
        os.close(pipe)
        self.assertEqual(command.communicate(None, PATIENCE), (b"", (READY + KEPT_SILENT).encode()))

    def test_refused_lines(self):
        stream, told = b"", ""
        for count, (line, number, fault) in enumerate(REFUSED):
            stream += b"\n" + (line if isinstance(line, bytes) else line.encode()) + b"\n"
            told += f"item {2 * count + 2}{'' if number is None else f' order {number}'} fault {fault}\n"
        self.assertEqual(following(self.folder, stream).give(b""), Ended(1, b"", READY + told))
        desk = following(self.folder, LINE.encode() + b"\n" + stream + LINE.encode())
        shifted = told.splitlines()
        shifted = "".join(f"item {int(it.split()[1]) + 1} {it.split(' ', 2)[2]}\n" for it in shifted)
        self.assertEqual(desk.give(SILENCE), Ended(1, ABSENT_FRAMES, READY + TAKEN + shifted + KEPT_SILENT))
        self.assertEqual(desk.held(), ABSENT_JOURNAL)

    def test_the_longest_line(self):
        for length, told, status in [(MOST_LINE - 1, TAKEN, 0), (MOST_LINE, TAKEN, 0),
                                     (MOST_LINE + 1, "item 1 fault 13 TooBig\n", 1)]:
            for end in ("\n", ""):
                desk = following(self.folder, LINE + " " * (length - len(LINE)) + end)
                ended = desk.give(SILENCE)
                self.assertEqual((length, ended.status, ended.told), (length, status, READY + told))
        spaces = "\n".join(" " * length for length in (MOST_LINE, MOST_LINE + 1, 100000))
        self.assertEqual(following(self.folder, spaces).give(b""), Ended(0, b"", READY))

    def test_moments_of_lines(self):
        for line, moment in [(LINE, 5), (json.dumps({"submit": ABSENT[0]}), 0),
                             (json.dumps({"submit": ABSENT[0], "moment": 1700000000}), 1700000000),
                             (json.dumps({"moment": 2 ** 64 - 1, "submit": ABSENT[0]}), 2 ** 64 - 1)]:
            desk = following(self.folder, line + "\n" + LINE)
            desk.options = ["--moment", "5"]
            self.assertEqual((line, desk.give(SILENCE)), (line, Ended(0, ABSENT_FRAMES, READY + TAKEN + KEPT_SILENT)))
            self.assertEqual((line, desk.held()), (line, HEADER + absent_records(1, moment)))


class PipesTest(BenchTest):
    """Orders that come through a named pipe."""

    def test_each_reply_comes_before_the_next_line(self):
        desk, bus = piped(self.folder), blank_bus(5)
        live = Live(desk, bus)
        for number in range(1, 6):
            os.write(live.pipe, json.dumps({"order": number, "unit": 5, "year": number}).encode() + b"\n")
            self.assertEqual(live.told(2), f"reply {number} taken\nreply {number} kept 0 Done\n")
            self.assertEqual([group.code for group in groups_of(desk.held())], [0] * number)
            os.write(live.pipe, b"[]\n")
            self.assertEqual(live.told(1), f"item {2 * number} fault 9 Shape\n")
            self.assertEqual((live.command.poll(), bus.frames), (None, 56 * number))
        self.assertEqual(live.end()[::2], (1, ""))

    def test_a_line_that_comes_in_pieces(self):
        live = Live(piped(self.folder), blank_bus())
        for byte in LINE.encode():
            os.write(live.pipe, bytes([byte]))
        self.assertEqual((waiting_in(live.pipe) <= len(LINE), live.command.poll(), live.sent), (True, None, b""))
        os.write(live.pipe, b"\n")
        self.assertEqual(live.told(2), TAKEN)
        self.assertEqual(live.end(), Ended(0, ABSENT_FRAMES, ""))

    def test_writers_of_a_pipe_that_go_and_come(self):
        desk, bus = piped(self.folder), blank_bus(5)
        for number in range(1, 4):
            live = Live(desk, bus)
            lines = [json.dumps({"order": at, "unit": 5, "year": at}) for at in range(1, number + 1)]
            os.write(live.pipe, ("\n".join(lines) + "\n").encode())
            told = "".join(f"reply {at} kept 0 Done\n" for at in range(1, number))
            told += f"reply {number} taken\nreply {number} kept 0 Done\n"
            self.assertEqual(live.told(number + 1), told)
            self.assertEqual((live.end()[::2], bus.frames), ((0, ""), 56 * number))
        self.assertEqual([(group.number, group.code) for group in groups_of(desk.held())], [(1, 0), (2, 0), (3, 0)])
        self.assertEqual(bus.units[0].banks[1][0x13], 3)

    def test_no_line_is_read_before_its_turn(self):
        desk = piped(self.folder)
        pipe = os.open(desk.orders, os.O_RDWR)
        second = b'{"order":2,"unit":9,"year":24}\n'
        os.write(pipe, LINE.encode() + b"\n" + second)
        command = desk.start()
        self.assertEqual(driven.line_from(command.stdout), b"C301\n")
        self.assertEqual(waiting_in(pipe), len(second))
        sent, told = command.communicate(b"--\n" * 3, PATIENCE)
        self.assertEqual((command.returncode, sent, told),
                         (1, ABSENT_FRAMES[5:20], b"ready\nreply 1 taken\ndrive fault 4 End\n"))
        self.assertEqual((waiting_in(pipe), desk.held()), (len(second), ABSENT_BEGAN))
        os.close(pipe)

    def test_nothing_is_read_where_no_journal_is_opened(self):
        desk = piped(self.folder, b"X")
        pipe = os.open(desk.orders, os.O_RDWR)
        os.write(pipe, LINE.encode() + b"\n")
        self.assertEqual(desk.give(SILENCE), Ended(1, b"", "journal fault 3 Record at 0\n"))
        self.assertEqual((waiting_in(pipe), desk.held()), (len(LINE) + 1, b"X"))
        os.close(pipe)

    def test_a_pipe_over_the_simulated_adapter(self):
        desk = piped(self.folder)
        for told in (DONE_TOLD, "reply 1 kept 0 Done\n"):
            words = [driven.ROOT / "adapters" / "simulated_link.py", "--folder", self.folder, "--", *desk.words()]
            command = subprocess.Popen(words, stdout=subprocess.PIPE, stderr=subprocess.PIPE, text=True)
            pipe = writer_of(desk.orders)
            os.write(pipe, json.dumps(PRESENT[0]).encode() + b"\n")
            os.close(pipe)
            self.assertEqual((*command.communicate(timeout=PATIENCE), command.returncode), ("", READY + told, 0))
        self.assertEqual(bytes.fromhex((self.folder / "unit_5.hex").read_text()), BLANK[:3] + GTIN_BYTES + BLANK[9:])


class StopsTest(BenchTest):
    """Streams that fail, and kills."""

    def test_a_stream_that_fails(self):
        stream = LINE + "\n{}\n" + LINE + "\n"
        whole = TAKEN + "item 2 fault 9 Shape\n" + KEPT_SILENT
        places = {1: "", 3: "", len(LINE): "", len(LINE) + 2: TAKEN, len(LINE) + 5: whole[:len(TAKEN) + 21],
                  len(stream) + 1: whole}
        for number, told in places.items():
            told = READY + told
            desk = following(self.folder, stream)
            ended = desk.give(SILENCE, shim(desk, f"read orders {number} fail {errno.EIO}"))
            told += f"error: the file can't be used: {desk.orders}: "
            self.assertEqual((number, ended.status, ended.told[:len(told)]), (number, 2, told))
            self.assertEqual((number, ended.told[len(told):].splitlines()[1:]), (number, ["fault 21 File"]))
            self.assertEqual(desk.held(), ABSENT_JOURNAL if ended.sent else HEADER)
            assert desk.give(SILENCE).told.endswith(KEPT_SILENT), number
            self.assertEqual(desk.held(), ABSENT_JOURNAL)

    def test_a_stream_that_is_none(self):
        desk = following(self.folder, "")
        desk.orders.unlink()
        self.assertEqual(last_line(desk.give(SILENCE)), FAULT_21)
        assert not desk.journal.exists()
        desk.orders.mkdir()
        ended = desk.give(SILENCE)
        self.assertEqual(last_line(ended), FAULT_21)
        assert ended.told.startswith(f"{READY}error: the file can't be used: {desk.orders}: "), ended
        self.assertEqual(desk.held(), HEADER)
        desk.orders.rmdir()
        desk.orders = "-"
        self.assertEqual(last_line(desk.give(SILENCE, cwd=self.folder)), FAULT_21)

    def test_a_stream_and_a_journal_in_one_file(self):
        desk = following(self.folder, ABSENT)
        desk.journal = desk.orders
        held = desk.held()
        told = f"error: ORDERS and JOURNAL are one file: {desk.journal}\nfault 21 File\n"
        self.assertEqual((desk.give(SILENCE), desk.held()), (Ended(2, b"", told), held))

    def test_interrupted_reads_change_nothing(self):
        stream = "{}\n" + LINE + "\n"
        for number in range(1, len(stream) + 2):
            desk = following(self.folder, stream)
            ended = desk.give(SILENCE, shim(desk, f"read orders {number} fail {errno.EINTR}"))
            self.assertEqual((number, ended),
                             (number, Ended(1, ABSENT_FRAMES, READY + "item 1 fault 9 Shape\n" + TAKEN)))

    def test_a_standard_error_that_fails(self):
        for number in (1, 2, 3, 4):
            desk = following(self.folder, "{}\n" + LINE + "\n")
            ended = desk.give(SILENCE, shim(desk, f"write err {number} fail {errno.ENOSPC}"))
            self.assertEqual((number, ended.status), (number, 2))
            desk.write_orders(ABSENT)
            assert desk.give(SILENCE).told.endswith(KEPT_SILENT), number
            self.assertEqual(desk.held(), ABSENT_JOURNAL)

    @in_cases(2)
    def test_each_allocation_refused(self, case):
        shape, memory = READY + "item 1 fault 9 Shape\n", "item {} fault 20 Memory\n"
        whole = {shape + TAKEN, READY + memory.format(1) + TAKEN, shape + memory.format(2)}
        ran_out = 0
        for number in range(1 + case, 100000, 2):
            desk = following(self.folder, "{}\n" + LINE + "\n")
            preload = {"LD_PRELOAD": str(preloaded("refuse_alloc")), "REFUSED_ALLOCATION": str(number)}
            ended = desk.give(SILENCE, preload)
            told = ended.told.replace("an allocation was refused\n", "")
            if told == ended.told:
                break
            # Before the command line is read it isn't known that the output is a link.
            last = (ended.sent.decode() if number <= 8 and ended.sent else told).splitlines()[-1]
            assert ended.status == 1 and told in whole or (ended.status, last) == (2, "fault 20 Memory"), ended
            ran_out += "20 Memory" in last or "20 Memory" in told
            self.assertEqual(desk.give(SILENCE).told, shape + (KEPT_SILENT if "kept" in told else TAKEN))
            self.assertEqual(desk.held(), ABSENT_JOURNAL)
        assert ran_out > 4, "no refused allocation ended as want of memory"

    @in_cases(SHARES)
    def test_kills_at_each_record_and_line(self, case):
        for name in ("lossy", "left"):
            desk = following(self.folder, SCENES[name].orders)
            acts = acts_of(desk, SCENES[name])
            acts = [act for act in acts if not act.startswith("read orders") or int(act.split()[2]) % 20 == 1]
            kill_at_each(desk, name, acts[case::SHARES])


def wait_for(told, line):
    """Wait until a file ends with a line."""
    last = time.monotonic() + PATIENCE
    while not told.read_bytes().endswith(line):
        assert time.monotonic() < last, f"{line!r} isn't told"
        time.sleep(0.01)


def most_memory(command):
    """Give the most memory that a program has had so far, in KiB."""
    status = pathlib.Path(f"/proc/{command.pid}/status").read_text()
    return int(re.search(r"VmHWM:\s+(\d+) kB", status)[1])


class StreamReportsTest(BenchTest):
    """Reports of a stream, and how much memory it takes."""

    def test_reports_of_a_stream(self):
        other = {"order": 1, "unit": 5, "year": 24}
        cases = [
            (PRESENT, None, blank_bus(5), 0, [kept(1, 5, 0, "now", 112, 0)]),
            ([*PRESENT, *PRESENT], DONE_JOURNAL, blank_bus(5), 0, [kept(1, 5, 0, "before", 0, 0)] * 2),
            (PRESENT, None, blank_bus(), 1, [kept(1, 5, 3, "now", 16, 8)]),
            ([*PRESENT, other], None, blank_bus(5), 1,
             [kept(1, 5, 0, "now", 112, 0), unkept(1, 5, "reused", moment=0)]),
            ([], ABSENT_BEGAN, blank_bus(), 1, [kept(1, 9, 3, "now", 16, 8)]),
            ([], None, blank_bus(), 1, []),
            ([{}, *PRESENT], None, blank_bus(5), 1, [kept(1, 5, 0, "now", 112, 0)]),
        ]
        for orders, journal, bus, status, wanted in cases:
            desk = following(self.folder, orders, journal)
            path = reporting(desk, "--require-done")
            path.unlink(missing_ok=True)
            self.assertEqual((orders, desk.over(bus).status, lines_of(path)), (orders, status, wanted))

    def test_streams_without_an_order(self):
        for text, told in [("", NOTHING), ("\n \r\n", NOTHING), ("{}\n", "item 1 fault 9 Shape\n")]:
            for options in (["--require-done"], ["--require-now"], ["--require-now", "--require-done"]):
                desk = following(self.folder, text, DONE_JOURNAL)
                desk.options = options
                self.assertEqual((text, options, desk.give(b"")), (text, options, Ended(1, b"", READY + told)))
            desk.options = []
            told = told.replace(NOTHING, "")
            self.assertEqual((text, desk.give(b"")), (text, Ended(1 if told else 0, b"", READY + told)))

    def test_orders_that_the_stream_has_to_do(self):
        for orders, status in [(PRESENT, 0), ([*PRESENT, *PRESENT], 1)]:
            desk = following(self.folder, orders)
            desk.journal.unlink(missing_ok=True)
            desk.options = ["--require-now"]
            self.assertEqual((orders, desk.over(blank_bus(5)).status), (orders, status))

    def test_a_report_grows_line_by_line(self):
        desk, bus = piped(self.folder), blank_bus(5)
        path = reporting(desk)
        live = Live(desk, bus)
        wanted = []
        for number in range(1, 4):
            os.write(live.pipe, json.dumps({"order": number, "unit": 5, "year": number}).encode() + b"\n[]\n")
            self.assertEqual(live.told(3).splitlines()[1:],
                             [f"reply {number} kept 0 Done", f"item {2 * number} fault 9 Shape"])
            wanted.append(kept(number, 5, 0, "now", 56, 0))
            self.assertEqual(lines_of(path), wanted)
        self.assertEqual(live.end()[::2], (1, ""))

    def test_a_report_that_can_not_be_written(self):
        desk = following(self.folder, ABSENT)
        desk.options = ["--report", "/dev/full"]
        told = READY + TAKEN + UNTOLD.format("/dev/full", "no storage space")
        self.assertEqual(desk.give(SILENCE), Ended(2, ABSENT_FRAMES, told))

    def test_memory_stays_flat(self):
        desk, told, found = piped(self.folder, HEADER + many_orders(1)), self.folder / "told", {}
        order = b'{"order":1,"unit":9,"year":24}\n'
        with open(told, "wb") as file:
            command = desk.start(stdin=subprocess.DEVNULL, stderr=file)
        with open(writer_of(desk.orders), "wb") as pipe:
            for before, count in [(0, 1000), (1000, 100000)]:
                pipe.write(order * (count - before - 1) + b"[]\n")
                pipe.flush()
                wait_for(told, b"item %d fault 9 Shape\n" % count)
                found[count] = most_memory(command)
        self.assertEqual((command.wait(PATIENCE), command.stdout.read()), (1, b""))
        self.assertEqual(told.read_bytes().count(b"reply 1 kept 3 Silent\n"), 99998)
        assert found[100000] - found[1000] <= 256, found
