"""Tests of `dali_bench address`: its command line, its streams as they fail, and the journal that has to stand idle."""

import fcntl
import os
import re

import driven
from address_desk import OPEN, crowd, told_by
from address_runs import NONE_SENT, NONE_TOLD, Addressing, planned
from base import BenchTest, preloaded
from drive_desk import ABSENT, absent_records, desk_of, unread, unwritten
from driven import HEADER, Ended
from terminal_fixtures import seen

# Answers where no unit is there.
NOBODY = b"--\n" * 60
# Words that are refused before a frame is sent, each with the message, if it is of this program.
REFUSED = [
    (["64"], None), (["-1"], None), (["x"], None), ([""], None), (["5", "64"], None), (["--every"], None),
    (["5", "7", "5"], "error: unit 5 is named twice: name each unit once\n"),
    (["--all", "0", "0"], "error: unit 0 is named twice: name each unit once\n"),
    *[(words, "error: --all, --list and --count ask for different things: name one of them\n")
      for words in (["--all", "--list"], ["--all", "--count"], ["--count", "--list"], ["--all", "--list", "--count"])],
    *[([word, "5"], "error: --list and --count give no short address, and tell of all units: leave UNIT out\n")
      for word in ("--list", "--count")],
]
# Tasks, and answers to their first frames: nobody, a unit without an address, one at each.
BROKEN = [(words, answers) for words in ([], ["--list"], ["--all"], ["--count"], ["9", "5"])
          for answers in ([], ["--"], ["--"] * 8, ["FF"] * 12, ["--", "FF"] * 20)
          if "9" not in words or "FF" not in answers]


class WordsTest(BenchTest):
    """The command line."""

    def test_refused_words(self):
        for words, told in REFUSED:
            ended = Addressing(words).give(NOBODY)
            self.assertEqual((words, ended.status, ended.sent), (words, 1, b""))
            assert ended.told == told if told else ended.told, (words, ended)

    def test_help(self):
        ended = Addressing(["--help"]).give(b"")
        self.assertEqual((ended.status, ended.told), (0, ""))

    def test_words_in_any_order(self):
        for words in (["7", "--progress", "9"], ["--progress", "7", "9"], ["7", "9", "--progress"]):
            bus = crowd(2)
            ended = Addressing(words).over(bus)
            self.assertEqual((words, ended.status, sorted(it.short_address for it in bus.units)), (words, 0, [7, 9]))


class StreamsTest(BenchTest):
    """Streams that end, fail or are closed."""

    def test_nobody(self):
        self.assertEqual(Addressing().give(NOBODY), Ended(0, NONE_SENT, NONE_TOLD))

    def test_a_link_that_ends(self):
        for words, answers in BROKEN:
            given = "".join(answer + "\n" for answer in answers).encode()
            found, wanted = Addressing(words).give(given), planned(answers, words)
            if "--count" in words:  # The plan closes before it counts.
                wanted = wanted._replace(sent=found.sent)
            self.assertEqual((words, answers, found), (words, answers, wanted))

    def test_lines_that_are_no_answer(self):
        for line, fault in (("-", "3 Line"), ("5", "3 Line"), ("x" * 9, "6 TooLong")):
            ended = Addressing().give(f"--\n{line}\n".encode())
            self.assertEqual((line, ended.status, ended.told), (line, 1, f"{OPEN}\ndrive fault {fault}\n"))

    def test_standard_output_that_fails(self):
        with open("/dev/full", "wb") as full:
            self.assertEqual(Addressing().give(NOBODY, stdout=full),
                             Ended(2, None, f"{OPEN}\n" + unwritten("no storage space")))

    def test_standard_input_that_is_a_folder(self):
        inside = os.open(self.folder, os.O_RDONLY)
        running = Addressing(["--list"]).start(stdin=inside)
        os.close(inside)
        found = running.communicate(timeout=driven.PATIENCE)
        self.assertEqual((running.returncode, *found), (2, b"B1FF\n", unread("is a directory").encode()))

    def test_standard_error_that_fails(self):
        for answers in (NOBODY, b"", b"--\n"):
            with open("/dev/full", "wb") as full:
                ended = Addressing().give(answers, stderr=full)
            self.assertEqual((answers, ended.status), (answers, 2))
        # The first line that can't be written ends the run: no frame is sent whose result nobody can read.
        bus, frames = crowd(0, [3, 5]), []
        with open("/dev/full", "wb") as full:
            running = Addressing(["--list"]).start(stderr=full)
            while line := driven.line_from(running.stdout):
                frames.append(line)
                answer = bus.carry(int(line, 16))
                running.stdin.write(b"--\n" if answer is None else b"%02X\n" % answer)
            running.stdin.close()
            running.stdout.close()
        self.assertEqual(running.wait(driven.PATIENCE), 2)
        assert b"07C2\n" in frames and b"0BC2\n" not in frames, "it went on to the next unit"

    def test_streams_that_are_closed_at_the_start(self):
        for closed in [{0}, {1}, {2}, {0, 1}, {0, 2}, {1, 2}, {0, 1, 2}]:
            ended = Addressing().give(NOBODY, preexec_fn=lambda: [os.close(stream) for stream in closed])
            self.assertEqual((closed, ended.status), (closed, 2))
            if 2 not in closed:
                self.assertEqual((closed, ended.told.splitlines()[-1:]), (closed, ["drive fault 2 Link"]))

    def test_each_allocation_refused(self):
        journal = self.folder / "bench.journal"
        journal.write_bytes(HEADER + absent_records(1))
        ran_out = 0
        for number in range(1, 10000):
            preload = {"LD_PRELOAD": str(preloaded("refuse_alloc")), "REFUSED_ALLOCATION": str(number)}
            ended = Addressing(["--journal", journal, "5"]).give(NOBODY, preload)
            told = ended.told.replace("an allocation was refused\n", "")
            if told == ended.told:
                break
            if ended.status == 2:
                ran_out += 1
                # Before the words are read nobody knows that it has a link.
                line = (ended.sent.decode() + told).splitlines()[-1 if "fault 20" in told else 0]
                self.assertEqual((number, line), (number, "fault 20 Memory"))
                assert ended.sent == b"" or number <= 8, (number, ended)
            else:
                self.assertEqual((number, ended.status, told), (number, 0, NONE_TOLD))
        self.assertEqual((ended.status, told), (0, NONE_TOLD))
        assert ran_out > 3, ran_out


class JournalTest(BenchTest):
    """The journal that has to stand idle."""

    def ended_with(self, records, name="bench.journal"):
        """Give how a run ends beside a journal of these bytes."""
        journal = self.folder / name
        if records is not None:
            journal.write_bytes(records)
        ended = Addressing(["--journal", journal]).give(NOBODY)
        assert records is None or journal.read_bytes() == records, "the journal has changed"
        return ended

    def test_an_idle_one(self):
        for records in (b"", HEADER, HEADER + absent_records(1)):
            self.assertEqual(self.ended_with(records)[::2], (0, NONE_TOLD))

    def test_ones_that_are_not_idle(self):
        ended = HEADER + absent_records(1)
        for records, fault in ((ended[:-1], "15 Older"), (ended + b"\x01", "15 Older"), (b"x", "15 Older"),
                               (HEADER + ended, "15 Older"), (None, "21 File")):
            name = "bench.journal" if records else "absent.journal"
            found = self.ended_with(records, name)
            self.assertEqual((records, found.sent, found.told.splitlines()[-1], str(self.folder / name) in found.told),
                             (records, b"", f"fault {fault}", True))
            self.assertEqual((records, found.status), (records, 1 if records else 2))

    def test_each_moment_of_a_drive(self):
        # As a drive leaves its journal that is killed at each of its frames.
        whole = desk_of(self.folder, ABSENT, b"")
        count = len(whole.over(driven.simulated_link.Bus([])).sent.split())
        for at in range(1, count + 1):
            desk = desk_of(self.folder, ABSENT, b"")
            desk.over(driven.simulated_link.Bus([]), (at, "sent"))
            found = Addressing(["--journal", desk.journal]).give(NOBODY)
            self.assertEqual((at, found.status, found.sent, found.told.splitlines()[-1]),
                             (at, 1, b"", "fault 15 Older"))

    def test_no_drive_goes_on_beside_it(self):
        desk = desk_of(self.folder, ABSENT, b"")
        desk.over(driven.simulated_link.Bus([]))
        running = Addressing(["--journal", desk.journal]).start()
        driven.line_from(running.stdout)
        ended = desk.give(b"")
        self.assertEqual((ended.status, ended.sent, ended.told.splitlines()[-1]), (2, b"", "fault 21 File"))
        running.kill()
        running.communicate()
        self.assertEqual(desk.give(b"").status, 0)

    def test_it_does_not_begin_beside_a_drive(self):
        journal = self.folder / "bench.journal"
        journal.write_bytes(HEADER + absent_records(1))
        with open(journal, "r+b") as held:
            fcntl.flock(held, fcntl.LOCK_EX)
            found = self.ended_with(None)
        self.assertEqual((found.status, found.sent, found.told.splitlines()[-1]), (2, b"", "fault 21 File"))
        assert "it is in use" in found.told, found


class ProgressTest(BenchTest):
    """The progress that a person watches."""

    def test_no_terminal(self):
        desk = Addressing(["--progress"])
        bus = crowd(2, [40])
        ended = desk.over(bus)
        told = told_by("\n".join(ended.told.splitlines()[:-1]))
        self.assertEqual((ended.status, sorted(told.units), told.summary), (0, [0, 1], (2, 0, 0)))
        self.assertRegex(ended.told.splitlines()[-1], f"^found 2, frames {bus.frames}, time [0-9]+:[0-9][0-9]$")

    def test_a_terminal(self):
        bus = crowd(3)
        status, drawn, lines = seen(Addressing(), bus)
        self.assertEqual(status, 0)
        for line in drawn:
            self.assertRegex(line, "^found [0-3], frame [1-9][0-9]*$")
        assert len(drawn) > 5, drawn
        self.assertEqual([line[:7] for line in lines if line][:3], ["unit 0 ", "unit 1 ", "unit 2 "])
        # Each is counted once it is given its address, and not only when its line comes at the end.
        found = [int(line.split(",")[0].split()[1]) for line in drawn]
        self.assertEqual((found, set(found)), (sorted(found), {0, 1, 2, 3}))

    def test_how_much_is_left(self):
        for words, bus, place, count in ((["9", "4", "30"], crowd(3), "found ([0-3]) of 3, ", 3),
                                         (["--list"], crowd(0, [2, 40]), "[0-9]+ of 64: found ([0-2]), ", 2),
                                         (["--count"], crowd(0, [2, 40]), "found ([0-2]), ", 2),
                                         (["--all", "9", "4"], crowd(0, [4, 40]), "found ([0-2]), ", 2)):
            status, drawn, lines = seen(Addressing(words), bus)
            self.assertEqual((words, status), (words, 0))
            left = ", left [0-9]+:[0-9]{2}" if "--list" in words or "30" in words else ""
            found = [re.fullmatch(f"{place}frame [1-9][0-9]*({left})?", line) for line in drawn]
            assert all(found), (words, drawn)
            counted = [int(one[1]) for one in found]
            self.assertEqual((words, counted, max(counted)), (words, sorted(counted), count))
            assert not left or any(one[2] for one in found), (words, drawn)
            assert lines[-1].startswith(f"found {count}, frames {bus.frames}, time "), (words, lines)

    def test_refused(self):
        ended = Addressing(["--progress"]).give(b"", stdin=driven.subprocess.DEVNULL)
        assert "start this over an adapter" in ended.told, ended
