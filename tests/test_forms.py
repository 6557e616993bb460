#!/usr/bin/env python3
"""Test that the public calls and types have the forms that the requirements give them, and that docs/DECISIONS.md names
those that differ, and no other.

The last line is `N passed, M failed`, and the status is 0 only where none failed.
"""

import pathlib
import re
import sys

ROOT = pathlib.Path(__file__).resolve().parent.parent
sys.path.insert(0, str(ROOT / "scripts"))
sys.dont_write_bytecode = True
from crates import CRATES, text_of  # noqa: E402
from source import end_of_bracket, files_of, parameters_at  # noqa: E402

HEADING = "## Forms that differ from the requirements"
# The forms, crate by crate, a line that is indented goes on with the one before: what a call takes, without names, and
# gives; of a type what it holds. A call that takes memory has `Global`, the allocator, first.
FORMS = """
dali_bank enum Field { Gtin, Identification, Year, Week, InputPower, MinDimPower, MinVoltage, MaxVoltage, LightOutput,
    Cri, Cct, Distribution, Colour, Luminaire }
dali_bank Field::first(&self) -> u8
dali_bank Field::length(&self) -> u8
dali_bank enum Value { Unknown, Number(u64), Digits(&str), Hex(&str), Text(&str) }
dali_bank Draft::new(u64, u8) -> Result<Draft, BankFault>
dali_bank Draft::set(&mut self, Field, Value) -> Result<(), BankFault>
dali_bank Draft::finish(self) -> Result<Order, (Draft, BankFault)>
dali_bank enum BankFault { Unit = 1, Kind = 2, Range = 3, Gtin = 4, Text = 5, Twice = 6, Voltage = 7, Empty = 8 }
dali_bank Order::id(&self) -> u64
dali_bank Order::unit(&self) -> u8
dali_bank Order::updates(&self) -> &[(u8, u8)]
dali_bank Order::copy(&self) -> Order
dali_bank Order::same(&self, &Order) -> bool
dali_bank Order::from_pairs(u64, u8, &[(u8, u8)]) -> Option<Order>
dali_bank read_field(&[u8], Field) -> Shown
dali_bank enum Shown { Absent, Unknown, Number(u64), Hex, Text(u8), Raw }
dali_frame enum Frame { Dtr0(u8), Dtr1(u8), Dtr2(u8), Write(u8), WriteSilent(u8), Enable(u8), AskDtr0(u8),
    AskDtr1(u8), AskDtr2(u8), Read(u8), Other(u16) }
dali_frame Frame::is_proper(&self) -> bool
dali_frame frame_of(u16) -> Frame
dali_frame word_of(&Frame) -> u16
dali_frame line_of(&Frame) -> [u8; 5]
dali_frame answer_of(&[u8]) -> Result<Option<u8>, LineFault>
dali_frame enum LineFault { Length = 1, Digit = 2 }
dali_gear Unit::blank(Global, u8) -> Result<Unit, GearFault>
dali_gear Unit::with_bank1(Global, u8, &[u8], &[u8]) -> Result<Unit, GearFault>
dali_gear enum GearFault { Address = 1, Size = 2, Fixed = 3, NoMemory = 4, SameAddress = 5 }
dali_gear Unit::set_dtrs(&mut self, u8, u8, u8)
dali_gear Unit::hear(&mut self, &Frame) -> Option<u8>
dali_gear Unit::hear_refusing(&mut self, &Frame) -> Option<u8>
dali_gear Unit::power_up(&mut self)
dali_gear Unit::address(&self) -> u8
dali_gear Unit::bank1(&self) -> &[u8]
dali_gear Unit::bank2(&self) -> &[u8]
dali_gear Unit::dtrs(&self) -> (u8, u8, u8)
dali_gear Unit::is_enabled(&self) -> bool
dali_bus Bus::carry(&mut self, &Frame) -> Option<u8>
dali_bus Bus::power(&mut self, u8)
dali_gear struct Fate { lost: u64, answer_lost: bool, refuse: bool }
dali_gear SimBus::new(Vec<Unit>, Vec<Fate>) -> Result<SimBus, GearFault>
dali_gear SimBus::units(&self) -> &[Unit]
dali_gear SimBus::fates_left(&self) -> usize
dali_write Session::fresh(Order) -> Session
dali_write Session::opened(Order) -> Session
dali_write Session::closing(u8) -> Session
dali_write Session::reading(u8) -> Session
dali_write enum Ask { Send(Frame), Ended(Verdict) }
dali_write enum Verdict { MayOpen, Done, Short, Format, Silent, Doubt, DoubtOpen, Closed, NotClosed, Read }
dali_write Session::want(&self) -> Ask
dali_write Session::heard(&mut self, Option<u8>)
dali_write Session::order(&self) -> Option<&Order>
dali_write Session::bytes(&self) -> &[u8]
dali_journal enum Code { Done = 0, Short = 1, Format = 2, Silent = 3, Doubt = 4, DoubtOpen = 5 }
dali_journal enum Record { Began(Order, u64), Opened(u8), Ended(Code), Closed(u8) }
dali_journal Record::bytes(&self) -> ArrayVec<u8, 249>
dali_journal Record::read(&[u8]) -> Piece
dali_journal Record::read_old(&[u8]) -> Piece
dali_journal enum Piece { Whole(Record, usize), Cut, Bad }
dali_journal Journal::new(Global, u32) -> Result<Journal, JournalFault>
dali_journal Journal::load(Global, u32, &[u8]) -> Result<(Journal, usize, Version), JournalFault>
dali_journal enum Version { One, Two }
dali_journal enum JournalFault { Limit, NoMemory, Record(usize), Sequence(usize), Repeated(usize), Full(usize), Header
    }
dali_journal Journal::reserve(&mut self, &Order) -> Result<(), NoMemory>
dali_journal Journal::has_room(&self, &Order) -> bool
dali_journal Journal::append(&mut self, Record)
dali_journal Journal::kept(&self, u64) -> Kept
dali_journal enum Kept { Absent, Unfinished(Order), Ended(Order, Code) }
dali_journal Journal::moment(&self, u64) -> Option<u64>
dali_journal Journal::standing(&self) -> Standing
dali_journal enum Standing { Idle, Began(Order), Opened(Order), Left(u8) }
dali_journal Journal::orders(&self) -> u32
dali_journal Journal::limit(&self) -> u32
dali_journal Journal::is_full(&self) -> bool
dali_journal Journal::to_bytes(&self, Global) -> Result<Vec<u8>, NoMemory>
dali_engine Writer::new(Journal) -> Writer
dali_engine Writer::journal(&self) -> &Journal
dali_engine Writer::submit(&mut self, Order, u64) -> Result<Reply, NoMemory>
dali_trace enum Reply { Taken, Kept(Code), IdReused, Busy, Full, Blocked(u8) }
dali_engine Writer::want(&self) -> Want
dali_trace enum Want { Idle, Keep(Record), Send(Frame), Say(u64, Reply) }
dali_engine Writer::kept(&mut self)
dali_engine Writer::heard(&mut self, Option<u8>)
dali_engine Writer::said(&mut self)
dali_trace enum Event { Submit(Order, u64), Step, Stop(u16), Power(u8) }
dali_trace enum Happening { Asked(Order, u64), Answered(u64, Reply), Sent(Frame, Option<u8>), Kept(Record), Stopped,
    Powered(u8) }
dali_engine struct Outcome { journal: Vec<u8>, trace: Vec<Happening> }
dali_engine run(Global, &mut B, u32, &[Event]) -> Result<Outcome, RunFault>
dali_engine run_sim(Global, &mut SimBus, u32, &[Event]) -> Result<Outcome, RunFault>
dali_trace enum RunFault { Limit = 1, NoMemory = 2 }
dali_drive drive(Writer, &[Order], u64, &mut I, &mut L, &mut J, &mut O) -> Result<Writer, DriveFault>
dali_drive Source::take_byte(&mut self) -> Got
dali_drive enum Got { Byte(u8), End, Failed }
dali_drive Sink::put(&mut self, &[u8]) -> Option<usize>
dali_drive Sink::flush(&mut self) -> bool
dali_drive Source::has_failed(&self) -> bool
dali_drive Sink::has_failed(&self) -> bool
dali_trace enum DriveFault { Journal, Link, Line(LineFault), End, NoMemory, TooLong, Out }
dali_job job_of(Global, &[&str]) -> Result<Job, Error>
dali_file_commands check(Global, &mut R, &mut W) -> Status
dali_file_commands run_scenario(Global, &mut R, &mut W, bool) -> Status
dali_file_commands show(Global, &mut R, &mut W) -> Status
dali_file_commands journal(Global, &mut R, &mut W) -> Status
dali_file_commands frame(Global, &str, &mut W) -> Status
dali_link_commands drive_files(&R, &str, &str, u64, &mut I, &mut L, &mut O) -> Status
"""
FORM = re.compile(r"(?P<crate>\w+) (?P<form>(?:(?:enum|struct) )?(?P<name>[\w:]+).*)")
# Parts that are left out of a form: lifetimes, and how many bytes a record may have, as a name.
LEFT_OUT = [(r"'\w+ ?", ""), (r"<_?>", ""), (r"\bMOST_BYTES\b", "249"), (r"\s+", " ")]


def parts_of(text):
    """Give the parts of a text that commas set apart outside of brackets."""
    found, depth = [""], 0
    for letter in text:
        depth += (letter in "([{<") - (letter in ")]}>")
        if letter == "," and depth == 0:
            found.append("")
        else:
            found[-1] += letter
    return [it.strip() for it in found if it.strip()]


def plain(text):
    """Give a form without what is left out."""
    for old, new in LEFT_OUT:
        text = re.sub(old, new, text)
    return text.strip()


def call_form(part):
    """Give the form of a call."""
    code = part.file.code
    at = parameters_at(code, part.after)
    end = end_of_bracket(code, at)
    given = re.match(r"\s*->\s*(.*?)\s*(?:\b(?:requires|ensures)\b|\{|;\s*\n)", code[end:], re.DOTALL)
    taken = [re.sub(r"^(?:mut )?\w+: ", "", plain(it)) for it in parts_of(code[at + 1 : end - 1])]
    return f"{part.full_name()}({', '.join(taken)})" + (f" -> {plain(given[1])}" if given else "")


def type_form(part):
    """Give the form of a type: its variants or its public fields."""
    code = part.file.code
    at = code.index("{", part.after)
    inner = re.sub(r"#\[[^\]]*\]|\bghost [^,]*(?:,|$)", "", code[at + 1 : part.end - 1])
    held = [plain(it).removeprefix("pub ") for it in parts_of(inner)]
    return f"{part.kind} {part.name} {{ {', '.join(held)} }}"


def forms_in(crate):
    """Give the forms of a crate's items, by their names."""
    found = {}
    for file in files_of(CRATES, crate):
        for part in file.parts:
            if part.kind == "fn" and not (part.owner and part.owner.trait):
                found[part.full_name()] = call_form(part)
            elif part.kind in ("enum", "struct") and part.file.code[part.after :].lstrip()[:1] in ("{", "<"):
                found[part.name] = type_form(part)
    return found


def differing():
    """Give the names of the forms that the document says differ."""
    _, _, behind = text_of(ROOT / "docs" / "DECISIONS.md").partition(f"\n{HEADING}\n")
    rows = [line for line in behind.partition("\n## ")[0].split("\n") if line.startswith("- **")]
    return [name for row in rows for name in re.findall(r"`([\w:]+)`", row.split("**")[1])]


def main():
    """Compare all forms, and tell how many are as they have to be."""
    passed, failed, held = 0, 0, {}
    listed = differing()
    for row in FORMS.replace("\n    ", " ").strip().split("\n"):
        wanted = FORM.fullmatch(row)
        crate, name = wanted["crate"], wanted["name"]
        have = held.setdefault(crate, forms_in(crate)).get(name, "nothing")
        is_listed = name in listed
        if (have == wanted["form"]) != is_listed:
            passed += 1
        else:
            failed += 1
            print(f"FAILED: {crate}: {have}\n  in place of {wanted['form']}" if not is_listed else
                  f"FAILED: {name} doesn't differ, and DECISIONS says so")
        listed = [it for it in listed if it != name]
    for name in listed:
        failed += 1
        print(f"FAILED: DECISIONS names {name}, which is no form of these")
    print(f"{passed} passed, {failed} failed")
    return failed > 0


if __name__ == "__main__":
    sys.exit(main())
