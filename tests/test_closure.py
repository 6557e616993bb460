#!/usr/bin/env python3
"""Test which edits are tried again after a change: those whose refusal depends on it, and no others. And the record of
refusals: one that lies, one with an edit that is no more, one of another kit.

The last line is `N passed, M failed`, and the status is 0 only where none failed.
"""

import contextlib
import importlib.machinery
import importlib.util
import io
import pathlib
import shutil
import subprocess
import sys
import tempfile

sys.dont_write_bytecode = True
ROOT = pathlib.Path(__file__).resolve().parent.parent
SIZES = """use Rattle.std.specs.Prelude.{◌≡◌, ℕ}

abbrev pub small : ℕ
small = 3

abbrev pub ◌∸◌ : ℕ → ℕ → ℕ
x ∸ y = x

-- what is reached by a contract alone
abbrev pub IsSmall : ℕ → Type 0
IsSmall size = size ≡ small

abbrev pub IsOther : ℕ → Type 0
IsOther size = size ≡ 4

pub small_is : IsSmall 3
small_is = refl
"""
LOW = """ghost use Rattle.low.specs.Sizes.{IsSmall, IsOther};

/// A size.
pub fn size() -> usize
    ensures { IsSmall result }
{
    let more = 1;
    2 + more
}

pub fn other() -> usize
    ensures { IsOther result }
{
    4
}

pub fn bare() -> usize {
    5
}

pub struct Held {
    pub held: usize,
}

impl Held {
    pub fn seen(&self) -> usize
        ensures { IsOther result }
    {
        self.held
    }

    pub fn made() -> usize
        ensures { 4 ≡ result }
    {
        4
    }

    pub fn write_fmt(&mut self, text: usize) -> usize
        ensures { result ≡ text }
    {
        text
    }
}

pub type Alias = Held;

pub trait Weighs {
    fn weight(&self) -> usize
        ensures { IsOther result };
}

impl Weighs for Held {
    fn weight(&self) -> usize {
        4
    }
}

pub const MOST: usize = 9;
"""
TWICE = """use Rattle.std.specs.Prelude.{◌≡◌, ℕ}
use Rattle.low.specs.Sizes.{small as little, ◌∸◌}

abbrev pub IsTwice : ℕ → Type 0
IsTwice size = size ≡ little * 2 ∸ 0

abbrev pub IsFour : ℕ → Type 0
IsFour size = size ≡ 4

pub data Mode : Type 0 where
  Once : Mode
  Often : ℕ → Mode
"""
LEMMAS = """use Rattle.mid.specs.Twice.{IsTwice}
use Rattle.low.specs.Sizes.{IsOther}

pub twice_is : IsTwice 6
twice_is = refl

pub unnamed : IsOther 4
unnamed = refl

pub named_by_attribute : IsOther 4
named_by_attribute = refl
"""
WORKED = """use Rattle.mid.specs.Twice.{IsFour}
use Rattle.mid.specs.Twice.Mode.{Once}
use Rattle.mid.proofs.Steps.{step}

hidden : ℕ
hidden = 4

pub four : IsFour hidden
unfolding hidden
four = step Once

pub five : IsFour 5 → 4 ≡ 5
five = other
"""
STEPS = """use Rattle.mid.specs.Twice.{IsFour}

pub step : IsFour 4
step = refl
"""
ANSWERS = """use Rattle.mid.proofs.Lemmas.{twice_is}
use Rattle.mid.proofs.code.twice.Goals as goal

pub returns : goal.returns
returns c = twice_is
"""
MID = """ghost use Rattle.mid.specs.Twice.{IsTwice, IsFour};

use low::{Alias, Held, Weighs, bare, size as a_size};
use std::cmp::max;
use std::mem::take as made;

pub fn twice() -> usize
    ensures { IsTwice result }
{
    a_size() + a_size()
}

#[tactic(auto, using(crate::proofs::Lemmas::named_by_attribute))]
pub fn attributed() -> usize
    ensures { IsFour result }
{
    4
}

pub fn of_held(held: &Held) -> usize
    ensures { IsFour result }
{
    held.seen()
}

pub fn weighed<W: Weighs>(it: &W) -> usize
    ensures { IsFour result }
{
    it.weight()
}

pub fn uncalled() -> usize
    ensures { IsFour result }
{
    low::MOST - bare()
}

pub fn written(held: &mut Held) -> usize
    ensures { IsFour result }
{
    write!(held, "four") + Alias::made()
}

#[cycle(round)]
pub fn even(left: usize) -> usize
    ensures { IsFour result }
{
    odd(left - 1)
}

#[cycle(round)]
pub fn odd(left: usize) -> usize
    ensures { IsFour result }
{
    even(left - 1)
}
"""
TOP = """ghost use Rattle.mid.specs.Twice.{IsTwice};

use mid::code::twice;

pub fn again() -> usize
    ensures { IsTwice result }
{
    twice()
}
"""
FILES = {
    "crates.txt": "low:\nmid: low\ntop: mid low\n",
    "crates/low/specs/Sizes.antt": SIZES,
    "crates/low/src/code.rt": LOW,
    "crates/mid/specs/Twice.antt": TWICE,
    "crates/mid/proofs/Lemmas.antt": LEMMAS,
    "crates/mid/proofs/Steps.antt": STEPS,
    "crates/mid/proofs/WorkedLemmas.antt": WORKED,
    "crates/mid/proofs/code/twice/Answers.antt": ANSWERS,
    "crates/mid/src/lib.rt": "#![tactic(auto)]\n\npub mod code;\n",
    "crates/mid/src/code.rt": MID,
    "crates/top/src/code.rt": TOP,
    "crates/low/wrong-bodies/code.edits": """file: src/code.rt

rule: sizes

edit: size
old:     let more = 1;
new:     let more = 2;
""",
    "crates/mid/wrong-bodies/code.edits": """file: src/code.rt

rule: sizes

edit: twice
old:     a_size() + a_size()
new:     a_size() + 4

edit: attributed
old:     4
new:     5

edit: of_held
old:     held.seen()
new:     held.seen() + 1

edit: weighed
old:     it.weight()
new:     it.weight() + 1

edit: uncalled
old:     low::MOST - bare()
new:     low::MOST

edit: written
old: write!(held, "four")
new: max(write!(held, "four"), 5)
""",
    "crates/mid/wrong-bodies/Twice.edits": """file: specs/Twice.antt

rule: four is four

edit: fact
by: WorkedLemmas.four
old: IsFour size = size ≡ 4
new: IsFour size = size ≡ 5

edit: by_function
by: code::attributed
old: IsFour size = size ≡ 4
new: IsFour size = size ≡ 6

edit: by_one_of_a_cycle
by: code::even
old: IsFour size = size ≡ 4
new: IsFour size = size ≡ 8

edit: by_nothing
old: IsFour size = size ≡ 4
new: IsFour size = size ≡ 7
""",
    "crates/top/wrong-bodies/code.edits": """file: src/code.rt

rule: sizes

edit: again
old:     twice()
new:     twice() + 1
""",
}
# Tells of the edits whose functions and facts aren't found.
NAMED_BY = """
from closure import Closures
from edits import all_edits

closures = Closures()
named = [it for it in all_edits() if it.functions or it.by]
print([it.name for it in named if closures.of_edit(it, "") is None])
"""
CHANGED = "refused.txt has changed: commit it with what it is of"
MIDS = ("twice", "attributed", "of_held", "weighed", "uncalled", "written")
BY_FUNCTIONS = {"mid/by_function", "mid/by_one_of_a_cycle"}
ALL = {"low/size", *(f"mid/{it}" for it in (*MIDS, "fact", "by_nothing")), *BY_FUNCTIONS, "top/again"}
# Of what nothing names, all that is known is the crate and those below.
WIDE = {"mid/by_nothing"}
OF_HELD = {"mid/of_held"}
WRITTEN = {"mid/written"}
# Changes: a name, the file, the text and the one in its place, and which edits are tried again.
CHANGES = (
    ("a body below", "low/src/code.rt", "2 + more", "more + 2", {"low/size"} | WIDE),
    ("a body in the middle", "mid/src/code.rt", "a_size() + a_size()\n}", "2 * a_size()\n}", {"mid/twice"} | WIDE),
    ("a body without a contract", "low/src/code.rt", "    5\n", "    4\n", {"mid/uncalled"} | WIDE),
    ("a constant", "low/src/code.rt", "usize = 9", "usize = 8", {"mid/uncalled"} | WIDE),
    ("a contract of a callee", "low/src/code.rt", "ensures { IsSmall result }", "ensures small { IsSmall result }",
     {"low/size", "mid/twice"} | WIDE),
    ("a contract of a method", "low/src/code.rt", "{ IsOther result }\n    {\n        self", "{ IsSmall result }\n    {\n        self",
     OF_HELD | WIDE),
    ("a contract of a trait", "low/src/code.rt", "{ IsOther result };", "{ IsSmall result };", {"mid/weighed", "mid/of_held", "mid/written"} | WIDE),
    ("a contract of what a macro calls", "low/src/code.rt", "{ result ≡ text }", "{ text ≡ result }", WRITTEN | WIDE),
    ("a contract by another name of its type", "low/src/code.rt", "{ 4 ≡ result }", "{ result ≡ 4 }", WRITTEN | WIDE),
    ("what brings in a name that only an edit has", "mid/src/code.rt", "cmp::max", "cmp::min as max", WRITTEN | WIDE),
    ("a body of another in a cycle", "mid/src/code.rt", "even(left - 1)", "even(0 + left - 1)",
     {"mid/by_one_of_a_cycle"} | WIDE),
    ("an attribute atop a crate", "mid/src/lib.rt", "auto", "auto, using(crate::proofs::Lemmas::unnamed)",
     {f"mid/{it}" for it in MIDS} | BY_FUNCTIONS | WIDE),
    ("an attribute of a module", "mid/src/lib.rt", "pub mod", "#[tactic(none)]\npub mod",
     {f"mid/{it}" for it in MIDS} | BY_FUNCTIONS | WIDE),
    ("a field of a type", "low/src/code.rt", "pub held: usize,", "pub held: usize,\n    pub more: usize,",
     {"mid/of_held", "mid/weighed", "mid/written"} | WIDE),
    ("a body of a trait's method", "low/src/code.rt", "        4\n    }", "        2 + 2\n    }", WIDE),
    ("a definition two crates below", "low/specs/Sizes.antt", "small = 3", "small = 4",
     {"low/size", "mid/twice", "top/again"} | WIDE),
    ("a definition that a lemma states", "low/specs/Sizes.antt", "size ≡ 4", "4 ≡ size",
     {"mid/attributed", "mid/of_held", "mid/weighed", "mid/written", "mid/by_function"} | WIDE),
    ("a definition in the crate", "mid/specs/Twice.antt", "size ≡ little * 2", "little * 2 ≡ size", {"mid/twice", "top/again"} | WIDE),
    ("a lemma's statement", "mid/proofs/Lemmas.antt", "twice_is : IsTwice 6", "twice_is : IsTwice (3 * 2)", {"mid/twice"} | WIDE),
    ("a lemma's proof", "mid/proofs/Lemmas.antt", "twice_is = refl", "twice_is = by refl", WIDE),
    ("a lemma that nothing names", "mid/proofs/Lemmas.antt", "unnamed : IsOther 4", "unnamed : IsOther (2 + 2)", WIDE),
    ("a lemma of an attribute", "mid/proofs/Lemmas.antt", "named_by_attribute : IsOther 4", "named_by_attribute : IsOther (2 + 2)",
     {"mid/attributed", "mid/by_function"} | WIDE),
    ("an answer", "mid/proofs/code/twice/Answers.antt", "returns c = twice_is", "returns _ = twice_is", {"mid/twice"} | WIDE),
    ("what a fact unfolds", "mid/proofs/WorkedLemmas.antt", "hidden = 4", "hidden = 2 + 2", {"mid/fact"} | WIDE),
    ("a type of a constructor", "mid/specs/Twice.antt", "Often : ℕ", "Often : ℕ → ℕ", {"mid/fact"} | WIDE),
    ("what an edit changes stands twice", "mid/specs/Twice.antt", "IsFour size = size ≡ 4",
     "IsFour size = size ≡ 4\n-- IsFour size = size ≡ 4", {"mid/fact"} | BY_FUNCTIONS | WIDE),
    ("a fact's proof", "mid/proofs/WorkedLemmas.antt", "four = step", "four = by step", {"mid/fact"} | WIDE),
    ("another fact", "mid/proofs/WorkedLemmas.antt", "five = other", "five = another", WIDE),
    ("what a fact rests on", "mid/proofs/Steps.antt", "step : IsFour 4", "step : IsFour (2 + 2)", {"mid/fact"} | WIDE),
    ("how that is proved", "mid/proofs/Steps.antt", "step = refl", "step = by refl", WIDE),
    ("a comment", "low/src/code.rt", "/// A size.", "/// Some size.", WIDE),
    ("a line of comment in a body", "low/src/code.rt", "    let more = 1;\n", "    // One more.\n    let more = 1;\n", WIDE),
    ("a comment after code", "low/src/code.rt", "    let more = 1;\n", "    let more = 1; // one more\n", WIDE),
    ("a text that looks as a comment", "low/src/code.rt", "    let more = 1;\n", "    let more = 1; \"// one\";\n",
     {"low/size"} | WIDE),
    ("a blank line, as in a text", "low/src/code.rt", "    let more = 1;\n", "\n    let more = 1;\n", {"low/size"} | WIDE),
    ("what brings a name in", "mid/src/code.rt", "size as a_size", "other as a_size", {"mid/twice"} | WIDE),
    ("a name of the kit", "mid/specs/Twice.antt", "Prelude.{◌≡◌, ℕ}", "Other.{◌≡◌}\nuse Rattle.std.specs.Prelude.{ℕ}",
     {f"mid/{it}" for it in MIDS} | BY_FUNCTIONS | {"mid/fact", "top/again"} | WIDE),
    ("an operator of a crate", "low/specs/Sizes.antt", "x ∸ y = x", "x ∸ y = y", {"mid/twice", "top/again"} | WIDE),
    ("the crate on top", "top/src/code.rt", "    twice()\n", "    2 - 2 + twice()\n", {"top/again"}),
    ("an edit", "mid/wrong-bodies/code.edits", "a_size() + 4", "a_size() + 5", {"mid/twice"}),
)


def repository(root):
    """Make the repository, with the scripts of this one."""
    shutil.copytree(ROOT / "scripts", root / "scripts", ignore=shutil.ignore_patterns("__pycache__"))
    for name, text in FILES.items():
        (root / name).parent.mkdir(parents=True, exist_ok=True)
        (root / name).write_text(text, encoding="utf-8")


class Scripts:
    """The scripts of a repository, over a prover that refuses all edits but some."""

    def __init__(self, root):
        sys.path.insert(0, str(root / "scripts"))
        import edits
        import refused

        self.edits, self.refused, self.let_through, self.tried = edits, refused, set(), set()
        loader = importlib.machinery.SourceFileLoader("wrong_bodies", str(root / "scripts" / "wrong_bodies"))
        self.wrong_bodies = importlib.util.module_from_spec(importlib.util.spec_from_loader("wrong_bodies", loader))
        loader.exec_module(self.wrong_bodies)
        self.wrong_bodies.Built.has_built = lambda _, name: True
        self.wrong_bodies.Checks.take = lambda *_: None
        self.wrong_bodies.Checks.checked = lambda _, *words, keeps: self.checked(*words, keeps)

    def checked(self, crate, _room, edits, _asked, keeps):
        """Give what a check of a crate with some edits says."""
        self.tried |= {it.name for it in edits}
        rows = [f"./{file}:{line}:1: it is not proved that it holds" for it in edits if it.name not in self.let_through
                for file, line in it.lines]
        return self.wrong_bodies.Verdict(crate, "\n".join([*rows, f"only=1 proved={int(not rows)}"]))

    def run(self, *words):
        """Run `wrong_bodies`, and give its status, the lines that it printed and the edits that it tried."""
        self.tried, printed = set(), io.StringIO()
        with contextlib.redirect_stdout(printed):
            status = self.wrong_bodies.main(list(words))
        return status, printed.getvalue().split("\n")[:-1], self.tried

    def keep_all(self):
        """Write a record of all edits: each was refused by what it names, where it names anything."""
        edits = list(self.edits.all_edits())
        for name in {it.crate.name for it in edits}:
            outcomes = [self.wrong_bodies.Outcome(it, True, bool(it.refusers()), "a goal", 1) for it in edits]
            self.refused.Refused(edits).keep(name, [it for it in outcomes if it.edit.crate.name == name])

    def unknown(self):
        """Give the edits that the record doesn't have with their sums."""
        edits = list(self.edits.all_edits())
        return {it.name for it in edits} - {it.name for it in self.refused.Refused(edits).of(edits)}


def after_changes(root, scripts):
    """Give what is tested of changes, and whether it is so."""
    yield "nothing is known at first", scripts.unknown() == ALL
    scripts.keep_all()
    yield "then all is", not scripts.unknown()
    for name, file, was, now, again in CHANGES:
        path = root / "crates" / file
        text = path.read_text(encoding="utf-8")
        path.write_text(text.replace(was, now, 1), encoding="utf-8")
        yield f"{name}: {scripts.unknown() ^ again}", text.count(was) > 0 and scripts.unknown() == again
        path.write_text(text, encoding="utf-8")
    yield "all is as it was", not scripts.unknown()
    sums = sys.modules["sums"]
    version, logic = sums.kit_version, sums.kit_logic()
    sums.kit_version = lambda: f"another logic {logic}\n".encode()
    yield "another kit of the same logic", not scripts.unknown()
    sums.kit_version = lambda: b"another logic of another sum\n"
    yield "another logic", scripts.unknown() == ALL
    sums.kit_version = version


def after_runs(root, scripts):
    """Give what is tested of runs and of their record, and whether it is so."""
    record = root / "refused.txt"
    record.unlink()
    status, told, tried = scripts.run()
    yield "what isn't in the record is tried", (status, told[-1], tried) == (0, f"{len(ALL)} passed, 0 failed", ALL)
    yield "and known from then on", not scripts.unknown()
    yield "which is told", CHANGED in told
    lines = record.read_text(encoding="utf-8").split("\n")
    yield "the record is sorted, a line an edit", lines == sorted(lines[:-1]) + [""] and len(lines) == len(ALL) + 1
    yield "crate, name and sum", [it.split(" ")[:2] for it in lines[:2]] == [["low", "size"], ["mid", "attributed"]]
    status, told, tried = scripts.run("low", "mid")
    yield "a crate that is named has no sample", tried == set()
    yield "and the record is as it was", CHANGED not in told
    yield "all are tried where that is asked", scripts.run("--all", "low")[2] == {"low/size"}
    scripts.wrong_bodies.SAMPLE = 2
    first, again = scripts.run("--seed", "a"), scripts.run("--seed", "a")
    yield "two of those that are known", len(first[2]) == 2 and first[1][-1] == "2 passed, 0 failed"
    yield "the same by the same seed", first[2] == again[2] and any("--seed a" in it for it in first[1])
    yield "others by others", len({frozenset(scripts.run("--seed", str(it))[2]) for it in range(9)}) > 3
    scripts.wrong_bodies.SAMPLE = 40
    record.write_text("\n".join([*lines[:-1], "mid gone 0123", ""]), encoding="utf-8")
    scripts.let_through = {"mid/twice"}
    status, told, tried = scripts.run()
    yield "a record that lies is found", status == 1 and tried == ALL and told[-1] == f"{len(ALL) - 1} passed, 1 failed"
    yield "by its name", any(it.startswith("FAILED: mid/twice: ") for it in told)
    yield "and its line goes, with that of no edit", scripts.unknown() == {"mid/twice"} and "gone" not in record.read_text()
    record.write_text(record.read_text() + "mid gone 0123\n", encoding="utf-8")
    scripts.run("low")
    yield "also where nothing is tried", "gone" not in record.read_text()
    scripts.let_through = set()
    yield from unwritten(root, scripts)
    yield from changed_meanwhile(root, scripts)


def unwritten(root, scripts):
    """Give what is tested of a record that can't be written, and whether it is so."""
    record, replace = root / "refused.txt", scripts.refused.os.replace
    was = record.read_text(encoding="utf-8")
    record.unlink()

    def is_full(*_):
        raise OSError(28, "No space left on device")

    scripts.refused.os.replace = is_full
    status, told, tried = scripts.run()
    scripts.refused.os.replace = replace
    yield "a record that can't be written", (status, tried) == (0, ALL)
    yield "is told of, and there is none", "refused.txt can't be written: No space left on device" in told and not record.exists()
    yield "nor anything else", not list(root.glob(".refused*"))
    record.write_text(was, encoding="utf-8")


def changed_meanwhile(root, scripts):
    """Give what is tested of files that change while edits are tried, and whether it is so."""
    path = root / "crates" / "low" / "src" / "code.rt"
    text = path.read_text(encoding="utf-8")

    def checked_and_changed(_, *words, keeps):
        path.write_text(text + "// another\n", encoding="utf-8")
        return scripts.checked(*words, keeps)

    scripts.wrong_bodies.Checks.checked = checked_and_changed
    status, _, tried = scripts.run()
    yield "what was refused over files that changed meanwhile", (status, tried) == (0, ALL)
    yield "is known no more", scripts.unknown() == ALL
    path.write_text(text, encoding="utf-8")
    scripts.wrong_bodies.Checks.checked = lambda _, *words, keeps: scripts.checked(*words, keeps)
    closures = scripts.refused.Closures

    def closures_and_changed():
        path.write_text(text.replace("2 + more", "more + 2"), encoding="utf-8")
        return made

    made = closures()
    scripts.refused.Closures = closures_and_changed
    yield "also while the closures were read", scripts.run("low")[2] == {"low/size"}
    scripts.refused.Closures = closures
    path.write_text(text, encoding="utf-8")
    yield "nothing is known of it", "low/size" in scripts.unknown()


def of_this_repository():
    """Give what is tested of the edits of this repository, and whether it is so."""
    ended = subprocess.run([sys.executable, "-B", "-c", NAMED_BY], cwd=ROOT / "scripts", capture_output=True, text=True)
    yield f"what an edit names is there: {ended.stdout}{ended.stderr}", (ended.returncode, ended.stdout) == (0, "[]\n")


def main():
    """Test, tell what failed, and return the status."""
    passed = failed = 0
    for name, is_so in of_this_repository():
        passed, failed = passed + bool(is_so), failed + (not is_so)
        if not is_so:
            print(f"FAILED: what an edit hangs on: {name}")
    with tempfile.TemporaryDirectory() as folder:
        root = pathlib.Path(folder) / "root"
        repository(root)
        scripts = Scripts(root)
        for outcomes in (after_changes, after_runs):
            for name, is_so in outcomes(root, scripts):
                passed, failed = passed + bool(is_so), failed + (not is_so)
                if not is_so:
                    print(f"FAILED: what an edit hangs on: {name}")
    print(f"{passed} passed, {failed} failed")
    return failed > 0


if __name__ == "__main__":
    sys.exit(main())
