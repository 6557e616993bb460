#!/usr/bin/env python3
"""Test `believe` (what contracts reach), `unused` (what nothing uses) and `where` (where a rule is), in a repository
made for it.
"""

import pathlib
import shutil
import subprocess
import sys
import tempfile

SCRIPTS = pathlib.Path(__file__).resolve().parent.parent / "scripts"
BASE = """-- What is counted.
use Rattle.std.specs.Prelude.{◌≡◌, ℕ, List, [], ◌∷◌}

-- a comment
pub data Kind : Type 0 where
  -- the first
  Plain : Kind
  Odd : (size : ℕ) → Kind

abbrev pub depth : ℕ
depth = 3

-- reached by its alias
pub record Deep (size : ℕ) : Type 0 where
  pub depth : ℕ

  pub equal : depth ≡ size

abbrev pub Aside : ℕ → Type 0
Aside size = size ≡ depth

abbrev pub hidden : ℕ → ℕ
hidden size = size

-- a lemma, which isn't counted, nor what it names alone
pub is_aside : Aside 3
is_aside = refl

abbrev pub Edited : ℕ → Type 0
Edited size = size ≡ 4
"""
TOP = """use Rattle.std.specs.Prelude.{◌≡◌, ℕ, List, [], ◌∷◌}
use Rattle.low.specs.Base as base
use Rattle.low.specs.Base.{Plain as plain_kind, Kind, hidden as shown, is_aside}

abbrev pub Weighed : Kind → Type 0
Weighed plain_kind = (shown : ℕ) × base.Deep shown
Weighed other = 3 ≡ 3

abbrev pub Bare : List ℕ → Type 0
Bare [] = Unit {0}
Bare (size ∷ sizes) = Bare sizes

-- names a lemma
abbrev pub Proved : Type 0
Proved = let told = is_aside in 3 ≡ 3
"""
LEMMAS = """use Rattle.low.specs.Base.{Aside, hidden}
use Rattle.top.specs.Top.{Bare}

pub used_by_answer : Bare []
used_by_answer = tt

-- says nothing of used_by_unused
pub unused_one : Bare []
unused_one = used_by_unused

used_by_unused : Bare []
used_by_unused = tt

pub only_brought_in : Bare []
only_brought_in = tt

pub named_by_attribute : Bare []
named_by_attribute = tt

pub shadowed : Bare []
shadowed = tt

pub kept : Bare []
kept = only_kept

only_kept : Bare []
only_kept = tt
"""
WORKED = """use Rattle.top.specs.Top.{Bare}
use Rattle.top.proofs.TopLemmas.{only_brought_in, shadowed}

pub is_bare : Bare []
is_bare = by tt where
  by : (shadowed : Bare []) → Bare []
  by shadowed = shadowed

is_bare_too : Bare []
is_bare_too = tt
"""
ANSWERS = """use Rattle.top.proofs.TopLemmas.{used_by_answer}
use Rattle.top.proofs.code.length.Goals as goal

pub returns : goal.returns
returns c = used_by_answer
"""
CODE = """ghost use Rattle.std.specs.Prelude.{◌≡◌, ℕ, List};
ghost use Rattle.low.specs.Base.{Aside, Kind};
ghost use Rattle.top.specs.Top as top;

use crate::parts::{Held, apart, unneeded};

/// A law, with no body.
pub fn law()
    ensures { (kind : Kind) → top.Weighed kind }
{}

// It has '{' and "}" in it, and a parameter named as a definition.
#[tactic(auto, using(crate::proofs::TopLemmas::named_by_attribute))]
fn length(Aside: &[u8]) -> usize
    requires { top.Bare Aside.now }
{
    let text = "} {MOST}";
    apart(text, '{')
}

const MOST: u8 = 3;

// Says unused_function and only_tested.
fn unused_function() {
    only_unused_calls();
}

fn only_unused_calls() {}

pub fn only_tested() -> Held {
    Held { size: 1 }
}

fn main() {
    let held = Held { size: length(&[]) };
    held.next();
}
"""
PARTS = """pub struct Held {
    pub size: usize,
}

impl Held {
    ghost use Rattle.top.specs.Top.{Proved};

    /// The next one.
    pub fn next(&self) -> usize
        ensures { Proved }
    {
        0..Held::most();
    }

    fn most() -> usize {
        3
    }

    pub fn seldom(&self) {}
}

impl Drop for Held {
    fn drop(&mut self) {}
}

pub fn apart(text: &str, mark: char) -> usize {
    1
}

pub fn unneeded() {}

pub fn in_an_edit() {}

pub fn kept_too() {}
"""
TESTS = """use top::main::only_tested;

#[test]
fn a_test() {
    only_tested();
}

fn helper() {}
"""
EDITS = """file: src/parts.rt

rule: the next one is proved

edit: most_in_an_edit
old:         0..Held::most();
new:         0..crate::parts::in_an_edit();

edit: one_more
old:         3
new:         4

rule: kinds are weighed

edit: weighed_beside_the_code
by: main::law
file: specs/Top.antt
old: Bare (size ∷ sizes) = Bare sizes
new: Bare (size ∷ sizes) = Bare []
"""
LINE_EDIT = """file: specs/Top.antt

rule: kinds are weighed

edit: another
old: Weighed other = 3 ≡ 3
new: Weighed other = base.Edited 3
"""
PROMISES = """# Promises

## What has to be believed

At most as many lines as `believed.txt` has.
"""
BELIEVED = """# sets

11 the law
    top::main::law

13 all
    : the law
    top::parts
"""
TRIED = """// How often a thing
// is tried.
const MOST_TRIES: u32 = 20_000;
"""
TOOL = """#!/usr/bin/env python3
# Tries before it gives up.
PATIENCE = 3


def gives_up(tries):
    \"\"\"Tell whether it gives up.

    That is so after the last try.
    \"\"\"
    return tries > PATIENCE
"""
EXCEPTIONS = {
    ("top/proofs/TopLemmas.antt", "kept"): "it calls what only it calls",
    ("top/src/parts.rt", "kept_too"): "a bench calls it",
    ("top/src/tried.rt", "MOST_TRIES"): "a bench tries",
}
UNUSED = [
    "low/specs/Base.antt:22 hidden",
    "top/proofs/TopLemmas.antt:8 unused_one",
    "top/proofs/TopLemmas.antt:11 used_by_unused",
    "top/proofs/TopLemmas.antt:14 only_brought_in",
    "top/proofs/TopLemmas.antt:20 shadowed",
    "top/proofs/WorkedLemmas.antt:9 is_bare_too",
    "top/src/main.rt:24 unused_function",
    "top/src/main.rt:28 only_unused_calls",
    "top/src/parts.rt:19 Held::seldom",
    "top/src/parts.rt:30 unneeded",
    "top_tests/src/lib.rt:8 helper",
    "top/src/main.rt:30 only_tested, which only tests use",
]
FILES = {
    "crates.txt": "low:\ntop: low\ntop_tests: top low\n",
    "crates/low/specs/Base.antt": BASE,
    "crates/top/specs/Top.antt": TOP,
    "crates/top/proofs/TopLemmas.antt": LEMMAS,
    "crates/top/proofs/WorkedLemmas.antt": WORKED,
    "crates/top/proofs/code/length/Answers.antt": ANSWERS,
    "crates/top/src/main.rt": CODE,
    "crates/top/src/parts.rt": PARTS,
    "crates/top_tests/src/lib.rt": TESTS,
    "crates/top/wrong-bodies/parts.edits": EDITS,
    "crates/top/wrong-bodies/Top.edits": LINE_EDIT,
    "docs/PROMISES.md": PROMISES,
    "crates/top/src/tried.rt": TRIED,
    "tools/tried": TOOL,
    "believed.txt": BELIEVED,
}


def repository(root):
    """Make the repository, in which `unused` has an exception of its own."""
    shutil.copytree(SCRIPTS, root / "scripts", ignore=shutil.ignore_patterns("__pycache__"))
    text = (SCRIPTS / "unused").read_text(encoding="utf-8")
    before, _, rest = text.partition("\nEXCEPTIONS = {\n")
    made = f"{before}\nEXCEPTIONS = {EXCEPTIONS}\n{rest.partition('}')[2]}"
    (root / "scripts" / "unused").write_text(made, encoding="utf-8")
    for name, text in FILES.items():
        (root / name).parent.mkdir(parents=True, exist_ok=True)
        (root / name).write_text(text, encoding="utf-8")


def ran(root, script, *words):
    """Run a script, and give its status and the lines that it printed."""
    done = subprocess.run([root / "scripts" / script, *words], capture_output=True, text=True)
    return done.returncode, done.stdout.split("\n")[:-1]


def changed(root, name, was, now):
    """Change the text of a file."""
    text = (root / name).read_text(encoding="utf-8")
    (root / name).write_text(text.replace(was, now), encoding="utf-8")


def outcomes_of_believe(root):
    """Give what is tested of `believe`, and whether it is so."""
    law = ["top/specs/Top.antt: 3", "      3 Weighed", "low/specs/Base.antt: 6", "      3 Kind", "      3 Deep"]
    last = "lines: 9, definitions: 3, files: 2"
    is_so = ran(root, "believe", "top::main::law") == (0, [*law, last])
    yield "a law, by an alias, with a data type by its constructor", is_so
    _, told = ran(root, "believe", "top::main::length")
    yield "a parameter is no definition", told[1:-1] == ["      3 Bare"]
    _, told = ran(root, "believe", "top::main")
    yield "a whole file", told[-1] == "lines: 12, definitions: 4, files: 2"
    proved = ["top/specs/Top.antt: 2", "      2 Proved", "lines: 2, definitions: 1, files: 1"]
    for name in ("next", "Held", "Held::next"):
        yield f"a method as {name}", ran(root, "believe", f"top::parts::{name}") == (0, proved)
    for name in ("top::main::apart", "top::nothing", "top::parts::seldom", "low::law"):
        yield f"{name} is no contract", ran(root, "believe", name) == (2, [])
    yield "no words", ran(root, "believe") == (2, [])
    status, told = ran(root, "believe", "--limits")
    yield "sets within their limits", status == 0 and told[-1] == "2 passed, 0 failed"
    changed(root, "believed.txt", "13 all", "10 all")
    status, told = ran(root, "believe", "--limits")
    failed = "FAILED: all reaches 11 lines of definitions, and may reach 10"
    yield "a set that grew", status == 1 and failed in told and told[-1] == "1 passed, 1 failed"
    changed(root, "believed.txt", "10 all", "some all")
    yield "a set without a limit", ran(root, "believe", "--limits") == (2, [])
    changed(root, "believed.txt", "some all\n    : the law", "10 all\n    : another")
    yield "an earlier set that isn't there", ran(root, "believe", "--limits") == (2, [])
    (root / "believed.txt").write_text("# sets\n", encoding="utf-8")
    status, told = ran(root, "believe", "--limits")
    yield "no sets", status == 1 and told[-1] == "0 passed, 1 failed"


def outcomes_of_unused(root):
    """Give what is tested of `unused`, and whether it is so."""
    status, told = ran(root, "unused")
    yield "something is unused", status == 1
    for line in UNUSED:
        yield f"unused: {line}", line in told
    for line in told:
        yield f"used: {line}", line in UNUSED
    yield "no words are taken", ran(root, "unused", "all") == (2, [])
    shutil.rmtree(root / "crates" / "top_tests")
    changed(root, "crates.txt", "top_tests: top low\n", "")
    told = ran(root, "unused")[1]
    yield "what tests used is unused without them", "top/src/main.rt:30 only_tested" in told
    shutil.rmtree(root / "crates" / "top" / "wrong-bodies")
    told = ran(root, "unused")[1]
    yield "what an edit of the code names", "top/src/parts.rt:32 in_an_edit" in told
    yield "what an edit of a definition names", "low/specs/Base.antt:29 Edited" in told
    shutil.rmtree(root / "crates" / "top" / "proofs")
    (root / "crates" / "top" / "src" / "main.rt").write_text("pub fn main() {}\n", encoding="utf-8")
    (root / "crates" / "top" / "src" / "parts.rt").unlink()
    (root / "crates" / "top" / "specs" / "Top.antt").unlink()
    (root / "crates" / "low" / "specs" / "Base.antt").unlink()
    yield "nothing is unused", ran(root, "unused") == (0, [])


def outcomes_of_where(root):
    """Give what is tested of `where`, and whether it is so."""
    status, told = ran(root, "where", "Weighed")
    yield "a definition", status == 0 and told == [
        "definition  crates/top/specs/Top.antt:5 Weighed, which reaches 3, of 9 lines",
        "  named by  crates/top/src/main.rt:8 law (law)",
        "edit        top/another: kinds are weighed",
    ]
    yield "a function", ran(root, "where", "Held::next") == (0, [
        "function    crates/top/src/parts.rt:9 Held::next",
        "  clauses   the only one",
        "  reaches   1 definitions of 2 lines: Proved",
        "edit        top/most_in_an_edit: the next one is proved",
    ])
    yield "what a test names", "test        crates/top_tests/src/lib.rt:5 only_tested();" in ran(root, "where", "only_tested")[1]
    edits = [f"edit        top/{it}: kinds are weighed" for it in ("another", "weighed_beside_the_code")]
    yield "a rule", ran(root, "where", "kinds", "weighed") == (0, edits)
    yield "a book", ran(root, "where", "most", "lines")[1][0] == "book        docs/PROMISES.md:5: What has to be believed"
    constant = "crates/top/src/tried.rt:3 MOST_TRIES = 20000"
    yield "a constant by its value", ran(root, "where", "20000") == (0, [f"constant    {constant}"])
    yield "a constant by its name", f"constant    {constant}" in ran(root, "where", "MOST_TRIES")[1]
    function = "python      tools/tried:6 gives_up: Tell whether it gives up."
    yield "a function in Python", ran(root, "where", "gives_up") == (0, [function])
    yield "its docstring", ran(root, "where", "after", "last", "try") == (0, [function])
    patience = "python      tools/tried:3 PATIENCE: Tries before it gives up."
    yield "a constant in Python", ran(root, "where", "PATIENCE") == (0, [patience])
    yield "its comment", ran(root, "where", "Tries", "before") == (0, [patience])
    comment = "comment     crates/top/src/tried.rt:1 How often a thing is tried."
    yield "a comment", ran(root, "where", "thing", "tried") == (0, [comment])
    yield "nothing", ran(root, "where", "nowhere") == (1, [])
    yield "no words", ran(root, "where") == (2, [])


def outcomes_of_edits(root):
    """Give what is tested of whether edits can be applied, and whether it is so."""
    yield "all can be", ran(root, "wrong_bodies", "--apply") == (0, ["4 passed, 0 failed"])
    changed(root, "crates/top/src/parts.rt", "0..Held::most();", "0..2;")
    changed(root, "crates/top/wrong-bodies/parts.edits", "new:         4", "new:         3")
    failed = [
        "FAILED: top/most_in_an_edit: the text of pair 1 stands 0 times in its file, and not once",
        "FAILED: top/one_more: it changes nothing",
        "2 passed, 2 failed",
    ]
    yield "what is gone, and what is the same", ran(root, "wrong_bodies", "--apply") == (1, failed)


def main():
    """Test, tell what failed, and return the status."""
    passed = failed = 0
    for outcomes in (outcomes_of_believe, outcomes_of_where, outcomes_of_edits, outcomes_of_unused):
        with tempfile.TemporaryDirectory() as folder:
            root = pathlib.Path(folder) / "root"
            repository(root)
            for name, is_so in outcomes(root):
                passed, failed = passed + bool(is_so), failed + (not is_so)
                if not is_so:
                    print(f"FAILED: definitions: {name}")
    print(f"{passed} passed, {failed} failed")
    return failed > 0


if __name__ == "__main__":
    sys.exit(main())
