#!/usr/bin/env python3
"""Test how wrong bodies are tried: how processes share them, cycles of calls, edits that are tried on the whole crate,
refusals by the function or the fact that an edit names, and names that several functions have.
"""

import importlib.machinery
import importlib.util
import pathlib
import shutil
import sys
import tempfile
import types

ROOT = pathlib.Path(__file__).resolve().parent.parent
CRATE = "dali_gear"
CYCLE = "dali_input"
# The output of a check if the one proof of a cycle of calls isn't admitted.
REFUSED = """./proofs/value/+read/Answers.antt:9:5: error: `omega`: the goal does not follow from what is known
only=2 proved=1
"""
# A fact of that crate, and where it stands.
FACT, FACT_FILE = "no_member_is_left_out", "proofs/WorkedItemsLemmas.antt"
# The output of a check of one function, and whether that refuses an edit.
REFUSED_THERE = "refused by a goal"
OF_ONE = (
    (REFUSED_THERE, "src/value.rt:20:1: it is not proved that what the function ensures holds\nonly=1 proved=0\n", True),
    ("refused by a name", "./proofs/value/Lemmas.antt:3:1: error: `it` is not in scope\nonly=1 proved=0\n", True),
    ("proved", "only=1 proved=1\n", False),
    ("not told", "fn dali_input::value::value_of_text: could not tell\nonly=1 proved=0\n", False),
)


def repository(folder):
    """Make a repository of two crates with their edits."""
    shutil.copytree(ROOT / "scripts", folder / "scripts", ignore=shutil.ignore_patterns("__pycache__"))
    shutil.copy(ROOT / "crates.txt", folder)
    for name in (CRATE, CYCLE):
        for part in ("src", "specs", "proofs", "wrong-bodies"):
            if (ROOT / "crates" / name / part).is_dir():
                shutil.copytree(ROOT / "crates" / name / part, folder / "crates" / name / part)


def outcomes(root):
    """Give what is tested, and whether it is so."""
    loader = importlib.machinery.SourceFileLoader("wrong_bodies", str(root / "scripts" / "wrong_bodies"))
    scripts = importlib.util.module_from_spec(importlib.util.spec_from_loader("wrong_bodies", loader))
    loader.exec_module(scripts)
    yield from helped(root, scripts)
    yield from cycled(root, scripts)
    yield from judged(root, scripts)
    yield from named(root, scripts)
    yield from twice(root)


def helped(root, scripts):
    """Give what is tested of lanes that work at one crate, and whether it is so."""
    from edits import edits_in

    work = scripts.Work(CRATE, list(edits_in(root / "crates" / CRATE / "wrong-bodies" / "unit.edits")))
    work.workers, built, room = 1, types.SimpleNamespace(taken={CRATE}), root / "room"

    def next_of(running):
        return scripts.next_work([work], running, built)

    yield "a crate that nobody works at is taken", next_of([]) is work
    yield "nobody helps before its first round is over", next_of([work]) is None
    (room / "kept").mkdir(parents=True)
    work.leave(room)
    yield "nor where that has left nothing", next_of([work]) is None
    (room / "kept" / "it.oantt").write_text("checked", encoding="utf-8")
    work.leave(room)
    yield "then somebody does", next_of([work]) is work
    scripts.begin(work.checked, root / "begun")
    yield "and begins from what was checked", (root / "begun" / "it.oantt").read_text(encoding="utf-8") == "checked"
    yield "edits of functions need no check of the whole crate", not work.has_facts()
    facts = [it for it in edits_in(root / "crates" / CYCLE / "wrong-bodies" / "bank_text.edits") if not it.functions]
    for it in facts:
        it.by = ["WorkedItemsLemmas.fact"]
    several = scripts.Work(CYCLE, facts[:1] * 3)
    yield "several that facts refuse do", several.has_facts() and not scripts.Work(CYCLE, facts[:1] * 2).has_facts()
    work.workers = len(work.rounds)
    yield "as long as each has a round", next_of([work]) is None
    work.fresh()
    work.outcomes += ["one", "two"]
    yield "what came of an edit is kept once", (work.fresh(), work.fresh()) == (["one", "two"], [])


def cycled(root, scripts):
    """Give what is tested of edits in a cycle of calls, and whether it is so."""
    from edits import edits_in, rounds_of

    *within, caller = edits_in(root / "crates" / CYCLE / "wrong-bodies" / "value.edits")
    cycle = {f"value::{name}" for name in ("value_of", "read_value", "pass_items", "pass_members")}
    yield "an edit in a cycle is one in all of its functions", all(it.functions == cycle for it in within)
    rounds = rounds_of([*within, caller])
    yield "each is tried in a check of its own", rounds == [[within[0], caller], *([it] for it in within[1:])]
    verdict = scripts.Verdict(root / "crates" / CYCLE, REFUSED)
    yield "the proof of the cycle refuses it", all(verdict.of(it) for it in within)
    yield "and nothing else", verdict.is_apart(within[:1]) and not verdict.of(caller)


class Recorded:
    """Checks that all say the same, and what each was asked."""

    def __init__(self, scripts, said):
        self.asked = []
        self.judged = scripts.Checks.judged.__get__(self)
        self.verdict = lambda crate: scripts.Verdict(crate, said)

    def checked(self, crate, _room, _edits, asked, keeps):
        self.asked.append((asked, keeps))
        return self.verdict(crate)


def judged(root, scripts):
    """Give what is tested of which edits are tried on the whole crate, and whether it is so."""
    from edits import edits_in

    crate = root / "crates" / CYCLE
    of_code = list(edits_in(crate / "wrong-bodies" / "value.edits"))[-1]
    of_a_limit = next(edits_in(crate / "wrong-bodies" / "bank_text.edits"))
    for name, said, is_refused in OF_ONE:
        checks = Recorded(scripts, said)
        told = checks.judged(crate, root, [of_code])
        is_so = checks.asked == [(of_code.functions, True)] and told[0].is_refused == is_refused
        yield f"an edit of code, {name}", is_so
        checks = Recorded(scripts, said)
        told = checks.judged(crate, root, [of_a_limit])
        wanted = [(set(of_a_limit.by), False)] + ([] if name == REFUSED_THERE else [((), False)])
        yield f"an edit of a limit, {name}", checks.asked == wanted and told[0].is_refused == is_refused


def named(root, scripts):
    """Give what is tested of refusals by what an edit names, and whether it is so."""
    from edits import Edit

    crate = root / "crates" / CYCLE
    rows = (crate / FACT_FILE).read_text(encoding="utf-8").split("\n")
    line = next(at for at, row in enumerate(rows, 1) if row.startswith(f"pub {FACT} "))
    for by, is_own in ((f"WorkedItemsLemmas.{FACT}", True), ("WorkedItemsLemmas.another", False), ("item::order_of", False)):
        pairs = [("old", "pub mod Keys"), ("new", "pub mod Others")]
        edit = Edit(crate, "one", "a rule", [("file", "specs/Lib.antt"), ("by", by), *pairs])
        checks = Recorded(scripts, f"./{FACT_FILE}:{line + 1}:1: error: `refl`: no\nlogic=not-proved\n")
        told = checks.judged(crate, root, [edit])
        asked = [(set(), False)] if "." in by else [({by}, False)]
        yield f"refused by a fact, named {by}", (told[0].is_refused, told[0].is_by_own, checks.asked) == (True, is_own, asked)


def twice(root):
    """Give what is tested of an edit in a function whose name another one has, and whether it is so."""
    from edits import Edit

    crate = root / "crates" / "of_names"
    (crate / "src").mkdir(parents=True)
    for number, name in enumerate(("Marks", "Others", "Marks")):
        text = f"impl {name} {{\n    fn new() -> u8 {{\n        {number}\n    }}\n}}\n"
        (crate / "src" / f"file{number}.rt").write_text(text, encoding="utf-8")
    told = [Edit(crate, "one", "a rule", [("file", f"src/file{it}.rt"), ("old", f"{it}"), ("new", "7")]).why for it in range(3)]
    wanted = "several functions are named Marks::new"
    yield "an edit in a function whose name another one has", told == [wanted, None, wanted]


def main():
    """Test, tell what failed, and return the status."""
    passed = failed = 0
    with tempfile.TemporaryDirectory() as folder:
        root = pathlib.Path(folder) / "root"
        repository(root)
        sys.dont_write_bytecode = True
        sys.path.insert(0, str(root / "scripts"))
        for name, is_so in outcomes(root):
            passed, failed = passed + bool(is_so), failed + (not is_so)
            if not is_so:
                print(f"FAILED: wrong bodies: {name}")
    print(f"{passed} passed, {failed} failed")
    return failed > 0


if __name__ == "__main__":
    sys.exit(main())
