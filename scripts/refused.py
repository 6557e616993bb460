"""The record of the edits that were refused: `refused.txt`, which `wrong_bodies` alone writes.

It has a line for each: its crate, its name, and the sum of all that its refusal depends on (`closure.py`), so that an
edit whose sum is another one is tried again. If it isn't known what refused it, that is all files of its crate and of
those that it rests on. The lines are sorted, so that records merge.
"""

import collections
import hashlib
import os
import pathlib
import random
import tempfile

from closure import Closures
from crates import ROOT, text_of
from sums import add_files, kit_logic

RECORD = ROOT / "refused.txt"
# The form of the sums: another one if `wrong_bodies` takes something else for a refusal.
FORM = "1"
# How many digits of a sum are written.
DIGITS = 32
# How many edits of a crate are chosen.
MOST_OF_A_CRATE = 10


class Refused:
    """The known refusals of edits, by the record and by the files as they are."""

    def __init__(self, edits):
        self.more = f"{FORM} {kit_logic()}"
        self.names, self.first = {it.name for it in edits}, text_of(RECORD)
        # First, so that nothing is kept where a file changes while the closures are read.
        self.wide = {name: self.wide_sum(name) for name in {it.crate.name for it in edits}}
        self.closures = Closures()

    def has_changed(self):
        """Tell whether the record is another one than at first."""
        return text_of(RECORD) != self.first

    def tidy(self):
        """Drop what has no edit any more."""
        self.write(self.rows())

    def rows(self):
        """Give what the record has: the sums, by the names of the edits."""
        rows = [line.split(" ") for line in text_of(RECORD).split("\n")]
        return {f"{row[0]}/{row[1]}": row[2] for row in rows if len(row) == 3}

    def of(self, edits):
        """Give those of some edits that are known to be refused. An edit that can't be applied isn't."""
        rows = self.rows()
        having = [it for it in edits if it.name in rows and not it.why]
        return [it for it in having if rows[it.name] in (self.narrow_of(it), self.wide_of(it))]

    def narrow_of(self, edit):
        """Give the sum of what refuses an edit and of all that this depends on, None if unknown."""
        total = self.closures.of_edit(edit, self.more)
        return total and total[:DIGITS]

    def wide_of(self, edit):
        """Give the sum of an edit and of all files of its crate and of those that it stands on."""
        return hashlib.sha256(f"{edit.sum} {self.wide[edit.crate.name]}".encode()).hexdigest()[:DIGITS]

    def wide_sum(self, name):
        """Give the sum of all files of a crate and of those that it stands on."""
        total = hashlib.sha256(self.more.encode())
        add_files(total, name)
        return total.hexdigest()

    def keep(self, name, outcomes):
        """Write into the record what came of edits of a crate, where its files are still those that they were tried over."""
        rows, is_same = self.rows(), self.wide[name] == self.wide_sum(name)
        for it in outcomes:
            rows.pop(it.edit.name, None)
            if it.is_refused and is_same:
                rows[it.edit.name] = it.is_by_own and self.narrow_of(it.edit) or self.wide_of(it.edit)
        self.write(rows)

    def write(self, rows):
        """Write the record, without what has no edit any more, unless it is so already."""
        rows = {name: total for name, total in rows.items() if name in self.names}
        text = "".join(sorted(f"{name.replace('/', ' ')} {total}\n" for name, total in rows.items()))
        if text != text_of(RECORD):
            try:
                replace(RECORD, text)
            except OSError as fault:
                # Then they are tried again the next time.
                print(f"refused.txt can't be written: {fault.strerror}", flush=True)


def replace(path, text):
    """Put a text in the place of a file: after a kill or on a full disk it is the old one or the new one."""
    with tempfile.TemporaryDirectory(dir=path.parent, prefix=f".{path.name}-") as folder:
        made = pathlib.Path(folder) / path.name
        made.write_text(text, encoding="utf-8")
        os.replace(made, path)


def chosen(edits, seed, count):
    """Give `count` of some edits, by chance, always the same for a seed: of few crates, each of which costs a check.

    A crate is chosen by one of its edits, so that each edit is about as likely as any other.
    """
    of_crates = collections.defaultdict(list)
    for it in random.Random(seed).sample(sorted(edits, key=lambda it: it.name), len(edits)):
        of_crates[it.crate.name].append(it)
    return [it for its in of_crates.values() for it in its[:MOST_OF_A_CRATE]][:count]
