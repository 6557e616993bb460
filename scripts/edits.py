"""The edits of crates/NAME/wrong-bodies: what they change, and in which functions.

A file `writer.edits` has the edits that begin in one file, which its first line names:

    file: src/writer.rt

    rule: what all edits down to the next rule break

    edit: name_of_an_edit
    old: a line, or a part of one, that the file has once
    new: the text in its place in the edit

An edit has as many pairs of texts as it needs. A line `file: PATH` before a pair moves on to another file of the crate,
and a line `by: NAME` or `by: NAME, NAME` names what refuses the edit, if its lines aren't within functions: a function,
as `writer::Writer::want`, or a lemma after the name of its file, as `WorkedLemmas.not_enabled`. (The kit's own form,
must-fail, has no edit here: for each crate that has one `rt ci` proves the crate once more.)
"""

import collections
import functools
import hashlib
import pathlib
import re

from crates import CRATES, text_of

WORDS = ("file", "rule", "edit", "by", "old", "new")
HEAD = re.compile(r"(\s*)(?:pub(?:\([^)]*\))? )?(?:const )?(?:unsafe )?fn (\w+)")
CYCLE = re.compile(r"#\[cycle\((\w+)\)\]")
IMPL = re.compile(r"impl(?:<[^{]*?>)? (?:(?P<trait>[^{]*?) for )?(?P<type>\w+)")


class Edit:
    """A wrong body, or a wrong line of a definition: its crate, the rule that it breaks, its pairs of texts with their
    files, the lines that it changes, by file and number from 1, what its line `by:` names, and the functions that the lines
    are within, by the ends of their names, of a cycle of calls all, none where a line is in no function.
    """

    def __init__(self, crate, name, rule, rows):
        self.crate, self.name, self.rule = crate, f"{crate.name}/{name}", rule
        self.lines, self.pairs, self.by = {}, [], []
        self.sum = hashlib.sha256("\n".join(": ".join(it) for it in rows).encode()).hexdigest()
        self.why = self.read(rows)
        found = {function_at(self.crate / file, line) for file, line in self.lines}
        at_once = [next((it for it in cycles(crate).values() if name in it), {name}) for name in found]
        self.functions = set().union(*at_once) if None not in found else set()
        twice = sorted(self.asked() & names_of_several(crate))
        self.why = self.why or (f"several functions are named {twice[0]}" if twice else None)

    def read(self, rows):
        """Read the pairs of texts, and tell why they can't be applied, or give None."""
        texts, file, old = {}, None, None
        for word, rest in rows:
            if word == "by":
                self.by = rest.split(", ")
            elif word == "file":
                file = rest
            elif word == "old":
                old = rest
            elif word == "new":
                self.pairs.append((file, old, rest))
        for number, (file, old, new) in enumerate(self.pairs, 1):
            text = texts.setdefault(file, text_of(self.crate / file)) if file else ""
            found = text.count(old) if old else 0
            if found != 1:
                return f"the text of pair {number} stands {found} times in its file, and not once"
            texts[file] = text.replace(old, new)
        for file, text in texts.items():
            for at, (was, made) in enumerate(zip(text_of(self.crate / file).split("\n"), text.split("\n")), 1):
                if was != made:
                    self.lines[file, at] = made
        return None if self.lines else "it changes nothing"

    def asked(self):
        """Give the functions that a check has to prove of it, none where that is the whole crate."""
        return self.functions or {it for it in self.by if "." not in it}

    def refusers(self):
        """Give the ends of the names of what refuses it: the functions that it changes, or what it names."""
        return self.functions or {*self.by, *(it.partition("::")[2] for it in self.by)}


def all_edits():
    """Give the edits of all crates."""
    for path in sorted(CRATES.glob("*/wrong-bodies/*.edits")):
        yield from edits_in(path)


def edits_in(path):
    """Give the edits of a file, which begin in the file that it names first."""
    crate, rows = path.parent.parent, rows_of(path)
    rule, own = None, []
    for row in [*rows[1:], ("edit", None)]:
        if row[0] in ("rule", "edit") and own:
            yield Edit(crate, own[0][1], rule, [rows[0], *own[1:]])
            own = []
        if row[0] == "rule":
            rule = row[1]
        else:
            own.append(row)


def rows_of(path):
    """Give the lines of a file of edits, each as its first word and the text after that."""
    rows = []
    for line in text_of(path).split("\n"):
        word, _, rest = line.partition(":")
        if word in WORDS:
            rows.append((word, rest.removeprefix(" ") if word in ("old", "new") else rest.strip()))
    return rows


def function_at(path, line):
    """Give the function of `src` that has this line, its attributes counted in, or None."""
    if "src" not in path.parts:
        return None
    rows, found, block = text_of(path).split("\n"), None, None
    file = pathlib.Path(*path.parts[path.parts.index("src") :])
    for at, row in enumerate(rows, 1):
        block = IMPL.match(row) or (block if row[:1] != "}" else None)
        head = HEAD.match(row)
        if head:
            first = at
            while first > 1 and rows[first - 2] and not rows[first - 2].endswith(("{", "}")):
                first -= 1
            ends = (f"{head[1]}}}", f"{head[1]}{{}}")
            last = next((n for n in range(at, len(rows)) if rows[n] in ends), at) + 1
            if first <= line <= last:
                found = end_of_name(file, block if head[1] else None, head[2])
    return found


def function_of_proof(file):
    """Give the function in whose folder below `proofs` a file is, or None."""
    # Of a function that calls itself the folder's name begins with a plus.
    folders = tuple(part.removeprefix("+") for part in pathlib.Path(file).parts[1:-1])
    if "fn" in folders:
        # The folder of a closure, below that of its function.
        at = folders.index("fn")
        folders = (*folders[:at], folders[at + 1])
    if len(folders) > 1 and folders[-2][0].isupper():
        folders = folders[-2:]
    return "::".join(folders) or None


@functools.cache
def cycles(crate):
    """Give the functions of each cycle of calls of a crate, by the name of the one proof that they have."""
    found, cycle = collections.defaultdict(set), None
    for path in (crate / "src").rglob("*.rt"):
        file = path.relative_to(crate)
        for row in text_of(path).split("\n"):
            cycle, head = CYCLE.match(row) or cycle, HEAD.match(row)
            if cycle and head:
                found[end_of_name(file, None, cycle[1])].add(end_of_name(file, None, head[2]))
                cycle = None
    return found


@functools.cache
def names_of_several(crate):
    """Give the ends of names that several functions of a crate have, which a check can't tell apart."""
    found = collections.Counter()
    for path in (crate / "src").rglob("*.rt"):
        file, block = path.relative_to(crate), None
        for row in text_of(path).split("\n"):
            block = IMPL.match(row) or (block if row[:1] != "}" else None)
            head = HEAD.match(row)
            if head:
                found[end_of_name(file, block if head[1] else None, head[2])] += 1
    return {name for name, count in found.items() if count > 1}


def end_of_name(file, block, name):
    """Give the end of the name that a check has for a function."""
    if not block:
        return "::".join([*(it for it in file.with_suffix("").parts[1:] if it not in ("lib", "mod")), name])
    words = re.findall(r"\w+(?!\w*::)", block["trait"] or "")
    return f"{block['type']}{''.join(words)}::{name}"


def rounds_of(edits):
    """Give lists of edits that can be tried in one check, and then each other edit by itself."""
    rounds = []
    for edit in edits:
        if not edit.functions:
            continue
        for having, functions in rounds:
            if not functions & edit.functions:
                having.append(edit)
                functions |= edit.functions
                break
        else:
            rounds.append(([edit], set(edit.functions)))
    return [having for having, _ in rounds] + [[edit] for edit in edits if not edit.functions]
