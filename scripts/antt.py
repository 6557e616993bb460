"""The definitions and lemmas in the antt files of the crates: where each stands, and which others it names."""

import re

from crates import text_of
from terms import Names, level_index, tokens_of

USE = re.compile(r"use (?P<path>[^\s{};]+?)(?:\.\{(?P<names>[^}]*)\}| as (?P<alias>[^\s;]+))?;?$")
# The words before the name of an item, and the name.
HEAD = re.compile(r"((?:(?:abbrev|unfoldable|pub|record|data|ruleset) )*)(\S+)( |$)")
# The modules that the kit makes of code: its types, and the goals of its functions.
DECLARED = "declared"


class Imports:
    """The imports of a text: names by theirs here, as modules and names there, and modules by their names here."""

    def __init__(self):
        self.names, self.modules = {}, {}

    def read(self, line):
        """Read a line `use ..`."""
        found = USE.match(line.strip().removeprefix("ghost "))
        if not found:
            return
        path = found["path"].removeprefix("Rattle.")
        if found["names"] is None:
            self.modules[found["alias"] or path.rpartition(".")[2]] = path
            return
        for it in found["names"].split(","):
            name, _, here = it.strip().partition(" as ")
            self.names[here or name] = (path, name)


class Item:
    """A definition or a lemma: its module, name and first line, its text, and the paths of names that it speaks of."""

    def __init__(self, module, name, words, line):
        self.module, self.name, self.words, self.line = module, name, words, line
        self.rows, self.blocks, self.names = [], [], set()

    def is_definition(self):
        """Tell whether it says what something is: else it is a lemma, of which its type says all."""
        return not {"abbrev", "unfoldable", "record", "data"}.isdisjoint(self.words)

    def lines(self):
        """Count its lines, without comments and blank ones."""
        return len(self.rows)

    def read(self, is_constructor):
        """Read which names it speaks of, by what tells whether a name in a pattern is a constructor's."""
        names, bound = Names(is_constructor), frozenset()
        statement, *clauses = blocks_of(self.rows)
        for block in self.blocks:
            bound = names.term(tokens_of(block.removeprefix("module _ ").removesuffix(" where")), bound)
        if "record" in self.words or "data" in self.words:
            self.read_fields(names, statement, bound)
        else:
            names.term(tokens_of(body_of(statement)), bound)
        for clause in clauses:
            read_clause(names, clause, bound)
        self.names = names.found

    def read_fields(self, names, rows, bound):
        """Read the fields of a record, each of which later ones may name, or the constructors of a data type."""
        head, fields = parts_of(rows)
        bound = names.term(tokens_of(body_of(head)), bound)
        for field in fields:
            words = tokens_of(" ".join(field))
            colon = words.index(":")
            names.term(words[colon + 1 :], bound)
            if "record" in self.words:
                bound = bound | set(words[:colon])


def blocks_of(rows):
    """Give rows in blocks, each of which begins with one that is indented as the first is."""
    blocks = []
    for row in rows:
        if not blocks or indent_of(row) == indent_of(rows[0]) and row.lstrip()[0] not in ")}]":
            blocks.append([])
        blocks[-1].append(row)
    return blocks


def parts_of(rows):
    """Give the rows up to a first `where`, without it, and the blocks after it."""
    at = next((at for at, row in enumerate(rows) if re.search(r"(^|\s)where$", row)), len(rows) - 1)
    return [*rows[:at], re.sub(r"(^|\s)where$", "", rows[at])], blocks_of(rows[at + 1 :])


def read_clause(names, rows, bound):
    """Read a clause, with the definitions after its `where`."""
    head, blocks = parts_of(rows)
    words = tokens_of("\n".join(head))
    if words[0] == "unfolding":
        names.term(words[1:])
        return
    equal = level_index(words, "=")
    made = [tokens_of("\n".join(block)) for block in blocks]
    bound = names.pattern(words[1:equal], bound) | {it[0] for it in made}
    names.term(words[equal + 1 :], bound)
    for block, its in zip(blocks, made):
        if its[1:2] == [":"]:
            names.term(its[2:], bound)
        else:
            read_clause(names, block, bound)


def indent_of(row):
    """Give how far a line is indented."""
    return len(row) - len(row.lstrip())


def body_of(rows):
    """Give a statement without the words and the name before it, and without its first colon."""
    text = "\n".join(rows)
    text = text[HEAD.match(text).end() :]
    return text.removeprefix(": ").removeprefix(":")


class Module:
    """An antt file: its crate and path, what it brings in, and its items by name."""

    def __init__(self, crates, path):
        self.path, self.crate = path, path.relative_to(crates).parts[0]
        self.name = ".".join(path.relative_to(crates).with_suffix("").parts)
        self.imports, self.passed_on, self.items, self.constructors = Imports(), Imports(), {}, {}
        blocks, item, is_head = [], None, False
        for at, row in enumerate(text_of(path).split("\n"), 1):
            row = row.rstrip()
            if not row or row.lstrip().startswith("--"):
                continue
            while blocks and not is_head and indent_of(row) < 2 * len(blocks):
                blocks.pop()
            row = row[2 * (len(blocks) - is_head) :]
            if is_head or row.startswith("module _ "):
                blocks = [*blocks[: len(blocks) - is_head], (blocks[-1] + " " if is_head else "") + row]
                is_head, item = not row.endswith(" where"), None
            elif row.startswith(("use ", "pub use ")):
                (self.passed_on if row.startswith("pub ") else self.imports).read(row.removeprefix("pub "))
                item = None
            else:
                item = self.begun(row, at) or item
                if item:
                    item.rows.append(row.partition(" -- ")[0])
                    item.blocks = list(blocks)
        self.read_constructors()

    def begun(self, row, line):
        """Give the item that begins with a line, or None."""
        head = HEAD.match(row)
        if not head or row.startswith(("unfolding ", "pub mod ", "mod ")) or row[0] in " )}]":
            return None
        words, name = head[1].split(), head[2]
        if not words and not row[head.end() :].startswith(":"):
            return None
        self.items[name] = Item(self, name, words, line)
        return self.items[name]

    def read_constructors(self):
        """Read the constructors of each data type."""
        for item in self.items.values():
            if "data" in item.words:
                names = [row.split()[0] for row in item.rows[1:] if re.match(r"\s+\S+ :", row)]
                self.constructors.update(dict.fromkeys(names, item))


class Library:
    """The antt files of the crates in a folder, by name."""

    def __init__(self, crates, parts):
        self.modules, self.passed_on = {}, {}
        for part in parts:
            for path in sorted(crates.glob(f"*/{part}/**/*.antt")):
                module = Module(crates, path)
                self.modules[module.name] = module
                for name, there in module.passed_on.modules.items():
                    self.passed_on[f"{module.name.removesuffix('.Lib')}.{name}"] = there
        for module in self.modules.values():
            for item in module.items.values():
                item.read(lambda path, module=module: self.is_constructor(module, path))

    def module(self, path):
        """Give the module of these that a path names, or None: where a crate passes it on, from there."""
        return self.modules.get(self.passed_on.get(path, path))

    def meant(self, imports, path, module=None):
        """Give the module, if it is one of these, and the name that a path means, by what a text brings in.

        A text in a module of these may mean what is its own.
        """
        if path[0] in imports.names:
            name, there = imports.names[path[0]]
            return self.module(name), there
        if module and (path[0] in module.items or path[0] in module.constructors):
            return module, path[0]
        if path[0] in imports.modules and len(path) > 1:
            return self.module(imports.modules[path[0]]), path[1]
        return None, path[0]

    def item(self, imports, path, module=None):
        """Give the item that a path means, the data type where that is a constructor of it, or None."""
        there, name = self.meant(imports, path, module)
        return there and (there.items.get(name) or there.constructors.get(name))

    def is_constructor(self, module, path):
        """Tell whether a name in a pattern is a constructor's: not a variable's."""
        there, name = self.meant(module.imports, path, module)
        if there:
            return name in there.constructors
        source = module.imports.names.get(path[0], ("", ""))[0] or module.imports.modules.get(path[0], "")
        return DECLARED in source.split(".")

    def used(self, item):
        """Give the items that an item names."""
        found = {self.item(item.module.imports, path, item.module) for path in item.names}
        return found - {None, item}
