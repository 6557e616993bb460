"""The text that a proof depends on, and its sums: a function or a lemma, the items that it names, and so on.

An item that is named counts by what it states for its users, and not by its proof: a function by its signature and
contract, a lemma by its statement, anything else whole. A function that is proved counts whole, with the files in its
folder of proofs; a lemma that is proved, with its proof.

Names are taken rather too wide than too narrow: a name means each item that is spelled so in the crate and in those
that it rests on, a method each method with that name, and a type has all its blocks `impl` of a trait. A function
without a contract counts whole, and so does a `const fn`. An item of the kit counts by the path that brings it in.
"""

import collections
import functools
import hashlib
import pathlib
import re

from antt import DECLARED, Library, Module, blocks_of
from crates import CRATES, below, text_of, uses
from edits import cycles, end_of_name, function_of_proof
from source import BROUGHT_IN, IMPL, NO_CODE, Part, files_of
from terms import tokens_of

NAME = re.compile(r"[A-Za-z_]\w*")
# The text just before a name: the dot of a method, a path, or the bracket that ends a type.
BEFORE = re.compile(r"(?:(?P<dot>(?<!\.)\.)|(?:(?P<path>\w+)|[>\]])\s*::)\s*$")
# How far before a name that may stand.
REACH = 100
# The text before a method, and the methods that macros call.
DOT = BEFORE.search(".")
CALLED_BY = {"write!": ("write_fmt",), "writeln!": ("write_fmt", "writeln")}
UNFOLDED = re.compile(r"^ *unfolding (.*)$", re.MULTILINE)
# The attributes at the top of a file for all that is in it, or before a module, except those that every file has.
ATOP = re.compile(r"^ *#!\[(?!tactic\(auto\)\]).*$|^ *#\[tactic.*\n.*\bmod .*$", re.MULTILINE)
NAMED_IN_ATTRIBUTE = re.compile(r"\b(?:using|unfolding)\(([^)]*)\)")
# The module of a crate's constants in antt, and what the modules of a function and of a lemma file stand in.
CONSTANTS, PROOFS = "TheConstants", "proofs"
TYPES = ("struct", "enum", "type")
# The mark that is put in place of a comment, and a comment on a line of its own or after code.
MARK = "\0"
MARKED = re.compile(rf"^[ \t]*{MARK}\n|[ \t]*{MARK}", re.MULTILINE)
# Where operators come from that go without saying; the second passes on what the first has.
PLAIN = ("std.specs.Prelude", "std.proofs.Common")

# An item, as whoever proves it reads it or as whoever names it does; and its digest, with the nodes that it names, and the
# paths that bring names in.
Node = collections.namedtuple("Node", "item is_whole")
Read = collections.namedtuple("Read", "digest needs paths")


def whole(item):
    """Give all of an item."""
    return Node(item, True)


def told(item):
    """Give what an item tells whoever names it."""
    is_whole = item.kind != "fn" if isinstance(item, Part) else item.is_definition() or "ruleset" in item.words
    return Node(item, is_whole)


class Closures:
    """The items of the crates, and what each hangs on."""

    def __init__(self):
        used = uses()
        self.seen_by = {name: {name, *below(name, used)} for name in used}
        self.library = Library(CRATES, ("specs", PROOFS))
        self.files = {file.path: file for name in used for file in files_of(CRATES, name)}
        self.by_name, self.blocks = collections.defaultdict(list), collections.defaultdict(list)
        self.functions, self.proofs = collections.defaultdict(dict), collections.defaultdict(set)
        for part in (part for file in self.files.values() for part in file.parts):
            (self.blocks if part.kind == "impl" else self.by_name)[part.name].append(part)
            if part.kind == "fn":
                self.functions[part.file.crate][name_of(part)] = part
        for module in self.library.modules.values():
            for part in self.proved_by(module.crate, module.path.relative_to(CRATES / module.crate)):
                self.proofs[part].add(module)
        self.read = functools.cache(self.read_anew)

    def proved_by(self, crate, path):
        """Give the functions in whose folder of proofs a file is: all of a cycle of calls."""
        name = function_of_proof(path) if path.parts[0] == PROOFS else None
        names = cycles(CRATES / crate).get(name, {name})
        return [self.functions[crate][it] for it in names if it in self.functions[crate]]

    def sum_of(self, crate, roots, more):
        """Give the sum of some nodes and of all that they hang on, seen from a crate, and of a text."""
        waiting, found, seen = set(roots), set(), self.seen_by[crate]
        while waiting:
            node = waiting.pop()
            found.add(node)
            waiting |= {it for it in self.read(node).needs if it not in found and crate_of(it.item) in seen}
        total = hashlib.sha256(more.encode())
        for digest in sorted(self.read(it).digest for it in found):
            total.update(digest)
        return total.hexdigest()

    def read_anew(self, node):
        """Read a node's text and what it names."""
        head, text, needs, paths = self.read_code(node) if isinstance(node.item, Part) else self.read_antt(node)
        text = "\n".join([head, *sorted(paths), text])
        return Read(hashlib.sha256(text.encode()).digest(), frozenset(needs - {node}), frozenset(paths))

    # Of code.

    def read_code(self, node):
        """Give the head and the text of an item of code, what it names, and the paths that bring that in."""
        part, file = node.item, node.item.file
        inner = [it for it in file.parts if it.owner is part and it.kind == "fn"]
        end = part.end if node.is_whole or is_open(part) else body_of(part)
        code, text = without(file.code[:end], inner, " "), without(file.text[:end], inner, "")
        needs, paths = self.named_in(part, code)
        needs |= {told(it) for it in inner if part.kind == "trait" or part.trait}
        needs |= {whole(it) for it in self.blocks[part.name] if part.kind in TYPES and it.trait}
        needs |= {whole(part.owner)} if part.owner else set()
        attributes = self.attributes_of(part) if node.is_whole else ""
        if node.is_whole:
            needs |= self.named_by_attributes(file.crate, attributes + code[part.start :])
            needs |= {whole(it) for it in self.proofs[part]}
        head = f"{file.crate} {file.module} {part.full_name()}\n{attributes}"
        return head, without_comments(text[part.start :]), needs, paths

    def named_in(self, part, code):
        """Give what a text of code names from an item on, and the paths that bring that in."""
        file, brought = part.file, paths_by_name(part.file)
        terms = [it for it in part.clauses() if it[1] <= len(code)]
        needs, paths = set(), set()
        for at, name, before in names_in(code, part.start):
            is_term = any(start <= at < end for start, end in terms)
            # A clause may name a type, as in `⟦<Vec<T> as Ord>⟧`.
            needs |= {it for it in self.meant(part, name, before) if not is_term or it.is_whole}
            paths |= {f"{name}={brought[name]}"} if name in brought else set()
        for start, end in terms:
            more, sources = self.named_in_terms(file.text[start:end], file.imports(part), None)
            needs, paths = needs | more, paths | sources
        return needs, paths

    def meant(self, part, name, before):
        """Give what a name in an item of code may mean, by what stands before it."""
        brought = paths_by_name(part.file)
        # Behind a dot or a path it is its own name, whatever `use` brings in.
        name = name if before else last_of(brought.get(name, name))
        having = [it for it in self.by_name.get(name, ()) if it.file.crate in self.seen_by[part.file.crate]]
        methods = [it for it in having if it.owner and it.kind == "fn"]
        others = {told(it) for it in having if it not in methods}
        if not before or before["dot"]:
            return {told(it) for it in methods} if before else others
        path = last_of(brought.get(before["path"], before["path"] or ""))
        path = part.owner.name if path == "Self" and part.owner else path
        types = {path, *(word for it in self.by_name.get(path, ()) if it.kind == "type" for word in words_of(it))}
        # Behind a bracket stands some type.
        return others | {told(it) for it in methods if not before["path"] or types & {it.owner.name, trait_of(it.owner)}}

    def attributes_of(self, part):
        """Give the attributes of an item, and those that its file and its crate have for all items."""
        roots = [self.files.get(CRATES / part.file.crate / "src" / f"{it}.rt") for it in ("lib", "main")]
        atop = [row for file in dict.fromkeys([*roots, part.file]) if file for row in atop_of(file)]
        return "\n".join([*atop, part.attributes()])

    def named_by_attributes(self, crate, text):
        """Give the lemmas and definitions that attributes in a text name."""
        found = set()
        for path in re.findall(r"\w[^\s,]*", " ".join(NAMED_IN_ATTRIBUTE.findall(text))):
            *words, name = path.split("::")
            module = self.library.modules.get(".".join([crate if words[:1] == ["crate"] else words[0], *words[1:]]))
            if module and name in module.items:
                found.add(told(module.items[name]))
        return found

    # Of antt.

    def read_antt(self, node):
        """Give the head and the text of a definition, a lemma or a file of antt, what it names, and the paths of that."""
        item = node.item
        if isinstance(item, Module):
            module, name = item, ""
            rows = [it for it in text_of(item.path).split("\n") if not it.lstrip().startswith("--")]
        else:
            module, name = item.module, item.name
            rows = [*item.blocks, *(item.rows if node.is_whole else blocks_of(item.rows)[0])]
        text = "\n".join(rows)
        needs, paths = self.named_in_terms(text, module.imports, module)
        return f"{module.name} {name} {node.is_whole}", text, needs, paths

    def named_in_terms(self, text, imports, module):
        """Give what a text of antt may name, by what its file brings in, and the paths that bring that in."""
        needs, paths, unfolded = set(), set(), paths_in("\n".join(UNFOLDED.findall(text)))
        named = paths_in(text)
        for path in named | operators_in({it[0] for it in named}, [*imports.names, *(module.items if module else ())]):
            item = self.library.item(imports, path, module)
            # An item that is unfolded counts by its body, also where that is hidden elsewhere.
            needs |= {told(item), *([whole(item)] if path in unfolded else [])} if item else set()
            source, name = imports.names.get(path[0], (imports.modules.get(path[0]), ""))
            if source and (path in named or source not in PLAIN):
                paths.add(f"{path[0]}={source}.{name}")
            if source:
                needs |= self.made_of_code(source.split("."))
        return needs, paths

    def made_of_code(self, words):
        """Give the types and constants, or the functions, of which the kit made a module, or a data type of antt."""
        crate, outer = words[0], self.library.modules.get(".".join(words[:-1]))
        if outer and words[-1] in outer.items:
            return {told(outer.items[words[-1]])}
        if DECLARED in words:
            named = [it for word in words for it in self.by_name.get(word, ())]
            named += [it for its in self.by_name.values() for it in its if it.kind == "const" and CONSTANTS in words]
            return {whole(it) for it in named if it.file.crate == crate and it.kind != "fn"}
        if words[1:2] == [PROOFS] and crate in self.functions:
            return {told(it) for it in self.proved_by(crate, pathlib.Path(*words[1:]))}
        return set()

    # Of edits.

    def of_edit(self, edit, more):
        """Give the sum, with a text, of an edit, of what refuses it and of all that this needs; None if unknown."""
        crate, brought = edit.crate.name, set()
        roots = set().union(*(self.refusers(crate, it) for it in edit.functions or edit.by or [""]))
        for (file, line), text in edit.lines.items():
            node = self.at_line(edit.crate / file, line)
            needs, paths = self.named_by_line(edit.crate / file, line, text) if node else (set(), set())
            roots |= {node, *needs}
            # A path that brings a name in counts too if only the edit has that name.
            brought |= {it for it in paths if it not in self.read(node).paths}
        return None if None in roots else self.sum_of(crate, roots, "\n".join([edit.sum + more, *sorted(brought)]))

    def refusers(self, crate, name):
        """Give the function of a name, with those of its cycle of calls, which have one proof, or the fact whose name
        comes after that of its file and a dot; None among them if there is none.
        """
        file, dot, fact = name.partition(".")
        if dot:
            modules = [self.library.modules.get(f"{crate}.{part}.{file}") for part in (PROOFS, "specs")]
            item = next((it.items[fact] for it in modules if it and fact in it.items), None)
            return {item and whole(item)}
        functions = self.functions[crate]
        name = name if name in functions else name.partition("::")[2]
        at_once = next((its for its in cycles(CRATES / crate).values() if name in its), {name})
        return {it and whole(it) for it in map(functions.get, at_once)}

    def at_line(self, path, line):
        """Give the item that has a line of a file, whole, the file where it is one of antt, or None."""
        file = self.files.get(path)
        if file:
            part = file.holding[line - 1]
            return part and whole(part)
        module = self.library.modules.get(".".join(path.relative_to(CRATES).with_suffix("").parts))
        before = [it for it in module.items.values() if it.line <= line] if module else []
        return module and whole(max(before, key=lambda it: it.line, default=module))

    def named_by_line(self, path, line, text):
        """Give what a line of a file names in an edit, and the paths that bring that in."""
        file, node = self.files.get(path), self.at_line(path, line)
        if not file:
            module = getattr(node.item, "module", node.item)
            return self.named_in_terms(text, module.imports, module)
        needs, paths = self.named_in_terms(text, file.imports(node.item), None)
        first = file.rows[line - 1]
        is_term = any(start < first + len(text) and first < end for start, end in file.terms)
        brought, paths = paths_by_name(file), paths if is_term else set()
        for _, name, before in names_in(text, 0):
            needs |= self.meant(node.item, name, before)
            paths |= {f"{name}={brought[name]}"} if name in brought else set()
        return needs, paths


def names_in(code, start):
    """Give the names in a text of code from a place on, where each stands, and by what it may mean what stands before it:
    where a macro calls methods, these too.
    """
    for found in NAME.finditer(code, start):
        at = found.start()
        yield at, found[0], BEFORE.search(code, max(0, at - REACH), at)
        for name in CALLED_BY.get(code[at : found.end() + 1], ()):
            yield at, name, DOT


def crate_of(item):
    """Give the crate of an item."""
    return item.file.crate if isinstance(item, Part) else getattr(item, "module", item).crate


def paths_in(text):
    """Give the paths of names in a text of antt, up to the second name of each."""
    return {tuple(it.strip("«»").split(".")[:2]) for it in tokens_of(text)}


def operators_in(words, names):
    """Give which of some names have words of a text around the places of their arguments, as `◌≡◌` has."""
    return {(name,) for name in names if "◌" in name and not words.isdisjoint(filter(None, name.split("◌")))}


def name_of(function):
    """Give the end of the name that a check has for a function."""
    file, owner = function.file, function.owner
    found = IMPL.match(file.code, owner.start) if owner and owner.kind == "impl" else None
    block = found and {"type": found["name"], "trait": found["trait"]}
    return end_of_name(file.path.relative_to(CRATES / file.crate), block, function.name)


def words_of(part):
    """Give the names in the code of an item."""
    return NAME.findall(part.file.code, part.start, part.end)


def trait_of(block):
    """Give the name of a block's trait, without its path and its arguments."""
    return last_of((block.trait or "").partition("<")[0])


def last_of(path):
    """Give the last word of a path of code."""
    return path.rpartition("::")[2]


def is_open(function):
    """Tell whether whoever names an item reads all of it: of a function where it has no contract, of its own or a trait's."""
    head = function.file.code[function.start : function.after]
    has_contract = function.clauses() or function.owner and function.owner.trait
    return function.kind != "fn" or not has_contract or re.search(r"\bconst\b", head) is not None


def body_of(function):
    """Give where the body of a function opens, after its clauses."""
    code = function.file.code
    found = code.find("{", max([function.after, *(end + 1 for _, end in function.clauses())]), function.end)
    return found if found >= 0 else function.end


def without(text, parts, blank):
    """Give a text without some items, in its order, or with blanks for them."""
    for it in reversed(parts):
        text = text[: it.start] + blank * (it.end - it.start) + text[it.end :]
    return text


def without_comments(text):
    """Give a text of code without its comments, and without the lines that have nothing else."""
    marked = NO_CODE.sub(lambda it: MARK if it[0].startswith("//") else it[0], text)
    return MARKED.sub("", marked)


@functools.cache
def atop_of(file):
    """Give the attributes that a file of code has for all that is in it, or for modules."""
    return ATOP.findall(file.code)


@functools.cache
def paths_by_name(file):
    """Give the paths that a file of code brings in, by their names here."""
    lines = [it for it in BROUGHT_IN.findall(file.code) if "ghost use" not in it]
    return {name: path for line in lines for name, path in paths_of(line.partition("use ")[2].strip(" ;")).items()}


def paths_of(tree):
    """Give the paths after `use`, by their names here."""
    head, bracket, rest = re.sub(r"\s+", " ", tree).partition("{")
    if not bracket:
        path, _, alias = head.strip().partition(" as ")
        return {alias or last_of(path): path} if path else {}
    found, first, depth = {}, 0, 0
    inner = rest.rpartition("}")[0] + ","
    for at, sign in enumerate(inner):
        depth += (sign == "{") - (sign == "}")
        if sign == "," and not depth:
            found |= {name: head + path for name, path in paths_of(inner[first:at]).items()}
            first = at + 1
    return found
