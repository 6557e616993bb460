"""The items of the code in the crates: where each stands, its contract's terms, and the words of its text."""

import bisect
import re

from antt import Imports
from crates import text_of

# Comments, texts and single characters: what stands in them is no code. A lifetime is none of these.
NO_CODE = re.compile(r"""//[^\n]*|b?"(?:\\.|[^"\\])*"|b?'(?:\\[^']+|[^'\\\n])'""", re.DOTALL)
# A part of a text: a bracket with a name that is filled in there, or one character.
NO_NAME = re.compile(r"(?<!\{)\{(?P<name>[A-Za-z_]\w*)(?=[:}])|.", re.DOTALL)
VISIBLE = r"(?:pub(?:\([^)]*\))? )?"
WORDS = r"(?:(?:const|unsafe|default|final) )*"
ITEM = re.compile(
    rf"(?P<indent> *){VISIBLE}(?:{WORDS}(?P<fn>fn) |(?P<kind>struct|enum|trait|const|static|type) )(?P<name>\w+)"
)
IMPL = re.compile(r"(?P<indent> *)impl(?:<[^{]*?>)? (?:(?P<trait>[^{]*?) for )?(?P<name>\w+)")
# The words straight before the bracket that opens a clause.
IS_CLAUSE = re.compile(r"\b(requires|ensures)\b[\s\w*]*$|\bghost [\w ]+?(?: =|:)\s*$")
BROUGHT_IN = re.compile(r"^ *(?:pub(?:\([^)]*\))? )?(?:ghost )?use [^;]*;", re.MULTILINE)
OPENING, CLOSING = "([{", ")]}"


def blank_of(text):
    """Give blanks for a text, each line as long as it was."""
    return re.sub(r"[^\n]", " ", text)


def code_of(text):
    """Give a text with blanks for its comments, texts and characters, except names that a text is filled in with."""
    return NO_CODE.sub(lambda it: blank_of(it[0]) if it[0][0] != '"' else re.sub(NO_NAME, blank_in, it[0]), text)


def blank_in(found):
    """Give blanks for a part of a text, or the name in it."""
    return " " + found["name"] if found["name"] else blank_of(found[0])


class Part:
    """An item of the code: a function, a type, a trait, a constant, or a block `impl`."""

    def __init__(self, file, found, start, end, owner):
        words = found.groupdict()
        self.file, self.start, self.end, self.owner = file, start, end, owner
        self.after = found.end()
        self.kind = "impl" if found.re is IMPL else words.get("fn") or words["kind"]
        self.name, self.trait = words["name"], words.get("trait")
        self.line = file.code.count("\n", 0, start) + 1

    def full_name(self):
        """Give its name, and before it that of its type or trait."""
        return f"{self.owner.name}::{self.name}" if self.owner else self.name

    def clauses(self):
        """Give the terms of its own clauses and ghost members: where each starts and ends."""
        return [it for it in self.file.terms if self.file.innermost(it[0]) is self]

    def attributes(self):
        """Give the lines of attributes straight before it."""
        rows = self.file.code[: self.start].split("\n")[:-1]
        found = []
        while rows and rows[-1].strip().startswith("#["):
            found.append(rows.pop().strip())
        return "\n".join(found)

    def has_no_body(self):
        """Tell whether a function's body is empty."""
        return self.file.code[: self.end].endswith("{}")

    def bound(self):
        """Give the names that its clauses have without bringing them in: its parameters, and what it returns."""
        code = self.file.code
        first = parameters_at(code, self.after)
        # Type parameters stand before the parameters.
        names = {"self", "result"} | set(re.findall(r"[<,]\s*(?:const )?(\w+)\s*(?=[:,>])", code[self.after : first]))
        parameters = code[first : end_of_bracket(code, first)]
        return names | set(re.findall(r"[(,]\s*(?:mut )?(\w+)\s*:(?!:)", parameters))


def parameters_at(code, at):
    """Give where the bracket of the parameters opens, after type parameters if there are any."""
    depth = 0
    while at < len(code) and (depth or code[at] != "("):
        depth += (code[at] == "<") - (code[at] == ">" and code[at - 1] != "-")
        at += 1
    return at


def end_of_bracket(code, at):
    """Give where the bracket that opens here is closed, and that taken in."""
    depth = 0
    for here in range(at, len(code)):
        depth += (code[here] in OPENING) - (code[here] in CLOSING)
        if depth == 0:
            return here + 1
    return len(code)


def end_of_item(code, at):
    """Give where an item ends that starts here: after its semicolon, or its body."""
    while at < len(code):
        if code[at] == ";":
            return at + 1
        if code[at] in OPENING:
            opening, at = at, end_of_bracket(code, at)
            if code[opening] == "{" and not IS_CLAUSE.search(code, max(0, opening - 200), opening):
                return at
        else:
            at += 1
    return at


class File:
    """A file of code: its crate and module, what its terms bring in, and its items, those within blocks too."""

    def __init__(self, crates, path):
        self.path, self.crate = path, path.relative_to(crates).parts[0]
        parts = path.relative_to(crates / self.crate / "src").with_suffix("").parts
        self.module = "::".join(parts)
        self.text = text_of(path)
        self.code = code_of(self.text)
        self.renamed = {new: old for old, new in re.findall(r"(\w+) as (\w+)", "".join(BROUGHT_IN.findall(self.code)))}
        self.parts, self.uses = [], None
        self.read(0, len(self.code), "", None)
        self.lines = []
        self.rows = [0, *(it.end() for it in re.finditer("\n", self.code))]
        self.holding = [None] * len(self.rows)
        for part in self.parts:
            # An item comes after the block that it is in.
            first = bisect.bisect_right(self.rows, part.start) - 1
            last = bisect.bisect_right(self.rows, part.end - 1)
            self.holding[first:last] = [part] * (last - first)
        for found in re.finditer(r"^ *ghost (use [^;]*);", self.text, re.MULTILINE):
            self.lines.append((self.innermost(found.start()), found[1]))
        self.terms = [
            (it.end(), end_of_bracket(self.code, it.end() - 1) - 1)
            for it in re.finditer(r"(?:\b(?:requires|ensures)\b[\s\w*]*|\bghost [\w ]+?(?: =|:)\s*)\{", self.code)
        ]

    def read(self, at, end, indent, owner):
        """Read the items in a part of the text that are indented so."""
        while at < end:
            stop = self.code.find("\n", at)
            stop = end if stop < 0 else stop
            found = ITEM.match(self.code, at) or IMPL.match(self.code, at)
            if not found or found["indent"] != indent:
                at = stop + 1
                continue
            part = Part(self, found, at, end_of_item(self.code, found.end()), owner)
            self.parts.append(part)
            if part.kind in ("impl", "trait"):
                inner = self.code.index("{", found.end())
                self.read(self.code.find("\n", inner) + 1, part.end, indent + "    ", part)
            at = part.end

    def innermost(self, at):
        """Give the innermost item that holds a place of the text, or None."""
        return self.holding[bisect.bisect_right(self.rows, at) - 1]

    def is_term(self, text):
        """Tell whether a text stands in a term of the file."""
        at = self.text.find(text)
        return any(start <= at < end for start, end in self.terms)

    def brought_in(self):
        """Give the words of each line `use` of the code, which begin with its crate or what stands for that."""
        if self.uses is None:
            self.uses = [re.findall(r"\w+", it.partition("use ")[2]) for it in BROUGHT_IN.findall(self.code)]
        return self.uses

    def imports(self, part):
        """Give what the terms of an item bring in, by the lines of the file and of the block around it; of None all."""
        made = Imports()
        for around, line in self.lines:
            if part is None or around in (None, part, part.owner):
                made.read(line)
        return made


# A word of the code, with what stands before it: a dot, or the name of a type or module.
WORD = re.compile(r"(?P<before>(?<!\.)\.\s*|\b(?P<path>\w+)::)?\b(?P<name>[A-Za-z_]\w*)(?P<macro>!(?!=))?")
# The methods that macros call.
MACROS = {"write": "write_fmt", "writeln": "writeln"}


class Calls:
    """Which items of the code use which, by their names."""

    def __init__(self, files):
        self.files = files
        self.by_name = {}
        for part in self.parts():
            self.by_name.setdefault(part.name, []).append(part)
        self.uses_of = {part: set() for part in self.parts()}
        for file in files:
            self.read(file)
        for part in self.parts():
            self.read_blocks(part)

    def parts(self):
        """Give all items."""
        return [part for file in self.files for part in file.parts]

    def used(self, part):
        """Give the items that an item uses."""
        return self.uses_of[part]

    def read(self, file):
        """Read which items those of a file name, in their code and in their clauses."""
        code, terms = BROUGHT_IN.sub(lambda it: blank_of(it[0]), file.code), blank_of(file.code)
        for start, end in file.terms:
            terms = terms[:start] + code[start:end] + terms[end:]
            code = code[:start] + blank_of(code[start:end]) + code[end:]
        for text, is_term in ((code, False), (terms, True)):
            for found in WORD.finditer(text):
                user = file.innermost(found.start("name"))
                if user:
                    self.uses_of[user] |= {*self.meant(file, user, found, is_term)} - {user}

    def meant(self, file, user, found, is_term):
        """Give the items that a word may mean."""
        name = MACROS.get(found["name"]) if found["macro"] else found["name"]
        having, path = self.by_name.get(name, []), found["path"]
        if path == "Self" and user.owner:
            path = user.owner.name
        if is_term:
            return [it for it in having if it.kind not in ("fn", "impl")]
        if found["macro"] or (found["before"] or "").startswith("."):
            return [it for it in having if it.owner]
        owned = [it for it in having if it.owner and it.owner.name == path]
        if owned:
            return owned
        return near(file, path, [it for it in having if not it.owner and it.kind != "impl"])

    def read_blocks(self, part):
        """Note what a block `impl` belongs to: its type, and of a trait all methods in it."""
        if part.owner:
            self.uses_of[part].add(part.owner)
        if part.kind == "impl":
            for it in self.by_name[part.name]:
                if it.kind in ("struct", "enum", "trait", "type") and part.trait:
                    self.uses_of[it].add(part)
        elif part.owner and part.owner.trait:
            self.uses_of[part.owner].add(part)

    def declared(self, pairs):
        """Give the types that antt names, by their crates and names."""
        kinds = ("struct", "enum", "trait", "type", "const", "static")
        return {it for it in self.parts() if it.kind in kinds and (it.file.crate, it.name) in pairs}

    def read_edit(self, path, old, new):
        """Read which items a changed line names, as if the item that it stands in did."""
        file = next((it for it in self.files if it.path == path), None)
        at = file.text.find(old) if file else -1
        user = file.innermost(at) if at >= 0 else None
        if user and not file.is_term(old):
            named = {it for word in WORD.finditer(code_of(new)) for it in self.meant(file, user, word, False)}
            self.uses_of[user] |= named - {user}

    def mains(self):
        """Give the functions that programs begin with."""
        return {it for it in self.parts() if it.name == "main" and it.file.path.stem == "main"}

    def tests(self):
        """Give the tests."""
        return {it for it in self.parts() if "#[test]" in it.attributes()}

    def laws(self):
        """Give the functions with a contract and no body, and what is proved of constants."""
        return {it for it in self.parts() if it.name == "_" or it.kind == "fn" and it.has_no_body() and it.clauses()}


def near(file, path, having):
    """Of items with one name give those that a word of a file may mean, which has a path before it or none."""
    if path:
        path = file.renamed.get(path, path)
        by_path = [it for it in having if path in (it.file.path.stem, it.file.crate)]
        return by_path or (having if path in ("super", "crate", "self") or path.startswith("dali_") else [])
    own = [it for it in having if it.file is file]
    if own or not having:
        return own
    for words in file.brought_in():
        if having[0].name in words:
            crate = file.crate if words[0] in ("crate", "super", "self") else words[0]
            return [it for it in having if it.file.crate == crate] or having
    return []


def files_of(crates, name):
    """Give the files of a crate's code."""
    return [File(crates, it) for it in sorted((crates / name / "src").rglob("*.rt"))]
