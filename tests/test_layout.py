#!/usr/bin/env python3
"""Test how the code is laid out, and the words of its comments.

1. No line of code, definitions and proofs has more than 120 columns; what brings names in may have more.
2. No comment, docstring or rule of a wrong body, in the crates and in the Python code, has a word that the books avoid,
   or begins with a clause in place of a subject.
3. The root file of each crate says why it is a crate of its own.
4. No module of tests/ imports one that has tests: what several need is in a module without any.
5. No test is in parts by its name: `in_cases` of tests/base.py makes a test for each case.

The last line is `N passed, M failed`, over the files.
"""

import ast
import io
import pathlib
import re
import sys
import tokenize

sys.dont_write_bytecode = True

from test_documents import AVOIDED, CLAUSE_FIRST  # noqa: E402

ROOT = pathlib.Path(__file__).resolve().parent.parent
TESTS = ROOT / "tests"
MOST = 120
REASON = "//! A crate of its own: "
IS_IMPORT = re.compile(r"\s*(pub )?(ghost )?use ")
PYTHON = ("adapters", "benchmarks", "scripts", "tests", "tools")
PROGRAM = "#!/usr/bin/env python3"
# The one import of a module with tests: that module has the words, and looks for them in the books.
ALLOWED = {("test_layout", "test_documents")}
IN_PARTS = re.compile(r"\w*_part_\w*")
COMMENTS = {".rt": re.compile(r"\s*//[/!]? (.*)"), ".antt": re.compile(r"\s*-- (.*)"), ".edits": re.compile(r"rule: (.*)")}


def long_lines(lines):
    """Give the numbers of the lines that are too long."""
    return [number for number, line in enumerate(lines, 1) if len(line) > MOST and not IS_IMPORT.match(line)]


def blocks(lines, comment):
    """Give each comment with the number of its first line, in one line of text."""
    begun, text = None, []
    for number, line in enumerate([*lines, ""], 1):
        found = comment.match(line)
        if found:
            begun = begun or number
            text.append(found[1])
        if text and (not found or comment is COMMENTS[".edits"]):
            yield begun, " ".join(text)
            begun, text = None, []


def python_files():
    """Give the files of Python, with and without a suffix."""
    found = [it for name in PYTHON for it in (ROOT / name).rglob("*") if it.is_file() and it.suffix in (".py", "")]
    return sorted(it for it in found if it.suffix or it.read_bytes().startswith(PROGRAM.encode()))


def python_comments(text):
    """Give each comment of a file of Python with the number of its first line, in one line of text."""
    begun, last, words = 0, 0, []
    for token in tokenize.generate_tokens(io.StringIO(text).readline):
        if token.type == tokenize.COMMENT:
            number, is_alone = token.start[0], not token.line[:token.start[1]].strip()
            if words and not (is_alone and number == last + 1):
                yield begun, " ".join(words)
                words = []
            begun, last = begun if words else number, number if is_alone else 0
            words.append(token.string.lstrip("# "))
    if words:
        yield begun, " ".join(words)


def docstrings(text):
    """Give each paragraph of the docstrings of a file of Python, as its first line's number and one line of text."""
    for node in ast.walk(ast.parse(text)):
        is_documented = isinstance(node, (ast.Module, ast.ClassDef, ast.FunctionDef, ast.AsyncFunctionDef))
        if is_documented and ast.get_docstring(node):
            at = node.body[0].lineno
            for paragraph in node.body[0].value.value.split("\n\n"):
                yield at, " ".join(paragraph.split())
                at += paragraph.count("\n") + 2


def worded_ill(comments):
    """Give the numbers of the comments with a word that is avoided, each with the word."""
    for number, text in comments:
        plain = re.sub(r"`[^`]*`", "`x`", text)
        for pattern in (*AVOIDED, CLAUSE_FIRST):
            found = re.search(pattern, plain)
            if found:
                yield number, found[0]


def root_of(folder):
    """Give the root file of a crate, of whose files this folder has some."""
    return folder / ("lib.rt" if (folder / "lib.rt").exists() else "main.rt")


def wrong_in(path):
    """Give what is wrong in a file."""
    lines = path.read_text(encoding="utf-8").split("\n")
    long = long_lines(lines) if path.suffix != ".edits" else []
    if path == root_of(path.parent) and not any(line.startswith(REASON) for line in lines):
        return [f"1: no line begins with {REASON!r}"]
    return [*(f"{number}: over {MOST} columns" for number in long),
            *(f"{number}: {word!r} in a comment" for number, word in worded_ill(blocks(lines, COMMENTS[path.suffix])))]


def wrong_in_python(path):
    """Give what is wrong in a file of Python."""
    text = path.read_text(encoding="utf-8")
    found = [f"{number}: {word!r} in a comment" for number, word in worded_ill(python_comments(text))]
    return found + [f"{number}: {word!r} in a docstring" for number, word in worded_ill(docstrings(text))]


def names_of(node):
    """Give the last parts of the names of the classes that a class derives from."""
    return [it.attr if isinstance(it, ast.Attribute) else it.id for it in node.bases]


def modules_with_tests(trees):
    """Give the modules that have tests: a class of tests, a function `test_..`, or a name by which the gate runs them."""
    of_class = [(name, it) for name, tree in trees.items() for it in ast.walk(tree) if isinstance(it, ast.ClassDef)]
    kinds, before = {"TestCase"}, set()
    while kinds != before:
        before = set(kinds)
        kinds |= {it.name for _, it in of_class if before.intersection(names_of(it))}
    found = {name for name, it in of_class if kinds.intersection(names_of(it)) and it.name != "BenchTest"}
    named = {name for name, tree in trees.items()
             if any(it.startswith("test_") for it in (name, *(getattr(part, "name", "") for part in tree.body)))}
    return found | named


def imported(tree):
    """Give the modules that a module imports, each with the number of its line."""
    for node in ast.walk(tree):
        if isinstance(node, ast.ImportFrom):
            yield node.lineno, node.module
        elif isinstance(node, ast.Import):
            yield from ((node.lineno, it.name) for it in node.names)


def wrong_imports(trees):
    """Give for each module of tests/ what is wrong in its imports and in the names of its tests."""
    having = modules_with_tests(trees)
    for name, tree in trees.items():
        found = [f"{number}: it imports {other}, which has tests" for number, other in imported(tree)
                 if other in having and (name, other) not in ALLOWED]
        defined = [it for it in ast.walk(tree) if isinstance(it, ast.FunctionDef)]
        assigned = [it for it in ast.walk(tree) if isinstance(it, ast.Name) and isinstance(it.ctx, ast.Store)]
        names = [(it.lineno, it.name) for it in defined] + [(it.lineno, it.id) for it in assigned]
        yield name, found + [f"{number}: {it} is in parts" for number, it in names if IN_PARTS.fullmatch(it)]


def main():
    """Test, tell what failed, and return the status."""
    folders = [it for name in ("src", "specs", "proofs", "wrong-bodies") for it in ROOT.glob(f"crates/*/{name}")]
    files = sorted(it for folder in folders for it in folder.rglob("*") if it.suffix in COMMENTS)
    wrong = {path: wrong_in(path) for path in files}
    wrong |= {path: wrong_in_python(path) for path in python_files()}
    trees = {path.stem: ast.parse(path.read_text(encoding="utf-8")) for path in sorted(TESTS.glob("*.py"))}
    for name, found in wrong_imports(trees):
        wrong[TESTS / f"{name}.py"] += found
    for path, found in wrong.items():
        for it in found:
            print(f"FAILED: {path.relative_to(ROOT)}:{it}")
    failed = sum(bool(found) for found in wrong.values())
    print(f"{len(wrong) - failed} passed, {failed} failed")
    return bool(failed)


if __name__ == "__main__":
    sys.exit(main())
