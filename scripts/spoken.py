"""The words beside the code: the items of the Python code with their docstrings, constants, and comments."""

import ast
import re

from crates import CRATES, ROOT, text_of

# The folders of Python code, with what has no suffix.
FOLDERS = ("adapters", "tools", "scripts", "benchmarks")
CONSTANT = re.compile(r"\s*(?:pub(?:\(crate\))? )?(?:const|static) (?P<name>[A-Z]\w*): [^=]*= (?P<value>[^;]*)")
COMMENT = re.compile(r"\s*(?://[/!]?|--) (?P<text>.*)")


def python_files():
    """Give the files of the Python code."""
    for folder in FOLDERS:
        for path in sorted(it for it in (ROOT / folder).rglob("*") if it.is_file() and it.suffix in (".py", "")):
            if path.suffix or text_of(path).startswith("#!/usr/bin/env python3"):
                yield path


def python_items():
    """Give each function, class and constant of the Python code: its file, line, name, and what is said of it."""
    for path in python_files():
        lines = text_of(path).split("\n")
        tree = ast.parse(text_of(path))
        yield path, 1, path.stem, ast.get_docstring(tree) or ""
        for node in ast.walk(tree):
            if isinstance(node, (ast.FunctionDef, ast.ClassDef)):
                yield path, node.lineno, node.name, ast.get_docstring(node) or ""
        for node in tree.body:
            for target in node.targets if isinstance(node, ast.Assign) else ():
                for name in (it.id for it in ast.walk(target) if isinstance(it, ast.Name)):
                    before = lines[node.lineno - 2] if node.lineno > 1 else ""
                    yield path, node.lineno, name, " ".join(re.findall(r"# (.*)", f"{before}\n{lines[node.lineno - 1]}"))


def code_files():
    """Give the files of code and of definitions."""
    return sorted(it for kind in ("*/src/**/*.rt", "*/specs/**/*.antt") for it in CRATES.glob(kind))


def constants():
    """Give each constant of the program: its file, line, name and value, a number without its `_`."""
    for path in code_files():
        for number, line in enumerate(text_of(path).split("\n"), 1):
            found = CONSTANT.match(line)
            if found:
                yield path, number, found["name"], re.sub(r"(?<=\d)_(?=\d)", "", found["value"])


def comments():
    """Give each comment of the code and the definitions, in one line: its file, its line, its text."""
    for path in code_files():
        begun, parts = None, []
        for number, line in enumerate([*text_of(path).split("\n"), ""], 1):
            found = COMMENT.match(line)
            if found:
                begun = begun or number
                parts.append(found["text"])
            elif parts:
                yield path, begun, " ".join(parts)
                begun, parts = None, []


def has_all(text, words):
    """Tell whether a text has all of these words, in any case."""
    return all(re.search(rf"(?<!\w){re.escape(word)}(?!\w)", text, re.IGNORECASE) for word in words)
