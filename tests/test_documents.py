#!/usr/bin/env python3
"""Test that what the documents say of code and definitions is there.

A name that is linked to a file, as [`IsGtin`](../crates/dali_bank/specs/Gtin.antt), has to stand there: an item of the
code, or a definition. A table with the columns of HEAD says where rules live: each row has such a link. Its contracts
and laws, edits and tests are listed by `scripts/where`.

Each promise of README names the laws and calls that carry it, each of which has a contract.

It fails besides if a name of several words, as `IsGtin`, is in no code, definition or proof and in no unit of the
service; if README doesn't say in the words of the help what the program is; if a diagram has no arrows; if a link leads
nowhere; if a script that BENCHMARKS.md names can't be begun; if a book has a word that is avoided (AVOIDED), a paragraph
or a cell that is too long; if README or all books are too long; if a walk of TOUR doesn't follow the code; and
if a term of the glossary has several rows, or is used in no other book. The last line is `N passed, M failed`.
"""

import os
import pathlib
import re
import subprocess
import sys

ROOT = pathlib.Path(__file__).resolve().parent.parent
sys.dont_write_bytecode = True
sys.path.insert(0, str(ROOT / "scripts"))
from antt import Module  # noqa: E402
from crates import CRATES, text_of  # noqa: E402
from source import File  # noqa: E402

HEAD = "| rule | where it lives |"
SEVERAL_WORDS = re.compile(r"`([A-Z][a-z]+[A-Z][a-z]\w*)[`.]")
LINK = re.compile(r"\[(?P<text>[^\]]*)\]\((?P<path>[^)#\s]*)(?:#(?P<anchor>[^)\s]*))?\)")
DIAGRAM = re.compile(r"```mermaid\n(.*?)```", re.DOTALL)
FENCED = re.compile(r"^```.*?^```$", re.DOTALL | re.MULTILINE)

# The most bytes of README and of all books, and the most characters of a paragraph and of a cell, without links' targets.
KIB = 1024
MOST_README, MOST_BOOKS = 9 * KIB, 230 * KIB
MOST_PARAGRAPH, MOST_CELL = 720, 300
# Words that books and comments avoid, with what is said in their place.
AVOIDED = {
    r"\bbehind\b": "after, past, below",
    r"\bso many\b": "this many, as many as, N",
    r"\b(?:is|are|was|were|be) told\b": "reported, printed, shown, known",
    r"\bwhere that is asked\b": "with the option",
    r"\b(?:goes|go|going|went) by\b": "uses, follows, depends on",
    r"\bstands (?:still|there|here|so)\b": "is",
    r"(?<![\w.]) but for\b": "except",
}
# Sentences that begin with a clause in place of a subject. A question may.
CLAUSE_FIRST = re.compile(r"(?:^|[.:;] |^- |^\d+\. |\| )(?:\*\*)?(?:What|Who|Whoever)\b(?![^.|:;]*[?])")


def names_of(path):
    """Give the names that a file of code or of definitions has items of."""
    if path.suffix == ".antt":
        module = Module(CRATES, path)
        return {*module.items, *module.constructors}
    return {name for part in File(CRATES, path).parts for name in (part.name, part.full_name())}


class Judge:
    """The count of what was right, and each wrong thing."""

    def __init__(self):
        self.passed, self.wrong = 0, []
        parts = ("crates/*/src/**/*.rt", "crates/*/specs/**/*.antt", "crates/*/proofs/**/*.antt", "service/*.service")
        written = [it for part in parts for it in ROOT.glob(part)]
        self.names = {name for path in written for name in re.findall(r"\w+", text_of(path))}

    def look(self, is_so, where, what):
        """Count what is so, and note what isn't."""
        self.passed += bool(is_so)
        if not is_so:
            self.wrong.append(f"{where}: {what}")

    def rows(self, path):
        """Look whether each row of a table of rules says where the rule lives."""
        is_row = False
        for number, line in enumerate(text_of(path).split("\n"), 1):
            if is_row and line.startswith("|") and not line.startswith("|--"):
                self.look(re.search(r"\]\(\.\./crates/", line), f"{path.relative_to(ROOT)}:{number}", "it links no home")
            is_row = line == HEAD or is_row and line.startswith("|")

    def links(self, path):
        """Look at the links of a document."""
        for number, line in enumerate(text_of(path).split("\n"), 1):
            for found in LINK.finditer(line):
                if found["path"].startswith(("http:", "https:")):
                    continue
                target = (path.parent / found["path"]).resolve() if found["path"] else path
                where = f"{path.relative_to(ROOT)}:{number}"
                self.look(target.exists(), where, f"{found['path']} isn't there")
                if found["anchor"] and target.is_file():
                    self.look(found["anchor"] in anchors_of(target), where, f"no heading {found['anchor']} there")
                for name in found["text"].replace("`", "").split(", "):
                    if target.suffix in (".rt", ".antt") and target.is_file() and name != target.name:
                        self.look(name in names_of(target), where, f"{name} isn't in {found['path']}")

    def diagrams(self, path):
        """Look whether each diagram has arrows."""
        for found in DIAGRAM.findall(text_of(path)):
            self.look("--" in found, path.relative_to(ROOT), "a diagram without arrows")

    def words(self, path):
        """Look at the names of a document, wherever they stand."""
        for number, line in enumerate(text_of(path).split("\n"), 1):
            for name in SEVERAL_WORDS.findall(line):
                self.look(name in self.names, f"{path.relative_to(ROOT)}:{number}", f"{name} is nowhere")

    def wording(self, path):
        """Look for words that are avoided, sentences that begin with a clause, and what is too long, outside of blocks."""
        text = FENCED.sub(lambda it: re.sub(r"[^\n]", "", it[0]), text_of(path))
        for number, line in enumerate(text.split("\n"), 1):
            where, words = f"{path.relative_to(ROOT)}:{number}", re.sub(r"\]\([^)]*\)", "]", line)
            plain = re.sub(r"`[^`]*`", "`x`", words)
            for avoided, better in AVOIDED.items():
                found = re.search(avoided, plain)
                self.look(not found, where, f"{found and found[0]!r}, better: {better}")
            is_heading = line.startswith("#")
            self.look(is_heading or not CLAUSE_FIRST.search(plain), where, "it begins with a clause in place of a subject")
            if line.startswith("|"):
                longest = max(map(len, words.split("|")))
                self.look(longest <= MOST_CELL, where, f"a cell of {longest} characters")
            else:
                self.look(len(words) <= MOST_PARAGRAPH, where, f"a paragraph of {len(words)} characters")

    def glossary(self, path, books):
        """Look whether each term of the glossary has one row alone, and is used in another book."""
        usual, _, ours = text_of(path).partition("\n| word | meaning |\n|---|---|\n")
        terms = re.findall(r"(?<!\*)\*([a-z][a-z -]*)\*(?!\*)", usual)
        terms += [term for row in ours.strip().split("\n") for term in row.split("|")[1].strip(" `").split(", ")]
        others = "\n".join(text_of(book) for book in books if book != path)
        for term in sorted(set(terms)):
            self.look(terms.count(term) == 1, path.relative_to(ROOT), f"{term} has several rows")
            self.look(re.search(rf"\b{term}", others, re.IGNORECASE), path.relative_to(ROOT), f"{term} is used nowhere")

    def walks(self, path):
        """Look whether each function of a walk names one before it in the walk, or is named by one."""
        walk = []
        for number, line in enumerate(text_of(path).split("\n"), 1):
            steps = re.findall(r"\[(`[\w`, ]+`)\]\((\S+\.rt)\)", line) if re.match(r"\d+\. \[`", line) else []
            walk = walk if steps and not line.startswith("1.") else []
            for name, file in ((name, file) for names, file in steps for name in re.findall(r"\w+", names)):
                text = body_of((path.parent / file).resolve(), name)
                is_joined = any(re.search(rf"\b{name}\b", its) or re.search(rf"\b{other}\b", text) for other, its in walk)
                self.look(is_joined or not walk, f"{path.relative_to(ROOT)}:{number}", f"{name} isn't on the way")
                walk.append((name, text))

    def lengths(self, readme, books):
        """Look whether README and all books are short enough."""
        of_readme, of_all = len(text_of(readme).encode()), sum(len(text_of(path).encode()) for path in books)
        self.look(of_readme <= MOST_README, readme.name, f"{of_readme} bytes, over {MOST_README}")
        self.look(of_all <= MOST_BOOKS, "README and docs", f"{of_all} bytes, over {MOST_BOOKS}")

    def promises(self, path):
        """Look whether each promise of README names what carries it, and whether that is there with a contract."""
        parts = [part for it in ROOT.glob("crates/*/src/**/*.rt") for part in File(CRATES, it).parts]
        held = {part.name for part in parts if part.kind == "fn" and part.clauses()}
        promised = text_of(path).partition("\n## What is promised\n")[2].partition("\n\n**Only tested**")[0]
        rows = re.findall(r"^\d\. .*", promised, re.MULTILINE)
        self.look(rows, path.name, "it promises nothing")
        for row in rows:
            carried = re.search(r"\((`[^()]*)\)$", row)
            self.look(carried, path.name, f"nothing carries: {row[:60]}")
        for name in re.findall(r"`([a-z]\w*)`", promised):
            self.look(name in held, path.name, f"{name} has no contract")

    def scripts(self, path):
        """Look whether each script that the document of the benchmarks names says how it is used."""
        how = {"stdout": subprocess.DEVNULL, "stderr": subprocess.DEVNULL}
        alone = {**os.environ, "PYTHONDONTWRITEBYTECODE": "1"}
        for name in sorted(set(re.findall(r"`(\w+\.py)`", text_of(path)))):
            script = ROOT / "benchmarks" / name
            is_begun = os.access(script, os.X_OK) and not subprocess.run([script, "--help"], env=alone, **how).returncode
            self.look(is_begun, path.relative_to(ROOT), f"{name} can't be begun")


def body_of(path, name):
    """Give the texts of the functions of a name in a file, without their names."""
    file = File(CRATES, path)
    parts = [it for it in file.parts if it.kind == "fn" and it.name == name]
    return "\n".join(file.text[it.start:it.end].partition(f"fn {name}")[2] for it in parts)


def anchors_of(path):
    """Give the names by which the headings of a document are linked to."""
    found = set()
    for line in text_of(path).split("\n"):
        if line.startswith("#"):
            words = re.sub(r"[^\w\- ]", "", line.lstrip("#").strip().lower())
            found.add(words.replace(" ", "-"))
    return found


def main():
    """Test, tell what failed, and return the status."""
    judge = Judge()
    documents = [ROOT / "README.md", *sorted((ROOT / "docs").glob("*.md"))]
    for path in documents:
        judge.rows(path)
        judge.links(path)
        judge.words(path)
        judge.diagrams(path)
        judge.wording(path)
    judge.lengths(documents[0], documents)
    judge.walks(ROOT / "docs" / "TOUR.md")
    judge.glossary(ROOT / "docs" / "GLOSSARY.md", documents)
    about = re.search(r'ABOUT: &str = "\\\n(.*?)";', text_of(CRATES / "dali_job" / "src" / "usages.rt"), re.DOTALL)
    said = re.sub(r"\\\n", "", about[1])
    judge.look(said in text_of(ROOT / "README.md").replace("`", ""), "README.md", f"it doesn't say, as the help: {said}")
    judge.promises(ROOT / "README.md")
    judge.scripts(ROOT / "docs" / "BENCHMARKS.md")
    for line in judge.wrong:
        print(f"FAILED: the documents: {line}")
    print(f"{judge.passed} passed, {len(judge.wrong)} failed")
    return bool(judge.wrong)


if __name__ == "__main__":
    sys.exit(main())
