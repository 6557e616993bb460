"""The cases of examples/: words of a command line, what goes in, and what has to come out.

A file COMMAND.cases has cases with a blank line between them, each of lines of a word, a colon and a text:

    case: NAME
    run: WORDS          as a shell reads them; ROOM in them is a folder of the test's own
    status: NUMBER      0 by default
    in: LINE            of standard input; `in: nothing` alone where that is empty
    answers: FF -- 01   the same, several lines in one
    bytes: 44 42        the same, of bytes in hexadecimal digits
    out: LINE           of standard output
    has: LINE           the same, where other lines may stand between
    file: PATH          a file that standard output has to be
    frames: A301 C300   the same, several lines in one
    err: LINE           of standard error, which isn't looked at if there is no such line
    each: GIVEN | OUT   a case by itself: with GIVEN in the place of EACH in its words, or as the line of standard input
                        if the words have no EACH, and these lines of standard output, a bar between them
"""

import pathlib
import shlex

ROOT = pathlib.Path(__file__).resolve().parent.parent


class Case:
    """A case: its words and what belongs to them, as bytes; `error` is None where standard error isn't looked at.

    `is_whole` tells whether standard output has the lines of `wanted` alone.
    """

    def __init__(self, rows):
        self.name = text_of(rows, "case")[0]
        self.words = shlex.split(text_of(rows, "run")[0])
        self.status = int((text_of(rows, "status") or ["0"])[0])
        self.given = lines_of(rows, "in", "answers") + bytes.fromhex("".join(text_of(rows, "bytes")))
        self.is_whole = not text_of(rows, "has")
        self.wanted = lines_of(rows, "out", "frames") + lines_of(rows, "has")
        self.wanted += b"".join((ROOT / path).read_bytes() for path in text_of(rows, "file"))
        self.error = lines_of(rows, "err") if text_of(rows, "err") else None

    def words_in(self, room):
        """Give the words, with a folder for ROOM."""
        return [word.replace("ROOM", str(room)) for word in self.words]

    def is_wanted(self, output):
        """Tell whether standard output is as it has to be."""
        lines = iter(output.splitlines())
        return output == self.wanted if self.is_whole else all(line in lines for line in self.wanted.splitlines())


def text_of(rows, word):
    """Give the texts of the lines that begin with a word."""
    return [rest for first, rest in rows if first == word]


def lines_of(rows, word, several=None):
    """Give the lines of a stream, whole or several in one."""
    lines = []
    for first, rest in rows:
        if first == word and rest != "nothing":
            lines.append(rest)
        elif first == several:
            lines += rest.split()
    return "".join(f"{line}\n" for line in lines).encode()


def singly(rows):
    """Give the rows of the cases that these rows are: one, or one for each of its lines `each`."""
    common = [(word, rest) for word, rest in rows if word != "each"]
    if len(common) == len(rows):
        yield rows
    for number, row in enumerate(text_of(rows, "each"), 1):
        given, *told = row.split(" | ")
        words = {"case": f"{text_of(rows, 'case')[0]} {number}", "run": text_of(rows, "run")[0].replace("EACH", given)}
        is_input = "EACH" not in text_of(rows, "run")[0]
        yield [(word, words.get(word, rest)) for word, rest in common] + [("in", given)] * is_input + [
            ("out", line) for line in told
        ]


def all_cases():
    """Give all cases."""
    for path in sorted((ROOT / "examples").glob("*.cases")):
        for text in path.read_text(encoding="utf-8").strip("\n").split("\n\n"):
            rows = [line.partition(":") for line in text.split("\n")]
            for single in singly([(word, rest.removeprefix(" ")) for word, _, rest in rows]):
                yield Case(single)


def case_of(name):
    """Give the case of a name."""
    return next(it for it in all_cases() if it.name == name)
