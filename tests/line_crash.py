#!/usr/bin/env python3
"""Run the line computer and kill it at one of its calls: for tests/test_line_computer.py.

    line_crash.py KIND NUMBER WHEN COMMAND WORDS..

KIND is `commit`, of a transaction or of a change by itself; `write` of a line to the pipe of orders, or to standard
output; `read` of the pipe of replies; `rename`, or `sync` of a file or a folder; `label`, the making of one within a
transaction. It is killed by SIGKILL at the call of this number, counted from 1, `before` or `behind` it.
"""

import os
import pathlib
import signal
import sys

sys.dont_write_bytecode = True
sys.path.insert(0, str(pathlib.Path(__file__).resolve().parent.parent / "tools"))

from line_computer import commands, database, journals, link, outputs  # noqa: E402


class Calls:
    """The module `os`, with some calls counted, of which one kills this process."""

    def __init__(self, kind, number, is_before):
        self.kind, self.left, self.is_before = kind, number, is_before

    def counted(self, kind, call):
        """Give a call that is counted, if it is of the kind."""

        def made(*arguments, **more):
            self.left -= kind == self.kind
            is_it = kind == self.kind and self.left == 0
            if is_it and self.is_before:
                os.kill(os.getpid(), signal.SIGKILL)
            try:
                return call(*arguments, **more)
            finally:
                if is_it:
                    os.kill(os.getpid(), signal.SIGKILL)

        return made

    def __getattr__(self, name):
        kind = {"read": "read", "write": "write", "fsync": "sync"}.get(name)
        return self.counted(kind, getattr(os, name)) if kind else getattr(os, name)


def main(arguments):
    """Count the calls of a kind, and run the command."""
    kind, number, when = arguments[:3]
    calls = Calls(kind, int(number), when == "before")
    link.os = outputs.os = journals.os = calls
    commit, change = database.Database.commit, database.Database.change

    def changed(self, statement, *values):
        """Make a change, which is a commit by itself outside of a transaction."""
        is_alone = statement.startswith(("insert", "update")) and not getattr(self, "is_inside", False)
        self.is_inside = statement.startswith("begin") or getattr(self, "is_inside", False)
        if statement in ("commit", "rollback"):
            self.is_inside = False
        is_label = statement.startswith("insert into bench_labels")
        kind = "label" if is_label else "commit" if is_alone else None
        return (calls.counted(kind, change) if kind else change)(self, statement, *values)

    database.Database.change = changed
    database.Database.commit = calls.counted("commit", commit)
    pathlib.Path.rename = calls.counted("rename", pathlib.Path.rename)
    return commands.main(arguments[3:])


if __name__ == "__main__":
    sys.exit(main(sys.argv[1:]))
