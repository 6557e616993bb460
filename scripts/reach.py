"""The definitions that the clauses of functions reach."""

import collections

from crates import CRATES, uses
from source import File
from terms import Names, tokens_of


class NoContract(Exception):
    """A name that is no contract's, or a row that isn't one of contracts."""


def functions_of(contract):
    """Give the functions that a contract's name means."""
    crate, *path = contract.split("::")
    for count in range(len(path), 0, -1):
        file = CRATES.joinpath(crate, "src", *path[:count]).with_suffix(".rt")
        if file.is_file():
            break
    else:
        raise NoContract(f"{contract} is in no file of the code")
    rest, source = path[count:], File(CRATES, file)
    found = [it for it in source.parts if it.kind == "fn" and it.clauses() and rest in names_of(it)]
    if not found:
        raise NoContract(f"{contract} has no clauses")
    return found


def names_of(function):
    """Give the paths that mean a function within its file: none at all is all of the file."""
    owner = function.owner and function.owner.name
    return [[], [function.name], [owner], [owner, function.name]]


def named(functions, library):
    """Give the items of specs/ that the clauses of functions name."""
    found = set()
    for function in functions:
        imports = function.file.imports(function)
        names = Names(lambda path: False)
        for start, end in function.clauses():
            names.term(tokens_of(function.file.text[start:end]), frozenset(function.bound()))
        found |= {library.item(imports, path) for path in names.found}
    return found - {None}


class Reached:
    """The definitions that the clauses of functions reach."""

    def __init__(self, functions, library):
        waiting = named(functions, library)
        self.definitions = set()
        self.needs = collections.defaultdict(set)
        while waiting:
            item = waiting.pop()
            if item in self.definitions or not item.is_definition():
                continue
            self.definitions.add(item)
            others = library.used(item)
            self.needs[item.module] |= {it.module for it in others if it.is_definition()} - {item.module}
            waiting |= others

    def lines(self):
        """Count the lines of all."""
        return sum(it.lines() for it in self.definitions)

    def files(self):
        """Give the files by crate from the top down, in a crate each before those that it needs."""
        ranks = {name: rank for rank, name in enumerate(uses())}
        modules = {it.module for it in self.definitions}
        return sorted(modules, key=lambda it: (-ranks.get(it.crate, 0), -self.depth(it), it.name))

    def depth(self, module):
        """Give how many files of its crate stand on each other below a file."""
        own = [it for it in self.needs[module] if it.crate == module.crate]
        return 1 + max(map(self.depth, own), default=0)

    def tell(self):
        """Tell of the definitions file by file, and how many all are."""
        for module in self.files():
            having = [it for it in module.items.values() if it in self.definitions]
            print(f"{module.path.relative_to(CRATES)}: {sum(it.lines() for it in having)}")
            for item in having:
                print(f"    {item.lines():3} {item.name}")
        print(f"lines: {self.lines()}, definitions: {len(self.definitions)}, files: {len(self.files())}")
