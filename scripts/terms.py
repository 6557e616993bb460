"""The names that a term of antt speaks of: those that it doesn't bind itself, by a binder, a pattern or a field."""

import re

NAME = r'[^\s(){}.;,@"«»]+'
# A comment, a text, an escaped name, what follows a bracket by a dot, a name with what follows it by dots, a bracket.
TOKEN = re.compile(
    rf'--[^\n]*|"(?:\\.|[^"\\])*"|«[^»]*»|(?<=[)}}])(?:\.{NAME})+|{NAME}(?:\.{NAME})*|[(){{}}.;,@]'
)
CLOSING = {"(": ")", "{": "}", "[": "]"}
CLOSERS = set(CLOSING.values())
NO_NAMES = set("(){}.;,@=:")
# The tokens that end the scope of a binder, within the brackets around it.
ENDS = (",", ";", "|")


def tokens_of(text):
    """Give the tokens of a text, without comments: words with what follows a dot at once, and single brackets."""
    return [it for it in TOKEN.findall(text) if not it.startswith("--")]


class Names:
    """The names that terms speak of, as paths, by what tells whether a name in a pattern is a constructor's."""

    def __init__(self, is_constructor):
        self.is_constructor = is_constructor
        self.found = set()

    def say(self, word, bound):
        """Note a name that isn't bound."""
        path = tuple(word.strip("«»").split("."))
        if path[0] not in bound:
            self.found.add(path[:2])

    def term(self, tokens, bound=frozenset()):
        """Note the names of a term, and give the names bound after it."""
        walk = Walk(self, tokens, 0)
        return walk.until((), bound)

    def pattern(self, tokens, bound):
        """Note the constructors in a pattern and the types in it, and give what is bound with its variables."""
        made, at = set(), 0
        while at < len(tokens):
            word, at = tokens[at], at + 1
            path = tuple(word.strip("«»").split("."))
            if word == ":":
                end = at + level_index(tokens[at:], ")")
                self.term(tokens[at:end], bound)
                at = end
            elif word in NO_NAMES or word in ("_", "→", "record") or tokens[at : at + 1] == ["="]:
                continue
            elif self.is_constructor(path):
                self.say(word, ())
            elif len(path) == 1:
                made.add(path[0])
        return bound | made


def level_index(tokens, wanted):
    """Give where a token stands outside brackets, or the length."""
    depth = 0
    for at, word in enumerate(tokens):
        if word == wanted and depth == 0:
            return at
        depth += (word in CLOSING) - (word in CLOSERS)
    return len(tokens)


class Walk:
    """A way through the tokens of a term, which knows what is bound where it stands."""

    def __init__(self, names, tokens, at):
        self.names, self.tokens, self.at = names, tokens, at

    def next(self):
        """Take a token."""
        self.at += 1
        return self.tokens[self.at - 1]

    def taken_until(self, *stops):
        """Take the tokens up to one of these outside brackets, and that too."""
        first, depth = self.at, 0
        while self.at < len(self.tokens):
            word = self.next()
            if word in stops and depth == 0:
                return self.tokens[first : self.at - 1]
            depth += (word in CLOSING) - (word in CLOSERS)
        return self.tokens[first:]

    def until(self, stops, bound):
        """Go up to one of these, and over it. Give what is bound there."""
        outer = bound
        while self.at < len(self.tokens):
            word = self.next()
            if word in stops:
                return bound
            if word in ENDS:
                bound = outer
                self.pass_label()
            else:
                bound = self.one(word, bound)
        return bound

    def one(self, word, bound):
        """Go over a part that begins with a token, and give the names bound after it."""
        if word == "λ":
            return self.names.pattern(self.taken_until("."), bound)
        if word == "let":
            return self.let(bound)
        if word == "use":
            return bound | set(self.taken_until("}"))
        if word == "[":
            self.cases(bound)
        elif word in ("(", "{"):
            return self.bracket(word, bound)
        elif word not in NO_NAMES and word[0] not in '."':
            self.names.say(word, bound)
        return bound

    def let(self, bound):
        """Go over `let pattern : type = value in`."""
        made = self.names.pattern(self.taken_until("=", ":"), bound)
        if self.tokens[self.at - 1] == ":":
            self.until(("=",), bound)
        self.until(("in",), bound)
        return made

    def cases(self, bound):
        """Go over `pattern ↦ value | ..]`."""
        while self.at < len(self.tokens):
            if self.tokens[self.at] == "]":
                self.at += 1
                return
            made = self.names.pattern(self.taken_until("↦"), bound)
            self.value(made)
            if self.tokens[self.at - 1] == "]":
                return

    def value(self, bound):
        """Go over the value of a case, and the bar or the bracket after it."""
        while self.at < len(self.tokens):
            word = self.next()
            if word in ("|", "]"):
                return
            bound = self.one(word, bound)

    def bracket(self, opening, bound):
        """Go over what stands in brackets: a binder, the fields of a record, or a term."""
        closing, first = CLOSING[opening], self.at
        names = self.binders()
        is_record = "record" in self.tokens[max(first - 2, 0) : first - 1]
        if names and not is_record:
            self.until((closing,), bound)
            return bound | names
        if names:
            self.fields(bound | names)
        else:
            self.pass_label()
            self.until((closing,), bound)
        return bound

    def binders(self):
        """Take the names before a colon, where such stand next."""
        at = self.at
        while at < len(self.tokens) and self.tokens[at] not in NO_NAMES:
            at += 1
        if at == self.at or self.tokens[self.at] in ("let", "λ") or self.tokens[at : at + 1] != [":"]:
            return set()
        names = set(self.tokens[self.at : at])
        self.at = at + 1
        return names

    def fields(self, bound):
        """Go over the fields of a record's type, each of which later ones may name."""
        while self.at < len(self.tokens):
            self.value_of_field(bound)
            if self.tokens[self.at - 1] == "}":
                return
            bound = bound | self.binders()

    def value_of_field(self, bound):
        """Go over the type of a field, and what ends it."""
        while self.at < len(self.tokens):
            word = self.next()
            if word in (";", "}"):
                return
            bound = self.one(word, bound)

    def pass_label(self):
        """Pass the name of a field or of an implicit argument, where such stands next."""
        if self.tokens[self.at + 1 : self.at + 2] == ["="]:
            self.at += 2
