"""Source files as values: declarations with their places, constructors with the names of their arguments, clauses with their patterns.

`docs/LANGUAGE.md` has the grammar. Only files whose tokens `elim` accepts are read here. Terms stay pieces of the text.
"""

import re
from typing import NamedTuple, Optional

SPACE = re.compile(r"(?:[ \t\r\n]|--[^\n]*)*")
NAME = r"(?:[^\W\d_]|_(?=[\w']))[\w']*"
TOKEN = re.compile(rf"->|{NAME}(?:\.\d{{1,2}}(?!\w))?|\d+|[(){{}}:;=\\_.]")
KEYWORDS = {"data", "def", "fun", "with", "let", "in", "Type"}
CLOSING = {"(": ")", "{": "}"}


class SourceError(Exception):
    """A text that is no source file."""


class Token(NamedTuple):
    """A token with the places of its first character and of the one after it."""

    text: str
    start: int
    end: int


class Pattern(NamedTuple):
    """A pattern: `form` is `name`, `wild`, `dot` or `absurd`. A name has patterns behind it if it is a constructor with arguments."""

    form: str
    text: str
    parts: tuple = ()


class Clause(NamedTuple):
    """A clause. `head` is its text up to `=` or `with`, `right` that of the right side or the scrutinee, `inner` the clauses of a `with`."""

    name: str
    patterns: tuple
    start: int
    end: int
    head: str
    right: Optional[str]
    inner: Optional[tuple]


class Constructor(NamedTuple):
    """A constructor, with the name of each argument that has one."""

    name: str
    arguments: tuple


class Declaration(NamedTuple):
    """A declaration: `form` is `data`, `def` or `fun`. The names are those of parameters, or of the arguments of a function."""

    form: str
    name: str
    start: int
    end: int
    names: tuple
    constructors: tuple
    clauses: tuple


def tokens_of(text: str) -> list:
    """The tokens of a text."""
    tokens, at = [], SPACE.match(text).end()
    while at < len(text):
        found = TOKEN.match(text, at)
        if not found:
            raise SourceError(f"no token begins at character {at}")
        tokens.append(Token(found[0], at, found.end()))
        at = SPACE.match(text, found.end()).end()
    return tokens


def is_name(token: Optional[Token]) -> bool:
    """Whether a token is a plain or dotted name."""
    return token is not None and token.text not in KEYWORDS and (token.text[0].isalpha() or token.text[0] == "_" and len(token.text) > 1)


class Parser:
    """Reads declarations."""

    def __init__(self, text: str):
        self.text, self.tokens, self.at = text, tokens_of(text), 0

    def look(self, ahead: int = 0) -> str:
        """A token that is not taken, and nothing behind the last one."""
        at = self.at + ahead
        return self.tokens[at].text if at < len(self.tokens) else ""

    def take(self, wanted: Optional[str] = None) -> Token:
        """Takes the next token, which has to be the one that is wanted."""
        if self.at == len(self.tokens) or wanted not in (None, self.tokens[self.at].text):
            raise SourceError(f"{wanted or 'a token'} is wanted at token {self.at}")
        self.at += 1
        return self.tokens[self.at - 1]

    def slice(self, start: int, end: int) -> str:
        """The text of these tokens."""
        return self.text[self.tokens[start].start : self.tokens[end - 1].end] if start < end else ""

    def skip(self) -> None:
        """Takes a token, and with a parenthesis or a brace all that it holds."""
        waiting = []
        while True:
            token = self.take().text
            if token in CLOSING:
                waiting.append(CLOSING[token])
            elif waiting and token == waiting[-1]:
                waiting.pop()
            if not waiting:
                return

    def skip_term(self, ends: tuple) -> str:
        """Takes a term, up to the token that ends it, and answers its text."""
        first, lets = self.at, 0
        while self.look() and (lets or self.look() not in ends):
            lets += {"let": 1, "in": -1}.get(self.look(), 0)
            self.skip()
        return self.slice(first, self.at)

    def products(self, ends: tuple) -> tuple:
        """Takes a type, and answers the name of each of its leading products, or nothing where it has none."""
        names, part = [], []
        while self.look() and self.look() not in ends:
            first = self.at
            self.skip()
            if self.tokens[self.at - 1].text != "->":
                part.append((first, self.at))
                continue
            binders = [self.binder(*it) for it in part]
            names += [name for it in binders for name in it] if all(binders) else [None]
            part = []
        return tuple(names)

    def binder(self, start: int, end: int) -> list:
        """The names of a binder `(x y : A)`, and none if the tokens are no binder."""
        names = []
        for token in self.tokens[start + 1 : end - 1]:
            if token.text == ":":
                return names
            if token.text != "_" and not is_name(token):
                break
            names.append(None if token.text == "_" else token.text)
        return []

    def pattern(self) -> Pattern:
        """Takes a pattern."""
        first, token = self.at, self.take().text
        if token == ".":
            self.skip() if self.look() != "Type" else (self.take(), self.take())
            return Pattern("dot", self.slice(first + 1, self.at))
        if token == "_":
            return Pattern("wild", token)
        if token != "(":
            return Pattern("name", token)
        if self.look() == ")":
            self.take()
            return Pattern("absurd", "()")
        name, parts = self.take().text, []
        while self.look() != ")":
            parts.append(self.pattern())
        self.take(")")
        return Pattern("name", name, tuple(parts))

    def clause(self) -> Clause:
        """Takes a clause."""
        first, patterns = self.at, []
        name = self.take().text
        while self.look() not in ("=", "with", ";", "}"):
            patterns.append(self.pattern())
        head, right, inner, end = self.slice(first, self.at), None, None, self.at
        if self.look() == "=":
            self.take()
            right = self.skip_term((";", "}"))
            end = self.at
        elif self.look() == "with":
            self.take()
            right = self.skip_term(("{",))
            end = self.at
            inner = self.clauses()
        return Clause(name, tuple(patterns), self.tokens[first].start, self.tokens[end - 1].end, head, right, inner)

    def clauses(self) -> tuple:
        """Takes clauses in braces."""
        self.take("{")
        found = []
        while self.look() != "}":
            if found:
                self.take(";")
            found.append(self.clause())
        self.take("}")
        return tuple(found)

    def family(self) -> tuple:
        """Takes a family behind its name, and answers the names of the parameters and the constructors."""
        names = []
        while self.look() == "(":
            names.append(self.look(1))
            self.skip()
        constructors = self.constructors()
        if self.look() == "with":
            while self.look() == "with":
                self.take()
                self.take()
                constructors += self.constructors()
            constructors += self.tags()
        return tuple(names), tuple(constructors)

    def constructors(self) -> list:
        """Takes the type of a family and its constructors, and answers these."""
        found = []
        self.take(":")
        self.skip_term(("{",))
        self.take("{")
        while self.look() != "}":
            if found:
                self.take(";")
            name = self.take().text
            self.take(":")
            found.append(Constructor(name, self.products((";", "}"))))
        self.take("}")
        return found

    def tags(self) -> list:
        """Takes the end of families that refer to each other, `in FAMILY TAGS { t ; .. }`, and answers the tags."""
        found = []
        self.take("in")
        self.take()
        self.take()
        self.take("{")
        while self.look() != "}":
            if found:
                self.take(";")
            found.append(Constructor(self.take().text, ()))
        self.take("}")
        return found

    def decision(self) -> None:
        """Takes what stands after the name of a decision of equality: `= data FAMILY DECISION`."""
        self.take("=")
        self.take("data")
        self.take()
        self.take()

    def declaration(self) -> Declaration:
        """Takes a declaration."""
        first, form, name = self.at, self.take().text, self.take().text
        names, constructors, clauses = (), (), ()
        if form == "data":
            names, constructors = self.family()
        elif self.look() == "=":
            self.decision()
        else:
            self.take(":")
            if form == "fun":
                names = self.products(("{",))
                clauses = self.clauses()
            else:
                self.skip_term(("=",))
                self.take("=")
                self.skip_term(tuple(("def", "data", "fun")))
        end = self.tokens[self.at - 1].end
        return Declaration(form, name, self.tokens[first].start, end, names, constructors, clauses)


def declarations(text: str) -> list:
    """The declarations of a source file, up to one that can't be read."""
    found = []
    try:
        parser = Parser(text)
        while parser.look():
            found.append(parser.declaration())
    except (SourceError, IndexError):
        pass
    return found


def helpers(clauses: tuple) -> list:
    """The clauses inside each `with`, in the order in which these are written."""
    found = []
    for clause in clauses:
        if clause.inner is not None:
            found += [clause.inner, *helpers(clause.inner)]
    return found
