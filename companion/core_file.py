"""Core files as values: the entries and the report lines of what `elim compile` writes, and their terms.

`docs/CORE_TEXT.md` has the language. A file is read as the program writes it; nothing here checks a type.
"""

import re
from typing import NamedTuple, Optional, Union

TOKEN = re.compile(r"[()\\{};]|[^\s()\\{};]+")
TOP = 63


class CoreError(Exception):
    """A line that is no core text."""


class Term:
    """A term. `free` is a set of bits: bit n is there if the variable n occurs, counted from the nearest binder around the term."""

    __slots__ = ("free",)
    free: int


class Variable(Term):
    """A variable: so many binders lie between it and its own."""

    __slots__ = ("number",)

    def __init__(self, number: int):
        self.number, self.free = number, 1 << number


class Sort(Term):
    """The sort of a level."""

    __slots__ = ("level",)

    def __init__(self, level: int):
        self.level, self.free = level, 0


class Name(Term):
    """A definition, a family, a constructor, an eliminator or an instance of K, by its name."""

    __slots__ = ("text",)

    def __init__(self, text: str):
        self.text, self.free = text, 0


class Product(Term):
    """The type of functions; the codomain is under one binder more."""

    __slots__ = ("domain", "codomain")

    def __init__(self, domain: Term, codomain: Term):
        self.domain, self.codomain, self.free = domain, codomain, domain.free | codomain.free >> 1


class Function(Term):
    """A function; its body is under one binder more."""

    __slots__ = ("domain", "body")

    def __init__(self, domain: Term, body: Term):
        self.domain, self.body, self.free = domain, body, domain.free | body.free >> 1


class Local(Term):
    """A local definition; its body is under one binder more."""

    __slots__ = ("type", "value", "body")

    def __init__(self, type_: Term, value: Term, body: Term):
        self.type, self.value, self.body, self.free = type_, value, body, type_.free | value.free | body.free >> 1


class Application(Term):
    """A head, which is no application, at one argument or more."""

    __slots__ = ("head", "arguments")

    def __init__(self, head: Term, arguments: list):
        self.head, self.arguments, self.free = head, arguments, head.free
        for it in arguments:
            self.free |= it.free


class Constructor(NamedTuple):
    """A constructor of a family. Its type is under the parameters."""

    name: str
    type: Term


class Family(NamedTuple):
    """An inductive family. Each parameter is under those before it, and its type under all of them."""

    name: str
    parameters: list
    type: Term
    constructors: list


class Eliminator(NamedTuple):
    """The eliminator of a family into the sort of a level."""

    family: str
    level: int


class AxiomK(NamedTuple):
    """Axiom K of `Eq.i` into the sort of a level."""

    equality: int
    level: int


class Definition(NamedTuple):
    """A definition with its type and its body."""

    name: str
    type: Term
    body: Term


class Note(NamedTuple):
    """A line that begins with `#`: its words, and its terms where it has some."""

    text: str


Entry = Union[Family, Eliminator, AxiomK, Definition, Note]


class Reader:
    """Reads the terms of a line, one token after the other. A loop with a stack of its own, so that depth costs no frames."""

    def __init__(self, line: str):
        self.tokens = TOKEN.findall(line)
        self.at = 0

    def next(self) -> Optional[str]:
        """The token that comes next, which stays."""
        return self.tokens[self.at] if self.at < len(self.tokens) else None

    def take(self, wanted: Optional[str] = None) -> str:
        """Takes the next token, which has to be the one that is wanted."""
        token = self.next()
        if token is None or wanted not in (None, token):
            raise CoreError(f"{wanted or 'a word'} is wanted where {token or 'the line ends'} is")
        self.at += 1
        return token

    def leaf(self) -> Term:
        """A variable, a sort or a name."""
        token = self.take()
        if token == "Type":
            return Sort(int(self.take()))
        return Variable(int(token[1:])) if token.startswith("%") else Name(token)

    def open(self, open_terms: list) -> None:
        """Notes which term a parenthesis begins: the form, and its parts so far."""
        self.take("(")
        if self.next() == "\\":
            self.take()
            open_terms.append(("function", []))
        elif self.next() == "let":
            self.take()
            open_terms.append(("let", []))
        else:
            open_terms.append(("spine", []))

    def close(self, form: str, parts: list) -> Optional[Term]:
        """The term whose parts are read, if it ends here; else the separator is taken and the term goes on."""
        token = self.next()
        if token == ")":
            self.take()
            if form == "function":
                return Function(*parts)
            if form == "let":
                return Local(*parts)
            return Product(*parts) if form == "product" else Application(parts[0], parts[1:])
        if token in (".", "=", "->"):
            self.take()
        return None

    def term(self) -> Term:
        """The next term."""
        open_terms: list = []
        while True:
            if self.next() == "(":
                self.open(open_terms)
                continue
            done: Optional[Term] = self.leaf()
            while done is not None and open_terms:
                form, parts = open_terms.pop()
                parts.append(done)
                if form == "spine" and self.next() == "->":
                    form = "product"
                done = self.close(form, parts)
                if done is None:
                    open_terms.append((form, parts))
            if done is not None:
                return done


def family(reader: Reader) -> Family:
    """The family of a line `data D (P) .. : T { c : A ; .. }`."""
    name, parameters = reader.take(), []
    while reader.next() == "(":
        reader.take("(")
        # A product in a parameter has parentheses of its own beside those of the parameter.
        parameters.append(reader.term())
        reader.take(")")
    reader.take(":")
    type_, constructors = reader.term(), []
    reader.take("{")
    while reader.next() != "}":
        if constructors:
            reader.take(";")
        constructor = reader.take()
        reader.take(":")
        constructors.append(Constructor(constructor, reader.term()))
    return Family(name, parameters, type_, constructors)


def entry(line: str) -> Entry:
    """The entry or the note of a line."""
    if line.startswith("#"):
        return Note(line)
    reader = Reader(line)
    form = reader.take()
    if form == "data":
        return family(reader)
    if form == "elim":
        return Eliminator(reader.take(), int(reader.take()))
    if form == "axiomk":
        return AxiomK(int(reader.take()), int(reader.take()))
    if form == "def":
        name = reader.take()
        reader.take(":")
        type_ = reader.term()
        reader.take("=")
        return Definition(name, type_, reader.term())
    raise CoreError(f"no line begins with {form}")


def entries(text: str) -> list:
    """The entries and notes of a core file, without its two head lines."""
    lines = text.split("\n")
    if lines[0] != "elim 1":
        raise CoreError("this is no core file: its first line is not `elim 1`")
    found = []
    for number, line in enumerate(lines):
        if line and number and not (number == 1 and line.startswith("prelude")):
            try:
                found.append(entry(line))
            except (CoreError, ValueError, TypeError) as error:
                raise CoreError(f"line {number + 1}: {error}") from error
    return found


def prelude() -> list:
    """The families that a core file has without writing them."""
    lines = ["data Empty : Type 0 { }"]
    for i in range(TOP):
        lines.append(f"data Eq.{i} (Type {i}) (%0) : (%1 -> Type {i}) {{ refl.{i} : (Eq.{i} %1 %0 %0) }}")
        lines.append(f"data Unit.{i} : Type {i} {{ unit.{i} : Unit.{i} }}")
        lines.append(f"data Pair.{i} (Type {i}) (Type {i}) : Type {i} {{ pair.{i} : (%1 -> (%1 -> (Pair.{i} %3 %2))) }}")
    return [entry(line) for line in lines]


def products(term: Term) -> tuple:
    """The domains of the leading products of a term, each under those before it, and what comes after them."""
    domains = []
    while isinstance(term, Product):
        domains.append(term.domain)
        term = term.codomain
    return domains, term


def spine(term: Term) -> tuple:
    """The head of a term and its arguments."""
    return (term.head, term.arguments) if isinstance(term, Application) else (term, [])
