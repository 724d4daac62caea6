"""Which branch of a function's term belongs to which clause, and how its variables are called.

The term of a function splits on one argument after the other, and solves the equations of each branch (`docs/TRANSLATION.md`). `follow`
goes down such a term and keeps, for each column, what is known of it: a variable, or a constructor at such values. At a leaf the first
clause that matches these is the leaf's. Where the terms do not decide that, the leaf belongs to no clause here.
"""

import re
from dataclasses import dataclass, field
from typing import NamedTuple, Optional

import core_file as core

CASE = re.compile(r"(.+)!case\.\d+")
TRANSPORT = re.compile(r"Eq\.\d+!(?:elim|left)\.\d+")
DELETION = re.compile(r"Eq\.\d+!k\.\d+")
CONFUSION = re.compile(r"(.+)!noconf\.(.+)\.\d+")
ABSURD = re.compile(r"Empty!elim\.\d+")


class Value(NamedTuple):
    """What is known of a column or a variable: a constructor with the values of its arguments, a variable, or nothing of use."""

    form: str
    name: str = ""
    parts: tuple = ()


OTHER = Value("other")


class Bound(NamedTuple):
    """A variable in scope: its name, and what is known of it."""

    name: str
    value: Value


class Leaf(NamedTuple):
    """A leaf: its term, the variables in scope, the outermost first, and the values of the columns."""

    term: core.Term
    scope: tuple
    columns: tuple


class Names:
    """Names that are not used yet on the way to a place."""

    def __init__(self, taken: list):
        self.taken = set(taken)

    def fresh(self, name: str) -> str:
        """The name, with a number behind it if it is taken."""
        found, number = name, 0
        while found in self.taken:
            number += 1
            found = f"{name}{number}"
        self.taken.add(found)
        return found


@dataclass
class Branches:
    """What was found in the term of a function."""

    names: dict = field(default_factory=dict)
    leaves: list = field(default_factory=list)
    absurd: set = field(default_factory=set)


class Follower:
    """Goes down the term of a function or a helper."""

    def __init__(self, signature, found: Branches, taken: list):
        self.signature, self.found, self.used = signature, found, Names(taken)

    def value(self, term: core.Term, scope: tuple) -> Value:
        """What is known of a term."""
        if isinstance(term, core.Variable):
            return scope[len(scope) - 1 - term.number].value
        head, arguments = core.spine(term)
        if isinstance(head, core.Name) and head.text in self.signature.constructors:
            family = self.signature.constructors[head.text]
            shown = arguments[len(family.parameters):]
            return Value("con", head.text, tuple(self.value(it, scope) for it in shown))
        return OTHER

    def bind(self, term: core.Term, variables: tuple) -> Optional[core.Term]:
        """The body behind so many functions, or nothing if there are fewer. Their variables get these names."""
        for variable in variables:
            if not isinstance(term, core.Function):
                return None
            self.found.names[id(term)] = variable.name
            term = term.body
        return term

    def new(self, names: tuple) -> tuple:
        """New variables with these names, or names that are like them."""
        fresh = [self.used.fresh(it) for it in names]
        return tuple(Bound(it, Value("var", it)) for it in fresh)

    def again(self, term: core.Term, scope: tuple) -> Bound:
        """The variable that is bound in the place of a term behind a step: a variable is bound again with its own name."""
        if isinstance(term, core.Variable):
            return scope[len(scope) - 1 - term.number]
        return self.new(("e",))[0]

    def follow(self, term: core.Term, scope: tuple, columns: tuple) -> None:
        """Goes down a term."""
        head, arguments = core.spine(term)
        name = head.text if isinstance(head, core.Name) else ""
        if (found := CASE.fullmatch(name)) and self.split(self.signature.families.get(found[1]), arguments, scope, columns):
            return
        if TRANSPORT.fullmatch(name) and len(arguments) >= 6:
            solved, side = self.value(arguments[4], scope), self.value(arguments[1], scope)
            scope, columns = put_in_scope(solved, side, scope), put(solved, side, columns)
            self.behind(arguments[3], (), arguments[6:], scope, columns)
        elif DELETION.fullmatch(name) and len(arguments) >= 5:
            self.behind(arguments[3], (), arguments[5:], scope, columns)
        elif ABSURD.fullmatch(name):
            self.found.absurd.add(id(term))
        elif found := CONFUSION.fullmatch(name):
            self.confuse(term, found, arguments, scope, columns)
        else:
            self.found.leaves.append(Leaf(term, scope, columns))

    def behind(self, method: core.Term, made: tuple, extras: list, scope: tuple, columns: tuple) -> None:
        """Goes on behind the functions of a method, which takes new variables and then what stood behind the step."""
        variables = (*made, *(self.again(it, scope) for it in extras))
        body = self.bind(method, variables)
        if body is not None:
            self.follow(body, scope + variables, columns)

    def confuse(self, term: core.Term, found: re.Match, arguments: list, scope: tuple, columns: tuple) -> None:
        """Goes on behind no confusion: the constructors are equal and give new equations, or the branch is absurd."""
        type_ = self.signature.types.get(found[0])
        count = len(core.products(type_)[0]) + 1 if type_ else len(arguments)
        if len(arguments) <= count:
            self.found.absurd.add(id(term))
            return
        made = self.new(("e",) * len(self.signature.arguments(found[2])))
        self.behind(arguments[count], made, arguments[count + 1:], scope, columns)

    def split(self, family: Optional[core.Family], arguments: list, scope: tuple, columns: tuple) -> bool:
        """Goes into the branches of a split. False if the term is not such a split of a variable."""
        if family is None:
            return False
        indices, first = len(core.products(family.type)[0]), len(family.parameters) + 1
        at = first + len(family.constructors) + indices
        if at >= len(arguments) or not isinstance(arguments[at], core.Variable):
            return False
        split = self.value(arguments[at], scope)
        for number, constructor in enumerate(family.constructors):
            taken = set(self.used.taken)
            names = self.signature.arguments(constructor.name)
            parts, equations = self.new(names), self.new(("e",) * (indices + 1))
            body = self.bind(arguments[first + number], parts + equations)
            built = Value("con", constructor.name, tuple(it.value for it in parts))
            if body is not None:
                self.follow(body, put_in_scope(split, built, scope) + parts + equations, put(split, built, columns))
            self.used.taken = taken
        return True


def put(variable: Value, value: Value, values: tuple) -> tuple:
    """Values with a value in the place of a variable."""
    if variable.form != "var":
        return values
    return tuple(
        value if it == variable else it._replace(parts=put(variable, value, it.parts)) if it.form == "con" else it for it in values
    )


def put_in_scope(variable: Value, value: Value, scope: tuple) -> tuple:
    """Variables with a value in the place of one of them."""
    return tuple(Bound(it.name, new) for it, new in zip(scope, put(variable, value, tuple(it.value for it in scope))))


def match(pattern, value: Value, constructors: dict, bound: dict) -> Optional[bool]:
    """Whether a pattern matches a value, and what its variables are then; nothing if that is not decided here."""
    if pattern.form in ("wild", "dot"):
        return True
    if pattern.form == "absurd":
        return None
    if pattern.text not in constructors:
        bound[pattern.text] = value
        return True
    if value.form != "con":
        return None
    if value.name != pattern.text:
        return False
    return match_all(pattern.parts, value.parts, constructors, bound)


def match_all(patterns: tuple, values: tuple, constructors: dict, bound: dict) -> Optional[bool]:
    """Whether all patterns match all values; a pattern that does not match decides before one of which nothing is known."""
    if len(patterns) != len(values):
        return None
    answers = [match(pattern, value, constructors, bound) for pattern, value in zip(patterns, values)]
    return False if False in answers else None if None in answers else True


def clause_of(leaf: Leaf, clauses: tuple, constructors: dict) -> Optional[tuple]:
    """The number of the first clause that matches at a leaf, from 1, with the values of its variables; nothing if that is not decided."""
    for number, clause in enumerate(clauses, 1):
        bound: dict = {}
        answer = match_all(clause.patterns, leaf.columns, constructors, bound)
        if answer:
            return number, bound
        if answer is None:
            return None
    return None
