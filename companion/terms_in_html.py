"""Terms as HTML: variables by names, names as links to their entries, and motives, methods and equations in parts that fold."""

import html
import re
from urllib.parse import quote

import core_file as core

ELIMINATOR = re.compile(r"(.+)!(?:elim|case)\.\d+")
LEFT = re.compile(r"Eq\.\d+!left\.\d+")
RECURSOR = re.compile(r"(.+)!rec\.\d+")
CONFUSION = re.compile(r"(.+)!noconf\.(.+)\.\d+")
DELETION = re.compile(r"Eq\.\d+!k\.\d+")


def anchor(name: str) -> str:
    """The name of the place of an entry in the page."""
    return f"e-{quote(name, safe='')}"


def fold(kind: str, title: str, content: str, is_open: bool = False) -> str:
    """A part that folds."""
    return f'<details class="{kind}"{" open" if is_open else ""}><summary>{title}</summary><div class="in">{content}</div></details>'


class Printer:
    """Prints terms. `names` and `leaves` are by the identity of a function and of a term."""

    def __init__(self, signature, names: dict, leaves: dict, absurd: set):
        self.signature, self.names, self.leaves, self.absurd = signature, names, leaves, absurd

    def link(self, name: str) -> str:
        """A name, with a link to its entry."""
        owner = self.signature.constructors.get(name)
        return f'<a href="#{anchor(owner.name if owner else name)}">{html.escape(name)}</a>'

    def name_for(self, term, scope: list) -> str:
        """A name for the variable that a term binds, which nothing around has."""
        name = self.names.get(id(term))
        if name is not None:
            return name
        base, number = self.signature.letter(term.type if isinstance(term, core.Local) else term.domain), 1
        name = base
        while name in scope:
            name, number = f"{base}{number}", number + 1
        return name

    def term(self, term, scope: list, tight: bool = False) -> str:
        """A term, in parentheses where it is a part and no word."""
        text = self.whole(term, scope, tight)
        if id(term) in self.leaves:
            clause = self.leaves[id(term)]
            return f'<span class="leaf"><a class="of" href="#{clause[0]}">{clause[1]}</a> {text}</span>'
        if id(term) in self.absurd:
            return fold("absurd", "can’t be here", text)
        return text

    def whole(self, term, scope: list, tight: bool) -> str:
        """A term without what is said of it as a branch."""
        if isinstance(term, core.Variable):
            return f"<var>{html.escape(scope[len(scope) - 1 - term.number])}</var>"
        if isinstance(term, core.Sort):
            return f'<span class="sort">Type {term.level}</span>'
        if isinstance(term, core.Name):
            return self.link(term.text)
        if isinstance(term, core.Application):
            built = self.node(term, scope)
            if built:
                return built
            text = " ".join(self.term(it, scope, True) for it in [term.head, *term.arguments])
        elif isinstance(term, core.Product):
            text = self.product(term, scope)
        elif isinstance(term, core.Function):
            text = self.function(term, scope)
        else:
            text = self.local(term, scope)
        return f"({text})" if tight else text

    def product(self, term: core.Product, scope: list) -> str:
        """A product; the variable has a name only where it is used."""
        if not term.codomain.free & 1:
            domain = self.term(term.domain, scope, isinstance(term.domain, (core.Product, core.Function, core.Local)))
            return f"{domain} → {self.term(term.codomain, [*scope, '_'])}"
        name = self.name_for(term, scope)
        return f"(<var>{html.escape(name)}</var> : {self.term(term.domain, scope)}) → {self.term(term.codomain, [*scope, name])}"

    def function(self, term, scope: list) -> str:
        """Functions in a row."""
        binders = []
        while isinstance(term, core.Function) and (not binders or id(term) not in self.leaves):
            name = self.name_for(term, scope)
            type_ = self.term(term.domain, scope)
            if isinstance(core.spine(term.domain)[0], core.Name) and core.spine(term.domain)[0].text.startswith("Eq."):
                type_ = fold("equation", "equation", type_)
            binders.append(f"(<var>{html.escape(name)}</var> : {type_})")
            scope, term = [*scope, name], term.body
        return f"λ {' '.join(binders)}. {self.term(term, scope)}"

    def local(self, term: core.Local, scope: list) -> str:
        """A local definition."""
        name = self.name_for(term, scope)
        head = f"let <var>{html.escape(name)}</var> : {self.term(term.type, scope)} = {self.term(term.value, scope)}"
        return f"{head} in {self.term(term.body, [*scope, name])}"

    def node(self, term: core.Application, scope: list) -> str:
        """An eliminator or a generated function at all its arguments, one part below the other; nothing for other applications."""
        if not isinstance(term.head, core.Name):
            return ""
        name, arguments = term.head.text, term.arguments
        if (found := ELIMINATOR.fullmatch(name)) and found[1] in self.signature.families:
            family = self.signature.families[found[1]]
            methods = [it.name for it in family.constructors]
            return self.parts(term, scope, len(family.parameters), methods, len(core.products(family.type)[0]) + 1)
        if LEFT.fullmatch(name):
            return self.parts(term, scope, 2, ["refl"], 2)
        if DELETION.fullmatch(name):
            return self.parts(term, scope, 2, ["refl"], 1)
        if (found := RECURSOR.fullmatch(name)) and found[1] in self.signature.families:
            family = self.signature.families[found[1]]
            return self.parts(term, scope, len(family.parameters), ["step"], len(core.products(family.type)[0]) + 1)
        if CONFUSION.fullmatch(name) and name in self.signature.types:
            count = len(core.products(self.signature.types[name])[0])
            return self.parts(term, scope, count, ["equal arguments"][: len(arguments) - count - 1], 0)
        return ""

    def parts(self, term: core.Application, scope: list, parameters: int, methods: list, scrutinees: int) -> str:
        """The parts of such an application: parameters, motive, methods, what it looks at, and what stands behind."""
        arguments, first = term.arguments, parameters + 1
        count = first + len(methods) + scrutinees
        if len(arguments) < count:
            return ""
        projection = self.projection(term, scope)
        if projection:
            return projection
        # Methods have a row of their own, and so no parentheses.
        alone = range(parameters, first + len(methods))
        show = [self.term(it, scope, at not in alone) for at, it in enumerate(arguments)]
        looked_at = " ".join(show[first + len(methods) : count])
        head = " ".join([self.link(term.head.text), *show[:parameters]])
        rows = [fold("motive", "motive", show[parameters])]
        for number, method in enumerate(methods):
            title = f"method for <b>{html.escape(method)}</b>"
            rows.append(fold("method", title, show[first + number], self.has_leaf(arguments[first + number])))
        if looked_at:
            rows.append(f'<span class="row">at {looked_at}</span>')
        if arguments[count:]:
            rows.append(fold("behind", "and then at", " ".join(show[count:])))
        return f'<div class="node"><div class="head">{head}</div>{"".join(rows)}</div>'

    def projection(self, term: core.Application, scope: list) -> str:
        """A component of a pair, which the eliminator of pairs gives; nothing for anything else."""
        if not term.head.text.startswith("Pair.") or len(term.arguments) < 5:
            return ""
        method = term.arguments[3]
        inner = method.body if isinstance(method, core.Function) else None
        which = inner.body if isinstance(inner, core.Function) else None
        if not isinstance(which, core.Variable) or which.number > 1:
            return ""
        full = " ".join([self.link(term.head.text), *(self.term(it, scope, True) for it in term.arguments[:4])])
        name = fold("projection", "fst" if which.number else "snd", full)
        behind = " ".join(self.term(it, scope, True) for it in term.arguments[4:])
        return f'<span class="component">({name} {behind})</span>'

    def has_leaf(self, term) -> bool:
        """Whether the leaf of a clause is inside a term."""
        waiting = [term]
        while waiting:
            it = waiting.pop()
            if id(it) in self.leaves:
                return True
            waiting += parts_of(it)
        return False


def parts_of(term) -> list:
    """The parts of a term."""
    if isinstance(term, core.Application):
        return [term.head, *term.arguments]
    if isinstance(term, core.Product):
        return [term.domain, term.codomain]
    if isinstance(term, core.Function):
        return [term.domain, term.body]
    return [term.type, term.value, term.body] if isinstance(term, core.Local) else []


def size(term) -> int:
    """The number of nodes of a term."""
    waiting, count = [term], 0
    while waiting:
        it = waiting.pop()
        count += 1
        waiting += parts_of(it)
    return count
