"""What a core file declares, by name, and the names that a source file gives to arguments."""

import core_file as core


class Signature:
    """Families, the families of constructors, and the types of definitions; the names of arguments of constructors."""

    def __init__(self, entries: list, declarations: list):
        self.families, self.constructors, self.types, self.bodies = {}, {}, {}, {}
        self.written = {it.name: it for it in declarations}
        self.named = {it.name: it.arguments for declaration in declarations for it in declaration.constructors}
        for entry in [*core.prelude(), *entries]:
            if isinstance(entry, core.Family):
                self.families[entry.name] = entry
                self.constructors.update({it.name: entry for it in entry.constructors})
            elif isinstance(entry, core.Definition):
                self.types[entry.name], self.bodies[entry.name] = entry.type, entry.body

    def letter(self, type_: core.Term) -> str:
        """A name for a variable of a type: it begins like the name of the type."""
        domains, end = core.products(type_)
        head, _ = core.spine(end)
        if isinstance(head, core.Sort):
            return "P" if domains else "A"
        if domains:
            return "f"
        if not isinstance(head, core.Name):
            return "x"
        if "!below." in head.text:
            return "below"
        return "e" if head.text.startswith("Eq.") else next((it.lower() for it in head.text if it.isalpha()), "x")

    def arguments(self, constructor: str) -> tuple:
        """A name for each argument of a constructor: the written one where there is one."""
        family = self.constructors.get(constructor)
        if family is None:
            return ()
        type_ = next(it.type for it in family.constructors if it.name == constructor)
        letters = [self.letter(it) for it in core.products(type_)[0]]
        written = (*self.named.get(constructor, ()), *[None] * len(letters))
        return tuple(name or letter for name, letter in zip(written, letters))

    def telescope(self, name: str, count: int, clauses: tuple) -> tuple:
        """A name for each of so many arguments of a function: the written one, or that of a variable in a pattern, or one for its type."""
        written = self.written[name].names if name in self.written else ()
        domains, _ = core.products(self.types[name])
        asked = []
        for at in range(count):
            patterns = [it.patterns[at] for it in clauses if at < len(it.patterns)]
            variables = [it.text for it in patterns if it.form == "name" and not it.parts and it.text not in self.constructors]
            asked.append(written[at] if at < len(written) and written[at] else next(iter(variables), None))
        names: list = []
        for name, domain in zip(asked, domains):
            base = name or self.letter(domain)
            found, number = base, 0
            # A name that was asked for elsewhere is left to that argument.
            while found in names or (name is None and found in asked):
                number += 1
                found = f"{base}{number}"
            names.append(found)
        return tuple(names)
