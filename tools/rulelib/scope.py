"""The names of a text: what each stands for, with its number and its types."""

from typing import NamedTuple

from rulelib.equality import Equalities
from rulelib.faults import Fault, Unsure
from rulelib.limits import MAX_FUNCTIONS
from rulelib.syntax import Equal


class Head(NamedTuple):
    """A constructor or a function: its number, the types that it takes, the type that it gives. A type that has a fault is
    None, and fits every other."""
    number: int
    takes: list
    gives: int


class Scope:
    """The types, constructors and functions of a text by their names. Faults of declarations are noted, not raised. What a name
    stands for is unsure where a declaration with a fault may declare it, and where two do."""

    def __init__(self, text):
        self.text, self.faults = text, list(text.faults)
        self.doubled = {"type": set(), "name": set()}  # names that two declarations have
        self.types, self.constructors, self.functions = {}, {}, {}
        self.declare_types()
        self.declare_constructors()
        self.listed = self.with_equalities()
        self.heads = [Head(number, [self.known_type(type_) for _, type_ in function.parameters], self.known_type(function.result))
                      for number, function in enumerate(self.listed)]
        self.declare_functions()

    # Declarations.

    def declare_types(self):
        for number, type_ in enumerate(self.text.types):
            self.declare("type", type_.name, number, [(self.types, "type")])

    def declare_constructors(self):
        heads = [(name, Head(number, [self.known_type(field) for field in fields], gives))
                 for gives, type_ in enumerate(self.text.types) for number, (name, fields) in enumerate(type_.constructors or [])]
        for name, head in heads:
            self.declare("name", name, head, [(self.constructors, "constructor")])

    def declare_functions(self):
        for function, head in zip(self.listed, self.heads):
            self.declare("name", function.name, head, [(self.functions, "function"), (self.constructors, "constructor")])

    def declare(self, kind, name, meaning, tables):
        """Puts a name into the first of the tables, where none of them has it."""
        taken = [what for table, what in tables if name.text in table]
        if not taken:
            tables[0][0][name.text] = meaning
            return
        self.doubled[kind].add(name.text)
        if " " not in name.text:
            self.faults.append(already(name, taken[0]))

    def known_type(self, name):
        """The number of a type, or None where it has a fault, which is noted."""
        try:
            return None if name is None else self.type(name)
        except Fault as fault:
            self.faults.append(fault)
        except Unsure:
            pass
        return None

    def with_equalities(self):
        """The functions of the text in their order, and behind them those that its equalities need besides."""
        equalities = Equalities(self)
        declared = [equalities.declared(function) if isinstance(function, Equal) else function
                    for function in self.text.functions]
        further = equalities.further()
        if len(declared) <= MAX_FUNCTIONS < len(declared) + len(further):
            self.faults.append(Fault(equalities.line, f"the derived equalities need {len(further)} functions besides the "
                                                      f"{len(declared)} of the text; there may be {MAX_FUNCTIONS} in all"))
        return declared + further

    # Names in use.

    def look_up(self, name, kind, tables, what):
        """What a name stands for in the first of the tables that has it."""
        found, lost = [table[name.text] for table in tables if name.text in table], self.text.lost[kind]
        if name.text in self.doubled[kind] or not found and (None in lost or name.text in lost):
            raise Unsure()
        if not found:
            raise Fault(name.line, f"there is no {what} '{name.text}'")
        return found[0]

    def type(self, name):
        return self.look_up(name, "type", [self.types], "type")

    def constructor(self, name):
        return self.look_up(name, "name", [self.constructors], "constructor")

    def function(self, name):
        return self.look_up(name, "name", [self.functions], "function")

    def applied(self, name):
        """The head of a function or a constructor."""
        return self.look_up(name, "name", [self.functions, self.constructors], "variable in view, function or constructor")

    def constructors_of(self, type_):
        """The constructors of a type by its number."""
        if self.text.types[type_].constructors is None:
            raise Unsure()
        return self.text.types[type_].constructors

    def type_name(self, number):
        return self.text.types[number].name.text


def already(name, what):
    return Fault(name.line, f"'{name.text}' is already the name of a {what}")
