"""The check of a body: names, numbers of arguments, types and what is in view. It gives the bytes, and what warnings and advice
ask for."""

from typing import NamedTuple

from rulelib.faults import Fault, are, counted, quoted
from rulelib.limits import MAX_VIEW
from rulelib.scope import already
from rulelib.syntax import Apply, Case, Let, Target


class Code(NamedTuple):
    """The bytes of an expression, those of its operands in their places, and how many they are. What `_` stands for may be so
    many that they are only counted."""
    items: list  # of numbers and Codes
    size: int

    def bytes(self):
        return b"".join(item.bytes() if isinstance(item, Code) else bytes([item]) for item in self.items)


def code(items):
    return Code(items, sum(item.size if isinstance(item, Code) else 1 for item in items))


class Body:
    """The body of a function. A view has pairs of a name and a type; a type with a fault is None."""

    def __init__(self, scope, function, head):
        self.scope, self.function, self.head = scope, function, head
        self.used, self.calls, self.labels = set(), set(), set()  # parameters, functions and labels, by their numbers
        self.sizes, self.stands = {}, {}  # by id: the size of an expression; for how many constructors an alternative stands
        self.warned = {}  # by id of a case or an alternative: line and message
        self.expanded = {}  # by id of `_ -> E` and the number of variables in view: its items

    def check(self):
        """The body's code; raises its first fault."""
        names = [name for name, _ in self.function.parameters]
        return self.expression(self.function.body, self.head.gives, self.bind(names, self.head.takes, []))

    def bind(self, names, types, view):
        """The view with further variables."""
        for name, type_ in zip(names, types):
            self.new(name, view)
            view = view + [(name.text, type_)]
            if len(view) > MAX_VIEW:
                raise Fault(name.line, f"'{name.text}' is one variable too many; {MAX_VIEW} may be in view")
        return view

    def new(self, name, view):
        for table, what in ((dict(view), "variable in view"), (self.scope.constructors, "constructor"),
                            (self.scope.functions, "function")):
            if name.text != "_" and name.text in table:
                raise already(name, what)

    # Expressions.

    def expression(self, expression, expected, view):
        forms = {Apply: self.apply, Case: self.case, Let: self.let, Target: self.target}
        made = code(forms[type(expression)](expression, expected, view))
        self.sizes[id(expression)] = made.size
        return made

    def meaning(self, name, view):
        """What a name stands for: the bytes that say so, the types that it takes, the type that it gives."""
        names = [variable for variable, _ in view]
        if name.text in names:
            number = names.index(name.text)
            self.used.add(number)
            return [0, number], [], view[number][1]
        head = self.scope.applied(name)
        if name.text in self.scope.constructors:
            return [2, head.gives, head.number], head.takes, head.gives
        self.calls.add(head.number)
        return [1, head.number], head.takes, head.gives

    def apply(self, expression, expected, view):
        name, arguments = expression
        items, takes, made = self.meaning(name, view)
        if len(arguments) != len(takes):
            wanted = counted(len(takes), "argument") if takes else "no argument"
            raise Fault(name.line, f"'{name.text}' takes {wanted}, and {are(len(arguments))} given")
        if made != expected and None not in (made, expected):
            raise Fault(name.line, f"'{name.text}' is of type {self.scope.type_name(made)}, "
                                   f"and {self.scope.type_name(expected)} is expected here")
        return items + [self.expression(argument, type_, view) for argument, type_ in zip(arguments, takes)]

    def let(self, let, expected, view):
        type_ = self.scope.type(let.type)
        bound = self.expression(let.bound, type_, view)
        return [4, type_, bound, self.expression(let.body, expected, self.bind([let.variable], [type_], view))]

    def target(self, target, expected, view):
        self.labels.add(target.label)
        return [5, target.label, self.expression(target.inner, expected, view)]

    # Cases.

    def case_type(self, case):
        """The type of a case: the one given, or else that of its first alternative."""
        if case.type is not None:
            return self.scope.type(case.type)
        if not case.alternatives or case.alternatives[0].constructor.text == "_":
            raise Fault(case.line, "a case that names no constructor needs its type: case .. : TYPE of")
        return self.scope.constructor(case.alternatives[0].constructor).gives

    def case(self, case, expected, view):
        made = self.case_type(case)
        constructors = self.scope.constructors_of(made)
        scrutinee = self.expression(case.scrutinee, made, view)
        found = [None] * len(constructors)  # per constructor the items of its alternative
        for alternative in case.alternatives:
            if alternative.constructor.text == "_":
                self.others(alternative, constructors, found, expected, view)
            else:
                number = self.named(alternative, made, found)
                found[number] = self.alternative(alternative, alternative.variables, number, constructors, expected, view)
        missing = [name.text for (name, _), items in zip(constructors, found) if items is None]
        if missing:
            self.warned[id(case)] = (case.line, f"the case has no alternative for {quoted(missing)}: inputs that need one are listed as "
                                                "missing; '_ -> _' says that this is meant")
        return [3, made, scrutinee] + [item for items in found for item in items or [0]]

    def named(self, alternative, made, found):
        """The number of the constructor that an alternative names."""
        name, head = alternative.constructor, self.scope.constructor(alternative.constructor)
        if head.gives != made:
            raise Fault(name.line, f"'{name.text}' is a constructor of {self.scope.type_name(head.gives)}, "
                                   f"and the case is over {self.scope.type_name(made)}")
        if found[head.number] is not None:
            raise Fault(name.line, f"a second alternative for '{name.text}'")
        if len(alternative.variables) != len(head.takes):
            has = counted(len(head.takes), "field") if head.takes else "no field"
            raise Fault(name.line, f"'{name.text}' has {has}, and the alternative names {len(alternative.variables)}")
        return head.number

    def alternative(self, alternative, variables, number, constructors, expected, view):
        """The items of an alternative for the constructor of this number."""
        inner = self.bind(variables, [self.scope.known_type(field) for field in constructors[number].fields], view)
        return [0] if alternative.body is None else [1, self.expression(alternative.body, expected, inner)]

    def others(self, alternative, constructors, found, expected, view):
        """Puts `_ -> E` in the place of all constructors that have no alternative. Its bytes depend on the number of variables in
        view alone, since E names no others than those outside of it."""
        numbers = [number for number, items in enumerate(found) if items is None]
        sign = alternative.constructor
        for number in numbers:
            name, fields = constructors[number]
            seen = len(view) + len(fields)
            if seen > MAX_VIEW:
                raise Fault(sign.line, f"'_' stands for '{name.text}' too, whose {counted(len(fields), 'field')} would make "
                                       f"{seen} variables in view; there may be {MAX_VIEW}")
            if (id(alternative), seen) not in self.expanded:
                self.expanded[id(alternative), seen] = self.alternative(alternative, [sign] * len(fields), number, constructors,
                                                                       expected, view)
            found[number] = self.expanded[id(alternative), seen]
        self.stands[id(alternative)] = len(numbers)
        if not numbers:
            self.warned[id(alternative)] = (sign.line, "'_' stands for no constructor: each has an alternative above it")
