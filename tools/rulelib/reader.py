"""From the bytes of a rule file to a text."""

import re

from rulelib.faults import Fault, Faults
from rulelib.limits import MAX_FILE, MAX_NESTING
from rulelib.rules import checked


class Names:
    """The names of a text, and made-up ones where it has none."""

    def __init__(self, rule=None):
        self.types, self.functions = [], []  # types with their constructors and fields, functions with their parameters
        if rule is not None:
            self.types = [(type_.name.text, constructors) for type_, constructors in zip(rule.text.types, rule.constructors)]
            self.functions = [(function.name.text, [name.text for name, _ in function.parameters])
                              for function in rule.scope.listed]
        for number, (name, parameters) in enumerate(self.functions):
            self.functions[number] = (self.readable(name), ["_" if " " in parameter else parameter for parameter in parameters])
        self.prefix = "x"
        while any(re.fullmatch(self.prefix + "[0-9]+", name) for name in self.taken()):
            self.prefix += "_"

    def taken(self):
        return [name for _, constructors in self.types for name, _ in constructors] + \
               [name for function, parameters in self.functions for name in (function, *parameters)]

    def readable(self, name):
        """The name of a function; one with spaces, which a text cannot have, gets one that it has not."""
        if " " not in name:
            return name
        name = name.replace(" ", "'")
        while name in self.taken():
            name += "'"
        return name

    def fit(self, types):
        """Faults a text that has other types than the rule file."""
        if self.types and [[fields for _, fields in constructors] for _, constructors in self.types] != types:
            raise Fault(None, "the text has other types than the rule file")

    def type(self, number):
        return self.types[number][0] if self.types else f"t{number}"

    def constructor(self, type_, number):
        return self.types[type_][1][number][0] if self.types else f"t{type_}c{number}"

    def function(self, number):
        if number < len(self.functions):
            return self.functions[number][0]
        name = f"f{number}"
        while name in self.taken():
            name += "_"
        return name

    def variable(self, number, function):
        named = self.functions[function][1] if function < len(self.functions) else []
        return named[number] if number < len(named) and named[number] != "_" else f"{self.prefix}{number}"


class Reader:
    """Reads a rule file and writes its text. Only what is needed to read on is checked here."""

    def __init__(self, data, names):
        self.data, self.place, self.end, self.names = data, 0, len(data), names
        self.types, self.heads, self.function = [], [], 0
        self.named = []  # the type whose values spell names, where there is one

    def fault(self, message):
        return Fault(None, f"byte {self.place}: {message}")

    def byte(self):
        if self.place >= self.end:
            raise self.fault("the bytes run out")
        self.place += 1
        return self.data[self.place - 1]

    def pair(self):
        low = self.byte()
        return low + 256 * self.byte()

    def known(self, number, things, what):
        if number >= len(things):
            raise self.fault(f"there is no {what} {number}")
        return number

    # Records.

    def text(self):
        if len(self.data) > MAX_FILE:
            raise Fault(None, f"a rule file has at most {MAX_FILE} bytes, this has {len(self.data)}")
        mark = bytes([self.byte(), self.byte()])
        while mark == b"TY":
            self.types.append([[self.byte() for _ in range(self.byte())] for _ in range(self.byte())])
            mark = bytes([self.byte(), self.byte()])
        while mark == b"FN":
            self.heads.append(self.head())
            mark = bytes([self.byte(), self.byte()])
        if mark == b"NA" and self.heads:
            self.named = [self.byte()]
            mark = bytes([self.byte(), self.byte()])
        if mark != b"GO":
            raise self.fault("a mark is unknown or out of its turn")
        source, label, depth, steps = self.byte(), self.byte(), self.byte(), self.pair()
        if self.place != self.end:
            raise self.fault("bytes follow the end")
        self.names.fit(self.types)
        self.see_numbers(source)
        lines = [self.type_line(number) for number in range(len(self.types))]
        lines += [self.function_lines(number) for number in range(len(self.heads))]
        lines += [f"names {self.type_name(number)}" for number in self.named]
        return "\n".join(lines + [f"go {self.names.function(source)} label {label} depth {depth} steps {steps}"]) + "\n"

    def see_numbers(self, source):
        """Faults the first number of a type that there is not, or that of the source, in the order of the records."""
        fields = [field for type_ in self.types for fields in type_ for field in fields]
        heads = [number for parameters, result, _, _ in self.heads for number in (*parameters, result)]
        for number in fields + heads + self.named:
            self.known(number, self.types, "type")
        self.known(source, self.heads, "function")

    def head(self):
        """The parameters and the result of a function, and where its body lies."""
        parameters = [self.byte() for _ in range(self.byte())]
        result, length = self.byte(), self.pair()
        start = self.place
        self.place += length
        if self.place > self.end:
            raise self.fault("the bytes run out in a body")
        return parameters, result, start, self.place

    def type_name(self, number):
        return self.names.type(self.known(number, self.types, "type"))

    def type_line(self, number):
        constructors = [" ".join([self.names.constructor(number, place)] + [self.type_name(field) for field in fields])
                        for place, fields in enumerate(self.types[number])]
        return f"type {self.type_name(number)} = {' | '.join(constructors)}"

    def function_lines(self, number):
        parameters, result, self.place, self.end = self.heads[number]
        self.function = number
        named = "".join(f" ({self.variable(place)} : {self.type_name(type_)})" for place, type_ in enumerate(parameters))
        body = self.expression(len(parameters), 1, 2, True)
        if self.place != self.end:
            raise self.fault("bytes follow the expression of a body")
        return f"fn {self.names.function(number)}{named} : {self.type_name(result)} =\n  {body}"

    # Expressions. Further lines begin in the column `here`; `start` says that the expression begins its own line.

    def variable(self, number):
        return self.names.variable(number, self.function)

    def expression(self, view, nesting, here, start):
        if nesting > MAX_NESTING:
            raise self.fault(f"expressions nest more than {MAX_NESTING} deep")
        forms = [self.read_variable, self.read_call, self.read_construction,
                 self.read_case, self.read_let, self.read_target]
        code = self.byte()
        if code >= len(forms):
            raise self.fault(f"there is no expression {code}")
        return forms[code](view, nesting, here, start)

    def operands(self, name, count, view, nesting, here):
        return " ".join([name] + [self.operand(view, nesting, here, " ") for _ in range(count)])

    def operand(self, view, nesting, here, marks=""):
        """An operand, in parentheses where it needs them."""
        compound = self.place < self.end and self.data[self.place] in (3, 4, 5)
        text = self.expression(view, nesting + 1, here, False)
        return f"({text})" if compound or any(mark in text for mark in marks) else text

    def read_variable(self, view, nesting, here, start):
        return self.variable(self.known(self.byte(), range(view), "variable"))

    def read_call(self, view, nesting, here, start):
        number = self.known(self.byte(), self.heads, "function")
        return self.operands(self.names.function(number), len(self.heads[number][0]), view, nesting, here + 2 * start)

    def read_construction(self, view, nesting, here, start):
        type_ = self.known(self.byte(), self.types, "type")
        number = self.known(self.byte(), self.types[type_], "constructor")
        return self.operands(self.names.constructor(type_, number), len(self.types[type_][number]), view, nesting,
                             here + 2 * start)

    def read_case(self, view, nesting, here, start):
        type_ = self.known(self.byte(), self.types, "type")
        here += 2 * start
        lines = [f"case {self.operand(view, nesting, here)} : {self.type_name(type_)} of"]
        for number, fields in enumerate(self.types[type_]):
            there = self.byte()
            if there > 1:
                raise self.fault(f"there is no alternative {there}")
            if there:
                words = [self.names.constructor(type_, number)] + [self.variable(view + k) for k in range(len(fields))]
                body = self.expression(view + len(fields), nesting + 1, here + 2, False)
                lines.append(" " * here + " ".join(words) + " -> " + body)
        return "\n".join(lines)

    def read_let(self, view, nesting, here, start):
        type_ = self.known(self.byte(), self.types, "type")
        bound = self.operand(view, nesting, here + 2)
        body = self.expression(view + 1, nesting + 1, here, True)
        return f"let {self.variable(view)} : {self.type_name(type_)} = {bound} in\n{' ' * here}{body}"

    def read_target(self, view, nesting, here, start):
        label = self.byte()
        return f"target {label} {self.expression(view, nesting + 1, here + 2 * start, False)}"


def show(data, rule=None):
    """The text of a rule file, with the names that a text has. It is built again: a file that does not come back is not
    accepted."""
    text = Reader(data, Names(rule)).text()
    try:
        again = checked(text, judged=False).data()
    except Faults as faults:
        raise Fault(None, f"not an accepted rule file: {faults.faults[0].message}") from None
    if again != data:
        raise Fault(None, "not an accepted rule file")
    return text
