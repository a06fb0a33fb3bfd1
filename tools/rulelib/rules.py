"""A checked text and its rule file."""

from functools import cached_property

from rulelib.advice import advice
from rulelib.bodies import Body
from rulelib.faults import Fault, Faults, Unsure
from rulelib.limits import MAX_BODY, MAX_FILE
from rulelib.parser import parse
from rulelib.scope import Scope
from rulelib.spelling import see_form
from rulelib.syntax import Function


def two(number):
    return bytes([number % 256, number // 256])


class Rule:
    """A text whose names and types are known. Its faults are noted; without any, `data` is its rule file."""

    def __init__(self, text, judged):
        self.text = parse(text)
        self.scope = Scope(self.text)
        self.faults = self.scope.faults
        self.bodies = [Body(self.scope, function, head) for function, head in zip(self.scope.listed, self.scope.heads)]
        self.source = self.noting(self.find_source)
        self.named = self.noting(self.find_named)
        if judged and not self.faults:
            self.judge()
        if judged and self.named is not None:
            self.noting(see_form, self.scope, self.text.naming)
        self.codes = [self.noting(self.code, body) for body in self.bodies]
        if not self.faults and len(self.data()) > MAX_FILE:
            self.faults.append(self.too_large())

    def noting(self, call, *arguments):
        """What a call gives, or None where it raises a fault, which is noted, or is unsure."""
        try:
            return call(*arguments)
        except Fault as fault:
            self.faults.append(fault)
        except Unsure:
            pass
        return None

    @cached_property
    def constructors(self):
        """Per type its constructors, each with its name and the numbers of its fields' types."""
        return [[(name.text, [self.scope.type(field) for field in fields]) for name, fields in type_.constructors] for type_ in self.text.types]

    # The rule file.

    def code(self, body):
        """The code of a body that is not too long."""
        name = body.function.name
        if body.function.body is None:
            raise Unsure()
        code = body.check()
        if code.size > MAX_BODY:
            raise Fault(name.line, f"the body of '{name.text}' has {code.size} bytes; it may have {MAX_BODY}"
                                   f"{advice(body, code.size)}")
        return code

    def find_source(self):
        """The head of the source function."""
        if self.text.go is None:
            raise Unsure()
        return self.scope.function(self.text.go.source)

    def find_named(self):
        """The number of the type whose values spell names, or None where the text has no such type."""
        return None if self.text.naming is None else self.scope.type(self.text.naming.type)

    def type_record(self, type_):
        constructors = [bytes([len(fields)] + [self.scope.type(field) for field in fields]) for _, fields in type_.constructors]
        return b"TY" + bytes([len(constructors)]) + b"".join(constructors)

    def function_record(self, number):
        _, takes, gives = self.scope.heads[number]
        body = self.codes[number].bytes()
        return b"FN" + bytes([len(takes), *takes, gives]) + two(len(body)) + body

    def name_record(self):
        return b"" if self.named is None else b"NA" + bytes([self.named])

    def data(self):
        """The bytes of the rule file."""
        go = self.text.go
        return b"".join(map(self.type_record, self.text.types)) + b"".join(map(self.function_record, range(len(self.codes)))) \
            + self.name_record() + b"GO" + bytes([self.source.number, go.label, go.depth]) + two(go.steps)

    def too_large(self):
        written = {number for number, function in enumerate(self.text.functions) if isinstance(function, Function)}
        derived = sum(len(self.function_record(number)) for number in range(len(self.codes)) if number not in written)
        share = f", {derived} of them for derived equalities" if derived else ""
        return Fault(self.text.go.line, f"the rule file has {len(self.data())} bytes{share}; it may have {MAX_FILE}")

    # Depths.

    def least_depths(self):
        """Per type the depth of its shallowest closed value, or None where it has none."""
        depths = [None] * len(self.text.types)
        for depth in range(1, len(depths) + 1):
            known = list(depths)
            for _, takes, gives in self.scope.constructors.values():
                if depths[gives] is None and all(known[field] is not None for field in takes):
                    depths[gives] = depth
        return depths

    def judge(self):
        """Notes a type without a closed value, and a depth that is too small."""
        depths, go = self.least_depths(), self.text.go
        self.faults += [Fault(type_.name.line, f"the type '{type_.name.text}' has no closed value (refusal 8)")
                        for type_, depth in zip(self.text.types, depths) if depth is None]
        for (name, _), type_ in zip(self.scope.listed[self.source.number].parameters, self.source.takes):
            if depths[type_] is not None and depths[type_] > go.depth:
                self.faults.append(Fault(go.line, f"the depth is {go.depth}, and the values of parameter '{name.text.strip()}' "
                                                  f"have depth {depths[type_]} at least (refusal 9)"))


def checked(text, judged=True):
    """The rule of a text without faults. Where it is judged these count too: a type without a closed value, too small a depth, and a
    type that is to spell names and has another form."""
    rule = Rule(text, judged)
    if rule.faults:
        raise Faults(rule.faults)
    return rule
