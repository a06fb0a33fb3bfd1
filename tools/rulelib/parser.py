"""Reads a text. After a fault it goes on with the next declaration."""

from rulelib.faults import Fault
from rulelib.limits import (MAX_CONSTRUCTORS, MAX_DEPTH, MAX_FIELDS, MAX_FUNCTIONS, MAX_LABEL, MAX_NESTING, MAX_PARAMETERS,
                            MAX_PARENTHESES, MAX_STEPS, MAX_TYPES)
from rulelib.syntax import Alternative, Apply, Case, Constructor, Equal, Function, Go, Let, Naming, Target, Text, Type
from rulelib.tokens import meaningless, tokens_of

# What may help where a token is not expected.
INDENT = "(a line that goes on is indented further, an alternative as the one above it)"
PARENTHESES = "; as a scrutinee or an argument it needs parentheses"
HINTS = {"->": "; the alternatives of a case begin in one column",
         "case": PARENTHESES, "let": PARENTHESES, "target": PARENTHESES}


class Parser:
    """Reads a text. A token that begins a line at or left of the margin is no part of what is being read: the margin is
    the column of the declaration, or of the alternatives of the innermost case."""

    def __init__(self, text):
        self.tokens, self.place = tokens_of(text), 0
        self.left = self.tokens[0].column  # of the first declaration
        self.latest = None  # the word that began the latest declaration, where it has no fault
        self.margin, self.parentheses = 0, 0
        self.types, self.functions, self.naming, self.go = [], [], None, None
        self.faults = []
        self.lost = {"type": set(), "name": set(), "go": set()}
        self.losing = set()  # the kinds of names that are lost if a fault comes now

    # Single tokens.

    def next(self):
        """The next token, or one that stands for the end of what is being read."""
        token = self.tokens[self.place]
        if token.first and token.column <= self.margin:
            return token._replace(kind="end")
        if token.kind == "bad":
            raise Fault(token.line, meaningless(token))
        return token

    def previous_line(self):
        return self.tokens[max(self.place - 1, 0)].line

    def unexpected(self, wanted):
        """The fault that another token stands where `wanted` should."""
        token, raw = self.next(), self.tokens[self.place]
        if token.kind == "end" and raw.kind != "end":
            return Fault(self.previous_line(), f"{wanted} is missing at the end of this line {INDENT}")
        if token.kind == "end":
            return Fault(token.line, f"{wanted} is missing at the end of the text")
        hint = "" if wanted == "'in'" else HINTS.get(token.text, "")
        return Fault(token.line, f"{wanted} is expected, not {token}{hint}")

    def take(self, kind, wanted):
        token = self.next()
        if token.kind != kind:
            raise self.unexpected(wanted)
        self.place += 1
        return token

    def at(self, text):
        token = self.next()
        return token.kind != "end" and token.text == text

    def expect(self, text):
        if not self.at(text):
            raise self.unexpected(f"'{text}'")
        self.place += 1

    def number(self, what, least, most):
        token = self.take("number", f"a number for the {what}")
        digits = token.text.lstrip("0") or "0"
        if len(digits) > 9 or not least <= int(digits) <= most:
            raise Fault(token.line, f"{what} {digits} is out of range: {least} to {most}")
        return int(digits)

    # Declarations.

    def text(self):
        """Reads the whole text."""
        while self.tokens[self.place].kind != "end":
            token, start = self.tokens[self.place], self.place
            self.margin, self.parentheses = token.column if token.first else 0, 0
            self.losing = {"type", "name", "go"}
            try:
                self.declaration(token)
            except Fault as fault:
                self.faults.append(fault)
                self.recover(start)
        if self.go is None and not self.lost["go"]:
            self.faults.append(Fault(self.tokens[self.place].line, "the text has no 'go' line"))
        return Text(self.types, self.functions, self.naming, self.go, self.faults, self.lost)

    def begins(self, token):
        """What reads the declaration that the token begins, or None. `equal` and `names` begin one in the first column alone:
        elsewhere they are names."""
        if token.text in ("equal", "names") and not (token.first and token.column <= self.left):
            return None
        return {"type": self.type, "fn": self.function, "equal": self.equal, "names": self.names, "go": self.goal}.get(token.text)

    def declaration(self, token):
        self.place += 1
        reader = self.begins(token)
        if reader is None:
            self.spoil(token)
            hint = f" {INDENT}" if token.first else HINTS.get(token.text, "")
            raise Fault(token.line, meaningless(token) if token.kind == "bad" else
                        f"'type', 'fn', 'equal', 'names' or 'go' is expected, not {token}{hint}")
        self.latest = None
        reader(token)
        self.latest = token.text

    def spoil(self, token):
        """Takes the latest declaration for one with a fault, where a token follows that it may have been meant to have."""
        if token.first and token.column <= self.left:
            return
        if self.latest == "type":
            self.types[-1] = self.types[-1]._replace(constructors=None)
            self.lost["name"].add(None)
        if self.latest == "fn":
            self.functions[-1] = self.functions[-1]._replace(body=None)

    def recover(self, start):
        """Goes on to the next declaration that begins a line. What lies between the start and it may declare any of its names; where
        a character there has no meaning, any name at all."""
        token = self.tokens[self.place]
        while token.kind != "end" and not (token.first and self.begins(token)):
            self.place += 1
            token = self.tokens[self.place]
        names = {None if token.kind == "bad" else token.text for token in self.tokens[start:self.place]}
        self.lost = {kind: lost | names if kind in self.losing else lost for kind, lost in self.lost.items()}

    def limit(self, number, most, line, message):
        """Notes the first that is too many; it is read on."""
        if number == most + 1:
            self.faults.append(Fault(line, f"{message} {most}"))

    def type(self, start):
        name = self.take("name", "the name of the type")
        self.types.append(Type(name, None))
        self.losing = {"name"}
        self.limit(len(self.types), MAX_TYPES, start.line, f"'{name.text}' is one type too many; there may be")
        self.expect("=")
        constructors = [self.constructor()]
        while self.at("|"):
            self.place += 1
            constructors.append(self.constructor())
            added = constructors[-1].name
            self.limit(len(constructors), MAX_CONSTRUCTORS, added.line,
                       f"'{added.text}' is one constructor too many; a type may have")
        self.types[-1] = Type(name, constructors)

    def constructor(self):
        name = self.take("name", "the name of a constructor")
        fields = []
        while self.next().kind == "name":
            fields.append(self.take("name", "a type"))
        if len(fields) > MAX_FIELDS:
            self.faults.append(Fault(name.line, f"'{name.text}' has {len(fields)} fields; a constructor may have {MAX_FIELDS}"))
        return Constructor(name, fields)

    def declare(self, function):
        """Notes a function, its body without fault or not yet read."""
        self.functions.append(function)
        self.losing = set()
        self.limit(len(self.functions), MAX_FUNCTIONS, function.name.line,
                   f"'{function.name.text}' is one function too many; there may be")

    def function(self, start):
        self.losing = {"name"}
        name = self.take("name", "the name of the function")
        parameters = []
        while self.at("("):
            self.place += 1
            variable = self.binder("the name of a parameter")
            self.expect(":")
            parameters.append((variable, self.take("name", "the type of the parameter")))
            self.expect(")")
        if len(parameters) > MAX_PARAMETERS:
            self.faults.append(Fault(name.line, f"'{name.text}' has {len(parameters)} parameters; "
                                                f"a function may have {MAX_PARAMETERS}"))
        self.expect(":")
        self.declare(Function(name, parameters, self.take("name", "the type of the result"), None))
        self.expect("=")
        self.functions[-1] = self.functions[-1]._replace(body=self.expression(1))

    def equal(self, start):
        self.losing = {"name"}
        type_ = self.take("name", "the name of a type")
        self.expect("as")
        name = self.take("name", "the name of the function")
        self.expect("then")
        yes = self.take("name", "a constructor")
        self.expect("else")
        self.declare(Equal(type_, name, yes, self.take("name", "a constructor")))

    def names(self, start):
        self.losing = set()
        if self.naming is not None:
            raise Fault(start.line, f"a second 'names'; the first is in line {self.naming.line}")
        self.naming = Naming(start.line, self.take("name", "the name of a type"))

    def goal(self, start):
        self.losing = {"go"}
        if self.go is not None:
            raise Fault(start.line, f"a second 'go'; the first is in line {self.go.line}")
        source = self.take("name", "the name of the source function")
        numbers = []
        for what, least, most in (("label", 0, MAX_LABEL), ("depth", 1, MAX_DEPTH), ("steps", 0, MAX_STEPS)):
            self.expect(what)
            numbers.append(self.number(what, least, most))
        self.go = Go(start.line, source, *numbers)

    # Expressions.

    def binder(self, wanted):
        """A variable's name where it is bound, or '_' for one that is not used."""
        if self.at("_"):
            self.place += 1
            return self.tokens[self.place - 1]
        return self.take("name", wanted)

    def nest(self, nesting):
        if nesting > MAX_NESTING:
            raise Fault(self.next().line, f"expressions nest more than {MAX_NESTING} deep here")

    def expression(self, nesting):
        self.nest(nesting)
        for keyword, reader in (("case", self.case), ("let", self.let), ("target", self.target)):
            if self.at(keyword):
                self.place += 1
                return reader(nesting)
        return self.application(nesting)

    def application(self, nesting):
        self.nest(nesting)
        if self.at("("):
            return self.parenthesis(nesting)
        name = self.take("name", "an expression")
        arguments = []
        while self.next().kind == "name" or self.at("("):
            arguments.append(self.argument(nesting + 1))
        return Apply(name, arguments)

    def argument(self, nesting):
        self.nest(nesting)
        return self.parenthesis(nesting) if self.at("(") else Apply(self.take("name", "an argument"), [])

    def parenthesis(self, nesting):
        if self.parentheses == MAX_PARENTHESES:
            raise Fault(self.next().line, f"parentheses nest more than {MAX_PARENTHESES} deep here")
        self.place += 1
        self.parentheses += 1
        inner = self.expression(nesting)
        self.expect(")")
        self.parentheses -= 1
        return inner

    def case(self, nesting):
        line = self.previous_line()
        scrutinee = self.application(nesting + 1)
        type_ = None
        if self.at(":"):
            self.place += 1
            type_ = self.take("name", "the type of the case")
        self.expect("of")
        return Case(line, scrutinee, type_, self.alternatives(nesting + 1))

    def alternatives(self, nesting):
        """The alternatives of a case: all begin in the column of the first, and that for all others is the last."""
        outer, found, first = self.margin, [], self.next()
        following = first
        while following.kind == "name" or following.kind == "sign" and following.text == "_":
            if found and found[-1].constructor.text == "_":
                raise Fault(following.line, "an alternative behind '_', which stands for all others and comes last")
            self.place += 1
            self.margin = first.column
            found.append(self.alternative(following, nesting))
            self.margin = outer
            following = self.tokens[self.place]
            if not following.first or following.column != first.column:
                break
        return found

    def alternative(self, constructor, nesting):
        variables = []
        while self.next().kind == "name" or self.at("_"):
            variables.append(self.binder("a variable"))
        if variables and constructor.text == "_":
            raise Fault(constructor.line, "'_' stands for all other constructors and names no fields")
        self.expect("->")
        if self.at("_"):
            self.place += 1
            return Alternative(constructor, variables, None)
        return Alternative(constructor, variables, self.expression(nesting))

    def let(self, nesting):
        variable = self.binder("the name of a variable")
        self.expect(":")
        type_ = self.take("name", "the type of the variable")
        self.expect("=")
        bound = self.expression(nesting + 1)
        self.expect("in")
        return Let(variable, type_, bound, self.expression(nesting + 1))

    def target(self, nesting):
        line = self.previous_line()
        label = self.number("label", 0, MAX_LABEL)
        return Target(line, label, self.expression(nesting + 1))


def parse(text):
    """What a text says, and its faults."""
    return Parser(text).text()
