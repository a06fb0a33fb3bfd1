"""The functions that the `equal` declarations of a text stand for.

The equality of a type looks at the first value and then at the second, and then at their fields:

    case a of
      C x1 x2 -> case b of
        C y1 y2 -> case same x1 y1 of
          yes -> same x2 y2
          no -> no
        _ -> no
      ..

Where this is too long for a body, the last constructors go to further functions. The first one calls these with the value built
again, so that it is not evaluated twice: `D x1 x2 -> further (D x1 x2) b`. Each field is compared by the equality of its type.

The names made up here have a space in them, so that no text has them.
"""

from rulelib.faults import Fault, Unsure
from rulelib.limits import MAX_BODY
from rulelib.syntax import Alternative, Apply, Case, Equal, Function
from rulelib.tokens import Token

ANSWER = 3  # bytes of a constructor without fields
CASE = 4  # bytes of a case over a variable, without its alternatives
TEST = 6  # bytes of a call with two variables


def plain(name):
    return Apply(name, [])


class Equality:
    """The equality of one type under a name. `same` gives the name of the equality of another type by its number."""

    def __init__(self, name, type_, answer, yes, no, constructors, same):
        self.name, self.type, self.answer = name, self.named(name, type_), self.named(name, answer)
        self.yes, self.no = self.named(name, yes), self.named(name, no)
        self.constructors, self.same = constructors, same
        self.a, self.b = self.named(name, "a "), self.named(name, "b ")

    def named(self, near, text):
        return Token("sign" if text == "_" else "name", text, near.line, 0, False)

    def names(self, side, number):
        """The names for the fields of a constructor."""
        return [self.named(self.name, f"{side} {field}") for field in range(len(self.constructors[number][1]))]

    # Bytes.

    def own(self, number):
        """The bytes of the alternative for a constructor."""
        others, fields = len(self.constructors) - 1, len(self.constructors[number][1])
        tests = TEST + (fields - 1) * (2 + TEST + 2 + ANSWER) if fields else ANSWER
        return CASE + 1 + others + others * ANSWER + tests

    def moved(self, number):
        """The bytes of the alternative that calls a further function."""
        return 2 + 3 + 2 * len(self.constructors[number][1]) + 2

    def fits(self, own, otherwise):
        """Whether a body has room for these constructors, with so many bytes for all the others."""
        return CASE + len(self.constructors) + sum(map(self.own, own)) + otherwise <= MAX_BODY

    def shares(self):
        """The numbers of the constructors that each function takes, the first as many as it can."""
        count = len(self.constructors)
        start = max(end for end in range(count + 1) if self.fits(range(end), sum(map(self.moved, range(end, count)))))
        shares = [range(start)]
        while start < count:
            end = max(end for end in range(start + 1, count + 1)
                      if self.fits(range(start, end), ANSWER * (count - (end - start))))
            shares.append(range(start, end))
            start = end
        return shares

    # Functions.

    def functions(self):
        shares = self.shares()
        base = self.name.text if " " in self.name.text else f"{self.name.text} {self.type.text}"
        further = [self.named(self.name, f"{base} {number}") for number in range(2, len(shares) + 1)]
        calls = [self.call(number, name) for share, name in zip(shares[1:], further) for number in share]
        first = self.function(self.name, [self.alternative(number) for number in shares[0]] + calls)
        return [first] + [self.function(name, self.completed([self.alternative(number) for number in share]))
                          for share, name in zip(shares[1:], further)]

    def function(self, name, alternatives):
        body = Case(name.line, plain(self.a), self.type, alternatives)
        return Function(name, [(self.a, self.type), (self.b, self.type)], self.answer, body)

    def completed(self, alternatives):
        """The alternatives, and `no` for all other constructors."""
        others = [Alternative(self.named(self.name, "_"), [], plain(self.no))]
        return alternatives + (others if len(alternatives) < len(self.constructors) else [])

    def constructor(self, number):
        return self.named(self.name, self.constructors[number][0].text)

    def alternative(self, number):
        left, right = self.names("a", number), self.names("b", number)
        equal = Alternative(self.constructor(number), right, self.tests(left, right, number))
        inner = Case(self.name.line, plain(self.b), self.type, self.completed([equal]))
        return Alternative(self.constructor(number), left, inner)

    def tests(self, left, right, number):
        """Whether the fields are equal, from left to right."""
        tests = [Apply(self.same(type_), [plain(x), plain(y)]) for x, y, type_ in zip(left, right, self.constructors[number][1])]
        expression = tests.pop() if tests else plain(self.yes)
        for test in reversed(tests):
            expression = Case(self.name.line, test, self.answer, [Alternative(self.yes, [], expression),
                                                                  Alternative(self.no, [], plain(self.no))])
        return expression

    def call(self, number, further):
        """The alternative that leaves the rest to a further function."""
        left = self.names("a", number)
        again = Apply(self.constructor(number), [plain(x) for x in left])
        return Alternative(self.constructor(number), left, Apply(further, [again, plain(self.b)]))


class Equalities:
    """The equalities of a text. A key is a type's name and the names of the two answers."""

    def __init__(self, scope):
        self.scope, self.line = scope, None
        self.names = {}  # by key: the name of the function
        self.made, self.waiting = [], []  # functions that no declaration names; keys whose functions are to be made
        for equal in scope.text.functions:
            if isinstance(equal, Equal):
                self.note(equal)

    def note(self, equal):
        """Notes under which name a text has the equality of a type."""
        self.line = equal.name.line if self.line is None else self.line
        try:
            self.names.setdefault(self.key(equal), equal.name)
        except Fault as fault:
            self.scope.faults.append(fault)
        except Unsure:
            pass

    def key(self, equal):
        """The key of a declaration that has no fault."""
        self.scope.type(equal.type)
        yes, no = self.scope.constructor(equal.yes), self.scope.constructor(equal.no)
        two = len(self.scope.constructors_of(yes.gives)) == 2 and yes.gives == no.gives and yes.number != no.number
        if not two or yes.takes or no.takes:
            raise Fault(equal.yes.line, f"'{equal.yes.text}' and '{equal.no.text}' are not the two constructors, "
                                        "both without fields, of one type")
        return equal.type.text, equal.yes.text, equal.no.text

    def declared(self, equal):
        """The function of a declaration; in a text with a fault its head alone."""
        if self.scope.faults:
            return Function(equal.name, [(equal.name, equal.type)] * 2, None, None)
        first, *others = self.functions(self.key(equal), equal.name)
        self.made += others
        return first

    def further(self):
        """The functions that the declared ones need besides."""
        while self.waiting:
            self.made += self.functions(*self.waiting.pop(0))
        return self.made

    def functions(self, key, name):
        type_, yes, no = key
        constructors = self.scope.constructors_of(self.scope.types[type_])
        answer = self.scope.type_name(self.scope.constructors[yes].gives)

        def same(field):
            """The name of a field's equality; where it has none yet it is made later."""
            wanted = (field.text, yes, no)
            if wanted not in self.names:
                self.names[wanted] = name._replace(text=f"{name.text.split(' ')[0]} {field.text}")
                self.waiting.append((wanted, self.names[wanted]))
            return self.names[wanted]

        return Equality(name, type_, answer, yes, no, constructors, same).functions()
