"""Rule files put together from their pieces, and random rule files that are accepted.

Each function gives bytes. Nothing is checked here, so that faulty files can be built as well.
"""

from blind.rulefile import Type, least_depths


# Expressions.

def var(number):
    return bytes([0, number])


def call(function, *arguments):
    return bytes([1, function]) + b"".join(arguments)


def con(type_, constructor, *fields):
    return bytes([2, type_, constructor]) + b"".join(fields)


def case(type_, scrutinee, *alternatives):
    """An alternative is an expression, or None where there is none."""
    return bytes([3, type_]) + scrutinee + b"".join(b"\0" if a is None else b"\1" + a for a in alternatives)


def let(type_, bound, body):
    return bytes([4, type_]) + bound + body


def target(label, inner):
    return bytes([5, label]) + inner


# Records.

def two(number):
    return bytes([number % 256, number // 256])


def ty(*constructors):
    """A constructor is the sequence of its fields' types."""
    return b"TY" + bytes([len(constructors)]) + b"".join(bytes([len(fields), *fields]) for fields in constructors)


def fn(parameters, result, body, length=None):
    """The length stated is that of the body unless another is given."""
    return b"FN" + bytes([len(parameters), *parameters, result]) + two(len(body) if length is None else length) + body


def na(type_):
    return b"NA" + bytes([type_])


def go(source=0, label=7, depth=8, steps=20):
    return b"GO" + bytes([source, label, depth]) + two(steps)


# Random rule files.

def random_types(rng, most_types, most_constructors, most_fields):
    """Types that all have a closed value: one constructor of each has only fields of types that come before it in a
    hidden order."""
    count = rng.randint(1, most_types)
    order = rng.sample(range(count), count)
    types = [None] * count
    for rank, number in enumerate(order):
        constructors = [tuple(rng.randrange(count) for _ in range(rng.randint(0, most_fields)))
                        for _ in range(rng.randint(1, most_constructors))]
        ground = rng.randint(0, most_fields) if rank and rng.random() < 0.4 else 0
        constructors[rng.randrange(len(constructors))] = tuple(order[rng.randrange(rank)] for _ in range(ground))
        types[number] = Type(tuple(constructors))
    return types


class RandomBody:
    """Writes random expressions of a wanted type; the budget bounds how many of them are no leaves. A case has each of its
    alternatives with the probability `kept`."""

    def __init__(self, rng, types, heads, label, kept):
        self.rng, self.types, self.heads, self.label, self.kept = rng, types, heads, label, kept
        self.depths = least_depths(types)

    def shallowest(self, type_):
        """The number of a constructor of least depth."""
        def depth(constructor):
            return 1 + max((self.depths[field] for field in self.types[type_].constructors[constructor]), default=0)
        return min(range(len(self.types[type_].constructors)), key=depth)

    def leaf(self, wanted, view):
        numbers = [number for number, type_ in enumerate(view) if type_ == wanted]
        if numbers and self.rng.random() < 0.8:
            return var(self.rng.choice(numbers))
        constructor = self.shallowest(wanted)
        return con(wanted, constructor,
                   *(self.leaf(field, view) for field in self.types[wanted].constructors[constructor]))

    def mark(self):
        return self.label if self.rng.random() < 0.7 else self.rng.randrange(256)

    def operands(self, wanted, budget, nesting):
        """Per pair of a type and a view an expression; they share the budget."""
        return [self.expression(type_, view, budget // len(wanted), nesting + 1) for type_, view in wanted]

    def expression(self, wanted, view, budget, nesting=1):
        rng = self.rng
        if budget <= 0 or nesting > 16:
            leaf = self.leaf(wanted, view)
            return target(self.mark(), leaf) if rng.random() < 0.3 else leaf
        budget -= 1
        form = rng.choices(["call", "construction", "case", "let", "target"], [3, 1, 6, 1, 1])[0]

        callable_ = [number for number, (_, result) in enumerate(self.heads) if result == wanted]
        if form == "call" and callable_:
            function = rng.choice(callable_)
            return call(function, *self.operands([(type_, view) for type_ in self.heads[function][0]], budget, nesting))

        if form == "case":
            if view and rng.random() < 0.8:
                number = rng.randrange(len(view))
                type_, scrutinee = view[number], var(number)
            else:
                type_ = rng.randrange(len(self.types))
                scrutinee = self.expression(type_, view, budget // 3, nesting + 1)
            kept = [rng.random() < self.kept and len(view + fields) <= 32 for fields in self.types[type_].constructors]
            written = iter(self.operands([(wanted, view + fields) for fields, keep
                                          in zip(self.types[type_].constructors, kept) if keep], budget, nesting))
            return case(type_, scrutinee, *(next(written) if keep else None for keep in kept))

        if form == "let" and len(view) < 32:
            type_ = rng.randrange(len(self.types))
            return let(type_, *self.operands([(type_, view), (wanted, view + (type_,))], budget, nesting))

        if form == "target":
            return target(self.mark(), *self.operands([(wanted, view)], budget, nesting))

        constructor = rng.randrange(len(self.types[wanted].constructors))
        fields = self.types[wanted].constructors[constructor]
        return con(wanted, constructor, *self.operands([(field, view) for field in fields], budget, nesting))


def random_program(rng, most_types=4, most_constructors=3, most_fields=3, most_functions=4, most_parameters=3,
                   budget=12, most_depth=6, most_steps=60, kept=0.9):
    """A random rule file that is accepted; D is raised to what the source's parameters need."""
    types = random_types(rng, most_types, most_constructors, most_fields)
    count = len(types)
    heads = [(tuple(rng.randrange(count) for _ in range(rng.randint(0, most_parameters))), rng.randrange(count))
             for _ in range(rng.randint(1, most_functions))]
    label = rng.randrange(256)
    functions = []
    for parameters, result in heads:
        writer = RandomBody(rng, types, heads, label, kept)
        body = writer.expression(result, parameters, rng.randint(0, budget))
        while len(body) > 1024:
            body = writer.expression(result, parameters, 0)
        functions.append(fn(parameters, result, body))
    source = rng.randrange(len(heads))
    depths = least_depths(types)
    depth = max([rng.randint(1, most_depth)] + [depths[parameter] for parameter in heads[source][0]])
    return (b"".join(ty(*type_.constructors) for type_ in types) + b"".join(functions)
            + go(source, label, depth, rng.randint(0, most_steps)))


class BranchingBody(RandomBody):
    """Writes bodies that look deep into the variables in view, and calls on what they find there; `levels` bounds how
    many expressions that are no ends lie below each other."""

    def argument(self, wanted, view):
        """A variable, the newest first, or a construction."""
        numbers = [number for number, type_ in enumerate(view) if type_ == wanted]
        if numbers and self.rng.random() < 0.8:
            return var(numbers[-1] if self.rng.random() < 0.6 else self.rng.choice(numbers))
        constructor = self.rng.randrange(len(self.types[wanted].constructors))
        return con(wanted, constructor, *(self.leaf(field, view) for field in self.types[wanted].constructors[constructor]))

    def call(self, function, view):
        return call(function, *(self.argument(parameter, view) for parameter in self.heads[function][0]))

    def ending(self, wanted, view):
        """A target, a call, or a variable or construction."""
        callable_ = [number for number, (_, result) in enumerate(self.heads) if result == wanted]
        form = self.rng.choices(["sought", "other", "call", "leaf"], [4, 1, 3 if callable_ else 0, 4])[0]
        if form == "sought":
            return target(self.label, self.leaf(wanted, view))
        if form == "other":
            below = self.ending if self.rng.random() < 0.5 else self.leaf
            return target((self.label + 1) % 256, below(wanted, view))
        return self.call(self.rng.choice(callable_), view) if form == "call" else self.leaf(wanted, view)

    def branch(self, wanted, view, type_, scrutinee, levels, nesting):
        """A case with most of its alternatives."""
        kept = [self.rng.random() < self.kept and len(view + fields) <= 32 for fields in self.types[type_].constructors]
        return case(type_, scrutinee, *(self.expression(wanted, view + fields, levels - 1, nesting + 1) if keep else None
                                        for fields, keep in zip(self.types[type_].constructors, kept)))

    def expression(self, wanted, view, levels, nesting=1):
        rng = self.rng
        if levels <= 0 or nesting > 12:
            return self.ending(wanted, view)
        form = rng.choices(["variable", "scrutinee", "let", "target", "end"], [12, 2, 2, 1, 1])[0]
        if form == "variable" and view:
            number = len(view) - 1 - min(int(rng.expovariate(0.4)), len(view) - 1)
            return self.branch(wanted, view, view[number], var(number), levels, nesting)
        if form == "scrutinee":
            function = rng.randrange(len(self.heads))
            if rng.random() < 0.6:
                return self.branch(wanted, view, self.heads[function][1], self.call(function, view), levels, nesting)
            type_ = rng.randrange(len(self.types))
            return self.branch(wanted, view, type_, self.expression(type_, view, levels - 1, nesting + 1), levels, nesting)
        if form == "let" and len(view) < 32:
            type_ = rng.randrange(len(self.types))
            return let(type_, self.expression(type_, view, levels - 2, nesting + 1),
                       self.expression(wanted, view + (type_,), levels, nesting + 1))
        if form == "target":
            return target((self.label + 1) % 256, self.expression(wanted, view, levels - 1, nesting + 1))
        return self.ending(wanted, view)


class BuildingBody(BranchingBody):
    """Writes bodies that also build: constructions whose fields are variables, or branch and build in turn."""

    def field(self, wanted, view, levels, nesting):
        numbers = [number for number, type_ in enumerate(view) if type_ == wanted]
        if numbers and self.rng.random() < 0.4:
            return var(self.rng.choice(numbers))
        return self.expression(wanted, view, levels, nesting)

    def expression(self, wanted, view, levels, nesting=1):
        numbers = [number for number, fields in enumerate(self.types[wanted].constructors) if fields]
        if levels <= 0 or nesting > 12 or not numbers or self.rng.random() < 0.5:
            return super().expression(wanted, view, levels, nesting)
        number = self.rng.choice(numbers)
        return con(wanted, number, *(self.field(type_, view, levels - 1, nesting + 1) for type_ in self.types[wanted].constructors[number]))


def random_rule(rng, most_types=3, most_constructors=3, most_fields=2, most_functions=3, most_parameters=3, most_levels=4,
                kept=0.85, body_writer=BranchingBody):
    """A random rule file without its GO, whose bodies branch; with it the label that it marks most often, and the
    number of its functions."""
    types = random_types(rng, most_types, most_constructors, most_fields)
    count = len(types)
    heads = [(tuple(rng.randrange(count) for _ in range(rng.randint(0, most_parameters))), rng.randrange(count))
             for _ in range(rng.randint(1, most_functions))]
    label = rng.randrange(256)
    writer = body_writer(rng, types, heads, label, kept)
    functions = []
    for parameters, result in heads:
        body = writer.expression(result, parameters, rng.randint(1, most_levels))
        while len(body) > 1024:
            body = writer.expression(result, parameters, 1)
        functions.append(fn(parameters, result, body))
    return b"".join(ty(*type_.constructors) for type_ in types) + b"".join(functions), label, len(heads)


# Random rule files with names.

class NamingBody(BranchingBody):
    """Writes bodies that tell a few of sixteen constructors, or nearly as many, from all the others."""

    def branch(self, wanted, view, type_, scrutinee, levels, nesting):
        constructors = self.types[type_].constructors
        if len(constructors) < 8:
            return super().branch(wanted, view, type_, scrutinee, levels, nesting)
        few = self.rng.sample(range(len(constructors)), self.rng.randint(1, 3))
        others = self.ending(wanted, view) if self.rng.random() < self.kept else None
        return case(type_, scrutinee, *(self.expression(wanted, view + fields, levels - 1, nesting + 1) if number in few else others
                                        for number, fields in enumerate(constructors)))


def placed(rng, groups):
    """The types of all groups in random order, with the numbers that the first type of each group has there. A type is its
    constructors; the field numbers of a type count in its own group, and behind its last type in the first group."""
    count = sum(map(len, groups))
    order, types, firsts = iter(rng.sample(range(count), count)), [None] * count, []
    numbers = [[next(order) for _ in group] for group in groups]
    for group, own in zip(groups, numbers):
        for number, constructors in zip(own, group):
            types[number] = Type(tuple(tuple((own + numbers[0])[field] for field in fields) for fields in constructors))
        firsts.append(own[0])
    return types, firsts


def random_named_rule(rng, form, most_functions=3, most_parameters=3, most_levels=5, kept=0.8):
    """A random rule file without its NA and GO. The types of `form`, each its constructors, are among its types, of which others may
    hold them. Besides it the label that it marks most often, the number of its functions, and that of the form's first type."""
    others = [list(type_.constructors) for type_ in random_types(rng, 2, 3, 2)]
    for type_ in others:
        if rng.random() < 0.5:
            type_.append((len(others),) * rng.randint(1, 2))
    types, (named, _) = placed(rng, [form, others])
    count = len(types)
    heads = [(tuple(rng.choice((named, named, rng.randrange(count))) for _ in range(rng.randint(0, most_parameters))), rng.randrange(count))
             for _ in range(rng.randint(1, most_functions))]
    label = rng.randrange(256)
    writer, functions = NamingBody(rng, types, heads, label, kept), []
    for parameters, result in heads:
        body = writer.expression(result, parameters, rng.randint(1, most_levels))
        while len(body) > 1024:
            body = writer.expression(result, parameters, rng.randint(1, 2))
        functions.append(fn(parameters, result, body))
    return b"".join(ty(*type_.constructors) for type_ in types) + b"".join(functions), label, len(heads), named
