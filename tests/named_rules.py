"""Rules with names for the tests, and the forms that the type named by NA may have.

A form is a list of types, each the fields of its constructors; the first is the one that is named. The numbers of fields count in
the form.
"""

from functools import partial

from blind.build import call, case, con, fn, go, na, target, ty, var
from blind.rulefile import FN, Reader, read_type

SIXTEEN, BOOL, UNIT = ((),) * 16, ((), ()), ((),)


def name(high=1, low=1, rest=0):
    return (), (high, low, rest)


def but(place, *fields, count=16):
    """So many constructors without fields, but for the one at this place."""
    return tuple(fields if number == place else () for number in range(count))


# Forms.

GOOD = {
    "one type for both halves": [name(), SIXTEEN],
    "a type for each half": [name(1, 2), SIXTEEN, SIXTEEN],
    "a type for each half, the low one first": [name(2, 1), SIXTEEN, SIXTEEN],
}

CONSTRUCTORS = {
    "one constructor": [UNIT, SIXTEEN],
    "three constructors": [(*name(), ()), SIXTEEN],
    "three constructors, the last like the second": [(*name(), (1, 1, 0)), SIXTEEN],
    "three constructors, the first twice": [((), *name()), SIXTEEN],
    "sixteen constructors": [(*name(), *[()] * 14), SIXTEEN],
    "the constructors of a half": [SIXTEEN, SIXTEEN],
    "constructors exchanged": [((1, 1, 0), ()), SIXTEEN],
    "constructors exchanged, a type for each half": [((1, 2, 0), ()), SIXTEEN, SIXTEEN],
    "constructors exchanged, the low half first": [((2, 1, 0), ()), SIXTEEN, SIXTEEN],
}

ENDS = {
    "an end with a half": [((1,), (1, 1, 0)), SIXTEEN],
    "an end with two halves": [((1, 1), (1, 1, 0)), SIXTEEN],
    "an end with another type": [((2,), (1, 1, 0)), SIXTEEN, UNIT],
    "an end with three fields": [((1, 1, 1), (1, 1, 0)), SIXTEEN],
    "an end with a name of the right form": [((2,), (1, 1, 0)), SIXTEEN, name(1, 1, 2)],
}

FIELDS = {
    "no field": [((), ()), SIXTEEN],
    "one field, a half": [((), (1,)), SIXTEEN],
    "one field, the rest": [((), (0,)), SIXTEEN],
    "two fields, two halves": [((), (1, 1)), SIXTEEN],
    "two fields, a half and the rest": [((), (1, 0)), SIXTEEN],
    "two fields, a half of two types and the rest": [((), (1, 0)), SIXTEEN, SIXTEEN],
    "two fields, another half and the rest": [((), (2, 0)), SIXTEEN, SIXTEEN],
    "four fields, three halves and the rest": [((), (1, 1, 1, 0)), SIXTEEN],
    "four fields, the rest twice": [((), (1, 1, 0, 0)), SIXTEEN],
    "four fields, a half last": [((), (1, 1, 0, 1)), SIXTEEN],
    "four fields, another type first": [((), (2, 1, 1, 0)), SIXTEEN, BOOL],
    "four fields, another type last": [((), (1, 1, 0, 2)), SIXTEEN, BOOL],
    "five fields": [((), (1, 1, 0, 1, 1)), SIXTEEN],
    "six fields": [((), (1, 1, 0, 1, 1, 0)), SIXTEEN],
    "the rest first": [((), (0, 1, 1)), SIXTEEN],
    "the rest in the middle": [((), (1, 0, 1)), SIXTEEN],
    "the rest before a type for each half": [((), (0, 1, 2)), SIXTEEN, SIXTEEN],
    "three halves": [((), (1, 1, 1)), SIXTEEN],
    "three rests": [((), (0, 0, 0)), SIXTEEN],
    "the rest for the high half": [((), (0, 1, 0)), SIXTEEN],
    "the rest for the low half": [((), (1, 0, 0)), SIXTEEN],
}

REST = {
    "another rest": [name(1, 1, 2), SIXTEEN, BOOL],
    "a rest that holds the type": [name(1, 1, 2), SIXTEEN, ((0,), ())],
    "a rest of the same form": [name(1, 1, 2), SIXTEEN, name(1, 1, 2)],
    "two types, each the rest of the other": [name(1, 1, 2), SIXTEEN, name(1, 1, 0)],
    "three types, each the rest of the one before": [name(1, 1, 2), SIXTEEN, name(1, 1, 3), name(1, 1, 0)],
    "a rest that is the low half": [name(1, 2, 2), SIXTEEN, SIXTEEN],
}


def of_halves(half, word):
    """The forms in which a half is of this type: the high one, the low one, or both."""
    return {f"high half {word}": [name(2, 1), SIXTEEN, half], f"low half {word}": [name(1, 2), SIXTEEN, half],
            f"both halves {word}": [name(1, 1), half]}


HALVES = {
    **of_halves(((),) * 15, "of fifteen"), **of_halves(((),) * 14, "of fourteen"), **of_halves(BOOL, "of two"), **of_halves(UNIT, "of one"),
    **{text: form for place, word in ((0, "first"), (7, "middle"), (14, "last but one"), (15, "last"))
       for text, form in of_halves(but(place, 0), f"with a name in its {word}").items()},
    "high half with a half in its first": [name(2, 1), SIXTEEN, but(0, 1)],
    "low half with a half in its last": [name(1, 2), SIXTEEN, but(15, 1)],
    "high half with itself in its last": [name(2, 1), SIXTEEN, but(15, 2)],
    "low half with itself in its first": [name(1, 2), SIXTEEN, but(0, 2)],
    "high half with six fields in its middle": [name(2, 1), SIXTEEN, but(8, 0, 1, 2, 0, 1, 2)],
    "low half with another type in its second": [name(1, 2), SIXTEEN, but(1, 3), BOOL],
    "high half with fields in all but its first": [name(2, 1), SIXTEEN, ((), *[(1,)] * 15)],
    "low half with fields in all but its last": [name(1, 2), SIXTEEN, (*[(1,)] * 15, ())],
    "high half of fifteen with a field": [name(2, 1), SIXTEEN, but(3, 1, count=15)],
}

BAD = {**CONSTRUCTORS, **ENDS, **FIELDS, **REST, **HALVES}

# Forms whose first type, or another, has no closed value.
HOLLOW = {
    "a name without an end": [((1, 1, 0),), SIXTEEN],
    "an end that holds the name": [((0,), (1, 1, 0)), SIXTEEN],
    "halves that hold names, and no end": [((2,), (1, 1, 0)), SIXTEEN, ((0,),)],
    "a half that holds itself sixteen times": [name(1, 2), SIXTEEN, ((2,),) * 16],
    "three constructors without an end": [((0,), (1, 1, 0), (0, 0)), SIXTEEN],
}


# Files.

def shifted(form, number):
    """The types of a form that stand behind so many others."""
    return b"".join(ty(*(tuple(field + number for field in fields) for fields in constructors)) for constructors in form)


def arranged(types, order):
    """The types in another order, which has per place the number of the type that stands there."""
    return [tuple(tuple(order.index(field) for field in fields) for fields in types[number]) for number in order]


def split(rule):
    """The number of the types of a rule, their records, and all that stands behind them."""
    reader, count = Reader(rule, 0, len(rule)), 0
    while rule[reader.place:reader.place + 2] != FN:
        reader.mark()
        read_type(reader)
        count += 1
    return count, rule[:reader.place], rule[reader.place:]


def with_form(rule_file, form, number=0):
    """The rule file with the types of the form behind its own, of which NA names the one with this number in the form."""
    count, types, functions = split(rule_file[:-7])
    return types + shifted(form, count) + functions + na(count + number) + rule_file[-7:]


def without_names(rule_file):
    """The rule file without its NA."""
    return rule_file[:-10] + rule_file[-7:]


def refused(number, form):
    """A rule file of one number that is refused by this number, 1 to 9, before the form of its names is looked at."""
    types, source, goal, new = ty((), (0,)) + shifted(form, 1), fn((0,), 0, var(0)) + na(1), go(0, 7, 4, 20), 1 + len(form)
    return (types + source + goal[:-1],
            types + source + b"GA" + goal[2:],
            types + source + go(0, 7, 65, 20),
            types + source + go(1, 7, 4, 20),
            types + fn((0,), 0, b"\6") + na(1) + goal,
            types + ty(()) + fn((0,), 0, con(new, 0)) + na(1) + goal,
            types + source + goal + b"\0",
            types + ty((new,)) + source + goal,
            types + ty((new + 1,)) + ty(()) + fn((new, 0), new, var(0)) + na(1) + go(0, 7, 1, 20))[number - 1]


def spelt(data):
    """The closed value that spells these bytes, in prefix form."""
    return b"".join(bytes([1, byte // 16, byte % 16]) for byte in data) + b"\0"


# Rules. Type 0 is that of the halves, type 1 that of the names; others stand behind them. The rules are without their GO, the source
# is function 0 and the label sought is 7 unless a rule says otherwise.

H, N, OTHER = 0, 1, 2
TYPES = ty(*SIXTEEN) + ty(*name(H, H, N))
END, REACH = con(N, 0), target(7, con(N, 0))


def rule(functions, *others):
    return TYPES + b"".join(ty(*constructors) for constructors in others) + functions + na(N)


def of_half(scrutinee, chosen, others=END, type_=H):
    """A case that has these alternatives by number, and one for all others."""
    return case(type_, scrutinee, *(chosen.get(number, others) for number in range(16)))


def look(subject, view, pattern, inner, others=END, types=(H, H, N)):
    """Looks at the name that variable `subject` is, by a pattern: per byte the high half and the low one, of which None is not looked
    at, and behind the bytes None where the name has to end. `view` is the number of variables in view. `inner` is an expression, or
    makes one from the number of variables in view where it stands. `types` are those of the halves and of the name."""
    if not pattern:
        return inner if isinstance(inner, bytes) else inner(view)
    if pattern[0] is None:
        return case(types[2], var(subject), look(subject, view, pattern[1:], inner), others)
    body = look(view + 2, view + 3, pattern[1:], inner, others, types)
    for place in (1, 0):
        if pattern[0][place] is not None:
            body = of_half(var(view + place), {pattern[0][place]: body}, others, types[place])
    return case(types[2], var(subject), others, body)


def in_turn(view, inner, *patterns):
    """Looks at several names, each a variable with its pattern, one after the other."""
    for subject, pattern in reversed(patterns):
        inner = partial(look, subject, pattern=pattern, inner=inner)
    return inner(view)


def reaches(*pattern, others=END):
    """A name by this pattern reaches the target."""
    return rule(fn((N,), N, look(0, 1, pattern, REACH, others)))


def spelling(data, closed=True):
    """The pattern of these bytes, and of the name's end where it is to be looked at."""
    return [(byte // 16, byte % 16) for byte in data] + [None] * closed


def never_looked_at(*others):
    """A name that nothing looks at, behind parameters of these types, which are not looked at either."""
    return rule(fn((*range(OTHER, OTHER + len(others)), N), N, REACH), *others)


def every_byte(low_first=False):
    """All names of one byte, with the rest open: 256 entries in the order of the bytes, or in that of their low halves."""
    first, second = (2, 1) if low_first else (1, 2)
    return rule(fn((N,), N, case(N, var(0), END, case(H, var(first), *[call(1, var(second))] * 16)))
                + fn((H,), N, case(H, var(0), *[REACH] * 16)))


AGAIN = call(0, var(0))  # for a rule of one parameter: it runs out of steps


def each_kind(*alternatives):
    """A name whose first low half leads to these alternatives in turn; a name without bytes is missing."""
    turn = [alternatives[number % len(alternatives)] for number in range(16)]
    return rule(fn((N,), N, case(N, var(0), None, case(H, var(2), *turn))))


def walk(end=REACH):
    """A name that is walked to its end, whose bytes nothing looks at: one entry for each length."""
    return rule(fn((N,), N, case(N, var(0), end, call(0, var(3)))))


def deepest():
    """The same with few steps for each byte, so that names of 63 bytes take fewer than 240."""
    body = call(0, var(27))
    for level in reversed(range(9)):
        body = case(N, var(3 * level), REACH, body)
    return rule(fn((N,), N, body))


ZERO, MARKED = con(H, 0), target(7, con(H, 0))


def respelt(high=var(1), low=var(2), rest=END):
    """A name that is built anew from these two halves and this rest, of which each may look at the name: its first byte is variables 1
    and 2, its rest is variable 3."""
    return rule(fn((N,), N, case(N, var(0), END, con(N, 1, high, low, rest))))


# By where the target stands in the result.
RESPELT = {
    "high": respelt(of_half(var(1), {12: MARKED}, ZERO)),
    "low": respelt(low=of_half(var(2), {9: MARKED}, ZERO)),
    "rest": respelt(rest=case(N, var(3), REACH, END)),
    "low_of_any_byte": respelt(low=of_half(var(2), {9: MARKED, 10: ZERO}, None), rest=call(0, var(3))),
    "low_behind_missing": respelt(of_half(var(1), {12: ZERO}, None), of_half(var(2), {9: MARKED}, ZERO)),
}


def name_beside(inner):
    """Two names in a pair: the first of the parameters, and this, which looks at the second."""
    return rule(fn((N, N), OTHER, con(OTHER, 0, var(0), inner)), ((N, N),))


def beside(others, parameters, body, *functions):
    """A rule of several parameters, with these other types, and functions behind the source."""
    return rule(fn(parameters, N, body) + b"".join(functions), *others)
