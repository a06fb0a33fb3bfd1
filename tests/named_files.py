"""Rule files with NA, cases of the check: NA in and out of its turn, its number, every form that the named type may have, 15 beside
the other refusals, and random files, whole and damaged.

What the check answers is stated with a case wherever it is known without it.
"""

import random

from blind.build import call, con, fn, go, na, random_named_rule, two, ty, var
from blind.rulefile import CODE, HOLLOW, MARK, MISFIT, RANGE, SHALLOW, SHORT, SPELLING, STRANGER, TAIL
from damage import flatten, flip_bit, insert, nudge, remove, replace, retype, splice, truncate
from named_rules import BAD, BOOL, CONSTRUCTORS, END, FIELDS, GOOD, REST, SIXTEEN, TYPES, UNIT, H, N
from named_rules import HOLLOW as HOLLOW_FORMS
from named_rules import arranged, every_byte, name, reaches, shifted, with_form
from rules import P

ACCEPTED = 0

CASES = []  # name, bytes, expected number or ACCEPTED; None where it is not known beforehand


def expect(number, name_, data):
    CASES.append((name_, data, number))


# The file that most cases change has types 0, the halves, and 1, the names; function 0 takes a name and gives it back.

SAME = fn((N,), N, var(0))
OTHER = fn((H,), N, END)
NAMED = na(N)
WHOLE = TYPES + SAME + OTHER + NAMED + go()
MISSPELT = ty(*SIXTEEN) + ty(*name(H, H, H))  # the same types, but names that end in a half
STRANGE = na(9)


def turns():
    """Refusal 2, and 7: NA stands between the last function and GO, once."""
    expect(ACCEPTED, "NA", WHOLE)
    expect(ACCEPTED, "NA behind one function", TYPES + SAME + NAMED + go())
    expect(ACCEPTED, "no NA", TYPES + SAME + OTHER + go())
    for word, record in (("", NAMED), (" of the halves", na(H)), (" with a strange number", STRANGE), (" with 255", na(255))):
        expect(MARK, f"NA{word} first", record + TYPES + SAME + go())
        expect(MARK, f"NA{word} first, and in its turn", record + WHOLE)
        expect(MARK, f"NA{word} behind the first type", ty(*SIXTEEN) + record + ty(*name(H, H, N)) + SAME + go())
        expect(MARK, f"NA{word} behind the types", TYPES + record + SAME + OTHER + go())
        expect(MARK, f"NA{word} behind the types, and in its turn", TYPES + record + SAME + NAMED + go())
        expect(MARK, f"NA{word} behind the types, and no function", TYPES + record + go())
        expect(MARK, f"NA{word} between functions", TYPES + SAME + record + OTHER + go())
        expect(MARK, f"NA{word} between functions, and in its turn", TYPES + SAME + record + OTHER + NAMED + go())
        expect(MARK, f"NA{word} before another", TYPES + SAME + record + NAMED + go())
        expect(MARK, f"NA behind which is another{word}", TYPES + SAME + NAMED + record + go())
        expect(MARK, f"NA{word} twice, and no GO", TYPES + SAME + record * 2)
        expect(MARK, f"NA{word} three times", TYPES + SAME + OTHER + record * 3 + go())
        expect(TAIL, f"NA{word} behind GO", TYPES + SAME + go() + record)
        expect(TAIL, f"NA{word} behind GO, and in its turn", WHOLE + record)
        expect(TAIL, f"NA{word} behind GO with D 2", TYPES + SAME + OTHER + go(depth=2) + record)
        expect(MARK, f"a type behind NA{word}", TYPES + SAME + record + ty(()) + go())
        expect(MARK, f"a function behind NA{word}", TYPES + SAME + record + SAME + go())
        expect(MARK, f"the types behind NA{word}", ty(()) + fn((), 0, con(0, 0)) + record + TYPES + go())
        expect(MARK, f"a type and a function behind NA{word}", TYPES + SAME + record + ty(()) + fn((2,), 2, var(0)) + go())
    expect(TAIL, "the mark of NA behind GO", WHOLE + b"NA")
    expect(TAIL, "half the mark of NA behind GO", WHOLE + b"N")


def marks():
    """Refusal 2: a mark that is nearly NA, and marks behind NA."""
    for mark in (b"na", b"Na", b"nA", b"AN", b"NN", b"AA", b"NB", b"MA", b"FA", b"N\0", b"\0A", b"NE", b"\xceA"):
        expect(MARK, f"{mark!r} for NA", TYPES + SAME + mark + bytes([N]) + go())
    for mark in (b"go", b"Go", b"OG", b"GN", b"FO", b"NO", b"GA", b"\0\0", b"XX", b"\1\1"):
        expect(MARK, f"{mark!r} behind NA", TYPES + SAME + NAMED + mark + go()[2:])
    # Without its number NA takes a byte of GO, with another byte behind it GO's mark begins one too late.
    expect(MARK, "NA without its number", TYPES + SAME + b"NA" + go())
    expect(MARK, "NA with two numbers", TYPES + SAME + na(N) + bytes([N]) + go())
    expect(MARK, "NA with its number in two bytes", TYPES + SAME + b"NA" + two(N) + go())


def short():
    """Refusal 1: the file is cut off anywhere."""
    small = ty(*SIXTEEN) + ty(*name(H, H, N)) + fn((), N, END) + NAMED + go()
    for length in range(len(small)):
        expect(SHORT, f"NA in a file cut off after {length} bytes", small[:length])
    for record in (NAMED, STRANGE, na(71)):  # 71 is the first byte of GO
        for behind in (b"", b"G", b"N", b"F", b"\0"):
            expect(SHORT, f"NA {record[2]} and {behind!r}", TYPES + SAME + record + behind)
    expect(SHORT, "NA and a GO without its label", TYPES + SAME + NAMED + go()[:3])


def counts():
    """The limits are as without NA: 64 functions, 32 types, 16,384 bytes."""
    # One function takes the name, the others nothing.
    many = SAME + fn((), N, END) * 63
    expect(ACCEPTED, "64 functions and NA", TYPES + many + NAMED + go())
    expect(ACCEPTED, "64 functions and NA, the last the source", TYPES + many + NAMED + go(source=63))
    expect(SPELLING, "64 functions and NA of the halves", TYPES + many + na(H) + go())
    expect(STRANGER, "64 functions and a strange NA", TYPES + many + STRANGE + go())
    expect(RANGE, "65 functions and NA", TYPES + many + SAME + NAMED + go())
    expect(RANGE, "65 functions and NA, nothing behind the last mark", TYPES + many + b"FN" + NAMED)
    expect(RANGE, "64 functions, NA and D 0", TYPES + many + NAMED + go(depth=0))
    for word, behind in (("a function", SAME + go()), ("the mark of a function", b"FN"), ("a function and NA", SAME + NAMED + go()),
                         ("a function with 9 parameters", fn((0,) * 9, 0, END)), ("NA", NAMED + go()), ("a type", ty(()) + go())):
        expect(MARK, f"64 functions, NA and {word}", TYPES + many + NAMED + behind)
    expect(SHORT, "64 functions and half an NA", TYPES + many + b"N")
    types = TYPES + ty(()) * 28
    for last, number in ((ty(*name(H, H, 31)), ACCEPTED), (ty(*name(H, H, N)), SPELLING)):
        expect(number, f"the last of 32 types, {number}", types + ty(()) + last + SAME + na(31) + go())
    expect(STRANGER, "NA 32 with 32 types", types + ty(()) * 2 + SAME + na(32) + go())
    expect(RANGE, "33 types and NA", types + ty(()) * 3 + SAME + NAMED + go())
    expect(ACCEPTED, "NA in 16,384 bytes", file_of_size(16384))
    expect(RANGE, "NA in 16,385 bytes", file_of_size(16385))
    expect(RANGE, "NA behind GO in 16,385 bytes", file_of_size(16382) + NAMED)


def body_of(length):
    """An expression of names of so many bytes, from 12 to 282: a name of several bytes, with targets about its first half."""
    count = (length - 3) // 9
    count -= (length - 3 - 9 * count) % 2
    body = END
    for number in range(count):
        body = con(N, 1, b"\5\x08" * ((length - 3 - 9 * count) // 2 * (number == count - 1)) + con(H, 12), con(H, 9), body)
    return body


def file_of_size(size):
    """A well-formed file of exactly so many bytes, around 16,384."""
    head = len(fn((), N, b""))
    left = size - len(TYPES + SAME + NAMED + go()) - 60 * head
    lengths = [left // 60 + (number < left % 60) for number in range(60)]
    return TYPES + SAME + b"".join(fn((), N, body_of(length)) for length in lengths) + NAMED + go()


def numbers():
    """Refusal 4: the number does not exist, which the second pass sees."""
    for number in (2, 3, 9, 31, 32, 64, 71, 78, 128, 254, 255):
        expect(STRANGER, f"NA {number} with two types", TYPES + SAME + OTHER + na(number) + go())
    expect(STRANGER, "NA 1 with one type", ty(()) + fn((), 0, con(0, 0)) * 2 + na(1) + go())
    expect(STRANGER, "NA 5 with five types", TYPES + ty(()) * 3 + SAME + na(5) + go())
    expect(SPELLING, "NA 4 with five types", TYPES + ty(()) * 3 + SAME + na(4) + go())
    # Whatever the first pass sees comes first, though it stands behind NA.
    for number, word, goal in ((SHORT, "no GO", b""), (SHORT, "half a GO", go()[:4]), (SHORT, "half an S", go()[:-1]),
                               (MARK, "another mark", b"XX"), (MARK, "a function", SAME + go()), (MARK, "a second NA", NAMED + go()),
                               (RANGE, "D 0", go(depth=0)), (RANGE, "D 65", go(depth=65)), (RANGE, "S 4,097", go(steps=4097)),
                               (TAIL, "a tail", go() + b"\0"), (TAIL, "NA behind GO", go() + NAMED)):
        expect(number, f"a strange NA, then {word}", TYPES + SAME + STRANGE + goal)
        expect(number, f"NA of the halves, then {word}", TYPES + SAME + na(H) + goal)
    # Behind it come the bodies, 8, 9 and 15.
    for word, functions in faulty_bodies():
        expect(STRANGER, f"a strange NA and {word}", TYPES + functions + STRANGE + go())
        expect(STRANGER, f"NA one too high and {word}", TYPES + functions + OTHER + na(2) + go())
    for word, form in HOLLOW_FORMS.items():
        expect(STRANGER, f"a strange NA and {word}", shifted(form, 0) + fn((0,), 0, var(0)) + STRANGE + go())
    expect(STRANGER, "a strange NA and a shallow D", TYPES + ty((3,)) + ty(()) + fn((2,), 2, var(0)) + STRANGE + go(depth=1))
    # Other numbers that do not exist.
    for word, number in (("NA", NAMED), ("a strange NA", STRANGE), ("NA of the halves", na(H))):
        expect(STRANGER, f"{word} and a strange field", TYPES + ty((9,)) + SAME + number + go())
        expect(STRANGER, f"{word} and a strange parameter", TYPES + fn((9,), N, END) + number + go())
        expect(STRANGER, f"{word} and a strange result", TYPES + fn((N,), 9, var(0)) + number + go())
        for source in (1, 2, 255):
            expect(STRANGER, f"{word} and the strange source {source}", TYPES + SAME + number + go(source=source))


def faulty_bodies():
    """Functions whose bodies the third pass refuses: what is wrong, and the records."""
    return (("a bad code", fn((N,), N, b"\6\0")), ("a short body", fn((N,), N, b"\0")), ("a misfit", fn((H,), N, var(0))),
            ("a strange variable", fn((N,), N, var(1))), ("a body with a tail", fn((N,), N, var(0) + b"\0")),
            ("nesting 33", fn((N,), N, b"\5\7" * 32 + var(0))), ("a call without its argument", SAME + fn((N,), N, call(0))),
            ("a strange constructor", SAME + fn((N,), N, con(N, 2))))


FAULTS = {"a bad code": CODE, "a short body": SHORT, "a misfit": MISFIT, "a strange variable": STRANGER, "a body with a tail": TAIL,
          "nesting 33": RANGE, "a call without its argument": SHORT, "a strange constructor": STRANGER}


# Forms.

def with_types(types, number, depth=8):
    """A file of these types, of which NA names the one with this number; its source takes a value of that type."""
    return b"".join(ty(*constructors) for constructors in types) + fn((number,), number, var(0)) + na(number) + go(depth=depth)


def orders(form):
    """The form with other types beside it, the named type being the first, the last, or between others; and its number there."""
    types = [*form, BOOL, UNIT]
    count = len(types)
    for order in (range(count), range(count - 1, -1, -1), (1, count - 1, 0, *range(2, count - 1))):
        yield arranged(types, list(order)), list(order).index(0)


def forms():
    """Refusal 15, for every form, with the named type at several places; also where another of the types is named."""
    for expected, some in ((ACCEPTED, GOOD), (SPELLING, BAD), (HOLLOW, HOLLOW_FORMS)):
        for word, form in some.items():
            for place, (types, number) in enumerate(orders(form)):
                expect(expected, f"{word}, {place}", with_types(types, number))
                for other in range(len(types)) if form in GOOD.values() else ():
                    if other != number:
                        expect(SPELLING, f"{word}, {place}, and {other} is named", with_types(types, other))
    for word, form in GOOD.items():
        expect(ACCEPTED, f"{word}, with D 1", with_types(form, 0, 1))
        other = len(form)
        expect(ACCEPTED, f"{word}, which no function has", shifted(form, 0) + ty(()) + fn((), other, con(other, 0)) + na(0) + go())
    # The other types do not matter, nor do other names.
    for word, form in list(BAD.items())[::3]:
        expect(ACCEPTED, f"{word} beside names", TYPES + shifted(form, 2) + SAME + NAMED + go())
    expect(SPELLING, "one constructor with a field", with_types([((1,),), SIXTEEN], 0))
    for count in range(1, 17):
        if count != 2:
            expect(SPELLING, f"{count} constructors without fields", with_types([((),) * count, SIXTEEN], 0))
    for count in range(1, 16):
        expect(SPELLING, f"both halves of {count}", with_types([name(), ((),) * count], 0))
    for place in range(16):
        fields = tuple((0,) * (number == place) for number in range(16))
        for low, types in enumerate(([name(2, 1), SIXTEEN, fields], [name(1, 2), SIXTEEN, fields])):
            expect(SPELLING, f"a field in constructor {place} of the {'low' if low else 'high'} half", with_types(types, 0))


def order():
    """15 comes behind the bodies, 8 and 9."""
    for word, functions in faulty_bodies():
        for place, record in enumerate((na(H), na(2))):
            expect(FAULTS[word], f"{word} before 15, {place}", TYPES + ty(()) + functions + record + go())
        expect(FAULTS[word], f"{word} before 15, names that end in a half", MISSPELT + functions + NAMED + go())
        expect(FAULTS[word], f"{word} and NA", TYPES + functions + NAMED + go())
    # A hollow type, named or not.
    for word, form in list(BAD.items())[1::3]:
        expect(HOLLOW, f"{word}, and a hollow type", shifted(form, 0) + ty((len(form),)) + fn((0,), 0, var(0)) + na(0) + go())
    expect(HOLLOW, "NA and a hollow type", TYPES + ty((2,)) + SAME + NAMED + go())
    # A parameter of least depth 2 or 3 and a lesser D, beside names of every form.
    box = ty((1,)) + ty(()) + ty((0,))
    for word, form in list(BAD.items())[2::3]:
        expect(SHALLOW, f"{word}, and a shallow D", box + shifted(form, 3) + fn((0,), 0, var(0)) + na(3) + go(depth=1))
    for word, form in GOOD.items():
        expect(SHALLOW, f"{word}, and a shallow D", box + shifted(form, 3) + fn((3, 2), 2, var(1)) + na(3) + go(depth=2))
        expect(ACCEPTED, f"{word}, and D just deep enough", box + shifted(form, 3) + fn((3, 2), 2, var(1)) + na(3) + go(depth=3))
    for depth, number in ((1, SHALLOW), (2, SPELLING)):
        expect(number, f"an end with a half as parameter, D {depth}", with_types(BAD["an end with a half"], 0, depth))
        expect(number, f"an end with another type as parameter, D {depth}", with_types(BAD["an end with another type"], 0, depth))
    # A hollow type and a shallow D beside both.
    expect(HOLLOW, "a hollow type, a shallow D and 15", box + ty((3,)) + fn((0,), 0, var(0)) + na(0) + go(depth=1))


def with_examples():
    """The example P with names, and rules that look at them."""
    for word, form in GOOD.items():
        expect(ACCEPTED, f"P with {word}", with_form(P, form))
    for word, form in {**CONSTRUCTORS, **FIELDS, **REST}.items():
        expect(SPELLING, f"P with {word}", with_form(P, form))
    expect(SPELLING, "P with its numbers named", P[:-7] + na(0) + P[-7:])
    expect(STRANGER, "P with a strange NA", P[:-7] + na(1) + P[-7:])
    for word, rule in (("É", reaches((12, 9))), ("every byte", every_byte()), ("every byte by low halves", every_byte(True))):
        expect(ACCEPTED, word, rule + go())
        expect(MARK, f"{word}, NA twice", rule + NAMED + go())
        expect(TAIL, f"{word}, NA behind GO", rule[:-3] + go() + rule[-3:])
        expect(SPELLING, f"{word}, the halves named", rule[:-3] + na(H) + go())
        expect(ACCEPTED, f"{word}, no NA", rule[:-3] + go())


# Random files.

def random_file(rng, form):
    rule, label, functions, named = random_named_rule(rng, form)
    return rule + na(named) + go(rng.randrange(functions), label, rng.choice((1, 2, 3, 4, 6)), rng.randint(0, 60))


def renumber(rng, data):
    """Another number behind NA."""
    return data[:-8] + bytes([rng.choice((0, 1, 2, 3, 4, 5, 6, 255))]) + data[-7:]


def move(rng, data):
    """NA before another record, or behind the last."""
    record, without = data[-10:-7], data[:-10] + data[-7:]
    marks_ = [place for place in range(len(without)) if without[place:place + 2] in (b"TY", b"FN", b"GO")]
    place = rng.choice((*marks_, len(without)))
    return without[:place] + record + without[place:]


def double(rng, data):
    """NA twice, one of the two with another number."""
    return data[:-7] + b"NA" + bytes([rng.choice((data[-8], rng.randrange(4)))]) + data[-7:]


def near_na(rng, data):
    """A byte changed from NA on."""
    place = rng.randrange(len(data) - 10, len(data) - 3)
    return data[:place] + bytes([rng.choice((*b"NAGOFTY", rng.randrange(256)))]) + data[place + 1:]


def cut_near_na(rng, data):
    return data[:rng.randrange(len(data) - 12, len(data))]


DAMAGES = (renumber, move, double, near_na, cut_near_na, renumber, move, flip_bit, replace, nudge, truncate, insert, remove, retype,
           flatten)


def random_files(rng, count):
    """Files with names, of which few are refused, by 9; as many with another form; and both damaged."""
    good = [random_file(rng, rng.choice(list(GOOD.values()))) for _ in range(count)]
    bad = [random_file(rng, rng.choice(list(BAD.values()))) for _ in range(count)]
    for number, data in enumerate(good):
        expect(None, f"random names {number}", data)
        expect(None, f"random names {number} without NA", data[:-10] + data[-7:])
    for number, data in enumerate(bad):
        expect(None, f"random form {number}", data)
    for number in range(3 * count):
        data = rng.choice(good if number % 3 else bad)
        damaged = splice(rng, data, rng.choice(good)) if number % 20 == 19 else DAMAGES[number % len(DAMAGES)](rng, data)
        expect(None, f"damaged names {number}", damaged)


def make():
    """All cases, in the order in which they are stored."""
    for group in (turns, marks, short, counts, numbers, forms, order, with_examples):
        group()
    random_files(random.Random(7), 40)
    return CASES
