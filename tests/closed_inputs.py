"""Closed inputs with their rule files, the cases that show how deep an input goes: depths of D and of one more at every parameter and
in the first, middle and last field, 64 and 65, inputs of a million bytes, inputs that are damaged, and random ones.

An input is a pattern, so often one after the other, and a rest. What the run answers is stated with a case as far as it is known
without it.
"""

import random
from itertools import cycle, islice
from typing import NamedTuple

import handed_lists
import rules
from blind.build import call, case, con, fn, go, random_program, target, ty, var
from blind.evaluate import ENDED, MISSING, REACHED, UNFINISHED
from blind.rulefile import Program, check, least_depths

SPARE = 300000  # words of a work slice that is long enough for every step limit
MOST_BYTES = 1048576  # of an input


class Case(NamedTuple):
    rule_file: bytes
    pattern: bytes
    count: int
    rest: bytes
    words: int = SPARE
    known: str = ""  # how the line of the answer ends, as far as it is known beforehand

    def data(self):
        return self.pattern * self.count + self.rest


CASES = []


def add(rule_file, rest, words=SPARE, known=""):
    CASES.append(Case(rule_file, b"", 0, bytes(rest), words, known))


def long(rule_file, pattern, count, rest=b"", words=SPARE, known="refused 10"):
    CASES.append(Case(rule_file, bytes(pattern), count, bytes(rest), words, known))


# Rules that look at one parameter only, and end so whatever it is.

ENDS = REACHED, ENDED, UNFINISHED, MISSING
# case, variable, choose; one more to follow the variable that is the alternative; calls again and again up to S.
STEPS = {REACHED: 3, ENDED: 4, UNFINISHED: 20, MISSING: 3}


class Rule(NamedTuple):
    """A rule by its types, each by the fields of its constructors; the types of its parameters; D; the end; and the number of the
    parameter that it looks at."""
    types: tuple
    parameters: tuple
    depth: int
    end: str = REACHED
    looked: int = 0

    def body(self):
        type_, again = self.parameters[self.looked], call(0, *(var(number) for number in range(len(self.parameters))))
        alternative = {REACHED: target(7, var(self.looked)), ENDED: var(self.looked), UNFINISHED: again, MISSING: None}[self.end]
        return case(type_, var(self.looked), *[alternative] * len(self.types[type_]))

    def file(self):
        types = b"".join(ty(*constructors) for constructors in self.types)
        return types + fn(self.parameters, self.parameters[self.looked], self.body()) + go(0, 7, self.depth, 20)

    def line(self, depth):
        """The answer for an input of this depth that is not damaged."""
        return f"{self.end} {STEPS[self.end]} {depth}" if depth <= self.depth else "refused 10"


NAT, BOOL, UNIT = ((), (0,)), ((), ()), ((),)
SIXTEEN = ((),) * 16


def fork(width):
    """A type whose constructor 1 has so many fields of the type itself."""
    return (), (0,) * width


# Values, each with its depth.

def number(depth):
    return bytes([1] * (depth - 1) + [0]), depth


def nested(width, place, depth, beside=1, bottom=b"\0"):
    """A value of `fork(width)` that is so deep through its fields at this place; the others are at most `beside` deep. With another
    bottom than 0 it is damaged there."""
    if depth == 1:
        return bottom, 1
    fields = [nested(width, 0, min(beside, depth - 1))[0]] * width
    fields[place] = nested(width, place, depth - 1, beside, bottom)[0]
    return b"\1" + b"".join(fields), depth


def put(rule, *values, words=SPARE):
    """An input of these values for the rule."""
    add(rule.file(), b"".join(data for data, _ in values), words, rule.line(max(depth for _, depth in values)))


def places(count):
    """The first, the middle and the last of so many."""
    return sorted({0, count // 2, count - 1})


# The depth, and one more.

def each_parameter():
    """The deepest parameter at each position; the rule looks at the next one, if there is another."""
    ends, others = cycle(ENDS), cycle((1, 2, 3, 5, 40))
    for limit in (1, 2, 4, 17, 63, 64):
        for count in (1, 2, 3, 8):
            for place in range(count):
                for depth in (limit, limit + 1):
                    values = [number(min(next(others), max(limit - 1, 1))) for _ in range(count)]
                    values[place] = number(depth)
                    put(Rule((NAT,), (0,) * count, limit, next(ends), (place + 1) % count), *values)


def each_field():
    """The depth is reached through the first, the middle or the last field; the fields beside it are not so deep."""
    ends, besides = cycle(ENDS), cycle((1, 2))
    for width in (2, 3, 6):
        for place in places(width):
            for limit in (2, 3, 5, 63, 64):
                for depth in (limit, limit + 1):
                    put(Rule((fork(width),), (0,), limit, next(ends)), nested(width, place, depth, next(besides)))
                put(Rule((fork(width),), (0, 0, 0), limit, next(ends), 1), nested(width, place, 2), nested(width, place, limit - 1, 2),
                    nested(width, place, 1))


def several_types():
    """Types of several least depths, and boxes of boxes."""
    three = handed_lists.LEASTS  # of least depths 3, 2 and 1
    for limit in (3, 4, 5, 6, 64):
        for values in ((b"\0\0\0", 3), (b"\0\1\0\0\0\0\0\0", 5), (b"\0\1\0\1\0\0\0\0\0\0\0\0\0", 7), (b"\0\1\0\0\0\0\1\0\0\0\0\0\0", 7)):
            put(Rule(three, (0,), limit), values)
            put(Rule(three, (2, 0, 1), limit, ENDED), (b"\0", 1), values, (b"\0\0", 2))
            put(Rule(three, (0, 1, 2), limit, MISSING, 2), (b"\0\0\0", 3), (b"\1" + 2 * values[0], 1 + values[1]), (b"\0", 1))
    for limit in (32, 33, 64):
        # Each of the 32 boxes takes more than one step.
        add(rules.boxes() + go(0, 7, limit, 20), bytes(31) + b"\1", known="unfinished 20 32")
        add(rules.boxes() + go(0, 7, limit, 4096), bytes(31) + b"\1", known=" 32")


def without_fields():
    """Parameters without fields are 1 deep, however many there are."""
    for count in (1, 2, 3, 8):
        for constructors, end in zip((UNIT, BOOL, SIXTEEN, BOOL + SIXTEEN[:1]), ENDS):
            last = len(constructors) - 1
            for limit in (1, 2, 64):
                put(Rule((constructors,), (0,) * count, limit, end, count // 2), *[(bytes([last]), 1)] * count)


def no_parameters():
    """Without parameters the depth is 0, and there is nothing that may stand in the input."""
    zero = con(0, 0)
    bodies = ((target(7, zero), "reached 0"), (zero, "ended 0"), (case(0, zero, None, zero), "missing 2"), (call(0), "unfinished 20"))
    for body, line in bodies:
        for limit in (1, 2, 4, 64):
            rule_file = rules.without_parameters(body) + go(0, 7, limit, 20)
            add(rule_file, b"", known=f"{line} 0")
            add(rule_file, b"\0", known="refused 10")
        add(rule_file, b"", 64 * 20 + 1023, "refused 11")
        add(rule_file, b"\0", 64 * 20 + 1023, "refused 10")
        long(rule_file, b"\0", MOST_BYTES)


def every_depth():
    """All four ends with every depth, which is not always that of the parameter looked at."""
    for depth in range(1, 65):
        for turn, end in enumerate(ENDS):
            beside = 1 + 5 * turn % depth
            values = number(beside), number(depth), number(1 + beside // 2)
            turned = islice(cycle(values), turn, turn + 3)
            put(Rule((NAT,), (0, 0, 0), min(64, depth + depth % 5), end, depth % 3), *turned)


def about_64():
    """Depths about 64 and about multiples of 64 and 256, with D 64 and 63."""
    for limit in (63, 64):
        for depth in (62, 63, 64, 65, 66, 100, 128, 129, 256, 257, 260, 300, 319, 320, 1000):
            value = number(depth)
            put(Rule((NAT,), (0,), limit), value)
            put(Rule((NAT,), (0, 0), limit, ENDED), number(2), value)
            put(Rule((NAT,), (0, 0), limit, MISSING), value, number(3))
            put(Rule((NAT,), (0, 0, 0), limit, UNFINISHED), number(3), value, number(4))
        for place in range(3):
            put(Rule((fork(3),), (0, 0), limit, ENDED), nested(3, place, 66), nested(3, place, 2))
            put(Rule((fork(3),), (0, 0), limit, MISSING), nested(3, place, 2), nested(3, place, 130))


# Inputs of a million bytes.

def million():
    """One constructor in another up to the last byte, whole and damaged, under several depths."""
    for limit in (1, 63, 64):
        one, pair = Rule((NAT,), (0,), limit).file(), Rule((fork(2),), (0,), limit).file()
        whole = [(one, b"\1", MOST_BYTES - 1, b"\0"), (pair, b"\1\0", MOST_BYTES // 2 - 1, b"\0"), (pair, b"\1", 4095, bytes(4096))]
        no_end = [(one, b"\1", MOST_BYTES, b""), (pair, b"\1\0", MOST_BYTES // 2, b""), (pair, b"\1", MOST_BYTES, b"")]
        behind = [(one, b"\1", MOST_BYTES - 2, b"\0\0"), (pair, b"\1\0", MOST_BYTES // 2 - 1, b"\0\0"), (one, b"\0", MOST_BYTES, b"")]
        strange = [(one, b"\1", MOST_BYTES - 1, b"\2"), (one, b"\1", MOST_BYTES - 9, b"\xff" + bytes(8)), (one, b"\2", MOST_BYTES, b""),
                   (pair, b"\1\0", MOST_BYTES // 2 - 1, b"\2\0"), (pair, b"\1\2", MOST_BYTES // 2, b"")]
        for input_ in whole + no_end + behind + strange:
            long(*input_)
        for depth in (65536, 65537, 65536 + limit, 65537 + limit, 131073, 262145, 524289):
            long(one, b"\1", depth - 1, b"\0")
    for limit in (3, 4, 64):
        long(rules.changed(depth=limit), b"\1", MOST_BYTES - 1, b"\0")
        long(rules.changed(depth=limit), b"\1", 999999, b"\0", 0)


def repeated():
    """A value that just fits, one that does not, and a strange constructor 63 to 66 deep, each again and again to the last byte."""
    for limit in (63, 64):
        one, pair = Rule((NAT,), (0,), limit).file(), Rule((fork(2),), (0,), limit).file()
        for above in (62, 63, 64, 65):
            long(one, [1] * above + [2], MOST_BYTES // (above + 1))
            long(one, [1] * above + [0], MOST_BYTES // (above + 1))
            for pattern in ([1, 0] * above + [2], [1, 0] * above + [0], [1] * above + [2]):
                long(pair, pattern, 100000 // len(pattern))
    # Such values are the whole input where they are as many as the parameters.
    for count in (1, 2, 8):
        for end, limit in ((ENDED, 64), (MISSING, 63)):
            rule = Rule((NAT,), (0,) * count, limit, end, count - 1)
            eight = Rule((NAT,), (0,) * 8, limit, end, count - 1)
            for depth in (63, 64, 65):
                long(rule.file(), number(depth)[0], count, known=rule.line(depth))
                long(rule.file(), number(depth)[0], count, b"\0")
                long(rule.file(), number(depth)[0], count - 1, number(depth)[0][:-1])
                long(eight.file(), number(depth)[0], count, b"\0" * (8 - count), known=eight.line(depth))


def million_beside():
    """The deep value is the first, the middle or the last parameter; those beside it have no fields."""
    for limit in (2, 64):
        for before in range(3):
            parameters = (1,) * before + (0,) + (1,) * (2 - before)
            rule_file = Rule((NAT, BOOL), parameters, limit, ENDED).file()
            deep = MOST_BYTES - 3 + before
            long(rule_file, b"\1", deep, bytes(3 - before))
            long(rule_file, b"\1", deep, b"\0" + b"\1" * (2 - before))
            long(rule_file, b"\1", MOST_BYTES)
            long(rule_file, b"\1", deep, bytes(2 - before) + b"\2")
            long(rule_file, b"\1", before + limit - 1, bytes(3 - before), known=f"ended 4 {limit}")
            long(rule_file, b"\1", before + limit, bytes(3 - before))


def full(*widths):
    """Types each with so many fields of the next, or none; the value of zeros that fills them, its bytes and its depth."""
    size = 1
    for width in reversed(widths):
        size = 1 + width * size
    return tuple(((place + 1,) * width, ()) for place, width in enumerate(widths)) + (BOOL,), size, len(widths) + 1


def wide():
    """Long inputs that are not deep: every byte is a constructor of the value."""
    types, size, depth = full(6, 6, 6, 6, 6, 6, 6)
    rule = Rule(types, (0,), depth, ENDED)
    long(rule.file(), b"\0", size, known=rule.line(depth))
    for widths in ((6,) * 5, (2,) * 12, (1, 5, 4, 3, 2, 1, 1, 2, 3, 4, 5)):
        types, size, depth = full(*widths)
        for limit in (depth - 1, depth, depth + 1):
            rule = Rule(types, (0,), limit, MISSING)
            long(rule.file(), b"\0", size, known=rule.line(depth))
        for more in (-1, 1):
            long(rule.file(), b"\0", size + more)
        long(rule.file(), b"\0", size - 1, b"\1", known=rule.line(depth))
        long(rule.file(), b"\0", size - 1, b"\2")
        twice = Rule(types, (1, 0), depth, ENDED)
        long(twice.file(), b"\0", (size - 1) // widths[0] + size, known=twice.line(depth))
        long(twice.file(), b"\0", (size - 1) // widths[0] + size + 1)


# Order.

def order():
    """The rule file's refusals come first, then 10, then 11."""
    rule = handed_lists.NUMBER
    for refusal in range(1, 10):
        rule_file = rule.refused(refusal)
        for words in (SPARE, 0):
            for data in (number(4)[0], number(5)[0], b"", b"\2"):
                add(rule_file, data, words, f"refused {refusal}")
        long(rule_file, b"\1", MOST_BYTES - 1, b"\0", SPARE, f"refused {refusal}")
        long(rule_file, b"\1", MOST_BYTES, b"", 0, f"refused {refusal}")
    for limit in (1, 2):  # type 0 has least depth 3
        for data in (bytes(3), bytes(2), b"", b"\0\1" + bytes(6)):
            add(Rule(handed_lists.LEASTS, (2, 0), limit).file(), b"\0" + data, known="refused 9")
    enough = 64 * 20 + 1024
    for limit in (1, 64):
        for end in ENDS:
            two_ = Rule((NAT,), (0, 0), limit, end)
            for words in (enough - 1, 0):
                for values, refusal in (((limit, 1), 11), ((1, limit), 11), ((limit + 1, 1), 10), ((1, limit + 1), 10)):
                    add(two_.file(), b"".join(number(depth)[0] for depth in values), words, f"refused {refusal}")
            long(two_.file(), b"\1", 99999, b"\0\0", enough - 1)
            put(two_, number(limit), number(1), words=enough)


# Damaged inputs.

def damaged():
    """A fitting input cut short anywhere, with bytes behind it, and with a strange constructor anywhere."""
    numbers, trees = Rule((NAT,), (0, 0, 0), 4, ENDED), Rule((fork(3),), (0, 0), 4)
    for rule, values in ((numbers, (number(2), number(4), number(3))), (trees, (nested(3, 1, 4), nested(3, 2, 3, 2)))):
        put(rule, *values)
        whole = b"".join(data for data, _ in values)
        for place in range(len(whole)):
            for data in (whole[:place], whole[:place] + b"\2" + whole[place + 1:], whole[:place] + b"\xff" + whole[place + 1:]):
                add(rule.file(), data, known="refused 10")
        for behind in (b"\0", b"\1", b"\2", whole):
            add(rule.file(), whole + behind, known="refused 10")


def damaged_deep():
    """Constructors without their fields, and strange ones, just at the depth, above it and below it."""
    for limit in (1, 2, 5, 63, 64):
        for depth in sorted({limit - 1, limit, limit + 1} - {0}):
            for bottom in (b"\1", b"\2", b"\xff"):
                for width, place in ((1, 0), (2, 0), (2, 1), (3, 1), (6, 5)):
                    value = nested(width, place, depth, 1, bottom)[0]
                    add(Rule((fork(width),), (0,), limit).file(), value, known="refused 10")
        for bottom in (b"\1", b"\2"):
            value = nested(1, 0, limit, 1, bottom)[0]
            for before, after in ((0, 1), (1, 0), (1, 1), (2, 3), (7, 0), (0, 7)):
                rule = Rule((NAT, SIXTEEN), (1,) * before + (0,) + (1,) * after, limit)
                add(rule.file(), b"\x0f" * before + value + b"\x0f" * after, known="refused 10")


# Random inputs.

def random_value(rng, types, least, type_, levels):
    """A value that is likely as deep as so many levels, with its depth: one of its fields is to have a level less, while the others
    may have few."""
    def least_over(fields):
        return max((least[field] for field in fields), default=0)

    constructors = types[type_].constructors
    numbers = [place for place, fields in enumerate(constructors)
               if (fields if levels > 1 else least_over(fields) < least[type_])] or range(len(constructors))
    constructor = rng.choice(numbers)
    fields = constructors[constructor]
    deep = rng.randrange(len(fields)) if fields else 0
    values = [random_value(rng, types, least, field, levels - 1 if place == deep else min(levels - 1, rng.randint(1, 3)))
              for place, field in enumerate(fields)]
    return bytes([constructor]) + b"".join(data for data, _ in values), 1 + max((depth for _, depth in values), default=0)


def random_inputs(rng, count):
    """Several parameters of types that branch, not all of one depth, with D as deep as the deepest of them, one less, or more."""
    while count:
        rule_file = random_program(rng, most_types=3, most_fields=4, most_parameters=6, most_steps=40, kept=0.6)
        program = check(rule_file)
        least = least_depths(program.types)
        values = [random_value(rng, program.types, least, parameter, rng.randint(1, 12)) for parameter in program.parameters]
        depths, data = [depth for _, depth in values], b"".join(value for value, _ in values)
        if len(set(depths)) < 2 or len(data) > 600:
            continue
        deepest = max(depths)
        for limit in (deepest, deepest - 1, deepest + rng.randint(1, 9)):
            changed = rule_file[:-3] + bytes([limit]) + rule_file[-2:]
            if isinstance(check(changed), Program):
                add(changed, data, known=f" {deepest}" if limit >= deepest else "refused 10")
        count -= 1


def make():
    """All cases, in the order in which they are stored."""
    for group in (each_parameter, each_field, several_types, without_fields, no_parameters, every_depth, about_64, million, repeated,
                  million_beside, wide, order, damaged, damaged_deep):
        group()
    random_inputs(random.Random(6), 40)
    return CASES
