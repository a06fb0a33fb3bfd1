"""Lists handed in with their rule files, the cases of the text calls: lists that are scrap, each for a reason of its own, lists that
look wrong and are accepted, lists by their share, lists that searches returned, and random ones, whole and damaged.

What the two calls answer is stated with a case wherever it is known without them.
"""

import random
from itertools import cycle
from typing import NamedTuple

import rules
from blind.build import con, fn, go, random_program, random_types, two, ty, var
from blind.enumerate import OPEN, Listing, TooMany, fill, search
from blind.handed import text_length
from blind.rulefile import PAGE, SCRAP, Refused, least_depths
from rules import P, changed

MOST_ROOM = 262400  # bytes of the text slice that the program has
WRITTEN = 0


class Case(NamedTuple):
    group: str
    rule_file: bytes
    data: bytes  # of the list
    full: bool
    room: int  # the length of the text slice
    answer: object  # the refusal that the writer gives, or `WRITTEN`; None where it is not known beforehand

    def asked(self):
        return self.rule_file, self.data, self.full, self.room


CASES = []


def add(group, rule_file, data, full, room, answer=None):
    CASES.append(Case(group, rule_file, data, full, room, answer))


# Rules.

class Rule(NamedTuple):
    """A rule by what a list has to fit: its types, each by the fields of its constructors; the types of the source's parameters; D; S."""
    types: tuple
    parameters: tuple
    depth: int = 4
    steps: int = 20

    def records(self):
        return b"".join(ty(*constructors) for constructors in self.types)

    def source(self):
        """Function 0; without parameters it gives the first constructor of type 0, which then has no fields."""
        return fn(self.parameters, self.parameters[0], var(0)) if self.parameters else fn((), 0, con(0, 0))

    def goal(self):
        return go(0, 7, self.depth, self.steps)

    def file(self):
        return self.records() + self.source() + self.goal()

    def refused(self, number):
        """The rule file damaged so that it is refused by this number, 1 to 9."""
        records, source, goal, new = self.records(), self.source(), self.goal(), len(self.types)
        return (self.file()[:-1],
                records + source + b"GA" + goal[2:],
                records + source + go(0, 7, 65, self.steps),
                records + source + go(1, 7, self.depth, self.steps),
                records + fn(self.parameters, 0, b"\6") + goal,
                records + rules.UNIT + fn(self.parameters, 0, con(new, 0)) + goal,
                self.file() + b"\0",
                records + ty((new,)) + source + goal,
                records + ty((new + 1,)) + rules.UNIT + fn((new, *self.parameters), new, var(0)) + go(0, 7, 1, self.steps))[number - 1]


NAT, BOOL, UNIT, TREE = ((), (0,)), ((), ()), ((),), ((), (0, 0))
NUMBER = Rule((NAT,), (0,))
NUMBERS = Rule((NAT,), (0, 0))
NOTHING = Rule((BOOL,), ())
LEASTS = ((1,),), ((2,), (0, 0)), UNIT  # of least depths 3, 2, 1
BOXES = ((), (1, 0)), ((2,),), UNIT  # a list of boxes; of least depths 1, 2, 1


def boxed(count):
    """Nothing, or a box of a box and so on: type 1 has this least depth."""
    return ((), (1,)), *(((number + 1,),) for number in range(1, count)), UNIT


# Entries.

def entry(mark, steps, values, length=None):
    """The length stated is that of the values unless another is given."""
    return mark + two(steps) + two(len(values) if length is None else length) + bytes(values)


def re(steps, *values):
    return entry(b"RE", steps, values)


def un(steps, *values):
    return entry(b"UN", steps, values)


def mi(steps, *values):
    return entry(b"MI", steps, values)


GOOD = re(6, 1, 1, OPEN)  # for a number


# Scrap.

DAMAGE = cycle(range(1, 10))


def scrap(group, rule, data):
    """A list that is scrap, in a slice that would do and in none; and beside a rule file that is refused itself."""
    room = 40 + 4 * len(data)
    for full in (False, True):
        add(group, rule.file(), data, full, room, SCRAP)
        add(group, rule.file(), data, full, 0, SCRAP)
        number = next(DAMAGE)
        add(group, rule.refused(number), data, full, room, number)


def marks():
    for mark in (b"ER", b"Re", b"RN", b"IM", b"\0\0"):
        scrap("unknown mark", NUMBER, mark + GOOD[2:])
    scrap("unknown mark", NUMBER, GOOD + b"rE" + GOOD[2:])
    scrap("unknown mark", NUMBER, b"UM" + GOOD[2:] + GOOD)
    scrap("unknown mark", NOTHING, b"RI\0\0\0\0")


def cut_short():
    for length in range(1, len(GOOD)):
        scrap("header cut short" if length < 6 else "parameters cut short", NUMBER, GOOD[:length])
    for length in (1, 5, 6, 8):
        scrap("header cut short" if length < 6 else "parameters cut short", NUMBER, mi(3, 0) + GOOD[:length])
    for length in (1, 3, 5):
        scrap("header cut short", NOTHING, re(0)[:length])


def lengths():
    """The length stated is too long, with nothing, a part of an entry or a whole entry in it besides; or too short."""
    values = (1, 1, OPEN)
    for length in (4, 259, 65535):
        scrap("length too long", NUMBER, entry(b"RE", 6, values, length))
    for length in (4, 12):
        scrap("length too long", NUMBER, entry(b"RE", 6, values, length) + GOOD)
    scrap("length too long", NOTHING, entry(b"RE", 6, (), 6) + re(0))
    for length in (2, 1, 0):
        scrap("length too short", NUMBER, entry(b"RE", 6, values, length))
        scrap("length too short", NUMBER, entry(b"UN", 6, values, length) + GOOD)


def strange_constructors():
    """A number that its type has not, and one that another type has with other fields."""
    for values in ((2,), (1, 2), (16,), (254,), (1, 254)):
        scrap("constructor number", NUMBER, mi(6, *values))
    scrap("constructor number", Rule((BOOL, ((),) * 16), (0, 1)), re(1, 2, 15))
    scrap("constructor number", Rule((BOOL, ((),) * 16), (1, 0)), re(1, 15, 15))
    scrap("constructor number", Rule((((1, 0), ()), ((), (), ())), (0,)), re(1, 0, 2, 2))
    types = NAT, ((), (1, 1)), BOOL
    for parameter, values in ((0, (1, 0, 0)), (1, (1, 0)), (2, (1, 0)), (1, (1, 1, 0, 0))):
        scrap("another type's fields", Rule(types, (parameter,)), re(6, *values))
    scrap("another type's fields", Rule((((1, 2),), *types[1:]), (0,)), un(6, 0, 0, 1, 0))


def deep_constructors():
    """One deeper than D by constructors: at the end of a number, which may be lacking, in either field, in either parameter."""
    for values in ((1, 1, 1, 1, 0), (1, 1, 1, 1, OPEN), (1,) * 20):
        scrap("too deep", NUMBER, re(6, *values))
    for values in ((0, 1, 1, 1, 1, 0), (1, 1, 1, 1, 0, 0), (OPEN, 1, 1, 1, 1, OPEN)):
        scrap("too deep", NUMBERS, mi(6, *values))
    for values in ((1, 0, 1, 0, 1, 0, 0), (1, 1, 1, 0, 0, 0, 0), (1, 1, 0, 1, OPEN, 0, 0), (1, OPEN, 1, 1, 0, OPEN, OPEN)):
        scrap("too deep", Rule((TREE,), (0,), 3), re(6, *values))
    for values in ((1, 0), (1, OPEN)):
        scrap("too deep", Rule((NAT,), (0,), 1), un(6, *values))
    scrap("too deep", Rule((NAT,), (0,), 64), re(6, *(1,) * 64, 0))
    scrap("too deep", Rule((((1, 1),), NAT), (0,), 3), re(6, 0, 0, 1, 1, 0))


# Types, parameters, values that hold open parts, and their depth: the constructors above an open part and its least depth.
DEEP_OPEN = (
    (LEASTS, (0,), (0, 1, OPEN, OPEN), 5), (LEASTS, (0,), (0, 1, OPEN, 0, 0, 0), 5), (LEASTS, (0,), (0, 1, 0, OPEN, 0, 0, 0), 5),
    (LEASTS, (2, 0), (0, 0, 1, 0, 0, 0, OPEN), 5), (LEASTS, (1,), (1, OPEN, OPEN), 4),
    (BOXES, (0,), (1, OPEN, OPEN), 3), (BOXES, (0,), (1, OPEN, 0), 3), (BOXES, (0,), (1, 0, OPEN, OPEN), 3),
    (BOXES, (0,), (1, OPEN, 1, OPEN, OPEN), 4), (BOXES, (0, 0), (OPEN, 1, OPEN, 0), 3),
    (boxed(5), (0,), (1, 0, 0, OPEN), 6), (boxed(29), (0,), (1, OPEN), 30),
    ((((), (1,)), ((1, 1), (2,)), UNIT), (0,), (1, OPEN), 3), ((((), (1,)), ((1, 1), (2,)), UNIT), (0,), (1, 0, OPEN, 1, 0), 4),
    ((((), (1,)), ((2, 3),), UNIT, ((2,),)), (0,), (1, OPEN), 4), ((((), (1,)), ((3, 2),), UNIT, ((2,),)), (0,), (1, OPEN), 4),
)


def deep_open():
    """With D one less the list is scrap; with D the depth itself it is accepted."""
    for types, parameters, values, depth in DEEP_OPEN:
        scrap("open part too deep", Rule(types, parameters, depth - 1), re(6, *values))
        accepted_briefly("open part as deep as D", Rule(types, parameters, depth).file(), re(6, *values))


def many_steps():
    """More than S, for each kind; also by the high byte alone."""
    for steps in (21, 276, 4096, 65535):
        scrap("steps beyond S", NUMBER, re(steps, 0))
    for limit, steps in ((0, 1), (255, 256), (300, 301), (300, 556), (4095, 4096), (4096, 4097)):
        scrap("steps beyond S", Rule((NAT,), (0,), 4, limit), un(steps, OPEN))
    scrap("steps beyond S", NUMBER, mi(21, 1, OPEN))
    scrap("steps beyond S", NUMBER, un(21, 1, OPEN))
    scrap("steps beyond S", NOTHING, re(20) + mi(21) + un(20))


def number_of_parameters():
    for rule, rows in ((NUMBERS, ((0,), (OPEN,), (1, 0), (0, 0, 0), (OPEN,) * 3, ())), (NOTHING, ((0,), (OPEN,))),
                       (NUMBER, ((), (OPEN, OPEN))), (Rule((BOOL,), (0,) * 8), ((1,) * 7, (1,) * 9))):
        for values in rows:
            scrap("number of parameters", rule, re(6, *values))


def bytes_behind():
    for byte in (0, ord("R"), OPEN):
        scrap("byte behind the last entry", NUMBER, GOOD + bytes([byte]))
    scrap("byte behind the last entry", NOTHING, re(0) + mi(1) + b"U")
    for values in ((1, 1, OPEN, 0), (0, OPEN), (0, 82), (1, 0, OPEN, OPEN)):
        scrap("byte behind the parameters", NUMBER, re(6, *values))
    scrap("byte behind the parameters", NUMBERS, mi(6, 0, 1, OPEN, 0))


def amid_others():
    """A bad entry behind, before and between good ones."""
    for bad in (re(21, 0), un(6, 2), mi(6, 1, 1, 1, 1, OPEN), re(6), re(6, 0, 0), un(6, 1)):
        for data in (GOOD + bad, bad + GOOD, GOOD + bad + mi(3, 0)):
            for full in (False, True):
                add("amid good entries", NUMBER.file(), data, full, 100, SCRAP)


def refused_files():
    """Each refusal of the rule file comes before all that may be wrong with the list or the slice."""
    for number in range(1, 10):
        for data, room in ((GOOD, 50), (GOOD + b"X", 0)):
            for full in (False, True):
                add("refused file", NUMBER.refused(number), data, full, room, number)
    for rule_file, number in ((b"", 1), (P[6:], 2), (rules.HOLLOW, 8)):
        add("refused file", rule_file, GOOD, False, 50, number)


# Accepted.

def accepted(group, rule_file, data):
    """A list that is accepted: with just the room, with some to spare, with a byte too few, and with none."""
    for full in (False, True):
        length = text_length(rule_file, data, full)
        for room, answer in ((length, WRITTEN), (length + 9, WRITTEN), (length - 1, PAGE), (0, PAGE)):
            add(group, rule_file, data, full, room, answer)


def accepted_briefly(group, rule_file, *lists, spare=2):
    """Lists that are accepted, each where it is complete with just the room and where it is not with some to spare."""
    for data in lists:
        add(group, rule_file, data, False, text_length(rule_file, data, False), WRITTEN)
        add(group, rule_file, data, True, text_length(rule_file, data, True) + spare, WRITTEN)


def odd():
    """Accepted, though no search of the rule file gives such a list."""
    first, second, ordered = mi(6, 1, 0), GOOD, rules.shortened(False)  # its list has these two entries
    accepted("false entries", P, GOOD + re(3, 0))
    accepted("false entries", P, un(20, OPEN))
    accepted_briefly("false entries", NUMBER.file(), re(3, 0), mi(1, 1, OPEN), un(20, OPEN) + re(0, 1, 0), re(5, 1, 1, OPEN) + un(20, 1, 1, OPEN))
    accepted("repeated entries", ordered, first + second + first)
    accepted("repeated entries", ordered, first * 2 + second)
    accepted_briefly("repeated entries", NUMBER.file(), GOOD * 2, GOOD * 3, GOOD + un(20, 0) + GOOD, un(20, OPEN) * 11)
    accepted("entries out of order", ordered, second + first)
    accepted("entries out of order", ordered, second + first + second)
    accepted_briefly("entries out of order", NUMBER.file(), re(4, 1, 1, OPEN) + re(4, 1, 0) + re(4, 0) + re(4, OPEN))
    accepted("UN with fewer steps than S", P, GOOD + un(5, 1, OPEN))
    accepted("UN with fewer steps than S", NUMBER.file(), un(19, 1, OPEN))
    accepted_briefly("UN with fewer steps than S", NUMBER.file(), un(0, OPEN), un(1, 0) + un(20, 1, OPEN), mi(0, OPEN) + un(7, OPEN))
    for rule_file in (P, NUMBER.file(), NOTHING.file(), NUMBERS.file()):
        accepted("empty list", rule_file, b"")
    accepted("no parameters", rules.without_parameters() + go(), re(4))
    accepted("no parameters", NOTHING.file(), re(0))
    accepted_briefly("no parameters", NOTHING.file(), mi(20), un(5), re(20) + un(20) + mi(0), re(1) * 10, re(1) + un(20) * 2, spare=30)


def just_fitting():
    """Several parameters, every number at its limit, and the greatest values printed."""
    accepted("several parameters", NUMBERS.file(), mi(20, OPEN, 1, OPEN))
    accepted_briefly("several parameters", NUMBERS.file(), *(mi(20, *values) for values in ((0, 0), (OPEN, OPEN), (1, 1, 1, 0, 1, 1, 1, OPEN))))
    accepted("several parameters", Rule((BOOL,), (0,) * 8).file(), re(6, *(0, 1, OPEN) * 2, 1, OPEN) + un(20, *(OPEN,) * 8))
    accepted("several parameters", Rule((((),) * 16, NAT), (1, 0, 1)).file(), mi(9, 1, 0, 15, OPEN) + re(10, OPEN, 9, 1, OPEN))
    for types, parameters, depth in ((LEASTS, (0,), 3), (LEASTS, (2, 1, 0), 3), (boxed(5), (1, 0), 5), (BOXES, (1,), 2)):
        accepted("open parameter as deep as D", Rule(types, parameters, depth).file(), re(6, *(OPEN,) * len(parameters)))
    accepted("as deep as D", NUMBER.file(), re(6, 1, 1, 1, 0))
    accepted("as deep as D", NUMBER.file(), re(6, 1, 1, 1, OPEN))
    accepted_briefly("as deep as D", Rule((NAT,), (0,), 1).file(), re(6, 0), re(6, OPEN))
    accepted_briefly("as deep as D", Rule((NAT,), (0,), 64).file(), re(6, *(1,) * 63, 0), re(6, *(1,) * 63, OPEN))
    for limit in (0, 1, 255, 256, 300, 4095, 4096):
        accepted_briefly("S steps", Rule((BOOL,), (), 1, limit).file(), re(limit) + mi(limit) + un(limit))
    accepted("S steps", NUMBER.file(), mi(20, 0))
    accepted_briefly("many entries", Rule((BOOL,), (), 1, 4096).file(), un(4096) * 60 + re(999) * 40 + mi(1000) * 20)
    add("much room", NUMBER.file(), GOOD, False, 65536 + text_length(NUMBER.file(), GOOD, False), WRITTEN)


# Shares: the number of unfinished entries, and that of those that are reached or unfinished.

SHARES = ((1, 8), (3, 8), (5, 8), (7, 8), (1, 200), (3, 200), (5, 200), (199, 200), (1, 3), (2, 3), (0, 5), (5, 5), (0, 0))
HALVES = tuple((both // 8 * eighths, both) for both in (16, 24, 32) for eighths in (1, 3, 5, 7))
NEXT_TO_HALVES = tuple((unfinished, both) for both in range(3, 40, 4) for unfinished in range(both)
                       if abs(2 * (100 * unfinished % both) - both) == 1)


def shared(unfinished, both, missing):
    """A complete list with this share, and so many missing ones between the unfinished and the others."""
    data = un(20) * unfinished + mi(3) * missing + re(1) * (both - unfinished)
    add("share", NOTHING.file(), data, False, text_length(NOTHING.file(), data, False), WRITTEN)


def shares():
    """Exact halves, thirds, nothing and all; shares as near to a half as their numbers allow; before them some of these and more halves
    beside missing ones."""
    beside = SHARES[:2] + SHARES[-5:] + HALVES
    for number, (unfinished, both) in enumerate(beside + SHARES + NEXT_TO_HALVES):
        shared(unfinished, both, 1 + number % 4 if number < len(beside) else 0)


# Lists of searches.

STORED = (P, changed(steps=5), changed(label=8), rules.missing_first() + go(0, 7, 3, 9), rules.least_depth_three() + go(0, 7, 6, 16),
          rules.missing_or_too_deep() + go(0, 7, 3, 4), rules.both_trees() + go(0, 7, 2, 12), rules.labels() + go(0, 7, 1, 9),
          rules.missing_in_scrutinee() + go(0, 7, 3, 8), rules.in_turn(None, rules.REACH, rules.AGAIN) + go(0, 7, 1, 20),
          rules.never_looked_at() + go(0, 7, 1, 12), rules.without_parameters() + go())


def searched(rule_file):
    """The entries of the rule file's complete list; none where it is refused, or is of more inputs than are run."""
    try:
        answer = search(rule_file, 1 << 20, 1 << 20, 300)
    except TooMany:
        return ()
    return answer.entries if isinstance(answer, Listing) else ()


def random_files(rng, count):
    """Small rule files whose lists have two entries or more, and not many bytes."""
    found = []
    while len(found) < count:
        rule_file = random_program(rng, most_depth=4, budget=8, kept=rng.choice((0.9, 0.6)))
        size = len(Listing(searched(rule_file), None).record())
        if len(rule_file) <= 75 and 14 <= size <= 60 and len(searched(rule_file)) > 1:
            found.append(rule_file)
    return found


def damaged(rng, data):
    """One byte changed; cut; doubled as a whole; a stretch doubled."""
    place = rng.randrange(len(data))
    start, end = sorted(rng.sample(range(len(data) + 1), 2))
    return (data[:place] + bytes([rng.choice((0, 1, 2, OPEN, rng.randrange(256)))]) + data[place + 1:], data[:rng.randrange(1, len(data))],
            data * 2, data[:end] + data[start:])


def room_for(rng, rule_file, data, full):
    """Mostly a length about that of the text."""
    try:
        return max(0, text_length(rule_file, data, full) + rng.choice((-1, 0, 0, 1, 20)))
    except Refused:
        return rng.choice((0, 50))


def search_lists(rng):
    for rule_file in (*STORED, *random_files(rng, 10)):
        entries = searched(rule_file)
        whole = fill(entries, 1 << 20).record()
        room = text_length(rule_file, whole, False)
        add("search's list", rule_file, whole, False, room, WRITTEN)
        if not whole:
            continue
        cut = fill(entries, rng.randrange(len(whole))).record()
        add("search's list cut short", rule_file, cut, True, text_length(rule_file, cut, True) + 3, WRITTEN)
        for data in damaged(rng, whole):
            full = rng.random() < 0.4
            add("damaged list", rule_file, data, full, room_for(rng, rule_file, data, full))


# Random values.

def random_part(rng, types, least, type_, levels):
    """A random partial value in prefix form, and its depth in the papers' words."""
    if levels == 0 or rng.random() < 0.3:
        return bytes([OPEN]), least[type_]
    number = rng.randrange(len(types[type_].constructors))
    fields = [random_part(rng, types, least, field, levels - 1) for field in types[type_].constructors[number]]
    return bytes([number]) + b"".join(data for data, _ in fields), 1 + max((depth for _, depth in fields), default=0)


def random_values(rng, count):
    """Values with D as deep as they are, and one less where the rule file is not refused then."""
    while count:
        types = random_types(rng, 4, 3, 3)
        least = least_depths(types)
        parameters = tuple(rng.randrange(len(types)) for _ in range(rng.randint(1, 3)))
        values = [random_part(rng, types, least, parameter, rng.randint(1, 5)) for parameter in parameters]
        data, depth = b"".join(data for data, _ in values), max(depth for _, depth in values)
        if max(least[parameter] for parameter in parameters) < depth and len(data) <= 40:
            for allowed, answer in ((depth, WRITTEN), (depth - 1, SCRAP)):
                rule = Rule(tuple(type_.constructors for type_ in types), parameters, allowed)
                full = rng.random() < 0.5
                add("random values", rule.file(), rng.choice((re, un, mi))(rng.randint(0, 20), *data), full, 40 + 4 * len(data), answer)
            count -= 1


def make():
    """All cases, in the order in which they are stored."""
    for group in (marks, cut_short, lengths, strange_constructors, deep_constructors, deep_open, many_steps, number_of_parameters, bytes_behind,
                  amid_others, refused_files, odd, just_fitting, shares):
        group()
    rng = random.Random(5)
    search_lists(rng)
    random_values(rng, 40)
    return CASES
