"""Lists handed in with rule files that have NA, cases of the text calls: 15 comes before 14 and 13, and an NA that is in order changes
nothing.

What the two calls answer is stated with each case.
"""

from itertools import cycle

from blind.build import fn, go, na
from blind.handed import text_length
from blind.rulefile import PAGE, SCRAP, SPELLING
from handed_lists import GOOD as GOOD_LIST
from handed_lists import NOTHING, NUMBER, NUMBERS, OPEN, WRITTEN, Case, mi, re, un
from named_rules import BAD, GOOD, REACH, TYPES, H, N, refused, spelt, with_form
from rules import P

CASES = []


def add(group, rule_file, data, full, room, answer):
    CASES.append(Case(group, rule_file, data, full, room, answer))


# For a number: whole lists, and some that are scrap. The room is enough for each of them.
WHOLE = GOOD_LIST, b"", mi(3, 0) + un(20, OPEN), re(20, 1, 1, 1, OPEN)
SCRAPS = GOOD_LIST[:-1], b"R", re(21, 0), mi(6, 2), re(6, 1, 1, 1, 1, 0), GOOD_LIST + b"\0", b"XX" + GOOD_LIST[2:]
ROOM = 99


def misspelt():
    """Every form: beside a list that is whole or scrap, with room enough and with none."""
    lists, flags = cycle(WHOLE + SCRAPS), cycle((False, True))
    for form in BAD.values():
        rule_file = with_form(NUMBER.file(), form)
        for room in (ROOM, 0):
            add("15", rule_file, next(lists), next(flags), room, SPELLING)
    for rule in (NOTHING, NUMBERS):
        for form in list(BAD.values())[::9]:
            add("15", with_form(rule.file(), form), re(0), False, ROOM, SPELLING)
    add("15", with_form(P, BAD["a rest of the same form"]), GOOD_LIST * 2000, False, ROOM, SPELLING)


def refused_before():
    """1 to 9 come before 15."""
    flags = cycle((False, True))
    for number in range(1, 10):
        for form in (GOOD["one type for both halves"], BAD["the rest in the middle"], BAD["both halves of two"]):
            for data, room in ((GOOD_LIST, ROOM), (SCRAPS[0], 0)):
                add("before 15", refused(number, form), data, next(flags), room, number)


def unchanged():
    """With NA the calls answer as without it."""
    for form in GOOD.values():
        rule_file = with_form(NUMBER.file(), form)
        for data in WHOLE:
            for full in (False, True):
                length = text_length(rule_file, data, full)
                for room, answer in ((length, WRITTEN), (length + 3, WRITTEN), (length - 1, PAGE)):
                    add("with NA", rule_file, data, full, room, answer)
        for data in SCRAPS:
            add("with NA, scrap", rule_file, data, False, ROOM, SCRAP)
            add("with NA, scrap", rule_file, data, True, 0, SCRAP)


def names():
    """Lists of names: each part is printed as the number of its constructor."""
    def file(*parameters, depth=4):
        return TYPES + fn(parameters, N, REACH) + na(N) + go(0, 7, depth, 20)

    letter, open_byte = spelt(b"\xc9"), bytes([1, 12, OPEN, OPEN])
    for rule_file, data in ((file(N), re(3, *letter) + un(20, *open_byte) + mi(0, 0)), (file(N, N), re(3, *letter, OPEN)),
                            (file(N, H, N), mi(1, *open_byte, 15, *letter) + re(0, OPEN, OPEN, OPEN)),
                            (file(N, depth=64), re(20, *spelt(bytes(range(193, 256))))), (file(N, depth=1), re(0, 0) + re(0, OPEN))):
        for full in (False, True):
            length = text_length(rule_file, data, full)
            add("names", rule_file, data, full, length, WRITTEN)
            add("names", rule_file, data, full, length - 1, PAGE)
    for rule_file, data in ((file(N, depth=1), re(0, *letter)), (file(N), re(0, *letter[:-1])), (file(N), re(0, *letter, 0)),
                            (file(N), re(0, 1, 16, 0, 0)), (file(N), re(0, 2)), (file(N, depth=64), re(20, *spelt(bytes(64)))),
                            (file(N, N), re(0, *letter)), (file(H, N), re(0, *letter, 0))):
        for full, room in ((False, ROOM), (True, 0)):
            add("names, scrap", rule_file, data, full, room, SCRAP)


def make():
    """All cases, in the order in which they are stored."""
    for group in (misspelt, refused_before, unchanged, names):
        group()
    return CASES
