"""Closed inputs for rule files with NA: names of every length, 15 beside the other refusals of a closed run, and random ones.

What the run answers is stated with a case as far as it is known without it.
"""

import random
from itertools import cycle

import rules
from blind.build import go, na, random_named_rule, target, var
from blind.compare import same
from blind.evaluate import run
from blind.rulefile import Program, check, least_depths
from closed_inputs import ENDS, MOST_BYTES, NAT, SPARE, Case, Rule, number, random_value
from named_rules import (AGAIN, BAD, BOOL, GOOD, REACH, RESPELT, SIXTEEN, H, N, beside, deepest, each_kind, every_byte, look, name, reaches, refused,
                         spelling, spelt, walk, with_form, without_names)

CASES = []


def add(rule_file, data, words=SPARE, known=""):
    CASES.append(Case(rule_file, b"", 0, bytes(data), words, known))


def short(rule_file):
    """A work slice that lacks a word."""
    return 64 * check(without_names(rule_file)).steps + 1023


# 15.

def misspelt():
    """Every form beside a rule of numbers: the input fits, is too deep, or is none; the work slice is long enough or too short."""
    numbers = Rule((NAT,), (0,), 4).file()
    inputs = cycle((number(4)[0], number(5)[0], b"\2", b"", b"\0\0", number(1)[0]))
    for form in BAD.values():
        rule_file = with_form(numbers, form)
        for words in (SPARE, short(rule_file), 0):
            add(rule_file, next(inputs), words, "refused 15")
    for form in GOOD.values():
        rule_file = with_form(numbers, form)
        add(rule_file, number(4)[0], known="reached 3 4")
        add(rule_file, number(5)[0], known="refused 10")
        add(rule_file, number(4)[0], short(rule_file), "refused 11")
        add(rule_file, number(5)[0], short(rule_file), "refused 10")
    for form in (BAD["three constructors"], BAD["the rest first"]):
        rule_file = with_form(numbers, form)
        CASES.append(Case(rule_file, b"\1", MOST_BYTES - 1, b"\0", SPARE, "refused 15"))
        CASES.append(Case(rule_file, b"\1", MOST_BYTES, b"", 0, "refused 15"))


def named_parameters():
    """The named type is that of a parameter, with another form: what is read as its value does not matter."""
    for form in list(BAD.values())[::4]:
        rule_file = with_form(rules.without_parameters() + go(), form)
        add(rule_file, b"", SPARE, "refused 15")
        add(rule_file, b"\0", 0, "refused 15")
    ends = cycle(ENDS)
    for types in ((SIXTEEN, name(0, 0, 0)), (SIXTEEN, (*name(0, 0, 1), ())), (SIXTEEN[:15], name(0, 0, 1))):
        for data in (b"\0\0", b"\0", b"\2\0", spelt(b"\1") + b"\0", b"\1\1\2\0\0\0"):
            rule_file = Rule(types, (1, 0), 4, next(ends)).file()
            named = rule_file[:-7] + na(1) + rule_file[-7:]
            add(named, data, SPARE, "refused 15")
            add(named, data, short(named), "refused 15")


def before():
    """The refusals before 15."""
    for refusal in range(1, 10):
        for form in (GOOD["a type for each half"], BAD["one constructor"], BAD["low half of fifteen"], BAD["three rests"]):
            for data, words in ((number(2)[0], SPARE), (b"\2", 0)):
                add(refused(refusal, form), data, words, f"refused {refusal}")


# Names.

TYPES = SIXTEEN, name(0, 0, 1)


def names(end=None, parameters=(N,), depth=64, looked=0):
    """A rule that takes names and ends so, with its NA."""
    made = Rule(TYPES, parameters, depth, end or ENDS[0], looked)
    rule_file = made.file()
    return made, rule_file[:-7] + na(N) + rule_file[-7:]


def lengths():
    """Names of every length that fits D 64, and longer ones; a name of k bytes is k + 1 deep."""
    ends = cycle(ENDS)
    for length in range(66):
        made, rule_file = names(next(ends))
        add(rule_file, spelt(bytes(17 * place % 256 for place in range(length))), known=made.line(length + 1))
    for depth in (1, 2, 3, 20, 63):
        for length in (depth - 1, depth):
            for parameters, place in (((N,), 0), ((N, N), 0), ((N, N), 1), ((N, H, N), 2)):
                made, rule_file = names(next(ends), parameters, depth, parameters.index(N))
                values = [spelt(b"") if type_ == N else b"\x0f" for type_ in parameters]
                values[place] = spelt(b"\xc9" * length)
                add(rule_file, b"".join(values), known=made.line(length + 1))


def bytes_of_names():
    """Names of one byte, names that are damaged, step limits, and a name behind others."""
    for byte in range(0, 256, 5):
        add(every_byte() + go(depth=2), spelt([byte]), known="reached 11 2")
        add(reaches((byte // 16, None)) + go(depth=2), spelt([byte]), known="reached 6 2")
    add(reaches((12, 9)) + go(depth=2), spelt(b"\xc9"), known="reached 9 2")
    add(reaches((12, 9)) + go(depth=2), spelt(b"\x9c"), known="ended 6 2")
    add(reaches((12, 9), others=None) + go(depth=2), spelt(b"\x9c"), known="missing 6 2")
    add(reaches((12, 9), None) + go(depth=3), spelt(b"\xc9\0"), known="ended 12 3")
    whole = spelt(b"\xc9\x41")
    for place in range(len(whole)):
        for data in (whole[:place], whole[:place] + b"\x10" + whole[place + 1:], whole[:place] + b"\xff" + whole[place + 1:],
                     whole[:place] + b"\2\0" + whole[place:]):
            add(reaches((12, 9)) + go(depth=3), data)
    for steps in range(13):
        for rule_ in (reaches(*spelling(b"\xc9")), each_kind(REACH, AGAIN, None), walk()):
            add(rule_ + go(depth=3, steps=steps), spelt(b"\xc9"))
    for steps in (200, 204, 205, 206, 300, 4096):
        add(deepest() + go(depth=64, steps=steps), spelt(bytes(63)))
    # A rule that looks at the second of two names, with other parameters between.
    second = beside([BOOL, ((), (3, 3))], (N, 3, 2, N), look(3, 4, [(4, None), (None, 1), None], target(7, var(0))))
    for data in (spelt(b"AA"), spelt(b"OA"), spelt(b"A"), spelt(b"AAA"), spelt(b"\0\0")):
        add(second + go(depth=4), spelt(b"x") + b"\1\0\1\0\0" + b"\1" + data)


def names_in_results():
    """Names that are built anew, where the target is in a field: case 3, then a turn and a variable for each half that is not looked at, or
    a turn and a case of three for one that is."""
    for word, data, known in (("high", b"\xc9", "reached 7 2"), ("high", b"\x9c", "ended 10 2"), ("low", b"\xc9", "reached 9 2"),
                              ("low", b"\x9c", "ended 10 2"), ("rest", b"\xc9", "reached 11 2"), ("rest", b"\xc9\x41", "ended 11 3"),
                              ("low_behind_missing", b"\xc9", "reached 11 2"), ("low_behind_missing", b"\xd9", "missing 7 2"),
                              ("low_of_any_byte", b"\x09", "reached 9 2"), ("low_of_any_byte", b"\x0a", "ended 15 2")):
        add(RESPELT[word] + go(depth=3), spelt(data), known=known)
        for steps in (int(known.split()[1]) - 1, 3, 4):
            add(RESPELT[word] + go(depth=3, steps=steps), spelt(data), known=f"unfinished {steps} {known[-1]}")


def same_without():
    """NA changes nothing: the answer is that of the file without it."""
    for rule_, data in ((rules.P[:-7], [1, 1, 0]), (rules.equal_numbers(), [1, 1, 0, 1, 0]), (rules.true_leaf(), [1, 0, 0, 0, 1]),
                        (rules.both_trees(), [1, 0, 0, 1, 0, 0]), (rules.missing_later(), [1, 0]), (rules.without_parameters(), []),
                        (rules.count_down(), [1] * 9 + [0]), (rules.eight_parameters(), [1] * 8), (rules.labels(), [1, 0])):
        for form in GOOD.values():
            for steps in (6, 240):
                rule_file = with_form(rule_ + go(0, 7, 12, steps), form)
                add(rule_file, data)
                same("the run without NA", run(without_names(rule_file), bytes(data), SPARE), run(rule_file, bytes(data), SPARE))


# Random names.

def random_inputs(rng, count):
    """Random rules with names, on inputs that mostly fit."""
    while count:
        forms = rng.choice((GOOD, GOOD, GOOD, BAD))
        rule_, label, functions, named = random_named_rule(rng, rng.choice(list(forms.values())))
        rule_file = rule_ + na(named) + go(rng.randrange(functions), label, rng.randint(2, 9), rng.choice((rng.randint(0, 9), 60)))
        program = check(without_names(rule_file))
        if not isinstance(program, Program) or not program.parameters:
            continue
        least = least_depths(program.types)
        data = b"".join(random_value(rng, program.types, least, parameter, rng.randint(1, program.depth))[0]
                        for parameter in program.parameters)
        if len(data) <= 200:
            add(rule_file, data, rng.choice((SPARE, SPARE, SPARE, short(rule_file))))
            count -= 1


def make():
    """All cases, in the order in which they are stored."""
    for group in (misspelt, named_parameters, before, lengths, bytes_of_names, names_in_results, same_without):
        group()
    random_inputs(random.Random(8), 120)
    return CASES
