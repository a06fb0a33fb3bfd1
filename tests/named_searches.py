"""Searches of rule files with NA: 15 beside the other refusals of a search, rules that look at names, and random ones.

Each case is a rule file, the words of the work slice and the bytes of the list slice; None stands for just enough words, and for some
bytes to spare.
"""

import random
from itertools import cycle

import rules
from blind.build import go, na, random_named_rule
from blind.compare import same
from blind.enumerate import count_inputs
from blind.misfile import answer
from blind.rulefile import SPELLING, Program, RuleFile, check
from named_files import DAMAGES
from named_rules import (AGAIN, BAD, BOOL, GOOD, REACH, RESPELT, deepest, each_kind, every_byte, look, name_beside, never_looked_at, reaches,
                         refused, spelling, walk, with_form, without_names)
from rules import P, changed

CASES = []


def add(rule_file, words=None, room=None, known=None):
    """The refusal of the rule file is stated where it is known beforehand, 0 for none."""
    if known is not None:
        same(f"the check of {rule_file.hex()}", answer(RuleFile, rule_file), known)
    CASES.append((rule_file, words, room))


def misspelt():
    """Every form beside P and other rules, with slices that would do, and with one or both too short."""
    slices = cycle(((5000, 100), (0, 100), (2303, 0), (5000, 0), (5000, 8), (0, 0), (2304, 9)))
    kinds = rules.in_turn(None, rules.REACH, rules.AGAIN)
    files = cycle((P, changed(steps=5), changed(depth=2), kinds + go(), rules.missing_later() + go(depth=2)))
    for form in BAD.values():
        for _ in range(2):
            add(with_form(next(files), form), *next(slices), SPELLING)
    for refusal in range(1, 10):
        for form in (GOOD["a type for each half"], BAD["an end with a half"], BAD["high half of fifteen"]):
            add(refused(refusal, form), *next(slices), refusal)


def same_without():
    """NA changes nothing: rules that have few closed inputs, each with names and without them."""
    for rule, depth, steps in ((P[:-7], 4, 20), (P[:-7], 4, 5), (rules.equal_numbers(), 3, 30), (rules.true_leaf(), 3, 30),
                               (rules.member(), 3, 40), (rules.least_depth_three(), 5, 16), (rules.both_trees(), 3, 20),
                               (rules.missing_in_call(), 3, 24), (rules.in_turn(None, rules.REACH, rules.AGAIN), 1, 20),
                               (rules.labels(), 1, 9), (rules.without_parameters(), 1, 6), (rules.eight_parameters(), 1, 30)):
        for form in GOOD.values():
            rule_file = with_form(rule + go(0, 7, depth, steps), form)
            add(rule_file, known=0)
        add(without_names(rule_file), known=0)
        add(rule_file, 64 * steps + 1023)
        add(rule_file, None, 8)


def named():
    """Rules that look at names."""
    for rule, depth, steps in ((reaches((12, 9)), 2, 20), (reaches((12, 9), None), 2, 20), (reaches((12, None)), 2, 20),
                               (reaches((None, 9), None, others=None), 3, 20), (reaches((None, None), (4, 1)), 3, 20),
                               (reaches(*spelling(b"R1"), others=None), 3, 60), (every_byte(), 2, 20), (every_byte(True), 2, 11),
                               (every_byte(), 1, 20), (every_byte(), 2, 10), (walk(), 5, 40), (walk(None), 4, 12), (deepest(), 64, 240),
                               (each_kind(REACH, AGAIN, None), 2, 20), (each_kind(None), 2, 6), (never_looked_at(BOOL), 1, 0)):
        add(rule + go(0, 7, depth, steps), known=0)
        add(without_names(rule + go(0, 7, depth, steps)), known=0)
    for steps in range(12):
        add(reaches((12, 9)) + go(depth=2, steps=steps))
        for rule in (*RESPELT.values(), name_beside(look(1, 2, [(12, 9)], REACH, None))):
            add(rule + go(depth=2, steps=steps), known=0)
    for room in (0, 9, 10, 99, 100, 2559, 2560):
        add(every_byte() + go(depth=2), None, room)
    rule_file = every_byte() + go(depth=2)
    for words in (0, 2303):
        add(rule_file, words)
        add(rule_file[:-10] + na(0) + rule_file[-7:], words, None, SPELLING)


def random_named(rng, count):
    """Random rules with names and few closed inputs; as many with another form; and both damaged."""
    good, bad = [], []
    while len(good) < count:
        rule, label, functions, number = random_named_rule(rng, rng.choice(list(GOOD.values())))
        rule_file = rule + na(number) + go(rng.randrange(functions), label, rng.randint(1, 2), rng.choice((rng.randint(0, 9), 20)))
        program = check(rule_file)
        if isinstance(program, Program) and 1 < count_inputs(program, 300) <= 300 and len(rule_file) <= 400:
            good.append(rule_file)
    while len(bad) < count:
        rule, label, functions, number = random_named_rule(rng, rng.choice(list(BAD.values())))
        rule_file = rule + na(number) + go(rng.randrange(functions), label, rng.randint(1, 3), rng.randint(0, 20))
        if len(rule_file) <= 400:
            bad.append(rule_file)
    for rule_file in good:
        add(rule_file)
    for rule_file in bad:
        add(rule_file, rng.choice((0, 5000)), rng.choice((0, 8, 400)))
    for number in range(2 * count):
        damaged = DAMAGES[number % len(DAMAGES)](rng, rng.choice(good + bad))
        program = check(damaged)
        if not isinstance(program, Program) or count_inputs(program, 300) <= 300:
            add(damaged, 300000, rng.choice((0, 8, 400)))


def make():
    """All cases, in the order in which they are stored."""
    for group in (misspelt, same_without, named):
        group()
    random_named(random.Random(9), 30)
    return CASES
