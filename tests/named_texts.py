"""Rule files with names on which the programs reachlist and namelist are run: open and bound parts of names, other parameters beside
them, all bytes, all kinds of entries, depths, refusals, files without NA, and random ones.

Each function gives rule files by their names.
"""

import random
from functools import partial

from blind.build import call, case, con, fn, go, na, random_named_rule, target, ty, var
from blind.compare import same
from blind.enumerate import TooMany, verdict
from blind.forks import forked_entries
from blind.names import Names
from blind.rulefile import Program, check
from named_rules import (AGAIN, BAD, BOOL, END, GOOD, OTHER, REACH, RESPELT, SIXTEEN, TYPES, UNIT, H, N, beside, deepest, each_kind,
                         every_byte, in_turn, look, name, name_beside, never_looked_at, of_half, reaches, refused, rule, spelling, walk,
                         with_form, without_names)
from rules import P, changed

NAT, TREE = ((), (OTHER,)), ((), (OTHER, OTHER))  # as the first type behind those of names


def files(rules, depth=4, steps=60):
    """The files of these rules, with this depth and this step limit."""
    return {f"name_{word}": rule_ + go(0, 7, depth, steps) for word, rule_ in rules.items()}


def shapes():
    """One name, with open parts at the front, in a half, at the end; and closed."""
    patterns = {
        "empty": [None], "e_acute": [(12, 9)], "e_acute_ends": [(12, 9), None], "high_open": [(None, 9)], "low_open": [(12, None)],
        "high_open_ends": [(None, 9), None], "low_open_ends": [(12, None), None], "byte_open": [(None, None)],
        "byte_open_ends": [(None, None), None], "first_open": [(None, None), (7, 15)], "first_low_open": [(4, None), (4, 1), None],
        "second_open": [(7, 15), (None, None), None], "middle": [(12, 9), (None, 2), (8, None), (15, 15), None],
        "zeros": spelling(b"\0\0\0"), "zero_inside": spelling(b"R\0\xc9", False), "edges": spelling(b"\x7f\x80\xbf\xc0\xff"),
        "relay": spelling(b"RELAY\xc91"), "utf8": spelling(b"\xc3\x89", False),
    }
    made = files({word: reaches(*pattern) for word, pattern in patterns.items()}, 9, 100)
    return {**made, **files({"never_looked_at": never_looked_at()}, 1, 0)}


def bytes_():
    """All 256 bytes, in the order of their high and of their low halves; and behind an open byte."""
    behind = case(N, var(0), END, case(N, var(3), END, case(H, var(4), *[call(1, var(5))] * 16)))
    return {**files({"every_byte": every_byte(), "every_byte_by_low": every_byte(True)}, 2),
            **files({"every_byte_second": beside([], (N,), behind, fn((H,), N, case(H, var(0), *[REACH] * 16)))}, 3)}


def kinds():
    """Entries of every kind, alone and mixed; lists without entries; step limits at which the name is open."""
    limits = {f"name_s{steps}": reaches((12, 9), None, others=None) + go(depth=2, steps=steps) for steps in (0, 3, 8, 12)}
    one_byte = {
        "kinds": each_kind(REACH, AGAIN, None), "kinds_missing_first": each_kind(None, AGAIN, REACH),
        "kinds_unfinished_first": each_kind(AGAIN, AGAIN, None, REACH), "missing_alone": each_kind(None),
        "unfinished_alone": beside([], (N,), AGAIN), "unfinished_and_missing": each_kind(AGAIN, None),
        "unfinished_bytes": beside([], (N,), case(N, var(0), AGAIN, of_half(var(1), {12: AGAIN}))),
    }
    several = {
        "missing_elsewhere": reaches(*spelling(b"R\xe9"), others=None), "unfinished_elsewhere": reaches((12, 9), None, others=AGAIN),
        "missing_behind_open": reaches((None, 9), (3, None), None, others=None),
    }
    return {**limits, "name_none": reaches((12, 9)) + go(label=9, depth=2), **files(one_byte, 2, 20), **files(several)}


def between():
    """Two names with a tree between them, which nothing looks at, or of which a part is looked at."""
    def looked(view):
        return case(OTHER, var(1), REACH, case(OTHER, var(view), END, REACH))

    bodies = {
        "first_first": in_turn(3, REACH, (0, [(12, 9)]), (2, [(4, None), None])),
        "last_first": in_turn(3, REACH, (2, [(None, 9), None]), (0, [(3, 1)])),
        "looked_at": in_turn(3, looked, (0, [(7, 15)]), (2, [(None, 9)])),
        "alone_looked_at": case(OTHER, var(1), REACH, case(OTHER, var(3), END, case(OTHER, var(4), REACH, END))),
    }
    return files({f"tree_between_{word}": beside([TREE], (N, OTHER, N), body) for word, body in bodies.items()})


def parameters():
    """Several names, and names beside parameters of other types; a type that no parameter has."""
    mixed = in_turn(8, case(2, var(6), REACH, case(3, var(2), REACH, END)), (3, [(12, 9)]), (7, [(None, 1)]))
    numbers = case(OTHER, var(0), END, case(OTHER, var(3), look(1, 4, [(5, 10)], REACH), call(0, var(4), var(1), var(2))))
    three, ends = ((),) * 3, case(OTHER, var(1), REACH, None, REACH)
    return files({
        "two": beside([], (N, N), in_turn(2, REACH, (1, [(7, 15), None]), (0, [(8, 0)]))),
        "two_equal": beside([], (N, N), in_turn(2, REACH, (0, [(7, 15)]), (1, [(7, 15)]))),
        "eight": beside([], (N,) * 8, in_turn(8, REACH, (7, [(7, None)]), (0, [(0, None)]), (3, [(3, None)]))),
        "eight_mixed": beside([BOOL, ((), (3,))], (2, N, 3, N, H, N, 2, N), mixed),
        "behind_numbers": beside([NAT], (OTHER, N, OTHER), numbers),
        "open_or_not": beside([BOOL], (N, OTHER), case(OTHER, var(1), REACH, look(0, 2, [(None, None)], REACH))),
        "by_second_name": beside([], (N, N), case(N, var(1), REACH, case(H, var(2), *[REACH, None] * 8))),
        "deep_between": beside([((3,),), ((4,), (2, 2)), UNIT], (OTHER, N, 3), look(1, 3, [(15, None)], case(3, var(2), REACH, END))),
        **{f"repeated_{word}": beside([three], (N, OTHER), look(0, 2, pattern, ends))
           for word, pattern in (("open", []), ("high", [(7, None)]), ("byte", [(7, 15)]), ("end", [None]))},
        "no_parameters": beside([], (), REACH), "of_no_parameter": beside([BOOL], (OTHER, OTHER), case(OTHER, var(1), REACH, REACH)),
        "of_no_parameter_half": beside([], (H,), of_half(var(0), {3: REACH}, None)),
    })


def sources():
    """The source is not the first function, which has other parameters."""
    first = {"none": fn((), N, END), "other": fn((OTHER, N), N, END), "more": fn((N, N, N), N, var(2)), "fewer": fn((N,), N, var(0)),
             "turned": fn((OTHER, N, OTHER), N, var(1))}
    source = fn((N, OTHER, N), N, case(OTHER, var(1), REACH, in_turn(3, REACH, (0, [(4, None)]), (2, [(None, 3), None]))))
    return {f"name_source_{word}": rule(function + source, BOOL) + go(1, 7, 3, 60) for word, function in first.items()}


def other_types():
    """Records that hold names, and a type for each half."""
    def inside(view):
        """The first of so many parameters is a record of two names, or of nothing."""
        return case(OTHER, var(0), in_turn(view + 2, REACH, (view + 1, [(12, 9)]), (view, [(4, None)])), REACH)

    record, one = ((N, N), ()), ((N,),)
    two = look(0, 1, [(12, 9), (None, 5), None], REACH, types=(0, 2, 1))
    exchanged = look(0, 1, [(12, None), (5, 9)], REACH, types=(2, 0, 1))
    return files({
        "in_record": beside([record], (OTHER,), inside(1)), "in_record_and_behind": beside([record], (OTHER, N), inside(2)),
        "in_record_and_between": beside([record], (OTHER, N, OTHER), inside(3)),
        "in_record_open": beside([one], (OTHER, N, OTHER), look(1, 3, [(12, 9)], REACH)),
        "in_record_behind": beside([((N, N, H),)], (N, OTHER, OTHER), case(OTHER, var(2), look(3, 6, [(2, 0)], REACH))),
        **{f"in_record_{word}": beside([one], (OTHER, N), case(OTHER, var(0), look(2, 3, pattern, REACH)))
           for word, pattern in (("low_open", [(12, None)]), ("closed", [(7, 15), None]), ("empty", [None]), ("looked_at", []))},
        "two_halves": ty(*SIXTEEN) + ty(*name(0, 2, 1)) + ty(*SIXTEEN) + fn((1,), 1, two) + na(1),
        "two_halves_exchanged": ty(*SIXTEEN) + ty(*name(2, 0, 1)) + ty(*SIXTEEN) + fn((1,), 1, exchanged) + na(1),
    })


def results():
    """Names in the fields of a result, with the target in a field."""
    made = files({f"respelt_{word}": rule_ for word, rule_ in RESPELT.items()}, 3)
    return {**made, **files({"beside_target": name_beside(look(1, 2, [(12, 9)], REACH)), "beside_missing": name_beside(look(1, 2, [(12, None)], REACH, None))})}


# Patterns of two names, each of a type of its own.
TWINS = {
    "e_acute": ([(12, 9)], [(7, 15), None]), "low_open": ([(12, None)], [(4, None), None]), "high_open": ([(None, 9), None], [(None, 1)]),
    "empty": ([None], [None]), "byte_open": ([(None, None), (4, 1)], [(None, None)]), "zeros": ([(0, 0), None], [(0, 0), (0, 0)]),
    "first_open": ([], [(12, 9), None]), "last_open": ([(12, 9)], []), "both_open": ([], []), "utf8": ([(12, 3)], [(8, 9)]),
}


def twins():
    """Two types of names, 0 and 2, with a parameter of each: NA names the one or the other, or there is no NA."""
    end, made = con(0, 0), {}
    for number, (word, (first, second)) in enumerate(TWINS.items()):
        inner = partial(look, 1, pattern=second, inner=target(7, end), others=end, types=(1, 1, 2))
        source = fn((0, 2), 0, look(0, 2, first, inner, end, (1, 1, 0)))
        types, named = ty(*name()) + ty(*SIXTEEN) + ty(*name(1, 1, 2)), 2 * (number % 2)
        made[f"unnamed_{word}"] = types + source + go(depth=4, steps=60)
        made[f"name_{'second' if named else 'first'}_of_twins_{word}"] = types + source + na(named) + go(depth=4, steps=60)
    return made


def depths():
    """Names up to the depth, of no byte, of one, of 63; and a named type that is the last of 32."""
    last = look(2, 3, [(12, 9), None], target(7, con(1, 0)), con(1, 0), (0, 0, 31))
    return {
        **{f"name_walk_d{depth}": walk() + go(depth=depth, steps=240) for depth in (1, 2, 3, 64)},
        **files({"walk_missing": walk(None)}, 5), **files({"deepest": deepest()}, 64, 240), **files({"e_acute_d1": reaches((12, 9))}, 1),
        **files({"e_acute_d2": reaches((12, 9), None), "two_bytes_d2": reaches((12, 9), (4, 1))}, 2),
        **files({"last_of_32": ty(*SIXTEEN) + ty(()) * 30 + ty(*name(0, 0, 31)) + fn((31, 1, 31), 1, last) + na(31)}),
    }


# Lists of about 32,768 bytes.

def names_of_two_bytes(alternatives, last=None):
    """Names of two bytes, of which the second has an open low half, with a number and two truth values: entries of 16 bytes. The high
    half of the second byte leads to these sixteen alternatives, and for the last first byte to those of `last`, if it has any."""
    plain, first = call(3, var(1)), [call(1, var(5), var(6), var(1))] * 15 + [call(2, var(5), var(6), var(1))]
    return beside([NAT, BOOL], (N, OTHER, 3, 3), case(N, var(0), END, case(H, var(4), *first)),
                  fn((H, N, OTHER), N, case(H, var(0), *[plain] * 16)),
                  fn((H, N, OTHER), N, case(H, var(0), *[plain] * 15, call(4, var(1), var(2)))),
                  fn((N,), N, case(N, var(0), END, case(H, var(1), *alternatives))),
                  fn((N, OTHER), N, case(N, var(0), END, case(H, var(2), *(last or alternatives)))))


def chains():
    """A name, a chain with links of six fields, and a name whose low half has to be one of six: long entries."""
    body = case(N, var(2), END, of_half(var(4), {low: call(1, var(1)) for low in (0, 3, 9, 10, 12, 15)}))
    return beside([((), (H,) * 5 + (OTHER,))], (N, OTHER, N), body, fn((OTHER,), N, case(OTHER, var(0), REACH, call(1, var(6)))))


def long_names():
    """Eight names, of which the first has 35 bytes of which the high half is 12, and then one of all bytes: a long text for each entry."""
    def passing(function, count, parameters=1):
        """So many bytes are looked at, and the rest of the name is handed on to this function."""
        return look(0, parameters, [(12, None)] * count, lambda view: call(function, var(view - 1)))

    return beside([], (N,) * 8, passing(1, 8, 8), *(fn((N,), N, passing(function, 9)) for function in (2, 3, 4)),
                  fn((N,), N, case(N, var(0), END, case(H, var(1), *[call(5, var(2))] * 16))), fn((H,), N, case(H, var(0), *[REACH] * 16)))


def long_lists():
    """A list that fills the buffer, one that lacks a byte for its last entry, two that are cut short long before their end, and one
    with a long text."""
    half, more, again = [REACH] * 8 + [END] * 8, case(OTHER, var(1), END, REACH), call(3, var(0))
    return {
        **files({"list_fills": names_of_two_bytes(half), "list_lacks_a_byte": names_of_two_bytes(half, [REACH] * 7 + [more] + [END] * 8),
                 "list_lacks_entries": names_of_two_bytes([None, REACH, again, None, END, END] * 2 + [again, END, END, REACH])}, 3),
        **files({"long_entries": chains(), "long_text": long_names()}, 60, 240),
    }


def refused_files():
    """15 alone and beside the others, NA out of its turn, and the edge of the work slice."""
    rule_file = reaches((12, 9)) + go(depth=3)
    return {
        "name_15_constructors": with_form(P, BAD["three constructors"]), "name_15_fields": with_form(P, BAD["the rest first"]),
        "name_15_half": rule_file[:-10] + na(H) + rule_file[-7:],
        "name_15_field_in_half": with_form(P, BAD["low half with a name in its last"]),
        "name_15_rest": with_form(without_names(rule_file), BAD["two types, each the rest of the other"]),
        "name_15_before_11": with_form(changed(steps=4096), BAD["one constructor"]),
        "name_15_before_12": names_of_two_bytes([REACH] * 16)[:-3] + na(H) + go(depth=3, steps=60),
        "name_9_before_15": refused(9, BAD["three constructors"]), "name_8_before_15": refused(8, BAD["three constructors"]),
        "name_first": na(N) + rule_file, "name_before_functions": TYPES + na(N) + rule_file[len(TYPES):],
        "name_twice": rule_file[:-7] + na(N) + rule_file[-7:], "name_behind_go": without_names(rule_file) + na(N),
        "name_strange": P[:-7] + na(1) + P[-7:], "name_cut_off": rule_file[:-8],
        **{f"name_s{steps}": reaches((12, None)) + go(depth=3, steps=steps) for steps in (240, 241)},
    }


# Random files by what they show; the number is how many of each are kept.
WANTED = {"names inside other parameters": 4, "another source": 6, "missing ones alone": 7, "several names": 4, "other": 3}


def kind(program, entries):
    """The key in WANTED."""
    named, first = program.named, program.functions[0].parameters
    if any(named in fields for type_ in program.parameters if type_ != named for fields in program.types[type_].constructors):
        return "names inside other parameters"
    if program.source and [type_ == named for type_ in first] != [type_ == named for type_ in program.parameters]:
        return "another source"
    if verdict(entries) == "none":
        return "missing ones alone"
    return "several names" if program.parameters.count(named) > 1 else "other"


def random_files(rng):
    """Files whose lists have names, not all of them empty, and are not long, until there are enough of each kind."""
    left, found = dict(WANTED), []
    while any(left.values()):
        rule_, label, functions, named = random_named_rule(rng, rng.choice(list(GOOD.values())))
        rule_file = rule_ + na(named) + go(rng.randrange(functions), label, rng.randint(2, 5), rng.choice((rng.randint(3, 20), 60)))
        program = check(rule_file)
        if len(rule_file) > 500 or not isinstance(program, Program) or named not in program.parameters:
            continue
        try:
            entries = forked_entries(program, 100)
        except TooMany:
            continue
        if 1 < len(entries) <= 40 and any(any(Names(program).names(entry)) for entry in entries) and left[kind(program, entries)]:
            left[kind(program, entries)] -= 1
            found.append(rule_file)
    return {f"name_random_{number:02}": rule_file for number, rule_file in enumerate(found)}


def make():
    """All rule files by their names."""
    made = {}
    for group in (shapes, bytes_, kinds, between, parameters, sources, other_types, results, twins, depths, long_lists, refused_files):
        more = group()
        same("rule files that two groups have", made.keys() & more.keys(), set())
        refusals = {word: check(rule_file) for word, rule_file in more.items() if not isinstance(check(rule_file), Program)}
        same(f"rule files that are refused, {group.__name__}", refusals if group != refused_files else {}, {})
        made.update(more)
    return {**made, **random_files(random.Random(10))}
