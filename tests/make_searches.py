"""Makes the searches that the program search_vectors runs, with the answers of the blind enumerator.

Its stdin has per case the rule file behind its two-byte length, then the words of the work slice and the bytes of the
list slice, in three bytes each, low byte first. Before the call every byte of both slices is 0xA5.

Its stdout has per case two lines. The first is the answer: `found`, `undecided` or `none` and the list's length, or
`refused` and the number, with 12 the list's length too. The second has the bytes of the list in decimal, then two words:
whether the bytes of the slice behind the list are `kept` or `changed`, and the same for the words of the work slice from
64 * S + 1,024 on, or from 0 on with a refusal 1 to 11.

With --check nothing is written, and the exit status is 1 where the stored files differ. Either way it is 1 where the set
lacks something: a kind of answer or an edge (`LEAST`), or cases whose answer changes by an error that `blind.narrow` can
make, by a wrong verdict of `blind.wrong` or by a misreading of `blind.misfile`; where narrowing lists anything else than the
enumerator; and where a small list breaks a demand.
"""

import random
import sys
from collections import Counter
from functools import lru_cache
from itertools import accumulate, chain, combinations, permutations, product

import field_rules
import named_searches
import rules
from blind.build import BuildingBody, call, case, con, go, random_rule, target, two, ty, var
from blind.compare import same
from blind.demands import broken
from blind.enumerate import MARKS, OPEN, Listing, count_inputs, fill, inputs, tally, verdict
from blind.evaluate import MISSING, REACHED, UNFINISHED, bench, evaluate
from blind.forks import complete_list
from blind.misfile import searches
from blind.narrow import ERRORS, differs
from blind.rulefile import BENCH, FULL, SPELLING, Program, Refused, check
from blind.wrong import VERDICTS, too_few
from damage import random_damaged
from make_boundary import file_of_size
from rules import AGAIN, HOLLOW, P, REACH, changed
from vectors import store

MOST_WORDS, MOST_BYTES = 300000, 100000  # the program's longest slices

CASES = []  # group, rule file, words, bytes


# Answers.

@lru_cache(maxsize=None)
def checked(rule_file):
    return check(rule_file)


@lru_cache(maxsize=None)
def entries(rule_file):
    return tuple(complete_list(checked(rule_file)))


def answer(rule_file, words, room):
    """A `Listing`, or the number of a refusal, 1 to 9, 11 or 15."""
    program = checked(rule_file)
    if not isinstance(program, Program):
        return program
    try:
        bench(program, words)
    except Refused as refused:
        return refused.number
    return fill(entries(rule_file), room)


def lines(given):
    if not isinstance(given, Listing):
        return f"refused {given}\nkept kept\n"
    listed = given.record()
    first = f"refused {FULL}" if given.refusal else given.verdict
    return f"{first} {len(listed)}\n" + "".join(f"{byte} " for byte in listed) + "kept kept\n"


def needed(program):
    return 64 * program.steps + 1024


def length(rule_file):
    """The bytes of the complete list."""
    return sum(len(entry.record()) for entry in entries(rule_file))


# Cases.

def add(group, rule_file, words=None, room=None):
    """By default the work slice is just long enough, and the list slice has some bytes to spare."""
    program = checked(rule_file)
    if isinstance(program, Program):
        words = needed(program) if words is None else words
        room = length(rule_file) + 20 if room is None else room
    CASES.append((group, rule_file, words or 0, room or 0))


def examples():
    """The examples of the specification, and the edges of their slices."""
    for rule_file in (P, changed(depth=3), changed(steps=6), changed(depth=2), changed(depth=1), changed(steps=5),
                      changed(steps=2), changed(steps=0), changed(label=8, steps=6), changed(label=8, steps=7)):
        add("example", rule_file)
        add("example", rule_file, MOST_WORDS, 16384)
    for rule_file in (b"", P[6:], HOLLOW, P[:6] + ty((1,)) + P[6:], P[:6] + ty((2,)) + ty((0, 1), (1, 1)) + P[6:],
                      changed(depth=65), changed(steps=4097), P + b"\0", file_of_size(16385)):
        add("example", rule_file)
        add("example", rule_file, MOST_WORDS, 100)
    for depth in range(1, 7):
        for steps in range(10):
            add("example", changed(7, depth, steps))
            add("example", changed(8, depth, steps))
    for depth in (7, 63, 64):
        add("example", changed(depth=depth))
    for words in (0, 1, 1023, 1024, 2302, 2303, 2304, 2305, 4000, MOST_WORDS):
        add("example", P, words)
    for room in (0, 1, 5, 6, 8, 9, 10, 32768, MOST_BYTES):
        add("example", P, None, room)
        add("example", changed(depth=2), None, room)


# Per rule written by hand: the depths and the step limits of which every pair is a case.
SWEEPS = (
    (rules.equal_numbers(), (1, 2, 4), range(0, 42)),
    (rules.equal_numbers(), (12,), (0, 60, 105, 106, 150, 240)),
    (rules.true_leaf(), (1, 2, 4), range(0, 50, 3)),
    (rules.true_leaf(), (5,), (20, 60)),
    (rules.member(), (2, 5), range(0, 60, 4)),
    (rules.increasing(), (2, 3, 4), range(0, 60, 3)),
    (rules.chain(), (1, 2, 3, 64), (0, 1, 2, 3, 4, 7, 8, 9, 13, 100, 200, 318, 319, 400)),
    (rules.chain(2), (64,), (317, 318, 319, 4096)),
    (rules.count_down(), (1, 3, 6), range(0, 70, 2)),
    (rules.count_down(), (20, 30), (254, 255, 256, 257, 1000, 4095, 4096)),
    (rules.eight_parameters(), (1, 3), range(0, 27)),
    (rules.least_depth_three(), (2, 3, 4, 5, 6, 7), range(0, 17)),
    (rules.both_trees(), (1, 2, 3, 4), range(0, 40, 2)),
    (rules.missing_first(), (1, 2, 3), range(0, 9)),
    (rules.missing_later(), (1, 2, 3), range(0, 8)),
    (rules.missing_or_too_deep(), (1, 2, 3), range(0, 5)),
    (rules.missing_in_scrutinee(), (1, 2, 3), range(0, 10)),
    (rules.missing_built(), (1, 2, 3, 64), range(4, 12)),
    (rules.missing_below_let(), (1, 2, 3), range(0, 11)),
    (rules.missing_in_call(), (1, 2, 3), range(0, 26)),
    (rules.missing_in_call(), (32,), (255, 258, 4096)),
    (rules.missing_below_targets(), (1,), range(0, 7)),
    (rules.chain(6, None), (1, 2, 3), (2, 3, 7, 8, 12, 13)),
    (rules.chain(6, None), (64,), (319,)),
    *((rules.in_turn(*ends), (1,), range(0, 5)) for ends in permutations((None, REACH, AGAIN))),
    *((rules.in_turn(*ends), (1, 64), (0, 2, 3, 4, 20)) for ends in (
        (None,), (None,) * 3, (None,) * 16, (None, REACH, None, AGAIN, None), (REACH, None, None, AGAIN), (AGAIN, None, REACH, None))),
    (rules.looked_at_twice(), (1, 2, 3), range(0, 15)),
    (rules.never_looked_at(), (1, 64), range(0, 7)),
    (rules.boxes(), (31, 32, 33, 64), (0, 3, 155, 156, 157, 158, 159, 240)),
    (rules.rotating(), (1,), (0, 3, 10, 40, 100, 400)),
    (rules.thirty_two_in_view(), (1,), (0, 2, 3, 27, 28, 29, 30, 100, 500)),
    (rules.waiting_cases(), (1, 3), (0, 1, 2, 3, 50, 4096)),
    (rules.six_fields(), (1, 2, 3), range(0, 24)),
    (rules.constructions(), (1, 2, 3), range(0, 40, 3)),
    (rules.without_parameters(), (1, 64), range(0, 6)),
    (rules.without_parameters(call(0)), (1,), (0, 1, 4096)),
    (rules.without_parameters(con(0, 1)), (1,), (0, 1)),
    (rules.without_parameters(target(7, con(0, 1))), (1,), (0, 1)),
    (rules.without_parameters(case(0, con(0, 0), None, target(7, con(0, 0)))), (1,), range(0, 4)),
    (rules.without_parameters(case(0, case(0, con(0, 1), con(0, 0), None), target(7, con(0, 0)), None)), (1,), range(0, 5)),
)


# The same for rules whose results have fields.
FIELD_SWEEPS = (
    *((field_rules.row(0, *fields), (1,), range(0, 4)) for fields in product((field_rules.NO, field_rules.REACH), repeat=2)),
    (field_rules.row(0, field_rules.NO), (1,), range(0, 3)),
    (field_rules.row(1, var(0), field_rules.REACH), (1,), range(0, 5)),
    (field_rules.row(0, case(0, con(0, 0), None, con(0, 0)), field_rules.REACH), (1,), range(0, 6)),
    (field_rules.looking_pair(), (1, 64), range(0, 10)),
    (field_rules.six_fields(), (1,), range(0, 16)),
    (field_rules.ending_at_once(), (1,), range(0, 11)),
    *((field_rules.missing_at(place), (1,), range(0, 8)) for place in range(3)),
    (field_rules.target_in_field_of_field(), (1,), range(0, 11)),
    (field_rules.pairs(0, *[field_rules.NO] * 4), (1,), range(0, 8)),
    (field_rules.same_part_again(), (1,), range(0, 20)),
    (field_rules.let_around(), (1,), range(0, 15)),
    (field_rules.let_inside(), (1,), range(0, 9)),
    (field_rules.let_of_pair(), (1,), range(0, 10)),
    (field_rules.called(), (1,), range(0, 11)),
    (field_rules.other_environment(), (1, 64), range(0, 18)),
    (field_rules.calling_fields(), (1, 2), range(0, 20)),
    (field_rules.below_cases(), (2, 3), range(0, 16)),
    (field_rules.swapped(), (1,), range(0, 14)),
    (field_rules.left_alone(), (1,), range(0, 8)),
    (field_rules.kept(), (2, 3), range(0, 5)),
    (field_rules.kept(True), (2, 3), range(0, 11)),
    (field_rules.kept_number(), (1, 2, 3), range(0, 13)),
    (field_rules.kept_number(), (64,), (11,)),
    (field_rules.nested(), (1, 64), (0, 1, 30, 31, 32)),
    (field_rules.nested(var(0)), (1, 64), (30, 31, 32, 33)),
    (field_rules.nested(target(7, con(0, 0)), 30), (1,), (0, 1, 29, 30, 31)),
    (field_rules.for_ever(), (1,), (0, 31, 32, 33, 240, 4096)),
    *((field_rules.spine(place), (1,), (place * 30 + 29, place * 30 + 30)) for place in range(6)),
    *((field_rules.spine(place, con(0, 0)), (1,), (179, 180)) for place in (0, 5)),
    (field_rules.fork_below(), (1, 2), (31, 32, 176, 177, 182, 183)),
    *((field_rules.growing(place), (1,), (0, 1, 2, 6, 7, 8, 4096)) for place in (0, 2, 5)),
    (field_rules.mapped(), (1, 2, 3), range(0, 32)),
    (field_rules.mapped(), (6,), (60, 240)),
    (field_rules.copied(), (1, 2, 3), range(0, 36, 2)),
    (field_rules.copied(), (3,), (100, 240)),
)


def sweeps():
    """The rules written by hand, with step limits and depths on both sides of every change of the answer."""
    for group, (rule, depths, limits) in chain((("rule", sweep) for sweep in SWEEPS), (("field", sweep) for sweep in FIELD_SWEEPS)):
        for depth, steps in product(depths, limits):
            add(group, rule + go(0, 7, depth, steps))
    for label in (0, 1, 7, 254, 255):
        for steps in range(12):
            add("rule", rules.labels() + go(0, label, 1, steps))
    for label in (8, 9, 10):
        for steps in range(6):
            add("rule", rules.missing_below_targets() + go(0, label, 1, steps))
    add("rule", file_of_size(16384)[:-3] + bytes([3]) + two(20))


def wide_lists():
    """4,096 entries, of which the list slice holds all, and all but the last; 640 long ones, cut short."""
    for room in (36864, 36863):
        add("room", rules.sixteens() + go(), None, room)
    add("room", rules.chains() + go(0, 7, 40, 240), None, 32768)


# Random rule files, by what their list shows; the number is how many of each are kept.
WANTED = {
    "none, no fork": 15,
    "none, forks": 45,
    "unfinished once, no fork": 20,
    "unfinished once, forks": 30,
    "unfinished more than once": 50,
    "missing once, no fork": 15,
    "missing once, forks": 25,
    "missing more than once": 25,
    "reached once": 35,
    "reached more than once": 45,
    "reached and unfinished": 50,
    "reached and missing": 30,
    "unfinished and missing": 30,
    "reached and unfinished and missing": 25,
    "five entries or more": 50,
}
TRIES = 10000  # random rule files among which there must be enough


def kind(rule_file):
    """The key in WANTED."""
    listed = entries(rule_file)
    ends = [end for end, number in zip(MARKS, tally(listed)) if number]
    if len(listed) >= 5:
        return "five entries or more"
    if len(ends) > 1:
        return " and ".join(ends)
    if len(listed) > 1:
        return f"{ends[0]} more than once"
    if ends == [REACHED]:
        return "reached once"
    forks = any(wait.steps < checked(rule_file).steps for wait in first_run(rule_file).waits)
    return ("none" if not ends else f"{ends[0]} once") + (", forks" if forks else ", no fork")


def first_run(rule_file):
    """The run of the first closed input."""
    program = checked(rule_file)
    return evaluate(program, next(inputs(program)))


def random_file(rng, **shape):
    """A random rule file that is accepted and has few closed inputs within the depth, or None."""
    rule, label, functions = random_rule(rng, most_fields=rng.choice((1, 2, 2, 3)), most_levels=rng.choice((2, 3, 4, 5)), **shape)
    source = rng.randrange(functions)
    steps = rng.choice((0, 1, rng.randint(2, 6), rng.randint(3, 12), rng.randint(7, 25), rng.randint(13, 60)))
    for depth in rng.sample((1, 2, 3, 3, 4, 4, 5, 6), 8):
        rule_file = rule + go(source, label, depth, steps)
        program = check(rule_file)
        if isinstance(program, Program) and count_inputs(program, 500) <= 500:
            return rule_file
    return None


def random_accepted(rng):
    """The random rule files, until there are enough of each kind."""
    left = dict(WANTED)
    files = []
    for _ in range(TRIES):
        if not any(left.values()):
            break
        rule_file = random_file(rng)
        if rule_file and rule_file not in files and left[kind(rule_file)]:
            left[kind(rule_file)] -= 1
            files.append(rule_file)
            add("random", rule_file, needed(checked(rule_file)) + rng.choice((0, 0, 1, 500)))
    same(f"kinds of lists that {TRIES} random rule files lack", {name: number for name, number in left.items() if number}, {})
    return files


def random_built(rng, count):
    """Random rule files that build results, each with a list that the fields of the result have made another."""
    files = []
    while len(files) < count:
        rule_file = random_file(rng, body_writer=BuildingBody)
        if (rule_file and rule_file not in files and length(rule_file) <= 2000
                and differs(checked(rule_file), entries(rule_file), "the fields of the result are not evaluated")):
            files.append(rule_file)
            add("built", rule_file)
    return files


def other_limits(rng, files, count):
    """Some of the random rule files again, with every step limit up to where the list stays as it is."""
    for rule_file in rng.sample([rule_file for rule_file in files if len(entries(rule_file)) > 1], count):
        most = max(entry.steps for entry in entries(rule_file))
        for steps in range(min(most, 30) + 2):
            add("limit", rule_file[:-2] + two(steps))


def damaged(rng, files):
    """Rule files with changes at random, some of which are still accepted; work slices that may be too short. Where an
    enumeration would take long, the case is left out."""
    for rule_file in random_damaged(rng, [rule_file for rule_file in files if len(rule_file) < 400], 240):
        program = checked(rule_file)
        if isinstance(program, Program) and count_inputs(program) * max(program.steps, 2) > 40000:
            continue
        enough = isinstance(program, Program) and rng.random() < 0.8
        words = needed(program) if enough else rng.choice((0, 1023, MOST_WORDS))
        add("damaged", rule_file, words, rng.choice((0, 8, 400)))


def edges(rule_file):
    """The place behind each entry of the list."""
    return list(accumulate(len(entry.record()) for entry in entries(rule_file)))


def missing_rooms():
    """List slices that end before a missing one, behind it, and a byte sooner."""
    for rule, depth, steps in ((rules.in_turn(None, REACH, None, AGAIN, None), 1, 3), (rules.missing_in_call(), 3, 24),
                               (rules.missing_in_scrutinee(), 3, 8), (rules.missing_later(), 2, 5), (rules.chain(2, None), 3, 20)):
        rule_file = rule + go(0, 7, depth, steps)
        for start, end, entry in zip([0] + edges(rule_file), edges(rule_file), entries(rule_file)):
            for room in (start, end - 1, end) if entry.end == MISSING else ():
                add("room", rule_file, None, room)


def rooms(rng, files):
    """List slices at the edges of entries: 0, 5 and 6 bytes, after each of some entries, a byte less and a byte more."""
    several = [rule_file for rule_file in files if len(entries(rule_file)) > 2]
    for rule_file in rng.sample(several, 30):
        ends = edges(rule_file)
        chosen = {ends[0], ends[-2], ends[-1], rng.choice(ends)}
        for room in sorted({0, 5, 6} | {end + more for end in chosen for more in (-1, 0, 1)} | {ends[-1] + 300}):
            add("room", rule_file, None, room)
    for rule_file in rng.sample([rule_file for rule_file in files if not entries(rule_file)], 5):
        add("room", rule_file, None, 0)


def benches(rng, files):
    """Work slices of just enough words, with a word less and with a word more."""
    for rule_file in rng.sample(files, 40):
        for more in (-1, 0, 1):
            add("bench", rule_file, needed(checked(rule_file)) + more)
        add("bench", rule_file, rng.randrange(1024), 0)


def names():
    """Rule files with NA."""
    for rule_file, words, room in named_searches.make():
        add("name", rule_file, words, room)


# What the set must hold.

def nesting(program, parameters):
    """The depth of the deepest place that an entry has bound."""
    def part(type_, place):
        constructor = parameters[place]
        if constructor == OPEN:
            return 0, place + 1
        deepest, place = 0, place + 1
        for field in program.types[type_].constructors[constructor]:
            depth, place = part(field, place)
            deepest = max(deepest, depth)
        return deepest + 1, place

    deepest, place = 0, 0
    for parameter in program.parameters:
        depth, place = part(parameter, place)
        deepest = max(deepest, depth)
    return deepest


def caught(files):
    """Per error the number of these files whose list it changes, as far as a number that is enough."""
    found = dict.fromkeys(ERRORS, 0)
    for rule_file in files:
        for error in ERRORS:
            if found[error] < ENOUGH and differs(checked(rule_file), entries(rule_file), error):
                found[error] += 1
    return found


ENOUGH = 15  # lists that an error changes

# How many the set has at least; where nothing is said, 5.
LEAST = {
    "example cases": 150, "rule cases": 500, "field cases": 400, "random cases": 300, "built cases": 100, "limit cases": 300, "damaged cases": 100,
    "room cases": 200, "bench cases": 100, "name cases": 300, "verdict found": 300, "verdict undecided": 300, "verdict none": 200,
    "refused 11": 50, "refused 12": 150, "refused 15": 150, "reached entries": 4000, "unfinished entries": 1500, "missing entries": 500,
    "lists with reached and unfinished": 200, "lists with reached and missing": 100,
    "lists with unfinished and missing": 100, "lists with all kinds": 50, "lists of missing ones alone": 50,
    "lists of five entries or more": 200, "depth of the deepest bound place": 60, "most bound places in an entry": 60,
    "longest entry": 300, "most steps": 4096, "longest list": 32769, "lists that fill their slice": 20,
    "lists that lack one byte": 20, "cut lists with entries": 80, "cut lists without entries": 50, "accepted with S 0": 30,
    "accepted with D 1": 50, "accepted without parameters": 15, "longest missing entry": 300,
    "most steps of a missing entry": 256, "lists that begin with a missing one": 100,
    "lists with a missing one between others": 50, "lists that end with a missing one": 100,
    "lists with a missing one at S": 30, "unfinished ones that are missing a step later": 15,
    "cut lists that lack a missing one": 30,
}


def found_later(programs):
    """The number of unfinished entries that have, in the stored list with a step more, found a missing alternative by it."""
    number = 0
    for rule_file, program in programs.items():
        later = rule_file[:-2] + two(program.steps + 1)
        if later in programs:
            missing = {entry.parameters for entry in entries(later) if entry.end == MISSING and entry.steps == program.steps + 1}
            number += sum(entry.end == UNFINISHED and entry.parameters in missing for entry in entries(rule_file))
    return number


def missing_counts(complete, cut, programs):
    """What the set holds of missing alternatives."""
    ends = [[entry.end for entry in given.entries] for *_, given in complete]
    listed = [entry for rule_file in programs for entry in entries(rule_file) if entry.end == MISSING]
    lacked = [(entries(rule_file)[len(given.entries)], room - len(given.record())) for rule_file, room, given in cut]
    lacked = [(len(entry.record()), left) for entry, left in lacked if entry.end == MISSING]
    return {
        "longest missing entry": max(len(entry.record()) for entry in listed),
        "most steps of a missing entry": max(entry.steps for entry in listed),
        "lists of missing ones alone": sum(set(kinds) == {MISSING} for kinds in ends),
        "lists that begin with a missing one": sum(kinds[:1] == [MISSING] and len(set(kinds)) > 1 for kinds in ends),
        "lists with a missing one between others": sum(MISSING in kinds[1:-1] and MISSING not in (kinds[0], kinds[-1]) for kinds in ends),
        "lists that end with a missing one": sum(kinds[-1:] == [MISSING] and len(set(kinds)) > 1 for kinds in ends),
        "lists with a missing one at S": sum((MISSING, checked(rule_file).steps) in ((entry.end, entry.steps) for entry in given.entries)
                                             for rule_file, _, given in complete),
        "unfinished ones that are missing a step later": found_later(programs),
        "lists that a missing one fills": sum(kinds[-1:] == [MISSING] and len(given.record()) == room
                                              for kinds, (_, room, given) in zip(ends, complete)),
        "cut lists that lack a missing one": len(lacked),
        "cut lists that lack one byte of a missing one": sum(left == size - 1 for size, left in lacked),
        "cut lists that lack a missing one just behind their last": sum(left == 0 for _, left in lacked),
    }


def counts(answers):
    """What the set holds."""
    cases = [(rule_file, room, given) for (_, rule_file, _, room), given in zip(CASES, answers) if isinstance(given, Listing)]
    cut = [(rule_file, room, given) for rule_file, room, given in cases if given.refusal]
    complete = [(rule_file, room, given) for rule_file, room, given in cases if not given.refusal]
    programs = {rule_file: checked(rule_file) for rule_file, _, _ in cases}
    listed = [(program, entry) for rule_file, program in programs.items() for entry in entries(rule_file)]
    groups = Counter(group for group, _, _, _ in CASES)
    verdicts = Counter(given.verdict for _, _, given in complete)
    refusals = Counter(given for given in answers if not isinstance(given, Listing)) + Counter({FULL: len(cut)})
    return {
        **{f"{group} cases": groups[group]
           for group in ("example", "rule", "field", "random", "built", "limit", "damaged", "room", "bench", "name")},
        **{f"verdict {word}": verdicts[word] for word in ("found", "undecided", "none")},
        **{f"refused {number}": refusals[number] for number in (*range(1, 10), BENCH, FULL, SPELLING)},
        **{f"{end} entries": sum(entry.end == end for _, entry in listed) for end in MARKS},
        **{f"lists with {' and '.join(some)}": sum(set(some) == {entry.end for entry in given.entries} for *_, given in complete)
           for some in combinations(MARKS, 2)},
        "lists with all kinds": sum(all(tally(given.entries)) for *_, given in complete),
        **missing_counts(complete, cut, programs),
        "lists of five entries or more": sum(len(given.entries) >= 5 for *_, given in complete),
        "depth of the deepest bound place": max(nesting(program, entry.parameters) for program, entry in listed),
        "most bound places in an entry": max(sum(byte != OPEN for byte in entry.parameters) for _, entry in listed),
        "longest entry": max(len(entry.record()) for _, entry in listed),
        "most steps": max(entry.steps for _, entry in listed),
        "longest list": max(len(given.record()) for *_, given in complete),
        "lists that fill their slice": sum(len(given.record()) == room > 0 for _, room, given in complete),
        "lists that lack one byte": sum(length(rule_file) == room + 1 for rule_file, room, _ in cut),
        "cut lists with entries": sum(len(given.entries) > 0 for *_, given in cut),
        "cut lists without entries": sum(not given.entries for *_, given in cut),
        "accepted with S 0": sum(program.steps == 0 for program in programs.values()),
        "accepted with D 1": sum(program.depth == 1 for program in programs.values()),
        "accepted without parameters": sum(not program.parameters for program in programs.values()),
    }


def broken_demand(rule_file):
    """What is wrong with the list of this rule file; None where nothing is, and where the closed inputs are many."""
    program, listed = checked(rule_file), entries(rule_file)
    return broken(program, listed, verdict(listed)) if count_inputs(program, 500) <= 500 else None


def faults(answers, counted):
    """What the set lacks, and what is wrong with its answers."""
    files = list(dict.fromkeys(rule_file for (_, rule_file, _, _), given in zip(CASES, answers) if isinstance(given, Listing)))
    small = [rule_file for rule_file in files if len(entries(rule_file)) <= 60 and checked(rule_file).steps <= 120]
    return ([f"not counted: {name}" for name in LEAST if name not in counted]
            + [f"too few: {name}" for name, number in counted.items() if number < LEAST.get(name, 5)]
            + [f"narrowing lists otherwise: {rule_file.hex()}" for rule_file in files
               if differs(checked(rule_file), entries(rule_file), None)]
            + [f"a demand is broken: {rule_file.hex()}: {wrong}" for rule_file in small if (wrong := broken_demand(rule_file))]
            + [f"changes {number} lists: {error}" for error, number in caught(small).items() if number < ENOUGH]
            + too_few(VERDICTS, [(tally(given.entries), given.verdict) for given in answers
                                 if isinstance(given, Listing) and not given.refusal], ENOUGH)
            + too_few(searches(answer), [(asked, given) for (_, *asked), given in zip(CASES, answers) if given == SPELLING], ENOUGH))


def make():
    """All cases, and their answers."""
    rng = random.Random(3)
    examples()
    sweeps()
    wide_lists()
    missing_rooms()
    files = random_accepted(rng)
    other_limits(rng, files, 24)
    damaged(rng, files)
    rooms(rng, files)
    benches(rng, files)
    names()
    other_limits(rng, random_built(rng, 120), 12)
    same("slices longer than the program's",
         [(words, room) for _, _, words, room in CASES if words > MOST_WORDS or room > MOST_BYTES], [])
    return [answer(rule_file, words, room) for _, rule_file, words, room in CASES]


def main():
    answers = make()
    counted = counts(answers)
    wrong = faults(answers, counted)
    if sys.argv[1:] != ["--check"]:
        for name, number in counted.items():
            print(f"{number:6}  {name}")
    for fault in wrong:
        print(f"search_vectors: {fault}", file=sys.stderr)
    stdin = b"".join(two(len(rule_file)) + rule_file + words.to_bytes(3, "little") + room.to_bytes(3, "little")
                     for _, rule_file, words, room in CASES)
    return 1 if wrong else store("search_vectors", stdin, "".join(map(lines, answers)).encode(), sys.argv[1:])


if __name__ == "__main__":
    sys.exit(main())
