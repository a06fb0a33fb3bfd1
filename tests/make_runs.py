"""Makes the closed runs that the program run_vectors runs, with the answers of the blind evaluator.

Its stdin has per case the rule file behind its two-byte length; a pattern behind its two-byte length; how often the pattern
stands, in four bytes; the rest of the input behind its two-byte length; and the words of the work slice in four bytes. All
numbers have the low byte first. The input is the pattern so often, one after the other, and then the rest; it has at most
1,048,576 bytes. Where nothing is repeated, the pattern is empty and stands 0 times.

Its stdout has per case a line: `reached`, `ended`, `unfinished` or `missing`, the steps and the largest depth of the
parameters, 0 without parameters; or `refused` and the number.

With --check nothing is written, and the exit status is 1 where the stored files differ. Either way it is 1 where the set has
too few of a kind of answer (`LEAST`), or a misreading of `blind.misdepth` or an error that `blind.narrow` can make with the fields of
a result would show in too few answers, or a misreading of `blind.misfile` in too few answers for rule files with NA; and where the
evaluation of `blind.narrow`, with all places bound, answers otherwise.
"""

import random
import sys
from collections import Counter
from functools import lru_cache, partial
from itertools import islice, product

import closed_inputs
import field_rules
import named_inputs
import rules
from blind.build import BuildingBody, call, case, con, fn, go, random_program, random_rule, target, two, ty, var
from blind.compare import same
from blind.demands import constructors
from blind.evaluate import MISSING, UNFINISHED, Answer, ClosedInput, run
from blind.misdepth import ORDER, READINGS, SHOWN, figure
from blind.misfile import RUNS
from blind.narrow import FIELD_ERRORS, Narrowing
from blind.rulefile import BENCH, Program, check
from closed_inputs import MOST_BYTES, SPARE, Case
from vectors import store

P = bytes.fromhex("545902000100464E01000017000300000001020000010300000101020000010507020000474F0007041400")

ENOUGH, MANY = 10, 100  # answers that a misreading changes at least, and up to which they are counted
FEW = 200  # steps of the rule files on which errors of the evaluation are tried
SHORT = 330  # bytes of the inputs on which misreadings are tried, but for those of the order of refusals

CASES = []


def add(rule_file, data, words=SPARE):
    CASES.append(Case(rule_file, b"", 0, bytes(data), words))


def line(answer):
    return f"refused {answer}\n" if isinstance(answer, int) else f"{answer.end} {answer.steps} {answer.depth}\n"


def examples():
    """The closed runs of the specification, every way to give 10, and 11 at one word too few."""
    add(P, [0])
    add(P, [1, 1, 0])
    for data in ([1, 0], [1, 1, 1, 0], [], [1], [1, 1, 1, 1, 0], [2], [0, 0], [1, 2], [255]):
        add(P, data)
    needed = 64 * 20 + 1024
    for words in (needed - 1, needed, needed + 1, 0):
        add(P, [1, 1, 0], words)
    add(P, [2], needed - 1)  # 10 before 11
    add(b"", [0])  # the file first
    add(P[:-1] + b"\x20", [0])
    for steps in range(8):
        add(P[:-2] + two(steps), [1, 1, 0])


def counting(steps):
    """A rule that walks a unary number down with two calls for each unit: long runs."""
    nat = ty((), (0,))
    down = case(0, var(0), con(0, 0), call(1, var(1)))
    again = call(0, var(0))
    marked = fn((0,), 0, case(0, call(0, var(0)), target(7, con(0, 0)), None))
    return nat + fn((0,), 0, down) + fn((0,), 0, again) + marked + go(2, 7, 64, steps)


def long_runs():
    for steps in (100, 400, 4095, 4096):
        for length in (0, 1, 20, 62, 63):
            add(counting(steps), [1] * length + [0])


# Per rule with missing alternatives: an input, and the step by which one is found missing on it.
MISSING_ON = (
    (rules.missing_first(), [0], 3), (rules.missing_first(), [1, 1, 0], 6), (rules.missing_later(), [0], 6),
    (rules.missing_later(), [1, 0], 5), (rules.in_turn(None, None), [1], 3), (rules.in_turn(*[None] * 16), [15], 3),
    (rules.missing_or_too_deep(), [2, 0, 1], 3), (rules.missing_in_scrutinee(), [0], 4), (rules.missing_in_scrutinee(), [1, 1, 0], 8),
    (rules.missing_built(), [0], 7), (rules.missing_built(), [1, 0], 10), (rules.missing_below_let(), [0], 7),
    (rules.missing_below_let(), [1, 1, 0], 9), (rules.missing_in_call(), [0, 0], 6),
    (rules.missing_in_call(), [1, 1, 0, 1, 1, 0], 24), (rules.missing_in_call(), [1] * 63 + [0] + [1] * 60 + [0], 546),
    (rules.missing_below_targets(), [0], 5), (rules.chain(6, None), ([1] + [0] * 5) * 3 + [0], 18),
    (rules.without_parameters(case(0, con(0, 0), None, con(0, 0))), [], 2),
)


def limited(rule, data, end, last):
    """A run that ends so with this step, with step limits about that."""
    for steps in sorted({0, 1, last - 1, last, last + 1, 4096}):
        add(rule + go(0, 7, 64, steps), data)
    answers = [run(rule + go(0, 7, 64, steps), bytes(data), SPARE) for steps in (last - 1, last)]
    same(f"the runs that are {end} after {last} steps, with a step less and with all", [(answer.end, answer.steps) for answer in answers],
         [(UNFINISHED, last - 1), (end, last)])


def missing_runs():
    """Missing alternatives, with step limits about that by which each is found."""
    for rule, data, found in MISSING_ON:
        limited(rule, data, MISSING, found)


def field_runs():
    """Results with fields: those that are worked out by hand, and some without end."""
    for rule, data, end, last in field_rules.RUNS:
        limited(rule, data, end, last)
    for rule, steps in product((field_rules.for_ever(), *map(field_rules.growing, range(6))), (0, 1, 2, 32, 240, 4096)):
        add(rule + go(0, 7, 1, steps), b"", 64 * steps + 1024)


def random_value(rng, program, type_, depth):
    constructors = program.types[type_].constructors
    fitting = [number for number, fields in enumerate(constructors)
               if all(program.depths[field] <= depth - 1 for field in fields)]
    number = rng.choice(fitting)
    data = bytes([number])
    for field in constructors[number]:
        data += random_value(rng, program, field, depth - 1)
    return data


def random_built(rng):
    """A random rule file that builds results and is accepted."""
    while True:
        rule, label, functions = random_rule(rng, most_fields=3, kept=rng.choice((0.9, 0.6)), body_writer=BuildingBody)
        rule_file = rule + go(rng.randrange(functions), label, rng.randint(2, 6), rng.choice((rng.randint(0, 9), rng.randint(5, 60))))
        if isinstance(check(rule_file), Program):
            return rule_file


def random_plain(rng):
    return random_program(rng, kept=rng.choice((0.9, 0.6)))


def random_runs(rng, count, random_file):
    while count:
        rule_file = random_file(rng)
        program = Depths(check(rule_file))
        for _ in range(3):
            data = b"".join(random_value(rng, program, parameter, min(program.depth, 5)) for parameter in program.parameters
                            ) if all(program.depths[parameter] <= 5 for parameter in program.parameters) else None
            if data is None or len(data) > 2000:
                continue
            add(rule_file, data)
            count -= 1
            if not count:
                break
            if data and rng.random() < 0.2:
                place = rng.randrange(len(data))
                add(rule_file, data[:place] + bytes([rng.randrange(4)]) + data[place + rng.randrange(2):])


class Depths:
    """A checked program with its types' least depths."""

    def __init__(self, program):
        from blind.rulefile import least_depths
        self.types, self.parameters, self.depth = program.types, program.parameters, program.depth
        self.depths = least_depths(program.types)


# What the set must hold.

@lru_cache(maxsize=None)
def checked(rule_file):
    return check(rule_file)


def size(case_):
    """The bytes of the input."""
    return len(case_.pattern) * case_.count + len(case_.rest)


def agreeing(case_, answer):
    """Fails where the answer is not the one known beforehand."""
    same(f"the answer for {case_.rule_file.hex()}, {case_.pattern.hex()} {case_.count} times and {case_.rest.hex()[:200]}",
         line(answer)[-len(case_.known) - 1:], case_.known + "\n")


def changes(wrong, cases):
    """Per misreading how many cases it changes, as far as they are counted; a case is what is asked and what is right."""
    return {error: sum(1 for _ in islice((asked for asked, right in cases if made(*asked) != right), MANY)) for error, made in wrong.items()}


def misnamed(cases, answers):
    """Per misreading of NA the number of answers that it changes."""
    short = [(case_, answer) for case_, answer in zip(cases, answers) if size(case_) <= SHORT]
    return changes(RUNS, [((case_.rule_file, case_.data(), case_.words), answer) for case_, answer in short])


def misread(cases, answers):
    """Per misreading of depths the number of answers that it changes. Where the answer is 11, a depth would not show."""
    short = [(checked(case_.rule_file), case_.data(), answer) for case_, answer in zip(cases, answers)
             if size(case_) <= SHORT and answer != BENCH]
    accepted = [(program, data, answer) for program, data, answer in short if isinstance(answer, Answer)]
    read = [((program, data), figure(ClosedInput, program, data)) for program, data, _ in short if isinstance(program, Program)]
    shown = [((program, [depth for _, depth in ClosedInput(program, data).parameters()], answer), answer.depth)
             for program, data, answer in accepted]
    refused = [((case_.rule_file, case_.data(), case_.words), answer) for case_, answer in zip(cases, answers) if isinstance(answer, int)]
    return {**changes({error: partial(figure, closed) for error, closed in READINGS.items()}, read),
            **changes(SHOWN, shown), **changes(ORDER, refused)}


def evaluated(error, program, bound):
    return Narrowing(program, error).run(bound)


def misevaluated(cases, answers):
    """Per error with the fields of a result the number of answers that it changes, of those with few steps. Fails where narrowing changes
    an answer without one."""
    accepted = [(checked(case_.rule_file), case_.data(), answer) for case_, answer in zip(cases, answers)
                if size(case_) <= SHORT and isinstance(answer, Answer)]
    asked = [((program, constructors(ClosedInput(program, data).read()[0])), (answer.end, answer.steps)) for program, data, answer in accepted]
    same("answers that narrowing with all places bound does not give", [right for given, right in asked if evaluated(None, *given) != right], [])
    few = [((program, bound), right) for (program, bound), right in asked if program.steps <= FEW]
    return changes({error: partial(evaluated, error) for error in FIELD_ERRORS}, few)


# How many answers of each kind the set has at least.
LEAST = {"reached": 250, "ended": 250, "unfinished": 300, "missing": 250, **{f"refused {number}": 8 for number in range(1, 10)},
         "refused 10": 500, "refused 11": 30, "refused 15": 250, "depth 0": 100, "depth 1": 200, "depth 2": 100, "depth 63": 40,
         "depth 64": 40, "ends with depths": 4 * 64, "long inputs": 100, "long inputs that fit": 1, "longest": 50}


def counts(cases, answers):
    """What the set holds."""
    ends = Counter(f"refused {answer}" if isinstance(answer, int) else answer.end for answer in answers)
    depths = Counter(f"depth {answer.depth}" for answer in answers if isinstance(answer, Answer))
    sizes = list(map(size, cases))
    same("the length of the longest input", max(sizes), MOST_BYTES)
    return ends + depths + Counter({
        "ends with depths": len({(answer.end, answer.depth) for answer in answers if isinstance(answer, Answer) and answer.depth}),
        "long inputs": sum(bytes_ > 65535 for bytes_ in sizes),
        "long inputs that fit": sum(bytes_ > 65535 and isinstance(answer, Answer) for bytes_, answer in zip(sizes, answers)),
        "longest": sizes.count(MOST_BYTES)})


def record(case_):
    """The case in the program's stdin."""
    return (two(len(case_.rule_file)) + case_.rule_file + two(len(case_.pattern)) + case_.pattern + case_.count.to_bytes(4, "little")
            + two(len(case_.rest)) + case_.rest + case_.words.to_bytes(4, "little"))


def report(cases, counted, wrong):
    print(len(cases), "cases:", ", ".join(f"{word} {counted[word]}" for word in LEAST))
    print("answers that a misreading changes")
    for error, number in wrong.items():
        print(f"{number:6}  {error}")


def answered(cases):
    """The answers to these cases."""
    answers = [run(case_.rule_file, case_.data(), case_.words) for case_ in cases]
    for case_, answer in zip(cases, answers):
        agreeing(case_, answer)
    return answers


def make():
    """All cases, and their answers: first those without NA, then those with it."""
    examples()
    long_runs()
    missing_runs()
    random_runs(random.Random(2), 600, random_plain)
    field_runs()
    random_runs(random.Random(11), 200, random_built)
    cases, named = CASES + closed_inputs.make(), named_inputs.make()
    return cases, answered(cases), named, answered(named)


def main():
    unnamed, first, named, second = make()
    cases, answers = unnamed + named, first + second
    counted, wrong = counts(cases, answers), {**misread(unnamed, first), **misevaluated(unnamed, first), **misnamed(named, second)}
    if not sys.argv[1:]:
        report(cases, counted, wrong)
    lacking = ([f"too few: {word}" for word, least in LEAST.items() if counted[word] < least]
               + [f"changes {number} answers: {error}" for error, number in wrong.items() if number < ENOUGH])
    for fault in lacking:
        print(f"run_vectors: {fault}", file=sys.stderr)
    stdin, stdout = b"".join(map(record, cases)), "".join(map(line, answers))
    return 1 if lacking else store("run_vectors", stdin, stdout.encode(), sys.argv[1:])


if __name__ == "__main__":
    sys.exit(main())
