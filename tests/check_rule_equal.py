"""Tests the equality that tools/rule derives: the blind evaluator runs it on pairs of closed values of many types, and it must say
what Python says of them; it evaluates no value twice; it fits the limits for every type that there may be, as far as they allow; and
its functions are in nobody's way."""

import random
from itertools import islice, product

from rule_tool import build, changed, checked, compare, count, faults_of, warnings_of
from blind.evaluate import ENDED, REACHED, Value, evaluate
from blind.rulefile import Program, check, read
from rulelib.reader import show

MOST_PAIRS = 400  # of one type
STEPS = 4096

# Types, of which the first is compared, and the depth of the values that are tried.
TYPES = [
    ("type u = u", 1),
    ("type nat = zero | suc nat", 6),
    ("type list = nil | cons nat list\ntype nat = zero | suc nat", 4),
    ("type tree = leaf | node tree nat tree\ntype nat = zero | suc nat", 3),
    ("type even = none | more odd\ntype odd = one even", 7),
    ("type pair = pair pair2 pair2\ntype pair2 = swap bool no2\ntype no2 = no2 | yes2", 4),
    ("type rose = rose roses\ntype roses = end | grow rose roses", 5),
    ("type wrap = wrap bool", 2),
]


def enumeration(constructors, fields, field="t2"):
    """A type with so many constructors of so many fields each."""
    return "type t = " + " | ".join(f"c{number}{f' {field}' * fields}" for number in range(constructors))


def text_of(types, name):
    """A rule that reaches its target where its two parameters are equal."""
    return (f"{types}\ntype bool = no | yes\nequal {name} as same then yes else no\nfn test (a1 : {name}) (b1 : {name}) : bool =\n"
            f"  case same a1 b1 of\n    yes -> target 1 yes\n    no -> no\ngo test label 1 depth 64 steps {STEPS}\n")


def values(program, type_, depth):
    """The closed values of a type, up to a depth."""
    if depth == 0:
        return []
    return [Value(number, chosen) for number, fields in enumerate(program.types[type_].constructors)
            for chosen in islice(product(*(values(program, field, depth - 1) for field in fields)), 300)]


def check_pairs(what, program, pairs):
    """The rule reaches its target exactly where the values are equal, and ends where they are not."""
    ends = {False: ENDED, True: REACHED}
    found = [(left, right) for left, right in pairs if evaluate(program, (left, right)).end != ends[left == right]]
    compare(f"pairs of {what} with another answer", found, [])
    if len({left == right for left, right in pairs}) != 2 and what != "u":
        compare(f"pairs of {what}", pairs, "some equal and some not")
    count("pairs of values", len(pairs))


def some_pairs(rng, known):
    """All pairs where they are few; else random ones, and of some values each with itself."""
    if len(known) ** 2 <= MOST_PAIRS:
        return [(left, right) for left in known for right in known]
    chosen = [rng.choice(known) for _ in range(MOST_PAIRS // 4)]
    return [(value, value) for value in chosen] + [(rng.choice(known), rng.choice(known)) for _ in range(MOST_PAIRS // 2)]


def near(rng, value):
    """The value with one constructor in it changed, one without fields for another."""
    if not value.fields:
        return Value(1 - value.constructor, ()) if value.constructor < 2 else value
    place = rng.randrange(len(value.fields))
    return Value(value.constructor, value.fields[:place] + (near(rng, value.fields[place]),) + value.fields[place + 1:])


def check_answers():
    rng = random.Random(12)
    for types, depth in TYPES:
        name = types.split()[1]
        text = text_of(types, name)
        compare(f"warnings of {name}", warnings_of(text, for_library=True), [])
        program = read(build(text))
        check_pairs(name, program, some_pairs(rng, values(program, 0, depth)))


def check_sizes():
    """Every number of constructors and of fields: the rule file is accepted, and the answers are right."""
    rng = random.Random(13)
    for constructors, fields in product(range(1, 17), range(7)):
        what = f"{constructors} constructors with {fields} fields"
        data = build(text_of(f"{enumeration(constructors, fields)}\ntype t2 = left | right", "t"))
        program = check(data)
        if not isinstance(program, Program):
            compare(f"check of {what}", program, "a program")
            continue
        sides = (Value(0, ()), Value(1, ()))
        known = [Value(number, tuple(rng.choice(sides) for _ in range(fields))) for number in range(constructors) for _ in range(2)]
        pairs = [(value, value) for value in known] + [(value, rng.choice(known)) for value in known]
        pairs += [(value, near(rng, value)) for value in known if fields]
        if constructors * fields:
            check_pairs(what, program, pairs + [(known[0], Value(0, known[0].fields[:-1] + (sides[1 - known[0].fields[-1].constructor],)))])
    compare("functions for one body", len(read(build(text_of(enumeration(13, 0), "t"))).functions), 2)
    compare("functions for two bodies", len(read(build(text_of(enumeration(16, 0), "t"))).functions), 3)


def check_limits():
    """Six types of sixteen constructors with six fields, each of the next one, fit a rule file; seven do not."""
    def circle(count_):
        others = [f"type t{number} = " + " | ".join([f"e{number}"] + [f"c{number}_{place}{f' t{(number + 1) % count_}' * 6}"
                                                                      for place in range(15)]) for number in range(count_)]
        return text_of("\n".join(others), "t0")
    compare("six large types", isinstance(check(build(circle(6))), Program), True)
    compare("their functions", len(read(build(circle(6))).functions), 1 + 6 * 3)
    compare("seven large types", faults_of(circle(7)),
            [(14, "the rule file has 17937 bytes, 17136 of them for derived equalities; it may have 16384")])
    crowd = text_of("type t = c u\ntype u = c2 v\ntype v = v", "t")
    functions = "".join(f"fn g{number} : bool = no\n" for number in range(61))
    compare("64 functions", faults_of(changed(crowd, "go test", functions[:-len("fn g60 : bool = no\n")] + "go test")), [])
    compare("65 functions", faults_of(changed(crowd, "go test", functions + "go test")),
            [(5, "the derived equalities need 2 functions besides the 63 of the text; there may be 64 in all")])


# The first value is looked at once, wherever its constructor stands.

SLOW = text_of(enumeration(16, 0) + "\ntype nat = zero | suc nat", "t").split("fn test")[0] + """fn test (n : nat) : bool =
  case same (slow n) C of
    yes -> target 1 yes
    no -> no
fn slow (n : nat) : t =
  case n of
    zero -> C
    suc m -> slow m
go test label 1 depth 64 steps 4096
"""


def check_steps():
    def steps(constructor, number):
        value = Value(0, ())
        for _ in range(number):
            value = Value(1, (value,))
        outcome = evaluate(read(build(SLOW.replace("C", constructor))), (value,))
        compare(f"the end for {constructor}", outcome.end, REACHED)
        return outcome.steps
    compare("steps for each evaluation of the first value", [steps(f"c{place}", 9) - steps(f"c{place}", 8) for place in (0, 13, 14, 15)],
            4 * [steps("c0", 9) - steps("c0", 8)])


def check_order():
    """The values are looked at one after the other, and then their fields from left to right, up to the first difference."""
    def looked_at(left, right):
        program = read(build(text_of("type three = three t2 t2 t2\ntype t2 = low | high", "three")))
        values_ = [Value(0, tuple(Value(number, ()) for number in numbers)) for numbers in (left, right)]
        return [wait.place for wait in evaluate(program, values_).waits]
    order = [(0,), (1,), (0, 0), (1, 0), (0, 1), (1, 1), (0, 2), (1, 2)]
    compare("the order of equal values", looked_at((0, 1, 1), (0, 1, 1)), order)
    compare("the order up to a difference", looked_at((0, 1, 1), (0, 0, 1)), order[:6])


# Names.

CROWDED = """type half = a | b half | c
type whole = w half half
type order = no | yes
equal whole as same then yes else no
equal half as same'half' then yes else no
fn same'half (x0 : half) (x1 : half) : order = turned x0 x1
fn test (x : whole) (y : whole) : order =
  case same x y of
    yes -> same'half a a
    no -> target 1 no
equal half as turned then no else yes
equal whole as unlike then no else yes
go test label 1 depth 4 steps 60
"""


def check_names():
    rule = checked(CROWDED)
    text = show(rule.data(), rule)
    compare("a text with names that look derived", build(text), rule.data())
    compare("functions in the order of the text", [line.split()[1] for line in text.split("\n") if line.startswith("fn ")],
            ["same", "same'half'", "same'half", "test", "turned", "unlike"])
    hidden = checked(changed(CROWDED, "equal half as same'half' then yes else no\n", ""))
    text = show(hidden.data(), hidden)
    compare("a derived name that is taken", [line.split()[1] for line in text.split("\n") if line.startswith("fn ")],
            ["same", "same'half", "test", "turned", "unlike", "same'half'"])
    compare("its text", build(text), hidden.data())
    compare("its warnings", [line for line, message in warnings_of(text) if "alternative" in message], [])
    source = changed(changed(CROWDED, "go test", "go same"), "depth 4", "depth 1")
    compare("a derived source", faults_of(source)[0], (13, "the depth is 1, and the values of parameter 'a' have depth 2 at least (refusal 9)"))


def check_all():
    check_answers()
    check_sizes()
    check_limits()
    check_steps()
    check_order()
    check_names()
