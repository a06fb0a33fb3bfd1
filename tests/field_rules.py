"""Rules whose results have fields, for the tests: types and functions, to which a GO is still to be added.

The source is function 0 and the label sought is 7. Type 0 is that of truth values, but for numbers and nodes. `RUNS` has closed runs
of these rules that are worked out by hand.
"""

from blind.build import call, case, con, fn, let, target, ty, var
from blind.evaluate import ENDED, MISSING, REACHED
from rules import BOOL, NAT

NO, YES = con(0, 0), con(0, 1)
REACH, PASS = target(7, NO), target(8, NO)


def look(number, no, yes, type_=0):
    """A case on a variable: three steps where that is a parameter of the source."""
    return case(type_, var(number), no, yes)


def row(parameters, *fields):
    """A constructor with these fields, for so many parameters; all of them are truth values."""
    return BOOL + ty((0,) * len(fields)) + fn((0,) * parameters, 1, con(1, 0, *fields))


def pair(parameters, body, *functions):
    """A rule that gives a pair of truth values, which is type 1."""
    return BOOL + ty((0, 0)) + fn((0,) * parameters, 1, body) + b"".join(functions)


def pairs(parameters, *fields):
    """A pair of pairs, which have these four fields."""
    return BOOL + ty((0, 0)) + ty((1, 1)) + fn((0,) * parameters, 2, con(2, 0, con(1, 0, *fields[:2]), con(1, 0, *fields[2:])))


def looking_pair():
    """The first field has the target for yes, the second for no."""
    return row(2, look(0, NO, REACH), look(1, REACH, NO))


def six_fields():
    """Of each kind of field one: built, of the input, with an alternative missing, with another target, with the target, the target."""
    return row(2, NO, var(0), look(0, NO, None), PASS, look(1, NO, REACH), REACH)


def ending_at_once():
    """A field that is looked at, and five that end at once."""
    return row(1, look(0, NO, None), *[NO] * 5)


def missing_at(place):
    """Of three fields this one has no alternative for yes, and the last of those behind it is the target."""
    return row(1, *(NO if number < place else look(0, NO, None) if number == place else (NO, REACH)[number - 1] for number in range(3)))


def target_in_field_of_field():
    return pairs(1, NO, look(0, REACH, NO), NO, REACH)


def same_part_again():
    """Both pairs look at the same parameters, in another order each."""
    return pairs(2, look(1, NO, YES), look(0, NO, None), look(0, NO, REACH), look(1, REACH, NO))


def let_around():
    """A let around the pair, whose variable both fields use."""
    return pair(1, let(0, look(0, NO, YES), con(1, 0, var(1), look(1, NO, REACH))))


def let_inside():
    return row(1, let(0, var(0), look(1, NO, REACH)), REACH)


def let_of_pair():
    """The pair is built outside the let that the result stands below."""
    return pair(1, let(1, con(1, 0, var(0), look(0, NO, REACH)), var(1)))


def called():
    """The pair is built by another function, whose only parameter is the second of the source."""
    return pair(2, call(1, var(1)), fn((0,), 1, con(1, 0, look(0, NO, REACH), var(0))))


def other_environment():
    """The first field ends in the environment of another function, with two lets; the second looks at the source's own first parameter."""
    inner = let(0, var(0), let(0, YES, case(0, var(2), NO, look(1, NO, YES))))
    return pair(2, con(1, 0, call(1, var(1)), look(0, NO, REACH)), fn((0,), 0, inner))


def calling_fields():
    """Three fields, each a call of the same function, with the last, the first and the second of the source's parameters."""
    return row(3, *(call(1, var(number)) for number in (2, 0, 1))) + fn((0,), 0, look(0, NO, REACH))


def below_cases():
    """The pair is built below two cases, and its fields look at what these have in view: the second of the first pair, the first of the
    second."""
    built = con(1, 0, look(3, NO, REACH), look(4, None, NO))
    return BOOL + ty((0, 0)) + fn((1, 1), 1, case(1, var(0), case(1, var(1), built)))


def swapped():
    """A pair that is taken apart and built again the other way round."""
    taken = con(1, 0, look(0, NO, None), look(1, NO, REACH))
    return pair(2, case(1, taken, con(1, 0, var(3), var(2))))


def left_alone():
    """The target is in a field of a pair that is a scrutinee, and that nothing looks at."""
    return pair(0, case(1, con(1, 0, REACH, NO), con(1, 0, var(1), var(1))))


def kept(looked=False):
    """An input that is a field of the result, before another one; it may be bound before."""
    body = case(1, var(0), con(2, 0, var(0), look(2, NO, REACH))) if looked else con(2, 0, var(0), REACH)
    return BOOL + ty((0, 0)) + ty((1, 0)) + fn((1,), 2, body)


def kept_number():
    """A number that is a field, then another that is bound before it is one, then the target; numbers are type 0."""
    return NAT + ty((0, 0, 0)) + fn((0, 0), 1, case(0, var(1), con(1, 0, var(0), var(1), con(0, 0)),
                                                   con(1, 0, var(0), var(1), case(0, var(2), con(0, 0), target(7, con(0, 0))))))


def nested(inner=con(0, 0), levels=31):
    """A number of so many units and what is inside them; by default 32 nested constructors."""
    return NAT + fn((0,), 0, con(0, 1) * levels + inner)


def for_ever():
    """The number of all units."""
    return NAT + fn((), 0, con(0, 1) * 31 + call(0))


LEAF = con(0, 0)


def spine(place, inner=target(7, LEAF)):
    """Thirty nodes of six fields, each in the field of this number of the one before, and what is inside the last."""
    for _ in range(30):
        inner = con(0, 1, *[LEAF] * place, inner, *[LEAF] * (5 - place))
    return ty((), (0,) * 6) + fn((), 0, inner)


def fork_below():
    """A fork below 28 nodes whose other fields all wait, in a node whose last field is the target."""
    inner = look(0, LEAF, con(0, 1, *[LEAF] * 6))
    for _ in range(28):
        inner = con(0, 1, inner, *[LEAF] * 5)
    return ty((), (0,) * 6) + fn((0,), 0, con(0, 1, inner, *[LEAF] * 4, target(7, LEAF)))


def growing(place):
    """A node of six fields, of which this one is made by the rule itself: without end."""
    return ty((), (0,) * 6) + fn((), 0, con(0, 1, *[LEAF] * place, call(0), *[LEAF] * (5 - place)))


def mapped():
    """A list of truth values that is built anew; yes is the target."""
    return BOOL + ty((), (0, 1)) + fn((1,), 1, case(1, var(0), con(1, 0), con(1, 1, look(1, NO, REACH), call(0, var(2)))))


def copied():
    """A tree that is built anew, from left to right; two equal leaves side by side are the target, a leaf beside a tree is missing."""
    both = case(0, var(1), case(0, var(2), target(7, LEAF), None), con(0, 1, call(0, var(1)), call(0, var(2))))
    return ty((), (0, 0)) + fn((0,), 0, case(0, var(0), LEAF, both))


# Rules, inputs, and how they end after how many steps. Comments have the number of steps done with each; a case on a parameter is three.
RUNS = (
    (row(0, NO, NO), [], ENDED, 2), (row(0, NO, REACH), [], REACHED, 2), (row(0, REACH, NO), [], REACHED, 1),
    (row(0, NO), [], ENDED, 1), (row(1, var(0)), [1], ENDED, 2), (row(0, PASS, REACH), [], REACHED, 3),
    (looking_pair(), [0, 0], REACHED, 8), (looking_pair(), [0, 1], ENDED, 8), (looking_pair(), [1, 0], REACHED, 4),
    # Turn, turn and x, turn and case, turn and target, turn and case, turn.
    (six_fields(), [0, 0], REACHED, 14), (six_fields(), [0, 1], REACHED, 13), (six_fields(), [1, 0], MISSING, 7),
    (row(0, *[NO] * 6), [], ENDED, 6), (ending_at_once(), [0], ENDED, 9), (ending_at_once(), [1], MISSING, 4),
    (missing_at(0), [0], REACHED, 6), (missing_at(1), [0], REACHED, 6), (missing_at(2), [0], ENDED, 6),
    (missing_at(0), [1], MISSING, 4), (missing_at(1), [1], MISSING, 5), (missing_at(2), [1], MISSING, 6),
    # To the first pair, to its first field, to its second: three turns; to the second pair and its two fields: three more.
    (target_in_field_of_field(), [0], REACHED, 6), (target_in_field_of_field(), [1], REACHED, 9),
    (pairs(0, NO, REACH, NO, NO), [], REACHED, 3), (pairs(0, NO, NO, REACH, NO), [], REACHED, 5), (pairs(0, NO, NO, NO, NO), [], ENDED, 6),
    # Turn 1, turn 2, case 5, turn 6, case 9, turn 10, turn 11, case 14, turn 15, case 18.
    (same_part_again(), [0, 0], REACHED, 18), (same_part_again(), [0, 1], ENDED, 18), (same_part_again(), [1, 0], MISSING, 9),
    # Turn 1, case 2, and for no there is no alternative 3; for yes choose 3, turn 4.
    (row(0, case(0, NO, None, NO), REACH), [], MISSING, 3), (row(0, case(0, YES, None, NO), REACH), [], REACHED, 4),
    # Let 1, turn 2, variable 3, case 6, turn 7, case 8, variable 9, case 12, choose 13.
    (let_around(), [1], REACHED, 13), (let_around(), [0], ENDED, 13),
    # Turn 1, let 2, case 3, variable 4, x 5, choose 6, turn 7.
    (let_inside(), [1], REACHED, 6), (let_inside(), [0], REACHED, 7),
    # Let 1, variable 2, turn 3, x 4, turn 5, case 8.
    (let_of_pair(), [1], REACHED, 8), (let_of_pair(), [0], ENDED, 8),
    # Call 1, turn 2, case 3, z 4, y 5, choose 6, turn 7, z 8, y 9.
    (called(), [0, 1], REACHED, 6), (called(), [1, 0], ENDED, 9),
    # Turn 1, call 2, let 3, let 4, case 5, variable 6, choose 7, case 8, variable 9, parameter 10, y 11, choose 12, turn 13, case 16.
    (other_environment(), [1, 0], REACHED, 16), (other_environment(), [0, 1], ENDED, 16),
    # Turn 1, call 2, case 3, parameter 4, z 5, choose 6; the same six steps for x, and for y.
    (calling_fields(), [0, 0, 0], ENDED, 18), (calling_fields(), [0, 1, 0], REACHED, 18), (calling_fields(), [1, 1, 0], REACHED, 12),
    (calling_fields(), [1, 0, 0], REACHED, 12), (calling_fields(), [0, 0, 1], REACHED, 6),
    # Case 3, case 6, turn 7, case 10, turn 11, case 14.
    (below_cases(), [0, 1, 0, 0, 1, 0], ENDED, 14), (below_cases(), [0, 1, 0, 0, 0, 1], MISSING, 14),
    (below_cases(), [0, 0, 1, 0, 0, 0], REACHED, 10),
    # Case 1, choose 2, turn 3, variable 4, case 7, turn 8, variable 9, case 12.
    (swapped(), [0, 0], ENDED, 12), (swapped(), [1, 0], MISSING, 12), (swapped(), [1, 1], REACHED, 7),
    # Case 1, choose 2, turn 3, variable 4, turn 5, variable 6.
    (left_alone(), [], ENDED, 6),
    # Turn 1, x 2, turn 3; bound before: case 3, turn 4, x 5, turn 6, case 9.
    (kept(), [0, 1, 1], REACHED, 3), (kept(True), [0, 0, 1], REACHED, 9), (kept(True), [0, 1, 0], ENDED, 9),
    # Case 3, turn 4, x 5, turn 6, y 7, turn 8, case 11.
    (kept_number(), [1, 1, 0, 1, 1, 0], REACHED, 11), (kept_number(), [1, 0, 1, 0], ENDED, 11), (kept_number(), [1, 1, 1, 0, 0], ENDED, 8),
    (nested(), [0], ENDED, 31), (nested(var(0)), [1, 1, 1, 0], ENDED, 32), (nested(target(7, LEAF), 30), [0], REACHED, 30),
    (nested(target(8, LEAF), 30), [1, 0], ENDED, 31),
    # In the first field of each node the target is behind thirty turns, in the last behind six times as many.
    (spine(0), [], REACHED, 30), (spine(5), [], REACHED, 180), (spine(2), [], REACHED, 90),
    (spine(0, LEAF), [], ENDED, 180), (spine(3, LEAF), [], ENDED, 180), (spine(5, LEAF), [], ENDED, 180),
    # 29 turns, case 32, 5 turns for each of 28 nodes and 4 for the outermost 176, turn 177; a node has six turns of its own.
    (fork_below(), [0], REACHED, 177), (fork_below(), [1, *[0] * 6], REACHED, 183),
    # Case 3, turn 4, case 7, turn 8, call 9, case 10, parameter 11, variable 12, choose 13.
    (mapped(), [0], ENDED, 3), (mapped(), [1, 1, 0], REACHED, 7), (mapped(), [1, 0, 0], ENDED, 13),
    # Case 3, case 6, case 9; where the first branch is a node: turn 7, call 8, case 9, parameter 10, variable 11, choose 12, case 15, case 18.
    (copied(), [0], ENDED, 3), (copied(), [1, 0, 0], REACHED, 9), (copied(), [1, 0, 1, 0, 0], MISSING, 9),
    (copied(), [1, 1, 0, 0, 0], REACHED, 18),
)
