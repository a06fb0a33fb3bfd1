"""Rules written by hand for the tests of the search: types and functions, to which a GO is still to be added.

The source is function 0 and the label sought is 7 unless the rule says otherwise.
"""

from blind.build import call, case, con, fn, go, let, target, ty, var

# The examples of the specification: P, and the rule file with a type that has no closed value.
P = bytes.fromhex("545902000100464E01000017000300000001020000010300000101020000010507020000474F0007041400")
HOLLOW = bytes.fromhex("5459010100464E01000002000000474F0007041400")

NAT, BOOL, UNIT = ty((), (0,)), ty((), ()), ty(())


def changed(label=7, depth=4, steps=20):
    """P with another label, D or S: a whole rule file."""
    return P[:-7] + go(0, label, depth, steps)


def shortened(end, depth=4, steps=20):
    """P with one of the two alternatives of its inner case left out: that for zero, or the `end`, with the target."""
    inner = case(0, var(1), con(0, 0), None) if end else case(0, var(1), None, target(7, con(0, 0)))
    return NAT + fn((0,), 0, case(0, var(0), con(0, 0), inner)) + go(0, 7, depth, steps)


def equal_numbers():
    """Two equal numbers: forks in turn over both."""
    no, yes = con(1, 0), con(1, 1)
    equal = case(0, var(0), case(0, var(1), yes, no), case(0, var(1), no, call(1, var(2), var(3))))
    return NAT + BOOL + fn((0, 0), 1, case(1, call(1, var(0), var(1)), no, target(7, yes))) + fn((0, 0), 1, equal)


def true_leaf():
    """A tree with a true leaf; the left branch is looked at first."""
    no, yes = con(0, 0), con(0, 1)
    find = case(1, var(0), var(1), case(0, call(1, var(1)), call(1, var(2)), yes))
    return BOOL + ty((0,), (1, 1)) + fn((1,), 0, case(0, call(1, var(0)), no, target(7, yes))) + fn((1,), 0, find)


def member():
    """A truth value that is in a list; its second parameter is looked at first."""
    no, yes = con(0, 0), con(0, 1)
    same = case(0, var(2), case(0, var(0), yes, call(1, var(0), var(3))), case(0, var(0), call(1, var(0), var(3)), yes))
    return (BOOL + ty((), (0, 1)) + fn((0, 1), 0, case(0, call(1, var(0), var(1)), target(8, no), target(7, yes)))
            + fn((0, 1), 0, case(1, var(1), no, same)))


def increasing():
    """A list of numbers that does not increase."""
    less = case(0, var(1), con(1, 0), case(0, var(0), con(1, 1), call(2, var(3), var(2))))
    pair = case(2, var(1), con(1, 1), case(1, call(2, var(0), var(2)), con(1, 0), call(1, var(2), var(3))))
    return (NAT + BOOL + ty((), (0, 2))
            + fn((2,), 1, case(2, var(0), con(1, 1), case(1, call(1, var(1), var(2)), target(7, con(1, 0)), con(1, 1))))
            + fn((0, 2), 1, pair) + fn((0, 0), 1, less))


def chain(width=6, end=target(7, var(0))):
    """A chain of links with `width` fields each, the last of them the rest: long entries. Without an end its alternative is
    missing."""
    return UNIT + ty((), (0,) * (width - 1) + (1,)) + fn((1,), 1, case(1, var(0), end, call(0, var(width))))


def chains(width=6):
    """A chain behind each of sixteen constructors."""
    return (UNIT + ty((), (0,) * (width - 1) + (1,)) + ty(*[()] * 16)
            + fn((2, 1), 1, case(2, var(0), *[call(1, var(1))] * 16))
            + fn((1,), 1, case(1, var(0), target(7, var(0)), call(1, var(width)))))


def count_down():
    """A number that is counted down twice for each of its units: many steps."""
    return (NAT + fn((0,), 0, case(0, call(1, var(0)), target(7, con(0, 0)), None))
            + fn((0,), 0, case(0, var(0), con(0, 0), case(0, call(2, var(1)), con(0, 0), call(1, var(1)))))
            + fn((0,), 0, case(0, var(0), con(0, 1, var(0)), call(2, var(1)))))


def sixteens():
    """Three of sixteen constructors each: 4,096 entries of 9 bytes."""
    return (ty(*[()] * 16) + fn((0, 0, 0), 0, case(0, var(0), *[call(1, var(1), var(2))] * 16))
            + fn((0, 0), 0, case(0, var(0), *[call(2, var(1))] * 16))
            + fn((0,), 0, case(0, var(0), *[target(7, var(0))] * 16)))


def exact_list(last, one_more=False):
    """16 * 16 * `last` entries of 16 bytes, through five parameters of which the first has six bytes; the last of them is a
    missing alternative and, where wanted, has a byte more."""
    plain, third, deeper = target(7, con(4, 0)), call(4, var(1), var(2)), call(5, var(1), var(2))
    final = case(4, var(1), con(4, 0), None) if one_more else None
    return (ty(*[()] * 16) + ty(*[()] * last) + UNIT + ty((2,) * 5) + ty((), (4,))
            + fn((3, 0, 0, 1, 4), 4, case(3, var(0), call(1, var(1), var(2), var(3), var(4))))
            + fn((0, 0, 1, 4), 4, case(0, var(0), *[call(2, var(1), var(2), var(3))] * 15, call(3, var(1), var(2), var(3))))
            + fn((0, 1, 4), 4, case(0, var(0), *[third] * 16))
            + fn((0, 1, 4), 4, case(0, var(0), *[third] * 15, deeper))
            + fn((1, 4), 4, case(1, var(0), *[plain] * last))
            + fn((1, 4), 4, case(1, var(0), *[plain] * (last - 1), final)))


def eight_parameters():
    """Eight truth values, the last looked at first; each true one leads to the next."""
    body = target(7, var(0))
    for number in range(8):
        body = case(0, var(number), target(7, var(0)), body)
    return BOOL + fn((0,) * 8, 0, body)


def least_depth_three():
    """Types of least depth 3, 2 and 1: near the depth's end a fork leaves constructors out."""
    inner = case(1, var(1), case(2, var(2), target(7, var(2))), case(0, var(2), case(0, var(3), target(7, con(2, 0)))))
    return ty((1,)) + ty((2,), (0, 0)) + ty(()) + fn((0,), 2, case(0, var(0), inner))


def both_trees():
    """Two trees of two branches, looked at in turn; alternatives are missing."""
    return (ty((), (0, 0))
            + fn((0, 0), 0, case(0, var(0), case(0, var(1), None, target(7, var(0))),
                                 case(0, var(2), call(0, var(1), var(3)), case(0, var(1), target(8, var(0)), None)))))


def missing_first():
    """Missing alternatives at both levels."""
    return NAT + fn((0,), 0, case(0, var(0), None, case(0, var(1), target(7, var(0)), None)))


def missing_later():
    """Missing alternatives for constructors that are known when the case comes to them."""
    again = case(0, var(0), None, target(7, var(0)))
    return NAT + fn((0,), 0, case(0, var(0), again, case(0, con(0, 1, var(1)), target(7, var(0)), None)))


# What an alternative may lead to: the target, and calls up to the step limit. None is no alternative.
REACH, AGAIN = target(7, var(0)), call(0, var(0))


def in_turn(*alternatives):
    """One constructor for each of these alternatives, so that the list has their ends in this order."""
    return ty(*[()] * len(alternatives)) + fn((0,), 0, case(0, var(0), *alternatives))


def missing_or_too_deep():
    """Constructors without an alternative that a fork leaves out where their fields do not fit the depth: one field has least
    depth 1, the other 2."""
    return (ty((), (1,), (2,)) + ty((1,), ()) + ty((1,))
            + fn((0,), 1, case(0, var(0), target(7, con(1, 1)), None, None)))


def missing_in_scrutinee():
    """Alternatives missing in a scrutinee, and in the case that waits for it."""
    inner = case(0, var(0), None, case(0, var(1), con(0, 0), con(0, 1, var(2))))
    return NAT + fn((0,), 0, case(0, inner, target(7, var(0)), None))


def missing_built():
    """Alternatives missing for constructors that the rule builds itself: they are known when the case comes to them."""
    waits = case(0, call(1, var(0)), None, case(0, var(1), target(7, var(0)), None))
    return NAT + fn((0,), 0, waits) + fn((0,), 0, case(0, var(0), con(0, 0), con(0, 1, con(0, 1, var(1)))))


def missing_below_let():
    """Alternatives missing in what a let binds, once where it is looked at and once where it is not."""
    looked = case(0, var(1), target(7, var(0)), None)
    return NAT + fn((0,), 0, let(0, case(0, var(0), None, var(1)), let(0, case(0, con(0, 0), None, None), looked)))


def missing_in_call():
    """Two numbers counted down at the same time: an alternative is missing where the second, looked at first, is not longer."""
    down = case(0, var(0), None, case(0, var(1), con(0, 0), call(1, var(2), var(3))))
    return NAT + fn((0, 0), 0, case(0, call(1, var(1), var(0)), target(7, var(0)), None)) + fn((0, 0), 0, down)


def missing_below_targets():
    """An alternative that is missing below targets of labels 8 and 9, beside the target of label 7."""
    return BOOL + fn((0,), 0, target(8, case(0, target(9, var(0)), None, target(7, var(0)))))


def looked_at_twice():
    """A let's variable that is looked at twice: the part is bound once, the steps are paid twice."""
    twice = case(0, var(1), case(0, var(1), target(7, var(0)), None), case(0, var(0), con(0, 0), target(7, var(2))))
    return NAT + fn((0,), 0, let(0, call(1, var(0)), twice)) + fn((0,), 0, var(0))


def never_looked_at():
    """Two of three parameters that nothing looks at."""
    return BOOL + fn((0, 0, 0), 0, case(0, call(1, var(0), var(1)), var(2), target(7, var(2)))) + fn((0, 0), 0, var(1))


def labels():
    """Targets of several labels inside each other, and inside a scrutinee."""
    return BOOL + fn((0, 0), 0, target(0, case(0, target(255, var(0)), target(7, target(1, var(1))),
                                               target(1, case(0, var(1), target(255, var(0)), target(7, var(1)))))))


def boxes():
    """Thirty-two types, each a box of the next, the last a truth value; a function for each."""
    types = b"".join(ty((number + 1,)) for number in range(31)) + ty((), ())
    opens = b"".join(fn((number,), 31, case(number, var(0), call(number + 1, var(1)))) for number in range(31))
    return types + opens + fn((31,), 31, case(31, var(0), var(0), target(7, var(0))))


def rotating():
    """Eight parameters that a call hands on in another order, again and again."""
    return BOOL + fn((0,) * 8, 0, case(0, var(0), call(0, *(var(number) for number in (1, 2, 3, 4, 5, 6, 7, 0))),
                                       call(0, *(var(number) for number in (7, 0, 1, 2, 3, 4, 5, 6)))))


def thirty_two_in_view():
    """Twenty-four lets beside eight parameters, then a call of the same function."""
    body = call(0, *(var(number) for number in range(24, 32)))
    for number in reversed(range(24)):
        body = let(0, var(number), body)
    return BOOL + fn((0,) * 8, 0, case(0, var(7), body, target(7, var(0))))


def waiting_cases():
    """A call inside a scrutinee inside a scrutinee: the waiting cases grow with the steps."""
    return NAT + fn((0,), 0, case(0, call(0, con(0, 1, var(0))), target(7, var(0)), None))


def six_fields():
    """A type with six fields of its own type, each looked at; the third must have fields itself."""
    body = target(7, var(0))
    for number in range(6, 0, -1):
        body = case(0, var(number), None if number == 3 else body, body if number < 4 else None)
    return ty((), (0,) * 6) + fn((0,), 0, case(0, var(0), None, body))


def constructions():
    """Cases on constructions that hold open parts."""
    pair = case(1, call(1, var(1), var(0)), case(0, var(2), case(0, var(3), con(0, 0), target(7, var(2))), call(2, var(3))))
    above_one = case(0, var(0), None, case(0, var(1), None, case(0, var(2), target(7, var(2)), call(2, var(1)))))
    return (NAT + ty((0, 0)) + fn((0, 0), 0, pair) + fn((0, 0), 1, con(1, 0, var(0), con(0, 1, var(1))))
            + fn((0,), 0, above_one))


def without_parameters(body=None):
    """No parameters: one path only."""
    return BOOL + fn((), 0, body or case(0, case(0, con(0, 1), None, con(0, 0)), target(7, con(0, 0)), None))
