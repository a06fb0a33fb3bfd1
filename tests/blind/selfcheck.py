"""Checks the blind side: by hand-worked examples, those of the papers and some that they do not show; and on random rules,
whose lists are those of narrowing and break no demand, while those that narrowing makes with an error do, and whose entries behave
as they say where their names are filled. The exit status is 1 where anything is otherwise."""

import os
import random
import sys
from collections import Counter
from dataclasses import replace
from fractions import Fraction
from itertools import product

sys.path.insert(0, os.path.dirname(os.path.dirname(os.path.abspath(__file__))))

import field_rules
from blind.build import BuildingBody, call, case, con, fn, go, let, na, random_named_rule, random_rule, target, ty, var
from blind.compare import Different, same
from blind.demands import broken, filled
from blind.enumerate import Entry, Listing, TooMany, all_entries, count_inputs, fill, inputs, reachlist, search, share, tally, verdict
from blind.evaluate import MISSING, REACHED, UNFINISHED, Answer, ClosedInput, Value, run
from blind.forks import forked_entries
from blind.handed import text_length, write_text
from blind.misdepth import figure
from blind.names import Names, namelist, prefix, printed
from blind.narrow import ERRORS, Narrowing
from blind.rulefile import Program, Refused, check, least_depths, read

P = bytes.fromhex("54 59 02 00 01 00 46 4E 01 00 00 17 00 03 00 00 00 01 02 00 00 01 "
                  "03 00 00 01 01 02 00 00 01 05 07 02 00 00 47 4F 00 07 04 14 00")
HOLLOW = bytes.fromhex("54 59 01 01 00 46 4E 01 00 00 02 00 00 00 47 4F 00 07 04 14 00")
WORK = 64 * 4096 + 1024


def changed(label=7, depth=4, steps=20):
    """P with another label, D or S."""
    return P[:-7] + go(0, label, depth, steps)


def prints(rule_file, *lines):
    same(f"what reachlist prints for {rule_file.hex()}", reachlist(rule_file), "".join(line + "\n" for line in lines))


def runs(rule_file, data, words, *answer):
    """The closed run ends so after so many steps, with this depth, or is refused by this number."""
    given = run(rule_file, bytes(data), words)
    same(f"the run of {rule_file.hex()} on {bytes(data).hex()} in {words} words",
         (given.end, given.steps, given.depth) if isinstance(given, Answer) else (given,), answer)


def ends(rule_file, data, end, steps, depth):
    runs(rule_file, data, WORK, end, steps, depth)


def searches(rule_file, words, room, *answer):
    """The search gives a list of these bytes with a verdict, or with refusal 12 alone, or is refused by this number."""
    given = search(rule_file, words, room)
    same(f"the search of {rule_file.hex()} in {words} words and {room} bytes",
         (given.record(), given.refusal or given.verdict) if isinstance(given, Listing) else (given,), answer)


def scope_examples():
    """The examples of the scope paper."""
    same("whether P is accepted", isinstance(check(P), Program), True)
    same("P with its own label, D and S", changed(), P)
    for found in P, changed(depth=3), changed(steps=6):
        prints(found, "reach 6 1 1 _", "total 1 0 0 0 found")
    for none in changed(depth=2), changed(depth=1):
        prints(none, "total 0 0 0 0 none")
    prints(changed(steps=5), "unfinished 5 1 _", "total 0 1 0 100 undecided")
    prints(changed(steps=2), "unfinished 2 _", "total 0 1 0 100 undecided")
    prints(changed(steps=0), "unfinished 0 _", "total 0 1 0 100 undecided")
    prints(changed(label=8, steps=6), "unfinished 6 1 1 _", "total 0 1 0 100 undecided")
    prints(changed(label=8, steps=7), "total 0 0 0 0 none")
    ends(P, [0], "ended", 3, 1)
    ends(P, [1, 1, 0], "reached", 6, 3)
    prints(b"", "refused 1")
    prints(P[6:], "refused 2")
    prints(HOLLOW, "refused 8")
    # The bench of reachlist: S above 240 is 11.
    prints(changed(steps=240), "reach 6 1 1 _", "total 1 0 0 0 found")
    prints(changed(steps=241), "refused 11")


NAT = ty((), (0,))
BOOL = ty((), ())


def refusals_of_runs():
    """Refusals 10 to 12 and their order."""
    least = 64 * 20 + 1024
    runs(P, b"\0", least, "ended", 3, 1)
    runs(P, b"\0", least - 1, 11)
    for bad in b"", b"\2", b"\1", b"\0\0", b"\1\1\1\1\0", b"\xff":
        runs(P, bad, 0, 10)
    runs(P, b"\1\1\1\0", least, "reached", 6, 4)  # depth 4 fits
    runs(b"", b"", 0, 1)
    searches(P, least - 1, 0, 11)
    # P's one entry has nine bytes.
    searches(P, least, 9, b"RE\6\0\3\0\1\1\xff", "found")
    searches(P, least, 8, b"", 12)
    # With no entry due, a list slice without room is no hindrance.
    searches(changed(depth=2), least, 0, b"", "none")


def further_examples():
    """Worked by hand; they show what P does not."""
    # Without parameters the line stops after the steps.
    prints(NAT + fn((), 0, target(7, con(0, 0))) + go(), "reach 0", "total 1 0 0 0 found")
    # f x = f x: twenty calls are unfolded and no variable is ever followed.
    prints(NAT + fn((0,), 0, call(0, var(0))) + go(), "unfinished 20 _", "total 0 1 0 100 undecided")
    # An open part with no case waiting ends, also when S steps are done.
    prints(NAT + fn((0,), 0, var(0)) + go(steps=1), "total 0 0 0 0 none")
    prints(NAT + fn((0,), 0, var(0)) + go(steps=0), "unfinished 0 _", "total 0 1 0 100 undecided")
    # A target inside a scrutinee: turning to the scrutinee is one step.
    prints(NAT + fn((), 0, case(0, target(7, con(0, 0)), None, None)) + go(), "reach 1", "total 1 0 0 0 found")
    # By name: let y = g x in case y of zero -> case y of zero -> target; each use of y costs its steps anew.
    # let 1, case 2, y 3, call 4, g's x 5, f's x 6, fork; zero: choose 7; case 8, y 9, call 10, x 11, x 12, choose 13.
    # Suc: find that there is none 7.
    twice = case(0, var(1), case(0, var(1), target(7, var(0)), None), None)
    by_name = NAT + fn((0,), 0, let(0, call(1, var(0)), twice)) + fn((0,), 0, var(0)) + go()
    prints(by_name, "reach 13 0", "missing 7 1 _", "total 1 0 1 0 found")
    # Order: by the first place looked at, which is the second parameter, then the first.
    both = case(0, var(1), case(0, var(0), target(7, var(0)), target(7, var(0))),
                case(0, var(0), target(7, var(0)), target(8, var(0))))
    prints(BOOL + fn((0, 0), 0, both) + go(), "reach 6 0 0", "reach 6 1 0", "reach 6 0 1", "total 3 0 0 0 found")
    # One entry of three is unfinished.
    third = case(0, var(0), target(7, var(0)), case(0, var(1), call(0, con(0, 1), con(0, 0)), target(7, var(0))))
    prints(BOOL + fn((0, 0), 0, third) + go(),
           "reach 3 0 _", "unfinished 20 1 0", "reach 6 1 1", "total 2 1 0 33 found")
    # A type with one constructor is forked over all the same; the field's place lies below it.
    box = ty((1,)) + BOOL + fn((0,), 0, case(0, var(0), case(1, var(1), None, target(7, var(0))))) + go(depth=2)
    prints(box, "missing 6 0 0", "reach 6 0 1", "total 1 0 1 0 found")


def shares():
    """Worked by hand: the share of the unfinished, by their number and that of both; and it is what exact fractions are rounded to."""
    for unfinished, both, percent in ((1, 8, 12), (3, 8, 38), (5, 8, 62), (7, 8, 88), (1, 200, 0), (3, 200, 2), (5, 200, 2), (199, 200, 100),
                                      (1, 3, 33), (2, 3, 67), (0, 5, 0), (5, 5, 100), (0, 0, 0), (99, 200, 50), (101, 200, 50), (1, 201, 0),
                                      (1, 199, 1), (5, 7, 71), (2, 7, 29)):
        same(f"the share of {unfinished} of {both}", share(both - unfinished, unfinished), percent)
    same("shares that fractions do not have", [(unfinished, both) for both in range(1, 121) for unfinished in range(both + 1)
                                               if share(both - unfinished, unfinished) != round(Fraction(100 * unfinished, both))], [])


def limits():
    """Worked by hand: a full list, least depths, and how many closed inputs there are."""
    # A full list: three parameters of sixteen constructors make 4,096 entries of 9 bytes, of which 3,640 fit 32,768.
    # case 1, a 2, choose 3, call 4, case 5, b through two variables 7, choose 8, call 9, case 10, c through three
    # variables 13, choose 14.
    sixteen = ty(*[()] * 16)
    full = (sixteen + fn((0, 0, 0), 0, case(0, var(0), *[call(1, var(1), var(2))] * 16))
            + fn((0, 0), 0, case(0, var(0), *[call(2, var(1))] * 16))
            + fn((0,), 0, case(0, var(0), *[target(7, var(0))] * 16)) + go())
    triples = [f"reach 14 {n // 256} {n // 16 % 16} {n % 16}" for n in range(3640)]
    prints(full, *triples, "refused 12")
    # Least depths: a chain of types, a hollow pair, a type saved by its second constructor.
    same("least depths", least_depths(read(ty((1,)) + ty((2,), (0, 0)) + ty(()) + fn((), 2, con(2, 0)) + go()).types), (3, 2, 1))
    same("the check of two hollow types", check(ty((1,)) + ty((0,)) + ty(()) + fn((), 2, con(2, 0)) + go()), 8)
    # Counting closed inputs: trees with two branches, to depth 4: 1, 2, 5, 26.
    trees = ty((), (0, 0)) + fn((0, 0), 0, var(0))
    same("pairs of trees", [count_inputs(read(trees + go(depth=depth))) for depth in (1, 2, 3, 4)], [1, 4, 25, 676])
    try:
        search(trees + go(depth=64), WORK, 0)
    except TooMany:
        return
    raise Different("pairs of trees to depth 64 are not too many to be run")


def lists(rule_file, verdict, *entries, room=1000):
    """The search lists exactly these bytes; the verdict is None where the next entry does not fit the room."""
    searches(rule_file, WORK, room, b"".join(entries), 12 if verdict is None else verdict)


def re(steps, *parameters):
    """The bytes of an entry of fewer than 256 steps; the same for `un` and `mi`."""
    return b"RE" + bytes([steps, 0, len(parameters), 0, *parameters])


def un(steps, *parameters):
    return b"UN" + bytes([steps, 0, len(parameters), 0, *parameters])


def mi(steps, *parameters):
    return b"MI" + bytes([steps, 0, len(parameters), 0, *parameters])


def worked_lists():
    """Lists in bytes, worked by hand; the number behind each step counts the steps done with it."""
    zero, open_ = con(0, 0), 255

    # f x y = case x of zero -> target; suc u -> case y of zero -> f u y; suc v -> zero.
    # case 1, x 2; here the path forks over the first parameter. Zero: choose 3, target.
    # Suc: choose 3, case 4, y 5; it forks over the second. Suc: choose 6, and zero with no case waiting ends.
    # Zero: choose 6, call 7, case 8, x 9 stands for u, u 10; it forks over u. Zero: choose 11, target.
    # Suc: choose 11, case 12, y 13 stands for the outer y, y 14, known to be zero: choose 15, call 16, case 17, x 18 stands for
    # the inner u, u 19; it forks. Zero: choose 20, target.
    pair = NAT + fn((0, 0), 0, case(0, var(0), target(7, zero), case(0, var(1), call(0, var(2), var(1)), zero)))
    one, two_, three = re(3, 0, open_), re(11, 1, 0, 0), re(20, 1, 1, 0, 0)
    # With D 1 only zero fits, with D 2 suc zero too, with D 3 suc suc zero.
    lists(pair + go(depth=1), "found", one)
    lists(pair + go(depth=2), "found", one, two_)
    lists(pair + go(depth=3), "found", one, two_, three)
    # S 2: x is waited on when 2 steps are done, so there is no fork. S 3: both branches are there.
    lists(pair + go(depth=3, steps=2), "undecided", un(2, open_, open_))
    lists(pair + go(depth=3, steps=3), "found", one, un(3, 1, open_, open_))
    # S 5: y is waited on when 5 are done. S 6: it is bound; its suc ends at 6, also as S is used up, its zero does not.
    lists(pair + go(depth=3, steps=5), "found", one, un(5, 1, open_, open_))
    lists(pair + go(depth=3, steps=6), "found", one, un(6, 1, open_, 0))
    # S 10 and 11: the same for u. S 19 and 20: the same for the inner u, whose suc does not fit D 3.
    lists(pair + go(depth=3, steps=10), "found", one, un(10, 1, open_, 0))
    lists(pair + go(depth=3, steps=11), "found", one, two_, un(11, 1, 1, open_, 0))
    lists(pair + go(depth=3, steps=19), "found", one, two_, un(19, 1, 1, open_, 0))
    # The three entries have 8, 9 and 10 bytes.
    for room, verdict_, entries in ((27, "found", (one, two_, three)), (26, None, (one, two_)), (17, None, (one, two_)),
                                   (16, None, (one,)), (8, None, (one,)), (7, None, ()), (0, None, ())):
        lists(pair + go(depth=3), verdict_, *entries, room=room)


def worked_depths():
    """Lists of what fits the depth, and of a let, worked by hand in the same way."""
    zero, open_ = con(0, 0), 255

    # A box of a number: case 1, b 2, choose 3, case 4, n 5, choose 6, target in the alternative for suc.
    # With D 2 the number may have depth 1, so suc, whose field would have depth 0, is left out. With D 3 it is not.
    box = NAT + ty((0,)) + fn((1,), 0, case(1, var(0), case(0, var(1), zero, target(7, zero))))
    lists(box + go(depth=2), "none")
    lists(box + go(depth=3), "found", re(6, 0, 1, open_))

    # A constructor whose field has least depth 2 is left out at D 2, though nothing looks at that field.
    deep = ty((), (1,)) + ty((2,)) + ty(()) + fn((0,), 0, case(0, var(0), zero, target(7, zero)))
    lists(deep + go(depth=2), "none")
    lists(deep + go(depth=3), "found", re(3, 1, open_))
    # So is one without an alternative.
    lacking = ty((), (1,)) + ty((2,)) + ty(()) + fn((0,), 0, case(0, var(0), zero, None))
    lists(lacking + go(depth=2), "none")
    lists(lacking + go(depth=3), "none", mi(3, 1, open_))

    # A let whose bound expression loops and that nothing looks at: let 1, x 2, with no case waiting.
    lazy = NAT + fn((0,), 0, let(0, call(1), var(0))) + fn((), 0, call(1))
    lists(lazy + go(depth=64, steps=2), "none")
    # Where it is looked at: let 1, case 2, the variable 3, then calls until S.
    eager = NAT + fn((0,), 0, let(0, call(1), case(0, var(1), var(0), var(0)))) + fn((), 0, call(1))
    lists(eager + go(depth=64, steps=9), "undecided", un(9, open_))


def missing_alternatives():
    """Worked by hand: each alternative that is missing is found by a step of its own, inside the limit or not at all."""
    zero, open_ = con(0, 0), 255

    # f x = case x of suc u -> target: case 1, x 2, fork; zero: find that there is none 3. Suc: choose 3.
    first = NAT + fn((0,), 0, case(0, var(0), None, target(7, var(0))))
    prints(first + go(depth=2, steps=3), "missing 3 0", "reach 3 1 _", "total 1 0 1 0 found")
    prints(first + go(depth=2, steps=2), "unfinished 2 _", "total 0 1 0 100 undecided")
    ends(first + go(depth=2, steps=3), [0], "missing", 3, 1)
    ends(first + go(depth=2, steps=2), [0], "unfinished", 2, 1)

    # P without its target's alternative, then without that for zero beside it; both are waited for when 5 steps are done.
    no_end = NAT + fn((0,), 0, case(0, var(0), zero, case(0, var(1), zero, None)))
    prints(no_end + go(depth=4, steps=6), "missing 6 1 1 _", "total 0 0 1 0 none")
    prints(no_end + go(depth=4, steps=5), "unfinished 5 1 _", "total 0 1 0 100 undecided")
    ends(no_end + go(depth=4, steps=6), [1, 1, 0], "missing", 6, 3)
    ends(no_end + go(depth=4, steps=6), [1, 0], "ended", 6, 2)
    prints(no_end + go(depth=2, steps=6), "total 0 0 0 0 none")  # suc (suc _) does not fit
    no_zero = NAT + fn((0,), 0, case(0, var(0), zero, case(0, var(1), None, target(7, zero))))
    prints(no_zero + go(depth=4), "missing 6 1 0", "reach 6 1 1 _", "total 1 0 1 0 found")

    # f x = case x of zero -> case x of suc v -> zero; suc u -> target. The inner case has no alternative for zero.
    # case 1, x 2, fork; zero: choose 3, case 4, x 5, find that there is none 6. Suc: choose 3, target.
    later = NAT + fn((0,), 0, case(0, var(0), case(0, var(0), None, zero), target(7, zero)))
    lists(later + go(depth=2, steps=5), "found", un(5, 0), re(3, 1, open_))
    lists(later + go(depth=2, steps=6), "found", mi(6, 0), re(3, 1, open_))
    # With D 1 suc is left out, and what is left is undecided with S 5, none with S 6.
    lists(later + go(depth=1, steps=5), "undecided", un(5, 0))
    lists(later + go(depth=1, steps=6), "none", mi(6, 0))
    # The entries have 7 and 8 bytes.
    for room, verdict_, entries in ((15, "found", (mi(6, 0), re(3, 1, open_))), (14, None, (mi(6, 0),)), (7, None, (mi(6, 0),)), (6, None, ())):
        lists(later + go(depth=2, steps=6), verdict_, *entries, room=room)


def missing_beside_others():
    """Worked by hand: missing alternatives in all orders with other ends, and at places that are not the body's own case."""
    zero, open_, again, reach = con(0, 0), 255, call(0, var(0)), target(7, var(0))

    # Six constructors: case 1, x 2, fork, then 3; one leads to f x again, up to S. The share is one of three.
    six = ty(*[()] * 6) + fn((0,), 0, case(0, var(0), None, reach, again, None, reach, None)) + go()
    prints(six, "missing 3 0", "reach 3 1", "unfinished 20 2", "missing 3 3", "reach 3 4", "missing 3 5", "total 2 1 3 33 found")
    # A fork that has no alternative at all goes over every constructor.
    prints(BOOL + fn((0,), 0, case(0, var(0), None, None)) + go(), "missing 3 0", "missing 3 1", "total 0 0 2 0 none")
    # Without parameters: case 1, find that there is none 2.
    alone = BOOL + fn((), 0, case(0, zero, None, target(7, zero)))
    lists(alone + go(steps=2), "none", mi(2))
    lists(alone + go(steps=1), "undecided", un(1))

    # In a scrutinee, and of the case that waits for it: case (case x of suc u -> case u of zero -> zero; suc v -> suc v) of
    # zero -> target. case 1, case 2, x 3, fork; zero: none 4. Suc: choose 4, case 5, u 6, fork; zero: choose 7, and choose 8,
    # target. Suc: choose 7, and for suc v there is none 8.
    scrutinee = case(0, var(0), None, case(0, var(1), zero, con(0, 1, var(2))))
    lists(NAT + fn((0,), 0, case(0, scrutinee, reach, None)) + go(depth=3), "found", mi(4, 0), re(8, 1, 0), mi(8, 1, 1, open_))
    # Below lets, of which nothing looks at the second: let 1, let 2, case 3, y 4, case 5, x 6, fork; zero: none 7. Suc: choose 7,
    # u 8, fork; zero: choose 9, target. Suc: none 9.
    body = let(0, case(0, zero, None, None), case(0, var(1), reach, None))
    lists(NAT + fn((0,), 0, let(0, case(0, var(0), None, var(1)), body)) + go(depth=3), "found", mi(7, 0), re(9, 1, 0), mi(9, 1, 1, open_))
    # In a called function: f x y = case g y of zero -> target; g z = case z of suc u -> zero. case 1, call 2, case 3, z 4, y 5,
    # fork; zero: none 6. Suc: choose 6, and choose 7, target.
    called = fn((0, 0), 0, case(0, call(1, var(1)), reach, None)) + fn((0,), 0, case(0, var(0), None, zero))
    lists(NAT + called + go(depth=3), "found", mi(6, open_, 0), re(7, open_, 1, open_))


def worked_results():
    """Worked by hand: lists of rules whose results have fields."""
    open_ = 255

    # (case x of no -> no; yes -> target, case y of no -> target; yes -> no): turn 1, case 2, x 3, fork. Yes: choose 4, target. No: choose 4;
    # turn 5, case 6, y 7, fork. No: choose 8, target. Yes: choose 8, and no field waits.
    looking = field_rules.looking_pair()
    lists(looking + go(steps=8), "found", re(8, 0, 0), re(4, 1, open_))
    # With S 4 the second field waits when 4 steps are done, with S 5 its case, with S 7 its parameter.
    for steps in range(4, 8):
        lists(looking + go(steps=steps), "found", un(steps, 0, open_), re(4, 1, open_))
    for steps in range(4):
        lists(looking + go(steps=steps), "undecided", un(steps, open_, open_))
    # Turn 1; turn 2, x 3; turn 4, case 5, x 6, fork. Yes: there is none 7. No: choose 7; turn 8, target 9; turn 10, case 11, y 12, fork. Yes:
    # choose 13, target. No: choose 13; turn 14, target.
    six, gap = field_rules.six_fields(), mi(7, 1, open_)
    lists(six + go(), "found", re(14, 0, 0), re(13, 0, 1), gap)
    lists(six + go(steps=13), "found", un(13, 0, 0), re(13, 0, 1), gap)
    lists(six + go(steps=12), "undecided", un(12, 0, open_), gap)
    lists(six + go(steps=7), "undecided", un(7, 0, open_), gap)
    lists(six + go(steps=6), "undecided", un(6, open_, open_))
    # Of three fields one has an alternative missing, and the target stands behind it.
    lists(field_rules.missing_at(0) + go(), "found", re(6, 0), mi(4, 1))
    lists(field_rules.missing_at(1) + go(), "found", re(6, 0), mi(5, 1))
    lists(field_rules.missing_at(2) + go(), "none", mi(6, 1))
    lists(field_rules.missing_at(2) + go(steps=5), "undecided", un(5, open_))


def worked_inner_results():
    """The same: parts of the input in results, results without end, and fields of fields."""
    open_ = 255

    # A pair of the input is a field. It stays open: turn 1, x 2, turn 3, target. Or it is bound before: case 1, x 2, fork over its one
    # constructor, choose 3; turn 4, x 5; turn 6, case 7, its second field 8, fork. No: choose 9. Yes: choose 9, target.
    lists(field_rules.kept() + go(), "found", re(3, open_))
    lists(field_rules.kept() + go(steps=2), "undecided", un(2, open_))
    lists(field_rules.kept(True) + go(), "found", re(9, 0, open_, 1))
    lists(field_rules.kept(True) + go(steps=8), "undecided", un(8, 0, open_, open_))
    lists(field_rules.kept(True) + go(steps=3), "undecided", un(3, 0, open_, open_))
    # A pair in a scrutinee whose field with the target nothing looks at; a number without end; 32 nested constructors.
    lists(field_rules.left_alone() + go(), "none")
    lists(field_rules.for_ever() + go(steps=99), "undecided", un(99))
    lists(field_rules.nested() + go(steps=31), "none")
    lists(field_rules.nested() + go(steps=30), "undecided", un(30, open_))
    # A tree is copied: case 1, x 2, fork; leaf: choose 3. Node: choose 3, case 4, its first branch 5, fork; leaf: choose 6, case 7, its second
    # branch 8, fork; leaf: choose 9, target; node: there is none 9. Where the first is a node: choose 6; turn 7, call 8, case 9, parameter 10,
    # the branch 11, which is bound: choose 12; then case 13, its first branch 14, fork, choose 15, case 16, its second 17, fork, choose 18.
    tree = field_rules.copied()
    lists(tree + go(depth=1), "none")
    lists(tree + go(depth=2), "found", re(9, 1, 0, 0))
    lists(tree + go(depth=3), "found", re(9, 1, 0, 0), mi(9, 1, 0, 1, open_, open_), re(18, 1, 1, 0, 0, open_))
    lists(tree + go(depth=3, steps=7), "undecided", un(7, 1, 0, open_), un(7, 1, 1, open_, open_, open_))


def depths_of_inputs():
    """Worked by hand: how deep an input goes, which is refused by 10 where that is more than D."""
    # Three numbers, of which the rule follows the second: one step.
    numbers = NAT + fn((0, 0, 0), 0, var(1))
    for data, depth in (((0, 0, 0), 1), ((1, 0, 0, 0), 2), ((0, 1, 0, 0), 2), ((0, 0, 1, 0), 2), ((1, 1, 0, 1, 0, 0), 3), ((1, 0, 1, 0, 1, 0), 2),
                        ((0, 1, 0, 1, 1, 1, 0), 4), ((1, 1, 1, 1, 0, 0, 1, 1, 0), 5)):
        for limit in {depth, depth + 1, 63, 64}:
            ends(numbers + go(depth=limit), data, "ended", 1, depth)
            runs(numbers + go(depth=limit), (*data, 0), WORK, 10)
            runs(numbers + go(depth=limit), data[:-1], WORK, 10)
            runs(numbers + go(depth=limit, steps=4096), data, WORK - 1, 11)
        for limit in range(1, depth):
            runs(numbers + go(depth=limit), data, 0, 10)
    # Trees of three branches: two levels in each branch, then in all of them.
    trees = ty((), (0, 0, 0)) + fn((0,), 0, case(0, var(0), target(7, var(0)), None))
    ends(trees + go(), [0], "reached", 3, 1)
    for data, depth in (((1, 0, 0, 0), 2), ((1, 1, 0, 0, 0, 0, 0), 3), ((1, 0, 1, 0, 0, 0, 0), 3), ((1, 0, 0, 1, 0, 0, 0), 3),
                        ((1, 1, 0, 0, 0, 1, 0, 0, 0, 1, 0, 0, 0), 3), ((1, 1, 0, 0, 0, 1, 0, 1, 0, 0, 0, 0, 0), 4)):
        ends(trees + go(depth=depth), data, "missing", 3, depth)
        ends(trees + go(depth=64, steps=2), data, "unfinished", 2, depth)
        runs(trees + go(depth=depth - 1), data, WORK, 10)
    # Without parameters nothing is 0 deep, also with D 1. Truth values are 1 deep, all eight of them.
    ends(BOOL + fn((), 0, con(0, 0)) + go(depth=1), [], "ended", 0, 0)
    runs(BOOL + fn((), 0, con(0, 0)) + go(depth=64), [0], WORK, 10)
    ends(BOOL + fn((0,) * 8, 0, var(7)) + go(depth=1), [0, 1] * 4, "ended", 1, 1)
    # The largest depth that there is, and one more.
    one = NAT + fn((0,), 0, var(0))
    ends(one + go(depth=64), [1] * 63 + [0], "ended", 1, 64)
    ends(one + go(depth=64), [1] * 62 + [0], "ended", 1, 63)
    for limit, above in ((64, 64), (63, 64), (63, 63), (64, 999999)):
        runs(one + go(depth=limit), [1] * above + [0], WORK, 10)


def walked(program, data):
    """How deep an input goes, or `refused`, by going through its bytes with no bound: it is as deep as its deepest constructor lies."""
    due, deepest = [(parameter, 1) for parameter in reversed(program.parameters)], 0  # the next part due comes last
    for constructor in data:
        if not due:
            return "refused"
        type_, level = due.pop()
        constructors = program.types[type_].constructors
        if constructor >= len(constructors):
            return "refused"
        deepest = max(deepest, level)
        due.extend((field, level + 1) for field in reversed(constructors[constructor]))
    return "refused" if due or deepest > program.depth else deepest


def bounded_reading():
    """Reading that stops at a bound which is D or more gives every answer that reading without a bound gives."""
    types, seen = NAT + ty((), (1, 1), (0, 1, 0)) + BOOL, Counter()
    bounded = {bound: type("Bounded", (ClosedInput,), {"deepest": bound}) for bound in (1, 2, 3, 4)}
    for parameters in (), (0,), (1,), (0, 1), (1, 2, 0):
        program = read(types + fn(parameters, 2, con(2, 0)) + go(depth=64))
        for data in (bytes(chosen) for length in range(7) for chosen in product((0, 1, 2), repeat=length)):
            for limit in bounded:
                limited = replace(program, depth=limit)
                wanted = walked(limited, data)
                seen[wanted, walked(program, data)] += 1
                for bound in range(limit, 5):
                    same(f"how deep {data.hex()} is, read up to {bound}, with D {limit}", figure(bounded[bound], limited, data), wanted)
                same(f"how deep {data.hex()} is, with D {limit}", figure(ClosedInput, limited, data), wanted)
    kinds = [(depth, depth) for depth in range(5)] + [("refused", depth) for depth in range(2, 7)] + [("refused", "refused")]
    same("kinds of inputs that are not there", [kind for kind in kinds if not seen[kind]], [])


def long_reading():
    """An input of a hundred thousand constructors, one in another: reading it up to 64 gives what reading it all gives."""
    deep = b"\1" * 99999 + b"\0"
    for limit in (1, 63, 64):
        program = read(NAT + fn((0,), 0, var(0)) + go(depth=limit))
        same("how deep a long input is", (figure(ClosedInput, program, deep), walked(program, deep)), ("refused", "refused"))
    same("how deep it would be", walked(replace(program, depth=100000), deep), 100000)


def answer(call, *lent):
    """What a text call gives, or the number of its refusal after a minus sign."""
    try:
        return call(*lent)
    except Refused as refused:
        return -refused.number


def shows(rule_file, data, full, *lines):
    """The list handed in has exactly this text; it fits a slice of just its length, and none that is shorter."""
    text = "".join(line + "\n" for line in lines).encode()
    what = f"the text of {data.hex()}, full {full}, for {rule_file.hex()}"
    same(f"the length of {what}", answer(text_length, rule_file, data, full), len(text))
    for room in (len(text), len(text) + 5):
        lent = bytearray(b"." * room)
        same(f"the answer with {what}", answer(write_text, rule_file, data, full, lent), len(text))
        same(what, bytes(lent), text + b"." * (room - len(text)))
    for room in (len(text) - 1, 1, 0):
        lent = bytearray(b"." * room)
        same(f"the answer with {what} in {room} bytes", answer(write_text, rule_file, data, full, lent), -13)
        same(f"the slice after 13, {what} in {room} bytes", bytes(lent), b"." * room)


def turns_back(number, rule_file, *lists_):
    """Both calls refuse each of these lists by this number, whatever the room, and leave it alone."""
    for data in lists_:
        for full, room in ((False, 0), (False, 99), (True, 0), (True, 99)):
            lent = bytearray(b"." * room)
            same(f"the answers for {data.hex()}, full {full}, {room} bytes, with {rule_file.hex()}",
                 (answer(text_length, rule_file, data, full), answer(write_text, rule_file, data, full, lent), bytes(lent)),
                 (-number, -number, b"." * room))


def handed_in():
    """Worked by hand: texts of lists that need not be those of a search."""
    one, open_ = re(6, 1, 1, 255), 255
    shows(P, one, False, "reach 6 1 1 _", "total 1 0 0 0 found")
    shows(P, one, True, "reach 6 1 1 _", "refused 12")
    same("the length of P's text and of the two lines that may close it", (text_length(P, one, False), text_length(P, b"", False),
                                                                          text_length(P, b"", True)), (14 + 20, 19, 11))
    shows(P, b"", False, "total 0 0 0 0 none")
    shows(P, b"", True, "refused 12")
    # False, repeated, out of order, of UN with fewer than S steps: the counts and the verdict are those of the list.
    shows(P, re(3, 0) + mi(20, open_), False, "reach 3 0", "missing 20 _", "total 1 0 1 0 found")
    shows(P, one * 3, False, *["reach 6 1 1 _"] * 3, "total 3 0 0 0 found")
    shows(P, un(5, 1, open_) + un(0, open_) + un(20, 0), False, "unfinished 5 1 _", "unfinished 0 _", "unfinished 20 0", "total 0 3 0 100 undecided")
    shows(P, un(19, open_) + one, True, "unfinished 19 _", "reach 6 1 1 _", "refused 12")
    shows(P, mi(6, 1, open_), False, "missing 6 1 _", "total 0 0 1 0 none")
    # P without the alternative for zero beside its target lists these two the other way round.
    no_zero = NAT + fn((0,), 0, case(0, var(0), con(0, 0), case(0, var(1), None, target(7, con(0, 0))))) + go(depth=4)
    lists(no_zero, "found", mi(6, 1, 0), one)
    shows(no_zero, one + mi(6, 1, 0), False, "reach 6 1 1 _", "missing 6 1 0", "total 1 0 1 0 found")
    # Without parameters an entry has six bytes; with two, the second value begins where the first ends.
    alone = BOOL + fn((), 0, con(0, 0)) + go()
    shows(alone, re(0) + un(20) + mi(7), False, "reach 0", "unfinished 20", "missing 7", "total 1 1 1 50 found")
    numbers = NAT + fn((0, 0), 0, var(0)) + go(depth=3)
    shows(numbers, re(1, 1, 0, 1, 1, open_) + re(1, open_, 0), False, "reach 1 1 0 1 1 _", "reach 1 _ 0", "total 2 0 0 0 found")
    turns_back(14, alone, re(0, 0), re(0, open_), re(0)[:5], re(0) + b"R")
    turns_back(14, numbers, re(1, 0), re(1, 1, 0), re(1, 0, 0, 0), re(1), re(1, 0, 2), re(1, 0, 1, 1, 1, 0), re(1, 1, 1, 1, 0, 0))


def scrap():
    """Worked by hand: each way in which a list may be scrap for P, and the order of the refusals."""
    one = re(6, 1, 1, 255)
    for length in range(1, len(one)):
        turns_back(14, P, one[:length], one + one[:length])
    turns_back(14, P, b"XX" + one[2:], b"re" + one[2:], one + b"IM" + one[2:], one + b"\0")
    # The length is stated in byte 4: one too long, at the end and before another entry; one too short; none.
    turns_back(14, P, one[:4] + b"\4" + one[5:], one[:4] + b"\4" + one[5:] + one, one[:4] + b"\2" + one[5:], one[:4] + b"\0" + one[5:])
    turns_back(14, P, re(6), re(6, 2), re(6, 1, 2), re(6, 0, 0), re(6, 1, 1, 255, 255), re(6, 1, 1))
    # D 4 and S 20: four constructors, or three and an open part, are as deep as may be.
    for values in ((1, 1, 1, 0), (1, 1, 1, 255)):
        shows(P, mi(20, *values), True, "missing 20 " + " ".join(map(str, values)).replace("255", "_"), "refused 12")
        turns_back(14, P, mi(20, 1, *values), mi(21, *values), un(21, *values), re(21, *values))
        turns_back(14, changed(depth=3), mi(20, *values))
        turns_back(14, changed(steps=19), mi(20, *values))
    turns_back(14, changed(steps=0), un(1, 255), b"RE\0\1\1\0\0")
    shows(changed(steps=256), b"RE\0\1\1\0\0", False, "reach 256 0", "total 1 0 0 0 found")
    # The rule file first, whatever the list and the room.
    for number, file_ in ((1, P[:-1]), (1, b""), (2, P[6:]), (3, changed(depth=65)), (4, P[:-5] + b"\1" + P[-4:]), (7, P + b"\0"), (8, HOLLOW),
                          (9, NAT + ty((0,)) + fn((1,), 1, var(0)) + go(depth=1))):
        turns_back(number, file_, b"", one, b"X")


def handed_depths():
    """Worked by hand: an open part is as deep as its type's least depth, whatever stands above it."""
    open_ = 255
    # Types of least depths 3, 2 and 1; type 1 is a box of type 2 or a pair of type 0.
    three = ty((1,)) + ty((2,), (0, 0)) + ty(()) + fn((0,), 0, var(0))
    shows(three + go(depth=3), re(1, open_), False, "reach 1 _", "total 1 0 0 0 found")
    shows(three + go(depth=3), re(1, 0, open_), False, "reach 1 0 _", "total 1 0 0 0 found")
    shows(three + go(depth=3), re(1, 0, 0, open_), False, "reach 1 0 0 _", "total 1 0 0 0 found")
    # 0, then a pair, then an open part of type 0: 2 + 3. With the other one closed, 0 0 0, it is 2 + 3 as well.
    for values, shown in (((0, 1, open_, open_), "0 1 _ _"), ((0, 1, 0, 0, 0, open_), "0 1 0 0 0 _"), ((0, 1, 0, open_, 0, 0, 0), "0 1 0 _ 0 0 0")):
        turns_back(14, three + go(depth=4), re(1, *values))
        shows(three + go(depth=5), re(1, *values), False, "reach 1 " + shown, "total 1 0 0 0 found")
    # A list of boxes, of least depth 1: one open box in it makes 1 + 2, also beside an open rest, which alone makes 1 + 1.
    boxes = ty((), (1, 0)) + ty((2,)) + ty(()) + fn((0,), 0, var(0))
    turns_back(14, boxes + go(depth=2), re(1, 1, open_, open_), re(1, 1, open_, 0), re(1, 1, 0, open_, 0), re(1, 1, 0, 0, 0))
    for values, shown in (((1, open_, open_), "1 _ _"), ((1, open_, 0), "1 _ 0"), ((1, 0, open_, 0), "1 0 _ 0"), ((1, 0, 0, open_), "1 0 0 _")):
        shows(boxes + go(depth=3), re(1, *values), True, "reach 1 " + shown, "refused 12")
    turns_back(14, boxes + go(depth=3), re(1, 1, open_, 1, open_, open_))  # 2 + 2


def longest_list():
    """A list of just 16,777,216 bytes is accepted, and one of whole entries that has a byte more, or an entry more, is not."""
    # Entries of 64 bytes, 262,144 of them. A line has 124 bytes: 7, two for each of 57 constructors, 2 and the line feed; the total line 25.
    numbers, data = NAT + fn((0,), 0, var(0)) + go(depth=64), re(6, *[1] * 57, 255) * 262144
    same("the bytes of the longest list", len(data), 16777216)
    same("the length of the text of the longest list", answer(text_length, numbers, data, False), 262144 * 124 + 25)
    longer = data[64:] + re(6, *[1] * 58, 255)
    same("the bytes of a list that is one byte longer", len(longer), 16777217)
    # Without parameters entries have six bytes: 2,796,203 of them have 16,777,218.
    for rule_file, list_ in ((numbers, longer), (numbers, data + re(6, 0)), (BOOL + fn((), 0, con(0, 0)) + go(), re(6) * 2796203)):
        same("the length of the text of a longer list", answer(text_length, rule_file, list_, True), -14)
        same("the text of a longer list", answer(write_text, rule_file, list_, False, bytearray()), -14)


def wrong_lists():
    """Each demand is broken by a list made for it; the rule is P without the alternative for zero beside its target."""
    rule = NAT + fn((0,), 0, case(0, var(0), con(0, 0), case(0, var(1), None, target(7, con(0, 0)))))
    program, shallow = read(rule + go(depth=4)), read(rule + go(depth=2))
    missing, reach = Entry(MISSING, 6, b"\1\0"), Entry(REACHED, 6, b"\1\1\xff")
    halves = [Entry(REACHED, 6, b"\1\1\0"), Entry(REACHED, 6, b"\1\1\1\xff")]
    for what, searched, entries, said in (
            ("None", program, [missing, reach], "found"), ("None", shallow, [missing], "none"),
            ("how an input ends", program, [replace(missing, steps=5), reach], "found"),
            ("how an input ends", program, [replace(missing, end=UNFINISHED), reach], "found"),
            ("entries that an input completes", program, [reach], "found"),
            ("whether two entries differ", program, [missing, reach, halves[0]], "found"),
            ("where the evaluation halts", program, [missing, *halves], "found"),
            ("entries that have a completion", shallow, [missing, reach], "none"),
            ("whether none is said", shallow, [missing], "undecided"), ("whether none is said", shallow, [missing], "found"),
            ("whether none is said", program, [missing, reach], "none"), ("whether found is said", program, [missing, reach], "undecided")):
        wrong = str(broken(searched, entries, said))
        same(f"what is wrong with {entries}, {said}", wrong[:len(what)], what)


# These give another list than the one defined, but one that breaks no demand.
HARMLESS = {
    "a fork goes from the last constructor to the first",
    "a fork takes constructors without an alternative last",
    "a case without any alternative does not fork",
}


def random_programs(rng, count, **shape):
    """Random rules of this shape with few closed inputs within the depth."""
    found = []
    while len(found) < count:
        rule, label, functions = random_rule(rng, kept=0.75, **shape)
        program = check(rule + go(rng.randrange(functions), label, rng.randint(1, 3), rng.choice((rng.randint(0, 6), rng.randint(3, 25)))))
        if isinstance(program, Program) and count_inputs(program, 60) <= 60:
            found.append(program)
    return found


# Rules that show what is special about fields.
WITH_FIELDS = (field_rules.looking_pair(), field_rules.six_fields(), field_rules.ending_at_once(), field_rules.missing_at(0), field_rules.kept(True),
               field_rules.same_part_again(), field_rules.calling_fields(), field_rules.copied())


def random_lists():
    """On random rules, and on some that are written by hand, the list is that of narrowing and of forks, and breaks no demand; with each
    error made, a list breaks one."""
    programs = (random_programs(random.Random(1), 250) + random_programs(random.Random(5), 250, most_fields=3, body_writer=BuildingBody)
                + [read(rule + go(depth=2, steps=steps)) for rule in WITH_FIELDS for steps in range(19)])
    seen = [0, 0, 0]
    for program in programs:
        entries = all_entries(program)
        same("what narrowing lists", list(Narrowing(program).entries({})), entries)
        same("what forks list", forked_entries(program), entries)
        same("what is wrong with a list", broken(program, entries, verdict(entries)), None)
        seen = [number + (more > 0) for number, more in zip(seen, tally(entries))]
    same("kinds of entries that fewer than 40 lists have", [number for number in seen if number < 40], [])
    for error in ERRORS:
        lists_ = (list(Narrowing(program, error).entries({})) for program in programs)
        wrong = any(broken(program, listed, verdict(listed)) for program, listed in zip(programs, lists_))
        same(f"whether a list breaks a demand where {error}", wrong, error not in HARMLESS)


# Names. Type 0 is that of the halves, type 1 that of the names.

H, N = 0, 1
SIXTEEN = ((),) * 16
NAMES = ty(*SIXTEEN) + ty((), (H, H, N))
END, REACH = con(N, 0), target(7, con(N, 0))


def of_half(number, half, inner, others=END):
    """A case on the half that this variable is."""
    return case(H, var(number), *(inner if place == half else others for place in range(16)))


def spells(rule_file, *lines):
    """The program namelist prints these lines."""
    same(f"what namelist prints for {rule_file.hex()}", namelist(rule_file), "".join(line + "\n" for line in lines))


def worked_names():
    """Worked by hand: what namelist prints."""
    # case 1, n 2, fork; byte: choose 3, case 4, h 5, fork; 12: choose 6, case 7, l 8, fork; 9: choose 9, target.
    letter = NAMES + fn((N,), N, case(N, var(0), END, of_half(1, 12, of_half(2, 9, REACH))))
    prints(letter + na(N) + go(depth=2), "reach 9 1 12 9 _", "total 1 0 0 0 found")
    spells(letter + na(N) + go(depth=2), "201 195 137")
    # With S 8 the low half is open, with S 5 both are, with S 2 the name.
    for steps, line in ((8, "192 195 128"), (5, "0 0"), (2, "")):
        spells(letter + na(N) + go(depth=2, steps=steps), line)
    # With D 1 there is no name of a byte; with label 8 no entry; without NA no line.
    for rule_file in (letter + na(N) + go(depth=1), letter + na(N) + go(label=8, depth=2), letter + go(depth=2)):
        spells(rule_file)
    # The low half alone.
    spells(NAMES + fn((N,), N, case(N, var(0), END, of_half(2, 9, REACH))) + na(N) + go(depth=2), "9 9")
    # A name that is built anew, with the target in its low half: case 1, n 2, fork; byte: choose 3; turn 4, h 5; turn 6, case 7, l 8, fork;
    # 9: choose 9, target. With S 5 the low half is a field that waits, with S 8 a case waits on it.
    zero = con(H, 0)
    built = NAMES + fn((N,), N, case(N, var(0), END, con(N, 1, var(1), of_half(2, 9, target(7, zero), zero), END)))
    prints(built + na(N) + go(depth=2), "reach 9 1 _ 9 _", "total 1 0 0 0 found")
    spells(built + na(N) + go(depth=2), "9 9")
    for steps in (5, 8):
        prints(built + na(N) + go(depth=2, steps=steps), f"unfinished {steps} 1 _ _ _", "total 0 1 0 100 undecided")
        spells(built + na(N) + go(depth=2, steps=steps), "0 0")
    # Nothing is looked at: the name is open as a whole, and an empty line. A parameter of another type has none.
    spells(NAMES + fn((N,), N, REACH) + na(N) + go(depth=1), "")
    spells(NAMES + fn((N, H, N), N, REACH) + na(N) + go(depth=1), "", "")
    spells(NAMES + fn((H,), N, REACH) + na(N) + go(depth=1))
    spells(NAMES + fn((), N, REACH) + na(N) + go(depth=1))
    # Missing, then by the high half 0 reached, 1 unfinished, 2 and all others missing: in the order of the list.
    kinds = NAMES + fn((N,), N, case(N, var(0), None, case(H, var(1), REACH, call(0, var(0)), *[None] * 14)))
    spells(kinds + na(N) + go(depth=2), "", "0 0", "16 16", "32 32", "48 48", "64 64", "80 80", "96 96", "112 112", "128 194 128",
           "144 194 144", "160 194 160", "176 194 176", "192 195 128", "208 195 144", "224 195 160", "240 195 176")


def names_of(rule_file, *lines, room=32768):
    """The same where the closed inputs are too many to be run one by one, with a list slice of this length."""
    program = read(rule_file)
    given = printed(program, fill(forked_entries(program), room))
    same(f"the names of {rule_file.hex()} in {room} bytes", given, "".join(line + "\n" for line in lines))


def worked_deep_names():
    """Worked by hand: names of several bytes, several names, and lists that are cut short."""
    goal = na(N) + go(depth=4, steps=40)

    def first_is_65(inner):
        """The rest of the name is variable 3."""
        return NAMES + fn((N,), N, case(N, var(0), END, of_half(1, 4, of_half(2, 1, inner))))

    # Of the second byte the low half is 9, then the name ends; the second byte is 233: all bytes of Latin-1, then all of UTF-8.
    names_of(first_is_65(case(N, var(3), END, of_half(5, 9, case(N, var(6), REACH, END)))) + goal, "65 9 65 9")
    names_of(first_is_65(case(N, var(3), END, of_half(4, 14, of_half(5, 9, REACH)))) + goal, "65 233 65 195 169")
    # The first byte is open, and the low half of the second.
    names_of(NAMES + fn((N,), N, case(N, var(0), END, case(N, var(3), END, of_half(4, 8, REACH)))) + goal, "0 128 0 194 128")
    # A name, a tree, a name; the last is looked at first: 1 _ 5 _; then the tree: 1 0 _; then the first: 0, or missing.
    # case 1, name 2, choose 3, case 4, half 5, choose 6, case 7, tree 8, choose 9, case 10, branch 11, choose 12, case 13, name 14, 15.
    tree = case(2, var(1), END, case(2, var(6), case(N, var(0), REACH, None), END))
    three = NAMES + ty((), (2, 2)) + fn((N, 2, N), N, case(N, var(2), END, of_half(4, 5, tree)))
    same("the list of three", [entry.line() for entry in forked_entries(read(three + goal))],
         ["reach 15 0 1 0 _ 1 _ 5 _\n", "missing 15 1 _ _ _ 1 0 _ 1 _ 5 _\n"])
    # The entries have 14 and 17 bytes.
    first, second, full = ("", "5 5"), ("0 0", "5 5"), ("refused 12",)
    for room, lines in ((32768, first + second), (31, first + second), (30, first + full), (14, first + full), (13, full), (0, full)):
        names_of(three + goal, *lines, room=room)
    names_of(three + goal[3:], *full, room=13)
    names_of(three + goal[3:])


def misspelt():
    """Worked by hand: 15 in each call, behind 9 and before 10 to 14."""
    source, goal, least = P[6:-7], P[-7:], 64 * 20 + 1024
    same("whether P with names is accepted", isinstance(check(NAT + ty(*SIXTEEN) + ty((), (1, 1, 2)) + source + na(2) + goal), Program), True)
    types = NAT + ty(*SIXTEEN) + ty((), (1, 1, 2), ())  # a name with a third constructor
    rule = types + source
    for number, named in ((15, rule + na(2)), (15, rule + na(1)), (15, rule + na(0)), (4, rule + na(3)), (2, rule + na(2) * 2),
                          (2, types + na(2) + source)):
        same(f"the check of {named.hex()}", check(named + goal), number)
    bad, hollow = rule + na(2) + goal, types + ty((3,)) + source + na(2) + goal
    shallow = types + ty((4,)) + ty(()) + fn((3,), 3, var(0)) + na(2) + go(depth=1)
    for rule_file, number in ((bad, 15), (bad[:-1], 1), (rule + na(2) + go(depth=65), 3), (bad + b"\0", 7), (hollow, 8), (shallow, 9)):
        for data, words in ((b"\1\1\0", least), (b"\2", least), (b"\1\1\0", 0), (b"\2", 0)):
            runs(rule_file, data, words, number)
        for words, room in ((least, 9), (least, 8), (0, 9), (0, 0)):
            searches(rule_file, words, room, number)
        turns_back(number, rule_file, b"", re(6, 1, 1, 255), b"X")
        prints(rule_file, f"refused {number}")
        spells(rule_file, f"refused {number}")
    spells(P[:-2] + b"\xf1\0", "refused 11")
    spells(rule + na(2) + go(depth=4, steps=241), "refused 15")


def encodings():
    """The UTF-8 of every byte, and what a name of all bytes spells and prints."""
    names = Names(read(NAMES + fn((N,), N, REACH) + na(N) + go()))
    for byte in range(256):
        same(f"the UTF-8 of {byte}", names.utf8(byte), bytes([byte]).decode("latin-1").encode("utf-8"))
        same(f"the bytes of {byte}", list(names.utf8(byte)), [byte] if byte < 128 else [194, byte] if byte < 192 else [195, byte - 64])
    same("the UTF-8 of 201", list(names.utf8(201)), [195, 137])
    value = Value(0, ())
    for byte in reversed(range(256)):
        value = Value(1, (Value(byte // 16, ()), Value(byte % 16, ()), value))
    same("what a value of all bytes spells", names.spelt(value), bytes(range(256)))
    same("its line", names.line(bytes(range(256))), " ".join(map(str, [*range(256), *range(128), *(
        item for byte in range(128, 256) for item in (192 + byte // 64, 128 + byte % 64))])) + "\n")


def spellings():
    """Every list of at most D - 1 bytes is spelt by exactly one closed value that fits D."""
    for types, named, depth in ((NAMES, N, 1), (NAMES, N, 2), (NAMES, N, 3), (ty((), (2, 1, 0)) + ty(*SIXTEEN) * 2, 0, 2)):
        program = read(types + fn((named,), named, var(0)) + na(named) + go(depth=depth))
        found = Counter(Names(program).spelt(value) for value, in inputs(program))
        wanted = Counter(bytes(chosen) for length in range(depth) for chosen in product(range(256), repeat=length))
        same(f"whether each list of fewer than {depth} bytes is spelt once, and no other", found == wanted, True)


# Filling.

def tight(types, least, type_):
    """All values of the type in prefix form in which each part is as deep as its type's least depth."""
    return [bytes([number]) + b"".join(chosen) for number, fields in enumerate(types[type_].constructors)
            if 1 + max((least[field] for field in fields), default=0) == least[type_]
            for chosen in product(*(tight(types, least, field) for field in fields))]


def fillings():
    """What fills an open part: worked by hand; and of all values whose parts are as shallow as may be it is the first."""
    for types, wanted in ((ty((1,), (2,), (2, 2)) + ty((2,)) + ty(()), (b"\1\0", b"\0\0", b"\0")),
                          (ty((0,), ()) + ty((0, 0), (1,)), (b"\1", b"\0\1\1")), (ty((), ()) + ty((1,), (0,), (0,)), (b"\0", b"\1\0")),
                          (NAMES, (b"\0", b"\0")), (ty((1,)) + ty((2,), (0, 0)) + ty(()), (b"\0\0\0", b"\0\0", b"\0"))):
        names = Names(read(types + fn((), 0, call(0)) + go(depth=8)))
        same(f"what fills the types {types.hex()}", tuple(prefix(names.shallowest(type_)) for type_ in range(len(wanted))), wanted)
    for program in random_programs(random.Random(2), 150):
        names = Names(program)
        for type_ in range(len(program.types)):
            same("what fills an open part", prefix(names.shallowest(type_)), min(tight(program.types, names.least, type_)))


class Emptied(Names):
    """Forgets what is bound."""

    def value(self, type_, rest):
        return self.shallowest(type_)


class Lengthened(Names):
    """Goes on too long where a name ends."""

    def filled(self, entry):
        def longer(value):
            return Value(1, (*value.fields[:2], longer(value.fields[2]))) if value.constructor else byte
        byte = Value(1, (Value(0, ()), Value(0, ()), Value(0, ())))
        return [longer(value) for value in super().filled(entry)]


def random_named_programs(rng, count):
    """Random rules that take names, with lists that are not long and their entries."""
    found, forms = [], ([((), (1, 1, 0)), SIXTEEN], [((), (2, 1, 0)), SIXTEEN, SIXTEEN])
    while len(found) < count:
        rule, label, functions, named = random_named_rule(rng, rng.choice(forms))
        program = check(rule + na(named) + go(rng.randrange(functions), label, rng.randint(1, 4), rng.choice((rng.randint(0, 9), 40))))
        if isinstance(program, Program) and named in program.parameters:
            try:
                found.append((program, forked_entries(program, 60)))
            except TooMany:
                pass
    return found


def misfilled(names, entries):
    """Whether a filled entry breaks what is demanded of it."""
    try:
        filled(names, entries, 3)
    except Different:
        return True
    return False


def filled_entries():
    """A filled entry, its other parameters completed in any way that fits, behaves as its entry says: with parameters of any type
    filled, on random rules with few inputs, and on random rules with names; where they are filled wrongly, some do not."""
    for program in random_programs(random.Random(3), 150):
        entries = forked_entries(program)
        for type_ in range(len(program.types)):
            filled(Names(replace(program, named=type_)), entries, 60)
    programs, ends = random_named_programs(random.Random(4), 150), Counter()
    for program, entries in programs:
        same("what narrowing lists", list(Narrowing(program).entries({})), entries)
        filled(Names(program), entries)
        ends.update(entry.end for entry in entries)
    same("kinds of entries that are fewer than 40", [end for end in (REACHED, UNFINISHED, MISSING) if ends[end] < 40], [])
    for wrong in (Emptied, Lengthened):
        shown = sum(misfilled(wrong(program), entries) for program, entries in programs)
        same(f"whether 10 rules or more show what {wrong.__name__} does", shown >= 10, True)


if __name__ == "__main__":
    scope_examples()
    refusals_of_runs()
    further_examples()
    shares()
    limits()
    worked_lists()
    worked_depths()
    missing_alternatives()
    missing_beside_others()
    worked_results()
    worked_inner_results()
    depths_of_inputs()
    bounded_reading()
    long_reading()
    handed_in()
    scrap()
    handed_depths()
    longest_list()
    wrong_lists()
    random_lists()
    worked_names()
    worked_deep_names()
    misspelt()
    encodings()
    spellings()
    fillings()
    filled_entries()
    print("blind side: all examples as expected")
