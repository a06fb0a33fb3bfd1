"""Makes the test data for the checker of rule files: boundary files, competing faults, random and damaged files; behind them those
with NA, which stand in tests/named_files.py.

Writes what the program check_vectors reads and what it must print: its stdin, per case a two-byte length, low byte
first, and the bytes of a rule file, and its stdout, per case a line `accepted` or `refused N`. With --check it compares
instead of writing and exits 1 where the stored files differ. Each boundary case states the answer expected, and the
blind checker must agree. Either way the exit status is 1 where a misreading of `blind.misfile` would show in too few answers to
the cases with NA.
"""

import random
import sys
from collections import Counter
from functools import partial

import named_files
from blind.build import call, case, con, fn, go, let, random_program, target, two, ty, var
from blind.compare import same
from blind.misfile import FILES, FORM
from blind.misfile import answer as answer_by
from blind.rulefile import CODE, HOLLOW, MARK, MISFIT, RANGE, SHALLOW, SHORT, SPELLING, STRANGER, TAIL, RuleFile
from blind.wrong import changes
from damage import random_damaged
from vectors import store

ACCEPTED = 0

CASES = []  # name, bytes, expected number or ACCEPTED


def expect(number, name, data):
    CASES.append((name, data, number))


# The file that most cases change. Types: 0 numbers, 1 truth values, 2 six truth values. Function 0 is the one under
# test, of a number and a truth value to a number; function 1 goes from a number to a truth value.

TYPES = ty((), (0,)) + ty((), ()) + ty((1,) * 6)
OTHER = fn((0,), 1, con(1, 0))
ZERO = con(0, 0)
TRUE = con(1, 1)


def with_body(body, parameters=(0, 1), result=0):
    return TYPES + fn(parameters, result, body) + OTHER + go()


def with_go(record):
    return TYPES + fn((0, 1), 0, var(0)) + OTHER + record


def targets(count, inner):
    """The inner expression at nesting count + 1."""
    return b"".join(bytes([5, 7]) for _ in range(count)) + inner


def lets(count, inner):
    """The inner expression at nesting count + 1, with count more variables in view, all truth values."""
    return b"".join(let(1, TRUE, b"") for _ in range(count)) + inner


def unpack(count, inner):
    """The inner expression at nesting count + 1, with 6 * count more variables in view. Variable 0 is of type 2."""
    return inner if count == 0 else case(2, var(0), unpack(count - 1, inner))


# With these parameters and a result of type 1, `view32(e)` has e with 32 variables in view at nesting 25.
EIGHT = (1,) * 8


def view32(inner):
    return lets(24, inner)


def with_view32(inner):
    return with_body(view32(inner), EIGHT, 1)


def tree_body(length):
    """An expression of type 0 of exactly so many bytes, at least 2, where type 0 is a tree and variable 0 one."""
    if length <= 9:
        return targets((length - 2) // 2, ZERO if length % 2 else var(0))
    left = (length - 3) // 2
    return con(0, 1, tree_body(left), tree_body(length - 3 - left))


TREE = ty((), (0, 0))


def file_of_size(size):
    """A well-formed file of exactly so many bytes, around 16,384."""
    bodies = [1024] * 15
    head = len(fn((0,), 0, b""))
    bodies.append(size - len(TREE) - len(go()) - sum(head + body for body in bodies) - head)
    return TREE + b"".join(fn((0,), 0, tree_body(body)) for body in bodies) + go()


def limits():
    """The largest value accepted and the smallest refused for each limit."""
    expect(ACCEPTED, "the file that the other cases change", with_body(var(0)))
    # The example P of the scope paper.
    expect(ACCEPTED, "P", ty((), (0,)) + fn((0,), 0, case(0, var(0), ZERO, case(0, var(1), ZERO, target(7, ZERO))))
           + go(depth=4))
    # One type, one function, and the shortest body that can be an expression: two bytes.
    expect(ACCEPTED, "smallest file", ty(()) + fn((), 0, call(0)) + go())
    # Fields, result types and calls may name later records.
    expect(ACCEPTED, "later records named",
           ty((1,)) + ty(()) + fn((), 1, call(1)) + fn((), 1, con(1, 0)) + go())
    expect(ACCEPTED, "label 255 sought and marked", TYPES + fn((0,), 0, target(255, var(0))) + go(label=255))
    expect(ACCEPTED, "source is the last function", with_go(go(source=1)))

    # Types: 32 at most; the 33rd in its turn is refused at its mark.
    one = fn((), 0, con(0, 0)) + go()
    expect(ACCEPTED, "32 types", ty(()) * 32 + one)
    expect(RANGE, "33 types", ty(()) * 33 + one)
    expect(ACCEPTED, "last of 32 types used", ty(()) * 32 + fn((31,), 31, var(0)) + go())

    # Constructors: 1 to 16.
    expect(ACCEPTED, "1 constructor", ty(()) + one)
    expect(ACCEPTED, "16 constructors", ty(*[()] * 16) + one)
    expect(ACCEPTED, "last of 16 constructors used", ty(*[()] * 16) + fn((), 0, con(0, 15)) + go())
    expect(ACCEPTED, "case with 16 alternatives",
           ty(*[()] * 16) + fn((0,), 0, case(0, var(0), *[var(0)] * 16)) + go())
    expect(RANGE, "0 constructors", ty() + one)
    expect(RANGE, "17 constructors", ty(*[()] * 17) + one)
    expect(RANGE, "255 constructors", b"TY\xff" + bytes(255) + one)

    # Fields: at most 6.
    expect(ACCEPTED, "6 fields", ty((), (0,) * 6) + one)
    expect(RANGE, "7 fields", ty((), (0,) * 7) + one)
    expect(RANGE, "255 fields", b"TY\2\0\xff" + bytes(255) + one)

    # Functions: 64 at most; the 65th in its turn is refused at its mark.
    unit = fn((), 0, con(0, 0))
    expect(ACCEPTED, "64 functions", ty(()) + unit * 64 + go(source=63))
    expect(ACCEPTED, "last of 64 functions called", ty(()) + fn((), 0, call(63)) + unit * 63 + go())
    expect(RANGE, "65 functions", ty(()) + unit * 65 + go())

    # Parameters: at most 8.
    expect(ACCEPTED, "8 parameters", ty(()) + fn((0,) * 8, 0, var(7)) + go())
    expect(ACCEPTED, "call with 8 arguments",
           ty(()) + fn((), 0, call(1, *[con(0, 0)] * 8)) + fn((0,) * 8, 0, var(7)) + go())
    expect(RANGE, "9 parameters", ty(()) + fn((0,) * 9, 0, var(7)) + go())
    expect(RANGE, "255 parameters", ty(()) + b"FN\xff" + bytes(256) + two(2) + var(0) + go())

    # Body length: 1 to 1,024. No expression has one byte, so a length of 1 passes the first pass and fails later.
    expect(RANGE, "body length 0", with_body(b""))
    expect(SHORT, "body length 1, a variable without its number", with_body(b"\0"))
    expect(CODE, "body length 1, a bad code", with_body(b"\6"))
    expect(ACCEPTED, "body length 1,023", TREE + fn((0,), 0, tree_body(1023)) + go())
    expect(ACCEPTED, "body length 1,024", TREE + fn((0,), 0, tree_body(1024)) + go())
    expect(RANGE, "body length 1,025", TREE + fn((0,), 0, tree_body(1025)) + go())
    # The high byte of a length counts: 0x0100 is 256, not 0 or 1.
    expect(ACCEPTED, "body length 256", TREE + fn((0,), 0, tree_body(256)) + go())
    expect(RANGE, "body length 65,535", TREE + fn((0,), 0, tree_body(1024), length=65535) + go())

    # Nesting: at most 32, the body itself being 1. Each kind of operand nests one deeper.
    expect(ACCEPTED, "nesting 32", with_body(targets(31, var(0))))
    expect(RANGE, "nesting 33", with_body(targets(32, var(0))))
    expect(ACCEPTED, "nesting 32 by a call's argument", with_body(targets(30, call(0, var(0), TRUE))))
    expect(RANGE, "nesting 33 by a call's argument", with_body(targets(31, call(0, var(0), TRUE))))
    expect(ACCEPTED, "nesting 32 by a field", with_body(targets(30, con(0, 1, var(0)))))
    expect(RANGE, "nesting 33 by a field", with_body(targets(31, con(0, 1, var(0)))))
    expect(ACCEPTED, "nesting 32 by a scrutinee", with_body(targets(30, case(0, var(0), None, None))))
    expect(RANGE, "nesting 33 by a scrutinee", with_body(targets(31, case(0, var(0), None, None))))
    expect(ACCEPTED, "nesting 32 by an alternative", with_body(targets(30, case(0, var(0), None, var(2)))))
    expect(ACCEPTED, "nesting 32 by a let", with_body(targets(30, let(0, var(0), var(2)))))
    expect(RANGE, "nesting 33 by a let", with_body(targets(31, let(0, var(0), var(2)))))
    expect(ACCEPTED, "nesting 32 by lets alone", with_body(lets(31, var(0)), (0,)))
    expect(RANGE, "nesting 33 by lets alone", with_body(lets(32, var(0)), (0,)))
    # A leaf at nesting 32 without operands nests no deeper.
    expect(ACCEPTED, "call without arguments at nesting 32",
           ty(()) + fn((), 0, targets(31, call(0))) + go())
    expect(ACCEPTED, "construction without fields at nesting 32", with_body(targets(31, ZERO)))
    # Operands side by side are equally deep.
    expect(ACCEPTED, "wide but not deep", with_body(call(0, call(0, var(0), TRUE), call(1, call(0, ZERO, TRUE)))))

    # View: at most 32 variables.
    expect(ACCEPTED, "32 in view by lets", with_view32(var(31)))
    expect(RANGE, "33 in view by lets", with_view32(lets(1, var(0))))
    packed = (2, 0) + (1,) * 6
    expect(ACCEPTED, "32 in view by alternatives", with_body(unpack(4, var(31)), packed, 1))
    expect(RANGE, "38 in view by alternatives", with_body(unpack(5, var(31)), packed, 1))
    expect(RANGE, "33 in view by a field",
           with_body(unpack(4, case(0, var(1), None, var(31))), packed, 1))
    # The alternative without fields and the one that is not there add nothing.
    expect(ACCEPTED, "32 in view in the alternative without fields",
           with_body(unpack(4, case(0, var(1), var(31), None)), packed, 1))
    expect(ACCEPTED, "38 in view where no alternative is",
           with_body(unpack(4, case(2, var(0), None)), packed, 1))
    # A let's variable is in view in its body only, an alternative's fields in that alternative only.
    expect(ACCEPTED, "let in a let's bound expression at 32 in view",
           with_body(lets(23, let(1, let(1, TRUE, var(31)), var(31))), EIGHT, 1))

    # D: 1 to 64. S: 0 to 4,096.
    expect(RANGE, "D 0", with_go(go(depth=0)))
    expect(ACCEPTED, "D 1", with_go(go(depth=1)))
    expect(ACCEPTED, "D 64", with_go(go(depth=64)))
    expect(RANGE, "D 65", with_go(go(depth=65)))
    expect(RANGE, "D 255", with_go(go(depth=255)))
    expect(ACCEPTED, "S 0", with_go(go(steps=0)))
    expect(ACCEPTED, "S 255", with_go(go(steps=255)))
    expect(ACCEPTED, "S 256", with_go(go(steps=256)))
    expect(ACCEPTED, "S 4,096", with_go(go(steps=4096)))
    expect(RANGE, "S 4,097", with_go(go(steps=4097)))
    expect(RANGE, "S 65,535", with_go(go(steps=65535)))

    # File size: at most 16,384.
    expect(ACCEPTED, "16,384 bytes", file_of_size(16384))
    expect(RANGE, "16,385 bytes", file_of_size(16385))


def short():
    """Refusal 1: bytes run out in a record, in a body, or before GO is read."""
    whole = with_body(var(0))
    # Between records: no bytes, or one, where a mark is due; the one byte is not looked at.
    expect(SHORT, "empty file", b"")
    expect(SHORT, "one byte, of a mark", b"T")
    expect(SHORT, "one byte, of no mark", b"X")
    expect(SHORT, "one byte, of a later mark", b"G")
    expect(SHORT, "ends after the types", TYPES)
    expect(SHORT, "one byte after the types", TYPES + b"F")
    expect(SHORT, "one byte of no mark after the types", TYPES + b"\0")
    expect(SHORT, "ends after the functions", whole[:-7])
    expect(SHORT, "one byte after the functions", whole[:-6])
    expect(SHORT, "one byte of no mark after the functions", whole[:-7] + b"\xff")
    # In a type.
    expect(SHORT, "type without its constructor count", b"TY")
    expect(SHORT, "type without a field count", b"TY\1")
    expect(SHORT, "type without its second field count", b"TY\2\0")
    expect(SHORT, "type without a field", b"TY\1\1")
    expect(SHORT, "type without its sixth field", b"TY\1\6\0\0\0\0\0")
    # In a function's head.
    expect(SHORT, "function without its parameter count", TYPES + b"FN")
    expect(SHORT, "function without a parameter", TYPES + b"FN\2\0")
    expect(SHORT, "function without its result", TYPES + b"FN\1\0")
    expect(SHORT, "function without its body length", TYPES + b"FN\0\0")
    # A two-byte number needs both its bytes, whatever the low one is.
    expect(SHORT, "body length cut in two", TYPES + b"FN\0\0\2")
    expect(SHORT, "body length cut in two after 0", TYPES + b"FN\0\0\0")
    # A body that its length carries past the end of the file.
    expect(SHORT, "no byte of a body", TYPES + b"FN\0\0\1\0")
    expect(SHORT, "body one byte short", TYPES + fn((), 0, b"\2\0", length=3))
    expect(SHORT, "body length 1,024 past the end", TYPES + fn((0,), 0, var(0), length=1024) + go())
    # The body takes GO's bytes in, and the file ends there.
    expect(SHORT, "body takes GO in", TYPES + fn((0,), 0, var(0), length=9) + go())
    # In GO.
    for length, missing in ((2, "its source"), (3, "its label"), (4, "its depth"), (5, "its step limit"),
                            (6, "half its step limit")):
        expect(SHORT, "GO without " + missing, with_go(go()[:length]))
    # In a body: a number that belongs to the expression itself.
    expect(SHORT, "call without its function", with_body(b"\1"))
    expect(SHORT, "construction without its type", with_body(b"\2"))
    expect(SHORT, "construction without its constructor", with_body(b"\2\0"))
    expect(SHORT, "case without its type", with_body(b"\3"))
    expect(SHORT, "let without its type", with_body(b"\4"))
    expect(SHORT, "target without its label", with_body(b"\5"))
    # In a body: an operand. The body's own length bounds it, though the file goes on.
    expect(SHORT, "call without arguments", with_body(call(0)))
    expect(SHORT, "call without its second argument", with_body(call(0, var(0))))
    expect(SHORT, "construction without its field", with_body(con(0, 1)))
    expect(SHORT, "case without its scrutinee", with_body(case(0, b"")))
    expect(SHORT, "case without alternative bytes", with_body(case(0, var(0))))
    expect(SHORT, "case without its second alternative byte", with_body(case(0, var(0), var(0))))
    expect(SHORT, "case without the alternative announced", with_body(case(0, var(0), None, b"")))
    expect(SHORT, "let without its bound expression", with_body(let(0, b"", b"")))
    expect(SHORT, "let without its body", with_body(let(0, var(0), b"")))
    expect(SHORT, "target without its inner expression", with_body(target(7, b"")))
    expect(SHORT, "second body short", TYPES + fn((0,), 0, var(0)) + fn((0,), 0, b"\0") + go())


def mark():
    """Refusal 2: a mark is unknown or out of its turn."""
    expect(MARK, "FN first", with_body(var(0))[len(TYPES):])
    expect(MARK, "GO first", go())
    expect(MARK, "unknown mark first", b"XX" + with_body(var(0)))
    expect(MARK, "marks in small letters", b"ty" + with_body(var(0))[2:])
    expect(MARK, "mark with its bytes exchanged", b"YT" + with_body(var(0))[2:])
    expect(MARK, "first byte of a mark wrong", b"SY" + with_body(var(0))[2:])
    expect(MARK, "second byte of a mark wrong", b"TN" + with_body(var(0))[2:])
    expect(MARK, "two zero bytes", bytes(2))
    expect(MARK, "GO after a type", TYPES + go())
    expect(MARK, "unknown mark after a type", TYPES + b"XX")
    expect(MARK, "first byte of FN with second of TY", TYPES + b"FY")
    expect(MARK, "TY after a function", TYPES + fn((0,), 0, var(0)) + ty(()) + go())
    expect(MARK, "unknown mark after a function", TYPES + fn((0,), 0, var(0)) + b"XX")
    expect(MARK, "mark of GO in small letters", with_go(b"go" + go()[2:]))
    # A body whose length is one too small leaves its last byte where a mark is due, and one too large takes one away.
    expect(MARK, "body length one too small", TYPES + fn((0,), 0, var(0), length=1) + go())
    expect(MARK, "body length one too large", TYPES + fn((0,), 0, var(0), length=3) + OTHER + go())
    # A type with a field count too small leaves a field where a mark is due.
    expect(MARK, "field count one too small", b"TY\1\0\0" + fn((), 0, ZERO) + go())


def stranger():
    """Refusal 4: a type, constructor, function or variable number does not exist."""
    body = fn((0,), 0, var(0))
    # In heads: the first number that does not exist, and the largest.
    expect(STRANGER, "field of a type one too high", ty((), (1,)) + body + go())
    expect(STRANGER, "field of type 255", ty((), (255,)) + body + go())
    expect(STRANGER, "field of a later type's later constructor", ty(()) + ty((), (0, 0), (0, 2)) + body + go())
    expect(STRANGER, "parameter of a type one too high", TYPES + fn((0, 3), 0, var(0)) + go())
    expect(STRANGER, "result of a type one too high", TYPES + fn((0,), 3, var(0)) + go())
    expect(STRANGER, "source one too high", with_go(go(source=2)))
    expect(STRANGER, "source 255", with_go(go(source=255)))
    # In bodies.
    expect(STRANGER, "variable one too high", with_body(var(2)))
    expect(STRANGER, "variable without any in view", with_body(var(0), ()))
    expect(STRANGER, "variable 255", with_body(var(255)))
    expect(STRANGER, "call one too high", with_body(call(2)))
    expect(STRANGER, "call 255", with_body(call(255)))
    expect(STRANGER, "construction of a type one too high", with_body(con(3, 0)))
    expect(STRANGER, "construction of type 255", with_body(con(255, 0)))
    expect(STRANGER, "constructor one too high", with_body(con(0, 2)))
    # Constructor 1 exists in type 0, not in type 2.
    expect(STRANGER, "constructor of another type", with_body(con(2, 1)))
    expect(STRANGER, "case of a type one too high", with_body(case(3, var(0))))
    expect(STRANGER, "let of a type one too high", with_body(let(3, var(0), var(0))))
    # Views: what an alternative or a let adds is not in view elsewhere.
    expect(STRANGER, "field of another alternative", with_body(case(0, var(0), var(2), var(2))))
    expect(STRANGER, "field in the scrutinee", with_body(case(0, var(2), None, var(2))))
    expect(STRANGER, "let's variable in its bound expression", with_body(let(0, var(2), var(2))))
    expect(STRANGER, "let's variable after the let", with_body(call(0, let(0, ZERO, var(2)), var(2))))
    expect(STRANGER, "field after the case",
           with_body(call(0, case(0, var(0), None, var(2)), case(1, var(2), None, None))))
    expect(STRANGER, "variable of the other function", TYPES + fn((0, 0), 0, var(1)) + fn((0,), 0, var(1)) + go())


def code():
    """Refusal 5: an expression byte above 5, or an alternative byte above 1."""
    expect(CODE, "expression byte 6", with_body(b"\6\0"))
    expect(CODE, "expression byte 255", with_body(b"\xff\0"))
    expect(CODE, "byte 6 for an argument", with_body(call(0, b"\6", TRUE)))
    expect(CODE, "byte 6 for a field", with_body(con(0, 1, b"\6")))
    expect(CODE, "byte 6 for a scrutinee", with_body(case(0, b"\6", None, None)))
    expect(CODE, "byte 6 for an alternative", with_body(case(0, var(0), None, b"\6")))
    expect(CODE, "byte 6 for a bound expression", with_body(let(0, b"\6", var(0))))
    expect(CODE, "byte 6 for a let's body", with_body(let(0, var(0), b"\6")))
    expect(CODE, "byte 6 inside a target", with_body(target(7, b"\6")))
    expect(CODE, "alternative byte 2", with_body(b"\3\0" + var(0) + b"\2\0"))
    expect(CODE, "alternative byte 255", with_body(b"\3\0" + var(0) + b"\xff\0"))
    expect(CODE, "second alternative byte 2", with_body(b"\3\0" + var(0) + b"\0\2"))
    expect(CODE, "alternative byte 5", with_body(b"\3\0" + var(0) + b"\5\7" + var(0)))
    expect(CODE, "in the second body", TYPES + fn((0,), 0, var(0)) + fn((0,), 0, b"\7\0") + go())


def misfit():
    """Refusal 6: an expression's type is not the one expected."""
    expect(MISFIT, "variable", with_body(var(1)))
    expect(MISFIT, "call's result", with_body(call(1, var(0))))
    expect(MISFIT, "construction", with_body(TRUE))
    expect(MISFIT, "first argument", with_body(call(0, var(1), var(1))))
    expect(MISFIT, "second argument", with_body(call(0, var(0), var(0))))
    expect(MISFIT, "field", with_body(con(0, 1, var(1))))
    expect(MISFIT, "sixth field", with_body(con(2, 0, *[TRUE] * 5, ZERO), (), 2))
    expect(MISFIT, "scrutinee", with_body(case(0, var(1), None, None)))
    expect(MISFIT, "first alternative", with_body(case(0, var(0), var(1), None)))
    expect(MISFIT, "last alternative", with_body(case(0, var(0), var(0), var(1))))
    # An alternative has the type expected of its case, not that of the scrutinee.
    expect(MISFIT, "alternative of the scrutinee's type", with_body(case(1, var(1), var(1), None)))
    expect(MISFIT, "bound expression", with_body(let(0, var(1), var(0))))
    expect(MISFIT, "let's body", with_body(let(0, var(0), var(1))))
    # A let's variable has the type that the let states.
    expect(MISFIT, "let's variable", with_body(let(1, var(1), var(2))))
    expect(MISFIT, "field's variable", with_body(case(2, con(2, 0, *[TRUE] * 6), var(2))))
    expect(MISFIT, "inside a target", with_body(target(7, var(1))))
    # Types are equal when their numbers are, though their records are alike in every byte.
    expect(MISFIT, "twin types", ty(()) + ty(()) + fn((0,), 1, var(0)) + go())
    expect(MISFIT, "twin types in a construction", ty(()) + ty(()) + fn((), 1, con(0, 0)) + go())
    expect(MISFIT, "in a body that is not the source's", TYPES + fn((0,), 0, var(0)) + fn((0,), 1, var(0)) + go())


def tail():
    """Refusal 7: bytes follow a body's expression, or GO."""
    whole = with_body(var(0))
    expect(TAIL, "zero byte after GO", whole + b"\0")
    expect(TAIL, "line feed after GO", whole + b"\n")
    expect(TAIL, "second GO", whole + go())
    expect(TAIL, "type after GO", whole + ty(()))
    expect(TAIL, "the file twice", whole + whole)
    expect(TAIL, "zero byte after an expression", with_body(var(0) + b"\0"))
    expect(TAIL, "second expression", with_body(var(0) + var(0)))
    expect(TAIL, "alternative byte too many", with_body(case(0, var(0), None, None, None)))
    expect(TAIL, "argument too many", with_body(call(0, var(0), var(1), var(1))))
    expect(TAIL, "field too many", with_body(con(0, 0, var(0))))
    # What no alternative announced is not read as one.
    expect(TAIL, "alternative behind the byte 0", with_body(case(0, var(0), var(0), None) + var(0)))
    expect(TAIL, "in the last body", TYPES + fn((0,), 0, var(0)) + fn((0,), 0, var(0) + b"\xff") + go())
    expect(TAIL, "body of 1,024 bytes with a tail", TREE + fn((0,), 0, tree_body(1023) + b"\0") + go())


def hollow():
    """Refusal 8: a type has no closed value."""
    expect(HOLLOW, "type whose one constructor holds itself", ty((0,)) + fn((0,), 0, var(0)) + go(depth=4))
    body = fn((), 0, con(0, 0)) + go()
    # Every type of the file is looked at, used or not.
    expect(HOLLOW, "unused type", ty(()) + ty((1,)) + body)
    expect(HOLLOW, "two types that hold each other", ty(()) + ty((2,)) + ty((1,)) + body)
    expect(HOLLOW, "all constructors hold the type", ty(()) + ty((1,), (1, 0), (0, 1)) + body)
    expect(HOLLOW, "a good field beside a hollow one", ty(()) + ty((0, 1)) + body)
    expect(HOLLOW, "a type with a hollow field in each constructor", ty(()) + ty((2,), (0, 2)) + ty((2,)) + body)
    expect(HOLLOW, "ring of 31 types", ty(()) + b"".join(ty((1 + (n + 1) % 31,)) for n in range(31)) + body)
    expect(HOLLOW, "largest type number hollow", ty(()) * 31 + ty((31,)) + body)
    # D plays no role.
    expect(HOLLOW, "with D 64", ty((0,)) + fn((0,), 0, var(0)) + go(depth=64))
    # One constructor that can be built up is enough, also where it comes last or through a ring.
    expect(ACCEPTED, "saved by the last constructor", ty(()) + ty((1,), (1, 0), (0, 0)) + body)
    expect(ACCEPTED, "ring of 31 types, saved by one",
           ty(()) + b"".join(ty((1 + (n + 1) % 31,), *[(0,)] * (n == 17)) for n in range(31)) + body)


def shallow():
    """Refusal 9: a source parameter's least depth exceeds D."""
    box = ty((1,)) + ty(())
    expect(SHALLOW, "least depth 2, D 1", box + fn((0,), 0, var(0)) + go(depth=1))
    expect(ACCEPTED, "least depth 2, D 2", box + fn((0,), 0, var(0)) + go(depth=2))
    expect(SHALLOW, "second parameter", box + fn((1, 0), 0, var(1)) + go(depth=1))
    expect(SHALLOW, "eighth parameter", box + fn((1,) * 7 + (0,), 0, var(7)) + go(depth=1))
    # A chain of 32 types, each but the last holding the next: type 0 has least depth 32.
    chain = b"".join(ty((n + 1,)) for n in range(31)) + ty(())
    for depth, number in ((1, SHALLOW), (31, SHALLOW), (32, ACCEPTED), (64, ACCEPTED)):
        expect(number, f"least depth 32, D {depth}", chain + fn((0,), 0, var(0)) + go(depth=depth))
    # The same chain, each type holding the one before: the order of the records plays no role.
    back = ty(()) + b"".join(ty((n,)) for n in range(31))
    expect(SHALLOW, "least depth 32 by earlier types, D 31", back + fn((31,), 31, var(0)) + go(depth=31))
    expect(ACCEPTED, "least depth 32 by earlier types, D 32", back + fn((31,), 31, var(0)) + go(depth=32))
    # The deepest field counts, and the shallowest constructor. Least depths here: 3, 2, 1.
    uneven = ty((1, 2), (1, 1), (0,)) + ty((2,)) + ty(())
    expect(SHALLOW, "deepest field, D 2", uneven + fn((0,), 0, var(0)) + go(depth=2))
    expect(ACCEPTED, "deepest field, D 3", uneven + fn((0,), 0, var(0)) + go(depth=3))
    choice = ty((1,), (2,)) + ty((2,)) + ty(())
    expect(SHALLOW, "shallowest constructor, D 1", choice + fn((0,), 0, var(0)) + go(depth=1))
    expect(ACCEPTED, "shallowest constructor, D 2", choice + fn((0,), 0, var(0)) + go(depth=2))
    # Only the source's parameters count: not its result, nor the other functions.
    other = fn((1,), 1, var(0)) + fn((0,), 0, var(0))
    expect(ACCEPTED, "deep parameter of another function", box + other + go(source=0, depth=1))
    expect(SHALLOW, "the same function as source", box + other + go(source=1, depth=1))
    expect(ACCEPTED, "deep result", box + fn((1,), 0, con(0, 0, var(0))) + go(depth=1))
    expect(ACCEPTED, "source without parameters", chain + fn((), 31, con(31, 0)) + go(depth=1))


def order_of_passes():
    """Two faults: the one that is met first decides."""
    # File size comes before everything.
    whole = file_of_size(16384)
    expect(RANGE, "size before an unknown mark", b"XX" + bytes(16383))
    expect(MARK, "unknown mark in 16,384 bytes", b"XX" + bytes(16382))
    expect(RANGE, "size before a tail", whole + b"\0")
    expect(SHORT, "16,385 bytes less the last", file_of_size(16385)[:-1])

    # First pass, in file order: a range fault at its byte, whatever is missing behind it.
    expect(RANGE, "constructor count 17 and the end", b"TY\x11")
    expect(RANGE, "constructor count 0 and the end", b"TY\0")
    expect(RANGE, "field count 7 and the end", b"TY\1\7")
    expect(RANGE, "parameter count 9 and the end", TYPES + b"FN\x09")
    expect(RANGE, "body length 0 and the end", TYPES + b"FN\0\0\0\0")
    expect(RANGE, "body length 1,025 past the end", TYPES + fn((0,), 0, var(0), length=1025))
    expect(RANGE, "D 0 and the end", with_go(b"GO\0\7\0"))
    expect(RANGE, "D 65 and half an S", with_go(b"GO\0\7\x41\0"))
    expect(RANGE, "S 4,097 before a tail", with_go(go(steps=4097) + b"\0"))
    expect(RANGE, "D 0 before a tail", with_go(go(depth=0) + b"\0"))
    expect(RANGE, "constructor count 0 before an unknown mark", ty() + b"XX")
    expect(MARK, "unknown mark before D 0", TYPES + b"XX" + fn((0,), 0, var(0)) + go(depth=0))
    expect(RANGE, "parameter count 9 before GO without its source", TYPES + fn((0,) * 9, 0, var(0)) + b"GO")
    # Nothing is known of a two-byte number before its second byte.
    expect(SHORT, "half an S", with_go(b"GO\0\7\1\xff"))

    # A record too many is refused at its mark, in its turn only.
    types, functions = ty(()) * 32, fn((), 0, con(0, 0)) * 64
    expect(RANGE, "mark of the 33rd type and the end", types + b"TY")
    expect(RANGE, "33rd type with constructor count 0", types + ty())
    expect(SHORT, "half the mark of the 33rd type", types + b"T")
    expect(MARK, "unknown mark after 32 types", types + b"XX")
    expect(MARK, "GO after 32 types", types + go())
    expect(MARK, "33rd type after a function", types + fn((), 0, con(0, 0)) + ty(()))
    expect(RANGE, "mark of the 65th function and the end", ty(()) + functions + b"FN")
    expect(RANGE, "65th function with 9 parameters", ty(()) + functions + fn((0,) * 9, 0, var(0)))
    expect(MARK, "type after 64 functions", ty(()) + functions + ty(()))
    expect(MARK, "unknown mark after 64 functions", ty(()) + functions + b"XX")

    # First pass before second: the stranger stands earlier in the file.
    strange = ty((), (9,))
    body = fn((0,), 0, var(0))
    expect(SHORT, "strange field, then no GO", strange + body)
    expect(MARK, "strange field, then an unknown mark", strange + body + b"XX")
    expect(RANGE, "strange field, then D 0", strange + body + go(depth=0))
    expect(TAIL, "strange field, then a tail", strange + body + go() + b"\0")
    expect(RANGE, "strange parameter, then body length 0", TYPES + fn((9,), 0, b"") + go())
    expect(TAIL, "strange source, then a tail", with_go(go(source=9) + b"\0"))
    expect(RANGE, "strange source, then D 0", with_go(go(source=9, depth=0)))
    expect(SHORT, "strange source, then half an S", with_go(go(source=9)[:-1]))

    # First pass before third: the body with the fault stands earlier in the file.
    expect(MARK, "bad code, then an unknown mark", TYPES + fn((0,), 0, b"\6\0") + b"XX")
    expect(SHORT, "bad code, then no GO", TYPES + fn((0,), 0, b"\6\0"))
    expect(RANGE, "misfit, then D 65", TYPES + fn((0, 1), 0, var(1)) + go(depth=65))
    expect(TAIL, "short body, then a tail after GO", TYPES + fn((0,), 0, b"\0") + go() + b"\0")
    expect(RANGE, "bad code, then body length 0", TYPES + fn((0,), 0, b"\6\0") + fn((0,), 0, b"") + go())

    # Second pass before third.
    expect(STRANGER, "bad code, then a strange source", TYPES + fn((0,), 0, b"\6\0") + go(source=1))
    expect(STRANGER, "short body, then a strange result", TYPES + fn((0,), 0, b"\0") + fn((0,), 3, var(0)) + go())
    expect(STRANGER, "misfit, then a strange parameter", TYPES + fn((1,), 0, var(0)) + fn((3,), 0, var(0)) + go())
    expect(STRANGER, "tail of a body, then a strange source", TYPES + fn((0,), 0, var(0) + b"\0") + go(source=1))
    expect(STRANGER, "nesting 33, then a strange source", TYPES + fn((0,), 0, targets(32, var(0))) + go(source=1))
    # A stranger in a head comes before 8 and 9.
    expect(STRANGER, "hollow type, then a strange source", ty((0,)) + body + go(source=1))
    expect(STRANGER, "strange field beside the type itself", ty((0, 1)) + body + go())

    # Third pass: bodies in file order, each followed by its tail.
    expect(TAIL, "tail of a body, then bad code in the next",
           TYPES + fn((0,), 0, var(0) + b"\0") + fn((0,), 0, b"\6\0") + go())
    expect(CODE, "bad code, then the tail of the next body",
           TYPES + fn((0,), 0, b"\6\0") + fn((0,), 0, var(0) + b"\0") + go())
    expect(MISFIT, "misfit, then a short body", TYPES + fn((1,), 0, var(0)) + fn((0,), 0, b"\0") + go())
    expect(SHORT, "short body, then a misfit", TYPES + fn((0,), 0, b"\0") + fn((1,), 0, var(0)) + go())
    expect(STRANGER, "strange variable, then nesting 33",
           TYPES + fn((0,), 0, var(1)) + fn((0,), 0, targets(32, var(0))) + go())
    # An expression before its body's tail.
    expect(MISFIT, "misfit before the body's own tail", with_body(var(1) + b"\0"))
    expect(STRANGER, "strange variable before the body's own tail", with_body(var(2) + b"\0"))
    expect(RANGE, "nesting 33 before the body's own tail", with_body(targets(32, var(0)) + b"\0"))
    expect(SHORT, "short expression in a body with bytes to come in the file", with_body(let(0, var(0), b"\0")))

    # Third pass before 8 and 9, 8 before 9.
    expect(MISFIT, "misfit before a hollow type", ty(()) + ty((1,)) + fn((1,), 0, var(0)) + go())
    expect(TAIL, "tail of a body before a hollow type", ty(()) + ty((1,)) + fn((0,), 0, var(0) + b"\0") + go())
    expect(CODE, "bad code before a hollow type", ty((0,)) + fn((0,), 0, b"\6\0") + go())
    expect(RANGE, "nesting 33 before a hollow type", ty((0,)) + fn((0,), 0, targets(32, var(0))) + go())
    expect(TAIL, "tail of the file before a hollow type", ty((0,)) + body + go() + b"\0")
    box = ty((1,)) + ty(())
    expect(MISFIT, "misfit before a shallow D", box + fn((0,), 1, var(0)) + go(depth=1))
    expect(TAIL, "tail of the file before a shallow D", box + fn((0,), 0, var(0)) + go(depth=1) + b"\0")
    expect(HOLLOW, "hollow type before a shallow D", box + ty((2,)) + fn((0,), 0, var(0)) + go(depth=1))
    expect(HOLLOW, "the source's parameter hollow", ty((0,)) + body + go(depth=1))


def order_inside_expressions():
    """At each expression: short, code, numbers, nesting and view, type; then its operands in order."""
    # Short before numbers: both number bytes of a construction are wanted before its type is looked at.
    expect(SHORT, "construction of a strange type without a constructor", with_body(b"\2\xff"))
    # Numbers before operands: their bytes are missing, or are faulty.
    expect(STRANGER, "strange call without arguments", with_body(call(9)))
    expect(STRANGER, "strange case without a scrutinee", with_body(b"\3\x09"))
    expect(STRANGER, "strange let with a bad code", with_body(let(9, b"\6", b"\6")))
    expect(STRANGER, "strange constructor with a bad code", with_body(con(0, 9, b"\6")))
    # Numbers before type: a strange constructor in a construction of another type.
    expect(STRANGER, "strange constructor in a misfit", with_body(con(1, 9)))

    # At nesting 33: short, code and numbers still come first, the type does not.
    for number, name, inner in (
            (SHORT, "no byte", b""),
            (CODE, "bad code", b"\6"),
            (SHORT, "variable without its number", b"\0"),
            (SHORT, "target without its label", b"\5"),
            (SHORT, "construction without its constructor", b"\2\xff"),
            (STRANGER, "strange variable", var(2)),
            (STRANGER, "strange call", call(9)),
            (STRANGER, "strange constructor", con(0, 9)),
            (STRANGER, "strange case", case(9, b"")),
            (STRANGER, "strange let", let(9, b"", b"")),
            (RANGE, "misfit variable", var(1)),
            (RANGE, "misfit call", call(1, var(0))),
            (RANGE, "misfit construction", TRUE),
            # The nesting is the expression's own, so it comes before its operands.
            (RANGE, "target without its inner expression", target(7, b"")),
            (RANGE, "call without arguments", call(0)),
            (RANGE, "case with a bad code for its scrutinee", case(0, b"\6")),
            (RANGE, "let with a strange bound expression", let(0, var(9), b""))):
        expect(number, "nesting 33: " + name, with_body(targets(32, inner)))

    # At nesting 32 the same inner faults, with no competition.
    for number, name, inner in (
            (MISFIT, "misfit variable", var(1)),
            (STRANGER, "strange variable", var(2)),
            (SHORT, "call without arguments", call(0)),
            # The type comes before the operands, which would be too deep.
            (MISFIT, "misfit call with an argument too deep", call(1, var(0))),
            (MISFIT, "misfit construction with a field too deep", con(2, 0, *[TRUE] * 6)),
            (CODE, "scrutinee too deep with a bad code", case(0, b"\6")),
            (STRANGER, "bound expression too deep and strange", let(0, var(9), b""))):
        expect(number, "nesting 32: " + name, with_body(targets(31, inner)))

    # With 33 in view, by a let whose own view is 32. Variables 0 to 32 are truth values.
    for number, name, inner in (
            (SHORT, "no byte", b""),
            (CODE, "bad code", b"\6"),
            (SHORT, "variable without its number", b"\0"),
            # A variable's number is compared with the true number in view.
            (RANGE, "variable 31", var(31)),
            (RANGE, "variable 32", var(32)),
            (STRANGER, "variable 33", var(33)),
            (STRANGER, "strange call", call(9)),
            (STRANGER, "strange constructor", con(1, 9)),
            (RANGE, "misfit construction", ZERO),
            (RANGE, "construction", TRUE),
            (RANGE, "misfit call", call(0, ZERO, TRUE)),
            (RANGE, "case without a scrutinee", case(1, b""))):
        expect(number, "33 in view: " + name, with_view32(let(1, TRUE, inner)))

    # With 38 in view, by an alternative of six fields.
    packed = (2, 0) + (1,) * 6
    for number, name, inner in (
            (RANGE, "variable 32", var(32)),
            (RANGE, "variable 37", var(37)),
            (STRANGER, "variable 38", var(38)),
            (RANGE, "misfit variable", var(0)),
            (CODE, "bad code", b"\6"),
            (SHORT, "no byte", b"")):
        expect(number, "38 in view: " + name, with_body(unpack(5, inner), packed, 1))
    # Its alternative byte comes before its view, and the scrutinee, read at the case's own view, before both.
    expect(CODE, "alternative byte 2 before 38 in view",
           with_body(unpack(4, b"\3\2" + var(0) + b"\2" + TRUE), packed, 1))
    expect(MISFIT, "scrutinee before 38 in view", with_body(unpack(4, case(2, var(1), TRUE)), packed, 1))

    # A let's bound expression is read at the let's own view, before the body's view is tested.
    expect(MISFIT, "misfit bound expression before 33 in view", with_view32(let(1, ZERO, var(0))))
    expect(STRANGER, "let's own variable before 33 in view", with_view32(let(1, var(32), var(0))))
    expect(RANGE, "good bound expression, then 33 in view", with_view32(let(1, var(31), var(0))))
    expect(SHORT, "call without arguments before 33 in view", with_view32(let(1, call(1), b"")))

    # The type comes before the operands.
    expect(MISFIT, "misfit call with a bad code", with_body(call(1, b"\6")))
    expect(MISFIT, "misfit call without arguments", with_body(call(1)))
    expect(MISFIT, "misfit construction with a strange field", with_body(con(2, 0, var(9))))
    # A case, a let and a target have the type expected of them, so their operands speak first.
    expect(CODE, "case with a bad scrutinee and misfit alternatives", with_body(case(0, b"\6", var(1), var(1))))
    expect(STRANGER, "let with a strange bound expression and a misfit body", with_body(let(0, var(9), var(1))))
    expect(STRANGER, "target of a strange variable", with_body(target(7, var(9))))

    # Operands in order.
    expect(MISFIT, "misfit argument before a strange one", with_body(call(0, var(1), var(9))))
    expect(STRANGER, "strange argument before a misfit one", with_body(call(0, var(9), var(0))))
    expect(MISFIT, "misfit argument before a missing one", with_body(call(0, var(1))))
    expect(CODE, "field with a bad code before a misfit one", with_body(con(2, 0, b"\6", ZERO), (), 2))
    expect(MISFIT, "misfit bound expression before a bad code", with_body(let(0, var(1), b"\6")))
    expect(CODE, "bad code in a bound expression before a missing body", with_body(let(0, b"\6", b"")))
    expect(MISFIT, "misfit scrutinee before alternative byte 2", with_body(b"\3\0" + var(1) + b"\2\0"))
    expect(MISFIT, "misfit scrutinee before missing alternative bytes", with_body(case(0, var(1))))
    # Each alternative byte is read where it stands.
    expect(MISFIT, "misfit alternative before alternative byte 2", with_body(b"\3\0" + var(0) + b"\1" + var(1) + b"\2"))
    expect(CODE, "alternative byte 2 before a misfit alternative", with_body(b"\3\0" + var(0) + b"\2" + b"\1" + var(1)))
    expect(MISFIT, "misfit alternative before a missing alternative byte", with_body(case(0, var(0), var(1))))
    expect(CODE, "alternative byte 2 before a missing one", with_body(b"\3\0" + var(0) + b"\2"))
    expect(STRANGER, "strange alternative before a misfit one", with_body(case(0, var(0), var(2), var(1))))
    # An operand's operands come before the next operand.
    expect(CODE, "bad code below the first argument before a misfit second",
           with_body(call(0, con(0, 1, b"\6"), var(0))))
    expect(RANGE, "nesting 33 below the bound expression before a misfit body",
           with_body(let(0, targets(31, var(0)), var(1))))
    expect(STRANGER, "strange call below the scrutinee before alternative byte 2",
           with_body(b"\3\0" + con(0, 1, call(9)) + b"\2\2"))


def random_accepted(rng, count):
    """Random files that are accepted, most of them small."""
    small = {"most_fields": 2, "most_functions": 3, "budget": 8}
    large = {"most_types": 6, "most_constructors": 5, "most_fields": 4, "most_functions": 8, "most_parameters": 5,
             "budget": 25}
    return [random_program(rng, **(large if number % 10 == 9 else small)) for number in range(count)]


# The blind checker's answer.
answer = partial(answer_by, RuleFile)


def agreeing(cases):
    """Fails where the blind checker gives another answer than the one stated, or two cases share a name."""
    for name, data, expected in cases:
        if expected is not None:
            same(f"the blind checker's answer to '{name}'", answer(data), expected)
    same("names that two cases share", [name for name, count in Counter(name for name, _, _ in cases).items() if count > 1], [])


def make():
    """All cases: the boundary cases, then the random ones, then those with NA, which are the value."""
    for group in (limits, short, mark, stranger, code, misfit, tail, hollow, shallow, order_of_passes,
                  order_inside_expressions):
        group()
    agreeing(CASES)

    rng = random.Random(1)
    files = random_accepted(rng, 250)
    for number, data in enumerate(files):
        expect(ACCEPTED, f"random {number}", data)
        same(f"the blind checker's answer to random file {number}", answer(data), ACCEPTED)
    for number, data in enumerate(random_damaged(rng, files, 600)):
        expect(answer(data), f"damaged {number}", data)

    named = named_files.make()
    agreeing(named)
    return [(name, data, answer(data)) for name, data, _ in named]


ENOUGH, LEAST = 10, 2  # answers that a misreading changes at least; the second where it takes a file of 64 functions
SMALL = 200  # bytes of the files on which the others are tried

LARGE = ("NA counts as a function", "a 65th function behind NA is 3")


def misreadings(cases):
    """Per misreading the number of answers that it changes. One of the form cannot change those of files that are refused before it."""
    asked = [((data,), number) for _, data, number in cases]
    small = [(some, number) for some, number in asked if len(some[0]) <= SMALL]
    formed = [(some, number) for some, number in small if number in (ACCEPTED, SPELLING)]

    def changed(errors, tried):
        return changes({error: partial(answer_by, FILES[error]) for error in errors}, tried)

    return {**changed([error for error in FILES if error not in LARGE and error not in FORM], small), **changed(FORM, formed),
            **changed(LARGE, asked)}


def faults(misread):
    return [f"changes {number} answers: {error}" for error, number in misread.items() if number < (LEAST if error in LARGE else ENOUGH)]


def report(cases, container, misread):
    counts = Counter(number for _, _, number in cases)
    print(f"{len(cases)} cases, {len(container)} bytes: accepted {counts[ACCEPTED]}, "
          + ", ".join(f"refused {number} {counts[number]}" for number in (*range(1, 10), SPELLING)))
    print("answers that a misreading changes")
    for error, number in misread.items():
        print(f"{number:6}  {error}")


def main():
    named = make()
    cases = CASES + named
    container = b"".join(two(len(data)) + data for _, data, _ in cases)
    expected = "".join(f"refused {number}\n" if number else "accepted\n" for _, _, number in cases).encode()
    misread = misreadings(named)
    if not sys.argv[1:]:
        report(cases, container, misread)
    wrong = faults(misread)
    for fault in wrong:
        print(f"check_vectors: {fault}", file=sys.stderr)
    return 1 if wrong else store("check_vectors", container, expected, sys.argv[1:])


if __name__ == "__main__":
    sys.exit(main())
