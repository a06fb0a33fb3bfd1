"""Rule files with a record NA, each with what it is about and the text of its names, worked out by hand: tests/check_c.py and
tests/check_install.py run them. The slices are those of namelist: with 16,384 words a step limit above 240 is refused by 11.

The types are the halves of a byte, the names, and numbers.
"""

from blind.build import case, con, fn, go, target, ty, var
from check_format import name_line

HALF, NAME, NUMBER = range(3)
TYPES = ty(*[()] * 16) + ty((), (HALF, HALF, NAME)) + ty((), (NUMBER,))


def naming(parameters, body, named=bytes([NAME]), depth=3, steps=20):
    """A rule file with one function, whose result is a name, and a record NA for each named type."""
    return TYPES + fn(parameters, NAME, body) + b"".join(b"NA" + bytes([type_]) for type_ in named) + go(0, 7, depth, steps)


def at_half(number, variable, alternative):
    """A case on a half of a byte; all halves but one have the alternative of variable 0."""
    return case(HALF, var(variable), *[alternative if half == number else var(0) for half in range(16)])


def if_byte(variable, alternative, other=var(0)):
    """A case on a name, for one that is not empty."""
    return case(NAME, var(variable), other, alternative)


REACHED = target(7, var(0))
ONE = (NAME,)
EACH = if_byte(0, case(HALF, var(1), *[REACHED] * 16))  # an entry for each first half
NAMED = [
    ("the first byte 201", naming(ONE, if_byte(0, at_half(12, 1, at_half(9, 2, REACHED)))), "201 195 137\n"),
    ("a half that is open", naming(ONE, if_byte(0, at_half(12, 1, REACHED))), "192 195 128\n"),
    ("a byte that is open", naming(ONE, if_byte(0, REACHED)), "0 0\n"),
    ("a name that is open", naming(ONE, REACHED), "\n"),
    ("a missing alternative", naming(ONE, if_byte(0, REACHED, None)), "\n0 0\n"),
    ("an unfinished entry", naming(ONE, if_byte(0, REACHED), steps=1), "\n"),
    ("two bytes", naming(ONE, if_byte(0, if_byte(3, at_half(15, 5, REACHED)))), "0 15 0 15\n"),
    ("two names, and a number between", naming((NAME, NUMBER, NAME), if_byte(0, case(NUMBER, var(1), var(0), if_byte(2, at_half(12, 3, REACHED))))),
     "192 195 128\n0 0\n"),
    ("each first half", naming(ONE, EACH), "".join(name_line(bytes([16 * half])) + "\n" for half in range(16))),
    ("no record NA", naming(ONE, if_byte(0, REACHED), b""), ""),
    ("no parameter of the named type", naming((NUMBER, HALF), target(7, con(NAME, 0))), ""),
    ("no entry", naming(ONE, var(0)), ""),
    ("the halves named", naming(ONE, REACHED, bytes([HALF])), "refused 15\n"),
    ("the numbers named", naming(ONE, REACHED, bytes([NUMBER])), "refused 15\n"),
    ("an unknown type named", naming(ONE, REACHED, bytes([3])), "refused 4\n"),
    ("two records NA", naming(ONE, REACHED, bytes([NAME, NAME])), "refused 2\n"),
    ("a file cut off in NA", naming(ONE, REACHED)[:-8], "refused 1\n"),
    ("no file", b"", "refused 1\n"),
    ("S 241", naming(ONE, REACHED, steps=241), "refused 11\n"),
]
