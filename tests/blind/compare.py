"""The comparison that the tests fail by. An `assert` would not do: Python leaves it out where PYTHONOPTIMIZE is set."""

import sys
from os.path import commonprefix

BEFORE, SHOWN = 40, 300  # characters before the first one that differs, and in all


class Different(Exception):
    """What was got is not what was expected."""


def same(what, got, wanted):
    """Fails where the two differ; of what is long the place is shown where it begins to."""
    if got == wanted:
        return
    got, wanted = repr(got), repr(wanted)
    start = max(0, len(commonprefix((got, wanted))) - BEFORE)
    raise Different(f"{what}: got {part(got, start)}, expected {part(wanted, start)}")


def part(text, start):
    return ("" if start == 0 else "..") + text[start:start + SHOWN] + ("" if len(text) <= start + SHOWN else "..")


def judged(what, check):
    """Runs a check and prints how it went, with what it says it found; the exit status of the test."""
    try:
        found = check()
    except Different as different:
        print(f"{what}: {different}", file=sys.stderr)
        return 1
    print(f"{what}: {found + ': ' if found else ''}ok")
    return 0
