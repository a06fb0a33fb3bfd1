"""Wrong verdicts and wrong total lines, for the test of the tests: each must change what is expected of some stored case.

Each is worked out from the numbers of entries that are reached, unfinished and missing.
"""

from blind.enumerate import share


def judged(reach, unfinished):
    return "found" if reach else "undecided" if unfinished else "none"


VERDICTS = {
    "a missing alternative makes the verdict found": lambda reach, unfinished, missing: judged(reach + missing, unfinished),
    "a missing alternative makes the verdict undecided": lambda reach, unfinished, missing: judged(reach, unfinished + missing),
    "a missing alternative makes the verdict none": lambda reach, unfinished, missing: judged(reach, 0 if missing else unfinished),
}


def total(*items):
    return " ".join(map(str, ("total", *items))) + "\n"


def ended_by(share_of, verdict=lambda reach, unfinished, missing: judged(reach, unfinished)):
    """The total line with another share or another verdict."""
    return lambda *counts: total(*counts, share_of(*counts), verdict(*counts))


def counted(change):
    """The total line with other counts before the share."""
    return lambda reach, unfinished, missing: total(*change(reach, unfinished, missing), share(reach, unfinished),
                                                    judged(reach, unfinished))


def rounded(up):
    """A share that is rounded down, and up where this says so, asked of the share rounded down, the rest and the number of both."""
    def share_of(reach, unfinished, missing):
        both = reach + unfinished or 1
        down, rest = divmod(100 * unfinished, both)
        return down + up(down, rest, both)
    return share_of


SHARES = {
    "the share is rounded down": rounded(lambda down, rest, both: False),
    "the share is rounded up": rounded(lambda down, rest, both: rest > 0),
    "a half goes up": rounded(lambda down, rest, both: 2 * rest >= both),
    "a half goes down": rounded(lambda down, rest, both: 2 * rest > both),
    "a half goes to the odd per cent": rounded(lambda down, rest, both: 2 * rest > both or 2 * rest == both and down % 2 == 0),
    "what is above a half goes to the even per cent too": rounded(lambda down, rest, both: 2 * rest >= both and down % 2 == 1),
    "half of an odd number is rounded down": rounded(lambda down, rest, both: rest > both // 2 or rest == both // 2 and down % 2 == 1),
    "missing ones count in the share": lambda reach, unfinished, missing: share(reach + missing, unfinished),
    "missing ones count as unfinished in the share": lambda reach, unfinished, missing: share(reach, unfinished + missing),
}

TOTALS = {
    **{error: ended_by(share_of) for error, share_of in SHARES.items()},
    "missing ones count as reached": counted(lambda reach, unfinished, missing: (reach + missing, unfinished, missing)),
    "missing ones count as unfinished": counted(lambda reach, unfinished, missing: (reach, unfinished + missing, missing)),
    "missing ones are counted before the unfinished": counted(lambda reach, unfinished, missing: (reach, missing, unfinished)),
    "missing ones are not counted": counted(lambda reach, unfinished, missing: (reach, unfinished, 0)),
    "the total has no count of missing ones": counted(lambda reach, unfinished, missing: (reach, unfinished)),
    **{error: ended_by(lambda reach, unfinished, missing: share(reach, unfinished), verdict) for error, verdict in VERDICTS.items()},
}


def changes(wrong, cases):
    """Per error of `wrong` how many cases it changes; a case is what is asked, such as the numbers of its entries, and what is right."""
    return {error: sum(made(*asked) != right for asked, right in cases) for error, made in wrong.items()}


def too_few(wrong, cases, least):
    """The errors of `wrong` that change fewer than so many cases."""
    return [f"changes {number} cases: {error}" for error, number in changes(wrong, cases).items() if number < least]
