"""NA and 15 with one thing misread, for the test of the tests: each misreading must change what some stored cases expect.

`FILES` has `RuleFile`s with one of their methods answering otherwise. `RUNS`, `searches` and `TEXTS` have calls that test for 15
too late or not at all.
"""

from functools import partial

from blind.enumerate import Listing
from blind.evaluate import run
from blind.handed import Handed
from blind.rulefile import (BENCH, FN, FULL, GO, HOLLOW, INPUT, MARK, MAX_FUNCTIONS, MISFIT, NA, PAGE, RANGE, SCRAP, SHALLOW, SPELLING,
                            STRANGER, TY, Refused, RuleFile, Type, check, half, known, spells)


def file(**methods):
    return type("Misread", (RuleFile,), methods)


# Where NA may stand.

def turns(**following):
    """Other marks may follow those that are given by their letters."""
    marks = {"none": None, "ty": TY, "fn": FN, "na": NA}
    changed = {marks[word]: followers for word, followers in following.items()}
    return file(turns={**RuleFile.turns, **changed}, most={**RuleFile.most, NA: 9})


def behind_go(self):
    """An NA at the end of the file is read as if it stood before GO."""
    if self.data[-3:-1] != NA:
        return RuleFile.first_pass(self)
    return RuleFile(self.data[:-10] + self.data[-3:] + self.data[-10:-3]).first_pass()


def counted_as_function(self):
    records = RuleFile.first_pass(self)
    if len(records[FN]) + len(records[NA]) > MAX_FUNCTIONS:
        raise Refused(RANGE)
    return records


def functions_counted_first(self):
    """A function too many is 3 where it follows NA, too."""
    try:
        return RuleFile.first_pass(self)
    except Refused as refusal:
        number = answer(turns(na=(FN, GO)), self.data)
        raise Refused(RANGE if (refusal.number, number) == (MARK, RANGE) else refusal.number) from None


TURNS = {
    "NA may stand behind any type": turns(ty=(TY, FN, NA), na=(TY, FN, GO)),
    "NA stands before the functions": turns(ty=(TY, FN, NA), fn=(FN, GO), na=(FN,)),
    "NA may stand first": turns(none=(TY, NA), na=(TY, GO)),
    "a function may follow NA": turns(na=(FN, GO)),
    "a type may follow NA": turns(ty=(TY, FN, GO), na=(TY, GO)),
    "NA may stand behind GO": file(first_pass=behind_go),
    "a second NA is accepted": turns(na=(NA, GO)),
    "a second NA is 3": file(turns={**RuleFile.turns, NA: (NA, GO)}),
    "NA has to stand": turns(fn=(FN, NA)),
    "NA is an unknown mark": turns(fn=(FN, GO)),
    "NA counts as a function": file(first_pass=counted_as_function),
    "a 65th function behind NA is 3": file(first_pass=functions_counted_first),
}


# The number behind NA.

def tested(self, mark, reader, records):
    """Tests the number as it is read."""
    record = RuleFile.record(self, mark, reader, records)
    return known(record, len(records[TY])) if mark == NA else record


def untested(self, types, heads, named, source):
    RuleFile.second_pass(self, types, heads, None, source)


def strange_or_misspelt(self, program, least):
    return program.named is not None and (program.named >= len(program.types) or RuleFile.spelling(self, program, least))


def known_and_misspelt(self, program, least):
    return program.named is not None and program.named < len(program.types) and RuleFile.spelling(self, program, least)


def among_functions(self, types, heads, named, source):
    RuleFile.second_pass(self, types, heads, named, source)
    if named is not None:
        known(named, len(heads))


class Late(RuleFile):
    """The number is tested behind the bodies."""

    def second_pass(self, types, heads, named, source):
        self.named = named
        untested(self, types, heads, named, source)

    def third_pass(self, types, heads):
        functions = RuleFile.third_pass(self, types, heads)
        if self.named is not None:
            known(self.named, len(types))
        return functions


NUMBERS = {
    "the number behind NA is tested in the first pass": file(record=tested),
    "the number behind NA is tested behind the bodies": Late,
    "a number behind NA that does not exist is 15": file(second_pass=untested, spelling=strange_or_misspelt),
    "a number behind NA that does not exist is accepted": file(second_pass=untested, spelling=known_and_misspelt),
    "the number behind NA is compared with the number of functions": file(second_pass=among_functions),
}


# The order of refusals in the file.

class BeforeBodies(RuleFile):
    """The form is tested in the second pass, behind the source's number or before it."""
    source_first = True

    def second_pass(self, types, heads, named, source):
        RuleFile.second_pass(self, types, heads, named, source if self.source_first else 0)
        if named is not None and not spells(types, named):
            raise Refused(SPELLING)
        known(source, len(heads))


class BeforeSource(BeforeBodies):
    source_first = False


def ordered(*names_):
    """The tests behind the passes in this order; a name may have another number behind it."""
    def tests(self):
        numbers = {"hollow": HOLLOW, "shallow": SHALLOW, "spelling": SPELLING}
        return tuple((given[0] if given else numbers[name], getattr(self, name)) for name, *given in names_)
    return file(tests=tests)


ORDER = {
    "15 is tested before 9": ordered(("hollow",), ("spelling",), ("shallow",)),
    "15 is tested before 8": ordered(("spelling",), ("hollow",), ("shallow",)),
    "15 is tested before the bodies": BeforeBodies,
    "15 is tested before the source's number": BeforeSource,
    "4 is given for 15": ordered(("hollow",), ("shallow",), ("spelling", STRANGER)),
    "6 is given for 15": ordered(("hollow",), ("shallow",), ("spelling", MISFIT)),
}


# The form.

def formed(right):
    """The form is right by this, asked of the types and the number of the named one."""
    return file(spelling=lambda self, program, least: program.named is not None and not right(program.types, program.named))


def altered(change):
    """The form is right where it is once the constructors of the named type are changed so."""
    def right(types, number):
        changed = Type(change(types[number].constructors, number))
        return spells([changed if place == number else type_ for place, type_ in enumerate(types)], number)
    return formed(right)


def fields(change):
    """The form is right where it is once the fields of constructor 1 are changed so."""
    return altered(lambda constructors, number: tuple(change(some, number) if place == 1 else some
                                                      for place, some in enumerate(constructors)))


def halves(right):
    """Another test of the halves' constructors."""
    def form(types, number):
        constructors = types[number].constructors
        return ([len(some) for some in constructors] == [0, 3] and constructors[1][2] == number
                and all(right(types[field].constructors) for field in constructors[1][:2]))
    return formed(form)


def sixteen(right):
    return halves(lambda constructors: len(constructors) == 16 and right(constructors))


def also(right):
    """Besides the form something is asked of the types of the halves."""
    return formed(lambda types, number: spells(types, number) and right(*types[number].constructors[1][:2]))


def rest_alike(types, number, seen=()):
    """Whether the type has the form of names, where the rest may be another type that has it."""
    constructors = types[number].constructors
    if number in seen or [len(some) for some in constructors] != [0, 3]:
        return number in seen
    high, low, rest = constructors[1]
    return half(types[high]) and half(types[low]) and rest_alike(types, rest, (*seen, number))


FORM = {
    "the form is not tested": formed(lambda types, number: True),
    "more than two constructors are accepted": altered(lambda constructors, number: constructors[:2]),
    "one constructor is accepted": formed(lambda types, number: spells(types, number) or types[number].constructors == ((),)),
    "constructor 0 may have fields": altered(lambda constructors, number: ((), *constructors[1:])),
    "the constructors may be exchanged": altered(lambda constructors, number: tuple(sorted(constructors, key=len))),
    "constructor 1 may have more fields": fields(lambda some, number: some[:3]),
    "constructor 1 may have one half": fields(lambda some, number: (some[0], *some) if len(some) == 2 else some),
    "the fields may stand in any order": fields(lambda some, number: tuple(sorted(some, key=number.__eq__))),
    "the rest may be of any type": fields(lambda some, number: (*some[:2], number) if len(some) == 3 else some),
    "the rest may be of another type of the form": formed(rest_alike),
    "the high half alone is looked at": fields(lambda some, number: (some[0], some[0], some[2]) if len(some) == 3 else some),
    "the low half alone is looked at": fields(lambda some, number: (some[1], some[1], some[2]) if len(some) == 3 else some),
    "halves may have fewer constructors": halves(lambda constructors: not any(constructors)),
    "halves may have fifteen constructors": halves(lambda constructors: len(constructors) >= 15 and not any(constructors)),
    "halves may have fields": sixteen(lambda constructors: True),
    "of a half the first constructor alone is looked at": sixteen(lambda constructors: not constructors[0]),
    "of a half the last constructor alone is looked at": sixteen(lambda constructors: not constructors[15]),
    "of a half all constructors but the first are looked at": sixteen(lambda constructors: not any(constructors[1:])),
    "of a half all constructors but the last are looked at": sixteen(lambda constructors: not any(constructors[:15])),
    "both halves must be of one type": also(lambda high, low: high == low),
    "the halves must be of two types": also(lambda high, low: high != low),
    "the named type must be that of a source parameter": file(
        spelling=lambda self, program, least: RuleFile.spelling(self, program, least) or program.named not in (None, *program.parameters)),
    "without NA a file is 15": file(spelling=lambda self, program, least: program.named is None or RuleFile.spelling(self, program, least)),
}

FILES = {**TURNS, **NUMBERS, **ORDER, **FORM}


def answer(reading, data):
    """The refusal of a rule file by a `RuleFile` or a misreading of it, or 0."""
    found = reading(data).check()
    return found if isinstance(found, int) else 0


# The order of refusals in the calls.

def unnamed(rule_file):
    """The rule file without its NA."""
    return rule_file[:-10] + rule_file[-7:]


def late(call, before, rule_file, *lent):
    """The call tests for 15 behind these refusals."""
    if check(rule_file) != SPELLING:
        return call(rule_file, *lent)
    given = call(unnamed(rule_file), *lent)
    return given if (given.refusal if isinstance(given, Listing) else given) in before else SPELLING


def never(call, rule_file, *lent):
    """The call does not test for 15."""
    return call(unnamed(rule_file) if check(rule_file) == SPELLING else rule_file, *lent)


RUNS = {
    "15 is tested after 10": partial(late, run, (INPUT,)),
    "15 is tested after 11": partial(late, run, (INPUT, BENCH)),
    "the closed run does not test for 15": partial(never, run),
}


def searches(search):
    """Misreadings of a search, a function of a rule file and the lengths of the slices."""
    return {
        "15 is tested after 11": partial(late, search, (BENCH,)),
        "15 is tested after 12": partial(late, search, (BENCH, FULL)),
        "the search does not test for 15": partial(never, search),
    }


def refused_by(call, *lent):
    """The number by which a call refuses, with slices that no one sees again; 0 for none."""
    try:
        call(*map(bytearray, lent))
    except Refused as refusal:
        return refusal.number
    return 0


def handed(before):
    """The text calls test for 15 behind these refusals; with None they do not test for it."""
    class Misread(Handed):
        def __init__(self, rule_file, data, full):
            self.misspelt = check(rule_file) == SPELLING
            super().__init__(unnamed(rule_file) if self.misspelt else rule_file, data, full)

        def asked(self, call, *lent):
            number = refused_by(call, *lent)
            if self.misspelt and before is not None and number not in before:
                raise Refused(SPELLING)
            return call(*lent)

        def length(self):
            return self.asked(super().length)

        def write(self, lent):
            return self.asked(super().write, lent)

    return Misread


TEXTS = {
    "15 is tested after 14": handed((SCRAP,)),
    "15 is tested after 13": handed((SCRAP, PAGE)),
    "the text calls do not test for 15": handed(None),
}
