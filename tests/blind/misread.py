"""The text calls with one thing misread, for the test of the tests: each misreading must change what some stored cases expect.

Each is a `Handed` with one of its methods answering otherwise.
"""

from blind.enumerate import OPEN, Listing, TooMany, all_entries, printed, tally, verdict
from blind.evaluate import MISSING, UNFINISHED
from blind.handed import Handed, scrap_unless
from blind.rulefile import MAX_STEPS, PAGE, Refused
from blind.wrong import SHARES, ended_by


def misread(**methods):
    return type("Misread", (Handed,), methods)


# The order of refusals.

def whole_entries(self):
    """The entries before the first place where the list cannot be read."""
    found = []
    try:
        for entry in Handed.entries(self):
            found.append(entry)
    except Refused:
        pass
    return tuple(found)


def length_of_whole_entries(self):
    """The length of the text, as far as the list can be read."""
    return len(self.closed(whole_entries(self)).encode())


def page_before_file(self, lent):
    if len(lent) < length_of_whole_entries(self):
        raise Refused(PAGE)
    return Handed.write(self, lent)


def page_before_scrap(self, lent):
    _ = self.program
    return page_before_file(self, lent)


def length_of_scrap(self):
    _ = self.program
    return length_of_whole_entries(self)


def scrap_first(self):
    """Tests before the rule file what can be seen without it."""
    tuple(self.entries())
    return Handed.listed(self)


ORDER = {
    "13 is tested before 14": misread(write=page_before_scrap),
    "13 is tested before the rule file": misread(write=page_before_file),
    "14 is tested before the rule file": misread(listed=scrap_first),
    "14 is tested by the writer alone": misread(length=length_of_scrap),
}


# What is scrap.

def outermost_alone(self, parts):
    """Of each parameter its outermost constructor alone, with the least depths of its fields, or its open part."""
    def depth(type_, byte):
        return self.least[type_] if byte == OPEN else 1 + max((self.least[field] for field in self.fields(type_, byte)), default=0)
    return all(depth(type_, byte) <= self.program.depth for type_, above, byte in parts if above == 0)


def first_parameter(self, parts):
    second = next((place for place, (_, above, _) in enumerate(parts) if place and above == 0), len(parts))
    return Handed.fitting_depth(self, parts[:second])


def apart_from_above(self, parts):
    return Handed.fitting_depth(self, [(type_, 0 if byte == OPEN else above, byte) for type_, above, byte in parts])


def limited_by(more):
    return lambda self, parts: all(above + self.own_depth(type_, byte) <= self.program.depth + more for type_, above, byte in parts)


DEPTHS = {
    "an open part is 0 deep, or has no depth to be tested": misread(own_depth=lambda self, type_, byte: 0 if byte == OPEN else 1),
    "an open part is 1 deep": misread(own_depth=lambda self, type_, byte: 1),
    "the constructors above an open part do not count": misread(fitting_depth=apart_from_above),
    "the depth of the outermost constructor alone is tested": misread(fitting_depth=outermost_alone),
    "the depth of the first parameter alone is tested": misread(fitting_depth=first_parameter),
    "no depth is tested": misread(fitting_depth=lambda self, parts: True),
    "a value may be one deeper than D": misread(fitting_depth=limited_by(1)),
    "a value of depth D is too deep": misread(fitting_depth=limited_by(-1)),
}


def bytes_behind(self, parameters):
    found, due, _ = self.walk(parameters)
    scrap_unless(not due)
    return found


def lacking_are_open(self, parameters):
    found, due, behind = self.walk(parameters)
    scrap_unless(not behind)
    return found + [(type_, above, OPEN) for type_, above in due]


def no_fields_if_unknown(self, type_, constructor):
    constructors = self.program.types[type_].constructors
    return constructors[constructor] if constructor < len(constructors) else ()


def known_without_missing(self, reader):
    entry = Handed.entry(self, reader)
    scrap_unless(entry.end != MISSING)
    return entry


SHAPES = {
    "bytes behind the parameters are accepted": misread(parts=bytes_behind),
    "bytes behind the last whole entry are accepted": misread(entries=whole_entries),
    "parameters that lack at the end are taken for open": misread(parts=lacking_are_open),
    "a constructor that its type lacks is taken for one without fields": misread(fields=no_fields_if_unknown),
    "a missing alternative is no known kind": misread(entry=known_without_missing),
    "steps are compared with 4,096": misread(fitting_steps=lambda self, entry: entry.steps <= MAX_STEPS),
    "steps are not looked at": misread(fitting_steps=lambda self, entry: True),
    "S steps are too many": misread(fitting_steps=lambda self, entry: entry.steps < self.program.steps),
    "the steps' low byte alone is looked at": misread(fitting_steps=lambda self, entry: entry.steps % 256 <= self.program.steps),
    "an unfinished entry with fewer than S steps is scrap": misread(
        fitting_steps=lambda self, entry: entry.steps == self.program.steps or entry.steps < self.program.steps and entry.end != UNFINISHED),
}


# What is no scrap.

MOST_INPUTS = 200  # closed inputs that are run for the search's own list


def own_list(self):
    """The list of the rule file's search, or None where it is too long to be made here."""
    try:
        return all_entries(self.program, MOST_INPUTS)
    except TooMany:
        return None


def accepted_if(right):
    """Scrap is also what is not right by this, asked of the entries and the search's own list."""
    def listed(self):
        entries, own = Handed.listed(self), own_list(self)
        scrap_unless(own is None or right(entries, own))
        return entries
    return misread(listed=listed)


ODD = {
    "an empty list is scrap": accepted_if(lambda entries, own: entries),
    "a repeated entry is scrap": accepted_if(lambda entries, own: len(set(entries)) == len(entries)),
    "a false entry is scrap": accepted_if(lambda entries, own: set(entries) <= set(own)),
    "entries out of order are scrap": accepted_if(
        lambda entries, own: (places := [own.index(entry) for entry in entries if entry in own]) == sorted(places)),
}


# The text and the slice.

def own_verdict(self, entries):
    own = own_list(self)
    return printed(Listing(entries, None if self.full else verdict(entries if own is None else own)))


def total(self, entries):
    return printed(Listing(entries, verdict(entries)))


def total_and_refusal(self, entries):
    return total(self, entries) + ("refused 12\n" if self.full else "")


def lines(entries):
    return "".join(entry.line() for entry in entries)


def entries_alone(self, entries):
    return lines(entries) if self.full else Handed.closed(self, entries)


def shared(share_of):
    """The total line has this share, worked out from the numbers of entries by kind."""
    total_line = ended_by(share_of)
    return misread(closed=lambda self, entries: Handed.closed(self, entries) if self.full else lines(entries) + total_line(*tally(entries)))


TEXTS = {
    "the verdict is that of the rule file's search": misread(closed=own_verdict),
    "the total line stands there after 12 too": misread(closed=total),
    "both lines stand there after 12": misread(closed=total_and_refusal),
    "no line closes the text after 12": misread(closed=entries_alone),
    "the length counts the total line after 12 too": misread(length=lambda self: len(total(self, self.listed()))),
    **{error: shared(share_of) for error, share_of in SHARES.items()},
}


def first_written(number):
    """A slice that is too short gets so many bytes of the text, if it has them."""
    def write(self, lent):
        text = self.text()
        if len(lent) < len(text):
            lent[:number] = text[:min(number, len(lent))]
        return Handed.write(self, lent)
    return misread(write=write)


def cut(self, lent):
    """A slice that is too short gets what fits, and nothing is refused."""
    text = self.text()[:len(lent)]
    lent[:len(text)] = text
    return len(text)


def just_enough_is_short(self, lent):
    if len(lent) == self.length():
        raise Refused(PAGE)
    return Handed.write(self, lent)


def cleared(behind):
    """As many bytes behind the text become 0."""
    def write(self, lent):
        length = Handed.write(self, lent)
        more = min(len(lent) - length, behind)
        lent[length:length + more] = bytes(more)
        return length
    return misread(write=write)


SLICES = {
    "a byte is written before 13": first_written(1),
    "a slice that is too short is filled as far as it goes": first_written(1 << 24),
    "a slice that is too short is filled and not refused": misread(write=cut),
    "a slice of just the length is too short": misread(write=just_enough_is_short),
    "a zero byte ends the text": cleared(1),
    "the slice is cleared behind the text": cleared(1 << 24),
}

MISREADINGS = {**ORDER, **DEPTHS, **SHAPES, **ODD, **TEXTS, **SLICES}
