"""Names: how entries are filled, what the values of the type that NA names spell, and what the program `namelist` prints.

A name is a list of bytes in Latin-1. Constructor 0 ends it; constructor 1 is a byte in two halves, the high one first, before the
rest of the name. Every open part of the source parameters of the named type is filled, at each place by the first constructor of
least depth. This is done for any type here, though an open name always ends where it is open, and an open half is 0.
"""

from functools import lru_cache

from blind.enumerate import MOST_INPUTS, OPEN, Listing, program_search
from blind.evaluate import Value
from blind.rulefile import check, least_depths


def prefix(value):
    """A closed value in prefix form."""
    return bytes([value.constructor]) + b"".join(map(prefix, value.fields))


class Names:
    """The names of a program's entries. Each method answers one question, so that `blind.misname` can answer it wrongly."""

    def __init__(self, program):
        self.program = program
        self.least = least_depths(program.types)
        self.shallowest = lru_cache(maxsize=None)(self.shallowest)

    # Filling.

    def chosen(self, type_):
        """The first constructor of least depth: each of its fields has a lesser least depth than the type."""
        return next(number for number, fields in enumerate(self.program.types[type_].constructors)
                    if all(self.least[field] < self.least[type_] for field in fields))

    def shallowest(self, type_):
        """The value that fills an open part of this type."""
        constructor = self.chosen(type_)
        return Value(constructor, tuple(self.shallowest(field) for field in self.program.types[type_].constructors[constructor]))

    def value(self, type_, rest):
        """Takes a partial value in prefix form off an iterator over bytes, and fills it."""
        constructor = next(rest)
        if constructor == OPEN:
            return self.shallowest(type_)
        return Value(constructor, tuple(self.value(field, rest) for field in self.program.types[type_].constructors[constructor]))

    def size(self, type_, data, place):
        """The number of bytes of the partial value that begins at this place."""
        if data[place] == OPEN:
            return 1
        end = place + 1
        for field in self.program.types[type_].constructors[data[place]]:
            end += self.size(field, data, end)
        return end - place

    def parameters(self, entry):
        """Per source parameter its type and its partial value in prefix form."""
        found, place = [], 0
        for type_ in self.program.parameters:
            size = self.size(type_, entry.parameters, place)
            found.append((type_, entry.parameters[place:place + size]))
            place += size
        return found

    def named(self, type_):
        """Whether a parameter of this type is printed."""
        return type_ == self.program.named

    def filled(self, entry):
        """The parameters of the named type, filled."""
        return [self.value(type_, iter(data)) for type_, data in self.parameters(entry) if self.named(type_)]

    # Spelling.

    def byte(self, high, low):
        return 16 * high.constructor + low.constructor

    def spelt(self, value):
        """The bytes of the name that a value of the named type spells."""
        name = []
        while value.constructor == 1:
            high, low, value = value.fields
            name.append(self.byte(high, low))
        return bytes(name)

    def utf8(self, byte):
        """The UTF-8 of a Latin-1 byte."""
        return bytes([byte]) if byte < 128 else bytes([192 + byte // 64, 128 + byte % 64])

    def names(self, entry):
        """The names of the entry, one for each parameter of the named type."""
        return [self.spelt(value) for value in self.filled(entry)]

    def encoded(self, name):
        """The UTF-8 of a name."""
        return b"".join(map(self.utf8, name))

    # Printing.

    def numbers(self, name):
        """What is printed of a name: its Latin-1 bytes, then its UTF-8 bytes."""
        return name + self.encoded(name)

    def line(self, name):
        return " ".join(map(str, self.numbers(name))) + "\n"

    def lines(self, entry):
        """One line for each name of the entry."""
        return "".join(map(self.line, self.names(entry)))

    def listed(self, entries):
        """The lines of the entries, in their order."""
        return "".join(map(self.lines, entries))

    def closing(self, listing):
        """The last line, which a list has that 12 cut short."""
        return refused(listing.refusal) if listing.refusal else ""

    def text(self, listing):
        return self.listed(listing.entries) + self.closing(listing)


def refused(number):
    return f"refused {number}\n"


def printed(program, answer, names=Names):
    """The text that the program `namelist` prints for what a search of the program returned, or for the number of a refusal; `names` is
    `Names` or a misreading of it."""
    return names(program).text(answer) if isinstance(answer, Listing) else refused(answer)


def namelist(rule_file, most_inputs=MOST_INPUTS):
    """The text that the program `namelist` prints for a rule file."""
    return printed(check(rule_file), program_search(rule_file, most_inputs))
