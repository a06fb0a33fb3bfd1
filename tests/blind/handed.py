"""Lists handed in with their rule file: the calls that give the length of a list's text, and that write it into a lent slice.

The list need not be one that a search of the rule file returned. It is scrap only where it is too long, or is not whole entries
of known kinds whose parameters and steps fit the rule file. `full` says that the search ended in 12: the text then closes with
the refusal line. Both calls raise `Refused`: with 1 to 9 or 15 for the rule file, then with 14, and the writer last with 13.
"""

from functools import cached_property

from blind.enumerate import MARKS, OPEN, ROOM, Entry, Listing, printed, verdict
from blind.rulefile import PAGE, SCRAP, Reader, Refused, least_depths, read

ENDS = {mark: end for end, mark in MARKS.items()}


def scrap_unless(right):
    if not right:
        raise Refused(SCRAP)


class Handed:
    """A list handed in with its rule file. Each method answers one question, so that `blind.misread` can answer it wrongly."""

    def __init__(self, rule_file, data, full):
        self.rule_file, self.data, self.full = rule_file, data, full

    @cached_property
    def program(self):
        """What the rule file holds; raises `Refused` with 1 to 9 or 15."""
        return read(self.rule_file)

    @cached_property
    def least(self):
        """The types' least depths."""
        return least_depths(self.program.types)

    # The list.

    def entries(self):
        """The entries into which their headers divide the list, one by one; what they hold is not looked at."""
        scrap_unless(len(self.data) <= ROOM)
        reader = Reader(self.data, 0, len(self.data))
        while not reader.at_end():
            yield self.entry(reader)

    def entry(self, reader):
        """Reads an entry by its header."""
        try:
            mark, steps, length = reader.mark(), reader.pair(), reader.pair()
            start = reader.place
            reader.skip(length)
        except Refused:
            raise Refused(SCRAP) from None
        scrap_unless(mark in ENDS)
        return Entry(ENDS[mark], steps, self.data[start:reader.place])

    def fitting_steps(self, entry):
        return entry.steps <= self.program.steps

    def fields(self, type_, constructor):
        """The types of the constructor's fields."""
        constructors = self.program.types[type_].constructors
        scrap_unless(constructor < len(constructors))
        return constructors[constructor]

    def walk(self, parameters):
        """Goes through the bytes of an entry's parameters: per byte the type of the part that it begins, the number of constructors
        above that part, and the byte; then the parts still due where the bytes end, and the bytes behind the last part due."""
        found, due = [], [(type_, 0) for type_ in reversed(self.program.parameters)]  # the next part due comes last
        for place, byte in enumerate(parameters):
            if not due:
                return found, due, parameters[place:]
            type_, above = due.pop()
            found.append((type_, above, byte))
            if byte != OPEN:
                due.extend((field, above + 1) for field in reversed(self.fields(type_, byte)))
        return found, due, b""

    def parts(self, parameters):
        """The parts of one value per parameter that these bytes are, no more and no less."""
        found, due, behind = self.walk(parameters)
        scrap_unless(not due and not behind)
        return found

    def own_depth(self, type_, byte):
        """The depth of a part whose fields are left aside: they are parts themselves, with one constructor more above them."""
        return self.least[type_] if byte == OPEN else 1

    def fitting_depth(self, parts):
        """Whether no value is deeper than D: a value is as deep as its deepest part, with the constructors above that, makes it."""
        return all(above + self.own_depth(type_, byte) <= self.program.depth for type_, above, byte in parts)

    def listed(self):
        """The entries of a list that is no scrap."""
        _ = self.program  # its refusals come first
        entries = tuple(self.entries())
        scrap_unless(all(self.fitting_steps(entry) for entry in entries))
        for parameters in {entry.parameters for entry in entries}:
            scrap_unless(self.fitting_depth(self.parts(parameters)))
        return entries

    # The text.

    def closed(self, entries):
        """The text of the entries with its last line."""
        return printed(Listing(entries, None if self.full else verdict(entries)))

    def text(self):
        return self.closed(self.listed()).encode()

    def length(self):
        return len(self.text())

    def write(self, lent):
        """Writes the text to the front of the lent slice, and gives its length."""
        text = self.text()
        if len(lent) < len(text):
            raise Refused(PAGE)
        lent[:len(text)] = text
        return len(text)


def text_length(rule_file, data, full):
    """The length of the list's text in bytes."""
    return Handed(rule_file, data, full).length()


def write_text(rule_file, data, full, lent):
    """Writes the list's text into a lent bytearray, and gives its length; the bytes behind it are as before, with a refusal all."""
    return Handed(rule_file, data, full).write(lent)
