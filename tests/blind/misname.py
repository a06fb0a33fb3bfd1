"""Names with one thing misread, for the test of the tests: each misreading must change what some stored cases expect.

Each is a `Names` with one of its methods answering otherwise.
"""

from blind.enumerate import OPEN, WORDS, printed
from blind.evaluate import MISSING, REACHED, UNFINISHED
from blind.names import Names, prefix, refused
from blind.rulefile import SPELLING, spells


def names(**methods):
    return type("Misread", (Names,), methods)


# Filling. In prefix form a name is three numbers for each byte, 1 and its halves, and then its end; all but the 1 may be open.

def last_of_least_depth(self, type_):
    return max(number for number, fields in enumerate(self.program.types[type_].constructors)
               if all(self.least[field] < self.least[type_] for field in fields))


def parts(self, entry):
    """The names of an entry, each with its prefix form."""
    return zip(Names.names(self, entry), [data for type_, data in self.parameters(entry) if self.named(type_)])


def respelt(spell):
    """The name of a parameter is made so from its name and its prefix form."""
    return names(names=lambda self, entry: [spell(self, name, data) for name, data in parts(self, entry)])


def left_out(left):
    """A name whose prefix form is so has no line."""
    return names(names=lambda self, entry: [name for name, data in parts(self, entry) if not left(data)])


def halves(data):
    """The halves of each byte of a name, which may be open."""
    return [(data[place], data[place + 1]) for place in range(1, len(data) - 1, 3)]


def by_halves(byte):
    """Each byte of a name is made so from its halves, or is left out where that is None."""
    def spell(self, name, data):
        made = [byte(*both) for both in halves(data)]
        return bytes(number for number in made if number is not None)
    return respelt(spell)


def bound(*some):
    """The first of some halves that is bound, or 0."""
    return next((half for half in some if half != OPEN), 0)


def to_first_open(self, name, data):
    return name[:next((place for place, both in enumerate(halves(data)) if OPEN in both), len(name))]


def to_depth(self, name, data):
    return name.ljust(self.program.depth - 1, b"\0") if data[-1] == OPEN else name


def with_open_marks(self, entry):
    """A byte with an open half is `_`, in Latin-1 and in UTF-8."""
    lines = []
    for name, data in parts(self, entry):
        opened = [OPEN in both for both in halves(data)]
        latin1 = ["_" if open_ else str(byte) for byte, open_ in zip(name, opened)]
        utf8 = ["_" if open_ else " ".join(map(str, self.utf8(byte))) for byte, open_ in zip(name, opened)]
        lines.append(" ".join(latin1 + utf8) + "\n")
    return "".join(lines)


FILLING = {
    "the last constructor of least depth is chosen": names(chosen=last_of_least_depth),
    "an open name has one byte more": respelt(lambda self, name, data: name + bytes(data[-1] == OPEN)),
    "an open name goes on to the depth": respelt(to_depth),
    "an open half ends the name": respelt(to_first_open),
    "an open half takes the other half's number": by_halves(lambda high, low: 16 * bound(high, low) + bound(low, high)),
    "an open low half leaves the high one alone": by_halves(lambda high, low: bound(high) if low == OPEN else 16 * bound(high) + low),
    "a byte with an open half is left out": by_halves(lambda high, low: None if OPEN in (high, low) else 16 * high + low),
    "a byte with an open half is `_`": names(lines=with_open_marks),
    "a name with an open part has no line": left_out(lambda data: OPEN in data),
    "a name that is open as a whole has no line": left_out(lambda data: data[0] == OPEN),
    "a name with an open part is empty": respelt(lambda self, name, data: b"" if OPEN in data else name),
}


# Which parameters.

def all_filled(self, entry):
    """Parameters of other types are filled and printed in prefix form."""
    lines = []
    for type_, data in self.parameters(entry):
        value = self.value(type_, iter(data))
        lines.append(self.line(self.spelt(value)) if self.named(type_) else " ".join(map(str, prefix(value))) + "\n")
    return "".join(lines)


def of_the_form(self, type_):
    return self.program.named is not None and spells(self.program.types, type_)


def inside(self, entry):
    """Names inside other parameters are printed too."""
    def found(type_, value):
        if self.named(type_):
            return [value]
        fields = self.program.types[type_].constructors[value.constructor]
        return [name for field, some in zip(fields, value.fields) for name in found(field, some)]
    return [self.spelt(name) for type_, data in self.parameters(entry) for name in found(type_, self.value(type_, iter(data)))]


def as_in_function_0(self, entry):
    """The parameters are chosen by the types that function 0 has."""
    first = self.program.functions[0].parameters
    return [self.spelt(self.value(type_, iter(data))) for (type_, data), there in zip(self.parameters(entry), first)
            if self.named(there) and self.named(type_)]


def on_one_line(self, entry):
    found = [self.line(name)[:-1] for name in self.names(entry)]
    return " ".join(found) + "\n" if found else ""


def by_parameter(self, entries):
    """All names of the first parameter, then all of the second, and so on."""
    rows = [self.names(entry) for entry in entries]
    return "".join(self.line(row[place]) for place in range(8) for row in rows if place < len(row))


def some_names(choose):
    return names(names=lambda self, entry: choose(Names.names(self, entry)))


PARAMETERS = {
    "parameters of other types are filled and printed too": names(lines=all_filled),
    "parameters of other types of the form are printed too": names(named=of_the_form),
    "names inside other parameters are printed too": names(names=inside),
    "the first name of an entry alone is printed": some_names(lambda found: found[:1]),
    "the last name of an entry alone is printed": some_names(lambda found: found[-1:]),
    "the last name of an entry comes first": some_names(lambda found: found[::-1]),
    "the names of an entry are printed as one": some_names(lambda found: [b"".join(found)] if found else []),
    "the names of an entry stand on one line": names(lines=on_one_line),
    "equal names of an entry are printed once": some_names(lambda found: list(dict.fromkeys(found))),
    "names are printed parameter by parameter": names(listed=by_parameter),
    "the parameters are those of function 0": names(names=as_in_function_0),
}


# Spelling.

def bytes_changed(change):
    return names(spelt=lambda self, value: change(Names.spelt(self, value)))


SPELLINGS = {
    "the low half comes first": names(byte=lambda self, high, low: 16 * low.constructor + high.constructor),
    "a byte has seven bits": names(byte=lambda self, high, low: Names.byte(self, high, low) % 128),
    "the last byte comes first": bytes_changed(lambda name: name[::-1]),
    "a zero byte ends the name": bytes_changed(lambda name: name.split(b"\0")[0]),
    "zero bytes are left out": bytes_changed(lambda name: name.replace(b"\0", b"")),
    "the first byte is left out": bytes_changed(lambda name: name[1:]),
    "the last byte is left out": bytes_changed(lambda name: name[:-1]),
}


def from_128(numbers):
    """Other UTF-8 from 128 on."""
    return names(utf8=lambda self, byte: Names.utf8(self, byte) if byte < 128 else bytes(numbers(byte)))


def as_they_are(*some):
    """The UTF-8 of these bytes is the byte itself."""
    return names(utf8=lambda self, byte: bytes([byte]) if byte in some else Names.utf8(self, byte))


ENCODINGS = {
    "192 + v div 32, 128 + v mod 64": from_128(lambda byte: (192 + byte // 32, 128 + byte % 64)),
    "192 + v div 64, 128 + v mod 32": from_128(lambda byte: (192 + byte // 64, 128 + byte % 32)),
    "192 + v div 64, v mod 64": from_128(lambda byte: (192 + byte // 64, byte % 64)),
    "192 + v div 64, 192 + v mod 64": from_128(lambda byte: (192 + byte // 64, 192 + byte % 64)),
    "128 + v div 64, 128 + v mod 64": from_128(lambda byte: (128 + byte // 64, 128 + byte % 64)),
    "128 + v mod 64, 192 + v div 64": from_128(lambda byte: (128 + byte % 64, 192 + byte // 64)),
    "194 for every byte from 128 on": from_128(lambda byte: (194, 128 + byte % 64)),
    "195 for every byte from 128 on": from_128(lambda byte: (195, 128 + byte % 64)),
    "three bytes from 128 on": from_128(lambda byte: (224, 128 + byte // 64, 128 + byte % 64)),
    "63 from 128 on": from_128(lambda byte: (63,)),
    "bytes from 128 on are as they are": as_they_are(*range(128, 256)),
    "bytes from 128 to 159 are as they are": as_they_are(*range(128, 160)),
    "128 is as it is": as_they_are(128),
    "127 has two bytes": names(utf8=lambda self, byte: bytes([193, 191]) if byte == 127 else Names.utf8(self, byte)),
    "bytes from 128 to 159 are those of Windows-1252": names(utf8=lambda self, byte: bytes([byte]).decode("cp1252", "replace").encode()),
}


# Lines.

def numbered(numbers):
    """Other numbers of a name, by its Latin-1 bytes and its UTF-8 bytes."""
    return names(numbers=lambda self, name: numbers(name, self.encoded(name)))


def written(line):
    """Another line, by the numbers in words."""
    return names(line=lambda self, name: line([str(number) for number in self.numbers(name)]) + "\n")


def both_written(line):
    """Another line, by the Latin-1 bytes and the UTF-8 bytes in words."""
    return names(line=lambda self, name: line(" ".join(map(str, name)), " ".join(map(str, self.encoded(name)))) + "\n")


def interleaved(self, name):
    return b"".join(bytes([byte]) + self.utf8(byte) for byte in name)


LINES = {
    "the two readings of a byte stand together": names(numbers=interleaved),
    "UTF-8 comes first": numbered(lambda latin1, utf8: utf8 + latin1),
    "Latin-1 alone is printed": numbered(lambda latin1, utf8: latin1),
    "UTF-8 alone is printed": numbered(lambda latin1, utf8: utf8),
    "UTF-8 is printed where it differs alone": numbered(lambda latin1, utf8: latin1 if latin1 == utf8 else latin1 + utf8),
    "Latin-1 and UTF-8 stand on a line each": both_written("{}\n{}".format),
    "two spaces part Latin-1 and UTF-8": both_written(lambda latin1, utf8: f"{latin1}  {utf8}" if latin1 else ""),
    "a line has a space at its end": written(lambda words: "".join(word + " " for word in words)),
    "a line has a space at its beginning": written(lambda words: "".join(" " + word for word in words)),
    "commas part the numbers": written(",".join),
    "a line ends with a carriage return": written(lambda words: " ".join(words) + "\r"),
    "an empty name is a space": written(lambda words: " ".join(words) or " "),
    "an empty name is `_`": written(lambda words: " ".join(words) or "_"),
    "an empty name has no line": some_names(lambda found: [name for name in found if name]),
    "numbers are hexadecimal": written(lambda words: " ".join(f"{int(word):X}" for word in words)),
    "numbers have three digits": written(lambda words: " ".join(word.zfill(3) for word in words)),
    "the number of bytes comes first": names(line=lambda self, name: " ".join(map(str, (len(name), *self.numbers(name)))) + "\n"),
    "the letters themselves are printed": names(line=lambda self, name: name.decode("latin-1") + "\n"),
}


# Which entries.

def entries_if(kept):
    return names(listed=lambda self, entries: Names.listed(self, filter(kept, entries)))


def rearranged(change):
    """The entries' lines are changed so."""
    return names(listed=lambda self, entries: "".join(change([self.lines(entry) for entry in entries])))


def not_again(lines):
    return [line for place, line in enumerate(lines) if place == 0 or line != lines[place - 1]]


def headed(word):
    """A word of the entry stands before each of its names."""
    return names(lines=lambda self, entry: "".join(" ".join([word(entry), *self.line(name).split()]) + "\n" for name in self.names(entry)))


ENTRIES = {
    "entries that reach the target alone": entries_if(lambda entry: entry.end == REACHED),
    "no unfinished entries": entries_if(lambda entry: entry.end != UNFINISHED),
    "no missing entries": entries_if(lambda entry: entry.end != MISSING),
    "no names with the verdict none": names(text=lambda self, listing: "" if listing.verdict == "none" else Names.text(self, listing)),
    "the first entry alone": rearranged(lambda lines: lines[:1]),
    "equal entries once": rearranged(dict.fromkeys),
    "equal entries that follow each other once": rearranged(not_again),
    "entries in the order of their lines": rearranged(sorted),
    "the last entry first": rearranged(reversed),
    "the kind before each name": headed(lambda entry: WORDS[entry.end]),
    "the steps before each name": headed(lambda entry: str(entry.steps)),
    "an empty line behind each entry": names(lines=lambda self, entry: Names.lines(self, entry) + "\n"),
}


# The end of the text, and files without NA.

def last_line(listing):
    """The last line that `reachlist` prints."""
    return printed(listing).splitlines(True)[-1]


def verdict_line(self, listing):
    return Names.closing(self, listing) or f"{listing.verdict}\n"


def closing_first(self, listing):
    return self.closing(listing) + self.listed(listing.entries)


def cut_unlisted(self, listing):
    """Where 12 cut the list short, no name is printed."""
    return self.closing(listing) or self.listed(listing.entries)


def without_na(text):
    """Another text for a file without NA, by the list."""
    return names(text=lambda self, listing: text(listing) if self.program.named is None else Names.text(self, listing))


def unnamed_type(number):
    """Without NA the type of this number is the named one, if it has the form."""
    def named(self, type_):
        place = number % len(self.program.types)
        return type_ == (place if self.program.named is None and spells(self.program.types, place) else self.program.named)
    return names(named=named)


CLOSING = {
    "a total line closes the text": names(closing=lambda self, listing: last_line(listing)),
    "a line with the verdict closes the text": names(closing=verdict_line),
    "the line of 12 comes first": names(text=closing_first),
    "12 has no line": names(closing=lambda self, listing: ""),
    "with 12 no name is printed": names(text=cut_unlisted),
    "without NA the text is that of reachlist": without_na(printed),
    "without NA there is a total line": without_na(last_line),
    "without NA each entry has an empty line": without_na(lambda listing: "\n" * len(listing.entries)),
    "without NA the file is refused by 15": without_na(lambda listing: refused(SPELLING)),
    "without NA 12 has no line": without_na(lambda listing: ""),
    "without NA the first type is named": unnamed_type(0),
    "without NA the last type is named": unnamed_type(-1),
}

NAMES = {**FILLING, **PARAMETERS, **SPELLINGS, **ENCODINGS, **LINES, **ENTRIES, **CLOSING}
