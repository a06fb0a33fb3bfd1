"""What namelist prints, worked out from what reachlist prints: the blind side reads the types of the rule file, and Python's own codecs turn
Latin-1 into UTF-8."""

from blind.rulefile import read

GO = 7  # bytes of the last record


def named_type(data):
    """The type that an accepted rule file has spell names, or None. NA stands before GO, and no body ends as it does."""
    before = data[:-GO]
    return before[-1] if before[-3:-1] == b"NA" else None


def value(program, type_, words):
    """The next value of the words: its constructor and its fields. Open names are filled by their end and open halves by 0, both number 0; parts
    of other types are not looked at."""
    word = next(words)
    if word == "_":
        return 0, []
    return int(word), [value(program, field, words) for field in program.types[type_].constructors[int(word)]]


def spelled(name):
    """The bytes that a name spells."""
    found = []
    while name[0] == 1:
        high, low, name = name[1]
        found.append(16 * high[0] + low[0])
    return bytes(found)


def names(program, named, line):
    """The names of an entry, as bytes."""
    words = iter(line.split()[2:])
    values = [(type_, value(program, type_, words)) for type_ in program.parameters]
    return [spelled(name) for type_, name in values if type_ == named]


def name_lines(data, printed):
    """What namelist prints for a rule file for which reachlist prints this."""
    *entries, last = printed.splitlines()
    program = read(data) if entries else None
    found = [name for line in entries for name in names(program, named_type(data), line)]
    lines = [" ".join(map(str, [*name, *name.decode("latin-1").encode()])) for name in found]
    return "".join(line + "\n" for line in lines + [last] * last.startswith("refused"))
