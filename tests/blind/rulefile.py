"""Rule files: their reader and checker.

`check` takes the bytes of a rule file and gives the `Program` that they hold or the number of the refusal, 1 to 9 or 15.
"""

from dataclasses import dataclass
from functools import lru_cache

SHORT, MARK, RANGE, STRANGER, CODE, MISFIT, TAIL, HOLLOW, SHALLOW, INPUT, BENCH, FULL, PAGE, SCRAP, SPELLING = range(1, 16)

TY, FN, NA, GO = b"TY", b"FN", b"NA", b"GO"

MAX_FILE = 16384
MAX_TYPES = 32
MAX_CONSTRUCTORS = 16
MAX_FIELDS = 6
MAX_FUNCTIONS = 64
MAX_PARAMETERS = 8
MAX_BODY = 1024
MAX_DEPTH = 64
MAX_STEPS = 4096
MAX_NESTING = 32
MAX_VIEW = 32


class Refused(Exception):
    """A rule file, an input or a lent slice is turned back; `number` says why."""

    def __init__(self, number):
        super().__init__(number)
        self.number = number


# Expressions. A type is its number; a list of types is a tuple of numbers.

@dataclass(frozen=True)
class Variable:
    number: int


@dataclass(frozen=True)
class Call:
    function: int
    arguments: tuple


@dataclass(frozen=True)
class Construction:
    type: int
    constructor: int
    fields: tuple


@dataclass(frozen=True)
class Case:
    type: int
    scrutinee: object
    alternatives: tuple  # per constructor an expression, or None where there is no alternative


@dataclass(frozen=True)
class Let:
    type: int
    bound: object
    body: object


@dataclass(frozen=True)
class Target:
    label: int
    inner: object


@dataclass(frozen=True)
class Type:
    constructors: tuple  # per constructor the types of its fields


@dataclass(frozen=True)
class Function:
    parameters: tuple
    result: int
    body: object


@dataclass(frozen=True)
class Program:
    types: tuple
    functions: tuple
    source: int
    label: int
    depth: int
    steps: int
    named: object = None  # the type whose values spell names, or None without NA

    @property
    def parameters(self):
        """The types of the source function's parameters."""
        return self.functions[self.source].parameters


class Reader:
    """Reads the bytes from `place` up to `end`; a byte wanted beyond `end` is refused as short."""

    def __init__(self, data, place, end):
        self.data, self.place, self.end = data, place, end

    def at_end(self):
        return self.place == self.end

    def byte(self):
        if self.at_end():
            raise Refused(SHORT)
        self.place += 1
        return self.data[self.place - 1]

    def pair(self):
        """A two-byte number, low byte first."""
        low = self.byte()
        return low + 256 * self.byte()

    def mark(self):
        return bytes([self.byte(), self.byte()])

    def skip(self, length):
        if self.end - self.place < length:
            raise Refused(SHORT)
        self.place += length


def within(number, least, most):
    """The number, where it lies within its limits."""
    if not least <= number <= most:
        raise Refused(RANGE)
    return number


def known(number, count):
    """The number, where something bears it."""
    if number >= count:
        raise Refused(STRANGER)
    return number


# The records, behind their marks.

@dataclass(frozen=True)
class Head:
    """A function before its body is read: the body lies from `start` to `end`."""
    parameters: tuple
    result: int
    start: int
    end: int


def read_type(reader):
    constructors = []
    for _ in range(within(reader.byte(), 1, MAX_CONSTRUCTORS)):
        fields = within(reader.byte(), 0, MAX_FIELDS)
        constructors.append(tuple(reader.byte() for _ in range(fields)))
    return Type(tuple(constructors))


def read_head(reader):
    count = within(reader.byte(), 0, MAX_PARAMETERS)
    parameters = tuple(reader.byte() for _ in range(count))
    result = reader.byte()
    length = within(reader.pair(), 1, MAX_BODY)
    start = reader.place
    reader.skip(length)
    return Head(parameters, result, start, reader.place)


def read_go(reader):
    source = reader.byte()
    label = reader.byte()
    depth = within(reader.byte(), 1, MAX_DEPTH)
    steps = within(reader.pair(), 0, MAX_STEPS)
    return source, label, depth, steps


RECORDS = {TY: read_type, FN: read_head, NA: Reader.byte, GO: read_go}


# The bodies.

class BodyReader:
    """Reads the one expression that a body is."""

    def __init__(self, data, types, heads, head):
        self.types, self.heads, self.head = types, heads, head
        self.reader = Reader(data, head.start, head.end)

    def body(self):
        expression = self.expression(self.head.result, self.head.parameters, 1)
        if not self.reader.at_end():
            raise Refused(TAIL)
        return expression

    def expression(self, expected, view, nesting):
        """Reads an expression of the type expected; `view` has the types of the variables in view."""
        byte = self.reader.byte

        def limits():
            within(nesting, 1, MAX_NESTING)
            within(len(view), 0, MAX_VIEW)

        def fit(type_):
            if type_ != expected:
                raise Refused(MISFIT)

        def operand(type_, seen=view):
            return self.expression(type_, seen, nesting + 1)

        code = byte()
        if code > 5:
            raise Refused(CODE)

        if code == 0:
            number = byte()
            known(number, len(view))
            limits()
            fit(view[number])
            return Variable(number)

        if code == 1:
            function = byte()
            known(function, len(self.heads))
            limits()
            fit(self.heads[function].result)
            return Call(function, tuple(operand(t) for t in self.heads[function].parameters))

        if code == 2:
            type_, constructor = byte(), byte()
            known(type_, len(self.types))
            known(constructor, len(self.types[type_].constructors))
            limits()
            fit(type_)
            fields = self.types[type_].constructors[constructor]
            return Construction(type_, constructor, tuple(operand(t) for t in fields))

        if code == 3:
            type_ = byte()
            known(type_, len(self.types))
            limits()
            scrutinee = operand(type_)
            alternatives = []
            for fields in self.types[type_].constructors:
                there = byte()
                if there > 1:
                    raise Refused(CODE)
                alternatives.append(operand(expected, view + fields) if there else None)
            return Case(type_, scrutinee, tuple(alternatives))

        if code == 4:
            type_ = byte()
            known(type_, len(self.types))
            limits()
            bound = operand(type_)
            return Let(type_, bound, operand(expected, view + (type_,)))

        label = byte()
        limits()
        return Target(label, operand(expected))


# Least depths.

def least_depths(types):
    """Per type the depth of its shallowest closed value, or None where it has none.

    Depths are tried one after another. In a shallowest value no type comes twice on the way down from the top,
    so it is at most as deep as there are types.
    """

    @lru_cache(maxsize=None)
    def has_value(type_, depth):
        """Whether the type has a closed value of at most this depth."""
        return depth > 0 and any(all(has_value(field, depth - 1) for field in fields)
                                 for fields in types[type_].constructors)

    return tuple(next((depth for depth in range(1, len(types) + 1) if has_value(type_, depth)), None)
                 for type_ in range(len(types)))


# Names.

def half(type_):
    """Whether the type has sixteen constructors, none of which has a field."""
    return type_.constructors == ((),) * 16


def spells(types, number):
    """Whether the values of the type of this number spell names: constructor 0 has no fields, constructor 1 two halves and the type."""
    constructors = types[number].constructors
    if len(constructors) != 2 or constructors[0] != () or len(constructors[1]) != 3:
        return False
    high, low, rest = constructors[1]
    return half(types[high]) and half(types[low]) and rest == number


# The whole file.

class RuleFile:
    """The bytes of a rule file. Each method answers one question, so that `blind.misfile` can answer it wrongly."""

    turns = {None: (TY,), TY: (TY, FN), FN: (FN, NA, GO), NA: (GO,)}  # the marks that may follow each; the file begins behind None
    most = {TY: MAX_TYPES, FN: MAX_FUNCTIONS, NA: 1, GO: 1}

    def __init__(self, data):
        self.data = data

    def record(self, mark, reader, records):
        """Reads what stands behind a mark; `records` has the records before it."""
        return RECORDS[mark](reader)

    def first_pass(self):
        """Marks, counts, lengths, D and S through the whole file, then the tail: per mark the records that bear it."""
        reader, mark, records = Reader(self.data, 0, len(self.data)), None, {mark: [] for mark in RECORDS}
        while mark != GO:
            before, mark = mark, reader.mark()
            if mark not in self.turns[before]:
                raise Refused(MARK)
            within(len(records[mark]) + 1, 1, self.most[mark])
            records[mark].append(self.record(mark, reader, records))
        if not reader.at_end():
            raise Refused(TAIL)
        return records

    def second_pass(self, types, heads, named, source):
        """The type and function numbers in TY, FN heads, NA and GO."""
        for type_ in types:
            for fields in type_.constructors:
                for field in fields:
                    known(field, len(types))
        for head in heads:
            for parameter in head.parameters:
                known(parameter, len(types))
            known(head.result, len(types))
        if named is not None:
            known(named, len(types))
        known(source, len(heads))

    def third_pass(self, types, heads):
        """The bodies."""
        return tuple(Function(head.parameters, head.result, BodyReader(self.data, types, heads, head).body()) for head in heads)

    def hollow(self, program, least):
        return None in least

    def shallow(self, program, least):
        return any(least[parameter] > program.depth for parameter in program.parameters)

    def spelling(self, program, least):
        """Whether the type that NA names has another form than that of names."""
        return program.named is not None and not spells(program.types, program.named)

    def tests(self):
        """What is tested behind the passes, in this order, with the types' least depths."""
        return (HOLLOW, self.hollow), (SHALLOW, self.shallow), (SPELLING, self.spelling)

    def read(self):
        """The program; raises `Refused` with 1 to 9 or 15."""
        within(len(self.data), 0, MAX_FILE)
        records = self.first_pass()
        types, heads, named = records[TY], records[FN], records[NA][0] if records[NA] else None
        source, label, depth, steps = records[GO][0]
        self.second_pass(types, heads, named, source)
        program = Program(tuple(types), self.third_pass(types, heads), source, label, depth, steps, named)
        least = least_depths(types)
        for number, wrong in self.tests():
            if wrong(program, least):
                raise Refused(number)
        return program

    def check(self):
        """The program, or the number of its refusal."""
        try:
            return self.read()
        except Refused as refused:
            return refused.number


def read(data):
    """The program that a rule file holds; raises `Refused` with 1 to 9 or 15."""
    return RuleFile(data).read()


def check(data):
    """The program that a rule file holds, or the number of its refusal, 1 to 9 or 15."""
    return RuleFile(data).check()
