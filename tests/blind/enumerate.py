"""The blind enumerator: the list of a search put together from runs of all closed inputs, without narrowing.

Every closed input within the depth is run by itself. The partial input that stands for it is bound exactly at the
places on which a case waited with fewer than S steps done. Inputs that share it make one entry, and entries follow the
constructors met at those places, in the order in which they were met.
"""

from dataclasses import dataclass
from functools import lru_cache
from itertools import product
from math import prod

from blind.compare import same
from blind.evaluate import ENDED, MISSING, REACHED, UNFINISHED, Value, bench, evaluate
from blind.rulefile import FULL, Refused, read

MOST_INPUTS = 20000
ROOM = 16777216
OPEN = 0xFF
MARKS = {REACHED: b"RE", UNFINISHED: b"UN", MISSING: b"MI"}  # in the order of the counts in the total line
WORDS = {REACHED: "reach", UNFINISHED: "unfinished", MISSING: "missing"}


class TooMany(Exception):
    """There are more closed inputs within the depth than may be run one by one."""


@dataclass(frozen=True)
class Entry:
    end: str
    steps: int
    parameters: bytes  # in prefix form

    def record(self):
        """The bytes of the entry in a list."""
        return MARKS[self.end] + two(self.steps) + two(len(self.parameters)) + self.parameters

    def line(self):
        """The entry as `reachlist` prints it."""
        items = [WORDS[self.end], str(self.steps)]
        items += ["_" if byte == OPEN else str(byte) for byte in self.parameters]
        return " ".join(items) + "\n"


@dataclass(frozen=True)
class Listing:
    """What a search returned: its entries and its verdict, or no verdict where refusal 12 cut the list short."""
    entries: tuple
    verdict: object

    @property
    def refusal(self):
        return FULL if self.verdict is None else None

    def record(self):
        """The bytes of the list."""
        return b"".join(entry.record() for entry in self.entries)


def two(number):
    return bytes([number % 256, number // 256])


def count_inputs(program, most_inputs=MOST_INPUTS):
    """The number of closed inputs within the depth, or one more than `most_inputs` where there are more."""

    def capped(number):
        return min(number, most_inputs + 1)

    @lru_cache(maxsize=None)
    def count(type_, depth):
        if depth == 0:
            return 0
        return capped(sum(prod(count(field, depth - 1) for field in fields)
                          for fields in program.types[type_].constructors))

    return capped(prod(count(parameter, program.depth) for parameter in program.parameters))


def inputs(program):
    """Every closed input within the depth: one value per parameter."""

    @lru_cache(maxsize=None)
    def values(type_, depth):
        if depth == 0:
            return ()
        return tuple(Value(constructor, chosen)
                     for constructor, fields in enumerate(program.types[type_].constructors)
                     for chosen in product(*(values(field, depth - 1) for field in fields)))

    return product(*(values(parameter, program.depth) for parameter in program.parameters))


def prefix_form(program, bound):
    """The partial input with the constructors of `bound` at their places and open parts elsewhere."""

    def part(type_, place):
        if place not in bound:
            return bytes([OPEN])
        fields = program.types[type_].constructors[bound[place]]
        return bytes([bound[place]]) + b"".join(part(field, place + (number,)) for number, field in enumerate(fields))

    return b"".join(part(parameter, (number,)) for number, parameter in enumerate(program.parameters))


def all_entries(program, most_inputs=MOST_INPUTS):
    """The entries of the complete list, in order."""
    if count_inputs(program, most_inputs) > most_inputs:
        raise TooMany(f"more than {most_inputs} closed inputs")
    found = {}  # by the constructors met: the partial input, its end and its steps
    for values in inputs(program):
        outcome = evaluate(program, values)
        bound = {}  # in the order of the first wait on each place
        for wait in outcome.waits:
            if wait.steps < program.steps:
                bound.setdefault(wait.place, wait.constructor)
        entry = Entry(outcome.end, outcome.steps, prefix_form(program, bound))
        same("the entry of another input that met the same constructors", found.setdefault(tuple(bound.values()), entry), entry)
    same("partial inputs that the entries have", len(set(entry.parameters for entry in found.values())), len(found))
    return [found[met] for met in sorted(found) if found[met].end != ENDED]


def verdict(entries):
    ends = {entry.end for entry in entries}
    return "found" if REACHED in ends else "undecided" if UNFINISHED in ends else "none"


def search(rule_file, work_words, list_length, most_inputs=MOST_INPUTS):
    """A `Listing`, or the number of the refusal, 1 to 9, 11 or 15.

    Raises `TooMany` where the closed inputs are more than `most_inputs`.
    """
    try:
        program = read(rule_file)
        bench(program, work_words)
    except Refused as refused:
        return refused.number
    return fill(all_entries(program, most_inputs), list_length)


def fill(entries, list_length):
    """The `Listing` of these entries in a list slice of this length."""
    room = min(list_length, ROOM)
    used = 0
    for number, entry in enumerate(entries):
        used += len(entry.record())
        if used > room:
            return Listing(tuple(entries[:number]), None)
    return Listing(tuple(entries), verdict(entries))


def tally(entries):
    """The number of entries of each kind: reached, unfinished, missing."""
    ends = [entry.end for entry in entries]
    return tuple(ends.count(end) for end in MARKS)


def share(reach, unfinished):
    """The unfinished share of both: the nearest whole per cent, of two that are equally near the even one; 0 where there is neither."""
    both = reach + unfinished
    return min(range(101), key=lambda percent: (abs(100 * unfinished - percent * both), percent % 2))


def printed(answer):
    """The text that the program `reachlist` prints for what a search returned."""
    if not isinstance(answer, Listing):
        return f"refused {answer}\n"
    text = "".join(entry.line() for entry in answer.entries)
    if answer.refusal:
        return text + f"refused {answer.refusal}\n"
    reach, unfinished, missing = tally(answer.entries)
    return text + f"total {reach} {unfinished} {missing} {share(reach, unfinished)} {answer.verdict}\n"


def program_search(rule_file, most_inputs=MOST_INPUTS):
    """What the search of the programs `reachlist` and `namelist` returns, with their buffers."""
    return search(rule_file, 16384, 32768, most_inputs)


def reachlist(rule_file, most_inputs=MOST_INPUTS):
    """The text that the program `reachlist` prints for a rule file."""
    return printed(program_search(rule_file, most_inputs))
