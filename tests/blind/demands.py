"""The demands on a complete list, tried on every closed input within the depth, one by one.

They ask nothing of how the list was made: `broken` takes its entries and its verdict.
"""

from itertools import islice

from blind.compare import Different, same
from blind.enumerate import MARKS, OPEN, inputs
from blind.evaluate import ENDED, MISSING, REACHED, ClosedInput, Value, evaluate
from blind.names import prefix


def bound_parts(program, parameters):
    """Per place of a partial input in prefix form that has a constructor its number."""
    found, rest = {}, iter(parameters)

    def part(type_, place):
        constructor = next(rest)
        if constructor != OPEN:
            found[place] = constructor
            for number, field in enumerate(program.types[type_].constructors[constructor]):
                part(field, place + (number,))

    for number, parameter in enumerate(program.parameters):
        part(parameter, (number,))
    same("bytes behind the parameters of an entry", bytes(rest), b"")
    return found


def constructors(values):
    """Per place of a closed input its constructor."""
    found = {}

    def part(value, place):
        found[place] = value.constructor
        for number, field in enumerate(value.fields):
            part(field, place + (number,))

    for number, value in enumerate(values):
        part(value, (number,))
    return found


def true(entry, bound, outcome, limit):
    """An input that completes the entry ends as it says. With any bound part opened, the evaluation halts on that part: up to
    there it is the evaluation of the input, which waits first on that one of all places then open."""
    same("how an input ends that completes an entry", (outcome.end, outcome.steps), (entry.end, entry.steps))
    for opened in bound:
        left = {place for place in bound if place[:len(opened)] != opened}
        first = next((wait for wait in outcome.waits if wait.place not in left), None)
        same("where the evaluation halts", first and (first.place, first.steps < limit), (opened, True))


def apart(bounds):
    """No closed input completes two entries: there is a place at which both have a constructor, and not the same."""
    for number, bound in enumerate(bounds):
        for other in bounds[:number]:
            same("whether two entries differ", any(other.get(place, here) != here for place, here in bound.items()), True)


def right_verdict(verdict, ends):
    """None is said exactly when every closed input stops in time off target, else found exactly when one reaches the target."""
    same("whether none is said", verdict == "none", ends <= {ENDED, MISSING})
    same("whether found is said", verdict == "found", REACHED in ends)


def demands(program, entries, verdict):
    """Fails where a demand is broken."""
    bounds = [bound_parts(program, entry.parameters) for entry in entries]
    apart(bounds)
    ends, completed = set(), set()
    for values in inputs(program):
        outcome, there = evaluate(program, values), constructors(values).items()
        ends.add(outcome.end)
        numbers = [number for number, bound in enumerate(bounds) if bound.items() <= there]
        for number in numbers:
            true(entries[number], bounds[number], outcome, program.steps)
        same("entries that an input completes", len(numbers), int(outcome.end in MARKS))
        completed.update(numbers)
    same("entries that have a completion within the depth", len(completed), len(entries))
    right_verdict(verdict, ends)


# Filled entries.

def completions(types, least, type_, data, room):
    """The closed values of at most this depth that complete a partial one, a list of bytes in prefix form, one by one; behind each the
    bytes that are left."""
    for number, fields in enumerate(types[type_].constructors):
        if data[0] in (OPEN, number) and all(least[field] < room for field in fields):
            rest = [OPEN] * len(fields) if data[0] == OPEN else data[1:]
            for values, left in rows(types, least, fields, rest, room - 1):
                yield Value(number, values), data[1:] if data[0] == OPEN else left


def rows(types, least, fields, data, room):
    """The same for values of several types that stand one behind the other."""
    if not fields:
        yield (), data
        return
    for value, left in completions(types, least, fields[0], data, room):
        for values, behind in rows(types, least, fields[1:], left, room):
            yield (value, *values), behind


def filled_inputs(names, entry, most):
    """Closed inputs whose parameters of the named type are those of the entry, filled, and whose others complete the entry: all of
    them, or as many as are wanted."""
    program, given = names.program, iter(names.filled(entry))
    data = b"".join(prefix(next(given)) if type_ == program.named else part for type_, part in names.parameters(entry))
    return [values for values, _ in islice(rows(program.types, names.least, program.parameters, list(data), program.depth), most)]


def filled(names, entries, most=20):
    """Fails where a filled entry, its other parameters completed in some way that fits, is no closed input within the depth, does not
    complete the entry, or ends otherwise than the entry says."""
    program = names.program
    for entry in entries:
        bound, found = bound_parts(program, entry.parameters), filled_inputs(names, entry, most)
        same("whether a filled entry has a completion that fits", bool(found), True)
        for values in found:
            data = b"".join(map(prefix, values))
            same("how a filled entry is read", ClosedInput(program, data).read()[0], values)
            same("whether a filled entry completes its entry", bound.items() <= constructors(values).items(), True)
            outcome = evaluate(program, values)
            same("how a filled entry ends", (outcome.end, outcome.steps), (entry.end, entry.steps))


def broken(program, entries, verdict):
    """What is wrong with the list, or None where no demand is broken."""
    try:
        demands(program, entries, verdict)
    except Different as different:
        return str(different)
    return None
