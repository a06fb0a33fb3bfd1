"""The search by narrowing, for the test of the tests: with one of `ERRORS` made, some stored case must change.

Without an error it is a second opinion on the enumerator, with which it shares the evaluation's data alone: a path is a
machine that does one step at a time. It is evaluated from its start for each set of bound places; where a case waits on an
open part, the path forks.
"""

from dataclasses import dataclass, field
from itertools import islice

from blind.enumerate import Entry, prefix_form
from blind.evaluate import ENDED, MISSING, REACHED, UNFINISHED, Closure
from blind.rulefile import Call, Case, Construction, Let, Target, Variable, least_depths

DONE = Closure(Construction(0, 0, ()), ())  # a constructor without fields, which is done at once

# Errors that take other fields of a constructor, or take them in another order.
MISTAKEN = {
    "the fields of the result are not evaluated": lambda own: (),
    "only the first field of a constructor is evaluated": lambda own: own[:1],
    "only the last field of a constructor is evaluated": lambda own: own[-1:],
    "fields are evaluated from right to left": lambda own: own[::-1],
    "leaving the last field of a constructor costs a step": lambda own: own and (*own, DONE),
}

# Errors in what is done with the fields of the result, which closed runs show too.
FIELD_ERRORS = (
    *MISTAKEN,
    "turning to a field costs no step",
    "turning to the first field of a constructor costs no step",
    "turning to a field behind another costs no step",
    "a field's own fields are not evaluated",
    "a field's own fields are evaluated after the next field",
    "a field is evaluated in the environment in which the one before it ended",
    "a bound part of the result is gone into",
    "a missing alternative ends its field alone",
    "a path at S is booked as ended where a field waits",
    "a path at S is booked as ended where the fields that wait end at once",
)

ERRORS = (
    "a path at S is booked as ended",
    "a missing alternative is booked as ended when S steps are done",
    "a missing alternative is booked as missing when S steps are done",
    "a missing alternative is booked as ended",
    "a missing alternative is booked as unfinished",
    "a missing alternative is booked as reached",
    "finding that an alternative is missing costs no step",
    "a fork leaves out constructors without an alternative",
    "a fork takes constructors without an alternative whose fields cannot fit the depth",
    "a fork takes constructors without an alternative last",
    "a case without any alternative does not fork",
    "a path forks when S steps are done",
    "an end is booked as unfinished when S steps are done",
    "the sought target is booked as unfinished when S steps are done",
    "a fork takes constructors whose fields cannot fit the depth",
    "a fork leaves out constructors whose fields just fit the depth",
    "a parameter may be one deeper",
    "only the first constructor of a fork is searched",
    "a fork goes from the last constructor to the first",
    "places bound in one branch of a fork stay bound in the next",
    "the sought target is not seen inside a scrutinee",
    "every target is taken for the sought one",
    "reaching the target costs a step",
    "a target of another label costs no step",
    "a let costs no step",
    "a variable costs no step",
    "a call costs no step",
    "turning to a scrutinee costs no step",
    "choosing an alternative costs no step",
    "an alternative's fields are taken in the wrong order",
    "a call's arguments are taken in the wrong order",
    "an open part of the result is forked over",
    *FIELD_ERRORS,
)


KNOWN = frozenset(ERRORS)


def known(error):
    """The error, where it is one of `ERRORS`: another would never be made, and so never be missed."""
    if error not in KNOWN:
        raise ValueError(f"no such error: {error}")
    return error


class Fork(Exception):
    """A case waits on an open part, with so many steps done; by an error it may be none."""

    def __init__(self, part, case, steps):
        super().__init__()
        self.part, self.case, self.steps = part, case, steps


@dataclass(frozen=True)
class Part:
    """A part of the input, by its place, with the depth that it may have."""
    place: tuple
    type: int
    room: int


@dataclass
class Path:
    """A path under way: what is looked at, the places that are bound, the cases that wait, the innermost last, and the fields of the
    result that wait, the next one last."""
    focus: object
    bound: dict
    cases: list = field(default_factory=list)
    fields: list = field(default_factory=list)
    steps: int = 0
    inside: bool = False  # whether a field was turned to

    def part(self):
        """The part of the input that is looked at, or None."""
        return self.focus if isinstance(self.focus, Part) else None

    def is_open(self):
        """Whether an open part is looked at."""
        return isinstance(self.focus, Part) and self.focus.place not in self.bound

    def built(self):
        """Whether a part of the input or a construction is looked at."""
        return isinstance(self.focus, Part) or isinstance(self.focus.expression, Construction)


def alternative(case, constructor):
    """The alternative for a constructor, or None. By an error a case may meet a constructor that its type lacks."""
    return case.alternatives[constructor] if constructor < len(case.alternatives) else None


def moved(waiting, ended):
    """What a field stands for in the environment of what ended before it, as far as that one goes."""
    if isinstance(waiting, Part) or isinstance(ended, Part):
        return waiting
    return Closure(waiting.expression, ended.environment[:len(waiting.environment)] + waiting.environment[len(ended.environment):])


class Narrowing:
    def __init__(self, program, error=None):
        self.program, self.error = program, None if error is None else known(error)
        self.depths = least_depths(program.types)

    def made(self, error):
        """Whether this error is made."""
        return self.error == known(error)

    def run(self, bound):
        """How a path ends with these places bound, and its steps; raises `Fork` where it does not."""
        program = self.program
        room = program.depth + self.made("a parameter may be one deeper")
        path = Path(Closure(program.functions[program.source].body,
                            tuple(Part((number,), type_, room) for number, type_ in enumerate(program.parameters))), bound)
        # Where a step may be free, a path of more turns than this goes round in a circle.
        for _ in range(8 * program.steps + 40):
            end = self.end(path)
            if end == REACHED and self.made("reaching the target costs a step"):
                path.steps += 1
            if end:
                return end, path.steps
            free = self.step(path)
            path.steps += 0 if any(map(self.made, free)) else 1
            if path.focus is None:
                return self.booked(MISSING), path.steps
        return UNFINISHED, path.steps

    def end(self, path):
        """The end of the path, if this is one."""
        full = path.steps >= self.program.steps
        if not path.built() and isinstance(path.focus.expression, Target):
            sought = (path.focus.expression.label == self.program.label
                      or self.made("every target is taken for the sought one"))
            if sought and not (path.cases and self.made("the sought target is not seen inside a scrutinee")):
                late = full and self.made("the sought target is booked as unfinished when S steps are done")
                return UNFINISHED if late else REACHED
        if path.built() and not path.cases:
            return self.end_of_result(path, full)
        if path.is_open() and (not full or self.made("a path forks when S steps are done")):
            raise Fork(path.focus, path.cases[-1][0], path.steps)
        if not full:
            return None
        if self.made("a path at S is booked as ended"):
            return ENDED
        return self.booked(UNFINISHED, " when S steps are done") if self.missing(path) else UNFINISHED

    def end_of_result(self, path, full):
        """The end of a path at a part or a construction for which no case waits; None where it turns to a field."""
        if path.is_open() and not full and self.made("an open part of the result is forked over"):
            raise Fork(path.focus, None, path.steps)
        waiting = (*path.fields, *self.own_fields(path))
        if not waiting:
            late = full and self.made("an end is booked as unfinished when S steps are done")
            return UNFINISHED if late else ENDED
        if not full:
            return None
        at_once = all(isinstance(one, Part) or isinstance(one.expression, Construction) and not one.expression.fields for one in waiting)
        wrong = (self.made("a path at S is booked as ended") or self.made("a path at S is booked as ended where a field waits")
                 or at_once and self.made("a path at S is booked as ended where the fields that wait end at once"))
        return ENDED if wrong else UNFINISHED

    def booked(self, right, when=""):
        """How a missing alternative is booked: as is right, unless an error is made."""
        wrong = (end for end in (ENDED, UNFINISHED, REACHED, MISSING)
                 if self.error == f"a missing alternative is booked as {end}{when}")
        return next(wrong, right)

    def missing(self, path):
        """Whether the waiting case has no alternative for what is looked at, where that has a constructor."""
        if path.part():
            constructor = path.bound.get(path.focus.place)
        else:
            constructor = path.focus.expression.constructor if path.built() else None
        return constructor is not None and alternative(path.cases[-1][0], constructor) is None

    def step(self, path):
        """Does a step, and gives the errors that make it free. Nothing is looked at any more where an alternative is missing."""
        if path.built():
            return self.choose(path) if path.cases else self.turn(path)
        expression, environment = path.focus.expression, path.focus.environment
        if isinstance(expression, Variable):
            path.focus = environment[expression.number]
            return "a variable costs no step",
        if isinstance(expression, Call):
            function = self.program.functions[expression.function]
            arguments = tuple(Closure(argument, environment) for argument in expression.arguments)
            turned = self.made("a call's arguments are taken in the wrong order") and len(set(function.parameters)) == 1
            path.focus = Closure(function.body, arguments[::-1] if turned else arguments)
            return "a call costs no step",
        if isinstance(expression, Case):
            path.cases.append((expression, environment))
            path.focus = Closure(expression.scrutinee, environment)
            return "turning to a scrutinee costs no step",
        if isinstance(expression, Let):
            path.focus = Closure(expression.body, environment + (Closure(expression.bound, environment),))
            return "a let costs no step",
        path.focus = Closure(expression.inner, environment)
        return "a target of another label costs no step",

    def parts(self, part, constructor):
        """The fields of a part that has this constructor."""
        types = self.program.types[part.type].constructors[constructor]
        fields = tuple(Part(part.place + (number,), type_, part.room - 1) for number, type_ in enumerate(types))
        turned = self.made("an alternative's fields are taken in the wrong order") and len(set(types)) == 1
        return fields[::-1] if turned else fields

    def choose(self, path):
        """Goes on with the alternative of the innermost case, the fields in view."""
        case, environment = path.cases.pop()
        if path.part():
            constructor = path.bound[path.focus.place]
            fields = self.parts(path.focus, constructor)
        else:
            constructor = path.focus.expression.constructor
            fields = tuple(Closure(one, path.focus.environment) for one in path.focus.expression.fields)
        chosen = alternative(case, constructor)
        if chosen is not None:
            path.focus = Closure(chosen, environment + fields)
            return "choosing an alternative costs no step",
        path.focus = None
        if path.fields and self.made("a missing alternative ends its field alone"):
            path.cases.clear()
            path.focus = DONE
        return "finding that an alternative is missing costs no step",

    def own_fields(self, path):
        """The fields that a part or a construction of the result has to be evaluated for, in the order in which that is done."""
        if path.inside and self.made("a field's own fields are not evaluated"):
            return ()
        if path.part():
            gone_into = not path.is_open() and self.made("a bound part of the result is gone into")
            return self.parts(path.focus, path.bound[path.focus.place]) if gone_into else ()
        own = tuple(Closure(one, path.focus.environment) for one in path.focus.expression.fields)
        return MISTAKEN[self.error](own) if self.error in MISTAKEN else own

    def turn(self, path):
        """Turns to the next field that waits: the first of those that are new, if there are any."""
        own = self.own_fields(path)
        if self.made("a field's own fields are evaluated after the next field"):
            path.fields[:0] = own[::-1]
        else:
            path.fields.extend(own[::-1])
        wrong = not own and self.made("a field is evaluated in the environment in which the one before it ended")
        path.focus, path.inside = moved(path.fields.pop(), path.focus) if wrong else path.fields.pop(), True
        return ("turning to a field costs no step", "turning to the first field of a constructor costs no step" if own
                else "turning to a field behind another costs no step")

    def constructors(self, part, case):
        """The constructors over which a fork goes, in order."""
        strict = self.made("a fork leaves out constructors whose fields just fit the depth")
        missing = [number for number, alternative in enumerate(case.alternatives) if alternative is None] if case else []
        unfit = (missing if self.made("a fork takes constructors without an alternative whose fields cannot fit the depth")
                 else range(16) if self.made("a fork takes constructors whose fields cannot fit the depth") else ())
        numbers = [number for number, fields in enumerate(self.program.types[part.type].constructors)
                   if number in unfit or all(self.depths[field] + strict <= part.room - 1 for field in fields)]
        if self.made("a fork leaves out constructors without an alternative"):
            return [number for number in numbers if number not in missing]
        if self.made("a fork takes constructors without an alternative last"):
            return sorted(numbers, key=missing.__contains__)
        if self.made("only the first constructor of a fork is searched"):
            return numbers[:1]
        return numbers[::-1] if self.made("a fork goes from the last constructor to the first") else numbers

    def entries(self, bound):
        """The entries in the order of the search, from where these places are bound; the value is what was bound last."""
        try:
            end, steps = self.run(bound)
        except Fork as fork:
            if self.made("a case without any alternative does not fork") and not any(fork.case.alternatives):
                yield Entry(MISSING, fork.steps + 1, prefix_form(self.program, bound))
                return bound
            place, others, last = fork.part.place, bound, bound
            for constructor in self.constructors(fork.part, fork.case):
                last = yield from self.entries({**others, place: constructor})
                if self.made("places bound in one branch of a fork stay bound in the next"):
                    others = {other: number for other, number in last.items() if other[:len(place)] != place}
            return last
        if end != ENDED:
            yield Entry(end, steps, prefix_form(self.program, bound))
        return bound


def differs(program, entries, error):
    """Whether the search with this error, or with none, lists something else."""
    made = Narrowing(program, error).entries({})
    first = list(islice(made, len(entries) + 1))
    return first != list(entries)
