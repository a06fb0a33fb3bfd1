"""Which part of a body that is too long to move to a function."""

from typing import NamedTuple

from rulelib.limits import MAX_BODY, MAX_PARAMETERS
from rulelib.syntax import Apply, Case, Let, Target, first_line


class Part(NamedTuple):
    what: str
    line: int
    expression: object
    times: int  # how often it stands in the body: once for each constructor that a '_' stands for


def parts(body, expression, times):
    """The operands and alternatives of an expression."""
    if isinstance(expression, Case):
        scrutinee = Part("the scrutinee", first_line(expression.scrutinee), expression.scrutinee, times)
        return [scrutinee] + [alternative_part(body, alternative, times)
                              for alternative in expression.alternatives if alternative.body is not None]
    if isinstance(expression, Let):
        name = expression.variable
        return [Part(f"what '{name.text}' stands for", name.line, expression.bound, times),
                Part("what follows 'in'", first_line(expression.body), expression.body, times)]
    if isinstance(expression, Target):
        return [Part(f"what is under target {expression.label}", first_line(expression.inner), expression.inner, times)]
    return [Part(f"argument {number} of '{expression.name.text}'", first_line(argument), argument, times)
            for number, argument in enumerate(expression.arguments, 1)]


def alternative_part(body, alternative, times):
    name = alternative.constructor
    return Part(f"the alternative for '{name.text}'", name.line, alternative.body, times * body.stands.get(id(alternative), 1))


def all_parts(body, expression, times=1):
    """All parts of an expression, each before its own."""
    for part in parts(body, expression, times):
        yield part
        yield from all_parts(body, part.expression, part.times)


def free(body, expression):
    """The names of the variables that an expression takes from outside."""
    if isinstance(expression, Apply):
        own = {expression.name.text} - set(body.scope.functions) - set(body.scope.constructors)
        return own.union(*(free(body, argument) for argument in expression.arguments))
    if isinstance(expression, Let):
        return free(body, expression.bound) | free(body, expression.body) - {expression.variable.text}
    if isinstance(expression, Target):
        return free(body, expression.inner)
    return free(body, expression.scrutinee).union(*(free(body, inner) - {variable.text for variable in variables}
                                                    for _, variables, inner in expression.alternatives if inner is not None))


def saved(body, part):
    """The bytes that the body loses when a call stands in the place of the part; 0 where no function can take it."""
    variables, size = len(free(body, part.expression)), body.sizes[id(part.expression)]
    if variables > MAX_PARAMETERS or size > MAX_BODY:
        return 0
    return max(0, part.times * (size - 2 - 2 * variables))


def advice(body, size):
    """What to do about a body of so many bytes: move the part whose move saves most, and others where that is not enough."""
    ranked = sorted(((saved(body, part), part) for part in all_parts(body, body.function.body)), key=lambda pair: -pair[0])
    if not ranked or ranked[0][0] == 0:
        return ""
    most, part = ranked[0]
    times = f", {part.times} times" if part.times > 1 else ""
    where = f"{part.what} in line {part.line} ({body.sizes[id(part.expression)]} bytes{times})"
    return f": move {where} to a function" if size - most <= MAX_BODY else f": move parts of it to functions, first {where}"
