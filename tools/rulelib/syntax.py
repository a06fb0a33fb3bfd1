"""What a text says. Names are tokens, so that faults know their lines."""

from typing import NamedTuple, Optional

from rulelib.tokens import Token


class Apply(NamedTuple):
    """A variable, or a function or a constructor with its arguments."""
    name: Token
    arguments: list


class Alternative(NamedTuple):
    constructor: Token  # '_' for all other constructors
    variables: list
    body: object  # None where the alternative is meant to be missing


class Case(NamedTuple):
    line: int
    scrutinee: object
    type: Optional[Token]
    alternatives: list


class Let(NamedTuple):
    variable: Token
    type: Token
    bound: object
    body: object


class Target(NamedTuple):
    line: int
    label: int
    inner: object


class Constructor(NamedTuple):
    name: Token
    fields: list


class Type(NamedTuple):
    name: Token
    constructors: Optional[list]  # None where they have a fault


class Function(NamedTuple):
    name: Token
    parameters: list  # pairs of a name and a type
    result: Token
    body: object  # None where it has a fault


class Equal(NamedTuple):
    """The equality of a type, under a name; it answers with one of two constructors."""
    type: Token
    name: Token
    yes: Token
    no: Token


class Go(NamedTuple):
    line: int
    source: Token
    label: int
    depth: int
    steps: int


class Naming(NamedTuple):
    """The type whose values spell names."""
    line: int
    type: Token


class Text(NamedTuple):
    types: list
    functions: list  # of Function and Equal
    naming: Optional[Naming]
    go: Optional[Go]
    faults: list
    lost: dict  # per kind, type or name: the names that declarations with a fault may declare; None stands for any name


def first_line(expression):
    """The line in which an expression begins."""
    if isinstance(expression, Apply):
        return expression.name.line
    return expression.variable.line if isinstance(expression, Let) else expression.line
