"""Evaluation of closed inputs, by name, with every step counted.

`run` is the closed run: a rule file on the bytes of an input. `ClosedInput` reads these bytes and tells how deep they go.
`evaluate` is the run's core, on a program and values; it notes each place of the input on which a case waited and the
steps done by then. It goes by the unit-evaluator of source document 000, which gives the root of a result, and applies that
to the root's children again.
"""

import sys
from dataclasses import dataclass

from blind.rulefile import (BENCH, INPUT, MAX_DEPTH, MAX_STEPS, Call, Case, Construction, Let, Reader, Refused, Target, Variable, read)

sys.setrecursionlimit(2 * MAX_STEPS + 1000)  # each step of an evaluation, to a field or to a scrutinee, opens at most two calls

REACHED, ENDED, UNFINISHED, MISSING = "reached", "ended", "unfinished", "missing"


@dataclass(frozen=True)
class Value:
    """A closed value: a constructor's number and its fields."""
    constructor: int
    fields: tuple


@dataclass(frozen=True)
class Part:
    """A part of the input: its value and its place, the parameter's number and the field numbers on the way down."""
    place: tuple
    value: Value


@dataclass(frozen=True)
class Closure:
    """An expression and what each variable in view stands for, a closure or a part."""
    expression: object
    environment: tuple


@dataclass(frozen=True)
class Wait:
    """A case waited on the part at this place, which has this constructor, when so many steps were done."""
    place: tuple
    constructor: int
    steps: int


@dataclass(frozen=True)
class Outcome:
    end: str
    steps: int
    waits: tuple


@dataclass(frozen=True)
class Answer(Outcome):
    """How a closed run ended, with the largest depth of its parameters, 0 without parameters."""
    depth: int


class Stop(Exception):
    """Evaluation stops before the whole result is there: reached, unfinished or missing."""

    def __init__(self, end):
        super().__init__(end)
        self.end = end


def fields(root):
    """What the fields of a part or a construction stand for."""
    if isinstance(root, Part):
        return tuple(Part(root.place + (number,), field) for number, field in enumerate(root.value.fields))
    return tuple(Closure(field, root.environment) for field in root.expression.fields)


class Evaluation:
    """One evaluation: its program, the steps done, and the waits so far."""

    def __init__(self, program):
        self.program, self.steps, self.waits = program, 0, []

    def step(self):
        if self.steps == self.program.steps:
            raise Stop(UNFINISHED)
        self.steps += 1

    def result(self, focus):
        """Evaluates the whole result: its root and then, where the rule built that, its fields from left to right, each as a result."""
        root = self.root(focus)
        for field in () if isinstance(root, Part) else fields(root):
            self.step()
            self.result(field)

    def root(self, focus):
        """The unit-evaluator: the part of the input, or the construction with its fields unevaluated, that is the root of the result."""
        while not isinstance(focus, Part) and not isinstance(focus.expression, Construction):
            expression, environment = focus.expression, focus.environment
            if isinstance(expression, Target) and expression.label == self.program.label:
                raise Stop(REACHED)
            self.step()
            focus = self.chosen(expression, environment) if isinstance(expression, Case) else self.unfolded(expression, environment)
        return focus

    def unfolded(self, expression, environment):
        """What is looked at after a step at an expression that is no construction and no case."""
        if isinstance(expression, Variable):
            return environment[expression.number]
        if isinstance(expression, Call):
            arguments = tuple(Closure(argument, environment) for argument in expression.arguments)
            return Closure(self.program.functions[expression.function].body, arguments)
        if isinstance(expression, Let):
            return Closure(expression.body, environment + (Closure(expression.bound, environment),))
        return Closure(expression.inner, environment)

    def chosen(self, case, environment):
        """The alternative of a case for the root of its scrutinee, with the root's fields in view."""
        root = self.root(Closure(case.scrutinee, environment))
        part = isinstance(root, Part)
        constructor = root.value.constructor if part else root.expression.constructor
        if part:
            self.waits.append(Wait(root.place, constructor, self.steps))
        self.step()
        if case.alternatives[constructor] is None:
            raise Stop(MISSING)
        return Closure(case.alternatives[constructor], environment + fields(root))


def evaluate(program, values):
    """Evaluates the source function's body on one closed value per parameter."""
    evaluation, parameters = Evaluation(program), tuple(Part((number,), value) for number, value in enumerate(values))
    try:
        evaluation.result(Closure(program.functions[program.source].body, parameters))
        end = ENDED
    except Stop as stop:
        end = stop.end
    return Outcome(end, evaluation.steps, tuple(evaluation.waits))


class ClosedInput:
    """The bytes of a closed input for a program. Each method answers one question, so that `blind.misdepth` can answer it wrongly."""

    deepest = MAX_DEPTH  # no file asks for more, so what goes deeper is refused without being read to its end

    def __init__(self, program, data):
        self.program = program
        self.reader = Reader(data, 0, len(data))

    def fields(self, type_, constructor):
        """The types of the constructor's fields."""
        constructors = self.program.types[type_].constructors
        if constructor >= len(constructors):
            raise Refused(INPUT)
        return constructors[constructor]

    def value(self, type_, above=0):
        """Reads a closed value of the type, with so many constructors above it: the value and its depth, whatever D is."""
        if above == self.deepest:
            raise Refused(INPUT)
        constructor = self.reader.byte()
        fields = [self.value(field, above + 1) for field in self.fields(type_, constructor)]
        return Value(constructor, tuple(value for value, _ in fields)), self.depth_over([depth for _, depth in fields])

    def depth_over(self, depths):
        """The depth of a constructor whose fields have these depths."""
        return 1 + max(depths, default=0)

    def parameters(self):
        """One closed value per parameter, in prefix form with nothing after them, each with its depth."""
        read_ = [self.value(parameter) for parameter in self.program.parameters]
        if not self.reader.at_end():
            raise Refused(INPUT)
        return read_

    def fitting(self, depths):
        """Whether parameters of these depths fit."""
        return all(depth <= self.program.depth for depth in depths)

    def largest(self, depths):
        return max(depths, default=0)

    def read(self):
        """The values of the parameters and the largest of their depths; else refusal 10."""
        try:
            read_ = self.parameters()
        except Refused:
            raise Refused(INPUT) from None
        values, depths = tuple(value for value, _ in read_), [depth for _, depth in read_]
        if not self.fitting(depths):
            raise Refused(INPUT)
        return values, self.largest(depths)


def bench(program, work_words):
    """Refuses a work slice that is too short for the step limit."""
    if work_words < 64 * program.steps + 1024:
        raise Refused(BENCH)


def run(rule_file, data, work_words):
    """The closed run: an `Answer`, or the number of the refusal, 1 to 11 or 15."""
    try:
        program = read(rule_file)
        values, depth = ClosedInput(program, data).read()
        bench(program, work_words)
    except Refused as refused:
        return refused.number
    outcome = evaluate(program, values)
    return Answer(outcome.end, outcome.steps, outcome.waits, depth)
