"""The depth of closed inputs with one thing misread, for the test of the tests: each misreading must change what some stored cases
expect.

`READINGS` has `ClosedInput`s with one of their methods answering otherwise; what they give is compared by `figure`. `SHOWN` has
other figures, worked out from the program, the parameters' depths and the outcome of the run. `ORDER` has closed runs that test
for 10 too soon or too late.
"""

from blind.evaluate import ENDED, MISSING, REACHED, UNFINISHED, ClosedInput, Value, bench, run
from blind.rulefile import INPUT, MAX_DEPTH, MAX_FILE, SHALLOW, Program, Refused, check, least_depths


def misread(**methods):
    return type("Misread", (ClosedInput,), methods)


def figure(closed, program, data):
    """The depth that an input has by a `ClosedInput` or a misreading of it, or `refused`."""
    try:
        return closed(program, data).read()[1]
    except Refused:
        return "refused"


# The depth of one value.

def measured(measure):
    """The depth of a parameter by this measure of its value."""
    def value(self, type_, above=0):
        read, depth = ClosedInput.value(self, type_, above)
        return read, depth if above else measure(read)
    return misread(value=value)


def most_due(value):
    """The most parts that are due at a time, where a constructor is taken off a pile and its fields are put on it."""
    due, most = [value], 1
    while due:
        due.extend(reversed(due.pop().fields))
        most = max(most, len(due))
    return most


def over(depth_over):
    return misread(depth_over=lambda self, depths: depth_over(depths))


VALUES = {
    "a constructor without fields is 0 deep": over(lambda depths: 1 + max(depths) if depths else 0),
    "a constructor without fields is 2 deep": over(lambda depths: 1 + max(depths, default=1)),
    "a constructor with fields is as deep as its deepest field": over(lambda depths: max(depths, default=1)),
    "the depths of fields are added": over(lambda depths: 1 + sum(depths)),
    "the first field's depth alone counts": over(lambda depths: 1 + (depths[0] if depths else 0)),
    "the last field's depth alone counts": over(lambda depths: 1 + (depths[-1] if depths else 0)),
    "all fields but the first count": over(lambda depths: 1 + max(depths[1:] or depths, default=0)),
    "all fields but the last count": over(lambda depths: 1 + max(depths[:-1] or depths, default=0)),
    "the shallowest field counts": over(lambda depths: 1 + min(depths, default=0)),
    "every field adds 1": over(lambda depths: 1 + max((place + depth for place, depth in enumerate(depths)), default=0)),
    "the outermost constructor alone counts": measured(lambda value: 2 if value.fields else 1),
    "the most parts due at a time": measured(most_due),
}


# The figure of all parameters.

def all_of(largest):
    return misread(largest=lambda self, depths: largest(depths))


FIGURES = {
    "the last parameter's depth": all_of(lambda depths: depths[-1] if depths else 0),
    "the first parameter's depth": all_of(lambda depths: depths[0] if depths else 0),
    "the largest depth of all parameters but the last": all_of(lambda depths: max(depths[:-1] or depths, default=0)),
    "the largest depth of all parameters but the first": all_of(lambda depths: max(depths[1:] or depths, default=0)),
    "the smallest depth": all_of(lambda depths: min(depths, default=0)),
    "the sum of the depths": all_of(sum),
    "the number of parameters": all_of(len),
    "the largest depth, 1 without parameters": all_of(lambda depths: max(depths, default=1)),
    "the largest depth, and 1 for the input itself": all_of(lambda depths: 1 + max(depths, default=0)),
    "the largest depth, counted from 0": all_of(lambda depths: max(depths, default=1) - 1),
    "D": misread(largest=lambda self, depths: self.program.depth),
    "D without parameters": misread(largest=lambda self, depths: max(depths, default=self.program.depth)),
    "what D leaves below the input": misread(largest=lambda self, depths: self.program.depth - max(depths, default=0)),
    "the number of bytes": misread(largest=lambda self, depths: self.reader.end),
}


# What fits.

def limited(fitting):
    return misread(fitting=lambda self, depths: fitting(depths, self.program.depth))


FITTING = {
    "a value of depth D does not fit": limited(lambda depths, limit: all(depth < limit for depth in depths)),
    "a value may be one deeper than D": limited(lambda depths, limit: all(depth <= limit + 1 for depth in depths)),
    "the first parameter's depth alone is compared with D": limited(lambda depths, limit: all(depth <= limit for depth in depths[:1])),
    "the last parameter's depth alone is compared with D": limited(lambda depths, limit: all(depth <= limit for depth in depths[-1:])),
    "the sum of the depths is compared with D": limited(lambda depths, limit: sum(depths) <= limit),
    "one parameter that fits is enough": limited(lambda depths, limit: not depths or min(depths) <= limit),
    "without parameters nothing fits": limited(lambda depths, limit: bool(depths) and max(depths) <= limit),
    "no depth up to 64 is compared": limited(lambda depths, limit: True),
}


# Where reading stops.

def stopping(where, what):
    """At the constructor with so many above it, which `where` tells of D, there is another answer."""
    def value(self, type_, above=0):
        return what(self) if above == where(self.program.depth) else ClosedInput.value(self, type_, above)
    return misread(value=value)


def nothing(self):
    """A part that is not read and has no depth."""
    return None, 0


def without_fields(self):
    """A constructor whose fields are not read, and whose number is not looked at."""
    return Value(self.reader.byte(), ()), 1


def nothing_if_short(self, type_, above=0):
    return nothing(self) if self.reader.at_end() else ClosedInput.value(self, type_, above)


def first_parameters(self):
    return [self.value(parameter) for parameter in self.program.parameters]


def none_if_unknown(self, type_, constructor):
    constructors = self.program.types[type_].constructors
    return constructors[constructor] if constructor < len(constructors) else ()


STOPS = {
    "64 deep is too deep to be read": misread(deepest=MAX_DEPTH - 1),
    "65 deep is read and counts as 64": misread(deepest=MAX_DEPTH + 1,
                                                depth_over=lambda self, depths: min(MAX_DEPTH, 1 + max(depths, default=0))),
    "the depth is kept in one byte": misread(deepest=330, depth_over=lambda self, depths: (1 + max(depths, default=0)) % 256),
    "what is deeper than D counts as D": misread(fitting=lambda self, depths: True,
                                                 largest=lambda self, depths: min(max(depths, default=0), self.program.depth)),
    "reading stops at D, and what is below has no depth": stopping(lambda limit: limit, nothing),
    "reading stops at 64, and what is below has no depth": stopping(lambda limit: MAX_DEPTH, nothing),
    "a constructor D deep is taken for one without fields": stopping(lambda limit: limit - 1, without_fields),
    "a constructor 64 deep is taken for one without fields": stopping(lambda limit: MAX_DEPTH - 1, without_fields),
    "reading stops where the bytes end, and what lacks has no depth": misread(value=nothing_if_short),
    "bytes behind the last parameter are accepted": misread(parameters=first_parameters),
    "a constructor that its type lacks is taken for one without fields": misread(fields=none_if_unknown),
}

READINGS = {**VALUES, **FIGURES, **FITTING, **STOPS}


# The figure beside the outcome.

def looked_at(program, depths, outcome):
    """The depth of the deepest part on which a case waited."""
    return max((len(wait.place) for wait in outcome.waits), default=0)


def of_looked_at(program, depths, outcome):
    """The largest depth of the parameters on a part of which a case waited."""
    return max((depths[number] for number in {wait.place[0] for wait in outcome.waits}), default=0)


def of_types(program, depths, outcome):
    """The largest of the least depths of the parameters' types."""
    least = least_depths(program.types)
    return max((least[parameter] for parameter in program.parameters), default=0)


def zero_if(end):
    return lambda program, depths, outcome: 0 if outcome.end == end else max(depths, default=0)


SHOWN = {
    "how deep the evaluation looked": looked_at,
    "the largest depth of the parameters that the evaluation looked at": of_looked_at,
    "the largest of the least depths": of_types,
    **{f"0 where the run is {end}": zero_if(end) for end in (REACHED, ENDED, UNFINISHED, MISSING)},
}


# The order of refusals.

def bench_first(rule_file, data, words):
    program = check(rule_file)
    if isinstance(program, Program):
        try:
            bench(program, words)
        except Refused as refused:
            return refused.number
    return run(rule_file, data, words)


def input_before_file(rule_file, data, words):
    """An input with more bytes than a rule file may have is not looked at, nor is the rule file."""
    return INPUT if len(data) > MAX_FILE else run(rule_file, data, words)


def file_refused_as_input(rule_file, data, words):
    """Where a parameter's least depth is above D, no input fits."""
    return INPUT if check(rule_file) == SHALLOW else run(rule_file, data, words)


ORDER = {
    "11 is tested before 10": bench_first,
    "a long input is 10 before the rule file is read": input_before_file,
    "10 is given for 9": file_refused_as_input,
}
