"""The list of a search whose closed inputs are too many to be run one by one: of those that make a fork or an entry one is run.

The closed input is run that has the constructors bound so far and is filled elsewhere. Where its run waits on another place with
fewer than S steps done, that place is bound to each constructor in turn that leaves room for a value; else the run makes an entry.
"""

from blind.enumerate import MOST_INPUTS, Entry, TooMany, all_entries, prefix_form
from blind.evaluate import ENDED, evaluate
from blind.names import Names

MOST_RUNS = 20000


class Forks:
    def __init__(self, program, most_runs):
        self.program, self.filling, self.runs_left = program, Names(program), most_runs

    def type_at(self, bound, place):
        """The type of the part at this place, where the places above it are bound."""
        type_ = self.program.parameters[place[0]]
        for length in range(1, len(place)):
            type_ = self.program.types[type_].constructors[bound[place[:length]]][place[length]]
        return type_

    def fitting(self, bound, place):
        """The constructors of this place whose fields have values that fit the depth."""
        room = self.program.depth - len(place)
        constructors = self.program.types[self.type_at(bound, place)].constructors
        return [number for number, fields in enumerate(constructors) if all(self.filling.least[field] <= room for field in fields)]

    def entries(self, bound):
        """The entries of the inputs that have these constructors, in the order of the search."""
        if not self.runs_left:
            raise TooMany("more runs than may be made")
        self.runs_left -= 1
        rest = iter(prefix_form(self.program, bound))
        outcome = evaluate(self.program, tuple(self.filling.value(type_, rest) for type_ in self.program.parameters))
        place = next((wait.place for wait in outcome.waits if wait.steps < self.program.steps and wait.place not in bound), None)
        if place is None:
            return [Entry(outcome.end, outcome.steps, prefix_form(self.program, bound))] * (outcome.end != ENDED)
        return [entry for number in self.fitting(bound, place) for entry in self.entries({**bound, place: number})]


def forked_entries(program, most_runs=MOST_RUNS):
    """The entries of the complete list, in order. Raises `TooMany` where they take more runs than this."""
    return Forks(program, most_runs).entries({})


def complete_list(program, most_inputs=MOST_INPUTS):
    """The same from runs of all closed inputs, where they are not more than `most_inputs`."""
    try:
        return all_entries(program, most_inputs)
    except TooMany:
        return forked_entries(program)
