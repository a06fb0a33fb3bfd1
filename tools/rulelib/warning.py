"""What is to be warned of in a text without faults: what may give an answer that misleads, or is not needed."""

from rulelib.faults import Fault, in_order, listed
from rulelib.limits import REACHLIST_STEPS


def reached(rule):
    """The numbers of the functions that the source calls, and those that these call, and so on."""
    found, waiting = set(), [rule.source.number]
    while waiting:
        found.add(waiting.pop())
        waiting = [called for number in found for called in rule.bodies[number].calls if called not in found]
    return found


def label_warnings(rule, found):
    """The label sought is on no target, or only where the source does not come."""
    label, line = rule.text.go.label, rule.text.go.line
    labels = sorted(set().union(*(body.labels for body in rule.bodies)))
    if any(label in rule.bodies[number].labels for number in found):
        return []
    if label in labels:
        return [Fault(line, f"the targets with label {label} are in functions that '{rule.text.go.source.text}' does not call")]
    there = f"there are targets with label{'s' * (len(labels) > 1)} {listed(list(map(str, labels)))}" if labels else \
        "the text has no target"
    return [Fault(line, f"no target has label {label}; {there}")]


def function_warnings(rule, found):
    """Functions of the text that are not called, and parameters that are not used."""
    warned = []
    for number, body in enumerate(rule.bodies[:len(rule.text.functions)]):
        name = body.function.name
        if number not in found:
            warned.append(Fault(name.line, f"nothing uses the function '{name.text}': '{rule.text.go.source.text}' does not come "
                                           "to call it"))
        warned += [Fault(parameter.line, f"nothing uses the parameter '{parameter.text}' of '{name.text}'; '_' says that this is meant")
                   for place, (parameter, _) in enumerate(body.function.parameters)
                   if parameter.text != "_" and place not in body.used]
    return warned


def name_warnings(rule):
    """No parameter of the source spells a name."""
    naming, source = rule.text.naming, rule.text.go.source.text
    return [Fault(naming.line, f"no parameter of '{source}' is of type '{naming.type.text}', so that namelist prints no name")] \
        if naming is not None and rule.named not in rule.source.takes else []


def step_warnings(rule):
    steps = rule.text.go.steps
    return [Fault(rule.text.go.line, f"{steps} steps are more than reachlist takes, which is {REACHLIST_STEPS}; "
                                     "./remburai and the library take them")] if steps > REACHLIST_STEPS else []


def warnings(rule, for_library=False):
    """The warnings of a text without faults, in the order of their lines. The library takes every number of steps."""
    found = reached(rule)
    cases = [Fault(line, message) for body in rule.bodies for line, message in body.warned.values()]
    steps = [] if for_library else step_warnings(rule)
    return in_order(label_warnings(rule, found) + function_warnings(rule, found) + name_warnings(rule) + cases + steps)
