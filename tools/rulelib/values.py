"""Values with the names of a text: the lines of reachlist, and closed inputs."""

import re

from rulelib.faults import Fault, are, counted
from rulelib.limits import MAX_DEPTH, MAX_PARENTHESES, REFUSALS
from rulelib.spelling import spelled
from rulelib.tokens import meaningless, tokens_of


# The lines of reachlist.

class Entry:
    """The bytes of one entry, turned into values. A value is a pair of a constructor's number and its fields, or None where it is
    open."""

    def __init__(self, rule, words):
        self.rule, self.words, self.place = rule, words, 0

    def value(self, type_, depth):
        """A value of the type, at most `depth` deep."""
        if self.place == len(self.words):
            raise Fault(None, "the entry is too short for the rule")
        word = self.words[self.place]
        self.place += 1
        if word == "_":
            return None
        constructors = self.rule.constructors[type_]
        if not re.fullmatch("[0-9]{1,3}", word) or int(word) >= len(constructors) or depth == 0:
            raise Fault(None, f"'{word}' does not fit the rule's type {self.rule.scope.type_name(type_)} here")
        return int(word), [self.value(field, depth - 1) for field in constructors[int(word)][1]]

    def values(self):
        """One value per parameter. The depth is not that of the text: a search may have been given another."""
        found = [self.value(type_, MAX_DEPTH) for type_ in self.rule.source.takes]
        if self.place != len(self.words):
            raise Fault(None, "the entry is too long for the rule")
        return found


def built(rule, type_, value):
    """A value by its constructors."""
    if value is None:
        return "_"
    name, types = rule.constructors[type_][value[0]]
    fields = [(built(rule, field, inner), inner) for field, inner in zip(types, value[1])]
    return " ".join([name] + [f"({text})" if inner and inner[1] else text for text, inner in fields])


TOTAL = "total ([0-9]{1,9}) ([0-9]{1,9}) ([0-9]{1,9}) ([0-9]{1,3}) (found|undecided|none)"


def total_object(line):
    """What the total line says."""
    words, total = line.split(), re.fullmatch(TOTAL, line)
    if total:
        reach, unfinished, missing, share = map(int, total.groups()[:4])
        return {"reach": reach, "unfinished": unfinished, "missing": missing, "share": share, "verdict": total[5]}
    if len(words) != 6:
        raise Fault(None, f"the total has {counted(len(words), 'word')} and not 6: total REACH UNFINISHED MISSING SHARE VERDICT")
    raise Fault(None, "this is no line of reachlist")


def entry_object(rule, words):
    """What the words of an entry say. Of a text whose values spell names, it has what each parameter spells too, or None."""
    types, values = rule.source.takes, Entry(rule, words[2:]).values()
    said = {"kind": words[0], "steps": int(words[1]), "parameters": [built(rule, *pair) for pair in zip(types, values)]}
    if rule.named is not None:
        said["names"] = [spelled(value) if type_ == rule.named else None for type_, value in zip(types, values)]
    return said


def line_object(rule, line):
    """What a line of reachlist says: an entry, the total, or a refusal."""
    words = line.split()
    if re.match("(reach|unfinished|missing) [0-9]{1,5}( |$)", line):
        return entry_object(rule, words)
    if words[:1] == ["total"]:
        return total_object(line)
    if words[:1] == ["refused"] and words[1:] in [[str(number)] for number in range(1, len(REFUSALS) + 1)]:
        return {"refused": int(words[1])}
    raise Fault(None, "this is no line of reachlist")


def shown(name, parameter, constructors):
    """A parameter as the name that it spells, where it spells one, with its constructors where they are asked for."""
    if name is None or name == parameter:
        return parameter
    return f"{name} = {parameter}" if constructors else name


def named_line(rule, line, constructors=False):
    """A line of reachlist with names, and with the constructors of what spells a name where they are asked for; a refusal gets its
    word."""
    said = line_object(rule, line)
    if "refused" in said:
        return f"{line} {REFUSALS[said['refused'] - 1]}"
    if "kind" not in said:
        return line
    names = said.get("names", [None] * len(said["parameters"]))
    return "  ".join([f"{said['kind']} {said['steps']}"] + [shown(*both, constructors) for both in zip(names, said["parameters"])])


# Closed inputs.

class Spelled:
    """One closed value, spelled by names with parentheses or by numbers in prefix form."""

    def __init__(self, rule, text, depth):
        self.rule, self.depth = rule, depth
        self.tokens, self.place, self.parentheses = tokens_of(text), 0, 0

    def take(self):
        """The next token, where it may stand in a closed value."""
        token = self.tokens[self.place]
        if token.kind == "end":
            raise Fault(None, "the value is not complete" if self.place else "the value is empty")
        if token.kind == "bad":
            raise Fault(None, meaningless(token))
        if token.text == "_":
            raise Fault(None, "'_' is an open part, and an input is closed")
        self.place += 1
        return token

    def bytes(self, type_):
        """The value's bytes: the constructors' numbers in prefix form."""
        by_numbers = self.tokens[0].kind == "number"
        found = self.numbers(type_, self.depth) if by_numbers else self.tree()
        if self.tokens[self.place].kind != "end":
            raise Fault(None, f"{self.take()} does not belong to the value, which ends before it")
        return bytes(found if by_numbers else self.numbered(found, type_, self.depth))

    def fields(self, head, room):
        """The types of the fields of a constructor that may be so deep."""
        if room == 0:
            raise Fault(None, f"the value is deeper than {self.depth}, which is the depth of the search (refusal 10)")
        return head.takes

    # Numbers.

    def numbers(self, type_, room):
        token, constructors = self.take(), self.rule.text.types[type_].constructors
        if token.kind != "number":
            raise Fault(None, f"{token} stands among numbers")
        if len(token.text) > 3 or int(token.text) >= len(constructors):
            raise Fault(None, f"type {self.rule.scope.type_name(type_)} has no constructor {token.text}; "
                              f"it has {counted(len(constructors), 'constructor')}, counted from 0")
        number = int(token.text)
        fields = self.fields(self.rule.scope.constructors[constructors[number].name.text], room)
        return [number] + [byte for field in fields for byte in self.numbers(field, room - 1)]

    # Names.

    def tree(self):
        """A constructor's name and the trees of its fields."""
        name = self.take()
        if name.text == "(":
            return self.rest_of_parenthesis()
        if name.kind != "name":
            raise Fault(None, f"{name} is no constructor")
        fields = []
        while self.tokens[self.place].kind != "end" and self.tokens[self.place].text != ")":
            field = self.take()
            fields.append(self.rest_of_parenthesis() if field.text == "(" else (field, []))
        return name, fields

    def rest_of_parenthesis(self):
        self.parentheses += 1
        if self.parentheses > MAX_PARENTHESES:
            raise Fault(None, f"parentheses nest more than {MAX_PARENTHESES} deep")
        inner, closing = self.tree(), self.tokens[self.place]
        if closing.text != ")":
            raise Fault(None, f"')' is expected, not {closing}")
        self.place += 1
        self.parentheses -= 1
        return inner

    def numbered(self, tree, type_, room):
        """The numbers that a tree spells."""
        name, given = tree
        head = self.rule.scope.constructors.get(name.text)
        if head is None:
            raise Fault(None, f"there is no constructor '{name.text}'")
        if head.gives != type_:
            raise Fault(None, f"'{name.text}' is a constructor of {self.rule.scope.type_name(head.gives)}, "
                              f"and {self.rule.scope.type_name(type_)} is expected here")
        fields = self.fields(head, room)
        if len(given) != len(fields):
            has = counted(len(fields), "field") if fields else "no field"
            raise Fault(None, f"'{name.text}' has {has}, and {are(len(given))} given")
        return [head.number] + [byte for field, inner in zip(fields, given) for byte in self.numbered(inner, field, room - 1)]
