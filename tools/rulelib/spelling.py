"""Values that spell names: the form of their type, and the text of a name, of which parts may be open.

    type name = END | BYTE HIGH LOW name

BYTE is one byte of Latin-1 by its two halves, the high one first, before the rest of the name. HIGH and LOW are types of sixteen
constructors without fields, or twice the same one.
"""

from rulelib.faults import Fault, counted

HALVES = 16  # constructors of the type of a half
DIGITS = "0123456789ABCDEF"


# The form.

def see_form(scope, naming):
    """Raises a fault where the type that spells names has another form (refusal 15)."""
    name = naming.type.text
    why = other_form(scope, scope.type(naming.type))
    if why is not None:
        raise Fault(naming.line, f"the values of '{name}' spell no names (refusal 15): {why}; the form is 'type {name} = END | BYTE HIGH LOW "
                                 f"{name}', with HIGH and LOW of sixteen constructors without fields")


def other_form(scope, type_):
    """What is other in the form of a type, by its number, than in one that spells names, or None."""
    constructors = scope.constructors_of(type_)
    if len(constructors) != 2:
        return f"it has {counted(len(constructors), 'constructor')}, not 2"
    (end, none), (byte, fields) = constructors
    if none:
        return f"'{end.text}', the first constructor, has {counted(len(none), 'field')}, not 0"
    if len(fields) != 3:
        return f"'{byte.text}', the second constructor, has {counted(len(fields), 'field')}, not 3"
    for place, half in (("first", fields[0]), ("second", fields[1])):
        why = no_half(scope.constructors_of(scope.type(half)))
        if why is not None:
            return f"'{half.text}', the type of the {place} field of '{byte.text}', {why}"
    if scope.type(fields[2]) != type_:
        return f"the third field of '{byte.text}' is of type '{fields[2].text}', not '{scope.type_name(type_)}'"
    return None


def no_half(constructors):
    """Why these are not the constructors of a half, or None."""
    if len(constructors) != HALVES:
        return f"has {counted(len(constructors), 'constructor')}, not {HALVES}"
    for name, fields in constructors:
        if fields:
            return f"has '{name.text}' with {counted(len(fields), 'field')}, not 0"
    return None


# The text.

def spelled(name):
    """The text of a name in quotes, with `_` behind it where the rest of the name is open. A part of a value is a pair of a constructor's
    number and its fields, or None where it is open."""
    if name is None:
        return "_"
    letters = []
    while name is not None and name[0] == 1:
        high, low, name = name[1]
        letters.append(letter(high, low))
    return f'"{"".join(letters)}"{"_" if name is None else ""}'


def letter(high, low):
    """A byte as the letter that it is in Latin-1; by its halves where one is open, or where it cannot be seen or has a meaning here."""
    digits = "".join("_" if half is None else DIGITS[half[0]] for half in (high, low))
    if "_" not in digits:
        shown = chr(int(digits, 16))
        if shown.isprintable() and shown not in '"\\':
            return shown
    return f"\\x{digits}"
