"""Rule files as text: what tools/rule is made of. docs/RULES.md describes the text.

    limits, faults     what a rule file may have; what is reported
    tokens, syntax     the words of a text; what a text says
    parser             from words to what a text says, going on behind a fault
    equality           the functions that an `equal` declaration stands for
    scope, bodies      the names of a text; the check of an expression, and its bytes
    spelling           the type whose values spell names: its form, and the text of a name
    advice             which part of a long body to move to a function
    rules, warning     a checked text and its rule file; what is to be warned of in it
    reader             from a rule file to a text
    values             closed inputs and the lines of reachlist, with the names of a text
    commands           the command
"""
