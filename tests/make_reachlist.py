"""Makes the rule files on which the programs reachlist and namelist are run, and the texts that they must print for each.

They lie in the folder tests/reachlist: NAME.rule is what both read, NAME.out what reachlist prints, NAME.names what namelist
prints. tests/check_reachlist.py runs the programs on them. Those about names stand in tests/named_texts.py. The program
report_vectors runs the same files, first those that are not about names, then those that are, each in the order of their
names: its stdin has each file behind its three-byte length, low byte first, its stdout the text of reachlist and a line
`end`, then that of namelist and a line `end`. With --check nothing is written, and the exit status is 1 where the stored
files differ. Either way it is 1 where the set lacks a kind of last line, would be printed alike with a buffer of another
size, or has too few texts that a misreading of `blind.misname` would change; where narrowing lists anything else; and where
a filled entry does not behave as its entry says.
"""

import os
import sys
from functools import lru_cache
from itertools import islice

import field_rules
import named_texts
import rules
from blind import names as name_texts
from blind.build import call, case, con, fn, go, target, two, ty, var
from blind.compare import Different
from blind.demands import filled
from blind.enumerate import MOST_INPUTS, WORDS, Listing, TooMany, printed, program_search
from blind.misname import NAMES
from blind.names import Names
from blind.narrow import differs
from blind.wrong import TOTALS, too_few
from make_boundary import file_of_size
from make_searches import answer, checked, entries, length
from rules import AGAIN, HOLLOW, P, REACH, changed, shortened
from vectors import checking, store

FOLDER = os.path.join(os.path.dirname(os.path.abspath(__file__)), "reachlist")

BOOL = ty((), ())


def third(first, second):
    """Three entries, of which the two given are the first and the second."""
    return BOOL + fn((0, 0), 0, case(0, var(0), first, case(0, var(1), second, target(7, var(0))))) + go()


def largest():
    """A rule file of 16,384 bytes with a list: the last of its functions is searched, and it calls none of the others."""
    source = fn((0,), 0, case(0, var(0), target(7, var(0)), None))
    return file_of_size(16384 - len(source))[:-7] + source + go(16, depth=3)


def examples():
    """The examples of the specification."""
    return {
        "p": P, "p_d3": changed(depth=3), "p_s6": changed(steps=6), "p_d2": changed(depth=2), "p_d1": changed(depth=1),
        "p_s5": changed(steps=5), "p_s2": changed(steps=2), "p_s0": changed(steps=0),
        "p_label8_s6": changed(label=8, steps=6), "p_label8_s7": changed(label=8, steps=7),
        "empty": b"", "fn_first": P[6:], "hollow": HOLLOW,
    }


def refused():
    """A rule file for every refusal that reachlist can give, and the edges of its buffers."""
    return {
        "short": P[:-1], "mark": P[:-7] + b"XX", "range": changed(depth=65), "stranger": P[:-5] + b"\1" + P[-4:],
        "code": P[:13] + b"\6" + P[14:], "misfit": P[:6] + BOOL + P[6:9] + b"\1" + P[10:], "tail": P + b"\0",
        "shallow": ty((1,)) + ty(()) + fn((0,), 0, var(0)) + go(depth=1),
        "s240": changed(steps=240), "s241": changed(steps=241), "s4096": changed(steps=4096),
        "size_16384": file_of_size(16384)[:-3] + b"\3" + two(20), "size_16385": file_of_size(16385),
        "size_16384_found": largest(), "size_16384_and_more": largest() + b"\0", "size_100000": P + bytes(100000 - len(P)),
        # 2,048 entries of 16 bytes fill 32,768; one byte more does not fit, nor does a 2,049th.
        "list_fills": rules.exact_list(8) + go(depth=2, steps=40),
        "list_lacks_a_byte": rules.exact_list(8, True) + go(depth=2, steps=40),
        "list_lacks_entries": rules.exact_list(9) + go(depth=2, steps=40),
        "many_entries": rules.sixteens() + go(),
        "long_entries": rules.chains() + go(0, 7, 60, 240),
    }


def lists():
    """Lists of all kinds, and shares that are rounded: down and up to the nearest, and from a half down and up to the even one."""
    again, reach = call(0, con(0, 1), con(0, 0)), target(7, var(0))
    return {
        "no_parameters_found": rules.without_parameters() + go(),
        "no_parameters_at_once": rules.without_parameters(target(7, con(0, 1))) + go(steps=0),
        "no_parameters_undecided": rules.without_parameters(call(0)) + go(),
        "no_parameters_none": rules.without_parameters(con(0, 1)) + go(steps=0),
        "share_33": third(reach, again), "share_67": third(again, call(0, con(0, 0), var(0))), "share_0": third(reach, reach),
        "share_12": rules.in_turn(*[REACH] * 5, AGAIN, *[REACH] * 2) + go(), "share_38": rules.in_turn(*[AGAIN] * 3, *[REACH] * 5) + go(),
        "equal_numbers": rules.equal_numbers() + go(depth=6, steps=40),
        "true_leaf": rules.true_leaf() + go(depth=4, steps=40),
        "member": rules.member() + go(depth=5, steps=60),
        "increasing": rules.increasing() + go(depth=4, steps=60),
        "chain": rules.chain() + go(depth=64, steps=240),
        "labels": rules.labels() + go(label=255),
        "least_depth": rules.least_depth_three() + go(depth=7, steps=40),
        "eight_parameters": rules.eight_parameters() + go(depth=1, steps=30),
    }


def missing():
    """Lists with missing alternatives: found by step S and a step later, alone, and beside others, whose share stays as it is."""
    alone = case(0, con(0, 0), None, target(7, con(0, 0)))
    return {
        "p_no_end_s6": shortened(True, steps=6), "p_no_end_s5": shortened(True, steps=5), "p_no_zero": shortened(False),
        "missing_known_s6": rules.missing_later() + go(depth=2, steps=6), "missing_known_s5": rules.missing_later() + go(depth=2, steps=5),
        "missing_no_parameters": rules.without_parameters(alone) + go(steps=2),
        "missing_no_parameters_s1": rules.without_parameters(alone) + go(steps=1),
        "missing_alone": rules.in_turn(*[None] * 16) + go(),
        "missing_share_0": rules.in_turn(REACH, None) + go(),
        "missing_share_33": rules.in_turn(None, REACH, AGAIN, None, REACH, None) + go(),
        "missing_share_67": rules.in_turn(AGAIN, None, None, REACH, AGAIN) + go(),
        "missing_share_62": rules.in_turn(None, *[AGAIN, REACH] * 3, None, *[AGAIN] * 2, None) + go(),
        "missing_share_88": rules.in_turn(*[AGAIN] * 4, None, None, REACH, *[AGAIN] * 3) + go(),
        "missing_share_100": rules.in_turn(None, AGAIN, None) + go(),
        "missing_in_scrutinee": rules.missing_in_scrutinee() + go(depth=3),
        "missing_below_let": rules.missing_below_let() + go(depth=3),
        "missing_in_call": rules.missing_in_call() + go(depth=5, steps=40),
        "missing_or_too_deep": rules.missing_or_too_deep() + go(depth=2),
        "missing_chain": rules.chain(6, None) + go(depth=12, steps=240),
    }


def results():
    """Results with fields: step limits before and behind a turn, missing alternatives, parts of the input, and results without end."""
    return {
        "result_pair": field_rules.looking_pair() + go(), "result_pair_s4": field_rules.looking_pair() + go(steps=4),
        "result_pair_s5": field_rules.looking_pair() + go(steps=5), "result_pair_s8": field_rules.looking_pair() + go(steps=8),
        "result_six_fields": field_rules.six_fields() + go(), "result_six_fields_s13": field_rules.six_fields() + go(steps=13),
        **{f"result_missing_{word}": field_rules.missing_at(place) + go() for place, word in enumerate(("first", "middle", "last"))},
        "result_pair_of_pairs": field_rules.target_in_field_of_field() + go(),
        "result_same_part_again": field_rules.same_part_again() + go(),
        "result_let": field_rules.let_around() + go(), "result_kept": field_rules.kept(True) + go(depth=3),
        "result_32_nested_s31": field_rules.nested() + go(steps=31), "result_32_nested_s30": field_rules.nested() + go(steps=30),
        "result_for_ever": field_rules.for_ever() + go(steps=240),
        "result_mapped": field_rules.mapped() + go(depth=4, steps=60), "result_copied": field_rules.copied() + go(depth=3, steps=60),
    }


def lacking(texts):
    """Kinds of last line that no text has: refusals, and verdicts and shares of lists with missing ones and without."""
    last = [text.splitlines()[-1] for text in texts]
    found = {line for line in last if line.startswith("refused")}
    for _, _, _, missing_ones, share, verdict in (line.split() for line in last if line.startswith("total")):
        found |= {f"{item} {'without' if missing_ones == '0' else 'with'} missing ones" for item in (f"share {share}", verdict)}
    items = ("share 0", "share 33", "share 67", "share 100", "found", "undecided", "none")
    wanted = {f"{item} {word} missing ones" for item in items for word in ("with", "without")}
    wanted |= {"share 12 without missing ones", "share 38 without missing ones", "share 62 with missing ones", "share 88 with missing ones"}
    return sorted((wanted | {f"refused {number}" for number in (*range(1, 10), 11, 12, 15)}) - found)


def total_lines(texts):
    """Of each text with a total its lines by kind, and the total."""
    for *entries, last in (text.splitlines(True) for text in texts):
        if last.startswith("total"):
            words = [line.split()[0] for line in entries]
            yield tuple(words.count(word) for word in WORDS.values()), last


# The programs' buffers: the bytes that they take of their input, the words of their work slice, the bytes of their list.
SIZES = {"input": 16385, "work": 16384, "list": 32768}

# Sizes that must show in what is printed for some rule file. A longer input buffer prints the same, and tests/check_reachlist.py
# sees it by what a program takes. Nor does a work slice show that has up to 63 words more: they are too few for another step.
WRONG_SIZES = (("input", 43), ("input", 16383), ("input", 16384), ("work", 2304), ("work", 16383), ("work", 16448),
               ("list", 9), ("list", 32767), ("list", 32769))

returned = lru_cache(maxsize=None)(answer)


def answered(sizes, rule_file):
    """What the search of the programs returns with buffers of these sizes."""
    return returned(rule_file[:sizes["input"]], sizes["work"], sizes["list"])


def text_with(sizes, rule_file):
    """What reachlist prints with buffers of these sizes."""
    return printed(answered(sizes, rule_file)).encode()


def names_with(sizes, rule_file, reading=Names):
    """What namelist prints with buffers of these sizes; `reading` is `Names` or a misreading of it."""
    return name_texts.printed(checked(rule_file[:sizes["input"]]), answered(sizes, rule_file), reading).encode()


# The programs by what they print, with the endings of the stored texts.
PROGRAMS = {".out": text_with, ".names": names_with}


def changed_by(sizes, made, names, ending):
    """The rule files for which a program prints something else with buffers of these sizes, as its search returns something else."""
    return [name for name in names if answered(sizes, made[name + ".rule"]) != answered(SIZES, made[name + ".rule"])
            and PROGRAMS[ending](sizes, made[name + ".rule"]) != made[name + ending]]


def sizes_shown(made, names):
    """Per program and wrong size the rule files that show it."""
    return {(ending, buffer, size): changed_by({**SIZES, buffer: size}, made, names, ending)
            for ending in PROGRAMS for buffer, size in WRONG_SIZES}


# Names.

ENOUGH, LEAST = 10, 2  # texts of namelist that a misreading changes at least; the second where it takes a list that 12 cut short
MANY = 30  # texts up to which the changed ones are counted
SHORT = 3500  # bytes of the lists on which the others are tried

CUT_SHORT = ("the line of 12 comes first", "12 has no line", "with 12 no name is printed", "without NA 12 has no line")


def misread(made, names):
    """Per misreading the number of texts of namelist that it changes, as far as they are counted."""
    listed = {name: given for name in names if isinstance(given := answered(SIZES, made[name + ".rule"]), Listing)}
    sizes = {name: len(given.record()) for name, given in listed.items()}
    short = sorted((name for name in listed if sizes[name] <= SHORT), key=sizes.get)
    cut = [name for name, given in listed.items() if given.refusal]

    def changed_texts(error):
        tried = cut if error in CUT_SHORT else short
        return (name for name in tried if names_with(SIZES, made[name + ".rule"], NAMES[error]) != made[name + ".names"])

    return {error: sum(1 for _ in islice(changed_texts(error), MANY)) for error in NAMES}


def wrong_entries(name, rule_file):
    """What is wrong with the list of a rule file with names."""
    program = checked(rule_file)
    if isinstance(program, int) or length(rule_file) > SHORT:
        return []
    try:
        filled(Names(program), entries(rule_file), 3)
    except Different as different:
        return [f"{name}: {different}"]
    return [f"narrowing lists otherwise: {name}"] if differs(program, entries(rule_file), None) else []


# What the set must hold.

EDGES = "list_fills", "list_lacks_a_byte"  # of the list buffer
FEW = 100  # closed inputs of the other rule files on which the search of the blind side's programs is tried


def otherwise(rule_file, most_inputs):
    """Whether the search of the blind side's programs returns something else, where the closed inputs are not more than this."""
    try:
        return program_search(rule_file, most_inputs) != answered(SIZES, rule_file)
    except TooMany:
        return False


def faults(made, unnamed, named, shown, changes):
    """What the set lacks, and what is wrong with it."""
    texts = [made[name + ".out"].decode() for name in unnamed + named]
    return ([f"none has {kind}" for kind in lacking(texts)] + too_few(TOTALS, list(total_lines(texts)), 1)
            + [f"no {ending} shows that {size} is a wrong size of the {buffer} buffer"
               for (ending, buffer, size), by in shown.items() if not by]
            + [f"the blind side's programs search {name} otherwise" for name in unnamed
               if otherwise(made[name + ".rule"], MOST_INPUTS if name in EDGES else FEW)]
            + [f"changes {number} texts: {error}" for error, number in changes.items()
               if number < (LEAST if error in CUT_SHORT else ENOUGH)]
            + [wrong for name in named for wrong in wrong_entries(name, made[name + ".rule"])])


def differences(made):
    """How the stored files differ from those made."""
    stored = set(os.listdir(FOLDER))
    found = [f"{name} is stored and not made" for name in sorted(stored - set(made))]
    for name, data in made.items():
        if name not in stored or open(os.path.join(FOLDER, name), "rb").read() != data:
            found.append(f"the stored {name} differs from what is made")
    return found


def write(made):
    os.makedirs(FOLDER, exist_ok=True)
    for name, data in made.items():
        with open(os.path.join(FOLDER, name), "wb") as file:
            file.write(data)


def store_vectors(made, names):
    """Stores the stdin and the stdout of the program report_vectors. The result is an exit status."""
    files = [made[name + ".rule"] for name in names]
    stdin = b"".join(len(rule_file).to_bytes(3, "little") + rule_file for rule_file in files)
    stdout = b"".join(made[name + ending] + b"end\n" for name in names for ending in PROGRAMS)
    return store("report_vectors", stdin, stdout, sys.argv[1:])


def make():
    """The stored files by their names; the names of the rule files that are not about names, and of those that are."""
    unnamed, named = {**examples(), **refused(), **lists(), **missing(), **results()}, named_texts.make()
    made = {}
    for name, rule_file in {**unnamed, **named}.items():
        made[name + ".rule"] = rule_file
        made[name + ".out"], made[name + ".names"] = text_with(SIZES, rule_file), names_with(SIZES, rule_file)
    return made, sorted(unnamed), sorted(named)


def report(made, shown, changes):
    print(f"{len(made) // 3} rule files, {sum(map(len, made.values()))} bytes")
    for (ending, buffer, size), by in shown.items():
        some = [name + ending for name in by[:9]] + [".."] * (len(by) > 9)
        print(f"{size} as the size of the {buffer} buffer: shown by {', '.join(some)}")
    print("texts of namelist that a misreading changes")
    for error, number in changes.items():
        print(f"{number:6}  {error}")


def main():
    only_checking = checking(sys.argv[1:])
    made, unnamed, named = make()
    shown, changes = sizes_shown(made, unnamed + named), misread(made, named + unnamed)
    wrong = faults(made, unnamed, named, shown, changes)
    if only_checking:
        wrong += differences(made)
    else:
        write(made)
        report(made, shown, changes)
    for fault in wrong:
        print(f"reachlist: {fault}", file=sys.stderr)
    differing = store_vectors(made, unnamed + named)
    return 1 if wrong or differing else 0


if __name__ == "__main__":
    sys.exit(main())
