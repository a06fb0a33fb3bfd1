"""Tests what tools/rule does with `names`: where the declaration may stand and its faults, the record NA that it becomes, rule files with
that record, whole and damaged, and how a name is shown of which parts may be open."""

import json
import os
import re
from tempfile import TemporaryDirectory

from rule_tool import build, changed, checked, compare, count, faults_of, run, start, warnings_of
from blind.rulefile import Program, check
from rulelib.faults import Fault
from rulelib.parser import INDENT
from rulelib.reader import show
from rulelib.values import line_object

HALF = " | ".join(f"h{digit}" for digit in "0123456789ABCDEF")
DECLARATION = "names name\n"
TEXT = f"""type half = {HALF}
type name = end | byte half half name
type bool = no | yes
{DECLARATION}fn f (n : name) (b : bool) (m : name) : bool =
  case b of
    no -> no
    yes -> case m of
      end -> target 1 no
      byte _ _ _ -> f m b n
go f label 1 depth 3 steps 20
"""
PLAIN = TEXT[:TEXT.index("  case")] + "  target 1 no\n" + TEXT[TEXT.index("go f"):]
RULE = checked(TEXT)
DATA = RULE.data()
GO = DATA[-7:]


# The declaration.

def check_places():
    """Wherever it stands, it becomes a record before GO."""
    without = changed(TEXT, DECLARATION, "")
    wanted = build(without)[:-7] + b"NA\1" + GO
    compare("the record", DATA, wanted)
    for line in range(len(without.split("\n"))):
        lines = without.split("\n")
        if line == 0 or line >= len(lines) - 2 or lines[line].startswith(("type", "fn")):
            compare(f"names before line {line + 1}", build("\n".join(lines[:line] + [DECLARATION.strip()] + lines[line:])), wanted)
    compare("names over two lines", build(changed(TEXT, DECLARATION, "names\n  name\n")), wanted)
    compare("its warnings", [message for _, message in warnings_of(TEXT)], [])
    compare("whether it is accepted", isinstance(check(DATA), Program), True)
    apart = changed(changed(TEXT, "byte half half", "byte high half"), DECLARATION, DECLARATION + f"type high = {HALF.replace('h', 'k')}\n")
    compare("two types for the halves", (isinstance(check(build(apart)), Program), build(apart)[-10:-7]), (True, b"NA\1"))


def check_word():
    """Elsewhere the word is a name."""
    text = re.sub(r"\b(name|f|byte|n)\b", lambda word: {"name": "names", "f": "g", "byte": "names", "n": "k"}[word[1]], TEXT)
    compare("the name 'names'", (text.count("names names"), build(text)), (1, DATA))
    inner = changed(changed(TEXT, "fn f (n : name)", "fn f (names : name)"), "f m b n", "\n        f m b\n          names")
    compare("the variable 'names'", build(inner), DATA)


FORM = ("the values of '{0}' spell no names (refusal 15): {1}; the form is 'type {0} = END | BYTE HIGH LOW {0}', with HIGH and LOW of sixteen "
        "constructors without fields")
EXPECTED = "'type', 'fn', 'equal', 'names' or 'go' is expected, not "

# What is changed in the plain text, and the line and the message that this must give, and no other.
FAULTS = [
    ("names name", "names nam", 4, "there is no type 'nam'"),
    ("names name", "names byte", 4, "there is no type 'byte'"),
    ("names name", "names name\nnames name", 5, "a second 'names'; the first is in line 4"),
    ("names name", "names\n  name\nnames name", 6, "a second 'names'; the first is in line 4"),
    ("names name", "names", 4, "the name of a type is missing at the end of this line " + INDENT),
    ("names name", "names 7", 4, "the name of a type is expected, not '7'"),
    ("names name", "names name half", 4, EXPECTED + "'half'"),
    ("names name", "names name\n  names name", 5, EXPECTED + "'names' " + INDENT),
]

# What is changed in it so that the named type has another form, and what is said of that form.
FORMS = [
    ("end | byte half half name", "end", "it has 1 constructor, not 2"),
    ("half half name", "half half name | more", "it has 3 constructors, not 2"),
    ("end | byte", "end half | byte", "'end', the first constructor, has 1 field, not 0"),
    ("end | byte half half name", "byte half half name | end", "'byte', the first constructor, has 3 fields, not 0"),
    ("half half name", "", "'byte', the second constructor, has 0 fields, not 3"),
    ("half half name", "half name", "'byte', the second constructor, has 2 fields, not 3"),
    ("half half name", "half half name name", "'byte', the second constructor, has 4 fields, not 3"),
    ("half half name", "bool half name", "'bool', the type of the first field of 'byte', has 2 constructors, not 16"),
    ("half half name", "half bool name", "'bool', the type of the second field of 'byte', has 2 constructors, not 16"),
    ("half half name", "name half half", "'name', the type of the first field of 'byte', has 2 constructors, not 16"),
    ("half = h0 | ", "half = ", "'half', the type of the first field of 'byte', has 15 constructors, not 16"),
    ("hE | hF", "hE | hF bool", "'half', the type of the first field of 'byte', has 'hF' with 1 field, not 0"),
    ("half half name", "half half half", "the third field of 'byte' is of type 'half', not 'name'"),
    ("half half name", "half half other\ntype other = end2 | byte2 half half name", "the third field of 'byte' is of type 'other', not 'name'"),
]


def check_faults():
    compare("a text without fault", faults_of(PLAIN), [])
    for old, new, line, message in FAULTS:
        compare(f"{new!r} for {old!r}", faults_of(changed(PLAIN, old, new)), [(line, message)])
    for old, new, why in FORMS:
        text = changed(PLAIN, old, new)
        line = text.split("\n").index("names name") + 1
        compare(f"{new!r} for {old!r}", faults_of(text), [(line, FORM.format("name", why))])
        data = checked(text, judged=False).data()
        compare(f"the check of {new!r} for {old!r}", check(data), 15)
        shown = show(data)
        compare(f"what is shown of {new!r} for {old!r}", ("\nnames t1\n" in shown, [message for _, message in faults_of(shown)]),
                (True, [FORM.format("t1", made_up(why))]))
    compare("another type", faults_of(changed(PLAIN, "names name", "names bool")),
            [(4, FORM.format("bool", "'yes', the second constructor, has 0 fields, not 3"))])
    count("faults", len(FAULTS) + len(FORMS) + 1)


MADE_UP = {"end": "t1c0", "byte": "t1c1", "half": "t0", "name": "t1", "bool": "t2", "other": "t2", "hF": "t0c15"}


def made_up(why):
    """A message with the names that `show` makes up."""
    names = {**MADE_UP, "byte": "t1c0"} if "first constructor" in why else MADE_UP
    return re.sub("'(.*?)'", lambda name: f"'{names[name[1]]}'", why)


# Texts with several faults, and these.
SEVERAL = [
    # What rests on a type with a fault is not reported.
    (changed(PLAIN, "half half name", "half half nam"), [(2, "there is no type 'nam'")]),
    (changed(PLAIN, "half half name", "half half name |"), [(2, "the name of a constructor is missing at the end of this line " + INDENT)]),
    (changed(PLAIN, "hE | hF", "hE | ? hF"), [(1, "the character '?' has no meaning here")]),
    (changed(PLAIN, "type bool", "type name = none\ntype bool"), [(3, "'name' is already the name of a type")]),
    # A declaration with a fault is none.
    (changed(PLAIN, "names name", "names 7\nnames bool"),
     [(4, "the name of a type is expected, not '7'"), (5, FORM.format("bool", "'yes', the second constructor, has 0 fields, not 3"))]),
    # Refusals 8 and 9 beside 15, and the fault of a body.
    (changed(changed(changed(PLAIN, "end | byte half half name", "byte half half name"), "depth 3", "depth 1"), "(b : bool)", "(b : pair)")
     + "type pair = pair bool bool\n",
     [(2, "the type 'name' has no closed value (refusal 8)"), (4, FORM.format("name", "it has 1 constructor, not 2")),
      (7, "the depth is 1, and the values of parameter 'b' have depth 2 at least (refusal 9)")]),
    (changed(changed(PLAIN, "names name", "names half"), "target 1 no", "target 1 n"),
     [(4, FORM.format("half", "it has 16 constructors, not 2")), (6, "'n' is of type name, and bool is expected here")]),
]


def check_several():
    for text, faults in SEVERAL:
        compare("several faults", faults_of(text), faults)
    count("texts with several faults", len(SEVERAL))


def check_warning():
    used = changed(PLAIN, "(n : name) (b : bool) (m : name)", "(_ : bool)")
    compare("no parameter that spells", warnings_of(used), [(4, "no parameter of 'f' is of type 'name', so that namelist prints no name")])
    compare("one parameter that spells", warnings_of(changed(used, "(_ : bool)", "(_ : bool) (_ : name)")), [])
    count("warnings", 2)


# Rule files.

START = DATA.index(b"FN")  # of the functions
RUN_OUT, MARK = "the bytes run out", "a mark is unknown or out of its turn"

# A damaged rule file, its refusal, and what is said of it: at which byte, and what.
DAMAGED = [
    (DATA[:-9], 1, (len(DATA) - 9, RUN_OUT)),
    (DATA[:-8], 1, (len(DATA) - 8, RUN_OUT)),
    (DATA[:-7], 1, (len(DATA) - 7, RUN_OUT)),
    (DATA[:-10] + b"NB\1" + GO, 2, (len(DATA) - 8, MARK)),
    (DATA[:-10] + b"AN\1" + GO, 2, (len(DATA) - 8, MARK)),
    (DATA[:-7] + b"NA\1" + GO, 2, (len(DATA) - 5, MARK)),
    (DATA[:-7] + DATA[START:-10] + GO, 2, (len(DATA) - 5, MARK)),
    (DATA[:-7] + b"TY\1\0" + GO, 2, (len(DATA) - 5, MARK)),
    (b"NA\1" + DATA, 2, (2, MARK)),
    (DATA[:START] + b"NA\1" + DATA[START:-10] + GO, 2, (START + 2, MARK)),
    (DATA[:START] + b"NA\1" + GO, 2, (START + 2, MARK)),
    (DATA[:-10] + GO + b"NA\1", 7, (len(DATA) - 3, "bytes follow the end")),
    (DATA[:-10] + b"NA\3" + GO, 4, (len(DATA), "there is no type 3")),
    (DATA[:-10] + b"NA\xff" + GO, 4, (len(DATA), "there is no type 255")),
    # The numbers of types, then that of NA, then the source, then the bodies.
    (DATA[:START - 3] + b"\1\1\4" + DATA[START:-10] + b"NA\3" + GO, 4, (len(DATA), "there is no type 4")),
    (DATA[:START + 3] + b"\4" + DATA[START + 4:-10] + b"NA\3" + GO, 4, (len(DATA), "there is no type 4")),
    (DATA[:-10] + b"NA\3GO\1" + GO[3:], 4, (len(DATA), "there is no type 3")),
    (DATA[:-10] + b"NA\1GO\1" + GO[3:], 4, (len(DATA), "there is no function 1")),
    (DATA[:START + 9] + b"\6" + DATA[START + 10:-10] + b"NA\3" + GO, 4, (len(DATA), "there is no type 3")),
    (DATA[:START + 9] + b"\6" + DATA[START + 10:], 5, (START + 10, "there is no expression 6")),
]


def check_files():
    compare("a rule file and back", build(show(DATA)), DATA)
    compare("its last lines", show(DATA).split("\n")[-3:-1], ["names t1", "go f0 label 1 depth 3 steps 20"])
    compare("with its names", show(DATA, checked(TEXT)).split("\n")[-3:-1], ["names name", "go f label 1 depth 3 steps 20"])
    compare("with those of a text that names no type", show(DATA, checked(changed(TEXT, DECLARATION, ""))), show(DATA, checked(TEXT)))
    bare = build(changed(TEXT, DECLARATION, ""))
    compare("without the record", (bare, "names" in show(bare, checked(TEXT))), (DATA[:-10] + GO, False))
    for number, (data, refusal, (place, message)) in enumerate(DAMAGED):
        compare(f"the check of damaged rule file {number}", check(data), refusal)
        compare(f"damaged rule file {number}", said_of(data), f"byte {place}: {message}")
    count("damaged rule files", len(DAMAGED))


def said_of(data):
    try:
        return show(data)
    except Fault as fault:
        return fault.message


# How a name is shown.

SHOWN = {
    "_": "_", "0": '""', "1 12 9 0": '"É"', "1 12 9 _": '"É"_', "1 4 1 1 4 2 0": '"AB"', "1 2 0 0": '" "',
    "1 12 _ 0": r'"\xC_"', "1 _ 9 0": r'"\x_9"', "1 _ _ 0": r'"\x__"', "1 _ _ _": r'"\x__"_', "1 12 9 1 _ _ 1 14 9 _": r'"É\x__é"_',
    "1 5 15 0": '"_"', "1 5 15 _": '"_"_', "1 12 9 1 5 15 0": '"É_"', "1 2 2 0": r'"\x22"', "1 5 12 1 7 8 1 4 1 0": r'"\x5CxA"',
    "1 10 0 0": r'"\xA0"', "1 10 13 0": r'"\xAD"', "1 7 15 0": r'"\x7F"', "1 8 5 0": r'"\x85"', "1 0 10 0": r'"\x0A"',
}


def shown(words):
    """How a name is shown, given by the words of reachlist."""
    return line_object(RULE, f"reach 1 {words} 0 0")["names"][0]


def bytes_of(name):
    """The words of reachlist for a closed name."""
    return "".join(f"1 {byte // 16} {byte % 16} " for byte in name) + "0"


def again(text):
    """The words of reachlist for what is shown, by another reader of it."""
    if text == "_":
        return "_"
    quoted, rest = re.fullmatch(r'"((?:[^"\\]|\\x[0-9A-F_]{2})*)"(_?)', text).groups()
    letters = re.findall(r"\\x(.)(.)|(.)", quoted)
    halves = [(high, low) if not letter else f"{ord(letter):02X}" for high, low, letter in letters]
    words = [" ".join(["1"] + ["_" if half == "_" else str(int(half, 16)) for half in pair]) for pair in halves]
    return " ".join(words + [rest or "0"])


def check_shown():
    for words, text in SHOWN.items():
        compare(f"what is shown for {words}", shown(words), text)
    for byte in range(256):
        seen = 32 <= byte < 127 and byte not in b'"\\' or 160 < byte and byte != 173
        compare(f"what is shown for byte {byte}", shown(bytes_of([byte])), f'"{chr(byte)}"' if seen else f'"\\x{byte:02X}"')
    halves = ["_", "2", "5", "9", "12", "15"]
    single = [f"1 {high} {low}" for high in halves for low in halves]
    partial = ["_", "0"] + [f"{byte} {rest}" for byte in single for rest in ["_", "0"] + [f"{other} {end}" for other in single for end in "_0"]]
    compare("names that are shown as others", [words for words in partial if again(shown(words)) != words], [])
    long = bytes_of(b"x" * 63)
    compare("a long name", (shown(long), len(set(map(shown, partial)))), (f'"{"x" * 63}"', len(partial)))
    count("names", len(SHOWN) + 256 + len(partial) + 1)


# A line of reachlist, and how it is shown as it is asked for.
LINE = "reach 9 1 12 9 _ _ 1 2 2 0"
BUILT = ["byte hC h9 _", "_", "byte h2 h2 end"]
JSON = '{"kind":"reach","steps":9,"parameters":["byte hC h9 _","_","byte h2 h2 end"],"names":["\\"É\\"_",null,"\\"\\\\x22\\""]}'
ASKED = [
    (LINE, [], 'reach 9  "É"_  _  "\\x22"'),
    (LINE, ["--constructors"], 'reach 9  "É"_ = byte hC h9 _  _  "\\x22" = byte h2 h2 end'),
    (LINE, ["--json"], JSON),
    (LINE, ["--json", "--constructors"], JSON),
    ("missing 2 _ 1 0", [], 'missing 2  _  yes  ""'),
    ("missing 2 _ 1 0", ["--constructors"], 'missing 2  _  yes  "" = end'),
    ("missing 2 _ 1 0", ["--json"], '{"kind":"missing","steps":2,"parameters":["_","yes","end"],"names":["_",null,"\\"\\""]}'),
    ("unfinished 20 0 0 1 _ _ _", [], 'unfinished 20  ""  no  "\\x__"_'),
    ("total 1 0 0 0 found", [], "total 1 0 0 0 found"),
    ("refused 15", [], "refused 15 spelling"),
    ("refused 15", ["--json"], '{"refused":15}'),
]
BARE = [
    (LINE, [], "  ".join(["reach 9"] + BUILT)),
    (LINE, ["--constructors"], "  ".join(["reach 9"] + BUILT)),
    (LINE, ["--json"], JSON.partition(',"names"')[0] + "}"),
]


def check_lines():
    """Lines with names, in each form; without the declaration they are as if there were no names."""
    compare("the names in JSON", json.loads(JSON)["names"], ['"É"_', None, '"\\x22"'])
    with TemporaryDirectory() as folder:
        for name, text, asked in (("names.txt", TEXT, ASKED), ("bare.txt", changed(TEXT, DECLARATION, ""), BARE)):
            with open(os.path.join(folder, name), "wb") as file:
                file.write(text.encode())
            for line, words, wanted in asked:
                compare(f"{line} {words} in {name}", run("names", name, *words, stdin=line.encode() + b"\n", folder=folder),
                        (0, wanted.encode() + b"\n", ""))
        bad = run("names", "names.txt", stdin=b"reach 9 1 16 0 0 0 0\n", folder=folder)
        compare("a half that there is not", bad, (1, b"", "standard input:1: '16' does not fit the rule's type half here\n"))
        plain = {"LC_ALL": "C", "PYTHONCOERCECLOCALE": "0", "PYTHONUTF8": "0"}
        told = start("names", "names.txt", stdin=LINE.encode(), folder=folder, settings=plain)
        compare("letters without a locale", told, (0, ASKED[0][2].encode() + b"\n", ""))
    count("names", len(ASKED) + len(BARE) + 3)


def check_all():
    check_places()
    check_word()
    check_faults()
    check_several()
    check_warning()
    check_files()
    check_shown()
    check_lines()
