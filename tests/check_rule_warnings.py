"""Tests the warnings of tools/rule, and what they ask for: `_ -> E` for all other constructors, `_` for what is meant to be missing or
unused, and names with letters beyond ASCII."""

import unicodedata

from rule_tool import build, changed, checked, compare, count, faults_of, warnings_of
from rulelib.reader import show
from rulelib.values import Spelled, named_line

CLEAN = """type nat = zero | suc nat
type hue = red | green | blue nat
fn first (n : nat) (h : hue) : nat =
  case h of
    red -> second n
    green -> target 3 n
    blue m -> m
fn second (n : nat) : nat =
  case n of
    zero -> target 5 (first n red)
    suc m -> second m
go first label 3 depth 4 steps 240
"""

MEANT = ": inputs that need one are listed as missing; '_ -> _' says that this is meant"
UNUSED = "; '_' says that this is meant"
UNCALLED = ": 'first' does not come to call it"

# What is changed in the text, and the warnings that this must give.
WARNINGS = [
    ("label 3", "label 4", [(12, "no target has label 4; there are targets with labels 3 and 5")]),
    ("target 5 (first n red)", "target 3 (first n red)", []),
    ("green -> target 3 n", "green -> n", [(12, "no target has label 3; there are targets with label 5")]),
    ("red -> second n", "red -> n",
     [(8, "nothing uses the function 'second'" + UNCALLED)]),
    ("go first label 3", "go second label 5", []),
    ("go first label 3", "go third label 3", None),
    ("    green -> target 3 n\n", "", [(4, "the case has no alternative for 'green'" + MEANT),
                                       (11, "no target has label 3; there are targets with label 5")]),
    ("    zero -> target 5 (first n red)\n    suc m -> second m\n", "    zero -> first n red\n",
     [(9, "the case has no alternative for 'suc'" + MEANT)]),
    ("    suc m -> second m\n", "    suc _ -> _\n", []),
    ("    suc m -> second m\n", "    _ -> _\n", []),
    ("  case h of\n    red -> second n\n    green -> target 3 n\n    blue m -> m\n", "  case h : hue of\n",
     [(3, "nothing uses the parameter 'n' of 'first'" + UNUSED),
      (4, "the case has no alternative for 'red', 'green' and 'blue'" + MEANT),
      (5, "nothing uses the function 'second'" + UNCALLED), (9, "no target has label 3; there are targets with label 5")]),
    ("blue m -> m", "blue m -> m\n    _ -> n", [(8, "'_' stands for no constructor: each has an alternative above it")]),
    ("blue m -> m", "blue m -> m\n    _ -> _", [(8, "'_' stands for no constructor: each has an alternative above it")]),
    ("red -> second n", "red -> second zero", []),
    ("red -> second n\n    green -> target 3 n", "red -> second zero\n    green -> target 3 zero",
     [(3, "nothing uses the parameter 'n' of 'first'" + UNUSED)]),
    ("fn second (n : nat) : nat =\n", "fn second (n : nat) (_ : nat) : nat =\n", None),
    ("go first", "fn third (a : nat) (b : nat) : nat = third a zero\ngo first",
     [(12, "nothing uses the function 'third'" + UNCALLED), (12, "nothing uses the parameter 'b' of 'third'" + UNUSED)]),
    ("go first", "fn third : nat = fourth\nfn fourth : nat = third\ngo first",
     [(12, "nothing uses the function 'third'" + UNCALLED), (13, "nothing uses the function 'fourth'" + UNCALLED)]),
    ("go first", "fn third (_ : nat) : nat = target 9 zero\ngo first", [(12, "nothing uses the function 'third'" + UNCALLED)]),
    ("go first label 3", "fn third : nat = target 9 zero\ngo first label 9",
     [(12, "nothing uses the function 'third'" + UNCALLED),
      (13, "the targets with label 9 are in functions that 'first' does not call")]),
    ("go first", "type bool = no | yes\nequal nat as same then yes else no\ngo first",
     [(13, "nothing uses the function 'same'" + UNCALLED)]),
    ("steps 240", "steps 241", [(12, "241 steps are more than reachlist takes, which is 240; ./remburai and the library take them")]),
]


def check_warnings():
    compare("a text without warnings", warnings_of(CLEAN), [])
    for old, new, wanted in WARNINGS:
        text = changed(CLEAN, old, new)
        if wanted is None:
            compare(f"faults with {new[:60]!r}", bool(faults_of(text)), True)
        else:
            compare(f"warnings with {new[:60]!r}", warnings_of(text), wanted)
    silent = "type nat = zero\nfn f : nat = zero\ngo f label 0 depth 1 steps 4096\n"
    compare("no target", warnings_of(silent, for_library=True), [(3, "no target has label 0; the text has no target")])
    compare("of no steps", warnings_of(changed(CLEAN, "steps 240", "steps 4096"), for_library=True), [])
    count("warnings", len(WARNINGS) + 3)


# All other constructors.

SHORT = """type t = a | b t t | c t | d t t | e
fn f (x : t) (y : t) : t =
  case x of
    c u -> u
    _ -> case y of
      d v w -> target 1 v
      _ -> let z : t = x in f z y
go f label 1 depth 3 steps 60
"""

LONG = """type t = a | b t t | c t | d t t | e
fn f (x : t) (y : t) : t =
  case x of
    a -> case y of
      a -> let z : t = x in f z y
      b _ _ -> let z : t = x in f z y
      c _ -> let z : t = x in f z y
      d v w -> target 1 v
      e -> let z : t = x in f z y
    b _ _ -> case y of
      a -> let z : t = x in f z y
      b _ _ -> let z : t = x in f z y
      c _ -> let z : t = x in f z y
      d v w -> target 1 v
      e -> let z : t = x in f z y
    c u -> u
    d _ _ -> case y of
      a -> let z : t = x in f z y
      b _ _ -> let z : t = x in f z y
      c _ -> let z : t = x in f z y
      d v w -> target 1 v
      e -> let z : t = x in f z y
    e -> case y of
      a -> let z : t = x in f z y
      b _ _ -> let z : t = x in f z y
      c _ -> let z : t = x in f z y
      d v w -> target 1 v
      e -> let z : t = x in f z y
go f label 1 depth 3 steps 60
"""


def wide(fields):
    """A case with `_` that has 29 variables in view and stands for a constructor with so many fields."""
    view = "".join(f"\n{' ' * (4 * level)}  case p of\n{' ' * (4 * level)}    w{' a%d b%d c%d d%d' % (4 * (level,))} ->" for level in range(7))
    return (f"type t = w t t t t | u\ntype v = m | n{' t' * fields}\nfn f (p : t) : v ={view}\n{' ' * 32}case g : v of\n{' ' * 33}_ -> m\n"
            "fn g : v = m\ngo f label 0 depth 1 steps 0\n")


def check_others():
    compare("all other constructors", build(SHORT), build(LONG))
    compare("their warnings", warnings_of(SHORT), warnings_of(LONG))
    compare("only others", build(changed(SHORT, "  case x of\n    c u -> u\n", "  case x : t of\n    c u -> u\n")), build(SHORT))
    missing = changed(SHORT, "_ -> let z : t = x in f z y", "_ -> _")
    meant = changed(CLEAN, "    suc m -> second m\n", "    suc _ -> _\n")
    compare("one that is missing", build(meant), build(changed(CLEAN, "    suc m -> second m\n", "")))
    compare("others that are missing", build(missing), build(changed(SHORT, "      _ -> let z : t = x in f z y\n", "")))
    compare("a field that just fits", [fault for fault in faults_of(wide(3)) if "view" in fault[1]], [])
    compare("a field too many", faults_of(wide(4)),
            [(19, "'_' stands for 'n' too, whose 4 fields would make 33 variables in view; there may be 32")])
    deep = "type t = " + " | ".join(f"c{number} t t" for number in range(15)) + " | e\nfn f (x : t) : t =\n" + \
        "".join(f"{' ' * (2 * level)}  case x : t of\n{' ' * (2 * level)}   _ ->\n" for level in range(15)) + \
        f"{' ' * 40}x\ngo f label 0 depth 1 steps 0\n"
    compare("others inside others", [message.split(";")[0] for _, message in faults_of(deep)],
            [f"the body of 'f' has {sum(20 * 16 ** level for level in range(15)) + 2 * 16 ** 15} bytes"])


# Letters beyond ASCII.

LETTERS = """type größe = null | größer größe
type Ω = É größe Ω | ende'
fn straße (ñ : größe) (имя : Ω) : größe =
  case имя of
    É ß _ -> größer ß
    ende' -> target 7 ñ
go straße label 7 depth 3 steps 20
"""


def check_letters():
    plain = LETTERS
    for old, new in (("größe", "size"), ("sizer", "more"), ("Ω", "omega"), ("É", "e"), ("straße", "street"), ("ñ", "n"),
                     ("имя", "name"), ("ß", "s")):
        plain = plain.replace(old, new)
    compare("letters", build(LETTERS), build(plain))
    compare("accents typed apart", build(unicodedata.normalize("NFD", LETTERS)), build(LETTERS))
    mixed = LETTERS.replace("    É ß", unicodedata.normalize("NFD", "    É ß"))
    compare("accents typed in two ways", (mixed != LETTERS, build(mixed)), (True, build(LETTERS)))
    rule = checked(unicodedata.normalize("NFD", LETTERS))
    compare("a line with letters", named_line(rule, "reach 5 _ 0 1 0 1"), "reach 5  _  É (größer null) ende'")
    compare("a text with letters", build(show(rule.data(), rule)), rule.data())
    compare("its names", "fn straße (ñ : größe) (имя : Ω) : größe =" in show(rule.data(), rule), True)
    compare("a value with letters", Spelled(rule, unicodedata.normalize("NFD", "É (größer null) ende'"), 3).bytes(1), bytes([0, 1, 0, 1]))
    for character in "²٣\u200b\u0302😀":
        compare(f"a name with {character!r}", faults_of(changed(LETTERS, "go straße", f"go straq{character}e")),
                [(7, f"the character {character!r} has no meaning here")])


def check_all():
    check_warnings()
    check_others()
    check_letters()
