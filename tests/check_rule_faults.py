"""Tests the faults that tools/rule reports in a text: each kind with its line, all faults of a text in one run, none of them because
of another, and what it says of a body that is too long."""

from rule_tool import compare, count, faults_of, wrong
from rulelib.parser import INDENT

# A text that is right, what is changed in it, and the line and the message that this must give, and no other.

RIGHT = """type nat = zero | suc nat
type pair = pair nat nat
fn small (n : nat) (m : nat) : nat =
  case n : nat of
    zero -> suc zero
    suc k -> let l : nat = small k k in
      target 3 l
go small label 3 depth 4 steps 20
"""

NEST = "suc (" * 32 + "zero" + ")" * 32
TYPES = "".join(f"type t{number} = c{number}\n" for number in range(33))
FUNCTIONS = "".join(f"fn f{number} : nat = zero\n" for number in range(64))
CONSTRUCTORS = "zero | suc nat | " + " | ".join(f"c{number}" for number in range(2, 18))
PARAMETERS = "".join(f" (p{number} : nat)" for number in range(9))

FAULTS = [
    ("suc zero", "suc zer", 5, "there is no variable in view, function or constructor 'zer'"),
    ("target 3 l", "target 3 k1", 7, "there is no variable in view, function or constructor 'k1'"),
    ("zero -> suc zero", "zero -> k", 5, "there is no variable in view, function or constructor 'k'"),
    ("zero -> suc", "zer -> suc", 5, "there is no constructor 'zer'"),
    ("pair nat nat", "pair nat bool", 2, "there is no type 'bool'"),
    ("(m : nat)", "(m : bool)", 3, "there is no type 'bool'"),
    ("m : nat) : nat", "m : nat) : bool", 3, "there is no type 'bool'"),
    ("case n : nat", "case n : bool", 4, "there is no type 'bool'"),
    ("let l : nat", "let l : bool", 6, "there is no type 'bool'"),
    ("go small", "go large", 8, "there is no function 'large'"),
    ("small k k", "small k", 6, "'small' takes 2 arguments, and 1 is given"),
    ("suc zero", "suc zero zero", 5, "'suc' takes 1 argument, and 2 are given"),
    ("target 3 l", "target 3 l l", 7, "'l' takes no argument, and 1 is given"),
    ("suc k ->", "suc k l ->", 6, "'suc' has 1 field, and the alternative names 2"),
    ("zero -> suc", "zero k -> suc", 5, "'zero' has no field, and the alternative names 1"),
    ("suc zero", "pair n n", 5, "'pair' is of type pair, and nat is expected here"),
    ("suc zero", "suc (pair n n)", 5, "'pair' is of type pair, and nat is expected here"),
    ("n : nat of", "n : pair of", 4, "'n' is of type nat, and pair is expected here"),
    ("zero -> suc zero", "pair a b -> a", 5, "'pair' is a constructor of pair, and the case is over nat"),
    ("suc k ->", "zero ->", 6, "a second alternative for 'zero'"),
    ("suc zero", "case m of", 5, "a case that names no constructor needs its type: case .. : TYPE of"),
    ("suc zero", "case m of\n      _ -> zero", 5, "a case that names no constructor needs its type: case .. : TYPE of"),
    ("type pair", "type nat", 2, "'nat' is already the name of a type"),
    ("= pair", "= suc", 2, "'suc' is already the name of a constructor"),
    ("go ", "fn small : nat = zero\ngo ", 8, "'small' is already the name of a function"),
    ("go ", "fn suc : nat = zero\ngo ", 8, "'suc' is already the name of a constructor"),
    ("(m : nat)", "(n : nat)", 3, "'n' is already the name of a variable in view"),
    ("suc k", "suc m", 6, "'m' is already the name of a variable in view"),
    ("let l", "let zero", 6, "'zero' is already the name of a constructor"),
    ("let l", "let small", 6, "'small' is already the name of a function"),
    ("go small label 3 depth 4 steps 20\n", "", 7, "the text has no 'go' line"),
    ("go ", "go small label 3 depth 4 steps 20\ngo ", 9, "a second 'go'; the first is in line 8"),
    ("label 3", "label 256", 8, "label 256 is out of range: 0 to 255"),
    ("target 3", "target 256", 7, "label 256 is out of range: 0 to 255"),
    ("depth 4", "depth 0", 8, "depth 0 is out of range: 1 to 64"),
    ("depth 4", "depth 65", 8, "depth 65 is out of range: 1 to 64"),
    ("steps 20", "steps 4097", 8, "steps 4097 is out of range: 0 to 4096"),
    ("zero | suc nat", CONSTRUCTORS, 1, "'c16' is one constructor too many; a type may have 16"),
    ("pair nat nat", "pair" + 7 * " nat", 2, "'pair' has 7 fields; a constructor may have 6"),
    ("fn small", TYPES + "fn small", 33, "'t30' is one type too many; there may be 32"),
    ("go ", FUNCTIONS + "go ", 71, "'f63' is one function too many; there may be 64"),
    ("go ", f"fn g{PARAMETERS} : nat = zero\ngo ", 8, "'g' has 9 parameters; a function may have 8"),
    ("go ", f"fn g : nat =\n  {NEST}\ngo ", 9, "expressions nest more than 32 deep here"),
    ("suc zero", "(" * 65 + "zero" + ")" * 65, 5, "parentheses nest more than 64 deep here"),
    ("suc zero", "zero\n  _ -> zero", 6, "'type', 'fn', 'equal', 'names' or 'go' is expected, not '_' " + INDENT),
    ("zero -> suc zero", "_ -> zero", 6, "an alternative behind '_', which stands for all others and comes last"),
    ("suc k -> let l : nat = small k k in\n      target 3 l", "_ k -> zero", 6,
     "'_' stands for all other constructors and names no fields"),
    ("suc zero", "suc _", 5, "'type', 'fn', 'equal', 'names' or 'go' is expected, not '_'"),
    ("suc zero", "(_)", 5, "an expression is expected, not '_'"),
    ("    suc k", "      suc k", 6, "'type', 'fn', 'equal', 'names' or 'go' is expected, not '->'; "
                                    "the alternatives of a case begin in one column"),
    ("-> suc zero", "suc zero", 5, "'->' is missing at the end of this line " + INDENT),
    ("suc zero", "suc case n of", 5, "'type', 'fn', 'equal', 'names' or 'go' is expected, not 'case'; "
                                     "as a scrutinee or an argument it needs parentheses"),
    ("suc zero", "suc (zero", 5, "')' is missing at the end of this line " + INDENT),
    (" in\n", "\n", 7, "'in' is expected, not 'target'"),
    ("suc zero", "suc ? zero", 5, "the character '?' has no meaning here"),
    ("    zero ->", "\tzero ->", 5, "a tab: indent with spaces, since columns count"),
    ("type pair", "type hollow = h hollow\ntype pair", 2, "the type 'hollow' has no closed value (refusal 8)"),
    ("depth 4", "", 8, "'depth' is expected, not 'steps'"),
    ("go ", "equal bool as same then zero else zero\ngo ", 8, "there is no type 'bool'"),
    ("go ", "equal nat as same then yes else zero\ngo ", 8, "there is no constructor 'yes'"),
    ("go ", "equal nat as same then zero else suc\ngo ", 8,
     "'zero' and 'suc' are not the two constructors, both without fields, of one type"),
    ("go ", "type bool = no | yes\nequal nat as same then yes else yes\ngo ", 9,
     "'yes' and 'yes' are not the two constructors, both without fields, of one type"),
    ("go ", "type bool = no | yes\nequal nat as same then yes else zero\ngo ", 9,
     "'yes' and 'zero' are not the two constructors, both without fields, of one type"),
    ("go ", "type three = no | yes | perhaps\nequal nat as same then yes else no\ngo ", 9,
     "'yes' and 'no' are not the two constructors, both without fields, of one type"),
    ("go ", "type bool = no | yes\nequal nat as small then yes else no\ngo ", 9, "'small' is already the name of a function"),
    ("go ", "type bool = no | yes\nequal nat as zero then yes else no\ngo ", 9, "'zero' is already the name of a constructor"),
    ("go ", "type bool = no | yes\nequal nat then yes else no\ngo ", 9, "'as' is expected, not 'then'"),
    ("go ", "type bool = no | yes\nequal nat as same then yes\ngo ", 9, "'else' is missing at the end of this line " + INDENT),
    ("go ", " equal nat as same then zero else suc\ngo ", 8,
     "'type', 'fn', 'equal', 'names' or 'go' is expected, not 'equal' " + INDENT),
]


def bushy(inner):
    """A construction with so many inner nodes of three fields each, shared out evenly: 9 * inner + 3 bytes."""
    return f"(c {' '.join(bushy((inner - 1 + k) // 3) for k in range(3))})" if inner else "e"


def long_body():
    """A body of 7 * 2 + 9 * 112 + 3 bytes."""
    return f"type t = e | c t t t\nfn f : t =\n  {'target 0 ' * 7}{bushy(112)}\ngo f label 0 depth 1 steps 0\n"


def wide_view():
    """33 variables in view: a parameter and sixteen pairs."""
    cases = "".join(f"\n{' ' * (4 * level)}  case p of\n{' ' * (4 * level)}    pair a{level} b{level} ->"
                    for level in range(16))
    return (f"type nat = zero\ntype pair = pair nat nat\nfn f (p : pair) : nat ={cases} zero\n"
            "go f label 0 depth 2 steps 0\n")


def many_bytes():
    """A rule file with 60 bodies of 9 * 40 + 3 bytes each: 8 + 60 * (6 + 363) + 7 bytes."""
    functions = "".join(f"fn f{number} : t = {bushy(40)}\n" for number in range(60))
    return "type t = e | c t t t\n" + functions + "go f0 label 0 depth 1 steps 0\n"


# Texts with several faults, and these.

SEVERAL = [
    # Each declaration has its own; what rests on one with a fault is not reported.
    ("""type nat = zero | suc nat
type pair = pair nat bool
type hue = red | ? blue
fn f (n : nat) : nat =
  case n of
    zero -> red
    suc m -> f m m
fn g (n : nat : nat = zero
fn h (n : none) (m : nothing) : nat = f zero zero
fun i : nat = zero
fn j : nat = f (g zero) (i zero)
  zero
go k label 3 depth 400 steps 3
""", [(2, "there is no type 'bool'"), (3, "the character '?' has no meaning here"), (8, "')' is expected, not ':'"),
      (9, "there is no type 'none'"), (9, "there is no type 'nothing'"), (9, "'f' takes 1 argument, and 2 are given"),
      (10, "'type', 'fn', 'equal', 'names' or 'go' is expected, not 'fun' " + INDENT),
      (11, "'f' takes 1 argument, and 3 are given"), (13, "depth 400 is out of range: 1 to 64")]),
    # Without a type's constructors nothing is said of what may be one of them, and of nothing else that rests on it.
    ("""type nat = zero | suc nat |
type bool = no | yes
fn f (n : nat) : bool =
  case n : nat of
    zero -> yes
    suc m -> perhaps
fn g (n : nat) : bool = maybe n
fn h (n : nat) : nat = f n
go f label 0 depth 1 steps 0
""", [(1, "the name of a constructor is missing at the end of this line " + INDENT),
      (7, "there is no variable in view, function or constructor 'maybe'"),
      (8, "'f' is of type bool, and nat is expected here")]),
    # A name that two declarations have may be either.
    ("""type nat = zero | suc nat
type list = zero | cons nat list
type nat = one
fn f (l : list) : nat =
  case l of
    zero -> zero
fn f (n : nat) : nat = n
fn g : nat = f (f zero)
go f label 0 depth 1 steps 0
""", [(2, "'zero' is already the name of a constructor"), (3, "'nat' is already the name of a type"),
      (7, "'f' is already the name of a function")]),
    # An alternative too far left ends the function; the constructor `equal` begins no declaration.
    ("""type order = less | equal | greater
fn f (o : order) : order =
  case o of
    less -> equal
  equal -> less
  greater -> less
fn g (o : order) : order =
  case o of
    less -> les
    equal -> o
    greater -> o
go f label 0 depth 1 steps 0
""", [(5, "'type', 'fn', 'equal', 'names' or 'go' is expected, not 'equal' " + INDENT),
      (9, "there is no variable in view, function or constructor 'les'")]),
    # What follows a type or a function in its line spoils it: nothing is said of how it is used.
    ("""type nat = zero | suc nat
type pair = pair nat (nat)
fn f (n : nat) : pair = pair n n
fn g (n : nat) : nat = f 3
fn h (n : nat) : pair = f n n
go f label 0 depth 1 steps 0
""", [(2, "'type', 'fn', 'equal', 'names' or 'go' is expected, not '('"), (4, "'type', 'fn', 'equal', 'names' or 'go' is expected, not '3'"),
      (5, "'f' takes 1 argument, and 2 are given")]),
    # A type without a closed value, a depth that is too small, and the fault of a body.
    ("""type a = a
type b = b a
type c = c c
fn f (x : b) (_ : b) : a = y
go f label 0 depth 1 steps 0
""", [(3, "the type 'c' has no closed value (refusal 8)"),
      (4, "there is no variable in view, function or constructor 'y'"),
      (5, "the depth is 1, and the values of parameter 'x' have depth 2 at least (refusal 9)"),
      (5, "the depth is 1, and the values of parameter '_' have depth 2 at least (refusal 9)")]),
    # A second fault in the line of a first, and no `go`.
    ("fn f : nat = zero\ntype nat = zero | suc nut\nfn g (x : gnat) (y : gnu) : nat = zero\n",
     [(2, "there is no type 'nut'"), (3, "the text has no 'go' line"), (3, "there is no type 'gnat'"),
      (3, "there is no type 'gnu'")]),
    # A derived equality of a type with a fault, and its use.
    ("""type bool = no | yes
type t = c u
equal t as same then yes else no
fn f (x : t) (y : t) : bool = same x
fn g (x : t) (y : t) : t = same x y
go f label 0 depth 1 steps 0
""", [(2, "there is no type 'u'"), (4, "'same' takes 2 arguments, and 1 is given")]),
]

SHALLOW = "type a = a\ntype b = b a\nfn f (x : a) (y : b) : a = x\ngo f label 0 depth 1 steps 0\n"


# Bodies that are too long, and the part that is to be moved.

TREE = "type t = e | c t t t\n"
GO = "go f label 0 depth 1 steps 0\n"
WIDE = "type t = e | " + " | ".join(f"c{number} t t t t t t" for number in range(15)) + "\n"
EIGHT = "".join(f" (v{number} : t)" for number in range(8))


def eight_inside():
    """A construction of 841 bytes with eight variables."""
    return f"(c v1 (c v2 (c v3 v4 v5) v6) (c v7 v8 {bushy(90)}))"


def chain(length):
    """A construction of 13 * length + 2 bytes."""
    return "x" if length == 0 else f"{'(' * (length < 5)}c{length} x x x x x {chain(length - 1)}{')' * (length < 5)}"


def too_long(size, advice):
    return f"the body of 'f' has {size} bytes; it may have 1024{advice}"


LONG = [
    (long_body(), too_long(1025, ": move what is under target 0 in line 3 (1023 bytes) to a function")),
    (f"{TREE}fn f (x : t) : t =\n  case x of\n    e -> {bushy(60)}\n    c _ _ _ ->\n      c {bushy(53)}\n        {bushy(1)} x\n{GO}",
     too_long(1046, ": move the alternative for 'e' in line 4 (543 bytes) to a function")),
    (f"{TREE}fn f (x : t) : t =\n  case x of\n    e -> {bushy(50)}\n    c _ _ _ ->\n      c {bushy(63)}\n        {bushy(1)} x\n{GO}",
     too_long(1046, ": move the alternative for 'c' in line 5 (587 bytes) to a function")),
    (f"{TREE}fn f (x : t) : t =\n  let y : t = {bushy(70)} in\n  c y {bushy(55)} x\n{GO}",
     too_long(1140, ": move what 'y' stands for in line 3 (633 bytes) to a function")),
    (f"{TREE}fn f (x : t) : t =\n  let y : t = {bushy(40)} in\n  c y\n    {bushy(90)} x\n{GO}",
     too_long(1185, ": move what follows 'in' in line 4 (820 bytes) to a function")),
    (f"{TREE}fn f (x : t) : t =\n  case {bushy(80)} of\n    e -> x\n    c _ _ _ -> {bushy(50)}\n{GO}",
     too_long(1182, ": move the scrutinee in line 3 (723 bytes) to a function")),
    (f"{TREE}fn f (x : t) : t = c x\n  {bushy(60)} {bushy(61)}\n{GO}",
     too_long(1100, ": move argument 3 of 'c' in line 3 (552 bytes) to a function")),
    # No part is enough by itself, and the largest is too long for a function.
    (f"{TREE}fn f (x : t) : t = c {bushy(150)} {bushy(100)} {bushy(90)}\n{GO}",
     too_long(3072, ": move parts of it to functions, first argument 2 of 'c' in line 2 (903 bytes)")),
    # The largest part takes nine variables from outside.
    (f"{TREE}fn f{EIGHT} : t =\n  let v8 : t = {bushy(20)} in\n  target 0 (c v0 {eight_inside()} e)\n{GO}",
     too_long(1036, ": move argument 2 of 'c' in line 4 (841 bytes) to a function")),
    # '_' stands for sixteen constructors.
    (f"{WIDE}fn f (x : t) : t =\n  case x : t of\n    _ ->\n      {chain(5)}\n{GO}",
     too_long(20 + 16 * 67, ": move the alternative for '_' in line 4 (67 bytes, 16 times) to a function")),
]


def check_single():
    compare("a text without fault", faults_of(RIGHT), [])
    for old, new, line, message in FAULTS:
        if old not in RIGHT:
            wrong.append(f"{old!r} is not in the text")
        compare(f"{new[:60]!r} for {old!r}", faults_of(RIGHT.replace(old, new, 1)), [(line, message)])
    count("faults", len(FAULTS))


def check_limits():
    compare("an empty text", faults_of(""), [(1, "the text has no 'go' line")])
    compare("a wide view", faults_of(wide_view()), [(35, "'b15' is one variable too many; 32 may be in view")])
    compare("many bytes", faults_of(many_bytes()), [(62, "the rule file has 22155 bytes; it may have 16384")])
    compare("a shallow depth", faults_of(SHALLOW), [(4, "the depth is 1, and the values of parameter 'y' have "
                                                        "depth 2 at least (refusal 9)")])
    for text, message in LONG:
        compare("a long body", faults_of(text), [(2, message)])
    count("faults", len(LONG) + 4)


def check_several():
    for text, faults in SEVERAL:
        compare("several faults", faults_of(text), faults)
    count("texts with several faults", len(SEVERAL))


def check_all():
    check_single()
    check_limits()
    check_several()
