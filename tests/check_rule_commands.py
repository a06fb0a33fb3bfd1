"""Tests the command tools/rule: what each of its commands prints and reports, with which exit status, and what becomes of output that
cannot be written."""

import json
import os
import re
import shutil
import unicodedata
from tempfile import TemporaryDirectory
from textwrap import dedent

from rule_tool import ROOT, TOOL, agree, build, changed, compare, count, run, shell, start, stored, wrong
from check_rule_names import again, shown as shown_as
from name_lines import name_lines
from blind.enumerate import fill, printed
from blind.evaluate import MISSING, REACHED, run as closed_run
from blind.narrow import Narrowing
from blind.rulefile import read

P, P_RULE = stored("examples", "p.txt").decode(), stored("examples", "p.rule")
WARNED = changed(P, "go isTwo label 7", "go isTwo label 8")
WARNING = "16: {}no target has label 8; there are targets with label 7\n"


def command(what, got, wanted):
    compare(what, got, wanted)
    count("commands")


# docs/RULES.md

def quoted(part):
    """The indented lines of a part of the page, without their indentation."""
    lines = [line for line in part.split("\n") if line.startswith("    ")]
    least = min(len(line) - len(line.lstrip()) for line in lines)
    return [line[least:] for line in lines]


def listed(data):
    """The lines of reachlist for a rule file."""
    return printed(fill(list(Narrowing(read(data)).entries({})), 32768)).encode()


def named(name, lines):
    """The lines of reachlist with the names of an example."""
    return run("names", name, stdin=lines)[1].decode().splitlines()


def check_page():
    """What the page shows is so: its first example, what names prints as JSON and as text, and the two ways to a list."""
    first, *parts = stored("docs", "RULES.md").decode().split("\n## ")
    compare("the first example of docs/RULES.md", build("\n".join(quoted(first)) + "\n"), P_RULE)
    objects = [line for line in quoted(parts[3]) if line.startswith("{")]
    lines = listed(stored("examples", "group.rule")).splitlines()
    shown = b"\n".join([lines[0], lines[3], lines[-1], b"refused 12"])
    compare("its JSON", run("names", "--json", "group.txt", stdin=shown)[1].decode().splitlines(), objects)
    check_spelling(parts[4])
    check_way("relay", parts[5])
    check_way("group", parts[6])
    check_relay(parts[5])
    check_group(parts[6])
    check_unseen()


def check_spelling(part):
    """The types, the lines and the printed names of the part about names."""
    text, lines = stored("examples", "relay.txt").decode(), quoted(part)
    compare("types of names that relay.txt has not", [line for line in lines if line.startswith("type") and line not in text.split("\n")], [])
    shown = b"reach 40 1 12 9 _\n"
    compare("its names", [run("names", "relay.txt", asked, stdin=shown)[1].decode().strip() for asked in ("--constructors", "--json")], lines[-2:])
    cells = [cell for row in part.split("\n| Printed |")[1].split("\n\n")[0].split("\n")[2:] for cell in re.findall("`(.*?)`", row.split("|")[1])]
    compare("what it shows as printed", [cell for cell in cells if shown_as(again(cell)) != cell] or len(cells), 10)


def check_way(name, way):
    """The parts of an example that a way shows, and its list."""
    text = stored("examples", name + ".txt").decode()
    shown = [dedent(part) for part in way[:way.index("tools/rule")].split("\n\n") if part.startswith("    ") and part.strip()]
    compare(f"parts that {name}.txt has not", (shown != [], [part for part in shown if part not in text]), (True, []))
    found = [line.strip() for line in way[way.index("$ ./reachlist"):].split("\n\n")[0].split("\n")[1:]]
    lines = named(name + ".txt", listed(stored("examples", name + ".rule")))
    if not agree(found, lines):
        wrong.append(f"docs/RULES.md shows other lines for {name}.txt than {lines}")


def check_relay(way):
    text, data = stored("examples", "relay.txt").decode(), stored("examples", "relay.rule")
    names = [line.strip() for line in way[way.index("$ ./namelist"):].split("\n\n")[0].split("\n")[1:]]
    lines = name_lines(data, listed(data).decode()).splitlines()
    compare("its lines of namelist", (agree(names, lines), lines.index("201 195 137")), (True, 13))
    closed = [closed_run(data, bytes([1, byte // 16, byte % 16, 0]), 16384) for byte in (int(line.split()[0]) for line in lines)]
    compare("what becomes of its names", [["reach", str(outcome.steps)] for outcome in closed if outcome.end == REACHED],
            [line.split()[:2] for line in listed(data).decode().splitlines()[:-1]])
    message = "no target has label 8; there are targets with label 7"
    compare("its message", (message in way, run("build", "--strict", "-", stdin=changed(text, "enter label 7", "enter label 8").encode())),
            (True, (1, b"", f"standard input:{len(text.splitlines())}: {message}\n")))


def check_group(way):
    """What is said of a gap: forgotten or meant it is the same rule file, its entries are exact, and alone they have the verdict none."""
    text, data = stored("examples", "group.txt").decode(), stored("examples", "group.rule")
    forgotten = changed(text, "    d3 -> _\n", "")
    status, output, report = run("build", "--strict", "-", stdin=forgotten.encode())
    compare("a forgotten case", (status, output, build(forgotten)), (1, b"", data))
    compare("its warning in docs/RULES.md", report.replace("standard input", "examples/group.txt").strip() in map(str.strip, quoted(way)), True)
    alone = named("group.txt", listed(build(changed(text, "groupOf label 1", "groupOf label 2"))))
    gaps = [line for line in named("group.txt", listed(data)) if line.startswith("missing ")]
    compare("missing alone", alone, gaps + ["total 0 0 4 0 none"])
    compare("its total in docs/RULES.md", f"`{alone[-1]}`" in way, True)
    for name in ("relay F d1", "relay F d2", "relay F d3"):
        outcome = closed_run(data, run("input", "group.txt", name)[1], 16384)
        compare(f"what becomes of {name}", (outcome.end, outcome.steps), (MISSING, 6))
    covered = changed(changed(text, "feeder | busbar", "feeder | busbar | none"), "      _ -> _", "      K -> none\n      _ -> _")
    compare("K with an alternative", named("group.txt", listed(build(covered)))[:-1],
            [line for line in named("group.txt", listed(data))[:-1] if "relay K" not in line])


UNSEEN = """type t = a | b t
fn f (x : t) : t =
  case x of
    a -> target 1 (g x)
    b y -> b (g y)
fn g (x : t) : t =
  case x of
    b y -> y
    _ -> _
go f label 1 depth 3 steps 20
"""


def check_unseen():
    """A gap under a target that is reached is not found; in a field of the result it is, and by itself."""
    compare("a gap that is not looked at and one that is", listed(build(UNSEEN)), b"reach 3 0\nmissing 9 1 0\ntotal 1 0 1 0 found\n")
    compare("the gap by itself", listed(build(changed(UNSEEN, "go f", "go g"))), b"missing 3 0\ntotal 0 0 1 0 none\n")


# build

def check_build():
    command("build", run("build", "p.txt"), (0, P_RULE, ""))
    command("build -", run("build", "-", stdin=P.encode()), (0, P_RULE, ""))
    command("a mark of UTF-8", run("build", "-", stdin=b"\xef\xbb\xbf" + P.encode()), (0, P_RULE, ""))
    command("lines that end as on other systems", run("build", "-", stdin=P.replace("\n", "\r\n").encode()), (0, P_RULE, ""))
    command("a warning", run("build", "-", stdin=WARNED.encode()),
            (0, build(WARNED), "standard input:" + WARNING.format("warning: ")))
    command("a strict build", run("build", "--strict", "p.txt"), (0, P_RULE, ""))
    command("a warning, strict", run("build", "-", "--strict", stdin=WARNED.encode()), (1, b"", "standard input:" + WARNING.format("")))
    steps = changed(P, "steps 20", "steps 241").encode()
    command("many steps", run("build", "--strict", "-", stdin=steps)[::2],
            (1, "standard input:16: 241 steps are more than reachlist takes, which is 240; ./remburai and the library take them\n"))
    command("many steps for the library", run("build", "--strict", "--library", "-", stdin=steps)[::2], (0, ""))
    faulty = changed(changed(P, "type nat = zero", "type nat = zero | ?"), "depth 4", "depth 0").encode()
    command("faults", run("build", "-", stdin=faulty), (1, b"", "standard input:7: the character '?' has no meaning here\n"
                                                                 "standard input:16: depth 0 is out of range: 1 to 64\n"))
    command("no UTF-8", run("build", "-", stdin=b"type a = a\n\xc9\n"), (1, b"", "standard input:2: the line is not UTF-8\n"))
    command("a missing file", run("build", "none.txt"), (1, b"", "none.txt: No such file or directory\n"))
    command("a folder", run("build", "."), (1, b"", ".: Is a directory\n"))
    command("no file", run("build")[0], 2)


def check_output():
    """Where -o puts the rule file: nothing is written where there is a fault."""
    with TemporaryDirectory() as folder:
        path = os.path.join(folder, "out.rule")
        command("a fault with -o", (run("build", "-", "-o", path, stdin=b"?")[:2], os.path.exists(path)), ((1, b""), False))
        command("strict with -o", (run("build", "--strict", "-", "-o", path, stdin=WARNED.encode())[:2], os.path.exists(path)),
                ((1, b""), False))
        command("build with -o", run("build", "p.txt", "-o", path), (0, b"", ""))
        with open(path, "rb") as file:
            compare("the file of -o", file.read(), P_RULE)
        command("a fault with -o again", run("build", "-", "-o", path, stdin=b"?")[0], 1)
        with open(path, "rb") as file:
            compare("the file of -o as it was", file.read(), P_RULE)
        missing = os.path.join(folder, "none", "out.rule")
        command("no such folder", run("build", "p.txt", "-o", missing), (1, b"", f"{missing}: No such file or directory\n"))


# show

SHOWN = b"""type t0 = t0c0 | t0c1 t0
fn f0 (x0 : t0) : t0 =
  case x0 : t0 of
    t0c0 -> t0c0
    t0c1 x1 -> case x1 : t0 of
      t0c0 -> t0c0
      t0c1 x2 -> target 7 t0c0
go f0 label 7 depth 4 steps 20
"""


def check_show():
    command("show", run("show", "p.rule"), (0, SHOWN, ""))
    command("show -", run("show", "-", stdin=P_RULE), (0, SHOWN, ""))
    command("show with names", run("show", "p.rule", "p.txt")[1].split(b"\n")[:3],
            [b"type nat = zero | suc nat", b"fn isTwo (n : nat) : nat =", b"  case n : nat of"])
    command("a text with faults", run("show", "p.rule", "p.rule"), (1, b"", "p.rule:1: 'type', 'fn', 'equal', 'names' or 'go' is expected, not "
                                                                        "'TY' (a line that goes on is indented further, an alternative "
                                                                        "as the one above it)\n"))
    command("no rule file", run("show", "p.txt"), (1, b"", "p.txt: byte 2: a mark is unknown or out of its turn\n"))
    command("the same types", run("show", "p.rule", "even.txt")[0], 0)
    command("other types", run("show", "p.rule", "relay.txt"), (1, b"", "p.rule: the text has other types than the rule file\n"))
    command("standard input twice", run("show", "-", "-", stdin=P.encode()),
            (1, b"", "standard input: it is read as something else already: give a file here\n"))


# names

LINES = b"reach 6 1 1 _\nmissing 7 1 0\nunfinished 20 0\ntotal 1 1 1 50 found\nrefused 12\nrefused 14\n"
NAMED = b"reach 6  suc (suc _)\nmissing 7  suc zero\nunfinished 20  zero\ntotal 1 1 1 50 found\nrefused 12 full\nrefused 14 scrap\n"
OBJECTS = b"""{"kind":"reach","steps":6,"parameters":["suc (suc _)"]}
{"kind":"missing","steps":7,"parameters":["suc zero"]}
{"kind":"unfinished","steps":20,"parameters":["zero"]}
{"reach":1,"unfinished":1,"missing":1,"share":50,"verdict":"found"}
{"refused":12}
{"refused":14}
"""

BAD_LINES = [
    ("reach 6 1 2 _", "'2' does not fit the rule's type nat here"),
    ("reach 6 1 x", "'x' does not fit the rule's type nat here"),
    ("reach 6 1", "the entry is too short for the rule"),
    ("reach 6 0 0", "the entry is too long for the rule"),
    ("reach 6" + 65 * " 1" + " _", "'1' does not fit the rule's type nat here"),
    ("missing 6 1 2 _", "'2' does not fit the rule's type nat here"),
    ("missing 6", "the entry is too short for the rule"),
    ("missing 6 _ _", "the entry is too long for the rule"),
] + [(line, "this is no line of reachlist") for line in ("reach", "reach x 1", "reached", "missing", "missing x 1", "missed 6 1 1 _", "",
                                                          "total 1 0 0 0 lost", "total 1 0 x 0 found", "totals 1 0 0 0 found", "refused 0",
                                                          "refused 16", "refused")
     ] + [(line, f"the total has {words} and not 6: total REACH UNFINISHED MISSING SHARE VERDICT") for line, words in
          (("total 1 0 0 found", "5 words"), ("total 1 0 0 0", "5 words"), ("total 1 0 0 0 0 found", "7 words"), ("total", "1 word"),
           ("total " + "9" * 5000, "2 words"))]


def check_names():
    command("names", run("names", "p.txt", stdin=stored("tests", "reachlist", "p.out")),
            (0, b"reach 6  suc (suc _)\ntotal 1 0 0 0 found\n", ""))
    command("each kind of line", run("names", "p.txt", stdin=LINES), (0, NAMED, ""))
    status, output, report = run("names", "--json", "p.txt", stdin=LINES)
    command("names --json", (status, report, output), (0, "", OBJECTS))
    compare("JSON", [json.loads(line).get("verdict") for line in output.splitlines()], [None, None, None, "found", None, None])
    command("a depth that the text has not", run("names", "p.txt", stdin=b"reach 6 1 1 1 1 1 _\n"),
            (0, b"reach 6  suc (suc (suc (suc (suc _))))\n", ""))
    for line, message in BAD_LINES:
        for more in ([], ["--json"]):
            command(line[:40], run("names", "p.txt", *more, stdin=line.encode() + b"\n"),
                    (1, b"", f"standard input:1: {message}\n"))
    command("lines that end as on other systems", run("names", "p.txt", stdin=LINES.replace(b"\n", b"\r\n")), run("names", "p.txt", stdin=LINES))
    command("a second line", run("names", "p.txt", stdin=b"reach 6 1 1 _\nh\xc9llo\n"),
            (1, b"reach 6  suc (suc _)\n", "standard input:2: this is no line of reachlist\n"))
    command("an old total at the end", run("names", "p.txt", stdin=b"missing 7 0\ntotal 0 0 0 none\n"),
            (1, b"missing 7  zero\n", "standard input:2: the total has 5 words and not 6: total REACH UNFINISHED MISSING SHARE VERDICT\n"))
    command("names -", run("names", "-", stdin=P.encode()),
            (1, b"", "standard input: it is read as something else already: give a file here\n"))


# The source of a text: the lines of its list, with names and as JSON.
SOURCES = [
    ("g", "missing 3\ntotal 0 0 1 0 none\n", "missing 3\ntotal 0 0 1 0 none\n",
     '{"kind":"missing","steps":3,"parameters":[]}\n{"reach":0,"unfinished":0,"missing":1,"share":0,"verdict":"none"}\n'),
    ("f", "missing 9 1 _ 0 _ 1\ntotal 0 2 1 100 undecided\n", "missing 9  suc _  É _ ω\ntotal 0 2 1 100 undecided\n",
     '{"kind":"missing","steps":9,"parameters":["suc _","É _ ω"]}\n'
     '{"reach":0,"unfinished":2,"missing":1,"share":100,"verdict":"undecided"}\n'),
]


def check_sources():
    """Names for a source without parameters, and for one with two."""
    with TemporaryDirectory() as folder:
        for source, lines, names, objects in SOURCES:
            with open(os.path.join(folder, "text.txt"), "wb") as file:
                file.write(changed(PAIR, "go f", f"go {source}").encode())
            for words, wanted in (([], names), (["--json"], objects)):
                command(f"names for {source} {words}", run("names", *words, "text.txt", stdin=lines.encode(), folder=folder),
                        (0, wanted.encode(), ""))


# input

PAIR = """type nat = zero | suc nat
type É = É nat É | ω
fn f (n : nat) (_ : É) : nat = target 1 n
fn g : nat = f zero ω
go f label 1 depth 3 steps 9
"""

INPUTS = [
    (["zero", "ω"], [0, 1]),
    (["suc (suc zero)", "É zero ω"], [1, 1, 0, 0, 0, 1]),
    (["((suc (zero)))", "(É zero (ω))"], [1, 0, 0, 0, 1]),
    (["1 1 0", "0 0 1"], [1, 1, 0, 0, 0, 1]),
    (["01 00", "  1 "], [1, 0, 1]),
    (["suc zero", "0 0 1"], [1, 0, 0, 0, 1]),
    ([unicodedata.normalize("NFD", word) for word in ("zero", "É zero ω")], [0, 0, 0, 1]),
]

BAD_INPUTS = [
    ([], "standard input:5: 'f' takes 2 values, and 0 are given"),
    (["zero"], "standard input:5: 'f' takes 2 values, and 1 is given"),
    (["zero", "ω", "ω"], "standard input:5: 'f' takes 2 values, and 3 are given"),
    (["zer", "ω"], "value 1: there is no constructor 'zer'"),
    (["zero", "zero"], "value 2: 'zero' is a constructor of nat, and É is expected here"),
    (["zero", "É zero zero"], "value 2: 'zero' is a constructor of nat, and É is expected here"),
    (["suc", "ω"], "value 1: 'suc' has 1 field, and 0 are given"),
    (["suc suc zero", "ω"], "value 1: 'suc' has 1 field, and 2 are given"),
    (["suc zero zero", "ω"], "value 1: 'suc' has 1 field, and 2 are given"),
    (["zero zero", "ω"], "value 1: 'zero' has no field, and 1 is given"),
    (["_", "ω"], "value 1: '_' is an open part, and an input is closed"),
    (["suc _", "ω"], "value 1: '_' is an open part, and an input is closed"),
    (["1 _", "ω"], "value 1: '_' is an open part, and an input is closed"),
    (["", "ω"], "value 1: the value is empty"),
    (["zero", " "], "value 2: the value is empty"),
    (["(suc zero", "ω"], "value 1: ')' is expected, not the end"),
    (["suc (", "ω"], "value 1: the value is not complete"),
    (["suc zero)", "ω"], "value 1: ')' does not belong to the value, which ends before it"),
    (["suc ()", "ω"], "value 1: ')' is no constructor"),
    (["suc ?", "ω"], "value 1: the character '?' has no meaning here"),
    (["suc 0", "ω"], "value 1: there is no constructor '0'"),
    (["case", "ω"], "value 1: 'case' is no constructor"),
    (["1 zero", "ω"], "value 1: 'zero' stands among numbers"),
    (["1", "ω"], "value 1: the value is not complete"),
    (["1 0 0", "ω"], "value 1: '0' does not belong to the value, which ends before it"),
    (["2", "ω"], "value 1: type nat has no constructor 2; it has 2 constructors, counted from 0"),
    (["9" * 5000, "ω"], f"value 1: type nat has no constructor {'9' * 5000}; it has 2 constructors, counted from 0"),
    (["suc (suc (suc zero))", "ω"], "value 1: the value is deeper than 3, which is the depth of the search (refusal 10)"),
    (["1 1 1 0", "ω"], "value 1: the value is deeper than 3, which is the depth of the search (refusal 10)"),
    (["zero", "(" * 5000], "value 2: parentheses nest more than 64 deep"),
    (["suc (" * 5000, "ω"], "value 1: parentheses nest more than 64 deep"),
    (["1 " * 5000, "ω"], "value 1: the value is deeper than 3, which is the depth of the search (refusal 10)"),
]


def check_values():
    answers = [(values, (0, bytes(wanted), "")) for values, wanted in INPUTS] + \
              [(values, (1, b"", message + "\n")) for values, message in BAD_INPUTS]
    for values, answer in answers:
        command(f"input {str(values)[:60]}", run("input", "-", *values, stdin=PAIR.encode()), answer)


def check_input():
    deep = ["--depth", "4", "-", "suc (suc (suc zero))", "1"]
    command("a depth for the search", run("input", *deep, stdin=PAIR.encode()), (0, bytes([1, 1, 1, 0, 1]), ""))
    for depth in ("0", "65", "x"):
        command(f"depth {depth}", run("input", "--depth", depth, "p.txt", "zero")[:2], (2, b""))
    command("no parameters", run("input", "-", stdin=changed(PAIR, "go f", "go g").encode()), (0, b"", ""))
    command("a faulty text", run("input", "-", "zero", "ω", stdin=PAIR.replace("depth 3", "").encode())[::2],
            (1, "standard input:5: 'depth' is expected, not 'steps'\n"))
    status, data, _ = run("input", "relay.txt", "byte hC h9 end")
    command("an É in Latin-1", (status, data), (0, bytes([1, 12, 9, 0])))
    outcome = closed_run(stored("examples", "relay.rule"), data, 16384)
    compare("what becomes of it", (outcome.end, outcome.steps, outcome.depth), (REACHED, 40, 2))


# Processes of their own.

def process(what, got, wanted):
    compare(what, got, wanted)
    count("processes")


def check_streams():
    process("a full disk", shell("rule build p.txt > /dev/full"), (1, b"", "standard output: No space left on device\n"))
    process("a full disk with -o", shell("rule build p.txt -o /dev/full"), (1, b"", "/dev/full: No space left on device\n"))
    process("a full disk for show", shell("rule show p.rule > /dev/full"), (1, b"", "standard output: No space left on device\n"))
    process("a full disk for names", shell("rule names --json p.txt < ../tests/reachlist/p.out > /dev/full"),
            (1, b"", "standard output: No space left on device\n"))
    process("a full disk for input", shell("rule input p.txt zero > /dev/full"), (1, b"", "standard output: No space left on device\n"))
    process("a full disk for a fault", shell("rule build p.rule 2> /dev/full"), (1, b"", ""))
    process("closed output", shell("rule build p.txt >&-"), (1, b"", "standard output: it is closed\n"))
    process("closed input", shell("rule build - <&-"), (1, b"", "standard input: it is closed\n"))
    process("closed error", shell("rule build p.rule 2>&-"), (1, b"", ""))
    process("a reader that stops", shell("rule names p.txt < <(yes 'reach 6 1 1 _') | head -n 1; echo ${PIPESTATUS[0]}"),
            (0, b"reach 6  suc (suc _)\n141\n", ""))
    process("an empty input", shell("rule build - < /dev/null"), (1, b"", "standard input:1: the text has no 'go' line\n"))
    process("help", shell("rule --help")[::2], (0, ""))


def check_places():
    """The tool runs through a link, and elsewhere together with its folder; it does not ask for the locale."""
    process("build", start("build", "p.txt"), (0, P_RULE, ""))
    with TemporaryDirectory() as folder:
        text = os.path.join(folder, "text.txt")
        with open(text, "wb") as file:
            file.write(PAIR.encode())
        plain = {"LC_ALL": "C", "PYTHONCOERCECLOCALE": "0", "PYTHONUTF8": "0"}
        line = b"reach 9 _ 0 _ 1\n"
        process("letters without a locale", start("names", text, stdin=line, settings=plain), (0, "reach 9  _  É _ ω\n".encode(), ""))
        process("letters in JSON", start("names", "--json", text, stdin=line, settings=plain),
                (0, '{"kind":"reach","steps":9,"parameters":["_","É _ ω"]}\n'.encode(), ""))
        link = os.path.join(folder, "link")
        os.symlink(TOOL, link)
        process("through a link", start("build", "p.txt", tool=link), (0, P_RULE, ""))
        process("with no folder of modules", start("build", "p.txt", tool=link, settings={"PYTHONSAFEPATH": "1"}), (0, P_RULE, ""))
        there = os.path.join(folder, "bin")
        os.mkdir(there)
        shutil.copy(TOOL, there)
        shutil.copytree(os.path.join(ROOT, "tools", "rulelib"), os.path.join(there, "rulelib"), ignore=shutil.ignore_patterns("__pycache__"))
        process("elsewhere", start("build", "p.txt", tool=os.path.join(there, "rule")), (0, P_RULE, ""))
    if not os.access(TOOL, os.X_OK):
        wrong.append("tools/rule cannot be executed")


def check_all():
    check_page()
    check_build()
    check_output()
    check_show()
    check_names()
    check_sources()
    check_values()
    check_input()
    check_streams()
    check_places()
