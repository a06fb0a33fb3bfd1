"""Checks docs/FORMAT.md: its dumps are the bytes of examples/p.rule, of an input that the blind side runs and of the list that it gives; the
depth of that input, the steps of its run, the limits, the marks of entries, the answers of the calls for C and the text of the list are those
of the blind side. The names are those that Python's own Latin-1 and UTF-8 give, in the list that the blind side gives the rule file of the page
without its record NA.
The exit status is 1 where anything differs, and where the page lacks what is to be compared."""

import os
import re
import sys
from functools import partial

sys.dont_write_bytecode = True

from blind.build import con, fn, go, let, target, ty
from blind.compare import Different, same
from blind.enumerate import MARKS, search, share
from blind.evaluate import run
from blind.handed import text_length, write_text
from blind.rulefile import RANGE, Refused, check
from make_boundary import file_of_size

ROOT = os.path.dirname(os.path.dirname(os.path.abspath(__file__)))
WORDS = 64 * 20 + 1024  # the step limit of P is 20
OPEN = 0xFF
DUMPED = re.compile(r"    ([0-9A-F]{4})  ((?:[0-9A-F]{2} )+) +\S")
VERDICTS = {None: 0, "found": 1, "undecided": 2, "none": 3}
OUTCOMES = {"reached": 1, "ended": 2, "unfinished": 3, "missing": 4}


def stored(*path):
    with open(os.path.join(ROOT, *path), "rb") as file:
        return file.read()


def only(what, found):
    """The one thing that is found."""
    same(f"how many times the page has {what}", len(found), 1)
    return found[0]


# What the page has.

def section(page, title):
    return only(f"a section '{title}'", [part for part in page.split("\n## ") if part.split("\n")[0] == title])


def blocks(text):
    """The indented blocks, each as its lines."""
    return [block.splitlines() for block in re.findall(r"(?:^    .*\n)+", text, re.MULTILINE)]


def dump(text):
    """The bytes of the one dump of a section; each line begins at the place where the last one ends."""
    lines = only("a dump in a section", [block for block in blocks(text) if DUMPED.match(block[0])])
    data = b""
    for line in lines:
        match = DUMPED.match(line)
        same(f"whether '{line}' is a line of a dump", match is not None, True)
        same(f"the place of '{line}'", int(match.group(1), 16), len(data))
        data += bytes.fromhex(match.group(2))
    return data


def table(text, first):
    """The rows of the table whose head begins with this word."""
    rows = text.split(f"\n| {first} |")
    same(f"tables that begin with '{first}'", len(rows), 2)
    lines = rows[1].split("\n\n")[0].split("\n")[2:]
    return [[cell.strip() for cell in line.strip("|").split("|")] for line in lines]


# What it should have.

def check_rule_file(page):
    data = stored("examples", "p.rule")
    text = section(page, "The rule file")
    same("the dump of P", dump(text), data)
    same("the length of P", re.findall(r"P has (\d+) bytes", text), [str(len(data))])


def check_input(page):
    """The steps of the run are numbered, and those that look at the input name the byte: in a number, the field is the next one."""
    text = section(page, "A closed input")
    data = dump(text)
    ran = run(stored("examples", "p.rule"), data, WORDS)
    same(f"whether P refuses {data.hex(' ')}", isinstance(ran, int), False)
    same("how deep the input is", re.findall(r"Its depth is (\d+)", text), [str(ran.depth)])
    same("how the run ends", (ran.end, re.findall(r"reaches the target after (\d+) steps", text)), ("reached", [str(ran.steps)]))
    steps = only("the steps of a run", [block for block in blocks(text) if block[0].startswith("    1  ")])
    same("the numbers of the steps", [line.split()[0] for line in steps], [str(number + 1) for number in range(ran.steps)])
    looked = [(number, int(byte)) for number, line in enumerate(steps, 1) for byte in re.findall(r"the input's byte (\d+)$", line)]
    same("the steps that look at the input", looked, [(wait.steps, len(wait.place) - 1) for wait in ran.waits])


def check_list(page):
    data = search(stored("examples", "p.rule"), WORDS, 64).record()
    text = section(page, "A list")
    same("the dump of the list of P", dump(text), data)
    same("its length", re.findall(r"The list of P has (\d+) bytes", text), [str(len(data))])
    row = only("a row of the mark", [row for row in table(text, "Bytes") if row[0] == "0, 1"])
    same("the marks of entries", re.findall("`([^`]*)`", row[1]), [mark.decode() for mark in MARKS.values()])


# Limits: a rule file with so many of each.

LEAF = con(0, 0)


def one(body, parameters=()):
    return ty(()) + fn(parameters, 0, body) + go(depth=1)


def nested(number, body=LEAF):
    for _ in range(number - 1):
        body = target(0, body)
    return one(body)


def in_view(number, body=LEAF):
    for _ in range(number - 8):
        body = let(0, LEAF, body)
    return one(body, (0,) * 8)


FILES = {
    "types": lambda n: ty(()) * n + fn((), 0, LEAF) + go(),
    "constructors of a type": lambda n: ty(*[()] * n) + fn((), 0, LEAF) + go(),
    "fields of a constructor": lambda n: ty((), (0,) * n) + fn((), 0, LEAF) + go(),
    "functions": lambda n: ty(()) + fn((), 0, LEAF) * n + go(),
    "parameters of a function": lambda n: one(LEAF, (0,) * n),
    "bytes of a body": lambda n: one(bytes(n)),
    "depth D": lambda n: ty(()) + fn((), 0, LEAF) + go(depth=n),
    "step limit S": lambda n: ty(()) + fn((), 0, LEAF) + go(steps=n),
    "variables in view": in_view,
    "expressions one inside another, the body being 1": nested,
    "bytes of a file": file_of_size,
}


def check_limits(page):
    """A number at a limit is not refused by 3, and the next one beyond it is."""
    rows = table(section(page, "The rule file"), "Number")
    same("the limits of the page", [row[0] for row in rows], list(FILES))
    for name, least, most in rows:
        most = int(most.replace(",", ""))
        inside = [most] if least == "" else [int(least), most]
        outside = [most + 1] + [number - 1 for number in inside[:-1] if number > 0]
        for number in inside + outside:
            same(f"whether {number} {name} are beyond the limit", check(FILES[name](number)) == RANGE, number in outside)


# Answers.

def packed_search(data, room):
    listing = search(data, WORDS, room)
    length = len(listing.record())
    number = (listing.refusal or 0) + 256 * VERDICTS[listing.verdict] + 65536 * length
    return number, f"refusal {listing.refusal or 0}, {listing.verdict or 'no verdict'}, {length} bytes"


def packed_run(data, closed):
    ran = run(data, bytes.fromhex(closed), WORDS)
    if isinstance(ran, int):
        return ran, f"refusal {ran}, no outcome, 0 steps, depth 0"
    number = 256 * OUTCOMES[ran.end] + 65536 * ran.steps + 2 ** 32 * ran.depth
    return number, f"refusal 0, {ran.end}, {ran.steps} steps, depth {ran.depth}"


def packed_entry(data, number):
    records = [entry.record() for entry in search(data, WORDS, 64).entries]
    place, size = len(b"".join(records[:number])), len(records[number]) if number < len(records) else 0
    return place + 2 ** 32 * size, f"place {place}, size {size}"


def answer(data, call):
    word, *rest = re.split(r",? (?:on )?", call, maxsplit=1)
    if word == "check":
        refusal = check(data) if isinstance(check(data), int) else 0
        return refusal, f"refusal {refusal}"
    if word == "search":
        return packed_search(data, int(rest[0].split()[0]))
    return packed_run(data, rest[0]) if word == "run" else packed_entry(data, int(rest[0]))


def check_numbers(text):
    """The numbers of verdicts and outcomes."""
    rows = {row[0]: row[2] for row in table(text, "Call")}
    for call, numbers in (("`remburai_search`", VERDICTS), ("`remburai_run`", OUTCOMES)):
        said = {word: int(number) for number, word in re.findall(r"(\d+) (\w+)", rows.get(call, "")) if number != "0"}
        same(f"the numbers in the row of {call}", said, {word: number for word, number in numbers.items() if word})


def check_answers(page):
    data, text = stored("examples", "p.rule"), section(page, "What the calls for C answer with")
    check_numbers(text)
    lines = only("the answers of the calls", blocks(text))
    same("the calls", sorted({line.split()[0].rstrip(",") for line in lines}), ["check", "entry", "run", "search"])
    check_lines(lines, partial(answer, data))


def called(line):
    """The call that a line is about."""
    return re.split(r"  +", line.strip())[0]


def check_lines(lines, answer_of):
    for line in lines:
        call = called(line)
        number, said = answer_of(call)
        same(f"the line of '{call}'", line, f"    {call:<19} {f'0x{number:X}':<12} {said}")


# The text.

TEXT_CALLS = ["length", "length, full", "length of 8 bytes", "text, 33 bytes", "text, 64 bytes"]


def packed_text(data, listed, call):
    """What a text call answers for the list of P: a length is that of its front where so many bytes are named, a text goes to such a slice."""
    number = [int(digits) for digits in re.findall(r"\d+", call)]
    try:
        if call.startswith("length"):
            length = text_length(data, listed[:number[0]] if number else listed, call.endswith("full"))
        else:
            length = write_text(data, listed, False, bytearray(number[0]))
    except Refused as refused:
        return refused.number, f"refusal {refused.number}, 0 bytes"
    return 65536 * length, f"refusal 0, {length} bytes"


def share_of(call):
    """What the call of the share answers for the two counts that are named."""
    percent = share(*map(int, re.findall(r"\d+", call)))
    return percent, f"{percent} per cent"


def check_text(page):
    data, text = stored("examples", "p.rule"), section(page, "The text of a list")
    listed, lent = search(data, WORDS, 64).record(), bytearray(64)
    length = write_text(data, listed, False, lent)
    same("the length of the text", re.findall(r"The text of the list of P has (\d+) bytes", text), [str(length)])
    shown = only("the text of a list", [block for block in blocks(text) if block[0].startswith("    reach ")])
    same("the text of the list of P", "".join(line[4:] + "\n" for line in shown), lent[:length].decode())
    lines = only("the answers of the text calls", [block for block in blocks(text) if block[0].startswith("    length ")])
    same("the text calls", [called(line) for line in lines], TEXT_CALLS)
    check_lines(lines, partial(packed_text, data, listed))
    check_lines(only("the answers of the share", [block for block in blocks(text) if block[0].startswith("    share")]), share_of)
    row = only("a row of the last line", [row for row in table(text, "Line") if row[0] == "the last"])
    shares = [tuple(map(int, numbers)) for numbers in re.findall(r"(\d+) of (\d+) gives (\d+)", row[1])]
    same("the shares of the page", shares, [(some, both, share(both - some, some)) for some, both in ((1, 8), (3, 8))])


# Names.

NAMES_CALLS = {"names, 3 bytes": 64, "names, 64 bytes": 64, "names, full": 8}  # with the bytes of the list slice


def filled_name(value):
    """The bytes in Latin-1 of the name that a value spells, its open parts filled, and what stands behind the value."""
    name = b""
    while value[0] == 1:
        high, low = (0 if half == OPEN else half for half in value[1:3])
        name, value = name + bytes([16 * high + low]), value[3:]
    same("what ends a name", value[0] in (0, OPEN), True)
    return name, value[1:]


def name_line(name):
    return " ".join(str(byte) for byte in name + name.decode("latin-1").encode("utf-8"))


def names_text(data, room):
    """The text of the names, for a rule file whose one parameter is of the named type and whose record NA stands before GO."""
    same("the record before GO", (data[-10:-8], data[-7:-5]), (b"NA", b"GO"))
    listing = search(data[:-10] + data[-7:], WORDS, room)
    lines = [name_line(filled_name(entry.record()[6:])[0]) for entry in listing.entries]
    return "".join(line + "\n" for line in lines + ([f"refused {listing.refusal}"] if listing.refusal else []))


def packed_names(data, call):
    length = len(names_text(data, NAMES_CALLS[call]))
    return length, f"{length} bytes"


def check_utf_8(text):
    first, by, second, modulus = map(int, only("the rule of UTF-8", re.findall(r"two: (\d+) \+ v div (\d+) and (\d+) \+ v mod (\d+)\.", text)))
    for v in range(128, 256):
        same(f"the bytes of {v} in UTF-8", bytes([first + v // by, second + v % modulus]), chr(v).encode("utf-8"))
    same("the bytes of É", re.findall(r"É, (\d+), is (\d+) and (\d+)\.", text), [tuple(name_line(b"\xC9").split())])


def check_names(page):
    text = section(page, "Names")
    check_utf_8(text)
    for value, latin, line in table(text, "Value"):
        name, rest = filled_name(bytes.fromhex(value.strip("`")))
        wanted = (f"`{name.hex(' ').upper()}`", f"`{name_line(name)}`") if name else ("none", "empty")
        same(f"the name of {value}", ((latin, line), rest), (wanted, b""))
    data = dump(text)
    same("the length of the rule file", re.findall(r"A rule file of (\d+) bytes", text), [str(len(data))])
    record = search(data[:-10] + data[-7:], WORDS, 64).record()
    same("its list", re.findall(r"Its list has one entry, `([^`]*)`", text), [record.hex(" ").upper()])
    shown = only("the text of the names", [block for block in blocks(text) if re.fullmatch(r"    [\d ]+", block[0])])
    same("the text of the names", "".join(line[4:] + "\n" for line in shown), names_text(data, 64))
    lines = only("the answers of the names call", [block for block in blocks(text) if block[0].startswith("    names")])
    same("the names calls", [called(line) for line in lines], list(NAMES_CALLS))
    check_lines(lines, partial(packed_names, data))


def main():
    page = stored("docs", "FORMAT.md").decode()
    wrong = 0
    for part in check_rule_file, check_input, check_list, check_limits, check_answers, check_text, check_names:
        try:
            part(page)
        except Different as different:
            wrong += 1
            print(f"docs/FORMAT.md: {part.__name__}: {different}", file=sys.stderr)
    print(f"docs/FORMAT.md: {'ok' if wrong == 0 else f'{wrong} parts differ'}")
    return 1 if wrong else 0


if __name__ == "__main__":
    sys.exit(main())
