"""Checks that every table of the refusals is the one of the definitions, `all_refusals` in crates/reach/specs/Words.antt: all refusals in the order
of their numbers, from 1 on, each with its word. The numbers of the definitions and of the code are proved; here are compared the enum with the words
in its comments, the words that tools/rule and the scripts print, the table of the Rust crate, the constants of the C header, and the table of README.md.
Each comparison is tried besides with other tables of the definitions: one renamed, two swapped, one left out, one more, each of which it must tell.
The exit status is 1 where anything differs."""

import os
import re
import sys

sys.dont_write_bytecode = True

from blind.compare import Different, judged, same

ROOT = os.path.dirname(os.path.dirname(os.path.abspath(__file__)))
WORDS = "crates/reach/specs/Words.antt"


def stored(path):
    with open(os.path.join(ROOT, path), encoding="utf-8") as file:
        return file.read()


def part(path, begin, end):
    """The text of a file from a mark on, up to an end."""
    text = stored(path)
    same(f"{path}: how often it has {begin!r}", text.count(begin), 1)
    return text.split(begin)[1].split(end)[0]


def refusals():
    """The table of the definitions: the cases of the enum and their words."""
    return re.findall(r'\((\w+), "(\w+)"\)', part(WORDS, "\nall_refusals =\n", "[]"))


def words():
    """The words, each at its number; 0 is none."""
    return [""] + [word for _, word in refusals()]


# What each file has, as rows in its own order, and what of a refusal each row is to say.

def of_the_enum():
    rows = re.findall(r'// (\d+), "(\w+)"\n +(\w+),', part("crates/reach/src/lib.rt", "pub enum Refusal {", "\n}"))
    return [(int(number), word, name) for number, word, name in rows]


def of_the_tools():
    return re.findall(r'"(\w+)"', part("tools/rulelib/limits.py", "\nREFUSALS = [", "]"))


def of_the_scripts():
    return part("tools/listing.sh", 'local words=("" ', ")").split()


def of_rust():
    rows = re.findall(r'^    (\w+) = (\d+), "(\w+)",$', part("rust/src/refusal.rs", "\nrefusals! {\n", "\n}\n"), re.MULTILINE)
    return [(int(number), word, name) for name, number, word in rows]


def of_the_header():
    rows = re.findall(r"^#define REMBURAI_(\w+) (\d+) ", part("include/remburai.h", "/* Refusals. */\n", "\n\n"), re.MULTILINE)
    return [(int(number), name) for name, number in rows if name != "ACCEPTED"]


def of_the_readme():
    rows = re.findall(r"^\| (\d+) \| (\w+) \|", part("README.md", "| No. | Word | Given when | What to do |\n", "\n\n"), re.MULTILINE)
    return [(int(number), word) for number, word in rows]


def whole(number, name, word):
    return number, word, name


def constant(number, name, _):
    return number, re.sub(r"(?<=[a-z])(?=[A-Z])", "_", name).upper()


def only_word(_number, _name, word):
    return word


TABLES = [
    ("crates/reach/src/lib.rt", of_the_enum, whole),
    ("tools/rulelib/limits.py", of_the_tools, only_word),
    ("tools/listing.sh", of_the_scripts, only_word),
    ("rust/src/refusal.rs", of_rust, whole),
    ("include/remburai.h", of_the_header, constant),
    ("README.md", of_the_readme, lambda number, name, word: (number, word)),
]


def wanted(table, row):
    return [row(number, name, word) for number, (name, word) in enumerate(table, 1)]


def compare(path, have, want):
    """Fails at the first row that differs, and where there are more or fewer."""
    for number, pair in enumerate(zip(have, want), 1):
        same(f"{path}: refusal {number}", *pair)
    same(f"{path}: the refusals that {WORDS} has besides", want[len(have):], [])
    same(f"{path}: the refusals that {WORDS} has not", have[len(want):], [])


def told(path, have, want):
    try:
        compare(path, have, want)
    except Different:
        return True
    return False


def check():
    table = refusals()
    same(f"{WORDS}: whether there are refusals, each with a name and a word of its own",
         [len(set(column)) for column in zip(*table)], [max(1, len(table))] * 2)
    changed = {
        "a refusal renamed": [*table[:-1], ("Other", "other")],
        "two refusals swapped": [table[1], table[0], *table[2:]],
        "a refusal left out": table[:-1],
        "a refusal more": [*table, ("Other", "other")],
    }
    for path, have, row in TABLES:
        compare(path, have(), wanted(table, row))
        for what, other in changed.items():
            same(f"{path}: whether {what} is told", told(path, have(), wanted(other, row)), True)


if __name__ == "__main__":
    sys.exit(judged("refusals", check))
