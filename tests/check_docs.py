"""Checks what the documents say of the crates: the table of README.md under "Layout" and that of docs/COSTS.md have each crate of crates.txt once
and no other; each edit that docs/REVIEW.md names in its table of wrong versions is an edit of the crate that it gives; each file and folder
below crates/ that README.md, CONTRIBUTING.md, docs/REVIEW.md and docs/DECISIONS.md name is there, and so is each theorem, function or definition
that docs/REVIEW.md names as standing in such a file. The exit status is 1 where anything differs, and where a page lacks what is to be compared."""

import os
import re
import sys
from glob import glob

sys.dont_write_bytecode = True

from blind.compare import judged, same

ROOT = os.path.dirname(os.path.dirname(os.path.abspath(__file__)))
PAGES = "README.md", "CONTRIBUTING.md", "docs/REVIEW.md", "docs/DECISIONS.md"
QUOTED = re.compile(r"`([^`]+)`")
PATH = re.compile(r"`(crates/[a-z0-9_*][A-Za-z0-9_/.*-]*)`")
EDITS = re.compile(r"((?:(?:`\w+`|the same name)(?:, | and )?)+) \(([a-z0-9_, ]+)\)")
# what stands in a file: names in a row, `in` or `of`, and the file
PLACED = re.compile(r"((?:`[\w-]+`(?:, | and )?)+) (?:in|of) `(crates/[A-Za-z0-9_/]+\.(?:antt|rt))`")


def read(*path):
    with open(os.path.join(ROOT, *path), encoding="utf-8") as file:
        return file.read()


def rows(text, head):
    """The first and the second cells of the table with this head, from row to row."""
    parts = text.split("\n" + head + "\n")
    same(f"how many tables have the head {head}", len(parts), 2)
    lines = parts[1].split("\n")[1:]
    end = next((at for at, line in enumerate(lines) if not line.startswith("|")), len(lines))
    return [[cell.strip() for cell in line.strip("|").split("|", 1)] for line in lines[:end]]


def check_layout():
    listed = re.findall(r"^([a-z0-9_]+)(?: staticlib)?:", read("crates.txt"), re.MULTILINE)
    laid = [name for row in rows(read("README.md"), "| Crate | Holds |") for name in QUOTED.findall(row[0])]
    same("the crates of README.md, beside crates.txt", sorted(laid), sorted(listed))
    costs = [row[0] for row in rows(read("docs", "COSTS.md"), "| Crate | Code | Definitions | Proofs | Edits | Seconds |")]
    same("the crates of docs/COSTS.md, beside crates.txt", sorted(costs), sorted([*listed, "all"]))


def check_edits():
    """The edits of the table of wrong versions; `the same name` repeats the one before it."""
    found = 0
    for row in rows(read("docs", "REVIEW.md"), "| Version or error | Edits |"):
        names, told = [], set()
        for said, crates in EDITS.findall(row[1]):
            names = QUOTED.findall(said) or names[-1:]
            told.update(QUOTED.findall(said))
            for path in [(crate, name) for crate in crates.split(", ") for name in names]:
                there = os.path.isfile(os.path.join(ROOT, "crates", path[0], "must-fail", path[1] + ".edit"))
                same(f"whether crate {path[0]} has the edit {path[1]}, which docs/REVIEW.md names", there, True)
                found += 1
        same(f"the edits of the row '{row[0]}' of docs/REVIEW.md that stand before no crate", sorted(set(QUOTED.findall(row[1])) - told), [])
        same(f"whether the row '{row[0]}' of docs/REVIEW.md names an edit", names != [], True)
    return found


def check_paths():
    for page in PAGES:
        for path in PATH.findall(read(page)):
            same(f"whether {path}, which {page} names, is there", glob(os.path.join(ROOT, path)) != [], True)


def check_places():
    found = 0
    for said, path in PLACED.findall(read("docs", "REVIEW.md")):
        text = read(path)
        for name in QUOTED.findall(said):
            same(f"whether {path} has {name}, which docs/REVIEW.md says", re.search(rf"(?<![\w-]){re.escape(name)}(?![\w-])", text) is not None, True)
            found += 1
    return found


def check():
    check_layout()
    edits, places = check_edits(), check_places()
    check_paths()
    same("whether edits and places were found", (edits > 50, places > 50), (True, True))
    return f"{edits} edits and {places} places"


if __name__ == "__main__":
    sys.exit(judged("documents", check))
