"""Stored cases of a test program: what it reads (stdin) and what it must print (stdout), in the folder of its crate."""

import os
import sys

CRATES = os.path.join(os.path.dirname(os.path.abspath(__file__)), os.pardir, "crates")


def checking(words):
    """Whether the words of the command are --check; there may be no others."""
    if words not in ([], ["--check"]):
        sys.exit(f"usage: {os.path.basename(sys.argv[0])} [--check]")
    return words == ["--check"]


def store(crate, stdin, stdout, words):
    """Writes both files, or with the word --check compares them with what is stored. The result is an exit status."""
    differs, only_checking = False, checking(words)
    for name, made in (("stdin", stdin), ("stdout", stdout)):
        path = os.path.join(CRATES, crate, name)
        if only_checking:
            with open(path, "rb") as stored:
                if stored.read() != made:
                    print(f"{crate}: the stored {name} differs from what is made", file=sys.stderr)
                    differs = True
        else:
            with open(path, "wb") as stored:
                stored.write(made)
    return 1 if differs else 0
