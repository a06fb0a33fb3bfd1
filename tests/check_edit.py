"""Tests tools/edit: every edit of the repository fits its crate; one that does not fit is told, with the reason; what a check says of an
edit is told apart, and so is what rt has printed of all edits; and the copy that an edit is tried on has what it should. No crate is checked here.
The exit status is 1 where anything differs."""

import importlib.util
import os
import subprocess
import sys
from contextlib import redirect_stdout
from importlib.machinery import SourceFileLoader
from io import StringIO
from tempfile import TemporaryDirectory

sys.dont_write_bytecode = True

from blind.compare import judged, same

TOOL = os.path.join(os.path.dirname(os.path.dirname(os.path.abspath(__file__))), "tools", "edit")

loader = SourceFileLoader("edit", TOOL)
edit = importlib.util.module_from_spec(importlib.util.spec_from_loader("edit", loader))
loader.exec_module(edit)

CODE = "fn one() -> u8 {\n    1\n}\nfn two() -> u8 {\n    2\n}\n"
FITTING = {
    "# a comment\nfile: src/lib.rt\nold:     2\nnew:     3\n": CODE.replace("2", "3"),
    "file: src/lib.rt\nold: one\nnew:\n": CODE.replace("one", ""),
    "file: src/lib.rt\nold: one\nnew: three\nold: three\nnew: four": CODE.replace("one", "four"),
}
FAULTY = {
    "": "it has no 'old:' and 'new:' pair",
    "file: src/lib.rt\nold: u8\nnew: u16\n": "an 'old:' text is 2 times in src/lib.rt: u8",
    "file: src/lib.rt\nold: u32\nnew: u16\n": "an 'old:' text is 0 times in src/lib.rt: u32",
    "file: src/lib.rt\nold: one\nnew: one\n": "an edit changes nothing: one",
    "file: src/lib.rt\nnew: one\n": "a 'new:' line has no 'old:' line before it",
    "file: src/other.rt\nold: one\nnew: two\n": "there is no file src/other.rt",
    "file: proofs/one/Proof.antt\nold: one\nnew: two\n": "'file: proofs/one/Proof.antt' is neither in src/ nor in specs/",
    "file: src/../must-fail/try.edit\nold: one\nnew: two\n": "'file: src/../must-fail/try.edit' is neither in src/ nor in specs/",
    "old: one\nnew: two\n": "'file: None' is neither in src/ nor in specs/",
}
FALSE = "/room/crates/c/proofs/one/Proof.antt:2:5: error: `returns`: 1 is not 2\n  `A` is not in scope here\nnote: of this\n  nothing\nlogic=not-proved\n"
MADE = "note: /room/crates/c/src/lib.rt:7:1: it is not proved\nfn c::one: not proved\nlogic=not-proved\n"
UNFIT = "/room/crates/c/proofs/one/Proof.antt:2:5: error: `returns`: record `After` has no field `two`\nlogic=not-proved\n"
SAID = [  # what a check says, its exit status; how many errors are shown, the exit status of the tool
    (FALSE, 1, ["crates/c/proofs/one/Proof.antt:2:5: error: `returns`: 1 is not 2\n  `A` is not in scope here"], 0),
    (MADE, 1, ["note: crates/c/src/lib.rt:7:1: it is not proved"], 0),
    (UNFIT, 1, ["crates/c/proofs/one/Proof.antt:2:5: error: `returns`: record `After` has no field `two`"], 1),
    (UNFIT.split("logic")[0] + MADE, 1, ["crates/c/proofs/one/Proof.antt:2:5: error: `returns`: record `After` has no field `two`",
                                         "note: crates/c/src/lib.rt:7:1: it is not proved"], 1),
    ("logic=proved functions=1\n", 0, [], 1),
    ("/room/crates/c/src/lib.rt:1:1: error[unexpected-token]: a\n", 1, ["crates/c/src/lib.rt:1:1: error[unexpected-token]: a"], 2),
    ("rt: no\n", 2, [], 2),
]

TOLD = "rt: must-fail c/{}.edit: {}\n"
NO_FIELD = "./proofs/one/Answers.antt:2:5: error: `returns`: record `After` has no field `two`"
PRINTED = [  # what rt prints of an edit, and the exit status of the tool
    ("refused, as it must be: note: src/lib.rt:7:1: it is not proved that what the function ensures holds when it returns (`returns`)", 0),
    ("refused, as it must be", 0),
    ("refused, as it must be (only because a proof file names what the edit took away, so this says little of the contract): " + NO_FIELD, 1),
    ("refused, as it must be: " + NO_FIELD, 1),
    ("refused, as it must be (only by a limit of the prover, which gave no verdict, so this says less of the contract): src/lib.rt:7:1: error: a", 1),
    ("NOT REFUSED: the crate is still proved with this edit (one that means the same as before cannot be refused: remove it)", 1),
    ("BAD EDIT: an 'old:' text is in src/lib.rt 0 times, and not once", 1),
    ("NOT TRIED: its check was killed, most likely for memory, so nothing is known of it: run this again", 1),
]
FIRST = TOLD.format("first", PRINTED[0][0])
CRATES = "# a comment: of all\nlow:\nother: low\nhigh staticlib: middle  # two below\nmiddle: low std\n"


def write(path, text):
    os.makedirs(os.path.dirname(path), exist_ok=True)
    with open(path, "w", encoding="utf-8") as file:
        file.write(text)


def check_edits(folder):
    """Edits of a crate whose code is CODE."""
    write(os.path.join(folder, "crates", "c", "src", "lib.rt"), CODE)
    edit.ROOT, path = folder, os.path.join(folder, "try.edit")
    for text, wanted in {**FITTING, **FAULTY}.items():
        write(path, text)
        try:
            got = edit.edited("c", path)["src/lib.rt"]
        except edit.Fault as fault:
            got = str(fault)
        same(f"the edit {text!r}", got, wanted)


def check_sayings():
    for log, status, shown, wanted in SAID:
        found = edit.errors(log, "/room")
        same(f"the errors of {log!r}", found, shown)
        same(f"the exit status for {log!r}", edit.judged("c/try", log, status, found)[1], wanted)


def logs(path):
    """The exit status for what is printed in a file, or what is wrong with that."""
    try:
        with redirect_stdout(StringIO()):
            return edit.check_logs(path)
    except edit.Fault as fault:
        return str(fault)


def check_printed(folder):
    """What was printed of two edits, the first of which is false: in a file, and by a stand-in for rt, which says where it is asked."""
    edit.ROOT, path = folder, os.path.join(folder, "printed")
    for name in "first", "second":
        write(os.path.join(folder, "crates", "c", "must-fail", name + ".edit"), "")
    nothing = "nothing is printed of c/second: 'rt must-fail' tries it"
    texts = [(FIRST + TOLD.format("second", said), wanted) for said, wanted in PRINTED]
    texts += [(FIRST, nothing), (FIRST + TOLD.format("second_one", PRINTED[0][0]), nothing), ("", nothing.replace("second", "first"))]
    for text, wanted in texts:
        write(path, "rt: c: trying its must-fail edits (2)\n" + text + "2 passed, 0 failed\n")
        same(f"what is said of {text!r}", logs(path), wanted)
    same("what is said without a file", logs(path + "s"), "No such file or directory")
    os.environ["PATH"] = os.path.join(folder, "bin") + os.pathsep + os.environ["PATH"]
    write(os.path.join(folder, "bin", "rt"), f"#!/bin/sh\n[ \"$*\" = must-fail ] && [ \"$PWD\" = '{os.path.realpath(folder)}' ] && cat printed\n")
    os.chmod(os.path.join(folder, "bin", "rt"), 0o755)
    for text, wanted in texts:
        write(path, text)
        same(f"what is said where rt prints {text!r}", logs(None), wanted)


def check_copy(folder):
    """The copy on which an edit of `high` is tried: those crates that it rests on, with what rt keeps of each."""
    edit.ROOT, room = os.path.join(folder, "all"), os.path.join(folder, "room")
    write(os.path.join(edit.ROOT, "crates.txt"), CRATES)
    for name in "low", "other", "middle", "high":
        for file in ("src/lib.rt", "specs/Lib.antt", "must-fail/one.edit", "out/incremental/kept", "out/rlib/stamp", f"out/rlib/{name}.rlib/format"):
            write(os.path.join(edit.ROOT, "crates", name, file), name)
    os.mkdir(room)
    edit.copied("high", {"src/lib.rt": "other"}, room)
    got = {os.path.relpath(os.path.join(place, name), room) for place, _, names in os.walk(room) for name in names}
    wanted = {f"crates/{name}/{file}" for name in ("low", "middle", "high") for file in ("src/lib.rt", "specs/Lib.antt")}
    wanted |= {f"crates/{name}/out/rlib/{file}" for name in ("low", "middle") for file in ("stamp", f"{name}.rlib/format")}
    same("the files of the copy", sorted(got), sorted(wanted | {"crates.txt", "crates/high/out/incremental/kept"}))
    same("the code of the copies", [edit.read(os.path.join(room, "crates", name, "src", "lib.rt")) for name in ("low", "high")], ["low", "other"])
    same("the code itself", edit.read(os.path.join(edit.ROOT, "crates", "high", "src", "lib.rt")), "high")
    same("the crates of the copy", edit.read(os.path.join(room, "crates.txt")).split("\n"), ["high staticlib: middle  # two below", "low:", "middle: low std", ""])


def check_commands():
    done = subprocess.run([sys.executable, TOOL, "--check"], stdout=subprocess.PIPE, check=False)
    same("tools/edit --check", (done.returncode, done.stdout.endswith(b" edits, 0 do not fit\n")), (0, True))
    for words in [], ["--other"], ["marks"], ["marks/there_is_none"], ["--check", "one"], ["--logs", "one", "two"], ["--logs", "/there/is/none"]:
        done = subprocess.run([sys.executable, TOOL, *words], stderr=subprocess.PIPE, check=False)
        same(f"tools/edit {' '.join(words)}", (done.returncode, b"Traceback" in done.stderr), (2, False))


def check():
    check_commands()
    check_sayings()
    with TemporaryDirectory() as folder:
        check_edits(folder)
    with TemporaryDirectory() as folder:
        check_printed(folder)
    with TemporaryDirectory() as folder:
        check_copy(folder)


if __name__ == "__main__":
    sys.exit(judged("tools/edit", check))
