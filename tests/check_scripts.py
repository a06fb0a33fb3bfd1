"""Runs the scripts ./reachlist, ./namelist and ./remburai.

./reachlist and ./namelist are run with the programs as they stand in the out/ of their crates, which have to be current, on the rule files of
tests/reachlist: what they print, their exit status, and what they say on standard error; and with streams that are closed or full, by
links, with texts, and with words that they do not know. What ./namelist is to print is worked out from what ./reachlist is.

That all of them prove and build what they need, once, and say so, is tried on a copy of them in a folder with a small crates.txt, where 'rt'
and 'cargo' are stand-ins that write down what they are called for, and the programs print what they are told.

The exit status is 1 where anything differs.
"""

import fcntl
import os
import pty
import re
import shutil
import signal
import subprocess
import sys
import time
from glob import glob
from tempfile import TemporaryDirectory

sys.dont_write_bytecode = True

from blind.compare import Different, same
from blind.enumerate import reachlist
from check_refusals import words
from name_lines import name_lines, named_type
from rule_tool import build

ROOT = os.path.dirname(os.path.dirname(os.path.abspath(__file__)))
SCRIPT, NAMES = os.path.join(ROOT, "reachlist"), os.path.join(ROOT, "namelist")
PROGRAMS = [os.path.join(ROOT, "crates", name, "out", name) for name in ("reachlist", "namelist")]
STORED = os.path.join(ROOT, "tests", "reachlist")
SECONDS = 30  # after which a run is given up
WORDS = words()
P, RELAY = os.path.join(STORED, "p.rule"), os.path.join(ROOT, "examples", "relay.rule")


def run(words, **how):
    """The exit status of a script, what it prints, and what it says."""
    data = how.pop("input", None)
    how = {"stdin": subprocess.DEVNULL if data is None else subprocess.PIPE, "stdout": subprocess.PIPE, **how}
    with subprocess.Popen(words, stderr=subprocess.PIPE, start_new_session=True, **how) as process:
        try:
            printed, said = process.communicate(data, SECONDS)
        except subprocess.TimeoutExpired:
            os.killpg(process.pid, signal.SIGKILL)
            raise
    return process.returncode, (printed or b"").decode(), said.decode()


def by_shell(streams, words, folder=ROOT):
    """The same with streams as a shell opens or closes them."""
    return run(["sh", "-c", f'exec "$0" "$@" {streams}', *words], cwd=folder)


def fault(what, got, part):
    """Fails unless a script has ended with status 4, has printed nothing, and has said this."""
    status, printed, said = got
    same(f"{what}, status and output", (status, printed), (4, ""))
    if part not in said:
        raise Different(f"{what}: {part!r} is not in {said!r}")


def read(path):
    with open(path, "rb") as file:
        return file.read()


# ./reachlist.

def wanted(data, printed):
    """The exit status and what is said of a rule file for which the program prints this."""
    last = printed.splitlines()[-1].split()
    if last[0] == "refused":
        number = int(last[1])
        hint = "the rule is too large for this program: try ./remburai list" if number in (11, 12) else "README.md says what to do about it"
        return 3, f"reachlist: refused {number} {WORDS[number]}\nreachlist: {hint}\n"
    same("words of the total", len(last), 6)
    depth, steps, verdict = data[-3], data[-2] + 256 * data[-1], last[5]
    unit = "step" if steps == 1 else "steps"
    return ["found", "none", "undecided"].index(verdict), f"reachlist: {verdict} within depth {depth}, {steps} {unit}\n"


def of_names(said):
    """What ./namelist says where ./reachlist says this."""
    return said.replace("reachlist: ", "namelist: ").replace("remburai list", "remburai names")


def test_stored_rule_files():
    names = sorted(name[:-5] for name in os.listdir(STORED) if name.endswith(".rule"))
    if len(names) < 40:
        raise Different(f"only {len(names)} rule files in {STORED}")
    for name in names:
        path = os.path.join(STORED, name)
        data, printed = read(path + ".rule"), read(path + ".out").decode()
        status, said = wanted(data, printed)
        same(name, run([SCRIPT, path + ".rule"]), (status, printed, said))


def test_standard_input():
    for words in ([SCRIPT], [SCRIPT, "-"]):
        for name in ("p", "empty", "size_16384_found", "size_100000", "p_d1"):
            path = os.path.join(STORED, name)
            data, printed = read(path + ".rule"), read(path + ".out").decode()
            status, said = wanted(data, printed)
            same(f"{name} on standard input", run(words, input=data), (status, printed, said))
    status, printed, _ = by_shell("< /dev/zero", [SCRIPT])
    same("an input without end", (status, printed), (3, "refused 3\n"))


def test_names_that_no_case_covers():
    """They are listed with those that reach the target; alone, with a label that no target has, their verdict is none."""
    rule = read(os.path.join(ROOT, "examples", "group.rule"))
    for label, status, verdict in ((1, 0, "found"), (2, 1, "none")):
        data = rule[:-4] + bytes([label]) + rule[-3:]
        same(f"label {label}", run([SCRIPT], input=data), (status, reachlist(data), f"reachlist: {verdict} within depth 2, 20 steps\n"))


def test_limits_in_words():
    data = read(P)[:-2] + b"\1\0"
    same("one step", run([SCRIPT], input=data)[2], "reachlist: undecided within depth 4, 1 step\n")


# ./namelist.

def wanted_names(data, printed):
    """The exit status, what is printed and what is said of a rule file for which reachlist prints this."""
    status, said = wanted(data, printed)
    names = name_lines(data, printed)
    if status == 3:
        return 3, names, of_names(said)
    if named_type(data) is None:
        return 0, "", "namelist: the rule file does not say which type spells names; in a text, 'names' does\n"
    number = names.count("\n")
    return 0, names, f"namelist: {number} {'name' if number == 1 else 'names'} {said.split(' ', 2)[2]}"


def test_names_of_stored_rule_files():
    for name in sorted(name[:-5] for name in os.listdir(STORED) if name.endswith(".rule")):
        path = os.path.join(STORED, name)
        same(f"names of {name}", run([NAMES, path + ".rule"]), wanted_names(read(path + ".rule"), read(path + ".out").decode()))


def test_names_of_relays():
    data = read(RELAY)
    found = run([NAMES, RELAY])
    same("the relay", found, wanted_names(data, reachlist(data)))
    same("what is said", found[2], "namelist: 23 names within depth 2, 100 steps\n")
    same("an É", "\n201 195 137\n" in found[1], True)
    for words in ([NAMES], [NAMES, "-"]):
        same("the relay on standard input", run(words, input=data), found)


# The list has one entry, of which the first name is empty and the second is open: both are empty lines.
EMPTY = """type half = h0 | h1 | h2 | h3 | h4 | h5 | h6 | h7 | h8 | h9 | hA | hB | hC | hD | hE | hF
type name = end | byte half half name
names name
fn f (n : name) (_ : name) (_ : half) : half =
  case n of
    end -> target 1 h0
    byte _ _ _ -> h0
go f label 1 depth 2 steps 9
"""


def test_empty_names():
    same("two empty names", run([NAMES], input=build(EMPTY)), (0, "\n\n", "namelist: 2 names within depth 2, 9 steps\n"))
    none = EMPTY.replace("label 1", "label 2")
    same("no entry", run([NAMES], input=build(none)), (0, "", "namelist: 0 names within depth 2, 9 steps\n"))
    other = build(EMPTY.replace("names name\n", ""))[:-7] + b"NA\0" + build(EMPTY)[-7:]
    for script, name in ((SCRIPT, "reachlist"), (NAMES, "namelist")):
        same("a type of another form", run([script], input=other),
             (3, "refused 15\n", f"{name}: refused 15 spelling\n{name}: README.md says what to do about it\n"))


# Both.

def long_lists(folder):
    """By script, a rule file for which it prints more than a pipe takes here. That of the names is the relay's with one byte more."""
    path = os.path.join(folder, "deep.rule")
    with open(path, "wb") as file:
        file.write(read(RELAY)[:-3] + b"\3" + read(RELAY)[-2:])
    return {SCRIPT: os.path.join(STORED, "many_entries.rule"), NAMES: path}


def test_streams():
    relay = read(RELAY)
    for script, rule, printed, what in ((SCRIPT, P, read(P[:-5] + ".out").decode(), "the list"),
                                        (NAMES, RELAY, name_lines(relay, reachlist(relay)), "the names")):
        fault("a closed output", by_shell(">&-", [script, rule]), "standard output is closed")
        fault("a closed input", by_shell("<&-", [script]), "standard input is closed")
        fault("closed streams", by_shell("<&- >&-", [script, rule]), "standard output is closed")
        fault("an output not for writing", by_shell("1< /dev/null", [script, rule]), f"{what} cannot be written")
        same("a closed input and a file", by_shell("<&-", [script, rule])[:2], (0, printed))
        same("a closed standard error", by_shell("2>&-", [script, rule])[:2], (0, printed))
        with TemporaryDirectory() as folder, open("/dev/full", "wb") as full:
            for words in ([script, rule], [script, long_lists(folder)[script]]):
                fault("a full disk", run(words, stdout=full), f"{what} cannot be written")
            same("a full disk and help", run([script, "--help"], stdout=full)[0], 4)


def reader_goes(script, rule):
    """The exit status and what is said where the reader of a script goes after one byte. The pipe takes less than the list."""
    process = subprocess.Popen([script, rule], stdout=subprocess.PIPE, stderr=subprocess.PIPE)
    fcntl.fcntl(process.stdout, fcntl.F_SETPIPE_SZ, 4096)
    process.stdout.read(1)
    process.stdout.close()
    said = process.stderr.read()
    process.stderr.close()
    return process.wait(SECONDS), said


def test_a_reader_that_goes():
    with TemporaryDirectory() as folder:
        for script, rule in long_lists(folder).items():
            same(f"a reader of {script} that goes", reader_goes(script, rule), (4, b""))


def test_links():
    printed = read(P[:-5] + ".out").decode()
    with TemporaryDirectory() as folder:
        os.symlink(SCRIPT, os.path.join(folder, "list"))
        os.symlink("list", os.path.join(folder, "again"))
        os.symlink(ROOT, os.path.join(folder, "root"))
        for name in ("./list", "./again", "root/reachlist"):
            same(f"as {name}", run([os.path.join(folder, name), P], cwd=folder)[:2], (0, printed))
        same("from another folder", run([SCRIPT, P], cwd="/")[:2], (0, printed))
        path = dict(os.environ, PATH=f"{folder}:{os.environ['PATH']}")
        same("by the path", run(["sh", "-c", "list " + P], env=path, cwd="/")[:2], (0, printed))
        os.symlink(P, os.path.join(folder, "a rule"))
        same("a rule file by a link", run([SCRIPT, "a rule"], cwd=folder)[:2], (0, printed))


def test_texts():
    text = read(os.path.join(ROOT, "examples", "p.txt"))
    long = b"-- a comment\n" * 2000 + text
    for what, data, number in (("a text", text, 2), ("a long text", long, 3), ("a text in Latin-1", b"-- \xe9\n" + text, 2), ("a letter", b"x", 1)):
        status, printed, said = run([SCRIPT], input=data)
        same(what, (status, printed), (3, f"refused {number}\n"))
        if "this is a text, not a rule file: try ./remburai list" not in said:
            raise Different(f"{what}: no hint in {said!r}")
        same(f"{what} and its names", run([NAMES], input=data), (status, printed, of_names(said)))
    for what, data in (("a rule file", b"TY"), ("nothing", b""), ("another file", b"\x7fELF")):
        if "text" in run([SCRIPT], input=data)[2]:
            raise Different(f"{what} is taken for a text")


HELP = {
    SCRIPT: ("reach, unfinished or missing", "0  found", "1  none", "2  undecided", "3  refused", "4  a fault"),
    NAMES: ("in Latin-1", "in UTF-8", "0  printed", "3  refused", "4  a fault"),
}


def test_use():
    for script, parts in HELP.items():
        status, printed, said = run([script, "--help"])
        same("the help", (status, said, run([script, "-h"])[1]), (0, "", printed))
        same("what the help lacks", [part for part in parts if part not in printed], [])
        fault("an option", run([script, "--raw"]), f"there is no option --raw; see ./{os.path.basename(script)} --help")
        fault("two files", run([script, P, P]), f"one rule file at a time; see ./{os.path.basename(script)} --help")
        fault("no file", run([script, "no such file"]), "there is no file 'no such file'")
        fault("a folder", run([script, ROOT]), "is a folder")
        if os.geteuid() != 0:
            with TemporaryDirectory() as folder:
                path = os.path.join(folder, "rule")
                with open(path, "wb"):
                    os.chmod(path, 0)
                fault("a file that is not for reading", run([script, path]), "cannot be read")


# All scripts, in a folder where they have nothing built.

CRATES = """# a comment: with a colon
one:
two: one
three: two one  # other
reachlist: three io libc
namelist: three io libc
other: one
remburai staticlib: two three
"""

# It is called in a crate's folder: first for all that is below it, with what rt says there of a crate that is proved, that has not changed, that is
# taken from another copy of the repository, and of the crate itself.
RT = """#!/bin/sh
crate="${PWD##*/}"
echo "rt $* in $crate" >> "$CALLS"
[ ! -e "$CALLS.fail" ] || { cat "$CALLS.fail"; exit 1; }
sleep 0.1
mkdir -p out
case "$1" in
all)
    echo "only=0 proved=0"
    printf '== one\\nfn one::f: proved\\nlogic=proved functions=1\\n== two\\n'
    printf '== three\\nrt: three: begins with what a check kept elsewhere\\n' >&2
    printf '== %s\\nfn %s::f: proved\\nlogic=proved functions=1\\n== summary\\none: ok\\n' "$crate" "$crate" ;;
run)
    echo "logic=proved functions=1" >&2
    [ -e "out/$crate" ] || cp "$LISTING" "out/$crate"
    "out/$crate" ;;
lib)
    echo "logic=proved functions=1"
    [ -e out/libremburai.a ] || : > out/libremburai.a ;;
esac
"""

CARGO = """#!/bin/sh
echo "cargo $*${REMBURAI_STATICLIB:+ with another library}" >> "$CALLS"
while [ "$1" != --target-dir ]; do shift; done
mkdir -p "$2/release"
[ -e "$2/release/remburai" ] || cp "$COMMAND" "$2/release/remburai"
"""

# What stands for the programs: those of rule files print what they are told, or a total, the other what it is called with.
LISTING = "#!/bin/sh\ncat > /dev/null\nprintf \"${PRINTED-total 0 0 0 0 none\\n}\"\n"
COMMAND = "#!/bin/sh\necho \"$REMBURAI_RULE\"\nfor word in \"$@\"; do echo \"<$word>\"; done\nexit 3\n"


class Copy:
    """The scripts in a folder of their own, with stand-ins."""

    def __init__(self, folder):
        self.root, self.bin, self.calls = os.path.join(folder, "a root"), os.path.join(folder, "bin"), os.path.join(folder, "calls")
        for name in ("reachlist", "namelist", "remburai", "tools/build.sh", "tools/listing.sh", "tools/prove", "rust/src/bin/remburai/help"):
            source, copy = os.path.join(ROOT, name), os.path.join(self.root, name)
            os.makedirs(os.path.dirname(copy), exist_ok=True)
            (shutil.copytree if os.path.isdir(source) else shutil.copy)(source, copy)
        crates = [f"crates/{name}/src/main.rt" for name in ("reachlist", "namelist")] + [f"crates/{name}/src/lib.rt" for name in ("one", "remburai")]
        for name in (*crates, "rust/Cargo.toml", "rust/build.rs"):
            self.write(os.path.join(self.root, name), "")
        self.write(os.path.join(self.root, "crates.txt"), CRATES)
        for name, text in (("rt", RT), ("cargo", CARGO), ("listing", LISTING), ("command", COMMAND)):
            self.write(os.path.join(self.bin, name), text)
            os.chmod(os.path.join(self.bin, name), 0o755)
        self.words = dict(os.environ, PATH=f"{self.bin}:{os.environ['PATH']}", CALLS=self.calls,
                          LISTING=os.path.join(self.bin, "listing"), COMMAND=os.path.join(self.bin, "command"))
        self.words.pop("REMBURAI_RULE", None)

    def write(self, path, text):
        os.makedirs(os.path.dirname(path), exist_ok=True)
        with open(path, "w") as file:
            file.write(text)

    def run(self, name, *words, **how):
        return run([os.path.join(self.root, name), *words], env=self.words, **how)

    def called(self):
        """What the stand-ins were called for since this was asked last, whatever number of crates was to be proved at a time."""
        if not os.path.exists(self.calls):
            return []
        lines = read(self.calls).decode().splitlines()
        os.remove(self.calls)
        return [re.sub(" --jobs [1-9][0-9]* ", " ", line) for line in lines]

    def change(self, name):
        time.sleep(0.02)
        os.utime(os.path.join(self.root, name))


def in_a_copy(test):
    def tested():
        with TemporaryDirectory() as folder:
            test(Copy(folder))
    tested.__name__ = test.__name__
    return tested


def progress(name, said):
    """The counts that a script shows."""
    return [line[len(name) + 2:] for line in said.splitlines() if line.endswith("crates proved")]


def says_how_long(what, said):
    if not re.search(f"{what}.*: about .* minutes on first use", said):
        raise Different(f"how long it takes is not said: {said!r}")


FOUR = [f"{number} of 4 crates proved" for number in range(1, 5)]
LISTED, NAMES_LISTED = [["rt all check in " + name, "rt run in " + name] for name in ("reachlist", "namelist")]


@in_a_copy
def test_first_use_of_reachlist(copy):
    status, printed, said = copy.run("reachlist", input=read(P))
    same("first use", (status, printed, copy.called()), (1, "total 0 0 0 0 none\n", LISTED))
    same("what is shown", progress("reachlist", said), FOUR)
    says_how_long("proving and building the program", said)
    same("second use", (copy.run("reachlist", input=read(P))[2], copy.called()), ("reachlist: none within depth 4, 20 steps\n", []))
    for name in ("crates/one/src/lib.rt", "crates.txt"):
        copy.change(name)
        copy.run("reachlist", input=read(P))
        same(f"after a change of {name}", copy.called(), LISTED)
        copy.run("reachlist", input=read(P))
        same(f"after that of {name}", copy.called(), [])


NAMED = read(P)[:-7] + b"NA\0" + read(P)[-7:]  # the stand-in does not look at its type

# What stands for the program prints this, and what the script then says, and its exit status.
PRINTED = [
    ("", "0 names within depth 4, 20 steps\n", 0),
    ("\n", "1 name within depth 4, 20 steps\n", 0),
    ("\n\n\n", "3 names within depth 4, 20 steps\n", 0),
    ("201 195 137\n", "1 name within depth 4, 20 steps\n", 0),
    ("\n201 195 137\n\n", "3 names within depth 4, 20 steps\n", 0),
    ("\n\nrefused 12\n", "refused 12 full\nthe rule is too large for this program: try ./remburai names\n", 3),
    ("refused 11\n", "refused 11 bench\nthe rule is too large for this program: try ./remburai names\n", 3),
    ("refused 15\n", "refused 15 spelling\nREADME.md says what to do about it\n", 3),
    ("total 0 0 0 0 none\n", "the program has printed something else than names\n", 4),
]


@in_a_copy
def test_first_use_of_namelist(copy):
    copy.words["PRINTED"] = "201 195 137\\n\\n"
    status, printed, said = copy.run("namelist", input=NAMED)
    same("first use", (status, printed, copy.called()), (0, "201 195 137\n\n", NAMES_LISTED))
    same("what is shown", progress("namelist", said), FOUR)
    same("second use", (copy.run("namelist", input=NAMED)[2], copy.called()), ("namelist: 2 names within depth 4, 20 steps\n", []))
    copy.run("reachlist", input=NAMED)
    same("first use of the other", copy.called(), LISTED)
    copy.change("crates.txt")
    copy.run("namelist", input=NAMED)
    copy.run("namelist", input=NAMED)
    same("after a change", copy.called(), NAMES_LISTED)


@in_a_copy
def test_what_namelist_prints(copy):
    """Each line is a name, also one that is empty and the last."""
    copy.words["PRINTED"] = ""
    copy.run("namelist", input=NAMED)
    for printed, lines, status in PRINTED:
        copy.words["PRINTED"] = printed.replace("\n", "\\n")
        said = "".join(f"namelist: {line}\n" for line in lines.splitlines())
        same(repr(printed), copy.run("namelist", input=NAMED), (status, printed, said))
    copy.words["PRINTED"] = ""
    same("no names", copy.run("namelist", P), (0, "", "namelist: the rule file does not say which type spells names; in a text, 'names' does\n"))
    copy.words["PRINTED"] = "refused 15\\n"
    copy.run("reachlist", input=NAMED)
    same("a refused type", copy.run("reachlist", input=NAMED),
         (3, "refused 15\n", "reachlist: refused 15 spelling\nreachlist: README.md says what to do about it\n"))


@in_a_copy
def test_first_use_of_remburai(copy):
    tool = os.path.join(copy.root, "tools", "rule")
    given = ["list", "a rule", "--depth", "3", "*", ""]
    printed = f"{tool}\n" + "".join(f"<{word}>\n" for word in given)
    build = [f"cargo build --quiet --release --offline --manifest-path {copy.root}/rust/Cargo.toml"
             f" --target-dir {copy.root}/rust/target --bin remburai"]
    prove = ["rt all check in remburai", "rt lib in remburai"]
    copy.words["REMBURAI_STATICLIB"] = "elsewhere"
    got = copy.run("remburai", *given)
    same("first use", (got[:2], copy.called()), ((3, printed), prove + build))
    same("what is shown", progress("remburai", got[2]), FOUR[:3])
    says_how_long("proving the library", got[2])
    same("the last count", re.findall("remburai: (.*), in [0-9]+ s\n", got[2]), FOUR[3:])
    same("second use", (copy.run("remburai", *given), copy.called()), ((3, printed, ""), []))
    for name, calls in (("crates/one/src/lib.rt", prove + build), ("rust/build.rs", build), ("rust/src/bin", build)):
        copy.change(name)
        same(f"after a change of {name}", (copy.run("remburai", *given)[:2], copy.called()), ((3, printed), calls))
        same(f"after that of {name}", (copy.run("remburai", *given), copy.called()), ((3, printed, ""), []))
    os.symlink(os.path.join(copy.root, "remburai"), os.path.join(copy.bin, "link"))
    same("by a link", run(["link", *given], env=copy.words, cwd="/"), (3, printed, ""))
    copy.words["REMBURAI_RULE"] = "another"
    same("another tools/rule", copy.run("remburai", "check")[1], "another\n<check>\n")


@in_a_copy
def test_commands_of_remburai(copy):
    """Each that has a page of help is handed to the program."""
    pages = os.listdir(os.path.join(copy.root, "rust/src/bin/remburai/help"))
    names = sorted({page[:-len(".txt")] for page in pages} - {"remburai"})
    same("whether there are commands", len(names) >= 6, True)
    for name in names:
        same(name, copy.run("remburai", name, "a rule")[:2], (3, f"{os.path.join(copy.root, 'tools', 'rule')}\n<{name}>\n<a rule>\n"))


@in_a_copy
def test_one_proof_at_a_time(copy):
    words = [os.path.join(copy.root, "reachlist"), P]
    both = [subprocess.Popen(words, env=copy.words, stdout=subprocess.PIPE, stderr=subprocess.DEVNULL) for _ in range(3)]
    same("all of them", [process.communicate(timeout=SECONDS)[0] for process in both], [b"total 0 0 0 0 none\n"] * 3)
    same("proofs", copy.called(), LISTED)


@in_a_copy
def test_what_is_not_proved(copy):
    copy.write(copy.calls + ".fail", "== one\n== two\nsrc/lib.rt:1:1: error: `returns`\nlogic=not-proved\n== summary\none: ok\ntwo: failed (1)\n")
    log = os.path.join(copy.root, "target")
    got = copy.run("reachlist", P)
    fault("reachlist", got, f"not proved; see {log}/reachlist.log")
    same("what is shown", progress("reachlist", got[2]), FOUR[:1])
    fault("namelist", copy.run("namelist", P), f"not proved; see {log}/namelist.log")
    fault("remburai", copy.run("remburai", "list", P), f"not proved; see {log}/remburai.log")
    same("what was tried", copy.called(), [LISTED[0], NAMES_LISTED[0], "rt all check in remburai"])
    same("the log", "two: failed (1)" in read(os.path.join(log, "remburai.log")).decode(), True)


@in_a_copy
def test_without_the_toolchain(copy):
    plain = [folder for folder in os.environ["PATH"].split(":") if not os.path.exists(os.path.join(folder, "rt"))]
    copy.words["PATH"] = ":".join(folder for folder in plain if not os.path.exists(os.path.join(folder, "cargo")))
    fault("reachlist", copy.run("reachlist", P), "'rt', the Rattle toolchain, is needed")
    fault("remburai", copy.run("remburai", "list", P), "'rt', the Rattle toolchain, is needed")
    copy.write(os.path.join(copy.root, "crates", "remburai", "out", "libremburai.a"), "")
    fault("remburai", copy.run("remburai", "list", P), "'cargo' is needed")


@in_a_copy
def test_where_nothing_can_be_written(copy):
    copy.write(os.path.join(copy.root, "target"), "")
    fault("reachlist", copy.run("reachlist", P), "target cannot be written")
    fault("remburai", copy.run("remburai", "list", P), "target cannot be written")


@in_a_copy
def test_without_a_proof(copy):
    """Help, and words that are not known, do not wait for one."""
    pages = os.path.join(copy.root, "rust/src/bin/remburai/help")
    asked = {"--help": "remburai", "help": "remburai", "list x -h": "list", "help run": "run", "help me": "remburai"}
    for words, name in asked.items():
        same(words, copy.run("remburai", *words.split()), (0, read(os.path.join(pages, name + ".txt")).decode(), ""))
    same("help of reachlist", copy.run("reachlist", "--help")[0], 0)
    same("help of namelist", copy.run("namelist", "--help")[0], 0)
    fault("no command", copy.run("remburai"), "there is no command ''")
    fault("an unknown command", copy.run("remburai", "lists"), "there is no command 'lists'")
    fault("no file", copy.run("reachlist", "no such file"), "there is no file")
    with open("/dev/full", "wb") as full:
        same("help on a full disk", copy.run("remburai", "--help", stdout=full)[0], 4)
    fault("a closed output", by_shell(">&-", [os.path.join(copy.root, "remburai"), "list", P]), "standard output is closed")
    same("calls", copy.called(), [])


@in_a_copy
def test_on_a_terminal(copy):
    """There the counts are written over each other."""
    terminal, script = pty.openpty()
    process = subprocess.Popen([os.path.join(copy.root, "reachlist"), P], env=copy.words, stdout=subprocess.DEVNULL, stderr=script)
    status = process.wait(SECONDS)
    os.close(script)
    shown = os.read(terminal, 65536).decode()
    os.close(terminal)
    same("the status", status, 1)
    same("what is shown", "".join(f"reachlist: {line}\r" for line in FOUR) in shown, True)


def test_number_of_crates():
    """Of the repository's own crates.txt."""
    needs = {}
    for line in read(os.path.join(ROOT, "crates.txt")).decode().splitlines():
        crate, colon, words = line.split("#")[0].partition(":")
        if colon:
            needs[crate.split()[0]] = words.split()
    for crate in ("reachlist", "namelist", "remburai"):
        below, new = set(), {crate}
        while new:
            below |= new
            new = {name for one in new for name in needs[one] if name in needs} - below
        script = f'root={ROOT} name=test; source "$root/tools/build.sh"; crates_for {crate}'
        same(crate, run(["bash", "-c", script])[1], f"{len(below)}\n")
        same(f"{crate} has many", len(below) > 20, True)


def current():
    """Whether the programs are there, and no crate is newer."""
    if not all(map(os.path.exists, PROGRAMS)):
        return False
    built = min(times())
    parts = [part for name in ("src", "specs", "proofs") for part in glob(os.path.join(ROOT, "crates", "*", name))]
    paths = [os.path.join(place, name) for part in parts for place, folders, names in os.walk(part) for name in [".", *names]]
    return all(os.stat(path).st_mtime_ns <= built for path in [*paths, os.path.join(ROOT, "crates.txt")])


def times():
    return [os.stat(program).st_mtime_ns for program in PROGRAMS]


def main():
    if not current():
        sys.exit("scripts: the program reachlist or namelist is not there, in the out/ of its crate, or older than a crate; "
                 "'tools/prove reachlist namelist' proves and builds them")
    built = times()
    tests = [test for name, test in sorted(globals().items()) if name.startswith("test_")]
    wrong = 0
    for test in tests:
        try:
            test()
        except (Different, subprocess.TimeoutExpired) as fault:
            wrong += 1
            print(f"scripts: {test.__name__}: {fault}", file=sys.stderr)
    if times() != built:
        wrong += 1
        print("scripts: a program was built anew", file=sys.stderr)
    print(f"scripts: {len(tests)} tests, {wrong} wrong")
    return 1 if wrong else 0


if __name__ == "__main__":
    sys.exit(main())
