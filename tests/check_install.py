"""Tests `make install`: into a new folder it puts the files that it should, and no others; pkg-config finds header and library there, and
the C examples that are built by what it says print the list of examples/p.rule and the names of a rule file; the command says its help, lists a text and
prints names, and the tool beside it builds a rule file; a second `make install` proves and builds nothing; `make uninstall` leaves no file.

It needs make, gcc, pkg-config, and what `make build` needs. The exit status is 1 where anything differs.
"""

import os
import sys
from subprocess import TimeoutExpired
from tempfile import TemporaryDirectory

sys.dont_write_bytecode = True

from blind.compare import Different, same
from check_c import PRINTING, ROOT, call, stored
from hand_names import NAMED

FILES = {
    "bin/remburai", "include/remburai.h", "lib/libremburai.a", "lib/pkgconfig/remburai.pc", "lib/remburai/rule",
    "share/doc/remburai/FORMAT.md", "share/doc/remburai/README.md", "share/doc/remburai/RULES.md",
}
RULELIB = os.path.join(ROOT, "tools", "rulelib")
SECONDS = 3600  # the first `make install` may have to prove the library


def made(words, **how):
    """What a program says that must succeed, whatever its messages."""
    said, status, messages = call(words, SECONDS, **how)
    same(f"the exit status of {' '.join(words)}", (status, "" if status == 0 else messages), (0, ""))
    return said


def make(target, prefix):
    return made(["make", "-C", ROOT, target, "PREFIX=" + prefix]).decode()


def below(folder):
    """The paths of the files below a folder."""
    return {os.path.relpath(os.path.join(place, name), folder) for place, _, names in os.walk(folder) for name in names}


def wanted():
    library = [name for name in os.listdir(RULELIB) if name.endswith(".py")] if os.path.isdir(RULELIB) else []
    return FILES | {"lib/remburai/rulelib/" + name for name in library}


def check_program(prefix):
    words = dict(os.environ, PKG_CONFIG_PATH=os.path.join(prefix, "lib", "pkgconfig"))
    flags = made(["pkg-config", "--cflags", "--libs", "remburai"], env=words).decode().split()
    _, named, names = NAMED[0]
    prints = [(name, stored("examples", "p.rule"), stored("tests", "reachlist", "p.out")) for name in PRINTING] + [("names", named, names.encode())]
    for name, rule, printed in prints:
        program = os.path.join(prefix, name)
        made(["gcc", "-o", program, os.path.join(ROOT, "examples", "c", name + ".c"), *flags])
        same(f"what {name} prints", made([program], input=rule), printed)
        os.remove(program)


def check_tools(prefix):
    command = os.path.join(prefix, "bin", "remburai")
    same("whether the command has a help", made([command, "--help"]) != b"", True)
    words = {name: word for name, word in os.environ.items() if name != "REMBURAI_RULE"}
    listed = made([command, "list", os.path.join(ROOT, "examples", "p.txt")], env=words)
    same("the first line of a text's list", listed.splitlines()[0], b"reach 6  suc (suc _)")
    same("the names of a rule file", made([command, "names", "-"], input=NAMED[0][1]), NAMED[0][2].encode())
    built = made([sys.executable, "-B", os.path.join(prefix, "lib", "remburai", "rule"), "build", os.path.join(ROOT, "examples", "p.txt")])
    same("what the tool builds", built, stored("examples", "p.rule"))


def check_install(prefix):
    make("install", prefix)
    same("the files", sorted(below(prefix)), sorted(wanted()))
    check_program(prefix)
    check_tools(prefix)
    again = make("install", prefix)
    same("what is built again", [line for line in again.splitlines() if line.startswith(("tools/prove ", "cargo "))], [])
    make("uninstall", prefix)
    same("the files that are left", sorted(below(prefix)), [])


def main():
    with TemporaryDirectory() as folder:
        try:
            check_install(os.path.join(folder, "prefix"))
        except (Different, TimeoutExpired) as fault:
            print(f"make install: {fault}", file=sys.stderr)
            return 1
    print("make install: ok")
    return 0


if __name__ == "__main__":
    sys.exit(main())
