"""The command: its arguments, what it reads and what it writes."""

import argparse
import codecs
import contextlib
import json
import sys

from rulelib.faults import Fault, Faults, are, counted
from rulelib.limits import MAX_DEPTH
from rulelib.reader import show
from rulelib.rules import checked
from rulelib.values import Spelled, line_object, named_line
from rulelib.warning import warnings

INPUT, OUTPUT = "standard input", "standard output"


class Session:
    """One run of the command. `reading` names what is being read, for faults."""

    def __init__(self, arguments):
        self.arguments, self.reading, self.output = arguments, None, None
        self.input_taken = arguments.command == "names"

    # What is read.

    def read(self, path):
        """The bytes of a file, or of standard input where the path is '-'."""
        self.reading = INPUT if path == "-" else path
        with about(self.reading):
            if path != "-":
                with open(path, "rb") as file:
                    return file.read()
            if self.input_taken:
                raise Fault(None, "it is read as something else already: give a file here")
            self.input_taken = True
            return standard(sys.stdin, INPUT).read()

    def text(self):
        """The text given. A mark that its bytes are UTF-8, as some editors put it first, is left out."""
        data = self.read(self.arguments.text)
        data = data[len(codecs.BOM_UTF8):] if data.startswith(codecs.BOM_UTF8) else data
        try:
            return data.decode()
        except UnicodeDecodeError as error:
            raise Fault(data.count(b"\n", 0, error.start) + 1, "the line is not UTF-8") from None

    # What is written.

    def write(self, data):
        """Writes to standard output; what is kept back there is written by `finish`."""
        self.output = standard(sys.stdout, OUTPUT)
        with about(OUTPUT):
            self.output.write(data)

    def finish(self):
        if self.output is not None:
            with about(OUTPUT):
                self.output.flush()

    def write_file(self, path, data):
        with about(path), open(path, "wb") as file:
            file.write(data)

    def report(self, faults, word=""):
        for fault in faults:
            place = self.reading if fault.line is None else f"{self.reading}:{fault.line}"
            complain(f"{place}: {word}{fault.message}")

    # Commands.

    def build(self):
        rule = checked(self.text())
        found = warnings(rule, self.arguments.library)
        if found and self.arguments.strict:
            raise Faults(found)
        self.report(found, "warning: ")
        if self.arguments.output is None:
            self.write(rule.data())
        else:
            self.write_file(self.arguments.output, rule.data())

    def show(self):
        rule = None if self.arguments.text is None else checked(self.text())
        self.write(show(self.read(self.arguments.file), rule).encode())

    def names(self):
        rule = checked(self.text())
        self.reading = INPUT
        with about(INPUT):
            for number, data in enumerate(standard(sys.stdin, INPUT), 1):
                self.write(self.named(rule, number, data.decode(errors="replace").rstrip("\r\n")).encode() + b"\n")

    def named(self, rule, number, line):
        """A line of reachlist with names, or as JSON."""
        try:
            return json.dumps(line_object(rule, line), ensure_ascii=False, separators=(",", ":")) if self.arguments.json else \
                named_line(rule, line, self.arguments.constructors)
        except Fault as fault:
            raise Fault(number, fault.message) from None

    def input(self):
        rule, values = checked(self.text()), self.arguments.values
        takes, go = rule.source.takes, rule.text.go
        if len(values) != len(takes):
            wanted = counted(len(takes), "value") if takes else "no value"
            raise Fault(go.line, f"'{go.source.text}' takes {wanted}, and {are(len(values))} given")
        depth, data = self.arguments.depth or go.depth, b""
        for number, (value, type_) in enumerate(zip(values, takes), 1):
            self.reading = f"value {number}"
            data += Spelled(rule, value, depth).bytes(type_)
        self.write(data)


def standard(stream, name):
    """The bytes of a standard stream."""
    if stream is None:
        raise OSError(0, "it is closed", name)
    return stream.buffer


@contextlib.contextmanager
def about(name):
    """Gives an error the name of what it is about, where it has none. What standard output did not take, Python would try to write
    again at its end: it is left."""
    try:
        yield
    except OSError as error:
        sys.stdout = None if name == OUTPUT else sys.stdout
        raise OSError(error.errno, error.strerror, error.filename or name) from None


def complain(message):
    """Writes a line to standard error, where that can be."""
    try:
        if sys.stderr is not None:
            print(message, file=sys.stderr, flush=True)
    except OSError:
        sys.stderr = None


def depth_of(word):
    depth = int(word)
    if not 1 <= depth <= MAX_DEPTH:
        raise ValueError
    return depth


depth_of.__name__ = "depth"  # for the message of a fault


def parsed(words):
    parser = argparse.ArgumentParser(prog="rule", description="Rule files as text; docs/RULES.md describes the text.")
    commands = parser.add_subparsers(dest="command", required=True)
    command = commands.add_parser("build", help="make the rule file that a text describes")
    command.add_argument("text", metavar="TEXT", help="the text, or - for standard input")
    command.add_argument("-o", dest="output", metavar="FILE", help="where to write it, instead of standard output")
    command.add_argument("--strict", action="store_true", help="take warnings for faults")
    command.add_argument("--library", action="store_true",
                         help="it is for ./remburai or the library: no warning of more steps than reachlist takes")
    command = commands.add_parser("show", help="print the text of a rule file")
    command.add_argument("file", metavar="FILE", help="the rule file, or - for standard input")
    command.add_argument("text", metavar="TEXT", nargs="?", help="the text whose names are used")
    command = commands.add_parser("names", help="print the lines of reachlist, from standard input, with names")
    command.add_argument("text", metavar="TEXT")
    command.add_argument("--json", action="store_true", help="print one JSON object a line")
    command.add_argument("--constructors", action="store_true", help="print the constructors too of what is printed as the name that it spells")
    command = commands.add_parser("input", help="write the bytes of a closed input")
    command.add_argument("text", metavar="TEXT")
    command.add_argument("values", metavar="VALUE", nargs="*", help="one for each parameter of the source: 'suc (suc zero)' or '1 1 0'")
    command.add_argument("--depth", type=depth_of, metavar="D", help="the depth of the search, instead of that of the text")
    return parser.parse_args(words)


def main(words):
    """Runs the command; the result is its exit status."""
    session = Session(parsed(words))
    try:
        try:
            getattr(session, session.arguments.command)()
        finally:
            session.finish()
    except Faults as faults:
        session.report(faults.faults)
        return 1
    except Fault as fault:
        session.report([fault])
        return 1
    except OSError as error:
        complain(f"{error.filename}: {error.strerror}")
        return 1
    return 0
