"""What the tests of tools/rule share: the tool's modules, the comparison that they fail by, and ways to run the command."""

import contextlib
import io
import os
import subprocess
import sys

sys.dont_write_bytecode = True

ROOT = os.path.dirname(os.path.dirname(os.path.abspath(__file__)))
TOOL = os.path.join(ROOT, "tools", "rule")
EXAMPLES = os.path.join(ROOT, "examples")

sys.path.insert(0, os.path.join(ROOT, "tools"))

from rulelib.commands import main
from rulelib.faults import Faults
from rulelib.rules import checked
from rulelib.warning import warnings

wrong = []
counts = {}  # what was compared, and how often


def compare(what, got, wanted):
    if got != wanted:
        wrong.append(f"{what}: {got!r}, expected {wanted!r}")


def agree(shown, lines):
    """Whether the lines shown are the lines of the output, where '..' stands for lines left out, though not for the last ones."""
    if ".." not in shown:
        return shown == lines
    cut = shown.index("..")
    rest = shown[cut + 1:]
    return rest != [] and shown[:cut] == lines[:cut] and any(agree(rest, lines[place:]) for place in range(cut + 1, len(lines)))


def count(what, number=1):
    counts[what] = counts.get(what, 0) + number


def stored(*path):
    with open(os.path.join(ROOT, *path), "rb") as file:
        return file.read()


def build(text):
    """The rule file of a text."""
    return checked(text).data()


def faults_of(text):
    """The lines and the messages of the faults of a text."""
    try:
        checked(text)
    except Faults as faults:
        return [(fault.line, fault.message) for fault in faults.faults]
    return []


def warnings_of(text, for_library=False):
    return [(warning.line, warning.message) for warning in warnings(checked(text), for_library)]


def changed(text, old, new):
    """The text with one part of it changed; a part that it has not, or has twice, would make a test of nothing."""
    if text.count(old) != 1:
        wrong.append(f"{old!r} stands {text.count(old)} times in the text")
    return text.replace(old, new, 1)


class Streams:
    """Standard streams of bytes that the command is to use."""

    def __init__(self, stdin):
        self.stdin, self.out, self.err = io.TextIOWrapper(io.BytesIO(stdin)), io.BytesIO(), io.StringIO()

    def __enter__(self):
        self.kept = sys.stdin, sys.stdout, sys.stderr
        sys.stdin, sys.stdout, sys.stderr = self.stdin, io.TextIOWrapper(self.out, write_through=True), self.err
        self.wrapper = sys.stdout
        return self

    def __exit__(self, *_):
        sys.stdin, sys.stdout, sys.stderr = self.kept
        self.wrapper.detach()


@contextlib.contextmanager
def inside(folder):
    """Makes a folder the one that paths are relative to."""
    before = os.getcwd()
    os.chdir(folder)
    try:
        yield
    finally:
        os.chdir(before)


def run(*words, stdin=b"", folder=EXAMPLES):
    """The exit status of the command, what it prints, and what it reports; the command is run by this process."""
    with inside(folder), Streams(stdin) as streams:
        try:
            status = main(list(words))
        except SystemExit as ended:
            status = ended.code
    return status, streams.out.getvalue(), streams.err.getvalue()


def process(words, stdin, folder, settings):
    """The exit status of a process, what it prints, and what it reports. It has no settings of Python but these."""
    plain = {name: value for name, value in os.environ.items() if not name.startswith("PYTHON")}
    ran = subprocess.run(words, input=stdin, stdout=subprocess.PIPE, stderr=subprocess.PIPE, cwd=folder, env={**plain, **settings})
    return ran.returncode, ran.stdout, ran.stderr.decode()


def start(*words, tool=TOOL, stdin=b"", folder=EXAMPLES, settings={}):
    """The same as `run`, with a process of its own."""
    return process([sys.executable, "-B", tool, *words], stdin, folder, settings)


def shell(line):
    """The same for a line of the shell that begins with `rule`, which stands for the tool."""
    return process(["bash", "-c", line.replace("rule ", f"'{sys.executable}' -B '{TOOL}' ", 1)], b"", EXAMPLES, {})
