"""Runs the command, whose path is the one argument, on a terminal, with a search that has no end: the time that it takes is shown from two
seconds on, anew each second, with what an interrupt does; an interrupt ends it by its signal, with nothing stored, and a limit with status 2;
where standard error is no terminal nothing is shown. The exit status is 1 where anything differs.
"""

import os
import pty
import re
import select
import signal
import subprocess
import sys
import tempfile
import time

# All trees of depth 64 that 4,096 steps can pass through; tests/command/rules.rs has the same.
BODY = bytes([3, 0, 0, 0, 1, 2, 0, 0, 1, 3, 0, 1, 0, 0, 1, 1, 1, 0, 0, 2, 0])
ENDLESS = b"TY\2\0\2\0\0FN\1\0\0" + bytes([len(BODY), 0]) + BODY + b"GO\0\7\x40\0\x10"
SECONDS = 30  # after which a run is given up
SHOWN = re.compile(r"searching for (\d+) s(, of (\d+) s at most)?; Ctrl-C ends the search, and nothing is listed")


class Wrong(Exception):
    """Something is not as it should be."""


def see(what, holds):
    if not holds:
        raise Wrong(what)


def shown_times(text):
    return [int(match.group(1)) for match in SHOWN.finditer(text)]


class Terminal:
    """The command on a terminal of its own. It takes interrupts, also where this test, as a job in the background, does not; and where the test fails it
    is not left running."""

    def __init__(self, words):
        self.began, self.text = time.monotonic(), ""
        self.process, self.descriptor = pty.fork()
        if self.process == 0:
            signal.signal(signal.SIGINT, signal.SIG_DFL)
            os.execv(words[0], words)

    def __enter__(self):
        return self

    def __exit__(self, kind, value, trace):
        if kind is not None:
            os.kill(self.process, signal.SIGKILL)

    def read(self):
        """Takes what is printed next; the result is whether there was something before the end."""
        left = SECONDS - self.passed()
        see(f"no end after {SECONDS} seconds", left > 0 and select.select([self.descriptor], [], [], left)[0])
        try:
            piece = os.read(self.descriptor, 4096)
        except OSError:
            piece = b""
        self.text += piece.decode()
        return piece != b""

    def passed(self):
        return time.monotonic() - self.began

    def end(self):
        """Reads to the end; the result is the exit status, negative where a signal ended it."""
        while self.read():
            pass
        os.close(self.descriptor)
        return os.waitstatus_to_exitcode(os.waitpid(self.process, 0)[1])


def interrupted(command, rule):
    """Nothing is stored then, nor left beside the file."""
    with tempfile.TemporaryDirectory() as folder:
        interrupt(command, rule, os.path.join(folder, "list"))
        see(f"there is {os.listdir(folder)}", os.listdir(folder) == [])


def interrupt(command, rule, file):
    with Terminal([command, "list", rule, "--save", file]) as terminal:
        while len(set(shown_times(terminal.text))) < 2 and terminal.read():
            if len(shown_times(terminal.text)) == 1:
                see("the time is shown before two seconds have passed", terminal.passed() >= 2)
        times = shown_times(terminal.text)
        see(f"the times that are shown are {times}", times[:2] in ([2, 3], [2, 4], [3, 4]))
        see("the line is not written over", "\n" not in terminal.text)
        os.write(terminal.descriptor, b"\3")
        status = terminal.end()
    see(f"the status after an interrupt is {status}", status == -signal.SIGINT)
    see("something is listed", "total" not in terminal.text)


def limited(command, rule):
    with Terminal([command, "list", rule, "--limit", "4"]) as terminal:
        status = terminal.end()
    see(f"the status at the limit is {status}", status == 2)
    see("the limit is not shown", ", of 4 s at most" in terminal.text)
    # the line that showed the time is blank before the message comes
    last = terminal.text.split("\r")[-3:]
    see(f"the line is left as it was: {last}", last[0].strip(" ") == "" and last[1].startswith("remburai: no answer after 4 s"))
    see("the command ends late", 4 <= terminal.passed() < SECONDS)


def not_on_a_terminal(command, rule):
    done = subprocess.run([command, "list", rule, "--limit", "3.5"], capture_output=True, timeout=SECONDS, check=False)
    see(f"the status is {done.returncode}", done.returncode == 2)
    see(f"it prints {done.stdout}", done.stdout == b"")
    see(f"it says {done.stderr}", done.stderr.startswith(b"remburai: no answer after 3.5 s") and done.stderr.count(b"\n") == 1)


def main():
    command = os.path.abspath(sys.argv[1])
    with tempfile.NamedTemporaryFile() as file:
        file.write(ENDLESS)
        file.flush()
        for check in (interrupted, limited, not_on_a_terminal):
            try:
                check(command, file.name)
            except Wrong as wrong:
                print(f"terminal: {check.__name__}: {wrong}", file=sys.stderr)
                return 1
    print("terminal: ok")
    return 0


if __name__ == "__main__":
    sys.exit(main())
