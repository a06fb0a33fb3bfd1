"""Runs the programs reachlist and namelist, whose paths are the two arguments, and compares what they print with what they should.

Their inputs are the rule files of tests/reachlist, whose texts are stored beside them, and some of 1,000,000 bytes, whose texts the
blind side gives. Each is read from a file, through a pipe, and through a pipe in small pieces, of which the next one comes once the
last was taken. A program takes no more than 16,385 bytes, one more than a rule file may have: so the rest of a file is left as it
is, and an input that is longer is also read through a pipe that stays open and through one into which bytes are written without end.

The exit status is 1 where anything differs, where a program cannot be run, and where there is no rule file.
"""

import array
import fcntl
import os
import subprocess
import sys
import termios
import threading
import time
from itertools import zip_longest
from tempfile import TemporaryFile

from blind.compare import Different, same
from blind.enumerate import reachlist
from blind.names import namelist

FOLDER = os.path.join(os.path.dirname(os.path.abspath(__file__)), "reachlist")
MOST_TAKEN = 16385  # bytes of an input
LONG = 1000000  # bytes of the longest inputs
PIECES = 50  # into which an input is cut, about
SECONDS = 30  # after which a run is given up

# Per program the ending of its stored texts, and the text that the blind side gives.
PROGRAMS = {"reachlist": (".out", reachlist), "namelist": (".names", namelist)}


class Stuck(Exception):
    """The program does not end, or cannot be run: no other input is tried."""


def run(program, stdin, feed=None):
    """What the program prints; `feed` writes its input where that is a pipe."""
    try:
        process = subprocess.Popen([program], bufsize=0, stdin=stdin, stdout=subprocess.PIPE)
    except OSError as error:
        raise Stuck(f"{program} cannot be run: {error.strerror}") from None
    given_up = threading.Event()

    def give_up():
        given_up.set()
        process.kill()

    timer = threading.Timer(SECONDS, give_up)
    timer.start()
    with process:
        if feed:
            feed(process)
        text = process.stdout.read()
        status = process.wait()
        timer.cancel()
    if given_up.is_set():
        raise Stuck(f"no end after {SECONDS} seconds")
    same("exit status", status, 0)
    return text


def compare(text, wanted):
    """Fails at the first line that differs."""
    for number, (got, due) in enumerate(zip_longest(text.splitlines(True), wanted.splitlines(True), fillvalue=b""), 1):
        same(f"line {number}", got, due)


# The ways in which an input comes to the program.

def from_file(program, data, wanted):
    with TemporaryFile() as file:
        file.write(data)
        file.seek(0)
        compare(run(program, file), wanted)
        same("bytes taken", os.lseek(file.fileno(), 0, os.SEEK_CUR), min(len(data), MOST_TAKEN))


def through(feed):
    """Through a pipe into which `feed` writes."""
    def check(program, data, wanted):
        compare(run(program, subprocess.PIPE, lambda process: feed(process, data)), wanted)
    return check


def put(process, data):
    """Writes to the program's input. The result is whether the program still reads it."""
    try:
        while data:
            data = data[os.write(process.stdin.fileno(), data):]
    except BrokenPipeError:
        return False
    return True


def whole(process, data):
    put(process, data)
    process.stdin.close()


def pieces(process, data):
    size = 1 + len(data) // PIECES
    for start in range(0, len(data), size):
        if not put(process, data[start:start + size]):
            break
        wait_until_taken(process)
    process.stdin.close()


def wait_until_taken(process):
    """Waits until what was written is read, or the program has ended."""
    left = array.array("i", [1])
    while left[0] and process.poll() is None:
        time.sleep(0.0001)
        fcntl.ioctl(process.stdin, termios.FIONREAD, left)


def all_that_is_taken(process, data):
    """Behind what the program takes nothing comes, nor does the input end."""
    put(process, data[:MOST_TAKEN])


def again_and_again(process, data):
    while put(process, data):
        pass


WAYS = {"from a file": from_file, "through a pipe": through(whole), "in pieces": through(pieces)}
LONGER = {"through an open pipe": through(all_that_is_taken), "without end": through(again_and_again)}


# The inputs.

def stored(name):
    with open(os.path.join(FOLDER, name), "rb") as file:
        return file.read()


def inputs(ending, text_of):
    """Per name an input, and the text that it must give: the stored one with this ending, or what the blind side gives."""
    names = sorted(name[:-5] for name in os.listdir(FOLDER) if name.endswith(".rule"))
    if not names:
        sys.exit(f"check_reachlist: there is no rule file in {FOLDER}")
    found = {f"{name}.rule": (stored(name + ".rule"), stored(name + ending)) for name in names}
    for name in ("empty.rule", "p.rule", "size_16384_found.rule", "name_relay.rule"):
        data = found[name][0].ljust(LONG, b"\0")
        found[f"{name} with zeros up to {LONG} bytes"] = (data, text_of(data).encode())
    return found


def runs(word, program):
    """Runs a program on all inputs. The result is the number of runs that went wrong."""
    done, wrong = 0, 0
    for name, (data, wanted) in inputs(*PROGRAMS[word]).items():
        for way, check in {**WAYS, **(LONGER if len(data) >= MOST_TAKEN else {})}.items():
            done += 1
            try:
                check(program, data, wanted)
            except Different as different:
                wrong += 1
                print(f"{word}: {name}, {way}: {different}", file=sys.stderr)
            except Stuck as stuck:
                sys.exit(f"{word}: {name}, {way}: {stuck}")
    print(f"{word}: {done} runs, {wrong} wrong")
    return wrong


def main():
    if len(sys.argv) != 1 + len(PROGRAMS):
        sys.exit("usage: check_reachlist.py REACHLIST NAMELIST")
    programs = dict(zip(PROGRAMS, map(os.path.abspath, sys.argv[1:])))
    for word, program in programs.items():
        if not os.path.isfile(program):
            sys.exit(f"check_reachlist: there is no program {program}; 'tools/prove {word}' proves and builds it")
    wrong = [runs(word, program) for word, program in programs.items()]
    return 1 if any(wrong) else 0


if __name__ == "__main__":
    sys.exit(main())
