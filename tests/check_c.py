"""Tests the calls from C: include/remburai.h and the programs of examples/c, over the static library whose path is the one argument.

The header is compiled by itself as C99, C11 and C++, with all warnings as errors. `list` prints its line, `answers` the lines of
docs/FORMAT.md, and `print` and `text`, built with the slices of reachlist, what is stored in tests/reachlist, with the exit status of the
verdict; with the library's whole limits they refuse by neither 11 nor 12 what reachlist does. The list's end is where the header says. The
text of a list fits a slice of just its length, a shorter slice and a list that is too long are refused, and no other byte is changed. A run
answers with its steps and with the depth of the input, 0 without parameters and 0 where it is refused, also on an input of a million bytes.
`names` prints the names of rule files with a record NA, with the slices of namelist and with the library's own; their text is cut off where the
slice is too short, words and list are left as by a search, and no other byte is changed.
The version is one in header and Rust crate, and the library asks for memset and nothing else.

It needs gcc, g++ and nm. The exit status is 1 where anything differs, and where there is nothing to compare.
"""

import os
import re
import subprocess
import sys
from tempfile import TemporaryDirectory

sys.dont_write_bytecode = True

from blind.build import call as calling, case, con, fn, go, target, ty, var
from blind.compare import Different, same
from check_format import dump, section
from hand_names import NAMED

ROOT = os.path.dirname(os.path.dirname(os.path.abspath(__file__)))
STORED = os.path.join(ROOT, "tests", "reachlist")
INCLUDE = ["-I", os.path.join(ROOT, "include")]
WARNINGS = ["-Wall", "-Wextra", "-Werror", "-pedantic"]
STANDARDS = {"c99": ("gcc", "c"), "c11": ("gcc", "c"), "c++98": ("g++", "c++"), "c++17": ("g++", "c++")}
AS_REACHLIST = ["-DLIST_BYTES=32768", "-DWORK_WORDS=16384"]
STATUSES = {"found": 0, "none": 1, "undecided": 2}  # else 3
PRINTING = "print", "text"  # the programs that print what reachlist does
LIST_LIMIT = 16777216
SECONDS = 60

END_OF_A_LONG_LIST = """
#include <stdio.h>
#include "remburai.h"
static uint8_t list[REMBURAI_LIST_LIMIT + 1];
int main(void) {
    uint64_t answer = remburai_entry(list, sizeof list, 0);
    printf("%zu %zu\\n", remburai_entry_place(answer), remburai_entry_size(answer));
    return 0;
}
"""

# Each line of standard input is one call on P: how many bytes of a list of equal entries, whether the search ended in 12, and the bytes of the
# text slice. Printed are what the length call answers, what the writer does, and whether all but the text is as before.
ENTRY = bytes([82, 69, 6, 0, 2, 0, 1, 0])
TEXTS = """
#include <stdio.h>
#include <string.h>
#include "remburai.h"
static const uint8_t file[] = {FILE}, entry[] = {ENTRY};
static uint8_t list[REMBURAI_LIST_LIMIT + sizeof entry], text[2 * sizeof list], before[sizeof text];
static void print_call(size_t length, bool full, size_t room) {
    memset(text, 0x5A, sizeof text);
    uint64_t measured = remburai_text_length(file, sizeof file, list, length, full);
    uint64_t written = remburai_write_text(file, sizeof file, list, length, full, text + 1, room);
    size_t end = 1 + remburai_text_bytes(written);
    int kept = text[0] == 0x5A && memcmp(text + end, before, sizeof text - end) == 0;
    printf("%u %zu ", remburai_refusal(measured), remburai_text_bytes(measured));
    printf("%u %zu %s\\n", remburai_refusal(written), remburai_text_bytes(written), kept ? "kept" : "changed");
}
int main(void) {
    size_t at, length, room;
    int full;
    memset(before, 0x5A, sizeof before);
    for (at = 0; at < sizeof list; at += sizeof entry)
        memcpy(list + at, entry, sizeof entry);
    while (scanf("%zu %d %zu", &length, &full, &room) == 3)
        print_call(length, full != 0, room);
    return 0;
}
"""

# Standard input has per run the rule file and the input, each behind its length in four bytes, low byte first. Printed are the parts of the
# answer, and whether a refusal has changed the work slice.
RUNS = """
#include <stdio.h>
#include <string.h>
#include "remburai.h"
static uint8_t file[REMBURAI_FILE_LIMIT], input[1 << 20];
static uint32_t work[REMBURAI_WORK_MOST], before[REMBURAI_WORK_MOST];
static size_t read_part(uint8_t *to) {
    size_t length = 0;
    int at;
    for (at = 0; at < 4; at++)
        length += (size_t)getchar() << 8 * at;
    return fread(to, 1, length, stdin);
}
static void print_run(size_t file_length, size_t input_length) {
    memcpy(work, before, sizeof work);
    uint64_t answer = remburai_run(file, file_length, input, input_length, work, REMBURAI_WORK_MOST);
    int kept = remburai_refusal(answer) == 0 || memcmp(work, before, sizeof work) == 0;
    printf("%u %u ", remburai_refusal(answer), remburai_outcome(answer));
    printf("%u %u %s\\n", remburai_steps(answer), remburai_depth(answer), kept ? "kept" : "changed");
}
int main(void) {
    int next;
    memset(before, 0x5A, sizeof before);
    while ((next = getchar()) != EOF) {
        ungetc(next, stdin);
        size_t length = read_part(file);
        print_run(length, read_part(input));
    }
    return 0;
}
"""

# Standard input has per call the rule file behind its length, then the bytes of the list slice and those of the text slice, four bytes each, low
# byte first. Printed are the answer, the refusal at the end of the text where all of it is there, whether words and list are those of a search,
# whether all but the text is as before, and what there is of the text.
NAMES = """
#include <inttypes.h>
#include <stdio.h>
#include <string.h>
#include "remburai.h"
static uint8_t file[REMBURAI_FILE_LIMIT], list[2][4096], text[REMBURAI_TEXT_BOUND(4096)], before[sizeof text];
static uint32_t work[2][16384];
static size_t read_number(void) {
    size_t number = 0;
    int at;
    for (at = 0; at < 4; at++)
        number += (size_t)getchar() << 8 * at;
    return number;
}
static void print_names(size_t file_length, size_t list_length, size_t text_length) {
    memset(work, 0x5A, sizeof work);
    memset(list, 0x5A, sizeof list);
    memset(text, 0x5A, sizeof text);
    (void)remburai_search(file, file_length, work[0], 16384, list[0] + 1, list_length);
    uint64_t answer = remburai_names(file, file_length, work[1], 16384, list[1] + 1, list_length, text + 1, text_length);
    size_t at, length = answer < text_length ? (size_t)answer : text_length, end = 1 + length;
    int same = memcmp(work[0], work[1], sizeof work[0]) == 0 && memcmp(list[0], list[1], sizeof list[0]) == 0;
    int kept = text[0] == 0x5A && memcmp(text + end, before, sizeof text - end) == 0;
    printf("%" PRIu64 " %u ", answer, length == answer ? remburai_names_refusal(text + 1, length) : 0);
    printf("%s %s ", same ? "same" : "other", kept ? "kept" : "changed");
    for (at = 1; at < end; at++)
        printf("%02x", (unsigned)text[at]);
    printf("\\n");
}
int main(void) {
    int next;
    memset(before, 0x5A, sizeof before);
    while ((next = getchar()) != EOF) {
        ungetc(next, stdin);
        size_t length = fread(file, 1, read_number(), stdin), room = read_number();
        print_names(length, room, read_number());
    }
    return 0;
}
"""


def stored(*path):
    with open(os.path.join(ROOT, *path), "rb") as file:
        return file.read()


def call(words, seconds=SECONDS, **how):
    """What a program says, its exit status and its messages."""
    done = subprocess.run(words, stdout=subprocess.PIPE, stderr=subprocess.PIPE, timeout=seconds, check=False, **how)
    return done.stdout, done.returncode, done.stderr.decode(errors="replace")


def made(words, **how):
    """What a program says that must succeed without a message."""
    said, status, faults = call(words, **how)
    same(f"the messages and the exit status of {' '.join(words[:4])} ..", (faults, status), ("", 0))
    return said


class Programs:
    """Builds programs in a folder, over the library."""

    def __init__(self, folder, library):
        self.folder, self.library = folder, library

    def built(self, name, source, flags=()):
        path = os.path.join(self.folder, name)
        made(["gcc", "-std=c99", "-O2", *WARNINGS, *flags, *INCLUDE, "-o", path, source, self.library])
        return path

    def written(self, name, source):
        """A program of this source."""
        path = os.path.join(self.folder, name + ".c")
        with open(path, "w", encoding="ascii") as file:
            file.write(source)
        return self.built(name, path)

    def example(self, name, flags=()):
        return self.built(name + "".join(flags), os.path.join(ROOT, "examples", "c", name + ".c"), flags)


def check_header(programs):
    for standard, (compiler, language) in STANDARDS.items():
        made([compiler, "-std=" + standard, "-x", language, *WARNINGS, *INCLUDE, "-fsyntax-only", "-"], input=b'#include "remburai.h"\n')


def check_version(programs):
    header = stored("include", "remburai.h").decode()
    numbers = [re.findall(rf"^#define REMBURAI_VERSION_{part} (\d+)$", header, re.M) for part in ("MAJOR", "MINOR", "PATCH")]
    same("the version in text and numbers", re.findall(r'^#define REMBURAI_VERSION "(.*)"$', header, re.M), [".".join(sum(numbers, []))])
    crate = re.findall(r'^version = "(.*)"$', stored("rust", "Cargo.toml").decode(), re.M)
    same("the version of the Rust crate", crate, [".".join(sum(numbers, []))])


def check_needs(programs):
    wanted = re.findall(r"^ +U (\S+)$", made(["nm", "-u", programs.library]).decode(), re.M)
    same("what the library asks for", wanted, ["memset"])


def check_list(programs):
    said = made([programs.example("list"), os.path.join(ROOT, "examples", "p.rule")])
    same("the line of list", said, b"entries 1, bytes 9, found within depth 4, 20 steps\n")


def check_answers(programs):
    page = stored("docs", "FORMAT.md").decode()
    shown = re.findall(r"(?:^    (?:check|search|entry|run|length|text|share|names)\b.*\n)+", page, re.M)
    same("the lines of answers", ["    " + line for line in made([programs.example("answers")]).decode().splitlines(True)],
         "".join(shown).splitlines(True))


def check_text_of_the_page(programs):
    page = stored("docs", "FORMAT.md").decode()
    said = made([programs.example("text")], input=stored("examples", "p.rule")).decode(errors="replace")
    same("the text on the page", re.findall(r"^The text of the list of P has (\d+) bytes:\n\n((?:    .*\n)+)", page, re.M),
         [(str(len(said)), "".join("    " + line for line in said.splitlines(True)))])


def check_print(programs):
    names = sorted(name[:-5] for name in os.listdir(STORED) if name.endswith(".rule"))
    same("whether there are stored rule files", names != [], True)
    lines = b"".join(stored(STORED, name + ".out") for name in names).splitlines()
    same("what the stored lines begin with", {line.split()[0] for line in lines}, {b"reach", b"unfinished", b"missing", b"total", b"refused"})
    for example in PRINTING:
        program = programs.example(example, AS_REACHLIST)
        for name in names:
            said, status, faults = call([program], input=stored(STORED, name + ".rule"))
            wanted = stored(STORED, name + ".out")
            same(f"what {example} says of {name}.rule", (said, faults), (wanted, ""))
            same(f"its exit status of {name}.rule", status, STATUSES.get(wanted.split()[-1].decode(), 3))


def check_whole_limits(programs):
    for example in PRINTING:
        check_whole_limits_of(programs.example(example))


def check_whole_limits_of(program):
    """S 241 and a list longer than 32,768 bytes are refused by reachlist alone."""
    same("the last line for s241.rule", call([program], input=stored(STORED, "s241.rule"))[0], stored(STORED, "p.out"))
    said, status, _ = call([program], input=stored(STORED, "list_lacks_entries.rule"))
    first = stored(STORED, "list_lacks_entries.out").rpartition(b"refused")[0]
    same("the list of list_lacks_entries.rule", (said[:len(first)], len(said) > len(first), status), (first, True, 0))
    check_full_disk(program, stored("examples", "p.rule"))


def check_full_disk(program, rule):
    with open("/dev/full", "wb") as full:
        done = subprocess.run([program], input=rule, stdout=full, stderr=subprocess.DEVNULL, timeout=SECONDS, check=False)
    same("the exit status on a full disk", done.returncode, 4)


def check_end(programs):
    same("the end of a list slice of 16,777,217 bytes", made([programs.written("end", END_OF_A_LONG_LIST)]), b"16777216 0\n")


def text_size(length, full):
    """How long the text of so many bytes of equal entries is, or none where they are no list."""
    count = length // len(ENTRY)
    last = "refused 12\n" if full else f"total {count} 0 0 0 {'found' if count else 'none'}\n"
    return None if length > LIST_LIMIT or length % len(ENTRY) else count * len("reach 6 1 0\n") + len(last)


def numbers(data):
    return ", ".join(map(str, data))


def text_line(length, full, room):
    """What the program of TEXTS has to print."""
    size = text_size(length, full)
    if size is None:
        return "14 0 14 0 kept\n"
    return f"0 {size} " + (f"0 {size} kept\n" if size <= room else "13 0 kept\n")


def check_texts(programs):
    lengths = [0, 1, 7, 8, 9, 15, 16, 8000, LIST_LIMIT - 8, LIST_LIMIT - 1, LIST_LIMIT, LIST_LIMIT + 1, LIST_LIMIT + 8]
    calls = []
    for length in lengths:
        for full in (0, 1):
            size = text_size(length, full) or 0
            calls += [(length, full, room) for room in sorted({0, max(size - 1, 0), size, size + 1, size + 100})]
    source = TEXTS.replace("FILE", numbers(stored("examples", "p.rule"))).replace("ENTRY", numbers(ENTRY))
    lines = "".join(f"{length} {full} {room}\n" for length, full, room in calls)
    said = made([programs.written("texts", source)], input=lines.encode()).decode().splitlines(True)
    same("how many calls were made", len(said), len(calls))
    for (length, full, room), line in zip(calls, said):
        same(f"the answers for {length} bytes, full {full}, a slice of {room}", line, text_line(length, full, room))


# How deep the numbers of an input are, one for each parameter, and D.
DEPTHS = [
    ([], 1), ([], 64), ([1], 1), ([2], 1), ([3], 4), ([4], 4), ([5], 4), ([63], 64), ([64], 64), ([65], 64), ([64], 63), ([1000000], 64), ([1000000], 1),
    ([2, 5, 3], 5), ([2, 5, 3], 4), ([5, 2, 3], 5), ([2, 3, 5], 5), ([1, 1, 1], 1), ([64] * 8, 64), ([1] * 7 + [64], 64), ([64] + [1] * 7, 64),
    ([64] * 7 + [65], 64), ([65] + [64] * 7, 64), ([1, 1000000], 64),
]


def descending(parameters, depth):
    """A rule file whose source function walks its last parameter, a number, down to zero, its target: 5 steps for each constructor. Without
    parameters it is at the target at once."""
    down = fn((0,), 0, case(0, var(0), target(7, con(0, 0)), calling(0, var(1))))
    source = calling(0, var(parameters - 1)) if parameters else target(7, con(0, 0))
    return ty((), (0,)) + down + fn((0,) * parameters, 0, source) + go(1, 7, depth, 4096)


def run_line(depths, most):
    """What the program of RUNS has to print for numbers of these depths."""
    return "10 0 0 0 kept\n" if max(depths, default=0) > most else f"0 1 {5 * depths[-1] if depths else 0} {max(depths, default=0)} kept\n"


def check_runs(programs):
    """Each run, and the same with a byte more."""
    calls = []
    for depths, most in DEPTHS:
        rule, closed = descending(len(depths), most), b"".join(b"\1" * (depth - 1) + b"\0" for depth in depths)
        calls += [(rule, closed, run_line(depths, most)), (rule, closed + b"\0", "10 0 0 0 kept\n")]
    data = b"".join(len(part).to_bytes(4, "little") + part for rule, closed, _ in calls for part in (rule, closed))
    said = made([programs.written("runs", RUNS)], input=data).decode().splitlines(True)
    same("how many runs were made", len(said), len(calls))
    for number, ((rule, closed, wanted), line) in enumerate(zip(calls, said)):
        same(f"the answer to run {number}, {len(closed)} bytes of input with D {rule[-3]}", line, wanted)


# Names.

def check_names(programs):
    program, whole = programs.example("names", AS_REACHLIST), programs.example("names")
    for what, rule, text in NAMED:
        status = 3 if "refused" in text else 0
        same(f"the names with {what}", call([program], input=rule), (text.encode(), status, ""))
        if what != "S 241":
            same(f"the same with the whole limits, {what}", call([whole], input=rule), (text.encode(), status, ""))
    same("the names with S 241, with the whole limits", call([whole], input=NAMED[-1][1]), (b"\n", 0, ""))
    check_full_disk(program, NAMED[0][1])


def check_names_of_the_page(programs):
    text = section(stored("docs", "FORMAT.md").decode(), "Names")
    said = made([programs.example("names")], input=dump(text)).decode()
    same("the names on the page", re.findall(r"printed for it is filled:\n\n((?:    .*\n)+)", text), ["".join("    " + line for line in said.splitlines(True))])


def names_line(text, room):
    """What the program of NAMES has to print for a text slice of so many bytes."""
    refusal = re.findall(r"refused (\d+)\n", text) if len(text) <= room else []
    return f"{len(text)} {refusal[0] if refusal else 0} same kept {text.encode()[:room].hex()}\n"


def check_names_slices(programs):
    """Text slices from empty to longer than the text; and list slices that hold some of the entries, 10 bytes each."""
    lists = [(rule, 4000, text) for _, rule, text in NAMED]
    each, lines = next((rule, text.splitlines(True)) for what, rule, text in NAMED if what == "each first half")
    lists += [(each, room, "".join(lines[:room // 10]) + "refused 12\n" * (room < 160)) for room in (0, 9, 10, 11, 25, 159, 160, 161)]
    calls = []
    for rule, room, text in lists:
        calls += [(rule, room, text, space) for space in sorted({0, 1, max(len(text) - 1, 0), len(text), len(text) + 1, 4 * room + 64})]
    data = b"".join(len(rule).to_bytes(4, "little") + rule + room.to_bytes(4, "little") + space.to_bytes(4, "little") for rule, room, _, space in calls)
    said = made([programs.written("names_slices", NAMES)], input=data).decode().splitlines(True)
    same("how many names calls were made", len(said), len(calls))
    for (_, room, text, space), line in zip(calls, said):
        same(f"the answer for the text {text!r}, in slices of {room} and {space} bytes", line, names_line(text, space))


CHECKS = (check_header, check_version, check_needs, check_list, check_answers, check_text_of_the_page, check_print, check_whole_limits, check_end,
          check_texts, check_runs, check_names, check_names_of_the_page, check_names_slices)


def main():
    if len(sys.argv) != 2 or not os.path.isfile(sys.argv[1]):
        sys.exit("usage: check_c.py LIBRARY, the file libremburai.a that 'tools/prove remburai' proves and writes")
    wrong = 0
    with TemporaryDirectory() as folder:
        programs = Programs(folder, os.path.abspath(sys.argv[1]))
        for check in CHECKS:
            try:
                check(programs)
            except (Different, subprocess.TimeoutExpired) as fault:
                wrong += 1
                print(f"{check.__name__}: {fault}", file=sys.stderr)
    print(f"the calls from C: {len(CHECKS)} checks, {wrong} wrong")
    return 1 if wrong else 0


if __name__ == "__main__":
    sys.exit(main())
