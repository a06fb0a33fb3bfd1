"""Makes the lists that the program printing_vectors prints, with the texts of the blind side.

Its stdin has two kinds of cases; numbers of more than one byte have the low byte first. A list alone is a byte, 1 where refusal
12 cut the list short and else 0, and the list behind its two-byte length. A list handed in with its rule file is a byte, 3 where the
search ended in 12 and else 2, the rule file and the list, each behind its two-byte length, and the length of the text slice in three
bytes. Before the calls every byte of that slice is `.`.

Its stdout has for a list alone its text. For a list handed in it has two lines, `length` with the answer of the call that gives the
text's length and `text` with that of the writer, each the length or `refused` and the number; then all bytes of the text slice and a
line feed.

With --check nothing is written, and the exit status is 1 where the stored files differ. Either way it is 1 where a wrong total line
of `blind.wrong` would show in too few texts, a misreading of `blind.misread` in too few of the lists handed in, or one of
`blind.misfile` in too few of those handed in with a rule file that has NA.
"""

import random
import sys
from collections import Counter
from functools import partial
from itertools import permutations, zip_longest

import handed_lists
import named_lists
from blind.build import random_program, two
from blind.compare import same
from blind.enumerate import MARKS, Entry, Listing, TooMany, printed, search, tally, verdict
from blind.evaluate import MISSING, REACHED, UNFINISHED
from blind.handed import Handed
from blind.misfile import TEXTS
from blind.misread import MISREADINGS
from blind.rulefile import PAGE, Refused
from blind.wrong import TOTALS, changes, too_few
from vectors import store

P = bytes.fromhex("545902000100464E01000017000300000001020000010300000101020000010507020000474F0007041400")

ENOUGH = 10  # texts that a wrong total line changes, and lists handed in whose output a misreading changes

CASES = []  # list, cut short, text
TOTAL_LINES = []  # of each complete list of whole entries their numbers by kind, and the line


def add(listing, rest=b""):
    """The rest stands behind the last entry."""
    text = printed(listing)
    CASES.append((listing.record() + rest, listing.refusal is not None, text))
    if not listing.refusal and not rest:
        TOTAL_LINES.append((tally(listing.entries), text.splitlines(True)[-1]))


def entries(*rows):
    return tuple(Entry(end, steps, bytes(parameters)) for end, steps, parameters in rows)


def whole(*rows):
    """A list, complete and cut short."""
    listed = entries(*rows)
    add(Listing(listed, verdict(listed)))
    add(Listing(listed, None))


def examples():
    for label, depth, steps in ((7, 4, 20), (7, 2, 20), (7, 4, 5), (7, 4, 2), (7, 4, 0), (8, 4, 6), (8, 4, 7)):
        add(search(P[:-4] + bytes([label, depth]) + two(steps), 16384, 32768))
    add(search(P, 16384, 8))


def shapes():
    """No parameters, every byte, the ends of the digits, every share of up to eight entries, also with missing ones beside them; the
    exact halves of forty entries and what is next to a half, beside missing ones."""
    whole()
    for end in MARKS:
        whole((end, 0, []))
    whole((REACHED, 6, range(256)), (UNFINISHED, 7, reversed(range(256))))
    whole((MISSING, 8, range(256)))
    whole(*((REACHED, steps, [steps % 256]) for steps in (0, 1, 9, 10, 11, 99, 100, 101, 999, 1000, 4096, 9999, 10000, 65535)))
    whole((REACHED, 1, [255] * 9000))
    for both in range(1, 9):
        for unfinished in range(both + 1):
            whole(*[(UNFINISHED, 3, [1, 255])] * unfinished + [(REACHED, 12, [0])] * (both - unfinished))
            mixed([(MISSING, 5, [2])] * (1 + both % 3), [(UNFINISHED, 3, [255])] * unfinished, [(REACHED, 4, [])] * (both - unfinished))
    for unfinished, both in (*((unfinished, 40) for unfinished in range(1, 40, 2)), *handed_lists.NEXT_TO_HALVES):
        mixed([(MISSING, 9, [])] * (1 + unfinished % 3), [(UNFINISHED, 9, [])] * unfinished, [(REACHED, 9, [])] * (both - unfinished))
    whole(*[(REACHED, 2, [])] * 1000)
    whole(*[(UNFINISHED, 2, [16])] * 99)
    whole(*[(MISSING, 2, [16])] * 101)
    for order in permutations([(REACHED, 256, [0, 255]), (UNFINISHED, 300, [1]), (MISSING, 257, [2, 3])]):
        whole(*order)


def mixed(*groups):
    """A complete list of the entries of these groups, taken in turn."""
    listed = entries(*(entry for row in zip_longest(*groups) for entry in row if entry))
    add(Listing(listed, verdict(listed)))


def broken():
    """What stands behind the last whole entry of a known kind is not printed."""
    listed = entries((REACHED, 6, [1, 1, 255]), (UNFINISHED, 4, []), (MISSING, 3, [0, 255]))
    good, found = Listing(listed, verdict(listed)), listed[2].record()
    for mark in (b"ER", b"RN", b"UE", b"Mi", b"mI", b"mi", b"IM", b"MU", b"MN", b"MM", b"II", b"RI", b"UI", b"ME", b"NI", b"M\0", b"\0I"):
        add(good, mark + b"\x01\x00\x00\x00" + listed[0].record())
    for rest in (b"R", b"M", b"RE\x01\x00\x00", b"RE\x01\x00\x01\x00", b"MI\x01\x00\x01\x00", b"MI\xff\xff\xff\xff\0", b"\x00" * 9):
        add(good, rest)
    for length in range(1, len(found)):
        add(good, found[:length])
    last = entries((MISSING, 3, [0, 255]))
    for length in range(len(found)):
        add(Listing((), "none"), found[:length])
        add(Listing(last, "none"), found[:length])


def random_lists(rng, count):
    while count:
        try:
            answer = search(random_program(rng, kept=rng.choice((0.9, 0.6))), 1 << 20, rng.choice((40, 400, 32768)), 500)
        except TooMany:
            continue
        if isinstance(answer, Listing) and answer.entries:
            add(answer)
            count -= 1


# Lists handed in with their rule files.

def answered(call, *lent):
    """The answer of a text call: a length, or a refusal."""
    try:
        return str(call(*lent))
    except Refused as refused:
        return f"refused {refused.number}"


def output(handed, rule_file, data, full, room):
    """What the program prints for a list handed in; `handed` is `Handed` or a misreading of it."""
    given, lent = handed(rule_file, data, full), bytearray(b"." * room)
    lines = f"length {answered(given.length)}\ntext {answered(given.write, lent)}\n"
    return lines.encode() + lent + b"\n"


def agreeing(case, made):
    """Fails where the output is not the one stated with the case."""
    if case.answer is None:
        return
    length, text = (line.decode().split(" ", 1)[1] for line in made.split(b"\n", 2)[:2])
    number = int(text.split()[1]) if text.startswith("refused") else 0
    same(f"what the writer answers for {case}", number, case.answer)
    same(f"whether both calls answer alike for {case}", length == text, number != PAGE)
    if number:
        same(f"what a refused call leaves for {case}", made.split(b"\n", 2)[2], b"." * case.room + b"\n")


def record(case):
    """The case in the program's stdin."""
    return (bytes([2 + case.full]) + two(len(case.rule_file)) + case.rule_file + two(len(case.data)) + case.data
            + case.room.to_bytes(3, "little"))


def handed_in(cases):
    """The output of each of these cases."""
    outputs = [output(Handed, *case.asked()) for case in cases]
    for case, made in zip(cases, outputs):
        agreeing(case, made)
    same("text slices longer than the program's", [case.room for case in cases if case.room > handed_lists.MOST_ROOM], [])
    return outputs


def misreadings(wrong, cases, outputs):
    """Per misreading the number of outputs that it changes."""
    asked = [(case.asked(), made) for case, made in zip(cases, outputs)]
    return changes({error: partial(output, handed) for error, handed in wrong.items()}, asked)


def report(cases, misread):
    print(len(CASES), "lists,", ", ".join(f"{sum(counts[number] > 0 for counts, _ in TOTAL_LINES)} with {end} ones"
                                          for number, end in enumerate(MARKS)))
    print(len(cases), "lists handed in with their rule files")
    for group, number in Counter(case.group for case in cases).items():
        print(f"{number:6}  {group}")
    print("outputs that a misreading changes")
    for error, number in misread.items():
        print(f"{number:6}  {error}")


def main():
    same("the marks of entries", set(MARKS.values()), {b"RE", b"UN", b"MI"})
    examples()
    shapes()
    broken()
    random_lists(random.Random(3), 200)
    unnamed, named = handed_lists.make(), named_lists.make()
    first, second = handed_in(unnamed), handed_in(named)
    cases, outputs = unnamed + named, first + second
    misread = {**misreadings(MISREADINGS, unnamed, first), **misreadings(TEXTS, named, second)}
    if not sys.argv[1:]:
        report(cases, misread)
    wrong = too_few(TOTALS, TOTAL_LINES, ENOUGH) + [f"changes {number} outputs: {error}" for error, number in misread.items() if number < ENOUGH]
    for fault in wrong:
        print(f"printing_vectors: {fault}", file=sys.stderr)
    stdin = b"".join(bytes([cut_short]) + two(len(record_)) + record_ for record_, cut_short, _ in CASES) + b"".join(map(record, cases))
    stdout = "".join(text for _, _, text in CASES).encode() + b"".join(outputs)
    return 1 if wrong else store("printing_vectors", stdin, stdout, sys.argv[1:])


if __name__ == "__main__":
    sys.exit(main())
