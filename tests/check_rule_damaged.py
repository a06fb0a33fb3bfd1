"""Tests tools/rule on damaged texts: random edits of the examples and of some texts more. Each gives a rule file that the blind side
accepts, or messages that each name a line; never anything else."""

import os
import random
import re
from tempfile import TemporaryDirectory

from rule_tool import EXAMPLES, compare, count, run, start, stored, wrong
from check_rule_equal import CROWDED
from check_rule_faults import RIGHT, SEVERAL
from check_rule_names import TEXT as NAMES
from check_rule_warnings import CLEAN, LETTERS, SHORT
from blind.rulefile import Program, check

DAMAGED, PROCESSES = 600, 10  # of the texts so many are tried with a process of their own
WORDS = ["type", "fn", "go", "case", "of", "let", "in", "target", "equal", "as", "then", "else", "names", "_", "->", "(", ")", "=", "|", ":", "--",
         "\n", "\t", "  ", "\r", "7", "99999999999", "label", "depth", "steps", "É", "e\u0301", "\u200b", "'", "-", "?", "\x00", "²"]


def words_of(text):
    return re.findall(r"\s+|[\w']+|.", text)


def edit_words(rng, text):
    """Words left out, put in, doubled or exchanged."""
    words = words_of(text)
    for _ in range(rng.choice((1, 1, 2, 5))):
        place, other = rng.randrange(len(words)), rng.randrange(len(words))
        words[place] = rng.choice(["", rng.choice(WORDS), words[other], words[place] + rng.choice(WORDS),
                                   words[place] + " " + words[other], f"({words[place]})"])
    return "".join(words)


def edit_lines(rng, text):
    """Lines left out, doubled, moved, indented otherwise or joined."""
    lines = text.split("\n")
    for _ in range(rng.choice((1, 1, 3))):
        place, other = rng.randrange(len(lines)), rng.randrange(len(lines))
        lines[place] = rng.choice([lines[other], lines[place] + "\n" + lines[other], " " + lines[place], lines[place][1:],
                                   lines[place].lstrip(), lines[place] + " " + lines[other]])
    return "\n".join(lines)


def edit_bytes(rng, text):
    """Bytes changed, left out or cut off."""
    data = bytearray(text.encode())
    place = rng.randrange(len(data))
    form = rng.randrange(4)
    if form == 0:
        data[place] = rng.randrange(256)
    elif form == 1:
        del data[place:place + rng.randrange(1, 40)]
    elif form == 2:
        del data[place:]
    else:
        data[place:place] = bytes(rng.randrange(256) for _ in range(rng.randrange(1, 4)))
    return bytes(data)


def damaged(rng, texts):
    text = rng.choice(texts)
    edit = rng.choice((edit_words, edit_words, edit_lines, edit_bytes))
    made = edit(rng, text)
    return made if isinstance(made, bytes) else made.encode()


def in_order(report):
    """The lines that the messages name, where each names one and they are in order."""
    found = [re.fullmatch(r"(?:standard input|damaged\.txt):([0-9]+): .+", line) for line in report.split("\n")[:-1]]
    numbers = [int(match[1]) for match in found if match]
    return report.endswith("\n") and len(numbers) == len(found) and numbers == sorted(numbers)


def judge(what, data, answer):
    """Whether the command's answer to a damaged text is one that it may give."""
    status, output, report = answer
    if status == 0:
        fine = isinstance(check(output), Program) and (report == "" or in_order(report))
    else:
        fine = status == 1 and output == b"" and in_order(report)
    if not fine:
        wrong.append(f"{what}: {status}, {output[:40]!r}, {report!r} for {data!r}")
    return status


def check_all():
    rng = random.Random(14)
    names = sorted(name for name in os.listdir(EXAMPLES) if name.endswith(".txt"))
    texts = [stored("examples", name).decode() for name in names] + [RIGHT, CLEAN, SHORT, LETTERS, CROWDED, NAMES] + \
        [text for text, _ in SEVERAL]
    statuses = []
    for number in range(DAMAGED):
        data = damaged(rng, texts)
        try:
            statuses.append(judge(f"damaged text {number}", data, run("build", "-", stdin=data)))
        except Exception as error:
            wrong.append(f"damaged text {number}: {type(error).__name__} {error} for {data!r}")
    compare("damaged texts of each status", [min(statuses.count(status), 60) for status in (0, 1)], [60, 60])
    with TemporaryDirectory() as folder:
        for number in range(PROCESSES):
            data = damaged(rng, texts)
            with open(os.path.join(folder, "damaged.txt"), "wb") as file:
                file.write(data)
            judge(f"process {number}", data, start("build", "damaged.txt", folder=folder))
    count("damaged texts", DAMAGED + PROCESSES)
