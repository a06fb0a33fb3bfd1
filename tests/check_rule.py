"""Tests tools/rule. Here: every text in examples builds to the rule file beside it without a warning, and its comment has the lines
that the blind search gives with the text's names, and those of namelist where it declares names; `show` and `build` give back the
bytes of the examples and of the stored rule files that are accepted, and of no others. Then what the other files check_rule_*.py
test. The exit status is 1 where anything differs, and where there is nothing to compare."""

import os
import sys

from rule_tool import EXAMPLES, ROOT, agree, build, checked, compare, count, counts, stored, warnings_of, wrong

import check_rule_commands
import check_rule_damaged
import check_rule_equal
import check_rule_faults
import check_rule_names
import check_rule_warnings
from blind.enumerate import fill, printed
from blind.narrow import Narrowing
from blind.rulefile import Program, check, read
from name_lines import name_lines
from rulelib.faults import Fault, Faults
from rulelib.reader import show
from rulelib.values import named_line

LIST_BYTES = 32768  # the list buffer of reachlist


def commented(text, program):
    """The lines that the first comment of a text shows for a program."""
    shown = text.split("\n\n")[0].partition(f"\n-- ./{program} ")[2].split("\n--\n")[0]
    return [line[5:] for line in shown.split("\n") if line.startswith("--   ")]


def check_example(name):
    text, data = stored("examples", name + ".txt").decode(), stored("examples", name + ".rule")
    rule = checked(text)
    compare(f"{name}.txt builds", rule.data(), data)
    compare(f"warnings of {name}.txt", warnings_of(text), [])
    compare(f"{name}.rule with the names of its text", build(show(data, rule)), data)
    output = printed(fill(list(Narrowing(read(data)).entries({})), LIST_BYTES))
    lines = {"reachlist": [named_line(rule, line) for line in output.splitlines()], "namelist": name_lines(data, output).splitlines()}
    for program, printed_ in lines.items():
        if not agree(commented(text, program), printed_):
            wrong.append(f"the comment of {name}.txt shows other lines for {program} than {printed_}")
    count("examples")


def check_round_trip(name, data, accepted):
    """A rule file that is accepted comes back from its text; of another there is no text to build."""
    count("rule files there and back")
    try:
        again = build(show(data))
    except (Fault, Faults) as fault:
        if accepted:
            wrong.append(f"{name}: {fault}")
        return
    compare(f"{name} and back", again, data)
    if not accepted:
        wrong.append(f"{name} is built, and it is refused")


def check_vectors():
    """The stored cases of the program check_vectors: each file behind its two-byte length, and a line with its answer."""
    data, place = stored("crates", "check_vectors", "stdin"), 0
    answers = stored("crates", "check_vectors", "stdout").split(b"\n")[:-1]
    for number, answer in enumerate(answers):
        length = int.from_bytes(data[place:place + 2], "little")
        check_round_trip(f"case {number} of check_vectors", data[place + 2:place + 2 + length], answer == b"accepted")
        place += 2 + length
    compare("bytes of check_vectors", place, len(data))
    count("cases of check_vectors", len(answers))


def check_files():
    for name in sorted(os.listdir(os.path.join(ROOT, "tests", "reachlist"))):
        if name.endswith(".rule"):
            data = stored("tests", "reachlist", name)
            check_round_trip(name, data, isinstance(check(data), Program))


def main():
    for name in sorted(name[:-4] for name in os.listdir(EXAMPLES) if name.endswith(".txt")):
        check_example(name)
        check_round_trip(name, stored("examples", name + ".rule"), True)
    compare("rule files with a text", {name[:-5] + ".txt" for name in os.listdir(EXAMPLES) if name.endswith(".rule")},
            {name for name in os.listdir(EXAMPLES) if name.endswith(".txt")})
    check_files()
    check_vectors()
    for part in (check_rule_faults, check_rule_warnings, check_rule_equal, check_rule_names, check_rule_commands, check_rule_damaged):
        part.check_all()
    wanted = {"examples", "rule files there and back", "cases of check_vectors", "faults", "texts with several faults", "warnings",
              "pairs of values", "names", "damaged rule files", "commands", "processes", "damaged texts"}
    compare("what was tested", set(counts), wanted)
    for fault in wrong:
        print(f"rule: {fault}", file=sys.stderr)
    print(f"rule: {', '.join(f'{number} {what}' for what, number in counts.items())}; {len(wrong)} wrong")
    return 1 if wrong else 0


if __name__ == "__main__":
    sys.exit(main())
