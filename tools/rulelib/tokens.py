"""The words of a text."""

import re
import unicodedata
from typing import NamedTuple

KEYWORDS = {"type", "fn", "go", "case", "of", "let", "in", "target"}
WORD = re.compile(r" +|--.*|[0-9]+|->|[_()=|:]")
DIGITS = "0123456789"


class Token(NamedTuple):
    kind: str  # name, keyword, number, sign, end, or bad for a character without a meaning
    text: str
    line: int
    column: int
    first: bool  # whether it is the first of its line

    def __str__(self):
        return "the end" if self.kind == "end" else f"'{self.text}'"


def one_form(text):
    """The text with every letter in one form, whether it was typed as one character or with its accent as a second one."""
    return unicodedata.normalize("NFC", text)


def kind_of(word):
    if word in KEYWORDS:
        return "keyword"
    if word[0].isalpha():
        return "name"
    if word[0] in DIGITS:
        return "number"
    return "sign" if WORD.fullmatch(word) else "bad"


def word_at(line, place):
    """The word that begins here: spaces, a comment, a number, a sign, a name, or else one character."""
    match = WORD.match(line, place)
    if match:
        return match.group()
    end = place + 1
    while line[place].isalpha() and end < len(line) and (line[end].isalpha() or line[end] in DIGITS + "_'"):
        end += 1
    return line[place:end]


def line_tokens(line, number):
    """The tokens of one line; a comment runs from '--' to the end of the line."""
    tokens, place = [], 0
    while place < len(line):
        word = word_at(line, place)
        if not word.startswith((" ", "--")):
            tokens.append(Token(kind_of(word), word, number, place + 1, not tokens))
        place += len(word)
    return tokens


def tokens_of(text):
    """The tokens of a text, and one for its end."""
    lines = one_form(text).split("\n")
    tokens = [token for number, line in enumerate(lines, 1) for token in line_tokens(line.rstrip("\r"), number)]
    last = tokens[-1].line if tokens else 1
    return tokens + [Token("end", "", last, 0, True)]


def meaningless(token):
    """What is wrong with a bad token."""
    return "a tab: indent with spaces, since columns count" if token.text == "\t" else \
        f"the character {token.text!r} has no meaning here"
