"""What a format tells of a rule: an entry for each expression that it carries, or why there is none."""
from dataclasses import dataclass

from .writing import byte_text


@dataclass
class Entry:
    """An expression of a rule; `where` is FILE:LINE, `flags` are of `i m s x`, `notes` say what else the rule asks.

    `of_lines` says that it is applied to lines one by one, so that no match goes over a line's end."""
    where: str
    rule: str
    part: str
    text: str
    flags: str = ""
    notes: tuple = ()
    of_lines: bool = False


@dataclass
class LeftOut:
    """A rule, or a part of one, of which nothing is written; `carries` says whether it has an expression."""
    where: str
    rule: str
    reason: str
    carries: bool = False


def literal(text):
    """The expression of a text, a character a byte, that is itself."""
    return "".join(byte_text(ord(letter), False) for letter in text)


def numbered_lines(path):
    """The lines of a file with their numbers, one character a byte."""
    with open(path, encoding="latin-1", newline="\n") as file:
        for number, line in enumerate(file, 1):
            yield number, line.rstrip("\n").rstrip("\r")


def joined_lines(path):
    """As `numbered_lines`, where a backslash at the end of a line joins the next one to it."""
    text, start = "", None
    for number, line in numbered_lines(path):
        start = start or number
        if line.endswith("\\") and not line.lstrip().startswith("#"):
            text += line[:-1]
            continue
        yield start, text + line
        text, start = "", None
    if text:
        yield start, text
