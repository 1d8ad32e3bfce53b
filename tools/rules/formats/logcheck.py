"""logcheck: each line is an extended expression of POSIX, with the additions of GNU grep, over the lines of a log."""
import re

from ..found import Entry, numbered_lines

BRACKET = re.compile(r"\[\^?\]?(?:\[[:.=].*?[:.=]\]|[^]])*\]")
WORD_ENDS = {"<": "\\b(?=\\w)", ">": "\\b(?<=\\w)", "`": "\\A", "'": "\\z"}


def bracket_text(text):
    """In a bracket of POSIX a backslash is itself, and so is a bracket that opens no class."""
    kept = re.split(r"(\[:\w+:\])", text[1:-1])
    inner = "".join(part if at % 2 else part.replace("\\", "\\\\").replace("[", "\\[") for at, part in enumerate(kept))
    return "[" + inner + "]"


def as_pcre(text):
    """The same expression in the syntax of PCRE."""
    written, at = "", 0
    while at < len(text):
        found = BRACKET.match(text, at)
        if found:
            written += bracket_text(found.group(0))
            at = found.end()
        elif text[at] == "\\" and at + 1 < len(text):
            letter = text[at + 1]
            plain = letter.isalnum() and letter not in "wWsSbB123456789"
            written += WORD_ENDS.get(letter, letter if plain else "\\" + letter)
            at += 2
        elif re.match(r"\{,\d+\}", text[at:]):
            written += "{0"
            at += 1
        else:
            written += text[at]
            at += 1
    return written


def entries(paths):
    for path in paths:
        for number, line in numbered_lines(path):
            if line.strip() and not line.lstrip().startswith("#"):
                text = line.rstrip()
                yield Entry("%s:%d" % (path, number), "", "line", as_pcre(text), "m", of_lines=True)
