"""Keeps an expression over single lines within a line, where the lines of a log are scanned as one stream."""
import re

from .reading import LINE_FEED, Reader
from .writing import set_text

ESCAPES = {"\\s": r"[^\S\n]", "\\W": r"[^\w\n]", "\\D": r"[^\d\n]", "\\H": r"[^\h\n]", "\\v": r"[\x0b-\r\x85]"}
TOKEN = re.compile(r"\\Q.*?(?:\\E|$)|\\x\{[^}]*\}|\\.|\[|[^\\\[]+", re.S)


def within_lines(text, flags):
    """The expression whose sets lack the line feed; a line feed that is written by itself stays."""
    written, at = "", 0
    while at < len(text):
        if text[at] == "[":
            reader = Reader(text, flags)
            reader.at = at
            mask = reader.bracket()
            written += class_within_lines(text[at:reader.at], mask)
            at = reader.at
            continue
        token = TOKEN.match(text, at).group(0)
        written += ESCAPES.get(token, token)
        at += len(token)
    return written


def class_within_lines(text, mask):
    if not mask & LINE_FEED or mask == LINE_FEED:
        return text
    if text.startswith("[^"):
        # A bracket that stands first is itself, and would end the class behind the line feed.
        return "[^\\n" + ("\\]" + text[3:] if text[2] == "]" else text[2:])
    return set_text(mask & ~LINE_FEED, False)
