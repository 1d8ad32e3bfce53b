"""SpamAssassin: `body`, `rawbody`, `full`, `uri`, `header`, `mimeheader`; the tags of `replace_tag` are put in."""
import re

from ..found import Entry, LeftOut, numbered_lines

RULE = re.compile(r"\s*(?:lang\s+\S+\s+)?(body|rawbody|full|uri|header|mimeheader)\s+(\S+)\s+(.*)")
REPLACE = re.compile(r"\s*replace_(tag|pre|post|inter)\s+(\S+)\s+(.*)")
REPLACE_RULES = re.compile(r"\s*replace_rules\s+(.*)")
HEADER = re.compile(r"(\S+?)\s*(=~|!~)\s*(.*)")
UNSET = re.compile(r"\s*\[if-unset:[^\]]*\]\s*$")
CLOSING = {"{": "}", "(": ")", "<": ">", "[": "]"}
MOST_ROUNDS = 5


def without_comment(line):
    return re.sub(r"(?<!\\)#.*", "", line).replace("\\#", "#").rstrip()


def delimited(text):
    """(expression, flags) of /../flags or m,..,flags; None where it is neither."""
    start = re.match(r"(?:m|qr)?(\W)", text)
    if not start or start.group(1).isspace() or (start.group(0) == start.group(1) and start.group(1) != "/"):
        return None
    close = CLOSING.get(start.group(1), start.group(1))
    end = text.rfind(close)
    flags = text[end + 1:].strip()
    if end < start.end() or not re.fullmatch(r"[a-z]*", flags):
        return None
    return text[start.end():end], flags


class Tags:
    """The texts that stand for tags in the rules that ask for it."""

    def __init__(self):
        self.texts = {"tag": {}, "pre": {}, "post": {}, "inter": {}}
        self.rules = set()

    def learn(self, line):
        found = REPLACE.match(line)
        if found:
            self.texts[found.group(1)][found.group(2)] = found.group(3)
        found = REPLACE_RULES.match(line)
        if found:
            self.rules.update(found.group(1).split())

    def write_out(self, text, flags):
        for _ in range(MOST_ROUNDS + 1):
            text, again = self.one_round(text, flags)
            if not again:
                break
        return text

    def one_round(self, text, flags):
        """What stands before, behind and between tags is put there first; then each tag is its text."""
        around = {}
        for kind in ("pre", "post", "inter"):
            found = re.search("<%s (.+?)>" % kind, text)
            if found:
                text = text[:found.start()] + text[found.end():]
                around[kind] = self.texts[kind].get(found.group(1), "")
        pieces, again = re.split(r"(<[^<>]+>)", text), False
        for at, piece in enumerate(pieces):
            if at % 2 == 0:
                # Between two tags; also before the first one, where no flags stand in front of the expression.
                between = at < len(pieces) - 1 and (at > 0 or not flags)
                pieces[at] = piece or (around.get("inter", "") if between else "")
                continue
            known = self.texts["tag"].get(piece[1:-1])
            again = again or bool(known and re.search("<[^>]+>", known))
            pieces[at] = around.get("pre", "") + (known if known else piece) + around.get("post", "")
        return "".join(pieces), again


def entry_of(where, kind, name, value, tags):
    """What a rule's line tells."""
    notes = (kind,)
    if re.match(r"eval:", value) or re.search(r"^\S+\s+eval:", value):
        return LeftOut(where, name, "a test by a function (eval:), no expression")
    if value.startswith("exists:"):
        return LeftOut(where, name, "a test that a header exists (exists:), no expression")
    if kind in ("header", "mimeheader"):
        found = HEADER.match(value)
        if not found:
            return LeftOut(where, name, "a header rule of another form")
        notes = ("%s %s" % (kind, found.group(1)),) + (("negated",) if found.group(2) == "!~" else ())
        value = found.group(3)
        if UNSET.search(value):
            notes += ("with a value where the header is missing",)
            value = UNSET.sub("", value)
    parts = delimited(value.strip())
    if parts is None:
        return LeftOut(where, name, "an expression without delimiters", True)
    text, flags = parts
    if "%{" in text:
        return LeftOut(where, name, "it needs what another rule has captured (%{..})", True)
    if name in tags.rules:
        text = tags.write_out(text, flags)
        notes += ("tags written out",)
    if value.startswith("/"):
        text = text.replace("\\/", "/")
    return Entry(where, name, kind, text, flags, notes)


def entries(paths):
    tags, lines = Tags(), []
    for path in paths:
        for number, line in numbered_lines(path):
            line = without_comment(line)
            tags.learn(line)
            found = RULE.match(line)
            if found:
                lines.append(("%s:%d" % (path, number), *found.groups()))
    for where, kind, name, value in lines:
        yield entry_of(where, kind, name, value, tags)
