"""Snort and Suricata: each `content` and each `pcre` of a rule is an entry; what else it asks stands in the map."""
import re

from ..found import Entry, LeftOut, joined_lines, literal

ACTIONS = "alert|block|drop|log|pass|react|reject|rejectsrc|rejectdst|rejectboth|rewrite|sdrop|activate|dynamic"
RULE = re.compile(r"\s*(#*)\s*(?:%s)\b[^(]*\((.*)\)\s*$" % ACTIONS)
OPTION = re.compile(r'\s*([\w.]+)\s*(?::((?:"(?:\\.|[^"\\])*"|\\.|[^;"\\])*))?;')
CONTENT = re.compile(r'\s*(!?)\s*"((?:\\.|[^"\\])*)"\s*(?:,(.*))?$', re.S)
PCRE = re.compile(r'\s*(!?)\s*"\s*(?:/|m(.))(.*)"\s*(?:,.*)?$', re.S)
PLACES = ("offset", "depth", "distance", "within", "startswith", "endswith", "bsize", "rawbytes", "isdataat")
KEYS_OF_TEXT = ("content", "uricontent")
STANDARD_FLAGS = "imsx"
BUFFER = re.compile(r"(?:http|file|dns|tls|ssh|smb|pkt|raw|ja3|sip|krb5|mqtt|snmp|rfb|ftp|smtp|base64)[._]")
DOLLAR = re.compile(r"\\.|\[\^?\]?(?:\\.|[^\]\\])*\]|\$", re.S)


def options_of(text):
    """The options of a rule as (key, value) in order; None where the text has another form."""
    found, at = [], 0
    while text[at:].strip():
        option = OPTION.match(text, at)
        if not option:
            return None
        found.append((option.group(1), (option.group(2) or "").strip()))
        at = option.end()
    return found


def content_bytes(text):
    """The bytes of a content: hexadecimal between bars, a backslash before a byte that is itself."""
    written, at = "", 0
    while at < len(text):
        if text[at] == "|":
            end = text.index("|", at + 1)
            written += bytes.fromhex(text[at + 1:end]).decode("latin-1")
            at = end + 1
        else:
            at += text[at] == "\\"
            written += text[at]
            at += 1
    return written


def content_entry(where, rule, part, value, behind):
    """`behind` are the options up to the next content or pcre."""
    found = CONTENT.match(value)
    if not found:
        return LeftOut(where, rule, "a content of another form", True)
    negated, text, within = found.groups()
    words = [word.split()[0] for word in (within or "").split(",") if word.strip()] + [key for key, _ in behind]
    try:
        expression = literal(content_bytes(text))
    except (ValueError, IndexError):
        return LeftOut(where, rule, "a content with bad hexadecimal bytes", True)
    notes = tuple(["negated"] if negated else []) + tuple(sorted({word for word in words if word in PLACES}))
    return Entry(where, rule, part, expression, "i" if "nocase" in words else "", notes)


def pcre_entry(where, rule, part, value):
    found = PCRE.match(value)
    if not found:
        return LeftOut(where, rule, "a pcre of another form", True)
    negated, delimiter, rest = found.groups()
    end = rest.rfind(delimiter or "/")
    text, flags = rest[:end], rest[end + 1:]
    if end < 0 or not re.fullmatch(r"\w*", flags):
        return LeftOut(where, rule, "a pcre of another form", True)
    text = text.replace("\\" + (delimiter or "/"), delimiter or "/").replace('\\"', '"')
    others = "".join(flag for flag in flags if flag not in STANDARD_FLAGS + "AEG")
    if "E" in flags and "m" not in flags:
        text = DOLLAR.sub(lambda found: "\\z" if found.group(0) == "$" else found.group(0), text)
    notes = (["negated"] if negated else []) + (["flags " + others] if others else [])
    if "A" in flags and "R" in flags:
        notes.append("begins where the one before ended")
    elif "A" in flags:
        text = "\\A(?:%s)" % text
    return Entry(where, rule, part, text, flags, tuple(notes))


def name_of(options):
    values = dict(options)
    return "sid %s" % values["sid"] if "sid" in values else "without sid"


def rule_entries(where, text):
    options = options_of(text)
    if options is None:
        yield LeftOut(where, "", "options of another form")
        return
    rule, count, buffer = name_of(options), 0, ""
    for at, (key, value) in enumerate(options):
        if not value and BUFFER.match(key):
            buffer = key
        if key not in KEYS_OF_TEXT + ("pcre",):
            continue
        count += 1
        part = "%s %d" % (key, count)
        behind = []
        for option in options[at + 1:]:
            if option[0] in KEYS_OF_TEXT + ("pcre",):
                break
            behind.append(option)
        one = pcre_entry(where, rule, part, value) if key == "pcre" else content_entry(where, rule, part, value, behind)
        if isinstance(one, Entry):
            one.notes += (buffer,) if buffer else ()
        yield one
    if not count:
        yield LeftOut(where, rule, "neither content nor pcre, no expression")


def entries(paths):
    for path in paths:
        for number, line in joined_lines(path):
            found = RULE.match(line)
            where = "%s:%d" % (path, number)
            if not found:
                if line.strip() and not line.lstrip().startswith("#"):
                    yield LeftOut(where, "", "no rule, a line of another form")
            elif found.group(1):
                options = options_of(found.group(2)) or []
                yield LeftOut(where, name_of(options), "a rule that is switched off by a #")
            else:
                yield from rule_entries(where, found.group(2))
