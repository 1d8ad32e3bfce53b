"""ModSecurity: `SecRule` with `@rx`, `@pm` and `@pmFromFile`; a rule without an operator has `@rx`."""
import os
import re

from ..found import Entry, LeftOut, joined_lines, literal, numbered_lines

DIRECTIVE = re.compile(r"\s*(SecRule|SecAction|SecRuleScript)\s+(.*)", re.I)
WORD = re.compile(r'\s*(?:"((?:\\.|[^"\\])*)"|\'((?:\\.|[^\'\\])*)\'|(\S+))')
OPERATOR = re.compile(r"(!?)\s*@(\w+)\s*(.*)", re.S)


def words_of(text):
    """The words of a directive: quoted, or up to a blank."""
    words, at = [], 0
    while True:
        found = WORD.match(text, at)
        if not found:
            return words
        double, single, bare = found.groups()
        words.append(double.replace('\\"', '"') if double is not None else bare if single is None else single)
        at = found.end()


def name_of(words, head):
    """`id N`, or the rule that the chain began with."""
    found = re.search(r"\bid:'?(\d+)", words[2]) if len(words) > 2 else None
    return "id " + found.group(1) if found else head + " (chained)" if head else "without id"


def phrases_text(text):
    """The phrases of @pm: bytes in hexadecimal may stand between bars."""
    pieces = re.split(r"\|((?:[0-9A-Fa-f]{2}\s*)+)\|", text)
    return "".join(bytes.fromhex(x).decode("latin-1") if at % 2 else x for at, x in enumerate(pieces))


def phrases_of_files(path, names, rule, where):
    for name in names.split():
        file = os.path.join(os.path.dirname(path), name)
        if not os.path.exists(file):
            yield LeftOut(where, rule, "a file of phrases that isn't there", True)
            continue
        for number, line in numbered_lines(file):
            phrase = line.strip()
            if phrase and not phrase.startswith("#"):
                yield Entry("%s:%d" % (file, number), rule, "@pmFromFile", literal(phrase), "i")


def rule_entries(path, where, words, rule):
    if len(words) < 2:
        yield LeftOut(where, rule, "a rule of another form")
        return
    found = OPERATOR.match(words[1])
    negated, operator, value = found.groups() if found else ("", "rx", words[1])
    notes = (words[0],) + (("negated",) if negated else ())
    if operator == "rx" and "%{" in value:
        yield LeftOut(where, rule, "an expression with a macro (%{..})", True)
    elif operator == "rx":
        yield Entry(where, rule, "@rx", value, "s", notes)
    elif operator == "pm":
        for phrase in phrases_text(value).split():
            yield Entry(where, rule, "@pm", literal(phrase), "i", notes)
    elif operator in ("pmf", "pmFromFile"):
        yield from phrases_of_files(path, value, rule, where)
    else:
        yield LeftOut(where, rule, "another operator (@%s), no expression" % operator)


def entries(paths):
    for path in paths:
        head = ""
        for number, line in joined_lines(path):
            found = DIRECTIVE.match(line)
            if not found:
                continue
            where, words = "%s:%d" % (path, number), words_of(found.group(2))
            if found.group(1).lower() != "secrule":
                yield LeftOut(where, name_of(["", ""] + words, ""), "no rule with an operator (%s)" % found.group(1))
                continue
            rule = name_of(words, head)
            head = rule.replace(" (chained)", "")
            yield from rule_entries(path, where, words, rule)
