"""fail2ban filters: the lines of `prefregex`, `failregex` and `ignoreregex`, with includes, values and tags put in.

The values are those of the filter itself, without the options of a jail: another `mode` has other lines.
"""
import configparser
import os
import re

from ..found import Entry, LeftOut, numbered_lines

OPTIONS = ("prefregex", "failregex", "ignoreregex")
MOST_ROUNDS = 50
ADDRESS_4 = r"(?:::f{4,6}:)?(?:\d{1,3}\.){3}\d{1,3}"
# Behind a group that ends with a colon one more colon is what the filter's own look behind asks.
ADDRESS_6 = r"(?:[0-9a-fA-F]{1,4}::?|::){1,7}(?:[0-9a-fA-F]{1,4}|:)"
NAME = r"[\w\-.^_]*\w"
ADDRESS = r"\[?(?:%s|%s)\]?" % (ADDRESS_4, ADDRESS_6)
TAGS = {
    "HOST": "(?:%s|%s)" % (ADDRESS, NAME), "ADDR": ADDRESS, "IP4": ADDRESS_4, "IP6": ADDRESS_6, "DNS": NAME,
    "CIDR": r"\d+",
    "SUBNET": r"\[?(?:%s|%s)(?:/\d+)?\]?" % (ADDRESS_4, ADDRESS_6), "F-ID/": r"\S+", "F-PORT/": r"\w+",
    "SKIPLINES": r"\n(?:.*\n)*?",
}
TAGS.update({"F-%s/" % name: TAGS[name] for name in ("IP4", "IP6", "ADDR", "CIDR", "SUBNET", "DNS")})


class Values:
    """The sections of a filter and of the files that it includes, those read later over those read before."""

    def __init__(self):
        self.sections = {}

    def read(self, path, seen=()):
        if path in seen or not os.path.exists(path):
            return
        parser = configparser.RawConfigParser(strict=False, inline_comment_prefixes=";", default_section="\0",
                                              allow_no_value=True)
        parser.read(path, encoding="latin-1")
        includes = dict(parser["INCLUDES"]) if parser.has_section("INCLUDES") else {}
        self.include(path, includes.get("before"), seen)
        for section in parser.sections():
            for key, value in parser[section].items():
                self.put(section, key, value or "")
        self.include(path, includes.get("after"), seen)

    def include(self, path, names, seen):
        for name in (names or "").split():
            self.read(os.path.join(os.path.dirname(path), name), seen + (path,))

    def put(self, section, key, value):
        known = self.sections.setdefault(section, {})
        if key in known:
            self.sections.setdefault("known", {})[key] = known[key]
        known[key] = value

    def get(self, name):
        section, slash, key = name.partition("/")
        if slash and key.lower() in self.sections.get(section, {}):
            return self.sections[section][key.lower()]
        if slash and section == "known":
            return self.sections.get("DEFAULT", {}).get(key.lower())
        for section in ("Init", "Definition", "DEFAULT"):
            if name.lower() in self.sections.get(section, {}):
                return self.sections[section][name.lower()]
        return None

    def put_in(self, text):
        """Each %(name)s and each <name> of a value, the inner ones first."""
        for _ in range(MOST_ROUNDS):
            before = text
            text = re.sub(r"%\(([^)]+)\)s", lambda found: self.of(found, 1), text)
            text = re.sub(r"<([\w\-.]+(?:/[\w\-.]+)?)>", lambda found: self.of(found, 1), text)
            if text == before:
                break
        return text.replace("%%", "%")

    def of(self, found, at):
        value = self.get(found.group(at))
        return found.group(0) if value is None else value


def tags_written_out(text):
    """The tags of addresses, and a group for each part that has a name."""
    text = re.sub(r"<([A-Z0-9\-]+/?)>", lambda found: TAGS.get(found.group(1), found.group(0)), text)
    text = re.sub(r"<F-[A-Z0-9_\-]+>", "(?:", text)
    text = re.sub(r"</F-[A-Z0-9_\-]+>", ")", text)
    # Options that stand in a group of their own hold for what follows.
    return re.sub(r"(?<!\\)\((?:\?:)?(\(\?[a-z]+)\)", r"\1:", text)


def line_of(path, option):
    return next((number for number, line in numbered_lines(path) if re.match(option + r"\s*[=:]", line)), 0)


def entries_of_option(path, rule, option, values):
    where, count = "%s:%d" % (path, line_of(path, option)), 0
    several_lines = values.put_in(values.get("maxlines") or "1").strip() != "1"
    for line in values.put_in(values.sections.get("Definition", {}).get(option, "")).split("\n"):
        text = tags_written_out(line.strip())
        if not text or text.startswith("#"):
            continue
        count += 1
        left = re.search(r"%\([^)]*\)s", text)
        if left:
            yield LeftOut(where, rule, "a value that the filter doesn't give (%s)" % left.group(0), True)
        else:
            of_lines = not several_lines and "\\n" not in text
            yield Entry(where, rule, "%s %d" % (option, count), text, "m", of_lines=of_lines)


def entries(paths):
    for path in paths:
        values, rule = Values(), os.path.basename(path)
        values.read(path)
        found = [one for option in OPTIONS for one in entries_of_option(path, rule, option, values)]
        yield from found or [LeftOut(path, rule, "a file without prefregex, failregex and ignoreregex")]
