"""Reads an expression in the syntax of PCRE, over bytes, to a tree. Text is one character a byte."""
import re

from .tree import (ALL, DIGIT, EMPTY, SPACE, WORD, CannotRewrite, alt, byte_set, cat, either_case, rep)

LINE_FEED = 1 << 10
HORIZONTAL = byte_set((9, 9), (32, 32), (160, 160))
VERTICAL = byte_set((10, 13), (133, 133))
SETS = {"d": DIGIT, "w": WORD, "s": SPACE, "h": HORIZONTAL, "v": VERTICAL}
CONTROL = {"a": 7, "e": 27, "f": 12, "n": 10, "r": 13, "t": 9}
GRAPH = byte_set((33, 126))
NAMED = {
    "alpha": byte_set((65, 90), (97, 122)), "digit": DIGIT, "alnum": WORD & ~(1 << 95), "upper": byte_set((65, 90)),
    "lower": byte_set((97, 122)), "space": SPACE, "blank": byte_set((9, 9), (32, 32)), "word": WORD, "graph": GRAPH,
    "cntrl": byte_set((0, 31), (127, 127)), "print": GRAPH | 1 << 32, "punct": GRAPH & ~(WORD & ~(1 << 95)),
    "xdigit": DIGIT | byte_set((65, 70), (97, 102)), "ascii": byte_set((0, 127)),
}
QUANTIFIER = re.compile(r"([*+?]|\{\d+(?:,\d*)?\})([?+]?)")
OPTIONS = re.compile(r"\(\?([imsxU]*)(?:-([imsxU]*))?([:)])")
NAMED_GROUP = re.compile(r"\(\?(?:P?<|')([A-Za-z_]\w*)[>']")
CONDITION = re.compile(r"\(\?\((?:<(\w+)>|'(\w+)'|(\w+))\)")
REFERENCE = re.compile(r"\\(?:g(\d+)|g\{(\w+)\}|k[<{'](\w+)[>}'])|\(\?P=(\w+)\)")
LOOKS = {"(?=": (True, False), "(?!": (True, True), "(?<=": (False, False), "(?<!": (False, True)}


class Reader:
    """A place in the text, and the options that hold there."""

    def __init__(self, text, flags):
        self.text, self.at, self.flags = text, 0, set(flags)
        self.groups, self.names, self.used = 0, {}, set()

    def rest_begins(self, word):
        return self.text.startswith(word, self.at)

    def take(self, count=1):
        self.at += count
        return self.text[self.at - count:self.at]

    def alternatives(self):
        """Up to the end of the group that stands around it; its options end there."""
        kept = set(self.flags)
        branches = [self.branch()]
        while self.rest_begins("|"):
            self.take()
            branches.append(self.branch())
        self.flags = kept
        return alt(*branches) if len(branches) > 1 else branches[0]

    def branch(self):
        items = []
        while self.at < len(self.text) and self.text[self.at] not in "|)":
            if self.skips():
                continue
            items.append(self.quantified(self.atom()))
        return cat(*items)

    def skips(self):
        """Passes over a comment, a change of options, or blanks where they mean nothing."""
        if self.rest_begins("(?#"):
            self.at = self.text.index(")", self.at) + 1
            return True
        if "x" in self.flags and self.text[self.at] in " \t\n\r\f\v":
            self.take()
            return True
        if "x" in self.flags and self.text[self.at] == "#":
            end = self.text.find("\n", self.at)
            self.at = len(self.text) if end < 0 else end + 1
            return True
        found = OPTIONS.match(self.text, self.at)
        if found and found.group(3) == ")":
            self.change_options(found)
            return True
        return False

    def change_options(self, found):
        self.at = found.end()
        self.flags |= set(found.group(1))
        self.flags -= set(found.group(2) or "")

    def quantified(self, atom):
        while True:
            while "x" in self.flags and self.at < len(self.text) and self.text[self.at] in " \t":
                self.take()
            found = QUANTIFIER.match(self.text, self.at)
            if not found:
                return atom
            self.at = found.end()
            word = found.group(1)
            if word in "*+?":
                least, most = {"*": (0, None), "+": (1, None), "?": (0, 1)}[word]
            else:
                low, comma, high = word[1:-1].partition(",")
                least, most = int(low), int(high) if high else None if comma else int(low)
            atom = rep(atom, least, most)
            if found.group(2) == "+":
                atom = ("atom", atom)

    def atom(self):
        byte = self.text[self.at]
        if byte == "(":
            return self.group()
        if byte == "[":
            return ("set", self.bracket())
        if byte == "\\":
            return self.escape()
        self.take()
        if byte == ".":
            return ("set", ALL if "s" in self.flags else ALL & ~LINE_FEED)
        if byte in "^$":
            word = "(?m:%s)" % byte if "m" in self.flags else {"^": "\\A", "$": "\\Z"}[byte]
            return ("at", word)
        return self.one(ord(byte))

    def one(self, byte):
        if byte > 255:
            raise CannotRewrite("a code point above 255")
        return ("set", either_case(1 << byte) if "i" in self.flags else 1 << byte)

    def group(self):
        for word, (ahead, negative) in LOOKS.items():
            if self.rest_begins(word):
                self.take(len(word))
                return ("look", ahead, negative, self.closed())
        found = REFERENCE.match(self.text, self.at)
        if found:
            return self.reference(found)
        if self.rest_begins("(?>"):
            self.take(3)
            return ("atom", self.closed())
        if self.rest_begins("(?|"):
            raise CannotRewrite("a group with numbers anew for each alternative")
        found = OPTIONS.match(self.text, self.at)
        if found:
            kept = set(self.flags)
            self.change_options(found)
            tree = self.closed()
            self.flags = kept
            return tree
        return self.numbered_group()

    def numbered_group(self):
        if CONDITION.match(self.text, self.at):
            return self.conditional()
        found = NAMED_GROUP.match(self.text, self.at)
        if not found and re.match(r"\([?*]", self.text[self.at:self.at + 2]):
            raise CannotRewrite("a verb, a recursion or another form")
        self.groups += 1
        number = self.groups
        if found:
            self.names[found.group(1)] = number
        self.take(len(found.group(0)) if found else 1)
        return ("group", number, self.closed())

    def number_of(self, found):
        """The group of a name or a number."""
        name = next(word for word in found.groups() if word)
        number = int(name) if name.isdigit() else self.names.get(name)
        if number is None:
            raise CannotRewrite("a reference to a group behind it")
        return number

    def conditional(self):
        found = CONDITION.match(self.text, self.at)
        self.at = found.end()
        number, kept = self.number_of(found), set(self.flags)
        branches = [self.branch()]
        if self.rest_begins("|"):
            self.take()
            branches.append(self.branch())
        if not self.rest_begins(")"):
            raise CannotRewrite("a conditional of another form")
        self.take()
        self.flags = kept
        return ("if", number, *(branches + [EMPTY])[:2])

    def closed(self):
        tree = self.alternatives()
        if not self.rest_begins(")"):
            raise CannotRewrite("a group that isn't closed")
        self.take()
        return tree

    def reference(self, found):
        self.at = found.end()
        number = self.number_of(found)
        self.used.add(number)
        return ("same", number)

    def escape(self):
        found = REFERENCE.match(self.text, self.at)
        if found:
            return self.reference(found)
        if self.rest_begins("\\Q"):
            end = self.text.find("\\E", self.at)
            quoted = self.text[self.at + 2:end if end >= 0 else len(self.text)]
            self.at = end + 2 if end >= 0 else len(self.text)
            return cat(*[self.one(ord(byte)) for byte in quoted])
        letter = self.text[self.at + 1:self.at + 2]
        if letter and letter in "bBAzZ":
            self.take(2)
            return ("at", "\\" + letter)
        if letter == "G":
            raise CannotRewrite("the place at which the search began")
        if letter == "E":
            self.take(2)
            return EMPTY
        if letter == "R":
            self.take(2)
            return alt(cat(self.one(13), self.one(10)), ("set", VERTICAL))
        if letter and letter in "123456789":
            return self.number_or_octal()
        value = self.escaped(False)
        if isinstance(value, tuple):
            return ("set", value[0])
        return self.one(value)

    def number_or_octal(self):
        digits = re.match(r"\d+", self.text[self.at + 1:]).group(0)
        if int(digits) < 10 or int(digits) <= self.groups:
            self.take(1 + len(digits))
            self.used.add(int(digits))
            return ("same", int(digits))
        octal = re.match(r"[0-7]{0,3}", digits).group(0)
        if not octal:
            raise CannotRewrite("a reference to a group that isn't there")
        self.take(1 + len(octal))
        return self.one(int(octal, 8) & 255)

    def escaped(self, in_class):
        """A number of a byte, or a tuple of a set."""
        self.take()
        if self.at >= len(self.text):
            raise CannotRewrite("a backslash at the end")
        letter = self.take()
        if letter in SETS:
            return (SETS[letter],)
        if letter.lower() in SETS:
            return (ALL & ~SETS[letter.lower()],)
        if letter == "N":
            return (ALL & ~LINE_FEED,)
        if letter == "b" and in_class:
            return 8
        if letter in CONTROL:
            return CONTROL[letter]
        for pattern, base in ((r"x\{([0-9A-Fa-f]+)\}", 16), (r"x([0-9A-Fa-f]{0,2})", 16), (r"o\{([0-7]+)\}", 8),
                              (r"([0-7]{1,3})", 8)):
            found = re.compile(pattern).match(self.text, self.at - 1)
            if found:
                self.at = found.end()
                return int(found.group(1) or "0", base)
        if letter == "c":
            return ord(self.take().upper()) ^ 64
        if letter.isalnum() and letter.isascii():
            raise CannotRewrite("the escape \\" + letter)
        return ord(letter)

    def bracket(self):
        """The set of a class."""
        self.take()
        negative = self.rest_begins("^")
        if negative:
            self.take()
        mask, first = 0, True
        while first or not self.rest_begins("]"):
            first = False
            if self.at >= len(self.text):
                raise CannotRewrite("a class that isn't closed")
            mask |= self.member()
        self.take()
        if "i" in self.flags:
            mask = either_case(mask)
        return ALL & ~mask if negative else mask

    def member(self):
        """The set of a byte, a range, an escape or a named class."""
        found = re.compile(r"\[:(\^?)(\w+):\]").match(self.text, self.at)
        if found:
            self.at = found.end()
            mask = NAMED.get(found.group(2))
            if mask is None:
                raise CannotRewrite("a class of an unknown name")
            return ALL & ~mask if found.group(1) else mask
        low = self.class_byte()
        if isinstance(low, tuple):
            return low[0]
        if self.rest_begins("-") and self.text[self.at + 1:self.at + 2] not in ("]", ""):
            kept = self.at
            self.take()
            high = self.class_byte()
            if not isinstance(high, tuple):
                if high < low or high > 255:
                    raise CannotRewrite("a range upside down or above 255")
                return byte_set((low, high))
            self.at = kept
        if low > 255:
            raise CannotRewrite("a code point above 255")
        return 1 << low

    def class_byte(self):
        if self.rest_begins("\\"):
            return self.escaped(True)
        return ord(self.take())


def read(text, flags):
    """The tree of an expression under these flags (of `i m s x`), and the groups that are referred to."""
    reader = Reader(text, flags)
    tree = reader.alternatives()
    if reader.at < len(text):
        raise CannotRewrite("a parenthesis without a group")
    return tree, reader.used
