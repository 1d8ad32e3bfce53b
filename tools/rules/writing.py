"""Writes a tree as an expression of the program."""
from .tree import ALL, DIGIT, END, WORD, CannotRewrite, either_case

SPECIAL = "\\.[]()|*+?^$/{}"


def byte_text(byte, in_class):
    letter = chr(byte)
    if letter.isalnum() and byte < 128:
        return letter
    if 32 < byte < 127 or (byte == 32 and not in_class):
        special = letter in ("\\]^-[" if in_class else SPECIAL) or letter == "#"
        return "\\" + letter if special else letter
    return "\\x%02x" % byte


def ranges_of(mask):
    """The set as ranges in order."""
    found, byte = [], 0
    while byte < 256:
        if mask >> byte & 1:
            start = byte
            while byte < 255 and mask >> (byte + 1) & 1:
                byte += 1
            found.append((start, byte))
        byte += 1
    return found


def class_text(mask):
    text = ""
    for start, end in ranges_of(mask):
        text += byte_text(start, True)
        if end > start:
            text += ("-" if end > start + 1 else "") + byte_text(end, True)
    return text


def set_text(mask, folded):
    """A set, by its own text or by the text of its complement, the shorter of both."""
    if mask & END:
        raise CannotRewrite("the end of the text within an expression")
    if mask == ALL & ~(1 << 10) or mask == ALL:
        return "." if mask != ALL else "(?s:.)"
    for word, known in (("\\w", WORD), ("\\d", DIGIT), ("\\W", ALL & ~WORD), ("\\D", ALL & ~DIGIT)):
        if mask == known:
            return word
    if folded:
        lower = mask & ~(((1 << 91) - (1 << 65)))
        if bin(lower).count("1") == 1:
            return byte_text(lower.bit_length() - 1, False)
    if bin(mask).count("1") == 1:
        return byte_text(mask.bit_length() - 1, False)
    plain, negative = "[%s]" % class_text(mask), "[^%s]" % class_text(ALL & ~mask)
    return min(plain, negative, key=len)


def is_folded(tree):
    """Whether all sets hold both cases of their letters, so that the expression is the same with the flag `i`."""
    if tree[0] == "set":
        return either_case(tree[1]) == tree[1]
    if tree[0] == "at":
        return True
    below = tree[1] if tree[0] in ("cat", "alt") else (tree[2],) if tree[0] == "group" else (tree[1],)
    return all(is_folded(part) for part in below)


def write(tree, folded):
    kind = tree[0]
    if kind == "set":
        return set_text(tree[1], folded)
    if kind == "at":
        return tree[1]
    if kind == "group":
        return write(tree[2], folded) if tree[2][0] != "alt" else "(?:%s)" % write(tree[2], folded)
    if kind == "cat":
        return "".join("(?:%s)" % write(x, folded) if x[0] == "alt" else write(x, folded) for x in tree[1])
    if kind == "alt":
        if not tree[1]:
            raise CannotRewrite("an expression that matches nothing")
        return "|".join(write(x, folded) for x in tree[1])
    if kind == "rep":
        inner = tree[1]
        while inner[0] == "group":
            inner = inner[2]
        text = write(inner, folded)
        if inner[0] != "set":
            text = "(?:%s)" % text
        bounds = {(0, None): "*", (1, None): "+", (0, 1): "?"}.get((tree[2], tree[3]))
        if bounds is None:
            most = "" if tree[3] is None else str(tree[3])
            bounds = "{%d}" % tree[2] if tree[2] == tree[3] else "{%d,%s}" % (tree[2], most)
        return text + bounds
    raise CannotRewrite("a look, a reference or an atomic group that stayed")
