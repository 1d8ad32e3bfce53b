"""From the expression of a rule to one of the program: as it is where the program reads it, else surely rewritten."""
import re

from .looks import without_looks_at_all
from .reading import read
from .tree import EMPTY, NONE, CannotRewrite, alt, cat, first_bytes, has, is_nullable, parts, size, with_parts
from .writing import is_folded, write

MOST_CHOICES = 10
MOST_BYTES = 16000
NEEDS = {"if": "conditional", "look": "look", "same": "reference", "atom": "atomic"}


def needs_of(tree):
    """The kinds of forms in it that the program doesn't read."""
    return {word for kind, word in NEEDS.items() if has(tree, lambda part: part[0] == kind)}


def without_atomics(tree, follows):
    """Atomic repeats of one set are plain ones where what follows can't begin with a byte of it, or nothing follows."""
    if tree[0] == "cat":
        done = []
        for part in reversed(tree[1]):
            done.insert(0, without_atomics(part, follows))
            follows = cat(part, follows)
        return cat(*done)
    if tree[0] == "atom":
        inner = tree[1]
        one_set = inner[0] == "set" or (inner[0] == "rep" and inner[1][0] == "set")
        apart = follows == ("cat", ()) or not (is_nullable(follows) or first_bytes(follows) & first_bytes(inner))
        if one_set and apart:
            return inner
        raise CannotRewrite("an atomic group or a possessive quantifier")
    if tree[0] == "rep":
        follows = cat(tree[1], follows)
        if has(tree, lambda part: part[0] == "atom"):
            follows = cat(("rep", follows, 0, 1), follows)
    return with_parts(tree, [without_atomics(part, follows) for part in parts(tree)])


def without_conditionals(tree):
    """One alternative for each of: the group that is asked has matched, or not."""
    asked = first_conditional(tree)
    if asked is None:
        return tree
    return without_conditionals(alt(settled(tree, asked, True), settled(tree, asked, False)))


def first_conditional(tree):
    if tree[0] == "if":
        return tree[1]
    return next((found for found in map(first_conditional, parts(tree)) if found is not None), None)


def settled(tree, number, matched):
    """What it matches so that the group has matched, or so that it hasn't; conditionals on it are decided."""
    if tree[0] == "if" and tree[1] == number:
        return settled(tree[2 if matched else 3], number, matched)
    if group_of(tree, number) is None:
        return with_parts(tree, [settled(part, number, matched) for part in parts(tree)])
    if tree[0] == "group" and tree[1] == number:
        return tree if matched else NONE
    if tree[0] == "alt":
        others = [part for part in tree[1] if group_of(part, number) is None and not matched]
        return alt(*others, *[settled(part, number, matched) for part in tree[1] if group_of(part, number)])
    if tree[0] in ("cat", "group"):
        return with_parts(tree, [settled(part, number, matched) for part in parts(tree)])
    if tree[0] == "rep" and tree[2:] == (0, 1):
        inner = settled(tree[1], number, matched)
        return inner if matched else alt(EMPTY, inner)
    raise CannotRewrite("a conditional on a group that is repeated or looked at")


def choices(tree):
    """The texts that a group may have, as trees; a few, or it can't be rewritten."""
    if tree[0] == "set" and bin(tree[1]).count("1") <= MOST_CHOICES:
        return [("set", 1 << byte) for byte in range(256) if tree[1] >> byte & 1]
    if tree[0] == "alt":
        return [x for part in tree[1] for x in choices(part)]
    if tree[0] == "cat":
        found = [("cat", ())]
        for part in tree[1]:
            found = [cat(x, y) for x in found for y in choices(part)]
            if len(found) > MOST_CHOICES:
                break
        if len(found) <= MOST_CHOICES:
            return found
    if tree[0] == "group":
        return choices(tree[2])
    if tree[0] == "rep" and tree[2:] == (0, 1):
        return choices(tree[1]) + [("cat", ())]
    raise CannotRewrite("a reference to a group with many texts")


def chosen(tree, number, choice):
    if tree[0] == "group" and tree[1] == number:
        return choice
    if tree == ("same", number):
        return choice
    return with_parts(tree, [chosen(part, number, choice) for part in parts(tree)])


def stands_in_row(tree, number):
    """Whether the group is matched exactly once before all that refers to it."""
    if tree[0] == "group":
        return tree[1] == number or stands_in_row(tree[2], number)
    return tree[0] == "cat" and any(stands_in_row(part, number) for part in tree[1])


def first_reference(tree):
    if tree[0] == "same":
        return tree[1]
    return next((found for found in map(first_reference, parts(tree)) if found is not None), None)


def group_of(tree, number):
    if tree[0] == "group" and tree[1] == number:
        return tree
    return next((found for found in (group_of(part, number) for part in parts(tree)) if found), None)


def without_references(tree, folded):
    """A reference is the group's text again: one alternative for each text of a few."""
    while True:
        number = first_reference(tree)
        if number is None:
            return tree
        if folded or not stands_in_row(tree, number):
            raise CannotRewrite("a reference that can't be written out")
        tree = alt(*[chosen(tree, number, x) for x in choices(group_of(tree, number)[2])])
        if size(tree) > MOST_BYTES:
            raise CannotRewrite("a reference whose writing out is too long")


def unread(text):
    """Whether a form may stand in it that the program doesn't read: then it is read here."""
    return re.search(r"\(\?(?:<?[=!]|>|P=|\()|\\[1-9gkGRN]|[*+?}]\+", text) is not None


def widened(tree, whole):
    """A tree that matches at least as much: looks are dropped, a reference is its group's expression again."""
    if tree[0] == "look":
        return cat()
    if tree[0] == "atom":
        return widened(tree[1], whole)
    if tree[0] == "if":
        return alt(*[widened(part, whole) for part in parts(tree)])
    if tree[0] == "same":
        group = group_of(whole, tree[1])
        if group is None or has(group, lambda part: part[0] == "same"):
            raise CannotRewrite("a reference that can't be written out")
        return widened(group[2], whole)
    return with_parts(tree, [widened(part, whole) for part in parts(tree)])


def wider(text, flags):
    """As `rewrite`, where an expression may come out that matches more."""
    tree, _ = read(text, "".join(flag for flag in "ismx" if flag in flags))
    return written(widened(tree, tree))


def written(tree):
    """The text and the flags of a tree."""
    text, folded = write(tree, False), is_folded(tree)
    if folded:
        folded = text != write(tree, True)
        text = write(tree, folded)
    if len(text) > MOST_BYTES:
        raise CannotRewrite("a rewriting longer than 16,000 bytes")
    return text, ("i" if folded else "") + ("V" if is_nullable(tree) else "")


def rewrite(text, flags):
    """(text, flags, kinds of what was rewritten); flags are of `i m s x`, and `V` where the empty text matches."""
    flags = "".join(flag for flag in "ismx" if flag in flags)
    try:
        tree, _ = read(text, flags)
    except (CannotRewrite, ValueError, IndexError) as fault:
        if unread(text) and isinstance(fault, CannotRewrite):
            raise
        return on_one_line(text, flags), flags.replace("x", ""), []
    kinds = needs_of(tree)
    if not kinds:
        empty = "V" if is_nullable(tree) else ""
        return on_one_line(text, flags), flags.replace("x", "") + empty, []
    if "conditional" in kinds:
        tree = without_conditionals(tree)
    if "atomic" in kinds:
        tree = without_atomics(tree, ("cat", ()))
    if "reference" in kinds:
        tree = without_references(tree, "i" in flags)
    return (*written(without_looks_at_all(tree)), sorted(kinds))


def on_one_line(text, flags):
    """The text as it is, on one line; the flag `x` stands within it."""
    text = text.replace("\r", "\\r").replace("\n", "\\n")
    return "(?x)" + text if "x" in flags else text
