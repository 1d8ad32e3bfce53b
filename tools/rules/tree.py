"""Trees of expressions over bytes: how they are made, simplified and asked. `reading` and `writing` turn text to them.

A tree is a tuple, so that equal trees are equal values:
  ("set", mask)              one byte of a set; bit 256 is the end of the text, which stands in looks alone
  ("cat", items), ("alt", items)
  ("rep", tree, least, most) most is None where there is no bound
  ("at", word)               an assertion, by how it is written
  ("look", ahead, negative, tree)
  ("group", number, tree), ("same", number)    a group that is referred to, and the reference
  ("if", number, tree, tree) one or the other, by whether a group has matched
  ("atom", tree)             an atomic group
"""
from functools import lru_cache

ALL = (1 << 256) - 1
END = 1 << 256
EMPTY = ("cat", ())
NONE = ("alt", ())


class CannotRewrite(Exception):
    """The expression has a form for which no sure rewriting is known; the text says which."""


def byte_set(*ranges):
    mask = 0
    for low, high in ranges:
        mask |= (1 << (high + 1)) - (1 << low)
    return mask


DIGIT = byte_set((48, 57))
WORD = DIGIT | byte_set((65, 90), (97, 122), (95, 95))
SPACE = byte_set((9, 13), (32, 32))


def either_case(mask):
    """The set with the other case of each of its letters of ASCII."""
    upper, lower = byte_set((65, 90)), byte_set((97, 122))
    return mask | (mask & upper) << 32 | (mask & lower) >> 32


def cat(*items):
    flat = []
    for item in items:
        if item == NONE:
            return NONE
        flat.extend(item[1] if item[0] == "cat" else [item])
    return flat[0] if len(flat) == 1 else ("cat", tuple(flat))


def alt(*items):
    """One of these: sets are made one set, equal items one item."""
    flat, mask = [], 0
    for item in items:
        for one in item[1] if item[0] == "alt" else [item]:
            if one[0] == "set":
                mask |= one[1]
            elif one not in flat:
                flat.append(one)
    if mask:
        flat.insert(0, ("set", mask))
    return flat[0] if len(flat) == 1 else ("alt", tuple(flat))


def sharing_ends(tree):
    """The alternatives of a tree, of which those that end alike share the end."""
    if tree[0] != "alt":
        return tree
    groups = {}
    for item in tree[1]:
        groups.setdefault(items_of(item)[-1:], []).append(items_of(item))
    branches = []
    for last, members in groups.items():
        shared = 1 if last and len(members) > 1 else 0
        while shared and all(len(x) > shared for x in members) and len({x[-shared - 1] for x in members}) == 1:
            shared += 1
        if shared:
            heads = sharing_ends(alt(*[cat(*x[:-shared]) for x in members]))
            branches.append(cat(heads, *members[0][-shared:]))
        else:
            branches += [cat(*x) for x in members]
    return alt(*branches)


def rep(tree, least, most):
    if tree == EMPTY or most == 0:
        return EMPTY
    if tree == NONE:
        return EMPTY if least == 0 else NONE
    if (least, most) == (1, 1):
        return tree
    return ("rep", tree, least, most)


def items_of(tree):
    return tree[1] if tree[0] == "cat" else (tree,)


def parts(tree):
    """The trees directly below."""
    kind = tree[0]
    if kind in ("cat", "alt"):
        return tree[1]
    if kind in ("rep", "atom"):
        return (tree[1],)
    if kind in ("group", "if"):
        return tree[2:]
    return (tree[3],) if kind == "look" else ()


def with_parts(tree, new):
    """The tree with these in place of the trees directly below."""
    kind = tree[0]
    if kind == "cat":
        return cat(*new)
    if kind == "alt":
        return alt(*new)
    if kind == "rep":
        return rep(new[0], tree[2], tree[3])
    if kind == "atom":
        return ("atom", new[0])
    if kind == "group":
        return ("group", tree[1], new[0])
    if kind == "if":
        return ("if", tree[1], *new)
    return ("look", tree[1], tree[2], new[0]) if kind == "look" else tree


def has(tree, asked):
    """Whether a tree for which `asked` holds stands somewhere in it."""
    return asked(tree) or any(has(part, asked) for part in parts(tree))


def size(tree):
    return 1 + sum(size(part) for part in parts(tree))


@lru_cache(maxsize=100000)
def is_nullable(tree):
    """Whether it may match the empty text, assertions and looks taken as holding."""
    kind = tree[0]
    if kind in ("at", "look"):
        return True
    if kind in ("set", "same"):
        return False
    if kind in ("alt", "if"):
        return any(is_nullable(part) for part in parts(tree))
    if kind == "rep":
        return tree[2] == 0 or is_nullable(tree[1])
    return all(is_nullable(part) for part in parts(tree))


def first_bytes(tree):
    """The bytes with which it may begin."""
    kind = tree[0]
    if kind == "set":
        return tree[1]
    if kind == "same":
        return ALL
    if kind in ("at", "look"):
        return 0
    mask = 0
    for part in parts(tree):
        mask |= first_bytes(part)
        if kind == "cat" and not is_nullable(part):
            break
    return mask


def reverse(tree):
    """The tree that matches the reversed texts; a look to one side is one to the other, an assertion stays."""
    new = [reverse(part) for part in parts(tree)]
    if tree[0] == "cat":
        new.reverse()
    if tree[0] == "look":
        return ("look", not tree[1], tree[2], new[0])
    return with_parts(tree, new)
