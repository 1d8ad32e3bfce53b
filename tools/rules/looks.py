"""Rewrites looks ahead and behind to expressions without them.

A look ahead is a condition on the bytes behind it, so it is worked into what follows: the bytes that follow are read
together with what is still asked of them, and from the pairs of both an expression is made as from an automaton. Where
the expression ends before that is settled, it is made longer by the bytes that settle it, so its ends may move;
where it begins is told by nobody, so a look behind moves nothing. A look behind is a look ahead in the reversed
expression.

What is asked is a set of pairs (negative, tree), trees over bytes and the end of the text: each tree tells how what
follows may begin.
"""
from functools import lru_cache

from .tree import (ALL, EMPTY, END, NONE, WORD, CannotRewrite, alt, cat, has, is_nullable, items_of, parts, rep, reverse,
                   sharing_ends, size, with_parts)

MOST_STATES = 300
MOST_SIZE = 6000
MOST_TRIED = 20000
EVERY = ALL | END
# Behind these there is nothing: the end, and in a reversed expression its own mark of the beginning.
TEXT_ENDS = (("at", "\\z"), ("at", "\\A "))


class NotLocal(Exception):
    """What is asked isn't settled within the part that was looked at."""


def is_look_ahead(tree):
    return tree[0] == "look" and tree[1]


def is_look_behind(tree):
    return tree[0] == "look" and not tree[1]


def asks(tree):
    return has(tree, is_look_ahead)


# What is asked: trees over bytes and the end.

@lru_cache(maxsize=200000)
def derive(tree, symbol):
    """What remains to be matched of it behind a symbol."""
    kind = tree[0]
    if kind == "set":
        return EMPTY if tree[1] >> symbol & 1 else NONE
    if kind == "alt":
        return alt(*[derive(part, symbol) for part in tree[1]])
    if kind == "group":
        return derive(tree[2], symbol)
    if kind == "rep":
        _, inner, least, most = tree
        return cat(derive(inner, symbol), rep(inner, max(least - 1, 0), None if most is None else most - 1))
    if kind != "cat":
        raise CannotRewrite("a look, a reference or an atomic group within a look")
    branches = []
    for at, part in enumerate(tree[1]):
        branches.append(cat(derive(part, symbol), *tree[1][at + 1:]))
        if not is_nullable(part):
            break
    return alt(*branches) if branches else NONE


@lru_cache(maxsize=100000)
def heads(tree):
    """The sets with which it may begin."""
    if tree[0] == "set":
        return frozenset([tree[1]])
    found = frozenset()
    for part in parts(tree):
        found |= heads(part)
        if tree[0] == "cat" and not is_nullable(part):
            break
    return found


def last_sets(tree):
    """The union of the sets with which it may end; None where it may be empty."""
    if is_nullable(tree):
        return None
    mask = 0
    for one in heads(reverse(tree)):
        mask |= one
    return mask


def symbol_for(word, before, reversed_look):
    """An assertion at the end of what is asked, as the symbols that may come next; `before` is what it ends with."""
    line, text = ("(?m:^)", "\\A") if reversed_look else ("(?m:$)", "\\z")
    if word == text:
        return ("set", END)
    if word == line:
        return ("set", END | 1 << 10)
    if word == "\\Z" and not reversed_look:
        return alt(("set", END), cat(("set", 1 << 10), ("set", END)))
    if word == "\\b" and before is not None and before & ~WORD == 0:
        return ("set", EVERY & ~WORD)
    if word == "\\b" and before is not None and before & WORD == 0:
        return ("set", WORD)
    if word == "\\B" and before is not None and before & ~WORD == 0:
        return ("set", WORD)
    raise CannotRewrite("an assertion within a look")


def asked_tree(tree, reversed_look, last=True, before=None):
    """The tree of a look with its assertions as symbols; they may stand at its end alone."""
    kind = tree[0]
    if kind == "group":
        return asked_tree(tree[2], reversed_look, last, before)
    if kind == "at":
        if not last:
            raise CannotRewrite("an assertion within a look")
        return symbol_for(tree[1], before, reversed_look)
    if kind == "alt":
        return alt(*[asked_tree(part, reversed_look, last, before) for part in tree[1]])
    if kind == "cat":
        done = []
        for at, part in enumerate(tree[1]):
            at_end = last and at == len(tree[1]) - 1
            done.append(asked_tree(part, reversed_look, at_end, last_sets(cat(*done)) if done else before))
        return cat(*done)
    if has(tree, lambda part: part[0] in ("at", "look", "same", "atom")):
        raise CannotRewrite("an assertion, a look, a reference or an atomic group within a look")
    return with_parts(tree, [asked_tree(part, reversed_look, False) for part in parts(tree)])


def blocks(mask, asked):
    """The mask cut so that each condition goes on in one way over each block."""
    pieces = [mask] if mask else []
    for _, tree in asked:
        for head in heads(tree):
            pieces = [x for piece in pieces for x in (piece & head, piece & ~head) if x]
    merged = {}
    for piece in pieces:
        merged.setdefault(step(asked, piece.bit_length() - 1), []).append(piece)
    for state, found in merged.items():
        if state is not None:
            total = 0
            for piece in found:
                total |= piece
            yield total, state


@lru_cache(maxsize=200000)
def step(asked, symbol):
    """What is asked behind a symbol; None where a condition has failed."""
    left = set()
    for negative, tree in asked:
        after = derive(tree, symbol)
        if is_nullable(after):
            if negative:
                return None
        elif after == NONE:
            if not negative:
                return None
        else:
            left.add((negative, after))
    return frozenset(left)


def holds_at_end(asked):
    """Whether the end of the text settles all that is asked."""
    left = step(asked, 256)
    return left is not None and all(negative for negative, _ in left)


def begin(asked):
    """What is asked, without what holds before any symbol; None where a condition has failed."""
    left = set()
    for negative, tree in asked:
        if is_nullable(tree) or tree == NONE:
            if negative == is_nullable(tree):
                return None
        else:
            left.add((negative, tree))
    return frozenset(left)


# What follows: its first bytes, and what comes behind each.

def first_steps(tree):
    """(assertions before, set, asked before it, what comes behind), and for the empty text (assertions, asked)."""
    kind = tree[0]
    if kind == "set":
        return [((), tree[1], frozenset(), EMPTY)], []
    if kind == "at" or is_look_behind(tree):
        return [], [((tree,), frozenset())]
    if kind == "look":
        asked = begin([(tree[2], asked_tree(tree[3], False))])
        return [], [] if asked is None else [((), asked)]
    if kind == "group":
        return first_steps(tree[2])
    if kind == "alt":
        both = [first_steps(part) for part in tree[1]]
        return [x for steps, _ in both for x in steps], [x for _, empties in both for x in empties]
    if kind == "cat":
        return first_steps_of_cat(tree[1])
    if kind == "rep":
        _, inner, least, most = tree
        steps, empties = first_steps(inner)
        if empties and (least > 0 or empties != [((), frozenset())]):
            raise CannotRewrite("a repeat of what may be empty")
        behind = rep(inner, max(least - 1, 0), None if most is None else most - 1)
        return [(a, m, o, cat(r, behind)) for a, m, o, r in steps], [((), frozenset())] if least == 0 else []
    raise CannotRewrite("a reference or an atomic group beside a look")


def first_steps_of_cat(items):
    if not items:
        return [], [((), frozenset())]
    steps, empties = first_steps(items[0])
    steps = [(a, m, o, cat(r, *items[1:])) for a, m, o, r in steps]
    if empties:
        behind, ends = first_steps_of_cat(items[1:])
        steps += [(a0 + a, m, o0 | o, r) for a0, o0 in empties for a, m, o, r in behind]
        empties = [(a0 + a, o0 | o) for a0, o0 in empties for a, o in ends]
    return steps, empties


def always_holds(negative, asked, follows):
    """Whether every text that `follows` begins holds the condition, so that it can be dropped."""
    seen, todo = set(), [(follows, begin([(negative, asked)]))]
    while todo:
        tree, state = todo.pop()
        if state is None:
            return False
        if not state or (tree, state) in seen:
            continue
        seen.add((tree, state))
        if len(seen) > MOST_TRIED:
            return False
        try:
            steps, empties = first_steps(without_looks(tree))
        except CannotRewrite:
            return False
        if empties:
            return False
        for _, mask, _, behind in steps:
            reached = 0
            for part, after in blocks(mask, state):
                reached |= part
                todo.append((behind, after))
            if reached != mask:
                return False
    return True


@lru_cache(maxsize=20000)
def without_looks(tree):
    """A tree that matches at least as much, for which no look is asked."""
    if tree[0] == "look" or tree[0] == "at":
        return EMPTY
    return with_parts(tree, [without_looks(part) for part in parts(tree)])


# The automaton of pairs, and the expression of it.

class Automaton:
    """States are (tree that follows, what is asked of it), or (None, asked) behind the end of the expression."""

    def __init__(self, may_pass_end):
        self.may_pass_end = may_pass_end
        self.moves, self.ends, self.order = {}, {}, []

    def explore(self, start):
        todo = [start]
        while todo:
            state = todo.pop()
            if state in self.moves:
                continue
            if len(self.moves) >= MOST_STATES:
                raise CannotRewrite("a look that needs too many cases")
            self.moves[state], self.ends[state] = {}, NONE
            self.order.append(state)
            if state[0] is None:
                self.settle(state)
            else:
                self.follow(state)
            todo.extend(reversed(list(self.moves[state])))

    def move(self, state, label, target):
        before = self.moves[state].get(target)
        self.moves[state][target] = label if before is None else alt(before, label)

    def settle(self, state):
        """Behind the end of the expression any symbol may come; each that settles all ends it."""
        for mask, after in blocks(ALL, state[1]):
            if after:
                self.move(state, ("set", mask), (None, after))
            else:
                self.ends[state] = alt(self.ends[state], ("set", mask))
        if holds_at_end(state[1]):
            self.ends[state] = alt(self.ends[state], ("at", "\\z"))

    def follow(self, state):
        tree, asked = state
        steps, empties = first_steps(tree)
        tail = items_of(tree)[1:]
        settled, behind_tail = [], []
        for before, mask, more, behind in steps:
            for part, after in blocks(mask, asked | more):
                label = cat(*before, ("set", part))
                if after or asks(behind):
                    self.move(state, label, (behind, after))
                elif tail and items_of(behind)[-len(tail):] == tail:
                    behind_tail.append(cat(label, *items_of(behind)[:-len(tail)]))
                else:
                    settled.append(cat(label, behind))
        self.ends[state] = sharing_ends(alt(*settled, cat(alt(*behind_tail), *tail)))
        for before, more in empties:
            left = asked | more
            if left and before and before[-1] in TEXT_ENDS:
                if holds_at_end(left):
                    self.ends[state] = alt(self.ends[state], cat(*before))
            elif left and not self.may_pass_end:
                raise NotLocal
            elif left:
                self.move(state, cat(*before), (None, left))
            else:
                self.ends[state] = alt(self.ends[state], cat(*before))

    def expression(self):
        """The states are taken out, the last one first; a state's moves to itself become a repeat."""
        for at in range(len(self.order) - 1, -1, -1):
            state = self.order[at]
            moves = self.moves[state]
            loop = moves.pop(state, None)
            if loop is not None:
                head = rep(loop, 0, None)
                self.moves[state] = moves = {x: cat(head, label) for x, label in moves.items()}
                self.ends[state] = cat(head, self.ends[state])
            for other in self.order[:at]:
                label = self.moves[other].pop(state, None)
                if label is None:
                    continue
                for target, more in moves.items():
                    self.move(other, cat(label, more), target)
                self.ends[other] = sharing_ends(alt(self.ends[other], cat(label, self.ends[state])))
                if size(self.ends[other]) > MOST_SIZE:
                    raise CannotRewrite("a look whose rewriting is too long")
        return self.ends[self.order[0]]


def pairs_expression(tree, asked, may_pass_end):
    automaton = Automaton(may_pass_end)
    automaton.explore((tree, asked))
    return automaton.expression()


def without_aheads(tree, follows, may_pass_end):
    """An expression of the tree and what follows it, in which no look ahead stands."""
    if not asks(tree):
        return cat(tree, follows)
    try:
        return cat(worked_in(tree, EMPTY, False), follows)
    except NotLocal:
        return worked_in(tree, follows, may_pass_end)


def worked_in(tree, follows, may_pass_end):
    kind = tree[0]
    if kind == "cat":
        for item in reversed(tree[1]):
            follows = without_aheads(item, follows, may_pass_end)
        return follows
    if kind == "alt":
        plain = [part for part in tree[1] if not asks(part)]
        looking = [without_aheads(part, follows, may_pass_end) for part in tree[1] if asks(part)]
        return sharing_ends(alt(*looking, *([cat(alt(*plain), follows)] if plain else [])))
    if kind == "group":
        return without_aheads(tree[2], follows, may_pass_end)
    if kind == "rep":
        try:
            return cat(rep(worked_in(tree[1], EMPTY, False), tree[2], tree[3]), follows)
        except NotLocal:
            return pairs_expression(cat(tree, follows), frozenset(), may_pass_end)
    asked = asked_tree(tree[3], False)
    if always_holds(tree[2], asked, follows):
        return follows
    start = begin([(tree[2], asked)])
    if start is None:
        return NONE
    return pairs_expression(follows, start, may_pass_end) if start else follows


def swap_ends(tree):
    """Behind a reversal what was the text's end is its beginning."""
    if tree == ("at", "\\z"):
        return ("at", "\\A")
    return with_parts(tree, [swap_ends(part) for part in parts(tree)])


def mark(tree):
    """Assertions of the expression itself aren't those that the rewriting adds."""
    if tree[0] == "at":
        return ("at", tree[1] + " ")
    return tree if tree[0] == "look" else with_parts(tree, [mark(part) for part in parts(tree)])


def unmark(tree):
    if tree[0] == "at":
        return ("at", tree[1].strip())
    return with_parts(tree, [unmark(part) for part in parts(tree)])


def behinds_as_aheads(tree):
    """In a reversed tree: what is asked by each look, with its assertions as symbols."""
    if tree[0] == "look":
        return ("look", True, tree[2], asked_tree(tree[3], True))
    return with_parts(tree, [behinds_as_aheads(part) for part in parts(tree)])


def without_looks_at_all(tree):
    """An expression without looks that matches in the same texts."""
    if asks(tree):
        tree = without_aheads(tree, EMPTY, True)
    if has(tree, is_look_behind):
        turned = mark(behinds_as_aheads(reverse(tree)))
        tree = unmark(reverse(swap_ends(without_aheads(turned, EMPTY, True))))
    return tree
