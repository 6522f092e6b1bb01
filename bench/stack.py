#!/usr/bin/env python3
"""Writes tables that nest as deep as rows and rules allow, one file each, in replay's format:  stack.py OUT_FOLDER"""
import os
import struct
import sys

STR, RANGE, IDENT, POS, NEG, SEQ, CHOICE, OPT, REP, EXACT, PUSH = 0, 2, 3, 6, 7, 8, 9, 10, 11, 13, 18
NORMAL, ATOMIC, COMPOUND = 0, 2, 3
ROWS, RULES = 4096, 256
TEXT = b"rabANY"
A, B, X, Y, ANY = (STR, 1, 1, 1), (STR, 2, 1, 1), (IDENT, 1, 1, 1), (IDENT, 2, 1, 1), (IDENT, 3, 3, 1)
LEAVES = {"str": (A, B), "range": ((RANGE, 97, 98, 1), (RANGE, 98, 99, 1)), "id": (X, Y)}
KINDS = {"seq": (SEQ,), "choice": (CHOICE,), "both": (SEQ, CHOICE)}


def case(rules, rows, text):
    words = [w for rule in rules for w in rule], [w for row in rows for w in row]
    head = struct.pack("<4I", len(words[0]), len(words[1]), len(text), 0)
    return head + b"".join(struct.pack("<%dI" % len(w), *w) for w in words) + text


def one(kind, a, x=0):
    return a + [(kind, x, 0, len(a) + 1)]


def two(kind, a, b):
    return a + b + [(kind, 0, 0, len(a) + len(b) + 1)]


def sole(rows, type_):
    assert len(rows) <= ROWS
    return case([(0, 1, type_, len(rows))], rows, TEXT)


def grow(rows, n, kinds, leaves, side):
    """n rows of two children over a tree, which is on the left, on the right, or on each by turns."""
    before, after, size = [], [], len(rows)
    for i in range(n):
        leaf, kind = leaves[i % len(leaves)], kinds[i % len(kinds)]
        size += 2
        if side == "left" or side == "turns" and i % 2:
            after.append(leaf)
        else:
            before.append(leaf)
        after.append((kind, 0, 0, size))
    return before[::-1] + rows + after


def filled(bottom, kinds, leaves, side, top=0):
    """As many rows over `bottom` as there is room for, `top` rows left free."""
    return grow(list(bottom), (ROWS - top - len(bottom)) // 2, kinds, leaves, side)


def spaced(bottom, every, wrap, kinds, leaves, side):
    """A one-child row over each `every` rows of two children."""
    rows, left = list(bottom), ROWS - len(bottom)
    while left >= 2 * every + 1:
        rows = one(wrap, grow(rows, every, kinds, leaves, side))
        left -= 2 * every + 1
    return grow(rows, left // 2, kinds, leaves, side)


def factored(type_, n):
    """(a ~ X) | (a ~ c), n deep: factor fires on every level."""
    rows = [B]
    for _ in range(n):
        rows = two(CHOICE, two(SEQ, [A], rows), two(SEQ, [A], [B]))
    return sole(rows, type_)


def listed(type_, n):
    """(a ~ X)* ~ a, n deep: list fires on every level."""
    rows = [Y]
    for _ in range(n):
        rows = two(SEQ, one(REP, two(SEQ, [X], rows)), [X])
    return sole(rows, type_)


def by_names(body, type_, n=RULES):
    """n rules, each body(i) of the next one's name."""
    text = b"".join(b"r%03d" % i for i in range(n)) + b"ANYx"
    rules, rows = [], []
    for i in range(n):
        b = body(i, (IDENT, 4 * (i + 1), 4, 1), (IDENT, 4 * n, 3, 1), (STR, 4 * n + 3, 1, 1))
        rules.append((4 * i, 4, type_, len(b)))
        rows += b
    assert len(rows) <= ROWS
    return case(rules, rows, text)


def loop(e, any_=ANY):
    return one(REP, two(SEQ, one(NEG, e), [any_]))


def read(i, next_, any_, x):
    if i == 0:
        return loop([next_], any_)
    return [x] if i == 255 else [x, next_, (CHOICE, 0, 0, 3)]


def read_left(i, next_, any_, x):
    if i == 0:
        return loop([next_], any_)
    return [x] if i == 255 else [next_, x, (CHOICE, 0, 0, 3)]


def searched(i, next_, any_, x):
    b = [next_] if i < 255 else [x, (PUSH, 0, 0, 2)]
    while len(b) < 15:
        b.append((OPT, 0, 0, len(b) + 1))
    return b


def ringed(i, next_, any_, x):
    """A ring: each rule names the next under a Choice, the last names the first and pushes."""
    if i == 255:
        return two(CHOICE, [(IDENT, 0, 4, 1)], one(PUSH, [x]))
    return two(CHOICE, [next_], two(SEQ, [next_], [x]))


def written(n, left, side, where):
    """A loop whose list is come by through n rules, below as many rows of two children as there is room for."""
    last = n - 1

    def body(i, next_, any_, x):
        if i == 0:
            low = loop([next_], any_)
            rest = sum(len(body(j, next_, any_, x)) for j in range(1, n))
            return grow(low, (ROWS - rest - len(low)) // 2, KINDS["choice"], ((STR, 0, 1, 1),), side)
        if i == last:
            return [x]
        return ([next_, x, (CHOICE, 0, 0, 3)] if left else [x, next_, (CHOICE, 0, 0, 3)]) if where == "pair" else [next_]
    return by_names(body, ATOMIC, n)


def over_leaves(n, side, leaf):
    """A loop over a Choice of n leaves."""
    return loop(grow([leaf], n - 1, (CHOICE,), (leaf,), side))


def deep_reading(n, side, rules):
    """A loop over a Choice nested on one side, at whose bottom a way of rules begins."""
    def body(i, next_, any_, x):
        if i == 0:
            rest = sum(len(body(j, next_, any_, x)) for j in range(1, rules))
            return loop(grow([next_], min(n, (ROWS - rest - 5) // 2), (CHOICE,), (x,), side), any_)
        return [x] if i == rules - 1 else [next_, x, (CHOICE, 0, 0, 3)]
    return by_names(body, ATOMIC, rules)


def deep_rule(side, type_):
    """A loop over a rule that is a deep Choice."""
    rows = grow([A], 2044, (CHOICE,), (B,), side)
    low = loop([(IDENT, 1, 1, 1)])
    return case([(0, 1, ATOMIC, len(low)), (1, 1, type_, len(rows))], low + rows, TEXT)


# what a step rewrites, at the bottom of a deep tree: trees in which nothing fires are copied without a walk
BOTTOMS = {
    "plain": [A],
    "loop": loop([A]),
    "repseq": one(REP, two(SEQ, [A], [B])),
    "repseqs": one(REP, two(SEQ, [A], one(REP, two(SEQ, [A], [B])))),
    "twice": one(EXACT, [A], 2),
    "once": one(EXACT, [A], 1),
    "strings": two(SEQ, [A], [B]),
    "heads": two(CHOICE, two(SEQ, [A], [A]), two(SEQ, [A], [B])),
    "first": two(CHOICE, [A], two(SEQ, [A], [B])),
    "list": two(SEQ, one(REP, two(SEQ, [X], [Y])), [X]),
    "listed": two(SEQ, [A], one(REP, two(SEQ, [B], [A]))),
    "push": one(PUSH, [A]),
    "all": two(CHOICE, two(SEQ, [X], one(PUSH, [A])), two(SEQ, [X], two(SEQ, one(REP, two(SEQ, [X], [Y])), [X]))),
}

tables = {"readings": by_names(read, ATOMIC), "readings-left": by_names(read_left, ATOMIC),
          "searches": by_names(searched, NORMAL), "rings": by_names(ringed, NORMAL)}
for side in ("left", "right", "turns"):
    for n in (2, 3, 100, 256):
        for where in ("pair", "way"):
            for on_left in (True, False):
                tables["written-%s-%d-%s-%s" % (side, n, where, "left" if on_left else "right")] = written(n, on_left, side, where)
        tables["reading-%s-%d" % (side, n)] = deep_reading(2044, side, n)
    for name, leaf in (("str", A), ("id", X)):
        tables["leaves-%s-%s" % (side, name)] = sole(over_leaves(2046, side, leaf), ATOMIC)
    tables["rule-%s" % side] = deep_rule(side, NORMAL)
for type_ in (NORMAL, ATOMIC, COMPOUND):
    for name, k in (("opt", OPT), ("rep", REP), ("pos", POS), ("neg", NEG), ("push", PUSH), ("exact", EXACT)):
        rows = [A]
        for _ in range(4095):
            rows.append((k, int(k == EXACT), 0, len(rows) + 1))
        tables["%s-%d" % (name, type_)] = sole(rows, type_)
    tables["factored-%d" % type_] = factored(type_, 680)
    tables["listed-%d" % type_] = listed(type_, 818)
    for what, low in BOTTOMS.items():
        for side in ("left", "right", "turns"):
            for kinds in KINDS:
                for leaves in LEAVES if type_ == ATOMIC else ("str",):
                    name = "%s-%s-%s-%s-%d" % (side, kinds, leaves, what, type_)
                    tables[name] = sole(filled(low, KINDS[kinds], LEAVES[leaves], side), type_)
            for top in (OPT, REP, NEG, PUSH) if what in ("plain", "repseq", "list", "push") else ():
                for kinds in ("seq", "choice"):
                    rows = filled(low, KINDS[kinds], LEAVES["range"], side, 1)
                    tables["%s-%s-%s-%d-under-%d" % (side, kinds, what, type_, top)] = sole(one(top, rows), type_)
        for wrap in (OPT, REP, NEG, PUSH):
            for kinds in ("seq", "choice"):
                for every in (1, 50):
                    name = "spaced-%d-%d-%s-%s-%d" % (wrap, every, kinds, what, type_)
                    tables[name] = sole(spaced(low, every, wrap, KINDS[kinds], LEAVES["range"], "left"), type_)
    # all but one of the rules are one row each
    for n in (2, 3, 256):
        rows = filled(BOTTOMS["repseq"], (CHOICE,), LEAVES["str"], "right", n - 1)
        rules = [(0, 1, type_, len(rows))] + [(i, 2, NORMAL, 1) for i in range(n - 1)]
        text = bytes(b for i in range(n) for b in (1 + i // 100, 1 + i % 100))
        rules = [(0, 1, type_, len(rows))] + [(2 * i, 2, NORMAL, 1) for i in range(1, n)]
        tables["rules-%d-%d" % (n, type_)] = case(rules, rows + [A] * (n - 1), text)
os.makedirs(sys.argv[1], exist_ok=True)
for name, data in tables.items():
    with open(os.path.join(sys.argv[1], name), "wb") as out:
        out.write(data)
