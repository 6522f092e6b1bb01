#!/usr/bin/env python3
"""Hostile tables, in replay's format:  worst.py OUT_FOLDER [NAME[:PARAMETER=VALUE,..]..]

Each is a family with parameters; without names, each family with its own values and with the further ones of MORE. With back=1, which every
family of a Table takes, the rules stand in the other order. Beside the tables the file `fits` gets a line for each: its name, and the bytes
of its packed text. `bucket` and `LAST` are all that knows the buckets of the index by last bytes."""
import os
import random
import struct
import sys

STR, INSENS, RANGE, IDENT, POS, NEG, SEQ, CHOICE, OPT, REP, ONCE, EXACT, MIN, MAX, MIN_MAX, SKIP, PUSH = (
    0, 1, 2, 3, 6, 7, 8, 9, 10, 11, 12, 13, 14, 15, 16, 17, 18)
NORMAL, SILENT, ATOMIC, COMPOUND, NON_ATOMIC = range(5)
ROWS, RULES, TEXT = 4096, 256, 65536
PRIME, WORD = 16777619, 1 << 32
LAST = 8  # so many last bytes of a name count for its bucket


# ---- tables

def case(rules, rows, text):
    words = [w for rule in rules for w in rule], [w for row in rows for w in row]
    head = struct.pack("<4I", len(words[0]), len(words[1]), len(text), 0)
    return head + b"".join(struct.pack("<%dI" % len(w), *w) for w in words) + bytes(text)


def packed(data):
    """The bytes of a case's packed text."""
    a, b, _, _ = struct.unpack_from("<4I", data)
    rules, rows = struct.unpack_from("<%dI" % a, data, 16), struct.unpack_from("<%dI" % b, data, 16 + 4 * a)
    return sum(rules[1::4]) + sum(rows[i + 2] for i in range(0, b, 4) if rows[i] in (STR, INSENS, IDENT))


class Table:
    """Rules are given by name and tree; a tree is its rows. Names and literals are bytes, or spans (offset, length) of a text given before."""

    back = 0  # whether the rules stand in the other order

    def __init__(self, text=b""):
        self.rules, self.text, self.known = [], bytearray(text), {}

    def span(self, what):
        if isinstance(what, tuple):
            return what
        if what not in self.known:
            at = self.text.find(what)
            if at < 0:
                at = len(self.text)
                self.text += what
            self.known[what] = (at, len(what))
        return self.known[what]

    def lit(self, kind, what):
        return [(kind,) + self.span(what) + (1,)]

    def id(self, what):
        return self.lit(IDENT, what)

    def str(self, what):
        return self.lit(STR, what)

    def rule(self, name, type_, tree):
        self.rules.append(self.span(name) + (type_, len(tree), tree))

    def room(self):
        return ROWS - sum(rule[3] for rule in self.rules)

    def case(self):
        rules = self.rules[::-1] if Table.back else self.rules
        return case([rule[:4] for rule in rules], [row for rule in rules for row in rule[4]], self.text)

    def loop(self, items):
        """(!(i|..|i) ~ ANY)*, four rows more than the choice."""
        return one(REP, two(SEQ, one(NEG, chain(CHOICE, items)), self.id(b"ANY")))


def one(kind, a, x=0, y=0):
    return a + [(kind, x, y, len(a) + 1)]


def two(kind, a, b):
    return a + b + [(kind, 0, 0, len(a) + len(b) + 1)]


def chain(kind, items):
    """Nested to the right."""
    rows, size = [row for item in items for row in item], len(items[-1])
    for item in items[-2::-1]:
        size += len(item) + 1
        rows.append((kind, 0, 0, size))
    return rows


def left(kind, items):
    """Nested to the left."""
    rows = list(items[0])
    for item in items[1:]:
        rows += item
        rows.append((kind, 0, 0, len(rows) + 1))
    return rows


# ---- names

def bucket(name, count):
    """The bucket of a name in the index by length and last bytes."""
    h = len(name)
    for b in name[-LAST:]:
        h = (h * PRIME + b) % WORD
    return h % count


def full_hash(name, h=None):
    """The hash of all bytes."""
    h = len(name) if h is None else h
    for b in name:
        h = (h * PRIME + b) % WORD
    return h


_threes = {}


def threes():
    """What three last bytes add to a hash of all bytes."""
    if not _threes:
        for a in range(24, 128):
            for b in range(24, 128):
                for c in range(24, 128):
                    _threes[((a * PRIME + b) * PRIME + c) % WORD] = (a, b, c)
    return _threes


def ending(h, goal, n=2, skip=0):
    """n + 3 bytes that turn the hash h of all bytes into the goal: meeting in the middle."""
    last, cube = threes(), pow(PRIME, 3, WORD)
    for code in range(skip, 104 ** n):
        first = []
        for _ in range(n):
            first.append(24 + code % 104)
            code //= 104
        g = h
        for b in first:
            g = (g * PRIME + b) % WORD
        found = last.get((goal - g * cube) % WORD)
        if found:
            return bytes(first) + bytes(found)
    return None


def one_hash(n, length):
    """n names of one length and one hash of all bytes, alike but for their last six bytes."""
    front = b"n" * (length - 6)
    h = (full_hash(front, length)) % WORD
    last, cube = threes(), pow(PRIME, 3, WORD)
    for goal in range(12345, WORD, 99991):
        names = []
        for a, first in last.items():
            found = last.get((goal - (h * cube + a) * cube) % WORD)
            if found:
                names.append(front + bytes(first) + bytes(found))
        if len(names) >= n:
            return sorted(names)[:n]


def one_hash_spans(n):
    """n overlapping spans of one text, of one length and one hash of all bytes, alike but for their last bytes."""
    length = TEXT - 5 * n - 12
    text = bytearray(b"n" * length)
    power = lambda k: pow(PRIME, k, WORD)
    # the hash of text[o:e] from sums over the fronts
    sums = [0]
    for b in text:
        sums.append((sums[-1] * PRIME + b) % WORD)
    spans, goal = [], 123456789
    while len(spans) < n:
        for k in (2, 3):
            end = len(text) + k + 3
            o = end - length
            h = (length * power(len(text) - o) + sums[-1] - sums[o] * power(len(text) - o)) % WORD
            more = ending(h, goal, k)
            if more:
                break
        text += more
        for b in more:
            sums.append((sums[-1] * PRIME + b) % WORD)
        spans.append((o, length))
    return bytes(text), spans


def one_old_bucket(n, length, count):
    """n names of one length, of different hashes of all bytes in one bucket of count."""
    front, names, i = b"n" * (length - 4), [], 0
    h = full_hash(front, length)
    while len(names) < n:
        tail = bytes((33 + i % 90, 33 + i // 90 % 90, 33 + i // 8100 % 90, 33 + i // 729000 % 90))
        if full_hash(tail, h) % count == 7:
            names.append(front + tail)
        i += 1
    return names


def deep(n, length, count, at=0, flip=0, each=127):
    """n names of one length in one bucket of count, of which each is told from all before it by one byte more: the deepest tree of
    decisions. They are alike but for the bytes from `at` on, of which one tells `each` names, and for what the bucket needs in the last two."""
    names, goal, rng = [], None, random.Random(n * length + at)
    width = -(-(n - 1) // each)
    assert at + width + 2 <= length and each < 128
    for i in range(n):
        name = bytearray(b"n" * length)
        name[at:at + width] = (min(max(i - each * j, 0), each) for j in range(width))
        goal = bucket(name, count) if goal is None else goal
        while bucket(name, count) != goal:
            name[-2:] = rng.randrange(128), rng.randrange(128)
        names.append(bytes(name))
    return names[::-1] if flip else names


def steps(n, length=None):
    """n spans of one text of a's and then b's: each is alike up to near its end, all have the same last bytes."""
    length = length or TEXT - n
    return b"a" * (length - 40) + b"b" * (n + 40), [(i, length) for i in range(n)]


def plain(n, length):
    return [b"n" * (length - 4) + b"%04d" % i for i in range(n)]


def alike(n, length, front=1):
    """n names whose first (or last) bytes tell them apart."""
    return [b"%04d" % i + b"n" * (length - 4) if front else b"n" * (length - 4) + b"%04d" % i for i in range(n)]


# ---- the families

FAMILIES = {}


def family(f):
    FAMILIES[f.__name__] = f
    return f


# -- names alone

@family
def names(length=65000):
    """256 names of nearly all of the text."""
    rules = [(i, length, 0, 1) for i in range(256)]
    return case(rules, [(STR, 0, 1, 1)] * 256, bytes(97 + i * i % 23 for i in range(length + 256)))


@family
def names_one_hash(n=256):
    text, spans = one_hash_spans(n)
    t = Table(text)
    for s in spans:
        t.rule(s, NORMAL, t.str((0, 1)))
    return t.case()


@family
def names_steps(n=256, flip=0):
    text, spans = steps(n)
    t = Table(text)
    for s in spans[::-1] if flip else spans:
        t.rule(s, NORMAL, t.str((0, 1)))
    return t.case()


@family
def names_fit(n=256, flip=0):
    """256 names that fill the packed text, alike but for their first bytes, in one bucket."""
    t = Table()
    for name in deep(n, (TEXT - n) // n, n, 0, flip):
        t.rule(name, NORMAL, t.str(b""))
    return t.case()


@family
def names_fit_late(n=256, flip=0):
    """The same, but for bytes near their end."""
    t = Table()
    length = (TEXT - n) // n
    for name in deep(n, length, n, length - 5, flip):
        t.rule(name, NORMAL, t.str(b""))
    return t.case()


# -- one loop that reads many names

def reads(t, spans, target, most=None):
    """An Atomic loop over as many Idents of one rule as there is room for; the other rules are one string each."""
    rest = len(spans) - 1
    k = (ROWS - rest - 4 + 1) // 2
    k = min(k, most or k)
    name = t.id(spans[target])
    t.rule(spans[0], ATOMIC, t.loop([name] * k))
    for s in spans[1:]:
        t.rule(s, NORMAL, t.str((0, 0)))
    return t.case()


@family
def loop_one_hash(n=256, most=0):
    text, spans = one_hash_spans(n)
    return reads(Table(text + b"ANY"), spans, n - 1, most)


@family
def loop_one_name(length=65000):
    """Idents that all name one rule."""
    t = Table(b"n" * length + b"ANYr")
    t.rule(b"r", ATOMIC, t.loop([t.id((0, length))] * 2045))
    t.rule((0, length), NORMAL, t.str((0, 0)))
    return t.case()


@family
def loop_steps(n=256, target=-1, flip=0):
    text, spans = steps(n, TEXT - n - 43)
    return reads(Table(text + b"ANY"), spans[::-1] if flip else spans, target)


@family
def loop_alias(n=256, flip=0, loops=1, long=0):
    """A loop that names each other rule, and then the last as often as there is room; the others are Idents of the last, so that each is
    read and told. All names are alike up to their end and have the longest ways. long: the last bytes that are compared one by one."""
    text, spans = steps(n, (TEXT - n - 43) // 64 * 64 - 1 if long else TEXT - n - 43)
    if flip:
        spans = spans[::-1]
    t = Table(text + b"ANY")
    k = (ROWS - (n - 1) - 5 * loops + 1) // 2
    items = [t.id(s) for s in spans[1:]]
    items += [t.id(spans[-1])] * (k - len(items))
    each = -(-k // loops)
    t.rule(spans[0], ATOMIC, chain(SEQ, [t.loop(items[i:i + each]) for i in range(0, k, each)]))
    for s in spans[1:-1]:
        t.rule(s, NORMAL, t.id(spans[-1]))
    t.rule(spans[-1], NORMAL, t.str((0, 0)))
    return t.case()


@family
def names_twice(n=256, late=1):
    """Names as in `names_steps`, of which the last (or the second) is the first again: refusal 5."""
    text, spans = steps(n)
    t = Table(text)
    spans = spans[:-1] + spans[-2:-1] if late else [spans[0]] * 2 + spans[2:]
    for s in spans:
        t.rule(s, NORMAL, t.str((0, 1)))
    return t.case()


@family
def loop_unknown(n=255, flip=0):
    """Loops over one Ident each, of no rule, that is alike a rule's name but for its end."""
    text, spans = steps(n + 1, TEXT - n - 44)
    if flip:
        spans = spans[::-1]
    t = Table(text + b"ANY")
    k = (ROWS - n) // 6
    t.rule(spans[0], ATOMIC, chain(SEQ, [t.loop([t.id(spans[n])])] * k))
    for s in spans[1:n]:
        t.rule(s, NORMAL, t.str((0, 0)))
    return t.case()


# -- names that a loop reads, that stay, and that restore looks at again

@family
def kept(n=256, length=5, at=0, target=-1, flip=0, loops=1, end="push"):
    """An Atomic rule with a loop of as many Idents as there is room for, which has no list because of its last leaf; restore looks at
    each of them again, because the rule's last row is a Push."""
    t = Table()
    names = deep(n, length, n, at, flip)
    rest, closing = len(names) - 1, {"push": 3, "drop": 2, "none": 0}[end]
    k = (ROWS - rest - closing - (loops - 1) - loops * (4 + 1)) // (2 * loops)
    tree = t.loop([t.id(names[target])] * k + [t.lit(INSENS, b"")])
    tree = chain(SEQ, [tree] * loops)
    if end == "push":
        tree = two(SEQ, tree, one(PUSH, t.str(b"")))
    elif end == "drop":
        tree = two(SEQ, tree, t.id(b"DROP"))
    t.rule(names[0], ATOMIC, tree)
    for name in names[1:]:
        t.rule(name, NORMAL, t.str(b""))
    return t.case()


@family
def kept_full(n=256, at=0, flip=0):
    """The same with names as long as the packed text allows."""
    k = (ROWS - n - 7) // 2
    return kept(n, (TEXT - 40) // (n + k), at, -1, flip)


def filled(t, names, tree, others, leaf=b""):
    """The rule of `tree` second to last, a string as the last, and the others, each of one row or more, before them: the last two names of
    `deep` are the two that take the longest way."""
    for name, other in zip(names, others):
        t.rule(name, NORMAL, other)
    t.rule(names[-2], ATOMIC, tree)
    t.rule(names[-1], NORMAL, t.str(leaf))
    return t.case()


def stirs(t):
    """Trees that unroll, concatenate, factor and list change: each step then walks the whole rule, which it would copy otherwise."""
    s, i = t.str(b""), t.id(b"")
    return [one(EXACT, s, 1), one(POS, two(SEQ, s, s)), two(CHOICE, s, two(SEQ, s, i)), one(POS, two(SEQ, one(REP, two(SEQ, i, s)), i))]


@family
def kept_all(n=256, length=0, at=0, flip=0, alias=1, way=0, walks=0):
    """A loop without a list as in `kept`, but the Push is the first row, so that restore's search comes by each Ident too, and the other
    rules are Idents of the loop's rule: each Ident is looked up four times or, where it is a rule by itself, twice. way: so many of these
    name each other instead, and are read as well. walks: every step changes something at the end of the loop's rule."""
    t = Table()
    after = stirs(t) if walks else []
    k = (ROWS - (n - 1) - 8 - sum(len(tree) + 1 for tree in after)) // 2
    names = deep(n, length or (TEXT - 3) // (n + k + alias * (n - 2)), n, at, flip)
    items = [t.id(names[-1])] * k + [t.id(names[-2 - way])]
    loop = one(REP, two(SEQ, one(NEG, (left if walks else chain)(CHOICE, items)), t.id(b"ANY")))
    tree = chain(SEQ, [one(PUSH, t.str(b"")), loop] + after)
    others = [t.id(names[-2]) if alias else t.str(b"")] * (n - 2 - way) + [t.id(name) for name in names[-1 - way:-1]]
    return filled(t, names, tree, others)


@family
def list_all(n=256, length=0, at=0, flip=0, alias=1, way=0, walks=0, each=127):
    """A loop whose list has two strings for each Ident, so many that the rows just fit: each of its Idents is looked up twice, and once more
    for itself and twice for its strings while they are written. The Push, the other rules, `way` and `walks` as in `kept_all`."""
    t = Table()
    after = stirs(t) if walks else []
    k = (ROWS - (n - 2) - 3 - 6 - sum(len(tree) + 1 for tree in after)) // 2
    names = deep(n, length or (TEXT - 3) // (n + k + 2 + alias * (n - 3)), n, at, flip, each)
    items = [t.id(names[-3])] * (k - 1) + [t.id(names[-3 - way])]
    loop = one(REP, two(SEQ, one(NEG, (left if walks else chain)(CHOICE, items)), t.id(b"ANY")))
    tree = chain(SEQ, [one(PUSH, t.str(b"")), loop] + after)
    others = [t.id(names[-2]) if alias else t.str(b"")] * (n - 3 - way) + [t.id(name) for name in names[-2 - way:-2]]
    return filled(t, names, tree, others + [two(CHOICE, t.id(names[-1]), t.id(names[-1]))])


@family
def kept_each(n=256, length=5, flip=0):
    """The same, each rule with its own loop, Push and Idents."""
    t = Table()
    names = deep(n, length, n, 0, flip)
    for i, name in enumerate(names):
        k = (ROWS // n - 5 - 3) // 2
        t.rule(name, ATOMIC, two(SEQ, t.loop([t.id(names[-1 - j]) for j in range(k)] + [t.lit(INSENS, b"")]), one(PUSH, t.str(b""))))
    return t.case()


@family
def named(n=256, length=5, target=-1, flip=0, kind=SEQ, left_=0, unknown=0):
    """A Normal rule of many Idents, and a Push as its last row."""
    t = Table()
    names = deep(n + 1, length, n, 0, flip)
    k = (ROWS - (n - 1) - 2) // 2
    rules = names[:n] if unknown or not flip else names[1:]
    target = names[n] if unknown else rules[target]
    items = [t.id(target)] * k + [one(PUSH, t.str(b""))]
    t.rule(rules[0], NORMAL, (left if left_ else chain)(kind, items))
    for name in rules[1:]:
        t.rule(name, NORMAL, t.str(b""))
    return t.case()


# -- lists that are written

def doubling(t, names, d, tops, way, leaf=b"", after=None, fill=1):
    """A loop whose list doubles d times; then a way of `way` rules that name each other; so many strings that the rows just fit.
    names: the loop's rule, the d rules, the rule at their end, the way, then rules of no use."""
    rest = len(names) - 1 - d
    strings = after or ROWS - 1 - 3 * d - rest
    loop, double, ends = names[0], names[1:1 + d], names[1 + d:]
    # the last doubling rule has 2 strings, the one before it 4 ..
    leaves, left_ = [], strings
    if tops:
        each = d and 1 << min(d, max(1, (strings // tops).bit_length() - 1))
        while left_ >= each and len(leaves) < tops:
            leaves.append(double[d - each.bit_length() + 1] if each > 1 else ends[0])
            left_ -= each
    for i in range(d):
        while left_ >= 1 << (d - i):
            leaves.append(double[i])
            left_ -= 1 << (d - i)
    leaves += [ends[0]] * left_
    leaves = leaves[:(ROWS - 3 * d - rest - 3) // 2]
    t.rule(loop, ATOMIC, t.loop([t.id(name) for name in leaves]))
    for i, name in enumerate(double):
        next_ = t.id(double[i + 1] if i + 1 < d else ends[0])
        t.rule(name, NORMAL, two(CHOICE, next_, next_))
    for i, name in enumerate(ends):
        t.rule(name, NORMAL, t.id(ends[i + 1]) if i < way else t.str(leaf))
    return t.case()


def long_enough(rules, d, way, tops=12):
    return (TEXT - 3) // (rules + 2 * d + way + tops)


@family
def way_one_hash(d=12, way=175, idle=0, length=0):
    """A doubling list over a way of rules that name each other, with long names of one hash."""
    n = 1 + d + 1 + way + idle
    names = one_hash(n, length or long_enough(n, d, way))
    return doubling(Table(), names, d, 0, way)


@family
def way_one_bucket(d=11, way=242, idle=0, length=0):
    n = 1 + d + 1 + way + idle
    return doubling(Table(), one_old_bucket(n, length or long_enough(n, d, way), n), d, 0, way)


@family
def way_deep(d=12, way=242, length=5, flip=0, idle=0, at=0):
    n = 1 + d + 1 + way + idle
    return doubling(Table(), deep(n, length or long_enough(n, d, way), n, at, flip), d, 0, way)


@family
def list_deep(d=11, length=5, flip=0, tops=0, idle=-1, last=1):
    """A doubling list in a table of 256 rules of one bucket; where `last`, the rules that are come by most stand last."""
    idle = 256 - 2 - d if idle < 0 else idle
    names = deep(2 + d + idle, length, 2 + d + idle, 0, flip)
    if last:
        names = [names[0]] + names[-1 - d:] + names[1:-1 - d]
        order = {name: i for i, name in enumerate(deep(2 + d + idle, length, 2 + d + idle, 0, flip))}
    t = Table()
    data = doubling(t, names, d, tops, 0)
    if last:  # the rules in the order of their names' tree
        t.rules.sort(key=lambda rule: order[bytes(t.text[rule[0]:rule[0] + rule[1]])])
        data = t.case()
    return data


@family
def list_long_name(length=32700):
    """A doubling list whose every string is come by through one Ident of many bytes."""
    t = Table()
    long = b"L" * length
    names = [b"r"] + [b"d%02d" % i for i in range(12)] + [b"e", long]
    return doubling(t, names, 12, 0, 1)


@family
def list_left(n=250, length=0):
    """Rules l_i = l_(i+1) | "": the way goes down on the left, with long names."""
    t = Table()
    length = length or (TEXT - 2100) // (2 * n)
    names = plain(n, length)
    k = (ROWS - 3 * n - 5) // (n + 1)
    t.rule(b"r", ATOMIC, t.loop([t.id(names[0])] * max(1, min(k, 14))))
    for i in range(n):
        t.rule(names[i], NORMAL, two(CHOICE, t.id(names[i + 1]), t.str(b"")) if i + 1 < n else t.str(b""))
    return t.case()


@family
def list_right(n=250, length=0):
    """Rules l_i = "" | l_(i+1)."""
    t = Table()
    length = length or (TEXT - 2100) // (2 * n)
    names = plain(n, length)
    k = (ROWS - 3 * n - 5) // (n + 1)
    t.rule(b"r", ATOMIC, t.loop([t.id(names[0])] * max(1, min(k, 14))))
    for i in range(n):
        t.rule(names[i], NORMAL, two(CHOICE, t.str(b""), t.id(names[i + 1])) if i + 1 < n else t.str(b""))
    return t.case()


@family
def list_loops(n=256, length=5, flip=0, k=1):
    """Many loops that each read the same deepest rule."""
    t = Table()
    names = deep(n, length, n, 0, flip)
    each = 4 + 2 * k - 1
    m = (ROWS - (n - 1) + 1) // (each + 1)
    t.rule(names[0], ATOMIC, chain(SEQ, [t.loop([t.id(names[-1])] * k)] * m))
    for name in names[1:]:
        t.rule(name, NORMAL, t.str(b""))
    return t.case()


@family
def list_full(d=13, leaf=1, way=0):
    """A doubling list that does not fit: by rows, or by the text of its strings."""
    t = Table()
    names = [b"r"] + [b"d%02d" % i for i in range(d)] + [b"e%03d" % i for i in range(way + 1)]
    return doubling(t, names, d, 0, way, b"s" * leaf, 1 << d)


@family
def list_many(n=85, k=2):
    """Each rule has a loop over the rule after it, which is a choice of strings and names."""
    t = Table()
    for i in range(n):
        t.rule(b"l%03d" % i, ATOMIC, t.loop([t.id(b"c%03d" % min(n - 1, i + j)) for j in range(k)]))
    for i in range(n):
        t.rule(b"c%03d" % i, NORMAL, chain(CHOICE, [t.str(b"")] * k))
    return t.case()


@family
def list_none(n=255, length=0, flip=0):
    """The loop's rule is read through a way of all rules, and the last has no list."""
    t = Table()
    names = deep(n, length or 27, n, 0, flip)
    k = (ROWS - n - 4) // 2
    t.rule(b"r", ATOMIC, t.loop([t.id(names[0])] * k))
    for i in range(n):
        t.rule(names[i], NORMAL, t.id(names[i + 1]) if i + 1 < n else t.lit(INSENS, b""))
    return t.case()


@family
def list_again(n=255):
    """Refusal 7 is found in the last rule."""
    t = Table()
    names = plain(n, (TEXT - 8) // (2 * n + 2))
    t.rule(b"r", ATOMIC, t.loop([t.id(names[0])]))
    for i in range(n):
        t.rule(names[i], NORMAL, two(CHOICE, t.str(b""), t.id(names[(i + 1) % n])))
    return t.case()


# -- restore

@family
def searches(n=254, length=33, kind="plain"):
    """n rules of which each finds that it can change the stack only after a rule of many long names has been searched to its end."""
    if kind == "plain":
        text = b"n" * length + b"px" + b"".join(b"y%03d" % i for i in range(n))
        name, push = (IDENT, 0, length, 1), (IDENT, length, 1, 1)
        rules = [(length + 2 + 4 * i, 4, 0, 3) for i in range(n)]
        rows = [push, name, (SEQ, 0, 0, 3)] * n
        k = (4096 - len(rows) - 1) // 2
        rules += [(0, length, 0, 2 * k - 1), (length, 1, 0, 2)]
        rows += [name] * k + [(SEQ, 0, 0, 2 * i + 3) for i in range(k - 1)]
        return case(rules, rows + [(STR, length + 1, 1, 1), (PUSH, 0, 0, 2)], text)
    t = Table()
    k = (ROWS - 3 * n - 1) // 2
    length = min(length, TEXT // (n + 2 + 2 * n + k + 1))
    names = one_hash(n + 2, length) if kind == "hash" else deep(n + 2, length, n + 2) if kind == "deep" else deep(n + 2, length, n + 2, 0, 1)
    push, name = t.id(names[n]), t.id(names[n + 1])
    for i in range(n):
        t.rule(names[i], NORMAL, two(SEQ, push, name))
    t.rule(names[n], NORMAL, one(PUSH, t.str(b"")))
    t.rule(names[n + 1], NORMAL, chain(SEQ, [name] * k))
    return t.case()


def graph(edges, yes, length, flip, kind=SEQ, wrap=None, type_=NORMAL):
    """A table of rules that name those of edges[i]; those of `yes` have a Push as their first row."""
    n = len(edges)
    t = Table()
    names = deep(n, length, n, 0, flip)
    for i, to in enumerate(edges):
        items = ([one(PUSH, t.str(b""))] if i in yes else []) + [t.id(names[j]) for j in to]
        items = items or [t.str(b"")]
        tree = chain(kind, items)
        if wrap:
            tree = one(wrap, tree)
        t.rule(names[i], type_, tree)
    return t.case()


@family
def ring(n=256, k=7, yes=-1, length=5, flip=0, step=1, wrap=OPT):
    """Each rule names the k that follow it, round and round: one group. `yes`: the rule that pushes."""
    return graph([[(i + j * step + 1) % n for j in range(k)] for i in range(n)], [] if yes < -1 else [yes % n], length, flip, SEQ, wrap)


@family
def forward(n=256, k=7, yes=-1, length=5, flip=0, wrap=OPT):
    """Each rule names k that follow it: no group, and a way as long as there are rules."""
    return graph([[min(n - 1, i + j + 1) for j in range(k)] if i + 1 < n else [] for i in range(n)], [yes % n], length, flip, SEQ, wrap)


@family
def backward(n=256, k=7, yes=0, length=5, flip=0, wrap=OPT):
    return graph([[max(0, i - j - 1) for j in range(k)] if i else [] for i in range(n)], [yes % n], length, flip, SEQ, wrap)


@family
def rings(n=256, size=16, k=7, length=5, flip=0, wrap=OPT):
    """Groups of `size`, each of which names the next; the last pushes."""
    edges = []
    for i in range(n):
        g, p = i // size, i % size
        to = [g * size + (p + j + 1) % size for j in range(k - 1)]
        edges.append(to + [min(n - 1, (g + 1) * size)])
    return graph(edges, [n - 1], length, flip, SEQ, wrap)


@family
def spread(n=256, k=7, seed=1, yes=1, length=5, flip=0, wrap=OPT):
    rng = random.Random(seed)
    return graph([[rng.randrange(n) for _ in range(k)] for _ in range(n)], [rng.randrange(n) for _ in range(yes)], length, flip, SEQ, wrap)


@family
def hub(n=256, k=0, length=5, flip=0):
    """One rule names all others many times, and each names it."""
    k = k or (ROWS - 2 * n) // 2
    edges = [[j % n for j in range(n - 1, n - 1 - k, -1)]] + [[0] for _ in range(n - 1)]
    return graph(edges, [n - 1], length, flip)


@family
def all_yes(n=256, k=6, length=5, flip=0):
    """Each rule pushes, under Choice: the answer grows."""
    t = Table()
    names = deep(n, length, n, 0, flip)
    for i in range(n):
        t.rule(names[i], NORMAL, chain(CHOICE, [t.id(names[-1])] * k))
    t.rules[-1] = t.span(names[-1]) + (NORMAL, 2, one(PUSH, t.str(b"")))
    return t.case()


# -- unroll

@family
def unroll_nested(kind=EXACT, x=2, y=0, levels=11, leaf=1):
    t = Table(b"r")
    tree = t.str(b"s" * leaf)
    for _ in range(levels):
        tree = one(kind, tree, x, y)
    t.rule(b"r", ATOMIC, tree)
    return t.case()


@family
def unroll_wide(kind=EXACT, x=2048, y=0, leaf=31):
    return unroll_nested(kind, x, y, 1, leaf)


@family
def unroll_ones(kind=EXACT, x=1, y=0):
    return unroll_nested(kind, x, y, 4095, 1)


@family
def unroll_names(n=256, length=5, flip=0, wrap=0):
    """A repeat of the deepest name, as often as there is room, and a Push at the end."""
    t = Table()
    names = deep(n, length, n, 0, flip)
    k = (ROWS - (n - 1) - 2 - 1) // 2
    t.rule(names[0], NORMAL, two(SEQ, one(EXACT, t.id(names[-1]), k), one(PUSH, t.str(b""))))
    for name in names[1:]:
        t.rule(name, NORMAL, t.str(b""))
    return t.case()


# -- factor, list, concatenate, rotate

@family
def factor_chain(k=1000, head=30, type_=COMPOUND):
    """A choice of many sides with the same long head."""
    t = Table()
    t.rule(b"r", type_, chain(CHOICE, [two(SEQ, t.str(b"h" * head), t.str(b""))] * k))
    return t.case()


@family
def factor_heads(levels=9, leaf=64, differ=1, type_=COMPOUND):
    """(X ~ x) | (X' ~ y), X the same again: each pair of heads differs at its end only."""
    t = Table()

    def tree(level, end):
        if level == 0:
            return t.str(b"h" * (leaf - 1) + end)
        mine = b"%d" % (level % 10)  # the other side's is another level's, or z
        return two(CHOICE, two(SEQ, tree(level - 1, mine), t.str(b"")), two(SEQ, tree(level - 1, end if differ else mine), t.str(b"")))
    t.rule(b"r", type_, tree(levels, b"z"))
    return t.case()


@family
def factor_deep(k=680, type_=COMPOUND, head=8):
    """(a ~ X) | (a ~ c), nested: factor fires on every level."""
    t = Table()
    a = t.str(b"h" * head)
    tree = t.str(b"")
    for _ in range(k):
        tree = two(CHOICE, two(SEQ, a, tree), two(SEQ, a, t.str(b"")))
    t.rule(b"r", type_, tree)
    return t.case()


@family
def factor_first(levels=8, trees=4, leaf=63, tail=0, fire=1, type_=COMPOUND):
    """X | (X' ~ y) or, where `tail`, (X ~ y) | X', X the same again: each pair differs at its end only. At the end of the rule a Choice that
    is factored: what the scan compares is compared a second and a third time."""
    t = Table()
    y = t.str(b"")

    def tree(level, end):
        if level == 0:
            return t.str(b"h" * (leaf - 1) + end)
        a, b = tree(level - 1, b"%d" % (level % 10)), tree(level - 1, end)
        return two(CHOICE, two(SEQ, a, y), b) if tail else two(CHOICE, a, two(SEQ, b, y))
    last = [two(CHOICE, y, two(SEQ, y, y))] if fire else []
    t.rule(b"r", type_, chain(SEQ, [tree(levels, b"z")] * trees + last))
    return t.case()


@family
def factor_steps(k=1000, leaf=31):
    """(a ~ (a ~ ..)) | (a ~ (a ~ ..)): each factored Choice gives another."""
    t = Table()
    a = t.str(b"h" * leaf)
    side = chain(SEQ, [a] * k)
    t.rule(b"r", NORMAL, two(CHOICE, side, side))
    return t.case()


@family
def factor_pairs(k=500, head=32, type_=COMPOUND, alike_=0):
    t = Table()
    pair = two(CHOICE, two(SEQ, t.str(b"h" * (head - 1) + b"a"), t.str(b"")), two(SEQ, t.str(b"h" * (head - 1) + (b"a" if alike_ else b"b")), t.str(b"")))
    t.rule(b"r", type_, chain(SEQ, [pair] * k))
    return t.case()


@family
def list_nested(levels=9, leaf=64, differ=1, type_=NORMAL):
    """(X ~ x)* ~ X, X the same again."""
    t = Table()

    def tree(level, end):
        if level == 0:
            return t.id(b"h" * (leaf - 1) + end)
        mine = b"%d" % (level % 10)
        return two(SEQ, one(REP, two(SEQ, tree(level - 1, mine), t.id(b"x"))), tree(level - 1, end if differ else mine))
    t.rule(b"r", type_, tree(levels, b"z"))
    return t.case()


@family
def list_deep_right(k=800, leaf=8):
    """((a ~ X)* ~ a), nested in the loop."""
    t = Table()
    a = t.id(b"h" * leaf)
    tree = t.id(b"x")
    for _ in range(k):
        tree = two(SEQ, one(REP, two(SEQ, a, tree)), a)
    t.rule(b"r", NORMAL, tree)
    return t.case()


@family
def list_in_turn(k=585, leaf=8):
    t = Table()
    a = t.id(b"h" * leaf)
    t.rule(b"r", NORMAL, chain(CHOICE, [two(SEQ, one(REP, two(SEQ, a, t.id(b"x"))), a)] * k))
    return t.case()


@family
def strings(k=2048, leaf=31, left_=0, kind=STR):
    t = Table()
    t.rule(b"r", ATOMIC, (left if left_ else chain)(SEQ, [t.lit(kind, b"s" * leaf)] * k))
    return t.case()


@family
def turned(k=2048, kind=CHOICE, leaf=31):
    """A chain that nests to the left."""
    return strings(k, leaf, 1, STR) if kind == SEQ else _turned(k, kind, leaf)


def _turned(k, kind, leaf):
    t = Table()
    t.rule(b"r", NORMAL, left(kind, [t.str(b"s" * leaf)] * k))
    return t.case()


@family
def mixed(k=1023, leaf=31):
    """Seq and Choice by turns, nested to the left."""
    t = Table()
    rows = t.str(b"s" * leaf)
    for i in range(2 * k):
        rows = rows + t.str(b"s" * leaf) + [((SEQ, CHOICE)[i // 2 % 2], 0, 0, len(rows) + 2)]
    t.rule(b"r", ATOMIC, rows)
    return t.case()


@family
def list_first(levels=7, trees=6, leaf=63, fire=1, differ=1):
    """(X ~ x)* ~ X' as in `list_nested`, many times, and at the end one that is listed."""
    t = Table()
    y = t.id(b"")

    def tree(level, end):
        if level == 0:
            return t.id(b"h" * (leaf - 1) + end)
        mine = b"%d" % (level % 10)
        return two(SEQ, one(REP, two(SEQ, tree(level - 1, mine), y)), tree(level - 1, end if differ else mine))
    last = [one(POS, two(SEQ, one(REP, two(SEQ, y, y)), y))] if fire else []
    t.rule(b"r", NORMAL, chain(CHOICE, [tree(levels, b"z")] * trees + last))
    return t.case()


@family
def walked(leaf=31, kind=CHOICE, turned=1, lit=STR, push=1):
    """A chain of literals, and at its end something for every step to change: each step walks it row by row."""
    t = Table()
    after = stirs(t)
    k = (ROWS - 14 - sum(len(tree) + 1 for tree in after)) // 2
    loop = t.loop([t.str(b"")])
    tree = (left if turned else chain)(kind, [t.lit(lit, b"s" * leaf)] * k)
    t.rule(b"r", ATOMIC, chain(SEQ, ([one(PUSH, t.str(b""))] if push else []) + [loop, one(POS, tree)] + after))
    return t.case()


@family
def walked_mixed(k=1400, leaf=31, inner=OPT):
    """The same with Seq and Choice by turns, nested to the left, and a row with one child between."""
    t = Table()
    after = stirs(t)
    rows = one(inner, t.str(b"s" * leaf))
    for i in range(k):
        rows = one(inner, rows + t.lit(INSENS, b"s" * leaf) + [((SEQ, CHOICE)[i % 2], 0, 0, len(rows) + 2)])
        if len(rows) + 50 > ROWS:
            break
    t.rule(b"r", ATOMIC, chain(SEQ, [one(PUSH, t.str(b"")), t.loop([t.str(b"")]), one(POS, rows)] + after))
    return t.case()


@family
def small_rules(n=256):
    """Rules of a few rows, in each of which some step changes something."""
    t = Table()
    for i in range(n):
        s = t.str(b"")
        after = stirs(t)
        t.rule(b"%03d" % i, ATOMIC, after[(i % 4)] if i % 5 else one(PUSH, s))
    return t.case()


@family
def scattered(k=2047, leaf=31):
    """Literals that stand in the text in the other order: each is copied by itself."""
    t = Table(bytes(97 + i % 26 for i in range(leaf * 40)))
    t.rule(b"r", NORMAL, chain(SEQ, [t.str(((i * 7) % (leaf * 39), leaf)) for i in range(k, 0, -1)]))
    return t.case()


# -- refusals

@family
def high(gap=64, length=60, last=1):
    """Bytes above 127 in the text; each literal ends just before one."""
    text = bytearray(b"a" * TEXT)
    for i in range(gap - 1, TEXT, gap):
        text[i] = 200
    rules = [(0, 0, NORMAL, ROWS)]
    rows = []
    for i in range(2048):
        at = i * gap % (TEXT - gap)
        at -= at % gap
        rows.append((STR, at, length if i or not last else gap, 1))
    rows = rows[1:] + rows[:1] if last else rows
    tree = chain(SEQ, [[row] for row in rows])
    rules = [(1, 3, NORMAL, len(tree))]
    return case(rules, tree, text)


@family
def high_overlap(length=65000):
    """One byte above 127 at the text's end, and literals of nearly all before it, at odd offsets."""
    text = bytearray(b"a" * TEXT)
    text[TEXT - 1] = 200
    tree = chain(SEQ, [[(STR, i * 3 % 500, length, 1)] for i in range(2048)])
    return case([(1, 3, NORMAL, len(tree))], tree, text)


@family
def skip_rows(k=4095, leaf=15):
    t = Table()
    n = (ROWS) // (k + 2) or 1
    skip = t.str(b"s" * leaf) * k + [(SKIP, k, 0, k + 1)]
    t.rule(b"r", ATOMIC, chain(SEQ, [skip] * n))
    return t.case()


@family
def spans_fit(k=64, length=1000):
    """Long overlapping literals as heads of a Choice and of a list, in a table whose packed text just fits."""
    t = Table(b"a" * 1200 + b"b" * 10)
    pairs = [two(CHOICE, two(SEQ, t.str((2 * i, length // 2)), t.str((0, 1))), two(SEQ, t.str((2 * i + 1, length // 2)), t.str((0, 2))))
             for i in range(k)]
    t.rule((1200, 1), COMPOUND, chain(SEQ, pairs))
    return t.case()


@family
def exact(n=256):
    """Names, Idents and strings, 65,536 bytes of packed text exactly."""
    t = Table()
    names = plain(n, 20)
    used = 0
    for i in range(n):
        items = [t.id(names[(i * 7 + j) % n]) for j in range(7)]
        used += 20 + 7 * 20
        t.rule(names[i], ATOMIC, chain(SEQ, items + [one(PUSH, t.str(b""))]))
    last = t.rules[-1]
    tree = list(last[4])
    fill = TEXT - used
    at = len(t.text)
    t.text += b"s" * fill
    tree[7] = (STR, at, fill, 1)
    t.rules[-1] = last[:4] + (tree,)
    return t.case()


# further values
MORE = """
kept_all:walks=1 kept_all:walks=1,way=85 kept_all:walks=1,way=85,at=20 kept_all:length=5 kept_all:alias=0 kept_all:back=1
list_all:walks=1,way=85,each=11 list_all:walks=1,way=85 list_all:walks=1 list_all:length=5 list_all:alias=0 list_all:back=1
loop_alias:long=1 loop_alias:flip=1 loop_alias:back=1 loop_alias:loops=8 names_twice:late=0
factor_first:tail=1 factor_first:tail=1,levels=10,trees=1,fire=0 factor_steps:k=500,leaf=63 factor_heads:levels=9,leaf=127
list_first:levels=5,trees=25 list_first:differ=0,fire=0 walked:lit=3 walked:kind=8 walked:turned=0 walked:push=0 walked_mixed:inner=11
names_steps:flip=1 names_fit:flip=1 names_fit_late:flip=1 loop_steps:flip=1 loop_steps:target=0 loop_unknown:flip=1
kept:flip=1 kept:target=0 kept:end=none kept:end=drop kept:loops=8 kept_full:flip=1 kept_full:at=1 kept_each:flip=1
named:flip=1 named:unknown=1 named:unknown=1,flip=1 named:left_=1 named:kind=9 named:kind=9,flip=1
way_deep:flip=1 way_deep:length=0 way_deep:way=120,idle=122
list_deep:flip=1 list_deep:last=0 list_deep:tops=2000 list_deep:tops=2000,flip=1 list_deep:d=1,tops=2000 list_deep:d=1,tops=2000,flip=1
list_loops:flip=1 list_loops:k=8 list_full:leaf=16 list_full:d=30,leaf=0 list_full:d=13,way=200 list_none:flip=1
searches:kind=hash,length=33 searches:kind=deep,length=5 searches:kind=flip,length=5 searches:kind=deep,length=26
ring:flip=1 ring:yes=-2 ring:yes=0 ring:step=37 forward:flip=1 forward:yes=0 backward:flip=1 backward:yes=-1 rings:flip=1 rings:size=2
spread:flip=1 spread:yes=20 spread:yes=0 hub:flip=1 all_yes:flip=1
unroll_nested:kind=15,levels=10,x=2 unroll_nested:kind=16,x=1,y=2 unroll_nested:kind=13,levels=12 unroll_wide:kind=15,x=1365 unroll_wide:x=2048,leaf=32
unroll_ones:kind=15 unroll_ones:kind=16,x=0,y=1 unroll_names:flip=1
factor_chain:type_=0 factor_heads:differ=0 factor_heads:levels=8,leaf=128 factor_deep:type_=0 factor_pairs:alike_=1
list_nested:differ=0 list_nested:levels=8,leaf=120
names_steps:back=1 names_fit:back=1 names_fit_late:back=1 loop_steps:back=1 loop_steps:flip=1,back=1 kept:back=1 kept:flip=1,back=1
kept:end=none,back=1 kept:loops=8,back=1 kept_full:back=1 kept_each:back=1 named:back=1 named:unknown=1,back=1 named:kind=9,back=1
way_deep:back=1 way_deep:length=0,back=1 list_deep:back=1 list_deep:tops=2000,back=1 list_deep:d=1,tops=2000,back=1 list_loops:back=1
list_loops:k=8,back=1 list_none:back=1 searches:kind=deep,length=5,back=1 ring:back=1 forward:back=1 backward:back=1 rings:back=1
spread:back=1 hub:back=1 all_yes:back=1 unroll_names:back=1 loop_unknown:back=1
strings:left_=1 strings:kind=1 turned:kind=8 high:last=0 high:gap=65 skip_rows:k=2 skip_rows:k=1
""".split()


def build(word):
    name, _, rest = word.partition(":")
    values = {}
    for part in filter(None, rest.split(",")):
        key, value = part.split("=")
        values[key] = int(value) if value.lstrip("-").isdigit() else value
    Table.back = values.pop("back", 0)
    return FAMILIES[name](**values)


def main():
    out, words = sys.argv[1], sys.argv[2:] or list(FAMILIES) + MORE
    os.makedirs(out, exist_ok=True)
    with open(os.path.join(out, "fits"), "w") as fits:
        for word in words:
            data = build(word)
            with open(os.path.join(out, word + ".case"), "wb") as file:
                file.write(data)
            fits.write("%s %d\n" % (word, packed(data)))


if __name__ == "__main__":
    main()
