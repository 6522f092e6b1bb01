#!/usr/bin/env python3
"""Tables for explaining, in replay's format, and the row to ask for:  explain.py OUT_FOLDER     (a line NAME ROW for each on standard output)

`doubling`: a list of 2^200 strings in 202 rules. `full`: a loop over a Choice of 2,044 strings. The others are hostile: names are nearly all of the
text, alike but for one byte each and so found by long ways; each of 255 rules names the next one, as often as rows allow, and the last one is a string
(`names`), an unknown name (`names_unknown`) or the first of them (`names_again`)."""
import os
import struct
import sys

STR, IDENT, NEG, SEQ, CHOICE, REP = 0, 3, 7, 8, 9, 11
NORMAL, ATOMIC = 0, 2
TEXT = 65536


def case(rules, rows, text):
    words = [w for rule in rules for w in rule], [w for row in rows for w in row]
    head = struct.pack("<4I", len(words[0]), len(words[1]), len(text), 0)
    return head + b"".join(struct.pack("<%dI" % len(w), *w) for w in words) + bytes(text)


def chain(leaves):
    """A right-nested Choice."""
    return leaves + [(CHOICE, 0, 0, 2 * k + 3) for k in range(len(leaves) - 1)]


def until(leaves, any_at):
    rows = chain(leaves)
    n = len(rows)
    return rows + [(NEG, 0, 0, n + 1), (IDENT, any_at, 3, 1), (SEQ, 0, 0, n + 3), (REP, 0, 0, n + 4)]


def doubling():
    text, spans = bytearray(b"ANY"), []
    for i in range(202):
        spans.append((len(text), 4))
        text += b"n%03d" % i
    bodies = [until([(IDENT, *spans[1], 1)], 0)]
    bodies += [chain([(IDENT, *spans[i + 1], 1)] * 2) for i in range(1, 201)] + [[(STR, 0, 1, 1)]]
    return table(bodies, spans, text)


def full():
    text = bytearray(b"ANYr")
    bodies = [until([(STR, 0, 1, 1)] * 2044, 0)]
    return table(bodies, [(3, 1)], text)


def names(last):
    text = bytearray(b"a" * TEXT)
    text[TEXT - 3:] = b"ANY"
    length = TEXT - 3 - 255
    text[length - 1] = ord("b")
    spans = [(i, length) for i in range(256)]
    counts = [8] * 254
    counts[0] += (4096 - 5 - 1 - 15 * 254) // 2
    ends = {"string": (STR, 0, 1, 1), "unknown": (IDENT, 0, length - 1, 1), "again": (IDENT, *spans[1], 1)}
    bodies = [until([(IDENT, *spans[1], 1)], TEXT - 3)]
    bodies += [chain([(IDENT, *spans[i + 2], 1)] * counts[i]) for i in range(254)] + [[ends[last]]]
    return table(bodies, spans, text)


def table(bodies, spans, text):
    rules = [(*span, ATOMIC if i == 0 else NORMAL, len(body)) for i, (span, body) in enumerate(zip(spans, bodies))]
    return case(rules, [row for body in bodies for row in body], text), len(bodies[0]) - 1


os.makedirs(sys.argv[1], exist_ok=True)
for name, (data, row) in (("doubling", doubling()), ("full", full()), ("names", names("string")), ("names_unknown", names("unknown")),
                          ("names_again", names("again"))):
    with open(os.path.join(sys.argv[1], name), "wb") as out:
        out.write(data)
    print(name, row)
