#!/usr/bin/env python3
"""Pairs of tables for comparing, in replay's format:  beside.py OUT_FOLDER

For each pair NAME.left and NAME.right. `reverse`: two full tables, 256 rules of 16 rows and 65,536 bytes of text, equal rules in reverse order;
`bare`: the same with literals of one byte. The others are hostile: spans overlap, so that a text counts once for each row that names it."""
import os
import struct
import sys

STR, SEQ, OPT, SKIP = 0, 8, 10, 17
TEXT = 65536


def case(rules, rows, text):
    words = [w for rule in rules for w in rule], [w for row in rows for w in row]
    head = struct.pack("<4I", len(words[0]), len(words[1]), len(text), 0)
    return head + b"".join(struct.pack("<%dI" % len(w), *w) for w in words) + bytes(text)


def full(length, back):
    """256 rules, each Opt of eight strings of that length in Seq."""
    rules, rows, text = [], [], bytearray()

    def put(s):
        text.extend(s)
        return len(text) - len(s), len(s)

    for i in sorted(range(256), reverse=back):
        name = put(b"rule%04d" % i)
        for k in range(8):
            rows.append((STR, *put((b"%d_%d_" % (i, k)).ljust(length, b"abcdefgh"[k:k + 1])[:length]), 1))
        rows += [(SEQ, 0, 0, 2 * k + 3) for k in range(7)] + [(OPT, 0, 0, 16)]
        rules.append((*name, i % 5, 16))
    return case(rules, rows, text)


def spans(names, length, back):
    """The first rule is a Skip, the others a string each: 4,096 rows but one, all strings of that length. Names: of equal length, or each a
    byte shorter than the one before, and nearly all of the text."""
    text = bytearray(b"a" * TEXT)
    if names == "unlike":  # equal lengths: each name but the first has the one b, each at another place
        text[TEXT - 256] = ord("b")
    rules, rows = [], []
    for i in sorted(range(256), reverse=back):
        name = {"short": (i, 256 - i), "shorter": (0, TEXT - i), "unlike": (i, TEXT - 255)}[names]
        count = 4095 - 255 if i == 0 else 0
        rows += [(STR, 0, length, 1)] * count + [(SKIP, count, 0, count + 1) if i == 0 else (STR, 0, length, 1)]
        rules.append((*name, 0, count + 1))
    return case(rules, rows, text)


def main():
    os.makedirs(sys.argv[1], exist_ok=True)
    pairs = {"reverse": lambda back: full(31, back), "bare": lambda back: full(1, back)}
    for names in ("short", "shorter", "unlike"):
        for length in (1, 31, TEXT - 33, TEXT - 32, TEXT - 1, TEXT):
            pairs["%s_%d" % (names, length)] = lambda back, names=names, length=length: spans(names, length, back)
    for name, make in pairs.items():
        for side, back in (("left", False), ("right", True)):
            with open(os.path.join(sys.argv[1], name + "." + side), "wb") as out:
                out.write(make(back))


main()
