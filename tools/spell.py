#!/usr/bin/env python3
"""Spells this repository's own definitions and lemmas as today's Rattle does: words in snake case, types in camel case.

usage: python3 tools/spell.py      at the top, once, right after the kit's port.py

A name that a file of specs/ or a lemma file of proofs/ declares turns everywhere: asSeq to as_seq, tells-yes to tells_yes.
A type at the head of a name keeps its dash, as in Lit-discrete. Names that would fall together are in TOGETHER, by hand.
In proofs/F/Proof.antt a name behind a dot stays if Rattle made it of a name of the source; comments keep their words, but not names in camel case.
"""
import collections
import os
import re

TOKEN = r"""[^\s(){}.;,@"«»\[\]|`]+"""
DECLARED = re.compile(r"^\s*(?:(?:abbrev|unfoldable|data|record|pub|pattern|ruleset)\s+)*((?:[^\s:(){}=.;,]+\s+)+?)(?:[({].*)?:(?:\s|$)")
DERIVED = re.compile(r"deriving \S+ as (\S+)")
MADE = re.compile(r"Tie|Lts|Statement|Goals|Given")

# a lemma or a field whose name would be that of another definition: a lemma ends in _lem, a field has another word
TOGETHER = {
    "as-rep": "as_rep_lem",
    "loop-over": "loop_over_lem",
    "rotate-step": "rotate_step_lem",
    "meets-given": "meets_given_lem",
    "rule-words": "rule_words_lem",
    "row_words": "row_words_lem",
    "top-size": "top_size_lem",
    "of-table": "of_table_lem",
    "factor-step": "factor_step_lem",
    "changes-lit": "changes_lit_lem",
    "zero-un": "zero_un_lem",
    "of-read": "of_read_lem",
    "name-length": "name_length_lem",
    "shape-in": "shape_in_lem",
    "over-of": "over_of_lem",
    "tree-size": "tree_size_lem",
    "first-falls": "first_falls_lem",
    "second-falls": "second_falls_lem",
    "is-bin": "is_bin_lem",
    "ends-lit": "ends_lit_lem",
    "node-from": "node_from_lem",
    "not-atomic": "not_atomic_lem",
    "same-cell": "same_cell_lem",
    "text-by": "text_by_lem",
    "name-list": "name_list_lem",
    "by-mark": "by_mark_lem",
    "skip-of": "skip_of_lem",
    "seven-of": "seven_of_lem",
    "same_head": "same_head_lem",
    "no_words": "no_words_lem",
    "shape-of": "shape_of_lem",
    "skip_step": "skip_step_lem",
    "read_found": "read_found_lem",
    "at_left": "at_left_lem",
    "at_right": "at_right_lem",
}


def files(*endings):
    for folder, dirs, names in os.walk("crates"):
        dirs[:] = sorted(d for d in dirs if d != "out")
        for it in sorted(names):
            if it.endswith(endings):
                yield os.path.join(folder, it)


def read(path):
    with open(path, encoding="utf-8") as f:
        return f.read()


def snake(name):
    if name[0].isupper():
        return name
    words = re.sub(r"(?<=[a-z0-9])[A-Z]", lambda m: "_" + m[0].lower(), name)
    return re.sub(r"(?<=[\w'])-(?=\w)", "_", words)


def declared():
    found = set()
    for path in files(".antt"):
        if path.endswith("/Proof.antt"):
            continue
        for line in re.sub(r"--[^\n]*", "", read(path)).split("\n"):
            m = DECLARED.match(line)
            found.update(m[1].split() if m else [])
            found.update(DERIVED.findall(line))
    return found


def borrowed(text):
    """The names that the file has from a library, and the aliases of the modules that Rattle makes."""
    theirs, made = set(), set()
    for path, items, alias in re.findall(r"(?m)^(?:ghost )?use ([^\s{;]+?)(?:\.\{([^}]*)\})?(?: as (\S+?))?;?$", text):
        if items and not re.match(r"Rattle\.(?!std\b|core\b)", path):
            theirs.update(re.findall(TOKEN, items))
        if alias and MADE.search(path):
            made.add(alias)
    return theirs, made


def turn(text, table, comment, keep_behind_dot):
    theirs, made = borrowed(text)
    own = {old: new for old, new in table.items() if old not in theirs}

    def code(part):
        def one(m):
            word = m[0]
            before = part[max(0, m.start() - 200) : m.start()]
            if before.endswith("."):
                head = re.search(rf"({TOKEN})\.(?:{TOKEN}\.)*$", before)
                if head and head[1] in made or word in keep_behind_dot:
                    return word
            return own.get(word, word)

        return re.sub(TOKEN, one, part)

    def remark(part):
        return re.sub(TOKEN, lambda m: own.get(m[0], m[0]) if re.search("[a-z0-9][A-Z]", m[0]) else m[0], part)

    out, at = [], 0
    for m in re.finditer(rf'{comment}[^\n]*|"(?:\\.|[^"\\\n])*"', text):
        out += [code(text[at : m.start()]), m[0] if m[0][0] == '"' else remark(m[0])]
        at = m.end()
    return "".join(out + [code(text[at:])])


def main():
    # the last three are bound by a lemma's signature or a clause
    names = declared() | {"leftMarks", "rightMarks", "rotatedIn"}
    table = {it: snake(it) for it in names}
    table.update(TOGETHER)
    table = {old: new for old, new in table.items() if old != new}
    made = collections.Counter(table.values())
    for new, n in made.items():
        if n > 1:
            print(f"falls together: {new}")
    # what Rattle makes is named after functions and variables of the source
    source = set(re.findall(r"\w+", "\n".join(read(it) for it in files(".rt"))))
    steps = {it for it in table if re.sub(r"-?\d+$|-requires|-ensures", "", it).replace("-", "_") in source}
    for path in files(".antt", ".rt", ".edit"):
        text = read(path)
        if path.endswith(".edit"):
            new = "\n".join(turn(it, table, "#", ()) if it.startswith(("old:", "new:")) else it for it in text.split("\n"))
        else:
            new = turn(text, table, "--" if path.endswith(".antt") else "//", steps if path.endswith("/Proof.antt") else ())
        if new != text:
            with open(path, "w", encoding="utf-8") as f:
                f.write(new)
    print(f"{len(table)} names")


if __name__ == "__main__":
    main()
