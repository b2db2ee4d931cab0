#!/usr/bin/env python3
"""Respells the repository's own antt names as today's Rattle spells names: words in snake case, a dash only between two names.

usage: tools/respell.py [--check]     at the top of the repository, after port.py

It turns the definitions, constructors, fields and lemmas of specs/ and proofs/, wherever .rt, .antt and .edit files name them.
Types and facts keep their capitals. Functions of src/, strings and comments of programs' output keep their names.
A name whose new spelling stands in a file already is left, and a line 'left:' says so.
"""

import os
import re
import sys

WORD = r"[^\s(){}.;,@\"«»\[\]λ|]+"
DECLARED = re.compile(rf"(?m)^ *(?:(?:abbrev|opaque|unfoldable|pub|instance|record|data) +)*({WORD}(?: {WORD})*?)(?: [({{][^\n]*?[)}}])* :(?: |$)")
TOKEN = re.compile(r"[^\s(){}.;,@\"«»\[\]|]+")
# names of the library that a dash of ours joins
OF_STD = set("length take drop append get_or replicate map set reverse sum nat_eq eqb leb ltb suc zero add mul sub min max div mod pow".split())
# names of lemmas and of steps that a new spelling would meet, by the folder or file where they stand
FIRST = [
    ("crates/indexing/proofs/", "index_word", "index_word_lem"),
    ("crates/encoding/proofs/", "part_bytes", "part_bytes_lem"),
    ("crates/reader/proofs/step_record/", "layout_of", "layout_call"),
    ("crates/first_pass/proofs/count_known/", "label_of", "label_call"),
    ("crates/views/proofs/find_argument/", "layout_of", "layout_call"),
]
# a call and a clause's label that have the new spelling, which are no names of antt's
APART = {("crates/exports/src/lib.rt", "given_state"), ("crates/passes/src/lib.rt", "tables_after"), ("crates/exports/src/lib.rt", "tables_after")}
KEYWORDS = set("use mod module let in where rw if then else case elim unfolding pub abbrev".split())


def files():
    for top in sorted(os.listdir("crates")):
        for folder, dirs, names in os.walk(os.path.join("crates", top)):
            dirs[:] = sorted(d for d in dirs if d != "out")
            for name in sorted(names):
                if name.endswith((".antt", ".rt", ".edit")):
                    yield os.path.join(folder, name)


def of_function(path):
    return path.endswith(("/Proof.antt", "/Answers.antt", "/Invariants.antt"))


def declared(text):
    for m in DECLARED.finditer(text):
        for word in m[1].split():
            yield word


def is_word(name):
    return re.fullmatch(r"[A-Za-z][\w'-]*", name) and name not in KEYWORDS and "◌" not in name


def snake(part):
    """A part between dashes: a fact or a type keeps its capitals."""
    if part[:1].isupper():
        return part
    return re.sub(r"(?<=[a-z0-9'])([A-Z])", lambda m: "_" + m[1].lower(), part)


def respelled(name, known):
    parts = [snake(p) for p in name.split("-")]
    new = parts[0]
    for left, right in zip(parts, parts[1:]):
        joins = left in known and right in known
        new += ("-" if joins else "_") + right
    return new


def main(argv):
    texts = {}
    for path in files():
        with open(path, encoding="utf-8") as f:
            texts[path] = f.read()
    for place, old, new in FIRST:
        for path, text in texts.items():
            if path.startswith(place):
                texts[path] = re.sub(rf"(?<![\w.'-]){old}(?![\w'-])", new, text)
    names, words = set(), set()
    for path, text in texts.items():
        if path.endswith(".antt") and not of_function(path):
            found = {w for w in declared(re.sub(r"--.*", "", text)) if is_word(w)}
            names |= found | {w for w in re.findall(r"\bas ([\w'-]+)", text) if is_word(w)}
            if "/specs/" in path:
                words |= {snake(w) for w in found if "-" not in w}
    known = words | OF_STD
    table = {n: respelled(n, known) for n in names}
    table = {old: new for old, new in table.items() if old != new}
    # names that fall together: the new spelling stands already where the old one is named, or two take one spelling
    by_new = {}
    for old, new in table.items():
        by_new.setdefault(new, []).append(old)
    tokens = {p: {m[0] for m in TOKEN.finditer(t) if t[m.start() - 1 : m.start()] != "."} for p, t in texts.items()}
    left = {}
    # a lemma that would have its function's name
    for new, olds in list(by_new.items()):
        for old in olds:
            if (len(olds) > 1 or new in names) and "-" in old:
                table[old] = new + "_lem"
    by_new = {}
    for old, new in table.items():
        by_new.setdefault(new, []).append(old)
    for new, olds in by_new.items():
        if len(olds) > 1:
            for old in olds:
                left[old] = f"{', '.join(sorted(olds))} would all be {new}"
        for old in olds:
            for p in texts:
                if old in tokens[p] and new in tokens[p] and (p, new) not in APART and not (p.endswith(".rt") and re.search(rf"\bfn {re.escape(new)}\b", texts[p]) and not re.search(rf"\b{re.escape(new)}\s*:(?!:)|\blet (?:mut )?{re.escape(new)}\b", texts[p])):
                    left.setdefault(old, f"{new} stands in {p}")
    for old, why in sorted(left.items()):
        print(f"left: {old}: {why}")
        del table[old]
    print(f"{len(table)} names")
    if "--check" in argv:
        for old, new in sorted(table.items()):
            print(f"  {old} -> {new}")
        return
    camel = {o for o in table if re.search(r"[a-z0-9'][A-Z]", o)}

    def turn(path, text):
        out, last = [], 0
        for m in TOKEN.finditer(text):
            word = m[0]
            if word not in table:
                continue
            before = text[m.start() - 1] if m.start() else ""
            # behind a dot a name with dashes may be a step of a proof of a function, which Rattle names
            if before == "." and word not in camel and of_function(path):
                continue
            if path.endswith((".rt", ".edit")) and word not in camel and "-" not in word:
                continue
            if path.endswith(".rt") and "-" in word and not re.search(r"[{(≡ ]", before):
                continue
            out += [text[last : m.start()], table[word]]
            last = m.end()
        return "".join(out) + text[last:]

    for path, text in texts.items():
        new = turn(path, text)
        with open(path, encoding="utf-8") as f:
            before = f.read()
        if new != before:
            with open(path, "w", encoding="utf-8") as f:
                f.write(new)


if __name__ == "__main__":
    main(sys.argv[1:])
