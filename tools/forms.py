#!/usr/bin/env python3
"""Counts the places in src/ that docs/DESIGN-PASS.md speaks of, a line for each kind of place.

usage: python3 tools/forms.py [-l] [COMMIT]    of the work tree, or of a commit; -l lists the places too
"""
import re
import subprocess
import sys

PARAMETERS = [
    ("format, archive, tables, context", ["f", "archive", "tables", "context"]),
    ("archive and room", ["archive", "room"]),
    ("out and at", ["out", "at"]),
    ("out and place", ["out", "place"]),
    ("slots and stretch", ["slots", "stretch"]),
    ("source and its place", ["source", "(?:place|start)"]),
    ("context and until", ["context", "until"]),
]
FACTS = ["FormatFits", "Wide", "RoomFits", "CanCount", "RecordIs", "LayoutFits", "Inside", "RemembersIn"]


def files(commit):
    """The name and the text of each file of code."""
    if commit:
        names = subprocess.run(["git", "ls-tree", "-r", "--name-only", commit, "crates"], capture_output=True, text=True, check=True).stdout.split()
    else:
        names = subprocess.run(["git", "ls-files", "-co", "--exclude-standard", "crates"], capture_output=True, text=True, check=True).stdout.split()
    for name in sorted(names):
        if re.fullmatch(r"crates/\w+/src/.*\.rt", name):
            if commit:
                text = subprocess.run(["git", "show", f"{commit}:{name}"], capture_output=True, text=True, check=True).stdout
            else:
                with open(name, encoding="utf-8") as file:
                    text = file.read()
            yield name, text


def enums(text):
    """Each enum with the names of its cases."""
    for match in re.finditer(r"enum (\w+) \{\n(.*?)\n\}", text, re.S):
        yield match.group(1), re.findall(r"^    (\w+)", match.group(2), re.M), match.start()


def structs(text):
    for match in re.finditer(r"struct (\w+)(?:<[^>]*>)? \{\n(.*?)\n\}", text, re.S):
        yield match.group(1), re.findall(r"^    (?:pub )?(\w+): ([^\n]*),", match.group(2), re.M), match.start()


def functions(text):
    """Each function's name, parameters and clauses."""
    for match in re.finditer(r"fn (\w+)(?:<[^>]*>)?\(([^{]*?)\)(?: -> [^\n{]*)?((?:\n    (?:requires|ensures)[^\n]*)*)\s*\n?\{", text):
        yield match.group(1), match.group(2), match.group(3), match.start()


def places(text):
    """The kinds of places in one file: (point, kind, what, where)."""
    for name, cases, at in enums(text):
        if len(cases) == 2 and set(cases) & {"Refused", "Nothing", "None", "Failed"}:
            yield "1", "enums of two cases, one of them Refused, Nothing, None or Failed", name, at
    for name, fields, at in structs(text):
        flags = [field for field, kind in fields if kind == "bool" or (field == "number" and kind == "u8")]
        if flags and len(fields) > len(flags):
            yield "1", "structs with a flag or a number of a refusal beside a value", name, at
    for match in re.finditer(r"^//[^\n]*\bor (?:a )?0\b[^\n]*", text, re.M):
        yield "1", "numbers with 0 for none, as a comment says", match.group(0)[3:60], match.start()
    for match in re.finditer(r"\btable: u64", text):
        yield "1", "a table by the number of its records' type", match.group(0), match.start()
    for match in re.finditer(r"^const \w+: u8 |^pub const \w+: u8 ", text, re.M):
        yield "1", "constants for refusals", match.group(0), match.start()
    for match in re.finditer(r"^ *(?:while|loop) [^\n]*", text, re.M):
        yield "3", "while and loop", match.group(0).strip(), match.start()
    for match in re.finditer(r"fn (\w*(?:bits?_of|_half|unsigned_word|one_if|wide|least|both|same_each|same_by_bytes|scalar_type|_choice|byte_of|id_of))\(", text):
        yield "4", "conversions and comparisons written by hand", match.group(1), match.start()
    for name, parameters, clauses, at in functions(text):
        for kind, names in PARAMETERS:
            if all(re.search(rf"\b{one}:", parameters) for one in names):
                yield "6" if kind.startswith("out") else "5", f"parameters {kind}", name, at
        for fact in FACTS:
            if any(re.search(rf"\b{fact}\b", line) for line in clauses.split("\n") if "requires" in line):
                yield "5", f"requires {fact}", name, at
        for flag in re.findall(r"\b(\w+): bool", parameters):
            yield "7", "flags handed to a function", f"{name}({flag})", at


def main():
    arguments = [one for one in sys.argv[1:] if one != "-l"]
    found = {}
    for name, text in files(arguments[0] if arguments else None):
        for point, kind, what, at in places(text):
            found.setdefault((point, kind), []).append(f"{name}:{text.count(chr(10), 0, at) + 1} {what}")
    for (point, kind), all_of in sorted(found.items()):
        print(f"{point}  {len(all_of):4}  {kind}")
        if "-l" in sys.argv:
            for one in all_of:
                print(f"          {one}")


main()
