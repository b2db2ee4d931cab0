#!/usr/bin/env python3
"""Turns proofs that walk the code (Proof.antt over Tie) into invariants and answers.

usage: tools/answers.py NAMES CRATE [FUNCTION..]

NAMES is the folder that 'rt names' wrote at the top of the repository, CRATE a crate's folder. A proof whose names all turn is replaced by
Invariants.antt and Answers.antt beside it; what did not turn is said.
"""

import json
import os
import re
import sys

IDENT = r"[^\s(){}.;,@\"«»\[\]λ|]+"
PATH = rf"{IDENT}(?:\.{IDENT})*"
plain = lambda it: re.sub(r"[-_]", "", it)
OF_START = {"args", "requires", "ranges", "lifetimes", "well_formed", "captures", "utf8"}
SKIP = {"search rules"}


def nested(comps, n):
    """The index that .1.1.0 or .1.1 stands for in a product of n parts, and what follows."""
    i = 0
    while i < n - 1 and comps[i : i + 1] == ["1"]:
        i += 1
    if i == n - 1:
        return i, comps[i:]
    if comps[i : i + 1] == ["0"]:
        return i, comps[i + 1 :]
    return None, comps


def product(parts, sign):
    """The parts as one product, whose second part is that of the rest."""
    return f"({parts[0]}{sign}{parts[1] if len(parts) == 2 else product(parts[1:], sign)})"


class Function:
    def __init__(self, data, notes):
        self.d, self.notes = data, notes
        self.places = {p[0]: i for i, p in enumerate(data["places"])}
        self.params = {plain(k): v for k, v in data["params"].items()}

    def step(self, p, name):
        """The nearest place at or before p whose step has this name."""
        while self.d["places"][p][1] is not None:
            place = self.d["places"][p]
            if plain(place[2][0]) == plain(name):
                return p
            p = self.places[place[1]]
        return None

    def text(self, at, comps):
        """The new path of comps, which began at the goal's place, or None for a place itself."""
        comps = [c for i, c in enumerate(comps) if c != "before" or any(x != "before" for x in comps[:i])]
        if not comps:
            return None
        name, rest = comps[0], comps[1:]
        name = "place_in" if name == "IsPlace-in" else name
        if name.replace("-", "_") in OF_START:
            name = name.replace("-", "_")
            pre = self.d["pre"]
            if name == "requires" and pre and rest:
                i, more = nested(rest, len(pre["fields"]))
                if i is not None:
                    rest = [pre["fields"][i], *more]
            elif name == "requires" and pre:
                return product([f"c.requires.{f}" for f in pre["fields"]], ", ")
            return ".".join(["c", name, *rest])
        q = self.step(at, name)
        if q is None:
            self.notes.append(f"no step {name} at {self.d['places'][at][0]}")
            return ".".join(["c", *comps])
        place = self.d["places"][q]
        arm = self.d["arms"][q]
        if arm:
            best = None
            for field, old, path in arm[2]:
                if plain(old) == plain(name) and rest[: len(path)] == path and path and (best is None or len(path) > len(best[1])):
                    best = (field, path)
            if best:
                return ".".join(["c", arm[0], best[0], *rest[len(best[1]) :]])
        for var, old in self.d["typed"][at]:
            if plain(old) == plain(name) and rest[:1] == ["given"]:
                return ".".join(["c", "type_inv", var, *rest[1:]])
        clauses = self.d["clauses"][q]
        if rest == ["ensures"] and clauses:
            return product([f"c.{place[2][1]}.ensures.{f}" for f in clauses["fields"]], ", ")
        rest = self.fields(q, rest)
        return ".".join(["c", place[2][1], *rest])

    def fields(self, q, rest):
        place, clauses = self.d["places"][q], self.d["clauses"][q]
        if rest[:1] == ["ensures"] and clauses and len(rest) > 1:
            i, more = nested(rest[1:], len(clauses["fields"]))
            if i is not None:
                return ["ensures", clauses["fields"][i], *more]
        if rest[:1] == ["new"] and place[3] and len(rest) > 1:
            names = self.params.get(plain(place[3]), [])
            i, more = nested(rest[1:], len(names) + 1)
            if i is not None and i < len(names):
                return ["new", names[i], *more]
        return rest


def turn(fn, at, body):
    """A body with each path from a place turned."""
    env = {"c": []}
    out, i, depth, shadows = [], 0, 0, []
    let = re.compile(rf"let ({IDENT}) = ({PATH}) in(?=\s)\s*")
    lam = re.compile(rf"λ ((?:{IDENT}|\({IDENT}(?: {IDENT})* : [^()]*\))(?: (?:{IDENT}|\({IDENT}(?: {IDENT})* : [^()]*\)))*)\. ")
    path = re.compile(PATH)
    while i < len(body):
        m = let.match(body, i)
        if m and (i == 0 or body[i - 1] in " \n("):
            comps = m[2].split(".")
            if comps[0] in env and comps[0] not in [s for s, _ in shadows]:
                env[m[1]] = env[comps[0]] + comps[1:]
                i = m.end()
                continue
            env.pop(m[1], None)
        m = re.match(rf"let ({IDENT}) (?=[:=])", body[i:])
        if m and m[1] in env:
            env.pop(m[1])
        m = lam.match(body, i)
        if m:
            names = re.findall(IDENT, re.sub(r" : [^()]*", "", m[1]))
            shadows += [(n, depth) for n in names]
            out.append(m[0])
            i = m.end()
            continue
        ch = body[i]
        if ch in "([{":
            depth += 1
        elif ch in ")]}":
            depth -= 1
            shadows = [(n, d) for n, d in shadows if d <= depth]
        m = path.match(body, i)
        if m and (i == 0 or not re.match(r"[^\s(){};,\[\]λ|]", body[i - 1])):
            comps = m[0].split(".")
            if comps[0] in env and comps[0] not in [s for s, _ in shadows]:
                out.append(fn.text(at, env[comps[0]] + comps[1:]) or "c")
            else:
                out.append(m[0])
            i = m.end()
            continue
        out.append(ch)
        i += 1
    return "".join(out)


def top_tuple(body):
    """The parts of a body that is one tuple, or None."""
    body = body.strip()
    if not (body.startswith("(") and body.endswith(")")):
        return None
    parts, depth, last = [], 0, 1
    for i, ch in enumerate(body):
        depth += (ch in "([{") - (ch in ")]}")
        if depth == 0 and i < len(body) - 1:
            return None
        if depth == 1 and ch == ",":
            parts.append(body[last:i].strip())
            last = i + 1
    tail = body[last:-1].strip()
    if tail:
        parts.append(tail)
    return parts if len(parts) > 1 else None


def as_record(names, body, helpers):
    """An answer with a field for each clause, of one for their product."""
    parts = top_tuple(body)
    while parts and len(parts) < len(names) and top_tuple(parts[-1]):
        parts[-1:] = top_tuple(parts[-1])
    if parts and len(parts) == len(names):
        inner = ";\n".join(f"      {n} = {p}" for n, p in zip(names, parts))
        return f"record {{\n{inner};\n    }}"
    if tuple(names) not in helpers:
        helpers[tuple(names)] = "by_clause" if not helpers else "by_clauses_of_" + "_".join(names)
    return f"{helpers[tuple(names)]} ({body.strip()})"


def helper(name, names):
    types = [chr(ord("A") + i) for i in range(len(names))]
    picks = [f"{n} = w{'.1' * i}{'' if i == len(names) - 1 else '.0'}" for i, n in enumerate(names)]
    return (
        f"-- the clauses, of their product\n{name} : {{{' '.join(types)} : Type 0}} → {product(types, ' × ')[1:-1]} → record {{ {'; '.join(f'{n} : {t}' for n, t in zip(names, types))} }}\n"
        f"{name} w = record {{ {'; '.join(picks)} }}"
    )


def definitions(text):
    """The file's head and its definitions: (name, type, marks, unfolding, clauses) in order."""
    lines = text.split("\n")
    starts = [i for i, l in enumerate(lines) if re.match(rf"(?:abbrev |pub |unfoldable )*{IDENT} :", l)]
    heads = []
    for i in starts:
        j = i
        while j and lines[j - 1].startswith("--"):
            j -= 1
        heads.append(j)
    first = heads[0] if heads else len(lines)
    out = []
    for k, (i, h) in enumerate(zip(starts, heads)):
        end = heads[k + 1] if k + 1 < len(heads) else len(lines)
        out.append((h, "\n".join(lines[h:i]), "\n".join(lines[i:end]).rstrip()))
    return "\n".join(lines[:first]), out


def convert(crate, folder, data):
    path = os.path.join(folder, "Proof.antt")
    with open(path, encoding="utf-8") as f:
        text = f.read()
    notes = []
    fn = Function(data, notes)
    module = data["module"]
    head, defs = definitions(text)
    needs = data["needs"]
    by_old = {}
    for k, (old, new) in enumerate(needs):
        by_old[plain(old)] = k
    settled = {plain(s) for s in data["settled"]}

    def find(need, name):
        forms = [need, re.sub(r"^overflow-", "", need), re.sub(r"^slice-bounds-", "part-", need), re.sub(r"^slice-bounds-", "", need), re.sub(r"^(nonzero|bounds|offset-bounds)-", "", need), re.sub(r"^bounds-", "index-", need)]
        for form in forms:
            if plain(form) in by_old:
                return by_old[plain(form)]
        news = {plain(new): k for k, (old, new) in enumerate(needs)}
        if plain(need) in news:
            return news[plain(need)]
        if plain(name) in by_old:
            return by_old[plain(name)]
        return None

    invariants, answers, spec, helpers = [], [], None, {}
    kinds = {}
    for h, comment, body in defs:
        m = re.match(rf"((?:abbrev |pub |unfoldable )*)({IDENT}) : (.*)", body)
        name, type_ = m[2], m[3]
        if re.search(r"\bstatement M\b", type_):
            spec = (name, body)
            continue
        t = re.match(rf"tie\.(invariant|decreases)-({IDENT})$", type_.strip())
        if t:
            kinds[name] = ("inv", t[1], t[2])
            continue
        t = re.match(rf"tie\.Need-({IDENT})((?: {IDENT})*)$", type_.strip())
        if t:
            kinds[name] = ("need", find(t[1], name), t[1])
    # the spec's arguments, in order
    inline = {}
    if spec:
        body = spec[1].split("=", 1)[1]
        s = body.find("tie.spec")
        args, depth, i, start = [], 0, s + len("tie.spec"), None
        while i < len(body):
            ch = body[i]
            if ch in "([{":
                if depth == 0:
                    start = i
                depth += 1
            elif ch in ")]}":
                depth -= 1
                if depth < 0:
                    break
                if depth == 0:
                    args.append(body[start : i + 1])
            elif depth == 0 and not ch.isspace():
                m = re.match(IDENT, body[i:])
                args.append(m[0] if m else ch)
                i += len(m[0]) - 1 if m else 0
            i += 1
        args = [a for a in args if kinds.get(a, ("",))[0] != "inv"]
        used = {kinds[a][1] for a in args if a in kinds and kinds[a][0] == "need"}
        exact = len(args) == len(needs)
        for k, a in enumerate(args):
            if a in kinds:
                if exact and kinds[a][0] == "need" and kinds[a][1] != k:
                    notes.append(f"{a} maps to {kinds[a][1]} but stands at {k}: taken by its place")
                    kinds[a] = ("need", k, kinds[a][2])
                continue
            m = re.match(rf"\(λ (?:c|_)(?: κs| _)?\. (.*)\)$", a, re.S)
            what = m[1].strip() if m else a
            if re.sub(r"\s+", " ", what) in SKIP:
                continue
            if exact:
                inline[k] = what
            else:
                notes.append(f"inline argument {k} not placed ({len(args)} arguments, {len(needs)} goals): {what[:80]}")
    for h, comment, body in defs:
        m = re.match(rf"((?:abbrev |pub |unfoldable )*)({IDENT}) : (.*)", body)
        name = m[2]
        comment = comment + "\n" if comment else ""
        kind = kinds.get(name)
        if spec and name == spec[0]:
            continue
        if kind and kind[0] == "inv":
            which, loop = kind[1], kind[2]
            loops = data["loops"]
            k = next((k for k, l in enumerate(loops) if plain(l[0][0]) == plain(loop)), None)
            eq = re.search(rf"(?m)^{re.escape(name)} (.*?) =\s*", body)
            if k is None or not eq:
                notes.append(f"loop {loop} not found" if k is None else f"{name} has no equation")
                # a measure of a recursion
                invariants.append(f"{comment}{body}")
                continue
            new, live = loops[k][0][1], loops[k][1]
            params = eq[1].split()
            changed = data["changed"][k]
            table = {}
            want = [f"l.initial.{v}" if ch else f"l.{v}" for v, ch in zip(live, changed)]
            want += [f"l.{v}" for v, ch in zip(live, changed) if ch]
            if len(params) != len(want):
                notes.append(f"{name}: {len(params)} parameters, {len(want)} wanted: {params} {want}")
            table = dict(zip(params, want))
            rest = body[eq.end() :]
            for p in params:
                if re.search(rf"λ [^.]*(?<![\w'-]){re.escape(p)}(?![\w'-])[^.]*\. |\({re.escape(p)} : ", rest):
                    notes.append(f"{name}: {p} is bound inside")
                    table.pop(p, None)
            rest = re.sub(IDENT, lambda it: table[it[0]] if it[0] in table and rest[it.start() - 1 : it.start()] != "." else it[0], rest)
            invariants.append(f"{comment}abbrev pub {which}-{new} : goal.{which}-{new}\n{which}-{new} l ={' ' if not rest.startswith(chr(10)) else ''}{rest}")
            continue
        if kind and kind[0] == "need":
            k = kind[1]
            if k is None:
                if plain(kind[2]) in settled or plain(name) in settled:
                    continue
                notes.append(f"no goal for {name} ({kind[2]})")
                answers.append(f"{comment}{body}")
                continue
            new = needs[k][1]
            at = fn.places[data["asked_at"][k][0]]
            sig_end = body.find("\n")
            rest = body[sig_end + 1 :]
            un = re.match(r"unfolding [^\n]*\n", rest)
            unfolding = un[0] if un else ""
            rest = rest[len(unfolding) :]
            eq = re.match(rf"{re.escape(name)}(?: (c|_))?(?: (κs|_))?((?: (?!=){IDENT})*) =[ ]?", rest)
            if not eq:
                notes.append(f"{name}: equation not read")
                answers.append(f"{comment}{body}")
                continue
            b = rest[eq.end() :]
            if re.sub(r"\s+", " ", b.strip()) in SKIP:
                continue
            b = turn(fn, at, b)
            names = data["asked"].get(needs[k][0])
            if names:
                b = as_record(names, b, helpers)
            answers.append(f"{comment}pub {new} : goal.{new}\n{unfolding}{new} {eq[1] or '_'}{eq[3] or ''} ={' ' if not b.startswith(chr(10)) else ''}{b}")
            continue
        answers.append(f"{comment}{body}")
    for k, what in sorted(inline.items()):
        new = needs[k][1]
        b = turn(fn, fn.places[data["asked_at"][k][0]], what)
        names = data["asked"].get(needs[k][0])
        if names:
            b = as_record(names, b, helpers)
        answers.append(f"pub {new} : goal.{new}\n{new} c = {b}")
    answers[:0] = [helper(name, names) for names, name in helpers.items()]
    comment = "\n".join(l for l in head.split("\n") if l.startswith("--"))
    uses = [l for l in head.split("\n") if l.startswith("use ") and not re.search(r"\.(Statement\.\{statement\}|Tie as tie)$", l)]
    other = [l for l in head.split("\n") if l.strip() and not l.startswith(("--", "use "))]
    if other:
        notes.append(f"lines of the head: {other[:3]}")
    here = f"Rattle.{os.path.basename(crate)}.proofs.{module}"
    if invariants:
        with open(os.path.join(folder, "Invariants.antt"), "w", encoding="utf-8") as f:
            f.write((comment + "\n" if comment and not answers else "") + "\n".join([*[u for u in uses if "Rules.{rules}" not in u], f"use {here}.Given as goal"]) + "\n\n" + "\n\n".join(invariants) + "\n")
    if answers:
        with open(os.path.join(folder, "Answers.antt"), "w", encoding="utf-8") as f:
            f.write((comment + "\n" if comment else "") + "\n".join([*uses, f"use {here}.Goals as goal"]) + "\n\n" + "\n\n".join(answers) + "\n")
    os.remove(path)
    return notes


def main(argv):
    names, crate = argv[0], argv[1].rstrip("/")
    only = argv[2:]
    with open(os.path.join(names, "crates", os.path.basename(crate), "names.json"), encoding="utf-8") as f:
        data = json.load(f)
    by = {}
    for key, it in data.items():
        if ".Lts" in key:
            module = key.split(".", 1)[1].rsplit(".Lts", 1)[0]
            it["module"] = module
            by[module] = it
    for folder, dirs, files in sorted(os.walk(os.path.join(crate, "proofs"))):
        if "Proof.antt" not in files:
            continue
        module = os.path.relpath(folder, os.path.join(crate, "proofs")).replace("/", ".")
        if only and module not in only:
            continue
        if module not in by:
            print(f"{folder}: not listed")
            continue
        for n in convert(crate, folder, by[module]):
            print(f"{os.path.basename(crate)} {module}: {n}")


if __name__ == "__main__":
    main(sys.argv[1:])
