#!/usr/bin/env python3
"""Brings the repository's own definitions and lemmas to today's spelling, once, after port.py: words in snake case.

usage: python3 tools/respell.py [--list] [--edits]      at the top of the repository

1. A word in camel case that begins with a small letter is turned into snake case: entriesOf is entries_of.
2. A constant, whose name begins with capitals, has underscores: TABLE-FIRST is TABLE_FIRST, CHAN-name is CHAN_name.
3. A module begins with a capital: theorems is Theorems, steps is Steps.
4. A dash stays where it joins the name of a definition to another name, as in entries_of-append; elsewhere it is an underscore:
   longer-block is longer_block.

Words of the library (uint_Tells), of goals that the check names, and of hexadecimal numbers stay. --list prints the table and turns nothing; --edits turns
must-fail/*.edit too.
"""
import os
import re
import sys

WORD = re.compile(r"[^\W\d][\w'’-]*")
DECLARED = re.compile(r"^\s*((?:abbrev |pub |unfoldable |data |record )*)([^\s(){}.;,@\"]+) :(?!:)(?: |$)(.*)$", re.M)
MODULES = {"theorems": "Theorems", "steps": "Steps"}
LIBRARY = {"uint_Tells", "shr_slice_Lawful", "shr_slice_Tells", "walk_Meets", "uint_Makes", "bool_Lawful", "size-Counts"}
# What the type of a definition ends in; the type of a lemma ends in a fact.
DATA = re.compile(r"^(?:ℕ|Bool|List|Reading|Entry|Type|Outcome|Region|Fault|Refusal|Verdict|Name|Guid|Key|Row|Rows|Place|Answer|Table|Template|Provider|Event|Map|MapEntry|Item|Items|Element|Header|Definition|Unknown|Option|Each|Call|Index|Group|Parts?)\b")


def sources(root):
    for d, ds, fs in os.walk(os.path.join(root, "crates")):
        ds[:] = sorted(x for x in ds if x != "out")
        for f in sorted(fs):
            if f.endswith((".rt", ".antt")):
                yield os.path.join(d, f)


def snake(w):
    return re.sub(r"(?<=[a-z0-9])([A-Z])(?=[a-z0-9_-]|$)", lambda m: "_" + m.group(1).lower(), w)


def table(root):
    words, declared, definitions, goals = set(), set(), set(), set()
    for p in sources(root):
        with open(p, encoding="utf-8") as f:
            t = f.read()
        if p.endswith(".antt"):
            t = re.sub(r"(?m)--.*$", "", t)
            words |= set(WORD.findall(t))
            mine = "/specs/" in p or p.count("/proofs/") and os.path.basename(os.path.dirname(p)) == "proofs"
            for kinds, name, kind in DECLARED.findall(t):
                if not mine:
                    goals.add(name)
                    continue
                declared.add(name)
                end = re.split(r"→", kind)[-1].strip()
                if "≡" not in kind and (DATA.match(end) or "abbrev" in kinds or "unfoldable" in kinds):
                    definitions.add(name)
    rows = {}
    for w in sorted(words):
        if w in LIBRARY:
            continue
        new = w
        if re.match(r"[a-z]", w) and re.search(r"[a-z0-9][A-Z]", w) and not re.match(r"x[0-9A-F]+$", w):
            new = "-".join(snake(x) for x in w.split("-"))
        if w in declared and w not in goals and "-" in w:
            if re.match(r"[A-Z]{2}", w) or w in definitions:
                new = new.replace("-", "_")
            else:
                # the longest beginning that is a definition keeps its dash
                parts, new_parts = w.split("-"), new.split("-")
                n = next((k for k in range(len(parts) - 1, 0, -1) if "-".join(parts[:k]) in definitions or "_".join(parts[:k]) in definitions), 0)
                new = "_".join(new_parts[:n]) + "-" + "_".join(new_parts[n:]) if n else "_".join(new_parts)
        if new != w:
            rows[w] = new
    # A lemma that would have its function's name gets _lem.
    for w in sorted(words):
        new = rows.get(w, w)
        if w in definitions or w not in declared or w in goals:
            continue
        if any(rows.get(d, d) == new for d in definitions | {x for x in rows if x not in declared}):
            rows[w] = new + "_lem"
    return rows, words


def main():
    root = os.getcwd()
    rows, words = table(root)
    met = {}
    for old, new in rows.items():
        if new in words and new not in rows or new in met:
            print(f"look: {old} and {met.get(new, new)} fall together as {new}", file=sys.stderr)
        met[new] = old
    if "--list" in sys.argv:
        for old, new in rows.items():
            print(f"{old}\t{new}")
        return
    turn = lambda m: rows.get(m.group(0), m.group(0))
    paths = list(sources(root))
    if "--edits" in sys.argv:
        for d, ds, fs in os.walk(os.path.join(root, "crates")):
            ds[:] = [x for x in ds if x != "out"]
            paths += [os.path.join(d, f) for f in fs if f.endswith(".edit")]
    for c in sorted(os.listdir(os.path.join(root, "crates"))):
        for old, new in MODULES.items():
            at, to = (os.path.join(root, "crates", c, "specs", name) for name in (old, new))
            if os.path.isdir(at):
                os.rename(at, to)
                os.rename(at + ".antt", to + ".antt")
                paths = [p.replace(at + os.sep, to + os.sep).replace(at + ".antt", to + ".antt") for p in paths]
    for p in paths:
        with open(p, encoding="utf-8") as f:
            t = f.read()
        u = WORD.sub(turn, t)
        for old, new in MODULES.items():
            u = re.sub(rf"(?<=specs\.){old}\b|(?<=specs/){old}\b|(?<=pub mod ){old}\b|(?<=\bformat\.){old}\b", new, u)
        if u != t:
            with open(p, "w", encoding="utf-8") as f:
                f.write(u)


main()
