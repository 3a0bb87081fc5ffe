#!/usr/bin/env python3
"""Respells the repository's own definitions and lemmas as today's Rattle spells them: words in snake case, types in camel case; a dash
only between two names.

usage: python3 tools/respell_names.py [--list]        at the top of the repository, once, after the kit's port.py

What is respelled is what specs/ and proofs/ of some crate define (a proof folder's own names are left alone), wherever a .antt file or a
clause of a .rt file says it. Functions of src/, exported names, strings, inputs and outputs keep their names.
"""

import collections
import os
import re
import sys

NAME = r"[A-Za-z_ℕℤ∈¬][\w'ℕℤ₀-₉⁺⁻<≤=*/+×-]*"
TOKEN = re.compile(NAME)
FIELD = re.compile(r"^\s*(?:pub )?(%s)(?: |$)" % NAME)
DEFINED = re.compile(r"^(\s*)(?:unfoldable |abbrev |ruleset )*(?:pub )?(%s) :(?= |$)" % NAME, re.M)
TYPES = re.compile(r"^\s*(?:pub )?(?:record|data) (%s)" % NAME, re.M)
GHOST = re.compile(r"(?:ghost use[^;]*;|(?:requires|ensures)\*?(?:\s+\w+)?\s*\{|ghost (?:\w+:\s*)?\{)")
# how the library has respelled words that the crates' own names begin with
FORMER = {"getD": "get_or", "bitXor": "bit_xor"}
# names that the library's own lemmas join by a dash, and the crates do not import
JOINED = {"le", "lt", "eq", "zero", "suc", "append", "nil", "cons", "add", "mul", "sub", "xor", "mod", "div", "length", "take", "drop", "concat"}
KEPT = {"in-words", "in-bytes"}
# fields that port.py has given the name that a definition takes here
BACK = {"in_bytes": "in-bytes", "in_order": "in-order"}
# definitions of lemma files that share a name with a lemma elsewhere, and the one lemma that stands in the same file
PLAIN = {
    "tagSame": "tag_same",
    "byLength": "by_length",
    "onePiece": "one_piece",
    "noneBefore": "none_before",
    "lastBlock": "last_block",
    "frontLength": "front_length",
    "front_length": "front_length_lem",
}


def texts(*ends):
    for folder, dirs, files in os.walk("crates"):
        dirs[:] = sorted(d for d in dirs if d not in ("out", "must-fail"))
        for f in sorted(files):
            if f.endswith(ends):
                yield os.path.join(folder, f)


def shared(path):
    """Whether the file is one of specs/, or one of lemmas, right in proofs/."""
    parts = path.split(os.sep)
    return parts[2] == "specs" or (parts[2] == "proofs" and len(parts) == 4)


def snake(word):
    """One part of a name, with no dash in it."""
    word = FORMER.get(word, word)
    if word[:1].isupper():
        return word
    return re.sub(r"(?<=[a-z0-9'])([A-Z])(?=[a-z0-9]|$)", lambda m: "_" + m[1].lower(), word)


def read(path):
    with open(path, encoding="utf-8") as f:
        return f.read()


def defined():
    """What specs/ define, what the files of lemmas do, and what both have as fields."""
    specs, lemmas, fields = set(), set(), set()
    for path in texts(".antt"):
        if not shared(path):
            continue
        inside = False
        for line in re.sub(r"--.*", "", read(path)).split("\n"):
            if not line.strip():
                continue
            if not line.startswith(" "):
                inside = bool(re.match(r"(pub )?(record|data) ", line))
            m = DEFINED.match(line) or TYPES.match(line)
            if m:
                name = m[m.lastindex]
                (fields if inside and line.startswith(" ") else specs if path.split(os.sep)[2] == "specs" else lemmas).add(name)
    return specs, lemmas - specs, fields


def library():
    """Words of the library: what the crates import from it."""
    words = set()
    for path in texts(".antt", ".rt"):
        for line in re.findall(r"^\s*(?:ghost )?use ((?!Rattle\.(?!std\b)).*)", read(path), re.M):
            m = re.search(r"\{(.*)\}", line)
            if m:
                words.update(w.split(" as ")[-1].strip() for w in m[1].split(","))
    return words


def joined(name, names):
    """The name with a dash only between two names."""
    parts = name.split("-")
    new = parts[0]
    for before, part in zip(parts, parts[1:]):
        new += ("-" if before in names and part in names else "_") + part
    return new


def respelled(specs, lemmas, fields, words):
    names = {snake(n) for n in specs | words | JOINED}
    table = {}
    for name in sorted(specs | lemmas | fields):
        new = "-".join(snake(part) for part in name.split("-"))
        while joined(new, names) != new:
            new = joined(new, names)
        table[name] = new
    # a field that would hide a definition that its record cites, and what the library has by this name
    for name in KEPT | words:
        table.pop(name, None)
    # names that fall together: what specs/ define keeps the plain one
    turned = {table[name] for name in specs if table.get(name, name) != name}
    taken = {table.get(name, name) for name in specs | words}
    for name in sorted(lemmas - fields - words, key=lambda n: (table[n] != n, "-" in n, n)):
        if table[name] in (taken if table[name] != name else turned):
            table[name] += "_lem"
        taken.add(table[name])
    return {name: new for name, new in table.items() if name != new}


def aliases():
    """Names that a use line gives after `as`."""
    return {w for path in texts(".antt", ".rt") for w in re.findall(r"\bas ([a-z]\w*)", read(path)) if snake(w) != w}


def in_clauses(text, turn):
    """Turns the ghost text of a .rt file and leaves its code."""
    out, at = [], 0
    for m in GHOST.finditer(text):
        if m.start() < at:
            continue
        end = m.end()
        if not m[0].startswith("ghost use"):
            depth = 1
            while depth:
                depth += {"{": 1, "}": -1}.get(text[end], 0)
                end += 1
        out += [text[at : m.start()], turn(text[m.start() : end])]
        at = end
    return "".join(out) + text[at:]


def main():
    if sys.argv[1:] not in ([], ["--list"]):
        raise SystemExit(__doc__)
    table = respelled(*defined(), library()) | {w: snake(w) for w in aliases()} | BACK | PLAIN
    if "--list" in sys.argv:
        for name, new in sorted(table.items()):
            print(name, new, "  !" if new.endswith("_lem") else "")
        return
    turn = lambda t: TOKEN.sub(lambda m: table.get(m[0], m[0]), t)
    for path in texts(".antt", ".rt"):
        text = read(path)
        new = turn(text) if path.endswith(".antt") else in_clauses(text, turn)
        if new != text:
            with open(path, "w", encoding="utf-8") as f:
                f.write(new)


main()
