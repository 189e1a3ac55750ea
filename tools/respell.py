#!/usr/bin/env python3
"""Respells this repository's own names as Rattle spells them: words in snake case, so valuesAt is values_at.

usage: respell.py ROOT          rewrites the .antt and .rt files below ROOT/crates in place
       respell.py --list ROOT   only prints each name and its new one, and what falls together

A name is respelled where a definition, a field, a constructor, a lemma or a variable of an .antt file has it.
In .rt files it is respelled in clauses, `ghost use` lines and comments; strings stay.
Run it once, after port.py. A second run changes nothing.
"""
import os
import re
import sys

WORD = re.compile(r"(?<![\w'·])[a-z][\w'₀-₉]*?(?:-[\w'₀-₉]+)*(?![\w'])")
TOKEN = re.compile(r'"(?:[^"\\]|\\.)*"|(?<!\w)[^\W\d][\w\'₀-₉]*(?:-[\w\'₀-₉]+)*')
CAMEL = re.compile(r"[a-z0-9][A-Z]")
# Names of the library that one prelude gave other names: they keep the library's.
LIBRARY = (("List·getD-append", "get_or-append"), ("List·getD-eq-default", "get_or-eq_default"), ("List·Memᴰ·", "memᴰ-"))
# Lemmas that would fall together with the definition that they are about: each gets the ending _lem, in these files.
LEMMAS = {
    "goes_on": ("demands/proofs/CallsShown.antt", "demands/proofs/Sessions.antt"),
    "values_moved": ("edit/proofs/Moved.antt",),
    "same_test": ("ff4_index/proofs/Cells.antt",),
    "known_kept": ("reader/proofs/Simple.antt",),
    "in_order": ("reader_laws/proofs/Firsts.antt", "salvage_laws/proofs/Theorem.antt"),
    "record_of": ("reader_laws/proofs/Lent.antt", "reader_laws/proofs/Recorded.antt"),
    "node_row": ("reader_laws/proofs/Parts.antt",),
    "with_root": ("salvage_list/proofs/Rooted.antt", "salvage_list/proofs/Going.antt"),
    "kept_of": ("salvage_rows/proofs/Kept.antt",),
}


def snake(part):
    if not part[:1].islower() or not CAMEL.search(part):
        return part
    return re.sub(r"(?<=[a-z0-9])([A-Z]+)", lambda m: "_" + m[1].lower(), part)


def new_name(name):
    return "-".join("_".join(snake(w) for w in p.split("_")) for p in name.split("-"))


def library(text):
    for a, b in LIBRARY:
        text = text.replace(a, b)
    text = re.sub(r"\b(get_or-(?:append|eq_default)) as \1\b", r"\1", text)
    # The rule set of `search` is called rules.
    text = re.sub(r"(?m)(search \(?)needs(?![\w-])", r"\1rules", text)
    return re.sub(r"(?m)^(use [^\n]*[{ ])needs(?=[,}])", r"\1rules", text)


def lemmas(text, path):
    for name, where in LEMMAS.items():
        if path.replace(os.sep, "/").split("/crates/")[-1] in where and not re.search(rf"(?<![\w'-]){name}_lem(?![\w'-])", text):
            text = re.sub(rf"(?<![\w.'-]){name}(?![\w'-])", name + "_lem", text)
    return text


def files(root):
    for folder, dirs, names in os.walk(os.path.join(root, "crates")):
        dirs[:] = sorted(d for d in dirs if d != "out")
        for f in sorted(names):
            if f.endswith((".antt", ".rt")):
                yield os.path.join(folder, f)


def turned(text):
    def one(m):
        t = m[0]
        if t.startswith('"'):
            return t
        return new_name(t)

    return TOKEN.sub(one, text)


def main(argv):
    only_list = argv and argv[0] == "--list"
    root = argv[-1]
    seen, old = {}, {}
    for p in files(root):
        with open(p, encoding="utf-8") as f:
            text = f.read()
        here = set(t for t in TOKEN.findall(text) if not t.startswith('"'))
        for t in here:
            n = new_name(t)
            if n != t:
                old.setdefault(t, []).append(p)
                if n in here:
                    seen.setdefault((t, n), []).append(p)
        if not only_list:
            new = turned(lemmas(library(text), p))
            if new != text:
                with open(p, "w", encoding="utf-8") as f:
                    f.write(new)
    if only_list:
        for t in sorted(old):
            print(t, new_name(t), len(old[t]))
        for (t, n), ps in sorted(seen.items()):
            print("falls together in one file:", t, n, *ps[:4])
    return 0


if __name__ == "__main__":
    sys.exit(main(sys.argv[1:]))
