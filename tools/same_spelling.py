#!/usr/bin/env python3
"""Compares two states of the repository that should differ in spelling alone, as docs/PORT.md says.

usage: same_spelling.py OLD NEW     two checkouts: LANDED, and LANDED after port.py and tools/respell.py

It compares token by token, without parentheses, comments and `use` lines: every file of specs/, the clauses of every function, and the
statement of every lemma of proofs/ (answers and Proof.antt aside). It prints what has another number of tokens, each old token that has two
new ones, and each new token that has two old ones. Nothing more than the three counts means: the same but for one spelling.
"""
import collections
import os
import re
import sys


class Spelling:
    def __init__(self, what):
        self.what, self.new, self.old, self.at, self.pairs, self.bad = what, collections.defaultdict(set), collections.defaultdict(set), {}, 0, 0

    def pair(self, old, new, where):
        self.pairs += 1
        if len(old) != len(new):
            self.bad += 1
            print(f"{self.what}: {where}: {len(old)} tokens, now {len(new)}")
            return
        for a, b in zip(old, new):
            self.new[a].add(b)
            self.old[b].add(a)
            self.at.setdefault((a, b), where)

    def said(self):
        print(f"{self.what}: {self.pairs} compared, {self.bad} of another length")
        for a, bs in sorted(self.new.items()):
            if len(bs) > 1:
                print(f"  one to many: {a}:", *(f"{b} ({self.at[a, b]})" for b in bs))
        for b, many in sorted(self.old.items()):
            if len(many) > 1:
                print(f"  many to one: {b}:", *(f"{a} ({self.at[a, b]})" for a in many))


def read(path):
    with open(path, encoding="utf-8") as f:
        return f.read()


def tokens(text):
    return re.findall(r'"(?:[^"\\]|\\.)*"|\.[^\s{}\[\],;.⌜⌝]+|[^\s{}\[\],;.⌜⌝]+|[{}\[\],;]', text.replace("(", " ").replace(")", " "))


def plain(text):
    return re.sub(r"(?m)^(pub |ghost |unfoldable )*use .*$", "", re.sub(r"(?m)--.*$", "", text))


def below(root, part, end):
    for crate in sorted(os.listdir(f"{root}/crates")):
        for folder, _, names in sorted(os.walk(f"{root}/crates/{crate}/{part}")):
            for name in sorted(names):
                if name.endswith(end):
                    yield os.path.relpath(os.path.join(folder, name), root)


def clauses(text):
    """Each function's clauses, by kind: conjuncts as clauses, a value before (E, left out) and after (X) in one word."""
    for m in re.finditer(r"(?ms)^\s*(?:pub(?:\([^)]*\))? )?(?:extern \"C\" )?fn (\w+)(.*?)^\s*\{\n|^\s*(?:pub )?(?:extern \"C\" )?fn \w+[^\n]*\{\n", text):
        if not m[1]:
            continue
        found = []
        for kind in ("requires", "ensures"):
            parts = re.findall(r"(?ms)^\s+" + kind + r"\*?(?: \w+)? \{(.*?)\}\s*(?=\n)", m[2])
            for k, part in enumerate(parts):
                it = re.match(r"(?s)\s*λ (\w+)\.(.*)$", part)
                parts[k] = re.sub(rf"(?<![\w.'])(?<! \.){it[1]}(?![\w'])", "result", it[2]) if it else part
            found.append(kind)
            for token in tokens(" × ".join(parts)):
                if token in (".exit", ".new"):
                    found.append("X")
                elif token not in ("now", ".entry", ".now", ".old"):
                    found.append(token)
        yield m[1], found


def lemmas(text):
    """Each lemma's name and statement, with the premises of its modules."""
    lines, modules, out, i = re.sub(r"(?m)--.*$", "", text).split("\n"), [], [], 0
    while i < len(lines):
        line = lines[i]
        indent = len(line) - len(line.lstrip())
        m = re.match(r"\s*module _ (.*?) where\s*$", line)
        if m:
            modules = [x for x in modules if x[0] < indent] + [(indent, m[1])]
        m = re.match(r"\s*(?:abbrev |unfoldable |pub |data |record )*([^\s:({}=]+)((?:\s*(?:\{[^}]*\}|\([^)]*\)))*)\s*:\s(.*)$", line)
        if m and not re.match(r"\s*(let|in|use|\|)", line):
            statement, j = m[2] + " : " + m[3], i + 1
            while j < len(lines) and lines[j].strip() and len(lines[j]) - len(lines[j].lstrip()) > indent and not re.match(r"\s*unfolding ", lines[j]):
                statement += " " + lines[j].strip()
                j += 1
            modules = [x for x in modules if x[0] < indent]
            out.append((m[1], tokens(" ".join(x[1] for x in modules) + " ⊢ " + statement)))
        i += 1
    return out


def main(old, new):
    specs, contracts, laws = Spelling("files of specs"), Spelling("functions with clauses"), Spelling("lemmas")
    for path in below(old, "specs", ".antt"):
        specs.pair(tokens(plain(read(f"{old}/{path}"))), tokens(plain(read(f"{new}/{path}"))), path)
    for path in below(old, "src", ".rt"):
        before, after = list(clauses(read(f"{old}/{path}"))), list(clauses(read(f"{new}/{path}")))
        if [n for n, _ in before] != [n for n, _ in after]:
            print(f"{path}: other functions")
            continue
        for (name, a), (_, b) in zip(before, after):
            contracts.pair(a, b, f"{path} {name}")
    for path in below(old, "proofs", ".antt"):
        if os.path.basename(path) in ("Proof.antt", "Answers.antt", "Invariants.antt") or not os.path.exists(f"{new}/{path}"):
            continue
        before, after = lemmas(read(f"{old}/{path}")), lemmas(read(f"{new}/{path}"))
        if len(before) != len(after):
            print(f"{path}: {len(before)} lemmas, now {len(after)}")
            continue
        for (name, a), (_, b) in zip(before, after):
            laws.pair(a, b, f"{path} {name}")
    for it in (specs, contracts, laws):
        it.said()


main(*sys.argv[1:3])
