#!/usr/bin/env python3
"""Lets contracts take the library's operators from the library: `rt ci` refuses a use of an operator by way of a crate of the repository.

usage: operators.py ROOT

In specs/ and in .rt files an import of ◌+◌, ◌≡◌ and the like from a crate of this repository becomes one from Rattle.std.specs.Prelude. A second run changes nothing.
"""
import os
import re
import sys

KIT = "/opt/rattle/rattle/std/specs/Prelude.antt"
HOME = "Rattle.std.specs.Prelude"
LINE = re.compile(r"^((?:ghost )?use )(Rattle\.(\w+)\.[\w.]+)\.\{([^}]*)\}(;?)$")


def turned(text, symbols, own):
    lines, moved, home = text.split("\n"), [], None
    out = []
    for line in lines:
        m = LINE.match(line)
        if m and m[3] in own:
            names = [n.strip() for n in m[4].split(",") if n.strip()]
            mine = [n for n in names if n in symbols]
            if mine:
                moved += [n for n in mine if n not in moved]
                rest = [n for n in names if n not in symbols]
                if rest:
                    out.append(f"{m[1]}{m[2]}.{{{', '.join(rest)}}}{m[5]}")
                if home is None:
                    home = len(out) - (1 if rest else 0)
                continue
        out.append(line)
    if not moved:
        return text
    for i, line in enumerate(out):
        m = LINE.match(line)
        if m and m[2] == HOME:
            names = [n.strip() for n in m[4].split(",")]
            out[i] = f"{m[1]}{HOME}.{{{', '.join(names + [n for n in moved if n not in names])}}}{m[5]}"
            return "\n".join(out)
    is_rust = any(l.startswith("ghost use ") for l in lines)
    out.insert(home, f"{'ghost ' if is_rust else ''}use {HOME}.{{{', '.join(moved)}}}{';' if is_rust else ''}")
    return "\n".join(out)


def main(root):
    with open(KIT, encoding="utf-8") as f:
        symbols = {n for n in re.findall(r"[^\s{},]+", f.read()) if "◌" in n}
    crates = os.path.join(root, "crates")
    own = set(os.listdir(crates))
    for folder, dirs, names in os.walk(crates):
        dirs[:] = sorted(d for d in dirs if d not in ("out", "proofs", "must-fail"))
        for f in sorted(names):
            p = os.path.join(folder, f)
            if f.endswith(".rt") or f.endswith(".antt"):
                with open(p, encoding="utf-8") as it:
                    text = it.read()
                new = turned(text, symbols, own)
                if new != text:
                    with open(p, "w", encoding="utf-8") as it:
                        it.write(new)


main(sys.argv[1])
