#!/usr/bin/env python3
"""Moves theorems of a crate from specs/ to proofs/, and mends the imports of all crates.

usage: tools/to_proofs.py CRATE MODULE            the whole module
       tools/to_proofs.py CRATE MODULE KEPT ..    all but the definitions KEPT
"""
import glob
import os
import re
import sys


def blocks(text):
    """The head (comment and imports) and the blocks that begin at the margin, each with the comment above it."""
    lines, head, out, above = text.split("\n"), [], [], []
    i = 0
    while i < len(lines) and (lines[i].startswith(("use ", "pub use ", "--")) or not lines[i].strip()):
        head.append(lines[i])
        i += 1
    while head and (not head[-1].strip() or head[-1].startswith("--")) and any(h.startswith("use ") for h in head):
        above.insert(0, head.pop())
    for x in lines[i:]:
        if not x.strip() or x.startswith("--"):
            above.append(x)
        elif x[0].isspace():
            out[-1][1].extend(above + [x])
            above = []
        else:
            m = re.match(r"(?:(?:abbrev|unfoldable|pub|data|record|infix\S*|\d)\s+)*([^\s:(){}]+)", x)
            name = "unfolding" if x.startswith("unfolding ") else m.group(1)
            # the clauses of a definition stand under its signature
            if out and not above and (name == "unfolding" or re.match(re.escape(out[-1][0]) + r"(?![\w'-])", x) or x.startswith("if ")):
                out[-1][1].append(x)
            else:
                out.append([name, above + [x]])
            above = []
    return head, out


def main():
    crate, module, kept = sys.argv[1], sys.argv[2], set(sys.argv[3:])
    old, new = f"crates/{crate}/specs/{module}.antt", f"crates/{crate}/proofs/{module}.antt"
    lib = f"crates/{crate}/specs/Lib.antt"
    if os.path.exists(new):
        sys.exit(f"{new} is there already")
    os.makedirs(f"crates/{crate}/proofs", exist_ok=True)
    text = open(old).read()
    head, bs = blocks(text)
    moved = {n for n, _ in bs} - kept
    if kept - {n for n, _ in bs}:
        sys.exit(f"not there: {kept - {n for n, _ in bs}}")
    if kept:
        stay = [x for n, ls in bs if n in kept for x in ls]
        go = [x for n, ls in bs if n not in kept for x in ls]
        open(old, "w").write("\n".join(head + [""] + stay).rstrip("\n") + "\n")
        names = ", ".join(n for n, _ in bs if n in kept)
        open(new, "w").write("\n".join(head + [f"use Rattle.{crate}.specs.{module}.{{{names}}}", ""] + go).rstrip("\n") + "\n")
    else:
        os.rename(old, new)
        t = open(lib).read()
        open(lib, "w").write(re.sub(rf"^pub mod {module}\n", "", t, flags=re.M))
    plib = f"crates/{crate}/proofs/Lib.antt"
    t = open(plib).read() if os.path.exists(plib) else ""
    open(plib, "w").write(t + f"pub mod {module}\n")
    path = f"Rattle.{crate}.specs.{module}"
    for p in glob.glob("crates/*/**/*.antt", recursive=True) + glob.glob("crates/*/src/*.rt"):
        if "/out/" in p:
            continue
        t = open(p).read()
        if path not in t:
            continue
        to = f"Rattle.{crate}.proofs.{module}"
        if not kept:
            s = re.sub(re.escape(path) + r"(?!\w)", to, t)
        else:
            def part(m):
                names = [n.strip() for n in m.group(3).split(",")]
                a = [n for n in names if n.split(" as ")[0] in kept]
                b = [n for n in names if n.split(" as ")[0] not in kept]
                if p == new and not b:
                    return m.group(0)
                out = [f"{m.group(1)}{q}.{{{', '.join(ns)}}}{m.group(4)}" for q, ns in ((path, a), (to, b)) if ns]
                return "\n".join(out)
            s = re.sub(r"^((?:ghost |pub )?use )(" + re.escape(path) + r")\.\{([^}]*)\}(;?)$", part, t, flags=re.M)
        if s != t:
            open(p, "w").write(s)


main()
