#!/usr/bin/env python3
"""Brings the repository's own definitions and lemmas to today's spelling, after port.py: words in snake case; a dash stays where it joins two names of definitions.

usage: tools/spell.py [--list]      at the top of the repository, once; --list prints the renamings and changes nothing

Renamed are names that files of specs/ and lemma files of proofs/ define, in those files, in the proofs, in clauses and in must-fail edits.
A name that stays: one of Rattle's (a goal, a step), of the library, of src/; a type, a module. A lemma that would get the name of a definition gets `_lem`.
"""
import collections
import os
import re
import subprocess
import sys

BREAK = r"\s(){}\[\];.,«»\"`⌜⌝"
TOKEN = re.compile(rf"[^{BREAK}]+")
DEF = re.compile(rf"^\s*(?:(?:abbrev|unfoldable|pub|ruleset|data|record)\s+)*([^{BREAK}:]+)\s*:(?!=)(?:\s|$)")
PLAIN = set("a after all and are as at back before begun behind below both by from for fits first has hold holds in inside is it its kept last left less made more most new next no none not of off old on once one only or other out over passed right same second seen small so still such taken that the there third to two under up was where whole with".split())
TACTICS = set("search rw simp omega grind cc hlevel first_of assumption ground".split())
LETTER = re.compile(r"[a-z][A-Z]")


def files(ends):
    for folder, dirs, names in os.walk("crates"):
        dirs[:] = sorted(d for d in dirs if d != "out")
        for n in sorted(names):
            if n.endswith(ends):
                yield os.path.join(folder, n)


def of_function(p):
    return re.search(r"/proofs/[^/]+/", p)


def code(line):
    """The line without its comment."""
    return re.split(r"(?:^|\s)--(?:\s|$)", line, maxsplit=1)[0]


def snake(name):
    name = re.sub(r"([a-z0-9])([A-Z])(?=[a-z0-9?]|$|-|_|')", lambda m: m.group(1) + "_" + m.group(2).lower(), name)
    return re.sub(r"([a-z0-9])([A-Z])", lambda m: m.group(1) + "_" + m.group(2).lower(), name)


def parts(name, known):
    """The name with a dash only where it joins two known names."""
    ps = name.split("-")
    ps = [p if p[:1].isupper() else snake(p) for p in ps]
    groups, i = [], 0
    while i < len(ps):
        for j in range(len(ps), i, -1):
            whole = "_".join(ps[i:j])
            if whole in known:
                groups.append((whole, True))
                i = j
                break
        else:
            groups.append((ps[i], False))
            i += 1
    out, joined = groups[0]
    for g, k in groups[1:]:
        out += ("-" if k and joined else "_") + g
        joined = k
    return out


def write(texts, new):
    for p in [q for q in subprocess.check_output(["git", "ls-files", "*.md"], text=True).split()]:
        texts[p] = open(p, encoding="utf-8").read()
    camel = {n: to for n, to in new.items() if "-" not in n and n != snake(n)}
    functions = {f for p, t in texts.items() if p.endswith(".rt") for f in re.findall(r"\bfn ([a-z0-9_]+)", t)}

    plain = {n for n in new if "-" not in n and n == snake(n)}  # lemmas that make room: never names of src/, nor fields and steps

    def by(names, only=False, steps=()):
        def to(m):
            n, dotted = m.group(), m.string[: m.start()].endswith(".")
            if n in plain and (not only or dotted):
                return n
            if dotted and n.replace("-", "_") in steps:
                return n.replace("-", "_")
            return names.get(n, n)

        return to

    def comment(text):
        text = re.sub(r"`[^`\n]+`", lambda m: TOKEN.sub(by(new), m.group()), text)
        return TOKEN.sub(by(camel), text)

    for p, t in texts.items():
        if p.endswith(".md"):
            out = comment(t)
        elif p.endswith(".edit"):
            out = "\n".join(TOKEN.sub(by(new), x) if x.startswith(("old:", "new:")) else comment(x) for x in t.split("\n"))
        else:
            lines = []
            for x in t.split("\n"):
                at = re.search(r"//" if p.endswith(".rt") else r"(?:^|\s)--(?:\s|$)", x)
                k = at.start() if at else len(x)
                antt = p.endswith(".antt")
                lines.append(TOKEN.sub(by(new, antt, functions if antt and of_function(p) else ()), x[:k]) + comment(x[k:]))
            out = "\n".join(lines)
        if out != t:
            with open(p, "w", encoding="utf-8") as f:
                f.write(out)


def main():
    listing = "--list" in sys.argv
    texts = {p: open(p, encoding="utf-8").read() for p in files((".antt", ".rt", ".edit"))}
    own, funs, library, kinds = set(), set(), set(), {}
    for p, t in texts.items():
        if not p.endswith(".antt"):
            continue
        for line in t.split("\n"):
            m = DEF.match(code(line))
            if m and not line.lstrip().startswith(("use ", "mod ", "pub mod ", "module ")):
                (funs if of_function(p) else own).add(m.group(1))
    for p, t in texts.items():
        if p.endswith(".edit"):
            continue
        for m in re.finditer(r"use ([^\s;{]+)\.\{([^}]*)\}", t):
            parts_ = m.group(1).split(".")
            mine = parts_[0] == "Rattle" and len(parts_) > 1 and os.path.isdir(os.path.join("crates", parts_[1]))
            if not mine:
                for n in m.group(2).split(","):
                    library.add(n.split(" as ")[0].strip())
    rust = set()
    for p, t in texts.items():
        if p.endswith(".rt"):
            t = re.sub(r"//.*", "", t)
            rust |= set(re.findall(r"(?<![\w'?-])[a-z_][a-z0-9_]*(?![\w'?-])", t))
    here = own - library
    plain = {snake(n) for n in own if "-" not in n and not n[:1].isupper() and len(n) > 1}
    lib_plain = {n for n in library if "-" not in n and n[:1].islower() and len(n) > 1}
    known = (plain | lib_plain) - PLAIN
    new = {}
    for n in sorted(here):
        if n[:1].isupper():
            continue
        if "-" in n:
            to = parts(n, known)
        elif LETTER.search(n):
            to = snake(n)
        elif n in TACTICS:
            to = n + "_lem"
        else:
            continue
        if to != n:
            new[n] = to
    bare = set()  # names that stand by themselves, not behind a dot
    for p, t in texts.items():
        if p.endswith(".antt"):
            for line in t.split("\n"):
                line = code(line)
                if not line.lstrip().startswith(("use ", "pub use ")):
                    bare |= {m.group() for m in TOKEN.finditer(line) if not line[: m.start()].endswith(".")}
    words = {to for n, to in new.items() if "-" not in n}
    for n in sorted(here):  # a lemma that would get the name of a definition
        if new.get(n, n) in words and n not in {k for k in new if "-" not in k}:
            new[n] = new.get(n, n) + "_lem"
    for n in sorted(new):
        if "-" in n and new[n] in bare - set(new):
            new[n] += "_lem"
    count = collections.Counter(new.values())
    clash = [n for n in new if count[new[n]] > 1 or new[n] in bare - set(new)]
    say = {"words of src, too": sorted(f"{n}>{new[n]}" for n in new if new[n] in rust), "clash": sorted(f"{n}>{new[n]}" for n in clash), "also of functions": sorted(n for n in new if n in funs)}
    if listing:
        for k, v in say.items():
            print(f"== {k}: {len(v)}\n" + " ".join(v))
        print("== all", len(new))
        for n in sorted(new):
            print(n, new[n])
        return
    write(texts, new)


main()
