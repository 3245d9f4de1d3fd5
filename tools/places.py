#!/usr/bin/env python3
"""Counts the places of docs/DESIGN-PASS.md in src/: `tools/places.py [COMMIT]`, with -v to print each place.
Without a commit it counts the work tree. A pattern finds candidates; the page says which of them are places."""
import collections, re, subprocess, sys

args = [a for a in sys.argv[1:] if a != "-v"]
verbose = "-v" in sys.argv
if args:
    names = subprocess.run(["git", "ls-tree", "-r", "--name-only", args[0], "crates"], capture_output=True, text=True, check=True).stdout.split("\n")
    names = [n for n in names if re.match(r"crates/\w+/src/.*\.rt$", n)]
    text = {n: subprocess.run(["git", "show", f"{args[0]}:{n}"], capture_output=True, text=True, check=True).stdout for n in names}
else:
    names = subprocess.run(["git", "ls-files", "crates/*/src/*.rt"], capture_output=True, text=True, check=True).stdout.split()
    text = {n: open(n).read() for n in names}


def lines(pattern):
    return [f"{n}:{i}: {l.strip()}" for n in names for i, l in enumerate(text[n].split("\n"), 1) if re.search(pattern, l)]


def functions():
    """Each function: file, line, name, head (signature and clauses), body."""
    for n in names:
        rows = text[n].split("\n")
        for i, row in enumerate(rows):
            m = re.match(r"( *)(pub )?(extern \"C\" )?fn (\w+)", row)
            if not m:
                continue
            indent, k = m.group(1), i
            while k < len(rows) and rows[k] != indent + "{" and not (rows[k].endswith(" {") and not rows[k].lstrip().startswith(("requires", "ensures"))):
                k += 1
            e = k
            while e < len(rows) and rows[e] != indent + "}":
                e += 1
            yield n, i + 1, m.group(4), "\n".join(rows[i : k + 1]), "\n".join(rows[k + 1 : e])


def shapes():
    """Functions of three lines or more whose body is another's but for names, strings and numbers."""
    seen = collections.defaultdict(list)
    for n, i, f, head, body in functions():
        if body.count("\n") >= 2:
            shape = re.sub(r"\b[A-Za-z_]\w*\b|b?\"[^\"]*\"|\b[0-9]\w*\b", "x", re.sub(r"//.*", "", body))
            seen[re.sub(r"\s+", " ", shape)].append(f"{n}:{i}: {f}")
    return [", ".join(v) for v in seen.values() if len(v) > 1]


def conjuncts():
    facts = collections.defaultdict(list)
    for n, i, f, head, body in functions():
        for clause in re.findall(r"(?:requires|ensures)(?: \w+)? \{(.*)\}", head):
            for fact in re.split(r" × ", clause.strip()):
                facts[re.sub(r"\s+", " ", fact.strip(" ()"))].append(f"{n}:{i}: {f}")
    return facts


def together(pattern):
    return [f"{n}:{i}: {f}" for n, i, f, head, body in functions() if re.search(pattern, re.sub(r"\s+", " ", head))]


def show(title, found):
    print(f"{len(found):5}  {title}")
    if verbose:
        for f in found:
            print("         ", f)


print("1. own enums, flags with a value, numbers for none")
show("enums", lines(r"^(pub )?enum "))
show("structs with an answer or a flag beside a value", [l for n in names for l in [f"{n}: struct {m.group(1)}" for m in re.finditer(r"struct (\w+)[^{]*\{[^}]*\b(answer|failed|written): [^}]*\}", text[n])]])
show("comments that name a number for none", lines(r"^// .*(, or (0|d|n)\b|\belse 0\b|or the number of lines|0 where|0 also where|; 0 for|some such number|, or none\.$)"))
show("variants named Refused", lines(r"^ +Refused(\(|,)"))
print("2. twins")
show("groups of functions of one shape", shapes())
print("3. loops by hand")
show("while", lines(r"^ *while "))
show("loop", lines(r"\bloop \{"))
print("4. equality, copying, conversion, printing by hand")
show("conversion helpers", lines(r"^(pub )?fn (broad|narrow|byte|wide|low_bits|point_of|refusal_number)\b"))
show("calls of them", lines(r"\b(broad|narrow|byte|wide|point_of|refusal_number)\("))
show("min, max, equality, digits, prefixes by hand", lines(r"^(pub )?fn (smaller|larger|same_place|same_sign|both_same|alike|is_digit|with_digit|begins|copy|is_both|eighths)\b"))
show("types that derive no equality", lines(r"derive\(Clone, Copy\)\]"))
print("5. facts and parameters that travel together")
facts = {k: v for k, v in conjuncts().items() if len(v) >= 3}
show("facts in three or more contracts", [f"{len(v)}: {k}" for k, v in sorted(facts.items(), key=lambda kv: -len(kv[1]))])
for title, pattern in [
    ("off, own, nbr", r"off: &.*own: &.*nbr: &"),
    ("table, x, counts", r"table: .*x: &\[u16; POINTS\], c: Counts|x: &(mut )?\[u16; POINTS\], table"),
    ("table, counts", r"table: &[^,]*, c(ounts)?: Counts"),
    ("page, at", r"page: &mut \[u8\], at: usize"),
    ("out, at", r"out: &mut \[u\w+\], at: usize"),
    ("file, at", r"f(ile)?: &\[u8\],( style: Style,)? at: usize"),
    ("pitch, depth, clearance", r"pitch: f32, depth: f32, clearance: f32"),
    ("kinds, numbers", r"kinds: &.*numbers: &"),
]:
    show(title, together(pattern))
print("6. buffers with a length, parallel arrays, arenas")
show("words of the table by offset", lines(r"table\[[A-Z]"))
show("arrays made", lines(r"= \[0(u\w+|\.0f32)?; "))
print("7. switches on which step to run")
show("match or if on a number or a letter", lines(r"match (which|kind|r|number) \{|begins\(name"))
