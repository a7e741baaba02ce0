#!/usr/bin/env python3
"""Counts the places of the eight points of docs/DESIGN-PASS.md in crates/*/src. With a point's number it lists them."""
import glob, re, sys
from collections import Counter

FILES = sorted(glob.glob("crates/*/src/**/*.rt", recursive=True))
TEXT = {f: open(f, encoding="utf-8").read() for f in FILES}


def lines(pattern):
    """Each line that a pattern is found in, with its place."""
    found = re.compile(pattern)
    return [f"{f}:{n}: {l.strip()}" for f in FILES for n, l in enumerate(TEXT[f].split("\n"), 1) if found.search(l)]


def functions():
    """Each function: its file, line, name, parameters, head (up to the body) and body."""
    for f in FILES:
        for m in re.finditer(r"^( *)(?:pub )?fn (\w+)(?:<[^(]*>)?\((.*?)\)(.*?)^\1\{\n(.*?)^\1\}", TEXT[f], re.S | re.M):
            line = TEXT[f].count("\n", 0, m.start()) + 1
            parameters = [p.strip() for p in re.split(r",\s*(?![^<\[(]*[>\])])", m[3]) if p.strip()]
            yield f, line, m[2], parameters, m[4], m[5]


def counted_loops():
    """Loops whose condition compares a number that the body moves by one."""
    out = []
    for f in FILES:
        for m in re.finditer(r"^( *)while (.*?) \{\n(.*?)^\1\}", TEXT[f], re.S | re.M):
            words = re.findall(r"\b[a-z_]+\b", m[2])
            if any(re.search(rf"\b{w} [+-]= 1;", m[3]) for w in words):
                out.append(f"{f}:{TEXT[f].count(chr(10), 0, m.start()) + 1}: while {m[2]}")
    return out


def travelling():
    """Sets of four parameters, name and type, that stand together in three functions or more."""
    seen = Counter()
    for _, _, _, parameters, _, _ in functions():
        names = sorted(p for p in parameters if ": " in p and ("[" in p or "&" in p))
        for i in range(len(names) - 2):
            seen[tuple(names[i:i + 3])] += 1
    return [f"{n} functions: {', '.join(g)}" for g, n in seen.most_common() if n >= 3]


def repeated_facts():
    """Clauses `requires` that stand, but for names, in three functions or more."""
    seen = Counter()
    for _, _, _, _, head, _ in functions():
        for clause in set(re.findall(r"requires (?:\w+ )?\{ (.*?) \}\n", head)):
            seen[clause] += 1
    return [f"{n} functions: {c}" for c, n in seen.most_common() if n >= 3]


POINTS = {
    "1 enums of the repository's own": lines(r"^(pub )?enum "),
    "1 flags in structs": [l for l in lines(r"^    (pub )?[a-z_]+: bool,$") if "fn " not in l],
    "1 constants that number a kind": lines(r"^ *(pub )?const [A-Z_]+: (u8|u16|u32|u64|usize)\b"),
    "1 arms that match a bare number": lines(r"^ +[0-9]+( \| [0-9]+)* => "),
    "3 while loops": lines(r"^ *while "),
    "3 of them, loops that count an index by one": counted_loops(),
    "4 branches that answer true or false by hand": lines(r"^ +return (true|false);$|\{ (true|false) \} else \{|else \{ (true|false) \}"),
    "5 functions of eight parameters or more": [f"{f}:{n}: {name} ({len(p)})" for f, n, name, p, _, _ in functions() if len(p) >= 8],
    "5 lent parameters that travel together, three at a time": travelling(),
    "5 facts required in three functions or more": repeated_facts(),
    "6 fixed arrays": lines(r"\[(u8|u16|u32|u64|i32); [0-9]+\]"),
    "7 closures, impl Fn, dyn": lines(r"\bFn(Once|Mut)?\(|\bdyn |(?<![|])\|[a-z_&, ]+\|(?![|]) "),
}

if __name__ == "__main__":
    for name, places in POINTS.items():
        if len(sys.argv) > 1:
            if name.startswith(sys.argv[1]):
                print(f"{name}: {len(places)}", *places, sep="\n  ")
        else:
            print(f"{len(places):5} {name}")
    if len(sys.argv) == 1:
        print(f"{sum(1 for _ in functions()):5} functions in {len(FILES)} files")
