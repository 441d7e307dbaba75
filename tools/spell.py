#!/usr/bin/env python3
"""Brings this repository's own definitions and lemmas to the spelling of Rattle's library: words in snake case, types and modules in camel case.

usage: spell.py [--dry]      at the top of the repository, after the kit's port.py

A lower-case name of specs/ and proofs/ that has a dash or a capital gets underscores and small letters: markAt is mark_at, lt-or-le is lt_or_le.
A name that a library of the kit's declares stays, and so does a name of src/, a string, and the text of a comment but for names with capitals.
The crate slab is called slabs, since the kit has a library of that name.
"""
import os, re, sys
DRY = "--dry" in sys.argv
NAME = r'[^\s(){}.;,@"«»:=`\[\]]+'
OWN = sorted(d for d in os.listdir("crates"))
def files(ends):
    for root, dirs, fs in os.walk("crates"):
        dirs[:] = sorted(d for d in dirs if d != "out")
        for f in sorted(fs):
            if f.endswith(ends):
                yield os.path.join(root, f)
def snake(n):
    n = re.sub(r"(?<=[a-z0-9₀-₉'])([A-Z]+)(?=[A-Z][a-z])", lambda m: "_" + m[1].lower(), n)
    n = re.sub(r"(?<=[a-z0-9₀-₉'])([A-Z])", lambda m: "_" + m[1].lower(), n)
    n = re.sub(r"(?<=[A-Za-z0-9₀-₉'?])-(?=[A-Za-z0-9])", "_", n)
    return n
def is_candidate(n):
    return bool(re.fullmatch(r"[a-zα-ω][A-Za-z0-9_'?₀-₉-]*", n)) and bool(re.search(r"[A-Z]|-(?=[A-Za-z0-9])", n))
antt = {p: open(p, encoding="utf-8").read() for p in files(".antt")}
rts = {p: open(p, encoding="utf-8").read() for p in files(".rt")}
def uncomment(t):
    return re.sub(r"(?m)(^|\s)--( .*)?$", "", t)
USE = re.compile(r"\b(?:pub )?(?:ghost )?use ([^\s;{]+?)(?:\.?\{([^}]*)\})?(?: as ([^\s;]+))?\s*;?$", re.M)
def is_own(path):
    s = path.split(".")
    return s[0] == "Rattle" and len(s) > 1 and s[1] in OWN
# names that come from the kit's libraries
outside = set(); own_as = set()
for p, t in list(antt.items()) + list(rts.items()):
    for m in USE.finditer(uncomment(t)):
        path, names, alias = m[1], m[2], m[3]
        if not re.match(r"[A-Za-z]", path): continue
        if not is_own(path):
            if names is not None:
                for n in names.split(","):
                    n = n.strip()
                    if " as " in n:
                        a, b = n.split(" as "); outside.add(a.strip()); own_as.add(b.strip())
                    elif n: outside.add(n)
            else:
                outside.add(path.split(".")[-1])
# declared here, in files that no function's proof is
declared = set()
HEAD = re.compile(r"^\s*(?:(?:pub|abbrev|unfoldable|private|opaque)\s+)*([^\s:(){}]+(?:\s+[^\s:(){}]+)*)\s*(?:\([^:]*)?:(?!:)", re.M)
allnames = set()
for p, t in antt.items():
    u = uncomment(t)
    toks = set(re.findall(NAME, u))
    allnames |= toks
    if re.search(r"/proofs/(?:.*/)?Proof\.antt$", p):
        continue
    for n in toks:
        if is_candidate(n) and n not in outside:
            declared.add(n)
    # a name under a module's name: M.name where M is of the kit
# names of Rust code
rust = set()
for p, t in rts.items():
    rust |= set(re.findall(r"\b[a-z_][A-Za-z0-9_]*\b", t))
ren = {}
for n in sorted(declared):
    s = snake(n)
    if s != n: ren[n] = s
# names that fall together
back = {}
for n, s in ren.items(): back.setdefault(s, []).append(n)
clash = {}
for s, ns in back.items():
    if len(ns) > 1: clash[s] = ns
    elif s in allnames or s in outside: clash[s] = ns + [s]
if __name__ == "__main__" and DRY:
    print(len(ren), "renamed;", len(clash), "meet another")
    for s, ns in sorted(clash.items()):
        print(s, ns)

SPECIAL = {"headIn": "head_in_ring", "heapSize": "size_of_heap"}
STAY = {"not-nil"}
CALLS = r"(?=\.(?:ensures|result|new|old|true|false|given|invariant|lifetimes|before|args|requires)\b)"
TOKEN = re.compile(r'[^\s(){}.;,@"«»]+')

def table():
    """Old name to new. A lemma that would have its definition's name ends in _lem."""
    out = {n: s for n, s in ren.items() if n not in STAY}
    declared_as = {}
    for p, t in antt.items():
        if not re.search(r"/proofs/(?:.*/)?Proof\.antt$", p):
            for m in re.finditer(r"(?m)^\s*(?:(?:pub|abbrev|unfoldable)\s+)*([^\s:(){}.]+)\s*(?:\([^)]*\)\s*)*:(?!:)", uncomment(t)):
                declared_as.setdefault(m[1], set()).add(p)
    for s, ns in clash.items():
        camel = [n for n in ns if n in ren and "-" not in n]
        dash = [n for n in ns if n in ren and "-" in n]
        there = s in ns and s in declared_as
        if camel and dash or dash and there:
            for n in dash:
                out[n] = s + "_lem"
        elif camel and there and not any(n in SPECIAL for n in camel):
            out[s] = s + "_lem"
    out.update(SPECIAL)
    return out

def turn_tokens(t, names, skip_calls=False):
    def one(m):
        w = m[0]
        if w not in names:
            return w
        if skip_calls and m.start() and t[m.start() - 1] == "." and re.match(CALLS, t[m.end():]):
            return w
        return names[w]
    return TOKEN.sub(one, t)

def turn_comment(t, names):
    t = re.sub(r"`([^`\n]+)`", lambda m: "`" + turn_tokens(m[1], names) + "`", t)
    return re.sub(r"(?<![\w`'-])[a-z][a-z0-9]*(?:[A-Z][A-Za-z0-9]*)+(?![\w'-])", lambda m: names.get(m[0], m[0]), t)

def turn_antt(t, names, proof):
    out = []
    for line in t.split("\n"):
        m = re.search(r"(?:^|(?<=\s))--(?:\s.*)?$", line)
        code, note = (line[:m.start()], line[m.start():]) if m else (line, "")
        code = turn_tokens(code, names, proof)
        code = re.sub(r"\bRattle\.slab\b", "Rattle.slabs", code)
        out.append(code + turn_comment(note, names))
    return "\n".join(out)

def braces(t, i):
    """Where the brace that opens at i closes."""
    n = 0
    while i < len(t):
        n += t[i] == "{"
        n -= t[i] == "}"
        i += 1
        if not n:
            return i
    return i

def turn_rt(t, names):
    spans = [m.span() for m in re.finditer(r"\bghost use [^;]*;", t)]
    for m in re.finditer(r"\b(?:requires|ensures|invariant)\*?(?: \w+)? \{|\bghost (?:invariant )?\w+: \{", t):
        spans.append((m.end() - 1, braces(t, m.end() - 1)))
    for a, b in sorted(spans, reverse=True):
        t = t[:a] + re.sub(r"\bRattle\.slab\b", "Rattle.slabs", turn_tokens(t[a:b], names)) + t[b:]
    t = re.sub(r"(?m)(?<!:)//.*$", lambda m: turn_comment(m[0], names), t)
    return re.sub(r"\bslab::", "slabs::", t)

def main():
    names = table()
    assert len(set(names)) == len(names)
    for p, t in antt.items():
        n = turn_antt(t, names, bool(re.search(r"/proofs/(?:.*/)?Proof\.antt$", p)))
        if n != t:
            open(p, "w", encoding="utf-8").write(n)
    for p, t in rts.items():
        n = turn_rt(t, names)
        if n != t:
            open(p, "w", encoding="utf-8").write(n)
    if os.path.isdir("crates/slab"):
        os.rename("crates/slab", "crates/slabs")
    t = open("crates.txt", encoding="utf-8").read()
    t = "\n".join(re.sub(r"\bslab\b", "slabs", l.split("#")[0]) + ("#" + l.split("#", 1)[1] if "#" in l else "") if not l.startswith("#") else l for l in t.split("\n"))
    open("crates.txt", "w", encoding="utf-8").write(t)
    with open("tools/names.tsv", "w", encoding="utf-8") as f:
        f.write("".join(f"{a}\t{b}\n" for a, b in sorted(names.items())))
    print(len(names), "names respelled")

if __name__ == "__main__" and not DRY:
    main()
