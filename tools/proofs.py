#!/usr/bin/env python3
"""Turns each function's Proof.antt, of the older kit, to Invariants.antt and Answers.antt.

usage: proofs.py NAMES CRATE..     at the top of the repository; NAMES has what `rt names NAMES` wrote of the crates

Each goal and each path of a goal gets its new name. An answer that only says `search rules` goes, since the check tries that itself.
What a path means that the script can't tell is said in a line that begins 'look:'.
"""
import json, os, re, sys
names_dir, crates = sys.argv[1], sys.argv[2:]
TOK = r'[^\s(){}.;,@"«»]+'
DECL = re.compile(r"(?m)^(abbrev |unfoldable |private )?(pub )?([^\s:(){}]+) :(?= |\n)")
def norm(s): return s.replace("-", "_").replace("_lem", "").lower()
def say(*a): print("look:", *a)

def blocks(text):
    """The text's parts: each begins at column 0 with a declaration's signature, and goes on to the next."""
    out, cur = [], []
    for line in text.split("\n"):
        if line and not line[0].isspace() and not line.startswith("--"):
            m = re.match(r"(?:abbrev |unfoldable |pub )*([^\s:(){}]+) :", line)
            if line.startswith("use ") or line.startswith("pub use ") or m or line.startswith("module ") or line.startswith("ruleset "):
                if cur: out.append(cur)
                cur = []
        cur.append(line)
    if cur: out.append(cur)
    return ["\n".join(b).strip("\n") for b in out]

class Fn:
    def __init__(self, key, d):
        self.d = d
        self.places = {p[0]: (p[1], p[2], p[3], p[4]) for p in d["places"]}
        self.index = {p[0]: i for i, p in enumerate(d["places"])}
        self.needs = [(o, n) for o, n in d["needs"]]
        self.at = [a for a, b in d["asked_at"]]
    def arm(self, place, old, rest):
        """The new path of a field that an arm gives."""
        q = place
        best = None
        a = self.d["arms"][self.index[place]] if self.d["arms"] else None
        if a:
            for new, field, path in a[2]:
                if field and norm(field) == norm(old) and rest[:len(path)] == path:
                    if best is None or len(path) >= len(best[1]):
                        best = (new, path, a[0])
        return best

def convert(crate, fn_path, key, d, folder, text):
    f = Fn(key, d)
    bl = blocks(text)
    uses, helpers, invs, goals, spec = [], [], [], [], []
    for b in bl:
        if b.startswith("use ") or b.startswith("pub use "):
            for l in b.split("\n"):
                if re.search(r"\.(Statement|Tie)\b", l): continue
                if l.strip(): uses.append(l)
            continue
        if not b.strip(): continue
        head = b.split("\n")[0]
        m = re.match(r"(?:abbrev |unfoldable |pub )*([^\s:(){}]+) : *(.*)", head)
        if m and m[2].startswith("tie.invariant-") or m and m[2].startswith("tie.decreases-"):
            invs.append((m[1], m[2].split()[0][4:], b)); continue
        if m and m[2].startswith("tie.Need-"):
            goals.append((m[1], m[2].split()[0][len("tie.Need-"):], b)); continue
        if "statement M" in head or re.match(r"[^\s]+-spec =", head) or "tie.close" in b:
            spec.append(b); continue
        helpers.append(b)
    # the needs: by normalized name
    table = {}
    for i, (o, n) in enumerate(f.needs):
        table.setdefault(norm(o), []).append(i)
    out_goals, gone = [], []
    for name, need, b in goals:
        cands = None
        for k in (need, re.sub(r"^overflow-", "", need), re.sub(r"^nonzero-", "", need), re.sub(r"^slice-bounds-", "part-", need), re.sub(r"^slice-bounds-", "slice_bounds_", need)):
            if norm(k) in table: cands = table[norm(k)]; break
        if cands is None:
            gone.append((need, b)); continue
        i = cands[0]
        out_goals.append((i, f.needs[i][1], f.needs[i][0], f.at[i], b))
    loops = d["loops"]
    inv_names = []
    inv_out = []
    for name, what, b in invs:
        lines = b.split("\n")
        # definition line
        body_lines = []
        unf = []
        for l in lines[1:]:
            if l.startswith("unfolding "): unf.append(l); continue
            body_lines.append(l)
        body = "\n".join(body_lines)
        m = re.match(re.escape(name) + r"((?: +" + TOK + r")*?) =(?= |\n)", body)
        if not m: say(folder, "invariant", name); continue
        args = m[1].split()
        kind = "invariant" if what.startswith("invariant") else "decreases"
        loop = loops[0]
        if len(loops) > 1: say(folder, "two loops")
        vars_, changed = loop[1], d["changed"][0]
        env, k = {}, 0
        targets = [("l.initial." + v if c else "l." + v) for v, c in zip(vars_, changed)] + ["l." + v for v, c in zip(vars_, changed) if c]
        if len(targets) != len(args): say(folder, "invariant arity", args, targets)
        for a, t in zip(args, targets): env[a] = t
        rest = body[m.end():]
        # binders that hide
        for mm in re.finditer(r"(?:λ|let) *\(?(" + TOK + r")", rest):
            if mm[1] in env: say(folder, "binder hides", mm[1])
        rest = re.sub(r'(?<![^\s(){};,@"«»])' + TOK, lambda mm: env.get(mm[0], mm[0]), rest)
        new = loop[0][1]
        nm = f"{kind}-{new}"
        inv_names.append(nm)
        sig = f"abbrev pub {nm} : goal.{nm}\n" + "".join(u + "\n" for u in unf)
        inv_out.append((sig + f"{nm} l ={rest}").rstrip())
    # goals
    ans_out, seen = [], set()
    for i, new, old, at, b in out_goals:
        lines = b.split("\n")
        name = lines[0].split(" :")[0].split()[-1]
        unf, body_lines, started = [], [], False
        for l in lines[1:]:
            if not started and l.startswith("unfolding "): unf.append(l); continue
            if l.startswith(name + " "): started = True
            if started: body_lines.append(l)
        body = "\n".join(body_lines)
        body = re.sub(r"(?<=[\s(])\(c\)\.", "c.", body)
        m = re.match(re.escape(name) + r" (" + TOK + r")((?: +" + TOK + r")*?) =(?= |\n)(.*)$", body, re.S)
        if not m: say(folder, "goal shape", name); continue
        c = m[1]; rest = m[3]
        if re.fullmatch(r"\s*search rules\s*", rest) and not unf: continue
        if re.fullmatch(r"\s*omega arith\s*", rest) and not unf: continue
        env = {c: at}
        bad = []
        values = {}
        extra = m[2].split()
        def resolve(root, fields):
            """A path's new text, or ('place', P)."""
            p = env[root]; j = 0
            while j < len(fields) and fields[j] == "before":
                if f.places[p][0] is not None: p = f.places[p][0]
                j += 1
            rest_ = fields[j:]
            if not rest_: return ("place", p)
            field = rest_[0]
            # the place that has it, at p or above
            q = p
            while q is not None:
                po = f.places[q]
                if norm(po[1][0]) == norm(field) or (po[0] is None and field in ("args", "requires", "ranges", "told", "ghost", "utf8")):
                    break
                q = po[0]
            if q is None:
                q = at
                while q is not None:
                    po = f.places[q]
                    if norm(po[1][0]) == norm(field): break
                    q = po[0]
                if q is None:
                    q = [x for x in f.places if norm(f.places[x][1][0]) == norm(field)]
                    q = q[0] if len(q) == 1 else None
            if q is None:
                a = f.arm(p, field, rest_[1:])
                if a: return "c." + a[2] + "." + ".".join([a[0]] + rest_[1 + len(a[1]):])
                bad.append((root, fields)); return None
            if 0: say(folder, new, "found above", ".".join([root] + fields))
            po = f.places[q]
            if po[0] is None:
                out = ["c"] + rest_
                if field == "requires" and d["pre"] and len(rest_) > 1 and rest_[1].isdigit():
                    out = ["c", "requires"] + clause(d["pre"]["fields"], rest_[1:])
                return ".".join(out)
            a = f.arm(at, field, rest_[1:]) or f.arm(q, field, rest_[1:])
            if a is None:
                # an arm below the place, on the way from where the goal is asked
                r = at
                while r is not None and a is None:
                    a = f.arm(r, field, rest_[1:]); r = f.places[r][0]
            if a: return "c." + a[2] + "." + ".".join([a[0]] + rest_[1 + len(a[1]):])
            newf = po[1][1]
            tail = rest_[1:]
            cl = d["clauses"][f.index[q]] if d["clauses"] else None
            if cl and len(tail) > 1 and tail[0] in ("ensures",) and tail[1].isdigit():
                tail = [tail[0]] + clause(cl["fields"], tail[1:])
            if tail and tail[0] in ("new", "auto") and len(tail) > 1 and tail[1].isdigit():
                ps = d["params"].get(po[2]) or []
                k = int(tail[1])
                if k < len(ps): tail = [tail[0], ps[k]] + tail[2:]
                say(folder, new, "index", tail)
            return ".".join(["c", newf] + tail)
        text_ = rest
        # lets of places
        pos = 0; out = ""
        token = re.compile(r'(?<![^\s(){};,@"«»])(' + TOK + r')((?:\.' + TOK + r')*)')
        # go through in order so that aliases are known
        i2 = 0
        def path_at(s, k):
            mm = token.match(s, k); return mm
        k = 0
        buf = []
        s = text_
        while k < len(s):
            lm = re.compile(r'let (' + TOK + r') = (' + TOK + r')((?:\.' + TOK + r')*) in(?=\s)').match(s, k)
            if lm and (k == 0 or s[k - 1] in " \n(") and lm[2] in env:
                r = resolve(lm[2], [x for x in lm[3].split(".") if x])
                if isinstance(r, tuple):
                    env[lm[1]] = r[1]; k = lm.end()
                    while k < len(s) and s[k] in " \n": k += 1
                    buf.append("\0") ; continue
                if r:
                    if lm[1] in env: del env[lm[1]]
                    buf.append(f"let {lm[1]} = {r} in"); k = lm.end(); continue
            tm = token.match(s, k)
            if tm and (k == 0 or s[k - 1] not in "." ):
                root, fl = tm[1], [x for x in tm[2].split(".") if x]
                if root in env and root != "":
                    if not fl:
                        if root == c or True: bad.append((root, "bare"))
                        buf.append("c"); k = tm.end(); continue
                    r = resolve(root, fl)
                    if isinstance(r, tuple): bad.append((root, fl, "place")); buf.append("c"); k = tm.end(); continue
                    buf.append(r or tm[0]); k = tm.end(); continue
                buf.append(tm[0]); k = tm.end(); continue
            buf.append(s[k]); k += 1
        rest = "".join(buf)
        rest = re.sub(r"\0", "", rest)
        for e in extra:
            if re.search(r'(?<![^\s(){};,@])' + re.escape(e) + r'(?![^\s(){}.;,@])', rest): say(folder, new, "uses", e)
        for x in bad: say(folder, new, "path", x)
        fields = d["asked"].get(old)
        rs = rest.strip()
        if fields:
            lets, e = split_lets(rs)
            parts = flat_parts(e, len(fields))
            rest = " " + lets + "record { " + "; ".join(f"{a} = {p}" for a, p in zip(fields, parts)) + " }"
        if new in seen:
            say(folder, new, "twice"); continue
        seen.add(new)
        sig = f"pub {new} : goal.{new}\n" + "".join(u + "\n" for u in unf)
        ans_out.append((sig + f"{new} c ={rest if rest.startswith(chr(10)) else ' ' + rest.lstrip()}").rstrip())
    base = os.path.dirname(folder)
    mod = f"Rattle.{crate}.proofs.{fn_path}"
    hi, ha = [], list(helpers)
    if inv_out:
        it = "\n".join(inv_out)
        for h in helpers:
            nm = re.match(r"(?:abbrev |unfoldable |pub )*([^\s:(){}]+)", h)[1]
            if re.search(r'(?<![^\s(){};,@])' + re.escape(nm) + r'(?![^\s(){};,@])', it): hi.append(h); ha.remove(h)
        pre = "\n".join(uses + [f"use {mod}.Given as goal"]) + "\n\n"
        hp = [re.sub(r"^(abbrev |unfoldable )?(?!pub )", lambda m: (m[1] or "") + "pub ", h, count=1) for h in hi]
        open(os.path.join(folder, "Invariants.antt"), "w").write(pre + "\n\n".join(hp + inv_out) + "\n")
    if ans_out:
        us = list(uses)
        if hi:
            us.append("use " + mod + ".Invariants.{" + ", ".join(re.match(r"(?:abbrev |unfoldable |pub )*([^\s:(){}]+)", h)[1] for h in hi) + "}")
        pre = "\n".join(us + [f"use {mod}.Goals as goal"]) + "\n\n"
        open(os.path.join(folder, "Answers.antt"), "w").write(pre + "\n\n".join(ha + ans_out) + "\n")
    for need, b in gone:
        if not re.search(r"= search rules\s*$", b) and not re.search(r"= omega arith\s*$", b): say(folder, "gone", need)
    os.remove(os.path.join(folder, "Proof.antt"))

def clause(fields, path):
    """The clause that a path leads to, in a product that is nested to the right, and the rest of the path."""
    k, i = 0, 0
    while k < len(fields) - 1:
        if i >= len(path) or not path[i].isdigit(): return path
        step = path[i]; i += 1
        if step == "0": break
        k += 1
    return [fields[k]] + path[i:]

def split_lets(s):
    """The lets that a term begins with, and the term behind them."""
    s = s.strip()
    k = 0
    while True:
        m = re.match(r"\s*let\s", s[k:])
        if not m: break
        depth, lets, i = 0, 0, k
        while i < len(s):
            ch = s[i]
            if ch in "({": depth += 1
            if ch in ")}": depth -= 1
            if depth == 0 and re.match(r"(?<![^\s(])let\s", s[i:]) and (i == 0 or s[i-1] in " \n("): lets += 1
            if depth == 0 and s[i-1] in " \n)" and re.match(r"in(?=[\s(])", s[i:]):
                lets -= 1
                if lets == 0: i += 2; break
            i += 1
        k = i
    return s[:k] + (" " if k else ""), s[k:].strip()

def flat_parts(e, n):
    parts = tuple_parts(e)
    if not parts:
        e2 = e if re.fullmatch(TOK + r"(\." + TOK + ")*", e) else "(" + e + ")"
        return [f"{e2}.{i}" for i in range(n)]
    if len(parts) == n: return parts
    if len(parts) > n: return parts[:n - 1] + ["(" + ", ".join(parts[n - 1:]) + ")"]
    return parts[:-1] + flat_parts(parts[-1], n - len(parts) + 1)

def tuple_parts(s):
    s = s.strip()
    if not (s.startswith("(") and s.endswith(")")): return None
    depth, parts, cur = 0, [], ""
    for i, ch in enumerate(s[1:-1]):
        if ch in "({": depth += 1
        if ch in ")}": depth -= 1
        if depth < 0: return None
        if ch == "," and depth == 0:
            parts.append(cur.strip()); cur = ""
        else: cur += ch
    if cur.strip(): parts.append(cur.strip())
    return parts if len(parts) > 1 else None

n = 0
for crate in crates:
    d = json.load(open(f"{names_dir}/{crate}/names.json"))
    for root, dirs, fs in os.walk(f"crates/{crate}/proofs"):
        if "Proof.antt" not in fs: continue
        path = os.path.relpath(root, f"crates/{crate}/proofs").replace("/", ".")
        key = f"Rattle-{crate}-proofs.{path}.Lts"
        if key not in d:
            say(root, "no names"); continue
        convert(crate, path, key, d[key], root, open(os.path.join(root, "Proof.antt"), encoding="utf-8").read()); n += 1
print(n, "proofs turned")
