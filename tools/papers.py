#!/usr/bin/env python3
"""Brings the names in the papers to the spelling of the crates: what stands in backquotes, by tools/names.tsv.

usage: papers.py FILE..      at the top of the repository
"""
import glob
import re
import sys

NAMES = dict(line.rstrip("\n").split("\t") for line in open("tools/names.tsv", encoding="utf-8"))
TOKEN = re.compile(r'[^\s(){}.;,@"«»`\[\]:/]+')

THERE = set()
for path in glob.glob("crates/*/specs/**/*.antt", recursive=True) + glob.glob("crates/*/proofs/**/*.antt", recursive=True):
    with open(path, encoding="utf-8") as f:
        THERE.update(TOKEN.findall(f.read()))


def name(old):
    """The name of today: of tools/names.tsv, or where the kit's script respelled it."""
    if old in NAMES or old in THERE:
        return NAMES.get(old, old)
    new = re.sub(r"(?<=[a-z0-9])[A-Z]", lambda m: "_" + m[0].lower(), old).replace("-", "_")
    return new if old[:1].islower() and new in THERE else old


def turned(code):
    code = TOKEN.sub(lambda m: name(m[0]), code)
    code = re.sub(r"(?<=[\w')\]]) \.(?=[A-Za-z])", ".", code)
    code = re.sub(r"\(([\w']+(?:\.[\w']+)+)\)", r"\1", code)
    return re.sub(r"\bcrates/slab/", "crates/slabs/", re.sub(r"^slab$", "slabs", code))


for path in sys.argv[1:]:
    with open(path, encoding="utf-8") as f:
        text = f.read()
    new = re.sub(r"`([^`\n]+)`", lambda m: "`" + turned(m[1]) + "`", text)
    new = re.sub(r"\]\(([^)\s]*)crates/slab/", r"](\1crates/slabs/", new)
    if new != text:
        with open(path, "w", encoding="utf-8") as f:
            f.write(new)
        print(path)
