#!/usr/bin/env python3
"""Respells the repository's own definitions and lemmas: words in snake case, types and modules in camel case.

usage: python3 tools/respell.py [--check]      at the top of the repository, after port.py, once

It turns the names of crates/*/specs and crates/*/proofs, and their uses in the clauses of crates/*/src: `twoAt` and `put-two` become `two_at` and
`put_two`. What a file imports from a library that is not the repository's keeps its spelling, and so does all Rust. With --check it writes nothing,
and lists names that would fall together. The last lines list what must be looked at by hand.
"""
import collections
import glob
import os
import re
import sys

CHECK = "--check" in sys.argv
# Names that would fall together with another in some file, and what they are called in place of that.
OTHER = {}
if os.path.exists("tools/respell.tsv"):
    for line in open("tools/respell.tsv", encoding="utf-8"):
        if line.strip() and not line.startswith("#"):
            old, new = line.rstrip("\n").split("\t")
            OTHER[old] = new

WORD = re.compile(r'(?P<dot>\.?)(?P<word>[^\s(){}.;,@"«»\[\]]+)')
COMMENT = re.compile(r"(?m)(?:^|(?<=\s))--[^\n]*")
OWN = {d for d in os.listdir("crates") if os.path.isdir("crates/" + d)}
USE = re.compile(r"(?m)^(?:ghost )?use ([^\s{;]+?)(?:\.\{([^}]*)\})?(?: as (\S+?))?;?$")
NAME = re.compile(r"^[^\W\d_][\w'₀-₉⊎-]*$")


def candidate(w):
    if not NAME.match(w) or w.startswith("-") or w.endswith("-"):
        return False
    return "-" in w or "′" in w or bool(re.match(r"[a-z]", w) and re.search(r"[a-z0-9][A-Z]", w))


def spelled(w):
    if w in OTHER:
        return OTHER[w]
    w = w.replace("′", "'")
    parts = w.split("-")
    # A fact keeps its capital where a dash joins it; the first word alone says whether this is a type.
    if re.match(r"[a-z]", parts[0]):
        parts = [re.sub(r"(?<=[a-z0-9])([A-Z])", lambda m: "_" + m[1].lower(), p) for p in parts]
    return "_".join(parts)


def owns(path):
    steps = path.split(".")
    return steps[0] == "Rattle" and len(steps) > 1 and steps[1] in OWN


def imports(text):
    """What a file takes from libraries that are not the repository's, and the aliases of such modules."""
    lib, alias = set(), set()
    for m in USE.finditer(text):
        if owns(m[1]):
            continue
        for item in (m[2] or "").split(","):
            item = item.strip()
            if item:
                lib.add(item.split(" as ")[-1].strip())
                lib.add(item.split(" as ")[0].strip())
        if not m[2]:
            alias.add(m[3] or m[1].split(".")[-1])
    return lib, alias


def files(kind):
    return sorted(p for p in glob.glob("crates/*/**/*." + kind, recursive=True) if "/out/" not in p)


DECL = re.compile(r'(?m)^[ ]*(?:(?:abbrev|unfoldable|pub|opaque|record|data)\s+)*([^\s(){}.;,@"«»:|=]+)(?:\s*\{[^{}\n]*\}|\s*\([^()\n]*(?:\([^()\n]*\)[^()\n]*)*\))*\s*:(?=\s)')
declared = set()
for p in files("antt"):
    declared |= set(DECL.findall(COMMENT.sub("", open(p, encoding="utf-8").read())))

look = []


def turn_piece(piece, lib, alias, bare, turned, seen, walk=False, prior=""):
    """piece with its words turned. bare: any candidate turns; else only declared ones. walk: a walk over the code, where a name behind a dot is Rattle's."""
    out, last, head = [], 0, None
    for m in WORD.finditer(piece):
        w = m["word"]
        dotted = m["dot"] == "." and (m.start() > 0 and not piece[m.start() - 1].isspace() or m.start() == 0 and prior)
        if not dotted:
            head = w
        new = w
        if candidate(w):
            if dotted:
                if w in declared and not (walk and "-" in w) and head not in alias and not (head in ("native", "mathlib", "lib", "borrow", "Prim", "denote")):
                    new = spelled(w)
            elif w not in lib and (bare or w in declared):
                new = spelled(w)
        if new != w:
            turned[w] = new
        elif not dotted:
            seen.add(w)
        out.append(piece[last : m.start("word")])
        out.append(new)
        last = m.end("word")
    out.append(piece[last:])
    return "".join(out)


def tell(p, turned, seen, lib):
    back = collections.defaultdict(set)
    for o, n in turned.items():
        back[n].add(o)
    for n, os_ in back.items():
        if len(os_) > 1:
            look.append(f"{p}: {sorted(os_)} fall together as {n}")
        if n in seen or n in lib:
            look.append(f"{p}: {sorted(os_)} meets {n}")


def write(p, text, old):
    if text != old and not CHECK:
        with open(p, "w", encoding="utf-8") as f:
            f.write(text)


every = {}
for p in files("antt"):
    old = open(p, encoding="utf-8").read()
    lib, alias = imports(old)
    turned, seen, walk = {}, set(), p.endswith("/Proof.antt")
    out, last = [], 0
    for m in COMMENT.finditer(old):
        out.append(turn_piece(old[last : m.start()], lib, alias, True, turned, seen, walk))
        out.append(("c", m[0]))
        last = m.end()
    out.append(turn_piece(old[last:], lib, alias, True, turned, seen, walk))
    tell(p, turned, seen, lib)
    every.update({o: n for o, n in turned.items()})
    # a comment's words turn where the file's code has them
    done = "".join(x if isinstance(x, str) else WORD.sub(lambda m: m["dot"] + turned.get(m["word"], m["word"]), x[1]) for x in out)
    write(p, done, old)

CLAUSE = re.compile(r"(?P<use>ghost use [^;]*;)|(?P<open>\b(?:requires|ensures)\*?(?: \w+)? \{|\bghost \w*:? ?\{)")


def clause_end(t, i):
    depth = 1
    while depth:
        depth += {"{": 1, "}": -1}.get(t[i], 0)
        i += 1
    return i


for p in files("rt"):
    old = open(p, encoding="utf-8").read()
    lib, alias = imports(old)
    turned, seen = {}, set()
    out, last = [], 0
    while True:
        m = CLAUSE.search(old, last)
        if not m:
            break
        out.append(old[last : m.start()])
        end = m.end() if m["use"] else clause_end(old, m.end())
        piece = old[m.start() : end]
        if m["use"]:
            g = re.match(r"ghost use ([^\s{;]+)", piece)
            out.append(turn_piece(piece, lib, alias, False, turned, seen) if owns(g[1]) else piece)
        else:
            out.append(turn_piece(piece, lib, alias, False, turned, seen))
        last = end
    out.append(old[last:])
    params = set(re.findall(r"[(,]\s*(?:mut )?(\w+): ", old))
    for o, n in turned.items():
        if n in params:
            look.append(f"{p}: {o} meets the parameter or field {n}")
    tell(p, turned, seen, lib)
    every.update(turned)
    write(p, "".join(out), old)

for line in look:
    print("look: " + line)
print(f"{len(every)} names" + (" would turn" if CHECK else " turned"))
