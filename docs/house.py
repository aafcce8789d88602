#!/usr/bin/env python3
"""Writes what stands on what among the crates, as a graph for `dot -Tsvg` (make house), by subject: the groups of crates.txt.

An arrow is drawn where a crate's own files cite another and no other cited crate brings that one along. Says, and fails, where crates.txt lists a
crate that nobody cites there, or lacks one that is cited.
"""
import os
import re
import sys

def files(crate):
    for top, _, names in os.walk(os.path.join('crates', crate)):
        for name in sorted(names):
            if name.endswith(('.rt', '.antt')):
                yield os.path.join(top, name)

def text(path):
    with open(path, encoding='utf-8') as f:
        return f.read()

def lines(crate, part, ending):
    return sum(1 for p in files(crate) if p.startswith(f'crates/{crate}/{part}/') and p.endswith(ending)
               for l in text(p).split('\n') if l.strip() and not l.strip().startswith(('//', '--')))

groups, listed, title = [], {}, ''
for line in text('crates.txt').split('\n'):
    if line.startswith('#'):
        title = line[1:].strip()
    elif ':' in line:
        name, deps = line.split(':', 1)
        if not groups or groups[-1][0] != title:
            groups.append((title, []))
        groups[-1][1].append(name.split()[0])
        listed[name.split()[0]] = deps.split()

cited = {}
for name in listed:
    whole = ''.join(text(p) for p in files(name))
    cited[name] = [d for d in listed if d != name and re.search(rf'Rattle\.{d}\.|(?<![\w:.]){d}::', whole)]

wrong = [f'{n}: {d} is listed and not cited' for n in listed for d in listed[n] if d not in cited[n]]
wrong += [f'{n}: {d} is cited and not listed' for n in listed for d in cited[n] if d not in listed[n]]
for w in wrong:
    print('crates.txt: ' + w, file=sys.stderr)

def below(name):
    found = set()
    for d in cited[name]:
        found |= {d} | below(d)
    return found

under = {name: below(name) for name in listed}
print('digraph house {\n  rankdir=TB; ranksep=0.45; nodesep=0.2; bgcolor="white";')
print('  node [shape=box, fontname="Helvetica", fontsize=11, style=filled, fillcolor="white", margin="0.08,0.04"];')
print('  edge [color="#667788", arrowsize=0.6];')
for i, (title, names) in enumerate(groups):
    print(f'  subgraph cluster_{i} {{ label="{title}"; fontname="Helvetica"; fontsize=10; color="#99aabb"; style="rounded,filled"; fillcolor="#f2f6fa";')
    for n in names:
        print(f'    {n} [label="{n}\\n{lines(n, "src", ".rt")} code, {lines(n, "specs", ".antt")} definitions"];')
    print('  }')
for n in listed:
    for d in cited[n]:
        if not any(d in under[e] for e in cited[n] if e != d):
            print(f'  {n} -> {d};')
print('}')
sys.exit(1 if wrong else 0)
