#!/usr/bin/env python3
"""Writes one page for an auditor, from the specs themselves: what is proved, and every definition that it cites, down to the bytes.

    python3 docs/statement/statement.py [--of FOLDER] PAGE

The statement and the calls are the roots. What they cite is shown, and what that cites, and so on, each definition once; every name
is a link. Where a root, a cited name or an imported one is not there, no page is written: each place is told as file:line, and the exit
status is 1. FOLDER is the repository, this one if none is given.
"""
import os
import re
import sys

from fields import Fields, told_by_labels
from files import Book, Def, Lib, Wrong, fault, faults
from order import order, reach
from page import Links, lines_of, page
from terms import read

# What the page states: crate, folder and module, name. Of a theorem in proofs/ it shows what it says, not its proof.
STATEMENT = [
    ("line_demand", "proofs.Demand", "demand_three"),
    ("line_demand", "specs.Demand", "DemandThree"),
    ("line_mailbox", "proofs.Demand", "demand_three_polled"),
    ("line_mailbox", "specs.Demand", "DemandThreePolled"),
    ("line_notice", "proofs.Demand", "demand_three_notices"),
    ("line_notice", "specs.Demand", "DemandThreeNotices"),
]

# The crates whose functions C calls, each a part of the page.
CALLS = [("tumbeliko", "The calls"), ("drill", "The drill")]

# Where it is said what is assumed.
ASSUMED = ("docs/PROMISES.md", "What is assumed")


def stated(book):
    found = []
    for crate, place, name in STATEMENT:
        folder, _, module = place.partition(".")
        m = book.module(crate, folder, module)
        if m is None or name not in m.defs:
            path = f"crates/{crate}/{folder}/{module.replace('.', '/')}.antt"
            fault(path, 1, f"the statement `{name}` is to stand here, " + ("and does not" if m else "and there is no such file"))
            continue
        d = m.defs[name]
        if folder == "proofs":
            d.kind, d.items = "theorem", d.items[:1]
        found.append(d)
    return found


def called(book, crate):
    calls = [d for source in book.crate(crate) for d in source.calls]
    if not calls:
        fault(f"crates/{crate}/src/lib.rt", 1, "C is to call functions of this crate, and it has none")
    for d in calls:
        if not d.promises:
            fault(d.file.path, d.line, f"`{d.name}` has no `ensures`: it promises nothing")
    return calls


def assumed(root):
    path, title = ASSUMED
    text = ""
    if os.path.isfile(os.path.join(root, path)):
        with open(os.path.join(root, path), encoding="utf-8") as f:
            text = f.read()
    m = re.search(rf"^## {re.escape(title)}\n(.*?)(?=^## |\Z)", text, re.S | re.M)
    if m is None:
        fault(path, 1, f"a section `{title}` is to stand here, and does not")
    return " ".join(m.group(1).split()) if m else ""


def closure(roots):
    """The roots and all that they cite, each read; and the fields of which it was not told whose they are."""
    found, untold = list(roots), []
    for d in found:
        read(d)
        if not faults:
            Fields(d, untold)
        found += [c for c in d.cites if isinstance(c, Def) and c not in found]
    return found, untold


def check(text, every, roots, path):
    """That the page is whole: no link leads nowhere, and each definition stands after one that cites it."""
    links = Links(text)
    for anchor in sorted(links.links - links.places):
        fault(path, 1, f"a link leads nowhere: {anchor}")
    for anchor in sorted(links.twice):
        fault(path, 1, f"two places have one name: {anchor}")
    cited = set(roots)
    for d in every:
        if d not in cited:
            fault(d.file.path, d.line, f"`{d.name}` would stand before all that cite it")
        cited.update(d.cites)


def write(root, path):
    book = Book(root)
    parts = [("Demand 3", stated(book))] + [(title, called(book, crate)) for crate, title in CALLS]
    roots = [d for _, ds in parts for d in ds]
    found, untold = closure(roots)
    words = assumed(root)
    vague = [] if faults else told_by_labels(found, untold)
    if faults:
        return
    statement, left, groups = parts[0][1][-1], set(found), []
    for title, ds in parts:
        here = reach(ds, left)
        left -= here
        groups.append((title, order(ds, here)))
    every = [d for _, gs in groups for group in gs for d in group]
    libs = {c for d in found for c in d.cites if isinstance(c, Lib)}
    text = page(groups, statement, libs, words)
    check(text, every, roots, path)
    if faults:
        return
    os.makedirs(os.path.dirname(path) or ".", exist_ok=True)
    with open(path, "w", encoding="utf-8") as f:
        f.write(text)
    for d, t in vague:
        print(f"{d.file.path}:{t.line}: it is not told which record's field `{t.text}` is, so it is no link")
    bare = [f"{d.name} ({d.file.path}:{d.line})" for d in every if not d.told]
    lines = set().union(*map(lines_of, every))
    print(f"{path}: {len(every)} definitions, {len(lines)} lines to believe, {len(bare)} without a sentence" + (":" if bare else ""))
    print("\n".join(bare), end="\n" if bare else "")


def main(args):
    for stream in sys.stdout, sys.stderr:
        stream.reconfigure(encoding="utf-8")
    root = "."
    if args[:1] == ["--of"] and len(args) > 2:
        root, args = args[1], args[2:]
    if len(args) != 1 or args[0].startswith("-"):
        print(__doc__.strip(), file=sys.stderr)
        return 2
    try:
        write(root, args[0])
    except Wrong as e:
        fault(*e.args)
    if faults:
        print("\n".join(faults + ["no page is written"]), file=sys.stderr)
    return 1 if faults else 0


if __name__ == "__main__":
    sys.exit(main(sys.argv[1:]))
