"""The order in which definitions are read, from the statement down."""


def reach(entries, among, place=None):
    """All of a set that the entries reach inside it, themselves too; of one place alone, if it is given."""
    seen, todo = set(), list(entries)
    while todo:
        d = todo.pop()
        if d in among and d not in seen and place in (None, d.place):
            seen.add(d)
            todo += d.cites
    return seen


def order(roots, left):
    """The definitions that are left, in groups of one place, from the roots down. What a group cites of its own place belongs to it;
    what it cites of other places comes after it, always that next which brings the fewest definitions with it: so the small notions
    of a statement are read before the large ones."""
    groups = []

    def each(waiting, visit, place=None):
        while waiting:
            visit(min(waiting, key=lambda entries: len(reach(entries, left, place))))
            waiting = [w for w in ([d for d in entries if d in left] for entries in waiting) if w]

    def within(entries, place, group):
        for d in entries:
            if d in left:
                left.remove(d)
                group.append(d)
                each([[c] for c in d.cites if c in left and c.place == place], lambda w: within(w, place, group), place)

    def by_place(defs):
        places = {}
        for d in defs:
            if d in left:
                places.setdefault(d.place, {})[d] = None
        return [list(ds) for ds in places.values()]

    def visit(entries):
        group = []
        within(entries, entries[0].place, group)
        groups.append(group)
        each(by_place(c for d in group for c in d.cites), visit)

    for root in roots:
        if root in left:
            visit([d for d in roots if d.place == root.place and d in left])
    return groups
