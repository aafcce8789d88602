"""Whose field a field is. `b.n` is a link to n of the record that b is, so types are worked out, as far as that needs."""
from files import CONTRACT, Def, Lib, Member, Var, fault
from terms import Node, cite, name_node, number, read

# What a parameter that is a reference leads to: at the call and at its end, or, where it cannot be written to, at both.
MOMENTS = {"old", "new", "now"}


def subst(t, by):
    """t, with other terms for some of its variables."""
    if t is None or not by:
        return t
    if t.kind == "name":
        return by.get(t.ref, t)
    if t.kind == "app":
        return Node("app", fn=subst(t.fn, by), args=[subst(a, by) for a in t.args])
    if t.kind == "proj":
        return Node("proj", expr=subst(t.expr, by), tok=t.tok)
    if t.kind == "pi":
        return Node("pi", vars=t.vars, domain=subst(t.domain, by), arrow=t.arrow, body=subst(t.body, by), loose=t.loose)
    if t.kind == "record":
        return Node("record", items=[(label, sign, subst(value, by)) for label, sign, value in t.items])
    return t


def applied(fn, args):
    return Node("app", fn=fn, args=args) if args else fn


def spine(t):
    """A head and its arguments, without the implicit ones."""
    args = []
    while t is not None and t.kind == "app":
        args = [a for a in t.args if a.kind != "implicit"] + args
        t = t.fn
    return t, args


def outer_vars(head):
    """What a name takes first, from outside of its sections."""
    return [v for s in head.outside for v in s.vars]


def unfold(t, deep=0):
    """t with its head computed, as far as definitions without cases and records that are written out go."""
    while t is not None and deep < 30:
        deep += 1
        head, args = spine(t)
        if head is None:
            return t
        if head.kind == "proj":
            value = unfold(head.expr, deep)
            field = None
            if value is not None and value.kind == "record":
                field = next((v for label, sign, v in value.items if label.name == head.tok.name and sign == "="), None)
            if field is None:
                return t
            t = applied(field, args)
            continue
        if head.kind != "name" or not isinstance(head.ref, Def) or head.ref.kind != "function":
            return t
        read(head.ref)
        if len(head.ref.clauses) != 1 or any(p.kind != "var" for p in head.ref.clauses[0][0]):
            return t
        patterns, body = head.ref.clauses[0]
        vars = [v for v in outer_vars(head) if not v.implicit] + [p.var for p in patterns]
        if len(args) < len(vars):
            return t
        t = applied(subst(body, dict(zip(vars, args))), args[len(vars):])
    return t


def owner(t):
    """What a type is, a record, a data type or a library's type, with its arguments."""
    head, args = spine(unfold(t))
    if head is not None and head.kind == "name" and isinstance(head.ref, (Def, Lib)):
        if isinstance(head.ref, Def):
            read(head.ref)
        return head, args
    return None, []


def parameters(head, args):
    """Which argument each parameter of a record or data type stands for."""
    return dict(zip([v for v in outer_vars(head) + head.ref.params if not v.implicit], args))


def field_of(expr, name):
    """The field of that name of a term, and the field's type."""
    head, args = owner(type_of(expr))
    if head is None or not isinstance(head.ref, Def) or head.ref.kind not in ("record", "struct") or not head.ref.member(name):
        return None, None
    by = parameters(head, args)
    for other in head.ref.members:
        by[other.var] = Node("proj", expr=expr, tok=other.tok)
    return head.ref.member(name), subst(head.ref.member(name).type, by)


def type_of(t):
    """The type of a term, or None where it is not told."""
    if t.kind == "name" and isinstance(t.ref, Var):
        return t.ref.type
    if t.kind == "name" and isinstance(t.ref, Def) and t.ref.kind == "function":
        read(t.ref)
        body = t.ref.type
        for v in reversed(outer_vars(t)):
            body = Node("pi", vars=[v], domain=v.type, arrow="→", body=body, loose=False)
        return body
    if t.kind == "app":
        return after_args(type_of(t.fn), t.args)[0]
    if t.kind == "proj":
        return field_of(t.expr, t.tok.name)[1]
    if t.kind == "let":
        return type_of(t.body)
    return None


def explicit(t):
    """A function's type from its first explicit argument on; None if it is none."""
    t = unfold(t)
    while t is not None and t.kind == "pi" and t.vars and t.vars[0].implicit:
        t = unfold(t.body)
    return t if t is not None and t.kind == "pi" and t.arrow == "→" else None


def given(t, arg):
    """What is left of a function's type once its argument is given."""
    return subst(t.body, {t.vars[0]: arg}) if t.vars else t.body


def after_args(t, args):
    """A function's type after so many arguments, and the type that each of them is to have."""
    wanted = []
    for a in args:
        if a.kind == "implicit":
            wanted.append(None)
            continue
        t = explicit(t)
        wanted.append(t and t.domain)
        t = t and given(t, a)
    return t, wanted


def library_args(name, t):
    """The types of the arguments of a library's constructor, by the type t of the whole."""
    _, args = owner(t)
    return {"some": args[:1], "◌∷◌": args[:1] + [t], "inl": args[:1], "inr": args[1:], "suc": [t]}.get(name, []) + [None] * 9


class Fields:
    """Gives each field in a definition its record. untold: those of which it was not told, as (definition, tokens)."""

    def __init__(self, d, untold):
        self.d, self.untold = d, untold
        for s in d.sections:
            for v in s.vars or []:
                self.term(v.type)
        for v in d.params:
            self.term(v.type)
        for m in d.members:
            self.term(m.type)
        self.term(d.type)
        for patterns, body in d.clauses:
            self.clause(patterns, body, d.type)
        for term in getattr(d, "terms", []):
            self.term(term)

    def pattern(self, p, t):
        """The type of each variable of a pattern, by the type t of the whole."""
        if p.kind == "var":
            p.var.type = t
        elif p.kind == "constructor" and p.ref:
            if isinstance(p.ref, Lib):
                wanted = library_args(p.ref.name, t)
            elif p.ref.owner.kind == "enum":
                read(p.ref.owner)
                wanted = p.ref.args
            else:
                head, args = owner(t)
                read(p.ref.owner)
                by = parameters(head, args) if head is not None and head.ref is p.ref.owner else {}
                _, wanted = after_args(subst(p.ref.type, by), p.args)
            for a, w in zip(p.args, wanted):
                self.pattern(a, w)

    def clause(self, patterns, body, t):
        hidden = {}
        for p in patterns:
            if p.kind == "hidden":
                hidden[p.label] = p.inner
                continue
            t = unfold(t)
            while t is not None and t.kind == "pi" and t.vars and t.vars[0].implicit:
                if t.vars[0].name in hidden:
                    self.pattern(hidden[t.vars[0].name], t.domain)
                t = unfold(t.body)
            t = explicit(t)
            self.pattern(p, t and t.domain)
            t = t and (given(t, name_node(p.var)) if p.kind == "var" else t.body)
        self.term(body, t)

    def term(self, n, t=None):
        """Goes through a term, which is to be of type t."""
        if n is None:
            return
        if n.kind == "lam":
            for v in n.vars:
                t = explicit(t)
                v.type = v.type or t and t.domain
                t = t and given(t, name_node(v))
            self.term(n.body, t)
        elif n.kind == "let":
            self.term(n.stated)
            self.term(n.value, n.stated)
            if len(n.vars) == 1:
                n.vars[0].type = n.stated or type_of(n.value)
            self.term(n.body, t)
        elif n.kind == "pi":
            self.term(n.domain)
            self.term(n.body)
        elif n.kind == "app":
            self.term(n.fn)
            result, wanted = after_args(type_of(n.fn), n.args)
            if result is not None and t is not None and result.kind == "name" and isinstance(result.ref, Var):
                # of a choice each side is to be what the whole is to be
                wanted = [subst(w, {result.ref: t}) for w in wanted]
            if n.fn.kind == "name" and isinstance(n.fn.ref, Lib):
                wanted = library_args(n.fn.ref.name, t)
            for a, w in zip(n.args, wanted):
                self.term(a.value if a.kind == "implicit" else a, w)
        elif n.kind == "proj":
            self.term(n.expr)
            self.field(n)
        elif n.kind == "record":
            self.literal(n, t)
        elif n.kind in ("operators", "tuple"):
            for part in n.parts:
                self.term(part)

    def field(self, n):
        if number(n.tok):
            return
        if n.tok.name in MOMENTS and self.d.kind == "call" and n.expr.kind == "name" and n.expr.ref in self.d.lent:
            cite(self.d, n.tok, Lib(CONTRACT, "." + n.tok.name))
            return
        member, _ = field_of(n.expr, n.tok.name)
        if member:
            cite(self.d, n.tok, member)
        else:
            self.untold.append((self.d, [n.tok]))

    def literal(self, n, t):
        labels = [label for label, sign, _ in n.items if sign == "="]
        head, args = owner(t)
        known = head is not None and isinstance(head.ref, Def) and {m.name for m in head.ref.members} == {x.name for x in labels}
        if labels and not known:
            self.untold.append((self.d, labels))
        by = parameters(head, args) if known else {}
        if known:
            by.update({head.ref.member(label.name).var: value for label, _, value in n.items})
        for label, _, value in n.items:
            if known:
                cite(self.d, label, head.ref.member(label.name))
            self.term(value, subst(head.ref.member(label.name).type, by) if known else None)


def told_by_labels(found, untold):
    """The fields left, by their labels: where one record on the page alone has them. The others are no links."""
    vague = []
    for d, toks in untold:
        names = {t.name for t in toks}
        having = [r for r in found if r.kind in ("record", "struct") and names <= {m.name for m in r.members}]
        if len(toks) > 1:
            having = [r for r in having if len(r.members) == len(names)]
        if not having:
            fault(d.file.path, toks[0].line, f"`{toks[0].text}` is cited, and no record that is cited has such a field")
        for t in toks:
            t.role = "label"
            if len(having) == 1:
                t.ref = having[0].member(t.name)
            else:
                vague.append((d, t))
    return vague
