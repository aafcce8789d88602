"""The terms of definitions, read so that each name in them gets what it means."""
from files import MARKS, RUST, UNKNOWN, WORDS, Def, Lib, Member, NotShown, Source, Tok, Var, Wrong, fault

# Constructors of the libraries: a bare name of a pattern is a constructor, or a variable.
CONSTRUCTORS = {"zero", "suc", "true", "false", "some", "none", "[]", "◌∷◌", "inl", "inr", "tt", "yes", "no"}

# Words that no argument begins with.
STOPS = {"→", "×", ":", "=", "in", "where", "|", "]", "↦"}


class Node:
    """A term or a pattern, by its kind:
    name (ref, outside: the sections of what it cites that it is not in itself), app (fn, args), proj (expr, tok), lam (vars, body),
    let (vars, stated, value, body), pi (vars, domain, arrow, body, loose: it binds nothing), record (items), operators and tuple (parts),
    implicit (value), literal; in patterns var (var), constructor (ref, args), hidden (label, inner), other."""

    def __init__(self, kind, **parts):
        self.kind = kind
        self.__dict__.update(parts)


def name_node(ref):
    return Node("name", ref=ref, outside=[])


def number(tok):
    return tok.kind == "name" and tok.text[0].isdigit()


def cite(d, tok, ref):
    """The token tok of d means ref."""
    tok.ref = ref
    target = ref.owner if isinstance(ref, Member) else ref
    if target is not d and target not in d.cites:
        d.cites.append(target)


class Reader:
    """Reads tokens of a definition. In env are the variables in scope; what is none of them is looked up in the file's scope."""

    def __init__(self, d, toks, sections):
        self.d, self.toks, self.sections, self.i = d, toks, sections, 0
        self.path, self.scope, self.operators = d.file.path, d.file.scope(), d.file.operators()
        self.end = Tok("", "end", -1, toks[-1].line if toks else d.line, 0, False)

    def peek(self, ahead=0):
        return self.toks[self.i + ahead] if self.i + ahead < len(self.toks) else self.end

    def at(self, *texts):
        return self.peek().kind != "escaped" and self.peek().text in texts

    def wrong(self, words):
        raise Wrong(self.path, self.peek().line, f"{words}, at `{self.peek().text}`")

    def take(self, text=None):
        t = self.peek()
        if t is self.end or text and t.text != text:
            self.wrong(f"this page's maker expects {f'`{text}`' if text else 'more'}")
        self.i += 1
        return t

    def bind(self):
        """A variable's name, where it is bound."""
        t = self.take()
        t.role = "variable"
        return Var(t.name)

    def ended(self):
        if self.peek() is not self.end:
            self.wrong("this page's maker cannot read on")

    def tight(self):
        """Whether a dot and a name follow without a space."""
        dot, name, last = self.peek(), self.peek(1), self.toks[self.i - 1]
        return dot.text == "." and dot.start == last.end and name.start == dot.end and name.kind in ("name", "escaped")

    # -- names

    def operator(self, env):
        """The operator's name, if the next token is a part of one."""
        t = self.peek()
        return self.operators.get(t.text) if t.kind == "name" and t.text not in env and t.text not in self.scope else None

    def meaning(self, tok, ref):
        if ref is None or isinstance(ref, NotShown):
            # an import of what is not there is told where it stands
            if tok.name not in self.scope or ref is not None:
                fault(self.path, tok.line, f"`{tok.text}` is cited, " + (ref.why if ref else "and nothing of that name is declared or imported here"))
            return name_node(None)
        cite(self.d, tok, ref)
        sections = getattr(ref.owner if isinstance(ref, Member) else ref, "sections", [])
        shared = 0
        while shared < min(len(sections), len(self.sections)) and sections[shared] is self.sections[shared]:
            shared += 1
        return Node("name", ref=ref, outside=sections[shared:])

    def name(self, env):
        t = self.take()
        if t.name in env:
            var = env[t.name]
            t.ref, t.role = var.member, "variable"
            return name_node(var)
        ref = self.scope.get(t.name)
        if isinstance(ref, Def) and ref.kind in ("data", "enum") and self.tight():
            # Word.echo: a constructor behind its type
            cite(self.d, t, ref)
            self.take(".")
            t = self.take()
            ref = ref.member(t.name)
        return self.meaning(t, ref)

    # -- terms

    def binders(self):
        """Whether a group of binders, (x y : A) or {x : A}, begins here."""
        n = 1
        while self.peek(n).kind == "escaped" or self.peek(n).kind == "name" and self.peek(n).text not in WORDS:
            n += 1
        return self.at("(", "{") and n > 1 and self.peek(n).text == ":"

    def group(self, env):
        implicit = self.take().text == "{"
        vars = []
        while not self.at(":"):
            vars.append(self.bind())
        self.take(":")
        domain = self.term(env)
        self.take("}" if implicit else ")")
        for v in vars:
            v.type, v.implicit = domain, implicit
        return vars

    def telescope(self, env):
        vars = []
        while self.binders():
            more = self.group(env)
            vars += more
            env = {**env, **{v.name: v for v in more}}
        return vars, env

    def term(self, env):
        if self.at("λ"):
            return self.lam(env)
        if self.at("let"):
            return self.let(env)
        if self.binders():
            vars, inner = self.telescope(env)
            arrow = self.take("×" if self.at("×") else "→").text
            body = self.term(inner)
            for v in reversed(vars):
                body = Node("pi", vars=[v], domain=v.type, arrow=arrow, body=body, loose=False)
            return body
        left = self.operands(env)
        if not self.at("→", "×"):
            return left
        arrow = self.take().text
        right = self.term(env)
        if arrow == "×" and right.kind == "pi" and right.arrow == "→" and right.loose:
            # × binds closer than →
            left, arrow, right = Node("pi", vars=[], domain=left, arrow="×", body=right.domain, loose=True), "→", right.body
        return Node("pi", vars=[], domain=left, arrow=arrow, body=right, loose=True)

    def bound(self):
        """A variable, or a tuple of them, as a λ and a `let` bind them."""
        if not self.at("("):
            return [self.bind()]
        self.take("(")
        vars = []
        while not self.at(")"):
            if self.at(","):
                self.take()
            else:
                vars += self.bound()
        self.take(")")
        return vars

    def lam(self, env):
        self.take("λ")
        vars = []
        while not self.at("."):
            if self.binders():
                vars += self.group(env)
            else:
                more = self.bound()
                # of a tuple's parts no type is told
                vars.append(more[0] if len(more) == 1 else Var("_"))
                env = {**env, **{v.name: v for v in more}}
        self.take(".")
        return Node("lam", vars=vars, body=self.term({**env, **{v.name: v for v in vars}}))

    def let(self, env):
        self.take("let")
        vars, stated = self.bound(), None
        if self.at(":"):
            self.take()
            stated = self.term(env)
        self.take("=")
        value = self.term(env)
        self.take("in")
        return Node("let", vars=vars, stated=stated, value=value, body=self.term({**env, **{v.name: v for v in vars}}))

    def operands(self, env):
        """Applications, and operators between, before or after them."""
        parts, operators = [], 0
        while True:
            op = self.operator(env)
            if op:
                self.meaning(self.take(), self.scope[op])
                operators += 1
            elif self.starts_atom():
                parts.append(self.application(env))
            elif parts or operators:
                return Node("operators", parts=parts) if operators else parts[0]
            else:
                self.wrong("this page's maker cannot read this term")

    def starts_atom(self):
        t = self.peek()
        if t.kind == "punct":
            return t.text == "(" or t.text == "{" and not self.binders()
        return t.kind in ("escaped", "string") or t.kind == "name" and t.text not in STOPS

    def application(self, env):
        fn, args = self.atom(env), []
        while self.operator(env) is None and self.starts_atom():
            args.append(self.atom(env))
        return Node("app", fn=fn, args=args) if args else fn

    def atom(self, env):
        t = self.peek()
        if t.kind == "punct":
            # (f x).g is a field of f x
            return self.braces(env) if t.text == "{" else self.fields(self.brackets(env))
        if t.kind == "string" or number(t) or t.text == "_":
            self.take()
            return Node("literal")
        if self.at("λ", "let"):
            return self.term(env)
        if self.at("record"):
            return self.record(env)
        if self.at("Type"):
            self.take()
            self.level()
            return Node("literal")
        if t.kind == "name" and t.text in UNKNOWN | WORDS:
            self.wrong("this page's maker cannot read on")
        return self.fields(self.name(env))

    def fields(self, node):
        while self.tight():
            self.take(".")
            node = Node("proj", expr=node, tok=self.take())
        return node

    def brackets(self, env):
        self.take("(")
        parts = [self.term(env)]
        while self.at(","):
            self.take()
            parts.append(self.term(env))
        self.take(")")
        return parts[0] if len(parts) == 1 else Node("tuple", parts=parts)

    def braces(self, env):
        """An implicit argument by its name, {x = e}, or levels, {ℓ, 0}"""
        self.take("{")
        value = None
        if self.peek(1).text == "=":
            self.take().role = "label"
            self.take("=")
            value = self.term(env)
        while value is None and not self.at("}"):
            self.take().role = "level"
        self.take("}")
        return Node("implicit", value=value)

    def level(self):
        depth = 0
        while True:
            t = self.take()
            t.role = "level"
            depth += (t.text == "(") - (t.text == ")")
            if depth == 0:
                return

    def record(self, env):
        """A record's value, { x = a; y = b }, or a record type without a name, { x : A; y : B }"""
        self.take("record")
        self.take("{")
        items = []
        while not self.at("}"):
            label, sign = self.take(), self.take().text
            items.append((label, sign, self.term(env)))
            if sign == ":":
                label.role = "label"
                env = {**env, label.name: Var(label.name, items[-1][2])}
            if self.at(";"):
                self.take()
        self.take("}")
        return Node("record", items=items)

    # -- patterns: the variables go into env

    def pattern(self, env):
        t = self.take()
        if t.kind == "punct" and t.text == "(":
            parts = [self.patterns(env)]
            while self.at(","):
                self.take()
                parts.append(self.patterns(env))
            self.take(")")
            return parts[0] if len(parts) == 1 else Node("other")
        if t.kind == "punct" and t.text == "{":
            label = self.bind()
            if self.at("="):
                self.take()
                inner = self.pattern(env)
            else:
                env[label.name] = label
                inner = Node("var", var=label)
            self.take("}")
            return Node("hidden", label=label.name, inner=inner)
        if number(t) or t.text == "_" or t.kind == "string":
            return Node("other")
        ref = self.scope.get(t.name)
        self.i -= 1
        if isinstance(ref, Def) and ref.kind in ("data", "enum") and self.peek(1).text == ".":
            return Node("constructor", ref=self.name({}).ref, args=[])
        if isinstance(ref, (Member, NotShown)) or isinstance(ref, Lib) and ref.name in CONSTRUCTORS:
            return Node("constructor", ref=self.name({}).ref, args=[])
        var = env[t.name] = self.bind()
        return Node("var", var=var)

    def patterns(self, env):
        """Inside brackets: a constructor and its arguments, or an operator between two patterns."""
        t = self.peek()
        head = self.pattern(env)
        op = self.operator({})
        if op:
            return Node("constructor", ref=self.meaning(self.take(), self.scope[op]).ref, args=[head, self.patterns(env)])
        if head.kind != "constructor" and not self.at(")", ","):
            fault(self.path, t.line, f"`{t.text}` is cited in a pattern, and no constructor of that name is declared or imported here")
            head = Node("constructor", ref=None, args=[])
        while not self.at(")", ","):
            head.args.append(self.pattern(env))
        return head


# ---- a definition, whole


def section_env(d):
    """The variables of the sections that d is in. A section is read once."""
    env = {}
    for k, s in enumerate(d.sections):
        if s.vars is None:
            r = Reader(d, s.tokens, d.sections[:k])
            r.take("module")
            r.take("_")
            s.vars, _ = r.telescope(env)
            r.take("where")
            s.cites = list(d.cites)
        env = {**env, **{v.name: v for v in s.vars}}
        d.cites += [c for c in s.cites if c not in d.cites]
    return env


def declared_name(r):
    """A name that is declared, with its levels, {ℓ κ}"""
    while r.at(*MARKS, "data", "record"):
        r.take()
    r.take()
    if r.at("{") and not r.binders():
        while not r.at("}"):
            r.take().role = "level"
        r.take("}")


def read_type(d):
    """A data type or a record."""
    r = Reader(d, d.items[0], d.sections)
    env = section_env(d)
    declared_name(r)
    d.params, env = r.telescope(env)
    if r.at(":"):
        r.take()
        r.term(env)
    for m in d.members:
        m.tok.role = "member"
        same = [o for o in d.members if o.tokens is m.tokens and o.type]
        r = Reader(d, m.tokens, d.sections)
        while not r.at(":"):
            r.take()
        r.take(":")
        m.type = same[0].type if same else r.term(env)
        if d.kind == "record":
            env = {**env, m.name: m.var}


def read_function(d):
    """A function's type and its clauses; of a theorem the type alone."""
    r = Reader(d, d.items[0], d.sections)
    env = section_env(d)
    declared_name(r)
    r.take(":")
    d.type = r.term(env)
    r.ended()
    for item in d.items[1:]:
        r = Reader(d, item, d.sections)
        if r.at("unfolding"):
            r.take()
            while r.peek() is not r.end:
                r.name({})
            continue
        inner, patterns = dict(env), []
        while not r.at("="):
            # f x y, or x + y of an operator ◌+◌
            if r.i == 0 and r.at(d.name) or "◌" in d.name and r.at(*filter(None, d.name.split("◌"))):
                r.take().role = "own"
            else:
                patterns.append(r.pattern(inner))
        r.take("=")
        d.clauses.append((patterns, r.term(inner)))
        r.ended()
    if d.kind == "function" and not d.clauses:
        fault(d.file.path, d.line, f"`{d.name}` is cited, and is not defined: it has a type alone")


def rust_type(d, toks):
    """The struct or enum that a type names; None for numbers and bytes."""
    found = None
    for k, t in enumerate(toks):
        if t.kind == "name" and t.text not in RUST and (k == 0 or toks[k - 1].text != "'"):
            ref = d.file.type_named(t)
            if ref:
                cite(d, t, ref)
                found = name_node(ref)
    return found


def read_struct(d):
    """A struct or an enum."""
    toks = d.items[0]
    starts = [toks.index(m.tok) + 1 for m in d.members]
    for m, start, end in zip(d.members, starts, starts[1:] + [len(toks)]):
        m.tok.role = "member"
        if d.kind == "struct":
            m.type = rust_type(d, toks[start:end - 1])
            continue
        labels = [j for j in range(start, end - 1) if toks[j].kind == "name" and toks[j + 1].text == ":"]
        m.args = [rust_type(d, toks[j + 1:k]) for j, k in zip(labels, [j - 1 for j in labels[1:]] + [end - 1])]
        for j in labels:
            toks[j].role = "label"


def read_call(d):
    """A call's signature and its contract, in which the parameters are variables."""
    sig, env, depth = d.signature, {}, 0
    d.lent = set()  # the parameters that are references
    arrow = next((j for j in range(len(sig) - 1) if sig[j].text == "-" and sig[j + 1].text == ">"), len(sig))
    for j, t in enumerate(sig[:arrow]):
        if depth == 1 and t.kind == "name" and sig[j - 1].text in ("(", ","):
            end = next(k for k in range(j, arrow) if sig[k].text == "," or k == arrow - 1)
            t.role = "variable"
            env[t.text] = Var(t.text, rust_type(d, sig[j + 2:end]))
            if any(x.text == "&" for x in sig[j:end]):
                d.lent.add(env[t.text])
        depth += (t.text == "(") - (t.text == ")")
    result = rust_type(d, sig[arrow + 2:])
    d.terms = []
    for toks in d.contract:
        r = Reader(d, toks, [])
        term = r.term(env)
        r.ended()
        if term.kind == "lam":
            term.vars[0].type = result
        d.terms.append(term)


def read(d):
    """Reads a definition, once."""
    if d.was_read:
        return
    d.was_read = True
    how = {"data": read_type, "record": read_type, "struct": read_struct, "enum": read_struct, "call": read_call}
    try:
        how.get(d.kind, read_function)(d)
    except Wrong as e:
        fault(*e.args)
