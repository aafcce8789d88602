"""The files that the page is made from: their tokens, what they declare, what they import."""
import os
import re

# Names of the prover's own libraries are not followed: the page lists them at its end.
LIBRARIES = {"Prim", "mathlib", "native", "std", "text", "lib", "borrow"}
PRELUDE = "⊥ absurd ¬◌ Dec yes no Discrete ∥◌∥₁ ∣◌∣₁ squash₁ Unit tt Id J Path IsProp IsSet".split()
# What a contract is lent beside them: what the call returns.
CONTRACT = "Rattle's contracts"
LENT = ["result"]

MARKS = {"unfoldable", "abbrev", "pub", "axiom"}
WORDS = MARKS | set("data record module where let in λ Type → × : = infix infixl infixr unfolding".split())
UNKNOWN = set("elim do mutual open deriving ruleset unfold ∀ hcom coe com ←".split())
RUST = set("pub struct enum extern fn mut u8 u16 u32 u64 usize i8 i16 i32 i64 isize bool requires ensures".split())

faults = []


def fault(path, line, words):
    text = f"{path}:{line}: {words}"
    if text not in faults:
        faults.append(text)


class Wrong(Exception):
    """What stops the reading of a definition or of a file: where, and why."""


# ---- what is cited


class Lib:
    """A name of the prover's libraries; one object for each."""

    known = {}

    def __new__(cls, module, name):
        if (module, name) not in cls.known:
            cls.known[module, name] = lib = super().__new__(cls)
            lib.module, lib.name, lib.anchor = module, name, f"library.{module}.{name}"
        return cls.known[module, name]


class NotShown:
    """A name that means something which cannot be shown, and why."""

    def __init__(self, why):
        self.why = why


class Var:
    """A variable. A record's later fields cite the earlier ones so: then it is that field."""

    def __init__(self, name, type=None, implicit=False, member=None):
        self.name, self.type, self.implicit, self.member = name, type, implicit, member


class Member:
    """A constructor of a data type or an enum, a field of a record or a struct."""

    def __init__(self, owner, tok, tokens=None):
        self.owner, self.tok, self.tokens, self.name, self.type = owner, tok, tokens, tok.name, None
        self.var = Var(self.name, member=self)
        self.anchor = f"{owner.anchor}.{self.name}"


class Section:
    """A block `module _ (..) where`: its parameters belong to every definition in it."""

    def __init__(self, tokens, comment):
        self.tokens, self.comment, self.vars, self.cites = tokens, comment, None, []


class Def:
    """A definition: a function, a data type, a record; a struct, an enum; a call; a theorem."""

    def __init__(self, file, anchor, kind, tok, items, comment):
        self.file, self.anchor, self.kind, self.tok, self.name = file, anchor, kind, tok, tok.name
        self.items = items  # runs of tokens: of a function its signature, then each clause
        self.comment = comment
        self.divider = ""  # the line `-- ---- ..` that it stands under
        self.told = bool(comment)  # whether a sentence says what it stands for
        self.sections = []
        self.members = []
        self.cites = []  # in the order of appearance
        self.was_read = False
        self.params, self.type, self.clauses = [], None, []

    @property
    def line(self):
        return self.tok.line

    @property
    def place(self):
        """What is read together: a file's definitions; of a source the calls, and by themselves the structs and enums."""
        return self.file, self.kind in ("struct", "enum")

    def member(self, name):
        return next((m for m in self.members if m.name == name), None)


# ---- tokens


class Tok:
    __slots__ = ("text", "kind", "start", "end", "line", "col", "first", "ref", "role")

    def __init__(self, text, kind, start, line, col, first):
        self.text, self.kind, self.start, self.end = text, kind, start, start + len(text)
        self.line, self.col, self.first = line, col, first  # first: on its line
        self.ref, self.role = None, None  # what it cites; or what else it is

    @property
    def name(self):
        return self.text[1:-1] if self.kind == "escaped" else self.text


STRING = r'(?P<string>"(?:\\.|[^"\\])*")'
ANTT = re.compile(
    r"(?P<comment>--[^\n]*|\{-.*?-\})|" + STRING + r'|(?P<escaped>«[^»\n]*»)|(?P<punct>[(){}.;,@])|(?P<name>[^\s(){}.;,@"«»]+)', re.S
)
RATTLE = re.compile(r"(?P<comment>//[^\n]*|/\*.*?\*/)|" + STRING + r"|(?P<name>[A-Za-z_][A-Za-z_0-9]*)|(?P<punct>[^\s])", re.S)


def tokens_of(text, pattern, start=0, end=None):
    """The tokens from start to end, and the comments."""
    toks, comments, last = [], [], 0
    for m in pattern.finditer(text, start, len(text) if end is None else end):
        line, bol = text.count("\n", 0, m.start()) + 1, text.rfind("\n", 0, m.start()) + 1
        tok = Tok(m.group(), m.lastgroup, m.start(), line, m.start() - bol, line != last)
        if tok.kind == "comment":
            comments.append(tok)
        else:
            toks.append(tok)
            last = line
    return toks, comments


def depth_by(tok):
    return (tok.text in "({") - (tok.text in ")}") if tok.kind == "punct" else 0


def split_items(toks):
    """A block's declarations, each from the token that begins it: first on its line, in the block's column, in no bracket."""
    items, depth = [], 0
    for t in toks:
        if not items or depth == 0 and t.first and t.col <= toks[0].col and t.text != "}":
            items.append([])
        items[-1].append(t)
        depth += depth_by(t)
    return items


def outermost(toks, texts):
    """Where the first of these words stands that is in no bracket, or -1."""
    depth = 0
    for i, t in enumerate(toks):
        if depth == 0 and t.kind == "name" and t.text in texts:
            return i
        depth += depth_by(t)
    return -1


def imports(toks):
    """A.B.C.{a, b as c}: (path, name, name here, token) for each; the name is None where there are no braces."""
    at = next((i for i, t in enumerate(toks) if t.text == "{"), None)
    path = [t.text for t in toks[:at] if t.text != "."]
    if at is None:
        return [(path, None, None, toks[0])]
    parts, names = [[]], []
    for t in toks[at + 1: -1]:
        if t.text == ",":
            parts.append([])
        else:
            parts[-1].append(t)
    for part in filter(None, parts):
        names.append((path, part[0].name, part[-1].name, part[0]))
    return names


class File:
    """A file: its text, its tokens, its comments."""

    def __init__(self, book, crate, path, title, key, mark, pattern):
        self.book, self.crate, self.path, self.title, self.key, self.mark = book, crate, path, title, key, mark
        with open(os.path.join(book.root, path), encoding="utf-8") as f:
            self.text = f.read()
        self.lines = self.text.split("\n")
        self.toks, self.comments = tokens_of(self.text, pattern)
        self.scope_ = self.operators_ = None

    def divider_at(self, n):
        m = re.match(r"\s*-- -{3,}\s*(.*)", self.lines[n - 1])
        return m and m.group(1)

    def is_comment(self, n):
        return 1 <= n <= len(self.lines) and self.lines[n - 1].lstrip().startswith(self.mark) and not self.divider_at(n)

    def above(self, n):
        """The comment lines directly above line n."""
        words = []
        while self.is_comment(n - 1):
            n -= 1
            words.insert(0, self.lines[n - 1].strip()[len(self.mark):].strip())
        return words

    def header(self):
        """The comment at the file's start."""
        n = 1
        while self.is_comment(n):
            n += 1
        return self.above(n)

    def scope(self):
        """What each name means in this file."""
        if self.scope_ is None:
            self.scope_ = {n: Lib("Prim", n) for n in PRELUDE}
            for path, name, here, tok in self.imported():
                if name is None:
                    fault(self.path, tok.line, f"this page's maker cannot read an import without braces, `{'.'.join(path)}`")
                elif self.book.owns(path) and path[2:3] != ["specs"]:
                    self.scope_[here] = NotShown(f"stands in {'.'.join(path)}: what a statement cites belongs into specs/")
                else:
                    self.scope_[here] = self.book.find(self, path, name, tok)
            self.scope_.update(self.names)
        return self.scope_

    def operators(self):
        """The operator that each part of an operator's name belongs to: ≡ to ◌≡◌."""
        if self.operators_ is None:
            self.operators_ = {}
            for name in self.scope():
                for part in filter(None, name.split("◌") if "◌" in name else []):
                    self.operators_.setdefault(part, name)
        return self.operators_


# ---- definitions in antt


class Module(File):
    """A file of definitions."""

    def __init__(self, book, crate, folder, name):
        path, outside = name.replace(".", "/"), "" if folder == "specs" else f"{folder}/"
        title, key = f"{crate} · {outside}{path}", f"{crate}.{outside}{name}"
        super().__init__(book, crate, f"crates/{crate}/{folder}/{path}.antt", title, key, "--", ANTT)
        self.uses = []  # what is imported, and whether it is passed on
        self.defs = {}
        self.names = {}  # what each name that is declared here means
        self.fixities = {}
        self.block(self.toks, [])

    def block(self, toks, sections):
        current = None
        for item in split_items(toks):
            body = list(item)
            while len(body) > 1 and body[0].text in MARKS:
                body.pop(0)
            head = body[0].text
            if head == "use":
                self.uses += [(use, item[0].text == "pub") for use in imports(body[1:])]
            elif head in ("infix", "infixl", "infixr"):
                for t in body[2:]:
                    t.role, self.fixities[t.text] = "own", item
            elif head == "module":
                at = outermost(body, {"where"})
                if at < 0:
                    raise Wrong(self.path, body[0].line, "this page's maker expects `where` after this section's parameters")
                section = Section(body[: at + 1], self.above(item[0].line))
                self.block(body[at + 1:], sections + [section])
                current = None
            elif head in ("data", "record"):
                current = self.declare(body[1], head, item, sections)
                self.members(current, body[outermost(body, {"where"}) + 1:] if outermost(body, {"where"}) >= 0 else [])
            elif head in UNKNOWN:
                fault(self.path, body[0].line, f"this page's maker cannot read `{head}`")
            elif head != "mod":
                at = outermost(body, {":", "="})
                if at >= 0 and body[at].text == ":":
                    current = self.declare(body[0], "function", item, sections)
                elif current and current.kind == "function":
                    current.items.append(item)

    def declare(self, tok, kind, item, sections):
        d = Def(self, f"{self.key}.{tok.name}", kind, tok, [item], self.above(item[0].line))
        d.divider = next(filter(None, map(self.divider_at, range(item[0].line - 1, 0, -1))), "")
        d.sections = sections
        if sections and not any(o.sections == sections for o in self.defs.values()):
            # what stands above a section is said of its first definition
            d.told |= bool(sections[-1].comment)
        d.told |= '"' in d.divider
        self.defs[d.name] = self.names[d.name] = d
        return d

    def members(self, d, toks):
        for tokens in split_items(toks):
            for t in tokens[: outermost(tokens, {":"})]:
                if t.text not in MARKS:
                    m = Member(d, t, tokens)
                    d.members.append(m)
                    if d.kind == "data" and not isinstance(self.names.get(m.name), Def):
                        twice = NotShown("is a constructor of several types: write it behind its type")
                        self.names[m.name] = twice if m.name in self.names else m

    def imported(self):
        return [use for use, _ in self.uses]

    def declared(self, name):
        """What is declared here under the name, or passed on."""
        if name in self.names:
            return self.names[name]
        for (path, there, here, tok), public in self.uses:
            if public and here == name:
                return self.book.find(self, path, there, tok)
        return None


# ---- structs, enums and calls in Rattle


class Source(File):
    """A file of a crate's source: the structs and enums that specs cite, and what C calls."""

    def __init__(self, book, crate, path):
        super().__init__(book, crate, path, f"{crate} · {os.path.basename(path)}", f"{crate}.declared", "//", RATTLE)
        self.structs, self.calls, self.uses, self.ghosts = {}, [], {}, []
        self.names = {name: Lib(CONTRACT, name) for name in LENT}
        for i, t in enumerate(self.toks):
            after = [x.text for x in self.toks[i + 1: i + 4]]
            if t.col == 0 and t.text == "use":
                names = [x.text for x in self.toks[i + 1: self.next(i, ";")] if x.kind == "name"]
                self.uses.update({n: (names[0], t.line) for n in names[1:]})
            elif t.col == 0 and t.text == "ghost" and after[:1] == ["use"]:
                inner, _ = tokens_of(self.text, ANTT, self.toks[i + 1].end, self.toks[self.next(i, ";")].start)
                self.ghosts += imports(inner)
            elif t.col == 0 and t.text == "pub" and after[:1] in (["struct"], ["enum"]):
                self.struct(i)
            elif t.col == 0 and t.text == "pub" and after == ["extern", '"C"', "fn"]:
                self.call(i)

    def imported(self):
        return self.ghosts

    def next(self, i, texts):
        """Where the next of these stands."""
        for j in range(i, len(self.toks)):
            if self.toks[j].text in texts:
                return j
        raise Wrong(self.path, self.toks[i].line, f"this page's maker expects `{texts}` after this")

    def closing(self, i):
        """Where the bracket at i is closed."""
        depth = 0
        for j in range(i, len(self.toks)):
            depth += (self.toks[j].text in ("(", "{", "[")) - (self.toks[j].text in (")", "}", "]"))
            if depth == 0:
                return j
        raise Wrong(self.path, self.toks[i].line, "a bracket is not closed")

    def comment_above(self, line):
        while self.lines[line - 2].startswith("#["):
            line -= 1
        return self.above(line)

    def struct(self, i):
        kind, tok = self.toks[i + 1].text, self.toks[i + 2]
        end = self.closing(self.next(i, "{(;"))
        d = Def(self, f"{self.key}.{tok.text}", kind, tok, [self.toks[i: end + 1]], self.comment_above(tok.line))
        depth = 0
        for before, t, after in zip(self.toks[i + 2:], self.toks[i + 3: end], self.toks[i + 4:]):
            if depth == 1 and t.kind == "name" and before.text in ("{", ",", "pub") and (after.text == ":") == (kind == "struct"):
                d.members.append(Member(d, t))
            depth += (t.text in ("{", "(", "[")) - (t.text in ("}", ")", "]"))
        self.structs[d.name] = d

    def call(self, i):
        """A function that C calls: its signature and its contract, without its body."""
        d = Def(self, self.toks[i + 4].text, "call", self.toks[i + 4], [], self.comment_above(self.toks[i].line))
        j = self.closing(i + 5) + 1
        d.signature, d.contract, d.promises = self.toks[i:j], [], False
        while self.toks[j].text != "{":
            if self.toks[j].text in ("requires", "ensures"):
                d.promises |= self.toks[j].text == "ensures"
                j = self.next(j, "{")
                close = self.closing(j)
                d.contract.append(tokens_of(self.text, ANTT, self.toks[j].end, self.toks[close].start)[0])
                j = close
            else:
                d.signature.append(self.toks[j])
            j += 1
        d.items = [self.toks[i:j]]
        self.calls.append(d)

    def type_named(self, tok):
        """A struct or an enum, by its name here."""
        if tok.text in self.structs:
            return self.structs[tok.text]
        if tok.text not in self.uses:
            fault(self.path, tok.line, f"`{tok.text}` is cited, and no struct or enum of that name is declared or imported here")
            return None
        crate, line = self.uses[tok.text]
        d = self.book.struct(crate, tok.text)
        if d is None:
            fault(self.path, line, f"`{tok.text}` is imported, and crate {crate} declares no such struct or enum")
        return d


# ---- all crates


class Book:
    def __init__(self, root):
        self.root, self.modules, self.sources = root, {}, {}

    def module(self, crate, folder, name):
        """A file of definitions; None if it is not there."""
        key = crate, folder, name
        if key not in self.modules:
            there = os.path.isfile(os.path.join(self.root, "crates", crate, folder, *name.split(".")) + ".antt")
            self.modules[key] = Module(self, crate, folder, name) if there else None
        return self.modules[key]

    def crate(self, crate):
        """The files of a crate's source."""
        if crate not in self.sources:
            folder = os.path.join(self.root, "crates", crate, "src")
            names = sorted(os.listdir(folder)) if os.path.isdir(folder) else []
            self.sources[crate] = [Source(self, crate, f"crates/{crate}/src/{n}") for n in names if n.endswith(".rt")]
        return self.sources[crate]

    def struct(self, crate, name):
        return next((s.structs[name] for s in self.crate(crate) if name in s.structs), None)

    def owns(self, path):
        """Whether a path begins with a crate of this repository: Rattle.CRATE."""
        return path[0] == "Rattle" and len(path) > 1 and os.path.isdir(os.path.join(self.root, "crates", path[1]))

    def find(self, file, path, name, tok):
        """What an import brings. The path begins with a library or with a crate, Rattle.CRATE; Rattle.std is a library."""
        if path[0] in LIBRARIES or path[:2] == ["Rattle", "std"]:
            return Lib(".".join(path), name)
        if path[0] != "Rattle" or len(path) < 4:
            fault(file.path, tok.line, f"`{name}` is imported from {'.'.join(path)}, which is no library and no crate's module")
            return None
        crate, folder, rest = path[1], path[2], path[3:]
        if rest[0] == "declared":
            found = self.struct(crate, rest[1]) if len(rest) > 1 else None
            if found and rest[2:] == ["TheVariants"]:
                found = found.member(name)
            if found is None or found.name != name:
                fault(file.path, tok.line, f"`{name}` is imported, and crate {crate} declares no such struct, enum or variant")
                return None
            return found
        there = self.module(crate, folder, ".".join(rest))
        if there is None:
            fault(file.path, tok.line, f"`{name}` is imported from crates/{crate}/{folder}/{'/'.join(rest)}.antt, and there is no such file")
            return None
        found = there.declared(name)
        if found is None:
            fault(file.path, tok.line, f"`{name}` is imported from {there.path}, which does not declare it")
        return found
