"""The page: each definition with its sentence and its text, every name a link."""
import html
import html.parser
import re
import urllib.parse

from files import RUST, WORDS, Module, Source, fault
from terms import number

STYLE = """
:root { color-scheme: light; }
body { margin: 0 auto; max-width: 62rem; padding: 1rem; background: #fff; color: #1b1b1b; font: 1rem/1.5 Georgia, "DejaVu Serif", serif; }
h1 { font-size: 1.7rem; line-height: 1.2; }
h2 { margin: 3rem 0 0.5rem; border-bottom: 2px solid #1b1b1b; font-size: 1.4rem; }
h3 { margin: 2.2rem 0 0.3rem; font-size: 1.1rem; }
p { margin: 0.6rem 0; }
a { color: #0b4a8f; text-decoration: none; }
a:hover { text-decoration: underline; }
pre, code, .w span { font-family: ui-monospace, "DejaVu Sans Mono", Menlo, Consolas, monospace; font-size: 0.84rem; }
pre { margin: 0; padding: 0.5rem 0.7rem; background: #f6f6f3; border-left: 3px solid #c9c9c0; line-height: 1.45; }
pre { white-space: pre-wrap; overflow-wrap: anywhere; }
pre i { color: #777; font-style: normal; }
pre .c { color: #5c6b4f; }
.l { display: block; padding-left: var(--i); text-indent: calc(-1 * var(--i)); }
.d { margin: 1.1rem 0 1.4rem; }
.w { margin: 0 0 0.15rem; font-weight: bold; }
.w span { float: right; color: #666; font-weight: normal; font-size: 0.78rem; }
blockquote { margin: 0 0 0.35rem; padding-left: 0.8rem; border-left: 3px solid #c8a24a; color: #444; }
blockquote p { margin: 0.2rem 0; }
q { font-style: italic; color: #1b1b1b; }
.head { color: #444; }
:target { background: #fff3c4; }
section:target { outline: 2px solid #e3b93c; outline-offset: 4px; background: none; }
table { border-collapse: collapse; margin: 0.8rem 0; }
td, th { padding: 0.15rem 1rem 0.15rem 0; text-align: left; vertical-align: top; border-bottom: 1px solid #ddd; }
td.n, th.n { text-align: right; }
nav li { margin: 0.25rem 0; }
nav ol { padding-left: 2rem; }
@media (max-width: 40rem) { body { padding: 0.6rem; } .w span { float: none; display: block; } pre { padding: 0.4rem; } }
@media print {
  body { max-width: none; font-size: 10pt; } pre, code { font-size: 8pt; } a { color: inherit; }
  .d { break-inside: avoid; } h2, h3 { break-after: avoid; }
}
"""


# ---- what is shown of a definition


def pieces(d):
    """The pieces of the file's text that a definition shows, as (start, end): whole lines, to the end of its last token."""
    runs = [d.file.fixities[d.name]] if isinstance(d.file, Module) and d.name in d.file.fixities else []
    runs += [s.tokens for s in d.sections] + [d.items[0][:1] + d.items[-1][-1:]]
    text = d.file.text
    for run in runs:
        start, end = text.rfind("\n", 0, run[0].start) + 1, run[-1].end
        rest = text.find("\n", end)
        yield start, rest if text[end:rest].lstrip().startswith(d.file.mark) else end


def lines_of(d):
    """The lines to believe: not empty, and no comment alone."""
    lines = set()
    for start, end in pieces(d):
        first = d.file.text.count("\n", 0, start) + 1
        for k, line in enumerate(d.file.text[start:end].split("\n")):
            if line.strip() and not line.lstrip().startswith(d.file.mark):
                lines.add((d.file.path, first + k))
    return lines


def tokens(d):
    """The tokens and comments of a definition's file; of a contract those of its terms."""
    toks = d.file.toks
    if d.kind == "call":
        inside = [(c[0].start, c[-1].end) for c in d.contract if c]
        toks = [t for t in toks if not any(start <= t.start < end for start, end in inside)] + sum(d.contract, [])
    return sorted(toks + d.file.comments, key=lambda t: t.start)


# ---- as HTML


def esc(s):
    return html.escape(s, quote=False)


def link(anchor, text):
    return f'<a href="#{urllib.parse.quote(anchor, safe="")}">{text}</a>'


def prose(words):
    """A comment's words: what is quoted is marked, and what stands between backquotes is code."""
    text = re.sub(r"`([^`]+)`", r"<code>\1</code>", esc(words))
    return re.sub(r'"([^"]+)"', r"<q>\1</q>", text)


def token_html(t, d):
    text = esc(t.text)
    if t.kind == "comment":
        return f'<span class="c">{text}</span>'
    if t is d.tok:
        return f"<b>{text}</b>"
    if t.role == "member":
        return f'<b id="{html.escape(next(m.anchor for m in d.members if m.tok is t))}">{text}</b>'
    if t.ref is not None:
        return link(t.ref.anchor, text)
    if t.role == "own":
        return link(d.anchor, text)
    if t.kind in ("name", "escaped") and t.role is None and not number(t) and t.text != "_":
        if t.text in (RUST if isinstance(d.file, Source) else WORDS) or d.kind == "call" and t.text in WORDS:
            return f"<i>{text}</i>"
        fault(d.file.path, t.line, f"`{t.text}` would be no link, and it is no variable")
    return text


def code_html(d):
    """The text, line by line: a long line hangs under its own beginning."""
    out = []
    for start, end in pieces(d):
        at, text = start, ""
        for t in tokens(d):
            if start <= t.start and t.end <= end:
                text += esc(d.file.text[at:t.start]) + token_html(t, d)
                at = t.end
        for line in (text + esc(d.file.text[at:end])).split("\n"):
            indent = len(line) - len(line.lstrip(" "))
            out.append(f'<span class="l" style="--i:{indent + 4}ch">{line or " "}</span>')
    return f"<pre>{''.join(out)}</pre>"


def def_html(d):
    sentences = [d.divider] if d.divider and not d.comment else []
    sentences += [" ".join(comment) for comment in [s.comment for s in d.sections] + [d.comment] if comment]
    quote = "<blockquote>" + "".join(f"<p>{prose(s)}</p>" for s in sentences) + "</blockquote>\n" if sentences else ""
    where = f'<p class="w">{link(d.anchor, esc(d.name))} <span>{d.file.path}:{d.line}</span></p>'
    return f'<section class="d" id="{html.escape(d.anchor)}">\n{where}\n{quote}{code_html(d)}\n</section>'


def page(parts, statement, libs, assumed):
    """The whole page. parts: (title, groups of definitions)."""
    every = [d for _, groups in parts for group in groups for d in group]
    out = ["<!doctype html>", '<html lang="en">', "<head>", '<meta charset="utf-8">']
    out += ['<meta name="viewport" content="width=device-width, initial-scale=1">', "<title>Tumbeliko: what is proved</title>"]
    out += [f"<style>{STYLE}</style>", "</head>", "<body>", "<h1>Tumbeliko: what is proved</h1>"]
    out.append(
        f"<p>This page holds what is proved of the library, and all that has to be believed to know what that says: "
        f"{link(statement.anchor, esc(statement.name))}, which speaks of a whole line of boards; the promise of each function that C calls; "
        f"and every definition that they cite, each once, after the first that cites it, down to the bytes; nothing else. "
        f"<code>make statement</code> writes it from the definitions themselves, and fails where a cited one is missing; <code>make test</code> "
        f"has the prover check every proof. Above each definition stands what it stands for; <q>words in quotation marks</q> are the papers' own, "
        f"document 01's where no other is named. Every name is a link.</p>"
    )
    believe = set().union(*map(lines_of, every))
    out.append(f"<p><b>{len(every)} definitions, {len(believe)} lines to believe</b>: lines neither empty nor a comment, without imports.</p>")
    out.append('<table><tr><th>part</th><th class="n">definitions</th><th class="n">lines</th></tr>')
    for n, (title, groups) in enumerate(parts, 1):
        defs = sum(groups, [])
        lines = set().union(*map(lines_of, defs)) & believe
        believe -= lines
        out.append(f'<tr><td><a href="#part.{n}">{esc(title)}</a></td><td class="n">{len(defs)}</td><td class="n">{len(lines)}</td></tr>')
    out.append(f"</table>\n<p>What is assumed: {prose(assumed)}</p>")

    out.append("<nav>\n<h2>Contents</h2>")
    for n, (title, groups) in enumerate(parts, 1):
        out.append(f'<p><a href="#part.{n}"><b>{esc(title)}</b></a></p>\n<ol>')
        for group in groups:
            out.append(f"<li>{esc(group[0].file.title)}: {', '.join(link(d.anchor, esc(d.name)) for d in group)}</li>")
        out.append("</ol>")
    out.append('<p><a href="#library"><b>Names of the prover\'s libraries</b></a></p>\n</nav>')

    headed = set()
    for n, (title, groups) in enumerate(parts, 1):
        out.append(f'<h2 id="part.{n}">{esc(title)}</h2>')
        for k, group in enumerate(groups, 1):
            file, structs = group[0].place
            out.append(f"<h3>{n}.{k} {esc(file.title)}</h3>")
            if file.header() and file not in headed and not structs:
                headed.add(file)
                out.append(f'<p class="head">{prose(" ".join(file.header()))}</p>')
            out += map(def_html, group)

    out.append('<h2 id="library">Names of the prover\'s libraries</h2>\n<table><tr><th>name</th><th>module</th></tr>')
    for lib in sorted(libs, key=lambda x: (x.module, x.name)):
        out.append(f'<tr id="{html.escape(lib.anchor)}"><td><code>{esc(lib.name)}</code></td><td>{esc(lib.module)}</td></tr>')
    out.append("</table>\n</body>\n</html>")
    return "\n".join(out) + "\n"


class Links(html.parser.HTMLParser):
    """Every link of a page, and every place that one can lead to."""

    def __init__(self, text):
        super().__init__()
        self.places, self.links, self.twice = set(), set(), set()
        self.feed(text)

    def handle_starttag(self, tag, attrs):
        for name, value in attrs:
            if name == "id":
                (self.twice if value in self.places else self.places).add(value)
            elif name == "href":
                self.links.add(urllib.parse.unquote(value[1:]))
