#!/usr/bin/env python3
"""The places of docs/DESIGN-PASS.md in src/: python3 docs/places.py [-v] [FOLDER]

For each of the eight points how many places its pattern finds in FOLDER/crates/*/src/*.rt (with -v: which), and how many of them are marked
`Stays:` with a reason in the lines above them. A place is a line, or for points 2, 5 and 6 a function."""
import glob
import re
import sys

VERBOSE = '-v' in sys.argv
TOP = next((a for a in sys.argv[1:] if not a.startswith('-')), '.')
FILES = {f.split('/')[-3]: open(f).read() for f in sorted(glob.glob(f'{TOP}/crates/*/src/lib.rt'))}

LINES = {
    '1 an enum like Option or Result': r'^pub enum (Plan|Read|\w*Result|\w*Option)\b',
    '1 a refusal as a number, given': r'^(pub )?(extern "C" )?fn (\w*refusal|by_lengths|start|tumbeliko_start|tumbeliko_notice_start)\(.*-> u32|^pub extern "C" fn tumbeliko_(notice_)?start\(',
    '1 a refusal or a kind as a number, in a struct': r'^ +pub (number|bad|kind|delivery): u(8|32|size),',
    '1 a refusal as a number, made': r'\b(number|why|bad): [0-9]+\b|^ +return ([1-9]|1[0-6]|2[0-5]);',
    '1 a kind as a number, handed in': r'\bkind: u(8|32|size)\b(?!,$)',
    '1 a number for none': r'\b(10000|16385)\b|== 16\b|\b16$|return 16;',
    '3 a loop by hand': r'^ *(while|loop)\b',
    '4 a conversion, comparison or copy by hand': r'^ *(pub )?fn (wide|least|larger|flag_byte|set_bit|implies|either|both|turn|same_eight|same_short|same_at|same_bytes|copy_at|copy_part|clear_at|repeat_at|two_at|four_at|eight_at|put_two|put_four|put_eight|four|word_byte|length_byte)\(',
    '4 a cast by as': r' as (u8|u32|u64|usize)\b',
    '7 a switch on a kind': r'\b(match|if) !?\(?(kind|k)\b( ==| !=| \{)',
}
FACTS = {
    'the table is within its limits': r'limits [^≡]*≡ true',
    'a state has its fixed part': r'(notice_state_bytes|fixed_bytes) ≤ length',
    'the fragments at the points lie in the area': r'\b(InArea|Ready|Weighable)\b',
    'a place for 64 values': r'base \+ p\.room \* 64',
    'the drill room': r'\b(DrillRoom|Clean|Cleared)\b',
    'a fragment in a record': r'\bFragmentRoom\b',
    'a notice that can be compared': r'\bComparable\b',
}


def functions(text):
    """Each function: its name, its parameters as (name, type), its clauses, the line it begins at."""
    for m in re.finditer(r'^( *)(?:pub )?(?:extern "C" )?fn (\w+)(?:<[^>]*>)?\(([^{]*?)\)(?: -> [^\n{]+)?(.*?)^\1\{', text, re.S | re.M):
        ps = [p.strip() for p in m.group(3).replace('\n', ' ').split(',') if p.strip()]
        yield m.group(2), [tuple(x.strip() for x in p.split(':', 1)) if ':' in p else (p, 'Self') for p in ps], m.group(4), text.count('\n', 0, m.start()) + 1


def marked(text, line):
    """Whether the comment above the line, or the line before it, gives a reason."""
    rows = text.split('\n')
    i = line - 2
    seen = 0
    while i >= 0 and (rows[i].lstrip().startswith(('//', '#[')) or seen < 1):
        if 'Stays:' in rows[i]:
            return True
        seen += 0 if rows[i].lstrip().startswith(('//', '#[')) else 1
        i -= 1
    return False


def show(title, places):
    kept = sum(1 for c, n, _ in places if marked(FILES[c], n))
    print(f'{title}: {len(places)}' + (f', {kept} marked' if kept else ''))
    if VERBOSE:
        for c, n, what in places:
            print(f'    crates/{c}/src/lib.rt:{n} {what}' + (' (marked)' if marked(FILES[c], n) else ''))


for title, pattern in LINES.items():
    show(title, [(c, i, row.strip()[:90]) for c, t in FILES.items() for i, row in enumerate(t.split('\n'), 1) if re.search(pattern, row) and not row.lstrip().startswith('//')])
names = {}
for c, t in FILES.items():
    for name, ps, clauses, line in functions(t):
        names.setdefault(name, []).append((c, line, name))
show('2 a name in two crates', [x for v in names.values() if len({c for c, _, _ in v}) > 1 for x in v])
show('2 a family of names that differ in a number', [x for n, v in names.items() if re.search(r'_(two|four|eight)$|_(block|wide)$|[0-9]$|^(two|four|eight)_at$', n) for x in v])
for title, pattern in FACTS.items():
    show('5 a fact in clauses, ' + title, [(c, line, n) for c, t in FILES.items() for n, ps, cl, line in functions(t) if re.search(pattern, cl.split('ensures')[0])])
show('5 eight parameters or more', [(c, line, n) for c, t in FILES.items() for n, ps, cl, line in functions(t) if len(ps) >= 8])
show('6 a buffer with a place or a length beside it', [
    (c, line, n) for c, t in FILES.items() for n, ps, cl, line in functions(t)
    if any('[u8]' in y for _, y in ps) and any(x in ('at', 'from', 'n', 'len', 'size', 'a', 'b', 'count') and y == 'usize' for x, y in ps)])
answers = [f for f in glob.glob(f'{TOP}/crates/*/proofs/**/Answers.antt', recursive=True)]
print(f'8 answers: {sum(len(re.findall(r"^pub [^ ]+ : goal[.]", open(f).read(), re.M)) for f in answers)} in {len(answers)} files; lines of proofs/:',
      sum(open(f).read().count('\n') for f in glob.glob(f'{TOP}/crates/*/proofs/**/*.antt', recursive=True)))
