#!/usr/bin/env python3
"""Counts, in crates/*/src, the places that docs/DESIGN-PASS.md speaks of, point by point.

  tools/places.py            the counts
  tools/places.py --list 3   the places of a point, a line each

A place is found by its form alone. What a form is:
 1a  an enum with a variant that stands for nothing, for what is wrong or for what is accepted
 1b  a struct with a bool beside other fields
 1c  a field, parameter or constant that holds a kind, a rule or a refusal as a whole number
 2a  functions of one file or crate whose texts are the same but for names, types and numbers
 2b  structs whose fields are the same but for names
 3   `while` loops
 4   functions that are one match on an enum with constants as arms, and comparisons of enums by match
 5a  a `requires` that stands, but for names, in three functions or more
 5b  functions with six parameters or more
 6   arrays with a count beside them among the parameters of a function or the fields of a struct
 6b  arrays of fixed length beside a count that a type holds to them (`Count`)
 7   parameters of type bool or of an enum that choose what a loop or a function does
 8   answers to goals in proofs/, and lines of them
"""
import re, sys, glob, os
from collections import defaultdict

ROOT = os.path.dirname(os.path.dirname(os.path.abspath(__file__)))
if '--root' in sys.argv: ROOT = sys.argv[sys.argv.index('--root') + 1]
FILES = sorted(glob.glob(ROOT + '/crates/*/src/**/*.rt', recursive=True))
NOTHING = r'(Wrong|Bad|Accepted|None|Nothing|Refused|Still|Missing|Other|Invalid|Ended)'
KINDS = r'(?:\w*_)?(?:fault_type|rule|refusal|refused|verdict|kind|job|place|letter|code|work|stop|reason|first_broken|shown)'

def text(f):
    """The file without comments and ghost lines, with the same line numbers."""
    return '\n'.join('' if l.startswith('ghost use') else re.sub(r'(?<!:)//.*', '', l) for l in open(f).read().split('\n'))

def where(f, s, at): return f'{os.path.relpath(f, ROOT)}:{s[:at].count(chr(10)) + 1}'

def braces(s, at):
    """The end of the block that opens at or behind `at`."""
    i = s.index('{', at); n = 0
    while i < len(s):
        n += (s[i] == '{') - (s[i] == '}')
        if n == 0: return i + 1
        i += 1
    return len(s)

def functions(s):
    for m in re.finditer(r'^( *)(?:pub )?fn (\w+)', s, re.M):
        # the body is the brace that stands alone at the function's own column, or at the end of its line
        sig_end = re.compile(r'^' + m.group(1) + r'\{$|\{$', re.M)
        b = sig_end.search(s, m.end())
        yield m.group(2), m.start(), s[m.start():b.start()], s[b.start():braces(s, b.start())]

def params(sig):
    i = sig.index('('); n = 0; depth = 0; out = []; cur = ''
    for c in sig[i:]:
        depth += c in '([<{'; depth -= c in ')]>}'
        if depth == 0: break
        if c == ',' and depth == 1: out.append(cur.strip()); cur = ''
        elif not (c == '(' and depth == 1): cur += c
    if cur.strip(): out.append(cur.strip())
    return [p for p in out if p and not p.endswith('self')]

def shape(t):
    names = {}
    def sub(m):
        w = m.group(0)
        if re.match(r'\d', w): return '0'
        if w in ('fn','pub','let','mut','if','else','while','for','in','match','return','loop','break','self','Self','as','true','false','struct'): return w
        return names.setdefault(w, f'v{len(names)}')
    return re.sub(r"[A-Za-z_]\w*|\d[\w.]*", sub, re.sub(r'\s+', ' ', t))

found = defaultdict(list)
for f in FILES:
    s = text(f); crate = os.path.relpath(f, ROOT).split('/')[1]
    for m in re.finditer(r'^(?:pub )?enum (\w+)', s, re.M):
        body = s[m.end():braces(s, m.end())]
        if re.search(r'^\s*' + NOTHING + r',', body, re.M): found['1a'].append((where(f, s, m.start()), m.group(1)))
    for m in re.finditer(r'^(?:pub )?struct (\w+) \{', s, re.M):
        body = s[m.end() - 1:braces(s, m.end() - 1)]
        fields = re.findall(r'^\s*(?:pub )?(\w+): ([^,\n]+),', body, re.M)
        if len(fields) > 1:
            for n, t in fields:
                if t == 'bool': found['1b'].append((where(f, s, m.start()), f'{m.group(1)}.{n}'))
        found['2b~'].append((where(f, s, m.start()), m.group(1), ' '.join(sorted(re.sub(r'\d+', '0', t) for n, t in fields)), len(fields)))
        arrays = [n for n, t in fields if t.startswith('[')]
        counts = [n for n, t in fields if t == 'usize']
        if arrays and counts: found['6'].append((where(f, s, m.start()), f'struct {m.group(1)}: {", ".join(arrays)} beside {", ".join(counts)}'))
        counts = [n for n, t in fields if re.match(r'\w*Count(<\w+>)?$', t)]
        if arrays and counts: found['6b'].append((where(f, s, m.start()), f'struct {m.group(1)}: {", ".join(arrays)} beside {", ".join(counts)}'))
    for m in re.finditer(r'\b(' + KINDS + r'): &?(?:\[)?(u64|usize|u8)\b', s): found['1c'].append((where(f, s, m.start()), m.group(0)))
    for m in re.finditer(r'^const (\w+): \[u64; \d+\]', s, re.M): found['1c'].append((where(f, s, m.start()), m.group(1)))
    for m in re.finditer(r'^\s*while ', s, re.M): found['3'].append((where(f, s, m.start(0) + 1), s[m.start(0):s.index('\n', m.start(0) + 1)].strip()))
    for name, at, sig, body in functions(s):
        ps = params(sig); w = where(f, s, at)
        inner = body[1:-1].strip()
        if re.match(r'match \w+ \{', inner) and inner.endswith('}') and braces(inner, 0) == len(inner):
            arms = re.findall(r'=> ([^{},]+),', inner)
            if arms and all(re.fullmatch(r'[\w:.\']+', a.strip()) for a in arms) and '=> {' not in inner: found['4'].append((w, name))
        if len(ps) >= 6: found['5b'].append((w, f'{name}: {len(ps)} parameters'))
        for r in re.findall(r'requires (?:\w+ )?\{ (.*) \}$', sig, re.M):
            for c in r.split(' × '): found['5a~'].append((w, name, re.sub(r"\b[a-z]\w*(\.[a-z]\w*)*\b", 'x', c.strip('() '))))
        arrays = [p for p in ps if re.search(r': &?(mut )?\[', p) or re.search(r': &?\[', p)]
        counts = [p for p in ps if re.search(r': usize$', p) and re.match(r'n\b|m\b|n_|len|count|size', p)]
        if arrays and counts: found['6'].append((w, f'{name}: arrays beside {", ".join(c.split(":")[0] for c in counts)}'))
        counts = [p for p in ps if re.search(r': \w*Count(<\w+>)?$', p)]
        if counts and any('; ' in a for a in arrays): found['6b'].append((w, f'{name}: arrays beside {", ".join(c.split(":")[0] for c in counts)}'))
        for p in ps:
            if re.search(r': (bool|Limit|Kind)$', p): found['7'].append((w, f'{name}({p})'))
        if body.count('\n') > 3:
            found['2a~'].append((w, name, crate, shape(re.sub(r'(requires|ensures)[^\n]*', '', sig)[sig.index('('):] + body)))
by = defaultdict(list)
for w, name, crate, sh in found.pop('2a~'): by[(sh)].append((w, name))
for v in by.values():
    if len(v) > 1: found['2a'].append((v[0][0], ' = '.join(n for _, n in v) + f'  ({len(v)})'))
by = defaultdict(list)
for w, name, t, n in found.pop('2b~'):
    if n > 1: by[t].append((w, name))
for v in by.values():
    if len(v) > 1: found['2b'].append((v[0][0], ' = '.join(n for _, n in v)))
by = defaultdict(list)
for w, name, r in found.pop('5a~', []): by[r].append((w, name))
for r, v in by.items():
    if len({n for _, n in v}) > 2: found['5a'].append((v[0][0], f'{r}  in {len({w for w, _ in v})} functions'))
answers = glob.glob(ROOT + '/crates/*/proofs/**/Answers.antt', recursive=True)
n = sum(len(re.findall(r'^pub \S+ : goal\.', open(a).read(), re.M)) for a in answers)
lines = sum(open(a).read().count('\n') for a in answers)
if '--list' in sys.argv:
    p = sys.argv[sys.argv.index('--list') + 1]
    for k in sorted(found):
        if k.startswith(p):
            for x in found[k]: print(k, *x, sep='  ')
else:
    for k in sorted(found): print(f'{k:3} {len(found[k])}')
    print(f'8   {n} answers, {lines} lines in {len(answers)} files')
