#!/usr/bin/env python3
"""Lists places in crates/*/src where a plainer form of the language may fit, by kind, with counts.

    python3 tools/places.py [FOLDER] [--list]

FOLDER is the top of a checkout, here by default. With --list each place is printed, else the counts alone.
"""
import collections
import glob
import os
import re
import sys

args = [a for a in sys.argv[1:] if not a.startswith('--')]
top = args[0] if args else '.'
show = '--list' in sys.argv

Line = collections.namedtuple('Line', 'file number text')
files = {}
for path in sorted(glob.glob(os.path.join(top, 'crates/*/src/**/*.rt'), recursive=True)):
    name = os.path.relpath(path, os.path.join(top, 'crates')).replace('/src/', '/')
    files[name] = open(path, encoding='utf-8').read().split('\n')


def code(text):
    return text.split('//')[0]


def grep(pattern):
    rx = re.compile(pattern)
    return [Line(f, i + 1, t.strip()) for f, ls in files.items() for i, t in enumerate(ls) if rx.search(code(t))]


def functions():
    """Each function: file, line, name, signature, clauses, body."""
    for f, ls in files.items():
        i = 0
        while i < len(ls):
            m = re.match(r'\s*(?:pub(?:\([a-z]+\))?\s+)?fn\s+(\w+)', ls[i])
            if not m:
                i += 1
                continue
            start, head = i, []
            while i < len(ls) and not (ls[i].strip() == '{' or re.search(r'[{;]\s*$', ls[i])
                                       and not re.match(r'\s*(requires|ensures)', ls[i])):
                head.append(ls[i])
                i += 1
            if i < len(ls) and ls[i].strip() != '{':
                head.append(ls[i])
            if i >= len(ls) or ls[i].rstrip().endswith(';'):
                i += 1
                continue
            indent = len(ls[start]) - len(ls[start].lstrip())
            body = []
            i += 1
            while i < len(ls) and not (ls[i].startswith(' ' * indent + '}')):
                body.append(code(ls[i]).strip())
                i += 1
            yield f, start + 1, m.group(1), [code(h).strip() for h in head], [b for b in body if b]


def skeleton(body):
    toks = re.findall(r'[A-Za-z_]\w*|\d+|"[^"]*"|\S', ' '.join(body))
    keep = {'if', 'else', 'for', 'in', 'match', 'return', 'let', 'mut', 'Some', 'None', 'Ok', 'Err', 'while'}
    return tuple(t if t in keep or not re.match(r'[A-Za-z_\d"]', t) else 'x' for t in toks)


def twins():
    by = collections.defaultdict(list)
    for f, n, name, head, body in functions():
        s = skeleton(body)
        if len(s) >= 18:
            by[s].append(Line(f, n, name))
    return [Line(g[0].file, g[0].number, ' ~ '.join(f'{x.file}:{x.text}' for x in g)) for g in by.values() if len(g) > 1]


def repeated_requires():
    by = collections.defaultdict(list)
    for f, n, name, head, body in functions():
        for h in head:
            m = re.match(r'requires\s*\w*\s*\{(.*)\}', h)
            if m:
                fact = re.sub(r'\b(\w+)\.(now|old|new|entry)\b', r'\1', m.group(1).strip())
                by[(f.split('/')[0], fact)].append(Line(f, n, name))
    return [Line(g[0].file, g[0].number, f'{k[1]}: ' + ', '.join(x.text for x in g)) for k, g in by.items() if len(g) >= 3]


def travelling():
    by = collections.defaultdict(set)
    for f, n, name, head, body in functions():
        sig = ' '.join(head)
        m = re.search(r'\((.*?)\)\s*(->|requires|ensures|\{|where|$)', sig)
        if not m:
            continue
        ps = [p.split(':')[0].replace('mut ', '').strip() for p in re.sub(r'<[^>]*>|\([^)]*\)', '', m.group(1)).split(',')]
        ps = [p for p in ps if p and 'self' not in p and p not in ('rt', 'heap')]
        for a in range(len(ps)):
            for b in range(a + 1, len(ps)):
                by[(f.split('/')[0], ps[a], ps[b])].add(name)
    return [Line(k[0], 0, f'{k[1]}, {k[2]}: ' + ', '.join(sorted(v))) for k, v in sorted(by.items()) if len(v) >= 3]


KINDS = [
    ('1 own enums, options of refusals, sentinels, state flags',
     lambda: grep(r'\benum \w+|-> Option<(Refusal|Reason)>|^(pub(\(crate\))? )?const (FAR|END)\b|^\s*(pub(\(\w+\))? )?(spent|phase): ')),
    ('2 functions of one skeleton', twins),
    ('2 newtypes of numbers and of arrays', lambda: grep(r'struct \w+(<[^>]*>)?\((pub(\(crate\))? )?(u8|usize|\[)|^\s*(pub(\(crate\))? )?bytes: \[u8; \d+\]')),
    ('3 loops', lambda: grep(r'^\s*(for|while|loop)\b')),
    ('3 of these, by an index', lambda: grep(r'^\s*(for \w+ in \(?[^{]*\.\.|while \w+ <|for \(\w+, \w+\) in .*enumerate)')),
    ('4 impls of equality, order, printing, conversion', lambda: grep(r'^\s*impl.*\b(PartialEq|Eq|PartialOrd|Ord|Display|Debug|From<.*|TryFrom<.*|Clone|Copy)\b.* for ')),
    ('4 matches that only map', lambda: grep(r'(None => None|Err\((\w+)\) => Err\(\2\)|Err\(_\) => Err\(|Err\(\w+\) => (return )?Err\(|Ok\(\(\)\) => Ok\(\(\)\))')),
    ('4 let .. else that only changes the error', lambda: grep(r'let (Ok|Some)\(.*\) = .*else \{')),
    ('4 functions that compare, convert or spell', lambda: grep(r'fn (are_same|same|\w+_of|\w+_text|halt_at|refused|complaint|expectation|remedy|form)\b')),
    ('5 facts required by three or more', repeated_requires),
    ('5 parameters that travel together', travelling),
    ('6 arrays in structs', lambda: grep(r'^\s*(pub(\(\w+\))? )?\w+: \[.*; \w+\],')),
    ('7 matches on a kind', lambda: grep(r'match \(?(self\.)?(make|style|how|group|sort|keyword|position|mode|call|reason|flag)\b')),
]
for title, find in KINDS:
    places = find()
    print(f'{len(places):4}  {title}')
    if show:
        for p in places:
            print(f'        {p.file}:{p.number}: {p.text}')
