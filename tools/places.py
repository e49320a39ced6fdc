#!/usr/bin/env python3
"""Lists the places of older forms in crates/*/src, a line each with tabs between: point, crate, file and line, name, what; with -c only how many of each point.

    python3 tools/places.py [-c] [FOLDER]

1  an enum of the shape of Option or Result; a number beside a value; a function that gives a number for a refusal; a match on a number that stands for a kind
2  functions whose text is the same but for names, types and constants; types that differ in the type of a field
3  a loop that counts an index by hand
4  a match that says of each case whether it is one, or gives its number; one that prints it
5  a function that takes two or more of a channel's tables one by one; a fact in the contracts of three or more functions
6  an array with a length beside it; parallel arrays with a row for each channel
7  a function pointer
8  an answer of a proof in three words or fewer
"""
import glob
import os
import re
import sys
from collections import defaultdict

WORDS = {'fn', 'pub', 'let', 'mut', 'if', 'else', 'while', 'for', 'in', 'match', 'return', 'self', 'true', 'false', 'requires', 'ensures'}
TABLES = {'sla', 'lens', 'status', 'counts'}
root = next((a for a in sys.argv[1:] if a[0] != '-'), '.')
places = []


def put(point, path, line, name, what):
    crate = path.split('crates/')[1].split('/')[0]
    file = re.split(r'/(?:src|proofs)/', path)[-1]
    places.append((point, crate, '%s:%d' % (file, line), name, what))


def line_at(text, at):
    return text.count('\n', 0, at) + 1


def items(text, word):
    """each struct or enum: its line, its name and what stands between its braces"""
    for m in re.finditer(r'^(?:pub(?:\(crate\))? )?%s (\w+)(?:<[^>]*>)? \{\n(.*?)^\}' % word, text, re.M | re.S):
        yield line_at(text, m.start()), m.group(1), m.group(2)


def functions(text):
    """each function: its line, its name, its signature with clauses, and its body"""
    for m in re.finditer(r'^( *)(?:pub(?:\(crate\))? )?(?:const )?fn (\w+).*$', text, re.M):
        end = re.compile(r'^%s}' % m.group(1), re.M).search(text, m.end())
        whole = text[m.start():end.end() if end else len(text)]
        brace = re.search(r'^%s\{$' % m.group(1), whole, re.M) or re.search(r'\{', whole)
        yield line_at(text, m.start()), m.group(2), whole[:brace.start()], whole[brace.end():-1]


def shape(text):
    """a function's words, with a number in place of each name, type and constant"""
    words = re.findall(r"[A-Za-z_]\w*|\d\w*|b?'[^']*'|b?\"[^\"]*\"|[^\sA-Za-z_0-9]", text)
    seen = {}
    return [w if w in WORDS or not re.match(r"[A-Za-z_0-9'\"]", w) else str(seen.setdefault(w, len(seen))) for w in words]


facts = defaultdict(list)
twins = defaultdict(list)
types = defaultdict(list)
for path in sorted(glob.glob(os.path.join(root, 'crates/*/src/*.rt'))):
    text = re.sub(r'//.*', '', open(path).read())
    for line, name, body in items(text, 'enum'):
        cases = [c.strip().rstrip(',') for c in body.split('\n') if c.strip() and not c.strip().startswith('#')]
        if len(cases) == 2 and sum('(' in c for c in cases) == 1:
            put(1, path, line, name, 'an enum like Option: ' + ' | '.join(cases))
        elif any(c in ('Sound', 'Ok', 'Done', 'On') for c in cases):
            put(1, path, line, name, 'an enum like Result: ' + ' | '.join(cases))
    for line, name, body in items(text, 'struct'):
        fields = re.findall(r'^\s*(?:pub(?:\(crate\))? )?(\w+): (.*),$', body, re.M)
        if ('number', 'u8') in fields:
            put(1, path, line, name, 'a number beside a value')
        if ('len', 'usize') in fields and any(t.startswith('[') for f, t in fields):
            put(6, path, line, name, 'an array with a length beside it')
        if len(fields) == 2:
            for k in range(2):
                types[(fields[k], fields[1 - k][1][0].isupper())].append((path, line, name))
    for line, name, head, body in functions(text):
        signature = re.split(r'\b(?:requires|ensures)\b', head)[0]
        if re.search('refusal|number', name) and signature.strip().endswith('-> u8'):
            put(1, path, line, name, 'gives a number for a refusal')
        for m in re.finditer(r"match (\w+(?:\.\w+)?) \{\s*(?:\d\w*|b'.') =>", body):
            put(1, path, line, name, 'a match on a number, ' + m.group(1))
        for m in re.finditer(r'while ([^{]*)\{', body):
            if any(re.search(r'\b%s [+-]= ' % v, body[m.end():]) for v in re.findall(r'\b[a-z_]+\b', m.group(1))):
                put(3, path, line, name, 'while ' + m.group(1).strip())
        if re.search(r'\bloop \{', body) and re.search(r'\bi [+-]= 1', body):
            put(3, path, line, name, 'loop')
        m = re.match(r'match [\w.]+ \{(.*)\}$', body.strip(), re.S)
        if m:
            arms = [a.strip() for a in re.findall(r'=> ([^,\n]+),?', m.group(1))]
            if arms and set(arms) <= {'true', 'false'}:
                put(4, path, line, name, 'a match of true and false')
            elif arms and len(set(arms)) == len(arms) and all(re.match(r'(\d\w*|\w+::\w+)$', a) for a in arms):
                put(4, path, line, name, 'a match with a constant for each case')
            elif name.startswith('say'):
                put(4, path, line, name, 'prints an enum')
        tables = [p for p in re.findall(r"(\w+): &(?:'\w+ )?(?:mut )?\[", signature) if p in TABLES]
        if len(tables) >= 2:
            rows = '; 3]' in signature
            put(6 if rows else 5, path, line, name, ('a row for each channel: ' if rows else 'tables one by one: ') + ', '.join(tables))
        for clause in re.findall(r'requires(?: \w+)? \{ (.*) \}', head):
            for fact in clause.split(' × '):
                facts[re.sub(r'\.(now|old)\b', '', fact.strip('() '))].append((path, line, name))
        if re.search(r'\bfn\(', signature):
            put(7, path, line, name, 'a function pointer')
        words = shape(signature + '{' + body)
        if len(words) >= 20:
            twins[' '.join(words)].append((path, line, name))
for what, groups in (('as ', twins), ('a type as ', types)):
    for same in groups.values():
        for path, line, name in same if len(same) > 1 else []:
            put(2, path, line, name, what + ', '.join(n for p, l, n in same if (p, l) != (path, line)))
for fact, where in facts.items():
    if len(where) > 2:
        put(5, *where[0], 'in %d contracts: %s' % (len(where), fact))
for path in sorted(glob.glob(os.path.join(root, 'crates/*/proofs/**/Answers.antt'), recursive=True)):
    text = open(path).read()
    for m in re.finditer(r'^(\S+)(?: \w+)* = (.*)$', text, re.M):
        if len(m.group(2).split()) <= 3 and not text.startswith('\n ', m.end()):
            put(8, path, line_at(text, m.start()), m.group(1), m.group(2))
if '-c' in sys.argv:
    for point in range(1, 9):
        print(point, sum(p[0] == point for p in places))
else:
    for place in sorted(places):
        print(*place, sep='\t')
