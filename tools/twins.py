#!/usr/bin/env python3
# Functions of crates/*/src whose bodies are the same but for names of types, numbers and constants: a line for each group.
# Usage, at the top of the checkout: tools/twins.py
import glob
import re


def functions(text):
    for m in re.finditer(r'^( *)(?:pub )?(?:extern "C" )?fn (\w+)', text, re.M):
        end = re.search(r'(?:^' + m.group(1) + r'|[^\n]* )\{\}?\n', text[m.start():], re.M)
        if end is None:
            continue
        start = m.start() + end.end()
        close = re.search(r'^' + m.group(1) + r'\}', text[start:], re.M)
        body = text[start:start + close.start()] if close else ''
        yield text.count('\n', 0, m.start()) + 1, m.group(2), body


def shape(body):
    body = re.sub(r'//.*', '', body)
    body = re.sub(r'\b(u8|u16|u32|u64|usize|i32|i64)\b', 'T', body)
    body = re.sub(r'\b[A-Z][A-Za-z]*::[A-Z_]+\b|\b[A-Z][A-Z_]+\b|\b\d[\d_]*\b', 'K', body)
    return ' '.join(body.split())


groups = {}
for path in sorted(glob.glob('crates/*/src/*.rt')):
    for line, name, body in functions(open(path).read()):
        s = shape(body)
        if 20 <= len(s):
            groups.setdefault(s, []).append(f'{path}:{line} {name}')
for places in groups.values():
    if 1 < len(places):
        print(' ~ '.join(places))
