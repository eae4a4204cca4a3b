#!/usr/bin/env python3
"""tidy.py CRATE: makes finished proof files of a crate short: a header line, no place comments, no `use` line that nothing needs."""
import os, re, sys

crate = sys.argv[1]
root = 'crates/%s/proofs' % crate


def header(folder):
    parts = os.path.relpath(folder, root).split(os.sep)
    names = [crate] + parts[:-1]
    members = [m for m in parts[-1].split('+') if m]
    if parts[-1].startswith('+'):
        each = ', '.join('`%s`' % '::'.join(names + [m]) for m in members)
        return '-- The cycle of calls %s meets its contracts. Assumes nothing.' % each
    return '-- `%s` meets its contract. Assumes nothing.' % '::'.join(names + members)


def named(name, rest):
    sign = name.strip('_')
    if not re.search(r'\w', sign):
        return sign in rest
    return re.search(r'(?<![\w·-])%s(?![\w·-])' % re.escape(sign), rest) is not None


def needed(line, rest):
    m = re.match(r'use \S+ as ([\w-]+)$', line)
    if m:
        return re.search(r'(?<![\w-])%s\.' % re.escape(m.group(1)), rest) is not None
    m = re.match(r'use (\S+)\.\{([^}]*)\}$', line)
    if m:
        kept = [n for n in m.group(2).split(', ') if named(n, rest)]
        return 'use %s.{%s}' % (m.group(1), ', '.join(kept)) if kept else False
    return True


for folder, _, files in os.walk(root):
    if 'Proof.antt' not in files:
        continue
    path = os.path.join(folder, 'Proof.antt')
    text = open(path, encoding='utf-8').read()
    lines = [l for l in text.split('\n') if not re.match(r'-- src/\S+:\d+:\d+$', l)]
    body = '\n'.join(l for l in lines if not l.startswith('use '))
    uses = []
    for l in lines:
        if l.startswith('use '):
            keep = needed(l, body)
            if keep:
                uses.append(l if keep is True else keep)
    rest = re.sub(r'^(--[^\n]*Assumes nothing\.\n)', '', body.lstrip('\n'))
    rest = re.sub(r'\n\n\n+', '\n\n', rest.lstrip('\n'))
    open(path, 'w', encoding='utf-8').write('\n'.join([header(folder)] + uses) + '\n\n' + rest.rstrip('\n') + '\n')
