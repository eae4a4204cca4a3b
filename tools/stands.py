#!/usr/bin/env python3
"""stands.py: crates.txt names for each crate what its files name of others, and no more. stands.py LEVELS: prints each crate behind its level."""
import os
import re
import sys

NAMED = re.compile(r'Rattle\.([a-z_]+)\.|(?<![\w:])([a-z_]+)::')
KIT = {'bytes', 'io', 'libc', 'os'}  # libraries of the kit that a crate may name
lines = [l.split('#')[0].strip() for l in open('crates.txt', encoding='utf-8')]
listed = {l.split(':')[0].split()[0]: set(l.split(':')[1].split()) for l in lines if l}


def named(crate):
    found = set()
    for folder, folders, files in os.walk(os.path.join('crates', crate)):
        folders[:] = [f for f in folders if f != 'out']
        for f in files:
            if f.endswith(('.rt', '.antt')):
                text = re.sub(r'//[^\n]*', '', open(os.path.join(folder, f), encoding='utf-8').read())
                # A module of std or of the crate that a `use` brings in is no crate of that name.
                brought = {n for use in re.findall(r'(?m)^\s*use (?:std|core|crate|self|super)::([^;]*);', text) for n in re.findall(r'\w+', use)}
                found |= {a or b for a, b in NAMED.findall(text) if a or b not in brought}
    return (found & (set(listed) | KIT)) - {crate}


def level(crate):
    return max((level(d) + 1 for d in listed[crate] if d in listed), default=0)


if sys.argv[1:] == ['LEVELS']:
    for crate in listed:
        print(level(crate), crate)
    sys.exit()
wrong = [(c, sorted(named(c) ^ listed[c])) for c in listed if named(c) != listed[c]]
for crate, names in wrong:
    print('%s: crates.txt and its files do not name the same: %s' % (crate, ' '.join(names)))
print('%d crates, %d of them with another list in crates.txt than their files name' % (len(listed), len(wrong)))
sys.exit(1 if wrong else 0)
