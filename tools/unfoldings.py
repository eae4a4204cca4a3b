#!/usr/bin/env python3
"""unfoldings.py FILE: rewrites the module aliases and every `unfolding` line of a proof file that computes. They name each `unfoldable`
   definition that the definitions of the file's own crate reach, through the specs of all crates. Run it when definitions changed."""
import os
import re
import sys

DECLARED = re.compile(r'^(?:(unfoldable|abbrev) )?(?:pub )?([^\s:(){}]+)(?: \{[^}]*\})* :')
USED = re.compile(r'^(?:(?:unfoldable )?pub )?use Rattle·(\w+)(?:·specs)?\.specs\.(\w+)(?:\.\{(.*)\}| as (\S+))$')
WORD = re.compile(r'[^\s(){}\[\],;|]+')


class Module:
    def __init__(self, path):
        self.kinds, self.words, self.names, self.aliases = {}, {}, {}, {}
        name = None
        for line in open(path, encoding='utf-8').read().split('\n'):
            line = line.split('--')[0].rstrip()
            use, declared = USED.match(line), DECLARED.match(line)
            if use:
                crate, module, names, alias = use.groups()
                if alias:
                    self.aliases[alias] = (crate, module)
                for n in (names or '').split(','):
                    if n.strip():
                        there, _, here = n.strip().partition(' as ')
                        self.names[here or there] = (crate, module, there)
            elif re.match(r'use |pub (record|data) ', line):
                name = None
            elif declared:
                kind, name = declared.groups()
                self.kinds[name], self.words[name] = kind, []
            if name:
                self.words[name] += WORD.findall(line)


modules = {}
for crate in sorted(os.listdir('crates')):
    specs = os.path.join('crates', crate, 'specs')
    for f in sorted(os.listdir(specs)) if os.path.isdir(specs) else []:
        if f.endswith('.antt') and f != 'Lib.antt':
            modules[crate, f[:-5]] = Module(os.path.join(specs, f))


def resolved(crate, module, word):
    """where a word of a module is declared"""
    m = modules[crate, module]
    if word in m.kinds:
        return crate, module, word
    alias, _, rest = word.partition('.')
    return m.names.get(word) or (m.aliases[alias] + (rest,) if alias in m.aliases else None)


path = sys.argv[1]
own = os.path.normpath(path).split(os.sep)[1]
todo = [(c, m, n) for (c, m), x in modules.items() if c == own for n in x.kinds]
reached = set()
while todo:
    at = todo.pop()
    if at in reached or at[:2] not in modules:
        continue
    if at[2] not in modules[at[:2]].kinds:  # perhaps passed on by a `pub use`
        todo += [modules[at[:2]].names[n] for n in [at[2]] if n in modules[at[:2]].names]
        continue
    reached.add(at)
    todo += [r for r in (resolved(at[0], at[1], w) for w in modules[at[:2]].words[at[2]]) if r]

order = [l.split(':')[0] for l in open('crates.txt', encoding='utf-8').read().split('\n') if ':' in l and not l.startswith('#')]
alias = lambda c, m: '%s-%s' % (c, m.lower())
uses, names = [], []
for c, m in sorted(modules, key=lambda k: (order.index(k[0]), k[1])):
    here = [n for n in modules[c, m].kinds if modules[c, m].kinds[n] == 'unfoldable' and (c, m, n) in reached]
    if here:
        uses.append('use Rattle·%s%s.specs.%s as %s' % (c, '·specs' if c == own else '', m, alias(c, m)))
        names += ['%s.%s' % (alias(c, m), n) for n in here]

out, placed = [], False
for line in open(path, encoding='utf-8').read().split('\n'):
    if re.match(r'use Rattle·.* as [\w-]+$', line) and '{' not in line:
        if not placed:
            out += uses
            placed = True
    else:
        out.append('unfolding ' + ' '.join(names) if line.startswith('unfolding ') else line)
open(path, 'w', encoding='utf-8').write('\n'.join(out))
print('%d definitions of %d modules' % (len(names), len(uses)))
