#!/usr/bin/env python3
"""alone.py CRATE: which functions of a proved crate need their file of answers? Tries all of them at once without, in three ways: as they stand, with the
unfoldable definitions opened that their clauses name, and with the laws named that their answers cite (`#[tactic(auto, using(..), unfolding(..))]`).
Keeps what `rt check` proves, and puts everything else back. It writes into src/ and proofs/: commit first, and read what it leaves. Functions of a
cycle are passed over."""
import glob
import os
import re
import subprocess
import sys

if len(sys.argv) != 2:
    sys.exit(__doc__)
crate = sys.argv[1]
root = os.path.dirname(os.path.dirname(os.path.abspath(__file__)))
opened = {(m.group(1) + '.specs.' + m.group(2).replace('/', '.'), name)
          for p in glob.glob(root + '/crates/*/specs/**/*.antt', recursive=True)
          for m in [re.search(r'crates/(\w+)/specs/(.*)\.antt', p)]
          for name in re.findall(r"^\s*unfoldable pub ([\w']+)", open(p, encoding='utf-8').read(), re.M)}
os.chdir(os.path.join(root, 'crates', crate))


def check():
    said = subprocess.run(['rt', 'check'], capture_output=True)
    return (said.stdout + said.stderr).decode('utf-8', 'replace')


def site(folder, src):
    """the file, the place and the indent of the function whose proof lies in the folder"""
    *mods, name = folder.split('/')[1:]
    found = []
    for path, text in src.items():
        own = path[4:-3]
        own = [] if own in ('lib', 'main') else own.split('/')
        m = re.search(r'^([ \t]*)(?:pub(?:\(crate\))? )?fn %s\b' % re.escape(name), text, re.M)
        if m and own == mods[:len(own)]:
            found.append((len(own), path, m.start(), m.group(1)))
    return max(found)[1:] if found else None


def attribute(folder, answers, src, way):
    """the line that is tried in place of the answers; None where there is nothing to try"""
    path, at, indent = site(folder, src) or (None, 0, '')
    if path is None or '#[tactic' in src[path][:at].rsplit('}\n', 1)[-1]:
        return None
    text = src[path]
    body = re.search(r'\n%s\{\n' % indent, text[at:])
    head = text[at:at + (body.start() if body else 400)]
    names = {n.split(' as ')[-1].strip(): (m[0], n.split(' as ')[0].strip())
             for m in re.findall(r'ghost use Rattle\.([\w.]+)\.\{([^}]*)\}', text) for n in m[1].split(',')}
    said = ' '.join(re.findall(r'(?:ensures|requires)[^{]*\{(.*)\}', head))
    unfolding = [names[w] for w in dict.fromkeys(re.findall(r'[A-Za-z_]\w*', said)) if names.get(w) in opened]
    using = [(module, n.strip())
             for module, ns in re.findall(r'^use Rattle\.(?!std\.)(\w+\.proofs\.[\w.]+)\.\{([^}]*)\}', answers, re.M)
             for n in ns.split(',') if re.fullmatch(r'\w+', n.strip())]
    parts = [(word, ', '.join('::'.join(['crate' if m.split('.')[0] == crate else m.split('.')[0]] + m.split('.')[1:] + [n]) for m, n in list_))
             for word, list_ in (('using', using if way == 'laws' else []), ('unfolding', unfolding if way != 'alone' else [])) if list_]
    if way == 'alone':
        return ''
    return indent + '#[tactic(auto, ' + ', '.join('%s(%s)' % p for p in parts) + ')]' if parts else None


def lay(folders, plan, answers, src):
    now = dict(src)
    for folder in folders:
        path, _, indent = site(folder, src)
        if plan[folder]:
            fn = r'^%s(?:pub(?:\(crate\))? )?fn %s\b' % (indent, re.escape(folder.split('/')[-1]))
            now[path] = re.sub(fn, lambda m: plan[folder] + '\n' + m.group(0), now[path], count=1, flags=re.M)
    for path, text in now.items():
        open(path, 'w', encoding='utf-8').write(text)
    for folder, text in answers.items():
        file = folder + '/Answers.antt'
        if folder in folders:
            if os.path.exists(file):
                os.remove(file)
        else:
            open(file, 'w', encoding='utf-8').write(text)


for way in ('alone', 'opened', 'laws'):
    src = {p: open(p, encoding='utf-8').read() for p in glob.glob('src/**/*.rt', recursive=True)}
    answers = {os.path.dirname(a): open(a, encoding='utf-8').read() for a in glob.glob('proofs/**/Answers.antt', recursive=True) if '/+' not in a}
    plan = {f: line for f, t in answers.items() for line in [attribute(f, t, src, way)] if line is not None}
    lay(set(plan), plan, answers, src)
    said = check() if plan else ''
    kept = {f for f in plan if re.search(r'^fn %s: proved' % re.escape('::'.join([crate] + f.split('/')[1:])), said, re.M)}
    lay(kept, plan, answers, src)
    if kept and 'logic=proved' not in check():
        lay(set(), plan, answers, src)
        kept = set()
    for folder in kept:
        if not os.listdir(folder):
            os.rmdir(folder)
    print('%s, %s: %d of %d tried need no answers' % (crate, way, len(kept), len(plan)))
