#!/usr/bin/env python3
"""Writes a function's old Proof.antt as today's Invariants.antt and Answers.antt: paths become flat, needs become goals.

usage: tools/to-answers.py CRATE [NAMES.json] [--only FN..] [--open LOG]

A cycle of functions (a folder `+..`) is written too: its measures, loops and goals, each under its function's name.
Run at the top of the repository. NAMES.json is what `rt check --generated DIR --old-names` writes in the crate; without it, it is made.
With --open only the goals that LOG, what a check without proof files said, lists as open are written. Proof.antt moves to Proof.old beside it.
What it cannot place it prints.
"""
import json
import os
import re
import subprocess
import sys
import tempfile

NAME = r"(?:«[^»]*»|[^\s(){}.;,@\"«»]+)"
CHAIN = re.compile(r'(?<![^\s(){};,@"←])(%s)((?:\.%s)+)' % (NAME, NAME))


def norm(x):
    return x.strip('«»').replace('_', '-').lower()


def load(crate):
    folder = tempfile.mkdtemp()
    subprocess.run(['rt', 'check', '--generated', folder, '--old-names'], cwd='crates/' + crate, stdout=subprocess.DEVNULL, stderr=subprocess.DEVNULL)
    return json.load(open(folder + '/names.json'))


def writers():
    """The parameters of each function that are references, in their order, and those of them that are slices."""
    out = {}
    for folder, dirs, files in os.walk('crates'):
        for name in files:
            if name.endswith('.rt') and '/src' in folder:
                for m in re.finditer(r'\bfn (\w+)(?:<[^>]*>)?\(([^)]*)\)', open(os.path.join(folder, name), encoding='utf-8').read()):
                    crate = folder.split('/')[1]
                    given = [g for g in (re.match(r'\s*(?:&(?:mut )?(self)|(\w+): &(?:mut )?(\[)?)', a) for a in m[2].split(',')) if g]
                    out.setdefault((crate, m[1]), ([g[1] or g[2] for g in given], [g[2] for g in given if g[3]]))
    return out


class Function:
    written = None

    def __init__(self, entry):
        if Function.written is None:
            Function.written = writers()
        self.stem = entry.get('stem') or ''
        self.callee = {place[0]: place[3] for place in entry['places']}
        self.clauses = dict(zip([place[0] for place in entry['places']], entry['clauses']))
        self.params = {k.split('::')[-1]: v for k, v in entry['params'].items()}
        self.parent, self.label, self.key = {}, {}, {}
        for place, parent, labels, _, _ in entry['places']:
            self.parent[place], self.label[place] = parent, labels
        self.goal = {}
        for (old, new), (place, _) in zip(entry['needs'], entry['asked_at']):
            self.goal[norm(old)] = (new, place)
        self.settled = entry['settled']
        self.loops = {norm(l[0][0]): (l[0][1], l[1], ch) for l, ch in zip(entry['loops'], entry['changed'])}
        self.arms = dict(zip(self.parent, entry['arms']))


def fresh(label):
    """A place's new label without the trailing -1 of a silent step."""
    return label


def count_of(fields, i):
    """The position that .1.1.0 names from i on, and where it ends."""
    n = 0
    while i < len(fields) and fields[i] == '1':
        n, i = n + 1, i + 1
    return (n, i + 1) if i < len(fields) and fields[i] == '0' else None


def flat(fn, env, head, fields, said):
    """What a chain of the old form reads as now."""
    fields = fields[1:].split('.')
    at = env.get(head)
    if at is None or at[0] == 'step':
        return None
    if at[0] == 'alias':
        place, fields = at[1], at[2] + fields
    else:
        place = at[1]
    i = 0
    while i < len(fields) and fields[i] == 'before':
        i += 1
    if i == len(fields):
        return ('place', place)
    first, rest = fields[i], fields[i + 1:]
    if fn.stem and first == 'requires' and rest:
        return ('step', '.'.join(['c', 'decreases' if rest[0] == '0' else 'requires'] + rest[1:]))
    known = ('args', 'ranges', 'requires', 'lifetimes', 'well_formed', 'type_inv', 'type-inv')
    for want in [first, first[:-4]] if first.endswith('_lem') else [first]:
        # An arm of a match has what silent steps told of it under names of its own.
        up = place
        while up is not None:
            arm = fn.arms.get(up)
            for new, step, path in sorted(arm[2], key=lambda p: -len(p[2])) if arm else []:
                if path and norm(step) == norm(want) and rest[:len(path)] == path:
                    return ('step', '.'.join(['c', arm[0], new] + rest[len(path):]))
            up = fn.parent[up]
        up = place
        # Labels are counted, so each stands once on the way to a goal; how many silent steps lie between has changed.
        while up is not None:
            old, new = fn.label[up]
            if norm(old) == norm(want):
                got = fn.clauses[up]
                if got and len(rest) > 1 and rest[0] == 'ensures' and rest[1].isdigit() and int(rest[1]) < len(got['fields']):
                    rest[1] = got['fields'][int(rest[1])]
                if len(rest) > 1 and rest[0] in ('new', 'auto') and rest[1].isdigit() and fn.callee[up]:
                    all_, slices = Function.written.get((fn.callee[up].split('::')[0], fn.callee[up].split('::')[-1]), ([], []))
                    names, n = all_ if rest[0] == 'new' else slices, count_of(rest, 1) or (int(rest[1]), 2)
                    if n[0] < len(names):
                        rest = [rest[0], names[n[0]]] + rest[n[1]:]
                    else:
                        said.append('no parameter for %s of %s' % ('.'.join(rest), new))
                return ('step', '.'.join(['c', new] + rest), up)
            up = fn.parent[up]
    if first not in known:
        said.append('no step %s at %s (of %s.%s)' % (first, place, head, '.'.join(fields)))
    return ('step', '.'.join(['c', first] + rest))


def rewrite(fn, body, place, said, imported, var='c'):
    env = {var: ('place', place)}
    out, pos = [], 0
    # lets that only name a path, in order
    token = re.compile(r'let (%s) = (%s)((?:\.%s)+) in(?=\s)(\s*)|' % (NAME, NAME, NAME) + CHAIN.pattern)
    while True:
        m = token.search(body, pos)
        if not m:
            out.append(body[pos:])
            break
        out.append(body[pos:m.start()])
        if m[1]:
            got = flat(fn, env, m[2], m[3], said)
            bare = m[1] not in imported and re.search(r'(?<![^\s(){};,@"←])%s(?![^\s(){};,@"])' % re.escape(m[1]), body[m.end():])
            fields = m[3][1:].split('.')
            at = env.get(m[2])
            if got is None:
                out.append(m[0])
                env.pop(m[1], None)
            elif got[0] == 'place':
                env[m[1]] = got
            elif not bare and fields[-1] != 'args' and all(f == 'before' for f in fields[:-1]):
                env[m[1]] = ('alias', at[1], (at[2] if at[0] == 'alias' else []) + fields)
            else:
                out.append('let %s = %s in%s' % (m[1], got[1], m[4]))
                env[m[1]] = ('step',)
        else:
            got = flat(fn, env, m[5], m[6], said)
            if got is None or got[0] == 'place':
                if got:
                    said.append('a place as a value: ' + m[0])
                out.append(m[0])
            else:
                out.append(got[1])
        pos = m.end()
    return ''.join(out)


def chunks(text):
    head, rest = [], []
    lines = text.split('\n')
    i = 0
    while i < len(lines) and (lines[i].startswith(('--', 'use ', '    ')) or not lines[i].strip()):
        head.append(lines[i])
        i += 1
    cur = []
    for line in lines[i:]:
        if cur and cur[-1].endswith(' :') and line.startswith(' '):
            cur[-1] += ' ' + line.strip()
            continue
        if re.match(r'^(?:(?:abbrev|pub|unfoldable) )*\S+(?: \{[^}]*\})* :(?: |$)', line) and not line.startswith(' ') and cur:
            rest.append('\n'.join(cur))
            cur = []
        cur.append(line)
    if cur:
        rest.append('\n'.join(cur))
    return head, [c.rstrip() for c in rest if c.strip()]


def convert(crate, path, fns, opened, said):
    """fns: the function's entry under '', or those of a cycle's functions by name."""
    cycle = '' not in fns
    text = open(path + '/Proof.antt', encoding='utf-8').read()
    head, parts = chunks(text)
    module = path.split('/proofs/', 1)[1].replace('/', '.')
    of_alias = {m[2]: m[1] for m in re.finditer(r'(?m)^use \S+\.Lts-(\S+) as (\S+)-lts$', text)}
    uses = [l for l in head if l.startswith('use ') and not re.search(r'\.(Statement|Tie|Reads|Kinds)\b|\.Lts-|\.\{statement\}|borrow\.Author\.(Rules|Needs)\b|borrow\.Fn', l)]
    note = [l for l in head if l.startswith('--')]
    answers, invariants = [], []
    imported = set(re.findall(r'[^\s{},]+', ' '.join(l.split('{', 1)[1] for l in uses if '{' in l)))
    params = {}
    for fn in fns.values():
        params.update(fn.params)
    for part in parts:
        sig, _, body = part.partition('\n')
        if cycle:
            m = re.match(r'abbrev μ-(\S+) : Measures ', sig)
            if m:
                f = of_alias.get(m[1], m[1])
                c = re.match(r'μ-\S+ \S+ (\S+) =(\s*)', body)
                def arg(n):
                    i, rest = 0, n[0].split('.')[1:]
                    got = count_of(rest, 0)
                    return '.'.join(['l', params[f][got[0]]] + rest[got[1]:])
                inner = re.sub(r'(?<![^\s(){};,@"])%s(?:\.\w+)+' % c[1], arg, body[c.end():])
                invariants.append('abbrev pub decreases-%s : goal.decreases-%s\ndecreases-%s l =%s%s' % (f, f, f, c[2], inner))
                continue
            if re.match(r'abbrev \S+-(?:at|below|of) : ', sig):
                continue
            m = re.match(r'(?:abbrev )?(\S+) : (?:\(t : ℕ\) → )?(?:\S+-lts)\.(?:(Need)-(\S+)|(invariant|decreases|InvT|MeasureT)-(\S+))', sig)
            alias = re.search(r' (\S+)-lts\.', sig)
            fn = fns[of_alias[alias[1]]] if m else None
        else:
            m = re.match(r'(?:abbrev )?(\S+) : tie\.(?:(Need)-(\S+)|(invariant|decreases|InvT|MeasureT)-(\S+))', sig)
            fn = fns['']
        if not m:
            if re.match(r'(?:pub )?\S*[-_]spec : ', sig):
                continue
            if re.match(r'(?:abbrev |pub )?\S+ : ', sig) and 'tie.' not in sig:
                answers.append(part)
            else:
                said.append('left out: ' + sig[:100])
            continue
        name = m[1]
        if m[2]:
            need = norm(m[3])
            need = re.sub(r'^overflow-', '', need)
            goal = fn.goal.get(need) or fn.goal.get(re.sub(r'^slice-bounds-', 'part-', need))
            if goal is None:
                if not any(norm(s) == need for s in fn.settled):
                    said.append('no goal for %s' % m[3])
                continue
            new, place = goal
            if new.startswith('shape_of-'):
                continue
            if opened is not None and fn.stem + new not in opened:
                continue
            lines = body.split('\n')
            unf = [l for l in lines if l.startswith('unfolding ')]
            rest = '\n'.join(l for l in lines if not l.startswith('unfolding '))
            c = re.match(re.escape(name) + (r' t' if cycle else '') + r' (\S+)((?: [^\s=]+)*) =(\s*)', rest)
            if not c:
                said.append('a clause of another form: ' + rest[:80])
                continue
            var, more = c[1], c[2].replace(' κs', '')
            inner = rewrite(fn, rest[c.end():], place, said, imported, var)
            # A test of `!x` says of x itself what it says.
            atom = r'(?:[^\s()]+|\((?:[^()]|\([^()]*\))*\))'
            inner = re.sub(r'not[-_](?:true|false)(?:_lem)? %s (c\.(?:if|loop)\S*-not-\S*\.(?:true|false))(?![^\s(){};,])' % atom, r'\1', inner)
            inner = re.sub(r'\((c\.[^\s()]+)\)', r'\1', inner)
            if inner.strip() == 'search rules' and not unf:
                continue
            full = fn.stem + new
            answers.append('\n'.join(['pub %s : goal.%s' % (full, full)] + unf + ['%s %sc%s =%s%s' % (full, 't ' if cycle else '', more, c[3] if c[3] else ' ', inner)]))
        else:
            loop = fn.loops.get(norm(m[5]))
            if loop is None:
                said.append('no loop %s' % m[5])
                continue
            new, variables, changed = loop
            kind = 'invariant' if m[4] in ('invariant', 'InvT') else 'decreases'
            c = re.match(re.escape(name) + r'((?: \S+)*) =(\s*)', body)
            args = c[1].split()
            inner = body[c.end():]
            want = ['l.initial.' + v if ch else 'l.' + v for v, ch in zip(variables, changed)] + ['l.' + v for v, ch in zip(variables, changed) if ch]
            if len(want) != len(args):
                said.append('loop %s has %d arguments, not %d' % (new, len(want), len(args)))
            table = dict(zip(args, want))
            inner = re.sub(r'(?<![^\s(){};,@"])(%s)' % NAME, lambda m: table.get(m[1], m[0]), inner)
            full = kind + '-' + fn.stem + new
            invariants.append('abbrev pub %s : goal.%s\n%s l =%s%s' % (full, full, full, c[2] if c[2] else ' ', inner))

    def used(lines, text):
        kept = []
        for l in lines:
            m = re.match(r'use (\S+?)\.?\{(.*)\}', l)
            if not m:
                kept.append(l)
                continue
            names = [n.strip() for n in m[2].split(',')]
            def stands(n):
                n = n.split(' as ')[-1].strip()
                if '◌' in n:
                    return all(p in text for p in n.split('◌') if p)
                return re.search(r'(?<![^\s(){}.;,@"«»←])%s(?![^\s(){}.;,@"«»])' % re.escape(n), text)
            names = [n for n in names if stands(n)]
            if names:
                kept.append('use %s.{%s}' % (m[1], ', '.join(names)))
        return kept

    if invariants:
        body = '\n\n'.join(invariants)
        with open(path + '/Invariants.antt', 'w', encoding='utf-8') as it:
            it.write('\n'.join(note + used(uses, body) + ['use Rattle.%s.proofs.%s.Given as goal' % (crate, module), '']) + '\n' + body + '\n')
    if answers:
        body = '\n\n'.join(answers)
        body = body.replace('to_z-of_z (search', 'to_z-of_z {w = w64} (search')
        uses += [] if any(re.search(r'[{ ]w64[,}]', l) for l in uses) else ['use Rattle.std.proofs.Common.{w64}']
        extra = ['use borrow.Author.Rules.{rules}'] if re.search(r'\brules\b', body) else []
        with open(path + '/Answers.antt', 'w', encoding='utf-8') as it:
            it.write('\n'.join(note + extra + used(uses, body) + ['use Rattle.%s.proofs.%s.Goals as goal' % (crate, module), '']) + '\n' + body + '\n')
    os.rename(path + '/Proof.antt', path + '/Proof.old')


def main():
    args = [a for a in sys.argv[1:]]
    opened = None
    if '--open' in args:
        i = args.index('--open')
        log = open(args[i + 1]).read()
        del args[i:i + 2]
        opened = {}
        for m in re.finditer(r'(?m)^note: `([^`]+)` of (?:\./)?proofs/(\S+)/Answers\.antt must prove', log):
            opened.setdefault(m[2], set()).add(m[1])
        for m in re.finditer(r'(?m)^fn \S+: no proof: expected answers in (?:\./)?proofs/(\S+)/(?:Answers|Invariants)\.antt; (.*)$', log):
            opened.setdefault(m[1], set()).update(re.findall(r'`([^`]+)`', m[2]))
    crate = args[0]
    names = json.load(open(args[1])) if len(args) > 1 and args[1].endswith('.json') else load(crate)
    top = 'crates/%s/proofs' % crate
    for folder, dirs, files in os.walk(top):
        if 'Proof.antt' not in files:
            continue
        module = folder[len(top) + 1:].replace('/', '.')
        start = 'Rattle-%s-proofs.%s.Lts' % (crate, module)
        fns = {k[len(start):].lstrip('-'): Function(entry) for k, entry in names.items() if k == start or k.startswith(start + '-')}
        if not fns:
            print('%s: no entry, left' % module)
            continue
        said = []
        convert(crate, folder, fns, opened.get(folder[len(top) + 1:], set()) if opened is not None else None, said)
        for s in said:
            print('%s: %s' % (module, s))


main()
