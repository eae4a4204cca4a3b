#!/usr/bin/env python3
"""answers.py: has the promise of every public function one answer? Counts what is shown, and names what is not.
A function that another crate can name: a theorem of crates/tight/proofs, `pub one_NAME : OneAnswer KINDS.ps KINDS.r READS.Learnt`, where KINDS and
READS are the function's own modules, and Learnt is what its contract tells a caller, as the checker reads it; that it holds is the checker's
word, this only finds it. A generic function has it at each type: the three take the type and what is known of it. So has a method of a trait of
ours, at each of its impls, and a method of a library's impl of a trait of others, as `from`. One that no other crate can name, as the exports of
a static library, or of a crate that reaches the system: by the form of its contract, an equation for the answer and for each `&mut`; or by a law
of crates/tight/proofs/Rings.antt. An exception stands in docs/ONE-ANSWER.md, with its reason.
`answers.py CRATE` prints the theorems of a crate, as they are proved where the contract is an equation."""
import os
import re
import sys

BUILDERS = {}  # record builders of the definitions: name -> fields in order
SHOWN = {}  # of a method of an impl of a trait of others: the type, by which a page names it


def builders():
    for crate in listed():
        folder = 'crates/%s/specs' % crate
        for f in sorted(os.listdir(folder)) if os.path.isdir(folder) else []:
            text = open(os.path.join(folder, f), encoding='utf-8').read()
            for m in re.finditer(r"^abbrev pub ([\w']+) :[^\n]*\n([\w']+) ([\w' ]+?) =\s+record \{\s*([^}]*?)\s*\}", text, re.M):
                args = m.group(3).split()
                fields = dict((v.strip(), k.strip()) for k, v in (p.split('=', 1) for p in m.group(4).split(';') if '=' in p))
                if m.group(1) == m.group(2) and all(a in fields for a in args):
                    BUILDERS[crate, m.group(1)] = [fields[a] for a in args]


def listed():
    return [l.split(':')[0].split()[0] for l in open('crates.txt', encoding='utf-8') if l.split('#')[0].strip()]


def is_static(crate):
    return any(re.match(r'%s +staticlib\b' % crate, l) for l in open('crates.txt', encoding='utf-8'))


def functions(crate):
    """(module, type, name, head) of each public function; head: parameters, result and clauses."""
    src = 'crates/%s/src' % crate
    for f in sorted(os.listdir(src)):
        text = re.sub(r'//[^\n]*', '', open(os.path.join(src, f), encoding='utf-8').read())
        impls = [(m.start(), m.group(1)) for m in re.finditer(r'^impl(?:<[^>]*>)? (\w+)', text, re.M)]
        ends = [m.start() for m in re.finditer(r'^\}', text, re.M)]
        for m in re.finditer(r'\bpub\s+(?:extern\s+"C"\s+)?fn\s+(\w+)', text):
            of = [t for at, t in impls if at < m.start() < min(e for e in ends if e > at)]
            i, depth, head = m.end(), 0, ''
            while i < len(text):
                if text[i] == '{':
                    if depth == 0 and not re.search(r'(requires|ensures|ghost)(\s+\w+)?\s*$', head.rstrip()):
                        break
                    depth += 1
                elif text[i] == '}':
                    depth -= 1
                head += text[i]
                i += 1
            stem = f[:-3]
            yield ([] if stem in ('lib', 'main') else [stem]), of, m.group(1), re.sub(r'\s+', ' ', head).strip(), text
        for m in re.finditer(r'^impl (\w+) for (\w+) \{$(.*?)^\}', text, re.M | re.S):
            trait = re.search(r'^pub trait %s\b.*?^\}' % m.group(1), text, re.M | re.S)
            for name in re.findall(r'^    fn (\w+)', m.group(3), re.M) if trait else []:
                head = re.search(r'fn %s\b(.*?);$' % name, trait.group(0), re.M | re.S).group(1)
                stem = f[:-3]
                yield [stem], [m.group(2).capitalize() + m.group(1)], name, re.sub(r'\s+', ' ', head).strip(), text
        # an impl of a trait of others, as From: what it promises is the trait's clause, with the ghost members that stand in the impl
        for m in re.finditer(r'^impl(?:<[^>]*>)? (?:\w+::)*(\w+)(<.*>)? for (\w+)(?:<[^>]*>)? \{$(.*?)^\}', text, re.M | re.S):
            if re.search(r'^pub trait %s\b' % m.group(1), text, re.M) or not os.path.isfile(src + '/lib.rt'):
                continue
            stem = f[:-3]
            of = m.group(3)[0].upper() + m.group(3)[1:] + m.group(1) + re.sub(r'\W', '', m.group(2) or '')
            for name in re.findall(r'^    fn (\w+)', m.group(4), re.M):
                SHOWN[crate, of, name] = m.group(3)
                yield ([] if stem in ('lib', 'main') else [stem]), [of], name, '', text


def exported(crate, module):
    """whether another crate can name what stands in the module."""
    if is_static(crate):
        return False
    root = open('crates/%s/src/lib.rt' % crate, encoding='utf-8').read()
    return not module or re.search(r'^pub mod %s;' % module[0], root, re.M) is not None


def path(crate, module, of, name):
    return 'Rattle.%s.proofs.%s' % (crate, '.'.join(module + of + [name]))


def alias(module, of, name):
    kind = [m.group(1).lower() for t in of for m in [re.match(r'([UI]\d+)[A-Z]', t)] if m]  # the type that a trait is for
    return '_'.join(module + kind + [name])


# ---- printing the theorems of a crate
def split_args(text):
    out, depth, cur = [], 0, ''
    for c in text:
        depth += c in '([{<'
        depth -= c in ')]}>' and not cur.endswith('-')
        if c == ' ' and depth == 0:
            if cur:
                out.append(cur)
            cur = ''
        else:
            cur += c
    return out + ([cur] if cur else [])


def whole(term):
    while term.startswith('(') and term.endswith(')') and len(split_args(term)) == 1:
        term = term[1:-1].strip()
    return term


def parts(crate, term, at, found):
    """where in the record that a clause speaks of each of its parts stands: found[part] = path of fields."""
    term = whole(term)
    words = split_args(term)
    if re.fullmatch(r'result(\.\w+)*|\w+\.new', term):
        found[term] = at
        return True
    for (c, name), fields in sorted(BUILDERS.items(), key=lambda b: b[0][0] != crate):
        if name == words[0] and len(fields) == len(words) - 1:
            for a, f in zip(words[1:], fields):
                parts(crate, a, at + [f], found)
            return True
    return False


def sides(claim):
    depth = 0
    for i, c in enumerate(claim):
        depth += c in '(['
        depth -= c in ')]'
        if c == '≡' and depth == 0:
            return claim[:i].strip(), claim[i + 1:].strip()
    return None


def clauses(head):
    """the text of each `ensures`."""
    found = []
    for m in re.finditer(r'ensures\s*\w*\s*\{', head):
        i, depth = m.end(), 1
        while depth:
            depth += (head[i] == '{') - (head[i] == '}')
            i += 1
        found.append(head[m.end():i - 1].strip())
    return found


def claims(head):
    """(proof of the equation from p and from q, left side) for each equation of the clauses."""
    bodies = [whole(b) for b in clauses(head)]
    out = []
    for k, body in enumerate(bodies):
        at = '' if len(bodies) == 1 else '.0' if k == 0 else '.1'
        if len(bodies) > 2:
            return None
        m = re.fullmatch(r'\((\w) : List [ℕℤ]\) → (.*)', body)
        if m:
            body, use = m.group(2), '%s []'
        else:
            use = '%s'
        pair = re.fullmatch(r'\((.*)\) × \((.*)\)', body)
        for j, part in enumerate([pair.group(1), pair.group(2)] if pair else [body]):
            two = sides(part)
            if not two or re.search(r"\.new\b|(?<![\w.'])result(?![\w'])", two[1]):
                return None
            where = at + ('.%d' % j if pair else '')
            out.append((use % ('p' + where), use % ('q' + where), two[0]))
    return out


def proof(crate, module, head, text):
    got = claims(head)
    if not got:
        return None
    m = re.match(r"(?:<[^>]*>)?\((.*?)\) ?(?:-> ([&'\w\[\]<>, ]+?) )?ensures", head)
    if not m:
        return None
    params = [x.strip() for x in m.group(1).split(',') if x.strip()]
    answers = m.group(2)
    found, lets = {}, []
    for k, (p, q, left) in enumerate(got):
        e = 'e' if len(got) == 1 else 'e%d' % (k + 1)
        mine = {}
        if not parts(crate, left, [], mine):
            return None
        lets.append('let %s = %s ∙ sym %s in' % (e, '(%s)' % p if ' []' in p else p, '(%s)' % q if ' ' in q else q))
        for part, fields in mine.items():
            found[part] = ('(%s i)' % e if fields else '%s i' % e) + ''.join('.' + f for f in fields)
    if answers is None:
        first = 'refl'
    elif 'result' in found:
        first = 'λ i. ' + found['result']
    elif 'result.now' in found:  # a part of what was lent: its words
        first = 'λ i. ' + found['result.now']
    else:
        fields = sorted(x for x in found if x.startswith('result.'))
        struct = re.search(r'pub struct %s \{(.*?)\}' % answers, ''.join(open(os.path.join(d, f), encoding='utf-8').read() for d in ['crates/%s/src' % c for c in listed()] for f in os.listdir(d)), re.S)
        if not struct:
            return None
        want = [f.split(':')[0].replace('pub', '').strip() for f in re.sub(r'//[^\n]*', '', struct.group(1)).split(',') if f.strip()]
        if sorted('result.' + w for w in want) != fields:
            return None
        first = 'λ i. record { %s }' % '; '.join('%s = %s' % (w, found['result.' + w]) for w in want)
    muts = [(x.split(':')[0].replace('&mut self', 'self').strip(), '&mut' in x) for x in params]
    if not any(b for _, b in muts):
        second = 'refl'
    else:
        if any(b and n + '.new' not in found for n, b in muts):
            return None
        second = 'tt'
        for n, b in reversed(muts):
            second = '(%s, %s)' % (found[n + '.new'] if b else 'tt', second)
        second = 'λ i. ' + second
    return lets, first, second


def write(crate):
    uses, lines, left = [], [], []
    for module, of, name, head, text in functions(crate):
        if not exported(crate, module):
            continue
        x = alias(module, of, name)
        made = proof(crate, module, head, text)
        uses += ['use %s.Kinds as %s_kinds' % (path(crate, module, of, name), x), 'use %s.Reads as %s' % (path(crate, module, of, name), x)]
        lines += ['', 'pub one_%s : OneAnswer %s_kinds.ps %s_kinds.r %s.Learnt' % (x, x, x, x)]
        if made is None:
            left.append(x)
            lines += ['one_%s κs a x y v w p q = ?' % x]
            continue
        lets, first, second = made
        pair = '(%s, %s)' % (first, second)
        if lets == ['let e = p ∙ sym q in']:
            pair = pair.replace('λ i. e i, refl', 'p ∙ sym q, refl')
            if len(re.findall(r'\be i\b', pair)) == 1:
                pair = re.sub(r'\be i\b', '(p ∙ sym q) i', pair)
            if not re.search(r'\be i\b', pair):
                lines += ['one_%s κs a x y v w p q = %s' % (x, pair)]
                continue
        lines += ['one_%s κs a x y v w p q =' % x] + ['    ' + l for l in lets] + ['    ' + pair]
    print('-- The promise of each public function of `%s` has one answer. Assumes nothing.' % crate)
    print('use mathlib.Core.Path.{refl, sym, ◌∙◌}')
    if any('[]' in l for l in lines):
        print('use Rattle.std.specs.Prelude.{[]}')
    print('use Rattle.tight.specs.OneAnswer.{OneAnswer}')
    print('\n'.join(uses + lines))
    for x in left:
        print('by hand: ' + x, file=sys.stderr)


# ---- counting
SYSTEM = ('stream', 'simmer', 'trace')


# what a generic function takes: a type with its laws and the members of its bounds, or a number that fits a word; no other premise
ITS_TYPE = r'\(\w+ : (?:RattleType|ℕ)\)(?: \(\w+ : (?:(?:Laws|IsCopy) \w+|Fits w64 \w+|[\w.]*Ghosts \w+\.Denot|Dict)\))+'


def theorem(crate, module, of, name):
    file = 'crates/tight/proofs/Of%s.antt' % crate.capitalize()
    text = open(file, encoding='utf-8').read() if os.path.isfile(file) else ''
    uses = dict(re.findall(r'^use (\S+) as (\S+)$', text, re.M))
    where = path(crate, module, of, name)
    kinds, reads = uses.get(where + '.Kinds'), uses.get(where + '.Reads')
    names = tuple(map(re.escape, (alias(module, of, name), kinds or '', kinds or '', reads or '')))
    typed = '(?:%s_)?' % '_'.join(t.lower() for t in of)  # where a free function has the method's name
    x = r'[\w-]+' if of and (crate, of[0], name) in SHOWN else names[0]  # KINDS and READS say which
    plain = r'OneAnswer\s+%s\.ps\s+%s\.r\s+%s\.Learnt' % names[1:]
    generic = ITS_TYPE + r' → OneAnswer \(%s\.ps [\w ]+\) \(%s\.r [\w ]+\) \(%s\.Learnt [\w ]+\)' % names[1:]
    stated = r'^pub one_%s%s(?:_lem)? :\s+(?:%s|%s)$' % (typed, x, plain, generic)
    return bool(kinds and reads and re.search(stated, text, re.M))


def ring_law(head, laws):
    bodies = clauses(head)
    muts = re.findall(r'(\w+): &mut', head)
    return len(bodies) == 1 and re.search(r'^pub %s_one :' % re.escape(bodies[0].split()[0].lower()), laws, re.M) is not None and all(m + '.new' in bodies[0] for m in muts)


def count():
    if 'tight' not in listed():
        print('one answer: not counted in a part of the repository without the crate tight')
        return 0
    laws = open('crates/tight/proofs/Rings.antt', encoding='utf-8').read()
    page = 'docs/ONE-ANSWER.md'
    excused = set(re.findall(r'^\| `(\w+(?:::\w+)+)` \|', open(page, encoding='utf-8').read(), re.M)) if os.path.isfile(page) else set()
    shown = formed = ringed = 0
    seen, bad = set(), []
    for crate in listed():
        for module, of, name, head, text in functions(crate):
            full = '::'.join([crate] + module + [SHOWN.get((crate, t, name), t) for t in of] + [name])
            if crate not in SYSTEM and exported(crate, module):
                if theorem(crate, module, of, name):
                    shown += 1
                    continue
            elif proof(crate, module, head, text) is not None:
                formed += 1
                continue
            elif crate not in SYSTEM and ring_law(head, laws):
                ringed += 1
                continue
            if full in excused:
                seen.add(full)
            else:
                bad.append('nothing shows that its promise has one answer: ' + full)
    bad += ['excused, and not needed: ' + e for e in sorted(excused - seen)]
    for line in bad:
        print(line)
    print('one answer: %d public functions by theorem, %d by form, %d by a law of the rings; %d exceptions; %d without' % (shown, formed, ringed, len(seen), len(bad)))
    return 1 if bad or not shown else 0


if __name__ == '__main__':
    builders()
    for c in sys.argv[1:]:
        write(c)
    if len(sys.argv) == 1:
        sys.exit(count())
