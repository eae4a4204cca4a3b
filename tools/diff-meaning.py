#!/usr/bin/env python3
"""Scripts answered by the Rust oracle, written out as one theorem over the definitions of crates/meaning: the answers to
   every command, and the tables after the last.
   tools/diff-meaning.py ORACLE CASES SEED > crates/meaning/proofs/Oracle.antt
   ORACLE: the oracle's binary; CASES: the folder of its hand-written cases; SEED: of the generator,
   2 in the file that stands there; the file's first line says it."""
import os, re, subprocess, sys
oracle, cases, seed = sys.argv[1], sys.argv[2], sys.argv[3]
CASES = ['13-links', '14-refusal-order', '15-room', '16-log-rows', '17-owner-depth', '18-nesting', '19-reserve-given-back',
         '20-branches-never-taken', '21-queue-order', '22-switch-before-read', '25-formulas', '26-reads-in-order',
         '27-made-in-a-batch', '28-ran-and-gone', '29-owner-first-by-order', '30-read-in-a-batch']
# where order shows: a walk goes in before it goes on; a climb over two owners, up to a scope, and of three effects
ORDERED = ['1 0; 2 2 0; 3 -1 2 1; 3 -1 2 0; 5 0 4', '1 0; 1 0; 3 -1 2 0; 3 2 1 7; 3 3 2 1; 9; 5 1 9; 5 0 4; 10',
           '1 0; 1 0; 3 -1 2 0; 4 2; 3 3 2 1; 9; 5 1 9; 5 0 4; 10', '1 0; 1 0; 1 0; 3 -1 2 0; 3 3 2 1; 3 4 2 2; 9; 5 2 9']
ROOMS = [(12, 28, 60, 3), (9, 14, 30, 2), (16, 60, 90, 8), (10, 20, 25, 1)]
MOST_WORDS, EACH = 300, 5          # of a script; scripts of each room
ask = lambda flags, text: subprocess.run([oracle] + flags, input=text.encode('latin-1'), capture_output=True, check=True).stdout.decode('latin-1')
flags_of = lambda r: [str(x) for f, v in zip(('--nodes', '--links', '--cells', '--rows'), r) for x in (f, v)]

def pairs(text):
    lines = text.split('\n')
    return [[int(lines[i][4:])] + [int(w) for w in lines[i + 1][5:].split()] for i in range(0, len(lines) - 1, 2)]

def answers(text):
    told, dump = [], None
    for line in text.split('\n'):
        key, _, value = line.partition('=')
        if key == 'code': told.append([int(value), 0, []]); dump = {'node': []}
        elif key == 'value': told[-1][1] = int(value)
        elif key == 'run': e, v = value.split(':'); told[-1][2].append((int(e), int(v)))
        elif key in ('depth', 'cycle'): dump[key] = int(value)
        elif key == 'queue': dump['queue'] = [int(x) for x in value.split(',') if x]
        elif key == 'node': dump['node'].append(dict(f.split('=') for f in value.split()[1:]))
    return told, dump

Z = lambda v: 'pos %d' % v if v >= 0 else 'negsuc %d' % (-v - 1)
V = lambda v: 'value (%s)' % Z(int(v))
L = lambda xs: ' ∷ '.join(list(xs) + ['[]'])
P = lambda xs: '(' + L(xs) + ')' if list(xs) else '[]'
O = lambda v: 'none' if v == 'none' else 'some (%s)' % V(v)
E = lambda t: P(['(%s, %s)' % tuple(x.split(':')) for x in t.split(',') if x])

def written(i, room, words, told, dump):
    ws = '    ∷ '.join('(%s)\n' % L(map(Z, w)) for w in words)
    ts = '    ∷ '.join('(%d, %s, %s)\n' % (c, V(v), P(['(%d, %s)' % (e, V(w)) for e, w in rs])) for c, v, rs in told)
    ns = P(['(%s, %s, %s, %s, %s)' % (n['flags'], O(n['value']), O(n['pending']), E(n['deps']), E(n['subs'])) for n in dump['node']])
    return ('abbrev script%d : Script\nscript%d = script %d %d %d %d\n    (%s    ∷ [])\n    (%s    ∷ [])\n    (%d, %d, %s, false, %s)\n'
            % ((i, i) + room + (ws, ts, dump['depth'], dump['cycle'], P(list(map(str, dump['queue']))), ns)))

found = []
for name in CASES:
    path = os.path.join(cases, name)
    flags = open(path + '.flags').read().split() if os.path.exists(path + '.flags') else []
    given = dict(zip(flags[::2], flags[1::2]))
    room = tuple(int(given.get(f, d)) for f, d in (('--nodes', 256), ('--links', 1024), ('--cells', 2048), ('--rows', 256)))
    text = open(path + '.in').read()
    found.append((room, pairs(text), *answers(ask(flags_of(room) + ['--dump'], text))))
for script in ORDERED:
    text = ''.join('cmd=%s\nargs=%s\n' % c.partition(' ')[::2] for c in script.split('; '))
    found.append((ROOMS[0], pairs(text), *answers(ask(flags_of(ROOMS[0]) + ['--dump'], text))))
for room in ROOMS:
    text = ask(flags_of(room) + ['--generate', seed, '400', '40'], '')
    some = []
    for words_text, answer in zip(re.split('^%(?:cut)?\n', text, flags=re.M), ask(flags_of(room) + ['--many', '--dump'], text).split('%\n')):
        try: words = pairs(words_text)
        except (ValueError, IndexError): continue      # a pair that cannot be read
        told, dump = answers(answer)
        if 'cycle' in (dump or {}) and len(words) == len(told) and sum(map(len, words)) <= MOST_WORDS:
            some.append((sum(3 * len(rs) for _, _, rs in told) + sum(c > 2 for c, _, _ in told) + dump['cycle'], (room, words, told, dump)))
    found += [s for _, s in sorted(some, key=lambda x: -x[0])[:EACH]]

print(open(os.path.join(os.path.dirname(sys.argv[0]), 'diff-meaning-head.txt')).read().replace('diff-meaning.py.', 'diff-meaning.py with seed %s.' % seed, 1))
for i, s in enumerate(found): print(written(i, *s))
print('abbrev scripts : List Script\nscripts = %s\n' % L('script%d' % i for i in range(len(found))))
print('all-agree : Agree scripts\n' + open(os.path.join(os.path.dirname(sys.argv[0]), 'diff-meaning-unfolding.txt')).read().rstrip())
print('all-agree = ' + '(refl, ' * len(found) + 'tt' + ')' * len(found) + '\n\npub all-played : Played scripts\nall-played = agree-played scripts all-agree')
counts = {}
for _, _, told, _ in found:
    for c, _, _ in told: counts[c] = counts.get(c, 0) + 1
sys.stderr.write('%d scripts, %d commands; by refusal number: %s; runs: %d\n' % (len(found), sum(counts.values()), dict(sorted(counts.items())), sum(len(rs) for _, _, t, _ in found for _, _, rs in t)))
