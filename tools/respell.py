#!/usr/bin/env python3
"""Spells the definitions, lemmas and fields of this repository as today's Rattle does: words in snake case, types and modules in camel case.

usage: tools/respell.py [--check]     at the top of the repository, once, behind port.py

A name that specs/ or proofs/*.antt declare turns: `isLive` to `is_live`, `walk-start` to `walk_start`. A dash stays between two names that
are both declared or are both words of a library, as in `tab-length`. A lemma that would have a definition's name gets
`_lem`, and is listed. It goes by whole words: in .antt files and must-fail edits everywhere but in quoted text, in .rt files in clauses and
comments, in pages between backquotes.
"""
import collections
import glob
import os
import re
import sys

WORD = re.compile(r'[^\s(){}.;,@"«»]+')
MARKS = r'(?:(?:pattern|unfoldable|abbrev|pub|axiom|data|record|ruleset) )*'
DECLARED = re.compile(r'(?m)^ *' + MARKS + r'([^\s:(){}]+(?: [^\s:(){}]+)*?)(?: \{[^{}\n]*\})* :(?= |$)')
CLAUSE = re.compile(r'(?:requires|ensures)\s*\*?\s*(?:\w+\s*)?\{|ghost\s*(?:\w+\s*(?::\s*)?)?\{')


def read(path):
    with open(path, encoding='utf-8') as it:
        return it.read()


def bare(text):
    """The text without comments."""
    return re.sub(r'(?m)(?<![^\s(){}.;,@"«»])--.*$', '', text)


def snake(part):
    part = re.sub(r'(?<=[a-z0-9])([A-Z])(?![A-Z])', lambda m: '_' + m[1].lower(), part)
    return re.sub(r'(?<=[a-z0-9])([A-Z]+)', lambda m: '_' + m[1].lower(), part)


laws = sorted(f for f in glob.glob('crates/*/specs/*.antt') + glob.glob('crates/*/proofs/*.antt') if not f.endswith('/Lib.antt'))
antt = sorted(f for f in glob.glob('crates/*/specs/**/*.antt', recursive=True) + glob.glob('crates/*/proofs/**/*.antt', recursive=True) if '/out/' not in f)
rt = sorted(glob.glob('crates/*/src/**/*.rt', recursive=True))
edits = sorted(glob.glob('crates/*/must-fail/*.edit'))
pages = ['README.md', 'oracle/README.md', 'tools/README.md'] + sorted(glob.glob('docs/*.md'))
crates = {f.split('/')[1] for f in antt + rt}

declared, functions, everywhere, foreign = set(), set(), collections.Counter(), set()
for f in laws:
    text = bare(read(f))
    for found in DECLARED.finditer(text):
        for name in found[1].split():
            if name not in ('use', 'module', 'where', 'let', 'in', '→', '×'):
                declared.add(name)
        if '/specs/' in f:
            functions.update(found[1].split())
for f in antt:
    text = bare(read(f))
    if f in laws:
        everywhere.update(WORD.findall(re.sub(r'(?:[^\s(){},;]*\.)?proofs\.\S*', '', text)))
    for path, items in re.findall(r'(?m)^ *(?:pub )?use ([^\s{]+)\.?(\{[^}]*\})?', text):
        steps = path.strip('.').split('.')
        if not (steps[0] == 'Rattle' and len(steps) > 1 and steps[1] in crates):
            foreign.update(WORD.findall(items or '')), foreign.add(steps[-1])
code = set()
for f in rt:
    text = read(f)
    code.update(re.findall(r'(?:const|static|struct|enum|type) (\w+)', text))
    for body in re.findall(r'struct \w+ \{([^}]*)\}', text):
        code.update(re.findall(r'(?m)^ *(?:pub )?(\w+):', body))
    for path, items in re.findall(r'ghost use ([^\s{;]+)\.?(\{[^}]*\})?', text):
        steps = path.strip('.').split('.')
        if not (steps[0] == 'Rattle' and len(steps) > 1 and steps[1] in crates):
            foreign.update(WORD.findall(items or ''))

# Where the plain rule would make two names one, or one that a library has.
CHOSEN = dict(line.split() for line in '''
all_named all_named-written
allNamed all_named
begun_first begun_at_first
begunFirst begun_first
bit-or bit-bit_or
bit-and bit-bit_and
cell-words cells_long
cellWords cell_words_of
linkWords link_words_of
logWords log_words_of
nodeWords node_words_of
valueWords value_words_of
first-of is_first_of
from_first from_the_first
fromFirst from_first
goes_to goes_there
goesTo goes_to
in-turn told_in_turn
isLive is_live_slot
kind-of kind_of_word
made_by made_as
madeBy made_by
next-of next_of_chain
nextDep next_dep_of
prevDep prev_dep_of
nextSub next_sub_of
prevSub prev_sub_of
no-word no_word_brief
no_room no_room_left
noRoom no_room
node_in node_within
nodeIn node_in
number_word number_told
numberWord number_word
of_node of_a_node
ofNode of_node
owner_of owner_back
ownerOf owner_of
recursedCheck recursed_checking
step-of step_of_table
a-computed a_computed_row
a-signal a_signal_row
all-lower all_are_lower
deps-by deps_cases
first-in first_is_in
formula-of formula_of_written
height-of height_of_own
is-computed is_a_computed
no-reply without_reply
owner-is owner_is_word
readable-in readable_within
rests-at rests_there
updated-signal updated_the_signal
getD-entries get_or-entries
getD-queue get_or-queue
getD-reverse get_or-reverse
'''.split('\n') if line.strip())

stands = {snake(n) for n in functions if '-' not in n} | {n for n in foreign if re.fullmatch(r'[a-z_]+', n) and len(n) > 2} | {'length'}


def spelled(name):
    if not re.match(r'[a-z]', name):
        if '-' not in name and not re.search(r'[a-z][A-Z]', name):
            return name
        if re.fullmatch(r'[A-Z]\w*', name):
            return name
    parts = name.split('-')
    if '' in parts:
        return name
    turned = [p if re.match(r'[A-Z]', p) else snake(p) for p in parts]
    out = turned[0]
    for i in range(1, len(parts)):
        joins = re.search(r'[A-Z₀-₉]', parts[i - 1] + parts[i]) or not re.match(r'\w', parts[i]) or not re.search(r'\w$', parts[i - 1])
        out += ('-' if joins else '_') + turned[i]
    return out


table = {}
stay = []
for name in sorted(declared | set(CHOSEN)):
    new = CHOSEN.get(name) or spelled(name)
    if name in CHOSEN:
        if name in declared:
            table[name] = new
        continue
    if new == name:
        continue
    if name in foreign:
        stay.append((name, new, 'a library has it'))
        if '-' in name:
            table[name] = new + '_lem'
    elif new in declared or new in foreign or new in code:
        stay.append((name, new, 'the new name is taken'))
        if '-' in name:
            table[name] = new + '_lem'
    elif new in everywhere:
        stay.append((name, new, 'a binder has the new name'))
    else:
        table[name] = new
met = collections.defaultdict(list)
for old, new in table.items():
    met[new].append(old)
for new, olds in met.items():
    if len(olds) > 1:
        # The one with no dash goes first; the others keep dashes.
        olds.sort(key=lambda n: ('-' in n, n))
        for old in olds[1:]:
            stay.append((old, new, 'meets ' + olds[0]))
            table[old] = new + '_lem'


def turn(text):
    return WORD.sub(lambda m: table.get(m[0], m[0]), text)


def turn_antt(text):
    # What this file takes from a library keeps the library's spelling.
    taken = set()
    for path, items in re.findall(r'(?m)^ *(?:pub )?use ([^\s{]+)\.?(\{[^}]*\})?', bare(text)):
        steps = path.strip('.').split('.')
        if not (steps[0] == 'Rattle' and len(steps) > 1 and steps[1] in crates):
            taken.update(WORD.findall(items or ''))

    def turn(text):
        return WORD.sub(lambda m: table.get(m[0], m[0]) if m[0] not in taken else m[0], text)

    def line(l):
        code, mark, said = l, '', ''
        at = re.search(r'(?<![^\s(){}.;,@"«»])--', l)
        if at:
            code, said = l[:at.start()], l[at.start():]
        # A comment's word turns where the code has it.
        return turn(code) + re.sub(r'(?<![\w-])[a-z][\w\'-]*[\w\']', lambda m: table.get(m[0], m[0]) if m[0] in table and (m[0] in everywhere) and re.search(r'[A-Z]|`', m[0] + l[at.start():][max(0, m.start() - 1):m.start()]) else m[0], said)
    return '\n'.join(line(l) for l in text.split('\n'))


def clauses(text):
    """The places of clauses and imports, which are antt."""
    spans = [(m.start(), m.end()) for m in re.finditer(r'ghost use [^;]*;', text)]
    for m in CLAUSE.finditer(text):
        depth, i = 1, m.end()
        while depth and i < len(text):
            depth += {'{': 1, '}': -1}.get(text[i], 0)
            i += 1
        spans.append((m.end(), i - 1))
    return sorted(spans)


def turn_rt(text):
    out, last = [], 0
    for a, b in clauses(text):
        if a < last:
            continue
        out += [text[last:a], turn(text[a:b])]
        last = b
    out.append(text[last:])
    text = ''.join(out)
    return re.sub(r'(?m)(//.*)$', lambda m: re.sub(r"`([^`\n]+)`", lambda s: '`' + turn(s[1]) + '`', m[1]), text)


def turn_edit(text):
    """Words of the lines old and new; the file says which kind."""
    kind = re.search(r'(?m)^file: (\S+)', text)
    kind = kind[1] if kind else ''
    def line(l):
        if l.startswith(('old: ', 'new: ')):
            body = l[5:]
            if kind.endswith('.antt') or re.search(r'requires|ensures|ghost', body):
                return l[:5] + turn(body)
        return l
    return '\n'.join(line(l) for l in text.split('\n'))


def turn_page(text):
    return re.sub(r'`([^`\n]+)`', lambda m: '`' + turn(m[1]) + '`' if not m[1].startswith(('./', 'rt ', 'tests/', 'tools/')) else m[0], text)


def main():
    check = '--check' in sys.argv
    for kind, files, how in (('antt', antt, turn_antt), ('rt', rt, turn_rt), ('edits', edits, turn_edit), ('pages', pages, turn_page)):
        count = 0
        for f in files:
            if not os.path.isfile(f):
                continue
            old = read(f)
            new = how(old)
            if new != old:
                count += 1
                if not check:
                    with open(f, 'w', encoding='utf-8') as it:
                        it.write(new)
        print('%s: %d of %d files' % (kind, count, len(files)))
    print('%d names turn; %d meet another, and a lemma among them gets _lem:' % (len(table), len(stay)))
    for s in stay:
        print('meets: %s (would be %s): %s' % s)
    if '--table' in sys.argv:
        for old in sorted(table):
            print('%s\t%s' % (old, table[old]))


main()
