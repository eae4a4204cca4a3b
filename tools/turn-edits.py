#!/usr/bin/env python3
"""Brings the must-fail edits of the older Rattle to today's text, each under its own name and with the same wrong meaning.

usage: tools/turn-edits.py [--write]     at the top of the repository; the older text is the commit of docs/PORT.md's first line

Of each edit it takes the old form and the file that this form changes, as both stood at that commit. It aligns the old file with today's, and
learns from the lines that stand beside one another which name of today stands for which old one: from this file first, then from this crate, then
from all. Then it spells both texts anew. An edit is placed if each `old:` stands once in today's file, behind the pairs before it, on the very
line that stands for the old one; then `new:` is that text with the same names. What it cannot place it prints and leaves as it is, so those
are turned by hand.
"""
import collections
import difflib
import os
import re
import subprocess
import sys

WORD = re.compile(r"[^\W\d][\w'′-]*")
FILE = re.compile(r'file: (\S+)')


def git(*words):
    return subprocess.run(['git'] + list(words), capture_output=True, text=True, check=True).stdout


def read(path):
    with open(path, encoding='utf-8') as it:
        return it.read()


def pairs(text):
    """The pairs of an edit: file, old text, new text."""
    found, file, old = [], None, None
    for line in text.split('\n'):
        if line.startswith('file: '):
            file = line[6:].strip()
        elif line.startswith('old: '):
            old = line[5:]
        elif line.startswith('new:'):
            found.append((file, old, line[5:]))
    return found


def shaped(text):
    """The text in today's shape, with the old names: paths, tight projections, operators in imports."""
    text = re.sub(r'Rattle·(\w+)(?:·specs)?\.specs', r'Rattle.\1.specs', text)
    text = re.sub(r'(^|[({;,]|(?:[=≡→+<≤×∷↦*/&|:ℤ-]|\bin|\blength|\bvalue) )(\w+)((?: \.\w+)+)', lambda m: m[1] + m[2] + m[3].replace(' ', ''), text)
    text = re.sub(r'(?:(?<= )|^)\((\w+(?:\.\w+)+)\)', r'\1', text)
    while call := re.search(r' (\.\w+)\)', text):
        open_at, depth = call.start(), 1
        while depth:
            open_at -= 1
            depth += {')': 1, '(': -1}.get(text[open_at], 0)
        text = text[:call.start()] + ')' + call[1] + text[call.end():]
    return re.sub(r'\b_([^\w\s]+)_(?=[},])', r'◌\1◌', text)


def spelled(text, names):
    return WORD.sub(lambda m: names(m[0]), text)


def alike(a, b):
    """Which line of b stands for which of a."""
    key = lambda line: re.sub(r"[\W_]", '', line).lower()
    at = {}
    for tag, i, j, k, m in difflib.SequenceMatcher(None, [key(x) for x in a], [key(x) for x in b], autojunk=False).get_opcodes():
        if tag == 'equal' or (tag == 'replace' and j - i == m - k):
            at.update(zip(range(i, j), range(k, m)))
        elif tag == 'replace':
            for x in range(i, j):
                near = max(range(k, m), key=lambda y: difflib.SequenceMatcher(None, a[x], b[y], autojunk=False).ratio())
                if difflib.SequenceMatcher(None, a[x], b[near], autojunk=False).ratio() > 0.6:
                    at[x] = near
    return at


start = read('docs/PORT.md').split('\n')[0].strip()
old_files = {}


def old_file(path):
    if path not in old_files:
        old_files[path] = git('show', start + ':' + path)
    return old_files[path]


edits = git('ls-tree', '-r', '--name-only', start, 'crates').split()
sources = [f for f in edits if f.endswith('.rt') or (f.endswith('.antt') and f.split('/')[2] == 'specs')]
edits = [f for f in edits if f.endswith('.edit')]

# names[path], names[crate] and names['']: which words of today stand for an old one
names = collections.defaultdict(lambda: collections.defaultdict(collections.Counter))
lines = {}
for path in sources:
    if not os.path.isfile(path):
        continue
    a, b = shaped(old_file(path)).split('\n'), read(path).split('\n')
    lines[path] = alike(old_file(path).split('\n'), b)
    for i, j in lines[path].items():
        x, y = WORD.findall(shaped(a[i])), WORD.findall(b[j])
        if len(x) == len(y):
            for old, new in zip(x, y):
                for where in (path, path.split('/')[1], ''):
                    names[where][old][new] += 1

left = turned = same = 0
for edit in edits:
    crate = edit.split('/')[1]
    here, then, out, why = {}, {}, [], None

    for file, old, new in pairs(git('show', start + ':' + edit)):
        path = 'crates/%s/%s' % (crate, file)
        was = then.get(path, old_file(path))
        now = here.get(path, read(path))

        def name(word):
            for where in (path, crate, ''):
                if names[where].get(word):
                    return names[where][word].most_common(1)[0][0]
            return word

        library = re.fullmatch(r'use (?:mathlib|lib|Prim)\.[\w.]+\{(.*)\}', old)
        if library:
            # the names that it adds to an import of the old libraries are added to today's one import of std
            found = re.findall(r'use Rattle\.std\.specs\.Prelude\.\{[^,}]*', now)
            head, first = 'use Rattle.std.specs.Prelude.{', found[0]
            added = [spelled(shaped(x), name) for x in new.split('{')[1][:-1].split(', ') if x not in library[1].split(', ')]
            item, inside = ', '.join(re.sub(r'^_(\S+)_$', r'◌\1◌', x) for x in added), now.split(head)[1].split('}')[0].split(', ')
            if len(found) != 1 or item in inside:
                why = 'std is not imported once, or has it'
            more = first.replace(head, head + item + ', ')
            out.append((file, first, more))
            here[path], then[path] = now.replace(first, more), was.replace(old, new)
            continue
        row = old_file(path).split('\n').index(was.split('\n')[was.count('\n', 0, was.index(old))]) if old in was else None
        old_now, new_now = spelled(shaped(old), name), spelled(shaped(new), name)
        if row is None or row not in lines[path]:
            why = 'no line of today stands for its line'
        elif now.count(old_now) != 1:
            why = 'its old text stands %d times' % now.count(old_now)
        elif old_now not in read(path).split('\n')[lines[path][row]]:
            why = 'its old text stands on another line'
        elif re.search(r' \.\w', new_now):
            why = 'a projection of a call in its new text'
        out.append((file, old_now, new_now))
        if why:
            print('%s: %s' % (edit, why))
            print('    was  %s' % old)
            print('    then %s' % old_now)
            break
        then[path], here[path] = was.replace(old, new), now.replace(old_now, new_now)

    if why:
        left += 1
        continue
    text = git('show', start + ':' + edit).split('\n')
    queue = iter(out)
    for i, line in enumerate(text):
        if line.startswith('old: '):
            this = next(queue)
            text[i] = 'old: ' + this[1]
        elif line.startswith('new:'):
            text[i] = 'new: ' + this[2]
    text = '\n'.join(text)
    if text == read(edit):
        same += 1
    else:
        turned += 1
        if '--write' in sys.argv:
            with open(edit, 'w', encoding='utf-8') as it:
                it.write(text)
        else:
            print('%s:\n%s' % (edit, text))
print('%d edits: %d stand as they are, %d turned, %d left' % (len(edits), same, turned, left))
