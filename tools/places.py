#!/usr/bin/env python3
"""places.py [COMMIT] [-v]: counts places of older forms in crates/*/src, by the points of docs/DESIGN-PASS.md: of the working tree, or of COMMIT.
-v prints each place. A place is found by its text; what it means is told by the page."""
import os, re, subprocess, sys
args = [a for a in sys.argv[1:] if a != '-v']
verbose = '-v' in sys.argv

def files():
    if args:
        names = subprocess.run(['git', 'ls-tree', '-r', '--name-only', args[0]], capture_output=True, text=True, check=True).stdout.split('\n')
        for n in sorted(names):
            if re.fullmatch(r'crates/\w+/src/.*\.rt', n):
                yield n, subprocess.run(['git', 'show', args[0] + ':' + n], capture_output=True, text=True, check=True).stdout
    else:
        for folder, folders, names in os.walk('crates'):
            folders[:] = sorted(f for f in folders if f not in ('out', 'target'))
            for n in sorted(names):
                if n.endswith('.rt') and '/src' in folder:
                    yield os.path.join(folder, n), open(os.path.join(folder, n), encoding='utf-8').read()

text = {n: re.sub(r'//[^\n]*', lambda m: ' ' * len(m.group(0)), s) for n, s in files()}
rows = {}

def found(row, name, at, what):
    rows.setdefault(row, []).append(f"{name}:{text[name].count(chr(10), 0, at) + 1}: {' '.join(what.split())[:110]}")

def block(s, at):
    """The text between the brace at `at` and its partner."""
    depth = 0
    for i in range(at, len(s)):
        depth += s[i] == '{'
        depth -= s[i] == '}'
        if depth == 0:
            return s[at + 1:i]
    return s[at + 1:]

def functions(s):
    """Name, start, head (signature and clauses) and body of each function."""
    for m in re.finditer(r'\bfn (\w+)', s):
        i, depth = m.end(), 0
        body = None
        # the body is the first brace that opens a line of its own, or ends the signature's line
        for b in re.finditer(r'\{', s[i:]):
            line = s[s.rfind('\n', 0, i + b.start()) + 1:i + b.start()]
            if re.search(r'\b(requires|ensures)\b', line):
                continue
            if s[i + b.start():i + b.start() + 2] in ('{\n', '{ ', '{}'):
                body = i + b.start()
                break
        if body is not None:
            yield m.group(1), m.start(), s[m.start():body], block(s, body)

for row in ('1a own enum with the shape of Option', '1b flag in a struct beside other fields', '1c kind as a number', '1d refusal or command as a number',
            '1e number that means none', '2 functions of one shape', '3 loop that counts by hand', '3 other while or loop', '4 comparison or conversion as a function',
            '5a three or more lent tables as parameters', '5b requires', '6a buffer and a place in it as parameters', '6b stack and its length', '7 match or if chain on which step to run'):
    rows[row] = []

shapes = {}
KEEP = set('if else while for in loop match return let mut as fn true false Some None Ok Err self'.split())
for name, s in text.items():
    for m in re.finditer(r'\benum (\w+)[^{]*\{', s):
        variants = [v for v in re.findall(r'^\s*(\w+)(\([^)]*\)|\s*\{[^}]*\})?,', block(s, m.end() - 1), re.M)]
        if len(variants) == 2 and sum(1 for v in variants if not v[1]) == 1:
            found('1a own enum with the shape of Option', name, m.start(), m.group(1))
    for m in re.finditer(r'\bstruct (\w+)[^{;]*\{', s):
        fields = re.findall(r'(\w+):\s*([^,]+),', block(s, m.end() - 1))
        if len(fields) > 1 and any(t.strip() == 'bool' for _, t in fields) and not all(t.strip() == 'bool' for _, t in fields):
            found('1b flag in a struct beside other fields', name, m.start(), m.group(1) + ': ' + ', '.join(f for f, t in fields if t.strip() == 'bool'))
    for m in re.finditer(r'[!=]= (SIGNAL|COMPUTED|EFFECT|SCOPE)\b|\b(kind|makes): u64|\b(kind|makes): (SIGNAL|COMPUTED|EFFECT|SCOPE)\b|\((SIGNAL|COMPUTED|EFFECT|SCOPE),', s):
        found('1c kind as a number', name, m.start(), m.group(0))
    for m in re.finditer(r'^\s*(return [1-9];|\d+ => .*|.*\bcode != 0\b.*|.*\bcode: u64\b.*|.*\bwhat == \d\b.*)$', s, re.M):
        found('1d refusal or command as a number', name, m.start(1), m.group(1))
    for m in re.finditer(r'\b(NONE: u64 = \d+|256,|255\b|from == 0|unwrap_or\(0\)|more == 0|one == 0)', s):
        found('1e number that means none', name, m.start(), m.group(0))
    for f, at, head, body in functions(s):
        words = re.findall(r"\w+|[^\w\s]", body)
        key = ' '.join(w if w in KEEP or not re.match(r'\w', w) else ('0' if w[0].isdigit() else 'x') for w in words)
        if len(words) >= 20:
            shapes.setdefault(key, []).append((name, at, f))
        for m in re.finditer(r"^\s*('\w+: )?(while .*|loop )\{", body, re.M):
            inner = block(body, m.end() - 1)
            by_hand = re.search(r'\b(\w+) [+-]= 1;|\b(\w+) = \2 [+-] 1\b|\bturns = left\(', inner) or re.search(r'[+-]= [25];', inner)
            found('3 loop that counts by hand' if by_hand else '3 other while or loop', name, at + len(head) + m.start(), f + ': ' + m.group(0).strip())
        one = body.strip()
        if re.fullmatch(r'(\w+(\.\w+)? as \w+|\w+(\.\w+)? [!=]= [\w.]+)', one) or re.fullmatch(r'same|is_zero|is_nonzero|minimum|maximum|saturating_\w+|narrow|why_number|natural|of_word|is_empty', f):
            found('4 comparison or conversion as a function', name, at, f)
        tables = [t for t in ('nodes', 'links', 'values', 'cells', 'log', 'node_values') if re.search(r'\b' + t + r': &', head)]
        if len(tables) >= 3:
            found('5a three or more lent tables as parameters', name, at, f + '(' + ', '.join(tables) + ')')
        for m in re.finditer(r'\brequires\b', head):
            found('5b requires', name, at + m.start(), f)
        if re.search(r'\b(out|words|buf): &mut \[\w+\]', head) and re.search(r'\b(at|from|sink|window|state): ', head):
            found('6a buffer and a place in it as parameters', name, at, f)
        if re.search(r'\b(s|stack): &(mut )?\[u64\]', head) and re.search(r'\blen: ', head):
            found('6b stack and its length', name, at, f)
for key, places in shapes.items():
    if len(places) > 1:
        for name, at, f in places:
            found('2 functions of one shape', name, at, f + ' (with ' + ', '.join(g for n, a, g in places if (n, a) != (name, at)) + ')')
for row in sorted(rows):
    print(f'{len(rows[row]):4}  {row}')
    if verbose:
        for p in rows[row]:
            print('        ' + p)
