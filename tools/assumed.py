#!/usr/bin/env python3
"""assumed.py LOG: what the proofs of the crates rest on beside themselves. LOG is what `rt ci` said, at the top of the repository.
Every crate is proved: there is its line of `logic=proved`, or `rt ci` says that it is kept from an earlier run. No crate declares an axiom or
a foreign function; `rt ci` refuses both, and this reads the sources for them too. No line of a crate names an axiom or a foreign function
that it reaches, but those of the crates named here, which reach the system: theirs are the C functions of the library below, and nothing
else. No other crate stands on one of these, or names what reaches the system."""
import os
import re
import sys

SYSTEM = ('stream', 'simmer', 'trace', 'probe', 'replay')
LIBRARIES = ('io', 'libc', 'os')
REACHES = re.compile(r'\b(?:std\s*::\s*(?:\{[^;]*\b)?(?:alloc|env|fs|io|net|os|process|rt|thread|time)|HostRuntime|Global|e?println?\s*!)(?!\w)')


def listed():
    lines = (l.split('#')[0].strip() for l in open('crates.txt', encoding='utf-8'))
    return {l.split(':')[0].split()[0]: l.split(':')[1].split() for l in lines if l}


def told(log):
    """Of each crate the lines that its proof ended with, or that it is kept."""
    lines, at, proved, kept = {}, None, set(), set()
    for line in open(log, encoding='utf-8', errors='replace'):
        line = line.rstrip('\n')
        if line.startswith('== '):
            at = line[3:]
        elif line.startswith(('logic=', 'axioms ')) and at:
            lines.setdefault(at, []).append(line)
        elif found := re.fullmatch(r'rt: (\w+) proved', line):
            proved.add(found[1])
        elif found := re.match(r'rt: (\w+) is kept: an earlier run on this machine proved the same files', line):
            kept.add(found[1])
    return lines, proved, kept


def sources(crate):
    for part in ('src', 'specs', 'proofs'):
        for folder, _, files in os.walk(os.path.join('crates', crate, part)):
            for f in files:
                if f.endswith(('.rt', '.antt')):
                    path = os.path.join(folder, f)
                    yield path, re.sub(r'(?m)(//|(?:^|\s)--).*$', '', open(path, encoding='utf-8').read())


def main():
    if len(sys.argv) != 2:
        sys.exit(__doc__)
    lines, proved, kept = told(sys.argv[1])
    bad, count, read = [], 0, 0
    for crate, below in listed().items():
        own = lines.get(crate, [])
        ends = [l for l in own if l.startswith('logic=')]
        if crate in proved and ends and ends[-1].startswith('logic=proved '):
            read += 1
            if crate in SYSTEM:
                bad += ['%s: %s' % (crate, l) for l in own if l.startswith('axioms ') and not re.match(r'axioms (libc|io|os|std): ', l)]
            elif re.search(r' (foreign|axioms)=', ends[-1]):
                bad.append('%s: %s' % (crate, ends[-1]))
        elif crate not in kept:
            bad.append('%s: rt ci says nothing of logic=proved' % crate)
        for path, text in sources(crate):
            if path.endswith('.antt') and re.search(r'(?m)^\s*(pub )?axiom ', text):
                bad.append('%s declares an axiom' % path)
            if path.endswith('.rt') and re.search(r'\bextern\s+("\w*"\s*)?\{', text):
                bad.append('%s declares foreign functions' % path)
            if path.endswith('.rt') and crate not in SYSTEM and (found := REACHES.search(text)):
                bad.append('%s names %s, and so may reach the system' % (path, found[0]))
        if crate not in SYSTEM:
            count += 1
            bad += ['%s stands on %s, and so may reach the system' % (crate, name) for name in (*LIBRARIES, *SYSTEM) if name in below]
    for line in bad:
        print(line)
    if bad or not count:
        sys.exit(1)
    print('%d crates proved, with no axiom and no foreign function; %s reach the system; %d of all the lines logic=proved read, the other crates kept'
          % (count, ' '.join(SYSTEM), read))


main()
