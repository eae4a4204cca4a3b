#!/usr/bin/env python3
"""edits.py: every `old:` text of a must-fail edit stands exactly once in its file, as the pairs before it left that file, what stands in its
place is another text, and no line is passed over: a text is one line. Quick, before the edits are tried."""
import os
import re
import sys

bad = count = 0
for crate in sorted(os.listdir('crates')):
    folder = os.path.join('crates', crate, 'must-fail')
    for name in sorted(os.listdir(folder)) if os.path.isdir(folder) else []:
        count += 1
        file, old, files = None, None, {}
        for line in open(os.path.join(folder, name), encoding='utf-8').read().split('\n'):
            if line.startswith('file: '):
                file = os.path.join('crates', crate, line[6:].strip())
                if file not in files:
                    files[file] = open(file, encoding='utf-8').read() if os.path.isfile(file) else ''
            elif line.startswith('old: '):
                old = line[5:]
                found = files[file].count(old)
                if found != 1:
                    bad += 1
                    print('%s/%s: its old text stands %d times in %s' % (crate, name, found, file))
            elif line.startswith('new:') and old is not None:
                if line[5:] == old:
                    bad += 1
                    print('%s/%s: it changes nothing: %s' % (crate, name, old))
                files[file], old = files[file].replace(old, line[5:], 1), None
            elif line and not line.startswith('#'):
                bad += 1
                print('%s/%s: a line that is passed over: %s' % (crate, name, line))
print('%d must-fail edits, %d lines that do not do what they say' % (count, bad))
sys.exit(1 if bad else 0)
