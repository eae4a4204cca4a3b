#!/usr/bin/env python3
"""page.py OUT: puts the tables that ./bench printed to the file OUT into docs/PERFORMANCE.md, each in the place of the first table under its
heading."""
import os
import sys

PAGE = os.path.join(os.path.dirname(os.path.abspath(__file__)), '..', 'docs', 'PERFORMANCE.md')


def lines_of(path):
    with open(path, encoding='utf-8') as file:
        return file.read().split('\n')


def table_under(heading, lines):
    """Where the first table under a heading begins and ends."""
    begin = lines.index(heading) + 1
    while begin < len(lines) and not lines[begin].startswith(('|', '#')):
        begin += 1
    end = begin
    while end < len(lines) and lines[end].startswith('|'):
        end += 1
    if begin == end:
        sys.exit('page: no table under ' + heading)
    return begin, end


if len(sys.argv) != 2:
    sys.exit('usage: page.py OUT')
printed, page = lines_of(sys.argv[1]), lines_of(PAGE)
headings = [line for line in printed if line.startswith('## ')]
if not headings:
    sys.exit('page: no tables in ' + sys.argv[1])
for heading in headings:
    if heading not in page:
        sys.exit('page: the page has no heading ' + heading)
    begin, end = table_under(heading, printed)
    to, past = table_under(heading, page)
    page[to:past] = printed[begin:end]
with open(PAGE, 'w', encoding='utf-8') as file:
    file.write('\n'.join(page))
