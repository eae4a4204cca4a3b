#!/usr/bin/env python3
# fill-lets.py NAME FILE: as fill-paths.py, but each ‹thing› of an answer becomes a let at the answer's head, bound to its path from c
import sys,re,os
name,f=sys.argv[1:3]
src=open(os.path.join(os.path.dirname(os.path.abspath(__file__)),'fill-paths.py')).read()
pre=src[:src.index("d=os.path.dirname(f)")]
exec(pre)
d=os.path.dirname(f);rel=d[d.index('/proofs/')+8:]
base=gen+'/Rattle·%s·proofs/proofs/'%name+rel
cache={}
s=open(f).read()
blocks=re.split(r'(\n\n)',s)
ren={'open':'opened','reset':'cleared','retire':'retired-by','loop':'turn','args':'a'}
out=[]
for b in blocks:
    if '‹' not in b: out.append(b); continue
    m=re.search(r'(?:tie|lts|([\w-]+)-lts)\.(Need-[\w-]*)',b)
    p=base+('/Lts-%s.antt'%m.group(1).replace('-','_') if m.group(1) else '/Lts.antt')
    if p not in cache: cache[p]=load(p)
    rec,need=cache[p]
    start=need[m.group(2)]
    things=[]
    for x in re.findall(r'‹([\w-]+)›',b):
        if x not in things: things.append(x)
    ps=sorted([(path(rec,start,x),x) for x in things],key=lambda z:z[0].count('.before'))
    nm=lambda x: ren.get(x,x)
    lets=''.join('    let %s = %s in\n'%(nm(x),q) for q,x in ps)
    b=re.sub(r'‹([\w-]+)›',lambda m:nm(m.group(1)),b)
    # head of the answer: last line that begins 'NAME (t )?c' .. '='
    mm=re.search(r'^([\w+-]+ (?:t )?c(?: κs)? =)(\s*)',b,re.M)
    body=b[mm.end():]
    b=b[:mm.start()]+mm.group(1)+'\n'+lets+'    '+body
    out.append(b)
open(f,'w').write(''.join(out))
