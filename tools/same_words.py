#!/usr/bin/env python3
"""Whether a repository says in today's spelling what it said in the older one, by words.

usage: python3 tools/same_words.py OLD NEW     OLD a checkout before the port, NEW one after it

It parses each declaration of specs/, each requires and ensures of src/ and each statement of proofs/ (files of lemmas, not the proofs of functions) in the
older spelling and in today's, compares them as trees, and prints what differs, what is missing, and the pairs of names that are no mere respelling. What a name
means it can't tell, nor does it look at code, types of parameters, imports or bodies of proofs. Exits with 1 where a statement of specs/ or src/ differs.
"""
import os,re,sys
if len(sys.argv)!=3: sys.exit(__doc__)
OLD,NEW=sys.argv[1:3]
def strip(t,mark):
    out=[]
    for l in t.split('\n'):
        s=l.lstrip()
        if s.startswith(mark): continue
        k=l.find(' '+mark+' ')
        out.append(l if k<0 else l[:k])
    return '\n'.join(out)
def toks(s):
    # tight projection: '.name' right after an atom or ')' ; loose: ' .name'
    out=[];i=0;n=len(s)
    while i<n:
        ch=s[i]
        if ch.isspace(): i+=1; continue
        if ch in '(){}[],;': 
            out.append(('p',ch)); i+=1; continue
        if ch=='.':
            m=re.match(r'\.([^\s(){}\[\],;.]+)',s[i:])
            prev=s[i-1] if i else ' '
            if m:
                out.append(('t' if not prev.isspace() else 'l',m.group(1))); i+=len(m.group(0)); continue
            out.append(('p','.')); i+=1; continue
        m=re.match(r'[^\s(){}\[\],;.]+',s[i:])
        w=m.group(0); i+=len(w)
        out.append(('w',w))
    return out
OPS=set('≡ × → ⊎ + - * / % ^ ≤ < ≢ && || ∷ ++ -ℤ +ℤ *ℤ ≤ℤ <ℤ ↔ = : | ↦ ∈ ¬ ∙ ⊞ ⊟ ⊠ then in λ let as where . , ;'.split())
def parse(ts,new):
    pos=0
    def group(close):
        nonlocal pos
        items=[];seq=[]
        def flush():
            nonlocal seq
            if seq: items.append(('app',seq) if len(seq)>1 else seq[0])
            seq=[]
        while pos<len(ts):
            k,w=ts[pos]
            if k=='p' and w in ')}]':
                pos+=1; break
            pos+=1
            if k=='p' and w in '({[':
                g=group(w)
                seq.append(g if w=='(' else ('brace'+w,g))
            elif k=='l' and not new:
                e=('app',seq) if len(seq)>1 else (seq[0] if seq else 'NONE')
                seq=[('proj',e,w)]
            elif k in 'tl':
                if not seq: seq.append('NONE')
                seq[-1]=('proj',seq[-1],w)
            elif k=='p' or w in OPS:
                flush(); items.append(('op',w))
            else: seq.append(w)
        flush()
        return items[0] if len(items)==1 else ('grp',items)
    res=[]
    while pos<len(ts):
        res.append(group(None))
    return res[0] if len(res)==1 else ('grp',res)
def canon(e,new,ren):
    if isinstance(e,str):
        e=e.replace('◌','_') if not new else e.replace('◌','_')
        e=e.replace('′',"'")
        return ren.get(e,e)
    if e[0]=='op': return e
    if e[0]=='app':
        l=[canon(x,new,ren) for x in e[1]]
        if not new and l[0]=='now' and len(l)==2:
            x=l[1]
            if isinstance(x,tuple) and x[0]=='proj' and x[2]=='entry': return ('proj',x[1],'now')
            if isinstance(x,tuple) and x[0]=='proj' and x[2]=='exit': return ('proj',x[1],'new')
            return ('proj',x,'now')
        return ('app',l)
    if e[0]=='proj':
        x=canon(e[1],new,ren); f=e[2]
        if new and f=='old': f='now'
        if not new and f=='entry': return x   # a value parameter as passed
        return ('proj',x,f)
    if e[0]=='grp': return ('grp',[canon(x,new,ren) for x in e[1]])
    return (e[0],canon(e[1],new,ren))
pairs={}
def same(a,b,path):
    if isinstance(a,str) and isinstance(b,str):
        pairs.setdefault(a,{}).setdefault(b,[]).append(path); return True
    if type(a)!=type(b): return False
    if a[0]!=b[0]: return False
    if a[0]=='op': return a[1]==b[1]
    if a[0]=='proj':
        pairs.setdefault('.'+a[2],{}).setdefault('.'+b[2],[]).append(path)
        return same(a[1],b[1],path)
    if a[0] in('app','grp'):
        return len(a[1])==len(b[1]) and all([same(x,y,path) for x,y in zip(a[1],b[1])])
    return same(a[1],b[1],path)
def show(e):
    if isinstance(e,str): return e
    if e[0]=='op': return e[1]
    if e[0]=='proj': return show(e[1])+'.'+e[2]
    if e[0]=='app': return '('+' '.join(show(x) for x in e[1])+')'
    if e[0]=='grp': return '{'+' '.join(show(x) for x in e[1])+'}'
    return e[0]+show(e[1])
bad=0;n=0
def decls(t):
    t=strip(t,'--')
    out=[];cur=[]
    for l in t.split('\n'):
        if not l.strip(): continue
        if l.startswith(('use ','pub use ','pub mod ','mod ')) : continue
        if not l[0].isspace():
            # signature starts or equation
            cur.append(l)
        else:
            if cur: cur[-1]+='\n'+l
            else: cur.append(l)
    return cur
def compare(a,b,path,ren={}):
    global bad,n
    n+=1
    x=canon(parse(toks(a),False),False,ren); y=canon(parse(toks(b),True),True,{})
    if not same(x,y,path):
        bad+=1
        print('DIFF',path,'\n  -',show(x)[:900],'\n  +',show(y)[:900])
def clauses(t):
    t=strip(t,'//')
    res=[]
    for m in re.finditer(r'(?m)^\s*(?:pub )?(?:extern "C" )?fn (\w+)',t):
        name=m.group(1); i=m.end()
        # up to the body: find '\n{' or ' {' at depth 0 after the signature
        nxt=re.search(r'(?m)^\s*\{\s*$|\) (?:-> [^{\n]*)?\{\s*$',t[i:])
        seg=t[i:i+nxt.start()] if nxt else t[i:i+2000]
        cl=[]
        for c in re.finditer(r'\b(requires|ensures)\*?\s*(\w+\s*)?\{',seg):
            j=c.end();d=1
            while d and j<len(seg):
                if seg[j]=='{': d+=1
                if seg[j]=='}': d-=1
                j+=1
            cl.append((c.group(1),(c.group(2) or '').strip(),seg[c.end():j-1].strip()))
        res.append((name,cl))
    return res

LEMMAS = re.compile(r"^(\s*)(?:(?:pub|abbrev|unfoldable) )*([^\s:(){}\[\],;.\"=]+) : (.*)$")
# a file of lemmas that has another name today
MOVED = {'crates/string_slice/proofs/Contours.antt': 'crates/string_slice/proofs/SliceContours.antt'}


def plain(s):
    return re.sub(r"[-_.◌«»]", '', s.replace('′', "'").replace('″', "''")).lower()


def statements(path):
    """The statements of a file of lemmas, those inside modules and where too: name and type."""
    lines = strip(open(path, encoding='utf-8').read(), '--').split('\n')
    out, i = [], 0
    while i < len(lines):
        m = LEMMAS.match(lines[i])
        i += 1
        if not m or lines[i - 1].lstrip().startswith(('use ', 'module', 'let ')):
            continue
        deep, text = len(m.group(1)), m.group(3)
        while i < len(lines) and lines[i].strip() and len(lines[i]) - len(lines[i].lstrip()) > deep and not lines[i].lstrip().startswith('unfolding '):
            text += '\n' + lines[i]
            i += 1
        out.append((m.group(2), text))
    return out


def key(name):
    word = re.sub(r"[-_]", '', re.sub(r"_lem$", '', name.replace('′', "'").replace('″', "''").replace('◌', '')))
    return word[:1] + word[1:].lower()


def compare_lemmas(rel, old, new):
    """How many statements of the old file there are; prints those that the new one lacks or says otherwise."""
    today = {}
    for name, text in statements(new):
        today.setdefault(key(name), []).append(text)
    for name, text in statements(old):
        for k, other in enumerate(today.get(key(name), [])):
            before = len(pairs)
            seen = dict(pairs)
            pairs.clear()
            a, b = canon(parse(toks(text), False), False, {}), canon(parse(toks(other), True), True, {})
            alike = same(a, b, rel) and all(plain(x) == plain(y) or (x, y) in KNOWN or y.endswith('_lem') for x, ys in pairs.items() for y in ys)
            pairs.clear()
            pairs.update(seen)
            if alike:
                today[key(name)].pop(k)
                break
        else:
            print('LEMMA', rel, name, 'is missing' if not today.get(key(name)) else 'differs')
    return len(statements(old))


# names of the library then and now
KNOWN = {('getD', 'get_or'), ('Bool·beq', 'beq'), ('isEq', 'compare_is_eq'), ('Option·map', 'Option.map'), ('.fits', '.ranges')}


def compare_tree():
    global bad
    lemmas = 0
    for top, ds, fs in os.walk(os.path.join(OLD, 'crates')):
        ds[:] = [x for x in ds if x not in ('out', 'target')]
        for f in sorted(fs):
            p = os.path.join(top, f)
            rel = os.path.relpath(p, OLD)
            q = os.path.join(NEW, MOVED.get(rel, rel))
            is_spec, is_code = '/specs/' in rel and f.endswith('.antt'), '/src/' in rel and f.endswith('.rt')
            is_lemmas = '/proofs/' in rel and f.endswith('.antt') and f not in ('Proof.antt', 'Lib.antt')
            if not (is_spec or is_code or is_lemmas):
                continue
            if not os.path.exists(q):
                print('MISSING', rel)
                bad += 1
                continue
            if is_lemmas:
                lemmas += compare_lemmas(rel, p, q)
                continue
            if is_spec:
                before, after = decls(open(p).read()), decls(open(q).read())
                if len(before) != len(after):
                    print('COUNT', rel, len(before), len(after))
                    bad += 1
                    continue
                for a, b in zip(before, after):
                    compare(a, b, rel)
                continue
            after = dict(clauses(open(q).read()))
            for name, old in clauses(open(p).read()):
                new = after.get(name)
                if new is None or [c[0] for c in old] != [c[0] for c in new]:
                    print('CLAUSES', rel, name, [c[0] for c in old], None if new is None else [c[0] for c in new])
                    bad += 1
                    continue
                for x, y in zip(old, new):
                    text, ren = x[2].strip(), {}
                    m = re.match(r'λ (\w+)\. ', text)
                    if m and x[0] == 'ensures':
                        ren, text = {m.group(1): 'result'}, text[m.end():].strip()
                    text = re.sub(r'^⌜(.*)⌝$', r'\1', text.strip(), flags=re.S)
                    compare(text, y[2], rel + ':' + name + ':' + x[0], ren)
    print('compared', n, 'declarations and clauses,', bad, 'differ;', lemmas, 'statements of lemmas')
    print('names that are no mere respelling:', sorted({(a, b) for a, bs in pairs.items() for b in bs if plain(a) != plain(b)}))


compare_tree()
sys.exit(1 if bad else 0)
