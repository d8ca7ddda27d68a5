#!/usr/bin/env python3
# Compares the grammar's table with a reader written by hand: what may come next behind each front of tokens, whether
# kinds fit, the trees, the ends of texts, and the levels that are told from the tokens.
# Words: the length up to which all lists of tokens are tried (4), and for how many seconds long random ones are (30).
import os, random, sys, time
here = os.path.dirname(os.path.abspath(__file__))
sys.path.insert(0, here)
import by_hand as old, by_table as new
from by_hand import FORMS, DIRS
G=new.Grammar(os.path.join(here, '../../crates/ath_grammar/specs/Grammar.antt'))
ALPHA=[(c,n) for c,n in [('Plain','x'),('Plain','y'),('Dotted','m.x'),('Logical','and'),('Infix','='),('Tilde','not'),('Back','<=='),('Wild','_'),('SomeOf','some-var'),('Variable','?x'),('SortVariable',"'s"),('SortVariable',"'t"),('Text','"s"')]]
ALPHA+=[(c,None) for c in ['Open','OpenBracket','OpenBrace']+sorted(FORMS)+sorted(DIRS)+sorted(new.MARKS-{'Other'})]
seen={}; count=[0,0,0]
FUN=type(lambda:0)
# what a state is but for its trees, so that none is tried twice
def key(v,d=0):
    if isinstance(v,FUN):
        return (v.__code__.co_firstlineno,v.__code__.co_name,tuple(key(c.cell_contents) for c in (v.__closure__ or ())))
    if isinstance(v,tuple):
        if v and isinstance(v[0],str) and v[0] in ('name_','var_','str_','list','ascribe','apply','call','lambda','method','let','letrec','match','check','try','seq','assume','absurd','pick_any','pick_witness','induct','cases','conclude') and len(v)>=2 and isinstance(v[1],int):
            return ('T',old.deduces(v))
        if v and isinstance(v[0],str) and v[0] in ('pany','pname','pstr','plist','plistof','papp','psome'): return 'P'
        if v and isinstance(v[0],str) and v[0] in ('con','var','name') and len(v) in (2,3): return 'S'
        return tuple(key(x) for x in v)
    if isinstance(v,int) and not isinstance(v,bool): return 0
    return v
def fail(front,t,a,b):
    print('DIFFERENT',[x[1] for x in front],t,a[:2],b[:2]); print(a[2:] if len(a)>2 else ''); print(b[2:] if len(b)>2 else ''); sys.exit(1)
def visit(c,d,front,budget,apart_budget,flagok):
    # c old, d new
    e1=old.at_end(c); e2=new.at_end(G,d)
    if (e1[0],e1[2:])!=(e2[0],e2[2:]) or (flagok and e1!=e2): fail(front,'END',e1,e2)
    count[0]+=1
    if budget==0: return
    p=len(front)+1
    for cl,n in ALPHA:
        t=(p,cl,n)
        a=old.step(c,t); b=new.step(G,d,t); count[1]+=1
        if a[0]!=b[0] or (flagok and len(a)>1 and a[1]!=b[1]): fail(front,t,a,b)
        if a[0]=='over':
            if a[2]!=b[2]: fail(front,t,a,b)
            continue
        if a[0]=='no': continue
        ok=flagok and a[1]
        nb=min(budget-1,apart_budget) if not ok and flagok else budget-1
        if nb<0: continue
        k=(key(a[2]),items_key(b[2]))
        h=seen.get(k,-1)
        if h>=nb: count[2]+=1; continue
        seen[k]=nb
        visit(a[2],b[2],front+(t,),nb,apart_budget,ok)
def items_key(d):
    out=[]; i=d[0]
    while i: out.append(i[0]); i=i[1]
    return tuple(out),new.kind(d[1])
CLOSE={'Close','CloseBracket','CloseBrace'}
# levels, by Levels.antt
def level(o): return 0 if o in('a_sort','a_variable') else 1
def closed(os):
    while os:
        o=os[0]
        if o=='a_sort': return os[1:]
        if isinstance(o,tuple):
            if o[1]==0: os=os[1:]; continue
            return (('awaits',o[1]-1),)+os[1:]
        return os
    return os
BR={'Open','OpenBracket','OpenBrace'}
def opened(c,os):
    if c=='Open': return (('bracket' if os and os[0]=='branches' else 'fresh'),)+os
    if c in BR: return ('bracket',)+os
    b={'Check':('awaits',0),'Try':('awaits',0),'PickAny':'names','PickWitness':('awaits',2)}.get(c,('awaits',1))
    return (b,)+os
def plainly(c,os):
    if c in BR or c in old.FORMS: return opened(c,os)
    if c in CLOSE: return closed(os[1:])
    if c=='Becomes': return (('awaits',1),)+os[1:] if os and os[0]==('awaits',0) else os
    if c in new.MARKS or c in new.DIRW: return os
    if c=='Variable': return ('a_variable',)+os
    if c=='SomeOf': return os
    return closed(os)
def take(os,c):
    if os:
        h=os[0]
        if h=='fresh':
            if c in old.FORMS: return (('branches' if c=='Check' else 'bracket'),)+os[1:]
            return plainly(c,('bracket',)+os[1:])
        if h=='a_variable':
            if c=='Colon': return os[1:]
            return plainly(c,closed(os[1:]))
        if h=='names':
            if c=='Plain': return os
            if c=='Colon': return ('a_sort',)+os
            return plainly(c,(('awaits',0),)+os[1:])
    return plainly(c,os)
def depth(os): return sum(level(o) for o in os)
def run(seconds,seed):
    rnd=random.Random(seed); n=0; dirs=0; steps=0; e=time.time()+seconds
    while time.time()<e:
        c,d=old.START,new.START; front=(); os=()
        L=rnd.choice([8,15,30,60,120])
        while True:
            t=None
            p=len(front)+1
            opts=[]; extra=None
            for cl,nm in ALPHA:
                t=(p,cl,nm)
                a=old.step(c,t); b=new.step(G,d,t); steps+=1
                if a[0]!=b[0] or (len(a)>1 and a[1]!=b[1]): fail(front,t,a,b)
                if a[0]=='over':
                    if a[2]!=b[2]: fail(front,t,a,b)
                    extra='over'
                elif a[0]=='on' and a[1]: opts.append((t,a[2],b[2]))
            x,y=old.at_end(c),new.at_end(G,d)
            if x!=y: fail(front,'END',x,y)
            if extra=='over' and (rnd.random()<0.3 or len(front)>L): dirs+=1; break
            if not opts: dirs+=1; break
            if len(front)>3*L: break
            if len(front)>L:
                pr=[o for o in opts if o[0][1] in CLOSE or o[0][1] in ('Plain','Arrow','Becomes')]
                if pr and rnd.random()<0.9: opts=pr
            t,c,d=rnd.choice(opts); front+=(t,)
            os=take(os,t[1])
            if depth(os)!=old.level(c): print('LEVEL',[q[1] for q in front],os,old.level(c)); sys.exit(1)
        n+=1
    print('texts',n,'directives',dirs,'steps',steps)

sys.setrecursionlimit(10000)
longest=int(sys.argv[1]) if len(sys.argv)>1 else 4
seconds=int(sys.argv[2]) if len(sys.argv)>2 else 30
begin=time.time()
for n in range(1,longest+1):
    seen.clear()
    visit(old.START,new.START,(),n,min(2,n),True)
    print('length',n,'fronts',count[0],'steps',count[1],'seconds',round(time.time()-begin,1),flush=True)
run(seconds,int(begin))
